# Whether a node costs more the deeper it lies: the instructions a node along the path of `16 strings of 63 symbols`, which goes down a thousand levels with
# hardly a turn, a hundred nodes after the other. Run from the repository's root after `python3 tools/build.py nodes`.
#     python3 bench/windows.py [PROGRAM]      measures target/bin/nodes, or another program of the crate `nodes`
# A window is the difference between the counts of two searches whose budgets end before and after it.
import sys

import counted
from problems import deepest
from search import instructions

WIDTH = 100
END = 1000


def main():
    program, content = counted.program("nodes"), deepest().file()
    counts = [instructions(program, content, 0, budget) for budget in range(0, END + 1, WIDTH)]
    nodes = [(after - before) / WIDTH for before, after in zip(counts, counts[1:])]
    print("| nodes | instructions a node | of the first hundred |")
    print("|---|---|---|")
    for i, node in enumerate(nodes):
        print(f"| {i * WIDTH + 1:,} to {(i + 1) * WIDTH:,} | {node:,.0f} | {node / nodes[0]:.2f} |")


if __name__ == "__main__":
    sys.exit(main())
