# Searches that the gate runs by the crate `nodes`: each a problem of bench/problems.py, how often it is searched before the search that is printed, a budget,
# and how that search ends. `python3 tests/nodes.py --write` lays the list out as the crate's standard input and output; without `--write` it checks that both
# are this list. What is found or not, and the counts of pigeons and of P14, stand here by hand; the other counts were matched against a second solver.
import sys
from pathlib import Path

from laid import stands

sys.path.insert(0, str(Path(__file__).resolve().parent.parent / "bench"))
from problems import checked, clash, codes, no_clash, p14, pigeons
from search import BUDGET, case


CASES = [
    (p14(), 0, BUDGET, "found 2"),
    (p14(), 3, 2, "found 2"),
    (p14(), 3, 1, "spent 1"),
    (p14(), 1, 0, "spent 0"),
    (clash(), 1, BUDGET, "found 12"),
    (no_clash(), 1, BUDGET, "none 7"),
    (checked(), 0, 200, "spent 200"),
    (pigeons(5, 4), 1, 1 + 4 + 12 + 24, "none 41"),
    (pigeons(5, 4), 1, 40, "spent 40"),
    (codes(9), 0, BUDGET, "none 39"),
]


def listing():
    """The program's standard input, and what it must print; a file of no byte is refused at the end."""
    given = b"".join(case(problem.file(), times, budget) for problem, times, budget, _ in CASES)
    return given + case(b"", 0, BUDGET), "".join(line + "\n" for *_, line in CASES).encode() + b"refused 1\n"


def main():
    if not stands("nodes", listing()):
        return 1
    print(f"nodes: {len(CASES) + 1} searches stand in crates/nodes")
    return 0


sys.exit(main())
