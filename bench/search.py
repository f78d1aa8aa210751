# What a node of the search costs, on the problems of bench/problems.py. Run from the repository's root after `python3 tools/build.py nodes`.
#     python3 bench/search.py [PROGRAM]      measures target/bin/nodes, or another program of the crate `nodes`
# Instructions are counted by valgrind's callgrind. A search with budget 0 reads the file, makes the room ready and clears it: the difference between a search
# and one with budget 0 is the cost of its nodes, and that between two searches with budget 0 and one is the cost of reading; the program's start and end
# drop out of both. Where the search spends its budget, only its first nodes are counted. Times are the processor's for the program, which computes alone and
# waits for nothing: the least of several runs of the whole search. They are of one machine, and no test depends on them.
import resource
import subprocess
import sys

import counted
from problems import PROBLEMS

BUDGET = 65536
FEW = 600  # the nodes that are counted of a search that spends its budget: valgrind would take most of an hour over all of them
RUNS = 5
SECONDS = 0.5  # about how long one timed run takes


def case(content, times, budget):
    """What the program reads: the file is searched so many times, and once more for the line it prints."""
    return len(content).to_bytes(2, "little") + times.to_bytes(4, "little") + budget.to_bytes(4, "little") + content


def answer(program, content, budget):
    """How the search ends, and the count of nodes."""
    done = subprocess.run([str(program)], input=case(content, 0, budget), capture_output=True, check=True)
    outcome, count = done.stdout.decode().split()
    return outcome, int(count)


def instructions(program, content, times, budget):
    """The instructions of the program for so many searches and one more."""
    return counted.instructions(program, case(content, times, budget))


def clock(program, content, times, budget):
    """The processor's time for so many searches and one more."""
    before = resource.getrusage(resource.RUSAGE_CHILDREN)
    subprocess.run([str(program)], input=case(content, times, budget), capture_output=True, check=True)
    after = resource.getrusage(resource.RUSAGE_CHILDREN)
    return after.ru_utime + after.ru_stime - before.ru_utime - before.ru_stime


def seconds(program, content, budget):
    """The time of one search: that of many, less the program's start and end; of a long search these are no part worth taking off."""
    once = clock(program, content, 0, budget)
    if once > SECONDS:
        return min(once, *(clock(program, content, 0, budget) for _ in range(RUNS - 1)))
    times = max(4, round(SECONDS / once))
    least = [min(clock(program, content, n, budget) for _ in range(RUNS)) for n in (0, times)]
    return (least[1] - least[0]) / times


def line(program, what, content):
    """The line of one problem in the table."""
    outcome, nodes = answer(program, content, BUDGET)
    few = FEW if outcome == "spent" else nodes
    rest = instructions(program, content, 0, 0)
    reading = instructions(program, content, 1, 0) - rest
    node = (instructions(program, content, 0, few) - rest) / few
    second = nodes / seconds(program, content, BUDGET)
    share = 100 * reading / (reading + node * nodes)
    return f"| {what} | {outcome} | {nodes:,} | {node:,.0f} | {second:,.0f} | {1e6 / second:,.1f} | {share:.2f} % |"


def main():
    program = counted.program("nodes")
    print("| problem | outcome | nodes | instructions a node | nodes a second | microseconds a node | reading, of the whole |")
    print("|---|---|---|---|---|---|---|")
    for _, what, problem in PROBLEMS:
        print(line(program, what, problem.file()), flush=True)


if __name__ == "__main__":
    sys.exit(main())
