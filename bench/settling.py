# What Settle and Settle by index cost, side by side, on the problems of bench/problems.py and on its larger template sets. Run from the repository's root after
# `python3 tools/build.py settlings`.
#     python3 bench/settling.py [PROGRAM]      measures target/bin/settlings, or another program of the crate `settlings`
# Instructions are counted by valgrind's callgrind. The difference between a case that is run once more and one that is not is the cost of that run, without the
# program's start and end. A run of a settle unpacks the file's table first, and what that takes alone is taken off; what is left is the call, with its own
# reading of the file, and in Settle by index with holding the lent index against the file.
import subprocess
import sys

import counted
from problems import PROBLEMS, SETS

# The program's operations.
SETTLE, BY_INDEX, UNPACK, INDEX = range(4)


def case(content, operation, times):
    """What the program reads: the operation is run so many times on the file, and once more for the line it prints."""
    return len(content).to_bytes(2, "little") + operation.to_bytes(2, "little") + times.to_bytes(4, "little") + content


def answer(program, content, operation):
    """The rounds or steps, and whether every variable has a value."""
    done = subprocess.run([str(program)], input=case(content, operation, 0), capture_output=True, check=True)
    _, count, every_value = done.stdout.decode().split()
    return int(count), every_value


def instructions(program, content, operation):
    """The instructions of one run."""
    once, twice = [counted.instructions(program, case(content, operation, times)) for times in (0, 1)]
    return twice - once


def line(program, what, problem):
    """The line of one problem in the table."""
    content = problem.file()
    (rounds, by_rounds), (steps, by_index) = [answer(program, content, operation) for operation in (SETTLE, BY_INDEX)]
    assert by_rounds == by_index
    constraints, strings = len(problem.records), len(problem.rows)
    settle, indexed, unpack, index = [instructions(program, content, operation) for operation in (SETTLE, BY_INDEX, UNPACK, INDEX)]
    settle, indexed = settle - unpack, indexed - unpack
    counts = f"{constraints} | {rounds} | {rounds * (constraints + strings)} | {steps}"
    return f"| {what} | {counts} | {settle:,} | {indexed:,} | {indexed / settle:.2f} | {index:,} |"


def main():
    program = counted.program("settlings")
    print("| problem | constraints | rounds | steps of the rounds | steps by index | Settle | Settle by index | of Settle | Index |")
    print("|---|---|---|---|---|---|---|---|---|")
    for _, what, problem in PROBLEMS + SETS:
        print(line(program, what, problem), flush=True)


if __name__ == "__main__":
    sys.exit(main())
