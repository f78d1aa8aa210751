# Counts the instructions of one narrowing step of each kind, on full and on typical domains, by valgrind's callgrind: repeatable on one machine.
# Run from the repository's root after `python3 tools/build.py measure`. The program makes the rows of its table tidy, and then runs a step in place n times on
# what the last step left; on these domains every step leaves a choice, so that it runs all n. The difference between two counts, less that of a step that does
# nothing, is the cost of the steps alone.
import sys

import counted

KINDS = [(0, "Trim"), (1, "Eq"), (2, "Neq"), (3, "Rev"), (4, "Cat"), (5, "Sub"), (6, "Len"), (7, "Regular")]
NOTHING = 255
TIMES = 100


def steps(program, kind, domains):
    """The instructions of TIMES steps, the program's start and end, and rows made tidy before the first step, left out."""
    many, none = [counted.instructions(program, bytes([kind, domains, times])) for times in (TIMES, 0)]
    return many - none


def main():
    program = counted.program("measure")
    print("| step | full domains | typical domains |")
    print("|---|---|---|")
    rest = [steps(program, NOTHING, domains) for domains in (0, 1)]
    for kind, name in KINDS:
        full, typical = [(steps(program, kind, domains) - rest[domains]) // TIMES for domains in (0, 1)]
        print(f"| {name} | {full:,} | {typical:,} |")


sys.exit(main())
