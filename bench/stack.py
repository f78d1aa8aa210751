# Measures how deep the stack goes below a call, through the archive that programs link: of each entry that narrows on the problems of bench/problems.py, and of
# Compile on the texts of bench/patterns.py.
# Run from the repository's root after `python3 tools/build.py cobleskeg_c`; needs a C compiler for x86-64. bench/stack.c makes the calls.
import subprocess
import sys

from counted import ROOT, archive
from patterns import PATTERNS
from problems import PROBLEMS, rules

PROGRAM = ROOT / "target" / "stack"
CALLS = [("search", 1), ("search", 1000), ("settle", 0), ("by_index", 0), ("step", 0), ("perform", 0)]  # the entry, and the budget of a search
HIGHEST = 64  # symbols


def used(content, entry, number):
    """The bytes below the caller."""
    return int(subprocess.run([PROGRAM, entry, str(number)], input=content, capture_output=True, check=True).stdout)


def main():
    options = ["-std=gnu11", "-O2", "-Wall", "-Wextra", "-Werror", f"-I{ROOT / 'include'}", "-pthread"]
    subprocess.run(["cc", *options, ROOT / "bench" / "stack.c", archive(), "-o", PROGRAM], check=True)
    print("| problem | Search, one node | Search, up to 1,000 | Settle | Settle by index | each Step | Perform |")
    print("|---|---|---|---|---|---|---|")
    for what, problem in [(what, problem) for _, what, problem in PROBLEMS] + [("64 rules of 32 states on 16 strings", rules())]:
        content = problem.file()
        print(f"| {what} | {' | '.join(f'{used(content, *call):,}' for call in CALLS)} |", flush=True)
    print("\n| pattern | Compile |")
    print("|---|---|")
    for what, text, _ in PATTERNS:
        print(f"| {what} | {used(text, 'compile', HIGHEST):,} |", flush=True)


sys.exit(main())
