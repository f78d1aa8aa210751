# Sums up the memory that the archive takes beside the stack, by `size`: code and constants, which are only read, and what is written; then each section of
# constants. Run from the repository's root after `python3 tools/build.py cobleskeg_c`, or with another archive as argument.
import re
import subprocess
import sys

from counted import archive

SORTS = {"code": (".text",), "constants": (".rodata", ".data.rel.ro"), "written": (".data", ".bss")}


def sort_of(section):
    """What the section holds, or nothing where no program loads it. The longest beginning counts."""
    fitting = [(start, name) for name, starts in SORTS.items() for start in starts if section.startswith(start)]
    return max(fitting, key=lambda pair: len(pair[0]), default=(None, None))[1]


def main():
    path = sys.argv[1] if len(sys.argv) > 1 else archive()
    printed = subprocess.run(["size", "-A", path], capture_output=True, text=True, check=True).stdout
    sections = [(name, int(size)) for name, size in re.findall(r"^(\.\S+) +(\d+) ", printed, re.M)]
    print("| " + " | ".join(SORTS) + " |\n" + "|---" * len(SORTS) + "|")
    print("| " + " | ".join(f"{sum(size for name, size in sections if sort_of(name) == what):,}" for what in SORTS) + " |")
    print("\n| constants | bytes |\n|---|---|")
    for name, size in sections:
        if sort_of(name) == "constants":
            print(f"| {name} | {size:,} |")


sys.exit(main())
