# Counts the instructions of compiling a pattern, by valgrind's callgrind. Run from the repository's root after `python3 tools/build.py rule`.
# The program compiles one text. What it costs on a text that is refused for its length alone, the program's start and end, is taken off.
import sys

import counted

# (what it is, its text, the number of symbols)
PATTERNS = [
    ("the empty text", b"", 39),
    ("a word", b"lesson", 39),
    ("words parted by dashes", b"(a|b|c)(a|b|c)*(-(a|b|c)(a|b|c)*)*", 39),
    ("a path of three parts, the last one optional", b"course/(1|2|3)(0|1|2|3)*(/hd|/sd|)", 39),
    ("31 groups", b"(" * 31 + b"0" + b")" * 31, 64),
    ("63 letters side by side", b"0" * 63, 64),
    ("64 empty branches", b"|" * 63, 64),
    ("32 states over 64 symbols", b"0" * 30, 64),
    ("32 letters in every state", b"0*" * 31 + b"0", 64),
]


def main():
    program = counted.program("rule")
    rest = counted.instructions(program, b"\0" + b"*" * 64)
    print("| pattern | bytes | symbols | instructions |")
    print("|---|---|---|---|")
    for what, text, k in PATTERNS:
        print(f"| {what} | {len(text)} | {k} | {counted.instructions(program, bytes([k]) + text) - rest:,} |", flush=True)


if __name__ == "__main__":
    sys.exit(main())
