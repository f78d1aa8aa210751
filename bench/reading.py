# Counts the instructions of reading the largest file, 25,024 bytes, by valgrind's callgrind. Run from the repository's root after `python3 tools/build.py
# edges`. The program reads each file that it is given twice, by Read and by Unpack, which here refuses a lent table of no words only after the last byte. The
# difference between two files and one is the cost of one such pair, without the program's start and end.
import sys

import counted

sys.path.insert(0, str(counted.ROOT / "tests"))
from edges import case, largest


def main():
    program, content = counted.program("edges"), largest()
    one = case(content, 0)
    reading = (counted.instructions(program, one * 2) - counted.instructions(program, one)) / 2
    print(f"{len(content):,} bytes: {reading:,.0f} instructions, {reading / len(content):.1f} a byte")


sys.exit(main())
