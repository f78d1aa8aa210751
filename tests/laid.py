# The standard input and output of a program of the gate, as a list of a test lays them out.
import sys
from pathlib import Path

CRATES = Path(__file__).resolve().parent.parent / "crates"


def stands(crate, listing):
    """Whether the crate's two files are this input and output; with `--write` they are made so."""
    pairs = list(zip((CRATES / crate / "stdin", CRATES / crate / "stdout"), listing))
    if "--write" in sys.argv:
        for path, content in pairs:
            path.write_bytes(content)
    wrong = [path.name for path, content in pairs if not path.is_file() or path.read_bytes() != content]
    for name in wrong:
        print(f"{crate}: crates/{crate}/{name} is not what tests/{crate}.py lists")
    return not wrong
