# Settlings that the gate runs by the crate `settlings`: each a problem of bench/problems.py, the operation, how often it is run before the run that is printed,
# and what that run answers. `python3 tests/settlings.py --write` lays the list out as the crate's standard input and output; without `--write` it checks that
# both are this list. The counts of P14, of two different texts, of pigeons, of codes and of no variable stand here by hand; those of the templates were matched
# against the second solver.
import sys
from pathlib import Path

from laid import stands

sys.path.insert(0, str(Path(__file__).resolve().parent.parent / "bench"))
from problems import Problem, clash, codes, newest_first, no_clash, p14, parts_first, pigeons
from settling import BY_INDEX, INDEX, SETTLE, UNPACK, case


def different():
    """Two texts that are to be the same and are not."""
    p = Problem("01")
    p.eq(p.text("0"), p.text("1"))
    return p


CASES = [
    (p14(), SETTLE, 0, "rounds 2 1"),
    # Len strikes when Cat has been run: it is run once more
    (p14(), BY_INDEX, 0, "steps 6 1"),
    (p14(), SETTLE, 3, "rounds 2 1"),
    (p14(), BY_INDEX, 3, "steps 6 1"),
    (p14(), UNPACK, 1, "done"),
    (p14(), INDEX, 1, "done"),
    (Problem("0"), SETTLE, 1, "rounds 1 1"),
    (Problem("0"), BY_INDEX, 1, "steps 0 1"),
    # Eq takes both strings while their trimmings wait
    (different(), SETTLE, 1, "rounds 2 0"),
    (different(), BY_INDEX, 1, "steps 3 0"),
    # nothing is struck: 10 constraints and 5 strings, each once
    (pigeons(5, 4), SETTLE, 1, "rounds 1 1"),
    (pigeons(5, 4), BY_INDEX, 1, "steps 15 1"),
    # each of the 8 constraints strikes of its number, and lets those before it join that do not wait: 0 to 6 are run twice, 9 trimmings once
    (codes(9), SETTLE, 1, "rounds 2 1"),
    (codes(9), BY_INDEX, 1, "steps 24 1"),
    (clash(), SETTLE, 0, "rounds 4 1"),
    (clash(), BY_INDEX, 0, "steps 68 1"),
    (no_clash(), SETTLE, 0, "rounds 7 1"),
    (no_clash(), BY_INDEX, 0, "steps 98 1"),
    (parts_first(), SETTLE, 0, "rounds 2 1"),
    (parts_first(), BY_INDEX, 0, "steps 100 1"),
    (newest_first(), SETTLE, 0, "rounds 5 1"),
    (newest_first(), BY_INDEX, 0, "steps 220 1"),
]


def listing():
    """The program's standard input, and what it must print; a file of no byte is refused at the end."""
    given = b"".join(case(problem.file(), operation, times) for problem, operation, times, _ in CASES)
    return given + case(b"", BY_INDEX, 0), "".join(line + "\n" for *_, line in CASES).encode() + b"refused 1\n"


def main():
    if not stands("settlings", listing()):
        return 1
    print(f"settlings: {len(CASES) + 1} settlings stand in crates/settlings")
    return 0


sys.exit(main())
