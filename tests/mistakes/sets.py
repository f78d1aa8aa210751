# Whether the comparison of template sets with brute force can fail: each mistake below is planted in a copy of tools/, one at a time, and tests/brute.py must
# report it.
#     python3 tests/mistakes/sets.py [NUMBER ...]        all mistakes, where none is named
# It needs the programs and the archive in target, as tests/brute.py does. A mistake is one line of tools/checking changed, in the rewritings and splits that
# docs/DECISIONS.md argues for: what is wrong, the file, the text that stands there once, and what stands in its place.
import shutil
import subprocess
import sys
import tempfile
from pathlib import Path

ROOT = Path(__file__).resolve().parent.parent.parent
SETS = 400  # a fifth of what the tests ask

MISTAKES = [
    ("first: the rest of the longer text may be empty", "equation.py", "if before < after})", "if before <= after})"),
    ("first: a part with a rule is lengthened by anything", "equation.py", "free = not domain.machines and len", "free = len"),
    ("first: a part with gaps in its lengths is lengthened by anything", "equation.py", " < 2 and domain.lengths + (1 << lengths[0]) == 1 << lengths[-1] + 1", " < 2"),
    ("first: what stands before the part may differ", "equation.py", "given.same.union(parts[: parts.index(part)])", "given.same"),
    # Leaving one place or one length out, or one letter of two, would be no mistake: choices that make one name differ in some length, and so on both sides.
    ("without first: no length is told apart", "equation.py", "for length in bits(domain.lengths):", "for length in ():"),
    ("same is not looked at", "equation.py", "given.same.intersection(*(parts_of(template) for template in templates))", "set()"),
    ("front: a shared part is taken off before the name's rule has read it", "equation.py", "elif one[0] == other[0] and not whole:", "elif one[0] == other[0]:"),
    ("front: the rule does not read the end", "machines.py", "machine.accepting >> after(machine, q, end) & 1", "machine.accepting >> q & 1"),
    ("front: the rule does not read the front", "machines.py", "numbered(after(machine, 0, front), ", "numbered(0, "),
    ("join: neighbours of any letters become one", "equation.py", "plain(piece) and plain(piece) == plain(joined[-1])", "plain(piece) and plain(joined[-1])"),
    ("join: neighbours with a rule become one", "equation.py", "or domains[piece].machines or", "or"),
    ("join: a neighbour of length 0 is left out", "equation.py", "for b in bits(other) if a + b", "for b in bits(other) if b and a + b"),
    ("join: what is named elsewhere lies behind a part of several lengths", "modelling.py", "known = all(is_text(piece) or uses[piece] == 1 for piece in fixed)", "known = True"),
    ("join: what is named elsewhere may differ in a row", "modelling.py", 'self.model.state("sub", row.name, piece, self.place_of(place))', "pass"),
    ("join: what lies behind a part of several lengths has no letters", "modelling.py", "words[len(before) + length + i] |= word", "words[len(before) + length + i] |= 0"),
    ("join: a part of a row need not obey its rule", "modelling.py", "if not behind and not any(part.machine for part in parts):", "if not behind:"),
    ("lengths: the mark is of another length", "modelling.py", "marks = {self.mark(name, lengths): lengths for", "marks = {self.mark(name, lengths): lengths >> 1 for"),
    ("classes: rules tell no letters apart", "classes.py", " + tuple(row[symbol] for row in columns)", ""),
    ("product: what one of two rules accepts", "machines.py", "paired(first, second, and_)", "paired(first, second, or_)"),
    ("a gap leads back to the start", "machines.py", "sink if target == GAP else target", "0 if target == GAP else target"),
    ("what is accepted whatever follows becomes a gap", "machines.py", "q == 0 or machine.accepting >> q & 1 or set(row) != {q}", "q == 0 or set(row) != {q}"),
    ("a counter ends one too early", "machines.py", "high and digit > last[place]:", "high and digit >= last[place]:"),
    ("split: the greatest length is left out", "equation.py", "for length in lengths_of(equation, name):", "for length in lengths_of(equation, name)[:-1]:"),
    ("split: the upper half of a letter begins one too late", "equation.py", "symbols[len(symbols) // 2 :])", "symbols[len(symbols) // 2 + 1 :])"),
    ("the front alone: what is left out has the letters of fixed texts only", "equation.py", "else letters_of(domains[piece].words) for piece in left", "else 0 for piece in left"),
    ("the front alone: what is left out has its greatest length", "equation.py", "(letters,) * max(lengths.bit_length() - 1, 0), ())\n            kept", "(letters,) * max(lengths.bit_length() - 1, 0), ())._replace(lengths=1 << lengths.bit_length() - 1)\n            kept"),
    ("a solution of the front alone is none", "asking.py", 'elif word != "none":', 'elif word != "none" and not case.then:'),
    ("what is spent is taken for none", "asking.py", 'elif word != "none":', 'elif word == "found":'),
]


def reported(mistake):
    """What the comparison prints first of a mistake, or None where it agrees. Raises where the text that is to be changed is not there once."""
    what, file, old, new = mistake
    with tempfile.TemporaryDirectory() as folder:
        root = Path(folder)
        for name in ("tools", "tests", "include", "bindings"):
            shutil.copytree(ROOT / name, root / name, ignore=shutil.ignore_patterns("__pycache__", "target"))
        (root / "target").symlink_to(ROOT / "target")
        path = root / "tools" / "checking" / file
        text = path.read_text()
        if text.count(old) != 1:
            raise ValueError(f"{file} has {text.count(old)} times: {old}")
        path.write_text(text.replace(old, new))
        done = subprocess.run([sys.executable, root / "tests" / "brute.py", "--brief", "--sets", str(SETS)], stdout=subprocess.PIPE, stderr=subprocess.STDOUT, text=True)
        return done.stdout.splitlines()[:2] if done.returncode else None


def main():
    wanted = [MISTAKES[int(word) - 1] for word in sys.argv[1:]] or MISTAKES
    missed = 0
    for mistake in wanted:
        lines = reported(mistake)
        missed += lines is None
        print(f"{mistake[0]}: {' '.join(line.strip() for line in lines)[:200] if lines else 'NOT REPORTED'}", flush=True)
    print(f"mistakes in sets: {len(wanted) - missed} of {len(wanted)} reported")
    return 1 if missed else 0


if __name__ == "__main__":
    sys.exit(main())
