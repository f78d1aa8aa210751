# Each must-fail edit was refused because the fact that docs/PROMISES.md gives no longer holds, and not because a name is missing or a limit was met.
#     python3 tests/must_fail.py LOG            LOG has all that `rt ci`, or `rt must-fail`, has said
#     python3 tests/must_fail.py LOG --shown    lists for each edit the fact that is shown to fail
# `rt` says one line of each edit, which begins with the first fact that fails and is cut.
import re
import sys
from pathlib import Path

from promises import edits

LINE = re.compile(r"rt: must-fail ([^/ ]+)/(\S+)\.edit: (.*)")
REFUSED = "refused, as it must be: "  # a refusal of another kind says in brackets what it is
SHOWN = re.compile(r"[(:] ?`([^`]+)`[):]")  # the fact, in a proof that is found or in one that is written
CUT = re.compile(r"\(`([^`]+)$")
# how the prover says that a text, and not a fact, is at fault
UNFIT = ("that can be named from here", "is not in scope", "not found", "has no `", "has no field")


def said(log):
    """What `rt` says of each edit, by its crate and name."""
    return {(found[1], found[2]): found[3] for line in log.read_text().splitlines() for found in [LINE.match(line)] if found}


def shown(words):
    """The fact that is shown to fail, and whether its name is whole; none where none is named."""
    whole, cut = SHOWN.search(words), CUT.search(words)
    return (whole[1], True) if whole else (cut[1], False) if cut else (None, False)


def reason(words, given_facts):
    """What is wrong with a refusal, or none. Of the facts one has to be the first that is shown; what is more than a name has to stand in the line as it is."""
    facts = [fact for fact in given_facts if " " not in fact]
    if words is None:
        return "has no line"
    if not words.startswith(REFUSED):
        return "is not refused for a fact: " + words
    if any(unfit in words for unfit in UNFIT):
        return "is refused for its text: " + words
    fact, whole = shown(words)
    if fact is None or not any(fact == given if whole else given.startswith(fact) for given in facts):
        return f"does not break {', '.join(facts)} first, but {fact or words}"
    lacking = [text for text in given_facts if " " in text and text not in words]
    return f"does not show {', '.join(lacking)}: {words}" if lacking else None


def main():
    if len(sys.argv) not in (2, 3) or sys.argv[2:] not in ([], ["--shown"]):
        print("must-fail: python3 tests/must_fail.py LOG [--shown]")
        return 1
    lines = said(Path(sys.argv[1]))
    if sys.argv[2:]:
        for (crate, label), words in lines.items():
            print(f"{crate}/{label}: {shown(words)[0] or words}")
        return 0
    wrong = [(crate, label, why) for crate, label, facts in edits() for why in [reason(lines.get((crate, label)), facts)] if why]
    for crate, label, why in wrong:
        print(f"must-fail: {crate}/{label} {why}")
    if not wrong:
        print(f"must-fail: {len(edits())} edits are refused for the fact that docs/PROMISES.md gives")
    return 1 if wrong else 0


if __name__ == "__main__":
    sys.exit(main())
