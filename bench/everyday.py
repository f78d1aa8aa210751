# How the command on template sets does on everyday sets, those of bench/sets/, whose verdicts are known by construction. Run from the repository's root after
# `python3 tools/build.py`.
#     python3 bench/everyday.py [SET ...]     asks all of them, or those that are named: `dozen` is bench/sets/dozen.set, and a path is itself
# A set says the verdict on each of its questions, and why, in a line such as
#     #: video audio  never   the ends .ts and .m4s differ
# with the templates in the order of the set; a template with itself is the question that --twice asks. The exit status is 1 if a verdict is another one or
# unknown, or if a question has no line or a line no question. Seconds are those on the clock for the whole set, with as many problems side by side as there
# are processors. They are of one machine, and no test depends on them.
import os
import re
import sys
import time
from collections import Counter
from pathlib import Path

HERE = Path(__file__).resolve().parent
sys.path.insert(0, str(HERE.parent / "tools"))
import sets

KNOWN = re.compile(r"#:\s+(\S+)\s+(\S+)\s+(clash|never)\s+\S.*")


def known(path, content):
    """The verdicts that a set says of itself, by the names of the two templates."""
    verdicts = {}
    for number, line in enumerate(content.decode().splitlines(), 1):
        if not line.startswith("#:"):
            continue
        found = KNOWN.fullmatch(line)
        if not found or found.group(1, 2) in verdicts:
            sys.exit(f"{path}:{number}: expected '#: TEMPLATE TEMPLATE clash' or 'never' and the reason, once for each question")
        verdicts[found.group(1, 2)] = found[3]
    return verdicts


def complaints(questions, verdicts):
    """What is not as it is known, in words."""
    answers = {tuple(question["templates"]): question for question in questions}
    for pair, question in answers.items():
        verdict, right = question["verdict"], verdicts.get(pair, "not said")
        if verdict != right:
            why = f" ({question.get('open', question.get('name', ''))})" if verdict != "never" else ""
            yield f"{pair[0]} {pair[1]}: {verdict}{why}, the known verdict is {right}"
    for pair in verdicts.keys() - answers.keys():
        yield f"{pair[0]} {pair[1]}: the known verdict is {verdicts[pair]}, but it was not asked"


def row(what, counts):
    """A line of the table."""
    whole = [f"{counts[key]:,}" for key in ("templates", "questions", "clash", "never", "unknown", "problems", "nodes")]
    return f"| {what} | {' | '.join(whole)} | {counts['seconds']:.2f} |"


def asked(path):
    """What the table says of a set, and what is not as it is known."""
    content = path.read_bytes()
    verdicts = known(path, content)
    start = time.perf_counter()
    result = sets.checked(str(path), content, twice=True, without=(), jobs=os.cpu_count())
    seconds = time.perf_counter() - start
    questions = result["questions"]
    counts = Counter(question["verdict"] for question in questions)
    counts.update(templates=len(result["templates"]), questions=len(questions), seconds=seconds)
    counts.update(problems=sum(question["problems"] for question in questions), nodes=sum(question["nodes"] for question in questions))
    return counts, [f"{path.stem}: {complaint}" for complaint in complaints(questions, verdicts)]


def main():
    named = [Path(name) if name.endswith(".set") else HERE / "sets" / f"{name}.set" for name in sys.argv[1:]]
    paths = named or sorted((HERE / "sets").glob("*.set"))
    print("| set | templates | questions | clashes | nevers | unknown | problems | nodes | seconds |")
    print("|---|---|---|---|---|---|---|---|---|")
    total, wrong = Counter(), []
    for path in paths:
        counts, complaint = asked(path)
        print(row(path.stem, counts), flush=True)
        total.update(counts)
        wrong += complaint
    print(row("all", total))
    for complaint in wrong:
        print(complaint)
    print(f"{len(wrong)} of the verdicts are not as known" if wrong else f"all {total['questions']} verdicts are as known")
    return 1 if wrong else 0


if __name__ == "__main__":
    sys.exit(main())
