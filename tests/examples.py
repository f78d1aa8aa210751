# The examples: each is a text, the problem file it is packed into, and the lines that the program prints for it; or a template set. Checked are the packing, the
# answer of the program and of the second solver, the round trip through `show`, that a solution meets every constraint of its text, what the texts say of changes
# to them, and the verdicts on the sets; also the examples of docs/TEXT.md. How a search ends and at which node stands here by hand, as each text explains it.
#     python3 tests/examples.py            after `python3 tools/build.py`; it builds the second solver with cargo
#     python3 tests/examples.py --write    lays out the problem files, not the answers
import subprocess
import sys
import textwrap
from pathlib import Path

from clash import LISTING

ROOT = Path(__file__).resolve().parent.parent
FOLDER = ROOT / "examples"
PROGRAM = ROOT / "target" / "bin" / "clash"
PROGRAMS = [PROGRAM, PROGRAM.with_name("rule")]
CARGO = ROOT / "target" / "cargo"
sys.path.insert(0, str(ROOT / "tools"))
import packing
import sets
import textform
import wording
from checking import report

# name: the first line of its answer, some values of its solution
EXAMPLES = {
    "p14": ("found 2", {"x": "0", "y": "1", "z": "01", "n": 1}),
    "renditions": ("found 8", {"name": "aa-hd-000", "signer_high": "aa", "signer_plain": "aa-hd"}),
    "rule": ("none 1", {}),
    "signers": ("none 1", {}),
    "never": ("none 8", {}),
    "counter": ("found 5", {"name": "aa-10800", "counter_1080": "0", "counter_master": "10800", "width_1080": 1, "width_master": 5}),
    "budget": ("spent 65536", {}),
    "broken": ("refused 2", {}),
    "parts_first": ("found 9", {"name": "aaa0000", "course": "aaa", "other_course": "aaa0"}),
    "name_first": ("found 34695", {"name": "aaa0000", "course": "aaa", "other_course": "aaa0"}),
    "injective": ("none 1", {}),
    "suffix": ("found 8", {"name": "aaaa-000", "signer": "aaaa", "counter": "-000", "tag": "", "place": 9}),
    "dates": ("found 5", {"name": "aaaa-1231", "signer": "aaaa", "date": "1231", "take": "1231"}),
}
CUT = {"broken": 1024}  # bytes of the packed file that the problem file has
# name of a set: for each question that clashes, the two choices of parts
SETS = {
    "lessons": {("video", "plain"): ["aa / aa -hd- 000 .ts", "aa / aa-hd - 000 .ts"]},
    "mended": {},
}


def path(name, ending):
    return FOLDER / f"{name}.{ending}"


def statements(name):
    """The statements of a text, without comments."""
    lines = (line.split("#")[0].rstrip() for line in path(name, "text").read_text().splitlines())
    return [line for line in lines if line]


def problem_of(name):
    return textform.read(path(name, "text").name, path(name, "text").read_bytes())


def file_of(name):
    """The problem file that the example ought to have."""
    return packing.pack(problem_of(name))[: CUT.get(name)]


def values(problem, lines):
    """The solution in an answer, by name: strings of letters, and numbers."""
    fields = [[int(field) for field in line.split()[1:]] for line in lines[1:]]
    strings = ["".join(problem.letters[symbol] for symbol in symbols) for _, *symbols in fields[: len(problem.strings)]]
    return dict(zip([*problem.strings, *problem.numbers], strings + [value for value, in fields[len(problem.strings) :]]))


def accepts(problem, automaton, text):
    state = 0
    for letter in text:
        state = automaton.moves[state][problem.letters.index(letter)]
        if state == packing.GAP:
            return False
    return automaton.accepting >> state & 1 == 1


def part_at(x, y, n):
    return 1 <= n <= len(x) + 1 and x[n - 1 : n - 1 + len(y)] == y


def met(problem, solution):
    """Whether each value is of its domain and each constraint is met."""
    for name, row in problem.strings.items():
        text = solution[name]
        if not row[0] >> len(text) & 1 or any(not row[i] >> problem.letters.index(letter) & 1 for i, letter in enumerate(text, 1)):
            return False
    if any(not word >> solution[name] & 1 for name, word in problem.numbers.items()):
        return False
    relations = {
        "eq": lambda x, y: x == y,
        "neq": lambda x, y: x != y,
        "rev": lambda x, y: x == y[::-1],
        "cat": lambda x, y, z: x + y == z,
        "sub": part_at,
        "len": lambda x, n: len(x) == n,
        "regular": lambda x, automaton: accepts(problem, automaton, x),
    }
    for kind, positions in problem.constraints:
        word, nouns = packing.KINDS[kind - 1]
        named = [list(problem.named(noun))[position] for noun, position in zip(nouns, positions)]
        if not relations[word](*[problem.automata[name] if noun == "automaton" else solution[name] for noun, name in zip(nouns, named)]):
            return False
    return True


def printed(program, content):
    return subprocess.run([str(program)], input=content, capture_output=True, timeout=300, check=True).stdout.decode()


def packing_faults(name):
    """The problem file; and the whole file's way through `show` and back, with and without the names of its text."""
    names, content = problem_of(name), path(name, "problem").read_bytes()
    if content != file_of(name):
        yield f"{name}.problem is not what {name}.text is packed into"
    whole = packing.pack(names)
    for shown in (packing.unpack(whole), wording.renamed(packing.unpack(whole), names)):
        if packing.pack(textform.read(f"{name}.problem, shown", wording.text(shown).encode())) != whole:
            yield f"{name}: not the same file after show and pack"
    if name in CUT and f"the first {CUT[name]} bytes" not in path(name, "text").read_text():
        yield f"{name}.text does not say how many bytes {name}.problem has of it"
    said = "accepted"
    try:
        packing.unpack(content)
    except packing.Refused as refused:
        said = f"refused {refused.number}"
    if said != (EXAMPLES[name][0] if name in CUT else "accepted"):
        yield f"{name}.problem is {said}"


def answer_faults(name, solvers):
    """The answer, against what stands here by hand and against the solvers."""
    text, (outcome, expected) = path(name, "answer").read_text(), EXAMPLES[name]
    lines, problem = text.splitlines(), problem_of(name)
    if lines[0] != outcome:
        yield f"{name}.answer does not begin with {outcome}"
    elif outcome.startswith("found"):
        solution = values(problem, lines)
        if not met(problem, solution) or any(solution[variable] != value for variable, value in expected.items()):
            yield f"{name}.answer is not the solution that its text explains"
    try:
        wording.answer(problem, text)
    except wording.Unfit as unfit:
        yield f"{name}.answer: {unfit}"
    for solver in solvers:
        if printed(solver, path(name, "problem").read_bytes()) != text:
            yield f"{solver.name} does not print {name}.answer"


def without(text, *names):
    """The text without the statements that name one of these."""
    kept, under = [], False
    for line in text.split("\n"):
        under = not set(line.split()) & set(names) and (under or not line.startswith(" "))
        kept += [line] if under else []
    return "\n".join(kept)


def injective_texts():
    """What injective.text and docs/GUIDE.md say of it: (what is changed, the text, how its answer begins)."""
    text = "\n".join(statements("injective"))
    neq = without(text, "rest") + "\nneq course other_course"
    signer = without(text, "course", "other_course", "front", "other_front") + "".join(
        f"\ncat {other}signer {other}rendition {other}middle" for other in ("", "other_")
    )
    rendition = without(signer, "signer", "other_signer", "middle", "other_middle") + "".join(
        f"\ncat {other}rendition {other}counter name" for other in ("", "other_")
    )
    yield "injective.text with neq", neq, "spent 65536\n"
    yield "injective.text with neq and courses of two letters", neq.replace("course length 3..8", "course length 2"), "none 703\n"
    yield "injective.text from the signer on", signer + "\ncat signer rest other_signer", "none 1\n"
    yield "injective.text from the rendition on", rendition + "\ncat rendition rest other_rendition", "none 1\n"
    dashes = text.replace("course length 3..8 of a..z", "course length 3..8 of a..z -").replace("signer length 3..9 of a..z", "signer length 3..9 of a..z -")
    yield "injective.text with dashes in courses and signers", dashes, "found "
    # Two letters, declared first, at one place of both parts: the root, and a child for each letter of the one.
    fixed = without(text, "rest").replace("string course length 3..8", "string course length 5").replace("string signer length 3..9", "string signer length 5")
    for part, place, letters, nodes in (("rendition", 2, "a..z", 27), ("rendition", 5, "a..z", 27), ("counter", 2, "0..9", 11), ("counter", 6, "0..9", 11)):
        asked = fixed if part == "rendition" else fixed.replace("string rendition length 3..5", "string rendition length 3")
        first = f"\nstring letter length 1 of {letters}\nstring other_letter length 1 of {letters}\n"
        differing = f"\nnumber place in {place}\nsub {part} letter place\nsub other_{part} other_letter place\nneq letter other_letter"
        yield f"injective.text, the {part} at place {place}", asked.replace("\n", first, 1) + differing, f"none {nodes}\n"
    # The dash behind the shorter rendition stands where the longer one has a letter.
    shorter = fixed.replace("string rendition length 3..5", "string rendition length 3").replace("other_rendition length 3..5", "other_rendition length 4, 5")
    yield "injective.text, a rendition of length 3 and a longer one", shorter, "none 1\n"


def with_sinks(text):
    """The text with a sink in each automaton, and a move to it from every state for the letters that the state's line does not name."""
    lines = [""]
    for line in text.split("\n"):
        within = line.split()[0] in ("state", "accepting")
        if lines[-1].endswith(" other to no") and not within:
            lines.append("  state no any to no")
        lines.append(f"{line}{',' if ' to ' in line else ''} other to no" if within else line)
    return "\n".join(lines)


def changed_texts():
    """What the other texts say of changes to them, in the same form."""
    rule = "\n".join(statements("rule")[:-1])
    counter, budget, suffix, dates = ("\n".join(statements(name)) for name in ("counter", "budget", "suffix", "dates"))
    one_width = counter.replace("number width_1080 in 1..5\n", "").replace("width_1080", "width_master")
    yield "rule.text without its last line", rule, path("renditions", "answer").read_text()
    yield "signers.text with a signer called hd", "\n".join(statements("signers")).replace("eva", "hd"), "found "
    yield "counter.text with one width", one_width, "none "
    yield "counter.text with a dash behind the rendition", counter.replace('"-1080"', '"-1080-"'), "none "
    yield "budget.text with five digits", budget.replace("length 8", "length 5"), "none 11111\n"
    yield "the whole file of broken.text", "\n".join(statements("broken")), "none "
    yield "suffix.text with a tag that is never missing", suffix.replace("tag length 0, 4..8", "tag length 4..8"), "none 1\n"
    yield "suffix.text with a tag at place 10", suffix.replace("place in 9", "place in 10"), "none 1\n"
    yield "dates.text with takes from 1232 on", dates.replace("fourth       1..9", "fourth       2..9"), "none 1\n"
    yield "dates.text with sinks written out", with_sinks(dates), path("dates", "answer").read_text()
    yield "budget.text with one automaton", budget.replace("accepting", "state").replace("regular serial odd", ""), "none 1\n"


def relation_faults(solvers):
    """What the texts say of one another and of changes to them."""
    if path("p14", "answer").read_text().splitlines() != LISTING:
        yield "p14.answer is not the paper's listing"
    if sorted(statements("parts_first")) != sorted(statements("name_first")):
        yield "parts_first.text and name_first.text are not one problem in two orders"
    if not statements("rule")[-1].startswith("regular "):
        yield "the last line of rule.text is not its rule"
    for what, text, answer in [*changed_texts(), *injective_texts()]:
        for solver in solvers:
            if not printed(solver, packing.pack(textform.read(what, text.encode()))).startswith(answer):
                yield f"{what}: {solver.name} does not print {answer.splitlines()[0]}"


def set_faults(name):
    """The verdicts on a set."""
    found = sets.checked(path(name, "set").name, path(name, "set").read_bytes(), twice=True)
    for question in found["questions"]:
        pieces = [" ".join(piece["text"] for piece in derivation) for derivation in question.get("derivations", [])]
        verdict = "clash" if pieces else "never"
        if question["verdict"] != verdict or pieces != SETS[name].get(tuple(question["templates"]), []):
            yield f"{name}.set: {report.title(question)} is {question['verdict']}, with {pieces}"


def blocks_of(text):
    """What stands indented in a document, block by block."""
    shown = "".join(line if line.startswith("    ") or not line.strip() else "\0" for line in text.splitlines(True))
    return [textwrap.dedent(block).strip("\n") + "\n" for block in shown.split("\0") if block.strip()]


def document_faults(solvers):
    """The text of docs/TEXT.md and its answer in words; and its other statements are statements. The same of its set."""
    problems, template_sets = (ROOT / "docs" / "TEXT.md").read_text().split("\n# Template sets\n")
    blocks = blocks_of(problems)
    whole, said = (next(block for block in blocks if block.startswith(beginning)) for beginning in ("# Can", "found:"))
    problem = textform.read("docs/TEXT.md", whole.encode())
    for solver in solvers:
        if wording.answer(problem, printed(solver, packing.pack(problem))) != said:
            yield f"docs/TEXT.md has another answer than {solver.name}"
    rest = "".join(block for block in blocks if block.split()[0] in textform.Reader.words)
    if len(textform.read("the statements of docs/TEXT.md", rest.encode()).strings) < 2:
        yield "docs/TEXT.md has no statements"
    blocks = blocks_of(template_sets)
    whole, said = (next(block for block in blocks if block.startswith(beginning)) for beginning in ("# The templates", "video and plain"))
    if said not in "".join(line + "\n" for line in report.lines(sets.checked("docs/TEXT.md", whole.encode()))):
        yield "docs/TEXT.md has another clash than its set"
    rest = "".join(block for block in blocks if block.split()[0] in ("part", "rule", "template", "same"))
    if len(sets.checked("the statements of docs/TEXT.md", f"{whole.splitlines()[1]}\n{rest}".encode(), twice=True)["questions"]) != 1:
        yield "docs/TEXT.md has no template by itself"


def faults(solvers):
    try:
        for name in EXAMPLES:
            yield from packing_faults(name)
            yield from answer_faults(name, solvers)
        for name in SETS:
            yield from set_faults(name)
        yield from relation_faults(solvers)
        yield from document_faults(solvers)
    except textform.Wrong as error:
        yield str(error)


def main():
    if "--write" in sys.argv:
        for name in EXAMPLES:
            path(name, "problem").write_bytes(file_of(name))
        return 0
    expected = {path(name, ending) for name in EXAMPLES for ending in ("text", "problem", "answer")} | {path(name, "set") for name in SETS}
    present = set(FOLDER.iterdir())
    wrong = [f"{file.name} is not there" for file in sorted(expected - present)] + [f"{file.name} is of no example" for file in sorted(present - expected)]
    wrong += [f"target/bin/{path.name} is not there: run `python3 tools/build.py {path.name}` first" for path in PROGRAMS if not path.is_file()]
    subprocess.run(["cargo", "build", "--release", "--offline", "--quiet", "--target-dir", str(CARGO)], cwd=ROOT / "second", check=True)
    solvers = [PROGRAM, CARGO / "release" / "second"]
    wrong = wrong or list(faults(solvers))
    for line in wrong:
        print("examples: " + line)
    if not wrong:
        print(f"examples: {len(EXAMPLES)} texts, files and answers and {len(SETS)} sets fit; answered by " + " and ".join(solver.name for solver in solvers))
    return 1 if wrong else 0


if __name__ == "__main__":
    sys.exit(main())
