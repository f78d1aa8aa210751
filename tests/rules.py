# Rules, from the pattern in a text to the automaton in its file: automata laid out by hand, strings that they accept and reject, broken patterns with the line
# and the words of their error, the patterns that docs/GUIDE.md teaches; `tools/problem.py` on texts with rules; then a copy of the tools, where a stand-in
# takes the place of the program that makes automata of patterns.
#     python3 tests/rules.py        after `python3 tools/build.py`
import shutil
import sys
import tempfile
from pathlib import Path

from edges import automaton, problem
from examples import ROOT, accepts
from solve import FOUND, MADE_BY, NONE, REFUSED, TROUBLE, differs, run, stand_in

sys.path.insert(0, str(ROOT / "tools"))
import packing
import textform

GUIDE = ROOT / "docs" / "GUIDE.md"
A, AB, ABC = "alphabet a\n", "alphabet a b\n", "alphabet a b c\n"
NAMES = "alphabet a..z 0..9 -\n"
LETTERS64 = 'alphabet a..z A..Z 0..9 - " "\n'

# (text, its automata). State 0 is the start; every other state is a set of letters of the pattern, counted from its left, of which one may just have been read.
# States are numbered in the order in which they are reached: from state 0 on, each by its symbols upwards.
PACKED = [
    # from every state a leads to {1, 3}, which is reached first, and b to {2}; the pattern ends with letter 3
    (AB + "rule any-a = (a|b)*a", [automaton(2, 3, 0b010, [1, 2] * 3)]),
    # here b is symbol 0, so {2} is reached first
    ("alphabet b a\nrule any-a = (a|b)*a", [automaton(2, 3, 0b100, [1, 2] * 3)]),
    # the empty string: every letter leads to the empty set, which is not the start
    (AB + "rule nothing =", [automaton(2, 2, 0b01, [1] * 4)]),
    (AB + 'rule nothing = "" # quotes around nothing', [automaton(2, 2, 0b01, [1] * 4)]),
    (AB + "rule nothing = ()*|", [automaton(2, 2, 0b01, [1] * 4)]),
    # a leads to the empty set, 1, and b to {1}, 2
    (AB + "rule one = b", [automaton(2, 3, 0b100, [1, 2, 1, 1, 1, 1])]),
    # {1, 2}, {3}, the empty set
    (A + "rule one-or-two = a|aa", [automaton(1, 4, 0b0110, [1, 2, 3, 3])]),
    (A + "rule perhaps = (a|)", [automaton(1, 3, 0b011, [1, 2, 2])]),
    # {1}, and no letter leads to the empty set
    (A + "rule many = a*", [automaton(1, 2, 0b11, [1, 1])]),
    (A + "rule many = (a*)*", [automaton(1, 2, 0b11, [1, 1])]),
    # {1, 3}, the empty set, {2}, {4}
    (ABC + "rule pair = ab|ac", [automaton(3, 5, 0b11000, [1, 2, 2, 2, 3, 4] + [2] * 9)]),
    # {1}, the empty set, {2}
    (AB + "rule pairs = (ab)*", [automaton(2, 4, 0b1001, [1, 2, 2, 3, 2, 2, 1, 2])]),
    # {1}, the empty set, {3} by # and {2} by a: # is symbol 1, a symbol 2
    ('alphabet " " "#" a\nrule quoted = " " (a|"#")', [automaton(3, 5, 0b11000, [1, 2, 2, 2, 3, 4] + [2] * 9)]),
    # M is the 39th letter
    (LETTERS64 + "rule last = M", [automaton(64, 3, 0b100, [1] * 38 + [2] + [1] * 25 + [1] * 128)]),
    # 32 states: the start, 30 letters, the empty set
    (A + f"rule long = {'a' * 30}", [automaton(1, 32, 1 << 30, [*range(1, 32), 31])]),
    # 63 letters and signs: of 32 letters, each a may be any of them
    (A + f"rule long = {'a*' * 31}a", [automaton(1, 2, 0b10, [1, 1])]),
    # rules and automata keep their order
    (
        A + "automaton first\nstate q any to q\nrule second = a*\nautomaton third\naccepting q any to q\nrule fourth =",
        [automaton(1, 1, 0), automaton(1, 2, 0b11, [1, 1]), automaton(1, 1), automaton(1, 2, 0b01, [1, 1])],
    ),
]

# (alphabet, pattern, strings that it stands for, strings that it does not stand for)
LANGUAGES = [
    (AB, "(a|b)*a", ["a", "ba", "aa", "abba"], ["", "b", "ab", "aab"]),
    (AB, "", [""], ["a", "b"]),
    (AB, "a||b", ["", "a", "b"], ["ab", "aa"]),
    (AB, "ab*", ["a", "ab", "abb"], ["", "b", "aba", "abab"]),
    (AB, "(ab)*", ["", "ab", "abab"], ["a", "b", "ba", "aba", "abb"]),
    (AB, "a(b|)a", ["aa", "aba"], ["a", "ab", "abba"]),
    (ABC, "(a|b*)*c", ["c", "ac", "bbac", "abbac"], ["", "a", "cc", "ca"]),
    ("alphabet b . a\n", "a..b", ["a..b"], ["ab", "a.b", "a", "b"]),
    ('alphabet a | "," "#"\n', 'a|a","a"#"', ["a", "a,a#"], ["a|a", "a,", "a,a", "|"]),
]

COUNTER = "(0|1|2|3|4|5|6|7|8|9)(0|1|2|3|4|5|6|7|8|9)*"
# What docs/GUIDE.md teaches: (name, pattern, letters and signs, states, strings that it stands for, strings that it does not stand for)
TAUGHT = [
    ("level", "hd|sd|uhd", 9, 9, ["hd", "sd", "uhd"], ["", "h", "ud", "hdd", "hdsd", "xhd"]),
    ("tag", "(-hd|-sd|)", 10, 7, ["", "-hd", "-sd"], ["-", "hd", "-uhd", "-hd-sd"]),
    ("signers", "(anna|bo|eva)(-(anna|bo|eva))*", 30, 21, ["anna", "bo-eva", "eva-anna-bo"], ["", "anna-", "-bo", "annabo", "bo--eva", "hd"]),
    ("count", COUNTER, 43, 22, ["0", "007", "123456789012"], ["", "a", "1a", "-1", "1-1"]),
    ("number", "0|(1|2|3|4|5|6|7|8|9)(0|1|2|3|4|5|6|7|8|9)*", 43, 22, ["0", "7", "10", "907"], ["", "00", "07", "0-"]),
    ("take", "take-" + COUNTER, 48, 27, ["take-0", "take-12"], ["take", "take-", "12", "take-1a", "ttake-1"]),
]

STAR, MORE_STARS = "expected a letter or a group that it repeats", "expected one at most behind a letter or a group"
STATES = (
    "the pattern needs more than 32 states: expected fewer letters in it, since most take a state of their own, or an automaton by moves, "
    "where letters can share one"
)
GENERAL = "this is no pattern: expected letters and groups in ( and ), with | between branches and one * at most behind a letter or a group"
# (pattern over a and b, the words of the error)
BROKEN = [
    ("*", f"the '*' at place 1 of the pattern has nothing before it: {STAR}"),
    ("a|*b", f"the '*' at place 3 of the pattern has nothing before it: {STAR}"),
    ("b(*a)", f"the '*' at place 3 of the pattern has nothing before it: {STAR}"),
    ("a**", f"the '*' at place 3 of the pattern follows another: {MORE_STARS}"),
    ('( "a" | b )* *', f"the '*' at place 7 of the pattern follows another: {MORE_STARS}"),
    ("a)", "the ')' at place 2 of the pattern closes nothing: expected a '(' before it"),
    ("(a))(", "the ')' at place 4 of the pattern closes nothing: expected a '(' before it"),
    ("a(b", "the '(' at place 2 of the pattern is not closed: expected a ')' behind it"),
    ("((a)|b", "the '(' at place 1 of the pattern is not closed: expected a ')' behind it"),
    ("a" * 31, STATES),
    ("(a|b)*a" + "(a|b)" * 5, STATES),  # which of the last six letters are a has to be kept: 64 sets
]

# A text with a rule, its file as a text, and its answer: the rule leaves the lengths 1 and 3, and of length 1 there is "a" alone.
DASHED = "alphabet a..c -\nstring x length 1..3\nrule dashed = a(-a)*\nregular x dashed\n"
SHOWN = """alphabet a..c -
string x length 1..3
automaton dashed
  state q0 a to q1, other to q2
  accepting q1 - to q3, other to q2
  state q2 any to q2
  state q3 a to q4, other to q2
  accepting q4 - to q3, other to q2
regular x dashed
"""
IN_WORDS = 'found: these values meet every constraint, and are the first that do; nodes visited: 2\n  x = "a"\n'

ONE = A + "string x\nrule r = a\nregular x r\n"
NO_AUTOMATON = "what follows its 0 is not one whole automaton for an alphabet of 1"
ODD = "expected 0 and an automaton, or 14 or 16 alone"
# (what the stand-in does, as lines of a shell; exit status; words on standard error). It is asked for a pattern over one symbol.
STAND_INS = [
    (r"printf '\000\001\001\000\000\000\000'", 0, ""),
    (r"printf '\016'", REFUSED, f"text:3: {GENERAL}"),
    (r"printf '\020'", REFUSED, f"text:3: {STATES}"),
    ("cat > /dev/null", TROUBLE, "it is empty: the program has not answered"),
    ("exit 3", TROUBLE, "ended with status 3: expected 0"),
    (r"printf '\000\001\001\000\000\000\000'; exit 1", TROUBLE, "ended with status 1: expected 0"),
    (r"printf '\000\001\001\000\000\000\000'; kill -9 $$", TROUBLE, "was ended by signal 9"),
    (r"printf '\000'", TROUBLE, NO_AUTOMATON),
    (r"printf '\000\001\001\000'", TROUBLE, NO_AUTOMATON),
    (r"printf '\000\002\001\000\000\000\001'", TROUBLE, NO_AUTOMATON),
    (r"printf '\000\001\001\000\000\000\000\000'", TROUBLE, NO_AUTOMATON),
    (r"printf '\000\000\000\000\000\000'", TROUBLE, NO_AUTOMATON),
    (r"printf '\000\001\002\000\000\000\000'", TROUBLE, NO_AUTOMATON),
    (r"printf '\000\001\001\000\000\000\001'", TROUBLE, NO_AUTOMATON),
    (r"printf '\015'", TROUBLE, f"it begins with 13: {ODD}"),
    (r"printf '\017'", TROUBLE, f"it begins with 15: {ODD}"),
    (r"printf '\021'", TROUBLE, f"it begins with 17: {ODD}"),
    (r"printf '\016\000'", TROUBLE, f"it begins with 14: {ODD}"),
    ("echo none 1", TROUBLE, f"it begins with {ord('n')}: {ODD}"),
]


def automata_of(written):
    """The automata of a text, and its alphabet, by its file."""
    content = textform.read("text", written.encode())
    return packing.unpack(packing.pack(content)).automata.values(), content


def packed():
    wrong = []
    for written, machines in PACKED:
        letters = textform.read("text", written.split("\n")[0].encode()).letters
        if packing.pack(textform.read("text", written.encode())) != problem(len(letters), [], machines=machines):
            wrong.append(f"{written!r} is not packed into its file")
    return wrong


def misread(alphabet, pattern, members, others):
    """What the automaton of a pattern takes for a member and should not, or the other way round."""
    (made,), read = automata_of(f"{alphabet}rule r = {pattern}")
    return [f"{pattern!r}: {text!r}" for texts, expected in ((members, True), (others, False)) for text in texts if accepts(read, made, text) != expected]


def languages():
    return [line for case in LANGUAGES for line in misread(*case)]


def taught():
    """The patterns of docs/GUIDE.md, and what it says that each takes."""
    guide, wrong = GUIDE.read_text(), []
    for name, pattern, size, states, members, others in TAUGHT:
        (made,), _ = automata_of(f"{NAMES}rule {name} = {pattern}")
        if (len(pattern), len(made.states)) != (size, states) or f"    rule {name} = {pattern} " not in guide:
            wrong.append(f"rule {name}: {len(pattern)} letters and signs, {len(made.states)} states, or it does not stand in docs/GUIDE.md")
        wrong += misread(NAMES, pattern, members, others)
    return wrong


def broken():
    wrong = []
    for pattern, message in BROKEN:
        try:
            said = textform.read("text", f"{AB}\nrule r = {pattern}\n".encode()) and "no error"
        except textform.Wrong as error:
            said = str(error)
        wrong += [] if said == f"text:3: {message}" else [f"{pattern!r}: {said}"]
    return wrong


def by_the_tool(folder):
    """A text with a rule is packed, solved, shown and answered as one with automata by moves."""
    text, by_moves, made = (folder / name for name in ("dashed.text", "by_moves.text", "dashed.problem"))
    text.write_text(DASHED)
    by_moves.write_text(SHOWN)
    wrong = differs("pack", run("pack", text, "-o", made), 0, "", "")
    wrong += differs("show --names", run("show", "--names", text, made), 0, SHOWN, "")
    wrong += differs("solve", run("solve", text), FOUND, IN_WORDS, "")
    wrong += differs("answer", run("answer", text, stdin=None, input=b"found 2\ns0 1 0\n"), FOUND, IN_WORDS, "")
    wrong += differs("pack by moves", run("pack", by_moves, "-o", folder / "by_moves.problem"), 0, "", "")
    if made.read_bytes() != (folder / "by_moves.problem").read_bytes():
        wrong.append("a rule is not packed as the automaton that is shown for it")
    text.write_text(DASHED.replace("(-a)*", "(-a**"))
    return wrong + differs("a broken pattern", run("solve", text), REFUSED, "", f"{text}:3: the '*' at place 6 of the pattern follows another")


def copied(folder):
    """A copy of the tools alone, with no program."""
    root = folder / "copy"
    shutil.copytree(ROOT / "tools", root / "tools", ignore=shutil.ignore_patterns("__pycache__"))
    (root / "target" / "bin").mkdir(parents=True)
    return root


def stand_ins(folder):
    """Only a whole output is an answer; where there is no program, a text without rules can be packed all the same, and a broken text is broken."""
    root, text, plain = copied(folder), folder / "text", folder / "plain.text"
    text.write_text(ONE)
    plain.write_text(A + "string x\nautomaton d\naccepting q any to q\nregular x d\n")
    pack = ["pack", text, "-o", folder / "made.problem"]
    wrong = differs("no program", run(*pack, root=root), TROUBLE, "", "rule is not there, and a rule needs it: `python3 tools/build.py` proves and builds it")
    wrong += differs("no program, no rule", run("pack", plain, "-o", folder / "plain.problem", root=root), 0, "", "")
    text.write_text(ONE + "eq x y\n")
    wrong += differs("no program, a broken text", run(*pack, root=root), REFUSED, "", f"{text}:5: no string is called 'y'")
    text.write_text(ONE)
    (root / "target" / "bin" / "rule").write_text("no program\n")
    wrong += differs("not to be run", run(*pack, root=root), TROUBLE, "", "rule cannot be run: Permission denied")
    for lines, status, words in STAND_INS:
        stand_in(root / "target" / "bin", lines, "rule")
        wrong += differs(lines, run(*pack, root=root), status, "", words)
    return wrong + calls(root, folder)


def calls(root, folder):
    """The program is given the count of the letters and the pattern in its own letters, once for each pattern, however often `solve` asks the solver."""
    text, log = folder / "text", folder / "calls"
    text.write_text(
        "alphabet b a -\nstring x\nstring y\nstring z\nstring name\nrule r = (a|b)*-\nrule same = (a|b)* -\nrule other = b\n"
        "cat x y name\ncat y z name\nregular name r\nregular x same\nregular y other\n"
    )
    stand_in(root / "target" / "bin", f"od -An -c >> '{log}'; echo >> '{log}'; printf '\\000\\001\\001\\000\\000\\000\\000\\000\\000'", "rule")
    solver = stand_in(folder, f"echo none 1; echo asked >> '{log}'", "solver")
    code, _, _ = run("solve", text, "--program", solver, root=root)
    given = log.read_text().split()
    expected = "003 ( 1 | 0 ) * 2 003 0".split() + ["asked"] * 5
    return [] if (code, given) == (NONE, expected) else [f"calls: {code}, {given}"]


def main():
    wrong = [f"{path.name} is not there: run `{command}` first" for path, command in MADE_BY.items() if path.parent.name == "bin" and not path.is_file()]
    if not wrong:
        wrong = packed() + languages() + taught() + broken()
        with tempfile.TemporaryDirectory() as folder:
            wrong += by_the_tool(Path(folder)) + stand_ins(Path(folder))
    for line in wrong:
        print("rules: " + line)
    if not wrong:
        print(f"rules: {len(PACKED)} texts, {len(LANGUAGES + TAUGHT)} languages, {len(BROKEN)} broken patterns and {len(STAND_INS)} stand-ins are as by hand")
    return 1 if wrong else 0


sys.exit(main())
