# A `none` that says nothing: the warnings of `tools/problem.py`, with their lines. Domains and names by themselves; what counts as a template; and templates
# that have no name even alone, by the program. Expected lines and words stand here by hand.
#     python3 tests/doubtful.py       after `python3 tools/build.py`
import sys
import tempfile
from pathlib import Path

from examples import EXAMPLES, FOLDER, PROGRAMS, ROOT
from solve import NONE, run, stand_in

sys.path.insert(0, str(ROOT / "tools"))
import doubts
import templates
import textform
import wording

HEAD = "alphabet a..c -\nnumber n\n"  # lines 1 and 2
USED = "len x n\n"

# (text, its doubts as (line, words))
DOUBTS = [
    (HEAD + "string x length 0..3\n  at 3 a\n" + USED, []),
    (HEAD + 'string x = "ab"\n' + USED, []),
    (HEAD + "string x length 2\n  at 3 none\n  at 5 a\n" + USED, []),  # places past the greatest length count for nothing
    (HEAD + "string x length 0 of none\n" + USED, []),  # the empty string needs no letter
    (HEAD + "string x length none\n" + USED, [(3, "string 'x' stands for nothing: it has no length")]),
    (HEAD + "string x length none of none\n" + USED, [(3, "string 'x' stands for nothing: it has no length")]),
    (HEAD + "string x length 2, 3 of none\n" + USED, [(3, "string 'x' stands for nothing: place 1 has no letter")]),
    (HEAD + "string x length 2..4\n  at 1 a\n  at 2 none\n" + USED, [(5, "string 'x' stands for nothing: place 2 has no letter")]),
    (HEAD + "string x length 2..4\n  at 3 none\n" + USED, [(4, "string 'x' cannot have length 3, 4: place 3 has no letter")]),
    (HEAD + "string x length 0, 2..5 of none\n  at 1 a\n" + USED, [(3, "string 'x' cannot have length 2..5: place 2 has no letter")]),
    (HEAD + "string x of none\n" + USED, [(3, "string 'x' cannot have length 1..63: place 1 has no letter")]),
    (HEAD + "string x length 5\n  at 2, 4 none\n" + USED, [(4, "string 'x' stands for nothing: place 2 has no letter")]),
    ("alphabet a\nstring x\nnumber n in none\nlen x n", [(3, "number 'n' has no value")]),
    (HEAD + "string x\n", [(2, "number 'n' is in no constraint"), (3, "string 'x' is in no constraint")]),
    (
        HEAD + "string x\nstring y\nstring z length none\n" + USED + "neq y x",
        [(5, "string 'z' stands for nothing: it has no length"), (5, "string 'z' is in no constraint")],
    ),
    ("alphabet a\nstring x\nautomaton d\nstate q any to q\nregular x d", [(3, "automaton 'd' accepts nothing: no accepting state can be reached from 'q'")]),
    # `end` accepts, but no letter leads to it
    (
        "alphabet a b\nstring x\nautomaton d\nstate q any to r\nstate r a to q, b to r\naccepting end any to q\nregular x d",
        [(3, "automaton 'd' accepts nothing: no accepting state can be reached from 'q'")],
    ),
    ("alphabet a b\nstring x\nautomaton d\nstate q any to r\nstate r a to q, b to end\naccepting end any to q\nregular x d", []),
    # no move leads from `q` to `end`
    (
        "alphabet a b\nstring x\nautomaton d\nstate q a to r\nstate r b to q\naccepting end any to q\nregular x d",
        [(3, "automaton 'd' accepts nothing: no accepting state can be reached from 'q'")],
    ),
    ("alphabet a b\nstring x\nautomaton d\nstate q\nregular x d", [(3, "automaton 'd' accepts nothing: no accepting state can be reached from 'q'")]),
    ("alphabet a b\nstring x\nautomaton d\naccepting q\nregular x d", []),  # the empty string alone
    ("alphabet a b\nstring x\nautomaton d\nstate q a to r\nstate r b to end\naccepting end\nregular x d", []),
    ("alphabet a b\nstring x\nautomaton d\naccepting q a to q, other to no\nstate no any to no\nregular x d", []),  # a sink is no doubt
    ("alphabet a\nautomaton d\naccepting q any to q", [(2, "automaton 'd' is in no constraint")]),
    ("alphabet a b\nstring x\nrule d = (a|b)*\nregular x d", []),
    ("alphabet a b\nstring x\nrule d =\nregular x d", []),  # the empty string alone, but that is something
    ("alphabet a b\nrule d = a", [(2, "rule 'd' is in no constraint")]),
    ("alphabet a..c .\nstring x\nrule d = a..c*\nregular x d", [(3, "rule 'd' has a..c, which is no range in a pattern, but a, two dots and c")]),
    ('alphabet a..c .\nstring x\nrule d = a".."c*|..|a..b"c"\nregular x d', [(3, "rule 'd' has a..b, which is no range in a pattern, but a, two dots and b")]),
    ('alphabet a..c .\nstring x\nrule d = "a..c"|a...c|a. .c\nregular x d', []),
]

A, B = "cat a1 a2 name\n", "cat b1 b2 name\n"


def text(constraints, **domains):
    """A text with what its constraints name, the strings in the order of their names and without a domain if none is given, and then the number `n`. The
    alphabet is its first line."""
    named = {name for line in constraints.splitlines() for name in line.split()[1:]}
    strings = "".join(f"string {name} {domains.get(name, '')}\n" for name in sorted(named - {"n", "rule"}))
    return "alphabet a..c -\n" + strings + ("number n\n" if "n" in named else "") + constraints


# (constraints, the templates that they make)
TEMPLATES = [
    (A + B, ["a1 a2 = name", "b1 b2 = name"]),
    ("cat a1 a2 af\ncat af a3 name\ncat b2 b3 bb\ncat b1 bb name\n", ["a1 a2 a3 = name", "b1 b2 b3 = name"]),
    ("cat a1 a2 ab\ncat a3 a4 ac\ncat ab ac name\n" + B, ["a1 a2 a3 a4 = name", "b1 b2 = name"]),
    ("cat a1 dash front\ncat front a2 name\ncat front b2 name\n", ["a1 dash a2 = name", "a1 dash b2 = name"]),  # both have the front
    ("cat a1 dash front\ncat front dash middle\ncat middle a1 name\n" + B, ["a1 dash dash a1 = name", "b1 b2 = name"]),  # a piece twice
    (A + B + "cat c1 c2 name\n", ["a1 a2 = name", "b1 b2 = name", "c1 c2 = name"]),
    ("cat a1 a2 m\ncat b1 b2 n1\neq m n1\n", ["a1 a2 = m", "b1 b2 = n1"]),
    (A, []),  # one template alone shares its name with none
    ("cat a1 a2 m\ncat b1 b2 n1\neq m a1\n", []),  # parts that are equal make no name
    ("cat a1 a2 m\ncat b1 b2 n1\n", []),
    ("cat a1 a2 m\ncat m b2 n1\neq m n1\n", []),  # m is joined itself
    ("cat a1 a2 m\ncat b1 b2 n1\neq m n1\ncat m c1 c2\n", []),
    (A + B + "cat folder name path\n", []),  # this `cat` is of no template
    ("cat a1 a2 m\ncat b1 b2 m\ncat c1 c2 n1\ncat d1 d2 n1\n", []),  # two names
    ("cat a1 a2 m\ncat m b1 a1\ncat c1 c2 m\n", []),  # a1 is made of m, and m of a1
    (A + "cat c1 c2 name\ncat name d c1\n", []),  # the name is made of itself by one `cat`, and not by the other
]

# (text, which template, the problem of this template alone: its strings, its numbers, its constraints)
ALONE = [
    (
        text(A + B + "neq a1 b1\neq a2 b2\nlen a1 n\nlen b1 n\nregular name rule\nrev name c\nneq a2 c\n") + "automaton rule\naccepting q any to q\n",
        (0, "a1 a2 c name", "n", ["cat a1 a2 name", "len a1 n", "regular name rule", "rev name c", "neq a2 c"]),
        (1, "b1 b2 c name", "n", ["cat b1 b2 name", "len b1 n", "regular name rule", "rev name c"]),
    ),
    (
        text("cat part dash name\ncat dash part name\nlen name n\nneq part dash\n"),
        (0, "dash name part", "n", ["cat part dash name", "len name n", "neq part dash"]),
        (1, "dash name part", "n", ["cat dash part name", "len name n", "neq part dash"]),
    ),
    (
        text("cat a1 a2 m\ncat b1 b2 n1\neq m n1\nlen n1 n\n"),
        (0, "a1 a2 m", "", ["cat a1 a2 m"]),
        (1, "b1 b2 n1", "n", ["cat b1 b2 n1", "len n1 n"]),
    ),
]

ONE, FOUR, RULE = "length 1 of a", "length 4", "automaton rule\nstate q b to r, other to q\naccepting r any to r\n"
NO_NAME, CLASH = "has no name at all, so the answer says nothing about a clash", "so the answer is none whatever the rest of the text says"
A_HAS_NONE = f"warning: the template a1 a2 = name {NO_NAME}"
# (text, what `solve` says besides, as (line, words)); the answer is none. The strings stand in lines 2 to 6, A in line 7.
SAID = [
    # A's names have the letter a twice, B's begin with b: a clash is shut out, and both have names
    (text(A + B, a1=ONE, a2=ONE, b1="length 1 of b", b2=ONE), []),
    # A's pieces have one letter each, its name four
    (text(A + B, a1=ONE, a2=ONE, b1=FOUR, name=FOUR), [(7, A_HAS_NONE)]),
    (text(A + B, a1=ONE, a2=ONE, b1=ONE, b2=ONE, name=FOUR), [(7, A_HAS_NONE), (8, f"warning: the template b1 b2 = name {NO_NAME}")]),
    # a name of B has a b, as the rule has it, and a name of A has none
    (
        text(A + B + "regular name rule\n", a1=ONE, a2=ONE, b1="length 1 of b", b2=ONE) + RULE,
        [(7, f"note: no name of the template a1 a2 = name meets line 9, {CLASH}")],
    ),
    # the same rule as a pattern
    (
        text(A + B + "regular name rule\n", a1=ONE, a2=ONE, b1="length 1 of b", b2=ONE) + "rule rule = (a|b|c|-)*b(a|b|c|-)*\n",
        [(7, f"note: no name of the template a1 a2 = name meets line 9, {CLASH}")],
    ),
    # the rule is said of a part, so that it can only be A's
    (text(A + B + "regular a1 rule\n", a1=ONE, a2=ONE) + RULE, [(7, A_HAS_NONE)]),
    # what is said of the name and a part of A is A's too; the name, two letters long, is not the part backwards
    (text(A + B + "rev name a1\n", a1=ONE, a2=ONE), [(7, A_HAS_NONE)]),
    # what is said of both together shuts out every pair of names, and each has names
    (text(A + B + "eq a1 b1\nneq a1 b1\n", a1=ONE, a2=ONE, b1=ONE, b2=ONE), []),
    # of a form that is not known nothing is said
    (text(A, a1=ONE, a2=ONE, name=FOUR), []),
]


def read(written):
    return textform.read_text("text", written.encode())


def shown(problem):
    """The strings, the numbers and the constraints of a problem."""
    behind = [line for line in wording.text(problem).splitlines() if line.split()[0] in ("eq", "neq", "rev", "cat", "sub", "len", "regular")]
    return " ".join(problem.strings), " ".join(problem.numbers), behind


def by_hand():
    wrong = [f"{written!r}: {got}" for written, expected in DOUBTS if (got := doubts.doubts(read(written))) != expected]
    for constraints, expected in TEMPLATES:
        got = [str(template) for template in templates.templates(read(text(constraints)).problem)]
        wrong += [] if got == expected else [f"{constraints!r}: {got}"]
    for written, *expected in ALONE:
        problem = read(written).problem
        every = templates.templates(problem)
        for which, *parts in expected:
            got = shown(templates.alone(problem, every[which], every))
            wrong += [] if got == tuple(parts) else [f"{written!r}, template {which} alone: {got}"]
    return wrong


def by_the_tool(folder):
    """`pack` and `solve` warn of the doubts and end as they would without; `solve` speaks of templates too."""
    path, wrong = folder / "asked.text", []
    for written, expected in DOUBTS:
        path.write_text(written)
        warned = "".join(f"{path}:{line}: warning: {message}\n" for line, message in expected)
        for command in (["pack", path, "-o", folder / "made.problem"], ["solve", path]):
            code, output, errors = run(*command)
            right = errors == warned and (code == 0 if command[0] == "pack" else output.split(":")[0] == ["none", "found", "spent"][code])
            wrong += [] if right else [f"{command[0]} {written!r}: {code}, {output}{errors}"]
    for written, expected in SAID:
        path.write_text(written)
        code, output, errors = run("solve", path)
        said = "".join(f"{path}:{line}: {message}\n" for line, message in expected)
        wrong += [] if (code, output.split(":")[0], errors) == (NONE, "none", said) else [f"solve {written!r}: {code}, {output}{errors}"]
    return wrong


def calls(folder):
    """The whole problem is asked with the budget given, each template alone with no more than the program has."""
    path, log = folder / "asked.text", folder / "calls"
    path.write_text(text(A + B))
    program = stand_in(folder, f'echo none 1; echo "$*" >> "{log}"')
    code, _, errors = run("solve", path, "--budget", 100000, "--program", program)
    said = f"{path}:7: {A_HAS_NONE}\n{path}:8: warning: the template b1 b2 = name {NO_NAME}\n"
    right = (code, errors, log.read_text()) == (NONE, said, "- 100000\n- 65536\n- 65536\n")
    return [] if right else [f"calls: {code}, {errors}{log.read_text()}"]


def examples():
    """Of the examples only one has something said of it: the rule of rule.text alone shuts out every name of the high template, as the text explains."""
    wrong = []
    for name in EXAMPLES:
        path = FOLDER / f"{name}.text"
        numbers = {line: i for i, line in enumerate(path.read_text().splitlines(), 1)}
        words = "note: no name of the template signer_high hd counter_high = name meets line"
        expected = ""
        if name == "rule":
            expected = f"{path}:{numbers['cat front_high counter_high name']}: {words} {numbers['regular name plain_path']}, {CLASH}\n"
        errors = run("solve", path)[2]
        wrong += [] if errors == expected else [f"{name}.text: {errors}"]
    return wrong


def main():
    wrong = [f"target/bin/{path.name} is not there: run `python3 tools/build.py {path.name}` first" for path in PROGRAMS if not path.is_file()]
    if not wrong:
        with tempfile.TemporaryDirectory() as folder:
            wrong = by_hand() + by_the_tool(Path(folder)) + calls(Path(folder)) + examples()
    for line in wrong:
        print("doubtful: " + line)
    if not wrong:
        print(f"doubtful: {len(DOUBTS)} texts, {len(TEMPLATES)} forms of templates, {len(ALONE)} split, {len(SAID)} answers of none are said what they are")
    return 1 if wrong else 0


sys.exit(main())
