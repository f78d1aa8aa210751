# The text form and its tool, tools/problem.py: texts against files laid out by hand, files shown and packed again, broken texts with the line and the words of
# their error, refused files by their number, answers in words. `python3 tests/text.py`; it needs no program and no second solver, so that what needs the one
# that makes automata of patterns is in tests/rules.py.
import random
import subprocess
import sys
import tempfile
from pathlib import Path

from edges import EDGES, P14, automaton, file, problem, row, string

ROOT = Path(__file__).resolve().parent.parent
TOOL = ROOT / "tools" / "problem.py"
sys.path[:0] = [str(ROOT / "tools"), str(ROOT / "bench")]
import packing
import patterns
import textform
import wording
from lines import Line
from problems import PROBLEMS

GENERATED, SEED = 300, 20
ABC = "alphabet a..c -\n"  # symbols 0 to 3
X, N, D = 'string x = "a"\n', "number n in 1\n", "automaton d\n"

# (text, the file it is packed into)
TEXTS = [
    ("alphabet a", file(k=1)),
    ("# nothing but\n\n   alphabet a..d # four letters\n", file(k=4)),
    ('alphabet a..z A..Z 0..9 - " "', file(k=64)),
    ('alphabet b a " #,\\"\\\\" é\nstring x = "é\\"\\\\, #ab"', problem(8, [string(7, 5, 6, 4, 2, 3, 1, 0)])),
    ("\ufeffalphabet a\r\nnumber n in 0, 2..4, 63\r\n", problem(1, [], [{0, 2, 3, 4, 63}])),
    ("alphabet a\nnumber n in none\nnumber m in 0..63", problem(1, [], [(), range(64)])),
    (ABC + 'string x = ""\nstring y = "-ab"', problem(4, [string(), string(3, 0, 1)])),
    (ABC + "string x length 1, 3", problem(4, [row({1, 3}, *[range(4)] * 3)])),
    (ABC + 'string x length 0..2 of a "-"', problem(4, [row({0, 1, 2}, {0, 3}, {0, 3})])),
    (ABC + "string x length none of a\nstring y length 2 of none", problem(4, [row(()), row({2})])),
    (ABC + "string x length 3 of b\n  at 1, 3 any\nat 2 a c\nat 5 -", problem(4, [row({3}, range(4), {0, 2}, range(4), (), {3})])),
    (ABC + "string x length 0\nat 63 a..b\nat 1 none", problem(4, [row({0}, *[()] * 62, {0, 1})])),
    (ABC + "string x\nstring y of a c\nat 63 b\nnumber n", problem(4, [row(range(64), *[range(4)] * 63), row(range(64), *[{0, 2}] * 62, {1})], [range(64)])),
    (ABC + "string x length 63 of a", problem(4, [row({63}, *[{0}] * 63)])),
    # a constraint may stand before what it names; variables keep the order of their declaration
    (
        ABC + "cat z x y\nlen z n\nstring x length 1\nnumber n in 1\nstring y length 1\nstring z length 1",
        problem(4, [row({1}, range(4))] * 3, [{1}], [(4, 2, 0, 1), (6, 2, 0, 0)]),
    ),
    (
        ABC + 'string x = "a"\nstring y = "b"\nnumber m in 1\nnumber n in 2\neq x y\nneq y x\nrev x y\nsub x y n\nlen y m\nlen y m',
        problem(4, [string(0), string(1)], [{1}, {2}], [(1, 0, 1, 0), (2, 1, 0, 0), (3, 0, 1, 0), (5, 0, 1, 1), (6, 1, 0, 0), (6, 1, 0, 0)]),
    ),
    (
        ABC + 'string x = "a"\nautomaton one\naccepting q any to q\nautomaton two\nstate even a to odd, - b to even, other to q\n'
        "accepting odd c - to even, a b to odd\nstate q other to q\nregular x two\nregular x one",
        problem(
            4,
            [string(0)],
            records=[(7, 0, 1, 0), (7, 0, 0, 0)],
            machines=[automaton(4, 1), automaton(4, 3, 2, [1, 0, 2, 0, 1, 1, 0, 0, 2, 2, 2, 2])],
        ),
    ),
    # letters that a line does not name: no move, byte 255
    (
        ABC + D + "state start a b to more\naccepting more - to start, a..c to more",
        problem(4, [], machines=[automaton(4, 2, 0b10, [1, 1, 255, 255, 1, 1, 1, 0])]),
    ),
    (ABC + D + "accepting end", problem(4, [], machines=[automaton(4, 1, 0b1, [255] * 4)])),  # the empty string alone
    (ABC + D + "state q # nothing behind the name\nstate r", problem(4, [], machines=[automaton(4, 2, 0, [255] * 8)])),
    (ABC + D + "state q none to q", problem(4, [], machines=[automaton(4, 1, 0, [255] * 4)])),
    (ABC + D + "state q - to r\naccepting r any to r", problem(4, [], machines=[automaton(4, 2, 0b10, [255, 255, 255, 1, 1, 1, 1, 1])])),
    (ABC + D + "state q a to q, other to r\naccepting r b to q", problem(4, [], machines=[automaton(4, 2, 0b10, [0, 1, 1, 1, 255, 0, 255, 255])])),
    # 32 states, none of them a sink: the text of 31 letters a
    (
        ABC + D + "".join(f"state q{i} a to q{i + 1}\n" for i in range(31)) + "accepting q31",
        problem(4, [], machines=[automaton(4, 32, 1 << 31, [to for i in range(1, 32) for to in (i, 255, 255, 255)] + [255] * 4)]),
    ),
    (
        "alphabet 0 1\nstring x length 1, 2\nstring y length 0, 1 of 1\nstring z length 2\n  at 1 0\nnumber n in 0..3\ncat x y z\nlen x n",
        P14,
    ),
]

# texts that are shown as they stand: the letters of most places in the first line, `any`, `none` and the rest left out where they can be
SHOWN = [
    'alphabet b a " " / "#" c..e\nstring x\nstring y length 2 of / "#"\nstring z length 0, 1, 63 of b a\n  at 1, 3..5 any\n  at 2 c..e\nnumber n\n'
    "number m in 0..2, 4, 5\nsub y z m\nlen x n\n",
    "alphabet a..z 0..9\nstring x length none\n  at 63 a\nstring y length 1 of none\nautomaton word\n  state start a..z to more, other to no\n"
    "  accepting more a..y to more, z to start, other to no\n  state no any to no\nautomaton odd\n  state even 1 3 to odd, other to even\n"
    "  accepting odd 1 3 to even, other to odd\nregular x odd\nregular y word\n",
    # beside a gap no `other`, and the moves by their first letters; a state without gaps has it, also where it leads to one without moves
    "alphabet a..z 0..9 -\nautomaton path\n  state start a..z to signer\n  state signer a..z to signer, - to behind\n  state behind 0..9 to counter\n"
    "  accepting counter 0..9 to counter\nautomaton nothing\n  accepting end\nautomaton d\n  state q a..y to end, z to q, 0..4 to r\n"
    "  accepting r 0..9 to q, - to r, other to end\n  state end\n",
]

LETTERS64 = 'alphabet a..z A..Z 0..9 - " "'
STATEMENTS = "alphabet, string, at, number, rule, automaton, state, accepting, eq, neq, rev, cat, sub, len, regular"

# (text, line of the error, its words)
BROKEN = [
    ("", 1, "there is no alphabet: expected 'alphabet' and its letters"),
    ("# only this\n", 1, "there is no alphabet: expected 'alphabet' and its letters"),
    ("number n in 1\nalphabet a", 1, "the alphabet comes first: expected 'alphabet' and its letters"),
    ("\nalphabet", 2, "expected letters, found the end of the line"),
    ("alphabet a b a", 1, "the letter 'a' is in the alphabet twice"),
    ('alphabet a "b\tc"', 1, "the character '\\t' cannot be a letter: expected one that prints"),
    (LETTERS64 + " /", 1, "the alphabet has 65 letters: expected 64 at most"),
    ("alphabet a..Z", 1, "a..Z is no range: expected one within a..z, A..Z or 0..9"),
    ("alphabet z..a", 1, "z..a is no range: expected one within a..z, A..Z or 0..9"),
    ("alphabet abc", 1, "expected a letter, a range such as a..z, or letters in quotes, found 'abc'"),
    ("alphabet a, b", 1, "expected the end of the line, found ','"),
    (ABC + "alphabet d", 2, "there is an alphabet already: expected only one"),
    (ABC + 'string x = "ab', 2, 'a quote is not closed: expected another "'),
    (ABC + 'string x = "a\\n"', 2, '\\n stands for nothing: expected \\" or \\\\ in a quoted text'),
    (ABC + "strng x length 1", 2, f"no statement begins with 'strng' (they are {STATEMENTS})"),
    (ABC + '"string" x length 1', 2, f'no statement begins with "string" (they are {STATEMENTS})'),
    (ABC + "string", 2, "expected the name of a string, found the end of the line"),
    (ABC + "string 1x length 2", 2, "expected the name of a string, found '1x' (a name is letters, digits, - and _, and begins with a letter or _)"),
    (ABC + "string x 2..4", 2, "expected 'length' and lengths, 'of' and letters, or '=' and a quoted text, found '2..4'"),
    (ABC + "string x length", 2, "expected a length, found the end of the line"),
    (ABC + "string x length 2,", 2, "expected a length, found the end of the line"),
    (ABC + "string x length 2-4", 2, "expected a length or a range such as 2..4, found '2-4'"),
    (ABC + "string x length 60..64", 2, "60..64 is out of range: a length is 0 to 63"),
    (ABC + f"string x length {'9' * 10000}", 2, f"expected a length or a range such as 2..4, found '{'9' * 10000}'"),
    (ABC + "string x length 4..2", 2, "4..2 is no range: expected the lower number first"),
    (ABC + "string x length 1 2", 2, "expected the end of the line, found '2'"),
    (ABC + "string x length 1 of", 2, "expected letters, found the end of the line"),
    (ABC + "string x length 1 of a d", 2, "the letter 'd' is not in the alphabet (a..c -)"),
    (ABC + "string x length 1 of any a", 2, "expected the end of the line, found 'a'"),
    (ABC + "string x = ab", 2, "expected a quoted text, found 'ab'"),
    (ABC + 'string x = "a/b"', 2, "the letter '/' is not in the alphabet (a..c -)"),
    (ABC + f'string x = "{"a" * 64}"', 2, "the text has 64 letters: expected 63 at most"),
    (ABC + X + "\nstring x length 1", 4, "'x' is declared twice: it is a string in line 2"),
    (ABC + X + "number x in 1", 3, "'x' is declared twice: it is a string in line 2"),
    (ABC + "".join(f"string x{i} length 1\n" for i in range(17)), 18, "'x16' is one too many: expected 16 strings at most"),
    (ABC + "".join(f"number n{i} in 1\n" for i in range(17)), 18, "'n16' is one too many: expected 16 numbers at most"),
    (ABC + "".join(f"automaton d{i}\nstate q any to q\n" for i in range(9)), 18, "'d8' is one too many: expected 8 automata at most, rules included"),
    (ABC + "at 1 a", 2, "an 'at' line belongs under a 'string' line with lengths"),
    (ABC + X + "at 1 a", 3, "an 'at' line belongs under a 'string' line with lengths"),
    (ABC + "string x length 1\nnumber n in 1\nat 1 a", 4, "an 'at' line belongs under a 'string' line with lengths"),
    (ABC + "string x length 3\nat 0 a", 3, "0 is out of range: a place is 1 to 63"),
    (ABC + "string x length 3\nat 1..2 a\nat 2 b", 4, "place 2 has its letters already: expected each place once"),
    (ABC + "string x length 3\nat 1", 3, "expected letters, found the end of the line"),
    (ABC + "number n = 3", 2, "expected 'in' and the values, found '='"),
    (ABC + "number n in 64", 2, "64 is out of range: a value is 0 to 63"),
    (ABC + 'number n in "3"', 2, 'expected a value or a range such as 2..4, found "3"'),
    (ABC + "rule", 2, "expected the name of a rule, found the end of the line"),
    (ABC + "rule r", 2, "expected '=' and a pattern, found the end of the line"),
    (ABC + "rule r a*", 2, "expected '=' and a pattern, found 'a*'"),
    (ABC + "rule r =a*", 2, "expected '=' and a pattern, found '=a*'"),
    (ABC + "rule r = (a|d)*", 2, "the letter 'd' is not in the alphabet (a..c -)"),
    (ABC + "rule r = (a|A)*", 2, "the letter 'A' is not in the alphabet (a..c -)"),
    (ABC + 'rule r = a" "b', 2, "the letter ' ' is not in the alphabet (a..c -)"),
    (ABC + "rule r = -(a..c)*", 2, "a pattern has no ranges: expected each letter by itself, as in (a|b|c), found 'a..c'"),
    (ABC + 'rule r = "a..c"', 2, "the letter '.' is not in the alphabet (a..c -)"),
    (ABC + "rule r = a, b", 2, "expected letters, | * ( and ), found ',': a comma that is a letter stands in quotes"),
    ('alphabet a ","\nrule r = a,a', 2, "expected letters, | * ( and ), found ',': a comma that is a letter stands in quotes"),
    ('alphabet a |\nrule r = a"|"', 2, "'|' is a sign of patterns, and no pattern can name it as a letter: expected an automaton by moves for such a rule"),
    (ABC + 'rule r = "(a"', 2, "'(' is a sign of patterns, and no pattern can name it as a letter: expected an automaton by moves for such a rule"),
    (ABC + 'rule r = "a', 2, 'a quote is not closed: expected another "'),
    (
        LETTERS64 + "\nrule r = M*N",
        2,
        "'N' is letter 40 of the alphabet, and no pattern can name it: expected the letters of rules among the first 39, or an automaton by moves",
    ),
    (ABC + f"rule r = {'a' * 64}", 2, "the pattern has 64 letters and signs: expected 63 at most"),
    (ABC + f"rule r = {'(a | b) ' * 13}", 2, "the pattern has 65 letters and signs: expected 63 at most"),
    (ABC + "rule r = a\n\nrule r = b", 4, "'r' is declared twice: it is a rule in line 2"),
    (
        ABC + "".join(f"automaton d{i}\nstate q any to q\n" for i in range(7)) + "rule d7 = a\nrule d8 = a",
        17,
        "'d8' is one too many: expected 8 automata at most, rules included",
    ),
    (ABC + "rule r = a\nstate q any to q", 3, "a state belongs under an 'automaton' line"),
    (ABC + X + "rule r = a\neq x r", 4, "'r' is a rule (line 3): expected a string here (eq string string)"),
    (ABC + X + "rule r = a\nregular x s", 4, "no automaton is called 's' (declared: r)"),
    (ABC + "rule r = *\neq x y", 3, "no string is called 'x' (declared: none)"),  # whether this is a pattern is not asked
    (ABC + "state q any to q", 2, "a state belongs under an 'automaton' line"),
    (ABC + D + "state q any to q\nnumber n in 1\naccepting r any to q", 5, "a state belongs under an 'automaton' line"),
    (ABC + D + X, 2, "automaton 'd' has no state: expected 'state' or 'accepting' lines under it"),
    (ABC + D, 2, "automaton 'd' has no state: expected 'state' or 'accepting' lines under it"),
    (ABC + D + "state q any to q\nstate q any to q", 4, "state 'q' of 'd' is declared twice: it is in line 3"),
    (ABC + D + "".join(f"state q{i} any to q0\n" for i in range(33)), 35, "state 'q32' of 'd' is one too many: expected 32 at most"),
    (ABC + D + "".join(f"state q{i}\n" for i in range(33)), 35, "state 'q32' of 'd' is one too many: expected 32 at most"),
    (ABC + D + "state q a to q,", 3, "expected letters, found the end of the line"),
    (ABC + D + "state q to q", 3, "expected letters, found 'to'"),
    (ABC + D + "state q any q", 3, "expected 'to' and a state, found 'q'"),
    (ABC + D + "state q a..c", 3, "expected 'to' and a state, found the end of the line"),
    (ABC + D + "state q a to q, a to r\nstate r", 3, "the letter 'a' has two moves from state 'q'"),
    (ABC + D + "state q a b to q, b c to q, - to q", 3, "the letter 'b' has two moves from state 'q'"),
    (ABC + D + "state q other to q, a to q", 3, "expected the end of the line, found ','"),
    (ABC + D + "state q a to r, other to s\nstate s any to q", 3, "no state of 'd' is called 'r' (declared: q, s)"),
    (ABC + D + "state q a to q\naccepting s b to r", 4, "no state of 'd' is called 'r' (declared: q, s)"),
    (ABC + "eq x y", 2, "no string is called 'x' (declared: none)"),
    (ABC + X + 'string signer = "b"\n\neq corse x', 5, "no string is called 'corse' (declared: x, signer)"),
    (ABC + X + N + "len x m", 4, "no number is called 'm' (declared: n)"),
    (ABC + X + N + "len n x", 4, "'n' is a number (line 3): expected a string here (len string number)"),
    (ABC + X + D + "state q any to q\nregular x q", 5, "no automaton is called 'q' (declared: d)"),
    (ABC + X + "cat x x", 3, "expected the name of a string (cat string string string), found the end of the line"),
    (ABC + X + "eq x x", 3, "eq names one string twice: expected different strings"),
    (ABC + X + 'string y = "a"\ncat x y x', 4, "cat names one string twice: expected different strings"),
    (ABC + X + N + "sub x x n", 4, "sub names one string twice: expected different strings"),
    (ABC + X + N + "len x n n", 4, "expected the end of the line, found 'n'"),
    (ABC + X + N + "len x n\n" * 65, 68, "'len' is one constraint too many: expected 64 at most"),
    (b"alphabet a\n# \xff", 2, "a byte is not UTF-8: expected plain text"),
]

# (the letters of an alphabet, a pattern in them, the same in the library's letters, which stand for the symbols 0, 1 and so on)
PATTERNS = [
    ("ab", "(a|b)*a", "(0|1)*0"),
    ("ba", " ( a | b )* a  # a comment", "(1|0)*1"),
    ("ab", "", ""),
    ("ab", '""', ""),
    ("a.#", 'a..a("#"|)', "0110(2|)"),
    ("a|", "a|a", "0|0"),
    ('ABCDEFGHIJKLMNOPQRSTUVWXYZ ,"\\#0123456789', 'ABCDEFGHIJKLMNOPQRSTUVWXYZ" ,\\"\\\\#"01234567', "0123456789.abcdefghijklmnopqrstuvwxyz-/"),
]

UNFIT = "the file has 3 strings, the text 2: expected the text that it was packed from"  # P14's file, the text NAMED
NAMED = "alphabet x y\nstring course length 1\nstring none = \"\"\nnumber width in 3\n"
LISTED = 'alphabet a..c -\nstring x = "a"\nautomaton d\n  state q a b to end\n  accepting end\nregular x d\n'
FIRST = "line 1: expected found, none, spent or refused and a number, as the program prints"
# (lines that the program prints for NAMED, the answer in words or its error)
ANSWERS = [
    (
        "found 7\ns0 1 1\ns1 0\nn0 3\n",
        'found: these values meet every constraint, and are the first that do; nodes visited: 7\n  course = "y"\n  none = ""\n  width = 3\n',
    ),
    ("none 1\n", "none: no values meet every constraint; nodes of the whole search tree: 1\n"),
    ("spent 65536\n", "spent: the budget ran out before the answer was known; nodes visited: 65536\n"),
    ("refused 8\n", "refused 8: a constraint names one string twice\n"),
    ("refused 9\n", wording.Unfit("line 1: 9 is no refusal of a file: expected 1 to 8")),
    ("", wording.Unfit("it is empty: the program has not answered")),
    ("none 1", wording.Unfit("line 1 does not end in a newline: the output is cut")),
    ("fou", wording.Unfit("line 1 does not end in a newline: the output is cut")),
    ("found 7\ns0 1 1\ns1 0\nn0 3", wording.Unfit("line 4 does not end in a newline: the output is cut")),
    ("\n", wording.Unfit(FIRST)),
    ("none\n", wording.Unfit(FIRST)),
    ("none 1\r\n", wording.Unfit(FIRST)),
    ("none 99999999999\n", wording.Unfit(FIRST)),
    ("none 1\nnone 1\n", wording.Unfit("it has 2 lines: expected 1 for 'none' and this text")),
    ("found 7\ns0 1 1\ns1 0\n", wording.Unfit("it has 3 lines: expected 4 for 'found' and this text")),
    ("found 7\ns0 1 2\ns1 0\nn0 3\n", wording.Unfit("line 2: expected 's0' and a length and as many symbols below 2, found 's0 1 2'")),
    ("found 7\ns0 1\ns1 0\nn0 3\n", wording.Unfit("line 2: expected 's0' and a length and as many symbols below 2, found 's0 1'")),
    ("found 7\ns0 1 1\ns1 0\nn0 3 3\n", wording.Unfit("line 4: expected 'n0' and a value, found 'n0 3 3'")),
]

# What the paper says of each refusal, in a few words of it.
MEANT = {1: "24 bytes", 2: "TAIL", 3: "out of range", 4: "distances", 5: "automata", 6: "alphabet", 7: "kind", 8: "twice"}
# (states, a next state, whether a file may have it)
NEXT = [(1, 0, True), (1, 1, False), (2, 1, True), (2, 2, False), (32, 31, True), (32, 32, False)] + [(q, n, n == 255) for q in (1, 2, 32) for n in (254, 255)]
REFUSED_5 = (
    "refused 5: the automata are not exactly as many as the trailer counts, each with 1 to 32 states and every next state one of them, or 255 for no move"
)


def words(rng, k, size):
    """So many words below 2^k: all alike, few different, or each for itself."""
    some = [0, 2**k - 1, 1 << rng.randrange(k)] + [rng.getrandbits(k) for _ in range(3)]
    return rng.choice([[some[rng.randrange(6)]] * size, rng.choices(some, k=size), [rng.getrandbits(k) for _ in range(size)]])


def any_row(rng, k):
    """A row: one tidy text, a tidy row, or anything."""
    length = rng.choice([0, 1, 2, 5, 62, 63])
    return rng.choice(
        [
            string(*[rng.randrange(k) for _ in range(length)]),
            [rng.getrandbits(length + 1)] + words(rng, k, length) + [0] * (63 - length),
            [rng.choice([0, 1, 1 << length, 2**64 - 1, rng.getrandbits(64)])] + words(rng, k, 63),
        ]
    )


def any_automaton(rng, k):
    """Every move alike or each for itself; without gaps, with few, with many, or with nothing else."""
    q = rng.choice([1, 2, 3, 32])
    moves = rng.choice([None, [rng.randrange(q) for _ in range(q * k)], [q - 1] * (q * k), [255] * (q * k)])
    gaps = rng.choice([0, 0, 0.1, 0.7])
    if moves:
        moves = [255 if rng.random() < gaps else to for to in moves]
    return automaton(k, q, rng.choice([0, 2**q - 1, rng.getrandbits(q)]), moves)


def any_record(rng, s, t, d):
    """A constraint between things that are there."""
    kinds = [1, 2, 3] * (s > 1) + [4] * (s > 2) + [5] * (s > 1 and t > 0) + [6] * (s > 0 and t > 0) + [7] * (s > 0 and d > 0)
    if not kinds:
        return []
    kind = rng.choice(kinds)
    strings = rng.sample(range(s), {4: 3, 6: 1, 7: 1}.get(kind, 2))
    last = {5: t, 6: t, 7: d}.get(kind)
    return [([kind] + strings + ([] if last is None else [rng.randrange(last)]) + [0, 0])[:4]]


def generated(rng):
    """A file that Read accepts."""
    k, s, t, d = rng.choice([1, 2, 10, 37, 63, 64]), rng.choice([0, 1, 2, 3, 16]), rng.choice([0, 1, 2, 16]), rng.choice([0, 1, 2, 8])
    table = [word for _ in range(s) for word in any_row(rng, k)] + words(rng, 64, t)
    records = [record for _ in range(rng.choice([0, 1, 5, 64])) for record in any_record(rng, s, t, d)]
    machines = b"".join(any_automaton(rng, k) for _ in range(d))
    return file(k, s, t, d, words=dict(enumerate(table)), records=records, machines=machines)


def read(written):
    return textform.read("text", written if isinstance(written, bytes) else written.encode())


def packed(written):
    """The file of a text, or what its error says."""
    try:
        return packing.pack(read(written))
    except textform.Wrong as error:
        return str(error)


def complaint(act, *kinds):
    """What an error of these kinds says, or that there was none."""
    try:
        act()
    except kinds as error:
        return str(error)
    return "no error"


def texts():
    wrong = [f"text {i} of TEXTS is not packed into its file" for i, (written, content) in enumerate(TEXTS) if packed(written) != content]
    return wrong + [f"text {i} of SHOWN is not shown as it stands" for i, written in enumerate(SHOWN) if wording.text(read(written)) != written]


def errors():
    said = [(written, f"text:{line}: {message}", complaint(lambda: read(written), textform.Wrong)) for written, line, message in BROKEN]
    return [f"{written!r}: {got}" for written, expected, got in said if got != expected]


def translations():
    wrong = []
    for letters, written, expected in PATTERNS:
        line = Line("text", 1, written)
        wrong += [] if patterns.translated(line, line.rest(), lambda letter, _: letters.index(letter)) == expected else [f"{written!r} is not put into the library's letters"]
    return wrong


def accepted():
    rng = random.Random(SEED)
    files = [(what, content) for what, content, _, read, *_ in EDGES if not isinstance(read, int)]
    files += [(name, p.file()) for name, _, p in PROBLEMS] + [(f"text {i}", content) for i, (_, content) in enumerate(TEXTS)]
    return files + [(f"file {i} of seed {SEED}", generated(rng)) for i in range(GENERATED)]


def round_trips(files):
    """What show prints is packed into the same bytes."""
    wrong = []
    for what, content in files:
        try:
            right = packed(wording.text(packing.unpack(content))) == content
        except packing.Refused as error:
            right = False
            what += f": {error}"
        wrong += [] if right else [f"{what}: not the same bytes after show and pack"]
    return wrong


def named_trips():
    """With the names of its text a file is shown with these names, and packed again it is the same."""
    wrong = []
    for i, (written, content) in enumerate(TEXTS):
        names = read(written)
        shown = wording.text(wording.renamed(packing.unpack(content), names))
        if packed(shown) != content or read(shown) != names:
            wrong.append(f"text {i} of TEXTS is not shown with its own names")
    said = complaint(lambda: wording.renamed(packing.unpack(P14), read(NAMED)), wording.Unfit)
    if said != UNFIT:
        wrong.append("a text with fewer strings lends its names")
    return wrong


def counts_of(content):
    p = packing.unpack(content)
    return len(p.letters), len(p.strings), len(p.numbers), len(p.automata), len(p.constraints)


def refusals():
    wrong = []
    for what, content, _, read, *_ in EDGES + [("a byte longer than the largest file", b"\0" * 25025, 0, 4)]:
        said = complaint(lambda: counts_of(content), packing.Refused)
        if isinstance(read, int) and not (said.startswith(f"refused {read}: ") and MEANT[read] in said):
            wrong.append(f"{what}: {said}")
        if not isinstance(read, int) and (said != "no error" or counts_of(content) != read):
            wrong.append(f"{what}: not the counts that Read answers")
    return wrong


def next_states():
    """A next state is below q, or 255 for none, wherever it stands in the automaton."""
    wrong = []
    for q, target, good in NEXT:
        for place in (0, 3 * q - 1):
            content = file(k=3, d=1, machines=automaton(3, q, 0, [0] * place + [target] + [0] * (3 * q - 1 - place)))
            said = complaint(lambda: packing.unpack(content), packing.Refused)
            wrong += [] if said == ("no error" if good else REFUSED_5) else [f"a next state {target} of {q} states at place {place}: {said}"]
    return wrong


def answers():
    problem_named, wrong = read(NAMED), []
    for lines, expected in ANSWERS:
        if isinstance(expected, str):
            right = wording.answer(problem_named, lines) == expected
        else:
            right = complaint(lambda: wording.answer(problem_named, lines), wording.Unfit) == str(expected)
        wrong += [] if right else [f"{lines!r} is not put into the words expected"]
    return wrong


def run(*arguments, given=b""):
    done = subprocess.run([sys.executable, str(TOOL), *map(str, arguments)], input=given, capture_output=True, timeout=60)
    return done.returncode, done.stdout, done.stderr.decode()


def commands():
    """The tool as it is called: exit status, standard output, standard error, and what is written."""
    with tempfile.TemporaryDirectory() as folder:
        names = ("good.text", "bad.text", "other.text", "listed.text", "made.problem", "cut.problem", "gap.problem", "past.problem")
        good, bad, other, listed, made, cut, gap, past = (Path(folder) / name for name in names)
        good.write_text(TEXTS[-1][0])
        other.write_text(NAMED)
        bad.write_text(ABC + "eq x y")
        cut.write_bytes(P14[:100])
        listed.write_text(LISTED)
        gap.write_bytes(problem(4, [string(0)], records=[(7, 0, 0, 0)], machines=[automaton(4, 2, 0b10, [1, 1, 255, 255, 255, 255, 255, 255])]))
        past.write_bytes(gap.read_bytes().replace(b"\1\1\xff", b"\1\1\xfe"))
        named = "alphabet 0 1\nstring x length 1, 2\nstring y length 0, 1 of 1\nstring z length 2\n  at 1 0\nnumber n in 0..3\ncat x y z\nlen x n\n"
        plain = named
        for name, position in (("x", "s0"), ("y", "s1"), ("z", "s2"), ("n", "n0")):
            plain = plain.replace(f" {name} ", f" {position} ").replace(f" {name}\n", f" {position}\n")
        runs = [
            (run("pack", bad, "-o", made), (3, b"", f"{bad}:2: no string is called 'x' (declared: none)\n")),
            (made.exists(), False),
            (run("pack", bad), (3, b"", f"{bad}:2: no string is called 'x' (declared: none)\n")),
            (run("pack", good, "-o", made), (0, b"", "")),
            (made.read_bytes() if made.exists() else None, P14),
            (run("pack", good), (0, P14, "")),
            (run("show", made), (0, plain.encode(), "")),
            (run("show", "--names", good, made), (0, named.encode(), "")),
            (run("show", cut), (3, b"", f"{cut}: refused 2: the file does not end in the bytes TAIL\n")),
            (run("pack", listed), (0, gap.read_bytes(), "")),
            (run("show", "--names", listed, gap), (0, LISTED.encode(), "")),
            (run("show", past), (3, b"", f"{past}: {REFUSED_5}\n")),
            (run("answer", good, given=b"none 5\n"), (0, ANSWERS[1][1].replace("1\n", "5\n").encode(), "")),
            (run("answer", good, given=b"spent 5\n"), (2, ANSWERS[2][1].replace("65536\n", "5\n").encode(), "")),
            (run("answer", good, given=b"refused 8\n"), (3, ANSWERS[3][1].encode(), "")),
            (run("answer", good, given=b"found 2\ns0 1 0\ns1 1 1\ns2 2 0 1\nn0 1\n")[::2], (1, "")),
            (run("answer", good, given=b"found 5\n"), (4, b"", "the answer: it has 1 lines: expected 5 for 'found' and this text\n")),
            (run("answer", good), (4, b"", "the answer: it is empty: the program has not answered\n")),
            (run("answer", bad, given=b"none 5\n"), (3, b"", f"{bad}:2: no string is called 'x' (declared: none)\n")),
            (run("show", "--names", other, made), (4, b"", f"{made}: {UNFIT}\n")),
            (run("pack", Path(folder) / "absent.text"), (4, b"", f"{Path(folder) / 'absent.text'}: No such file or directory\n")),
            (run("pack", good, "-o", Path(folder) / "none" / "made"), (4, b"", f"{Path(folder) / 'none' / 'made'}: No such file or directory\n")),
            (run("pack")[:2], (4, b"")),
            (run("pack", "--budget", 5, good)[:2], (4, b"")),
            (run("weigh", good)[:2], (4, b"")),
            (run()[:2], (4, b"")),
        ]
    return [f"command {i}: {got!r} is not {expected!r}" for i, (got, expected) in enumerate(runs) if got != expected]


def main():
    files = accepted()
    wrong = texts() + errors() + translations() + round_trips(files) + named_trips() + refusals() + next_states() + answers() + commands()
    for line in wrong:
        print("text: " + line)
    if not wrong:
        counts = ((TEXTS + SHOWN, "texts"), (BROKEN, "broken texts"), (PATTERNS, "patterns put into the library's letters"))
        counts += ((files, "files shown and packed again"), (EDGES, "edges of Read"), (NEXT, "next states"), (ANSWERS, "answers"))
        print("text: " + ", ".join(f"{len(cases)} {name}" for cases, name in counts) + " stand")
    return 1 if wrong else 0


sys.exit(main())
