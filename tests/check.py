# `tools/sets.py check` as a script sees it: broken sets with the place and the words of their error; what it prints, as lines, as JSON and as a page; problems
# as files for other machines; stand-ins that end in every way a program can; warnings, the progress bar, and what cannot be read or written. Expected outputs
# stand here by hand: where a clash is compared, its question has no other one, so that no order of a search matters. Whether verdicts are right is for
# tests/brute.py to ask.
#     python3 tests/check.py        after `python3 tools/build.py clash rule cobleskeg_c`; it needs a C compiler
import json
import os
import pty
import re
import runpy
import shutil
import signal
import subprocess
import sys
import tempfile
from html.parser import HTMLParser
from pathlib import Path
from time import monotonic

from solve import MADE_BY, ROOT, stand_in

sys.path.insert(0, str(ROOT / "tools"))
from checking import page, planning, report, setform  # read once, for `begun`

TOOL = ROOT / "tools" / "sets.py"
PROGRAM = ROOT / "target" / "bin" / "clash"
COUNTERS = Path("bench") / "sets" / "counters.set"  # six templates, which clash and never do
NEVER, CLASH, UNKNOWN, BROKEN, TROUBLE = range(5)
VERDICTS = ("never", "clash", "unknown")
BUDGET = 65536  # of the program
PATIENCE = 120  # seconds for a call

WORDS = "alphabet, part, rule, automaton, state, accepting, template, same"
A_NAME = "(a name is letters, digits, - and _, and begins with a letter or _)"
LETTERS = "(a..c 0..2 -)"  # the alphabet of the broken lines
END = "found the end of the line"
NOT_CLOSED = 'a quote is not closed: expected another "'
ESCAPE = 'stands for nothing: expected \\" or \\\\ in a quoted text'
ZEROS = "is no counter: expected both numbers with the same number of digits, or without zeros in front"
A_PIECE = "expected a piece: the name of a part, or a fixed text in quotes"
NO_ALPHABET = "there is no alphabet: expected 'alphabet' and its letters"
IN_FIRST = "expected the letters of rules among the first 39, or an automaton by moves"
STATES = (
    "the pattern needs more than 32 states: expected fewer letters in it, since most take a state of their own, or an automaton by moves, "
    "where letters can share one"
)

# (lines of a set behind its alphabet, the words of the error). The mark ^ is not part of the set: it stands before the word or the sign that is wrong, or
# where one is missing.
LINES = [
    ("^parts x 1 of a", f"no statement begins with 'parts' (they are {WORDS})"),
    ('^"part" x 1 of a', f'no statement begins with "part" (they are {WORDS})'),
    ("^alphabet d", "there is an alphabet already: expected only one"),
    # names
    ("part^", f"expected the name of a part, {END}"),
    ("part ^2nd 1 of a", f"expected the name of a part, found '2nd' {A_NAME}"),
    ('part ^"x" 1 of a', f'expected the name of a part, found "x" {A_NAME}'),
    ("rule ^(a|b)*", f"expected the name of a rule, found '(a|b)*' {A_NAME}"),
    ("automaton ^-m", f"expected the name of an automaton, found '-m' {A_NAME}"),
    ('template ^= "a"', f"expected the name of a template, found '=' {A_NAME}"),
    ("part ^of 1 of a", "'of' is a word of the text: expected another name"),
    ("rule ^obeys a", "'obeys' is a word of the text: expected another name"),
    ("part x 1 of a\n\npart ^x 1..2", "'x' is declared twice: it is a part in line 2"),
    ('template s = "a"\n  template ^s = "b"', "'s' is declared twice: it is a template in line 2"),
    ("rule r a\nautomaton ^r\nstate q any to q", "'r' is declared twice: it is a rule in line 2"),
    ("automaton r\nstate q any to q\nrule ^r a", "'r' is declared twice: it is a rule in line 2"),
    # parts by lengths and letters
    ("part x^", f"expected lengths, 'of' and letters, or a counter such as 000..119, {END}"),
    ("part x ^a..c", "expected a length or a range such as 2..4, found 'a..c'"),
    ('part x ^"2" of a', 'expected a length or a range such as 2..4, found "2"'),
    ("part x 1, ^of a", "expected a length or a range such as 2..4, found 'of'"),
    ("part x 1, 2,^", f"expected a length, {END}"),
    ("part x 1, ^64 of a", "64 is out of range: a length is 0 to 63"),
    ("part x ^000..119 of a", "000..119 is out of range: a length is 0 to 63"),
    ("part x 0, ^4..2 of a", "4..2 is no range: expected the lower number first"),
    ("part x 2^", f"expected 'of' and letters, {END}"),
    ("part x 2..4 ^a..c", "expected 'of' and letters, found 'a..c'"),
    ("part x 2 of^", f"expected letters, {END}"),
    ("part x 2 of ^obeys r", "expected letters, found 'obeys'"),
    ("part x 2 of a ^bc", "expected a letter, a range such as a..z, or letters in quotes, found 'bc'"),
    ("part x 2 of a ^c..a", "c..a is no range: expected one within a..z, A..Z or 0..9"),
    ("part x 2 of a ^d", f"the letter 'd' is not in the alphabet {LETTERS}"),
    ("part x 2 of ^a..d", f"the letter 'd' is not in the alphabet {LETTERS}"),
    ('part x 2 of ^"a#"', f"the letter '#' is not in the alphabet {LETTERS}"),
    ("part x 2 of ^none", "expected letters, found 'none'"),
    ("part x ^none of a", "expected a length or a range such as 2..4, found 'none'"),
    ("part x 2 of ^d a", f"the letter 'd' is not in the alphabet {LETTERS}"),
    ('part x 2 of ^"ad" b', f"the letter 'd' is not in the alphabet {LETTERS}"),
    ("part x 2 of^   # letters come later", f"expected letters, {END}"),
    ("part x ^0..9", f"the letter '3' is not in the alphabet {LETTERS}"),
    ("rule r ^= a*", "expected the pattern right behind the name, found '='"),
    ("rule r b ^a..c b", "a pattern has no ranges: expected each letter by itself, as in (a|b|c), found 'a..c'"),
    (f"rule r ^{'a' * 20} {'a' * 11}", STATES),
    ("automaton m\nstate q a b to q, ^b to q, other to q", "the letter 'b' has two moves from state 'q'"),
    ("automaton m\nstate q a to ^r, other to q", "no state of 'm' is called 'r' (declared: q)"),
    ("part x 2 of any ^a", "expected the end of the line, found 'a'"),
    ("part x 2 of a^, b", "expected the end of the line, found ','"),
    # counters
    ("part x ^12..02", "12..02 is no counter: expected the lower number first"),
    ("part x ^12..2", "12..2 is no counter: expected the lower number first"),
    ("part x ^2..012", f"2..012 {ZEROS}"),
    ("part x ^02..1", f"02..1 {ZEROS}"),
    ("part x ^00..210", f"00..210 {ZEROS}"),
    ("part x ^22..23", f"the letter '3' is not in the alphabet {LETTERS}"),
    (f"part x ^{'0' * 64}..{'1' * 64}", "the counter has 64 digits: expected 63 at most"),
    # what is named and not declared
    ("part x 2 of a obeys^", f"expected the name of a rule, {END}"),
    ("part x 2 of a obeys r ^s\nrule r a", "no rule is called 's' (declared: r)"),
    ("part x 1..2 obeys ^x", "no rule is called 'x' (declared: none)"),
    ('template s = "b" obeys ^"r"\nrule r a', 'no rule is called "r" (declared: r)'),
    ('template s = "b" obeys^', f"expected the name of a rule, {END}"),
    ('template s = "b" ^x "a"', "no part is called 'x' (declared: none)"),
    ("template s = x ^y\npart x 1 of a\npart z 1 of b", "no part is called 'y' (declared: x, z)"),
    ("same^", f"expected the name of a part, {END}"),
    ("same x ^t\npart x 1 of a", "no part is called 't' (declared: x)"),
    # templates
    ("template s^", f"expected '=' and pieces, {END}"),
    ('template s ^"a"', "expected '=' and pieces, found \"a\""),
    ("template s =^", f"{A_PIECE}, {END}"),
    ("template s = ^obeys r", f"{A_PIECE}, found 'obeys'"),
    ('template s = "b" ^"" "a"', "the fixed text is empty: expected a letter at least between the quotes"),
    ('template s = "b" ^"aBc"', f"the letter 'B' is not in the alphabet {LETTERS}"),
    ('template s = "a" ^"b', NOT_CLOSED),
    ('template s = ^"b\\"', NOT_CLOSED),
    ('template s = "a" "b^\\n"', f"\\n {ESCAPE}"),
    ('template s = "\\\\^\\c"', f"\\c {ESCAPE}"),
    # patterns
    ("rule r (a|^d)*", f"the letter 'd' is not in the alphabet {LETTERS}"),
    ("rule r b ^a..c", "a pattern has no ranges: expected each letter by itself, as in (a|b|c), found 'a..c'"),
    ("rule r a^,b", "expected letters, | * ( and ), found ',': a comma that is a letter stands in quotes"),
    ('rule r a ^"|"', "'|' is a sign of patterns, and no pattern can name it as a letter: expected an automaton by moves for such a rule"),
    ("rule r a (^*b)", "the '*' at place 3 of the pattern has nothing before it: expected a letter or a group that it repeats"),
    ('rule r ( a | "b" ) *  ^*', "the '*' at place 7 of the pattern follows another: expected one at most behind a letter or a group"),
    ("rule r a^(b|(a)", "the '(' at place 2 of the pattern is not closed: expected a ')' behind it"),
    ("rule r (a) ^)b", "the ')' at place 4 of the pattern closes nothing: expected a '(' before it"),
    (f"rule r ^{'a' * 31}", STATES),  # each letter takes a state, and there are the start and one without a way out
    (f"rule r {'ab ' * 31}a^b", "the pattern has 64 letters and signs: expected 63 at most"),
    # automata
    ("automaton ^m", "automaton 'm' has no state: expected 'state' or 'accepting' lines under it"),
    ("^state q any to q", "a state belongs under an 'automaton' line"),
    ("automaton m\nstate q any to q\npart x 1 of a\n^accepting r any to q", "a state belongs under an 'automaton' line"),
    ("automaton m\nstate ^1 any to q", f"expected the name of a state, found '1' {A_NAME}"),
    ("automaton m\nstate q any to q\nstate ^q any to q", "state 'q' of 'm' is declared twice: it is in line 3"),
    (
        "automaton m\n" + "".join(f"state q{i} any to q0\n" for i in range(32)) + "state ^q32 any to q0",
        "state 'q32' of 'm' is one too many: expected 32 at most",
    ),
    ("automaton m\nstate q a to q,^", f"expected letters, {END}"),
    ("automaton m\nstate q any ^q", "expected 'to' and a state, found 'q'"),
    ("automaton m\nstate q any to^", f"expected the name of a state, {END}"),
    ("automaton m\nstate q a to q\nstate r\naccepting s b to q, c to ^t", "no state of 'm' is called 't' (declared: q, r, s)"),
    ("automaton m\nstate q other to q^, a to q", "expected the end of the line, found ','"),
    ("automaton m\nstate q a to q, other to ^r", "no state of 'm' is called 'r' (declared: q)"),
]

# The same for whole sets. A surrogate stands for a byte that is not UTF-8.
TEXTS = [
    ("^", NO_ALPHABET),
    ("^# nothing but a remark\n", NO_ALPHABET),
    ("^part x 1 of a\nalphabet a", "the alphabet comes first: expected 'alphabet' and its letters"),
    ("\nalphabet^", f"expected letters, {END}"),
    ("alphabet a b ^a", "the letter 'a' is in the alphabet twice"),
    ("alphabet a ^a b", "the letter 'a' is in the alphabet twice"),
    ('alphabet ^"a\tb" c', "the character '\\t' cannot be a letter: expected one that prints"),
    ("alphabet é\npart é ^\udcff\n", "a byte is not UTF-8: expected plain text"),
    ("\ufeffalphabet a\n^\udcff", "a byte is not UTF-8: expected plain text"),
    (f"alphabet 0..9\npart x ^1..{'9' * 5000}\ntemplate t = x", "the counter has 5000 digits: expected 63 at most"),
    ('alphabet a ^"b\tc"', "the character '\\t' cannot be a letter: expected one that prints"),
    ('alphabet a..z A..Z 0..9 - " " ^/', "the alphabet has 65 letters: expected 64 at most"),
    ("^alphabet a b\npart x 1 of a\n", "there is no template: expected 'template', its name, '=' and pieces"),
    ('alphabet a..z A..Z 0..9 - " "\nrule r M*^N\ntemplate t = "a"', f"'N' is letter 40 of the alphabet, and no pattern can name it: {IN_FIRST}"),
    # 17 digits that are not all 0: a state for each number of digits, 0 to 16, that are all 0 so far, and one for each number, 1 to 17, with another among them
    (
        f"alphabet 0..9\npart x ^{'0' * 16}1..{'9' * 17}\ntemplate t = x",
        "the counter needs 34 states, and an automaton has 32 at most: expected fewer digits",
    ),
    ("alphabet a\n# \n  part x 1 of ^\udcff\n", "a byte is not UTF-8: expected plain text"),
    # columns are counted in characters, whatever the ends of lines, the mark of an encoding and a comment's quotes
    ("alphabet é 本 a\n\tpart é\t2 of 本 ^b\n", "the letter 'b' is not in the alphabet (é 本 a)"),
    ("alphabet a\r\n\r\npart x ^4..2 of a\r\n", "4..2 is no range: expected the lower number first"),
    ("\ufeffalphabet a ^bc", "expected a letter, a range such as a..z, or letters in quotes, found 'bc'"),
    ('alphabet a # an open "\npart x^\n# another "', f"expected lengths, 'of' and letters, or a counter such as 000..119, {END}"),
]
MISTAKES = [("alphabet a..c 0..2 -\n" + lines + '\ntemplate t = "a"\n', message) for lines, message in LINES] + TEXTS

PAIR = 'alphabet a b -\npart x 1..2 of a\npart video 1 of b\ntemplate video = x "-" video\ntemplate audio = "aa-b"\ntemplate words = "b" x\n'
TWICE = 'alphabet a b\npart x 1..2 of a\npart y 0..1 of a\ntemplate s = "b" x y\n'
QUOTED = 'alphabet a b " \\""\npart x 3 of a " "\ntemplate s = x "\\""\ntemplate t = "a a\\""\n'
NO_LETTER = "alphabet a b\npart x 0..1 of a\npart y 0..1 of b\ntemplate s = x\ntemplate t = y\n"
WIDE = 'alphabet a b -\npart x 1 of a\npart everything 2 of any\ntemplate s = x "b" "-"\ntemplate t = everything "-"\n'
APART = 'alphabet a b\ntemplate s = "a"\ntemplate t = "b"\n'
LONG = 'alphabet a b\npart x 1..40 of a\npart y 1..40 of b\ntemplate s = x x\ntemplate t = y y\ntemplate u = "aa"\n'  # s and t have names of 80 letters
NOTHING_ELSE = LONG.replace('template u = "aa"\n', "")
LONG_OPEN = "names of more than 63 letters are outside of every problem, and were not looked at"

# (what it shows, set, options, exit status, standard output). In the table a dot ends where a number does; SET is the path.
OUTPUTS = [
    (
        "a pair, and two that never clash; a part and a template of one name",
        PAIR,
        [],
        CLASH,
        """templates     verdict  problems  nodes  seconds
video, audio  clash           .      .        .
video, words  never           .      .        .
audio, words  never           .      .        .

video and audio make one name:
  name   aa | -   | b
  video  x  | "-" | video
  audio  "aa-b"

SET: clash: 1 clash in 3 questions
""",
    ),
    (
        "a name twice, once with an empty part",
        TWICE,
        ["--twice"],
        CLASH,
        """templates  verdict  problems  nodes  seconds
s twice    clash           .      .        .

s makes one name twice:
  name  b   | a | a
  s     "b" | x | y
  s     "b" | x   (y empty)

SET: clash: 1 clash in 1 question
""",
    ),
    (
        "a space and a quote in a name",
        QUOTED,
        [],
        CLASH,
        """templates  verdict  problems  nodes  seconds
s, t       clash           .      .        .

s and t make one name:
  name  "a a" | "\\""
  s     x     | "\\""
  t     "a a\\""

SET: clash: 1 clash in 1 question
""",
    ),
    (
        "the empty name",
        NO_LETTER,
        ["--twice"],
        CLASH,
        """templates  verdict  problems  nodes  seconds
s, t       clash           .      .        .
s twice    never           .      .        .
t twice    never           .      .        .

s and t make one name:
  name
  s   (x empty)
  t   (y empty)

SET: clash: 1 clash in 3 questions
""",
    ),
    (
        "a part whose name is wider than all that lies over it",
        WIDE,
        [],
        CLASH,
        """templates  verdict  problems  nodes  seconds
s, t       clash           .      .        .

s and t make one name:
  name  a | b      | -
  s     x | "b"    | "-"
  t     everything | "-"

SET: clash: 1 clash in 1 question
""",
    ),
    (
        "no clash at all",
        APART,
        ["--twice"],
        NEVER,
        """templates  verdict  problems  nodes  seconds
s, t       never           .      .        .
s twice    never           .      .        .
t twice    never           .      .        .

SET: never: in 3 questions no name is made twice
""",
    ),
    (
        "names of more than 63 letters on both sides, and on one",
        LONG,
        [],
        CLASH,
        f"""templates  verdict  problems  nodes  seconds
s, t       unknown         .      .        .
s, u       clash           .      .        .
t, u       never           .      .        .

s, t: unknown: {LONG_OPEN}

s and u make one name:
  name  a | a
  s     x | x
  u     "aa"

SET: clash: 1 clash and 1 unknown in 3 questions
""",
    ),
    (
        "nothing but an unknown",
        NOTHING_ELSE,
        [],
        UNKNOWN,
        f"""templates  verdict  problems  nodes  seconds
s, t       unknown         .      .        .

s, t: unknown: {LONG_OPEN}

SET: unknown: 1 unknown in 1 question
""",
    ),
]

FREE = "alphabet a b\npart x 1 of a b\npart y 1 of a b\ntemplate s = x\ntemplate t = y\n"  # two names of one letter
SAME = 'alphabet a b\npart x 1 of a b\ntemplate s = "a" x\ntemplate t = x "b"\ntemplate u = x x\nsame x\n'
BEYOND = 'alphabet é 本\npart 部 1 of any\ntemplate s = 部 "本"\ntemplate t = "é本"\n'
# (set, options, verdict of the set, templates, and for each question its templates, its verdict, and what a clash or an unknown has besides: the derivations as
# (part, text), or the reason)
RESULTS = [
    (
        PAIR,
        [],
        "clash",
        "video audio words",
        [
            ("video audio", "clash", [[("x", "aa"), (None, "-"), ("video", "b")], [(None, "aa-b")]]),
            ("video words", "never", None),
            ("audio words", "never", None),
        ],
    ),
    (TWICE, ["--twice"], "clash", "s", [("s s", "clash", [[(None, "b"), ("x", "a"), ("y", "a")], [(None, "b"), ("x", "aa"), ("y", "")]])]),
    (QUOTED, [], "clash", "s t", [("s t", "clash", [[("x", "a a"), (None, '"')], [(None, 'a a"')]])]),
    (NOTHING_ELSE, ["--twice"], "unknown", "s t", [("s t", "unknown", LONG_OPEN), ("s s", "never", None), ("t t", "never", None)]),
    # x cannot be both a, as s begins, and b, as t ends; in u it is the one or the other
    (
        SAME,
        [],
        "clash",
        "s t u",
        [
            ("s t", "never", None),
            ("s u", "clash", [[(None, "a"), ("x", "a")], [("x", "a"), ("x", "a")]]),
            ("t u", "clash", [[("x", "b"), (None, "b")], [("x", "b"), ("x", "b")]]),
        ],
    ),
    (BEYOND, [], "clash", "s t", [("s t", "clash", [[("部", "é"), (None, "本")], [(None, "é本")]])]),
    (APART, [], "never", "s t", [("s t", "never", None)]),
]

MARKUP = 'alphabet a < & "\\" #"\npart x-1 2 of < a\npart y 0..1 of a\ntemplate s = x-1 y "&\\" "\ntemplate t = "<a&\\" "\ntemplate u = "a"\n'
PAGES = [(PAIR, ["--twice"]), (TWICE, ["--twice"]), (NO_LETTER, []), (LONG, []), (MARKUP, []), (APART, [])]

# (what the stand-in does, as lines of a shell; words on standard error). It is asked about FREE; nothing is said on standard output, and the status is 4.
STAND_INS = [
    ("cat > /dev/null", "it is empty: the program has not answered"),
    ("exit 2", "it is empty: the program has not answered"),
    ("printf non", "line 1 does not end in a newline: the output is cut"),
    ("printf 'none 3'", "line 1 does not end in a newline: the output is cut"),
    (r"printf 'found 1\ns0 1 0\ns1 1 0'", "line 3 does not end in a newline: the output is cut"),
    ("echo None 3", "line 1: expected found, none, spent or refused and a number"),
    ("echo refused 5", "refused a problem of s and t with 5"),
    ("echo refused 9", "9 is no refusal of a file"),
    ("echo found 1", "it has 1 lines: expected 3 for 'found'"),
    (r"printf 'found 1\ns0 1 0\n'", "it has 2 lines: expected 3 for 'found'"),
    (r"printf 'found 1\ns0 1 2\ns1 1 2\n'", "line 2: expected 's0' and a length and as many symbols below"),
    (r"printf 'found 1\ns0 1 0\ns1 1 0\ns2 1 0\n'", "it has 4 lines: expected 3 for 'found'"),
    ("echo none 3; echo none 3", "it has 2 lines: expected 1 for 'none'"),
    ("echo none 65537", "'none 65537' is no answer within a budget of 65536 nodes"),
    ("echo spent 65535", "'spent 65535' is no answer within a budget of 65536 nodes"),
    ("kill -9 $$", "was ended by signal 9"),
    ("echo none 3; kill -11 $$", "was ended by signal 11"),
    ("echo none 3; exit 1", "ended with status 1, but printed 'none'"),
    ("echo spent 65536; exit 1", "ended with status 1, but printed 'spent'"),
]

# (what is in the file of an answer, words on standard error)
BAD_ANSWERS = [
    ("spent 7", "'spent 7' is no answer within a budget of 65536 nodes"),
    ("none 65537", "'none 65537' is no answer within a budget of 65536 nodes"),
    ("refused 5", "refused a problem of s and t with 5"),
    ("no answer", "line 1: expected found, none, spent or refused and a number"),
    ("found 1", "it has 1 lines: expected"),
]

# (set, the line for each string i that a stand-in says it has found): whole answers that are no clash of the set, each for another reason
LIES = [
    (FREE.replace("x 1 of a b", "x 1 of a b obeys r") + "rule r a|b|ab\n", "s{i} 1 {i}"),  # two names; the rule is there to tell the letters apart
    (FREE, "s{i} 0"),  # no letters
    (FREE.replace("x 1 of a b", "x 1 of a").replace("y 1 of a b", "y 1 of b"), "s{i} 1 0"),  # y has no a
    (FREE.replace("x 1 of a b", "x 1 of a b obeys r") + "rule r b\n", "s{i} 1 0"),  # the rule of a part
    (FREE.replace("template s = x", "template s = x obeys r") + "rule r b\n", "s{i} 1 0"),  # the rule of a name
]

NO_NAME = "has no name at all, so that it never clashes says nothing"
# (set, options, exit status, warnings as (line, words)): they change no status
WARNINGS = [
    (APART, [], NEVER, []),
    (APART + "part x 1 of a\n", [], NEVER, [(4, "part 'x' is in no template")]),
    (APART + "part x 1 of a obeys r\nrule r a\nsame x\n", [], NEVER, [(4, "part 'x' is in no template")]),
    (APART + "rule r a\n", [], NEVER, [(4, "nothing obeys the rule 'r'")]),
    (
        APART + "automaton m\naccepting q any to q\nrule r b\npart x 1..2 of b\n",
        [],
        NEVER,
        [(4, "nothing obeys the rule 'm'"), (6, "nothing obeys the rule 'r'"), (7, "part 'x' is in no template")],
    ),
    # s has no name by its own rule, u by the rule of its part; t has one
    (
        APART.replace('s = "a"', 's = "a" obeys r') + "rule r b*\npart x 1..2 of a obeys r\ntemplate u = x\n",
        ["--twice"],
        NEVER,
        [(2, f"template 's' {NO_NAME}"), (6, f"template 'u' {NO_NAME}")],
    ),
    # a clash needs no such warning, but what is not used is said
    (PAIR + "part z 1 of a\n", [], CLASH, [(7, "part 'z' is in no template")]),
    # names of more than 63 letters are names
    (f'alphabet a b\ntemplate s = "{"a" * 70}"\ntemplate t = "b"\n', [], NEVER, []),
]

# Six questions of one problem each, no two alike, and none that can be split.
SIX = 'alphabet a b\ntemplate s = "a"\ntemplate t = "bb"\ntemplate u = "aba"\ntemplate v = "bbab"\n'


def begun(words, output, errors):
    """The process of the tool, called with these words. It is a copy of this one, which has read the tool's modules: to start Python so often takes longest."""
    child = os.fork()
    if child:
        return child
    status = 99  # which the tool never ends with
    try:
        os.chdir(ROOT)
        signal.alarm(PATIENCE)
        for descriptor, place in ((os.open(os.devnull, os.O_RDONLY), 0), (output, 1), (errors, 2)):
            os.dup2(descriptor, place)
        sys.argv = [str(TOOL), *map(str, words)]
        runpy.run_path(str(TOOL), run_name="__main__")
    except SystemExit as end:
        status = end.code
    finally:
        os._exit(status)


def ended(child):
    return os.waitstatus_to_exitcode(os.waitpid(child, 0)[1])


def run(*words):
    """Exit status, standard output and standard error of the tool."""
    with tempfile.TemporaryFile() as output, tempfile.TemporaryFile() as errors:
        status = ended(begun(words, output.fileno(), errors.fileno()))
        output.seek(0)
        errors.seek(0)
        return status, output.read().decode(), errors.read().decode()


def check(*words):
    return run("check", *words)


def called(*words, redirected=""):
    """The same of the tool called as in the documents; a shell redirects its output."""
    command = ["sh", "-c", f'exec "$@" {redirected}', "sh", sys.executable, str(TOOL), "check", *map(str, words)]
    done = subprocess.run(command, cwd=ROOT, stdin=subprocess.DEVNULL, capture_output=True, text=True, timeout=PATIENCE)
    return done.returncode, done.stdout, done.stderr


def given(folder, text, name="given.set"):
    path = folder / name
    path.write_bytes(text.encode("utf-8", "surrogateescape"))
    return path


def unlike(what, got, expected):
    """A list with what is wrong where two things differ."""
    return [] if got == expected else [f"{what}: expected {expected!r}, found {got!r}"]


def unless(what, got, words, status=TROUBLE):
    """A list with what is wrong of a run that should say nothing but these words on standard error."""
    right = got[:2] == (status, "") and words in got[2] and "Traceback" not in got[2]
    return [] if right else [f"{what}: expected status {status} and the words {words!r} alone, found {got!r}"]


def questions(got):
    """The questions of a result as JSON."""
    try:
        return json.loads(got[1])["questions"]
    except ValueError:
        raise ValueError(f"expected JSON, found {got!r}") from None


def mistake(path, marked, message):
    """A broken set is 3, with the place and the words of its error, and nothing is said otherwise."""
    before, behind = marked.split("^")
    path.write_bytes((before + behind).encode("utf-8", "surrogateescape"))
    # The mark of the encoding is no character of the first line.
    line, column = before.count("\n") + 1, len(before.lstrip("\ufeff").split("\n")[-1]) + 1
    return unlike(repr(marked), check(path), (BROKEN, "", f"{path}:{line}:{column}: {message}\n"))


def mistakes(folder):
    wrong = [line for i, (marked, message) in enumerate(MISTAKES) for line in mistake(folder / f"{i}.set", marked, message)]
    # The same by numbers that stand here, and whatever else is asked.
    path = given(folder, "alphabet a b\n\n  part x 1..2 off a\n")
    for options in ([], ["--json"], ["--twice", "--html", folder / "page"], ["--plan", folder / "plan"], ["--collect", folder / "plan"]):
        wrong += unless(f"a broken set, {options}", check(path, *options), f"{path}:3:15: expected 'of' and letters, found 'off'\n", BROKEN)
    wrong += unless("a broken set, called", called(path), f"{path}:3:15: expected 'of' and letters, found 'off'\n", BROKEN)
    return wrong + [f"a broken set leaves a {name}" for name in ("page", "plan") if (folder / name).exists()]


def masked(path, output):
    """An output with a dot for each number of its table, and with the lines of the two choices for one template in one order: either is right."""
    table, _, rest = output.replace(str(path), "SET").partition("\n\n")
    table = re.sub(r"(?<= )(\d+|\d+\.\d{3})(?= |$)", lambda number: ".".rjust(len(number[0])), table, flags=re.MULTILINE)
    choices = re.compile(r"(?<= twice:\n)(  name.*\n)(.*\n)(.*\n)")
    return table + "\n\n" + choices.sub(lambda lines: lines[1] + "".join(sorted(lines.groups()[1:])), rest)


def outputs(folder):
    wrong = []
    for what, text, options, status, output in OUTPUTS:
        path = given(folder, text)
        code, said, errors = check(path, *options)
        wrong += unlike(what, (code, masked(path, said), errors), (status, masked("SET", output), ""))
    return wrong


def counted(entry):
    """A question of a result without its counts, which are numbers."""
    counts = [entry.pop(key, None) for key in ("problems", "nodes", "seconds")]
    right = all(isinstance(count, int) and count >= 0 for count in counts[:2]) and isinstance(counts[2], (int, float)) and counts[2] >= 0
    if entry["templates"][0] == entry["templates"][1] and "derivations" in entry:
        entry["derivations"].sort(key=str)  # either choice may come first
    return entry if right else counts


def results(folder):
    wrong = []
    for text, options, verdict, templates, asked in RESULTS:
        path, expected = given(folder, text), []
        for names, word, more in asked:
            entry = {"templates": names.split(), "verdict": word}
            if word == "clash":
                pieces = [[{"part": part, "text": letters} for part, letters in derivation] for derivation in more]
                entry |= {"name": "".join(letters for _, letters in more[0]), "derivations": sorted(pieces, key=str) if names == "s s" else pieces}
            expected.append(entry | ({"open": more} if word == "unknown" else {}))
        got = check(path, "--json", *options)
        found = [counted(entry) for entry in questions(got)]
        whole = {"set": str(path), "verdict": verdict, "templates": templates.split(), "questions": expected}
        wrong += unlike(f"--json {text!r}", (got[0], json.loads(got[1]) | {"questions": found}, got[2]), (VERDICTS.index(verdict), whole, ""))
    return wrong


class Page(HTMLParser):
    """A page's text, ids and references, and for each table of a clash its rows as (columns, text without labels); what is not well-formed is in `wrong`."""

    def __init__(self, content):
        super().__init__()
        self.open, self.text, self.ids, self.references, self.cuts, self.wrong = [], "", [], [], [], []
        self.cut = False
        self.feed(content)
        self.close()
        self.wrong += [f"<{tag}> is not closed" for tag in self.open]

    def handle_starttag(self, tag, attrs):
        attrs = dict(attrs)
        self.ids += [attrs["id"]] if "id" in attrs else []
        self.references += [attrs[key] for key in ("href", "src", "data", "action", "srcset") if key in attrs]
        if tag == "table":
            self.cut = "cut" in attrs.get("class", "").split()
            self.cuts += [[]] if self.cut else []
        elif tag == "tr" and self.cut:
            self.cuts[-1].append([])
        elif tag == "td" and self.cut:
            self.cuts[-1][-1].append([int(attrs.get("colspan", 1)), ""])
        self.open += [tag] if tag != "meta" else []

    def handle_endtag(self, tag):
        if not self.open or self.open.pop() != tag:
            self.wrong.append(f"</{tag}> at line {self.getpos()[0]} closes something else")

    def handle_data(self, data):
        if "style" not in self.open:
            self.text += data
            if self.cut and "td" in self.open and "span" not in self.open and "i" not in self.open:
                self.cuts[-1][-1][-1][1] += data


def page_mistakes(content, result):
    """What a page lacks of a result, or has and should not."""
    read, wrong = Page(content), []
    clashes = [entry for entry in result["questions"] if entry["verdict"] == "clash"]
    said = [result["set"], *result["templates"], *(entry["name"] for entry in clashes), *(entry.get("open", "") for entry in result["questions"])]
    wrong += read.wrong + [f"{text!r} is not in it" for text in said if text not in read.text]
    wrong += [f"{word} is in it" for word in ("<script", "url(", "@import", "http:", "https:") if word in content.lower()]
    wrong += [f"{reference} leads out of it, or nowhere" for reference in read.references if reference[:1] != "#" or reference[1:] not in read.ids]
    wrong += [] if content.startswith("<!DOCTYPE html>\n") and len(set(read.ids)) == len(read.ids) else ["no DOCTYPE, or an id twice"]
    parts = {piece["part"] for entry in clashes for pieces in entry["derivations"] for piece in pieces} - {None}
    wrong += [f"the part {part} has no label" for part in parts if f"<span>{part}</span>" not in content]
    if [len(rows) for rows in read.cuts] != [3] * len(clashes):
        return wrong + [f"{len(read.cuts)} tables of name and derivations for {len(clashes)} clashes"]
    for entry, rows in zip(clashes, read.cuts):
        wrong += [f"a row does not join to {entry['name']!r}" for row in rows if "".join(text for _, text in row) != entry["name"]]
        wrong += [] if len({sum(width for width, _ in row) for row in rows}) == 1 else [f"rows of several widths under {entry['name']!r}"]
    return wrong


def pages(folder):
    wrong = []
    for i, (text, options) in enumerate(PAGES):
        path, written = given(folder, text), folder / f"{i}.html"
        got = check(path, "--json", "--html", written, *options)
        if not questions(got) or not written.is_file():
            wrong.append(f"page {i} is not written: {got!r}")
            continue
        result = json.loads(got[1])
        wrong += unlike(f"page {i}, the status", got[0], VERDICTS.index(result["verdict"]))
        wrong += [f"page {i}: {line}" for line in page_mistakes(written.read_text(encoding="utf-8"), result)]
    absent = folder / "absent" / "page.html"
    return wrong + unless("a page without a folder", check(path, "--html", absent), f"{absent}: No such file")


def part_names(folder):
    """How a part is called makes no difference, whatever the strings of a problem are called."""
    wrong, text = [], 'alphabet a b -\npart NAME 1..2 of a\npart y 1..2 of a b\ntemplate s = NAME "-" y "-" NAME\ntemplate t = y "-" NAME "-a"\n'
    for name in ("one", "other", "front", "loose", "letter", "rest", "any", "text", "mark"):
        for options in ([], ["--without", "first"]):
            got = check(given(folder, text.replace("NAME", name)), "--twice", "--json", *options)
            wrong += unlike(f"a part called {name}, {options}", verdicts(got), ["clash", "never", "never"])
    return wrong


def timeless(output):
    """An output without the seconds of its table."""
    return re.sub(r" +\d+\.\d{3}$", "", output, flags=re.MULTILINE)


def jobs(folder):
    """However many problems run side by side, the output is the same but for the seconds. Each rewriting can be left out."""
    first, *others = [(status, timeless(output), errors) for status, output, errors in (check(COUNTERS, "--twice", "--jobs", n) for n in (1, 2, 5))]
    wrong = [line for n, got in zip((2, 5), others) for line in unlike(f"--jobs {n}", got, first)]
    path = given(folder, APART)
    for name in ("first", "front", "join", "lengths", "order", "classes", "product"):
        wrong += unlike(f"--without {name}", check(path, "--twice", "--without", name)[0::2], (NEVER, ""))
    # 22 lines of a table, 5 for each of 11 clashes, and the last one with a blank line before it
    return wrong + unlike("--jobs 1", (first[0], first[1].count("\n"), first[2]), (CLASH, 79, ""))


XARGS = f"""xargs -P 2 -I NAME sh -c '"{PROGRAM}" < NAME.problem > NAME.answer' < jobs"""
PARALLEL = f"""PARALLEL_HOME="$PWD" parallel --will-cite -j 2 '"{PROGRAM}" < {{}}.problem > {{}}.answer' :::: jobs"""


def waiting(place):
    return (place / "jobs").read_text().split()


def told(place, count):
    """What is said of problems that wait."""
    return f"{place}: {count} {'problem waits' if count == 1 else 'problems wait'} for an answer; jobs lists them\n"


def planned(place, *words):
    """What is wrong with a plan, which says how many problems wait and lists them; and their names."""
    got = check(*words, "--plan", place)
    names = waiting(place)
    wrong = unlike(f"--plan {words}", got, (0, "", told(place, len(names))))
    return wrong + [f"{name}.problem is missing" for name in names if not (place / f"{name}.problem").is_file()], names


def worked(place, command, *words):
    """Plans and runs jobs until none is left; what was wrong, and how many rounds it took."""
    wrong = []
    for rounds in range(10):
        more, names = planned(place, *words)
        wrong += more
        if not names:
            return wrong, rounds
        subprocess.run(["sh", "-c", command], cwd=place, timeout=PATIENCE, check=True)
    return wrong + ["ten rounds leave problems"], rounds


def elsewhere(folder):
    """Problems that other programs run give the output that the tool gives alone."""
    direct = called(COUNTERS, "--twice")
    wrong, found = [], shutil.which("parallel") and subprocess.run(["parallel", "--version"], capture_output=True).stdout.startswith(b"GNU")
    for name, command in (("xargs", XARGS), ("parallel", PARALLEL if found else None)):
        if command:
            place = folder / name
            more, rounds = worked(place, command, COUNTERS, "--twice")
            wrong += more + ([] if rounds else [f"{name}: there is nothing to be done"])
            status, output, errors = check(COUNTERS, "--twice", "--collect", place)
            wrong += unlike(name, (status, timeless(output), errors), (direct[0], timeless(direct[1]), ""))
            wrong += unlike(f"{name}, --json", check(COUNTERS, "--twice", "--collect", place, "--json")[0], direct[0])
    return wrong


def verdicts(got):
    return [entry["verdict"] for entry in questions(got)]


def answers(folder):
    """Answers that are cut, missing or of another budget, and those of another set."""
    text, place = SIX + "part x 1..2 of a\npart y 1..2 of b\ntemplate w = x y\n", folder / "answers"
    path = given(folder, text)
    _, names = planned(place, path)
    wrong, rounds = worked(place, XARGS, path)
    collect = ["--json", "--collect", place]
    wrong += unlike("all answers", (rounds, verdicts(check(path, *collect))), (1, ["never"] * 10))
    answer = place / f"{names[0]}.answer"
    whole = answer.read_bytes()
    for what, content in (("cut", whole[:-1]), ("empty", b""), ("missing", None)):
        answer.unlink() if content is None else answer.write_bytes(content)
        got = check(path, *collect)
        wrong += unlike(f"an answer is {what}", (got[0], got[2], set(verdicts(got))), (UNKNOWN, told(place, 1), {"never", "unknown"}))
        wrong += unlike(f"an answer is {what}: jobs", waiting(place), names[:1])
        opened = {entry["open"] for entry in questions(got) if entry["verdict"] == "unknown"}
        wrong += unlike(f"an answer is {what}: the reason", opened, {"not all of its problems are answered yet"})
    for content, words in BAD_ANSWERS:
        answer.write_text(content + "\n")
        wrong += unless(f"the answer {content}", check(path, *collect), words)
    answer.write_bytes(whole)
    wrong += unlike("the answer is there again", check(path, *collect)[0::2], (NEVER, ""))
    # What is said in other words makes the same problems; of another x only the four pairs of w know.
    path.write_text(text.replace("part x", "# another remark\npart  first").replace("= x", "= first"))
    wrong += unlike("the same set in other words", check(path, *collect)[0::2], (NEVER, ""))
    path.write_text(text.replace("x 1..2", "x 1..3"))
    got = check(path, *collect)
    return wrong + unlike("another set", verdicts(got), ["unknown" if "w" in entry["templates"] else "never" for entry in questions(got)])


def second_round(folder):
    """Problems that are spent are split, and asked in another round; with a budget, answers are those of that budget."""
    path = given(folder, 'alphabet a b -\npart x 1..2 of a\npart y 1..2 of a b\ntemplate s = x "-" y\ntemplate t = "a-" x "b"\n')
    place, seven = folder / "place", folder / "seven"
    wrong, first = planned(place, path)
    for name in first:
        (place / f"{name}.answer").write_text(f"spent {BUDGET}\n")
    more, second = planned(place, path)
    wrong += more + ([] if first and second and not set(first) & set(second) else [f"a spent problem is not split: {first}, {second}"])
    wrong += unlike("a spent problem", check(path, "--collect", place)[0::2], (UNKNOWN, told(place, len(second))))
    subprocess.run(["sh", "-c", XARGS], cwd=place, timeout=PATIENCE, check=True)
    got = check(path, "--collect", place, "--json")
    (entry,) = questions(got)
    # x is a before the dash, and y has two letters at most behind it
    right = got[0] == CLASH and entry["name"] == "a-ab" and entry["problems"] > 1 and entry["nodes"] > BUDGET
    wrong += [] if right else [f"the second round: {got}"]
    for name in planned(seven, path, "--budget", 7)[1]:
        (seven / f"{name}.answer").write_text("spent 7\n")
    wrong += unlike("a budget of seven", check(path, "--collect", seven, "--budget", 7)[0], UNKNOWN)
    return wrong + unless("answers of another budget", check(path, "--collect", seven), "'spent 7' is no answer within a budget of 65536 nodes")


def stand_ins(folder):
    """Whatever is no whole answer is trouble, and never a verdict."""
    path, absent, wrong = given(folder, FREE), folder / "absent", []
    for lines, words in STAND_INS:
        wrong += unless(lines, check(path, "--program", stand_in(folder, lines)), words)
    for program, words in ((absent, "No such file"), (folder, "Permission denied")):
        wrong += unless(program.name, check(path, "--program", program), f"{program} cannot be run: {words}")
    for i, (text, line) in enumerate(LIES):
        liar = folder / f"liar-{i}"
        said = f'"".join(f"{line}\\n" for i in range(content[-23]))'  # byte 1 of the trailer counts the strings; there are no numbers
        liar.write_text(f'#!{sys.executable}\nimport sys\ncontent = sys.stdin.buffer.read()\nprint("found 1\\n" + {said}, end="")\n')
        liar.chmod(0o755)
        got = check(given(folder, text, f"{i}.set"), "--program", liar, "--jobs", 1)
        wrong += unless(f"{line} for {text!r}", got, "the answer for s and t is no clash of this set")
    # Two neighbours of one letter are one string of 1 to 3; then no text is one of theirs.
    shorter = stand_in(folder, "head -c 0; echo found 1; echo s0 0; echo s1 0", "shorter")
    text = 'alphabet a b\npart x 1..2 of a\npart y 0..1 of a\ntemplate s = x y\ntemplate t = "a"\n'
    wrong += unless("a text that is too short", check(given(folder, text), "--program", shorter), "that its parts cannot make")
    # The first problem has its answer; what is asked after it, whether the templates have names, has none: then no verdict is said either.
    once = stand_in(folder, f"[ -e {folder}/mark ] && kill -9 $$; touch {folder}/mark; echo none 3", "once")
    return wrong + unless("a program that fails at the end", check(path, "--program", once, "--jobs", 1), "was ended by signal 9")


def spent(folder):
    """Where every problem is spent the verdict is unknown, and the reason says how many were, and which part keeps it open."""
    text = 'alphabet a..z -\npart course 2..8 of a..z\npart signer 2..9 of a..z -\ntemplate s = course "-" signer\ntemplate t = signer "-" course\n'
    path, program = given(folder, text), stand_in(folder, f"echo spent {BUDGET}; exit 2")
    got = check(path, "--program", program, "--json")
    (entry,) = questions(got)
    # 24 may be spent.
    wrong = unlike("all spent", (got[0], got[2], entry["verdict"], entry["problems"], entry["nodes"]), (UNKNOWN, "", "unknown", 25, 25 * BUDGET))
    right = re.search(r"\b25\b.*spent", entry["open"]) and re.search("'(course|signer)'", entry["open"])
    wrong += [] if right else [f"all spent: the reason is {entry['open']!r}"]
    status, output, errors = check(path, "--program", program, "--twice")
    wrong += unlike("all spent, --twice", (status, output.splitlines()[-1], errors), (UNKNOWN, f"{path}: unknown: 3 unknown in 3 questions", ""))
    return wrong + unlike("a budget of 0", check(path, "--budget", 0)[0], UNKNOWN)


def calls(folder):
    """The program is called without words, or with - and the budget; a template alone is asked with no more than the program's own budget."""
    path, log = given(folder, APART), folder / "calls"
    program = stand_in(folder, f'echo none 1; echo "$# $*" >> "{log}"')
    none = "".join(f"{path}:{line}: warning: template '{name}' {NO_NAME}\n" for line, name in ((2, "s"), (3, "t")))
    wrong = []
    for options, said in (([], "0 \n" * 3), (["--budget", 100000], "2 - 100000\n" + "2 - 65536\n" * 2), (["--budget", 7], "2 - 7\n" * 3)):
        got = check(path, "--program", program, "--jobs", 1, *options)
        wrong += unlike(f"calls {options}", (got[0], got[2], log.read_text()), (NEVER, none, said))
        log.unlink()
    return wrong


def warnings(folder):
    wrong = []
    for text, options, status, expected in WARNINGS:
        path = given(folder, text)
        got = check(path, *options)
        wrong += unlike(repr(text), (got[0], got[2]), (status, "".join(f"{path}:{line}: warning: {words}\n" for line, words in expected)))
    return wrong


def on_terminal(*words):
    """Exit status, what a terminal at standard error is sent, and the seconds that it took."""
    terminal, end = pty.openpty()
    start, sent = monotonic(), b""
    with open(os.devnull, "wb") as nowhere:
        child = begun(["check", *words], nowhere.fileno(), end)
    os.close(end)
    try:
        while content := os.read(terminal, 4096):
            sent += content
    except OSError:
        pass  # so ends a terminal that nobody writes to any more
    os.close(terminal)
    return ended(child), sent.decode(), monotonic() - start


def progress(folder):
    """On a terminal a bar is drawn after a second, and wiped away; elsewhere there is none."""
    log = folder / "calls"
    path, slow = given(folder, SIX), stand_in(folder, f'echo call >> "{log}"; sleep 0.3; echo spent {BUDGET}')
    asked = [path, "--program", slow, "--jobs", 1]
    with tempfile.TemporaryFile() as output, tempfile.TemporaryFile() as errors:
        piped = begun(["check", *asked], output.fileno(), errors.fileno())
        status, sent, _ = on_terminal(*asked)
        statuses, elsewhere = (status, ended(piped)), errors.seek(0) or errors.read()
    bars, wiped, rest = sent.partition("\r\033[K")
    drawn = bars.split("\r")[1:]
    every = ["[" + "#" * n + "." * (40 - n) + f"] {i} of 6 questions" for i, n in enumerate((0, 6, 13, 20, 26, 33, 40))]
    # The fourth answer is there after 1.2 seconds at least, and no more than two are worked through at once.
    right = len(drawn) > 1 and drawn[-1] == every[6] and drawn == [bar for bar in every if bar in drawn] and wiped and not rest
    wrong = [] if right else [f"on a terminal: expected bars up to {every[6]!r}, wiped away, found {sent!r}"]
    wrong += unlike("on a terminal and elsewhere", (statuses, elsewhere, log.read_text()), ((UNKNOWN, UNKNOWN), b"", "call\n" * 12))
    # Where the machine is so busy that it takes longer, a bar would be right.
    quick = [got for got in (on_terminal(path) for _ in range(3)) if got[2] < 1]
    return wrong + [line for got in quick for line in unlike("in less than a second", got[:2], (NEVER, ""))]


def wrong_calls(folder):
    path, wrong = given(folder, PAIR), []
    place = folder / "place"
    options = [["--twise"], ["--jobs", 0], ["--jobs", 513], ["--jobs", "all"], ["--budget", -1], ["--budget", 2**32], ["--without"], ["--without", "lenght"]]
    options += [[path], ["--plan", place, "--collect", place]]
    for words in [[], ["check"], ["weigh", path], *(["check", path, *more] for more in options)]:
        wrong += unless(f"the call {words}", run(*words), "usage: ")
    return wrong + (["a wrong call leaves a folder"] if place.exists() else [])


def ends(folder):
    """What cannot be read or written is trouble, and so is a set without a question."""
    path, one, absent = given(folder, APART), given(folder, TWICE, "one.set"), folder / "absent.set"
    alone = f"{one}: one template alone has no question: expected two templates or more, or --twice"
    wrong = unless("one template", check(one), alone)
    wrong += unless("one template, --plan", check(one, "--plan", folder / "plan"), alone)
    wrong += unless("no set", check(absent), f"{absent}: No such file")
    wrong += unless("a folder", check(folder), f"{folder}: Is a directory")
    wrong += unless("a plan where a file is", check(path, "--plan", one), f"{one}: File exists")
    wrong += unless("a plan and JSON", check(path, "--plan", folder / "plan", "--json"), "--plan gives no verdict: expected neither --json nor --html")
    wrong += unless("answers from nowhere", check(path, "--collect", folder / "plan"), "is no folder: expected the one that --plan has filled")
    if Path("/dev/full").exists():
        wrong += unless("a page that is full", check(path, "--html", "/dev/full"), "/dev/full: No space")
    for options in ([], ["--json"]):
        wrong += unless(f"standard output closed, {options}", called(path, *options, redirected=">&-"), "standard output: Bad file")
        if Path("/dev/full").exists():
            full = called(path, *options, redirected="> /dev/full")
            wrong += unless(f"standard output full, {options}", full, "standard output: No space")
    # That nobody reads a warning changes nothing.
    path = given(folder, APART + "rule r a\n")
    status, output, _ = called(path, redirected="2>&-")
    said = f"{path}: never: in 1 question no name is made twice"
    return wrong + unlike("standard error closed", (status, output.splitlines()[-1:]), (NEVER, [said]))


def main():
    wrong = [f"{path.name} is not there: run `{command}` first" for path, command in MADE_BY.items() if not path.is_file()]
    if not wrong:
        parts = (mistakes, outputs, results, pages, part_names, jobs, elsewhere, answers, second_round)
        parts += (stand_ins, spent, calls, warnings, progress, wrong_calls, ends)
        with tempfile.TemporaryDirectory() as folder:
            for part in parts:
                place = Path(folder) / part.__name__
                place.mkdir()
                try:
                    wrong += part(place)
                except Exception as error:
                    wrong.append(f"{part.__name__} goes no further: {error!r}")
    for line in wrong:
        print("check: " + line)
    if not wrong:
        counts = ((MISTAKES, "broken sets"), (OUTPUTS, "outputs"), (RESULTS, "results as JSON"), (PAGES, "pages"))
        counts += ((STAND_INS + LIES, "stand-ins"), (WARNINGS, "sets with warnings or without"))
        print("check: " + ", ".join(f"{len(cases)} {name}" for cases, name in counts) + " stand")
    return 1 if wrong else 0


if __name__ == "__main__":
    sys.exit(main())
