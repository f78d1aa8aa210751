# The patterns of rules, and their automata: a pattern is put into the library's letters, and the proved program target/bin/rule makes its automaton. What is a
# pattern, and which automaton it has, is for that program alone to say. Only a whole output is an answer; anything else is Failed, as in solving.py.
import re
from functools import cache
from string import ascii_lowercase, digits

from packing import MOST, Refused, unpack_automata
from solving import TARGET, Failed, run

PROGRAM = TARGET / "bin" / "rule"
LETTERS = digits + "." + ascii_lowercase + "-/"  # LETTERS[a] stands for symbol a in the library's patterns; no letter stands for a symbol beyond these
SIGNS = "|*()"
LONGEST = 63  # letters and signs
BROKEN, LARGE = 14, 16  # the refusals that are for the pattern's author to mend
RANGE = re.compile(r"[a-z]\.\.[a-z]|[A-Z]\.\.[A-Z]|[0-9]\.\.[0-9]")


def ranges(tokens):
    """What is written like a range, each with its column. In a pattern it is four letters, as it is in quotes everywhere."""
    return [(found[0], token.column + found.start()) for token in tokens if not token.quoted for found in RANGE.finditer(token.text)]


def columns(tokens):
    """The column of each letter and sign of a pattern; in quotes it is that of the quote."""
    return [token.column + (0 if token.quoted else i) for token in tokens for i in range(len(token.text))]


def translated(line, tokens, symbol):
    """The tokens of a line as a pattern in the library's letters; `symbol` answers for each letter of the text and its column. Raises Wrong."""
    written = [(token, sign) for token in tokens for sign in token.text]
    signs = "".join(
        sign if sign in SIGNS and not token.quoted else letter(line, token, sign, column, symbol) for (token, sign), column in zip(written, columns(tokens))
    )
    if len(signs) > LONGEST:
        raise line.wrong(f"the pattern has {len(signs)} letters and signs: expected {LONGEST} at most", columns(tokens)[LONGEST])
    return signs


def letter(line, token, written, column, symbol):
    """The library's letter for one of the text's. Raises Wrong."""
    if written in SIGNS:
        raise line.wrong(
            f"'{written}' is a sign of patterns, and no pattern can name it as a letter: expected an automaton by moves for such a rule", column
        )
    if written == "," and not token.quoted:
        raise line.wrong("expected letters, | * ( and ), found ',': a comma that is a letter stands in quotes", column)
    position = symbol(written, column)
    if position >= len(LETTERS):
        raise line.wrong(
            f"'{written}' is letter {position + 1} of the alphabet, and no pattern can name it: expected the letters of rules among the first {len(LETTERS)}, "
            "or an automaton by moves",
            column,
        )
    return LETTERS[position]


@cache
def output(k, text):
    """What the program prints for a pattern over k symbols; asked once for each. Raises Failed."""
    if not PROGRAM.is_file():
        raise Failed(f"{PROGRAM} is not there, and a rule needs it: `python3 tools/build.py` proves and builds it")
    done = run([PROGRAM], bytes([k]) + text.encode("ascii"))
    if done.returncode < 0:
        raise Failed(f"{PROGRAM} was ended by signal {-done.returncode}")
    if done.returncode > 0:
        raise Failed(f"{PROGRAM} ended with status {done.returncode}: expected 0")
    return done.stdout


def automaton(line, k, text, columns):
    """The automaton of a pattern in the library's letters, over k symbols; the columns are those of its letters and signs. Raises Wrong where it is refused,
    Failed where there is no whole answer."""
    printed = output(k, text)
    if printed == bytes([BROKEN]):
        place, message = mistake(text)
        raise line.wrong(message, columns[place - 1])
    if printed == bytes([LARGE]):
        raise line.wrong(
            f"the pattern needs more than {MOST['states']} states: expected fewer letters in it, since most take a state of their own, "
            "or an automaton by moves, where letters can share one",
            columns[0],
        )
    if not printed:
        raise Failed(f"the output of {PROGRAM}: it is empty: the program has not answered")
    if printed[0] != 0:
        raise Failed(f"the output of {PROGRAM}: it begins with {printed[0]}: expected 0 and an automaton, or {BROKEN} or {LARGE} alone")
    try:
        return unpack_automata(printed[1:], k, 1)[0]
    except Refused:
        raise Failed(f"the output of {PROGRAM}: what follows its 0 is not one whole automaton for an alphabet of {k}") from None


def mistake(text):
    """The place among the letters and signs, and what is wrong there, of a pattern that the program refuses. The program says only that something is."""
    opened, before = [], "("  # the places of groups that are not closed; what stands before, and a pattern begins as a group does
    for place, sign in enumerate(text, 1):
        if sign == "*" and before in "(|":
            return place, f"the '*' at place {place} of the pattern has nothing before it: expected a letter or a group that it repeats"
        if sign == "*" and before == "*":
            return place, f"the '*' at place {place} of the pattern follows another: expected one at most behind a letter or a group"
        if sign == ")" and not opened:
            return place, f"the ')' at place {place} of the pattern closes nothing: expected a '(' before it"
        if sign == "(":
            opened.append(place)
        if sign == ")":
            opened.pop()
        before = sign
    if opened:
        return opened[-1], f"the '(' at place {opened[-1]} of the pattern is not closed: expected a ')' behind it"
    return 1, "this is no pattern: expected letters and groups in ( and ), with | between branches and one * at most behind a letter or a group"
