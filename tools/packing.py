# Problems, and the problem files of document 01 that hold them: packing one, and reading one back. A file is refused as the program refuses it:
# with 4 where it is longer than the largest one, and else with 1 to 8 in their order.
# `pack` assumes a problem that is within the limits below, as textform.py and `unpack` make it.
from dataclasses import dataclass
from itertools import chain
from string import ascii_lowercase, ascii_uppercase, digits
from struct import pack as pack_words

LIMIT = 64  # one more than the greatest length, place and value
EVERY = 2**LIMIT - 1  # the word of every length, or every value
MOST = {"letters": 64, "strings": 16, "numbers": 16, "automata": 8, "constraints": 64, "states": 32}
LARGEST_FILE = 25024  # bytes
TRAILER = 24  # bytes
GAP = 255  # in the place of a next state: there is no move, and the string is rejected
MARK = b"TAIL"
DEFAULT_LETTERS = digits + ascii_lowercase + ascii_uppercase + "-_"  # 64 of them

# Each kind of constraint in the order of its number, from 1: its name, and what its arguments name.
KINDS = [
    ("eq", ("string", "string")),
    ("neq", ("string", "string")),
    ("rev", ("string", "string")),
    ("cat", ("string", "string", "string")),
    ("sub", ("string", "string", "number")),
    ("len", ("string", "number")),
    ("regular", ("string", "automaton")),
]

REFUSALS = {
    1: "the file has fewer than 24 bytes",
    2: "the file does not end in the bytes TAIL",
    3: "a count is out of range (1 to 64 symbols, at most 16 strings, 16 numbers, 8 automata, 64 constraints), or bytes 6 and 7 of the trailer are not 0",
    4: "the parts do not lie one behind the other as the trailer's distances say, or the file is longer than the largest one, 25024 bytes",
    5: "the automata are not exactly as many as the trailer counts, each with 1 to 32 states and every next state one of them, or 255 for no move",
    6: "a string allows a symbol that is not in the alphabet",
    7: "a constraint is of no kind from 1 to 7, names a variable or an automaton that is not there, or has an unused argument that is not 0",
    8: "a constraint names one string twice",
}


class Refused(Exception):
    """A file that the program refuses, with the number of the refusal."""

    def __init__(self, number):
        super().__init__(f"refused {number}: {REFUSALS[number]}")
        self.number = number


@dataclass
class Automaton:
    states: list  # their names, the start state first
    accepting: int  # bit q for state q
    moves: list  # for each state the next state for each symbol, as positions, and GAP where there is none


@dataclass
class Problem:
    """Variables and automata by name, in the order of their positions."""

    letters: str  # symbol a is written letters[a]
    strings: dict  # name to row, 64 words
    numbers: dict  # name to word
    automata: dict  # name to Automaton
    constraints: list  # (kind from 1, positions of what it names)

    def named(self, noun):
        return {"string": self.strings, "number": self.numbers, "automaton": self.automata}[noun]

    def names(self, constraint):
        """What a constraint names, in the order of its arguments."""
        kind, positions = constraint
        return [list(self.named(noun))[position] for noun, position in zip(KINDS[kind - 1][1], positions)]


def repeats(kind, arguments):
    """Whether a constraint names one string twice."""
    strings = [name for name, noun in zip(arguments, KINDS[kind - 1][1]) if noun == "string"]
    return len(set(strings)) < len(strings)


def pack(problem):
    words = [*chain(*problem.strings.values()), *problem.numbers.values()]
    table = pack_words(f"<{len(words)}Q", *words)
    constraints = b"".join(bytes([kind, *positions]).ljust(4, b"\0") for kind, positions in problem.constraints)
    automata = b"".join(
        bytes([len(a.states)]) + a.accepting.to_bytes(4, "little") + bytes(chain(*a.moves)) for a in problem.automata.values()
    )
    counts = bytes([len(problem.letters), len(problem.strings), len(problem.numbers), len(problem.automata)])
    # The constraint count has 16 bits, and the 16 bits behind it are 0.
    counts += len(problem.constraints).to_bytes(4, "little")
    parts = table + constraints + automata
    distances = (len(parts), len(constraints + automata), len(automata))
    return parts + counts + b"".join(n.to_bytes(4, "little") for n in distances) + MARK


def unpack(content):
    """The problem in a file, its variables named by kind and position, its symbols by the default letters. Raises Refused."""
    if len(content) > LARGEST_FILE:
        raise Refused(4)
    if len(content) < TRAILER:
        raise Refused(1)
    parts, trailer = content[:-TRAILER], content[-TRAILER:]
    if trailer[20:] != MARK:
        raise Refused(2)
    k, s, t, d = trailer[:4]
    c = number(trailer[4:6])
    if not 1 <= k <= MOST["letters"] or s > MOST["strings"] or t > MOST["numbers"] or d > MOST["automata"] or c > MOST["constraints"] or any(trailer[6:8]):
        raise Refused(3)
    to_table, to_constraints, to_automata = (number(trailer[at : at + 4]) for at in (8, 12, 16))
    if to_constraints != 4 * c + to_automata or to_table != 8 * (64 * s + t) + to_constraints or len(parts) != to_table:
        raise Refused(4)
    behind_table = len(parts) - to_constraints
    behind_constraints = len(parts) - to_automata
    automata = unpack_automata(parts[behind_constraints:], k, d)
    rows, values = unpack_table(parts[:behind_table], k, s)
    problem = Problem(DEFAULT_LETTERS[:k], numbered("s", rows), numbered("n", values), numbered("d", automata), [])
    problem.constraints = unpack_constraints(parts[behind_table:behind_constraints], problem)
    return problem


def number(content):
    return int.from_bytes(content, "little")


def numbered(letter, values):
    return {f"{letter}{i}": value for i, value in enumerate(values)}


def unpack_automata(content, k, d):
    """Exactly d automata, or refusal 5."""
    automata = []
    for _ in range(d):
        q, size = content[0] if content else 0, 5 + (content[0] if content else 0) * k
        accepting, moves = number(content[1:5]), content[5:size]
        if not 1 <= q <= MOST["states"] or len(content) < size or accepting >> q or any(q <= target != GAP for target in moves):
            raise Refused(5)
        automata.append(Automaton([f"q{i}" for i in range(q)], accepting, [list(moves[i * k : i * k + k]) for i in range(q)]))
        content = content[size:]
    if content:
        raise Refused(5)
    return automata


def unpack_table(content, k, s):
    """The rows of s strings and the words of the numbers, or refusal 6."""
    words = [number(content[at : at + 8]) for at in range(0, len(content), 8)]
    rows = [words[64 * x : 64 * x + 64] for x in range(s)]
    if any(word >> k for row in rows for word in row[1:]):
        raise Refused(6)
    return rows, words[64 * s :]


def unpack_constraints(content, problem):
    """Every record as a constraint, or refusal 7; refusal 8 only when every record has passed 7."""
    constraints = []
    for kind, *arguments in (content[at : at + 4] for at in range(0, len(content), 4)):
        nouns = KINDS[kind - 1][1] if 1 <= kind <= len(KINDS) else ()
        positions = tuple(arguments[: len(nouns)])
        if not nouns or any(arguments[len(nouns) :]) or any(p >= len(problem.named(noun)) for p, noun in zip(positions, nouns)):
            raise Refused(7)
        constraints.append((kind, positions))
    if any(repeats(*constraint) for constraint in constraints):
        raise Refused(8)
    return constraints
