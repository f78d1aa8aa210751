# The edges of document 01 and of the requests: each a call of an entry on a file or a text, with lent buffers, and what it answers and leaves by the papers.
# What is expected stands here by hand. `python3 tests/edges.py --write` lays the lists out as the standard input and output of the crate `edges`,
# which the gate runs; without `--write` it checks that both are these lists.
import sys
from laid import stands

GAP = 255  # in a row of an automaton: no move
MARK = 7  # in every lent word before the call, where no table is given
SETTLE = 2**32 - 1  # the call Settle in a list of calls
BY_INDEX = 2**32 - 2  # the call Settle by index in a list of calls that is lent an index
ROOM_AT = 2048  # the place of the room's first word among the lent words, as crates/edges/src/main.rt counts them


def automaton(k, q, accepting=1, moves=None):
    """An automaton of q states that stays where it is, or with these moves."""
    rows = bytes(p for p in range(q) for _ in range(k)) if moves is None else bytes(moves)
    return bytes([q % 256]) + accepting.to_bytes(4, "little") + rows


def file(k=4, s=0, t=0, d=0, c=None, words=None, records=(), machines=b"", spare=0, back=None, mark=b"TAIL"):
    """A file whose counts and distances fit its parts, where they are not given. `words` gives some words of the table, the others are 0."""
    table = [0] * (64 * s + t)
    for place, word in (words or {}).items():
        table[place] = word
    tables = b"".join(word.to_bytes(8, "little") for word in table)
    constraints = b"".join(bytes(record) for record in records)
    L = len(machines)
    fits = (len(tables) + len(constraints) + L, len(constraints) + L, L)
    distances = b"".join(n.to_bytes(4, "little") for n in (back or fits))
    counts = bytes([k, s, t, d]) + (len(records) if c is None else c).to_bytes(2, "little") + spare.to_bytes(2, "little")
    return tables + constraints + machines + counts + distances + mark


def bits(values):
    """The word that allows these values."""
    return sum(1 << v for v in values)


def row(lengths, *places):
    """A string's row as the paper writes it: the lengths, then the symbols from place 1 on. Places not given are empty."""
    return [bits(lengths)] + [bits(symbols) for symbols in places] + [0] * (63 - len(places))


def string(*symbols):
    """The row of one tidy string."""
    return row({len(symbols)}, *({a} for a in symbols))


def table(rows, numbers=()):
    return sum(rows, []) + [bits(values) for values in numbers]


def problem(k, rows, numbers=(), records=(), machines=()):
    """A file of this problem."""
    return file(k, len(rows), len(numbers), len(machines), words=dict(enumerate(table(rows, numbers))), records=records, machines=b"".join(machines))


def over(k, s, t, records, machines=()):
    """A file of these constraints whose own table is empty: Step and Settle look at the lent table alone."""
    return problem(k, [row(())] * s, [()] * t, records, machines)


def ruled(machine):
    """A file that holds its one string, of two symbols, to the automaton; its own table is empty."""
    return over(2, 1, 0, [(7, 0, 0, 0)], [machine])


def largest():
    """16 strings, 16 numbers, 64 constraints and 8 automata of 32 states over 64 symbols, every bit of the table there."""
    full = {i: 2**64 - 1 for i in range(1040)}
    return file(k=64, s=16, t=16, d=8, words=full, records=[(5, i % 16, (i + 1) % 16, i % 16) for i in range(64)], machines=automaton(64, 32, 2**32 - 1) * 8)


EQ = (1, 0, 1, 0)
TWO = automaton(4, 2, accepting=2, moves=[1, 0, 0, 0, 1, 1, 1, 1])

# (what is tried, file, words lent, what Read answers, what Unpack answers, the sum of the lent words afterwards): a number is a refusal
EDGES = [
    ("no byte", b"", 0, 1, 1, 0),
    ("23 bytes", file()[1:], 1, 1, 1, 7),
    ("24 bytes, every count 0", file(), 0, (4, 0, 0, 0, 0), "done", 0),
    ("24 bytes, another mark", file(mark=b"TAIM"), 0, 2, 2, 0),
    ("the mark is looked for before the counts", file(k=0, mark=b"tAIL"), 2, 2, 2, 14),
    ("k 0", file(k=0), 0, 3, 3, 0),
    ("k 1", file(k=1), 0, (1, 0, 0, 0, 0), "done", 0),
    ("k 64", file(k=64), 0, (64, 0, 0, 0, 0), "done", 0),
    ("k 65", file(k=65), 0, 3, 3, 0),
    ("16 strings", file(s=16, words={0: 3, 1: 15, 1023: 8}), 1024, (4, 16, 0, 0, 0), "done", 26),
    ("17 strings", file(s=17), 1088, 3, 3, 7616),
    ("16 numbers", file(t=16, words={15: 5}), 16, (4, 0, 16, 0, 0), "done", 5),
    ("17 numbers", file(t=17), 17, 3, 3, 119),
    ("8 automata", file(k=1, d=8, machines=automaton(1, 1) * 8), 0, (1, 0, 0, 8, 0), "done", 0),
    ("9 automata", file(k=1, d=9, machines=automaton(1, 1) * 9), 0, 3, 3, 0),
    ("64 constraints", file(t=1, s=1, records=[(6, 0, 0, 0)] * 64), 65, (4, 1, 1, 0, 64), "done", 0),
    ("65 constraints", file(t=1, s=1, records=[(6, 0, 0, 0)] * 65), 65, 3, 3, 455),
    ("256 constraints by the count's second byte", file(c=256), 0, 3, 3, 0),
    ("byte 6 is not 0", file(spare=1), 0, 3, 3, 0),
    ("byte 7 is not 0", file(spare=256), 0, 3, 3, 0),
    ("the counts are looked at before the distances", file(k=65, back=(1, 2, 3)), 0, 3, 3, 0),
    ("a table distance too long by 1", file(t=1, back=(9, 0, 0)), 1, 4, 4, 7),
    ("a constraints distance too long by 1", file(s=2, records=[EQ], back=(1028, 5, 0)), 128, 4, 4, 896),
    ("an automata distance too long by 1", file(back=(0, 0, 1)), 0, 4, 4, 0),
    ("a constraints distance that fits only modulo 2^32", file(c=1, back=(0, 0, 2**32 - 4)), 0, 4, 4, 0),
    ("a table distance that fits only modulo 2^32", file(t=1, c=1, words={0: 1}, back=(8, 0, 2**32 - 4)), 1, 4, 4, 7),
    ("a spare byte in front", b"\0" + file(), 0, 4, 4, 0),
    ("a byte short in front", file(t=1)[1:], 1, 4, 4, 7),
    ("an automaton", file(s=1, d=1, records=[(7, 0, 0, 0)], machines=TWO), 64, (4, 1, 0, 1, 1), "done", 0),
    ("an automaton cut short", file(d=1, machines=TWO[:-1]), 0, 5, 5, 0),
    ("an automaton of which only 4 bytes are there", file(d=1, machines=TWO[:4]), 0, 5, 5, 0),
    ("a spare byte behind the automata", file(d=1, machines=TWO + b"\0"), 0, 5, 5, 0),
    ("two automata for one", file(d=1, machines=TWO * 2), 0, 5, 5, 0),
    ("one automaton for two", file(d=2, machines=TWO), 0, 5, 5, 0),
    ("bytes for no automaton", file(machines=b"\0"), 0, 5, 5, 0),
    ("a state count 0", file(d=1, machines=automaton(4, 0, 0)), 0, 5, 5, 0),
    ("a state count 32, every state accepting", file(k=1, d=1, machines=automaton(1, 32, 2**32 - 1)), 0, (1, 0, 0, 1, 0), "done", 0),
    ("a state count 33", file(k=1, d=1, machines=automaton(1, 33)), 0, 5, 5, 0),
    ("an accepting bit at q", file(d=1, machines=automaton(4, 2, accepting=4)), 0, 5, 5, 0),
    ("an accepting bit at 31", file(d=1, machines=automaton(4, 2, accepting=2**31)), 0, 5, 5, 0),
    ("a next state equal to q", file(d=1, machines=automaton(4, 2, moves=[0, 1, 0, 1, 0, 1, 0, 2])), 0, 5, 5, 0),
    ("a next state equal to q - 1", file(d=1, machines=automaton(4, 2, moves=[0, 0, 0, 0, 0, 0, 0, 1])), 0, (4, 0, 0, 1, 0), "done", 0),
    ("a next state 254", file(d=1, machines=automaton(4, 2, moves=[0, 1, 0, 1, 0, 1, 0, 254])), 0, 5, 5, 0),
    ("a next state 255 is a gap", file(d=1, machines=automaton(4, 2, moves=[0, 1, 0, 1, 0, 1, 0, GAP])), 0, (4, 0, 0, 1, 0), "done", 0),
    ("a gap out of state 0", file(d=1, machines=automaton(4, 2, moves=[GAP, 1, 0, 1, 0, 1, 0, 1])), 0, (4, 0, 0, 1, 0), "done", 0),
    ("a next state equal to q between gaps", file(d=1, machines=automaton(4, 2, moves=[GAP, GAP, GAP, 2, GAP, GAP, GAP, GAP])), 0, 5, 5, 0),
    ("every move missing", file(d=1, machines=automaton(4, 2, moves=[GAP] * 8)), 0, (4, 0, 0, 1, 0), "done", 0),
    ("one state without moves", file(d=1, machines=automaton(4, 1, moves=[GAP] * 4)), 0, (4, 0, 0, 1, 0), "done", 0),
    ("one state and the next state 1", file(d=1, machines=automaton(4, 1, moves=[GAP, 0, 1, GAP])), 0, 5, 5, 0),
    ("32 states and the next state 31", file(k=1, d=1, machines=automaton(1, 32, moves=[31] * 32)), 0, (1, 0, 0, 1, 0), "done", 0),
    ("32 states and the next state 32", file(k=1, d=1, machines=automaton(1, 32, moves=[GAP] * 31 + [32])), 0, 5, 5, 0),
    ("32 states without moves, a sink would be the 33rd", file(k=1, d=1, machines=automaton(1, 32, moves=[GAP] * 32)), 0, (1, 0, 0, 1, 0), "done", 0),
    ("32 states over 64 symbols without moves", file(k=64, d=1, machines=automaton(64, 32, 2**32 - 1, [GAP] * 2048)), 0, (64, 0, 0, 1, 0), "done", 0),
    ("a state count 255 is no gap", file(d=1, machines=automaton(4, 255, moves=[GAP] * 4)), 0, 5, 5, 0),
    ("the distances are looked at before a next state", file(d=1, machines=automaton(4, 2, moves=[2] * 8), back=(12, 13, 13)), 0, 4, 4, 0),
    ("a next state is looked at before the table", file(s=1, d=1, words={1: 16}, machines=automaton(4, 2, moves=[GAP] * 7 + [2])), 64, 5, 5, 448),
    ("behind gaps the table is looked at", file(s=1, d=1, words={1: 16}, machines=automaton(4, 2, moves=[GAP] * 8)), 64, 6, 6, 448),
    ("a bit at k - 1 in a symbol word", file(s=1, words={63: 8}), 64, (4, 1, 0, 0, 0), "done", 8),
    ("a bit at k in a symbol word", file(s=1, words={63: 16}), 64, 6, 6, 448),
    ("a bit at k in the last string's first symbol word", file(s=2, words={65: 16}), 128, 6, 6, 896),
    ("bits at k and above in a length and a number word", file(s=1, t=1, words={0: 2**63, 64: 16}), 65, (4, 1, 1, 0, 0), "done", 2**63 + 16),
    ("k 64 with bit 63", file(k=64, s=1, words={1: 2**63}), 64, (64, 1, 0, 0, 0), "done", 2**63),
    ("the automata are looked at before the table", file(s=1, d=1, words={1: 16}, machines=b"\0"), 64, 5, 5, 448),
    ("the table is looked at before the records", file(s=1, words={1: 16}, records=[(0, 0, 0, 0)]), 64, 6, 6, 448),
    ("kind 0", file(s=2, records=[(0, 0, 0, 0)]), 128, 7, 7, 896),
    ("kind 8", file(s=2, records=[(8, 0, 1, 0)]), 128, 7, 7, 896),
    ("a second string that is not there", file(s=2, records=[(1, 0, 2, 0)]), 128, 7, 7, 896),
    ("a third string that is not there", file(s=2, records=[(4, 0, 1, 2)]), 128, 7, 7, 896),
    ("a number that is not there", file(s=1, t=1, records=[(6, 0, 1, 0)]), 65, 7, 7, 455),
    ("an automaton that is not there", file(s=1, d=1, records=[(7, 0, 1, 0)], machines=TWO), 64, 7, 7, 448),
    ("an unused argument that is not 0", file(s=2, records=[(1, 0, 1, 1)]), 128, 7, 7, 896),
    ("Eq of one string", file(s=2, records=[EQ, (1, 1, 1, 0)]), 128, 8, 8, 896),
    ("Cat of one string, first and third", file(s=2, records=[(4, 1, 0, 1)]), 128, 8, 8, 896),
    ("Cat of one string, second and third", file(s=2, records=[(4, 1, 0, 0)]), 128, 8, 8, 896),
    ("Sub of one string", file(s=2, t=1, records=[(5, 1, 1, 0)]), 129, 8, 8, 903),
    ("Sub with the number of its string's name", file(s=2, t=1, records=[(5, 0, 1, 0)]), 129, (4, 2, 1, 0, 1), "done", 0),
    ("Len with the number of its string's name", file(s=1, t=1, records=[(6, 0, 0, 0)]), 65, (4, 1, 1, 0, 1), "done", 0),
    ("one string twice in record 0, a bad record behind it", file(s=2, records=[(1, 0, 0, 0), (9, 0, 0, 0)]), 128, 7, 7, 896),
    ("a lent table a word short", file(t=2, words={0: 1, 1: 2}), 1, (4, 0, 2, 0, 0), 9, 7),
    ("a lent table a word long", file(t=2, words={0: 1, 1: 2}), 3, (4, 0, 2, 0, 0), 9, 21),
    ("a lent table that fits", file(t=2, words={0: 1, 1: 2}), 2, (4, 0, 2, 0, 0), "done", 3),
    ("the largest file, every bit there", largest(), 1040, (64, 16, 16, 8, 64), "done", 2**64 - 1040),
]
# the word of the symbols 0 to k - 1, for each k: all of them are there in the last place of a string, and one symbol more is too many
EDGES += [(f"k {k} with every symbol", file(k=k, s=1, words={63: 2**k - 1}), 64, (k, 1, 0, 0, 0), "done", 2**k - 1) for k in range(1, 65)]
EDGES += [(f"k {k} with symbol {k}", file(k=k, s=1, words={63: 2**k}), 64, 6, 6, 448) for k in range(1, 64)]


NOTHING = row(())
EMPTY = string()

# ---- Step: (what is tried, file, number of the step, lent table, answer, table afterwards; None where it is untouched)

CAT, LEN = (4, 0, 1, 2), (6, 0, 0, 0)
PART = over(4, 2, 1, [(5, 0, 1, 0)])
PARITY = automaton(2, 2, accepting=1, moves=[1, 0, 0, 1])
# by ticket 5: one state without moves; symbols 1 and 0 in turn, 1 first and last, with gaps and with the sink written out; 31 times the symbol 0, and no 33rd state
LONE = automaton(2, 1, moves=[GAP, GAP])
TURNS, TURNS_SINK = automaton(2, 2, accepting=2, moves=[GAP, 1, 0, GAP]), automaton(2, 3, accepting=2, moves=[2, 1, 0, 2, 2, 2])
ZEROS31 = automaton(2, 32, accepting=2**31, moves=[next for i in range(31) for next in (i + 1, GAP)] + [GAP, GAP])
FREE3, TURNED3 = row({1, 2, 3}, {0, 1}, {0, 1}, {0, 1}), row({1, 3}, {1}, {0}, {1})
X14, Y14, Z14, N14 = row({1, 2}, {0, 1}, {0, 1}), row({0, 1}, {1}), row({2}, {0}, {0, 1}), {0, 1, 2, 3}
P14 = problem(2, [X14, Y14, Z14], [N14], [CAT, LEN])
T14 = table([X14, Y14, Z14], [N14])
# X is the first two or the first of Z, so it begins with 0
CAT14 = table([row({1, 2}, {0}, {0, 1}), Y14, Z14], [N14])
LEN14 = table([X14, Y14, Z14], [{1, 2}])
SETTLED14 = table([row({1, 2}, {0}, {0, 1}), Y14, Z14], [{1, 2}])
SOLVED14 = table([string(0), string(1), string(0, 1)], [{1}])

P2X, P2Y = row({2, 3}, {1, 2, 3}, {3}, {1, 2, 3}), row({1, 2, 3}, {1, 2}, {1, 2}, {1, 2})
FULL62, FULL63 = string(*[0] * 62), string(*[0] * 63)
UP_TO_62 = row({61, 62}, *[{0}] * 62)
HOLE63 = row({63}, *[{0}] * 39, (), *[{0}] * 23)
PLAIN = over(4, 1, 1, [])
MARKS = [MARK] * 65

STEPS = [
    ("P14, step 0: Cat", P14, 0, T14, "struck 1", CAT14),
    ("P14, step 1: Len", P14, 1, T14, "struck 2", LEN14),
    ("P14, step 2: X is tidy", P14, 2, T14, "struck 0", None),
    ("P14, step 3: Y is tidy", P14, 3, T14, "struck 0", None),
    ("P14, step 4: Z is tidy", P14, 4, T14, "struck 0", None),
    ("P14, step 5 is none", P14, 5, T14, "refused 11", None),
    ("P14, the greatest number is no step", P14, 2**32 - 1, T14, "refused 11", None),
    ("P14, the number of Settle by index is no step", P14, BY_INDEX, T14, "refused 11", None),
    ("P1 Trim", over(4, 1, 0, []), 0, row({1, 2}, {0}), "struck 1", row({1}, {0})),
    ("P2 Eq", over(4, 2, 0, [EQ]), 0, table([P2X, P2Y]), "struck 18", table([NOTHING, NOTHING])),
    ("P3 Eq", over(4, 2, 0, [EQ]), 0, table([row({0, 2}, {0}, {1}), row({0, 1, 2}, {0}, {2})]), "struck 7", table([EMPTY, EMPTY])),
    ("P4 Neq", over(4, 2, 0, [(2, 0, 1, 0)]), 0, table([row({1}, {0, 1}), string(0)]), "struck 1", table([string(1), string(0)])),
    ("P5 Neq", over(4, 2, 0, [(2, 0, 1, 0)]), 0, table([row({0, 1}, {0}), EMPTY]), "struck 1", table([string(0), EMPTY])),
    ("P6 Neq", over(4, 2, 0, [(2, 0, 1, 0)]), 0, table([string(0), string(0)]), "struck 4", table([NOTHING, NOTHING])),
    ("P7 Rev", over(4, 2, 0, [(3, 0, 1, 0)]), 0, table([row({2}, {0}, {0, 1}), row({2}, {1, 2}, {0, 2})]), "struck 3", table([string(0, 1), string(1, 0)])),
    ("P8 Cat", over(4, 3, 0, [CAT]), 0, table([string(0), EMPTY, string(0)]), "struck 0", None),
    ("P9 Cat", over(4, 3, 0, [CAT]), 0, table([row({0, 1}, {0}), row({0, 1}, {1}), row({1}, {1})]), "struck 3", table([EMPTY, string(1), string(1)])),
    ("P10 Sub", PART, 0, table([string(0, 1), string(1)], [{0, 1, 2, 3}]), "struck 3", table([string(0, 1), string(1)], [{2}])),
    ("P11 Sub", PART, 0, table([EMPTY, EMPTY], [{1}]), "struck 0", None),
    ("P12 Len", over(4, 1, 1, [LEN]), 0, table([row({0, 3}, {0}, {0}, {0})], [{1, 3}]), "struck 2", table([string(0, 0, 0)], [{3}])),
    ("P13 Regular", over(2, 1, 0, [(7, 0, 0, 0)], [PARITY]), 0, row({1, 2}, {0}, {0, 1}), "struck 2", string(0, 0)),
    # a gap rejects the string; where a symbol has no move it goes, also where every state that is reached goes on
    ("one state without moves: the empty string alone", ruled(LONE), 0, row({0, 1, 2}, {0, 1}, {0, 1}), "struck 6", EMPTY),
    ("one state without moves: no string of one symbol", ruled(LONE), 0, row({1}, {0, 1}), "struck 3", NOTHING),
    ("no moves, and no state that accepts", ruled(automaton(2, 2, 0, [GAP] * 4)), 0, row({0, 1}, {0}), "struck 3", NOTHING),
    ("symbols in turn by gaps", ruled(TURNS), 0, FREE3, "struck 4", TURNED3),
    ("symbols in turn by a sink", ruled(TURNS_SINK), 0, FREE3, "struck 4", TURNED3),
    ("a gap out of state 0", ruled(automaton(2, 2, 2, [GAP, 1, 1, 1])), 0, row({1, 2}, {0, 1}, {0, 1}), "struck 1", row({1, 2}, {1}, {0, 1})),
    ("a gap at the last place", ruled(automaton(2, 2, 3, [0, 1, GAP, GAP])), 0, row({2}, {0, 1}, {0, 1}), "struck 1", row({2}, {0}, {0, 1})),
    ("32 states with gaps", ruled(ZEROS31), 0, row({30, 31, 32}, *[{0, 1}] * 32), "struck 35", string(*[0] * 31)),
    # an empty part is met at 1 to one place after the last symbol
    ("an empty part of the empty string, not at 0", PART, 0, table([EMPTY, EMPTY], [{0}]), "struck 3", table([NOTHING, NOTHING], [()])),
    ("an empty part of the empty string, at 0 or 1", PART, 0, table([EMPTY, EMPTY], [{0, 1}]), "struck 1", table([EMPTY, EMPTY], [{1}])),
    ("an empty part of the empty string, not at 2", PART, 0, table([EMPTY, EMPTY], [{2}]), "struck 3", table([NOTHING, NOTHING], [()])),
    ("an empty part of 01, at any number", PART, 0, table([string(0, 1), EMPTY], [range(64)]), "struck 61", table([string(0, 1), EMPTY], [{1, 2, 3}])),
    ("an empty part of 01, not at 4", PART, 0, table([string(0, 1), EMPTY], [{4}]), "struck 5", table([NOTHING, NOTHING], [()])),
    ("an empty part at 2 of a string of 0 or 2 places", PART, 0, table([row({0, 2}, {0}, {1}), EMPTY], [{2}]), "struck 1", table([string(0, 1), EMPTY], [{2}])),
    ("an empty part at 1 of a string of 0 or 1 places", PART, 0, table([row({0, 1}, {0}), EMPTY], [{1}]), "struck 0", None),
    ("1 or nothing as a part of 01, at 2 or 3", PART, 0, table([string(0, 1), row({0, 1}, {1})], [{2, 3}]), "struck 0", None),
    ("1 or nothing as a part of 01, at 3", PART, 0, table([string(0, 1), row({0, 1}, {1})], [{3}]), "struck 2", table([string(0, 1), EMPTY], [{3}])),
    ("1 as a part of 01, not at 3", PART, 0, table([string(0, 1), string(1)], [{3}]), "struck 6", table([NOTHING, NOTHING], [()])),
    ("an empty part at 63 of a string of 62 places", PART, 0, table([FULL62, EMPTY], [{63}]), "struck 0", None),
    ("an empty part at 63 of a string of 61 or 62 places", PART, 0, table([UP_TO_62, EMPTY], [{63}]), "struck 1", table([FULL62, EMPTY], [{63}])),
    ("an empty part of 63 places, 64 being no number", PART, 0, table([FULL63, EMPTY], [range(64)]), "struck 1", table([FULL63, EMPTY], [range(1, 64)])),
    ("a string of 63 places", over(1, 1, 0, []), 0, FULL63, "struck 0", None),
    ("a string of 63 places with nothing at place 40", over(1, 1, 0, []), 0, HOLE63, "struck 63", NOTHING),
    ("lengths past the places", over(1, 1, 0, []), 0, row({0, 2, 5, 63}, {0}, {0}), "struck 2", row({0, 2}, {0}, {0})),
    ("symbols past the longest string", over(4, 1, 0, []), 0, row({1}, {0, 3}, {1, 2}, {3}), "struck 3", row({1}, {0, 3})),
    ("lengths and numbers up to 63 with k 1", over(1, 1, 1, [LEN]), 0, table([row({0, 63})], [{0, 63}]), "struck 2", table([EMPTY], [{0}])),
    ("k 64 and symbol 63", over(64, 1, 0, []), 0, row({1}, {63}, {63}), "struck 1", string(63)),
    ("a lent table a word short", PLAIN, 0, MARKS[1:], "refused 9", None),
    ("a lent table a word long", PLAIN, 0, MARKS + [MARK], "refused 9", None),
    ("the size is looked at before the symbols and the number", PLAIN, 1, [16] * 64, "refused 9", None),
    ("a bit at k in a lent symbol word", PLAIN, 0, table([row({1}, {0, 4})], [()]), "refused 10", None),
    ("a bit at 63 in the last lent symbol word", PLAIN, 0, table([row({1}, *[()] * 62, {63})], [()]), "refused 10", None),
    ("a bit at k in the second string's first symbol word", over(4, 2, 0, []), 0, table([EMPTY, row({1}, {4})]), "refused 10", None),
    ("the lent symbols are looked at before the number", PLAIN, 99, table([row({1}, {4})], [()]), "refused 10", None),
    ("a number equal to c + s", PLAIN, 1, MARKS, "refused 11", None),
    ("no step at all", file(), 0, [], "refused 11", None),
]

# the word of the lengths 0 to i, for each i: a trimming leaves them where every length is allowed and just the first i places have symbols
STEPS += [
    (f"the lengths 0 to {i}", over(4, 1, 0, []), 0, row(range(64), *[{1, 3}] * i), f"struck {63 - i}", row(range(i + 1), *[{1, 3}] * i)) for i in range(64)
]

# ---- Settle: (what is tried, file, lent table, rounds and whether every variable has a value, table afterwards; None where it is untouched)

TWO_LENS = over(4, 2, 1, [EQ, (6, 1, 0, 0)])

SETTLES = [
    ("s, t, c, d all 0", file(), [], "rounds 1 true", None),
    ("P14", P14, T14, "rounds 2 true", SETTLED14),
    ("P14, settled", P14, SETTLED14, "rounds 1 true", None),
    ("P14, solved", P14, SOLVED14, "rounds 1 true", None),
    ("P2's rows: both empty", over(4, 2, 0, [EQ]), table([P2X, P2Y]), "rounds 2 false", table([NOTHING, NOTHING])),
    # round 1: Len leaves X the length 2, Eq empties X and Y; round 2: Len takes the number; round 3 strikes nothing
    ("it goes on after P2's rows are empty", over(4, 2, 1, [LEN, EQ]), table([P2X, P2Y], [{2}]), "rounds 3 false", table([NOTHING, NOTHING], [()])),
    # round 1: Len leaves Y the length 1; round 2: Eq tells X; round 3 strikes nothing
    ("what a later constraint strikes comes back", TWO_LENS, table([row({1, 2}, {0}, {0})] * 2, [{1}]), "rounds 3 true", table([string(0)] * 2, [{1}])),
    ("symbols past the longest string", over(4, 1, 0, []), row({0}, {1}), "rounds 2 true", EMPTY),
    ("a string with no length", over(4, 1, 0, []), row((), {1}), "rounds 2 false", NOTHING),
    ("a number with no value", over(4, 0, 2, []), table([], [{5}, ()]), "rounds 1 false", None),
    ("an empty part of the empty string, at 1", PART, table([EMPTY, EMPTY], [{1}]), "rounds 1 true", None),
    ("a string of 63 places", over(1, 1, 0, []), FULL63, "rounds 1 true", None),
    ("symbols in turn by gaps", ruled(TURNS), FREE3, "rounds 2 true", TURNED3),
    ("one state without moves", ruled(LONE), row({1}, {0, 1}), "rounds 2 false", NOTHING),
    ("a lent table a word short", PLAIN, MARKS[1:], "refused 9", None),
    ("a lent table a word long", PLAIN, MARKS + [MARK], "refused 9", None),
    ("the size is looked at before the symbols", PLAIN, [16] * 66, "refused 9", None),
    ("a bit at k in a lent symbol word", PLAIN, table([row({1}, {4})], [()]), "refused 10", None),
    ("bits at k and above in a lent length and number word", PLAIN, table([row({0, 63})], [{4, 63}]), "rounds 2 true", table([EMPTY], [{4, 63}])),
]

# ---- lists of calls: (what is tried, file, calls, lent table, table afterwards; None where it is untouched)

LISTS = [
    ("no call", P14, [], T14, None),
    ("one step", P14, [0], T14, CAT14),
    ("two steps", P14, [1, 0], T14, SETTLED14),
    ("Settle", P14, [SETTLE], T14, SETTLED14),
    ("a refused call between two steps", P14, [1, 5, 0], T14, SETTLED14),
    ("refused calls only", P14, [5, SETTLE - 1], T14, None),
    ("Settle by index, where no index is lent, is a step that is not there", P14, [BY_INDEX, 0, BY_INDEX], T14, CAT14),
    ("Settle, and steps that find nothing to strike", P14, [SETTLE, 0, 1, 2, 3, 4, SETTLE], T14, SETTLED14),
    ("a lent table a word short", PLAIN, [0, SETTLE], MARKS[1:], None),
    ("a bit at k in a lent symbol word", PLAIN, [0, SETTLE], table([row({1}, {4})], [()]), None),
]

# ---- Index: (what is tried, file, words lent, answer, words afterwards; None where they are untouched)


def pairs(*touching):
    """The index of variables that these steps touch, each a set of step numbers: two words for each, the low one first."""
    return [word for steps in touching for word in (bits(j for j in steps if j < 64), bits(j - 64 for j in steps if j >= 64))]


# Steps 0 Cat(X, Y, Z), 1 Len(X, n), then the trimmings 2, 3 and 4.
INDEX14 = [7, 0, 9, 0, 17, 0, 2, 0]
# The same for Len(Y, n) in the place of Len(X, n).
OTHER14 = [5, 0, 11, 0, 17, 0, 2, 0]
# Step 0 is Len(X, n), step 1 the trimming.
SMALL, INDEX_SMALL = over(4, 1, 1, [LEN]), [3, 0, 1, 0]
# Each kind once. The automaton is no variable: string 0 and number 0 are not named by Regular(2, 0). The trimmings are 7, 8 and 9.
KINDS = over(4, 3, 2, [(1, 0, 1, 0), (2, 1, 2, 0), (3, 0, 2, 0), (4, 0, 1, 2), (5, 1, 2, 1), (6, 2, 0, 0), (7, 2, 0, 0)], [TWO])
INDEX_KINDS = pairs({0, 2, 3, 7}, {0, 1, 3, 4, 8}, {1, 2, 3, 4, 5, 6, 9}, {5}, {4})
# 63 constraints: the trimming of string 0 is the last bit of a low word, that of string 1 the first of a high one.
LENS63 = over(1, 2, 1, [LEN] * 63)
INDEX63 = [2**64 - 1, 0, 0, 1, 2**63 - 1, 0]
# 64 constraints and no number: the last word is not 0. Step 64 trims string 0, step 65 string 1.
EQS64 = over(1, 2, 0, [EQ] * 64)
INDEX_EQS = [2**64 - 1, 1, 2**64 - 1, 2]
# 64 constraints and 16 strings: Eq(14, 15) is 0, and 1 to 63 are Len(15, n). Strings 0 to 13 have their trimmings alone, steps 64 to 77; string 14 is touched
# by 0 and 78, string 15 by 0 to 63 and 79, the number by 1 to 63.
MOST = over(1, 16, 1, [(1, 14, 15, 0)] + [(6, 15, 0, 0)] * 63)
INDEX_MOST = [word for x in range(14) for word in (0, 2**x)] + [1, 2**14] + [2**64 - 1, 2**15] + [2**64 - 2, 0]
# Constraint i of the largest file is Sub(i, i + 1, i), modulo 16: string x is touched by those of x and of x - 1 and by trimming 64 + x, number n by those
# of n.
INDEX_LARGEST = pairs(*({i for i in range(64) if i % 16 in (x, (x - 1) % 16)} | {64 + x} for x in range(16)), *(range(n, 64, 16) for n in range(16)))

INDEXES = [
    ("s, t, c, d all 0", file(), 0, "done", []),
    ("P14", P14, 8, "done", INDEX14),
    ("each kind of constraint", KINDS, 10, "done", INDEX_KINDS),
    ("no constraint at all", over(4, 2, 1, []), 6, "done", [1, 0, 2, 0, 0, 0]),
    ("numbers alone", over(4, 0, 2, []), 4, "done", [0, 0, 0, 0]),
    ("step 63 is a trimming", LENS63, 6, "done", INDEX63),
    ("step 64 is a trimming", EQS64, 4, "done", INDEX_EQS),
    ("64 constraints and 16 strings: step 79", MOST, 34, "done", INDEX_MOST),
    ("the largest file", largest(), 64, "done", INDEX_LARGEST),
    ("a word short", P14, 7, "refused 18", None),
    ("a word long", P14, 9, "refused 18", None),
    ("no word", P14, 0, "refused 18", None),
    ("a word for each variable", P14, 4, "refused 18", None),
    ("as many words as the table", P14, 193, "refused 18", None),
    ("a word for no variable", file(), 1, "refused 18", None),
]

# ---- Settle by index: (what is tried, file, index, lent table, steps run and whether every variable has a value, table afterwards; None where it is untouched)

SHORT = row({1, 2}, {0}, {0})  # 0 or 00
# Steps 0 Eq(X, Y), 1 Cat(X, Y, Z), 2 Len(X, n), and the trimmings 3, 4 and 5.
ORDERED = over(1, 3, 1, [EQ, CAT, LEN])
INDEX_ORDERED = pairs({0, 1, 2, 3}, {0, 1, 4}, {1, 5}, {2})
LONG = row({2, 3, 4}, *[{0}] * 4)
UNEVEN = [EMPTY] * 14 + [SHORT, SHORT]
EVEN = [EMPTY] * 14 + [string(0), string(0)]
BAD_SYMBOL = table([row({1}, {4})], [()])  # for PLAIN, whose symbols are 0 to 3

QUEUES = [
    ("s, t, c, d all 0", file(), [], [], "steps 0 true", None),
    # 0 strikes while all others wait, so none joins; 1 strikes, and 0 joins; 2, 3, 4 and 0 strike nothing
    ("P14", P14, INDEX14, T14, "steps 6 true", SETTLED14),
    ("P14, settled: each step once", P14, INDEX14, SETTLED14, "steps 5 true", None),
    ("P14, solved: each step once", P14, INDEX14, SOLVED14, "steps 5 true", None),
    # 0 strikes, and 1 takes all of X; 0 joins behind 2, 3 and 4, takes all of Y and Z, and all others join
    ("P14, a number with no value: it goes on", P14, INDEX14, table([X14, Y14, Z14], [()]), "steps 10 false", table([NOTHING] * 3, [()])),
    ("no constraint at all: each trimming once", over(4, 2, 1, []), [1, 0, 2, 0, 0, 0], table([row({0}, {1}), row({1}, {2}, {3})], [{5}]), "steps 2 true",
     table([EMPTY, string(2)], [{5}])),
    ("numbers alone, one with no value", over(4, 0, 2, []), [0] * 4, table([], [{5}, ()]), "steps 0 false", None),
    ("a string with no length", over(4, 1, 0, []), [1, 0], row((), {1}), "steps 1 false", NOTHING),
    # Regular strikes, and does not join itself; the trimming waits already
    ("P13: a step doesn't make itself join", over(2, 1, 0, [(7, 0, 0, 0)], [PARITY]), [3, 0], row({1, 2}, {0}, {0, 1}), "steps 2 true", string(0, 0)),
    ("P2's rows: both empty", over(4, 2, 0, [EQ]), [3, 0, 5, 0], table([P2X, P2Y]), "steps 3 false", table([NOTHING, NOTHING])),
    # 0 Len leaves X the length 2; 1 Eq empties X and Y, 0 joins behind 2 and 3; 0 takes the number, 1 and 2 join
    ("it goes on after P2's rows are empty", over(4, 2, 1, [LEN, EQ]), [7, 0, 10, 0, 1, 0], table([P2X, P2Y], [{2}]), "steps 7 false",
     table([NOTHING, NOTHING], [()])),
    # 1 Len strikes of Y: 0 joins behind 2 and 3, and 3, which waits, not again; 0 strikes of X: 1, 2 and 3 join
    ("a step that still waits doesn't join twice", TWO_LENS, [5, 0, 11, 0, 2, 0], table([SHORT] * 2, [{1}]), "steps 8 true", table([string(0)] * 2, [{1}])),
    # 2 Len strikes of X: 0 and 1 join behind 3, 4 and 5, 0 in front. So 0 tells Y before 1 looks at Z, and 2, 3, 4 join behind 1; 1 strikes of Z, 0 and 5 join.
    # With 1 in front, Z would be struck twice
    ("the lowest number joins first", ORDERED, INDEX_ORDERED, table([SHORT, SHORT, LONG], [{1}]), "steps 13 true",
     table([string(0), string(0), string(0, 0)], [{1}])),
    # 1 strikes of string 15 and 0 joins behind 2 to 79; 0 strikes of string 14, and 1 to 63, 78 and 79 join: 80 + 1 + 65
    ("64 constraints and 16 strings: step 79 joins", MOST, INDEX_MOST, table(UNEVEN, [{1}]), "steps 146 true", table(EVEN, [{1}])),
    ("64 constraints and 16 strings, settled", MOST, INDEX_MOST, table(EVEN, [{1}]), "steps 80 true", None),
    ("64 constraints, no number", EQS64, INDEX_EQS, table([SHORT, string(0)]), "steps 66 true", table([string(0)] * 2)),
    ("bits at k and above in a lent length and number word", PLAIN, [1, 0, 0, 0], table([row({0, 63})], [{4, 63}]), "steps 1 true", table([EMPTY], [{4, 63}])),
    ("a lent table a word short", PLAIN, [1, 0, 0, 0], MARKS[1:], "refused 9", None),
    ("a lent table a word long", PLAIN, [1, 0, 0, 0], MARKS + [MARK], "refused 9", None),
    ("a bit at k in a lent symbol word", PLAIN, [1, 0, 0, 0], BAD_SYMBOL, "refused 10", None),
    ("the table's size is looked at before the index's", PLAIN, [1, 0, 0], MARKS[1:], "refused 9", None),
    ("the table's size is looked at before the index's words", PLAIN, [0, 0, 0, 0], MARKS[1:], "refused 9", None),
    ("the lent symbols are looked at before the index's size", PLAIN, [1, 0, 0, 0, 0], BAD_SYMBOL, "refused 10", None),
    ("the lent symbols are looked at before the index's words", PLAIN, [2, 0, 0, 0], BAD_SYMBOL, "refused 10", None),
    ("an index a word short", P14, INDEX14[:-1], T14, "refused 18", None),
    ("an index a word long", P14, INDEX14 + [0], T14, "refused 18", None),
    ("an index of no word", P14, [], T14, "refused 18", None),
    ("an index of a word for no variable", file(), [0], [], "refused 18", None),
    ("the index's size is looked at before its words", P14, [MARK] * 9, T14, "refused 18", None),
    ("the index of another file", P14, OTHER14, T14, "refused 19", None),
    ("the index of another file, on a settled table", P14, OTHER14, SETTLED14, "refused 19", None),
    ("an index of no step", P14, [0] * 8, T14, "refused 19", None),
    ("an index of every step", P14, [31, 0] * 4, T14, "refused 19", None),
    ("low and high words exchanged", P14, [0, 7, 0, 9, 0, 17, 0, 2], T14, "refused 19", None),
    ("numbers before strings", P14, [2, 0, 7, 0, 9, 0, 17, 0], T14, "refused 19", None),
    ("all low words before all high ones", P14, [7, 9, 17, 2, 0, 0, 0, 0], T14, "refused 19", None),
    ("the trimmings before the constraints", P14, [25, 0, 10, 0, 12, 0, 16, 0], T14, "refused 19", None),
    ("a step that is not there", P14, [7 + 32, 0, 9, 0, 17, 0, 2, 0], T14, "refused 19", None),
    ("low and high words exchanged, 64 constraints", EQS64, [1, 2**64 - 1, 2, 2**64 - 1], table([SHORT, string(0)]), "refused 19", None),
    ("the last word without its bit", EQS64, INDEX_EQS[:3] + [0], table([SHORT, string(0)]), "refused 19", None),
    ("the last word with one bit more", EQS64, INDEX_EQS[:3] + [3], table([SHORT, string(0)]), "refused 19", None),
    ("the first word without its highest bit", EQS64, [2**63 - 1] + INDEX_EQS[1:], table([SHORT, string(0)]), "refused 19", None),
    ("the first word without its lowest bit", EQS64, [2**64 - 2] + INDEX_EQS[1:], table([SHORT, string(0)]), "refused 19", None),
    ("step 79 missing", MOST, INDEX_MOST[:31] + [0] + INDEX_MOST[32:], table(UNEVEN, [{1}]), "refused 19", None),
]
# each word of an index with its first and with its last bit another
QUEUES += [
    (f"word {i} with bit {b} another", SMALL, INDEX_SMALL[:i] + [INDEX_SMALL[i] ^ 1 << b] + INDEX_SMALL[i + 1 :], table([SHORT], [{1}]), "refused 19", None)
    for i in range(4)
    for b in (0, 63)
]
QUEUES += [("and with none", SMALL, INDEX_SMALL, table([SHORT], [{1}]), "steps 2 true", table([string(0)], [{1}]))]

# ---- lists of calls with an index: (what is tried, file, calls, index, lent table, table afterwards; None where it is untouched)

LISTS_BY_INDEX = [
    ("no call", P14, [], INDEX14, T14, None),
    ("no call and no index", P14, [], [], T14, None),
    ("Settle by index", P14, [BY_INDEX], INDEX14, T14, SETTLED14),
    ("Settle by index with another file's index", P14, [BY_INDEX], OTHER14, T14, None),
    ("Settle by index with an index a word short", P14, [BY_INDEX], INDEX14[:-1], T14, None),
    ("the list goes on after another file's index", P14, [BY_INDEX, 0, BY_INDEX], OTHER14, T14, CAT14),
    ("the list goes on after an index a word long", P14, [1, BY_INDEX, 0], INDEX14 + [0], T14, SETTLED14),
    ("Settle and Step don't look at the index", P14, [1, SETTLE], OTHER14, T14, SETTLED14),
    ("one step", P14, [0], INDEX14, T14, CAT14),
    ("a refused step, and Settle by index", P14, [5, BY_INDEX], INDEX14, T14, SETTLED14),
    ("the number below that of Settle by index is no step", P14, [BY_INDEX - 1], INDEX14, T14, None),
    ("all of them", P14, [BY_INDEX, 0, 1, 2, 3, 4, SETTLE, BY_INDEX], INDEX14, T14, SETTLED14),
    ("no variable", file(), [BY_INDEX, SETTLE], [], [], None),
    ("a lent table a word short", PLAIN, [BY_INDEX, 0], [1, 0, 0, 0], MARKS[1:], None),
    ("a bit at k in a lent symbol word", PLAIN, [BY_INDEX, 0], [1, 0, 0, 0], BAD_SYMBOL, None),
]

# ---- Search: (what is tried, file, budget, words of room, words of the answer table, answer, answer table afterwards; None where it is untouched)

NEQ = [(2, x, y, 0) for x in range(4) for y in range(x + 1, 4)]
# Four strings of one symbol of three, no two the same. The root strikes nothing. Each of the 3 children for string 0 leaves the others two symbols, and each
# of its 2 children for string 1 leaves strings 2 and 3 the same symbol: dead. 1 + 3 + 6 nodes.
PIGEONS = problem(3, [row({1}, {0, 1, 2})] * 4, records=NEQ)
# With 0 for string 0, strings 1 and 2 are both left 2: dead. With 1 nothing is struck; then 0 for string 1 leaves 2 for string 2: the fourth node.
SECOND = problem(3, [row({1}, {0, 1}), row({1}, {0, 2}), row({1}, {0, 2})], records=[(2, 0, 1, 0), (2, 0, 2, 0), (2, 1, 2, 0)])
# The string's length 0 first, then the number's value 5.
FREE = problem(2, [row({0, 1}, {0, 1})], [{5, 6}])

SEARCHES = [
    ("s, t, c, d all 0", file(), 1, 0, 0, "found 1", []),
    ("s, t, c, d all 0, budget 0", file(), 0, 2, 0, "spent 0", None),
    ("P14, budget 0", P14, 0, 579, 193, "spent 0", None),
    ("P14, budget 1", P14, 1, 579, 193, "spent 1", None),
    ("P14, budget 2", P14, 2, 579, 193, "found 2", SOLVED14),
    ("P14, budget 3", P14, 3, 579, 193, "found 2", SOLVED14),
    ("P14, the greatest budget", P14, 2**32 - 1, 579, 193, "found 2", SOLVED14),
    ("P14, room for more", P14, 2, 600, 193, "found 2", SOLVED14),
    ("P14, room for more and budget 1", P14, 1, 600, 193, "spent 1", None),
    ("P14, room a word short", P14, 2, 578, 193, "refused 12", None),
    ("P14, an answer table a word short", P14, 2, 579, 192, "refused 13", None),
    ("P14, an answer table a word long", P14, 2, 579, 194, "refused 13", None),
    ("P14, the room is looked at before the answer table", P14, 0, 578, 192, "refused 12", None),
    ("no solution: budget for the whole tree", PIGEONS, 10, 768, 256, "none 10", None),
    ("no solution: budget for all but one node", PIGEONS, 9, 768, 256, "spent 9", None),
    ("no solution: more budget, more room", PIGEONS, 65536, 770, 256, "none 10", None),
    ("no solution at the root", problem(4, [string(0)] * 2, records=[(2, 0, 1, 0)]), 1, 384, 128, "none 1", None),
    ("no solution at the root, budget 0", problem(4, [string(0)] * 2, records=[(2, 0, 1, 0)]), 0, 384, 128, "spent 0", None),
    ("a string that stands for nothing", problem(4, [row({2}, {0})]), 1, 192, 64, "none 1", None),
    ("the first child is dead", SECOND, 4, 576, 192, "found 4", table([string(1), string(0), string(2)])),
    ("the first child is dead, a node short", SECOND, 3, 576, 192, "spent 3", None),
    ("a string before a number", FREE, 3, 195, 65, "found 3", table([EMPTY], [{5}])),
    ("a string before a number, a node short", FREE, 2, 195, 65, "spent 2", None),
    ("the lower value of a number", problem(1, [], [{3}, {63, 9}]), 2, 6, 2, "found 2", table([], [{3}, {9}])),
    ("a string of 63 places", problem(1, [FULL63]), 1, 192, 64, "found 1", FULL63),
    ("a string of 62 or 63 places", problem(1, [row({62, 63}, *[{0}] * 63)]), 2, 192, 64, "found 2", string(*[0] * 62)),
    ("a length 63 past the places", problem(1, [row({2, 63}, {0}, {0}, (), {0})]), 1, 192, 64, "found 1", string(0, 0)),
    ("k 64 and symbol 63", problem(64, [row({1}, {62, 63})], records=[]), 2, 192, 64, "found 2", string(62)),
    ("an empty suffix behind 01", problem(4, [string(0, 1), EMPTY], [{3}], [(5, 0, 1, 0)]), 1, 387, 129, "found 1", table([string(0, 1), EMPTY], [{3}])),
    ("an empty suffix further behind 01", problem(4, [string(0, 1), EMPTY], [{4}], [(5, 0, 1, 0)]), 1, 387, 129, "none 1", None),
    # the lengths 1 and 3 are left, and the shorter string comes first
    ("symbols in turn by gaps", problem(2, [FREE3], records=[(7, 0, 0, 0)], machines=[TURNS]), 2, 192, 64, "found 2", string(1)),
    ("symbols in turn by a sink", problem(2, [FREE3], records=[(7, 0, 0, 0)], machines=[TURNS_SINK]), 2, 192, 64, "found 2", string(1)),
    ("symbols in turn by gaps, a node short", problem(2, [FREE3], records=[(7, 0, 0, 0)], machines=[TURNS]), 1, 192, 64, "spent 1", None),
    ("no symbol by which state 0 moves", problem(2, [row({1, 2}, {0}, {1})], records=[(7, 0, 0, 0)], machines=[TURNS]), 1, 192, 64, "none 1", None),
    ("32 states with gaps", problem(2, [row({30, 31}, *[{0, 1}] * 31)], records=[(7, 0, 0, 0)], machines=[ZEROS31]), 1, 192, 64, "found 1", string(*[0] * 31)),
]

# ---- refusals 1 to 8 come first: the lent table, the room and the index have the wrong size for each of these files, and there is no such step

REFUSED = {
    1: file()[1:],
    2: file(s=1, mark=b"TAIM"),
    3: file(s=1, k=65),
    4: b"\0" + file(s=1),
    5: file(s=1, machines=b"\0"),
    6: file(s=1, words={1: 16}),
    7: file(s=2, records=[(0, 0, 0, 0)]),
    8: file(s=2, records=[(1, 1, 1, 0)]),
}
STEPS += [(f"refusal {n} comes first", content, 99, [MARK], f"refused {n}", None) for n, content in REFUSED.items()]
SETTLES += [(f"refusal {n} comes first", content, [MARK], f"refused {n}", None) for n, content in REFUSED.items()]
INDEXES += [(f"refusal {n} comes first", content, 1, f"refused {n}", None) for n, content in REFUSED.items()]
QUEUES += [(f"refusal {n} comes first", content, [MARK], [MARK], f"refused {n}", None) for n, content in REFUSED.items()]
LISTS += [(f"a file with refusal {n}", content, [0, SETTLE], [MARK], None) for n, content in REFUSED.items()]
LISTS_BY_INDEX += [(f"a file with refusal {n}", content, [BY_INDEX, 0], [MARK], [MARK], None) for n, content in REFUSED.items()]
SEARCHES += [(f"refusal {n} comes first", content, 1, 1, 1, f"refused {n}", None) for n, content in REFUSED.items()]

# ---- patterns

def machine(k, accepting, *rows):
    """The bytes of an automaton: its accepting states, and for each state the next one by each of k symbols, or by all of them where one is given."""
    return bytes([len(rows)]) + bits(accepting).to_bytes(4, "little") + b"".join(bytes(row if len(row) == k else row * k) for row in rows)


def chain(n, k):
    """n letters `0` side by side: after the start and the first letter's state the empty set is reached, by symbol 1, where there is one; else at the end."""
    states = [None, *range(n)] + ["empty"] if k == 1 else [None, 0, "empty", *range(1, n)]
    following = {None: 0, "empty": "empty", n - 1: "empty", **{i: i + 1 for i in range(n - 1)}}
    rows = ([states.index(following[x])] + [states.index("empty")] * (k - 1) for x in states)
    return machine(k, {states.index(n - 1)}, *rows)


NOTHING = machine(1, {0}, [1], [1])  # the empty string alone: the start, and the empty set
ONE = machine(1, {1}, [1], [2], [2])  # one letter: the start, the letter, the empty set
ANY = machine(1, {0, 1}, [1], [1])  # any number of one letter: the start, the letter

# (what is tried, text, k, bytes lent, the bytes that are written or the refusal)
PATTERNS = [
    ("the empty text", b"", 1, 7, NOTHING),
    ("two empty branches", b"|", 1, 7, NOTHING),
    ("a group of the empty string", b"()", 1, 7, NOTHING),
    ("the empty string any number of times", b"()*", 1, 7, NOTHING),
    ("a letter", b"0", 1, 8, ONE),
    ("a letter any number of times", b"0*", 1, 7, ANY),
    ("a star in a group with a star", b"(0*)*", 1, 7, ANY),
    ("equal letters in two places", b"0|0", 1, 8, ONE),
    ("letters side by side", b"01", 2, 13, machine(2, {3}, [1, 2], [2, 3], [2], [2])),
    ("a set of two letters", b"(0|1)*0", 2, 11, machine(2, {1}, [1, 2], [1, 2], [1, 2])),
    ("an optional letter", b"(0|)1", 2, 13, machine(2, {2}, [1, 2], [3, 2], [3], [3])),
    ("63 bytes", b"0*" * 31 + b"0", 1, 7, machine(1, {1}, [1], [1])),
    ("64 bytes", b"0*" * 32, 1, 7, 14),
    ("64 bytes that break the rules otherwise too, no symbol", b"*" * 64, 0, 0, 14),
    ("31 groups", b"(" * 31 + b"0" + b")" * 31, 1, 8, ONE),
    ("31 groups with no letter", b"(" * 31 + b")" * 31, 1, 7, NOTHING),
    ("31 groups, the last one not closed", b"(" * 31 + b"0" + b")" * 30, 1, 8, 14),
    ("32 states", b"0" * 30, 1, 37, chain(30, 1)),
    ("33 states", b"0" * 31, 1, 38, 16),
    ("32 states over 64 symbols", b"0" * 30, 64, 2053, chain(30, 64)),
    ("32 states over 64 symbols, a byte short", b"0" * 30, 64, 2052, 17),
    ("33 states over 64 symbols", b"0" * 31, 64, 4096, 16),
    ("a byte more than is needed", b"0*", 1, 8, ANY),
    ("a byte less than is needed", b"0*", 1, 6, 17),
    ("no byte lent", b"0*", 1, 0, 17),
    ("no symbol", b"", 0, 7, 15),
    ("64 symbols", b"", 64, 133, machine(64, {0}, [1], [1])),
    ("65 symbols", b"", 65, 135, 15),
    ("the greatest number of symbols that a case can give", b"", 2**32 - 1, 7, 15),
    ("a broken text and no symbol", b"*", 0, 0, 14),
    ("a letter without its symbol, 33 states", b"0" * 31 + b"1", 1, 0, 15),
    ("a letter without its symbol, no byte lent", b"/", 1, 0, 15),
    ("33 states and no byte lent", b"0" * 31, 1, 0, 16),
]
# each letter at the first k that has its symbol, and one below
PATTERNS += [
    (f"{letter} with {k} symbols", letter.encode(), k, 5 + 3 * k, 15 if k == symbol else machine(k, {2}, [1] * symbol + [2], [1], [1]))
    for letter, symbol in (("9", 9), (".", 10), ("a", 11), ("z", 36), ("-", 37), ("/", 38))
    for k in (symbol, symbol + 1)
]
PATTERNS += [("/ with 64 symbols", b"/", 64, 197, machine(64, {2}, [1] * 38 + [2] + [1] * 25, [1], [1]))]
# each misplaced sign, and the bytes beside the letters
PATTERNS += [
    (f"{text!r} is no pattern", text, 64, 4096, 14)
    for text in (b"*", b"|*", b"0|*", b"(*)", b"0**", b"()**", b"(0)**", b")", b"0)", b"(0))", b"|)", b"(", b"0(", b"(0", b"((0)", b"(|", b")(", b" ", b"0 0", b"+")
    + (b",", b":", b"@", b"A", b"Z", b"`", b"{", b"\\", b"\0", b"\x80", b"\xff", b"0\n")
]


def two(n):
    return n.to_bytes(2, "little")


def four(n):
    return n.to_bytes(4, "little")


def laid(operation, content, lent, room=0, fill=MARK, argument=0, changes=(), calls=()):
    """A case as crates/edges/src/main.rt reads it."""
    numbers = two(operation) + two(lent) + two(room) + two(fill) + four(argument) + two(len(changes)) + two(len(calls)) + two(len(content))
    words = b"".join(two(place) + word.to_bytes(8, "little") for place, word in changes)
    return numbers + words + b"".join(four(call) for call in calls) + content


def case(content, lent):
    """Read and Unpack."""
    return laid(0, content, lent)


def on_table(operation, content, words, argument=0, calls=(), index=()):
    """A call on a lent table, and on an index, which is lent as the room."""
    changes = [(i, w) for i, w in enumerate(words) if w] + [(ROOM_AT + i, w) for i, w in enumerate(index) if w]
    return laid(operation, content, len(words), room=len(index), fill=0, argument=argument, changes=changes, calls=calls)


def answer(a):
    if isinstance(a, int):
        return f"refused {a}"
    return a if isinstance(a, str) else " ".join(str(n) for n in a)


def words(buffer):
    """A buffer as the program prints it: a run of n equal words is the word, `x` and n."""
    printed, i = "", 0
    while i < len(buffer):
        n = next((j for j in range(i, len(buffer)) if buffer[j] != buffer[i]), len(buffer)) - i
        printed += f" {buffer[i]}" + (f"x{n}" if n > 1 else "")
        i += n
    return printed


def left(before, after):
    return " left" + words(before if after is None else after)


def room_after(content, room, answered):
    """A refusal leaves the room; else three tables of it are 0."""
    s, t = (content[-23], content[-22]) if len(content) >= 24 else (0, 0)
    cleared = 0 if answered.startswith("refused") else 3 * (64 * s + t)
    return [0] * cleared + [MARK] * (room - cleared)


def by_index():
    """The cases with an index, as `listing` gives them."""
    given, printed = [], []
    for _, content, lent, answered, after in INDEXES:
        given.append(laid(6, content, 0, room=lent))
        printed.append(f"index {answered}" + left([MARK] * lent, after))
    for _, content, index, lent, answered, after in QUEUES:
        given.append(on_table(7, content, lent, index=index))
        printed.append(f"settle by index {answered}" + left(lent, after))
    for _, content, calls, index, lent, after in LISTS_BY_INDEX:
        given.append(on_table(8, content, lent, calls=calls, index=index))
        printed.append("perform by index" + left(lent, after))
    return given, printed


def listing():
    """The program's standard input, and what it must print."""
    given, printed = [], []
    for _, content, lent, read, unpack, total in EDGES:
        given.append(case(content, lent))
        printed.append(f"read {answer(read)} unpack {answer(unpack)} left {total}")
    for _, content, j, lent, answered, after in STEPS:
        given.append(on_table(1, content, lent, argument=j))
        printed.append(f"step {answered}" + left(lent, after))
    for _, content, lent, answered, after in SETTLES:
        given.append(on_table(2, content, lent))
        printed.append(f"settle {answered}" + left(lent, after))
    for _, content, budget, room, lent, answered, solution in SEARCHES:
        given.append(laid(3, content, lent, room=room, argument=budget))
        printed.append(f"search {answered} room" + words(room_after(content, room, answered)) + left([MARK] * lent, solution))
    for _, content, calls, lent, after in LISTS:
        given.append(on_table(4, content, lent, calls=calls))
        printed.append("perform" + left(lent, after))
    for _, text, k, lent, answered in PATTERNS:
        given.append(laid(5, text, 0, room=lent, argument=k))
        written = b"" if isinstance(answered, int) else answered
        printed.append("compile " + (f"written {len(written)}" if written else answer(answered)) + left([], list(written) + [MARK] * (lent - len(written))))
    more, lines = by_index()
    return b"".join(given + more), "".join(line + "\n" for line in printed + lines).encode()


def main():
    if not stands("edges", listing()):
        return 1
    counts = (
        *((EDGES, "files"), (STEPS, "steps"), (SETTLES, "settlings"), (INDEXES, "indexes"), (QUEUES, "settlings by index"), (SEARCHES, "searches")),
        *((LISTS + LISTS_BY_INDEX, "lists of calls"), (PATTERNS, "patterns")),
    )
    print("edges: " + ", ".join(f"{len(cases)} {name}" for cases, name in counts) + " stand in crates/edges")
    return 0


if __name__ == "__main__":
    sys.exit(main())
