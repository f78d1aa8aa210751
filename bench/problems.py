# Problem files in the format of document 01, from descriptions that can be read: bench/search.py searches them, bench/settling.py settles them. Deterministic.
#     python3 bench/problems.py FOLDER      writes each problem to FOLDER/NAME.problem
import random
import sys
from itertools import combinations, permutations
from pathlib import Path

sys.path.insert(0, str(Path(__file__).resolve().parent.parent / "tests"))
from edges import automaton, file

LETTERS = "abcdefghijklmnopqrstuvwxyz"
DIGITS = "0123456789"
LIMIT = 64  # one more than the longest string and the greatest number
EVERY = 2**64 - 1


def bits(values):
    return sum(1 << v for v in set(values))


class Problem:
    """Strings, numbers and constraints by their positions; a string is what `string` or `text` answers."""

    def __init__(self, alphabet):
        self.alphabet = alphabet
        self.rows, self.numbers, self.records, self.machines = [], [], [], []

    def word(self, symbols):
        return bits(self.alphabet.index(a) for a in symbols)

    def string(self, lengths, symbols=None):
        """Any string of one of these lengths, with these symbols at every place."""
        longest = max(lengths)
        self.rows.append([bits(lengths)] + [self.word(symbols or self.alphabet)] * longest + [0] * (LIMIT - 1 - longest))
        return len(self.rows) - 1

    def text(self, symbols):
        """Just this string."""
        self.rows.append([1 << len(symbols)] + [self.word(a) for a in symbols] + [0] * (LIMIT - 1 - len(symbols)))
        return len(self.rows) - 1

    def number(self, values):
        self.numbers.append(bits(values))
        return len(self.numbers) - 1

    def eq(self, x, y):
        self.records.append((1, x, y, 0))

    def neq(self, x, y):
        self.records.append((2, x, y, 0))

    def rev(self, x, y):
        self.records.append((3, x, y, 0))

    def cat(self, x, y, z):
        self.records.append((4, x, y, z))

    def sub(self, x, y, n):
        self.records.append((5, x, y, n))

    def len(self, x, n):
        self.records.append((6, x, n, 0))

    def regular(self, x, machine):
        self.records.append((7, x, machine, 0))

    def joined(self, *pieces):
        """The pieces one after the other: a string of any length for each joint."""
        whole = pieces[0]
        for piece in pieces[1:]:
            longer = self.string(range(LIMIT))
            self.cat(whole, piece, longer)
            whole = longer
        return whole

    def rule(self, *blocks):
        """The automaton of a path rule: blocks (symbols, least, most) one after the other, with most None for any number."""
        # A state of the nondeterministic automaton is (block, how many symbols of it); beyond `least` symbols of an endless block it stays.
        def close(places):
            """With a block that may end, its successor may begin."""
            places = set(places)
            for b in range(len(blocks)):
                if any(block == b and n >= blocks[b][1] for block, n in places):
                    places.add((b + 1, 0))
            return frozenset(places)

        def move(places, symbol):
            after = set()
            for b, n in places:
                if b < len(blocks) and symbol in blocks[b][0] and (blocks[b][2] is None or n < blocks[b][2]):
                    after.add((b, n if blocks[b][2] is None and n == blocks[b][1] else n + 1))
            return close(after)

        states = [close({(0, 0)})]
        moves = []
        for places in states:  # grows while it is walked
            for symbol in self.alphabet:
                after = move(places, symbol)
                if after not in states:
                    states.append(after)
                moves.append(states.index(after))
        assert len(states) <= 32
        return self.machine(len(states), moves, [i for i, places in enumerate(states) if (len(blocks), 0) in places])

    def machine(self, count, moves, accepting):
        self.machines.append(automaton(len(self.alphabet), count, bits(accepting), moves))
        return len(self.machines) - 1

    def file(self):
        words = [word for row in self.rows for word in row] + self.numbers
        counts = dict(k=len(self.alphabet), s=len(self.rows), t=len(self.numbers), d=len(self.machines))
        return file(words=dict(enumerate(words)), records=self.records, machines=b"".join(self.machines), **counts)


def p14():
    """P14 of document 01."""
    p = Problem("01")
    x, y, z, n = p.string([1, 2]), p.string([0, 1], "1"), p.string([2]), p.number(range(4))
    p.rows[z][1] = p.word("0")
    p.cat(x, y, z)
    p.len(x, n)
    return p


def templates(signers):
    """Can `course/rendition-counter` be `course/signer`? A signer is of the rule `signers`; both names are held to a path rule."""
    p = Problem(LETTERS + DIGITS + "/-")
    slash, dash = p.text("/"), p.text("-")
    course = p.string(range(3, 9))
    rendition = p.string(range(2, 6))
    counter = p.string(range(1, 6), DIGITS)
    width = p.number([3, 4, 5])
    first = p.joined(course, slash, rendition, dash, counter)
    other = p.string(range(3, 9))
    signer = p.string(range(2, 13))
    second = p.joined(other, slash, signer)
    named = p.rule((LETTERS, 1, 1), (LETTERS + DIGITS, 1, None))
    path = p.rule((LETTERS + DIGITS, 3, None), ("/", 1, 1), (LETTERS + DIGITS + "-", 2, 16))
    p.regular(course, named)
    p.regular(other, named)
    p.regular(rendition, p.rule((LETTERS, 1, None), (DIGITS, 1, None)))
    p.regular(signer, p.rule(*signers))
    p.regular(first, path)
    p.regular(second, path)
    p.len(counter, width)
    p.eq(first, second)
    return p


def clash():
    """A signer may hold a dash and end in digits: `aaa/a0-000` is made by both templates."""
    return templates([(LETTERS, 1, 1), (LETTERS + DIGITS + "-", 1, None)])


def no_clash():
    """A signer ends in a letter, and a counter in a digit: no name is made by both."""
    return templates([(LETTERS, 1, 1), (LETTERS + DIGITS + "-", 1, None), (LETTERS, 1, 1)])


def checked():
    """`course/counter` and `course-rendition/counter`, where a signer adds an even number of 1 to the one, an odd number to the other: no name is made by both.
    No single rule shows it: every name that both templates can spell is tried."""
    p = Problem("abc01/-")
    slash, dash = p.text("/"), p.text("-")
    first = p.joined(p.string(range(3, 6), "abc-"), slash, p.string(range(2, 5), "01"))
    second = p.joined(p.string([1, 2], "abc"), dash, p.string([1, 2], "abc"), slash, p.string(range(2, 5), "01"))
    p.regular(first, p.machine(2, parity(p.alphabet, "1"), [0]))
    p.regular(second, p.machine(2, parity(p.alphabet, "1"), [1]))
    p.eq(first, second)
    return p


def parity(alphabet, counted):
    """The moves of two states that tell whether the counted symbols are even or odd in number."""
    return [state ^ (symbol in counted) for state in (0, 1) for symbol in alphabet]


def pigeons(count, holes):
    """So many strings of one symbol, all different, over fewer symbols: there are none."""
    p = Problem(LETTERS[:holes])
    names = [p.string([1]) for _ in range(count)]
    for i in range(count):
        for j in range(i):
            p.neq(names[j], names[i])
    return p


def codes(length):
    """Every word of three bits in one string of this length: there is one of length 10, and none of length 9."""
    p = Problem("01")
    whole = p.string([length])
    for i in range(8):
        p.sub(whole, p.text(f"{i:03b}"), p.number(range(LIMIT)))
    return p


def largest():
    """16 strings, 16 numbers, 64 symbols, 64 constraints of every kind and 8 automata of 32 states, every bit of the table there."""
    p = Problem([chr(i) for i in range(64)])
    strings = [p.string(range(LIMIT)) for _ in range(16)]
    numbers = [p.number(range(LIMIT)) for _ in range(16)]
    for r in range(8):
        # Symbol a adds a + r to the state, modulo 32; the even states accept.
        p.machine(32, [(state + a + r) % 32 for state in range(32) for a in range(64)], range(0, 32, 2))
    for i in range(16):
        p.len(strings[i], numbers[i])
        p.regular(strings[i], i % 8)
    for i in range(4):
        p.cat(strings[i], strings[i + 4], strings[i + 8])
        p.rev(strings[i + 8], strings[i + 12])
    for i in range(8):
        p.sub(strings[i + 8], strings[i], numbers[(i + 5) % 16])
    for i in range(16):
        p.neq(strings[i], strings[(i + 1) % 16])
    return p


def deepest():
    """16 strings of 63 symbols out of 64, each held to a rule and no two neighbours the same: the first solution lies some thousand levels down."""
    p = Problem([chr(i) for i in range(64)])
    strings = [p.string([63]) for _ in range(16)]
    rule = p.machine(2, parity(p.alphabet, p.alphabet[0]), [1])
    for i in range(16):
        p.regular(strings[i], rule)
        p.neq(strings[i], strings[(i + 1) % 16])
    return p


def grown(draw, words, kinds):
    """Adds a word for each kind of constraint, made from words that are there so that the constraint holds: answers the constraints."""
    held = []
    for kind in kinds:
        new = len(words)
        x, y = draw.sample([i for i, word in enumerate(words) if len(word) <= 5], 2)
        first = draw.randrange(len(words[x]))
        last = draw.randint(first, len(words[x]) - 1)
        word, arguments = {
            "eq": (words[x], (x, new)),
            "rev": (words[x][::-1], (x, new)),
            "cat": (words[x] + words[y], (x, y, new)),
            "sub": (words[x][first : last + 1], (x, new, first)),
        }[kind]
        words.append(word)
        held.append((kind, *arguments))
    return held


def end(moves, alphabet, word):
    """The state in which an automaton ends."""
    state = 0
    for symbol in word:
        state = moves[len(alphabet) * state + alphabet.index(symbol)]
    return state


def woven(seed):
    """16 strings of 1 to 10 symbols out of 6, 10 numbers, three automata and 54 constraints of every kind, at random. So that the root is not dead, they are
    made to hold of words that the file does not tell: six random ones, and ten that are joined, turned round, cut or copied from these; number i is i + 1."""
    draw = random.Random(seed)
    p = Problem(LETTERS[:6])
    words = ["".join(draw.choices(p.alphabet, k=draw.randint(2, 5))) for _ in range(6)]
    held = grown(draw, words, "cat cat rev cat sub eq cat sub rev cat".split())
    ends = []
    for states in (5, 6, 8):
        moves = draw.choices(range(states), k=states * len(p.alphabet))
        accepting = draw.sample(range(states), 2)
        r = p.machine(states, moves, accepting)
        ends += [("regular", x, r) for x, word in enumerate(words) if end(moves, p.alphabet, word) in accepting]
    parts = [("sub", x, y, words[x].find(words[y])) for x, y in permutations(range(16), 2) if words[y] in words[x]]
    different = [("neq", x, y) for x, y in combinations(range(16), 2) if words[x] != words[y]]
    lengths = [("len", x, len(word) - 1) for x, word in enumerate(words)]
    for count, those in ((18, different), (6, parts), (8, lengths), (12, ends)):
        held += draw.sample([one for one in those if one not in held], count)  # raises ValueError for a seed that has fewer
    for _ in words:
        p.string(range(1, 11))
    for _ in range(10):
        p.number(range(1, 11))
    for kind, *arguments in draw.sample(held, len(held)):
        getattr(p, kind)(*arguments)
    return p


def rules():
    """16 strings of up to 63 symbols out of 64, each held to four of 8 automata of 32 states: bench/stack.py's, as Regular takes most of the stack."""
    p = Problem([chr(i) for i in range(64)])
    strings = [p.string(range(LIMIT)) for _ in range(16)]
    for r in range(8):
        # Symbol a takes the state times 5 plus a * r plus 1, modulo 32; one state accepts.
        p.machine(32, [(5 * state + a * r + 1) % 32 for state in range(32) for a in range(64)], [r])
    for i in range(64):
        p.regular(strings[i % 16], (i + i // 16) % 8)
    return p


# A dozen templates, each as the string that it continues and the part that comes last: strings 0 to 3 are COURSE, -SIGNER, -RENDITION and -COUNTER, and 4 + i
# is the name that template i makes. So template 11 is COURSE-COUNTER-SIGNER-RENDITION, continued from 10, which is continued from 2.
DOZEN = [(0, 1), (0, 2), (0, 3), (4, 2), (4, 3), (5, 3), (7, 3), (5, 1), (11, 3), (6, 2), (6, 1), (14, 2)]


def parts(p):
    """Adds four parts, each with its dash in front, its rule and its length as a number; a counter has four digits. Answers the constraints on them."""
    rules = [
        (range(3, 13), ((LETTERS, 1, 1), (LETTERS + DIGITS, 2, None))),
        (range(3, 11), (("-", 1, 1), (LETTERS, 2, None))),
        (range(3, 7), (("-", 1, 1), (LETTERS, 1, None), (DIGITS, 1, 1))),
        (range(2, 9), (("-", 1, 1), (DIGITS, 1, None))),
    ]
    held = []
    for lengths, blocks in rules:
        x = p.string(lengths)
        n = p.number([5] if x == 3 else range(LIMIT))
        held += [("regular", x, p.rule(*blocks)), ("len", x, n)]
    return held


def dozen(most):
    """The dozen templates over shared parts, every name held to the store's path rule and that of template 11 to so many letters. The first six tell the place
    of their last part, the others their length. Answers the problem and its constraints: a list for the parts, and one for each template."""
    p = Problem(LETTERS + DIGITS + "-")
    held = [parts(p)]
    path = p.rule((LETTERS + DIGITS, 3, None), ("-", 1, 1), (LETTERS + DIGITS + "-", 1, None))
    for i, (front, part) in enumerate(DOZEN):
        name = p.string(range(LIMIT))
        tells = p.number(range(most + 1 if i == 11 else LIMIT))
        held.append([("cat", front, part, name), ("regular", name, path), ("sub", name, part, tells) if i < 6 else ("len", name, tells)])
    return p, held


def held_to(p, lists):
    """The problem with these lists of constraints, in this order."""
    for kind, *arguments in sum(lists, []):
        getattr(p, kind)(*arguments)
    return p


def parts_first():
    """Each template behind those that it continues: what the rules of the parts and the counter's width strike goes with the order."""
    p, held = dozen(LIMIT - 1)
    return held_to(p, held)


def newest_first():
    """The last template at the top and the parts at the bottom, as where an editor adds what is new in front. Template 11 may make 24 letters, and what that
    strikes goes from name to name, with the order and against it."""
    p, held = dozen(24)
    return held_to(p, held[::-1])


# (name, what it is, the problem)
PROBLEMS = [
    ("clash", "two templates that clash", clash()),
    ("no-clash", "two templates that never clash", no_clash()),
    ("checked", "two templates that never clash, by a check digit", checked()),
    ("pigeons", "8 strings of one symbol, 7 symbols, all different", pigeons(8, 7)),
    ("codes", "all words of three bits in a string of 9", codes(9)),
    ("largest", "every count at its limit", largest()),
    ("deepest", "16 strings of 63 symbols", deepest()),
    ("woven", "16 short strings, 54 random constraints", woven(6)),  # the first seed from 0 on whose search spends the program's budget
]

# Larger template sets, which are settled and not searched.
SETS = [
    ("parts-first", "a dozen templates, parts first", parts_first()),
    ("newest-first", "a dozen templates, the newest first", newest_first()),
]

if __name__ == "__main__":
    folder = Path(sys.argv[1])
    folder.mkdir(exist_ok=True)
    for name, _, problem in PROBLEMS + SETS:
        (folder / f"{name}.problem").write_bytes(problem.file())
