# An equation as a problem for the program, and the texts of its variables from the program's answer. Pieces become rows, strings of the problem; rows are joined
# by `cat` to the one name; and strings that are as long as a row, but of one letter, let the search decide lengths before letters.
from dataclasses import dataclass, field
from itertools import product
from math import log2
from typing import NamedTuple

from checking import machines
from checking.classes import reduced
from checking.equation import alternating, extra, is_text, summed, uses_of
from packing import EVERY, KINDS, LIMIT, MOST, Problem
from solving import Failed
from wording import bits

KIND = {word: number for number, (word, _) in enumerate(KINDS, 1)}


class Unfit(Exception):
    """A problem that is larger than a file can be."""


class Row(NamedTuple):
    """Pieces that are one string: fixed texts and variables of one length, and at most one variable of several lengths among them."""

    pieces: tuple
    name: str  # of the string
    lengths: int
    words: tuple
    machines: tuple

    def decided(self):
        return self.lengths.bit_count() < 2


@dataclass
class Model:
    """A problem under construction, by names."""

    strings: dict = field(default_factory=dict)  # name to (lengths, words)
    numbers: dict = field(default_factory=dict)  # name to word
    machines: list = field(default_factory=list)
    constraints: list = field(default_factory=list)  # (word, names; a machine's position)
    rows: dict = field(default_factory=dict)  # name to Row
    marks: list = field(default_factory=list)  # strings of one letter, as long as a row
    complete: bool = True  # whether every length that is to be decided first is

    def add(self, name, lengths=EVERY, words=None):
        self.strings[name] = lengths, words
        return name

    def state(self, word, *names):
        self.constraints.append((word, names))

    def accept(self, name, machine):
        if machine not in self.machines:
            self.machines.append(machine)
        self.state("regular", name, self.machines.index(machine))


def width(piece, domains):
    """The length of a piece, or None where it has several."""
    if is_text(piece):
        return len(piece)
    lengths = domains[piece].lengths
    return lengths.bit_length() - 1 if lengths.bit_count() == 1 else None


def segment(piece, domains, uses):
    """A piece as part of a row. What is used elsewhere too has a string of its own, and its machine there."""
    if is_text(piece):
        return machines.Segment(len(piece), tuple(1 << a for a in piece), None)
    domain = domains[piece]
    return machines.Segment(width(piece, domains), domain.words, domain.machines[0] if domain.machines and uses[piece] == 1 else None)


def joined(pieces, domains, uses, k):
    """The row of several pieces, or None where its machine is too large for a file. At most one of them has several lengths."""
    parts = [segment(piece, domains, uses) for piece in pieces]
    at = next((i for i, part in enumerate(parts) if part.length is None), len(parts))
    before, behind = ([word for part in side for word in part.words] for side in (parts[:at], parts[at + 1 :]))
    lengths, words = 1 << len(before) & EVERY, tuple(before)
    if at < len(parts):
        domain = domains[pieces[at]]
        if behind and len(set(domain.words)) > 1:
            return None  # a machine would have to count the places
        lengths, words = domain.lengths << len(before + behind) & EVERY, spread(before, domain, behind)
        parts[at] = parts[at]._replace(words=domain.words[:1] or (0,))
    if any(not is_text(piece) and uses[piece] == 1 and len(domains[piece].machines) > 1 for piece in pieces):
        return None
    if not behind and not any(part.machine for part in parts):
        return Row(tuple(pieces), None, lengths, words[: LIMIT - 1], ())
    # Without anything behind the stretch of several lengths the row's own places have the letters, and the machine need not.
    machine = machines.determined(tuple(parts if behind else (unrestricted(part, k) for part in parts)), k)
    return Row(tuple(pieces), None, lengths, words[: LIMIT - 1], (machine,)) if machine and machines.fits(machine) else None


def unrestricted(part, k):
    return part._replace(words=((1 << k) - 1,) * max(len(part.words), 1))


def spread(before, domain, behind):
    """The letters of each place, where a stretch of several lengths stands between fixed ones: what stands behind it comes to lie at several places."""
    words = before + list(domain.words) + [0] * len(behind)
    for length in bits(domain.lengths):
        for i, word in enumerate(behind):
            words[len(before) + length + i] |= word
    return tuple(words)


def own_row(piece, domains):
    """The row of one piece: a variable's string is its own, and equal texts are one string."""
    if is_text(piece):
        return Row((piece,), extra(f"text {piece}"), 1 << len(piece) & EVERY, tuple(1 << a for a in piece[: LIMIT - 1]), ())
    return Row((piece,), piece, *domains[piece])


def row_of(pieces, domains, uses, k):
    """Pieces as one row, or as several where they cannot be one."""
    if not pieces:
        return []
    row = own_row(pieces[0], domains) if len(pieces) == 1 else joined(pieces, domains, uses, k)
    return [row] if row else [*row_of(pieces[:-1], domains, uses, k), own_row(pieces[-1], domains)]


def rows_of(pieces, domains, uses, k, join):
    """The rows of a side. What has one length joins the variable of several lengths behind it, and at the end of the side the one before it."""
    if not join:
        return [own_row(piece, domains) for piece in pieces]
    groups, fixed = [], []
    for piece in pieces:
        if width(piece, domains) is not None:
            fixed.append(piece)
        elif uses[piece] == 1:
            groups.append([*fixed, piece])
            fixed = []
        else:
            groups += [fixed, [piece]]
            fixed = []
    # A variable that is named elsewhere too must lie at a known place, and the end of a row of several lengths does not.
    known = all(is_text(piece) or uses[piece] == 1 for piece in fixed)
    if fixed and known and groups and uses[groups[-1][-1]] == 1 and joined(groups[-1] + fixed, domains, uses, k):
        groups[-1] += fixed
    else:
        groups.append(fixed)
    return [row for group in groups for row in row_of(group, domains, uses, k)]


def texts_of(row, domains, turn):
    """The letters of a row's places for each of its lengths; turned, from its end."""
    open_piece = next((piece for piece in row.pieces if width(piece, domains) is None), None)
    for length in bits(domains[open_piece].lengths) if open_piece else [0]:
        words = []
        for piece in row.pieces:
            words += [1 << a for a in piece] if is_text(piece) else domains[piece].words[: length if piece == open_piece else None]
        yield words[::-1] if turn else words


def apart(sides, domains, turn):
    """Whether the first rows of both sides, or turned the last, can never begin, or end, one text."""
    one, other = (rows[-1 if turn else 0] for rows in sides)
    return not any(all(a & b for a, b in zip(*words)) for words in product(texts_of(one, domains, turn), texts_of(other, domains, turn)))


def deciding(sides, turn):
    """The rows of several lengths in the order in which their lengths are to be decided: from the front, or turned from the end, one side after the other. The
    last one follows from the others; from the end the length of the whole is decided first, so that the last of each side follows."""
    one, other = ([row for row in rows[:: -1 if turn else 1] if not row.decided()] for rows in sides)
    if turn:
        one, other = one[:-1], other[:-1]
    turns = list({row.name: row for row in alternating(one, other)}.values())
    return turns if turn else turns[:-1]


def size(lengths, words):
    return log2(max(lengths.bit_count(), 1)) + sum(log2(max(word.bit_count(), 1)) for word in words)


class Builder:
    """Puts an equation into a Model."""

    def __init__(self, equation, on, k, turn):
        self.equation, self.on, self.k, self.turn = equation, on, k, turn
        self.uses = uses_of(equation)
        self.model = Model()

    def row_names(self, pieces, label):
        """The rows of pieces, each a string of the model."""
        named = []
        for i, row in enumerate(rows_of(pieces, self.equation.domains, self.uses, self.k, "join" in self.on)):
            row = row if row.name else row._replace(name=extra(f"{label} {i}"))
            named.append(row)
            if row.name not in self.model.rows:
                self.model.rows[row.name] = row
        return named

    def place_of(self, number):
        name = f"place {number}"
        self.model.numbers[name] = 1 << number & EVERY
        return name

    def own_strings(self):
        """Variables that are used elsewhere too lie in their rows at a known place; those that no row has are strings by themselves."""
        for row in list(self.model.rows.values()):
            place = 1
            for piece in row.pieces if row.name not in row.pieces else ():
                if not is_text(piece) and self.uses[piece] > 1:
                    self.own(piece)
                    if width(piece, self.equation.domains):
                        self.model.state("sub", row.name, piece, self.place_of(place))
                place += width(piece, self.equation.domains) or 0
        for word, *names in self.equation.links:
            for name in names:
                if isinstance(name, str):
                    self.own(name)
        for name, domain in self.equation.domains.items():
            if domain.machines and not self.uses[name]:
                self.own(name)

    def own(self, name):
        if name not in self.model.rows:
            self.model.rows[name] = own_row(name, self.equation.domains)

    def chain(self, names, label, whole=None):
        """Joins strings to one, which is given or new, and gives its name."""
        model = self.model
        if whole is not None and whole in names and len(names) > 1:
            model.state("eq", whole, copy := model.add(extra(f"{label} whole")))
            whole = copy
        if not names:
            names = [model.add(extra(f"{label} nothing"), 1, ())]
        if len(names) == 1:
            if whole not in (None, names[0]):
                model.state("eq", names[0], whole)
            return whole or names[0]
        left, *others = names
        if left == others[0]:
            model.state("eq", left, copy := model.add(extra(f"{label} again")))
            left = copy
        for i, name in enumerate(others):
            last = i == len(others) - 1
            target = whole if last and whole else model.add(extra(f"{label} to {i}"))
            model.state("cat", left, name, target)
            left = target
        return left

    def mark(self, name, lengths):
        """A string of one letter that is as long as another, which lets the search decide that length."""
        number, mark = f"length of {name}", extra(f"mark of {name}")
        self.model.numbers[number] = lengths
        self.model.marks.append(mark)
        self.model.state("len", mark, number)
        self.model.state("len", name, number)
        return mark

    def build(self):
        equation, model = self.equation, self.model
        sides = [self.row_names(pieces, label) for pieces, label in zip(equation.sides, ("one", "other"))]
        front, rules = self.front()
        self.own_strings()
        names = [[row.name for row in rows] for rows in sides]
        # A side of one row is the name itself.
        names.sort(key=len)
        whole = self.chain(names[1], "other", self.chain(names[0], "one"))
        outer = self.chain([*(row.name for row in front), whole], "front")
        for machine in rules:
            model.accept(outer, machine)
        for row in model.rows.values():
            for machine in row.machines:
                model.accept(row.name, machine)
        for word, *given in equation.links:
            model.state(word, *(name if isinstance(name, str) else self.place_of(name) for name in given))
        return self.ordered(sides, whole)

    def front(self):
        """The rows of the front, and what is to accept them with the name behind; fixed texts at the ends are read by the machines beforehand."""
        front, end = (self.equation.front, self.equation.end) if self.equation.machines else ((), ())
        lead = front[0] if front and is_text(front[0]) else ()
        tail = tuple(symbol for piece in end for symbol in piece)
        rules = [machines.without_ends(machine, lead, tail) for machine in self.equation.machines] if lead or tail else self.equation.machines
        return self.row_names(front[1:] if lead else front, "front"), rules

    def decided(self, sides, whole):
        """Marks for the lengths that are to be decided first, as many as there is room for, and the row whose length comes next."""
        if "lengths" not in self.on:
            return {}, []
        model = self.model
        turn = whole not in model.rows and all(sides) and (self.turn or apart(sides, self.equation.domains, True))
        turns = [(row.name, row.lengths) for row in deciding(sides, turn)]
        if not turns:
            return {}, []
        # The last one needs no mark: its own length is decided before any letter.
        turns = ([(whole, EVERY)] if turn else []) + turns
        room = max(0, min(MOST["strings"] - len(model.rows) - len(model.strings), MOST["numbers"] - len(model.numbers)))
        model.complete = room >= len(turns) - 1
        marked = turns[: min(room, len(turns) - 1)]
        marks = {self.mark(name, lengths): lengths for name, lengths in marked}
        return marks, [name for name, _ in turns[len(marked) :][:1] if name in model.rows]

    def ordered(self, sides, whole):
        """The strings in the order in which the search decides them: a letter that must differ, the marks, the rows by their size, what is joined from them."""
        model = self.model
        differing = [names[0] for word, *names in self.equation.links if word == "neq"]
        marks, first = self.decided(sides, whole)
        rows = list(model.rows)
        if "order" in self.on:
            rows.sort(key=lambda name: size(model.rows[name].lengths, model.rows[name].words))
        row = lambda name: (model.rows[name].lengths, model.rows[name].words)
        strings = {name: row(name) for name in differing} | {mark: (lengths, None) for mark, lengths in marks.items()}
        model.strings = strings | {name: row(name) for name in first + rows if name not in strings} | model.strings
        return model


def packed_row(lengths, words, k):
    every = (1 << k) - 1
    words = [every] * (LIMIT - 1) if words is None else list(words)
    return [lengths, *words, *[0] * (LIMIT - 1 - len(words))]


def excess(model):
    """What a model has more of than a problem can have."""
    sizes = {"strings": model.strings, "numbers": model.numbers, "automata": model.machines, "constraints": model.constraints}
    return [f"{len(these)} {noun}, and a problem has {MOST[noun]} at most" for noun, these in sizes.items() if len(these) > MOST[noun]]


def problem_of(model, letters):
    """The model as a problem. Raises Unfit."""
    if over := excess(model):
        raise Unfit(over[0])
    strings = {name: packed_row(*row, len(letters)) for name, row in model.strings.items()}
    automata = {f"machine {i}": machines.automaton(machine) for i, machine in enumerate(model.machines)}
    places = {"string": list(strings), "number": list(model.numbers)}
    constraints = []
    for word, names in model.constraints:
        nouns = KINDS[KIND[word] - 1][1]
        constraints.append((KIND[word], tuple(name if noun == "automaton" else places[noun].index(name) for name, noun in zip(names, nouns))))
    return Problem(letters, strings, dict(model.numbers), automata, constraints)


def model_of(equation, on, letters, turn=False):
    """The model of an equation; turned, its lengths are decided from the end."""
    return Builder(equation, on, len(letters), turn).build()


def modelled(model, on, letters):
    """A model as a problem. Raises Unfit."""
    problem = problem_of(model, letters)
    return reduced(problem, model.marks) if "classes" in on else unmarked(problem, model.marks)


def unmarked(problem, marks):
    """The problem with all of its letters; the marks have the first."""
    for name in marks:
        problem.strings[name][1:] = [1] * (LIMIT - 1)
    return problem


def least(domain):
    """The first text of a part that no machine looks at, as symbols."""
    length = (domain.lengths & -domain.lengths).bit_length() - 1
    return [(word & -word).bit_length() - 1 for word in domain.words[:length]]


def parted(symbols, names, domains):
    """A text of several variables, one behind the other, as texts of each, the first ones as short as can be. None where no lengths add up to its own."""
    behind = [1]  # the lengths of what stands behind each variable, as words, from the last one
    for name in reversed(names):
        behind.append(summed(behind[-1], domains[name].lengths))
    if not behind.pop() >> len(symbols) & 1:
        return None
    given = {}
    for name, rest in zip(names, reversed(behind)):
        length = next(n for n in range(len(symbols) + 1) if domains[name].lengths >> n & 1 and rest >> len(symbols) - n & 1)
        given[name], symbols = symbols[:length], symbols[length:]
    return given


def values(equation, rows, found):
    """The symbols of every variable, from those of the strings that were found, by name. Raises Failed."""
    given = {}
    for row in rows.values():
        symbols = found[row.name]
        rest = len(symbols) - sum(width(piece, equation.domains) or 0 for piece in row.pieces)
        for piece in row.pieces:
            length = width(piece, equation.domains)
            length = rest if length is None else length
            if not is_text(piece):
                given.setdefault(piece, symbols[:length])
            symbols = symbols[length:]
    for name, parts in equation.merged.items():
        cut = parted(given[name], parts, equation.domains)
        if cut is None:
            raise Failed(f"the answer has a text for {name} that its parts cannot make: a fault of this tool, or of the program")
        given |= cut
    for name, domain in equation.domains.items():
        if name not in given:
            given[name] = least(domain)
    for short, long, rest in equation.longer:
        given[long] = given[short] + given[rest]
    return given
