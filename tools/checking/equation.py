# A question about one or two templates as equations: two joined names that are to be one. Each is a problem for the program; a question may take several, and
# is a clash where one of them has a solution. docs/DECISIONS.md says of each rewriting why it loses no clash and invents none.
from collections import Counter
from functools import reduce
from operator import or_
from typing import NamedTuple

from checking import machines
from checking.setform import Domain
from packing import EVERY, LIMIT
from wording import bits

# What may be switched off: the verdict stays, and takes longer or does not fit.
REWRITINGS = ("first", "front", "join", "lengths", "order", "classes", "product")


class Equation(NamedTuple):
    """Texts for every variable such that both sides, joined, are one text, and such that the machines accept that text between `front` and `end`. A piece is the
    name of a variable, or a fixed text as a tuple of symbols."""

    domains: dict  # variable to Domain
    sides: tuple  # the pieces of the one and of the other
    front: tuple = ()  # what was taken off the front of both sides
    end: tuple = ()
    links: tuple = ()  # what else is to hold: ("cat", x, y, z), ("sub", x, y, place), ("neq", x, y)
    machines: tuple = ()
    longer: tuple = ()  # (variable, longer, rest): the longer one is the variable and the rest, whatever the variable is
    merged: dict = {}  # variable to those that it stands for, one behind the other
    long: bool = False  # whether a solution might have more letters than a string of a problem


def is_text(piece):
    """Whether a piece is a fixed text."""
    return isinstance(piece, tuple)


def letters_of(words):
    """The letters of all places together."""
    return reduce(or_, words, 0)


def alternating(one, other):
    """The items of two lists from the front, of the one and of the other in turn."""
    return [item for i in range(max(len(one), len(other))) for items in (one, other) for item in items[i : i + 1]]


def variable(part, side):
    """The name of a part's variable on one side. A part's name has no blank and no bracket, so no two variables are called alike."""
    return f"{part} {side}"


def extra(what, number=""):
    """The name of a variable that is of no part."""
    return f"({what}{number})"


def sides_of(templates, shared):
    """The pieces of two templates, with the variables of each its own but for the shared parts."""
    return tuple(
        tuple(piece if is_text(piece) or piece in shared else variable(piece, side) for piece in template.pieces)
        for side, template in enumerate(templates, 1)
    )


def parts_of(template):
    """The parts that a template names, in the order in which they come first."""
    return list(dict.fromkeys(piece for piece in template.pieces if not is_text(piece)))


def domains_of(parts, sides):
    return {piece: parts[piece.split()[0]] for side in sides for piece in side if not is_text(piece)}


def pair(given, first, second):
    """The equation of two templates of a set."""
    templates = [given.templates[first], given.templates[second]]
    sides = sides_of(templates, given.same.intersection(*(parts_of(template) for template in templates)))
    return Equation(domains_of(given.parts, sides), sides, machines=tuple(machine for template in templates for machine in template.machines))


def alone(given, name):
    """The equation of one template and any text: whether it has a name."""
    template = given.templates[name]
    sides = sides_of([template], ())
    free = Domain(EVERY, ((1 << len(given.letters)) - 1,) * (LIMIT - 1), ())
    return Equation(domains_of(given.parts, sides) | {extra("any"): free}, (*sides, (extra("any"),)), machines=template.machines)


def twice(given, name, on):
    """The equations of a template with itself, one for each way in which two choices can differ."""
    template = given.templates[name]
    for part in parts_of(template):
        if part in given.same:
            continue
        if "first" in on:
            yield first_difference(given, template, part, "front" in on)
        else:
            yield from differences(given, template, part)


def first_difference(given, template, part, off):
    """This part is the first in which two choices differ: what stands before it is the same in both. So both texts of the part begin one text, and the one is
    the other and a rest. Which is the longer makes no difference, since the two sides are of one template. Where the front may be taken `off`, the shorter one
    is taken off too, and the rest begins the second side."""
    parts = parts_of(template)
    sides = sides_of([template] * 2, given.same.union(parts[: parts.index(part)]))
    place = template.pieces.index(part)
    short, long, rest = variable(part, 1), variable(part, 2), variable(part, "rest")
    domains = domains_of(given.parts, sides)
    domain = given.parts[part]
    lengths = bits(domain.lengths)
    further = sum(1 << n for n in {after - before for before in lengths for after in lengths if before < after})
    domains[rest] = Domain(further, (letters_of(domain.words),) * max(further.bit_length() - 1, 0), ())
    if not off:
        return Equation(domains, sides, links=(("cat", short, rest, long),), machines=template.machines)
    cut = tuple(side[place + 1 :] for side in sides)
    sides, front = (cut[0], (rest, *cut[1])), (*sides[0][:place], short)
    free = not domain.machines and len(set(domain.words)) < 2 and domain.lengths + (1 << lengths[0]) == 1 << lengths[-1] + 1
    if free and template.pieces.count(part) == 1 and not template.machines:
        # The shortest text of the part can be lengthened by every rest.
        domains.pop(long)
        return Equation(domains, sides, front, longer=((short, long, rest),))
    return Equation(domains, sides, front, links=(("cat", short, rest, long),), machines=template.machines)


def differences(given, template, part):
    """Two choices differ in this part, whatever they do elsewhere: in its length, or in the letter at some place."""
    sides = sides_of([template] * 2, given.same)
    domains, domain = domains_of(given.parts, sides), given.parts[part]
    one, other = variable(part, 1), variable(part, 2)
    for length in bits(domain.lengths):
        apart = {one: domain.of_lengths(1 << length), other: domain.of_lengths(domain.lengths & ~(1 << length))}
        yield Equation(domains | apart, sides, machines=template.machines)
    for place, word in enumerate(domain.words, 1):
        letters = {extra("letter", side): Domain(2, (word,), ()) for side in (1, 2)}
        links = [("sub", whole, letter, place) for whole, letter in zip((one, other), letters)] + [("neq", *letters)]
        yield Equation(letters | domains, sides, links=tuple(links), machines=template.machines)


def joined_texts(pieces):
    """Neighbouring fixed texts as one."""
    joined = []
    for piece in pieces:
        if joined and is_text(piece) and is_text(joined[-1]):
            joined[-1] += piece
        else:
            joined.append(piece)
    return tuple(joined)


def common(one, other):
    """How many symbols two fixed texts have in common at the front."""
    return next((i for i, (a, b) in enumerate(zip(one, other)) if a != b), min(len(one), len(other)))


def without_front(sides, whole):
    """Two sides without the front that they share, and that front; of variables only where the `whole` name is not looked at any more."""
    one, other = map(joined_texts, sides)
    front = []
    while one and other:
        if is_text(one[0]) and is_text(other[0]) and (n := common(one[0], other[0])):
            front.append(one[0][:n])
            one, other = (side[1:] if n == len(side[0]) else (side[0][n:], *side[1:]) for side in (one, other))
        elif one[0] == other[0] and not whole:
            front.append(one[0])
            one, other = one[1:], other[1:]
        else:
            break
    return (one, other), tuple(front)


def turned(pieces):
    return tuple(piece[::-1] if is_text(piece) else piece for piece in reversed(pieces))


def shortened(equation):
    """The equation without the front and the end that both sides share."""
    whole = bool(equation.machines)
    sides, front = without_front(equation.sides, whole)
    sides, end = without_front(map(turned, sides), whole)
    return equation._replace(sides=tuple(map(turned, sides)), front=equation.front + front, end=turned(end) + equation.end)


def multiplied(machines_given):
    """Machines on one string as one, as long as it fits into an automaton of a file."""
    made = []
    for machine in map(machines.minimal, machines_given):
        tried = machines.product(made[-1], machine) if made else None
        if tried and machines.fits(tried):
            made[-1] = tried
        else:
            made.append(machine)
    return tuple(made)


def uses_of(equation):
    """How often each variable is named in what is asked; the front only matters to machines."""
    pieces = [*equation.sides[0], *equation.sides[1], *(equation.front if equation.machines else ())]
    named = [piece for piece in pieces if not is_text(piece)] + [name for _, *names in equation.links for name in names if isinstance(name, str)]
    return Counter(named)


def merged(equation):
    """Neighbours of the same letters as one variable: joined they are every text of these letters whose length is a sum of theirs."""
    uses, domains, parts = uses_of(equation), dict(equation.domains), {}

    def plain(piece):
        """The letters of a variable that is nothing but letters of some lengths, and named once."""
        if is_text(piece) or uses[piece] > 1 or domains[piece].machines or len(set(domains[piece].words)) != 1:
            return None
        return domains[piece].words[0]

    def of(pieces):
        joined = []
        for piece in pieces:
            if joined and plain(piece) and plain(piece) == plain(joined[-1]):
                last = joined.pop()
                name = f"{last}+{piece}"
                lengths = summed(domains[last].lengths, domains[piece].lengths)
                domains[name], uses[name] = Domain(lengths, (plain(piece),) * (lengths.bit_length() - 1), ()), 1
                parts[name] = (*parts.pop(last, (last,)), piece)
                piece = name
            joined.append(piece)
        return tuple(joined)

    changed = equation._replace(sides=tuple(map(of, equation.sides)), front=of(equation.front) if equation.machines else equation.front)
    return changed._replace(domains=domains, merged=parts)


def summed(one, other):
    """The lengths of joined texts, as words; what is longer than a string of a problem is left out."""
    return sum(1 << n for n in {a + b for a in bits(one) for b in bits(other) if a + b < LIMIT})


def rewritten(equation, on):
    if "product" in on:
        domains = {name: domain._replace(machines=multiplied(domain.machines)) for name, domain in equation.domains.items()}
        equation = equation._replace(domains=domains, machines=multiplied(equation.machines))
    if "front" in on:
        equation = shortened(equation)
    equation = equation._replace(long=too_long(equation))
    return merged(equation) if "join" in on else equation


def loosened(equation, keep, turn):
    """The equation with all but the first pieces of each side, or turned the last, replaced by one variable that may be any text of their letters and as long as
    they can be. Every solution is one of this, so where it has none, neither has the equation."""
    domains, sides = dict(equation.domains), []
    for number, (side, kept) in enumerate(zip(equation.sides, keep), 1):
        side = turned(side) if turn else side
        kept, left = side[:kept], side[kept:]
        if left:
            name = extra("loose", number)
            lengths = reduce(summed, (1 << len(piece) & EVERY if is_text(piece) else domains[piece].lengths for piece in left), 1)
            letters = letters_of(letters_of(1 << symbol for symbol in piece) if is_text(piece) else letters_of(domains[piece].words) for piece in left)
            domains[name] = Domain(lengths, (letters,) * max(lengths.bit_length() - 1, 0), ())
            kept = (*kept, name)
        sides.append(turned(kept) if turn else tuple(kept))
    named = {piece for side in sides for piece in side} | {name for _, *names in equation.links for name in names} | set(equation.front)
    return equation._replace(domains={name: domain for name, domain in domains.items() if name in named}, sides=tuple(sides))


def longest(pieces, domains):
    """The greatest length of joined pieces."""
    return sum(len(piece) if is_text(piece) else domains[piece].lengths.bit_length() - 1 for piece in pieces)


def too_long(equation):
    """Whether a text of both sides might be longer than a string of a problem, with the front and the end where machines read them."""
    inner = min(longest(side, equation.domains) for side in equation.sides)
    outer = longest(equation.front + equation.end, equation.domains) if equation.machines else 0
    return inner + outer >= LIMIT


def lengths_of(equation, name):
    return bits(equation.domains[name].lengths)


def with_domain(equation, name, domain):
    return equation._replace(domains=equation.domains | {name: domain})


def by_length(equation, name):
    """The equation for each length of one variable; together they are the equation."""
    for length in lengths_of(equation, name):
        yield with_domain(equation, name, equation.domains[name].of_lengths(1 << length))


def by_letter(equation, name, place):
    """The equation for the one and the other half of the letters at a place of one variable."""
    domain = equation.domains[name]
    symbols = bits(domain.words[place])
    for half in (symbols[: len(symbols) // 2], symbols[len(symbols) // 2 :]):
        word = sum(1 << a for a in half)
        yield with_domain(equation, name, domain._replace(words=(*domain.words[:place], word, *domain.words[place + 1 :])))


def in_turn(equation):
    """The variables of both sides, from the front, one side after the other, then what else is named, and what was taken off with a rule of its own."""
    turns = alternating(*([piece for piece in side if not is_text(piece)] for side in equation.sides))
    ruled = [name for name, domain in equation.domains.items() if domain.machines]
    return list(dict.fromkeys([*turns, *uses_of(equation), *ruled]))


def narrowest(equation):
    """The variable that has the fewest lengths, but several, one of the sides if there is one; None where every length is decided."""
    several = [name for name in in_turn(equation) if len(lengths_of(equation, name)) > 1]
    return min(several, key=lambda name: (not any(name in side for side in equation.sides), len(lengths_of(equation, name))), default=None)


def halved(equation, name=None):
    """The equation as several smaller ones, and the variable by which it is split: by its length, or by a letter where every length is decided."""
    names = in_turn(equation)
    name = name or next((name for name in names if len(lengths_of(equation, name)) > 1), None)
    if name:
        return name, list(by_length(equation, name))
    for name in names:
        for place, word in enumerate(equation.domains[name].words):
            if word.bit_count() > 1:
                return name, list(by_letter(equation, name, place))
    return None, []
