# The templates of a problem, as docs/TEXT.md says what counts as one: trees of `cat` that make one name. And the problem of one template by itself, which
# shows a `none` that is no news: where one template makes no name at all, no two can share one.
from typing import NamedTuple

from packing import KINDS, Problem

CAT, EQ = (1 + [word for word, _ in KINDS].index(name) for name in ("cat", "eq"))


class Template(NamedTuple):
    name: str  # the string that it makes
    pieces: list  # the strings that it is joined from, left to right
    joints: set  # positions of its `cat` constraints
    last: int  # position of the joint that makes the name

    def __str__(self):
        return f"{' '.join(self.pieces)} = {self.name}"


class Circle(Exception):
    """A string is joined from itself."""


def grown(problem, joint, makers, above=()):
    """The pieces, left to right, and the joints of the tree whose last joint this is. Raises Circle."""
    *parts, made = problem.names(problem.constraints[joint])
    if made in above:
        raise Circle
    pieces, joints = [], {joint}
    for part in parts:
        if part in makers:
            lower_pieces, lower_joints = grown(problem, makers[part][0], makers, (*above, made))
            pieces, joints = pieces + lower_pieces, joints | lower_joints
        else:
            pieces.append(part)
    return pieces, joints


def last_joints(problem, makers):
    """The joint that makes the name in each template: they make one string, or two that are equal. Empty where that is not so of one name alone."""
    shared = [joints for joints in makers.values() if len(joints) > 1]
    parts = {part for joints in makers.values() for joint in joints for part in problem.names(problem.constraints[joint])[:2]}
    equal = [problem.names(constraint) for constraint in problem.constraints if constraint[0] == EQ]
    shared += [[makers[x][0], makers[y][0]] for x, y in equal if x in makers and y in makers and not {x, y} & parts]
    return shared[0] if len(shared) == 1 else []


def templates(problem):
    """The templates of a problem that share one name; none where some `cat` belongs to no template, or the text is of another form."""
    makers = {}  # name of a string to the joints that make it
    for position, constraint in enumerate(problem.constraints):
        if constraint[0] == CAT:
            makers.setdefault(problem.names(constraint)[2], []).append(position)
    found = []
    try:
        for last in last_joints(problem, makers):
            found.append(Template(problem.names(problem.constraints[last])[2], *grown(problem, last, makers), last))
    except Circle:
        return []
    every = {joint for joints in makers.values() for joint in joints}
    return found if set().union(*(template.joints for template in found)) == every else []


def strings_of(problem, positions):
    """The strings that these constraints name."""
    return {name for position in positions for name in problem.names(problem.constraints[position]) if name in problem.strings}


def said_of_name(problem, template):
    """Positions of the constraints that name the template's name, and nothing else of the template: they may be meant for any template that makes it."""
    tree = strings_of(problem, template.joints) - {template.name}
    others = [position for position, constraint in enumerate(problem.constraints) if constraint[0] != CAT]
    return {position for position in others if template.name in (named := strings_of(problem, [position])) and not named & tree}


def alone(problem, template, every, without=()):
    """The problem without the other templates: without their joints, and without every constraint that names a string that only they have; also without
    the constraints at the positions given."""
    own = strings_of(problem, template.joints)
    foreign = strings_of(problem, set().union(*(other.joints for other in every))) - own
    kept = []
    for position, constraint in enumerate(problem.constraints):
        mine = position in template.joints if constraint[0] == CAT else not strings_of(problem, [position]) & foreign
        if mine and position not in without:
            kept.append(position)
    return restricted(problem, own, kept)


def restricted(problem, strings, kept):
    """The problem of these constraints, with the variables that they name and the strings given."""
    wanted = strings.union(*(problem.names(problem.constraints[position]) for position in kept))
    parts = [{name: value for name, value in problem.named(noun).items() if name in wanted} for noun in ("string", "number", "automaton")]
    smaller = Problem(problem.letters, *parts, [])
    for kind, positions in (problem.constraints[position] for position in kept):
        names = problem.names((kind, positions))
        smaller.constraints.append((kind, tuple(list(smaller.named(noun)).index(name) for name, noun in zip(names, KINDS[kind - 1][1]))))
    return smaller


def remarks(text, is_none):
    """(line, what is said of it) for each template that has no name even alone, so that no other had a part in the answer `none`. `is_none` solves a
    problem, and says whether that is its answer."""
    every = templates(text.problem)
    for template in every:
        if not is_none(alone(text.problem, template, every)):
            continue
        about, line = said_of_name(text.problem, template), text.constraints[template.last]
        if about and not is_none(alone(text.problem, template, every, without=about)):
            lines = " and ".join(f"line {text.constraints[position]}" for position in sorted(about))
            yield line, f"note: no name of the template {template} meets {lines}, so the answer is none whatever the rest of the text says"
        else:
            yield line, f"warning: the template {template} has no name at all, so the answer says nothing about a clash"
