# What in a text lets a `none` say nothing, or shows that a constraint was forgotten: a domain that holds nothing, lengths that can never be, an automaton that
# accepts nothing, what looks like a range in a pattern, a name that no constraint names. It looks at each declaration by itself and solves nothing;
# templates.py has the doubts that need the solver.
from packing import GAP, LIMIT
from patterns import ranges
from wording import number_set


def string_doubt(text, name, row):
    """A string that cannot be, or not in all of its lengths: its line, and what is doubtful."""
    if row[0] == 0:
        return text.declared[name], f"string '{name}' stands for nothing: it has no length"
    place = next((i for i in range(1, LIMIT) if row[i] == 0), LIMIT)
    possible, impossible = row[0] & (1 << place) - 1, row[0] >> place << place
    if not impossible:
        return None
    what = f"cannot have length {number_set(impossible)}" if possible else "stands for nothing"
    return text.places.get((name, place), text.declared[name]), f"string '{name}' {what}: place {place} has no letter"


def reached(automaton):
    """The states that some string leads to, as a word."""
    states, fresh = 1, [0]
    while fresh:
        for state in automaton.moves[fresh.pop()]:
            if state != GAP and not states >> state & 1:
                states |= 1 << state
                fresh.append(state)
    return states


def domain_doubts(text):
    for name, row in text.problem.strings.items():
        doubt = string_doubt(text, name, row)
        if doubt:
            yield doubt
    for name, word in text.problem.numbers.items():
        if word == 0:
            yield text.declared[name], f"number '{name}' has no value"
    for name, automaton in text.problem.automata.items():
        # Every pattern stands for some string, so that no rule accepts nothing.
        if name not in text.rules and not automaton.accepting & reached(automaton):
            yield text.declared[name], f"automaton '{name}' accepts nothing: no accepting state can be reached from '{automaton.states[0]}'"


def range_doubts(text):
    for name, tokens in text.rules.items():
        for written, _ in ranges(tokens):
            yield text.declared[name], f"rule '{name}' has {written}, which is no range in a pattern, but {written[0]}, two dots and {written[3]}"


def unused_doubts(text):
    named = {name for constraint in text.problem.constraints for name in text.problem.names(constraint)}
    for noun in ("string", "number", "automaton"):
        for name in text.problem.named(noun):
            if name not in named:
                yield text.declared[name], f"{'rule' if name in text.rules else noun} '{name}' is in no constraint"


def doubts(text):
    """(line, what is doubtful) of a text, in the order of its lines."""
    return sorted([*domain_doubts(text), *range_doubts(text), *unused_doubts(text)], key=lambda doubt: doubt[0])
