# Automata as values: state 0 is the start, `accepting` has bit q for state q, and moves[q][a] is the state behind symbol a. A machine has every move: a gap of an
# automaton leads to a sink here, and is a gap again in what the program is given. None of these functions decides a question; they put several statements
# about one string into one, which the program then decides.
from functools import cache
from operator import and_, or_
from typing import NamedTuple

from packing import GAP, MOST, Automaton

MOST_SETS = 2048  # sets of states that `determined` looks at before it gives up; far more than any automaton of a file could have


class Machine(NamedTuple):
    accepting: int
    moves: tuple


def of(automaton):
    """The machine of an automaton; its gaps lead to a sink behind its states."""
    sink = len(automaton.moves)
    rows = [tuple(sink if target == GAP else target for target in row) for row in automaton.moves]
    if any(sink in row for row in rows):
        rows.append((sink,) * len(rows[0]))
    return Machine(automaton.accepting, tuple(rows))


def needed(machine):
    """The states that an automaton of a file needs, in their order: all but sinks, since gaps say the same. The start stays, whatever it is."""
    return [q for q, row in enumerate(machine.moves) if q == 0 or machine.accepting >> q & 1 or set(row) != {q}]


def fits(machine):
    """Whether a file has room for the machine."""
    return len(needed(machine)) <= MOST["states"]


def automaton(machine):
    states = needed(machine)
    numbers = dict.fromkeys(range(len(machine.moves)), GAP) | {q: i for i, q in enumerate(states)}
    accepting = sum(1 << i for i, q in enumerate(states) if machine.accepting >> q & 1)
    return Automaton([f"q{i}" for i in range(len(states))], accepting, [[numbers[target] for target in machine.moves[q]] for q in states])


def kinds(told):
    """For each symbol the first that is told apart by nothing, where `told` has what there is to tell of each; machines are worked out for these alone."""
    first = {}
    return [first.setdefault(signs, symbol) for symbol, signs in enumerate(told)]


def columns(*machines):
    """For each symbol what all states of some machines make of it."""
    return list(zip(*(row for machine in machines for row in machine.moves)))


def numbered(start, accepts, step, alike, most=None):
    """The machine of the states that are reached from a start, numbered as they are met; None where there are more than `most`."""
    states, moves = {start: 0}, []
    for state in (found := [start]):
        row = {}
        for symbol in dict.fromkeys(alike):
            target = step(state, symbol)
            if target not in states:
                if most is not None and len(states) == most:
                    return None
                states[target] = len(states)
                found.append(target)
            row[symbol] = states[target]
        moves.append(tuple(row[symbol] for symbol in alike))
    return Machine(sum(1 << i for i, state in enumerate(found) if accepts(state)), tuple(moves))


def minimal(machine):
    """The machine of the fewest states that accepts the same: states are told apart by acceptance, then by where they lead, until nothing changes."""
    alike = kinds(columns(machine))
    symbols = list(dict.fromkeys(alike))
    groups = [machine.accepting >> q & 1 for q in range(len(machine.moves))]
    while True:
        found = {}
        finer = [found.setdefault((groups[q], *(groups[row[symbol]] for symbol in symbols)), len(found)) for q, row in enumerate(machine.moves)]
        if len(found) == len(set(groups)):
            break
        groups = finer
    member = {group: q for q, group in reversed(list(enumerate(groups)))}
    accepts = lambda group: machine.accepting >> member[group] & 1
    return numbered(groups[0], accepts, lambda group, symbol: groups[machine.moves[member[group]][symbol]], alike)


def paired(first, second, accepts):
    """Both machines at once; whether a pair of states accepts is said from whether each of them does."""
    accepting = lambda pair: accepts(first.accepting >> pair[0] & 1, second.accepting >> pair[1] & 1)
    step = lambda pair, symbol: (first.moves[pair[0]][symbol], second.moves[pair[1]][symbol])
    return minimal(numbered((0, 0), accepting, step, kinds(columns(first, second))))


def product(first, second):
    """Accepts what both accept."""
    return paired(first, second, and_)


def union(first, second):
    """Accepts what one of the two accepts."""
    return paired(first, second, or_)


def after(machine, state, symbols):
    for symbol in symbols:
        state = machine.moves[state][symbol]
    return state


def accepts(machine, symbols):
    return machine.accepting >> after(machine, 0, symbols) & 1


def without_ends(machine, front, end):
    """Accepts a text just where the machine accepts it with this front before and this end behind it; both are lists of symbols."""
    accepts = lambda q: machine.accepting >> after(machine, q, end) & 1
    return minimal(numbered(after(machine, 0, front), accepts, lambda q, symbol: machine.moves[q][symbol], kinds(columns(machine))))


class Segment(NamedTuple):
    """A stretch of a joined text: of one length, with the letters of each place, or of any length, with the letters of all places; and what a machine of its own
    accepts, where it has one."""

    length: int  # None: any length, which the row's lengths decide
    words: tuple
    machine: Machine


@cache
def determined(segments, k):
    """The machine of the segments one behind the other, or None where it grows too large. A state is a set of (segment, place in it, state of its machine)."""
    words = {word for part in segments for word in part.words}
    looks = columns(*(part.machine for part in segments if part.machine)) or [()] * k
    alike = kinds([(looks[symbol], *(word >> symbol & 1 for word in words)) for symbol in range(k)])

    def closed(states):
        found, reached = list(states), set(states)
        for i, place, q in found:
            if i == len(segments) or segments[i].length not in (None, place):
                continue
            if (segments[i].machine is None or segments[i].machine.accepting >> q & 1) and (i + 1, 0, 0) not in reached:
                reached.add((i + 1, 0, 0))
                found.append((i + 1, 0, 0))
        return frozenset(reached)

    def moved(state, symbol):
        i, place, q = state
        if i == len(segments) or place == segments[i].length:
            return None
        length, words, machine = segments[i]
        if not words[place] >> symbol & 1:
            return None
        return i, 0 if length is None else place + 1, q if machine is None else machine.moves[q][symbol]

    step = lambda states, symbol: closed({target for state in states if (target := moved(state, symbol))})
    machine = numbered(closed({(0, 0, 0)}), lambda states: (len(segments), 0, 0) in states, step, alike, MOST_SETS)
    return machine and minimal(machine)


def counter(first, last, symbols, k):
    """Accepts the numbers from first to last, given and written with equally many digits; `symbols` are those of the ten digits."""

    def step(state, symbol):
        if state is None or state[0] == len(first) or symbol not in symbols:
            return None
        place, low, high = state  # low, high: whether the digits so far are those of first, of last
        digit = str(symbols.index(symbol))
        if low and digit < first[place] or high and digit > last[place]:
            return None
        return place + 1, low and digit == first[place], high and digit == last[place]

    return minimal(numbered((0, True, True), lambda state: state is not None and state[0] == len(first), step, range(k)))
