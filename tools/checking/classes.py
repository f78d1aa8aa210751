# Letters that no domain and no automaton of a problem tells apart may stand for one another: replacing each by one of its class turns a solution into a
# solution, since every relation but Neq says only that letters are equal. Where two strings of one letter must differ, two of each class are kept.
from packing import KINDS, LIMIT, Automaton, Problem

NEQ = 1 + [word for word, _ in KINDS].index("neq")


def kept(problem, marks):
    """The symbols that are kept: of each class the first, or the first two. The letter of the marks says nothing."""
    words = {word for name, row in problem.strings.items() if name not in marks for word in row[1:]}
    columns = [tuple(row) for automaton in problem.automata.values() for row in automaton.moves]
    most = 2 if any(kind == NEQ for kind, _ in problem.constraints) else 1
    counts, symbols = {}, []
    for symbol in range(len(problem.letters)):
        told = tuple(word >> symbol & 1 for word in words) + tuple(row[symbol] for row in columns)
        counts[told] = counts.get(told, 0) + 1
        if counts[told] <= most:
            symbols.append(symbol)
    return symbols


def reduced(problem, marks):
    """The problem with the letters that are kept, in their order. The marks get the first of them."""
    symbols = kept(problem, marks)
    packed = {}

    def word_of(word):
        if word not in packed:
            packed[word] = sum((word >> symbol & 1) << i for i, symbol in enumerate(symbols))
        return packed[word]

    strings = {name: [row[0]] + ([1] * (LIMIT - 1) if name in marks else [word_of(word) for word in row[1:]]) for name, row in problem.strings.items()}
    automata = {
        name: Automaton(automaton.states, automaton.accepting, [[row[symbol] for symbol in symbols] for row in automaton.moves])
        for name, automaton in problem.automata.items()
    }
    return Problem("".join(problem.letters[symbol] for symbol in symbols), strings, problem.numbers, automata, problem.constraints)
