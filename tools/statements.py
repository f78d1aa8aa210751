# What the texts of problems and of template sets have in common: the alphabet, sets of letters, rules as patterns, and automata by their moves.
# textform.py and checking/setform.py add their own statements. Whatever has no meaning is an error, with its line.
from codecs import BOM_UTF8
from typing import NamedTuple

import patterns
from lines import Line, Wrong
from packing import GAP, MOST, Automaton
from wording import letters_shown


class Draft(NamedTuple):
    """An automaton whose states are not all read."""

    line: Line
    name: str
    states: dict  # name to (line, whether it accepts, the next state's name for each symbol, None at a gap)


class Rule(NamedTuple):
    """A rule whose automaton is not made."""

    line: Line
    tokens: list  # its pattern as it is written
    pattern: str  # the same in the library's letters


class Statements:
    """Reads a text line by line. Who inherits it has `words`, the words that a statement begins with, a method of the same name for each, `declare`, which takes
    the name of a rule or an automaton, and `finish`."""

    columns = False  # whether an error names the column too

    def __init__(self):
        self.symbols = ""  # symbol a is written symbols[a]
        self.automata = {}  # name to Automaton; to None for a rule whose automaton is not made
        self.rules = {}  # name to Rule
        self.draft = None  # the automaton that `state` and `accepting` lines add to

    def statement(self, line):
        word = line.take("a statement")
        if word.quoted or word.text not in self.words:
            raise line.wrong(f"no statement begins with {word} (they are {', '.join(self.words)})")
        if word.text != "alphabet" and not self.symbols:
            raise line.wrong("the alphabet comes first: expected 'alphabet' and its letters")
        if word.text not in ("state", "accepting"):
            self.finish_automaton()
        self.said(word.text, line)
        line.end()

    def said(self, word, line):
        getattr(self, word)(line)

    def alphabet(self, line):
        if self.symbols:
            raise line.wrong("there is an alphabet already: expected only one")
        letters = ""
        for letter, column in line.letters():
            if letter in letters:
                raise line.wrong(f"the letter '{letter}' is in the alphabet twice", column)
            if not letter.isprintable():
                raise line.wrong(f"the character {letter!r} cannot be a letter: expected one that prints", column)
            letters += letter
        if len(letters) > MOST["letters"]:
            raise line.wrong(f"the alphabet has {len(letters)} letters: expected {MOST['letters']} at most")
        self.symbols = letters

    def symbol(self, line, letter, column=None):
        if letter not in self.symbols:
            raise line.wrong(f"the letter '{letter}' is not in the alphabet ({letters_shown(self.symbols)})", column)
        return self.symbols.index(letter)

    def letters(self, line):
        """A set of letters, as a word."""
        if line.took("any"):
            return (1 << len(self.symbols)) - 1
        if line.took("none"):
            return 0
        word = 0
        for letter, column in line.letters():
            word |= 1 << self.symbol(line, letter, column)
        return word

    def pattern(self, line, name):
        """The rest of the line as the pattern of a rule."""
        tokens = line.rest()
        if "." not in self.symbols:
            for written, column in patterns.ranges(tokens):
                raise line.wrong(f"a pattern has no ranges: expected each letter by itself, as in (a|b|c), found '{written}'", column)
        self.rules[name] = Rule(line, tokens, patterns.translated(line, tokens, lambda letter, column: self.symbol(line, letter, column)))
        self.automata[name] = None  # keeps its position; `make_rules` makes the automaton

    def make_rules(self):
        """At the end, so that nothing is asked for a text that is broken anyway."""
        for name, rule in self.rules.items():
            self.automata[name] = patterns.automaton(rule.line, len(self.symbols), rule.pattern, patterns.columns(rule.tokens))

    def automaton(self, line):
        self.draft = Draft(line, self.declare(line, "automaton"), {})

    def state(self, line, accepting=False):
        if self.draft is None:
            raise line.wrong("a state belongs under an 'automaton' line")
        name = line.name("a state")
        if name in self.draft.states:
            raise line.wrong(f"state '{name}' of '{self.draft.name}' is declared twice: it is in line {self.draft.states[name][0].number}")
        if len(self.draft.states) == MOST["states"]:
            raise line.wrong(f"state '{name}' of '{self.draft.name}' is one too many: expected {MOST['states']} at most")
        self.draft.states[name] = line, accepting, self.moves(line, name)

    def accepting(self, line):
        self.state(line, True)

    def moves(self, line, name):
        """For each symbol the name of the state that it leads to, or None where the line names no move for it."""
        moves, more = [None] * len(self.symbols), line.more()
        while more:
            begin = line.next
            other = line.took("other")
            word = sum(1 << symbol for symbol, target in enumerate(moves) if target is None) if other else self.letters(line)
            for symbol in (i for i in range(len(moves)) if word >> i & 1):
                if moves[symbol] is not None:
                    raise line.wrong(f"the letter '{self.symbols[symbol]}' has two moves from state '{name}'", line.tokens[begin].column)
            if not line.took("to"):
                raise line.unexpected("'to' and a state")
            target = line.name("a state")
            moves = [target if word >> symbol & 1 else before for symbol, before in enumerate(moves)]
            more = not other and line.took(",")
        return moves

    def finish_automaton(self):
        if self.draft is None:
            return
        line, name, states = self.draft
        if not states:
            raise line.wrong(f"automaton '{name}' has no state: expected 'state' or 'accepting' lines under it")
        names = list(states)
        for state_line, _, moves in states.values():
            for target in moves:
                if target is not None and target not in states:
                    column = next(token.column for before, token in zip(state_line.tokens, state_line.tokens[1:]) if before.text == "to" and token.text == target)
                    raise state_line.wrong(f"no state of '{name}' is called '{target}' (declared: {', '.join(names)})", column)
        accepting = sum(1 << i for i, (_, accepts, _) in enumerate(states.values()) if accepts)
        positions = {None: GAP} | {state: i for i, state in enumerate(names)}
        self.automata[name] = Automaton(names, accepting, [[positions[target] for target in moves] for _, _, moves in states.values()])
        self.draft = None

    def read(self, path, content):
        """What `finish` makes of a text, given as bytes; the path is named in errors. Raises Wrong, and Failed where a rule's automaton cannot be made."""
        try:
            text = (content := content.removeprefix(BOM_UTF8)).decode()
        except UnicodeDecodeError as error:
            *above, begun = content[: error.start].decode().split("\n")
            raise Wrong(path, len(above) + 1, "a byte is not UTF-8: expected plain text", len(begun) + 1 if self.columns else None) from None
        for number, written in enumerate(text.split("\n"), 1):
            line = Line(path, number, written, self.columns)
            if line.tokens:
                self.statement(line)
        if not self.symbols:
            raise Wrong(path, 1, "there is no alphabet: expected 'alphabet' and its letters", 1 if self.columns else None)
        self.finish_automaton()
        return self.finish(path)
