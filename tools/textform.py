# The text form of a problem, docs/TEXT.md: one statement a line, read into a Problem.
# Whatever would make a file that Read refuses is an error here, with its line; so is whatever has no meaning.
from typing import NamedTuple

from lines import Wrong  # for those who read texts
from packing import EVERY, KINDS, LIMIT, MOST, Problem, repeats
from statements import Statements

A = {"string": "a string", "number": "a number", "automaton": "an automaton", "rule": "a rule"}
WORDS = [word for word, _ in KINDS]
PLURAL = {"string": "strings", "number": "numbers", "automaton": "automata", "rule": "automata"}  # a rule counts as the automaton that it stands for


class Text(NamedTuple):
    """A problem, and where its text says what; a line is its number from 1."""

    problem: Problem
    declared: dict  # name of a string, number or automaton to its line
    places: dict  # (name of a string, place) to the `at` line that gives this place its letters
    constraints: list  # the line of each constraint
    rules: dict  # name of each automaton that is a rule to the tokens of its pattern


class Reader(Statements):
    words = ("alphabet", "string", "at", "number", "rule", "automaton", "state", "accepting", *WORDS)

    def __init__(self):
        super().__init__()
        self.problem = Problem("", {}, {}, self.automata, [])
        self.declared = {}  # name of a string, number, automaton or rule to (what it is, its line)
        self.above = None  # the string that `at` lines add to
        self.places = {}  # (name of a string, place) to its `at` line
        self.constraints = []  # (line, kind, names) until every name is declared

    def said(self, word, line):
        if word != "at":
            self.above = None
        if word in WORDS:
            self.constraint(line, WORDS.index(word) + 1)
        else:
            super().said(word, line)

    def declare(self, line, noun):
        name = line.name(A[noun])
        if name in self.declared:
            other, number = self.declared[name]
            raise line.wrong(f"'{name}' is declared twice: it is {A[other]} in line {number}")
        sort = PLURAL[noun]
        if [PLURAL[other] for other, _ in self.declared.values()].count(sort) == MOST[sort]:
            included = ", rules included" if sort == "automata" else ""
            raise line.wrong(f"'{name}' is one too many: expected {MOST[sort]} {sort} at most{included}")
        self.declared[name] = noun, line.number
        return name

    def string(self, line):
        name = self.declare(line, "string")
        if not any(line.sees(word) for word in ("=", "length", "of")) and line.more():
            raise line.unexpected("'length' and lengths, 'of' and letters, or '=' and a quoted text")
        if line.took("="):
            self.problem.strings[name] = self.text_row(line)
            return
        lengths = line.numbers("a length", 0) if line.took("length") else EVERY
        symbols = self.letters(line) if line.took("of") else (1 << len(self.symbols)) - 1
        longest = max(lengths.bit_length() - 1, 0)
        self.problem.strings[name] = [lengths] + [symbols] * longest + [0] * (LIMIT - 1 - longest)
        self.above = name

    def text_row(self, line):
        """The row that stands for just this text."""
        token = line.take("a quoted text")
        if not token.quoted:
            raise line.wrong(f"expected a quoted text, found {token}")
        if len(token.text) >= LIMIT:
            raise line.wrong(f"the text has {len(token.text)} letters: expected {LIMIT - 1} at most")
        words = [1 << self.symbol(line, letter) for letter in token.text]
        return [1 << len(words)] + words + [0] * (LIMIT - 1 - len(words))

    def at(self, line):
        if self.above is None:
            raise line.wrong("an 'at' line belongs under a 'string' line with lengths")
        places = line.numbers("a place", 1)
        symbols = self.letters(line)
        for place in (i for i in range(1, LIMIT) if places >> i & 1):
            if (self.above, place) in self.places:
                raise line.wrong(f"place {place} has its letters already: expected each place once")
            self.places[self.above, place] = line.number
            self.problem.strings[self.above][place] = symbols

    def number(self, line):
        name = self.declare(line, "number")
        if line.more() and not line.sees("in"):
            raise line.unexpected("'in' and the values")
        self.problem.numbers[name] = line.numbers("a value", 0) if line.took("in") else EVERY

    def rule(self, line):
        name = self.declare(line, "rule")
        if not line.took("="):
            raise line.unexpected("'=' and a pattern")
        self.pattern(line, name)

    def constraint(self, line, kind):
        name, nouns = KINDS[kind - 1]
        if len(self.constraints) == MOST["constraints"]:
            raise line.wrong(f"'{name}' is one constraint too many: expected {MOST['constraints']} at most")
        self.constraints.append((line, kind, [line.name(f"{A[noun]} ({name} {' '.join(nouns)})") for noun in nouns]))

    def resolved(self, line, kind, names):
        """A constraint by the positions of what it names."""
        word, nouns = KINDS[kind - 1]
        for name, noun in zip(names, nouns):
            known = self.problem.named(noun)
            if name in self.declared and name not in known:
                other, number = self.declared[name]
                raise line.wrong(f"'{name}' is {A[other]} (line {number}): expected {A[noun]} here ({word} {' '.join(nouns)})")
            if name not in known:
                raise line.wrong(f"no {noun} is called '{name}' (declared: {', '.join(known) or 'none'})")
        if repeats(kind, names):
            raise line.wrong(f"{word} names one string twice: expected different strings")
        return kind, tuple(list(self.problem.named(noun)).index(name) for name, noun in zip(names, nouns))

    def finish(self, path):
        self.problem.letters = self.symbols
        self.problem.constraints = [self.resolved(*constraint) for constraint in self.constraints]
        self.make_rules()
        declared = {name: number for name, (_, number) in self.declared.items()}
        constraints = [line.number for line, _, _ in self.constraints]
        return Text(self.problem, declared, self.places, constraints, {name: rule.tokens for name, rule in self.rules.items()})


def read_text(path, content):
    """A text, given as bytes; the path is named in errors. Raises Wrong, and Failed where a rule's automaton cannot be made."""
    return Reader().read(path, content)


def read(path, content):
    """The problem in a text. Raises Wrong and Failed."""
    return read_text(path, content).problem
