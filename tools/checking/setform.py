# The text of a template set, docs/TEXT.md: parts, rules, templates, and which parts both sides of a question share. Errors name line and column.
import re
from math import prod
from typing import NamedTuple

from checking import machines
from lines import Wrong
from packing import LIMIT, MOST
from statements import Statements

COUNTER = re.compile(r"([0-9]+)\.\.([0-9]+)")
A = {"part": "a part", "template": "a template", "rule": "a rule", "automaton": "an automaton"}
SORT = {"part": "part", "template": "template", "rule": "rule", "automaton": "rule"}  # what shares its names with what


class Domain(NamedTuple):
    """The texts of a part: their lengths, as a word; the letters of each place up to the longest, as words; and the machines that all accept them."""

    lengths: int
    words: tuple
    machines: tuple

    def of_lengths(self, lengths):
        """The texts of these lengths alone."""
        return self._replace(lengths=lengths, words=self.words[: max(lengths.bit_length() - 1, 0)])


class Template(NamedTuple):
    pieces: tuple  # the name of a part, or a fixed text as a tuple of symbols
    machines: tuple  # all accept the name


class TemplateSet(NamedTuple):
    letters: str  # symbol a is written letters[a]
    parts: dict  # name to Domain
    templates: dict  # name to Template
    same: frozenset  # the parts that both sides of a question share
    lines: dict  # name of a template to its line
    warnings: list  # (line, what is doubtful)


class Reader(Statements):
    columns = True
    words = ("alphabet", "part", "rule", "automaton", "state", "accepting", "template", "same")

    def __init__(self):
        super().__init__()
        self.declared = {}  # (sort, name) to its line
        self.parts = {}  # name to (lengths, words, machine of a counter or None, the tokens of its rules)
        self.templates = {}  # name to (line, tokens of the pieces, tokens of the rules)
        self.shared = []  # (line, token) of each part in a `same`

    def declare(self, line, noun):
        name = line.name(A[noun])
        if name in ("obeys", "of"):
            raise line.wrong(f"'{name}' is a word of the text: expected another name")
        if (SORT[noun], name) in self.declared:
            raise line.wrong(f"'{name}' is declared twice: it is {A[SORT[noun]]} in line {self.declared[SORT[noun], name]}")
        self.declared[SORT[noun], name] = line.number
        return name

    def obeys(self, line):
        """The rules behind `obeys`, as tokens of (line, token): they may be declared further down."""
        if not line.took("obeys"):
            return []
        tokens = [(line, line.take("the name of a rule"))]
        while line.more():
            tokens.append((line, line.take("the name of a rule")))
        return tokens

    def part(self, line):
        name = self.declare(line, "part")
        if not line.more():
            raise line.unexpected("lengths, 'of' and letters, or a counter such as 000..119")
        seen = line.tokens[line.next]
        match = COUNTER.fullmatch(seen.text)
        if match and not seen.quoted and (line.next + 1 == len(line.tokens) or line.tokens[line.next + 1].text == "obeys"):
            line.take("a counter")
            texts = self.counter(line, *match.groups())
        else:
            texts = self.plain(line)
        self.parts[name] = (*texts, self.obeys(line))

    def plain(self, line):
        """Lengths, `of` and letters."""
        if line.sees("none"):
            raise line.unexpected("a length or a range such as 2..4")
        lengths = line.numbers("a length", 0)
        if not line.took("of"):
            raise line.unexpected("'of' and letters")
        if line.sees("none"):
            raise line.unexpected("letters")
        letters = self.letters(line)
        return lengths, (letters,) * (lengths.bit_length() - 1), None

    def counter(self, line, first, last):
        """Numbers with one width, or of several widths without zeros in front."""
        if len(first) != len(last) and (first[0] == "0" != first or last[0] == "0"):
            raise line.wrong(f"{first}..{last} is no counter: expected both numbers with the same number of digits, or without zeros in front")
        if max(len(first), len(last)) >= LIMIT:
            raise line.wrong(f"the counter has {max(len(first), len(last))} digits: expected {LIMIT - 1} at most")
        if int(first) > int(last):
            raise line.wrong(f"{first}..{last} is no counter: expected the lower number first")
        widths = range(len(first), len(last) + 1)
        runs = [(first if n == len(first) else "1" + "0" * (n - 1), last if n == len(last) else "9" * n) for n in widths]
        words = [0] * len(last)
        for low, high in runs:
            for place, digits in enumerate(digits_used(low, high)):
                words[place] |= sum(1 << self.symbol(line, digit) for digit in sorted(digits))
        lengths = sum(1 << n for n in widths)
        if sum(prod(word.bit_count() for word in words[:n]) for n in widths) == int(last) - int(first) + 1:
            return lengths, tuple(words), None
        symbols = [self.symbols.find(digit) for digit in "0123456789"]
        machine = machines.counter(*runs[0], symbols, len(self.symbols))
        for run in runs[1:]:
            machine = machines.union(machine, machines.counter(*run, symbols, len(self.symbols)))
        if not machines.fits(machine):
            raise line.wrong(f"the counter needs {len(machines.needed(machine))} states, and an automaton has {MOST['states']} at most: expected fewer digits")
        return lengths, tuple(words), machine

    def rule(self, line):
        name = self.declare(line, "rule")
        if line.sees("=") and "=" not in self.symbols:
            raise line.unexpected("the pattern right behind the name")
        self.pattern(line, name)

    def template(self, line):
        name = self.declare(line, "template")
        if not line.took("="):
            raise line.unexpected("'=' and pieces")
        pieces = []
        while line.more() and not line.sees("obeys"):
            token = line.take("a piece")
            if token.quoted and not token.text:
                raise line.wrong("the fixed text is empty: expected a letter at least between the quotes")
            if token.quoted:
                self.text(line, token)
            pieces.append(token)
        if not pieces:
            raise line.unexpected("a piece: the name of a part, or a fixed text in quotes")
        self.templates[name] = line, pieces, self.obeys(line)

    def text(self, line, token):
        return tuple(self.symbol(line, letter, token.column) for letter in token.text)

    def same(self, line):
        self.shared.append((line, line.take("the name of a part")))
        while line.more():
            self.shared.append((line, line.take("the name of a part")))

    def known(self, line, token, sort, names):
        """The name in a token, which must be declared."""
        if token.quoted or token.text not in names:
            raise line.wrong(f"no {sort} is called {token} (declared: {', '.join(names) or 'none'})", token.column)
        return token.text

    def finish(self, path):
        if not self.templates:
            raise Wrong(path, 1, "there is no template: expected 'template', its name, '=' and pieces", 1)
        part_rules = {name: self.rule_names(tokens) for name, (*_, tokens) in self.parts.items()}
        template_rules = {name: self.rule_names(tokens) for name, (_, _, tokens) in self.templates.items()}
        pieces = {
            name: tuple(self.text(line, token) if token.quoted else self.known(line, token, "part", self.parts) for token in tokens)
            for name, (line, tokens, _) in self.templates.items()
        }
        same = frozenset(self.known(line, token, "part", self.parts) for line, token in self.shared)
        self.make_rules()
        made = {name: machines.of(automaton) for name, automaton in self.automata.items()}
        parts = {}
        for name, (lengths, words, counter, _) in self.parts.items():
            parts[name] = Domain(lengths, words, (() if counter is None else (counter,)) + tuple(made[rule] for rule in part_rules[name]))
        templates = {name: Template(pieces[name], tuple(made[rule] for rule in template_rules[name])) for name in self.templates}
        obeyed = {rule for rules in (*part_rules.values(), *template_rules.values()) for rule in rules}
        lines = {name: line.number for name, (line, _, _) in self.templates.items()}
        return TemplateSet(self.symbols, parts, templates, same, lines, self.unused({piece for row in pieces.values() for piece in row}, obeyed))

    def rule_names(self, tokens):
        return [self.known(line, token, "rule", self.automata) for line, token in tokens]

    def unused(self, named, obeyed):
        """What is declared and not used, which shows that something was forgotten."""
        doubts = [(self.declared["part", name], f"part '{name}' is in no template") for name in self.parts if name not in named]
        doubts += [(self.declared["rule", name], f"nothing obeys the rule '{name}'") for name in self.automata if name not in obeyed]
        return sorted(doubts)


def digits_used(first, last):
    """For each place the digits that numbers from first to last have there; both are written with equally many digits."""
    low, high = int(first), int(last)
    for place in range(len(first)):
        value = 10 ** (len(first) - 1 - place)
        yield {str(front % 10) for front in range(low // value, min(high // value, low // value + 9) + 1)}


def read(path, content):
    """A set, given as bytes; the path is named in errors. Raises Wrong and Failed."""
    return Reader().read(path, content)
