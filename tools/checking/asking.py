# Every question of a set, asked of the proved program: its problems one after the other or side by side, those that are spent split into smaller ones, and
# the verdict joined from the answers. The tool decides nothing: a clash is a solution that the program found, and never is that it found none in any problem.
from concurrent.futures import FIRST_COMPLETED, ThreadPoolExecutor, wait
from dataclasses import dataclass, replace
from itertools import combinations
from time import perf_counter
from typing import Callable

import packing
import solving
import wording
from checking import equation as equations
from checking import machines
from checking.modelling import Unfit, model_of, modelled, values
from solving import Failed

MOST_SPENT = 24  # problems of one question that may be spent before its verdict is unknown
MOST_PROBLEMS = 20000  # and problems of one question in all
FEW_PIECES = 16  # an equation is split at once where so many problems decide every length first; else only when it is spent


@dataclass
class Case:
    """An equation as a problem."""

    equation: equations.Equation
    then: Callable  # None, or where the equation says less than the question: gives the cases that are asked if this one has a solution
    problem: packing.Problem
    rows: dict
    content: bytes
    turned: bool = False  # whether lengths are decided from the end
    asked: bool = False
    output: str = None
    seconds: float = 0.0


class Question:
    """One question of a set, and how far its answers go. Cases are worked through in their order, whatever is answered first, so that the verdict, the clash and
    the counts are the same with any number of jobs."""

    def __init__(self, given, templates, on, found):
        self.given, self.templates, self.on = given, templates, on
        self.problems = self.nodes = self.spent = 0
        self.seconds = 0.0
        self.verdict = self.open = self.unfit = self.values = None
        found = [equations.rewritten(equation, on) for equation in found]
        if any(equation.long for equation in found):
            self.open = f"names of more than {packing.LIMIT - 1} letters are outside of every problem, and were not looked at"
        # In their order, cases that are asked or to be asked, and iterators of further ones: most of these are never made, where a clash is found before.
        self.waiting = [iter(self.cases(equation)) for equation in found]

    def cases(self, equation):
        """The equation in cases that fit into a problem."""
        if not equation.machines or all(map(equations.is_text, equation.front)):
            return self.fitted(equation)
        # With the rules of the name the whole front is part of the problem. Mostly there is no solution without them either.
        return self.tried(equation._replace(machines=()), lambda: self.fitted(equation))

    def case(self, equation, then=None):
        """The equation as a case, whether it decides every length first, and why it is none where it does not fit."""
        model = self.model(equation)
        try:
            problem = modelled(model, self.on, self.given.letters)
        except Unfit as unfit:
            return None, False, unfit
        return Case(equation, then, problem, model.rows, packing.pack(problem)), model.complete, None

    def tried(self, equation, then):
        """An equation that says less than the question: what is asked if it has a solution is `then`."""
        case, complete, _ = self.case(equation, then)
        if case and complete:
            return iter([case])
        return self.eased(equation, lambda: iter([case]) if case else then())

    def fitted(self, equation):
        """The equation as one case where every length can be decided first; split by lengths where that takes few problems, or where it does not fit."""
        case, complete, why = self.case(equation)
        if case and complete:
            return iter([case])
        if case and self.pieces(equation) <= FEW_PIECES:
            return self.split_by_length(equation, why)
        return self.eased(equation, lambda: iter([case]) if case else self.split_by_length(equation, why))

    def eased(self, equation, whole):
        """First the front alone and then the end alone, with anything for the rest, where that decides every length first; the whole after that."""
        return self.loosened(equation, False, lambda: self.loosened(equation, True, whole))

    def split_by_length(self, equation, why):
        name = equations.narrowest(equation)
        if name is None:
            # All cases of the question are alike in this, so that no other is made.
            self.unfit = f"with every length decided it takes {why}"
        for smaller in equations.by_length(equation, name) if name else ():
            if self.unfit:
                return
            yield from self.fitted(smaller)

    def loosened(self, equation, turn, then):
        """As much of the front, or turned of the end, as fits with every length decided first; the rest may be anything."""
        keep = [len(side) for side in equation.sides]
        while "lengths" in self.on and max(keep) > 1:
            keep[keep.index(max(keep))] -= 1
            case, complete, _ = self.case(equations.loosened(equation, keep, turn), then)
            if case and complete:
                return iter([case])
        return then()

    def model(self, equation):
        return model_of(equation, self.on, self.given.letters)

    def pieces(self, equation):
        """How many cases it takes, counted up to a few, until every length is decided first."""
        count = 1
        while count <= FEW_PIECES and not self.model(equation).complete:
            name = equations.narrowest(equation)
            count *= len(equations.lengths_of(equation, name))
            equation = next(equations.by_length(equation, name))
        return count

    def unasked(self):
        """The next case that is to be asked, if there is one."""
        place = 0
        while not self.verdict and place < len(self.waiting):
            item = self.waiting[place]
            if isinstance(item, Case):
                if not item.asked:
                    return item
                place += 1
            elif case := next(item, None):
                self.waiting.insert(place, case)
            else:
                del self.waiting[place]
        return None

    def settle(self):
        """Works through the cases that are answered, up to the first that is not."""
        self.unasked()
        while not self.verdict and self.waiting and self.waiting[0].output is not None:
            self.answered(self.waiting.pop(0))
            self.unasked()
        if not self.verdict and not self.waiting:
            self.open = self.open or self.unfit
            self.verdict = "unknown" if self.open else "never"

    def answered(self, case):
        try:
            wording.answer(case.problem, case.output)
        except wording.Unfit as unfit:
            raise Failed(f"the answer: {unfit}") from None
        word, count = wording.outcome(case.output)
        self.problems, self.nodes, self.seconds = self.problems + 1, self.nodes + count, self.seconds + case.seconds
        self.spent += word == "spent"
        if word == "refused":
            raise Failed(f"the program refused a problem of {' and '.join(self.templates)} with {count}: a fault of this tool")
        if word == "found" and not case.then:
            self.verdict, self.values = "clash", values(case.equation, case.rows, strings_found(case.problem, self.given.letters, case.output))
            verify(self)
        elif self.spent > MOST_SPENT or self.problems >= MOST_PROBLEMS:
            self.give_up(case)
        elif word != "none":
            self.waiting.insert(0, iter(case.then() if case.then else self.split(case)))

    def split(self, case):
        """A case that is spent, with its lengths decided from the other end, or as several smaller ones."""
        turned = None if case.turned else modelled(model_of(case.equation, self.on, self.given.letters, True), self.on, self.given.letters)
        if turned and packing.pack(turned) != case.content:
            yield replace(case, problem=turned, content=packing.pack(turned), turned=True, asked=False, output=None)
            return
        _, smaller = self.smaller(case.equation)
        for equation in smaller:
            yield from self.fitted(equation)
        if not smaller:
            self.give_up(case)

    def smaller(self, equation):
        """What an equation is split by, and into."""
        return equations.halved(equation, None if self.model(equation).complete else equations.narrowest(equation))

    def give_up(self, case):
        name, _ = self.smaller(case.equation)
        self.verdict = "unknown"
        tried = f"{self.spent} of {self.problems} problems were spent"
        if name:
            tried += f", split by lengths and letters up to {MOST_SPENT} spent ones or {MOST_PROBLEMS} in all"
        else:
            tried += ", one of them with every length and letter decided"
        self.open = tried + (f"; the part '{name.split()[0]}' keeps it open" if name and not name.startswith("(") else "")


def strings_found(problem, letters, output):
    """The symbols of each string in an answer, by name, as symbols of the set."""
    lines = [line.split() for line in output.split("\n")[1:]]
    return {name: [letters.index(problem.letters[int(symbol)]) for symbol in symbols] for name, (_, _, *symbols) in zip(problem.strings, lines)}


def derivations(question):
    """For both templates the pieces of the clash: the part, or None for a fixed text, and its symbols."""
    for side, name in enumerate(question.templates, 1):
        pieces = []
        for piece in question.given.templates[name].pieces:
            if equations.is_text(piece):
                pieces.append((None, list(piece)))
            else:
                shared = question.values.get(piece)
                pieces.append((piece, question.values[equations.variable(piece, side)] if shared is None else shared))
        yield pieces


def verify(question):
    """A clash is shown only if it is one by the set's own words. Raises Failed: whatever went wrong lies in this tool."""
    if len(question.templates) == 1:
        return
    one, other = derivations(question)
    names = [[symbol for _, symbols in pieces for symbol in symbols] for pieces in (one, other)]
    good = names[0] == names[1]
    for pieces, name in zip((one, other), question.templates):
        good &= all(machines.accepts(machine, names[0]) for machine in question.given.templates[name].machines)
        good &= all(stands_for(question.given.parts[part], symbols) for part, symbols in pieces if part)
    shared = question.given.same.intersection(dict(one), dict(other))
    good &= all(dict(one)[part] == dict(other)[part] for part in shared)
    if question.templates[0] == question.templates[1]:
        good &= one != other
    if not good:
        raise Failed(f"the answer for {' and '.join(question.templates)} is no clash of this set: a fault of this tool")


def stands_for(domain, symbols):
    fits = domain.lengths >> len(symbols) & 1 and all(word >> symbol & 1 for word, symbol in zip(domain.words, symbols))
    return bool(fits) and all(machines.accepts(machine, symbols) for machine in domain.machines)


def questions(given, twice, on):
    """Every question of a set: each pair, then each template with itself if that is asked."""
    names = list(given.templates)
    asked = [Question(given, (one, other), on, [equations.pair(given, one, other)]) for one, other in combinations(names, 2)]
    return asked + [Question(given, (name, name), on, equations.twice(given, name, on)) for name in (names if twice else [])]


def existence(given, on):
    """For each template whether it has a name at all: without one, that it never clashes is no news. Of names that are too long for a problem nothing is asked."""
    short = [name for name, template in given.templates.items() if equations.longest(template.pieces, given.parts) < packing.LIMIT]
    return [Question(given, (name,), on, [equations.alone(given, name)]) for name in short]


def ask(asked, case):
    start = perf_counter()
    output = solving.output(asked, case.content)
    return output, perf_counter() - start


def ask_all(these, asked, jobs, progress=lambda done: None):
    """Asks until every question has its verdict, `jobs` problems side by side. The program answers a problem always alike, so each is asked once."""
    known = {}  # content to its future
    for question in these:
        question.settle()  # one without a case has its verdict
    with ThreadPoolExecutor(jobs) as pool:
        running = {}  # future to the cases that it answers
        while True:
            for question in these:
                while len(running) <= jobs and (case := question.unasked()):
                    case.asked = True
                    future = known.setdefault(case.content, None) or pool.submit(ask, asked, case)
                    known[case.content] = future
                    running.setdefault(future, []).append((question, case))
            if not running:
                return
            done, _ = wait(running, return_when=FIRST_COMPLETED)
            for future in done:
                for question, case in running.pop(future):
                    case.output, case.seconds = future.result()
                    question.settle()
            progress(sum(question.verdict is not None for question in these))
