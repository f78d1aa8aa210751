# Template sets against brute force: small random sets, every question worked out over all names of the two templates, and the verdicts and derivations of
# tools/sets.py compared with that; and sets whose names stand here by hand. Each set is asked with all rewritings, with none, and in turn without one of them
# alone; and, so that questions are split, with few strings in a problem and with few nodes for a search. What a set means is said here a second time,
# and nothing of it is taken from the command. It needs the archive, for searches of few nodes.
#     python3 tests/brute.py [--sets N] [--seed S] [--first K]        sets K to K + N - 1 of a seed; a difference is printed with the call that makes it again
#     python3 tests/brute.py --brief [...]                            for long runs: each set with all rewritings, and in one of the other ways in turn
import argparse
import multiprocessing
import os
import re
import sys
from collections import Counter
from concurrent.futures import ProcessPoolExecutor
from itertools import combinations, product, repeat
from math import prod
from pathlib import Path
from random import Random
from string import ascii_lowercase, digits
from typing import Callable, NamedTuple

ROOT = Path(__file__).resolve().parent.parent
sys.path.insert(0, str(ROOT / "tools"))
import packing
import sets
from checking import asking

LARGEST = 3000  # choices for a template, so that brute force takes milliseconds
PRINTED = 10  # sets that are printed whole where many differ
SCARCE = 50  # among so many sets at least one question of each kind clashes, and one never does
IN_TURN = 4  # among so many sets at least one is asked without a given rewriting alone


class Mode(NamedTuple):
    """How a set is asked."""

    said: str
    off: tuple = ()  # the rewritings that are switched off
    strings: int = packing.MOST["strings"]  # that a problem may have
    pieces: int = asking.FEW_PIECES  # into which a question is split at once
    budget: int = None  # nodes of a search


WHOLE = [Mode("with all rewritings"), Mode("with no rewriting", tuple(sets.REWRITINGS))]
ALONE = [Mode(f"without {rewriting}", (rewriting,)) for rewriting in sets.REWRITINGS]
NARROW = [Mode("with 11 strings", strings=11, pieces=1), Mode("with 4 nodes", budget=4)]  # small sets would fit and be answered otherwise
MODES = [*WHOLE, *ALONE, *NARROW]
KINDS = ("pair", "twice", "same", "rule", "gap", "counter", "part named twice", "empty text")

PLAIN, ODD = "ab-01", 'éж本 #,"\\./_|*('
DIGITS = ("01", "012", "019", "0189", digits)  # with a 9 a counter can grow by a digit: 9..10, 99..101
FIRSTS = ("0", "1", "00", "01", "10", "100", "8", "9", "9", "08", "09", "09", "99", "099")
RANGES = f"{ascii_lowercase}\n{digits}"  # two neighbours here make a range: the line's end is no letter
IN_QUOTES, SIGNS = ' #,"', "|*()"
PARTS = ("one", "letter", "loose", "take-2", "_tag")  # names that the command might use itself, and of every form
TITLES = ("video", "audio", "captions")
RULES = ("public", "short", "plain_path", "dashed", "r5")
COMMENTS = ("", "", "", "", "  ", "  # by hand", '# an open " obeys nothing')

CHAIN = "".join(f"  state q{i} a to q{i + 1}\n" for i in range(31)) + "  accepting q31\n"  # 31 letters a
NINETIES, HUNDREDS = {"95", "96", "97", "98", "99"}, {"100", "101", "102", "103"}
# (what it is there for; the set; for each pair, and then for each template with itself, all names by which it clashes)
BY_HAND = [
    ("names equal only where a part is empty", 'alphabet a b\npart tag 0..1 of a\ntemplate s = tag "b"\ntemplate t = "b"', [{"b"}, set(), set()]),
    ("the empty name", "alphabet a b\npart x 0..1 of a\npart y 0, 2 of b\ntemplate s = x\ntemplate t = y", [{""}, set(), set()]),
    (
        "a rule that accepts no text of a part: its templates have no name",
        "alphabet a b\npart x 1..2 of any obeys three\nrule three (a|b)(a|b)(a|b)\npart y 0..3 of a b\ntemplate s = x\ntemplate t = y\ntemplate u = x y",
        [set()] * 6,
    ),
    ("fixed texts alone: one choice, however they are cut", 'alphabet a b\ntemplate s = "ab"\ntemplate t = "a" "b"', [{"ab"}, set(), set()]),
    (
        "two parts side by side, and with a letter between them that neither has",
        'alphabet a b\npart x 1..2 of a\npart y 1..2 of a\ntemplate s = x y\ntemplate t = x "b" y',
        [set(), {"aaa"}, set()],
    ),
    (
        "the same part at the front: what follows it differs between templates, and not within one",
        'alphabet a\npart x 1..2 of a\npart y 1..2 of a\ntemplate s = x y\ntemplate t = x y "a"\ntemplate u = x "a"\nsame x',
        [{"aaa", "aaaa"}, {"aa", "aaa"}, set(), set(), set(), set()],
    ),
    (
        "the same part in the middle, where it would have to be both a and b",
        'alphabet a b\npart x 1 of a b\npart y 1 of a b\ntemplate s = "a" y x\ntemplate t = y "b" x\nsame y',
        [set(), set(), set()],
    ),
    (
        "the same part at the end of one template and at the front of the other",
        "alphabet a b\nsame y\npart x 1 of a b\npart y 1 of a b\ntemplate s = x y\ntemplate t = y x",
        [{"aa", "bb"}, set(), set()],
    ),
    (
        "parts under `same` that only one template names: they bind nothing in a pair, but within the template",
        "alphabet a\npart x 1 of a\npart y 1..2 of a\npart z 0..1 of a\nsame x z\ntemplate s = x\ntemplate t = y z",
        [{"a"}, set(), set()],
    ),
    (
        "two parts under `same`, which leave the third no way within a template",
        'alphabet a\npart x 1..2 of a\npart y 1..2 of a\npart z 1..2 of a\nsame y x\ntemplate s = x y z\ntemplate t = z "a" y x',
        [{"aaaa", "aaaaa", "aaaaaa"}, set(), set()],
    ),
    (
        "a part twice in a template: one text",
        'alphabet a b -\npart x 1..2 of a b\ntemplate s = x "-" x\ntemplate t = "a-b"\ntemplate u = "ab-ab"',
        [set(), {"ab-ab"}, set(), set(), set(), set()],
    ),
    (
        "a part twice in a template, around one that makes up for it",
        "alphabet a\npart x 0..1 of a\npart y 0, 2 of a\ntemplate s = x y x\ntemplate t = x x",
        [{"", "aa"}, {"aa"}, set()],
    ),
    (
        "counters with zeros in front, and without",
        'alphabet 0..9\npart wide 08..11\npart free 8..12\npart digit 0..9\ntemplate s = wide\ntemplate t = free\ntemplate u = "0" digit',
        [{"10", "11"}, {"08", "09"}, set(), set(), set(), set()],
    ),
    (
        "where counters end, with more digits at the end than at the start and with as many",
        'alphabet 0..9\npart free 95..103\npart wide 095..103\npart d 1 of any\npart e 0..9\n'
        'template s = free\ntemplate t = wide\ntemplate u = "9" d\ntemplate v = "10" e\ntemplate w = "0" d e',
        [HUNDREDS, NINETIES, HUNDREDS, set(), set(), HUNDREDS, {f"0{n}" for n in NINETIES}] + [set()] * 8,
    ),
    (
        "numbers just outside of counters, of digits that their numbers have at the same places",
        'alphabet 0..9\npart free 95..103\npart wide 095..103\npart low 0..4\npart high 1 of 4..9\n'
        'template s = free\ntemplate t = wide\ntemplate u = "9" low\ntemplate v = "10" high\ntemplate w = "09" low',
        [HUNDREDS] + [set()] * 14,
    ),
    (
        "counters side by side: where one of one or two digits ends",
        "alphabet 0..9\npart x 1..11\npart y 1..11\npart z 01..03\ntemplate s = x y\ntemplate t = x z",
        [{"101", "102", "103"}, {"111"}, set()],
    ),
    (
        "rules of a template and of a part",
        'alphabet a b\ntemplate s = x obeys ends\ntemplate t = "a" y\ntemplate u = z\n'
        "part x 2 of any\npart y 1 of any\npart z 2 of any obeys twins\nrule ends (a | b)* b\nrule twins aa|bb",
        [{"ab"}, {"bb"}, {"aa"}, set(), set(), set()],
    ),
    (
        "two rules of one template, and lengths with a gap",
        "alphabet a b\nrule begins a(a|b)*\nrule ends (a|b)*b\npart x 0, 2 of any\npart y 1..2 of any\ntemplate s = x obeys begins ends\ntemplate t = y\n"
        'template u = x "b" obeys begins',
        [{"ab"}, set(), set(), set(), set(), set()],
    ),
    (
        "the empty pattern: of a part only the empty text is left",
        'alphabet a\npart x 0..2 of a obeys nothing\nrule nothing\ntemplate s = x "a"\ntemplate t = x x "a"',
        [{"a"}, set(), set()],
    ),
    (
        "an automaton by moves: the letter a an even number of times",
        "alphabet a b\nautomaton pairs\n  accepting even a to odd, other to even\n  state odd a to even, other to odd\n"
        'part x 1..2 of a b\npart y 1 of a b\ntemplate s = x obeys pairs\ntemplate t = y "a"',
        [{"aa"}, set(), set()],
    ),
    (
        "an automaton that lists its moves alone: what a gap rejects stays rejected, whatever follows",
        "alphabet a b -\nautomaton dashed\n  state start a to word\n  accepting word a to word, - to behind\n  state behind b to end\n  accepting end\n"
        'part x 0..4 of any obeys dashed\npart y 1..2 of any\ntemplate s = x\ntemplate t = y "b"\ntemplate u = "a" y obeys dashed\ntemplate v = "b" x',
        [{"a-b"}, {"aa", "aaa", "a-b"}, set(), {"a-b"}] + [set()] * 6,
    ),
    (
        "automata without any move: the empty text alone, and no text",
        "alphabet a b\nautomaton nothing\n  accepting end\nautomaton never\n  state q\n  accepting r\npart x 0..2 of any obeys nothing\n"
        'part y 0..2 of any obeys never\ntemplate s = x "a"\ntemplate t = "a"\ntemplate u = y "a"\ntemplate v = x x obeys nothing',
        [{"a"}] + [set()] * 9,
    ),
    (
        "32 states and gaps, by moves and as a counter",
        f"alphabet a 0..9\nautomaton long\n{CHAIN}part x 30..32 of a obeys long\npart y 31 of a\npart z 0..1 of a\npart n {'1'.zfill(16)}..{'9' * 16}\n"
        f'template s = x\ntemplate t = y z\ntemplate u = n\ntemplate v = "{"0" * 16}"\ntemplate w = "{"1".zfill(16)}"',
        [{"a" * 31}] + [set()] * 6 + [set(), {"1".zfill(16)}, set()] + [set()] * 5,
    ),
    (
        "two rules that no narrowing brings together: only a search, or halves of a letter, show that a name begins with b",
        "alphabet a b\npart x 4 of a b obeys alike\npart y 4 of a b\nrule alike a(a|b)*a|b(a|b)*b\nrule later a(a|b)*b|b(a|b)*\n"
        "template s = x obeys later\ntemplate t = y",
        [{"baab", "babb", "bbab", "bbbb"}, set(), set()],
    ),
    (
        "letters in quotes, and signs of patterns in a comment",
        'alphabet é " #" \\ "\\"," # and no more\npart x 1..2 of é " "\nrule odd (é | " ") "#"* \\* # *\n'
        'template s = x "#\\\\" obeys odd\ntemplate t = "é#\\\\"\ntemplate u = "é" ",\\""',
        [{"é#\\"}, set(), set(), set(), set(), set()],
    ),
]


class Rule(NamedTuple):
    lines: str  # its statement
    accepts: Callable
    gaps: bool = False  # whether some letter has no move from some state


class Part(NamedTuple):
    written: str  # what its statement has behind its name, up to `obeys`
    texts: tuple  # all that it stands for, its rules left aside
    counter: bool
    rules: tuple = ()


class Piece(NamedTuple):
    part: str | None
    text: str | None  # of a fixed text, which has no part


class Template(NamedTuple):
    pieces: tuple
    rules: tuple = ()

    def named(self):
        """Its parts, each once."""
        return list(dict.fromkeys(piece.part for piece in self.pieces if piece.part))


class Given(NamedTuple):
    """A set as it is meant; what is written is made of it."""

    alphabet: str
    rules: dict
    parts: dict
    templates: dict
    same: tuple


# What a set means.


def obeys(given, rules, text):
    return all(given.rules[rule].accepts(text) for rule in rules)


def texts_of(given, part):
    return [text for text in given.parts[part].texts if obeys(given, given.parts[part].rules, text)]


def joined(template, choice):
    return "".join(piece.text if piece.part is None else choice[piece.part] for piece in template.pieces)


def choices(given, template):
    """Every choice for a template that counts, with its name."""
    parts = template.named()
    for texts in product(*(texts_of(given, part) for part in parts)):
        choice = dict(zip(parts, texts))
        name = joined(template, choice)
        if obeys(given, template.rules, name):
            yield name, choice


def questions(titles):
    """The two templates of each question, in the order of the answer."""
    return [*combinations(titles, 2), *((title, title) for title in titles)]


def agreeing(given, first, second):
    """The parts that have one text on both sides."""
    return [part for part in given.same if part in given.templates[first].named() and part in given.templates[second].named()]


def brute(given):
    """For each question all names by which it clashes: a question without any never does."""
    made, found = {title: list(choices(given, template)) for title, template in given.templates.items()}, []
    for first, second in questions(given.templates):
        bound = agreeing(given, first, second)
        left, right = (Counter((name, *(choice[part] for part in bound)) for name, choice in made[title]) for title in (first, second))
        # no choice is listed twice, so that what one template has more than once it has by different choices
        found.append({key[0] for key, times in left.items() if (times > 1 if first == second else key in right)})
    return found


# How a random set comes about, and how it is written.


def quoted(text):
    return '"' + text.replace("\\", "\\\\").replace('"', '\\"') + '"'


def spelled(rng, letters):
    """Letters as words of a statement: bare, in quotes, or as ranges where they can be."""
    words, place = [], 0
    while place < len(letters):
        end = place + 1
        while end < len(letters) and letters[end - 1 : end + 1] in RANGES:
            end += 1
        if end > place + 1 and rng.random() < 0.5:
            words.append(f"{letters[place]}..{letters[end - 1]}")
        elif letters[place] in IN_QUOTES or rng.random() < 0.2:
            end = rng.randint(place + 1, len(letters))
            words.append(quoted(letters[place:end]))
        else:
            end = place + 1
            words.append(letters[place])
        place = end
    return words


def spaced(rng, *words):
    return "".join(word + " " * rng.choice((1, 1, 1, 2, 4)) for word in words).rstrip()


def any_alphabet(rng):
    kind = rng.random()
    if kind < 0.55:
        letters = rng.sample(PLAIN, rng.choice((1, 2, 2, 2, 3, 3, 4)))
    elif kind < 0.85:
        letters = list(rng.choice(DIGITS)) + rng.sample("a-", rng.randint(0, 1))
    else:
        letters = rng.sample(ODD, rng.randint(1, 2)) + rng.sample(PLAIN, rng.randint(0, 2))
    rng.shuffle(letters)
    return "".join(letters)


def any_text(rng, alphabet, longest=3):
    return "".join(rng.choices(alphabet, k=rng.randint(1, longest)))


def any_part(rng, alphabet):
    count = min(len(alphabet), rng.choice((1, 1, 2, 2, 2, 3, 4)))
    letters = alphabet[:count] if rng.random() < 0.6 else "".join(rng.sample(alphabet, count))  # parts of the same letters are what clashes come from
    longest = 3 if len(letters) < 4 else 2  # 40 texts at most, so that any two parts fit into a template
    lengths = sorted(rng.sample(range(longest + 1), rng.choice((1, 2, 2, 3, 3, 3, 3))))
    words, place = [], 0
    while place < len(lengths):
        end = place + 1
        while end < len(lengths) and lengths[end] == lengths[end - 1] + 1 and rng.random() < 0.8:
            end += 1
        words.append(f"{lengths[place]}..{lengths[end - 1]}" if end > place + 1 else str(lengths[place]))
        place = end
    of = ["any"] if len(letters) == len(alphabet) and rng.random() < 0.5 else spelled(rng, letters)
    texts = ["".join(text) for length in lengths for text in product(letters, repeat=length)]
    return Part(spaced(rng, rng.choice((", ", ",", " , ")).join(words), "of", *of), tuple(texts), counter=False)


def any_counter(rng, alphabet):
    """A counter whose numbers have no digit that is no letter; None if there is none."""
    firsts = [first for first in FIRSTS if set(first) <= set(alphabet)]
    if not firsts:
        return None
    first = rng.choice(firsts)
    texts, padded = [first], len(first) > 1 and first.startswith("0")
    for number in range(int(first) + 1, int(first) + rng.choice((1, 2, 3, 4, 5, 15, 15))):
        text = str(number).zfill(len(first))
        if not set(text) <= set(alphabet) or padded and len(text) > len(first):
            break
        texts.append(text)
    return Part(f"{first}..{texts[-1]}", tuple(texts), counter=True)


def any_signs(rng, letters, depth=3):
    """The letters and signs of any pattern, of a few letters."""
    kind = rng.random() if depth else 0
    if kind < 0.3:
        return [rng.choice(letters)]
    if kind < 0.6:
        return [sign for _ in range(rng.randint(2, 3 if depth == 3 else 2)) for sign in any_signs(rng, letters, depth - 1)]
    if kind < 0.8:
        return ["(", *any_signs(rng, letters, depth - 1), "|", *(any_signs(rng, letters, depth - 1) if rng.random() < 0.7 else []), ")"]
    return [rng.choice(letters), "*"] if rng.random() < 0.4 else ["(", *any_signs(rng, letters, depth - 1), ")", "*"]


def signs_about(rng, text, letters):
    """The letters and signs of a pattern that accepts this text: some of its stretches stand there as they are, others may change."""
    cuts = [0, *sorted(rng.sample(range(len(text) + 1), min(len(text), rng.randint(0, 2)))), len(text)]
    signs = []
    for start, end in zip(cuts, cuts[1:]):
        stretch, kind = text[start:end], rng.random()
        if kind < 0.4 and len(stretch) < 3 or not stretch:
            signs += stretch
        elif kind < 0.75:
            signs += ["(", *"|".join(sorted({*stretch, rng.choice(letters)})), ")", "*"]
        elif kind < 0.9:
            signs += ["(", *stretch, "|", *any_text(rng, letters, 2)[rng.randint(0, 1) :], ")"]
        else:
            signs += ["(", *stretch, ")", "*"]
    return signs


def any_pattern(rng, name, alphabet, text):
    """A rule by a pattern, mostly one that accepts this text."""
    letters = "".join(letter for letter in alphabet if letter not in SIGNS)
    signs = []
    if letters and rng.random() < 0.75 and set(text) <= set(letters):
        signs = signs_about(rng, text, letters)
    elif letters:
        signs = any_signs(rng, letters)
    words = (quoted(sign) if sign in IN_QUOTES or sign not in SIGNS and rng.random() < 0.05 else sign for sign in signs)
    written = "".join(word + " " * (rng.random() < 0.1) for word in words)
    pattern = re.compile("".join({"(": "(?:"}.get(sign, sign) if sign in SIGNS else re.escape(sign) for sign in signs))
    return Rule(f"rule {name} {written}".rstrip(), lambda asked: pattern.fullmatch(asked) is not None)


def any_automaton(rng, name, alphabet, text):
    """A rule by moves, half of them with gaps, mostly one that accepts this text."""
    states = rng.sample(("start", "more", "no"), rng.randint(1, 3))
    share = rng.choice((0, rng.choice((0.2, 0.5))))  # of the moves that are gaps
    moves = {state: {letter: rng.choice(states) for letter in alphabet if rng.random() >= share} for state in states}

    def end(asked):
        """The state behind a text; None where it comes to a gap."""
        state = states[0]
        for letter in asked:
            state = moves[state].get(letter) if state else None
        return state

    accepting = {state for state in states if rng.random() < 0.4} | ({end(text)} - {None} if rng.random() < 0.9 else set())
    lines = [f"automaton {name}"]
    for state in states:
        goals = list(dict.fromkeys(moves[state].values()))
        words = [[*spelled(rng, "".join(letter for letter, target in moves[state].items() if target == goal)), "to", goal] for goal in goals]
        if len(moves[state]) == len(alphabet) and rng.random() < 0.6:
            words[-1][:-2] = ["other"] if len(goals) > 1 else ["any"]
        lines.append(spaced(rng, "  accepting" if state in accepting else "  state", state, ", ".join(spaced(rng, *move) for move in words)))
    gaps = any(len(row) < len(alphabet) for row in moves.values())
    return Rule("\n".join(lines), lambda asked: end(asked) in accepting, gaps)


def any_rules(rng, rules, alphabet, text, often):
    """The names of no, one or two rules, known ones or new ones, for what can be this text. Most accept it, so that most templates have names."""
    names = []
    for _ in range(sum(rng.random() < chance for chance in often)):
        known = [name for name, rule in rules.items() if rule.accepts(text) or rng.random() < 0.1]
        if len(rules) < len(RULES) and (not known or rng.random() < 0.7):
            known = [RULES[len(rules)]]
            for _ in range(rng.randint(1, 4)):
                rules[known[0]] = (any_automaton if rng.random() < 0.3 else any_pattern)(rng, known[0], alphabet, text)
                if rules[known[0]].accepts(text):
                    break
        names += rng.sample(known, min(len(known), 1))
    return tuple(dict.fromkeys(names))


def text_near(rng, alphabet, part):
    """A fixed text that the part stands for or just not: for a counter one number further, other zeros in front, or digits of several of its numbers."""
    text = rng.choice((part.texts[0], part.texts[-1], rng.choice(part.texts)))
    if text.isdecimal():
        alike = [other for other in part.texts if len(other) == len(text)]
        mixed = "".join(rng.choice(alike)[place] for place in range(len(text)))
        beside = str(abs(int(text) + rng.choice((-1, 1)))).zfill(len(text))
        text = rng.choice((text, mixed, mixed, beside, str(int(text)), "0" + text))
    return text[:3] if text and set(text) <= set(alphabet) else any_text(rng, alphabet)


def varied(rng, pieces, alphabet, parts, fresh):
    """Pieces that are much like these; `fresh` makes a piece."""
    pieces = list(pieces)
    for _ in range(rng.choice((0, 1, 1, 2))):
        place, edit = rng.randrange(len(pieces)), rng.randrange(5)
        if pieces[place].part and parts[pieces[place].part].counter:
            edit = rng.choice((edit, 3))  # only a text of its own length tells a counter from digits
        if edit == 0:
            pieces[place] = fresh()
        elif edit == 1:
            pieces[0], pieces[place] = pieces[place], pieces[0]
        elif edit == 2:
            pieces.insert(place, fresh())
        elif edit == 3 and pieces[place].part:
            pieces[place] = Piece(None, text_near(rng, alphabet, parts[pieces[place].part]))
        elif len(pieces) > 1:
            del pieces[place]
    return pieces


def any_templates(rng, alphabet, parts):
    """Two or three templates, many of them much alike, and often with a common front or end."""
    waiting = []

    def fixed():
        return Piece(None, text_near(rng, alphabet, rng.choice(list(parts.values()))) if rng.random() < 0.4 else any_text(rng, alphabet))

    def fresh():
        """A fixed text or a part: mostly one that has not come for the longest time, so that a template has different parts more often than one part twice."""
        if rng.random() < 0.15:
            return fixed()
        if not waiting:
            waiting.extend(rng.sample(list(parts), len(parts)))
        return Piece(waiting.pop() if rng.random() < 0.85 else rng.choice(list(parts)), None)

    front, end = ([rng.choice((fixed, fresh, fresh))()] if rng.random() < 0.35 else [] for _ in range(2))
    room, inner = 4 - len(front) - len(end), []
    for _ in range(rng.choice((2, 2, 3))):
        while True:
            tried = varied(rng, inner, alphabet, parts, fresh) if inner and rng.random() < 0.6 else [fresh() for _ in range(rng.choice((1, 2, 3, 4, 4)))]
            template = Template((*front, *tried[:room], *end))
            if prod(len(parts[part].texts) for part in template.named()) <= LARGEST:
                break
        inner = inner or tried
        yield template


def any_same(rng, templates):
    """No, one or two parts, mostly such as several templates name."""
    named = [part for template in templates for part in template.named()]
    shared = [part for part in dict.fromkeys(named) if named.count(part) > 1]
    pool = shared if shared and rng.random() < 0.8 else list(dict.fromkeys(named))
    return tuple(rng.sample(pool, min(len(pool), rng.choice((0, 0, 0, 1, 1, 2)))))


def generated(seed, number):
    """The set of this number and its text. It does not depend on the sets before it, so that it can be made again alone."""
    rng = Random(f"{seed} {number}")
    alphabet, rules, parts = any_alphabet(rng), {}, {}
    for name in rng.sample(PARTS, rng.randint(3, 5)):
        part = any_counter(rng, alphabet) if rng.random() < (0.6 if "9" in alphabet else 0.15) else None
        part = part or any_part(rng, alphabet)
        parts[name] = part._replace(rules=any_rules(rng, rules, alphabet, rng.choice(part.texts), (0.15, 0.05)))
    given, templates = Given(alphabet, rules, parts, {}, ()), []
    for template in any_templates(rng, alphabet, parts):
        choice = {part: rng.choice(texts_of(given, part) or [""]) for part in template.named()}
        templates.append(template._replace(rules=any_rules(rng, rules, alphabet, joined(template, choice), (0.35, 0.2))))
    given = given._replace(templates=dict(zip(rng.sample(TITLES, len(templates)), templates)), same=any_same(rng, templates))
    return given, written(rng, given)


def written(rng, given):
    """The text of a set: the alphabet, and then the statements in any order, but the templates in their own."""
    statements = [rule.lines for rule in given.rules.values()]
    for name, part in given.parts.items():
        statements.append(spaced(rng, "part", name, part.written, *obeying(part)))
    if given.same and rng.random() < 0.8:
        statements.append(spaced(rng, "same", *given.same))
    else:
        statements += [f"same {part}" for part in given.same]
    statements += [None] * len(given.templates)
    rng.shuffle(statements)
    templates = iter(given.templates.items())
    lines = [spaced(rng, "alphabet", *spelled(rng, given.alphabet))]
    for statement in statements:
        if statement is None:
            title, template = next(templates)
            statement = spaced(rng, "template", title, "=", *(piece.part or quoted(piece.text) for piece in template.pieces), *obeying(template))
        lines += statement.split("\n")
    return "".join(" " * rng.choice((0, 0, 0, 2)) + line + rng.choice(COMMENTS) + "\n" * rng.choice((1, 1, 1, 1, 2)) for line in lines)


def obeying(ruled):
    return ["obeys", *ruled.rules] if ruled.rules else []


# What the command answers.


def kinds(given, first, second):
    """What a question is counted as."""
    sides = [given.templates[first], given.templates[second]]
    parts = {part for side in sides for part in side.named()}
    rules = {rule for ruled in [*sides, *(given.parts[part] for part in parts)] for rule in ruled.rules}
    held = (
        first != second,
        first == second,
        agreeing(given, first, second),
        rules,
        any(given.rules[rule].gaps for rule in rules),
        any(given.parts[part].counter for part in parts),
        any(len(side.named()) < sum(piece.part is not None for piece in side.pieces) for side in sides),
        any("" in texts_of(given, part) for part in parts),
    )
    return [kind for kind, holds in zip(KINDS, held) if holds]


def unruled(given):
    parts = {name: part._replace(rules=()) for name, part in given.parts.items()}
    return given._replace(parts=parts, templates={title: template._replace(rules=()) for title, template in given.templates.items()})


def counted(given, clashing):
    """The questions of a set by their kinds and verdicts, and those whose verdict is another one without `same`, or without rules."""
    tally = Counter(sets=1)
    for question, names in zip(questions(given.templates), clashing):
        verdict = "clash" if names else "never"
        tally.update(["questions", verdict, *((kind, verdict) for kind in kinds(given, *question))])
    for kind, plainer in (("same", given._replace(same=())), ("rule", unruled(given))):
        tally[kind, "decides"] = sum(bool(names) != bool(more) for names, more in zip(clashing, brute(plainer)))
    return tally


def choice_faults(given, title, name, entries):
    """What the derivation of a name has against the definitions, and the choice that it makes."""
    template, choice, wrong = given.templates[title], {}, []
    if [entry["part"] for entry in entries] != [piece.part for piece in template.pieces]:
        return [f"the derivation of {title} has other pieces than the template"], choice
    for entry, piece in zip(entries, template.pieces):
        text = entry["text"]
        if piece.part is None:
            wrong += [] if text == piece.text else [f"{title} has {text!r} for the fixed text {piece.text!r}"]
        elif text not in texts_of(given, piece.part):
            wrong.append(f"{title} has {text!r} for {piece.part}, which does not stand for it")
        elif choice.setdefault(piece.part, text) != text:
            wrong.append(f"{title} has both {choice[piece.part]!r} and {text!r} for {piece.part}")
    return wrong if obeys(given, template.rules, name) else [*wrong, f"a rule of {title} does not accept {name!r}"], choice


def clash_faults(given, question):
    """What the derivations of a clash have against the definitions."""
    first, second = question["templates"]
    (wrong, left), (more, right) = (choice_faults(given, *asked) for asked in zip((first, second), [question["name"]] * 2, question["derivations"]))
    if wrong or more:
        return wrong + more
    if first == second and left == right:
        return ["both derivations have the same choice"]
    return [f"{part} is {left[part]!r} and {right[part]!r}: expected one text" for part in agreeing(given, first, second) if left[part] != right[part]]


def question_faults(question, names):
    """What is wrong with the answer to a question that clashes by these names, apart from the choices."""
    verdict, least = "clash" if names else "never", repr(min(names, key=lambda name: (len(name), name), default=""))
    if question["verdict"] != verdict:
        return [f"{question['verdict']}, expected {verdict}" + (f", as by the name {least}" if names else "")]
    if min(question["problems"], question["nodes"], question["seconds"]) < 0 or not ("name" in question) == ("derivations" in question) == bool(names):
        return [f"{question} has not what belongs to {verdict}"]
    made = ["".join(entry["text"] for entry in entries) for entries in question.get("derivations", ())]
    if names and not (question["name"] in names and made == [question["name"]] * 2):
        return [f"the name {question['name']!r}, derived {made}: expected two derivations of a name such as {least}"]
    return []


def answer_faults(name, titles, clashing, result, derived):
    """What is wrong with the answer for a set; `derived` lists what is wrong with the choices of a question's clash."""
    asked = questions(titles)
    if (result["set"], result["templates"], [tuple(question["templates"]) for question in result["questions"]]) != (name, titles, asked):
        return [f"it is the answer for {result['set']}, {result['templates']}, or has other questions"]
    wrong = []
    for (first, second), names, question in zip(asked, clashing, result["questions"]):
        lines = question_faults(question, names) or (derived(question) if names else [])
        wrong += [f"{first} {'twice' if first == second else 'with ' + second}: {line}" for line in lines]
    whole = "clash" if any(clashing) else "never"
    return wrong if wrong or result["verdict"] == whole else [f"the whole set: {result['verdict']}, expected {whole}"]


def asked(name, text, mode):
    """The command's answer in a mode, with its limits for the time being; no question is given up, since a tiny budget is spent often."""
    packing.MOST["strings"], asking.FEW_PIECES, asking.MOST_SPENT = mode.strings, mode.pieces, sys.maxsize
    return sets.checked(name, text.encode(), twice=True, without=mode.off, jobs=1, budget=mode.budget)


def differences(what, name, text, titles, clashing, modes, derived=lambda question: []):
    """How a set's answers in these modes differ from the names by which its questions clash, with the text; nothing if they do not."""
    wrong = {}
    for mode in modes:
        try:
            lines = answer_faults(name, titles, clashing, asked(name, text, mode), derived)
        except (Exception, SystemExit) as error:  # whatever it is, it is told with the set that brings it up
            lines = [f"{type(error).__name__}: {error}"]
        for line in lines:
            wrong.setdefault(line, []).append(mode.said)
    listed = [f"  {line} ({', '.join(found)})" for line, found in wrong.items()]
    return [what, *listed, *("      " + line for line in text.splitlines())] if wrong else []


def modes_of(number, brief):
    """How the set of this number is asked: with all rewritings, with none, without some alone, each for as many numbers as any other, and with less room. In
    brief with all rewritings, and in one other way, each in turn."""
    if brief:
        return [MODES[0], MODES[1 + number % (len(MODES) - 1)]]
    alone = -(-len(ALONE) // IN_TURN)
    return [*WHOLE, *(ALONE[(number * alone + i) % len(ALONE)] for i in range(alone)), NARROW[number % len(NARROW)]]


def compared(seed, number, brief):
    """What the questions of one random set are counted as, and its differences."""
    given, text = generated(seed, number)
    clashing, modes = brute(given), modes_of(number, brief)
    what = f"set {number}, again by `python3 tests/brute.py{' --brief' * brief} --seed {seed} --first {number} --sets 1`"
    tally = counted(given, clashing)
    tally.update({mode.said: len(clashing) for mode in modes})
    return tally, differences(what, f"{number}.set", text, list(given.templates), clashing, modes, lambda question: clash_faults(given, question))


def by_hand(what, text, clashing):
    titles = [line.split()[1] for line in text.splitlines() if line.startswith("template")]
    return differences(f"by hand, {what}", "by hand", text, titles, clashing, MODES)


def scarce(tally, count):
    """What came up too rarely: a verdict that no set brings up is not tested."""
    least = count // SCARCE
    wanted = [(kind, verdict) for kind in KINDS for verdict in ("clash", "never")] + [("same", "decides"), ("rule", "decides")]
    return [f"{kind}, {verdict}: {tally[kind, verdict]} questions, expected {least} at least" for kind, verdict in wanted if tally[kind, verdict] < least]


def main():
    parser = argparse.ArgumentParser()
    for option, number in (("--sets", 2000), ("--seed", 1), ("--first", 0)):
        parser.add_argument(option, type=int, default=number)
    parser.add_argument("--brief", action="store_true")
    options = parser.parse_args()
    differing, tally = [lines for case in BY_HAND if (lines := by_hand(*case))], Counter()
    # the workers are copies of this process, so that what it has imported need not be imported again
    with ProcessPoolExecutor(os.cpu_count(), multiprocessing.get_context("fork")) as workers:
        numbers = range(options.first, options.first + options.sets)
        for counts, lines in workers.map(compared, repeat(options.seed), numbers, repeat(options.brief), chunksize=8):
            tally += counts
            differing += [lines] if lines else []
    wrong = [f"{len(differing)} sets differ, {PRINTED} of them are printed"] * (len(differing) > PRINTED) + scarce(tally, options.sets)
    for lines in [*differing[:PRINTED], *([line] for line in wrong)]:
        print("brute: " + "\n".join(lines))
    said = [f"{len(BY_HAND)} sets by hand, {tally['sets']} of seed {options.seed}", f"{tally['questions']} questions", f"{tally['clash']} clashes"]
    said += [f"{tally['never']} nevers"] + [f"{tally[mode.said]} verdicts {mode.said}" for mode in MODES]
    print("brute: " + ", ".join(said) + (": some differ" if differing else ": too few of a kind" if wrong else ": all as by brute force"))
    return 1 if differing or wrong else 0


if __name__ == "__main__":
    sys.exit(main())
