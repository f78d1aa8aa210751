# A problem in the text form of docs/TEXT.md, and the program's answer in words.
# What `text` writes, textform.py reads back to the same problem, names included.
import re
from collections import Counter
from string import ascii_lowercase, ascii_uppercase, digits

from packing import EVERY, GAP, KINDS, LIMIT, REFUSALS, Problem


def quoted(text):
    return '"' + text.replace("\\", "\\\\").replace('"', '\\"') + '"'


def follows(before, letter):
    """Whether a range goes on from one letter to the other."""
    return any(before + letter in kind for kind in (ascii_lowercase, ascii_uppercase, digits))


def runs(items, joined):
    """The items in order, in lists of neighbours that are joined."""
    lists = []
    for item in items:
        if lists and joined(lists[-1][-1], item):
            lists[-1].append(item)
        else:
            lists.append([item])
    return lists


def spans(items, joined, shown):
    """The items as shown, three and more neighbours as a range."""
    for run in runs(items, joined):
        yield from [f"{shown(run[0])}..{shown(run[-1])}"] if len(run) > 2 else map(shown, run)


def letters_shown(letters):
    """Some letters, in this order."""
    return " ".join(spans(letters, follows, lambda letter: quoted(letter) if letter in ' #,"' else letter))


def bits(word):
    return [i for i in range(LIMIT) if word >> i & 1]


def letter_set(word, letters):
    if word == 0:
        return "none"
    return "any" if word == (1 << len(letters)) - 1 else letters_shown(letters[i] for i in bits(word))


def number_set(word):
    return ", ".join(spans(bits(word), lambda before, n: n == before + 1, str)) or "none"


def fixed_text(row, letters):
    """The one text that a tidy row stands for, or None."""
    length = row[0].bit_length() - 1
    if any(len(bits(word)) != 1 for word in row[: length + 1]) or row[0] == 0 or any(row[length + 1 :]):
        return None
    return "".join(letters[bits(word)[0]] for word in row[1 : length + 1])


def string_lines(name, row, letters):
    """The letters that most places have stand in the first line; the other places have lines of their own."""
    text = fixed_text(row, letters)
    if text is not None:
        return [f"string {name} = {quoted(text)}"]
    longest = max(row[0].bit_length() - 1, 0)
    counted = Counter(row[1 : longest + 1])
    common = max(counted, key=lambda word: (counted[word], word)) if longest else None
    of = "" if common in (None, (1 << len(letters)) - 1) else f" of {letter_set(common, letters)}"
    others = {}
    for place in range(1, LIMIT):
        if row[place] != (common if place <= longest else 0):
            others[row[place]] = others.get(row[place], 0) | 1 << place
    length = "" if row[0] == EVERY else f" length {number_set(row[0])}"
    return [f"string {name}{length}{of}"] + [f"  at {number_set(places)} {letter_set(word, letters)}" for word, places in others.items()]


def dead_end(automaton, state):
    return not automaton.accepting >> state & 1 and {state, GAP}.issuperset(automaton.moves[state])


def state_line(automaton, state, letters):
    """The moves of a state by where they lead; those into a dead end, or else those of the most letters, come last, as `other`. Beside a gap there is no `other`:
    it would be a move for the letters of the gap too."""
    word = "accepting" if automaton.accepting >> state & 1 else "state"
    moves = automaton.moves[state]
    targets = sorted(set(moves) - {GAP}, key=moves.index)
    if GAP not in moves:
        last = max(targets, key=lambda target: (dead_end(automaton, target), moves.count(target), -target))
        targets.sort(key=lambda target: target == last)
    parts = [letter_set(sum(1 << symbol for symbol, to in enumerate(moves) if to == target), letters) for target in targets]
    if GAP not in moves and len(parts) > 1:
        parts[-1] = "other"
    said = ", ".join(f"{part} to {automaton.states[target]}" for part, target in zip(parts, targets))
    return f"  {word} {automaton.states[state]} {said}".rstrip()


def text(problem):
    lines = ["alphabet " + letters_shown(problem.letters)]
    for name, row in problem.strings.items():
        lines += string_lines(name, row, problem.letters)
    lines += [f"number {name}" + ("" if word == EVERY else f" in {number_set(word)}") for name, word in problem.numbers.items()]
    for name, automaton in problem.automata.items():
        lines += [f"automaton {name}"] + [state_line(automaton, state, problem.letters) for state in range(len(automaton.states))]
    for constraint in problem.constraints:
        lines.append(" ".join([KINDS[constraint[0] - 1][0], *problem.names(constraint)]))
    return "".join(line + "\n" for line in lines)


class Unfit(Exception):
    """A text and a file, or an answer, that are not of one problem."""


def renamed(problem, names):
    """The problem with the letters and names of another one, which has as many of each."""
    sizes = [
        [("letters", len(p.letters)), ("strings", len(p.strings)), ("numbers", len(p.numbers)), ("automata", len(p.automata))]
        + [(f"states in automaton {name}", len(a.states)) for name, a in zip(names.automata, p.automata.values())]
        for p in (names, problem)
    ]
    for (what, expected), (_, count) in zip(*sizes):
        if count != expected:
            raise Unfit(f"the file has {count} {what}, the text {expected}: expected the text that it was packed from")
    for automaton, named in zip(problem.automata.values(), names.automata.values()):
        automaton.states = named.states
    strings, numbers, automata = (dict(zip(names.named(noun), problem.named(noun).values())) for noun in ("string", "number", "automaton"))
    return Problem(names.letters, strings, numbers, automata, problem.constraints)


MEANING = {
    "found": "found: these values meet every constraint, and are the first that do; nodes visited: {}",
    "none": "none: no values meet every constraint; nodes of the whole search tree: {}",
    "spent": "spent: the budget ran out before the answer was known; nodes visited: {}",
}


def ended_lines(content):
    """The lines of an output, without their newlines. Raises Unfit where the last one has none: a program that was stopped leaves such an output."""
    if not content:
        raise Unfit("it is empty: the program has not answered")
    *lines, rest = content.split("\n")
    if rest:
        raise Unfit(f"line {len(lines) + 1} does not end in a newline: the output is cut")
    return lines


def outcome(content):
    """The word that an answer begins with, and its number. Raises Unfit."""
    match = re.fullmatch(r"(found|none|spent|refused) ([0-9]{1,10})", ended_lines(content)[0])
    if not match:
        raise Unfit("line 1: expected found, none, spent or refused and a number, as the program prints")
    word, count = match[1], int(match[2])
    if word == "refused" and count not in REFUSALS:
        raise Unfit(f"line 1: {count} is no refusal of a file: expected 1 to {max(REFUSALS)}")
    return word, count


def answer(problem, content):
    """The lines that the program prints, in words. Raises Unfit."""
    (word, count), lines = outcome(content), ended_lines(content)
    heads = [f"s{i} " for i in range(len(problem.strings))] + [f"n{i} " for i in range(len(problem.numbers))] if word == "found" else []
    if len(lines) != 1 + len(heads):
        raise Unfit(f"it has {len(lines)} lines: expected {1 + len(heads)} for '{word}' and this text")
    said = [f"refused {count}: {REFUSALS[count]}" if word == "refused" else MEANING[word].format(count)]
    for i, (name, head) in enumerate(zip([*problem.strings, *problem.numbers], heads), 1):
        said.append(f"  {name} = {value_shown(problem, lines[i], head, i + 1)}")
    return "".join(line + "\n" for line in said)


def value_shown(problem, line, head, number):
    """A string's or a number's line without its head, in words."""
    match = re.fullmatch(r"[0-9]{1,2}( [0-9]{1,2})*", line[len(head) :]) if line.startswith(head) else None
    values = [int(field) for field in match[0].split()] if match else []
    if head[0] == "n" and len(values) == 1 and values[0] < LIMIT:
        return str(values[0])
    if head[0] == "s" and values and values[0] == len(values) - 1 < LIMIT and all(symbol < len(problem.letters) for symbol in values[1:]):
        return quoted("".join(problem.letters[symbol] for symbol in values[1:]))
    expected = "a value" if head[0] == "n" else f"a length and as many symbols below {len(problem.letters)}"
    raise Unfit(f"line {number}: expected '{head.strip()}' and {expected}, found '{line}'")
