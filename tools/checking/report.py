# The verdicts on a set, as a dict for JSON and in lines: a table of the questions, and for each clash its name with both derivations, part by part under it.
from checking import asking
from solving import STATUS
from wording import quoted

STATUSES = {"never": STATUS["none"], "clash": STATUS["found"], "unknown": STATUS["spent"]}


def result(path, given, these):
    """What `check --json` prints."""
    answers = [answer(given, question) for question in these]
    words = [entry["verdict"] for entry in answers]
    verdict = next((word for word in ("clash", "unknown") if word in words), "never")
    return {"set": str(path), "verdict": verdict, "templates": list(given.templates), "questions": answers}


def answer(given, question):
    counts = {"problems": question.problems, "nodes": question.nodes, "seconds": round(question.seconds, 3)}
    entry = {"templates": list(question.templates), "verdict": question.verdict or "unknown", **counts}
    if question.verdict == "clash":
        letters = lambda symbols: "".join(given.letters[symbol] for symbol in symbols)
        found = [[{"part": part, "text": letters(symbols)} for part, symbols in pieces] for pieces in asking.derivations(question)]
        entry |= {"name": "".join(piece["text"] for piece in found[0]), "derivations": found}
    elif question.verdict != "never":
        entry["open"] = question.open or "not all of its problems are answered yet"
    return entry


def title(entry):
    one, other = entry["templates"]
    return f"{one} twice" if one == other else f"{one}, {other}"


def counted(number, one, many):
    return f"{number} {one if number == 1 else many}"


def summary(found):
    """The verdicts in one line."""
    words = [entry["verdict"] for entry in found["questions"]]
    if found["verdict"] == "never":
        return f"never: in {counted(len(words), 'question', 'questions')} no name is made twice"
    clashes, unknown = words.count("clash"), words.count("unknown")
    said = ([counted(clashes, "clash", "clashes")] if clashes else []) + ([f"{unknown} unknown"] if unknown else [])
    return f"{found['verdict']}: {' and '.join(said)} in {counted(len(words), 'question', 'questions')}"


def table(entries):
    rows = [("templates", "verdict", "problems", "nodes", "seconds")]
    rows += [(title(entry), entry["verdict"], str(entry["problems"]), str(entry["nodes"]), f"{entry['seconds']:.3f}") for entry in entries]
    widths = [max(map(len, column)) for column in zip(*rows)]
    for row in rows:
        yield "  ".join(cell.ljust(width) if i < 2 else cell.rjust(width) for i, (cell, width) in enumerate(zip(row, widths)))


def cuts(entry):
    """Where the name is cut by a piece of one or the other derivation; and for each derivation its pieces, as (label, from cut, to cut)."""
    places, spans = {0}, []
    for pieces in entry["derivations"]:
        place, spans_here = 0, []
        for piece in pieces:
            label = piece["part"] if piece["part"] else quoted(piece["text"])
            spans_here.append((label, place, place + len(piece["text"])))
            place += len(piece["text"])
            places.add(place)
        spans.append(spans_here)
    return sorted(places), spans


def stretch(text):
    """A stretch of the name, in quotes where it could be taken for something else."""
    return quoted(text) if any(letter in ' "|\\' for letter in text) else text


def derivation(entry):
    """The name, and both derivations under it: a column for each stretch between two cuts, with a bar wherever a piece ends. An empty part is named behind."""
    places, spans = cuts(entry)
    ends = dict(zip(places, range(len(places))))
    name = [(stretch(entry["name"][a:b]), a, b) for a, b in zip(places, places[1:])]
    rows = [("name", name), *zip(entry["templates"], spans)]
    widths = [0] * (len(places) - 1)
    for _, cells in rows:
        for label, a, b in sorted(cells, key=lambda cell: ends[cell[2]] - ends[cell[1]]):
            if a < b:
                covered = range(ends[a], ends[b])
                short = len(label) - (sum(widths[i] for i in covered) + 3 * (len(covered) - 1))
                widths[covered[-1]] += max(0, short)
    head = max(len(label) for label, _ in rows)
    for label, cells in rows:
        shown = [text.ljust(sum(widths[i] for i in range(ends[a], ends[b])) + 3 * (ends[b] - ends[a] - 1)) for text, a, b in cells if a < b]
        empty = [text for text, a, b in cells if a == b]
        line = f"{label.ljust(head)}  {' | '.join(shown)}".rstrip()
        yield line + (f"   ({', '.join(empty)} empty)" if empty else "")


def lines(found):
    """All that `check` prints."""
    yield from table(found["questions"])
    for entry in found["questions"]:
        if entry["verdict"] == "clash":
            one, other = entry["templates"]
            yield ""
            yield f"{one} makes one name twice:" if one == other else f"{one} and {other} make one name:"
            yield from ("  " + line for line in derivation(entry))
        elif entry["verdict"] == "unknown":
            yield ""
            yield f"{title(entry)}: unknown: {entry['open']}"
    yield ""
    yield f"{found['set']}: {summary(found)}"
