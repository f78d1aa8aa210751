# The result of a check as one HTML page, for `check --html FILE`: the matrix of the templates, each clash's name with both derivations under it, what keeps a
# question open, and every question with its cost. The page stands alone: no scripts, nothing fetched, and the same result gives the same page.
from html import escape
from itertools import accumulate, groupby

from wording import quoted

# The columns that a sheet of paper has room for with the words of the verdicts lying. In a larger matrix they stand, so that it is seen whole.
MOST_LYING = 12

# A wide table scrolls in its own box on a screen. Paper does not scroll: there the names of the parts break anywhere, so that the table stays within the sheet.
# Most browsers leave colours out in print, and not everyone sees them: the words say it all, a clash in bold and an unknown in italics.
STYLE = """
:root { color-scheme: light }
body { max-width: 75rem; margin: 0 auto; padding: 1rem; background: #fff; color: #1b1b1b; font: 1rem/1.4 system-ui, sans-serif }
h1, h2, h3 { margin: 1.8em 0 .5em; line-height: 1.2; overflow-wrap: anywhere }
h1 { margin-top: 0; font-size: 1.6rem }
h2 { font-size: 1.3rem; border-bottom: 1px solid #999 }
h3 { font-size: 1.05rem }
p, dl { margin: .5em 0; overflow-wrap: anywhere }
dt { float: left; clear: left; min-width: 5em; margin: 0 .6em .3em 0; border: 1px solid #777; text-align: center }
dd { margin: 0 0 .3em 6em; padding: 1px 0 }
a { color: inherit }
code { font-family: ui-monospace, "DejaVu Sans Mono", Menlo, Consolas, monospace; white-space: break-spaces; overflow-wrap: anywhere }
code b { display: inline-block; box-sizing: border-box; width: 1ch; height: .35em; line-height: .35em; white-space: pre }
code b { border: solid #777; border-width: 0 1px 1px }
.clash { background: #f4a582; font-weight: 700 }
.never { background: #e4eff7 }
.unknown { background: #fde58b; font-style: italic }
.box { max-width: 100%; overflow-x: auto }
table { border-spacing: 0 }
th, td { padding: .2em .45em; border: solid #999; border-width: 0 1px 1px 0; text-align: left; white-space: nowrap }
tr > :first-child { border-left-width: 1px }
thead tr > * { border-top-width: 1px }
th, thead td { background: #f3f3f3; font-weight: 600 }
thead td:first-child, th[scope=row] { position: sticky; left: 0; z-index: 1 }
th[scope=row] { min-width: 4em; max-width: 15em; white-space: normal; overflow-wrap: anywhere }
.matrix { width: max-content; font-size: .85rem }
.matrix td { text-align: center }
.matrix thead th { padding: .45em .2em; text-align: center; vertical-align: bottom }
.matrix thead span { display: inline-block; max-height: 15em; text-align: left; white-space: normal; overflow-wrap: anywhere }
.matrix thead span { writing-mode: vertical-rl; text-orientation: sideways; transform: rotate(180deg) }
.standing td { padding: .3em .1em }
.standing td a, .standing td span { display: inline-block; writing-mode: vertical-rl }
.cut { width: max-content; border-spacing: 2px }
.cut tr > * { border: 1px solid #888; vertical-align: top }
.cut th, .cut .gap, .cut thead td { border-style: none }
.cut thead td { font-weight: inherit }
.cut .fixed { border-style: dashed }
.cut code { white-space: pre }
.cut span { display: block; font-size: .8rem; color: #444 }
.questions { font-size: .85rem }
.questions td:first-child { min-width: 7em; white-space: normal; overflow-wrap: anywhere }
.questions tr > :nth-child(n+3) { text-align: right; font-variant-numeric: tabular-nums }
@media (max-width: 40rem) {
  body { padding: .6rem }
  th, td { padding: .2em .3em }
  th[scope=row] { max-width: 8em }
}
@media print {
  @page { margin: 12mm }
  body { max-width: none; padding: 0; font-size: 9pt }
  h1 { font-size: 14pt }
  h2 { font-size: 12pt }
  h3 { font-size: 10pt }
  h2, h3 { break-after: avoid }
  section, tr { break-inside: avoid }
  a { text-decoration: none }
  .box { overflow: visible }
  thead td:first-child, th[scope=row] { position: static; max-width: 15em }
  .matrix { width: auto; font-size: 7pt; line-height: 1.15 }
  .matrix td, .matrix th { padding: 2px }
  .standing td, .standing thead th { padding: 2px 1px }
  .cut { width: auto; border-collapse: collapse; font-size: 8pt }
  .cut tr > * { padding: 1px; white-space: normal; overflow-wrap: anywhere }
  .cut th[scope=row] { min-width: 6.5em }
  .cut thead td { border-style: solid }
  .cut i { white-space: nowrap }
  .cut span { font-size: 7pt }
  .cut span code { white-space: break-spaces }
  .questions { font-size: 8pt }
}
"""


def shown(text):
    """A text letter by letter, in a page's marks: a space has a line under it, so that it shows at the end of a text and several can be counted."""
    return f"<code>{escape(text).replace(' ', '<b> </b>')}</code>" if text else "<i>empty</i>"


def having(questions, verdict):
    """The questions of one verdict, each with its number in the order they were asked, which names its section in the page."""
    return [(number, question) for number, question in enumerate(questions, 1) if question["verdict"] == verdict]


def itself(question):
    """Whether it was asked of one template with itself."""
    return question["templates"][0] == question["templates"][1]


def verdict_words(questions):
    """What came out, for the heading."""
    clashes, unknowns = (len(having(questions, verdict)) for verdict in ("clash", "unknown"))
    share = "the only question" if len(questions) == 1 else f"{clashes or unknowns} of {len(questions)} questions"
    open_words = "is unknown" if unknowns == 1 else "are unknown"
    if clashes:
        return f"{share} {'clashes' if clashes == 1 else 'clash'}" + (f", {unknowns} {open_words}" if unknowns else "")
    if unknowns:
        return f"{share} {open_words}" + (", the others never clash" if unknowns < len(questions) else "")
    pairs = ["no two templates ever make one name"] if not all(map(itself, questions)) else []
    selves = ["no template ever makes one name twice"] if any(map(itself, questions)) else []
    return ", and ".join(pairs + selves) or "no question was asked"


def asked_of(question):
    """The templates of a question, in words."""
    first, second = map(escape, question["templates"])
    return f"{first} with itself" if itself(question) else f"{first} and {second}"


def linked(number, question):
    """The verdict on a question; a clash and an unknown have a section to go to."""
    verdict = question["verdict"]
    return f"<span>{verdict}</span>" if verdict == "never" else f'<a href="#question-{number}">{verdict}</a>'


def boxed(label, table):
    """A table in a box that it scrolls in; the keyboard reaches the box, and a screen reader names it."""
    return [f'<div class="box" role="region" tabindex="0" aria-label="{label}">', *table, "</div>"]


def legend(questions):
    diagonal = "On the diagonal each template is asked with itself, about two different choices for it."
    dash = "A dash (–) is a question that was not asked: a template with itself."
    return [
        "<dl>",
        '<dt class="clash">clash</dt><dd>a choice for one template and a choice for the other have the same name</dd>',
        '<dt class="never">never</dt><dd>no choices for the two have the same name</dd>',
        '<dt class="unknown">unknown</dt><dd>not answered within the limits</dd>',
        "</dl>",
        "<p>Parts that the set lists under <code>same</code> have the same text on both sides. A part that is <i>empty</i> has a text of no letters.",
        f"{diagonal if any(map(itself, questions)) else dash}</p>",
    ]


def matrix(templates, questions):
    """Every pair stands in it twice, so that all about a template is in its row."""
    cells = {}
    for number, question in enumerate(questions, 1):
        first, second = question["templates"]
        cell = f'<td class="{question["verdict"]}" title="{asked_of(question)}">{linked(number, question)}</td>'
        cells[first, second] = cells[second, first] = cell
    heads = "".join(f'<th scope="col"><span>{escape(name)}</span></th>' for name in templates)
    kind = "matrix" if len(templates) <= MOST_LYING else "matrix standing"
    table = [f'<table class="{kind}">', f"<thead><tr><td></td>{heads}</tr></thead>", "<tbody>"]
    for name in templates:
        row = "".join(cells.get((name, other), "<td>–</td>") for other in templates)
        table.append(f'<tr><th scope="row">{escape(name)}</th>{row}</tr>')
    return ["<h2>Templates</h2>", *boxed("Templates", table + ["</tbody>", "</table>"])]


def places(derivation):
    """Where each piece of a derivation begins and ends in the name."""
    ends = list(accumulate(len(piece["text"]) for piece in derivation))
    return list(zip([0, *ends], ends))


def cut(both):
    """The columns under a name that is cut wherever a piece of either derivation ends: where each begins and ends, and which one it is of the columns without
    a letter at its place. There are as many of those as the derivation with more empty pieces there has."""
    marks = sorted({mark for spans in both for span in spans for mark in span})
    columns = []
    for begin, end in zip(marks, [*marks[1:], None]):
        columns += [(begin, begin, i) for i in range(max(spans.count((begin, begin)) for spans in both))]
        if end is not None:
            columns.append((begin, end, 0))
    return columns


def covering(spans, column):
    """The index of the piece that a column belongs to, or None for a column without a letter between two pieces, which only the other derivation needs."""
    begin, end, which = column
    for i, (first, last) in enumerate(spans):
        if first <= begin < end <= last or first < begin == end < last:
            return i
    empty = [i for i, span in enumerate(spans) if span == (begin, end)]
    return empty[which] if which < len(empty) else None


def derivation_cells(derivation, columns):
    """A cell for each piece, as wide as the columns that it covers: its text, and under it the piece as the template has it."""
    spans, cells = places(derivation), []
    for i, covered in groupby(columns, lambda column: covering(spans, column)):
        width = f'colspan="{len(list(covered))}"'
        if i is None:
            cells.append(f'<td class="gap" {width}></td>')
            continue
        part, text = derivation[i]["part"], derivation[i]["text"]
        kind, piece = ("fixed", shown(quoted(text))) if part is None else ("part", escape(part))
        cells.append(f'<td class="{kind}" {width}>{shown(text)}<span>{piece}</span></td>')
    return "".join(cells)


def clash_section(number, question):
    name, derivations = question["name"], question["derivations"]
    columns = cut([places(derivation) for derivation in derivations])
    made = f"the name {shown(name)} ({len(name)} {'letter' if len(name) == 1 else 'letters'})" if name else "the empty name"
    letters = "".join(f"<td>{shown(name[begin:end]) if begin < end else ''}</td>" for begin, end, _ in columns)
    table = ['<table class="cut">', f'<thead><tr><th scope="row">name</th>{letters}</tr></thead>', "<tbody>"]
    for template, choice, derivation in zip(question["templates"], ("first choice", "second choice"), derivations):
        head = f"{escape(template)}<span>{choice}</span>" if itself(question) else escape(template)
        table.append(f'<tr><th scope="row">{head}</th>{derivation_cells(derivation, columns)}</tr>')
    return [
        f'<section id="question-{number}">',
        f"<h3>{asked_of(question)}</h3>",
        f"<p>{'Two choices' if itself(question) else 'Both'} make {made}:</p>",
        *boxed(f"Derivations: {asked_of(question)}", table + ["</tbody>", "</table>"]),
        "</section>",
    ]


def unknown_section(number, question):
    return [f'<section id="question-{number}">', f"<h3>{asked_of(question)}</h3>", f"<p>What keeps it open: {escape(question['open'])}</p>", "</section>"]


def sections(title, found, section):
    """A heading and a section for each question found, or nothing at all."""
    lines = [line for number, question in found for line in section(number, question)]
    return [f"<h2>{title}</h2>", *lines] if found else []


def question_table(questions):
    heads = "".join(f'<th scope="col">{head}</th>' for head in ("templates", "verdict", "problems", "nodes", "seconds"))
    table = ['<table class="questions">', f"<thead><tr>{heads}</tr></thead>", "<tbody>"]
    for number, question in enumerate(questions, 1):
        cost = (question["problems"], question["nodes"], f"{question['seconds']:.3f}")
        numbers = "".join(f"<td>{figure}</td>" for figure in cost)
        table.append(f'<tr><td>{asked_of(question)}</td><td class="{question["verdict"]}">{linked(number, question)}</td>{numbers}</tr>')
    return ["<h2>Questions</h2>", *boxed("Questions", table + ["</tbody>", "</table>"])]


def page(result):
    """The HTML document for the result of a check, a dict as the JSON result has it."""
    questions, words = result["questions"], verdict_words(result["questions"])
    lines = [
        "<!DOCTYPE html>",
        '<html lang="en">',
        "<head>",
        '<meta charset="utf-8">',
        '<meta name="viewport" content="width=device-width, initial-scale=1">',
        f"<title>{escape(result['set'])}: {words}</title>",
        f"<style>{STYLE}</style>",
        "</head>",
        "<body>",
        f"<h1>{shown(result['set'])}: {words}</h1>",
        *legend(questions),
        *matrix(result["templates"], questions),
        *sections("Clashes", having(questions, "clash"), clash_section),
        *sections("Unknown", having(questions, "unknown"), unknown_section),
        *question_table(questions),
        "</body>",
        "</html>",
    ]
    return "".join(line + "\n" for line in lines)
