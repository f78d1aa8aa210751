# Every quotation in a comment of the crates stands word for word in a paragraph of a paper, or in one of the demands of docs/PROMISES.md. Where words are
# left out of a quotation, "…" shows it. The papers lie beside the project; where they do not, the quotations can't be held against them.
import re
from dependencies import PARTS
from promises import ROOT, demands

PAPERS = [ROOT.parent / "shared" / name for name in ("01-scope.md", "02-change-requests.md")]
MARKS = {".antt": "--", ".rt": "//"}


def plain(text):
    """The words alone: the papers' emphasis and code marks, and the two forms of the minus, are no difference."""
    return re.sub(r"\s+", " ", re.sub(r"[*`]", "", text).replace("−", "-"))


def comments(path):
    """Each run of comment lines as one text, with the number of its first line."""
    runs, mark = [], MARKS[path.suffix]
    last = -1
    for number, line in enumerate(path.read_text().splitlines(), 1):
        if line.strip().startswith(mark):
            words = line.strip()[len(mark) :]
            if number == last + 1:
                runs[-1][1] += words
            else:
                runs.append([number, words])
            last = number
    return runs


def quotations():
    """(file, line, quotation) for each of the crates' comments."""
    paths = sorted(path for part in PARTS for path in ROOT.glob(f"crates/*/{part}/**/*") if path.suffix in MARKS)
    return [(path, line, quoted) for path in paths for line, text in comments(path) for quoted in re.findall(r'"([^"]+)"', text)]


def stands(quoted, paragraphs):
    """Its pieces stand in one paragraph, one after the other."""
    pattern = re.compile(".*?".join(re.escape(piece.strip()) for piece in plain(quoted).split("…")))
    return any(pattern.search(paragraph) for paragraph in paragraphs)


def check():
    """What is wrong, and what to say where nothing is."""
    quoted, missing = quotations(), [path.name for path in PAPERS if not path.is_file()]
    if missing:
        return [], f"{len(quoted)} quotations could not be held against the papers: ../shared has no {' and no '.join(missing)}"
    paragraphs = [plain(line) for path in PAPERS for line in path.read_text().splitlines()] + [plain(demand) for demand in demands()]
    wrong = [f'{path.relative_to(ROOT)}:{line}: "{words}" stands in no paper' for path, line, words in quoted if not stands(words, paragraphs)]
    return wrong, f"{len(quoted)} quotations stand in the papers or in the demands"
