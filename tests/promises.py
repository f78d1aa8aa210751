# Reads docs/PROMISES.md: the demands, the declarations that it names, and the must-fail edits with the fact that each breaks.
import re
from pathlib import Path

ROOT = Path(__file__).resolve().parent.parent
PROMISES = ROOT / "docs" / "PROMISES.md"


def demands():
    """The sentences of the three demands."""
    return [line[2:] for line in PROMISES.read_text().splitlines() if line.startswith("> ")]


def declarations():
    """Every `crates/..antt#name` that the document names, as (file, name)."""
    return [(ROOT / path, name) for path, name in re.findall(r"`(crates/[^`#]+\.antt)#([^`]+)`", PROMISES.read_text())]


def edits():
    """Every row of the table of must-fail edits, as (crate, label, names of the facts that break)."""
    rows = []
    for line in PROMISES.read_text().splitlines():
        found = re.search(r"`crates/([^/`]+)/must-fail/([^`]+)\.edit`", line)
        if found and line.startswith("|"):
            last = line.rstrip().rstrip("|").split("|")[-1]
            rows.append((found.group(1), found.group(2), re.findall(r"`([^`]+)`", last)))
    return rows
