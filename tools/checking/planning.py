# The problems of a set as files in a folder, for machines of their own: NAME.problem for each, NAME.answer for what the program printed, and `jobs`, the names that
# still have no answer, one a line. A name is a digest of the problem, so an answer belongs to its problem whatever became of the set meanwhile.
import hashlib
from pathlib import Path

import solving

JOBS = "jobs"


def answer_in(folder, name, budget):
    """What the program printed for a problem, or None where there is no whole answer yet."""
    try:
        printed = (folder / f"{name}.answer").read_bytes().decode("ascii", "replace")
    except FileNotFoundError:
        return None
    if not printed.endswith("\n"):
        return None  # the job is running, or was stopped
    solving.looked_at(printed, folder / f"{name}.answer", budget)
    return printed


def planned(these, folder, budget):
    """Takes the answers that are in a folder, and writes a problem for each that is missing. Gives the number of those."""
    folder = Path(folder)
    folder.mkdir(parents=True, exist_ok=True)
    missing = {}
    for question in these:
        while case := question.unasked():
            case.asked = True
            name = hashlib.sha256(case.content).hexdigest()[:20]
            case.output = answer_in(folder, name, budget)
            if case.output is None:
                missing[name] = case.content
            question.settle()
    for name, content in missing.items():
        (folder / f"{name}.problem").write_bytes(content)
    (folder / JOBS).write_text("".join(f"{name}\n" for name in missing))
    return len(missing)
