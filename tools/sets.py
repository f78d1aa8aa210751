# Template sets: docs/TEXT.md has their text form, docs/GUIDE.md says what to do with a verdict.
#     python3 tools/sets.py check SET                whether two templates of the set can ever make one name; with --twice also one of them a name twice
#     python3 tools/sets.py check SET --plan DIR     writes the problems as files, for other machines; --collect DIR reads their answers
# The exit status is 0 only if every question is never, or with --plan if the files are written: 1 if one is a clash, else 2 if one is unknown. It is 3 for a
# broken text, and 4 if something could not be read, run or written, or if there is no question. Errors and warnings go to standard error.
import argparse
import json
import os
import sys
from pathlib import Path
from time import monotonic

import solving
from checking import asking, page, planning, report, setform
from checking.equation import REWRITINGS
from command import Parser, budget, complain, run, said, written
from solving import Failed

WIDTH, PATIENCE = 40, 1.0  # of the progress bar, in letters; seconds before it is shown


class Progress:
    """A bar on a terminal, if it takes long; nothing elsewhere."""

    def __init__(self, count):
        self.count, self.start, self.shown = count, monotonic(), False
        self.terminal = os.isatty(2)

    def __call__(self, done):
        if self.terminal and monotonic() - self.start > PATIENCE:
            bar = "#" * (WIDTH * done // self.count)
            self.draw(f"\r[{bar.ljust(WIDTH, '.')}] {done} of {self.count} questions")

    def draw(self, text):
        self.shown = True
        try:
            written(text.encode(), 2)
        except OSError:
            self.terminal = False  # nobody looks

    def end(self):
        if self.shown:
            self.draw("\r\033[K")


def checked(path, content, twice=False, without=(), jobs=1, budget=None):
    """The verdicts on a set, as `check --json` prints them. Raises Wrong and Failed."""
    given = setform.read(path, content)
    these = asking.questions(given, twice, frozenset(REWRITINGS).difference(without))
    asking.ask_all(these, solving.solver(None, budget), jobs)
    return report.result(path, given, these)


def nameless(options, given, on, found):
    """The templates that never clash because they have no name at all."""
    never = {name for entry in found["questions"] if entry["verdict"] == "never" for name in entry["templates"]}
    asked = [question for question in asking.existence(given, on) if question.templates[0] in never]
    brief = solving.solver(options.program, options.budget and min(options.budget, solving.BUDGET))
    asking.ask_all(asked, brief, options.jobs)
    return [question.templates[0] for question in asked if question.verdict == "never"]


def warn(options, given, names):
    """What lets a never say nothing: what is declared and not used, and templates that have no name."""
    doubts = [(given.lines[name], f"template '{name}' has no name at all, so that it never clashes says nothing") for name in names]
    for line, message in sorted(given.warnings + doubts):
        complain(f"{options.set}:{line}: warning: {message}")


def plan(options, these):
    """Problems for other machines, and their answers: whether some are still missing."""
    folder = options.plan or options.collect
    if options.plan and (options.json or options.html):
        raise Failed("--plan gives no verdict: expected neither --json nor --html")
    if options.collect and not Path(folder).is_dir():
        raise Failed(f"{folder} is no folder: expected the one that --plan has filled")
    waiting = planning.planned(these, folder, solving.BUDGET if options.budget is None else options.budget)
    if options.plan or waiting:
        complain(f"{folder}: {report.counted(waiting, 'problem waits', 'problems wait')} for an answer; {planning.JOBS} lists them")


def ask(options, these):
    progress = Progress(len(these))
    try:
        asking.ask_all(these, solving.solver(options.program, options.budget), options.jobs, progress)
    finally:
        progress.end()


def shown(options, found):
    """Writes the page and prints the verdicts."""
    if options.html:
        try:
            Path(options.html).write_text(page.page(found), encoding="utf-8", errors="backslashreplace")
        except OSError as error:
            raise Failed(f"{options.html}: {error.strerror}") from None
    text = json.dumps(found, indent=2, ensure_ascii=False) if options.json else "\n".join(report.lines(found))
    said(f"{text}\n".encode(errors="replace"))


def check(options):
    given = setform.read(options.set, Path(options.set).read_bytes())
    on = frozenset(REWRITINGS).difference(options.without)
    these = asking.questions(given, options.twice, on)
    if not these:
        raise Failed(f"{options.set}: one template alone has no question: expected two templates or more, or --twice")
    if options.plan or options.collect:
        plan(options, these)
    else:
        ask(options, these)
    if options.plan:
        return 0
    found = report.result(options.set, given, these)
    # All is asked before a verdict is said: nothing that fails comes behind it.
    names = [] if options.collect else nameless(options, given, on, found)
    shown(options, found)
    warn(options, given, names)
    return report.STATUSES[found["verdict"]]


def jobs(word):
    if not word.isdecimal() or not 1 <= int(word) <= 512:
        raise argparse.ArgumentTypeError(f"'{word}' is no number of jobs: expected 1 to 512")
    return int(word)


def arguments():
    parser = Parser(description="Template sets: docs/TEXT.md has their text form.")
    commands = parser.add_subparsers(required=True, metavar="COMMAND")
    command = commands.add_parser("check", help="whether two templates of a set can ever make one name")
    command.add_argument("set", metavar="SET")
    command.add_argument("--twice", action="store_true", help="ask of each template too whether it can make one name twice, from different parts")
    command.add_argument("--json", action="store_true", help="print the verdicts as JSON")
    command.add_argument("--html", metavar="FILE", help="write the verdicts as a page, too")
    command.add_argument("--jobs", metavar="N", type=jobs, default=os.cpu_count() or 1, help="problems that run side by side; as many as there are processors")
    command.add_argument("--budget", metavar="N", type=budget, help=f"the nodes that each search may visit, {solving.BUDGET} where it is not given")
    command.add_argument("--program", metavar="FILE", help="another program to ask; with a budget it is called with the words - and N")
    command.add_argument("--without", metavar="NAME", action="append", default=[], choices=REWRITINGS, help=f"leave a rewriting out: {', '.join(REWRITINGS)}")
    places = command.add_mutually_exclusive_group()
    places.add_argument("--plan", metavar="DIR", help="write the problems and a list of them into a folder, and ask nothing")
    places.add_argument("--collect", metavar="DIR", help="take the answers from that folder")
    command.set_defaults(run=check)
    return parser.parse_args()


if __name__ == "__main__":
    sys.exit(run(arguments()))
