# Problems as texts: docs/TEXT.md has the text form.
#     python3 tools/problem.py solve TEXT [--budget N]      solves a text and says the answer in words
#     python3 tools/problem.py pack TEXT [-o FILE]          packs a text into a problem file, to standard output where no FILE is given
#     python3 tools/problem.py show [--names TEXT] FILE     shows a problem file as a text, with the names and letters of the TEXT it was packed from
#     python3 tools/problem.py answer TEXT                  reads the program's answer from standard input and shows it in words
# The exit status of `solve` and `answer` is 0 for none alone: 1 found, 2 spent, 3 refused. For every command it is 3 for a broken text or a refused file, and 4
# if something could not be read, run or written; `pack` and `show` end with 0 else. Errors and warnings go to standard error.
import sys
from pathlib import Path

import doubts
import packing
import solving
import templates
import textform
import wording
from command import BROKEN, Parser, budget, complain, run, said
from solving import STATUS, Failed


def text_of(path):
    return textform.read_text(path, Path(path).read_bytes())


def warn(options, text):
    for line, message in doubts.doubts(text):
        complain(f"{options.text}:{line}: warning: {message}")


def pack(options):
    text = text_of(options.text)
    warn(options, text)
    content = packing.pack(text.problem)
    if options.output:
        Path(options.output).write_bytes(content)
    else:
        said(content)
    return 0


def show(options):
    names = text_of(options.names).problem if options.names else None
    try:
        problem = packing.unpack(Path(options.file).read_bytes())
        said(wording.text(wording.renamed(problem, names) if names else problem).encode())
    except packing.Refused as refused:
        complain(f"{options.file}: {refused}")
        return BROKEN
    except wording.Unfit as unfit:
        raise Failed(f"{options.file}: {unfit}") from None
    return 0


def answered(problem, output):
    """Says an answer in words, and gives its exit status. Raises Failed for what is no answer to this problem."""
    try:
        said(wording.answer(problem, output).encode())
    except wording.Unfit as unfit:
        raise Failed(f"the answer: {unfit}") from None
    return STATUS[wording.outcome(output)[0]]


def answer(options):
    problem = text_of(options.text).problem
    try:
        with open(0, "rb", closefd=False) as given:
            output = given.read()
    except OSError as error:
        raise Failed(f"standard input: {error.strerror}") from None
    return answered(problem, output.decode("ascii", "replace"))


def solve(options):
    text = text_of(options.text)
    warn(options, text)
    solver = solving.solver(options.program, options.budget)
    status = answered(text.problem, solving.output(solver, packing.pack(text.problem)))
    if status == STATUS["none"]:
        brief = solving.solver(options.program, options.budget and min(options.budget, solving.BUDGET))
        for line, remark in templates.remarks(text, lambda problem: solving.outcome(brief, problem) == "none"):
            complain(f"{options.text}:{line}: {remark}")
    return status


def arguments():
    parser = Parser(description="Problems as texts: docs/TEXT.md has the text form.")
    commands = parser.add_subparsers(required=True, metavar="COMMAND")
    command = commands.add_parser("solve", help="solve a text and say the answer in words")
    command.add_argument("text", metavar="TEXT")
    command.add_argument("--budget", metavar="N", type=budget, help=f"the nodes that the search may visit, {solving.BUDGET} where it is not given")
    command.add_argument("--program", metavar="FILE", help="another program to ask; with a budget it is called with the words - and N")
    command.set_defaults(run=solve)
    command = commands.add_parser("pack", help="pack a text into a problem file")
    command.add_argument("text", metavar="TEXT")
    command.add_argument("-o", dest="output", metavar="FILE", help="the file to write; standard output where it is not given")
    command.set_defaults(run=pack)
    command = commands.add_parser("show", help="show a problem file as a text")
    command.add_argument("--names", metavar="TEXT", help="the text that the file was packed from, for its names and letters")
    command.add_argument("file", metavar="FILE")
    command.set_defaults(run=show)
    command = commands.add_parser("answer", help="show in words what the program has printed, from standard input")
    command.add_argument("text", metavar="TEXT", help="the text of the problem that the program was given")
    command.set_defaults(run=answer)
    return parser.parse_args()


if __name__ == "__main__":
    sys.exit(run(arguments()))
