# Asks the program: a problem in, the lines that it prints out. The program has no exit status of its own, so only a whole output is an answer; an output
# that is empty, cut, or of another budget is Failed, and so is a program that is not there or does not end well.
import os
import subprocess
import tempfile
from pathlib import Path
from typing import NamedTuple

import packing
import wording

ROOT = Path(__file__).resolve().parent.parent
TARGET = ROOT / "target"
PROGRAM = TARGET / "bin" / "clash"
BUDGET = 65536  # nodes, of the program
MOST_BUDGET = 2**32 - 1
# The program over the archive takes a budget.
ANSWER = TARGET / "answer"
ARCHIVE = TARGET / "staticlib" / "libcobleskeg_c.a"
SOURCE = ROOT / "bindings" / "c" / "answer.c"
HEADER = ROOT / "include" / "cobleskeg.h"
STATUS = {"none": 0, "found": 1, "spent": 2, "refused": 3}  # the exit status of each outcome, by its word


class Failed(Exception):
    """Something could not be run, and nothing is known."""


class Solver(NamedTuple):
    command: list
    budget: int


def solver(program=None, budget=None):
    """The program, or with a budget the one over the archive; another program is called in the same way. Raises Failed."""
    if budget is not None:
        return Solver([program or answer_program(), "-", str(budget)], budget)
    if program is None and not PROGRAM.is_file():
        raise Failed(f"{PROGRAM} is not there: `python3 tools/build.py` proves and builds it")
    return Solver([program or PROGRAM], BUDGET)


def answer_program():
    """The program over the archive, built if it is not there or older than what it is built from. Raises Failed."""
    parts = [part for part in (SOURCE, HEADER, ARCHIVE) if part.is_file()]
    if ANSWER.is_file() and ANSWER.stat().st_mtime >= max(part.stat().st_mtime for part in parts):
        return ANSWER
    if not ARCHIVE.is_file():
        raise Failed(f"{ARCHIVE} is not there, and a budget of your own needs it: `python3 tools/build.py cobleskeg_c` proves the library and writes it")
    # Under a name of its own first, so that nobody runs half a program.
    with tempfile.TemporaryDirectory(dir=TARGET) as folder:
        made = Path(folder) / ANSWER.name
        command = ["cc", "-std=c11", f"-I{HEADER.parent}", SOURCE, ARCHIVE, "-o", made]
        done = run([str(word) for word in command], b"", subprocess.STDOUT)
        if done.returncode != 0:
            raise Failed(f"{ANSWER} cannot be built:\n{done.stdout.decode(errors='replace').rstrip()}")
        os.replace(made, ANSWER)
    return ANSWER


def run(command, given, errors=None):
    try:
        return subprocess.run(command, input=given, stdout=subprocess.PIPE, stderr=errors)
    except OSError as error:
        raise Failed(f"{command[0]} cannot be run: {error.strerror}") from None


def output(asked, content):
    """What a solver prints for a problem file, looked at. Raises Failed."""
    done = run(asked.command, content)
    program = asked.command[0]
    if done.returncode < 0:
        raise Failed(f"{program} was ended by signal {-done.returncode}")
    printed = done.stdout.decode("ascii", "replace")
    word = looked_at(printed, f"the output of {program}", asked.budget)
    # The program ends with 0 always, the one over the archive with the status of its outcome.
    if done.returncode not in (0, STATUS[word]):
        raise Failed(f"{program} ended with status {done.returncode}, but printed '{word}'")
    return printed


def looked_at(printed, source, budget):
    """The word that an output begins with; its source is named in errors. Raises Failed where it is no answer within the budget."""
    try:
        word, count = wording.outcome(printed)
    except wording.Unfit as unfit:
        raise Failed(f"{source}: {unfit}") from None
    if word == "spent" and count != budget or word in ("found", "none") and count > budget:
        raise Failed(f"{source}: '{word} {count}' is no answer within a budget of {budget} nodes")
    return word


def outcome(asked, problem):
    """Found, none, spent or refused, as a word. Raises Failed."""
    return wording.outcome(output(asked, packing.pack(problem)))[0]
