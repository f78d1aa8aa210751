# What the commands of this folder have in common: their output and complaints, a budget on the command line, and the exit status of what goes wrong.
import argparse
import os
import re
import traceback

import solving
from lines import Wrong
from solving import STATUS, Failed

BROKEN, TROUBLE = STATUS["refused"], 4


def written(content, descriptor=1):
    """All of the bytes, unbuffered: what cannot be written shows here and not when Python ends. Bytes, so that a letter beyond ASCII is UTF-8 everywhere."""
    while content:
        content = content[os.write(descriptor, content) :]


def said(content):
    """What is said on standard output."""
    try:
        written(content)
    except OSError as error:
        raise Failed(f"standard output: {error.strerror}") from None


def complain(message):
    """A line on standard error. That nobody can read it changes nothing."""
    try:
        written(f"{message}\n".encode(errors="backslashreplace"), 2)
    except OSError:
        pass


def budget(word):
    if not re.fullmatch("[0-9]{1,10}", word) or int(word) > solving.MOST_BUDGET:
        raise argparse.ArgumentTypeError(f"'{word}' is no budget: expected 0 to {solving.MOST_BUDGET} nodes")
    return int(word)


class Parser(argparse.ArgumentParser):
    def error(self, message):
        """Python's own status for a wrong call is 2, which means spent or unknown here."""
        complain(f"{self.format_usage()}{self.prog}: {message}")
        raise SystemExit(TROUBLE)


def run(options):
    """Runs what the command line asks for, and gives the exit status."""
    try:
        return options.run(options)
    except Wrong as wrong:
        complain(wrong)
        return BROKEN
    except Failed as failed:
        complain(failed)
    except OSError as error:
        complain(f"{error.filename}: {error.strerror}")
    except Exception:
        # Python's own status for a fault of this tool is 1, which means found or a clash here.
        complain(traceback.format_exc().rstrip())
    return TROUBLE
