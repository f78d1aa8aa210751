# Runs of the program `clash`: each an input and the lines that the paper asks for, by hand; and runs with an odd standard input or output, where what is printed
# follows from what could be read, and what could not be written is missing at the end. The gate runs the program on P14 alone, and examples/ has P14 too:
# `python3 tests/clash.py --write` lays these files out; without `--write` it checks that they are P14, and makes the runs with the program that
# `python3 tools/build.py clash` has left in target/bin.
import fcntl
import os
import resource
import signal
import subprocess
import sys
import tempfile
import time
from pathlib import Path

from edges import EMPTY, P14, PIGEONS, SECOND, automaton, file, problem, row, string


def listed(lines):
    return "".join(line + "\n" for line in lines).encode()


ROOT = Path(__file__).resolve().parent.parent
PROGRAM = ROOT / "target" / "bin" / "clash"
LISTING = ["found 2", "s0 1 0", "s1 1 1", "s2 2 0 1", "n0 1"]
FILES = {
    ROOT / "crates" / "clash" / "stdin": P14,
    ROOT / "crates" / "clash" / "stdout": listed(LISTING),
    ROOT / "examples" / "p14.problem": P14,
}
LARGEST = 25024  # bytes
LATE = 300  # seconds after which a run counts as one that does not end


def ending_in(content, size):
    """So many bytes, the last of them a file."""
    return b"\0" * (size - len(content)) + content


# Every bit of the table is there. Each string is a part of the one before it, and the first a part of the last: they are one string. Every automaton accepts
# all. The root strikes the numbers 0, since no part starts there; length 0 for string 0 leaves all strings empty, and all numbers 1: the second node.
LARGEST_FILE = file(
    k=64,
    s=16,
    t=16,
    d=8,
    words={i: 2**64 - 1 for i in range(1040)},
    records=[(5, i % 16, (i + 1) % 16, i % 16) for i in range(48)] + [(7, i, i % 8, 0) for i in range(16)],
    machines=automaton(64, 32, 2**32 - 1) * 8,
)
# Strings 1 to 3 have one symbol of two and no two are the same, which shows only when string 0 is decided: 2^20 strings, so more nodes than the budget.
LARGE_TREE = problem(
    2,
    [row({20}, *[{0, 1}] * 20)] + [row({1}, {0, 1})] * 3,
    records=[(2, 1, 2, 0), (2, 1, 3, 0), (2, 2, 3, 0)],
)

# (what is tried, standard input, lines)
RUNS = [
    ("P14", P14, LISTING),
    ("s, t, c, d all 0", file(), ["found 1"]),
    ("no byte", b"", ["refused 1"]),
    ("23 bytes", file()[1:], ["refused 1"]),
    ("no mark", file(mark=b"TAIM"), ["refused 2"]),
    ("k 65", file(k=65), ["refused 3"]),
    ("a spare byte in front", ending_in(P14, len(P14) + 1), ["refused 4"]),
    ("bytes for no automaton", file(machines=b"\0"), ["refused 5"]),
    ("a bit at k", file(s=1, words={63: 16}), ["refused 6"]),
    ("kind 8", file(s=2, records=[(8, 0, 1, 0)]), ["refused 7"]),
    ("Eq of one string", file(s=2, records=[(1, 1, 1, 0)]), ["refused 8"]),
    ("as long as the largest file, no mark", b"\0" * LARGEST, ["refused 2"]),
    ("as long as the largest file, P14 at its end", ending_in(P14, LARGEST), ["refused 4"]),
    ("a byte longer than the largest file, no mark", b"\0" * (LARGEST + 1), ["refused 4"]),
    ("a byte longer than the largest file, P14 at its end", ending_in(P14, LARGEST + 1), ["refused 4"]),
    ("a byte longer than the largest file, the largest file at its end", b"\0" + LARGEST_FILE, ["refused 4"]),
    ("the largest file and a byte behind it", LARGEST_FILE + b"\0", ["refused 4"]),
    ("a longer input, k 65 at its end", ending_in(file(k=65), 100000), ["refused 4"]),
    ("the largest file", LARGEST_FILE, ["found 2"] + [f"s{x} 0" for x in range(16)] + [f"n{x} 1" for x in range(16)]),
    ("an empty string", problem(1, [EMPTY]), ["found 1", "s0 0"]),
    ("an empty string among others", problem(64, [EMPTY, string(63, 0, 7), EMPTY], [{63}, {0}]), ["found 1", "s0 0", "s1 3 63 0 7", "s2 0", "n0 63", "n1 0"]),
    ("a string of 63 places", problem(2, [string(*[0, 1] * 31, 1)]), ["found 1", "s0 63" + " 0 1" * 31 + " 1"]),
    ("the first child is dead", SECOND, ["found 4", "s0 1 1", "s1 1 0", "s2 1 2"]),
    ("no solution", PIGEONS, ["none 10"]),
    ("more nodes than the budget", LARGE_TREE, ["spent 65536"]),
]


def printed(given):
    return subprocess.run([str(PROGRAM)], input=given, capture_output=True, timeout=LATE).stdout


def not_blocking(end):
    fcntl.fcntl(end, fcntl.F_SETFL, fcntl.fcntl(end, fcntl.F_GETFL) | os.O_NONBLOCK)


def read_from(source, **options):
    """What the program prints with this as its standard input."""
    return subprocess.run([str(PROGRAM)], stdin=source, capture_output=True, timeout=LATE, **options).stdout


def read_from_path(path):
    source = os.open(path, os.O_RDONLY)
    try:
        return read_from(source)
    finally:
        os.close(source)


def read_from_pipe(content, blocking):
    """A pipe that holds this content, and is not closed while the program runs."""
    source, sink = os.pipe()
    try:
        os.write(sink, content)
        if not blocking:
            not_blocking(source)
        return read_from(source)
    finally:
        os.close(source)
        os.close(sink)


def read_in_pieces(content, size):
    """A pipe into which the content comes piece by piece, so that the program waits for it."""
    with subprocess.Popen([str(PROGRAM)], stdin=subprocess.PIPE, stdout=subprocess.PIPE) as program:
        for at in range(0, len(content), size):
            program.stdin.write(content[at : at + size])
            program.stdin.flush()
            time.sleep(0.01)
        program.stdin.close()
        return program.stdout.read()


def inputs():
    """(what is tried, what is printed, lines): a read that fails ends the input, and what was read until then is answered."""
    yield "standard input closed", read_from(None, preexec_fn=lambda: os.close(0)), ["refused 1"]
    yield "a folder", read_from_path(ROOT), ["refused 1"]
    yield "an endless input", read_from_path("/dev/zero"), ["refused 4"]
    yield "a longer input that does not end", read_from_pipe(b"\0" * (LARGEST + 1), True), ["refused 4"]
    yield "a pipe that has nothing yet and does not wait", read_from_pipe(b"", False), ["refused 1"]
    yield "a pipe that has 100 bytes of P14 and does not wait", read_from_pipe(P14[:100], False), ["refused 2"]
    yield "a pipe that has P14 and does not wait", read_from_pipe(P14, False), LISTING
    yield "24 bytes one by one", read_in_pieces(file(), 1), ["found 1"]
    yield "P14 in pieces", read_in_pieces(P14, 100), LISTING
    yield "the largest file in pieces", read_in_pieces(LARGEST_FILE, 1001), RUNS[[what for what, *_ in RUNS].index("the largest file")][2]
    yield "a byte longer than the largest file, in pieces", read_in_pieces(b"\0" + LARGEST_FILE, 1001), ["refused 4"]


def write_to(sink, **options):
    """Whether the program ends by itself, or because what it writes cannot go anywhere."""
    done = subprocess.run([str(PROGRAM)], input=P14, stdout=sink, stderr=subprocess.DEVNULL, timeout=LATE, **options)
    return done.returncode in (0, -signal.SIGPIPE, -signal.SIGXFSZ)


def write_to_full_pipe():
    """Whether the program ends, and has written a beginning of its lines at most."""
    source, sink = os.pipe()
    not_blocking(sink)
    filled = 0
    try:
        while True:
            filled += os.write(sink, b"\0" * 4096)
    except BlockingIOError:
        ended = write_to(sink)
    os.close(sink)
    with os.fdopen(source, "rb") as pipe:
        return ended and listed(LISTING).startswith(pipe.read()[filled:])


def write_to_short_file():
    """Whether the program ends, and a file that may have ten bytes holds a beginning of its lines."""
    with tempfile.TemporaryFile() as short:
        ended = write_to(short, preexec_fn=lambda: resource.setrlimit(resource.RLIMIT_FSIZE, (10, 10)))
        short.seek(0)
        return ended and listed(LISTING).startswith(short.read())


def outputs():
    """(what is tried, whether the program ends and has written nothing wrong)."""
    yield "standard output closed", write_to(None, preexec_fn=lambda: os.close(1))
    source, sink = os.pipe()
    os.close(source)
    yield "a pipe that nobody reads", write_to(sink)
    os.close(sink)
    yield "a full pipe that does not wait", write_to_full_pipe()
    yield "a file that cannot grow", write_to_short_file()
    if os.path.exists("/dev/full"):
        with open("/dev/full", "wb") as full:
            yield "a full device", write_to(full)


def odd_ends():
    """What is wrong of the runs with an odd input or output, and how many runs there are."""
    tried = [(what, got == listed(lines)) for what, got, lines in inputs()] + list(outputs())
    return [f"{what}: not what follows from it" for what, right in tried if not right], len(tried)


def main():
    if "--write" in sys.argv:
        for path, content in FILES.items():
            path.parent.mkdir(exist_ok=True)
            path.write_bytes(content)
    wrong = [f"{path.relative_to(ROOT)} is not P14" for path, content in FILES.items() if not path.is_file() or path.read_bytes() != content]
    if len(LARGEST_FILE) != LARGEST:
        wrong.append(f"the largest file has {len(LARGEST_FILE)} bytes")
    odd = 0
    if not PROGRAM.is_file():
        wrong.append("target/bin/clash is not there: run `python3 tools/build.py clash` first")
    else:
        wrong += [f"{what}: not the lines expected" for what, given, lines in RUNS if printed(given) != listed(lines)]
        faults, odd = odd_ends()
        wrong += faults
    for line in wrong:
        print("clash: " + line)
    if not wrong:
        print(f"clash: {len(RUNS)} runs print what the paper says, {odd} with an odd input or output what follows from it")
    return 1 if wrong else 0


if __name__ == "__main__":
    sys.exit(main())
