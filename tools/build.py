# Proves what the named crates rest on, builds them, and lays what was built where the tools, the tests and the bindings look for it: a program goes to target/bin,
# the library for C to target/staticlib.
#     python3 tools/build.py             clash, which answers problems, and rule, which makes automata of patterns
#     python3 tools/build.py NAME ...    these crates, of crates.txt
#     python3 tools/build.py --proved    every program, as `rt ci` has just left it in its crate's folder `out`: nothing is proved or built
# `rt` has to be on the path. A line shows each crate that the prover has looked at; all that `rt` says is in target/build.log. The exit status is 0 if what was
# named stands, else 4, as tools/problem.py has it for what could not be run.
import os
import re
import shutil
import subprocess
import sys
import time

from solving import ROOT, TARGET

LOG = TARGET / "build.log"
USED = ["clash", "rule"]
LOOKED_AT = re.compile(rb"crate (\w+): ")  # before the verdict, `rt` names the crate
VERDICT = b"logic="
PROVED = b"logic=proved"
TROUBLE = 4


def is_program(folder):
    return (folder / "src" / "main.rt").is_file()


def built(folder):
    """What `rt` leaves of a crate, and where it goes."""
    name = folder.name
    if is_program(folder):
        return folder / "out" / name, TARGET / "bin" / name
    return folder / "out" / f"lib{name}.a", TARGET / "staticlib" / f"lib{name}.a"


def proved(folder, log):
    """Whether the crate is proved and built. `rt run` runs the program too, on no input."""
    command = ["rt", "run" if is_program(folder) else "lib"]
    name, start = folder.name, time.monotonic()
    with subprocess.Popen(command, cwd=folder, stdin=subprocess.DEVNULL, stdout=subprocess.PIPE, stderr=subprocess.STDOUT) as prover:
        for line in prover.stdout:
            log.write(line)
            if found := LOOKED_AT.match(line):
                name = found[1].decode()
            if line.startswith(VERDICT):
                print(f"build: {name} {'proved' if line.startswith(PROVED) else 'NOT PROVED'} ({time.monotonic() - start:.0f} s)", flush=True)
                start = time.monotonic()
    return prover.returncode == 0


def lay(folder):
    """Under a name of its own first, so that nobody runs half a program."""
    left, place = built(folder)
    place.parent.mkdir(parents=True, exist_ok=True)
    half = place.with_name(f"{place.name}.half")
    shutil.copy(left, half)
    os.replace(half, place)


def main():
    names = sys.argv[1:] or USED
    try:
        TARGET.mkdir(exist_ok=True)
        if names == ["--proved"]:
            for source in sorted(ROOT.glob("crates/*/src/main.rt")):
                lay(source.parent.parent)
            return 0
        with LOG.open("wb", buffering=0) as log:
            for folder in [ROOT / "crates" / name for name in names]:
                if not proved(folder, log):
                    print(f"{folder.name} was not built: {LOG} has all that the prover said", file=sys.stderr)
                    return TROUBLE
                lay(folder)
    except OSError as error:
        print(f"{error.filename}: {error.strerror}", file=sys.stderr)
        return TROUBLE
    return 0


if __name__ == "__main__":
    sys.exit(main())
