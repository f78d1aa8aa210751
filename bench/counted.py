# What the scripts beside this one share: the program or archive that they measure, and instructions by valgrind's callgrind.
import re
import subprocess
import sys
from pathlib import Path

ROOT = Path(__file__).resolve().parent.parent


def program(crate):
    """The crate's program, or the one that the command line names, so that an older one can be measured too. Where it is not there the script ends."""
    path = Path(sys.argv[1]) if len(sys.argv) > 1 else ROOT / "target" / "bin" / crate
    if not path.is_file():
        sys.exit(f"bench: {path} is not there: run `python3 tools/build.py {crate}` first")
    return path


def archive():
    """The archive that programs link. Where it is not there the script ends."""
    path = ROOT / "target" / "staticlib" / "libcobleskeg_c.a"
    if not path.is_file():
        sys.exit(f"bench: {path} is not there: run `python3 tools/build.py cobleskeg_c` first")
    return path


def instructions(path, given):
    """The instructions of the program, from its start to its end, on this standard input."""
    command = ["valgrind", "--tool=callgrind", "--callgrind-out-file=/dev/null", str(path)]
    done = subprocess.run(command, input=given, capture_output=True, check=True)
    return int(re.search(rb"Collected : (\d+)", done.stderr).group(1))
