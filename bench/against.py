# What a search takes in the library and in the second solver, one after the other in one run, on the problems of bench/problems.py. Run from the repository's
# root after `python3 tools/build.py cobleskeg_c`; it needs cargo. Both search through the same buffers and are built for release. Times are of one machine, and
# no test depends on them.
import subprocess
import sys
import tempfile
from pathlib import Path

from counted import ROOT, archive
from problems import PROBLEMS

CARGO = ROOT / "target" / "cargo"


def main():
    archive()
    command = ["cargo", "build", "--release", "--offline", "--quiet", "--bin", "speed", "--target-dir", str(CARGO)]
    subprocess.run(command, cwd=ROOT / "compare", check=True)
    print("| problem | answer | library, microseconds a search | second solver | second solver / library |")
    print("|---|---|---|---|---|")
    with tempfile.TemporaryDirectory() as folder:
        for name, what, problem in PROBLEMS:
            path = Path(folder) / f"{name}.problem"
            path.write_bytes(problem.file())
            done = subprocess.run([str(CARGO / "release" / "speed"), str(path)], capture_output=True, check=True, text=True)
            answer, ours, theirs = done.stdout.split("\t")
            print(f"| {what} | {answer} | {float(ours):,.0f} | {float(theirs):,.0f} | {float(theirs) / float(ours):.2f} |", flush=True)


if __name__ == "__main__":
    sys.exit(main())
