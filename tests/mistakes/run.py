# Whether the comparison can fail: each mistake of list.h is planted in a stand-in for the library, and the short run of the comparison must report it.
#     python3 tests/mistakes/run.py [NAME ...]        all mistakes, where none is named
# It needs a C compiler, ld, objcopy, ar and cargo, and what `python3 tools/build.py clash cobleskeg_c` leaves in target. All that it builds goes
# to target/mistakes.
import os
import re
import subprocess
import sys
import time
from concurrent.futures import ThreadPoolExecutor
from pathlib import Path

HERE = Path(__file__).resolve().parent
ROOT = HERE.parent.parent
TARGET = ROOT / "target"
BUILT = TARGET / "mistakes"
ARCHIVE = TARGET / "staticlib" / "libcobleskeg_c.a"
PROGRAM = TARGET / "bin" / "clash"
MADE_BY = {ARCHIVE: "python3 tools/build.py cobleskeg_c", PROGRAM: "python3 tools/build.py clash"}
ENTRIES = ("read", "unpack", "step", "settle", "index", "settle_by_index", "search", "perform", "perform_by_index", "compile")
SOURCES = ("standin", "gaps", "reading", "steps", "rounds", "searches", "index", "by_index", "queue", "listed", "patterns", "automata")
COMPARE = BUILT / "cargo" / "release" / "compare"
CASES, PATTERNS = 50000, 20000  # of the short run
SOUND_CASES, SOUND_PATTERNS = 5000, 2000  # enough that everything comes up
NONE = "none"


class Failure(Exception):
    pass


def mistakes():
    """From each name of the list to what is wrong, in order."""
    return dict(re.findall(r'^MISTAKE\((\w+), "(.*)"\)$', (HERE / "list.h").read_text(), re.M))


def run(*command, folder=ROOT, **environment):
    words = [str(word) for word in command]
    done = subprocess.run(words, cwd=folder, env=dict(os.environ, **environment), stdout=subprocess.PIPE, stderr=subprocess.STDOUT, text=True)
    if done.returncode != 0:
        raise Failure(f"{done.stdout}`{' '.join(words)}` ends with {done.returncode}")


def build():
    """The stand-in under the archive's name, with the proved entries in it by other names; the comparison over it; and the spoiled program."""
    BUILT.mkdir(parents=True, exist_ok=True)
    compile_c = ["cc", "-std=c11", "-O2", "-Wall", "-Wextra", "-Werror", f"-I{ROOT / 'include'}"]
    renamed = [f"--redefine-sym=cobleskeg_{entry}=proved_{entry}" for entry in ENTRIES]
    run("objcopy", *renamed, ARCHIVE, BUILT / "proved.a")
    objects = [BUILT / f"{name}.o" for name in SOURCES]
    for name, made in zip(SOURCES, objects):
        run(*compile_c, "-c", HERE / f"{name}.c", "-o", made)
    run("ld", "-r", "-o", BUILT / "all.o", *objects, "--whole-archive", BUILT / "proved.a")
    standin = BUILT / ARCHIVE.name
    standin.unlink(missing_ok=True)
    run("ar", "rcs", standin, BUILT / "all.o")
    run(*compile_c, HERE / "program.c", standin, "-o", BUILT / "program")
    run("cargo", "build", "--release", "--offline", folder=ROOT / "compare", CARGO_TARGET_DIR=str(BUILT / "cargo"), COBLESKEG_ARCHIVE_DIR=str(BUILT))


def compared(name):
    """What the comparison prints with this mistake, and its exit status. One thread, so that the case that reports it is always the same. A mistake of Compile
    shows in patterns alone, and any other in cases."""
    cases, patterns = (SOUND_CASES, SOUND_PATTERNS) if name == NONE else (0, PATTERNS) if name.startswith("compile_") else (CASES, 0)
    program = BUILT / "program" if name.startswith("program_") or name == NONE else PROGRAM
    folder = BUILT / "runs" / name  # the comparison leaves the file of a failure below the folder that it runs in
    folder.mkdir(parents=True, exist_ok=True)
    command = [COMPARE, "--cases", cases, "--patterns", patterns, "--seed", 1, "--threads", 1, "--program", program]
    environment = dict(os.environ, COBLESKEG_MISTAKE=name)
    done = subprocess.run([str(word) for word in command], cwd=folder, env=environment, stdout=subprocess.PIPE, stderr=subprocess.STDOUT, text=True)
    return done.stdout, done.returncode


def reported(printed, status):
    """The case or pattern, its kind and the call that a run reported, or nothing."""
    case = re.search(r"^compare: (case|pattern) (\d+) of seed 1 disagrees\n  kind: +(.*)\n  call: +(.*)\n", printed, re.M)
    if status != 1 or not case:
        return None
    call = re.split(r"[ ,]", case[4])[0]
    number = f"{'pattern ' if case[1] == 'pattern' else ''}{int(case[2]):,}"
    return number, case[3], "ends the process in " + call if "ends the process" in printed else call


def line(name):
    """A line of the table for a mistake, and whether it was reported."""
    start = time.monotonic()
    printed, status = compared(name)
    found = reported(printed, status)
    if not found:
        return f"| {name} | NOT REPORTED, exit status {status} | | |", False
    number, kind, call = found
    print(f"mistakes: {name}: {number}, after {time.monotonic() - start:.1f} s", file=sys.stderr, flush=True)
    what = mistakes()[name].replace("|", r"\|")
    return f"| {what} | {call} | {kind} | {number} |", True


def main():
    missing = [f"target/{path.relative_to(TARGET)} is not there: run `{command}` first" for path, command in MADE_BY.items() if not path.is_file()]
    names = sys.argv[1:] or list(mistakes())
    missing += [f"there is no mistake {name}" for name in names if name not in mistakes()]
    try:
        if missing:
            raise Failure("\n".join(missing))
        build()
        printed, status = compared(NONE)
        if status != 0:
            raise Failure(f"without a mistake the stand-in is reported:\n{printed}")
        with ThreadPoolExecutor(os.cpu_count()) as pool:
            lines = list(pool.map(line, names))
    except (Failure, OSError) as failure:
        print(f"mistakes: {failure}")
        return 1
    print("| mistake | reported by | kind of case or text | case, or pattern |\n|---|---|---|---|")
    print("\n".join(text for text, _ in lines))
    unseen = [name for name, (_, seen) in zip(names, lines) if not seen]
    print(f"mistakes: {len(names) - len(unseen)} of {len(names)} reported" + (f"; not: {', '.join(unseen)}" if unseen else ""))
    return 1 if unseen else 0


if __name__ == "__main__":
    sys.exit(main())
