# `tools/problem.py solve` as a script sees it: exit status, standard output and standard error. First with stand-ins that end in every way a program can; then
# with the program and the archive; then in a copy of the tools, where something is missing. Statuses and words stand here by hand.
#     python3 tests/solve.py        after `python3 tools/build.py clash rule cobleskeg_c`; it needs a C compiler
import os
import re
import resource
import shutil
import subprocess
import sys
import tempfile
from pathlib import Path

from clash import LISTING
from examples import EXAMPLES, FOLDER, ROOT, statements

TOOL = Path("tools") / "problem.py"
TARGET = ROOT / "target"
ARCHIVE = TARGET / "staticlib" / "libcobleskeg_c.a"
BUILD = "python3 tools/build.py"
MADE_BY = {TARGET / "bin" / "clash": f"{BUILD} clash", TARGET / "bin" / "rule": f"{BUILD} rule", ARCHIVE: f"{BUILD} cobleskeg_c"}
NONE, FOUND, SPENT, REFUSED, TROUBLE = range(5)
STATUS = {"none": NONE, "found": FOUND, "spent": SPENT, "refused": REFUSED}
P14 = FOLDER / "p14.text"
IN_WORDS = (
    "found: these values meet every constraint, and are the first that do; nodes visited: 2\n"
    '  x = "0"\n  y = "1"\n  z = "01"\n  n = 1\n'
)
LINES = "".join(line + "\\n" for line in LISTING)  # as printf takes them

# (what the stand-in does, as lines of a shell; exit status; standard output; words on standard error). It is given P14, and has the program's budget.
STAND_INS = [
    (f"printf '{LINES}'", FOUND, IN_WORDS, ""),
    ("echo none 7", NONE, "none: no values meet every constraint; nodes of the whole search tree: 7\n", ""),
    ("echo none 65536", NONE, "none: no values meet every constraint; nodes of the whole search tree: 65536\n", ""),
    ("echo spent 65536; exit 2", SPENT, "spent: the budget ran out before the answer was known; nodes visited: 65536\n", ""),
    ("echo refused 2", REFUSED, "refused 2: the file does not end in the bytes TAIL\n", ""),
    ("cat > /dev/null", TROUBLE, "", "it is empty: the program has not answered"),
    ("exit 3", TROUBLE, "", "it is empty: the program has not answered"),
    ("printf non", TROUBLE, "", "line 1 does not end in a newline: the output is cut"),
    ("printf 'none 7'", TROUBLE, "", "line 1 does not end in a newline: the output is cut"),
    (f"printf '{LINES[:-2]}'", TROUBLE, "", "line 5 does not end in a newline: the output is cut"),
    (f"printf '{LINES[:20]}'", TROUBLE, "", "line 3 does not end in a newline: the output is cut"),
    (r"printf 'found 2\ns0 1 0\n'", TROUBLE, "", "it has 2 lines: expected 5 for 'found' and this text"),
    (f"printf '{LINES}'; echo none 7", TROUBLE, "", "it has 6 lines: expected 5 for 'found' and this text"),
    ("echo None 7", TROUBLE, "", "line 1: expected found, none, spent or refused and a number"),
    ("echo", TROUBLE, "", "line 1: expected found, none, spent or refused and a number"),
    ("echo none 7; kill -9 $$", TROUBLE, "", "was ended by signal 9"),
    ("kill -11 $$", TROUBLE, "", "was ended by signal 11"),
    ("echo none 7; exit 1", TROUBLE, "", "ended with status 1, but printed 'none'"),
    (f"printf '{LINES}'; exit 2", TROUBLE, "", "ended with status 2, but printed 'found'"),
    ("echo spent 65535", TROUBLE, "", "'spent 65535' is no answer within a budget of 65536 nodes"),
    ("echo none 65537", TROUBLE, "", "'none 65537' is no answer within a budget of 65536 nodes"),
]

# (the stand-in, the budget, exit status, words on standard error)
BUDGETED = [
    ('[ "$1 $#" = "- 2" ] && echo spent $2; exit 2', 7, SPENT, ""),
    ('[ "$1 $#" = "- 2" ] && echo none $2', 2**32 - 1, NONE, ""),
    ("echo spent 65536", 7, TROUBLE, "'spent 65536' is no answer within a budget of 7 nodes"),
    ("echo none 8", 7, TROUBLE, "'none 8' is no answer within a budget of 7 nodes"),
    ("echo none 7", -1, TROUBLE, "usage: "),
    ("echo none 7", 2**32, TROUBLE, "is no budget: expected 0 to 4294967295 nodes"),
    ("echo none 7", "all", TROUBLE, "is no budget: expected 0 to 4294967295 nodes"),
]

# Six digits of budget.text: 1 + 10 + ... + 100,000 nodes, and no serial. Found in P14 is the second node, in name_first.text the 34,695th.
SIX_DIGITS = "\n".join(statements("budget")).replace("length 8", "length 6")
# (text, budget, exit status, how standard output begins)
ASKED = [
    (P14, 0, SPENT, "spent: "),
    (P14, 1, SPENT, "spent: "),
    (P14, 2, FOUND, IN_WORDS),
    (FOLDER / "name_first.text", 34694, SPENT, "spent: "),
    (FOLDER / "name_first.text", 34695, FOUND, "found: "),
    (SIX_DIGITS, None, SPENT, "spent: "),
    (SIX_DIGITS, 111110, SPENT, "spent: "),
    (SIX_DIGITS, 111111, NONE, "none: "),
]


def run(*words, root=ROOT, **options):
    """Exit status, standard output and standard error of the tool, called as in the documents."""
    pipes = dict(stdin=subprocess.DEVNULL, stdout=subprocess.PIPE, stderr=subprocess.PIPE)
    done = subprocess.run([sys.executable, str(root / TOOL), *map(str, words)], cwd=root, timeout=300, **{**pipes, **options})
    return done.returncode, (done.stdout or b"").decode(), (done.stderr or b"").decode()


def stand_in(folder, lines, name="stand-in"):
    path = folder / name
    path.write_text(f"#!/bin/sh\n{lines}\n")
    path.chmod(0o755)
    return path


def differs(what, got, status, output, words):
    """A list with what is wrong of a run; of standard error only some words are known, or that nothing is there."""
    right = got[0] == status and got[1] == output and words in got[2] and bool(words) == bool(got[2])
    return [] if right else [f"{what}: {got}"]


def stand_ins(folder):
    wrong = []
    for lines, status, output, words in STAND_INS:
        wrong += differs(lines, run("solve", P14, "--program", stand_in(folder, lines)), status, output, words)
    for lines, budget, status, words in BUDGETED:
        code, _, errors = run("solve", P14, "--program", stand_in(folder, lines), "--budget", budget)
        wrong += [] if code == status and words in errors and bool(words) == bool(errors) else [f"{lines}, budget {budget}: {code}, {errors}"]
    plain = folder / "plain"
    plain.write_text("none 7\n")
    for program, words in ((folder / "absent", "No such file"), (folder, "Permission denied"), (plain, "Permission denied")):
        wrong += differs(program.name, run("solve", P14, "--program", program), TROUBLE, "", f"{program} cannot be run: {words}")
    return wrong


def texts(folder):
    """A broken text is 3, whatever the program; one that is not there is 4."""
    broken, absent, good = folder / "broken.text", folder / "absent.text", stand_in(folder, "echo none 7")
    broken.write_text("alphabet a\nstrng x\n")
    return (
        differs("a broken text", run("solve", broken, "--program", good), REFUSED, "", f"{broken}:2: no statement begins with 'strng'")
        + differs("a broken text, no program", run("solve", broken, "--program", folder / "absent"), REFUSED, "", f"{broken}:2: ")
        + differs("no text", run("solve", absent, "--program", good), TROUBLE, "", f"{absent}: No such file")
        + differs("a folder", run("solve", folder, "--program", good), TROUBLE, "", f"{folder}: Is a directory")
        + differs("nothing", run("solve"), TROUBLE, "", "usage: ")
    )


def ends(folder):
    """A `none` that could not be said is no answer; that nobody reads an error changes nothing."""
    good, cut, doubtful = stand_in(folder, "echo none 7", "good"), stand_in(folder, "printf none", "cut"), folder / "doubtful.text"
    doubtful.write_text("alphabet a\nstring x length none\n")
    closed = {"preexec_fn": lambda: os.close(1), "stdout": None}
    wrong = differs("standard output closed", run("solve", P14, "--program", good, **closed), TROUBLE, "", "standard output: ")
    no_errors = run("solve", doubtful, "--program", good, preexec_fn=lambda: os.close(2), stderr=None)
    wrong += differs("standard error closed", no_errors, NONE, STAND_INS[1][2], "")
    wrong += differs("standard input closed", run("answer", P14, preexec_fn=lambda: os.close(0), stdin=None), TROUBLE, "", "standard input: ")
    with tempfile.TemporaryFile() as short:
        limited = {"preexec_fn": lambda: resource.setrlimit(resource.RLIMIT_FSIZE, (10, 10)), "env": dict(os.environ, PYTHONDONTWRITEBYTECODE="1")}
        wrong += differs("standard output cut", run("solve", P14, "--program", good, stdout=short, **limited), TROUBLE, "", "standard output: File too large")
    if Path("/dev/full").exists():
        with open("/dev/full", "wb") as full:
            wrong += differs("standard output full", run("solve", P14, "--program", good, stdout=full), TROUBLE, "", "standard output: No space")
            wrong += differs("standard error full", run("solve", P14, "--program", cut, stderr=full), TROUBLE, "", "")
    return wrong


def solved(folder):
    """The examples by the program, and budgets by the program over the archive."""
    wrong = []
    for name, (first, _) in EXAMPLES.items():
        # What is broken of the example is its file. The text is whole, and a lesson's name holds a digit, which a poster's never does: the root is dead.
        word, count = ("none", "1") if name == "broken" else first.split()
        code, output, _ = run("solve", FOLDER / f"{name}.text")
        if code != STATUS[word] or not output.startswith(f"{word}: ") or not output.split("\n")[0].endswith(f": {count}"):
            wrong.append(f"{name}.text: {code}, {output}")
    for text, budget, status, beginning in ASKED:
        path = text
        if not isinstance(text, Path):
            path = folder / "asked.text"
            path.write_text(text)
        code, output, errors = run("solve", path, *([] if budget is None else ["--budget", budget]))
        if (code, output[: len(beginning)], errors) != (status, beginning, ""):
            wrong.append(f"{path.name}, budget {budget}: {code}, {output}{errors}")
    return wrong


def copied(folder):
    """A copy of the tools alone, where nothing is built; its path has only what is put there."""
    root = folder / "copy"
    shutil.copytree(ROOT / "tools", root / "tools", ignore=shutil.ignore_patterns("__pycache__"))
    shutil.copytree(ROOT / "bindings" / "c", root / "bindings" / "c")
    shutil.copytree(ROOT / "include", root / "include")
    bin_folder = root / "bin"
    bin_folder.mkdir()
    return root, {"root": root, "env": dict(os.environ, PATH=str(bin_folder))}


def library_missing(folder):
    """A budget needs the archive and a compiler once, and then neither; what is older than the archive is built again."""
    root, bare = copied(folder)
    answer, archive = root / "target" / "answer", root / "target" / "staticlib" / ARCHIVE.name
    wrong = differs("no program", run("solve", P14, **bare), TROUBLE, "", f"clash is not there: `{BUILD}` proves and builds it")
    wrong += differs("no archive", run("solve", P14, "--budget", 2, **bare), TROUBLE, "", f"`{BUILD} cobleskeg_c` proves the library and writes it")
    archive.parent.mkdir(parents=True)
    shutil.copy(ARCHIVE, archive)
    wrong += differs("no compiler", run("solve", P14, "--budget", 2, **bare), TROUBLE, "", "cc cannot be run: No such file")
    stand_in(root / "bin", "echo this is no compiler; exit 1", "cc")
    wrong += differs("no good compiler", run("solve", P14, "--budget", 2, **bare), TROUBLE, "", "answer cannot be built:\nthis is no compiler")
    wrong += differs("a compiler", run("solve", P14, "--budget", 2, root=root), FOUND, IN_WORDS, "")
    wrong += differs("built before", run("solve", P14, "--budget", 2, **bare), FOUND, IN_WORDS, "")
    os.utime(answer, (0, 0))
    wrong += differs("built too early", run("solve", P14, "--budget", 2, **bare), TROUBLE, "", "this is no compiler")
    if [path.name for path in (root / "target").iterdir() if path not in (answer, archive.parent)]:
        wrong.append("building leaves more than the program")
    return wrong


# What the stand-in for `rt` says of a crate and of one that it rests on; it leaves what it builds where `rt` does, and takes no other call than the right one.
STAND_IN_RT = """
name=${{PWD##*/}}
case "$name $*" in
    "clash run" | "rule run") left=out/$name ;;
    "cobleskeg_c lib") left=out/lib$name.a ;;
    *) exit 2 ;;
esac
printf "{printed}" $name
[ {status} = 0 ] && echo "$name is built" > $left
exit {status}"""
PRINTED = "rt: chose\\nfn model::f: proved\\ncrate model: modules\\nlogic=proved functions=1\\ncrate %s: modules\\n"
# (the names for tools/build.py, the last line of `rt`, its status, the status of tools/build.py, its lines, what it lays)
BUILDS = [
    ([], "logic=proved", 0, 0, ["model proved", "clash proved", "model proved", "rule proved"], {"bin/clash", "bin/rule"}),
    (["cobleskeg_c"], "logic=proved", 0, 0, ["model proved", "cobleskeg_c proved"], {"staticlib/libcobleskeg_c.a"}),
    (["rule"], "logic=not-proved", 1, TROUBLE, ["model proved", "rule NOT PROVED"], set()),
    (["rule", "clash"], "the check was killed", 2, TROUBLE, ["model proved"], set()),
    (["--proved"], "nothing is asked", 2, 0, [], {"bin/clash", "bin/rule"}),
    (["absent"], "logic=proved", 0, TROUBLE, [], set()),
]


def building(folder):
    """tools/build.py says a line of each crate, keeps all that `rt` says, lays what was built and nothing else, and does not hide that a proof failed."""
    root, wrong = folder / "copy", []
    target = root / "target"
    for crate, source in (("clash", "main.rt"), ("rule", "main.rt"), ("cobleskeg_c", "lib.rt")):
        for part in ("src", "out"):
            (root / "crates" / crate / part).mkdir(parents=True)
        (root / "crates" / crate / "src" / source).touch()

    def build(words):
        shutil.rmtree(target, ignore_errors=True)
        command = [sys.executable, str(root / "tools" / "build.py"), *words]
        done = subprocess.run(command, env=dict(os.environ, PATH=str(root / "bin")), capture_output=True, text=True)
        laid = {str(path.relative_to(target)) for path in target.rglob("*") if path.is_file()}
        return done, re.findall(r"^build: (.+) \(\d+ s\)$", done.stdout, re.MULTILINE), laid - {"build.log"}

    for words, said, status, expected, shown, laid in BUILDS:
        stand_in(root / "bin", STAND_IN_RT.format(printed=PRINTED + said + "\\n", status=status), "rt")
        done, lines, found = build(words)
        if (done.returncode, lines, found, bool(done.stderr)) != (expected, shown, laid, expected != 0) or len(done.stdout.splitlines()) != len(shown):
            wrong.append(f"build.py {' '.join(words)}: {done}, {sorted(found)}")
        if any((target / name).read_text() != f"{name.split('/')[1].removeprefix('lib').removesuffix('.a')} is built\n" for name in found & laid):
            wrong.append(f"build.py {' '.join(words)}: what is in target is not what was built")
        asked = [] if words == ["--proved"] or not shown else (words or ["clash", "rule"])[: None if status == 0 else 1]
        if asked and (target / "build.log").read_text() != "".join((PRINTED + said + "\\n").replace("\\n", "\n") % name for name in asked):
            wrong.append("target/build.log is not all that rt prints")
    (root / "bin" / "rt").unlink()
    done, _, _ = build([])
    return wrong + differs("build.py, no rt", (done.returncode, done.stdout, done.stderr), TROUBLE, "", "rt: No such file or directory")


def main():
    wrong = [f"{path.name} is not there: run `{command}` first" for path, command in MADE_BY.items() if not path.is_file()]
    if not wrong:
        with tempfile.TemporaryDirectory() as folder:
            for part in (stand_ins, texts, ends, solved, library_missing, building):
                wrong += part(Path(folder))
    for line in wrong:
        print("solve: " + line)
    if not wrong:
        print(f"solve: {len(STAND_INS) + len(BUDGETED)} stand-ins, {len(EXAMPLES)} examples and {len(ASKED)} budgets end as they should")
    return 1 if wrong else 0


if __name__ == "__main__":
    sys.exit(main())
