# The C interface, tested from outside: the C programs and the Rust crates over the archive, and the comparison with the second solver by the thousand.
#     python3 tests/interface.py [--cases N] [--patterns N] [--seed S]        50,000 cases of seed 1 and 4 patterns for 10 cases, where not said
# It needs a C and a C++ compiler, nm and cargo, and what `python3 tools/build.py clash cobleskeg_c` leaves in target. All that it builds goes to target too.
import argparse
import os
import re
import subprocess
import sys
from pathlib import Path

import format_example

ROOT = Path(__file__).resolve().parent.parent
TARGET = ROOT / "target"
ARCHIVE = TARGET / "staticlib" / "libcobleskeg_c.a"
PROGRAM = TARGET / "bin" / "clash"
ANSWER = TARGET / "answer"
CARGO = TARGET / "cargo"
HEADER = ROOT / "include" / "cobleskeg.h"
DECLARATIONS = ROOT / "bindings" / "rust" / "src" / "entries.rs"
SOURCE = ROOT / "crates" / "cobleskeg_c" / "src" / "lib.rt"
C_TYPES = {"uint8_t": "u8", "uint32_t": "u32", "uint64_t": "u64", "size_t": "usize", "void": ""}
MADE_BY = {ARCHIVE: "python3 tools/build.py cobleskeg_c", PROGRAM: "python3 tools/build.py clash"}
STATUS = {"none": 0, "found": 1, "spent": 2, "refused": 3}  # of the program `answer`, by its first word
TROUBLE = 4


class Failure(Exception):
    pass


def run(command, folder=ROOT, errors=subprocess.STDOUT):
    """What the command prints; a failure shows all of it."""
    environment = dict(os.environ, CARGO_TARGET_DIR=str(CARGO), COBLESKEG_ARCHIVE_DIR=str(ARCHIVE.parent))
    done = subprocess.run([str(word) for word in command], cwd=folder, env=environment, stdout=subprocess.PIPE, stderr=errors, text=True)
    if done.returncode != 0:
        raise Failure(f"{done.stdout}`{' '.join(str(word) for word in command)}` ends with {done.returncode}")
    return done.stdout


def prototypes(path, pattern, parameters):
    """From the name of each function that the pattern finds in the file to its parameters, each a name and a type as Rust writes it, and its answer's type."""
    found = {}
    for function in re.finditer(pattern, path.read_text()):
        texts = [text.strip() for text in function["parameters"].split(",") if text.strip() not in ("", "void")]
        found[function["name"]] = sum(map(parameters, texts), []), C_TYPES.get(function["answer"], function["answer"] or "")
    return found


def fields(pattern, text):
    match = re.fullmatch(pattern, text)
    if not match:
        raise Failure(f"no parameter that is known here: {text}")
    return match.groups()


def c_parameters(text):
    """`const uint8_t *file` is `file: *const u8`."""
    constant, word, pointer, name = fields(r"(const )?(uint8_t|uint32_t|uint64_t|size_t) (\*?)(\w+)", text)
    return [(name, (("*const " if constant else "*mut ") if pointer else "") + C_TYPES[word])]


def rust_parameters(text):
    return [fields(r"(\w+): (.+)", text)]


def rattle_parameters(text):
    """A reference passes as a pointer, a slice as a pointer and a length, which has no name of its own."""
    name, reference, array, word = fields(r"(\w+): (&mut |&|)(\[?)(\w+)\]?", text)
    pointer = {"&mut ": "*mut ", "&": "*const ", "": ""}[reference]
    return [(name, pointer + word)] + ([(None, "usize")] if array else [])


def same_function(declared, other):
    """Whether both have the same answer and parameters, by type and, where both have one, by name: five counts that change places have the same types."""
    if not declared or not other or declared[1] != other[1] or len(declared[0]) != len(other[0]):
        return False
    return all(mine[1] == their[1] and their[0] in (None, mine[0]) for mine, their in zip(declared[0], other[0]))


def declarations_agree():
    """Nothing else holds the header to the functions that it declares, nor the Rust crate's declarations to the header."""
    declared = prototypes(HEADER, r"\n(?P<answer>\w+) (?P<name>cobleskeg_\w+)\((?P<parameters>[^)]*)\);", c_parameters)
    for path, pattern, parameters in [
        (DECLARATIONS, r"pub fn (?P<name>cobleskeg_\w+)\((?P<parameters>[^)]*)\)(?: -> (?P<answer>\w+))?;", rust_parameters),
        (SOURCE, r'#\[unsafe\(no_mangle\)\]\n(?:#\[.*\]\n)*pub extern "C" fn (?P<name>\w+)\((?P<parameters>[^)]*)\)(?: -> (?P<answer>\w+))?\n', rattle_parameters),
    ]:
        other = prototypes(path, pattern, parameters)
        wrong = [name for name in sorted(declared.keys() | other.keys()) if not same_function(declared.get(name), other.get(name))]
        if wrong or not declared:
            raise Failure(f"{path.relative_to(ROOT)} does not declare as the header: {', '.join(wrong)}")


def constants_agree():
    """Each number that the Rust crate makes public is the header's."""
    named = dict(re.findall(r"^#define COBLESKEG_(\w+) (?:UINT32_C\()?(\d+)\)?$", HEADER.read_text(), re.MULTILINE))
    repeated = re.findall(r"^pub const (\w+): \w+ = ([\w:]+);$", (DECLARATIONS.parent / "lib.rs").read_text(), re.MULTILINE)
    wrong = [name for name, value in repeated if value.replace("_", "").replace("u32::MAX", str(2**32 - 1)) != named.get(name)]
    if wrong or not repeated:
        raise Failure(f"the Rust crate has other numbers than the header: {', '.join(wrong)}")


def needs_agree():
    """The header names every function that the archive takes from other libraries, and no other: who links without a C library must supply them."""
    sentence = re.search(r"of other libraries it takes (.+?) alone", " ".join(HEADER.read_text().split()).replace(" * ", " "))
    named = set(re.findall(r"\w+", sentence[1])) - {"and"} if sentence else set()
    taken = set(re.findall(r" U (\w+)", run(["nm", ARCHIVE])))
    if named != taken:
        raise Failure(f"the archive takes {', '.join(sorted(taken))}; the header names {', '.join(sorted(named))}")


def c_programs():
    """Builds both C programs and runs the one that calls every entry; answers its line."""
    run(["g++", "-fsyntax-only", "-Wall", "-Wextra", "-Werror", "-x", "c++", HEADER])
    for name in ("answer", "entries"):
        source = ROOT / "bindings" / "c" / f"{name}.c"
        run(["cc", "-std=c11", "-Wall", "-Wextra", "-Werror", f"-I{HEADER.parent}", source, ARCHIVE, "-o", TARGET / name])
    return run([TARGET / "entries"]).strip()


def no_table_of_masks(program):
    """The words of the lengths 0 to i lie nowhere in the program, neither among its constants nor in its code. Those from i = 32 on take all of their 8 bytes;
    a table would show most of them, and few can be there by chance."""
    content, masks = program.read_bytes(), [2 ** (i + 1) - 1 for i in range(32, 63)]
    held = [mask for mask in masks if mask.to_bytes(8, "little") in content]
    if len(held) > len(masks) // 2:
        raise Failure(f"{program.name} has {len(held)} of the {len(masks)} words of the lengths 0 to i: a table of them is left")


def printed(program, *arguments, given=b""):
    done = subprocess.run([str(program), *map(str, arguments)], input=given, stdout=subprocess.PIPE, stderr=subprocess.DEVNULL)
    return done.stdout, done.returncode


def expect(what, got, wanted):
    if got != wanted:
        raise Failure(f"{what}: {got!r}, not {wanted!r}")


def examples():
    """Every example's stored answer is what `answer` prints of its file; tests/examples.py has looked at the stored ones. Answers how many there are."""
    problems = sorted((ROOT / "examples").glob("*.problem"))
    for problem in problems:
        lines = problem.with_suffix(".answer").read_bytes()
        status = STATUS[lines.split()[0].decode()]
        expect(f"answer {problem.name}", printed(ANSWER, problem), (lines, status))
        expect(f"answer - < {problem.name}", printed(ANSWER, "-", 65536, given=problem.read_bytes()), (lines, status))
    return len(problems)


def calls_of_answer():
    """What `answer` makes of budgets and of what is no problem, by hand; P14 has its solution at the second node."""
    p14 = ROOT / "examples" / "p14.problem"
    for arguments, given, wanted in [
        ((p14, 1), b"", (b"spent 1\n", 2)),
        ((p14, 0), b"", (b"spent 0\n", 2)),
        ((), b"", (b"refused 1\n", 3)),
        ((), b"\0" * 25024, (b"refused 2\n", 3)),
        ((), b"\0" * 25025, (b"refused 4\n", 3)),
        ((), b"\0" * 30000 + p14.read_bytes(), (b"refused 4\n", 3)),
        ((ROOT / "examples" / "no such file",), b"", (b"", TROUBLE)),
        ((ROOT / "examples",), b"", (b"", TROUBLE)),
        ((p14, "-1"), b"", (b"", TROUBLE)),
        ((p14, "1x"), b"", (b"", TROUBLE)),
        ((p14, 2**32), b"", (b"", TROUBLE)),
        ((p14, 1, 1), b"", (b"", TROUBLE)),
    ]:
        expect(f"answer {arguments}", printed(ANSWER, *arguments, given=given), wanted)


def rust_tests():
    """Tests of the three crates; answers how many passed."""
    passed = 0
    for folder in ("second", "bindings/rust", "compare"):
        run(["cargo", "build", "--release", "--offline"], ROOT / folder)
        results = re.findall(r"test result: ok\. (\d+) passed", run(["cargo", "test", "--release", "--offline"], ROOT / folder))
        if sum(map(int, results)) == 0:
            raise Failure(f"{folder}: no test ran")
        passed += sum(map(int, results))
    return passed


def main():
    parser = argparse.ArgumentParser()
    parser.add_argument("--cases", type=int, default=50000)
    parser.add_argument("--patterns", type=int)
    parser.add_argument("--seed", type=int, default=1)
    given = parser.parse_args()
    missing = [f"target/{path.relative_to(TARGET)} is not there: run `{command}` first" for path, command in MADE_BY.items() if not path.is_file()]
    try:
        if missing:
            raise Failure("\n".join(missing))
        declarations_agree()
        constants_agree()
        needs_agree()
        checks = c_programs()
        no_table_of_masks(TARGET / "entries")  # it calls every entry, so all of the archive is in it
        tests = rust_tests()
        count = examples()
        calls_of_answer()
        expect("answer on the example of docs/FORMAT.md", printed(ANSWER, given=format_example.listed()[0]), (format_example.answer(), STATUS["found"]))
        compare = [CARGO / "release" / "compare", "--cases", given.cases, "--seed", given.seed, "--program", PROGRAM]
        compare += [] if given.patterns is None else ["--patterns", given.patterns]
        print(run(compare, errors=None).strip(), flush=True)  # how far it is shows at once
    except (Failure, OSError) as failure:
        print(f"interface: {failure}")
        return 1
    compared = f"{given.cases} cases of seed {given.seed}, and its patterns, agree with the second solver"
    print(f"interface: {checks}; {tests} tests of Rust crates; examples: {count}; {compared}")
    return 0


if __name__ == "__main__":
    sys.exit(main())
