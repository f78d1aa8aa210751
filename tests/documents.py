# What the documents say is so: what docs/PROMISES.md names is there, each declaration in its file and each must-fail edit, and no edit is left out; what the
# crates' comments quote stands in the papers; the version is everywhere the same; the example of docs/FORMAT.md is a file
# byte by byte; and crates.txt lists what each crate names.
import re
import sys
import dependencies
import format_example
import quotes
import version
from promises import ROOT, declarations, edits


def declared(path, name):
    if not path.is_file():
        return False
    pattern = r"^\s*((unfoldable|abbrev|pub|data|record) )*" + re.escape(name) + r"( |$)"
    return re.search(pattern, path.read_text(), re.MULTILINE) is not None


def main():
    wrong = [f"{path.relative_to(ROOT)} declares no {name}" for path, name in declarations() if not declared(path, name)]
    listed = {(crate, label) for crate, label, facts in edits() if facts}
    present = {(path.parent.parent.name, path.stem) for path in ROOT.glob("crates/*/must-fail/*.edit")}
    wrong += [f"crates/{crate}/must-fail/{label}.edit is not in docs/PROMISES.md with the fact it breaks" for crate, label in sorted(present - listed)]
    wrong += [f"docs/PROMISES.md names crates/{crate}/must-fail/{label}.edit, which is not there" for crate, label in sorted(listed - present)]
    wrong += version.wrong() + format_example.wrong() + dependencies.wrong()
    misquoted, said = quotes.check()
    for line in wrong + misquoted:
        print("documents: " + line)
    if not wrong:
        print(f"documents: {len(declarations())} declarations and {len(listed)} must-fail edits of docs/PROMISES.md are there")
    if not misquoted:
        print("documents: " + said)
    return 1 if wrong or misquoted else 0


sys.exit(main())
