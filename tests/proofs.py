# A proof names only what takes a thought. An answer is written where the prover's own search leaves a goal open, and not to say that it should search; what is
# proved beside the answers is cited by one of them or by another file, or a document names it; and nothing is brought in that is not cited. Operators and signs
# are left out: an operator is cited by the signs between its places.
#     python3 tests/proofs.py            says which proofs are not so
import re
import sys
from pathlib import Path

from promises import ROOT

MODIFIERS = r"(?:(?:pub|unfoldable|abbrev|opaque|data|record) )*"
ITEM = re.compile(MODIFIERS + r"([^\s:(){},]+)")
SIGNATURE = re.compile(MODIFIERS + r"([^\s:(){},]+)(?: \{.*?\})? :(?= |$)(.*)")
ANSWER = re.compile(r" (?:goal\.|tie\.)")  # the type of what answers for a function
WHOLE = re.compile(r"[-_]spec$")  # the name of a whole proof, in a file Proof.antt
# an answer that only says to search, but for one behind a line that unfolds a definition, which the search does not do by itself
SEARCHED = re.compile(r"^(?!unfolding ).*\n([^\s(]+)(?: g)?(?: c)?(?: κs)?\s+=\s+search rules$", re.MULTILINE)
USE = re.compile(r"^use ([^\s{]+?)(?:\.\{([^}]*)\})?(?: as (\S+))?$", re.MULTILINE)
WORD = re.compile(r"[^\s(){}\[\],;:.`]+")
NAMED = re.compile(r"[`#]([^\s`#]+)`")


def code(path):
    """The text without its comments, and what stands in a module of a file as if it stood outside."""
    lines, inside = [], False
    for line in re.sub(r"--.*" if path.suffix == ".antt" else r"//.*", "", path.read_text()).split("\n"):
        if line[:1].strip():
            inside = line.startswith("module ")
        lines.append(line[2:] if inside and line.startswith("  ") else line)
    return "\n".join(lines)


def items(text):
    """Each item that begins a line and what belongs to it, as (the name that it declares or goes on to define, its text)."""
    found = []
    for line in text.split("\n"):
        if line[:1].strip() and not line.startswith(("use ", "pub use ", "unfolding ")):
            start = ITEM.match(line)
            found.append([start[1] if start else "", line])
        elif found and line.startswith((" ", "unfolding ")):
            found[-1][1] += "\n" + line
        elif line.strip():
            found.append(["", line])
    return found


def declared(path, text):
    """Each name that a file of proofs declares, but the answers and operators."""
    signatures = (SIGNATURE.match(line) for line in text.split("\n"))
    names = [found[1] for found in signatures if found and "◌" not in found[1] and not ANSWER.match(found[2])]
    return [name for name in names if path.name != "Proof.antt" or not WHOLE.search(name)]


def imported(text):
    """Each name that a file brings in for itself, but operators."""
    for path, names, other in USE.findall(text):
        for name in names.split(",") if names else [other or path.rpartition(".")[2]]:
            name = name.split(" as ")[-1].strip()
            if re.search(r"\w", name) and "◌" not in name:
                yield name


def main():
    parts = [path for part in ("src", "specs", "proofs") for path in sorted(ROOT.glob(f"crates/*/{part}/**/*")) if path.suffix in (".rt", ".antt")]
    texts = {path: code(path) for path in parts}
    words = {path: set(WORD.findall(text)) for path, text in texts.items()}
    everywhere = {}
    for path, found in words.items():
        for word in found:
            everywhere.setdefault(word, set()).add(path)
    documents = [ROOT / "README.md", *ROOT.glob("docs/**/*.md")]
    named = {name for path in documents for name in NAMED.findall(path.read_text())}
    wrong, count = [], 0
    proofs = [path for path in parts if path.suffix == ".antt" and path.relative_to(ROOT).parts[2] == "proofs"]
    for path in proofs:
        text, place = texts[path], path.relative_to(ROOT)
        wrong += [f"{place} has an answer {name} that only says to search" for name in SEARCHED.findall(text) if path.name == "Answers.antt"]
        cited = {}
        for owner, item in items(text):
            for word in set(WORD.findall(item)) - {owner}:
                cited.setdefault(word, set()).add(owner)
        wrong += [f"{place} brings in {name}, which it does not cite" for name in imported(text) if name not in cited]
        for name in declared(path, text):
            count += 1
            if not cited.get(name) and not everywhere[name] - {path} and name not in named:
                wrong.append(f"{place} has {name}, which nothing cites")
    for line in wrong:
        print("proofs: " + line)
    if not wrong:
        print(f"proofs: {len(proofs)} files of proofs search by no answer, bring in what they cite, and prove {count} laws that something cites")
    return 1 if wrong else 0


sys.exit(main())
