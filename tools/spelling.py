#!/usr/bin/env python3
"""Brings the names of definitions and lemmas in specs/ and proofs/ to the library's spelling.

usage: python3 tools/spelling.py            at the top of the repository: rewrites crates/, docs/ and tests/ in place
       python3 tools/spelling.py --list     prints the old and the new names, and changes nothing

A name of a function, a lemma, a field or a constructor is in snake case: `noneFrom` becomes `none_from`. A dash joins the names of two definitions and nothing
else: `length-append` stays, `none-below` becomes `none_below`. Types, facts and modules keep their capitals. Names that Rattle makes for a function's goals stay,
and so does whatever stands in src/ outside of clauses. The name is taken as a whole word, in comments only where it cannot be a word of the language.
"""

import os
import re
import sys

TOKEN = re.compile(r"[^\s(){}.,;\"«»`\[\]|]+")
DECLARED = re.compile(r"^(?P<in> *)(?:(?:pub|abbrev|unfoldable) )*(?P<names>[^\s(){}.,;:\"«»=λ→]+(?: [^\s(){}.,;:\"«»=λ→]+)*) : ?")
KEYWORDS = {"let", "in", "where", "use", "open", "record", "data", "module", "elim", "as", "rw", "pub", "mod", "abbrev", "unfoldable", "unfolding", "if", "then", "else"}

# Words of the library that are names there, so that a dash may join them.
LIBRARY = {
    "append", "cons", "nil", "length", "take", "drop", "map", "flat_map", "reverse", "set", "get_or", "replicate", "suc", "zero", "add", "sub", "mul", "pow", "mod", "div",
    "and", "or", "not", "any", "all", "filter", "cond", "eqb", "leb", "ltb", "bind", "some", "none", "select", "shl", "shr", "bit_and", "bit_or", "sum", "concat",
}


def snake(token):
    token = {"getD": "get_or", "getElem": "get_elem"}.get(token, token)
    return re.sub(r"(?<=[a-z0-9])([A-Z])", lambda m: "_" + m.group(1).lower(), token)


def files(top, ends):
    for root, folders, names in os.walk(top):
        folders[:] = sorted(f for f in folders if f not in ("out", "target", ".git"))
        for name in sorted(names):
            if name.endswith(ends):
                yield os.path.join(root, name)


def read(path):
    with open(path, encoding="utf-8") as f:
        return f.read()


def uncommented(text):
    return "\n".join(re.sub(r"(^|\s)--( .*|-*)?$", "", line) for line in text.split("\n"))


def declared():
    """The names that files of specs/ and proofs/ declare. In a function's folder one with a dash may be an answer's, which Rattle names."""
    names = set()
    for path in files("crates", (".antt",)):
        answers = os.path.basename(path) in ("Proof.antt", "Answers.antt", "Invariants.antt")
        for line in uncommented(read(path)).split("\n"):
            m = DECLARED.match(line)
            if not m:
                continue
            words = m.group("names").split(" ")
            if any(w in KEYWORDS for w in words):
                continue
            names.update(w for w in words if re.match(r"[a-z]", w) and not re.fullmatch(r"[a-z][A-Z]\W*", w) and ("-" not in w or not answers))
    return names


def respelled(name, known):
    """The name in the library's spelling: `known` are the words that are names of definitions."""
    parts = [snake(p) for p in name.split("-")]
    out = parts[0]
    for before, after in zip(parts, parts[1:]):
        joined = before in known and after in known
        out += ("-" if joined else "_") + after
    return out


def table():
    names = declared()
    functions = set()
    for path in files("crates", (".rt",)):
        functions.update(re.findall(r"\bfn (\w+)", read(path)))
    known = {snake(n) for n in names if "-" not in n} | LIBRARY | functions
    renamed = {}
    for name in sorted(names):
        if "-" not in name and not re.search(r"[a-z0-9][A-Z]", name):
            continue
        new = respelled(name, known)
        if new != name:
            renamed[name] = new
    # Where two names would fall together, or one with another word of a file that has it, the dash stays.
    words = {}
    for path in files("crates", (".antt",)):
        for token in set(TOKEN.findall(uncommented(read(path)))):
            words.setdefault(token, set()).add(path)
    taken = {}
    for old, new in sorted(renamed.items()):
        taken.setdefault(new, []).append(old)
    for old, new in sorted(renamed.items()):
        if len(taken[new]) > 1 or words.get(new, set()) & words.get(old, set()) or new in names:
            dashed = "-".join(snake(p) for p in old.split("-"))
            if dashed == old:
                del renamed[old]
            else:
                renamed[old] = dashed
    return renamed


def replaced(text, renamed, only=None):
    def turn(m):
        word = m.group(0)
        return renamed.get(word, word) if only is None or only(word) else word
    return TOKEN.sub(turn, text)


def turn_antt(text, renamed):
    out = []
    for line in text.split("\n"):
        m = re.search(r"(^|\s)--( .*|-*)?$", line)
        code, comment = (line[:m.start()], line[m.start():]) if m else (line, "")
        out.append(replaced(code, renamed) + replaced(comment, renamed, lambda w: "-" not in w))
    return "\n".join(out)


def turn_rt(text, renamed):
    """Of a source file only what Rattle's clauses and ghost imports say: names in camel case stand nowhere else."""
    return re.sub(r"[^\W\d][\w'-]*", lambda m: renamed.get(m.group(0), m.group(0)) if "-" not in m.group(0) else m.group(0), text)


def main():
    renamed = table()
    if sys.argv[1:] == ["--list"]:
        for old, new in sorted(renamed.items()):
            print(old, new)
        return
    for path in files("crates", (".antt", ".rt")):
        text = read(path)
        new = turn_antt(text, renamed) if path.endswith(".antt") else turn_rt(text, renamed)
        if new != text:
            with open(path, "w", encoding="utf-8") as f:
                f.write(new)
    for top in ("README.md", "docs"):
        for path in [top] if os.path.isfile(top) else files(top, (".md",)):
            text = read(path)
            new = re.sub(r"`([^`\n]+)`", lambda m: "`" + replaced(m.group(1), renamed) + "`", text)
            if new != text:
                with open(path, "w", encoding="utf-8") as f:
                    f.write(new)


if __name__ == "__main__":
    main()
