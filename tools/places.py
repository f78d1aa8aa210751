#!/usr/bin/env python3
"""Counts the places in crates/*/src that docs/DESIGN-PASS.md speaks of, point by point.

    python3 tools/places.py [FOLDER]

FOLDER is a checkout; without it, this one. What no pattern finds is counted there by reading, and the page says so.
"""

import collections
import pathlib
import re
import sys

ROOT = pathlib.Path(sys.argv[1] if len(sys.argv) > 1 else pathlib.Path(__file__).resolve().parent.parent)
HEAD = re.compile(r"^( *)(?:pub )?(?:extern \"C\" )?fn (\w+)(?:<[^>]*>)?\(")
WORD = re.compile(r"[A-Za-z_]\w*|\d+|\S")
KEPT = set("if else while for in match return let mut loop break true false as".split())


def sources():
    for path in sorted((ROOT / "crates").glob("*/src/*.rt")):
        text = "\n".join(line.split("//")[0].rstrip() for line in path.read_text().split("\n"))
        yield path.relative_to(ROOT / "crates"), text


def functions():
    """Each function with its crate, name, parameters, clauses and body."""
    for path, text in sources():
        lines = text.split("\n")
        for n, line in enumerate(lines):
            head = HEAD.match(line)
            if not head:
                continue
            end = next(m for m in range(n, len(lines)) if lines[m] == head[1] + "}")
            opened = next(m for m in range(n, end) if lines[m].endswith("{"))
            top = "\n".join(lines[n:opened + 1])
            depth = [i for i in range(head.end(), len(top)) if top[:i + 1].count("(") == top[:i + 1].count(")")][0]
            yield path.parts[0], head[2], top[head.end():depth], top[depth + 1:].rstrip("{ \n"), "\n".join(lines[opened + 1:end]) + "\n"


def shape(body):
    return " ".join(w if w in KEPT or not re.match(r"\w", w) else "#" if w[0].isdigit() else "i" for w in WORD.findall(body))


def listed(title, places):
    places = list(places)
    print(f"{title}: {len(places)}")
    for place in places:
        print("   ", place)


def enums():
    for path, text in sources():
        for found in re.finditer(r"^ *(?:pub )?enum (\w+)[^{]*\{(.*?)^\}", text, re.M | re.S):
            variants = ", ".join(re.findall(r"^    (\w+)", found[2], re.M))
            yield f"{path.parts[0]}::{found[1]} ({variants})"


def flags():
    for path, text in sources():
        for found in re.finditer(r"^ *(?:pub )?struct (\w+)[^{;]*\{(.*?)^\}", text, re.M | re.S):
            names = re.findall(r"(\w+): bool", found[2])
            if names:
                yield f"{path.parts[0]}::{found[1]} ({', '.join(names)})"


def number_answers():
    for crate, name, _, clauses, _ in functions():
        if crate != "cobleskeg_c" and re.search(r"-> u8\s", clauses + "\n"):
            yield f"{crate}::{name}"


def twins():
    groups = collections.defaultdict(list)
    for crate, name, _, _, body in functions():
        if len(WORD.findall(body)) >= 14:
            groups[shape(body)].append(f"{crate}::{name}")
    return [", ".join(names) for names in groups.values() if len(names) > 1]


def loops():
    counted, bits, other = [], [], []
    for crate, name, _, _, body in functions():
        for found in re.finditer(r"^( *)while (.*?) \{$(.*?)^\1\}$", body, re.M | re.S):
            place = f"{crate}::{name} (while {found[2]})"
            index = re.search(r"(\w+) [+-]= 1;", found[3])
            if "words::lowest" in found[3] and "words::singleton" in found[3] + body and re.match(r"(rest|pending) != 0", found[2]):
                bits.append(place)
            elif index and re.search(rf"\b{index[1]}\b", found[2]):
                counted.append(place)
            else:
                other.append(place)
    return counted, bits, other


def facts():
    held = collections.defaultdict(set)
    for crate, name, _, clauses, _ in functions():
        for clause in re.findall(r"requires(?: \w+)? \{(.*?)\}\s*(?=ensures|requires|\Z)", clauses, re.S):
            for fact in re.sub(r"\s+", " ", clause.strip()).split(" × "):
                fact = fact[1:-1] if fact.startswith("(") and fact.endswith(")") else fact
                held[re.sub(r"\.(old|now|entry)\b", "", fact)].add(f"{crate}::{name}")
    return sorted((f"{len(v)} {k}" for k, v in held.items() if len(v) >= 3), key=lambda t: -int(t.split()[0]))


def travelling():
    held = collections.defaultdict(set)
    for crate, name, parameters, _, _ in functions():
        names = [re.sub(r"\s+", " ", p).strip() for p in parameters.split(",") if p.strip()]
        for i, first in enumerate(names):
            for second in names[i + 1:]:
                held[f"{first}, {second}"].add(f"{crate}::{name}")
    return sorted((f"{len(v)} {k}" for k, v in held.items() if len(v) >= 5), key=lambda t: -int(t.split()[0]))


def switches():
    for crate, name, _, _, body in functions():
        for found in re.finditer(r"^( *)match (.*?) \{$(.*?)^\1\}$", body, re.M | re.S):
            arms = len(re.findall(rf"^{found[1]}    \S.* =>", found[3], re.M))
            if arms >= 4:
                yield f"{crate}::{name} ({arms} arms of {found[2]})"


def answers():
    count = lines = 0
    for path in (ROOT / "crates").glob("*/proofs/**/Answers.antt"):
        text = path.read_text()
        count += len(re.findall(r"^pub ", text, re.M))
        lines += text.count("\n")
    return count, lines


def main():
    listed("1. enums", enums())
    listed("1. structs with a flag", flags())
    listed("1. functions that answer a u8, but for C", number_answers())
    listed("1. refusals written as numbers", (f"{path.parts[0]} {n}" for path, text in sources() for n in re.findall(r"Refused\((\d+)\)", text)))
    listed("2. functions with bodies of one shape", twins())
    counted, bits, other = loops()
    listed("3. loops that count by hand", counted)
    listed("3. loops that take a word's bits by hand", bits)
    listed("3. other while loops", other)
    listed("4. bytes of numbers by hand", (f"{crate}::{name}" for crate, name, _, _, body in functions() if re.search(r"256 \*|[%/] 256", body)))
    listed("5. facts that three or more functions require", facts())
    listed("5. pairs of parameters of five or more functions", travelling())
    listed("7. switches of four or more arms", switches())
    print("8. answers, and their lines:", *answers())


main()
