# crates.txt lists for each crate the crates and libraries that it names, and no others. The prover refuses a name of one that is not listed; this is for those
# that are listed and not named.
import re
from promises import ROOT

LIST = ROOT / "crates.txt"
GIVEN = {"std"}  # every crate has it without asking
PARTS = ("src", "specs", "proofs")  # `rt` keeps copies of texts in a crate's folder `out`


def listed():
    """From each crate to what crates.txt lists for it; a word behind the name of a crate says that it is a static library."""
    lines = (line.split(":") for line in LIST.read_text().splitlines() if line.strip())
    return {kind.split()[0]: set(rest.split()) for kind, rest in lines}


def named(crate):
    """What the sources, specifications and proofs of a crate name: `Rattle.words.specs` in either, `words::has` in code."""
    names = set()
    for path in (path for part in PARTS for path in (ROOT / "crates" / crate / part).rglob("*")):
        if path.suffix in (".antt", ".rt"):
            names |= set(re.findall(r"Rattle\.(\w+)\.", path.read_text()))
        if path.suffix == ".rt":
            code = re.sub(r"//.*", "", path.read_text())
            names |= set(re.findall(r"(?<![\w:])([a-z_]+)::", code))
    return names - {crate} - GIVEN


def wrong():
    crates = listed()
    libraries = set().union(*crates.values())
    return [
        f"crates.txt lists {' '.join(sorted(rest))} for {crate}, which names {' '.join(sorted(named(crate) & libraries))}"
        for crate, rest in crates.items()
        if rest != named(crate) & libraries
    ]
