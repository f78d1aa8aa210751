# The version that include/cobleskeg.h keeps is the one that every other place has.
import re
from promises import ROOT

HEADER = "include/cobleskeg.h"
PARTS = ("MAJOR", "MINOR", "PATCH")
DOTTED = r"(\d+)\.(\d+)\.(\d+)"
CRATE = r'^name = "cobleskeg"\nversion = "' + DOTTED + '"$'

# From each file to how the version stands there, its parts one after the other; the first match counts.
DOTTED_PLACES = {
    "CHANGELOG.md": r"^## " + DOTTED + "$",
    "bindings/rust/Cargo.toml": CRATE,
    "bindings/rust/Cargo.lock": CRATE,
    "compare/Cargo.lock": CRATE,
    "crates/cobleskeg_c/specs/Version.antt": r"^version = 10000 \* (\d+) \+ 100 \* (\d+) \+ (\d+)$",
}
# The same in one number, which the contract of `cobleskeg_version` holds to the definition.
NUMBER = "crates/cobleskeg_c/src/lib.rt", r"^const VERSION: u32 = (\d+);$"


def found(path, pattern):
    """The numbers of the pattern's first match, or none."""
    match = re.search(pattern, (ROOT / path).read_text(), re.MULTILINE)
    return tuple(int(number) for number in match.groups()) if match else ()


def wrong():
    """A line for each place that has another version, or none."""
    kept = sum((found(HEADER, rf"^#define COBLESKEG_VERSION_{part} (\d+)$") for part in PARTS), ())
    if len(kept) != 3 or max(kept[1:]) > 99:
        return [f"{HEADER} has no version of three parts, the last two below 100: {kept}"]
    places = {path: (found(path, pattern), kept) for path, pattern in DOTTED_PLACES.items()}
    places[NUMBER[0]] = found(*NUMBER), (10000 * kept[0] + 100 * kept[1] + kept[2],)
    return [f"{path} has the version {got or 'none'}, and {HEADER} {wanted}" for path, (got, wanted) in places.items() if got != wanted]
