# The example of docs/FORMAT.md: its bytes as the document lists them, the text that they are to be packed from, the answer that it gives, and the calls of
# the builder that make the same file, which a test of the Rust crate runs. And the automaton with gaps, and with a sink, that the document lists before it.
import re
import sys
from promises import ROOT

sys.path.insert(0, str(ROOT / "tools"))
import packing
import textform

DOCUMENT = ROOT / "docs" / "FORMAT.md"
BUILT = ROOT / "bindings" / "rust" / "tests" / "builder.rs"
BLOCK = r"(?:^    .*\n)+"  # lines that are indented
LISTED = "alphabet 0..2\nautomaton d\nstate q0 0 to q1\naccepting q1 1 to q1\n"
SUNK = "alphabet 0..2\nautomaton d\nstate q0 0 to q1, other to q2\naccepting q1 1 to q1, other to q2\nstate q2 any to q2\n"
BYTES = re.compile(r"^ *(\d+)  (?:00 x (\d+)|((?:[0-9a-f]{2} )*[0-9a-f]{2}))  +\S")


def block(first):
    """The indented lines that begin with this word."""
    blocks = [found[0] for found in re.finditer(BLOCK, DOCUMENT.read_text(), re.MULTILINE) if found[0].split()[0] == first]
    return "".join(line[4:] + "\n" for line in blocks[0].splitlines()) if len(blocks) == 1 else ""


def listed():
    """The bytes, and the first column of each line with the count of bytes before it."""
    content, columns = b"", []
    for line in block("0").splitlines():
        found = BYTES.match(line)
        at, zeros, digits = found.groups() if found else (-1, "0", None)
        columns.append((int(at), len(content)))
        content += bytes.fromhex(digits) if digits else bytes(int(zeros))
    return content, columns


def answer():
    """What the document says that the program prints of the file."""
    return block("found").encode()


def wrong():
    """A line for each thing in which the example is not the file that its text is packed into."""
    content, columns = listed()
    said = [f"docs/FORMAT.md lists {at} where {before} bytes are listed before it" for at, before in columns if at != before]
    text = block("alphabet")
    try:
        packed = packing.pack(textform.read("docs/FORMAT.md", text.encode()))
    except textform.Wrong as error:
        return said + [str(error)]
    if content != packed:
        said.append(f"docs/FORMAT.md lists {len(content)} bytes that are not the {len(packed)} of its text")
    sunk = re.search(r"With a\nsink, state 2, it has 14: `([0-9a-f ]+)`", DOCUMENT.read_text())
    for what, digits, written in (("gaps", block("02"), LISTED), ("a sink", sunk[1] if sunk else "", SUNK)):
        if bytes.fromhex(digits) != packing.pack(textform.read(what, written.encode()))[: -packing.TRAILER]:
            said.append(f"docs/FORMAT.md lists other bytes for the automaton with {what}")
    calls = "".join("    " + line + "\n" for line in block("let").splitlines())
    if not calls or calls not in BUILT.read_text():
        said.append(f"the builder's calls in docs/FORMAT.md are not those of {BUILT.relative_to(ROOT)}")
    return said
