"""The worked examples of the program listing in docs/FORMATS.md.

Batches and outputs are read from the page itself, so that an example that
is changed there is compared as it stands.
"""

import re
from pathlib import Path

import codec
from codec import Record

PAGE = Path(__file__).resolve().parents[2] / "docs" / "FORMATS.md"

# The inputs of the page's last table, which gives some of them in words.
SMALL_EXAMPLES = (
    ("docks", b""),
    ("docks", bytes.fromhex("00 00 18")),
    ("docks", bytes.fromhex("01 00 19 00")),
    ("docks", bytes.fromhex("01 04 18 00")),
    ("docks", bytes.fromhex("01 00 18 00")),
    ("docks", codec.pack([Record(19)])),
    ("docks", codec.pack([Record(7, n1=1, n3=1)])),
    ("docks", codec.pack([Record(5, name=b"BILL ING")])),
    ("forms", codec.pack([Record(6)])),
)


def blocks(text):
    """The blocks of code in the page, without their fences."""
    return [block.lstrip("\n") for block in text.split("```")[1::2]]


def examples():
    """Kind and bytes of each example; whole batches with either kind."""
    for block in blocks(PAGE.read_text("utf-8")):
        if re.fullmatch(r"([0-9a-f]{2}\s+)+", block):
            for kind in codec.KINDS:
                yield kind, bytes.fromhex(block)
    yield from SMALL_EXAMPLES


def outputs():
    """The outputs of listing that the page shows, in blocks and a table."""
    text = PAGE.read_text("utf-8")
    for block in blocks(text):
        if re.match(r"batch \d", block) or " written back " in block:
            yield block
    for lines in re.findall(r"\| `(batch \d \S+)` \| `(.+)` \|\n", text):
        yield "".join(line + "\n" for line in lines)
