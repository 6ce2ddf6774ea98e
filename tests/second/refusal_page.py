"""What docs/REFUSALS.md says of calls made singly, read from the page.

The tables are read from the page itself, so that a run is held against it
as it stands.
"""

import re
from pathlib import Path

PAGE = Path(__file__).resolve().parents[2] / "docs" / "REFUSALS.md"


def numbers_in(text):
    """The numbers in a text such as 9, 10 and 12."""
    return [int(digits) for digits in re.findall(r"\d+", text)]


def refusals_of_calls():
    """For each call by name, the refusals that it can give."""
    rows = re.findall(r"^\| \d+ ([A-Z][a-z]+) \| (.+) \|$",
                      PAGE.read_text("utf-8"), re.MULTILINE)
    return {name: {2, *numbers_in(cell)} for name, cell in rows}


def pairs():
    """The pairs of reasons from 7 on that can hold for one call."""
    text = PAGE.read_text("utf-8")
    found = set()
    for pair in re.findall(r"^\| (\d+) \| (\d+) \| ", text, re.MULTILINE):
        found.add(tuple(map(int, pair)))
    sevens, eights = re.search(
        r"7 can hold with ([^.;]+), and 8 with ([^.;]+);", text).groups()
    for least, others in ((7, sevens), (8, eights)):
        found.update((least, other) for other in numbers_in(others)
                     if other > least)
    return found
