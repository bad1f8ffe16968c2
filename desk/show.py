"""A row of a file made visible, with marks (^) under the places that a sentence speaks of.

Of a row only printable ASCII comes out, so that the marks stand right and any terminal can show it; other bytes are shown by name
or by their value, <LF> or <C3>.
"""
from typing import NamedTuple

WIDTH = 100
BEFORE = 40  # how much of a long row is shown before the first mark
NAMES = {0: "<NUL>", 9: "<TAB>", 10: "<LF>", 13: "<CR>"}


class Finding(NamedTuple):
    """Something wrong in a row: a sentence, the places in the row's bytes as (start, end), and the mend that settles it."""
    words: str
    places: tuple = ()
    mend: str = ""


def printable(byte):
    return chr(byte) if 32 <= byte < 127 else NAMES.get(byte, f"<{byte:02X}>")


def shown(content):
    """Some bytes within a sentence."""
    text = "".join(map(printable, content[:40]))
    return f"`{text}`" if len(content) <= 40 else f"`{text} ..`"


def visible(words):
    """A sentence with something of a file in it, on one line: what cannot be printed comes by its code."""
    return "".join(c if c.isprintable() else f"<{ord(c):02X}>" for c in words)


def stretch(row, first):
    """Which bytes of a row are shown, from `first` on: as many as fit the width."""
    width, last = 0, first
    while last < len(row) and width + len(printable(row[last])) <= WIDTH:
        width += len(printable(row[last]))
        last += 1
    return last


def is_marked(place, places):
    """An empty place, such as an empty field or the end of the row, is marked by the column that follows it."""
    return any(start <= place < max(end, start + 1) for start, end in places)


def picture(heading, row, places):
    """The row behind its heading, and where there are places a second line with the marks."""
    begin = min((start for start, _ in places), default=0)
    fits = stretch(row, 0) == len(row)
    first = 0 if fits or begin <= BEFORE else begin - BEFORE
    last = stretch(row, first)
    lead = ".. " if first else ""
    pieces = [printable(byte) for byte in row[first:last]]
    line = heading + lead + "".join(pieces) + (" .." if last < len(row) else "")
    if not places:
        return line.rstrip()
    marks = [("^" if is_marked(first + k, places) else " ") * len(piece) for k, piece in enumerate(pieces)]
    end = "^" if last == len(row) and is_marked(last, places) else ""
    return line + "\n" + (" " * len(heading + lead) + "".join(marks) + end).rstrip()
