"""What `board --fix` mends: how a text is put down, never what it says. No number is changed.

Each step takes the lines of the text, and gives the lines after it with the rows that it changed.
"""
from typing import NamedTuple

from desk.numbers import value_of
from desk.records import ROWS, counts_of
from desk.texts import BLANKS, MARK, Line, is_void, joined, lines_of, wide


class Change(NamedTuple):
    """What was mended, in words, and the rows of it, counted from 1 in the text as it came; none where it is the whole text."""
    name: str
    words: str
    rows: tuple

    def settles(self, row):
        return not self.rows or row in self.rows


def plain(text):
    """UTF-16 becomes plain text. A text that does not decode as a whole stays as it is."""
    found = wide(text)
    if not found:
        return text, []
    try:
        content = text[len(found.mark):].decode(found.codec).encode("utf-8")
    except UnicodeError:
        return text, []
    return content, [Change("encoding", f"{found.codec[:6].upper()} became plain text, one byte to a character", ())]


def unmarked(text):
    bare = text
    while bare.startswith(MARK):
        bare = bare[len(MARK):]
    return bare, [Change("mark", "the byte order mark at the beginning was removed", (1,))] if bare != text else []


def by_row(name, words, one):
    """A step that mends each row by itself: `one` gives the content of a row as it should be."""
    def step(lines):
        new = [Line(one(line.content), line.end) for line in lines]
        rows = tuple(k + 1 for k, (old, mended) in enumerate(zip(lines, new)) if old != mended)
        return new, [Change(name, words, rows)] if rows else []
    return step


def with_crlf(lines):
    """Every line end becomes CRLF; a last line without an end stays without, which the program accepts."""
    new = [Line(line.content, b"\r\n" if line.end else b"") for line in lines]
    rows = tuple(k + 1 for k, line in enumerate(lines) if line.end not in (b"\r\n", b""))
    return new, [Change("line ends", "line ends became CRLF", rows)] if rows else []


def without_last_blanks(lines):
    """Blank rows at the end go. One between others stays: a row may be missing there, and the buses would be counted wrongly."""
    kept = len(lines)
    while kept and is_void(lines[kept - 1]):
        kept -= 1
    if kept in (0, len(lines)):
        return lines, []
    return lines[:kept], [Change("blank rows", "blank rows at the end were removed", tuple(range(kept + 1, len(lines) + 1)))]


def with_commas(lines):
    """Semicolons become commas where the text has no comma, and tabs do where it has neither."""
    text = joined(lines)
    for separator, name in (b";", "semicolons"), (b"\t", "tabs"):
        if b"," not in text and separator in text:
            return by_row("separators", f"{name} became commas",
                          lambda content, one=separator: content.replace(one, b","))(lines)
    return lines, []


def without_blanks(content):
    return b",".join(field.strip(BLANKS) for field in content.split(b","))


def letter_of(content):
    """The row letter that a row begins with, capital or small; nothing where it is none."""
    letter = content.split(b",")[0].decode("latin-1").upper()
    return letter if letter in ROWS else ""


def without_last_separators(content):
    """Commas behind the last field go, where the row then has as many fields as its letter and its kind want."""
    letter = letter_of(content)
    fields = content.split(b",")
    for wanted in counts_of(letter, [value_of(field) for field in fields[1:]]) if letter else ():
        if not any(fields[wanted + 1:]):
            return b",".join(fields[:wanted + 1])
    return content


def with_capital(content):
    """A small letter alone before the first comma, in a row with as many fields as that letter wants, can mean nothing else."""
    letter = letter_of(content)
    fits = letter and content.count(b",") in counts_of(letter)
    return content[:1].upper() + content[1:] if fits else content


STEPS = (
    with_crlf,
    without_last_blanks,
    with_commas,
    by_row("blanks", "blanks around fields were removed", without_blanks),
    by_row("last separators", "separators behind the last field were removed", without_last_separators),
    by_row("letters", "small row letters became capitals", with_capital),
)


def mended(text):
    """The text as it should be, as far as that is certain, and the changes."""
    text, decoded = plain(text)
    bare, bared = unmarked(text)
    if wide(bare) and not decoded:  # a UTF-16 text that is damaged or stands behind another mark: its bytes mean nothing one by one
        return text, []
    lines, changes = lines_of(bare), decoded + bared
    for step in STEPS:
        lines, more = step(lines)
        changes = changes + more
    return joined(lines), changes
