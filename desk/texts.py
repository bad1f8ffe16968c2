"""How a text is put down in bytes: its encoding, its byte order mark and its lines, whatever ends them."""
import codecs
import re
from typing import NamedTuple

# No study has a sixteenth of this; what is longer (a wrong file, a device without an end) is read no further.
MOST_READ = 1_048_576
# The longer marks first: that of UTF-32 begins as that of UTF-16 does.
WIDE_MARKS = (
    (codecs.BOM_UTF32_LE, "utf-32-le"),
    (codecs.BOM_UTF32_BE, "utf-32-be"),
    (codecs.BOM_UTF16_LE, "utf-16-le"),
    (codecs.BOM_UTF16_BE, "utf-16-be"),
)
MARK = codecs.BOM_UTF8
BLANKS = b" \t"
# CR CR LF is what a CRLF becomes where a program turns each LF into CRLF once more.
LINE_END = re.compile(rb"\r+\n|\n|\r")


class Wide(NamedTuple):
    """An encoding with more than one byte to a character, and the mark that the text begins with, if it has one."""
    codec: str
    mark: bytes


class Line(NamedTuple):
    content: bytes
    end: bytes


def wide(text):
    """The wide encoding of a text, or None. Without a mark: every second byte is 0 and no other is."""
    for mark, codec in WIDE_MARKS:
        if text.startswith(mark):
            return Wide(codec, mark)
    even, odd = text[::2], text[1::2]
    if len(text) >= 4 and not any(odd) and all(even):
        return Wide("utf-16-le", b"")
    if len(text) >= 4 and not any(even) and all(odd):
        return Wide("utf-16-be", b"")
    return None


def lines_of(text):
    """The lines with what ends each; after a last line end no line follows."""
    lines, at = [], 0
    for end in LINE_END.finditer(text):
        lines.append(Line(text[at:end.start()], end.group()))
        at = end.end()
    return lines + [Line(text[at:], b"")] if at < len(text) else lines


def is_void(line):
    """Nothing but blanks and separators, as spreadsheets leave below a table."""
    return not line.content.strip(BLANKS + b",;")


def joined(lines):
    return b"".join(line.content + line.end for line in lines)
