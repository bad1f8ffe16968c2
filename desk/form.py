"""What is wrong with a text's form, ground 16, in words: for the row that the program refused, never for another.

The program says that a row breaks the form; this module looks for the reasons. It first looks at how the text is put down
(length, encoding, line ends) and then at the row: blank rows, remarks, headers, separators; desk/fields.py has what lies between
these.
"""
import re

from desk.fields import START, of_fields, of_letter, split_at
from desk.records import MOST_BYTES, ROWS, counts_of, rows_of
from desk.show import Finding
from desk.texts import BLANKS, LINE_END, MARK, MOST_READ, Line, is_void, lines_of, wide

REMARK = re.compile(rb"#|//|--|\*|!|; ")
BEHIND = re.compile(rb"[ \t]*[0-9]+([ \t]+[^ \t].*)", re.DOTALL)  # a number, blanks, and something behind them
LETTER = re.compile(rb"[A-Za-z]")


def findings(text, number):
    """What is wrong in the row of that number; nothing where no reason is found."""
    whole = of_length(text) + of_encoding(text)
    rows = rows_of(text)
    if whole or not 0 < number <= len(rows):
        return whole
    row = rows[number - 1]
    begin = len(MARK) if row.startswith(MARK) else 0
    end = LINE_END.search(row, begin)
    line = row[begin:end.start() if end else len(row)]
    found = of_mark(begin) + of_line_end(text, row, end, number < len(rows) or text.endswith(b"\r\n"))
    return found + moved(of_line(text, line, number), begin)


def moved(found, by):
    return [one._replace(places=tuple((start + by, end + by) for start, end in one.places)) for one in found]


# ---- the whole text

def of_length(text):
    if not text:
        return [Finding(f"The file is empty: {START}, and the buses and sources follow.")]
    if len(text) > MOST_BYTES:
        size = f"{len(text):,}" if len(text) <= MOST_READ else f"more than {MOST_READ:,}"
        return [Finding(f"The file is too long, {size} bytes: a study has at most {MOST_BYTES:,}.", mend="length")]
    return []


def of_encoding(text):
    found = wide(text)
    if not found:
        return []
    name, order = found.codec[:6].upper(), "little" if found.codec.endswith("le") else "big"
    mark = "with its byte order mark" if found.mark else "without a byte order mark"
    place = (0, len(found.mark)) if found.mark else (1, 2) if order == "little" else (0, 1)
    return [Finding(f"The whole file is in {name} ({order} end first, {mark}), with {name[4:]} bits to a character: "
                    "a study is plain text, one byte to a character.", (place,), "encoding")]


def of_mark(length):
    if not length:
        return []
    return [Finding("A byte order mark (the bytes EF BB BF) stands before the first character: a study has none.",
                    ((0, length),), "mark")]


def of_line_end(text, row, end, closed):
    """A CR or an LF within the row, which is no end of a row to the program. `closed`: a CRLF follows the row."""
    if not end:
        return []
    ends = [line.end for line in lines_of(text) if line.end]
    doubled = closed and end.end() == len(row) and b"\n" not in end.group()
    mark = b"\r\r\n" if doubled else end.group()
    name = {b"\n": "LF alone", b"\r": "CR alone"}.get(mark, "more than one CR before its LF")
    return [Finding(f"The row ends with {name}{as_others(ends.count(mark), len(ends))}: a row of a study ends with CR and LF "
                    "together (CRLF).", (end.span(),), "line ends")]


def as_others(same, rows):
    """How many rows of the file end like this one."""
    if same <= 1:
        return ", the only row of the file that does" if same < rows else ""
    return f", as all {same:,} rows of the file do" if same == rows else f", as {same:,} of the file's {rows:,} rows do"


# ---- a row

def of_line(text, line, number):
    """What is wrong with a row, its line end apart."""
    bare = line.strip(BLANKS)
    if is_void(Line(line, b"")):
        return of_blank(text, line, number)
    if REMARK.match(bare):
        return [Finding("The row is a remark: a study has no remarks.", ((0, len(line)),))]
    if is_header(bare):
        return [Finding(f"The row looks like a header, words in place of numbers: a study has none, and {START}.",
                        ((0, len(line)),))]
    end = words_behind(line)
    behind = [Finding("Words stand behind the last number: a row ends with its last field.", ((end, len(line)),))]
    places, separators = cut_up(text, line[:end])
    return separators + of_letter(text, line, places[0], number) + of_fields(line, places) + (behind if end < len(line) else [])


def of_blank(text, line, number):
    """A row without a letter and a number."""
    last = all(is_void(below) for below in lines_of(text)[number:])  # the rows above were accepted, so they are lines as well
    what = "has separators alone" if line.strip(BLANKS) else "is blank"
    where = ("at the end of the file: a study ends with its last record" if last else
             "between others: either it goes, or a record is missing in its place")
    return [Finding(f"The row {what}, {where}.", ((0, len(line)),), "blank rows")]


def is_header(bare):
    """Words alone: the first is no row letter, and nothing between separators is a number."""
    parts = [part.strip(b" \t\"'") for part in re.split(rb"[,;\t]", bare)]
    numbers = any(re.search(rb"^[+-]?[0-9]", part) for part in parts)
    worded = len(parts) > 1 and all(LETTER.search(part) for part in parts[:2])
    return worded and not numbers and parts[0].upper().decode("latin-1") not in ROWS


def wanted(line):
    """How many fields the row's letter wants, the most first; nothing where it is no row letter."""
    letter = line.strip(b" \t\"'")[:1].upper().decode("latin-1")
    return counts_of(letter)[::-1] if letter in ROWS else ()


def words_behind(line):
    """Where words begin that stand behind the last field of a row, as a person would remark on it; else the row's end."""
    places = split_at(line, b",;")
    for count in wanted(line):
        found = BEHIND.fullmatch(line, places[count][0]) if count < len(places) else None
        if found and LETTER.search(found.group(1)):
            return found.start(1)
    return len(line)


def cut_up(text, line):
    """Where the parts of a row stand, its letter first, and what is wrong with the separators between them."""
    if b";" in line:
        alone = b"," not in line or len(split_at(line, b";")) - 1 in wanted(line)
        return split_at(line, b";" if alone else b",;"), [of_separators(text, line, b";", "Semicolons")]
    if b"\t" in line.strip(BLANKS) and b"," not in line:
        return split_at(line, b"\t"), [of_separators(text, line, b"\t", "Tabs")]
    return split_at(line, b","), []


def of_separators(text, line, separator, name):
    lines = [one.content for one in lines_of(text)]
    rows = sum(separator in one for one in lines)
    many = f"all {rows:,} rows" if rows == len(lines) else f"{rows:,} of {len(lines):,} rows"
    places = tuple((at, at + 1) for at, byte in enumerate(line) if byte == separator[0])
    commas = "; commas stand in the file as well, so that it is not certain which are meant" if b"," in text else ""
    return Finding(f"{name} stand between the fields, in {many}: fields are separated by commas{commas}.", places, "separators")
