"""Broken text: what may stand in a file besides the agreed form."""

from accept import BUSES, SOURCES
from networks import write_file, write_row
from refusals import BASE, GREATEST, NearMiss, filled, lone_bus

TEXT = write_file(6, BASE)
UNIT_TEXT = write_file(6, BASE[:3] + BASE[-1:])
SMALL = write_file(6, lone_bus(20000))
WRONG_FIELDS = [
    b"",
    b" ",
    b'"6"',
    b'"',
    b"+6",
    b"-6",
    b"-0",
    b"06",
    b"00",
    b" 6",
    b"6 ",
    b"6.0",
    b"6e0",
    b"0x6",
    b"6\t",
    b"6\x00",
    b"\x00",
    b"\xff",
    b"6\xff",
    b"\xd9\xa6",
    b"\xef\xbb\xbf6",
    b"4294967296",
    b"4294967302",
    b"9999999999",
    b"10000000000",
    b"42949672950",
    b"00000000006",
    b"0000000006",
    b"18446744073709551622",
    b"6;",
    b":",
    b"/",
    b"\r",
    b"\n",
]


def field_spans(text):
    """(row, start, end) of every field, letters included."""
    spans, row, start = [], 1, 0
    for i, byte in enumerate(text):
        if byte in b",\r":
            spans.append((row, start, i))
        if byte in b",\n":
            start = i + 1
        row += byte == 10
    return spans


def field_faults():
    """Each wrong field at each place of a small file, and at what a unit alone has: ground 16 at its row."""
    places = [(SMALL, span) for span in field_spans(SMALL)]
    places += [(UNIT_TEXT, span) for span in field_spans(UNIT_TEXT)[-5:]]
    found = []
    for whole, (row, start, end) in places:
        for wrong in WRONG_FIELDS:
            text = whole[:start] + wrong + whole[end:]
            found.append(NearMiss(f"ground 16: {wrong!r} at byte {start}", text, 16, row))
    return found


def broken(name, text, row):
    return NearMiss(f"ground 16: {name}", text, 16, row)


def letter_faults():
    """Wrong letters and wrong counts of fields."""
    found = []
    root, feeder = (write_row(*row) for row in lone_bus(20000))
    starts = [b"s,6", b"S", b"S,", b"S,6,", b"S,6,0", b"6", b"B,6", b",6", b"SS,6", b"", b"S;6"]
    for first in starts:
        found.append(broken(f"row 1 is {first!r}", b"\r\n".join([first, root, feeder]), 1))
    found.append(broken("no start", b"\r\n".join([root, feeder]), 1))
    found.append(broken("start last", b"\r\n".join([root, feeder, b"S,6"]), 1))
    head = b"S,6\r\n" + root + b"\r\n"
    wrong_rows = [b"S,6", b"S,7", b"b" + root[1:], b"p" + feeder[1:], root + b",0", feeder + b","]
    wrong_rows += [root[:-5], feeder[:-2], b"P" + root[1:], b"B" + feeder[1:], b"X,1", b",", b""]
    wrong_rows += [b"BP" + feeder[1:], b"#", b'"P"' + feeder[1:], b" " + feeder, feeder + b" "]
    for wrong in wrong_rows:
        found.append(broken(f"row 3 is {wrong!r}", head + wrong + b"\r\n" + feeder, 3))
    return found


def count_faults():
    """Sources of any other count than seven and twelve numbers, the record right, refused or a unit's."""
    head = b"".join(write_row(*row) + b"\r\n" for row in [("S", [6]), BASE[0]])
    feeder, unit = BASE[1][1], (5, 0, *BASE[-1][1][2:])
    found = []
    for name, numbers in (("feeder", feeder), ("kind 9", (9, *feeder[1:])), ("unit", unit)):
        longest = (*filled(numbers), 0, 0, 0, 0)
        for count in (*range(7), *range(8, 12), *range(13, 17)):
            text = head + write_row("P", longest[:count]) + b"\r\n"
            found.append(broken(f"{name} of {count} numbers", text, 3))
    return found


def line_end_faults():
    """Lost, doubled or lone CR and LF."""
    found = []
    for row, i in enumerate(i for i in range(len(SMALL)) if SMALL[i] == 13):
        row += 1
        behind = row + 1
        last = i + 2 == len(SMALL)
        before, after = SMALL[:i], SMALL[i + 2 :]
        for name, mark, at in (
            ("lone LF", b"\n", row),
            ("lone CR", b"\r", row),
            ("LF and CR", b"\n\r", row),
            ("doubled CR", b"\r\r\n", row),
            ("doubled LF", b"\r\n\n", behind),
            ("CR behind", b"\r\n\r", behind),
            ("doubled end", b"\r\n\r\n", behind),
        ):
            found.append(broken(f"{name} behind row {row}", before + mark + after, at))
        if not last:
            found.append(broken(f"lost end behind row {row}", before + after, row))
    return found


def whole_text_faults():
    """Texts that have no row in order at all."""
    found = []
    for name, text in (
        ("empty", b""),
        ("CRLF alone", b"\r\n"),
        ("CR alone", b"\r"),
        ("LF alone", b"\n"),
        ("NUL alone", b"\x00"),
        ("FF alone", b"\xff"),
        ("byte order mark", b"\xef\xbb\xbf" + SMALL),
        ("all bytes", bytes(range(256))),
    ):
        found.append(broken(name, text, 1))
    return found


def row_faults():
    return letter_faults() + count_faults() + line_end_faults() + whole_text_faults()


def company_of_form():
    """Broken form beside grounds of records: by rows, and form first within a row."""
    root, feeder = (write_row(*row) for row in lone_bus(20000))
    bad = write_row("B", (1, 99, 9, 9, 9, 9, 9, 9, 0, 0))
    line = write_row("B", (0, 20000, 1, 100, 300, 1000, 2, 0, 15000, 60000))
    converter = write_row("P", (4, 0, 1000, 150, 0, 0, 0))
    full_buses = [root, feeder] + [line] * (BUSES - 1)
    full_sources = [root, feeder] + [converter] * (SOURCES - 1)
    found = [NearMiss("ground 1: tolerance before form behind", b"S,7\r\n?\r\n", 1, 1)]
    for name, rows, number, row in (
        ("record before form behind", [bad, b"?"], 2, 2),
        ("form before record behind", [b"?", bad], 16, 2),
        ("form before its own record", [bad + b",1"], 16, 2),
        ("number too great in a faulty record", [bad[:-1] + b"4294967296"], 16, 2),
        ("form before closing", [root, b""], 16, 3),
        ("form before a full table of buses", full_buses + [line + b","], 16, BUSES + 3),
        ("form before a full table of sources", full_sources + [converter + b" "], 16, SOURCES + 3),
    ):
        text = b"\r\n".join([b"S,6", *rows, b""])
        found.append(NearMiss(f"ground {number}: {name}", text, number, row))
    return found


def long_texts():
    """65,536 bytes are read row by row; 65,537 are refused at row 1."""
    found = []
    for size in (65535, 65536, 65537, 70000, 131072):
        over = size > 65536
        ends, half = divmod(size - 5, 2)
        for name, text, number, row in (
            ("last row all digits", TEXT + b"9" * (size - len(TEXT)), 16, len(BASE) + 2),
            ("behind S,7", b"S,7\r\n" + b"x" * (size - 5), 1, 1),
            ("of ends", b"S,6\r\n" + b"\r\n" * ends + b"\r" * half, 16, 2),
            ("in row 1", b"S,6" + b"6" * (size - 3), 16, 1),
        ):
            number, row = (16, 1) if over else (number, row)
            found.append(NearMiss(f"ground {number}: {size} bytes, {name}", text, number, row))
    return found


def truncations():
    """Every beginning of the base file; what each gives is left to the acceptance rules."""
    return [(f"first {size} bytes", TEXT[:size]) for size in range(len(TEXT))]


def greatest_numbers():
    """2³² − 1 in each field has good form: the record's own ground is due, or none."""
    found = []
    for row, start, end in field_spans(TEXT):
        if TEXT[start:end].isdigit():
            for value in (GREATEST, 0):
                text = TEXT[:start] + str(value).encode() + TEXT[end:]
                found.append((f"{value} in row {row} at byte {start}", text))
    return found


def meant_texts():
    """Broken texts with the number and row meant."""
    return field_faults() + row_faults() + company_of_form() + long_texts()


PIECES = [b"\r", b"\n", b"\r\n", b",", b'"', b" ", b"-", b"+", b"0", b"1", b"9", b"\x00", b"\xff"]
PIECES += [b"S", b"B", b"P", b"4294967295", b"4294967296", b"\xef\xbb\xbf", b".", b"\t", b"00"]


def spoil(rng, text):
    """One to three changes of bytes at drawn places."""
    for _ in range(rng.choice([1, 1, 1, 2, 3])):
        at = rng.randrange(len(text) + 1)
        way = rng.randrange(7)
        if way == 0:
            text = text[:at]
        elif way == 1:
            text = text[:at] + text[at + rng.randint(1, 3) :]
        elif way == 2:
            text = text[:at] + rng.choice(PIECES) + text[at:]
        elif way == 3:
            text = text[:at] + rng.choice(PIECES) + text[at + 1 :]
        elif way == 4:
            other = rng.randrange(len(text) + 1)
            text = text[:at] + text[min(at, other) : max(at, other)] + text[at:]
        elif way == 5:
            text = text[:at] + bytes([rng.randrange(256)]) + text[at + 1 :]
        else:
            text = change_number(rng, text)
        if not text:
            break
    return text


def change_number(rng, text):
    """One number put in another's place: a near miss of some ground, as a rule."""
    spans = [span for span in field_spans(text) if text[span[1] : span[2]].isdigit()]
    if not spans:
        return text
    _, start, end = rng.choice(spans)
    value = int(text[start:end])
    choices = [0, 1, value + 1, max(value - 1, 0), 2 * value, 10 * value, value // 2, 2**32 - 1]
    return text[:start] + str(rng.choice(choices)).encode() + text[end:]
