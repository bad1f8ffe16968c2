"""What a one-line diagram shows, as plain data, and how it is made from a study's rows and the program's answers.

No current is calculated here: bounds that the program printed are added up and written in kA with all their digits.
"""
from typing import NamedTuple

from desk.records import FEEDER, GENERATOR, MOTOR, SOURCES, STATION_UNIT

KIND_WORDS = {number: (kind.name, kind.name + "s") for number, kind in SOURCES.items()}
VERDICT_WORDS = {"W": "within", "O": "over", "C": "close"}
NO_SOURCE = 25  # the one ground that is not the fault of the row that it names


class Line(NamedTuple):
    metres: int
    circuits: int


class Transformer(NamedTuple):
    parent_volts: int
    own_volts: int
    kva: int
    uk: int  # thousandths of a percent


class Source(NamedTuple):
    kind: int  # its number in a row
    label: str


class Bus(NamedTuple):
    number: int
    name: str
    volts: int
    parent: int
    branch: Line | Transformer | None  # None at bus 0
    verdict: str  # W, O or C; empty where there is none
    words: str  # the verdict in words; shown where it is O or C
    figure: str  # the currents in short
    details: str  # the currents in full, for the tooltip
    sources: tuple[Source, ...]


class Group(NamedTuple):
    """The sources of one kind at a bus, which share a symbol."""
    kind: int
    count: int
    label: str
    details: str


# ---- numbers in words

def decimal(number, places):
    """A whole number of tenths, hundredths, .. as the decimal it stands for, without needless noughts."""
    whole, part = divmod(number, 10**places)
    return f"{whole}.{part:0{places}d}".rstrip("0").rstrip(".")


def kilovolts(volts):
    return f"{decimal(volts, 3)} kV"


def power(kva):
    return f"{kva} kVA" if kva < 1000 else f"{decimal(kva, 3)} MVA"


def kiloamperes(amperes):
    """All digits are kept, so nothing is rounded."""
    return f"{amperes // 1000}.{amperes % 1000:03d} kA"


def branch_words(branch):
    if branch is None:
        return ""
    if isinstance(branch, Line):
        length = f"{branch.metres} m" if branch.metres < 1000 else f"{decimal(branch.metres, 3)} km"
        return f"line {length}" + (f", {branch.circuits} circuits" if branch.circuits > 1 else "")
    sides = f"{decimal(branch.parent_volts, 3)}/{kilovolts(branch.own_volts)}"
    return f"{sides}, {power(branch.kva)}, uk {decimal(branch.uk, 3)} %"


def source_label(kind, fields):
    """The short label of a source from the fields of its row behind its bus."""
    if kind == FEEDER:
        return f"{power(fields[0])}, R/X {decimal(fields[1], 2)}"
    if kind == GENERATOR:
        return f"{power(fields[1])}, xd {decimal(fields[2], 3)} %"
    if kind == STATION_UNIT:
        return f"{power(fields[1])}, xd {decimal(fields[2], 3)} %, {decimal(fields[6], 3)}/{kilovolts(fields[5])}"
    if kind == MOTOR:
        return power(fields[1])
    return f"{decimal(fields[0], 1)} A, k {decimal(fields[1], 2)}"


def group(kind, labels):
    counts = {label: labels.count(label) for label in dict.fromkeys(labels)}
    one, many = KIND_WORDS[kind]
    if len(labels) == 1:
        return Group(kind, 1, labels[0], f"{one} {labels[0]}")
    told = [f"{count} × {label}" if count > 1 else label for label, count in counts.items()]
    label = told[0] if len(told) == 1 else f"{len(labels)} {many}: " + "; ".join(told)
    shown = told[:20] + ([f"and {len(told) - 20} more ratings"] if len(told) > 20 else [])
    return Group(kind, len(labels), label, f"{len(labels)} {many}\n" + "\n".join(shown))


def groups(sources):
    """The sources of a bus by kind, feeders first."""
    kinds = sorted({source.kind for source in sources})
    return [group(kind, [source.label for source in sources if source.kind == kind]) for kind in kinds]


# ---- from rows and answers

def figure(answer):
    lower, upper, converters_lower, converters_upper, peak, converters_peak = map(int, answer[1:7])
    return f"{kiloamperes(upper + converters_upper)} / {kiloamperes(peak + converters_peak)} peak"


def details(answer, record):
    lower, upper, converters_lower, converters_upper, peak, converters_peak = map(int, answer[1:7])
    return (f"machines {lower:,} to {upper:,} A\nconverters {converters_lower:,} to {converters_upper:,} A\n"
            f"peak {peak + converters_peak:,} A\nrated {record[8]:,} A, peak {record[9]:,} A")


def branch_of(record):
    kind, fields = record[2], record[3:8]
    return {1: Line(fields[2], fields[3]), 2: Transformer(*fields[:4])}.get(kind)


def bus_of(number, record, answer, sources, name, words):
    letter = answer[7] if answer else ""
    own = tuple(Source(source[0], source_label(source[0], source[2:])) for source in sources if source[1] == number)
    return Bus(number, name, record[1], record[0], branch_of(record), letter, words or VERDICT_WORDS.get(letter, ""),
               figure(answer) if answer else "", details(answer, record) if answer else "", own)


def accepted_rows(rows, answers):
    """All rows, or of a refused study those above the row that was refused: they alone are known to fit together."""
    if answers and answers[0][0] == "refused" and int(answers[0][1]) != NO_SOURCE:
        return rows[:int(answers[0][2]) - 1]
    return rows


def buses_of(rows, answers=(), names=None, words=None):
    """The buses to draw. `rows` are a study's rows and `answers` the program's, each row as its fields; without answers, or
    with a refusal among them, the inputs alone. `names` and `words` (of the verdict) are by bus number, where there are any."""
    names, words = names or {}, words or {}
    rows = accepted_rows(list(rows), answers)
    records = [tuple(map(int, row[1:])) for row in rows if row[0] == "B"]
    sources = [tuple(map(int, row[1:])) for row in rows if row[0] == "P"]
    told = {int(answer[0]): answer for answer in answers if answer[0] != "refused"}
    return [bus_of(number, record, told.get(number), sources, names.get(number, ""), words.get(number, ""))
            for number, record in enumerate(records)]
