"""The one room that knows a study's records: every field's name, unit and range, by row letter and kind, and the limits.

It is data for explaining what the program refused, and for a plan that becomes records (desk/plan); the program alone refuses.
A new kind of source is an entry of SOURCES, a wider range or a higher limit a number below; desk/plan/fields.py then has the
plan's keys for it. The figures are those of document 01, "The study" and "The file", the limits those of order 2 of document 02, and
the power station unit is its order 5.
"""
from itertools import groupby
from typing import NamedTuple

MOST_BYTES = 65_536
MOST_DIGITS = 10
LARGEST = 2**32 - 1
MOST_BUSES = 128
MOST_SOURCES = 512
MOST_BRANCHES = 18
MOST_TRANSFORMERS = 4
BRANCH_FIELDS = 5  # in a row, those that depend on the kind of its branch
SOURCE_FIELDS = 10  # the same of a source
SHORT_SOURCE_FIELDS = 5  # behind these a row of a source may end, as all did before order 5; it has nothing to do with branches
TRANSFORMER = 2
LINE = 1
FEEDER, GENERATOR, MOTOR, CONVERTER, STATION_UNIT = 1, 2, 3, 4, 5
GENERATORS = (GENERATOR, STATION_UNIT)  # sources whose shares in a breaking current have bounds


class Field(NamedTuple):
    """A field of a record, and what the program allows in it."""
    name: str
    ground: int         # the number that the program refuses it with
    unit: str = ""
    low: int = 0
    high: int = LARGEST
    choices: tuple = ()  # the only values, where they are no range
    rated_at: str = ""   # a rated voltage: "parent" or "bus", whose nominal voltage it has to suit
    suits: str = ""      # a rated voltage: the name of the field whose rated voltage it has to suit
    below: str = ""      # the name of the field that it has to stay below


class Kind(NamedTuple):
    """A kind of branch or of source, and the fields that it gives a meaning to."""
    name: str
    fields: tuple
    not_both_zero: tuple = ()


class Row(NamedTuple):
    """The rows of one letter: fields that all have, those that depend on the kind, and fields after these."""
    name: str
    first: tuple
    kinds: dict
    kind_at: int        # the place of the kind among the fields
    between: str = ""   # what a field is called that depends on the kind, while the kind is not known
    last: tuple = ()
    short: int = 0      # a row may end behind so many of those that depend on the kind, the others being 0; 0 where it has all


def unused(ground):
    return Field("not used", ground, high=0)


def padded(fields, count, ground):
    """The fields of a kind, and those that it does not use behind them."""
    return fields + (unused(ground),) * (count - len(fields))


def branch_kind(name, *fields, **more):
    return Kind(name, padded(fields, BRANCH_FIELDS, 5), **more)


def source_kind(name, *fields):
    return Kind(name, padded(fields, SOURCE_FIELDS, 12))


def branch(name, unit, low, high):
    return Field(name, 5, unit, low, high)


def given(name, unit, low, high):
    return Field(name, 12, unit, low, high)


THOUSANDTHS = "thousandths of a percent"
KVA = ("kVA", 10, 1_000_000)  # of a generator and of a transformer
UK = "short-circuit voltage uk"
LOW_SIDE = "rated voltage on the low side"
UNIT_POWER = "generator's rated power"
RATIO = given("ratio R/X", "hundredths", 0, 200)
MACHINE_VOLTS = Field("rated voltage", 13, "V", rated_at="bus")
# of a generator behind its rated power, whether it is alone or in a power station unit
GENERATOR_FIELDS = (given("subtransient reactance xd", THOUSANDTHS, 1_000, 100_000), RATIO, given("power factor", "hundredths", 70, 100))


def transformer_impedance(ground):
    """uk and uR of a transformer, which are refused with this ground: as a branch, or in a power station unit."""
    return (Field(UK, ground, THOUSANDTHS, 100, 30_000), Field("resistive part uR", ground, THOUSANDTHS, below=UK))


BRANCHES = {
    0: branch_kind("bus 0, which has no branch"),
    LINE: branch_kind(
        "line",
        branch("resistance r", "micro-ohms per metre", 0, 100_000),
        branch("reactance x", "micro-ohms per metre", 0, 100_000),
        branch("length", "metres", 1, 200_000),
        branch("number of circuits", "", 1, 8), not_both_zero=("resistance r", "reactance x")),
    TRANSFORMER: branch_kind(
        "transformer",
        Field("rated voltage on the parent's side", 7, "V", rated_at="parent"),
        Field("rated voltage on the bus's own side", 7, "V", rated_at="bus"),
        branch("rated power", *KVA),
        *transformer_impedance(5)),
}

SOURCES = {
    FEEDER: source_kind("feeder", given("short-circuit power", "kVA", 1_000, 100_000_000), RATIO),
    GENERATOR: source_kind("generator", MACHINE_VOLTS, given("rated power", *KVA), *GENERATOR_FIELDS),
    MOTOR: source_kind(
        "motor",
        MACHINE_VOLTS,
        given("rated power", "kVA", 1, 100_000),
        given("starting ratio", "tenths", 10, 100),
        RATIO),
    CONVERTER: source_kind(
        "converter",
        given("rated current", "tenths of an ampere", 1, 100_000),
        given("current ratio k", "hundredths", 100, 300)),
    # a generator and its own transformer, at the bus on the transformer's high side
    STATION_UNIT: source_kind(
        "power station unit",
        Field("generator's rated voltage", 32, "V", suits=LOW_SIDE),
        given(UNIT_POWER, *KVA),
        *GENERATOR_FIELDS,
        given(LOW_SIDE, "V", 90, 462_000),
        Field("rated voltage on the high side", 13, "V", rated_at="bus"),
        given("transformer's rated power", *KVA),
        *transformer_impedance(12)),
}

ROWS = {
    "S": Row("start", (Field("tolerance", 1, "percent", choices=(6, 10)),), {}, -1),
    "B": Row("bus", (
        Field("parent", 3),
        Field("nominal voltage", 2, "V", 100, 420_000),
        Field("branch kind", 4)), BRANCHES, 2, "branch field", (
        Field("rated initial current", 9, "A", 1, 1_000_000),
        Field("rated peak current", 9, "A", 1, 3_000_000))),
    "P": Row("source", (Field("source kind", 10, choices=tuple(SOURCES)), Field("bus", 11)), SOURCES, 0, "source field",
             short=SHORT_SOURCE_FIELDS),
}


def rows_of(text):
    """The rows as the program counts them: CRLF alone ends one, and after a last CRLF none follows."""
    rows = text.split(b"\r\n")
    return rows[:-1] if rows[-1] == b"" else rows


def unnamed(row):
    """The fields that depend on the kind, while the kind is not known: numbered, with no range."""
    width = max((len(kind.fields) for kind in row.kinds.values()), default=0)
    return tuple(Field(f"{row.between} {place + 1}", 0) for place in range(width))


def kind_of(letter, values):
    """The kind that a row's values name, or None. Values may be numbers, or None where the text has no number."""
    row = ROWS[letter]
    named = values[row.kind_at] if 0 <= row.kind_at < len(values) else None
    return row.kinds.get(named)


def fields_of(letter, values=()):
    """The fields of a row, as its letter and its kind name them."""
    row = ROWS[letter]
    kind = kind_of(letter, values)
    return row.first + (kind.fields if kind else unnamed(row)) + row.last


def counts_of(letter, values=()):
    """How many fields a row may have, the fewest first; where the values name its kind, as many as that kind uses at the least."""
    row, kind = ROWS[letter], kind_of(letter, values)
    whole = len(fields_of(letter))
    needs_all = not row.short or kind and any(map(is_used, kind.fields[row.short:]))
    return (whole,) if needs_all else (len(row.first) + row.short, whole)


def filled(letter, values):
    """The values of a record with 0 for those that its row leaves out at its end."""
    return (*values, *[0] * (counts_of(letter)[-1] - len(values)))


def named(letter, values):
    """The values of a record by the names of its fields."""
    return dict(zip([field.name for field in fields_of(letter, values)], filled(letter, values)))


def values_of(letter, kind, by_name):
    """The values of a record in their order, from those by name; a field that its kind does not use is 0."""
    row = ROWS[letter]
    fields = row.first + row.kinds[kind].fields + row.last
    return [by_name[field.name] if is_used(field) else 0 for field in fields]


def is_used(field):
    return field.high > 0


def limits(field, fields):
    """The least and the greatest value of a field; of one that stays below another of these fields, with that at its greatest."""
    if not field.below:
        return field.low, field.high
    other, = [one for one in fields if one.name == field.below]
    return field.low, other.high - 1


def summary(letter, values):
    """The names of a row's fields, in their order; of several that are not used, their number."""
    row, kind = ROWS[letter], kind_of(letter, values)
    between = [field.name for field in kind.fields] if kind else [f"{len(unnamed(row))} {row.between}s"] if row.kinds else []
    names = [field.name for field in row.first] + between + [field.name for field in row.last]
    runs = [(name, len(list(run))) for name, run in groupby(names)]
    return ", ".join(f"{count} {name}" if count > 1 else name for name, count in runs)


def place_of(letter, values, name):
    """Where the field of that name stands among the row's fields, from 0."""
    return [field.name for field in fields_of(letter, values)].index(name)


def label(field, place):
    """How a field is called in a sentence; fields count from 1, behind the letter."""
    return f"field {place + 1} ({field.name})"


def measured(value, unit):
    return f"{value:,} {unit}".rstrip()


def listed(words, last="and"):
    """1, 2 and 3"""
    words = [str(word) for word in words]
    return f" {last} ".join([", ".join(words[:-1]), words[-1]] if len(words) > 1 else words)


def allowed(field, letter, values):
    """What the program allows in a field, in words; nothing where that depends on other rows, or on a voltage further on."""
    if field.choices:
        return measured_choices(field)
    if field.below:
        limit = values[place_of(letter, values, field.below)]
        return (f"0 to {measured(limit - 1, field.unit)}, " if limit else "") + f"less than the {field.below}"
    if not is_used(field):
        return "0, since it is not used"
    return f"{field.low:,} to {measured(field.high, field.unit)}" if field.high < LARGEST else ""


def measured_choices(field):
    return f"{listed(field.choices, 'or')} {field.unit}".rstrip()


def is_allowed(field, value, letter, values):
    """Whether a value is one that `allowed` names; true where that names none."""
    if field.choices:
        return value in field.choices
    if field.below:
        return value < values[place_of(letter, values, field.below)]
    return field.low <= value <= field.high
