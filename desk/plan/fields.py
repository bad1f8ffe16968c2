"""What a plan's entries hold: for each kind its keys and their units.

What document 01 allows in a field is known by desk/records.py alone; the two are joined by the field's name. A kind or a field
that is added to the records is one more entry of KINDS here; reading, writing and messages follow it.
"""
from decimal import Decimal
from fractions import Fraction
from typing import NamedTuple

from desk.records import LOW_SIDE, MOST_SOURCES, ROWS, SOURCES, STATION_UNIT, UK, UNIT_POWER, limits

TOLERANCE = "tolerance_percent"
TOLERANCES = ROWS["S"].first[0].choices


class Unit(NamedTuple):
    text: str   # as a message says it
    times: int  # how many of the record's units it is; a power of ten, so that every whole number is a decimal of it


class Field(NamedTuple):
    """A number of an entry, and how a plan gives it."""
    name: str               # that of the record's field
    units: dict             # the keys that may give it, each with its unit; the first is the one that is written
    words: str = ""         # how a message calls it
    default: int = None     # only where leaving it out invents nothing
    whole: bool = False     # counts things, so that rounding it makes no sense
    rated_at: str = ""      # rated volts: the key of the bus to whose nominal volts they belong, in place of a range
    small: str = ""         # the key that is written for less than one of the first key's unit
    low: int = 0            # these four come from the record, in its unit, ends included
    high: int = 0
    below: str = ""         # the name of the field that it has to stay below
    suits: str = ""         # rated volts: the name of the field to whose rated volts they belong, in place of a range


class Kind(NamedTuple):
    table: str      # the name of the kind in a plan
    group: str      # bus, branch or source
    number: int     # the kind's number in a row
    ends: tuple     # the keys that name a bus
    fields: tuple
    not_both_zero: tuple


def volts(key, name, rated_at="", words=""):
    return Field(name, {f"{key}_kV": Unit("kV", 1000), f"{key}_V": Unit("V", 1)}, words, rated_at=rated_at)


def power(key, name):
    return Field(name, {f"{key}_MVA": Unit("MVA", 1000), f"{key}_kVA": Unit("kVA", 1)}, small=f"{key}_kVA")


def plain(key, name, text, times, **more):
    return Field(name, {key: Unit(text, times)}, **more)


def joined(field, record):
    """A field of a plan with what the record allows in it; `count` is in no record."""
    found = [one for one in record if one.name == field.name]
    low, high = limits(found[0], record) if found else (field.low, field.high)
    below, suits = (found[0].below, found[0].suits) if found else ("", "")
    return field._replace(words=field.words or f"the {field.name}", low=low, high=high, below=below, suits=suits)


ENDS = {"bus": (), "branch": ("from", "to"), "source": ("bus",)}


def entry(letter, group, table, *fields, name=""):
    """The entries of a kind, which become a row of this letter or a part of one; `name` is that in the records where it is another."""
    row = ROWS[letter]
    number = next((number for number, kind in row.kinds.items() if kind.name == (name or table)), 0)
    kind = row.kinds.get(number)
    record = row.first + kind.fields + row.last
    return Kind(table, group, number, ENDS[group], tuple(joined(field, record) for field in fields), kind.not_both_zero)


MACHINE_VOLTS = volts("rated", "rated voltage", "bus")
POWER = power("rated", "rated power")
RATIO = plain("r_over_x", "ratio R/X", "", 100)
# of a generator behind its rated power, and of a transformer behind its own, wherever they stand
GENERATOR_FIELDS = (Field("subtransient reactance xd", {"xd_percent": Unit("%", 1000), "xd_pu": Unit("p.u.", 100_000)}), RATIO,
                    plain("cos_phi", "power factor", "", 100))
TRANSFORMER_IMPEDANCE = (plain("uk_percent", UK, "%", 1000), plain("uR_percent", "resistive part uR", "%", 1000))
COUNT = plain("count", "count", "", 1, words="how many there are alike", default=1, whole=True, low=1, high=MOST_SOURCES)

KINDS = {kind.table: kind for kind in (
    entry("B", "bus", "bus",
          volts("nominal", "nominal voltage"),
          plain("rated_initial_kA", "rated initial current", "kA", 1000),
          plain("rated_peak_kA", "rated peak current", "kA", 1000)),
    entry("B", "branch", "line",
          plain("r_ohm_per_km", "resistance r", "Ω/km", 1000),
          plain("x_ohm_per_km", "reactance x", "Ω/km", 1000),
          Field("length", {"length_km": Unit("km", 1000), "length_m": Unit("m", 1)}),
          plain("circuits", "number of circuits", "", 1, default=1, whole=True)),
    entry("B", "branch", "transformer",
          # a branch may be written from either end, so that a plan has its sides by their keys
          volts("from", "rated voltage on the parent's side", "from", "the rated voltage on the side of `from`"),
          volts("to", "rated voltage on the bus's own side", "to", "the rated voltage on the side of `to`"),
          POWER,
          *TRANSFORMER_IMPEDANCE),
    entry("P", "source", "feeder",
          plain("short_circuit_MVA", "short-circuit power", "MVA", 1000),
          RATIO),
    entry("P", "source", "generator",
          MACHINE_VOLTS,
          POWER,
          *GENERATOR_FIELDS,
          COUNT),
    entry("P", "source", "motor",
          MACHINE_VOLTS,
          POWER,
          plain("starting_ratio", "starting ratio", "", 10),
          RATIO,
          COUNT),
    entry("P", "source", "converter",
          plain("rated_A", "rated current", "A", 10),
          plain("k", "current ratio k", "", 100),
          COUNT),
    entry("P", "source", "unit",
          volts("rated", "generator's rated voltage"),
          power("rated", UNIT_POWER),
          *GENERATOR_FIELDS,
          volts("low", LOW_SIDE),
          volts("high", "rated voltage on the high side", "bus"),
          power("transformer", "transformer's rated power"),
          *TRANSFORMER_IMPEDANCE,
          COUNT, name=SOURCES[STATION_UNIT].name),
)}


def keys_of(kind):
    return ["name", *kind.ends, *(key for field in kind.fields for key in field.units)]


def kinds_of(group):
    return [kind for kind in KINDS.values() if kind.group == group]


# Numbers, exact


def fraction_of(value):
    """The exact value of a number of the TOML; none where it is no number, or so long that no data sheet has it."""
    if isinstance(value, bool) or not isinstance(value, (int, Decimal)):
        return None
    number = Decimal(value) if isinstance(value, Decimal) or abs(value) < 10**40 else Decimal("inf")
    if not number.is_finite() or number and not -40 <= number.as_tuple().exponent <= number.adjusted() <= 40:
        return None
    return Fraction(number)


def decimal_text(value, comma=""):
    """A fraction that is a decimal, with all its digits; `comma` parts the thousands."""
    over, under, places = abs(value.numerator), value.denominator, 0
    while over * 10**places % under:
        places += 1
    front, behind = divmod(over * 10**places // under, 10**places)
    return ("-" if value < 0 else "") + f"{front:{comma}}" + (f".{behind:0{places}}" if places else "")


def range_text(low, high, unit):
    return f"{decimal_text(Fraction(low) / unit.times, ',')} to {with_unit(decimal_text(Fraction(high) / unit.times, ','), unit)}"


def with_unit(text, unit):
    return f"{text} {unit.text}" if unit.text else text
