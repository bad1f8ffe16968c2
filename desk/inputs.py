"""What was put in, as a plan gives it: of each kind of entry its fields in the units of data sheets, whatever the study was read from."""
from collections import Counter
from fractions import Fraction
from typing import NamedTuple

from desk.plan.fields import KINDS, decimal_text, kinds_of
from desk.plan.writing import records_of


class Inputs(NamedTuple):
    """The records of an accepted study, by the names of their fields, and the names that a plan gives."""
    tolerance: int
    buses: list
    sources: list
    bus_names: tuple
    source_names: tuple


def inputs_of(study):
    tolerance, buses, sources = records_of(study.rows)
    return Inputs(tolerance, buses, sources, study.names or ("",) * len(buses), study.sources or ("",) * len(sources))


def kind_of_branch(bus):
    return next((kind for kind in kinds_of("branch") if kind.number == bus["branch kind"]), None)


def kind_of_source(source):
    return next(kind for kind in kinds_of("source") if kind.number == source["source kind"])


def fields_of(kind):
    """Those that a record has; how many there are alike is not among them."""
    return [field for field in kind.fields if field.name != "count"]


def key_of(field, values):
    """The key whose unit suits all values: of powers kVA where all of them are below 1 MVA."""
    first = next(iter(field.units))
    return field.small if field.small and max(values) < field.units[first].times else first


def number_in(value, unit):
    """A whole number of the record's unit in another; all its digits are kept."""
    return Fraction(value, unit.times)


# ---- tables

class Entries(NamedTuple):
    """The entries of a kind as a table: its title, its headings, and their cells."""
    title: str
    headings: list
    lines: list


TITLES = {"bus": "Buses", "line": "Lines", "transformer": "Transformers", "feeder": "Feeder", "generator": "Generators",
          "motor": "Motors", "converter": "Converters", "unit": "Power station units"}


def heading_of(field, unit):
    return f"{field.name}, {unit.text}" if unit.text else field.name


def columns_of(kind, records):
    """The headings of a kind's fields, and of each record the cells below them."""
    units = [field.units[key_of(field, [record[field.name] for record in records])] for field in fields_of(kind)]
    headings = [heading_of(field, unit) for field, unit in zip(fields_of(kind), units)]
    cells = [[decimal_text(number_in(record[field.name], unit), ",") for field, unit in zip(fields_of(kind), units)]
             for record in records]
    return headings, cells


def with_name(inputs, number):
    """A bus as a cell names it."""
    return f"{number} {inputs.bus_names[number]}".strip()


def bus_entries(inputs):
    headings, cells = columns_of(KINDS["bus"], inputs.buses)
    if not any(inputs.bus_names):
        return Entries(TITLES["bus"], ["bus", *headings], [[str(number), *line] for number, line in enumerate(cells)])
    lines = [[str(number), name, *line] for number, (name, line) in enumerate(zip(inputs.bus_names, cells))]
    return Entries(TITLES["bus"], ["bus", "name", *headings], lines)


def branch_entries(inputs, kind):
    chosen = [(number, bus) for number, bus in enumerate(inputs.buses) if kind_of_branch(bus) is kind]
    headings, cells = columns_of(kind, [bus for _, bus in chosen]) if chosen else ([], [])
    lines = [[with_name(inputs, bus["parent"]), with_name(inputs, number), *line]
             for (number, bus), line in zip(chosen, cells)]
    return Entries(TITLES[kind.table], ["from", "to", *headings], lines)


def source_entries(inputs, kind):
    """Sources alike at one bus are one line."""
    chosen = [(name, source) for name, source in zip(inputs.source_names, inputs.sources) if kind_of_source(source) is kind]
    headings, cells = columns_of(kind, [source for _, source in chosen]) if chosen else ([], [])
    alike = Counter((with_name(inputs, source["bus"]), name, *line) for (name, source), line in zip(chosen, cells))
    lines = [[*line, str(count)] for line, count in alike.items()]
    headings = ["at bus", "name", *headings, "number alike"]
    idle = [place for place, empty in ((1, ""), (-1, "1")) if all(line[place] == empty for line in lines)]
    for line in [headings, *lines]:
        for place in sorted(idle):  # the last first
            del line[place]
    return Entries(TITLES[kind.table], headings, lines)


def entries_of(study):
    """The tables of an accepted study's inputs; a kind that does not occur has none."""
    inputs = inputs_of(study)
    tables = [bus_entries(inputs)]
    tables += [branch_entries(inputs, kind) for kind in kinds_of("branch")]
    tables += [source_entries(inputs, kind) for kind in kinds_of("source")]
    return [one for one in tables if one.lines]


# ---- by their keys

def plain(number):
    """A number as JSON has it: whole, or the decimal that it is; none has so many digits that a float would lose one."""
    return number.numerator if number.denominator == 1 else float(number)


def by_key(kind, record):
    """A record by the keys of a plan, each in its first unit."""
    pairs = [(next(iter(field.units.items())), record[field.name]) for field in fields_of(kind)]
    return {key: plain(number_in(value, unit)) for (key, unit), value in pairs}
