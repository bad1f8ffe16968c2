"""Why a record was refused: for each ground but that of the form, the fields that it is about, with what is allowed in them.

A finder takes the case, looks for the reasons of one ground, and gives none where there is none: the program refuses, this module
only looks for what it saw.
"""
from typing import NamedTuple

from desk.fields import split_at
from desk.numbers import value_of
from desk.records import (BRANCHES, FEEDER, LINE, MOST_BRANCHES, MOST_BUSES, MOST_SOURCES, MOST_TRANSFORMERS, ROWS, SOURCES,
                          TRANSFORMER, allowed, counts_of, fields_of, filled, is_allowed, kind_of, label, listed, measured, place_of,
                          rows_of)
from desk.show import Finding


class Record(NamedTuple):
    """A row of the file, its number from 1, its letter, the values of its fields, and how many of them the row has."""
    row: int
    letter: str
    values: tuple
    given: int  # the others, at its end, are read as 0


class Case(NamedTuple):
    """A refused record, the buses and sources that were accepted above it, and how many rows stand below it."""
    record: Record
    buses: tuple
    sources: tuple
    below: int


def record_of(row, content):
    """The record in a row, or None where the row has not the form of one."""
    letter, *fields = content.split(b",")
    values = tuple(value_of(field) for field in fields)
    letter = letter.decode("latin-1")
    whole = letter in ROWS and len(values) in counts_of(letter) and None not in values
    return Record(row, letter, filled(letter, values), len(values)) if whole else None


def case_of(text, number):
    """The case of the row of that number, or None."""
    rows = rows_of(text)
    records = [record_of(k + 1, content) for k, content in enumerate(rows[:number])]
    if not records or records[-1] is None or len(records) < number:
        return None
    buses, sources = (tuple(one for one in records[:-1] if one and one.letter == letter) for letter in "BP")
    return Case(records[-1], buses, sources, len(rows) - number)


def places(content, wanted):
    """Where the fields of these numbers, from 0, stand in a row; one that it leaves out would stand at its end."""
    cut = split_at(content, b",")[1:]
    return tuple(cut[k] if k < len(cut) else (len(content), len(content)) for k in wanted)


class Fault(NamedTuple):
    """A sentence about some fields, by their numbers from 0, before their places in the row are known."""
    words: str
    fields: tuple = ()
    ground: int = 0


# ---- fields with a range of their own

def out_of_range(record):
    """Every field of a record that is outside its own range, with the ground that this is."""
    letter, values = record.letter, record.values
    faults = []
    for k, field in enumerate(fields_of(letter, values)):
        if not is_allowed(field, values[k], letter, values):
            due = allowed(field, letter, values)
            faults.append(Fault(f"{label(field, k)} is {measured(values[k], field.unit)}; allowed is {due}.", (k,), field.ground))
    return without_left_out(record, faults) + both_zero(record)


def without_left_out(record, faults):
    """The faults, those of fields that the row leaves out as one: a kind that uses them was entered in a row without them."""
    left_out = [fault for fault in faults if fault.fields[0] >= record.given]
    if not left_out:
        return faults
    kind, count = kind_of(record.letter, record.values), len(record.values)
    names = ", ".join(field.name for field in fields_of(record.letter, record.values)[record.given:])
    words = (f"The row has {record.given} fields, so that fields {record.given + 1} to {count} ({names}) are read as 0; "
             f"a {kind.name} has all {count}.")
    return [fault for fault in faults if fault not in left_out] + [Fault(words, (record.given,), left_out[0].ground)]


def both_zero(record):
    kind = kind_of(record.letter, record.values)
    pair = tuple(place_of(record.letter, record.values, name) for name in kind.not_both_zero) if kind else ()
    if not pair or any(record.values[k] for k in pair):
        return []
    fields = fields_of(record.letter, record.values)
    names = listed(label(fields[k], k) for k in pair)
    return [Fault(f"{names} are both 0; a {kind.name} has at least one of them above 0.", pair, fields[pair[0]].ground)]


def ranges(number):
    """A finder of fields out of range: those of this ground first, then what else is out of range in the row."""
    def finder(case):
        faults = out_of_range(case.record)
        others = [fault._replace(words=f"In the same row, {fault.words}") for fault in faults if fault.ground != number]
        own = [fault for fault in faults if fault.ground == number]
        return own + others if own else []
    return finder


# ---- buses

def those(buses):
    """Which buses there are."""
    if len(buses) < 2:
        return "only bus 0 stands above this row" if buses else "no bus stands above this row"
    return f"buses 0 {'to' if len(buses) > 2 else 'and'} {len(buses) - 1} stand above this row"


def parent(case):
    number, named = len(case.buses), case.record.values[0]
    if named < max(number, 1):
        return []
    if number == 0:
        return [Fault(f"Field 1 (parent) is {named:,}; this is the first bus, bus 0, and its parent is 0.", (0,))]
    return [Fault(f"Field 1 (parent) is {named:,}; this row is bus {number}, and {those(case.buses)}.", (0,))]


def branch_kind(case):
    named = case.record.values[2]
    if named in BRANCHES and (named == 0) == (not case.buses):
        return []
    if not case.buses:
        return [Fault(f"Field 3 (branch kind) is {named:,}; this is the first bus, bus 0, and its kind is 0.", (2,))]
    kinds = listed((f"{kind} for a {BRANCHES[kind].name}" for kind in BRANCHES if kind), "or")
    return [Fault(f"Field 3 (branch kind) is {named:,}; allowed is {kinds}.", (2,))]


def parent_of(case):
    """The parent's number and record."""
    number = case.record.values[0]
    return number, case.buses[number]


def line_volts(case):
    number, above = parent_of(case)
    here, there = case.record.values[1], above.values[1]
    if case.record.values[2] != LINE or here == there:
        return []
    return [Fault(f"The line joins this bus at {here:,} V and its parent, bus {number} (row {above.row}), at {there:,} V; "
                  "a line joins equal nominal voltages.", (1,))]


def rated(field, k, value, other, volts):
    """A rated voltage outside 9/10 to 11/10 of another voltage, which `other` gives in words; the ends in whole volts."""
    low, high = -(-9 * volts // 10), 11 * volts // 10
    if low <= value <= high:
        return []
    return [Fault(f"{label(field, k)} is {value:,} V; {other} {volts:,} V, so that allowed is {low:,} to {high:,} V.", (k,))]


def transformer_volts(case):
    number, above = parent_of(case)
    sides = {"parent": (f"the parent, bus {number} (row {above.row}),", above.values[1]),
             "bus": ("this bus", case.record.values[1])}
    return rated_fields(case, sides)


def machine_volts(case):
    number = case.record.values[1]
    bus = case.buses[number]
    return rated_fields(case, {"bus": (f"bus {number} (row {bus.row})", bus.values[1])})


def rated_fields(case, sides):
    fields = fields_of(case.record.letter, case.record.values)
    found = []
    for k, field in enumerate(fields):
        if field.rated_at in sides:
            bus, volts = sides[field.rated_at]
            found += rated(field, k, case.record.values[k], f"{bus} has a nominal voltage of", volts)
    return found


def unit_volts(case):
    """A rated voltage that has to suit another of the same record: the generator's in a power station unit."""
    letter, values = case.record.letter, case.record.values
    fields = fields_of(letter, values)
    pairs = [(k, place_of(letter, values, field.suits)) for k, field in enumerate(fields) if field.suits]
    return [fault for k, other in pairs
            for fault in rated(fields[k], k, values[k], f"{label(fields[other], other)} is", values[other])]


def way(case):
    """The buses from this one's parent up to bus 0."""
    number = case.record.values[0]
    buses = [number]
    while number and len(buses) <= len(case.buses):
        number = case.buses[number].values[0]
        buses.append(number)
    return buses


def depth(case):
    buses = way(case)
    kinds = [case.record.values[2]] + [case.buses[number].values[2] for number in buses[:-1]]
    branches, transformers = len(kinds), kinds.count(TRANSFORMER)
    route = ", ".join(str(number) for number in reversed(buses))
    if branches <= MOST_BRANCHES and transformers <= MOST_TRANSFORMERS:
        return []
    return [Fault(f"From bus 0 to this bus lead {branches} branches, {transformers} of them transformers; allowed are "
                  f"{MOST_BRANCHES} and {MOST_TRANSFORMERS}. They go by way of bus {route}.", (0,))]


# ---- sources

def source_kind(case):
    named = case.record.values[0]
    kinds = listed((f"{kind} for a {SOURCES[kind].name}" for kind in SOURCES), "or")
    return [Fault(f"Field 1 (source kind) is {named:,}; allowed is {kinds}.", (0,))] if named not in SOURCES else []


def source_bus(case):
    if case.record.values[1] < len(case.buses):
        return []
    return [Fault(f"Field 2 (bus) is {case.record.values[1]:,}; {those(case.buses)}. A row names only buses above it.", (1,))]


def feeder(case):
    kind, bus = case.record.values[:2]
    name = SOURCES[kind].name if kind in SOURCES else "source"
    faults = []
    if case.sources and kind == FEEDER:
        above = case.sources[0].row
        faults.append(Fault(f"This is a second feeder; the feeder stands in row {above}, and there is one alone.", (0,)))
    if not case.sources and kind != FEEDER:
        faults.append(Fault(f"The first source is a {name}; it has to be the feeder, kind {FEEDER}, at bus 0.", (0,)))
    if kind == FEEDER and bus != 0:
        faults.append(Fault(f"The feeder is at bus {bus}; it has to be at bus 0.", (1,)))
    return faults


# ---- the study

def full_buses(case):
    return full(case.buses, MOST_BUSES, "buses")


def full_sources(case):
    return full(case.sources, MOST_SOURCES, "sources")


def full(above, most, name):
    return [Fault(f"{len(above)} {name} stand above this row, and a study has at most {most}.")] if len(above) >= most else []


def no_source(case):
    if case.sources or case.below:
        return []
    return [Fault("No row of the file is a P row; the first source is the feeder, at bus 0, for instance "
                  "`P,1,0,500000,10,0,0,0`.")]


# the letters of the rows that a ground is about, and its finder
FINDERS = {
    1: ("S", ranges(1)), 2: ("B", ranges(2)), 3: ("B", parent), 4: ("B", branch_kind), 5: ("B", ranges(5)), 6: ("B", line_volts),
    7: ("B", transformer_volts), 8: ("B", depth), 9: ("B", ranges(9)), 10: ("P", source_kind), 11: ("P", source_bus),
    12: ("P", ranges(12)), 13: ("P", machine_volts), 14: ("P", feeder), 23: ("B", full_buses), 24: ("P", full_sources),
    25: ("SB", no_source), 32: ("P", unit_volts),
}


def findings(text, number, row):
    """What is wrong in a row that was refused on a ground other than 16; nothing where no reason is found."""
    case = case_of(text, row)
    letters, finder = FINDERS.get(number, ("", None))
    if case is None or case.record.letter not in letters:
        return []
    try:
        faults = finder(case)
    except IndexError:  # the record names a bus that is not there, which is another ground than the program gave
        return []
    content = rows_of(text)[row - 1]
    return [Finding(fault.words, places(content, fault.fields)) for fault in faults]
