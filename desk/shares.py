"""The table of who contributes how much to the breaking current of each bus, from the bounds that the console gave."""
from collections import Counter
from typing import NamedTuple

from desk.oneline import power
from desk.records import GENERATORS, STATION_UNIT, UNIT_POWER, named, rows_of
from desk.table import columns, with_column
from desk.units import WHOLE

LEAST = 100  # listed is what comes to a hundredth of the breaking current or more
NO_GENERATOR = "The study has no generator, so that there are no shares to list."
WHAT_IT_IS = """\
Ib is the symmetrical breaking current for a minimum delay of {} ms, as an rms value: no lower than the sum of its parts, and
above it by at most 3 % plus 4 A. The parts are the feeder and the motors with μ = 1, the converters in full, and each generator
with its own μ, at most 1. They are added as magnitudes, so that Ib can be above the initial current. The verdict takes no
notice of it: a study has no rated breaking current."""
WHAT_SHARES_ARE = """\
A share is the generator's own part of the initial current at the bus, as a magnitude, from a lower to an upper bound. It is
before μ, so that the generator's part of Ib is at most the percentage shown. Generators alike stand in one line, added up. The
generator of a power station unit is one of them, with its terminals on the low side of the unit's transformer. Of the feeder, the
motors and the converters there are no bounds."""


class Share(NamedTuple):
    """What a number of generators contribute together."""
    words: str
    count: int
    lower: int
    upper: int


def heading(delay):
    """What stands above the breaking currents."""
    return f"Ib {delay} ms"


def breaking_column(found, delay, units):
    """The column of breaking currents below its heading; empty where there are none."""
    return [heading(delay)] + [units.amperes(one.figure) for one in found] if found else []


# ---- the generators

def label(values, bus_names, own_name):
    """What a generator is called: by its name in the plan or its power, and by its bus. One in a power station unit is called so."""
    record = named("P", values)
    bus = bus_names[record["bus"]] if bus_names else f"bus {record['bus']}"
    by_power = f"unit of {power(record[UNIT_POWER])}" if record["source kind"] == STATION_UNIT else power(record["rated power"])
    return f"{own_name or by_power} at {bus}"


def generators_of(text, bus_names=(), source_names=()):
    """What each source is called that is a generator, by its place among the sources."""
    sources = [tuple(map(int, row.split(b",")[1:])) for row in rows_of(text) if row.startswith(b"P,")]
    own_names = source_names or [""] * len(sources)
    return {place: label(values, bus_names, own_name) for place, (values, own_name) in enumerate(zip(sources, own_names))
            if values[0] in GENERATORS}


# ---- their shares at a bus

def together(words, shares):
    counts, lowers, uppers = zip(*[share[1:] for share in shares])
    return Share(words, sum(counts), sum(lowers), sum(uppers))


def alike(shares):
    """The shares of generators with the same words and the same bounds as one, the largest first."""
    joined = [together(f"{count} times {share.words}" if count > 1 else share.words, [share] * count)
              for share, count in Counter(shares).items()]
    return sorted(joined, key=lambda share: -share.upper)


def parted(shares, figure):
    """Those that are listed, and those that are added up. A single one is listed too: its sum would take as much room."""
    small = [share for share in shares if LEAST * share.upper < figure]
    return (shares, []) if len(small) == 1 else (shares[:len(shares) - len(small)], small)


def percent(part, whole):
    """Tenths of a percent, rounded up."""
    tenths = -(-1000 * part // whole)
    return f"{tenths // 10:,}.{tenths % 10} %"


def bus_cells(breaking, generators, units=WHOLE):
    """The last three cells of each line of a bus."""
    figure = breaking.figure
    listed, small = parted(alike([Share(words, 1, *breaking.bounds[place]) for place, words in generators.items()]), figure)
    lines = [(share.words, units.bounds(share.lower, share.upper), percent(share.upper, figure)) for share in listed]
    if small:
        rest = together("", small)
        lines.append((f"{rest.count} generators, each below 1 %", f"at most {units.amperes(rest.upper)}", percent(rest.upper, figure)))
    return lines


def bus_lines(number, breaking, generators, units):
    """The lines of a bus; its number and its breaking current stand in the first alone."""
    fronts = [(str(number), units.amperes(breaking.figure))] + [("", "")] * len(generators)
    return [front + line for front, line in zip(fronts, bus_cells(breaking, generators, units))]


# ---- all of it

def share_lines(found, delay, generators, names, units=WHOLE):
    """The cells of the table of shares, the headings first."""
    by_bus = [bus_lines(number, breaking, generators, units) for number, breaking in enumerate(found)]
    lines = [("bus", heading(delay), "generator", "share", "of Ib at most")] + [line for lines in by_bus for line in lines]
    if names:
        column = [name if place == 0 else "" for name, lines in zip(names, by_bus) for place in range(len(lines))]
        lines = with_column(lines, 1, ["name", *column])
    return lines


def shares(study_text, found, delay, bus_names=(), source_names=(), units=WHOLE):
    """What stands below the table of buses. `found` has the Breaking of each bus."""
    generators = generators_of(study_text, bus_names, source_names)
    what = WHAT_IT_IS.format(delay)
    if not generators:
        return f"{what}\n\n{NO_GENERATOR}"
    return "\n\n".join([what, columns(share_lines(found, delay, generators, bus_names, units)), WHAT_SHARES_ARE])
