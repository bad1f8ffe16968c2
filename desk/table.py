"""The table for people: what the program printed for each bus, its ratings and the verdict in words."""
from desk.trouble import Trouble
from desk.units import KILO, WHOLE, power, tenths

LEFT = ("name", "generator", "verdict", "what drives the verdict", "decided by", "file", "worst bus")
NOTE = "All currents in {}; initial currents as rms values, from a lower to an upper bound; peaks as momentary values."
POWER = "S″k, MVA"
WHAT_POWER_IS = "S″k is √3 times the nominal voltage times the initial current of both parts, rounded outwards to 0.1 MVA."


def excesses(bus):
    """What a bus is over, by name, and by how many amperes."""
    found = {"rating": bus.low - bus.rating, "peak rating": bus.peak - bus.peak_rating}
    return {name: excess for name, excess in found.items() if excess > 0}


def verdict(bus, units=WHOLE):
    """The letter and the words: document 01, "Verdict", on whole amperes."""
    over = excesses(bus)
    if over:
        return "O", "over " + " and ".join(f"the {name} by {units.said(excess)}" for name, excess in over.items())
    if bus.high <= bus.rating:
        return "W", f"within, {units.said(bus.rating - bus.high)} to spare"
    return "C", "close: the rating lies between the bounds"


def verdict_words(bus, units=WHOLE):
    """The words are this command's own; the letter is proved. Where the two differ, neither is shown."""
    letter, words = verdict(bus, units)
    if letter != bus.letter:
        raise Trouble(f"bus {bus.number}: the program says {bus.letter} where its figures say: {words}")
    return words


def headings(units):
    return ("bus", units.voltage, "machines", "converters", "peak", "rating", "peak rating", "verdict")


def bus_line(bus, units):
    return (str(bus.number), units.volts(bus.volts), units.bounds(bus.lower, bus.upper),
            units.bounds(bus.converters_lower, bus.converters_upper), units.amperes(bus.peak), units.amperes(bus.rating),
            units.amperes(bus.peak_rating), verdict_words(bus, units))


# ---- columns

def with_column(lines, place, column):
    """The lines with a cell more in each."""
    return [(*line[:place], cell, *line[place:]) for line, cell in zip(lines, column)]


def with_names(lines, buses):
    """The lines with the buses' names behind their numbers, where they have any."""
    return with_column(lines, 1, ["name"] + [bus.name for bus in buses]) if any(bus.name for bus in buses) else lines


def stacked(line):
    """Headings of several lines each, the last of them next to the figures."""
    parts = [heading.split("\n") for heading in line]
    height = max(map(len, parts))
    return list(zip(*[[""] * (height - len(words)) + words for words in parts]))


def columns(lines):
    """Columns under their headings, the first line: figures to the right, names and words to the left."""
    sides = ["<" if heading in LEFT else ">" for heading in lines[0]]
    lines = stacked(lines[0]) + lines[1:]
    widths = [max(map(len, column)) for column in zip(*lines)]
    return "\n".join("  ".join(f"{cell:{side}{width}}" for cell, side, width in zip(line, sides, widths)).rstrip()
                     for line in lines)


# ---- all of it

def power_column(buses):
    return [POWER] + [" to ".join(map(tenths, power(bus))) for bus in buses]


def table_lines(buses, breaking=(), units=WHOLE):
    """The cells of the table of an accepted study, the headings first, from the Figures of its buses; with their names, and with a
    column of breaking currents below its heading, where there are any. In kV and kA it has a column of short-circuit power too."""
    lines = [headings(units)] + [bus_line(bus, units) for bus in buses]
    place = lines[0].index("peak")
    if breaking:
        lines = with_column(lines, place, breaking)
    if units is KILO:
        lines = with_column(lines, place, power_column(buses))
    return with_names(lines, buses)


def note(units=WHOLE):
    """What stands below the table."""
    return NOTE.format(units.currents) + (f"\n{WHAT_POWER_IS}" if units is KILO else "")


def table(buses, breaking=(), units=WHOLE):
    return columns(table_lines(buses, breaking, units)) + "\n\n" + note(units)
