"""What drives the verdict of each bus: both ratings against the machines alone and against machines and converters.

What the program printed is added and subtracted here. The machines' figures are those of the same network without any converter,
which is proved; so "over by machines alone" means that the bus would be over without them.
"""
from typing import NamedTuple

from desk.figures import Figures
from desk.table import columns, with_names
from desk.units import WHOLE

TITLE = "What drives the verdicts"
HEADINGS = ("bus", "rating", "machines\nalone", "margin", "with\nconverters", "margin", "peak\nrating", "machines\nalone",
            "margin", "with\nconverters", "margin", "what drives the verdict")
# By the verdict on the machines alone and the verdict with the converters, which add to a current and take nothing from it.
WORDS = {
    ("W", "W"): "within",
    ("W", "C"): "close only with converters",
    ("C", "C"): "close by machines alone",
    ("W", "O"): "over only with converters",
    ("C", "O"): "over with converters, close without",
    ("O", "O"): "over by machines alone",
}
NOTE = """\
The margin is what the rating has left above the upper bound of the current; with a minus sign it is how far the lower bound is
above the rating, as in the verdict. The current before it is that bound. Where the rating lies between the two bounds, "close"
stands in place of a margin, and the current is the upper bound. A peak has one figure, no lower than the exact one and above it by
at most 0.15 % plus 2 A. The machines are the feeder, the generators, alone or in power station units, and the motors.

The converters' part is a plain sum: each converter of the network counts at every bus, with its rated current times k carried over
the transformers by their rated voltages. The 2016 edition of IEC 60909-0 weighs a converter by its transfer impedance: it then
never counts for more, and mostly for less. So a bus that is within stays within, and one that is over only with the converters
deserves a second look."""


class Held(NamedTuple):
    """A current held against a rating: the bound that counts, and what is left of the rating, below 0 what is above it; None where
    the rating lies between the bounds."""
    bound: int
    margin: int | None


class Driver(NamedTuple):
    """What drives the verdict of a bus, in words and in amperes."""
    bus: Figures
    machines: Held
    both: Held
    machines_peak: Held
    both_peak: Held
    words: str


def held(lower, upper, rating):
    if lower > rating:
        return Held(lower, rating - lower)
    return Held(upper, rating - upper if upper <= rating else None)


def letter(initial, peak):
    """The verdict on a current and a peak, as the program gives it."""
    if any(one.margin is not None and one.margin < 0 for one in (initial, peak)):
        return "O"
    return "C" if initial.margin is None else "W"


def driver(bus):
    machines, both = held(bus.lower, bus.upper, bus.rating), held(bus.low, bus.high, bus.rating)
    machines_peak, both_peak = (held(peak, peak, bus.peak_rating) for peak in (bus.machines_peak, bus.peak))
    words = WORDS[letter(machines, machines_peak), letter(both, both_peak)]
    return Driver(bus, machines, both, machines_peak, both_peak, words)


def drivers_of(buses):
    """The Driver of each bus, from its Figures."""
    return [driver(bus) for bus in buses]


# ---- as text

def cells(one, units):
    return units.amperes(one.bound), "close" if one.margin is None else units.amperes(one.margin)


def line(one, units):
    return (str(one.bus.number), units.amperes(one.bus.rating), *cells(one.machines, units), *cells(one.both, units),
            units.amperes(one.bus.peak_rating), *cells(one.machines_peak, units), *cells(one.both_peak, units), one.words)


def driver_lines(buses, units=WHOLE):
    """The cells of the table, the headings first."""
    return with_names([HEADINGS] + [line(one, units) for one in drivers_of(buses)], buses)


def drivers(buses, units=WHOLE):
    """What stands below the table of buses."""
    return "\n\n".join([TITLE, columns(driver_lines(buses, units)), NOTE])
