"""What to order: for each bus the smallest rating of the series that switchgear is made in which bears what the program printed."""
from typing import NamedTuple

from desk.figures import Figures
from desk.table import columns, with_names
from desk.units import WHOLE

DECADE = (1_000, 1_250, 1_600, 2_000, 2_500, 3_150, 4_000, 5_000, 6_300, 8_000)
SERIES = (*DECADE, *(10 * current for current in DECADE), 100_000)  # A: the series R10, IEC 60059
LOW_VOLTAGE = 1_000  # V; up to here stands IEC 61439-1, above it IEC 62271-1
PEAK_FACTOR = 25  # tenths; IEC 62271-1, for 50 Hz and a time constant of 45 ms
# Up to a current, in tenths: the factor n of IEC 61439-1.
LOW_VOLTAGE_FACTORS = ((5_000, 15), (10_000, 17), (20_000, 20), (50_000, 21), (SERIES[-1], 22))

TITLE = "What to order: a suggestion, not a verdict"
HEADINGS = ("bus", "{}", "initial\ncurrent", "suggested\nrating", "margin", "peak", "peak\nrating", "margin", "decided by")
NONE = "none up to 100 kA bears it"
LEAST = "the series has no smaller one"
NOTE = """\
Suggested is the smallest rating of the series 1, 1.25, 1.6, 2, 2.5, 3.15, 4, 5, 6.3, 8, 10 .. 100 kA that bears the upper bound of
the initial current and whose peak rating bears the peak, both with the converters. Above 1,000 V the peak rating is 2.5 times the
rating, by IEC 62271-1 at 50 Hz and a time constant of 45 ms; for longer ones the standard has higher factors. Up to 1,000 V it is
1.5 times up to 5 kA, 1.7 up to 10, 2.0 up to 20, 2.1 up to 50 and 2.2 above, by IEC 61439-1, which has no series: assemblies are
made for other ratings too. How long a current is borne, and what a breaker has to break, is not looked at."""


class Rating(NamedTuple):
    current: int
    peak: int


class Suggestion(NamedTuple):
    """The rating to order for a bus, None where the series has none, and which of its two currents decides."""
    bus: Figures
    rating: Rating | None
    decided_by: str

    @property
    def margin(self):
        return self.rating.current - self.bus.high

    @property
    def peak_margin(self):
        return self.rating.peak - self.bus.peak


def rating_of(current, volts):
    """A rating of the series for a nominal voltage."""
    factor = PEAK_FACTOR if volts > LOW_VOLTAGE else next(tenths for most, tenths in LOW_VOLTAGE_FACTORS if current <= most)
    return Rating(current, current * factor // 10)


def first(ratings, bears):
    """The place of the first rating that bears something; behind the last where none does."""
    return next((place for place, rating in enumerate(ratings) if bears(rating)), len(ratings))


def suggestion(bus):
    ratings = [rating_of(current, bus.volts) for current in SERIES]
    by_current = first(ratings, lambda rating: rating.current >= bus.high)
    by_peak = first(ratings, lambda rating: rating.peak >= bus.peak)
    place = max(by_current, by_peak)
    if place == len(ratings):
        return Suggestion(bus, None, NONE)
    return Suggestion(bus, ratings[place], deciding(by_current, by_peak))


def deciding(by_current, by_peak):
    """Which of the two asks for the greater rating, from the places of what each would do with alone."""
    if by_current == by_peak:
        return "both" if by_peak else LEAST
    return "the initial current" if by_current > by_peak else "the peak"


def suggestions_of(buses):
    """The Suggestion for each bus, from its Figures."""
    return [suggestion(bus) for bus in buses]


# ---- as text

def line(one, units):
    own = [one.rating.current, one.margin, one.rating.peak, one.peak_margin] if one.rating else []
    rating, margin, peak_rating, peak_margin = map(units.amperes, own) if own else ["-"] * 4
    return (str(one.bus.number), units.volts(one.bus.volts), units.amperes(one.bus.high), rating, margin,
            units.amperes(one.bus.peak), peak_rating, peak_margin, one.decided_by)


def suggestion_lines(buses, units=WHOLE):
    """The cells of the table, the headings first."""
    heads = tuple(heading.format(units.voltage) for heading in HEADINGS)
    return with_names([heads] + [line(one, units) for one in suggestions_of(buses)], buses)


def suggestions(buses, units=WHOLE):
    """What stands below the table of buses."""
    return "\n\n".join([TITLE, columns(suggestion_lines(buses, units)), NOTE])
