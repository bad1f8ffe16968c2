"""What is known of each bus of an accepted study: the amperes and the letter that the program printed, its name, volts and ratings.

No current is calculated here: what the program printed is added and subtracted.
"""
from typing import NamedTuple

from desk.records import rows_of
from desk.trouble import Trouble


class Figures(NamedTuple):
    """A bus; all currents in whole amperes."""
    number: int
    name: str  # empty where the study has none
    volts: int
    rating: int  # of the initial current
    peak_rating: int
    lower: int  # bounds of the machines' initial current
    upper: int
    converters_lower: int  # and of the converters'
    converters_upper: int
    machines_peak: int
    converters_peak: int
    letter: str  # the verdict as the program gave it: W, O or C

    @property
    def low(self):
        """The lower bound of both together."""
        return self.lower + self.converters_lower

    @property
    def high(self):
        """The upper bound of both together."""
        return self.upper + self.converters_upper

    @property
    def peak(self):
        """The peak of both together."""
        return self.machines_peak + self.converters_peak


def figures_of(text, answers, names=()):
    """The Figures of each bus, from an accepted study's text, what the program printed for its buses, and their names if it has any."""
    records = [row.decode("ascii").split(",") for row in rows_of(text) if row.startswith(b"B,")]
    if len(records) != len(answers):
        raise Trouble(f"the program gave {len(answers)} rows for {len(records)} buses")
    return [figures(answer, record, name) for answer, record, name in zip(answers, records, names or [""] * len(records))]


def figures(answer, record, name=""):
    """Of one bus."""
    number, lower, upper, converters_lower, converters_upper, peak, converters_peak, letter = answer
    return Figures(number, name, int(record[2]), int(record[9]), int(record[10]),
                   lower, upper, converters_lower, converters_upper, peak, converters_peak, letter)
