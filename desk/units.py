"""The units that figures are written in: volts and amperes, or kV and kA with all their digits, so that nothing is rounded; and the
short-circuit power that belongs to a current."""
from collections.abc import Callable
from math import isqrt
from typing import NamedTuple

TENTH_MVA = 100_000  # VA


class Units(NamedTuple):
    """What the units are called, and how whole volts and amperes are written in them."""
    voltage: str  # above a column of voltages
    currents: str  # in a sentence
    current: str  # behind a figure
    volts: Callable
    amperes: Callable

    def bounds(self, lower, upper):
        return f"{self.amperes(lower)} to {self.amperes(upper)}"

    def said(self, amperes):
        """Amperes within a sentence."""
        return f"{self.amperes(amperes)} {self.current}"


def whole(value):
    return f"{value:,}"


def thousandths(value):
    """A whole number in thousands, all three digits behind the point."""
    return f"{'-' * (value < 0)}{abs(value) // 1000:,}.{abs(value) % 1000:03d}"


def on_a_plate(value):
    """The same without needless noughts, as nominal voltages are written."""
    return thousandths(value).rstrip("0").rstrip(".")


WHOLE = Units("volts", "amperes", "A", whole, whole)
KILO = Units("kV", "kA", "kA", on_a_plate, thousandths)


# ---- power

def root_above(square):
    """The least whole number whose square is no less."""
    root = isqrt(square)
    return root if root * root == square else root + 1


def power(bus):
    """S″k, √3 times Un times I″k, of both parts in tenths of MVA: of the lower bound rounded down, of the upper rounded up."""
    lower, upper = (3 * (bus.volts * amperes) ** 2 for amperes in (bus.low, bus.high))
    return isqrt(lower) // TENTH_MVA, -(-root_above(upper) // TENTH_MVA)


def tenths(value):
    return f"{value // 10:,}.{value % 10}"
