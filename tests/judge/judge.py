"""Whether six amperes are right for a bus, by demand 3 and never by bytes; and
whether its peaks are as near as the product promises beside demand 3.

Enclosure is decided by squares of whole numbers.  A peak is compared with its
exact square by a rigorous enclosure of T(3R/X) first (exact.kappa_bounds); only
when a comparison cannot be told from the enclosure is the exact fraction
worked out, so each decision is the exact one.
"""

from fractions import Fraction
from math import isqrt
from typing import NamedTuple

from exact import CONVERTER, FIXED_BITS, kappa_bounds, series
from shares import Shares

LIMIT = 2**53

# Promised beside demand 3: what a peak may be of the exact one, 1 A apart.
MACHINES_NEAR = Fraction(10015, 10000)
CONVERTERS_NEAR = Fraction(10**8 + 1, 10**8)


class Amperes(NamedTuple):
    machines_lower: int
    machines_upper: int
    converters_lower: int
    converters_upper: int
    machines_peak: int
    converters_peak: int

    @property
    def lower(self):
        return self.machines_lower + self.converters_lower

    @property
    def upper(self):
        return self.machines_upper + self.converters_upper

    @property
    def peak(self):
        return self.machines_peak + self.converters_peak

    @property
    def machines(self):
        """What may not depend on converters."""
        return self.machines_lower, self.machines_upper, self.machines_peak


NO_AMPERES = Amperes(0, 0, 0, 0, 0, 0)


def sign(left, right):
    return (left > right) - (left < right)


class MachinesPart:
    """Comparisons with the exact machines' part I and its exact peak E at one bus.

    What was compared with the peak is kept: networks alike in all but their
    converters ask for the same again.
    """

    def __init__(self, values):
        self.values = values
        self.bounds = kappa_bounds(values.r, values.x)
        self.kappa = None
        self.signs = {}

    def compare(self, n):
        """Sign of n − I."""
        return sign(n * n * self.values.square_bottom, self.values.square_top)

    def compare_peak(self, top, bottom):
        """Sign of top/bottom − E²."""
        if (top, bottom) not in self.signs:
            self.signs[top, bottom] = self.peak_sign(top, bottom)
        return self.signs[top, bottom]

    def peak_sign(self, top, bottom):
        left = top * self.values.square_bottom << 2 * FIXED_BITS
        right = 2 * bottom * self.values.square_top
        low, high = self.bounds
        if left > right * high * high:
            return 1
        if left < right * low * low:
            return -1
        return 0 if low == high else self.compare_peak_exactly(top, bottom)

    def compare_peak_exactly(self, top, bottom):
        self.kappa = self.kappa or self.exact_kappa()
        left = top * self.values.square_bottom * self.kappa.denominator**2
        right = 2 * bottom * self.values.square_top * self.kappa.numerator**2
        return sign(left, right)

    def exact_kappa(self):
        y = Fraction(3 * self.values.r, self.values.x)
        return Fraction(102, 100) + Fraction(98, 100) / series(y)

    def floor(self):
        return isqrt(self.values.square_top // self.values.square_bottom)

    def ceiling(self):
        n = self.floor()
        return n if self.compare(n) == 0 else n + 1

    def peak_ceiling(self):
        """The least whole peak."""
        square = 2 * self.values.square_top * self.bounds[0] ** 2 >> 2 * FIXED_BITS
        n = isqrt(square // self.values.square_bottom)
        while self.compare_peak(n * n, 1) < 0:
            n += 1
        return n


class ConvertersPart:
    """The same comparisons for the converters' part, a Fraction."""

    def __init__(self, part):
        self.part = part

    def compare(self, n):
        return sign(n * self.part.denominator, self.part.numerator)

    def compare_peak(self, top, bottom):
        square = 2 * bottom * self.part.numerator**2
        return sign(top * self.part.denominator**2, square)

    def floor(self):
        return self.part.numerator // self.part.denominator

    def ceiling(self):
        return -(-self.part.numerator // self.part.denominator)

    def peak_ceiling(self):
        n = isqrt(2 * self.part.numerator**2 // self.part.denominator**2)
        return n if self.compare_peak(n * n, 1) >= 0 else n + 1


class BusJudge:
    def __init__(self, machines, converters):
        self.machines = machines
        self.converters = converters

    def reasons(self, amperes):
        """Why these six amperes are wrong, in words; empty when they are right."""
        found = [
            f"{name} {value} is not from 0 to below 2^53"
            for name, value in amperes._asdict().items()
            if not 0 <= value < LIMIT
        ]
        for name, value in (("L", amperes.lower), ("U", amperes.upper), ("P", amperes.peak)):
            if value >= LIMIT:
                found.append(f"the sum {name} {value} is not below 2^53")
        found += pair_reasons("machines", *amperes[0:2], self.machines)
        found += pair_reasons("converters", *amperes[2:4], self.converters)
        found += peak_reasons("machines", amperes.machines_peak, self.machines)
        found += peak_reasons("converters", amperes.converters_peak, self.converters)
        return found

    def near_reasons(self, amperes):
        """Why the peaks are not as near as is promised beside demand 3."""
        found = near_reasons("machines", amperes.machines_peak, self.machines, MACHINES_NEAR)
        found += near_reasons("converters", amperes.converters_peak, self.converters, CONVERTERS_NEAR)
        return found


def pair_reasons(name, lower, upper, part):
    found = []
    if part.compare(lower) > 0:
        found.append(f"{name}' lower {lower} is above the exact part")
    if part.compare(upper) < 0:
        found.append(f"{name}' upper {upper} is below the exact part")
    if 1000 * (upper - lower) > 2000 + upper:
        found.append(f"{name}' pair {lower} to {upper} is wider than 2 A and a thousandth")
    return found


def peak_reasons(name, n, part):
    found = []
    if part.compare_peak(n * n, 1) < 0:
        found.append(f"{name}' peak {n} is below the exact peak")
    if n > 4 and part.compare_peak((n - 4) ** 2 * 100**2, 102**2) > 0:
        found.append(f"{name}' peak {n} is more than 2 % and 4 A above the exact peak")
    return found


def near_reasons(name, n, part, share):
    """`share` is what a peak may be of the exact one before 1 A is added."""
    square = share.numerator**2, share.denominator**2
    if n > 1 and part.compare_peak((n - 1) ** 2 * square[1], square[0]) > 0:
        return [f"{name}' peak {n} is more than {float(100 * (share - 1)):g} % and 1 A above the exact peak"]
    return []


def verdict(amperes, bus):
    """Letter and amperes of the verdict: margin, excess, or 0 for close."""
    if amperes.peak > bus.peak_rating:
        return "O", amperes.peak - bus.peak_rating
    if amperes.lower > bus.rating:
        return "O", amperes.lower - bus.rating
    if amperes.upper <= bus.rating:
        return "W", bus.rating - amperes.upper
    return "C", 0


def verdict_reasons(amperes, letter, given, bus):
    """`given` is None where only the letter is printed."""
    right_letter, right_amperes = verdict(amperes, bus)
    if letter != right_letter:
        return [f"verdict {letter} where {right_letter} is due"]
    if given is not None and given != right_amperes:
        return [f"verdict {letter} by {given} A where {right_amperes} A is due"]
    return []


BUSES_KEPT = 4096
SHARES_KEPT = 8


class Bench:
    """Judges of whole networks.

    The machines' parts are kept for networks alike in tolerance, branches and
    machines, since many files differ in converters or ratings alone.
    """

    def __init__(self, shares_class=Shares):
        self.shares_class = shares_class
        self.kept = {}
        self.buses = 0
        self.shared = {}

    def judges(self, network):
        """A BusJudge for each bus of a Network."""
        parts = zip(self.machines(network), network.converters_everywhere())
        return [BusJudge(machines, ConvertersPart(part)) for machines, part in parts]

    def machines(self, network):
        key = machines_key(network)
        if key not in self.kept:
            self.buses += len(network.buses)
            while self.kept and self.buses > BUSES_KEPT:
                self.buses -= len(self.kept.pop(next(iter(self.kept))))
            self.kept[key] = [MachinesPart(values) for values in network.machine_values()]
        return self.kept[key]

    def shares(self, network):
        """The Shares of a Network, kept for a few networks since they take more space."""
        key = machines_key(network)
        if key not in self.shared:
            while len(self.shared) >= SHARES_KEPT:
                self.shared.pop(next(iter(self.shared)))
            self.shared[key] = self.shares_class(network)
        return self.shared[key]


def machines_key(network):
    """All that the machines' part may depend on, nominal volts and branches without ratings."""
    branches = tuple(bus[:8] for bus in network.buses)
    machines = tuple(source for source in network.sources if source.kind != CONVERTER)
    return network.tolerance, branches, machines
