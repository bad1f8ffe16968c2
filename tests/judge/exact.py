"""Exact values of a network: factors, impedances, seen impedance, currents.

Written from document 01 and orders 5 and 6 of document 02 alone.  Every value
is a whole number or a ratio of whole numbers; nothing here is rounded except
the enclosure of T(y) in `kappa_bounds`, which is rounded outwards.

An admittance is kept as a ratio (p + jq)/(r + js) of complex whole numbers.
Turning it over exchanges the two, and a sum or a branch in series adds the
sizes of its parts, so that the largest networks need numbers of about
fifteen thousand bits.  A ratio over one real denominator would double in size
with every branch.
"""

from fractions import Fraction
from math import factorial, gcd, isqrt
from typing import NamedTuple

LINE, TRANSFORMER = 1, 2
FEEDER, GENERATOR, MOTOR, CONVERTER, UNIT = 1, 2, 3, 4, 5

# Numbers above this many bits are not searched for a common divisor: the
# search would take longer than it saves.
REDUCED_BITS = 1500

# Bits behind the point in the enclosure of T(y).
FIXED_BITS = 400


class BusRecord(NamedTuple):
    parent: int
    volts: int
    kind: int
    first: int
    second: int
    third: int
    fourth: int
    fifth: int
    rating: int
    peak_rating: int

    @property
    def branch(self):
        return self[3:8]


class SourceRecord(NamedTuple):
    """Seven numbers alone are read as if filled with zeros."""

    kind: int
    bus: int
    first: int
    second: int
    third: int
    fourth: int
    fifth: int
    low_volts: int = 0
    high_volts: int = 0
    transformer_kva: int = 0
    uk: int = 0
    ur: int = 0

    @property
    def fields(self):
        return self[2:7]

    @property
    def transformer(self):
        """What a power station unit alone has: low and high volts, kVA, uk, uR."""
        return self[7:12]


# Factors


def c_hundredths(volts, tolerance):
    if volts > 1000:
        return 110
    return 105 if tolerance == 6 else 110


def sine(power_factor):
    """Least s with s² ≥ 10⁸ − 10⁴·p², in ten-thousandths."""
    square = 10**8 - 10**4 * power_factor**2
    root = isqrt(square)
    return root if root * root == square else root + 1


def transformer_ux(uk, ur):
    """Greatest w with w² ≤ (uk² − uR²)·10⁶: in millionths of a percent, uk and uR in thousandths."""
    return isqrt((uk * uk - ur * ur) * 10**6)


def f_millionths(rho):
    """Greatest f with f²·(10,000 + ρ²) ≤ 10¹⁶."""
    return isqrt(10**16 // (10000 + rho * rho))


SERIES_TERMS = 24
SERIES_WEIGHTS = [factorial(SERIES_TERMS) // factorial(k) for k in range(SERIES_TERMS + 1)]


def series(y):
    """T(y), exactly."""
    y = Fraction(y)
    top, bottom = y.numerator, y.denominator
    total, power = 0, 1
    for k in range(SERIES_TERMS, -1, -1):
        total = total * top + SERIES_WEIGHTS[k] * power
        power *= bottom
    return Fraction(total, factorial(SERIES_TERMS) * bottom**SERIES_TERMS)


def peak_thousandths(i):
    """K(i) of the peak table."""
    part = 980 / series(Fraction(3 * i, 100))
    return 1020 + -(-part.numerator // part.denominator)


def kappa_bounds(top, bottom):
    """Whole numbers low and high with low/2^B ≤ 1.02 + 0.98/T(3·top/bottom) ≤ high/2^B.

    B is FIXED_BITS.  T grows with its argument and every step is rounded
    down for the one bound and up for the other.
    """
    one = 1 << FIXED_BITS
    floor_y = (3 * top << FIXED_BITS) // bottom
    ceiling_y = -((-3 * top << FIXED_BITS) // bottom)
    t_low = t_high = one
    for k in range(SERIES_TERMS, 0, -1):
        t_low = one + ((t_low * floor_y) >> FIXED_BITS) // k
        t_high = one - ((-t_high * ceiling_y) >> FIXED_BITS) // k
    square = one * one
    low = (102 * one + 98 * square // t_high) // 100
    high = -(-(102 * one - (-98 * square // t_low)) // 100)
    return low, high


# Admittances, (p, q, r, s) for (p + jq)/(r + js); None where no machine is


def reduced(p, q, r, s):
    if r.bit_length() > REDUCED_BITS or s.bit_length() > REDUCED_BITS:
        return p, q, r, s
    common = gcd(p, q, r, s)
    return p // common, q // common, r // common, s // common


def plus(y, w):
    if y is None:
        return w
    if w is None:
        return y
    a, b, c, d = y
    e, f, g, h = w
    return reduced(
        a * g - b * h + e * c - f * d,
        a * h + b * g + e * d + f * c,
        c * g - d * h,
        c * h + d * g,
    )


def total(admittances):
    """Sum by halves, so that the numbers multiplied have about equal sizes."""
    if not admittances:
        return None
    while len(admittances) > 1:
        paired = [plus(*admittances[i : i + 2]) for i in range(0, len(admittances) - 1, 2)]
        if len(admittances) % 2:
            paired.append(admittances[-1])
        admittances = paired
    return admittances[0]


def behind(impedance, factor, y):
    """1/(impedance + factor/y): an admittance seen through a branch."""
    if y is None:
        return None
    a, b, d = impedance
    top, bottom = factor
    p, q, r, s = y
    p, q = p * bottom, q * bottom
    scale = d * top
    return reduced(d * p, d * q, a * p - b * q + scale * r, a * q + b * p + scale * s)


class MachineValues(NamedTuple):
    """The machines' part at a bus: I² is square_top/square_bottom, R/X is r/x, x above 0."""

    square_top: int
    square_bottom: int
    r: int
    x: int


class Sweeps(NamedTuple):
    """Admittances by bus b: Seen(b without its parent) and what that adds at the parent,
    Seen(the parent without b) and what that adds at b, which bus 0 has none of; and
    Seen(b without none)."""

    below: list
    sent: list
    beside: list
    above: list
    seen: list


class Network:
    """Tolerance, bus records and source records of an accepted network."""

    def __init__(self, tolerance, buses, sources):
        self.tolerance = tolerance
        self.buses = [BusRecord(*b) for b in buses]
        self.sources = [SourceRecord(*s) for s in sources]
        self.children = [[] for _ in self.buses]
        for i in range(1, len(self.buses)):
            self.children[self.buses[i].parent].append(i)

    # Element impedances: (a, b, d) for (a + jb)/d ohms

    def c(self, volts):
        return c_hundredths(volts, self.tolerance)

    def ux(self, uk, ur):
        return transformer_ux(uk, ur)

    def line(self, bus):
        r, x, metres, circuits, _ = bus.branch
        return r * metres, x * metres, circuits * 10**6

    def transformer(self, bus):
        """Own side.  0.95·(c/100)/(1 + 0.6·w/10⁸) is 9,500·c·10³/(10⁹ + 6·w), and uR/10⁵ is
        10³·uR/10⁸."""
        _, own, kva, uk, ur = bus.branch
        w = self.ux(uk, ur)
        c = self.c(min(bus.volts, self.buses[bus.parent].volts))
        scale = 9500 * c * own * own
        return scale * 1000 * ur, scale * w, (10**9 + 6 * w) * 10**8 * kva

    def feeder(self, source):
        kva, rho = source.fields[:2]
        volts = self.buses[source.bus].volts
        return self.split(self.c(volts) * volts**2, 10**5 * kva, rho)

    def generator(self, source):
        """K_G is Un·c·10⁷/(Ur·(10⁹ + xd·s)) with c in hundredths."""
        rated, kva, xd, rho, power_factor = source.fields
        volts = self.buses[source.bus].volts
        x = volts * self.c(volts) * 10**7 * xd * rated
        return x * rho, x * 100, (10**9 + xd * sine(power_factor)) * 10**8 * kva * 100

    def motor(self, source):
        rated, kva, ratio, rho, _ = source.fields
        return self.split(10 * rated**2, ratio * 1000 * kva, rho)

    def unit(self, source):
        """K_S·(t²·Z_G + Z_T), over one denominator."""
        top, bottom = self.unit_factor(source)
        r, x, d = self.unit_generator(source)
        ur, ux, e = self.unit_transformer(source)
        z = (r * e + ur * d) * top, (x * e + ux * d) * top, d * e * bottom
        common = gcd(*z)
        return tuple(part // common for part in z)

    def unit_factor(self, source):
        """K_S = Un²/Ur²·low²/high²·c/(1 + |xd − xT|·sin), xd in 10⁵ths, xT in 10⁸ths, sin in 10⁴ths."""
        rated, _, xd, _, power_factor = source.fields
        low, high, _, uk, ur = source.transformer
        volts = self.buses[source.bus].volts
        apart = abs(1000 * xd - self.ux(uk, ur)) * sine(power_factor)
        top = (volts * low) ** 2 * self.c(volts) * 10**10
        return top, (rated * high) ** 2 * (10**12 + apart)

    def unit_generator(self, source):
        """t²·Z_G: the generator without K_G, from the low side to the high one."""
        rated, kva, xd, rho, _ = source.fields
        low, high = source.transformer[:2]
        x = (high * rated) ** 2 * xd
        return x * rho, x * 100, low**2 * 10**8 * kva * 100

    def unit_transformer(self, source):
        """Z_T on the high side, without K_T."""
        _, high, kva, uk, ur = source.transformer
        return high**2 * 1000 * ur, high**2 * self.ux(uk, ur), 10**11 * kva

    def split(self, top, bottom, rho):
        """Z = top/bottom ohms parted into R and X by f."""
        x = top * f_millionths(rho)
        return x * rho, x * 100, bottom * 10**8

    def machine(self, source):
        rule = {FEEDER: self.feeder, GENERATOR: self.generator, MOTOR: self.motor, UNIT: self.unit}
        return rule[source.kind](source)

    def is_machine(self, source):
        return source.kind != CONVERTER

    def is_generator(self, source):
        """In the breaking current a unit is a generator."""
        return source.kind in (GENERATOR, UNIT)

    # Crossing the branch of a bus

    def rated_sides(self, b):
        """Rated volts on the own side and on the parent's side; a line has 1 and 1."""
        bus = self.buses[b]
        return (bus.second, bus.first) if bus.kind == TRANSFORMER else (1, 1)

    def branch(self, b):
        bus = self.buses[b]
        return self.transformer(bus) if bus.kind == TRANSFORMER else self.line(bus)

    def to_parent(self, b, y):
        """Admittance y at b, seen from its parent through the branch."""
        own, parent = self.rated_sides(b)
        top, bottom = parent**2, own**2
        a, x, d = self.branch(b)
        return behind((a * top, x * top, d * bottom), (top, bottom), y)

    def from_parent(self, b, y):
        """Admittance y at the parent of b, seen from b through the branch."""
        own, parent = self.rated_sides(b)
        return behind(self.branch(b), (own**2, parent**2), y)

    # Seen impedance

    def own_admittances(self):
        """1/Z of the machines at each bus, added up."""
        at = [[] for _ in self.buses]
        for source in self.sources:
            if self.is_machine(source):
                a, b, d = self.machine(source)
                at[source.bus].append(reduced(d, 0, a, b))
        return [total(part) for part in at]

    def sweeps(self):
        """The Sweeps of the network.

        The first goes from the last bus to bus 0 and finds what each bus
        sends to its parent.  The second goes from bus 0 outwards: a child
        gets the sum over its parent's other parts, taken from running sums
        before and after it.
        """
        count = len(self.buses)
        own = self.own_admittances()
        below, sent = [None] * count, [None] * count
        for b in range(count - 1, 0, -1):
            below[b] = total([own[b]] + [sent[n] for n in self.children[b]])
            sent[b] = self.to_parent(b, below[b])
        beside, above, seen = [None] * count, [None] * count, [None] * count
        for b in range(count):
            start = plus(own[b], above[b])
            children = self.children[b]
            after = [None]
            for n in reversed(children):
                after.append(plus(sent[n], after[-1]))
            before = start
            for n in children:
                after.pop()
                beside[n] = plus(before, after[-1])
                above[n] = self.from_parent(n, beside[n])
                before = plus(before, sent[n])
            seen[b] = before
        return Sweeps(below, sent, beside, above, seen)

    def seen_everywhere(self):
        """Seen(b without none) for all buses."""
        return self.sweeps().seen

    # Converters

    def converters_everywhere(self):
        """The converters' part of each bus, by the same two sweeps."""
        count = len(self.buses)
        gathered = [Fraction(0)] * count
        for source in self.sources:
            if source.kind == CONVERTER:
                current, k = source.fields[:2]
                gathered[source.bus] += Fraction(current * k, 1000)
        sent = [Fraction(0)] * count
        for b in range(count - 1, 0, -1):
            own, parent = self.rated_sides(b)
            sent[b] = gathered[b] * Fraction(own, parent)
            gathered[self.buses[b].parent] += sent[b]
        for b in range(1, count):
            own, parent = self.rated_sides(b)
            gathered[b] += (gathered[self.buses[b].parent] - sent[b]) * Fraction(parent, own)
        return gathered

    def machine_values(self):
        """MachineValues of each bus.

        Z is (r + js)/(p + jq), so I² = (c·Un)²·|p + jq|²/(3·|r + js|²).
        """
        found = []
        for bus, (p, q, r, s) in zip(self.buses, self.seen_everywhere()):
            found.append(
                MachineValues(
                    (self.c(bus.volts) * bus.volts) ** 2 * (p * p + q * q),
                    3 * 10**4 * (r * r + s * s),
                    r * p + s * q,
                    s * p - r * q,
                )
            )
        return found
