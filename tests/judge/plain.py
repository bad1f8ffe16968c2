"""Document 01 and orders 3, 5 and 6 once more, as plainly as they are written: fractions and recursion.

The fractions are far too slow for large networks.  The self-test compares
them with exact.py on small ones, and the same recursion in floating point on
large ones, so that a slip in the sweeps or in the gathered whole-number
formulas shows.
"""

from fractions import Fraction as F
from functools import lru_cache

from exact import CONVERTER, FEEDER, GENERATOR, TRANSFORMER, UNIT


def least(holds):
    n = 0
    while not holds(n):
        n += 1
    return n


def greatest(holds):
    return least(lambda n: not holds(n + 1))


def c(volts, tolerance):
    return F(105, 100) if volts <= 1000 and tolerance == 6 else F(110, 100)


@lru_cache(None)
def sine(p):
    return F(least(lambda s: s * s >= 10**8 - 10**4 * p * p), 10000)


def greatest_below(high, holds):
    """The greatest by halving, since millions of steps for each record would take too long."""
    low = 0
    while high - low > 1:
        middle = (low + high) // 2
        if holds(middle):
            low = middle
        else:
            high = middle
    return low


@lru_cache(None)
def ux(uk, ur):
    """As a fraction of 1, from millionths of a percent."""
    return F(greatest_below(1000 * uk + 1, lambda w: w * w <= (uk * uk - ur * ur) * 10**6), 10**8)


def f(rho):
    return greatest_below(10**6 + 1, lambda n: n**2 * (10000 + rho**2) <= 10**16)


def series(y):
    term, found = F(1), F(1)
    for k in range(1, 25):
        term = term * y / k
        found += term
    return found


def table_factor(delay, tenths):
    """μ of order 3 in thousandths, rounded up, e^(−y) being 1/T(y)."""
    a, b, g = {
        20: (F("0.84"), F("0.26"), F("0.26")),
        50: (F("0.71"), F("0.51"), F("0.30")),
        100: (F("0.62"), F("0.72"), F("0.32")),
        250: (F("0.56"), F("0.94"), F("0.38")),
    }[delay]
    value = 1000 * (a + b / series(g * F(tenths, 10)))
    return min(1000, least(lambda n: n >= value))


class Complex:
    def __init__(self, re, im):
        self.re, self.im = F(re), F(im)

    def __add__(self, other):
        return Complex(self.re + other.re, self.im + other.im)

    def times(self, factor):
        return Complex(self.re * factor, self.im * factor)

    def square(self):
        return self.re**2 + self.im**2

    def inverse(self):
        return Complex(self.re / self.square(), -self.im / self.square())


def nearly(z):
    return complex(float(z.re), float(z.im))


class PlainNetwork:
    def __init__(self, tolerance, buses, sources):
        self.tolerance, self.buses, self.sources = tolerance, buses, sources
        self.near = {}

    def c(self, volts):
        return c(volts, self.tolerance)

    def branch(self, b):
        bus = self.buses[b]
        if bus.kind == TRANSFORMER:
            _, own, kva, uk, ur = bus.branch
            x = ux(uk, ur)
            lower = min(bus.volts, self.buses[bus.parent].volts)
            k_t = F(95, 100) * self.c(lower) / (1 + F(6, 10) * x)
            return Complex(F(ur, 100000), x).times(k_t * F(own**2, 1000 * kva))
        r, x, metres, circuits, _ = bus.branch
        return Complex(r, x).times(F(metres, circuits * 10**6))

    def unit(self, source):
        """K_S·(t²·Z_G + Z_T), on the high side."""
        rated, kva, xd, rho, power_factor = source.fields
        low, high, transformer_kva, uk, ur = source.transformer
        volts = self.buses[source.bus].volts
        x = F(xd, 100000) * F(rated**2, 1000 * kva)
        z_g = Complex(x * F(rho, 100), x)
        z_t = Complex(F(ur, 100000), ux(uk, ur)).times(F(high**2, 1000 * transformer_kva))
        apart = abs(F(xd, 100000) - ux(uk, ur))
        k_s = F(volts, rated) ** 2 * F(low, high) ** 2 * self.c(volts) / (1 + apart * sine(power_factor))
        return (z_g.times(F(high, low) ** 2) + z_t).times(k_s)

    def machine(self, source):
        if source.kind == UNIT:
            return self.unit(source)
        volts = self.buses[source.bus].volts
        if source.kind == GENERATOR:
            rated, kva, xd, rho, power_factor = source.fields
            k_g = F(volts, rated) * self.c(volts) / (1 + F(xd, 100000) * sine(power_factor))
            x = k_g * F(xd, 100000) * F(rated**2, 1000 * kva)
            return Complex(x * F(rho, 100), x)
        if source.kind == FEEDER:
            kva, rho = source.fields[:2]
            z = self.c(volts) * volts**2 / (1000 * kva)
        else:
            rated, kva, ratio, rho, _ = source.fields
            z = F(10, ratio) * F(rated**2, 1000 * kva)
        x = z * F(f(rho), 10**6)
        return Complex(x * F(rho, 100), x)

    def neighbours(self, b):
        near = [n for n in range(1, len(self.buses)) if self.buses[n].parent == b]
        return near if b == 0 else [self.buses[b].parent, *near]

    def ratio(self, left, arrived):
        """Rated volts on the side arrived at over those on the side left."""
        bus = self.buses[max(left, arrived)]
        if bus.kind != TRANSFORMER:
            return F(1)
        on_parent, on_own = bus.branch[:2]
        return F(on_own, on_parent) if arrived > left else F(on_parent, on_own)

    def seen(self, b, without=None):
        """Admittance at b without a neighbour, or None where no machine is."""
        parts = [
            self.machine(source).inverse()
            for source in self.sources
            if source.bus == b and source.kind != CONVERTER
        ]
        for n in self.neighbours(b):
            y = None if n == without else self.added(b, n)
            if y is not None:
                parts.append(y)
        if not parts:
            return None
        return sum(parts[1:], parts[0])

    def added(self, b, n):
        """Admittance that the neighbour n adds at b, or None where no machine is behind it."""
        y = self.seen(n, b)
        if y is None:
            return None
        squared = self.ratio(n, b) ** 2
        z = self.branch(max(n, b))
        z = z if b > n else z.times(squared)
        return (z + y.inverse().times(squared)).inverse()

    def seen_nearly(self, b, without=None):
        """The same in floating point, 0 where no machine is; what was found is kept."""
        if (b, without) in self.near:
            return self.near[b, without]
        found = 0j
        for source in self.sources:
            if source.bus == b and source.kind != CONVERTER:
                found += 1 / nearly(self.machine(source))
        for n in self.neighbours(b):
            y = 0j if n == without else self.seen_nearly(n, b)
            if y:
                squared = float(self.ratio(n, b)) ** 2
                z = nearly(self.branch(max(n, b)))
                found += 1 / ((z if b > n else z * squared) + squared / y)
        self.near[b, without] = found
        return found

    def converters(self, b, without=None):
        found = F(0)
        for source in self.sources:
            if source.bus == b and source.kind == CONVERTER:
                found += F(source.first, 10) * F(source.second, 100)
        for n in self.neighbours(b):
            if n != without:
                found += self.converters(n, b) / self.ratio(n, b)
        return found

    def current_square(self, b):
        z = self.seen(b).inverse()
        volts = self.buses[b].volts
        return (self.c(volts) * volts) ** 2 / (3 * (z.re**2 + z.im**2))

    def way(self, b, end, without=None):
        """The buses from b to the end, both included, or None where the end is not there."""
        if b == end:
            return [b]
        for n in self.neighbours(b):
            rest = None if n == without else self.way(n, end, b)
            if rest:
                return [b, *rest]
        return None

    def share_square(self, b, source):
        """At each bus on the way the current divides as the admittances summed there."""
        square, before = self.current_square(b), None
        way = self.way(b, source.bus)
        for at, n in zip(way, way[1:]):
            square *= self.added(at, n).square() / self.seen(at, before).square()
            before = at
        own = self.machine(source).inverse()
        return square * own.square() / self.seen(source.bus, before).square()

    def share_nearly(self, b, source):
        """In floating point and by another way: from the voltage at the fault the voltages
        along the way, then the current through the machine; carried back, and at its terminals."""
        volts = self.buses[b].volts
        voltage, back = float(self.c(volts)) * volts / 3**0.5, 1.0
        way = self.way(b, source.bus)
        for at, n in zip(way, way[1:]):
            squared = float(self.ratio(n, at)) ** 2
            z = nearly(self.branch(max(n, at))) * (1 if at > n else squared)
            far = squared / self.seen_nearly(n, at)
            voltage *= far / (z + far) * float(self.ratio(at, n))
            back *= float(self.ratio(at, n))
        current = abs(voltage / nearly(self.machine(source)))
        terminals = source.high_volts / source.low_volts if source.kind == UNIT else 1.0
        return current * back, current * terminals

    def q_square(self, b, source):
        """At the generator's terminals; a current falls as the rated volts rise."""
        square = self.share_square(b, source)
        way = self.way(b, source.bus)
        for left, arrived in zip(way, way[1:]):
            square /= self.ratio(left, arrived) ** 2
        if source.kind == UNIT:
            square *= F(source.high_volts, source.low_volts) ** 2
        rated, kva = source.fields[:2]
        return square * 3 * F(rated, 1000 * kva) ** 2

    def factor(self, b, source, delay):
        """μ in thousandths."""
        if source.kind not in (GENERATOR, UNIT) or self.q_square(b, source) <= 4:
            return 1000
        square = self.q_square(b, source)
        tenths = 100 if square >= 100 else greatest(lambda n: F(n, 10) ** 2 <= square)
        return table_factor(delay, tenths)

    def peak_square(self, b):
        z = self.seen(b).inverse()
        kappa = F(102, 100) + F(98, 100) / series(3 * z.re / z.im)
        return 2 * self.current_square(b) * kappa**2
