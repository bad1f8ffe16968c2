"""Exact shares of the machines in a fault current, the factor μ, and sums of roots (order 3).

Written from orders 3 and 5 of document 02 and from document 01 alone.  The square of
a share is a fraction whose numbers grow with the branches on the way, so it is
kept as a chain of factors.  Comparisons go by an enclosure of the product
first; only what that cannot tell is worked out from the whole fraction, so each
decision is the exact one.
"""

from fractions import Fraction
from math import isqrt
from typing import NamedTuple

from exact import UNIT, series

# μ of each delay is first + second·e^(−third·q), all in hundredths
FORMULAS = {20: (84, 26, 26), 50: (71, 51, 30), 100: (62, 72, 32), 250: (56, 94, 38)}
LAST_TENTH = 100
WHOLE = 1000

# Bits of an enclosure, and bits behind the point of a root taken from it
ENCLOSED_BITS = 384
ROOT_BITS = 128


def factor_thousandths(delay, tenths):
    """The table of a delay: μ for q in tenths, rounded up, at most 1."""
    first, second, third = FORMULAS[delay]
    part = 10 * (first + second / series(Fraction(third * tenths, 1000)))
    return min(WHOLE, -(-part.numerator // part.denominator))


TABLES = {delay: [factor_thousandths(delay, i) for i in range(LAST_TENTH + 1)] for delay in FORMULAS}


# Enclosures


class Span(NamedTuple):
    """low·2^exponent ≤ the number ≤ high·2^exponent."""

    low: int
    high: int
    exponent: int

    def times(self, other):
        low = self.low * other.low >> ENCLOSED_BITS
        high = -(-self.high * other.high >> ENCLOSED_BITS)
        return Span(low, high, self.exponent + other.exponent + ENCLOSED_BITS)

    def scaled(self, bits):
        """Whole numbers at most and at least the number times 2^bits."""
        shift = self.exponent + bits
        if shift >= 0:
            return self.low << shift, self.high << shift
        return self.low >> -shift, -(-self.high >> -shift)


def span_of(top, bottom):
    shift = ENCLOSED_BITS + bottom.bit_length() - top.bit_length()
    low = (top << shift) // bottom if shift >= 0 else top // (bottom << -shift)
    return Span(low, low + 1, -shift)


def root_above(n):
    root = isqrt(n)
    return root if root * root == n else root + 1


class Square:
    """A number above 0 as a product: top/bottom times the one before, each with its enclosure."""

    def __init__(self, top, bottom, span=None, before=None):
        self.top, self.bottom, self.before = top, bottom, before
        self.span = span or span_of(top, bottom)
        if before:
            self.span = self.span.times(before.span)
        self.roots = None

    def fraction(self):
        """The two whole numbers of the product, not reduced."""
        top, bottom, before = self.top, self.bottom, self.before
        while before:
            top, bottom, before = top * before.top, bottom * before.bottom, before.before
        return top, bottom

    def times(self, top, bottom):
        return Square(top, bottom, None, self)

    def compare(self, n):
        """Sign of n − the number, n whole; no number here is 0."""
        if n == 0:
            return -1
        low, high = self.span.scaled(ENCLOSED_BITS)
        n <<= ENCLOSED_BITS
        if n < low:
            return -1
        if n > high:
            return 1
        top, bottom = self.fraction()
        left, right = (n >> ENCLOSED_BITS) * bottom, top
        return (left > right) - (left < right)

    def floor(self):
        low, high = (n >> ENCLOSED_BITS for n in self.span.scaled(ENCLOSED_BITS))
        if low == high:
            return low
        top, bottom = self.fraction()
        return top // bottom

    def root_floor(self):
        return isqrt(self.floor())

    def root_ceiling(self):
        n = self.root_floor()
        return n if self.compare(n * n) == 0 else n + 1

    def root_bounds(self):
        """Whole numbers at most and at least the root times 2^ROOT_BITS, by the enclosure."""
        if self.roots is None:
            low, high = self.span.scaled(2 * ROOT_BITS)
            self.roots = isqrt(low), root_above(high)
        return self.roots


# Shares


class Share(NamedTuple):
    """The square of a machine's share at a queried bus, and of a generator's q, else None."""

    square: Square
    q_square: Square

    def tenths(self):
        """q in tenths, rounded down, 100 and above as 100."""
        return min(LAST_TENTH, self.q_square.times(100, 1).root_floor())

    def thousandths(self, delay):
        """μ: 1 but for a generator with q above 2 before any rounding."""
        if self.q_square is None or self.q_square.compare(4) >= 0:
            return WHOLE
        return TABLES[delay][self.tenths()]


def size_square(admittance):
    p, q, r, s = admittance
    return p * p + q * q, r * r + s * s


class Shares:
    """The machines' shares at the buses of one network.

    The current at the queried bus is c·Un/√3 times the admittance seen there,
    and at each bus on the way it is divided by the admittance seen there and
    multiplied by that of the way on.  So the admittance seen at the queried bus
    falls out, and each branch passed gives a factor of its own, the same for
    every queried bus on this side of it: what the far side adds here over what
    is seen there.
    """

    def __init__(self, network):
        self.network = network
        self.sweeps = network.sweeps()
        self.passed = {}
        self.found = {}
        self.machines = [source for source in network.sources if network.is_machine(source)]
        self.sizes = [self.admittance_square(source) for source in self.machines]

    def admittance_square(self, source):
        a, b, d = self.network.machine(source)
        return Square(d * d, a * a + b * b)

    def rated_square(self, source):
        """1 over the square of a generator's rated current, kVA·1000/(√3·Ur)."""
        volts, kva = source.fields[:2]
        return 3 * volts**2, (1000 * kva) ** 2

    def to_terminals(self, source):
        """Rated volts at a generator's bus over those at its terminals: a unit has its own on
        the low side of its transformer."""
        return (source.high_volts, source.low_volts) if source.kind == UNIT else (1, 1)

    def passing(self, b, n):
        """The factor of a branch passed from b to n, None where no machine is behind it."""
        if (b, n) not in self.passed:
            self.passed[b, n] = self.divided(*self.sides(b, n))
        return self.passed[b, n]

    def sides(self, b, n):
        """What a neighbour n adds at b, and Seen(n without b)."""
        if n > b:
            return self.sweeps.sent[n], self.sweeps.below[n]
        return self.sweeps.above[b], self.sweeps.beside[b]

    def divided(self, added, seen):
        if added is None:
            return None
        top, bottom = size_square(added)
        under, over = size_square(seen)
        return Square(top * over, bottom * under)

    def neighbours(self, b):
        near = self.network.children[b]
        return [self.network.buses[b].parent, *near] if b else near

    def left_over_arrived(self, b, n):
        """Rated volts on the side left over those on the side arrived at, from b to n."""
        own, parent = self.network.rated_sides(max(b, n))
        return (parent, own) if n > b else (own, parent)

    def ways(self, b):
        """By bus: the factors on the way there from b, and the rated ratio squared."""
        volts = self.network.buses[b].volts
        start = Square((self.network.c(volts) * volts) ** 2, 3 * 10**4)
        found = {b: (start, Fraction(1))}
        todo = [(b, None)]
        while todo:
            at, before = todo.pop()
            for n in self.neighbours(at):
                factor = None if n == before else self.passing(at, n)
                if factor:
                    way, ratio = found[at]
                    left, arrived = self.left_over_arrived(at, n)
                    way = Square(factor.top, factor.bottom, factor.span, way)
                    found[n] = way, ratio * Fraction(left**2, arrived**2)
                    todo.append((n, at))
        return found

    def at(self, b):
        """The Share of each machine, in order, for a fault at b."""
        if b not in self.found:
            ways = self.ways(b)
            pairs = zip(self.machines, self.sizes)
            self.found[b] = [self.share(source, size, *ways[source.bus]) for source, size in pairs]
        return self.found[b]

    def share(self, source, size, way, ratio):
        square = Square(size.top, size.bottom, size.span, way)
        if not self.network.is_generator(source):
            return Share(square, None)
        top, bottom = self.rated_square(source)
        left, arrived = self.to_terminals(source)
        top, bottom = top * ratio.numerator * left**2, bottom * ratio.denominator * arrived**2
        return Share(square, square.times(top, bottom))


# Sums of roots


class RootSum:
    """The sum of thousandths/1000·√square over pairs, and a fraction: what is to be broken."""

    def __init__(self, terms, rest):
        self.terms, self.rest = terms, rest
        self.low = sum(weight * square.root_bounds()[0] for weight, square in terms)
        self.high = sum(weight * square.root_bounds()[1] for weight, square in terms)

    def compare(self, n):
        """Sign of n − the sum, n a fraction or whole."""
        n = WHOLE * (n - self.rest)
        scaled = n * 2**ROOT_BITS
        if scaled < self.low:
            return -1
        if scaled > self.high:
            return 1
        return compare_roots(n, [(weight, *square.fraction()) for weight, square in self.terms])

    def beneath(self):
        """A fraction not above the sum and next to it."""
        return Fraction(self.low, WHOLE * 2**ROOT_BITS) + self.rest

    def ceiling(self):
        """The least whole number not below the sum."""
        n = int(self.beneath())
        while self.compare(n) < 0:
            n += 1
        return n


def rational_root(top, bottom):
    """The root as a Fraction, or None where it is none: top/bottom is (top·bottom)/bottom²."""
    root = isqrt(top * bottom)
    return Fraction(root, bottom) if root * root == top * bottom else None


def compare_roots(n, terms):
    """Sign of n − the sum of weight·√(top/bottom), by whole roots of rising precision.

    Weights are not negative, so the sum is a fraction only if each root is one;
    then it is compared as it is, and otherwise it cannot equal n and some
    precision tells.
    """
    terms = [term for term in terms if term[0]]
    roots = [rational_root(top, bottom) for _, top, bottom in terms]
    if None not in roots:
        whole = sum((weight * root for (weight, _, _), root in zip(terms, roots)), Fraction(0))
        return (n > whole) - (n < whole)
    bits = 2 * ROOT_BITS
    while True:
        low = sum(weight * isqrt((top << 2 * bits) // bottom) for weight, top, bottom in terms)
        high = low + sum(weight for weight, _, _ in terms)
        if n * 2**bits < low:
            return -1
        if n * 2**bits > high:
            return 1
        bits *= 2
