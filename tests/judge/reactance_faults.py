"""Faults of order 6 planted in the stand-in, each of which the fixed networks of low impedances have
to find; those in the breaking current the breakings among them.

A millionth of a percent is at most a hundred-thousandth of a transformer's impedance, that of uk 100,
and a thousandth of a percent in K_T or in the difference of K_S alone is even less.  Impedances
changed by some share change no current by more than about √2 times that share.  So a root
that is rounded up or to the nearest, not reached, with a digit too few or scaled behind it, and
thousandths in K_T or in that difference alone, shift every current by less than two ten-thousandths.
They are found because bounds are given to a few amperes where hundreds of millions flow; in bounds as
wide as demand 3 allows, a thousandth, no case could show them.
"""

from math import isqrt

from exact import Network, sine
from faults import planted_in

REACTANCE_FAULTS, REACTANCE_BREAKING_FAULTS = {}, {}
planted, broken = planted_in(REACTANCE_FAULTS), planted_in(REACTANCE_BREAKING_FAULTS)


def thousandths(w):
    """What is left of w by document 01's rule."""
    return w // 1000 * 1000


# The root


def rooted(root):
    """Another w in all places, of uk² − uR², uk and uR."""

    class Changed(Network):
        def ux(self, uk, ur):
            return root(uk * uk - ur * ur, uk, ur)

    return Changed


@planted
class ThousandthsAgain(rooted(lambda square, uk, ur: 1000 * isqrt(square))):
    pass


@planted
class RootRoundedUp(rooted(lambda square, uk, ur: isqrt(square * 10**6 - 1) + 1)):
    """Where it is whole it stays."""


@planted
class RootToTheNearest(rooted(lambda square, uk, ur: (isqrt(4 * square * 10**6) + 1) // 2)):
    pass


@planted
class WholeRootNotReached(rooted(lambda square, uk, ur: isqrt(square * 10**6 - 1))):
    """The greatest w with w² below, where it may be at it."""


@planted
class OneDigitTooFew(rooted(lambda square, uk, ur: 10 * isqrt(square * 10**4))):
    """Hundred-thousandths of a percent."""


@planted
class HundredThousandInTheRoot(rooted(lambda square, uk, ur: isqrt(square * 10**5))):
    """10⁵ for 10⁶."""


@planted
class HundredThousandInTheRootScaled(
    rooted(lambda square, uk, ur: isqrt(10 * isqrt(square * 10**5) ** 2))
):
    """10⁵ for 10⁶, and the root of ten made up for behind it: the first rounding is left."""


@planted
class ThousandInTheRoot(rooted(lambda square, uk, ur: isqrt(square * 1000))):
    """The factor from thousandths to millionths without its square."""


@planted
class RootOfThirtyTwoBits(rooted(lambda square, uk, ur: isqrt(square * 10**6 % 2**32))):
    pass


@planted
class ResistanceInTheRootOfThousandths(
    rooted(lambda square, uk, ur: isqrt((1000 * uk) ** 2 - ur**2))
):
    """uR not brought to the unit of uk."""


@planted
class WholeImpedance(rooted(lambda square, uk, ur: 1000 * uk)):
    """uk for ux."""


# A transformer between two buses


def factor_by(other):
    """K_T by another number for w, of w and uk."""

    class Changed(Network):
        def transformer(self, bus):
            r, x, d = super().transformer(bus)
            w = self.ux(*bus.branch[3:])
            more = 10**9 + 6 * w
            return r * more, x * more, d * (10**9 + 6 * other(w, bus.fourth))

    return Changed


def impedance_by(other):
    """uR + j·ux by another pair, in millionths, of uR, w and uk; K_T by w."""

    class Changed(Network):
        def transformer(self, bus):
            r, x, d = super().transformer(bus)
            w, ur = self.ux(*bus.branch[3:]), bus.fifth
            other_r, other_x = other(1000 * ur, w, 1000 * bus.fourth)
            return x * other_r, x * other_x, d * w

    return Changed


@planted
class ThousandthsInTheFactor(factor_by(lambda w, uk: thousandths(w))):
    """K_T alone."""


@planted
class WholeImpedanceInTheFactor(factor_by(lambda w, uk: 1000 * uk)):
    pass


@planted
class MillionthsTakenForThousandthsInTheFactor(factor_by(lambda w, uk: 1000 * w)):
    """0.6·w/100,000 in K_T."""


@planted
class ThousandthsInTheTransformer(impedance_by(lambda ur, w, uk: (ur, thousandths(w)))):
    """Its impedance without K_T."""


@planted
class WholeImpedanceInTheTransformer(impedance_by(lambda ur, w, uk: (ur, uk))):
    pass


@planted
class ResistanceTakenForMillionths(impedance_by(lambda ur, w, uk: (ur // 1000, w))):
    """(uR + j·w)/10⁸."""


@planted
class MillionthsTakenForThousandths(impedance_by(lambda ur, w, uk: (ur, 1000 * w))):
    """(uR + j·w)/100,000."""


# A power station unit


def difference_by(apart):
    """K_S by another number for |xd − xT|, of xd and xT in millionths of a percent."""

    class Changed(Network):
        def unit_factor(self, source):
            top, bottom = super().unit_factor(source)
            xd, w, s = 1000 * source.third, self.ux(source.uk, source.ur), sine(source.fifth)
            return top * (10**12 + abs(xd - w) * s), bottom * (10**12 + apart(xd, w, 1000 * source.uk) * s)

    return Changed


def unit_by(other):
    """Z_T of another uR + j·ux, in millionths, of uR, w and uk."""

    class Changed(Network):
        def unit_transformer(self, source):
            _, x, d = super().unit_transformer(source)
            w = self.ux(source.uk, source.ur)
            r, other_x = other(1000 * source.ur, w, 1000 * source.uk)
            return x * r, x * other_x, d * w

    return Changed


@planted
class ThousandthsInTheDifference(difference_by(lambda xd, w, uk: abs(xd - thousandths(w)))):
    """K_S alone."""


@planted
class DifferenceRoundedDown(difference_by(lambda xd, w, uk: thousandths(abs(xd - w)))):
    pass


@planted
class WholeImpedanceInTheDifference(difference_by(lambda xd, w, uk: abs(xd - uk))):
    pass


@planted
class ReactanceOfTheGeneratorTakenForMillionths(difference_by(lambda xd, w, uk: abs(xd // 1000 - w))):
    """xd not brought to the unit of w."""


@planted
class ThousandthsInAUnitsTransformer(unit_by(lambda ur, w, uk: (ur, thousandths(w)))):
    """Z_T alone."""


@planted
class ResistanceOfAUnitTakenForMillionths(unit_by(lambda ur, w, uk: (ur // 1000, w))):
    pass


@planted
class MillionthsOfAUnitTakenForThousandths(unit_by(lambda ur, w, uk: (ur, 1000 * w))):
    pass


# One of the two kinds as before order 6


@planted
class ThousandthsOfBusesAlone(Network):
    def transformer(self, bus):
        return ThousandthsAgain(self.tolerance, self.buses, self.sources).transformer(bus)


@planted
class ThousandthsOfUnitsAlone(Network):
    def unit(self, source):
        return ThousandthsAgain(self.tolerance, self.buses, self.sources).unit(source)


# Breaking


@broken
class ThousandthsInTheBreakingCurrent(ThousandthsAgain):
    pass


@broken
class ThousandthsOfAUnitInTheBreakingCurrent(ThousandthsOfUnitsAlone):
    pass
