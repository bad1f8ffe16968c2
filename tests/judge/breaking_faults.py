"""Faults of order 3 planted in the stand-in, each of which the fixed breakings have to find."""

from fractions import Fraction

from accept import DELAYS, Study
from exact import CONVERTER, FEEDER, GENERATOR, MOTOR, UNIT
from faults import planted_in
from reference import StandIn
from shares import FORMULAS, TABLES, WHOLE, Share, Shares, Square, series, size_square

BREAKING_FAULTS = {}
planted = planted_in(BREAKING_FAULTS)


# The factor


@planted
class FactorRoundedDown(StandIn):
    def thousandths(self, source, share, delay):
        right = super().thousandths(source, share, delay)
        return right - (right < WHOLE)


@planted
class FactorForgotten(StandIn):
    def thousandths(self, source, share, delay):
        return WHOLE


@planted
class FactorOfShortestDelay(StandIn):
    def thousandths(self, source, share, delay):
        return super().thousandths(source, share, 20)


@planted
class FactorOfLongestDelay(StandIn):
    def thousandths(self, source, share, delay):
        return super().thousandths(source, share, 250)


@planted
class TwoTestedAfterRounding(StandIn):
    """q by the share's upper bound, so that 2 itself is above 2."""

    def thousandths(self, source, share, delay):
        if share.q_square is None:
            return WHOLE
        rated = Fraction(share.q_square.top, share.q_square.bottom)
        if share.square.root_ceiling() ** 2 * rated <= 4:
            return WHOLE
        return TABLES[delay][share.tenths()]


@planted
class TwoIsAboveTwo(StandIn):
    """1 for q below 2 only."""

    def thousandths(self, source, share, delay):
        if share.q_square and share.q_square.compare(4) == 0:
            return TABLES[delay][20]
        return super().thousandths(source, share, delay)


@planted
class TenthsRoundedUp(StandIn):
    def thousandths(self, source, share, delay):
        right = super().thousandths(source, share, delay)
        exact = share.q_square and share.q_square.times(100, 1).compare(share.tenths() ** 2) == 0
        return right if right == WHOLE or exact else TABLES[delay][min(100, share.tenths() + 1)]


@planted
class TableWithoutEnd(StandIn):
    """q above 10 by the formula."""

    def thousandths(self, source, share, delay):
        right = super().thousandths(source, share, delay)
        if right == WHOLE or share.tenths() < 100:
            return right
        first, second, third = FORMULAS[delay]
        tenths = min(400, share.q_square.times(100, 1).root_floor())
        return int(10 * (first + second / series(Fraction(third * tenths, 1000)))) + 1


@planted
class FactorForMotors(StandIn):
    """Motors by the generators' rule."""

    def thousandths(self, source, share, delay):
        if source.kind == MOTOR:
            volts, kva = source.fields[:2]
            share = Share(share.square, share.square.times(3 * volts**2, (1000 * kva) ** 2))
        return share.thousandths(delay)


@planted
class FactorForConverters(StandIn):
    def converters(self, judge):
        return judge.converters * Fraction(9, 10)


# Shares


@planted
class QuotientAtQueriedBus(Shares):
    """q of the share as it is at the queried bus."""

    def left_over_arrived(self, b, n):
        return 1, 1


@planted
class QuotientCarriedUpsideDown(Shares):
    def left_over_arrived(self, b, n):
        left, arrived = super().left_over_arrived(b, n)
        return arrived, left


@planted
class RatedCurrentWithoutRoot(Shares):
    def rated_square(self, source):
        top, bottom = super().rated_square(source)
        return top, 3 * bottom


@planted
class RatedCurrentAtNominalVolts(Shares):
    def rated_square(self, source):
        _, bottom = super().rated_square(source)
        return 3 * self.network.buses[source.bus].volts ** 2, bottom


@planted
class WholeBusForEach(Shares):
    """The share of all machines of a bus for each of them."""

    def admittance_square(self, source):
        return Square(*size_square(self.network.own_admittances()[source.bus]))


@planted
class BusBeforeCounted(Shares):
    """At a bus on the way the current divides over the branch that it comes by, too."""

    def sides(self, b, n):
        added, _ = super().sides(b, n)
        return added, self.sweeps.seen[n]


@planted
class ShareAtTerminals(Shares):
    """The table's share as it is at the generator."""

    def share(self, source, size, way, ratio):
        square, q_square = super().share(source, size, way, ratio)
        return Share(square.times(ratio.numerator, ratio.denominator), q_square)


@planted
class ShareByFactor(StandIn):
    """The table's shares multiplied by μ."""

    def breaking(self, bus, delay, table):
        given = super().breaking(bus, delay, table)
        if given[0] == 0:
            for place, share in self.breaking_judge(self.study, bus).generators():
                factor = share.thousandths(delay)
                for at in (2 * place, 2 * place + 1):
                    table[at] = table[at] * factor // WHOLE
        return given


# Bounds


@planted
class ShareBoundsTooWide(StandIn):
    def bounds(self, share):
        lower, upper = super().bounds(share)
        return lower, upper + upper // 1000 + 3


@planted
class ShareBoundsOneTooWide(StandIn):
    """The least upper bound that is too far from the lower."""

    def bounds(self, share):
        lower, upper = super().bounds(share)
        while 1000 * (upper - lower) <= 2000 + upper:
            upper += 1
        return lower, upper


@planted
class LowerAboveShare(StandIn):
    def bounds(self, share):
        lower, upper = super().bounds(share)
        return upper, upper


@planted
class UpperBelowShare(StandIn):
    def bounds(self, share):
        lower, upper = super().bounds(share)
        return lower, lower


@planted
class SmallShareIsNone(StandIn):
    """0 and 0 for a share below a thousandth of an ampere."""

    def bounds(self, share):
        small = share.square.times(10**6, 1).compare(1) > 0
        return (0, 0) if small else super().bounds(share)


# The figure


def without(kind):
    class Left(StandIn):
        def terms(self, judge, delay):
            pairs = [(source, share) for source, share in zip(judge.sources, judge.shares) if share]
            kept = [(source, share) for source, share in pairs if source.kind != kind]
            return [(share.thousandths(delay), share.square) for _, share in kept]

    return Left


@planted
class MotorsLeftOut(without(MOTOR)):
    pass


@planted
class FeederLeftOut(without(FEEDER)):
    pass


@planted
class GeneratorsLeftOut(without(GENERATOR)):
    pass


@planted
class ConvertersLeftOut(StandIn):
    def converters(self, judge):
        return 0


@planted
class ConvertersNotCarried(StandIn):
    """Rated current times k, without the rated ratios."""

    def converters(self, judge):
        kept = [source.fields for source in judge.sources if source.kind == CONVERTER]
        return sum((Fraction(fields[0] * fields[1], 1000) for fields in kept), Fraction(0))


@planted
class WholeAmpereSharesSummed(StandIn):
    """The sum of the shares' upper bounds, each rounded up to whole amperes."""

    def figure(self, judge, delay):
        whole = sum(weight * square.root_ceiling() for weight, square in self.terms(judge, delay))
        return -int(-(Fraction(whole, WHOLE) + judge.converters) // 1)


@planted
class WholeAmpereSharesRoundedDown(StandIn):
    def figure(self, judge, delay):
        whole = sum(weight * square.root_floor() for weight, square in self.terms(judge, delay))
        return -int(-(Fraction(whole, WHOLE) + judge.converters) // 1)


@planted
class PartsSummedAsPhasors(StandIn):
    """The bus's initial current in the place of the sum of its shares, where no μ is below 1."""

    def figure(self, judge, delay):
        right = super().figure(judge, delay)
        terms = self.terms(judge, delay)
        if any(weight < WHOLE for weight, _ in terms):
            return right
        bus = next(bus for bus, kept in self.broken[1].items() if kept is judge)
        machines = self.judges(self.study)[bus].machines
        return machines.ceiling() - int(-judge.converters // 1)


@planted
class FigureRoundedDown(StandIn):
    def figure(self, judge, delay):
        return super().figure(judge, delay) - 1


@planted
class FigureTooHigh(StandIn):
    """The least figure that is too far above the sum."""

    def figure(self, judge, delay):
        figure = super().figure(judge, delay)
        figure = 103 * figure // 100
        while not judge.figure_reasons(delay, figure):
            figure += 1
        return figure


# The table


@planted
class FeederInTable(StandIn):
    """The feeder's own bounds where 0 and 0 are due."""

    def breaking(self, bus, delay, table):
        given = super().breaking(bus, delay, table)
        if given[0] == 0:
            table[:2] = self.bounds(self.breaking_judge(self.study, bus).shares[0])
        return given


@planted
class MotorsInTable(StandIn):
    def breaking(self, bus, delay, table):
        given = super().breaking(bus, delay, table)
        if given[0] == 0:
            judge = self.breaking_judge(self.study, bus)
            for place, source in enumerate(judge.sources):
                if source.kind == MOTOR:
                    table[2 * place : 2 * place + 2] = self.bounds(judge.shares[place])
        return given


@planted
class OtherKindsKept(StandIn):
    """Nothing is written for what is no generator."""

    def breaking(self, bus, delay, table):
        lent = list(table)
        given = super().breaking(bus, delay, table)
        if given[0] == 0:
            kinds = [source.kind for source in self.study.sources for _ in range(2)]
            for at, kind in enumerate(kinds):
                table[at] = table[at] if kind in (GENERATOR, UNIT) else lent[at]
        return given


@planted
class GeneratorsFirst(StandIn):
    """Generators in order, without places for the others between them."""

    def breaking(self, bus, delay, table):
        given = super().breaking(bus, delay, table)
        if given[0] == 0:
            count = 2 * len(self.study.sources)
            places = [place for place, _ in self.breaking_judge(self.study, bus).generators()]
            packed = [table[2 * place + half] for place in places for half in (0, 1)]
            table[:count] = packed + [0] * (count - len(packed))
        return given


@planted
class UpperBeforeLower(StandIn):
    def bounds(self, share):
        return super().bounds(share)[::-1]


@planted
class NumbersBeyondCleared(StandIn):
    def breaking(self, bus, delay, table):
        given = super().breaking(bus, delay, table)
        if given[0] == 0:
            count = 2 * len(self.study.sources)
            table[count:] = [0] * (len(table) - count)
        return given


@planted
class NumberBehindTable(StandIn):
    """The first number beyond the last source's is changed."""

    def breaking(self, bus, delay, table):
        given = super().breaking(bus, delay, table)
        count = 2 * len(self.study.sources)
        if given[0] == 0 and len(table) > count:
            table[count] = 0
        return given


def touched_on(ground):
    class Touched(StandIn):
        def breaking(self, bus, delay, table):
            given = super().breaking(bus, delay, table)
            if given[0] == ground and table:
                table[-1] = 0
            return given

    return Touched


@planted
class TableTouchedOpen(touched_on(22)):
    pass


@planted
class TableTouchedAtNoBus(touched_on(15)):
    pass


@planted
class TableTouchedAtNoDelay(touched_on(31)):
    pass


@planted
class TableTouchedTooShort(touched_on(30)):
    pass


@planted
class ShortTableFilled(StandIn):
    """Refused with 30, and written as far as it goes."""

    def breaking(self, bus, delay, table):
        given = super().breaking(bus, delay, table)
        if given[0] == 30:
            longer = [0] * (2 * len(self.study.sources))
            super().breaking(bus, delay, longer)
            table[:] = longer[: len(table)]
        return given


@planted
class FigureOnRefusal(StandIn):
    """The figure for a table too short, where 0 is due."""

    def breaking(self, bus, delay, table):
        number, figure = super().breaking(bus, delay, table)
        if number == 30:
            figure = self.figure(self.breaking_judge(self.study, bus), delay)
        return number, figure


# Grounds


def in_order(*numbers):
    class Ordered(Study):
        def breaking_grounds(self, bus, delay, room):
            stands = dict(super().breaking_grounds(bus, delay, room))
            for number in numbers:
                yield number, stands[number]

    return Ordered


@planted
class ShortBeforeDelay(in_order(22, 15, 30, 31)):
    pass


@planted
class DelayBeforeBus(in_order(22, 31, 15, 30)):
    pass


@planted
class BusBeforeState(in_order(15, 22, 31, 30)):
    pass


@planted
class ShortBeforeAll(in_order(30, 22, 15, 31)):
    pass


@planted
class DelayRoundedUp(StandIn):
    """Any number up to 250 as the next of the four delays."""

    def breaking(self, bus, delay, table):
        return super().breaking(bus, min((d for d in DELAYS if d >= delay), default=delay), table)


@planted
class LongDelayAs250(StandIn):
    def breaking(self, bus, delay, table):
        return super().breaking(bus, min(delay, 250), table)


@planted
class OneNumberASource(Study):
    """A table of one number a source is long enough."""

    def breaking_grounds(self, bus, delay, room):
        return super().breaking_grounds(bus, delay, 2 * room)


@planted
class ExactTableRefused(Study):
    def breaking_grounds(self, bus, delay, room):
        return super().breaking_grounds(bus, delay, room - 1)


# The study after it


@planted
class BreakingOpensStudy(StandIn):
    def breaking(self, bus, delay, table):
        given = super().breaking(bus, delay, table)
        if given[0] == 0:
            self.study = Study(self.study.tolerance, self.study.buses, self.study.sources)
        return given


@planted
class RefusedBreakingClosesStudy(StandIn):
    def breaking(self, bus, delay, table):
        given = super().breaking(bus, delay, table)
        if given[0] == 22:
            self.study = self.study.close()[1]
        return given


@planted
class BreakingDropsSource(StandIn):
    """An accepted breaking takes the last source away, save a feeder."""

    def breaking(self, bus, delay, table):
        given = super().breaking(bus, delay, table)
        if given[0] == 0:
            kept = self.study.sources[:1] + self.study.sources[1:-1]
            self.study = Study(self.study.tolerance, self.study.buses, kept, True)
        return given


@planted
class BreakingLeavesToleranceSix(StandIn):
    def breaking(self, bus, delay, table):
        given = super().breaking(bus, delay, table)
        if given[0] == 0:
            self.study = Study(6, self.study.buses, self.study.sources, True)
        return given
