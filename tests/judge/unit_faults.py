"""Faults of order 5 planted in the stand-in, each of which the fixed set has to find; those in the
breaking current the fixed breakings."""

from accept import Study, near_nominal, within
from exact import CONVERTER, FEEDER, GENERATOR, MOTOR, UNIT, Network, SourceRecord, sine
from faults import planted_in
from reference import COUNTS, StandIn
from shares import Shares

UNIT_FAULTS, UNIT_BREAKING_FAULTS = {}, {}
planted, broken = planted_in(UNIT_FAULTS), planted_in(UNIT_BREAKING_FAULTS)


# K_S


def factor_times(ratio):
    """K_S times a ratio of whole numbers, which is given by the network and the source."""

    class Changed(Network):
        def unit_factor(self, source):
            top, bottom = super().unit_factor(source)
            more, less = ratio(self, source)
            return top * more, bottom * less

    return Changed


def volts_of(holder, source):
    """Nominal volts of a source's bus in a network or a study."""
    return holder.buses[source.bus].volts


def apart_by(apart):
    """K_S with another number, of xd and ux in millionths of a percent, for |xd − xT|."""

    def ratio(network, source):
        xd, s = 1000 * source.third, sine(source.fifth)
        ux = network.ux(source.uk, source.ur)
        return 10**12 + abs(xd - ux) * s, 10**12 + apart(xd, ux) * s

    return factor_times(ratio)


@planted
class UnitDifferenceCutToZero(apart_by(lambda xd, ux: max(xd - ux, 0))):
    pass


@planted
class UnitDifferenceTheOtherWay(apart_by(lambda xd, ux: max(ux - xd, 0))):
    pass


@planted
class UnitDifferenceWithItsSign(apart_by(lambda xd, ux: xd - ux)):
    pass


@planted
class UnitReactancesAdded(apart_by(lambda xd, ux: xd + ux)):
    pass


@planted
class UnitTransformerNotTakenOff(apart_by(lambda xd, ux: xd)):
    pass


@planted
class UnitWithoutSine(apart_by(lambda xd, ux: 0)):
    pass


@planted
class UnitSineRoundedDown(Network):
    def unit_factor(self, source):
        top, bottom = super().unit_factor(source)
        apart = abs(1000 * source.third - self.ux(source.uk, source.ur))
        s = sine(source.fifth)
        lower = s - (s * s != 10**8 - 10**4 * source.fifth**2)
        return top * (10**12 + apart * s), bottom * (10**12 + apart * lower)


@planted
class UnitFactorByGeneratorVolts(factor_times(lambda n, s: (s.first**2, s.low_volts**2))):
    """Ur for the low volts, or these for Ur: neither is left."""


@planted
class UnitFactorOfTurnedVolts(factor_times(lambda n, s: (s.first**4, s.low_volts**4))):
    """Ur over the low volts."""


@planted
class UnitFactorByHighVolts(factor_times(lambda n, s: (s.high_volts**2, volts_of(n, s) ** 2))):
    """The high volts for Un, or Un for these: neither is left."""


@planted
class UnitFactorOfTurnedSides(factor_times(lambda n, s: (s.high_volts**4, volts_of(n, s) ** 4))):
    """The high volts over Un."""


@planted
class UnitFactorOfFirstPowers(
    factor_times(lambda n, s: (s.first * s.high_volts, volts_of(n, s) * s.low_volts))
):
    """Un/Ur·low/high without squares, as in K_G."""


@planted
class UnitVoltageFactorByLowVolts(factor_times(lambda n, s: (n.c(s.low_volts), n.c(volts_of(n, s))))):
    """c by the low side."""


@planted
class UnitVoltageFactorByLowerVolts(
    factor_times(lambda n, s: (n.c(min(s.low_volts, volts_of(n, s))), n.c(volts_of(n, s))))
):
    """c by the lower of the two sides, as of a transformer."""


@planted
class UnitVoltageFactorForgotten(factor_times(lambda n, s: (100, n.c(volts_of(n, s))))):
    pass


# Z_G and Z_T


@planted
class UnitRatioTurned(Network):
    """t low over high."""

    def unit_generator(self, source):
        r, x, d = super().unit_generator(source)
        low, high = source.low_volts**4, source.high_volts**4
        return r * low, x * low, d * high


@planted
class UnitRatioNotSquared(Network):
    def unit_generator(self, source):
        r, x, d = super().unit_generator(source)
        return r * source.low_volts, x * source.low_volts, d * source.high_volts


@planted
class UnitRatioByGeneratorVolts(Network):
    """t the high volts over the generator's."""

    def unit_generator(self, source):
        r, x, d = super().unit_generator(source)
        return r * source.low_volts**2, x * source.low_volts**2, d * source.first**2


@planted
class UnitGeneratorFactorLeftIn(Network):
    """Z_G with K_G, by the low volts."""

    def unit_generator(self, source):
        r, x, d = super().unit_generator(source)
        rated, _, xd, _, power_factor = source.fields
        top = source.low_volts * self.c(volts_of(self, source)) * 10**7
        return r * top, x * top, d * rated * (10**9 + xd * sine(power_factor))


@planted
class UnitTransformerFactorLeftIn(Network):
    """Z_T with K_T."""

    def unit_transformer(self, source):
        r, x, d = super().unit_transformer(source)
        c, w = self.c(volts_of(self, source)), self.ux(source.uk, source.ur)
        return r * 9500 * 1000 * c, x * 9500 * 1000 * c, d * (10**9 + 6 * w)


@planted
class UnitTransformerOnItsLowSide(Network):
    def unit_transformer(self, source):
        r, x, d = super().unit_transformer(source)
        return r * source.low_volts**2, x * source.low_volts**2, d * source.high_volts**2


@planted
class UnitTransformerCarriedToo(Network):
    """t² times Z_T as well."""

    def unit_transformer(self, source):
        r, x, d = super().unit_transformer(source)
        return r * source.high_volts**2, x * source.high_volts**2, d * source.low_volts**2


@planted
class UnitTransformerOfGeneratorSize(Network):
    """The generator's kVA for the transformer's."""

    def unit_transformer(self, source):
        r, x, d = super().unit_transformer(source)
        return r * source.transformer_kva, x * source.transformer_kva, d * source.second


@planted
class UnitTransformerLeftOut(Network):
    def unit_transformer(self, source):
        return 0, 0, 1


@planted
class UnitTransformerOfWholeImpedance(Network):
    """uk for ux."""

    def unit_transformer(self, source):
        r, _, d = super().unit_transformer(source)
        return r, source.high_volts**2 * 1000 * source.uk, d


@planted
class UnitResistanceOfTransformerLeftOut(Network):
    def unit_transformer(self, source):
        return 0, *super().unit_transformer(source)[1:]


@planted
class UnitResistanceOfGeneratorLeftOut(Network):
    def unit_generator(self, source):
        return 0, *super().unit_generator(source)[1:]


@planted
class UnitAsGenerator(Network):
    """By the generator's formula, without its transformer."""

    def unit(self, source):
        return self.generator(source)


# Which sources count


@planted
class UnitIsNoMachine(Network):
    def is_machine(self, source):
        return source.kind not in (CONVERTER, UNIT)


@planted
class UnitAsConverter(Network):
    """The first two fields of a unit taken for a converter's."""

    def converters_everywhere(self):
        kinds = [CONVERTER if source.kind == UNIT else source.kind for source in self.sources]
        turned = [source._replace(kind=kind) for source, kind in zip(self.sources, kinds)]
        return Network(self.tolerance, self.buses, turned).converters_everywhere()


# Breaking


@broken
class UnitInBreakingNoGenerator(Network):
    """Neither in the table nor with μ."""

    def is_generator(self, source):
        return source.kind == GENERATOR


@broken
class UnitWithoutFactor(StandIn):
    def thousandths(self, source, share, delay):
        return 1000 if source.kind == UNIT else super().thousandths(source, share, delay)


@broken
class UnitNotInTable(StandIn):
    def breaking(self, bus, delay, table):
        given = super().breaking(bus, delay, table)
        for place, source in enumerate(self.study.sources):
            if given[0] == 0 and source.kind == UNIT:
                table[2 * place : 2 * place + 2] = 0, 0
        return given


@broken
class UnitQuotientOnTheHighSide(Shares):
    def to_terminals(self, source):
        return 1, 1


@broken
class UnitQuotientCarriedUpsideDown(Shares):
    def to_terminals(self, source):
        return super().to_terminals(source)[::-1]


@broken
class UnitQuotientByGeneratorVolts(Shares):
    """Carried by high over the generator's volts."""

    def to_terminals(self, source):
        return (source.high_volts, source.first) if source.kind == UNIT else (1, 1)


@broken
class UnitRatedCurrentByLowVolts(Shares):
    def rated_square(self, source):
        top, bottom = super().rated_square(source)
        return (3 * source.low_volts**2 if source.kind == UNIT else top), bottom


@broken
class UnitRatedCurrentOfTransformer(Shares):
    def rated_square(self, source):
        top, bottom = super().rated_square(source)
        return top, (1000 * source.transformer_kva) ** 2 if source.kind == UNIT else bottom


@broken
class UnitShareOnTheLowSide(Shares):
    """The table's share as it is at the unit's terminals."""

    def share(self, source, size, way, ratio):
        found = super().share(source, size, way, ratio)
        left, arrived = self.to_terminals(source)
        return found._replace(square=found.square.times(left**2, arrived**2))


# Grounds


def source_grounds_with(change):
    """The grounds of a source as a list of pairs, changed."""

    class Changed(Study):
        def source_grounds(self, source):
            grounds = []
            for number, stands in super().source_grounds(source):
                grounds.append((number, stands))
                if stands and number < 13:
                    break
            yield from change(self, source, grounds)

    return Changed


def in_order(*numbers):
    """The grounds of a source in another order."""

    def place(ground):
        return numbers.index(ground[0])

    return source_grounds_with(lambda study, source, found: sorted(found, key=place))


def instead(number, fits):
    """Another test for one ground of a unit, of the source and the study."""

    def change(study, source, found):
        if source.kind != UNIT:
            return found
        return [(n, not fits(source, study) if n == number else stands) for n, stands in found]

    return source_grounds_with(change)


@planted
class UnitVoltsTriedLast(in_order(10, 11, 12, 13, 14, 32)):
    """32 after 14."""


@planted
class UnitVoltsTriedBeforeBus(in_order(10, 11, 12, 32, 13, 14)):
    """32 before 13."""


@planted
class UnitVoltsNotTried(instead(32, lambda s, study: True)):
    pass


@planted
class UnitVoltsAboveTheirEnd(instead(32, lambda s, study: 9 * s.low_volts < 10 * s.first <= 11 * s.low_volts)):
    """9/10 itself refused."""


@planted
class UnitVoltsBelowTheirEnd(instead(32, lambda s, study: 9 * s.low_volts <= 10 * s.first < 11 * s.low_volts)):
    """11/10 itself refused."""


@planted
class UnitVoltsTheOtherWay(instead(32, lambda s, study: near_nominal(s.low_volts, s.first))):
    """The low volts against 9/10 to 11/10 of the generator's."""


@planted
class UnitVoltsAgainstHighVolts(instead(32, lambda s, study: near_nominal(s.first, s.high_volts))):
    pass


@planted
class UnitVoltsAgainstNominal(instead(32, lambda s, study: near_nominal(s.first, volts_of(study, s)))):
    pass


@planted
class UnitVoltsOfThirtyTwoBits(
    instead(32, lambda s, study: 9 * s.low_volts <= 10 * s.first % 2**32 <= 11 * s.low_volts)
):
    """Ten times the generator volts in 32 bits."""


@planted
class UnitLowVoltsAgainstNominal(instead(13, lambda s, study: near_nominal(s.low_volts, volts_of(study, s)))):
    pass


@planted
class UnitGeneratorVoltsAgainstNominal(instead(13, lambda s, study: near_nominal(s.first, volts_of(study, s)))):
    pass


@planted
class UnitHighVoltsNotTried(instead(13, lambda s, study: True)):
    pass


@planted
class UnitHighVoltsWithoutEnds(
    instead(13, lambda s, study: 9 * volts_of(study, s) < 10 * s.high_volts < 11 * volts_of(study, s))
):
    pass


@planted
class UnitMayBeFirst(instead(14, lambda s, study: True)):
    pass


@planted
class UnitIsNoKind(instead(10, lambda s, study: False)):
    pass


@planted
class KindSixTaken(Study):
    """A kind more, taken for a unit."""

    def add_source(self, fields):
        return super().add_source((UNIT, *fields[1:]) if fields[0] == 6 else fields)


@planted
class UnitGeneratorVoltsOfARange(Study):
    """12 for generator volts that no bus could have."""

    def unit_fields_fit(self, source):
        return super().unit_fields_fit(source) and within(source.first, 81, 508200)


@planted
class UnitHighVoltsOfARange(Study):
    """12 for high volts that no bus could have."""

    def unit_fields_fit(self, source):
        return super().unit_fields_fit(source) and within(source.high_volts, 90, 462000)


def unit_range(**ends):
    """Other ends for the fields of a unit's transformer."""
    ends = {"low": (90, 462000), "kva": (10, 10**6), "uk": (100, 30000), "below": 1} | ends

    class Ranged(Study):
        def unit_fields_fit(self, source):
            low, _, kva, uk, ur = source.transformer
            fits = within(low, *ends["low"]) and within(kva, *ends["kva"])
            return fits and within(uk, *ends["uk"]) and within(ur, 0, uk - ends["below"])

    return Ranged


@planted
class UnitLowVoltsFromEightyNine(unit_range(low=(89, 462000))):
    pass


@planted
class UnitLowVoltsFromNinetyOne(unit_range(low=(91, 462000))):
    pass


@planted
class UnitLowVoltsOfABus(unit_range(low=(100, 420000))):
    """Nominal volts' range."""


@planted
class UnitLowVoltsOneTooHigh(unit_range(low=(90, 462001))):
    pass


@planted
class UnitLowVoltsOneTooLow(unit_range(low=(90, 461999))):
    pass


@planted
class UnitTransformerFromNine(unit_range(kva=(9, 10**6))):
    pass


@planted
class UnitTransformerUpToAMillionAndOne(unit_range(kva=(10, 10**6 + 1))):
    pass


@planted
class UnitImpedanceFromOne(unit_range(uk=(1, 30000))):
    pass


@planted
class UnitImpedanceOneTooHigh(unit_range(uk=(100, 30001))):
    pass


@planted
class UnitResistanceUpToImpedance(unit_range(below=0)):
    pass


@planted
class UnitGeneratorFieldsNotTried(Study):
    def source_fields_fit(self, source):
        return self.unit_fields_fit(source) if source.kind == UNIT else super().source_fields_fit(source)


def unused_taken(kind):
    """The new fields of a kind are not looked at."""

    class Taken(Study):
        def source_fields_fit(self, source):
            return super().source_fields_fit(SourceRecord(*source[:7]) if source.kind == kind else source)

    return Taken


@planted
class UnusedFieldsOfAFeeder(unused_taken(FEEDER)):
    pass


@planted
class UnusedFieldsOfAGenerator(unused_taken(GENERATOR)):
    pass


@planted
class UnusedFieldsOfAMotor(unused_taken(MOTOR)):
    pass


@planted
class UnusedFieldsOfAConverter(unused_taken(CONVERTER)):
    pass


@planted
class OnlyTheFirstNewFieldLookedAt(Study):
    def source_fields_fit(self, source):
        seen = source if source.kind == UNIT else SourceRecord(*source[:8])
        return super().source_fields_fit(seen)


# Rows and lines


def rows_of(*counts):
    class Counted(Study):
        def parse(self, row):
            letter, *fields = row.split(b",")
            if letter == b"P" and len(fields) not in (7, 12):
                return self.other_count(fields, counts)
            if letter == b"P" and len(fields) not in counts:
                return None, None
            return super().parse(row)

        def other_count(self, fields, counts):
            """Cut to twelve, or filled up to them."""
            numbers = [self.number(field) for field in fields]
            if None in numbers or len(fields) not in counts:
                return None, None
            return b"P", (numbers + [0] * 5)[:12]

    return Counted


@planted
class RowOfSevenRefused(rows_of(12)):
    pass


@planted
class RowOfTwelveRefused(rows_of(7)):
    pass


@planted
class RowOfSixTaken(rows_of(6, 7, 12)):
    pass


@planted
class RowOfEightTaken(rows_of(7, 8, 12)):
    pass


@planted
class RowOfElevenTaken(rows_of(7, 11, 12)):
    pass


@planted
class RowOfThirteenTaken(rows_of(7, 12, 13)):
    pass


@planted
class RowsFromSevenToTwelveTaken(rows_of(7, 8, 9, 10, 11, 12)):
    pass


@planted
class UnitOfSevenNumbersBreaksForm(Study):
    """A row of seven that begins with 5 refused with 16."""

    def parse(self, row):
        short = row.startswith(b"P,5,") and row.count(b",") == 7
        return (None, None) if short else super().parse(row)


def lines_of(*counts):
    class Lines(StandIn):
        def answer_call(self, name, numbers):
            return super().answer_call(name, (numbers + [0] * 5)[:12] if name == "source" else numbers)

    Lines.counts = COUNTS | {"source": counts}
    return Lines


@planted
class LineOfSevenRefused(lines_of(12)):
    pass


@planted
class LineOfTwelveRefused(lines_of(7)):
    pass


@planted
class LineOfEightTaken(lines_of(7, 8, 12)):
    pass


@planted
class LineOfElevenTaken(lines_of(7, 11, 12)):
    pass


@planted
class LineOfThirteenTaken(lines_of(7, 12, 13)):
    pass


# The text that is written


@planted
class SevenNumbersWritten(Study):
    """Save of a unit."""

    def written_row(self, letter, numbers):
        short = letter == "P" and numbers[0] != UNIT
        return super().written_row(letter, numbers[:7] if short else numbers)


@planted
class SevenNumbersWrittenOfAll(Study):
    def written_row(self, letter, numbers):
        return super().written_row(letter, numbers[:7] if letter == "P" else numbers)


@planted
class UnitWrittenWithItsSidesTurned(Study):
    def written_row(self, letter, numbers):
        if letter == "P":
            numbers = numbers._replace(low_volts=numbers.high_volts, high_volts=numbers.low_volts)
        return super().written_row(letter, numbers)


@planted
class UnitWithoutItsTransformerStored(StandIn):
    """A unit added by a line keeps seven numbers alone in the text."""

    def write(self, lent):
        kept = tuple(SourceRecord(*source[:7]) for source in self.study.sources)
        return Study(self.study.tolerance, self.study.buses, kept, self.study.closed).write(lent)
