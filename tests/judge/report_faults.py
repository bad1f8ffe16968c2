"""Faults of order 7 planted in the stand-in, each of which the fixed reports have to find."""

from fractions import Fraction

from accept import BUSES_BEFORE, NOT_CLOSED, ROW, SHORT_REPORT, TOO_SHORT, Study
from calls import MOST_REPORT, TABLE_FILL
from exact import CONVERTER, Network, behind, total
from faults import planted_in
from judge import LIMIT, NO_AMPERES, Bench
from reference import COUNTS, StandIn

REPORT_FAULTS = {}
planted = planted_in(REPORT_FAULTS)


# Which row stands where


def rows_of(place):
    """Another bus's row in the place of each; `place` gives it by study and bus."""

    class Moved(StandIn):
        def row(self, study, bus):
            return super().row(study, place(study, bus))

    return Moved


@planted
class RowOfBusZeroForAll(rows_of(lambda study, bus: 0)):
    pass


@planted
class RowOfLastBusForAll(rows_of(lambda study, bus: len(study.buses) - 1)):
    pass


@planted
class RowOfParent(rows_of(lambda study, bus: study.buses[bus].parent)):
    pass


@planted
class RowsReversed(rows_of(lambda study, bus: len(study.buses) - 1 - bus)):
    pass


@planted
class RowOfBusBefore(rows_of(lambda study, bus: max(bus - 1, 0))):
    pass


@planted
class RowsFromBusOneUp(rows_of(lambda study, bus: (bus + 1) % len(study.buses))):
    pass


@planted
class RowOfBusInSixBits(rows_of(lambda study, bus: bus % BUSES_BEFORE)):
    """From bus 64 on the rows of bus 0 and up again."""


def walked(children, deep):
    """The buses in the order of a walk from bus 0, arm by arm or level by level."""
    found, todo = [], [0]
    while todo:
        bus = todo.pop(0)
        found.append(bus)
        todo = children[bus] + todo if deep else todo + children[bus]
    return found


def rows_walked(deep):
    class Walked(StandIn):
        walk = None, None

        def row(self, study, bus):
            if self.walk[0] is not study:
                self.walk = study, walked(study.network().children, deep)
            return super().row(study, self.walk[1][bus])

    return Walked


@planted
class RowsArmByArm(rows_walked(True)):
    pass


@planted
class RowsLevelByLevel(rows_walked(False)):
    pass


def table_by(change):
    """The numbers of all rows put into the table otherwise: `change` gets and gives a list that
    is as long as the rows are, 7 being what is kept."""

    class Changed(StandIn):
        def report(self, table):
            number = super().report(table)
            if number == 0:
                count = ROW * len(self.study.buses)
                table[:count] = change(table[:count])
            return number

    return Changed


@planted
class LastRowKept(table_by(lambda rows: rows[:-ROW] + [TABLE_FILL] * ROW)):
    pass


@planted
class LastNumberKept(table_by(lambda rows: rows[:-1] + [TABLE_FILL])):
    pass


@planted
class FirstRowKept(table_by(lambda rows: [TABLE_FILL] * ROW + rows[ROW:])):
    pass


@planted
class RowsBehindFirstKept(table_by(lambda rows: rows[:ROW] + [TABLE_FILL] * (len(rows) - ROW))):
    pass


@planted
class RowsOneNumberLater(table_by(lambda rows: [TABLE_FILL] + rows[:-1])):
    pass


@planted
class RowsOneNumberEarlier(table_by(lambda rows: rows[1:] + [TABLE_FILL])):
    pass


@planted
class RowsByColumns(table_by(lambda rows: [number for at in range(ROW) for number in rows[at::ROW]])):
    """All lowers, then all uppers and so on."""


EDITION_BEFORE = ROW * BUSES_BEFORE


@planted
class RowsOfTheEditionBefore(
    table_by(lambda rows: rows[:EDITION_BEFORE] + [TABLE_FILL] * len(rows[EDITION_BEFORE:]))
):
    pass


# The six amperes of a row


def amperes_by(change):
    """Every row as `change` makes it."""

    class Changed(StandIn):
        def row(self, study, bus):
            return change(super().row(study, bus))

    return Changed


@planted
class RowPeaksExchanged(amperes_by(lambda six: (*six[:4], six[5], six[4]))):
    pass


@planted
class RowPartsExchanged(amperes_by(lambda six: (*six[2:4], *six[:2], six[5], six[4]))):
    pass


@planted
class RowPeaksBesideTheirParts(amperes_by(lambda six: (*six[:2], six[4], *six[2:4], six[5]))):
    pass


@planted
class RowUpperBeforeLower(amperes_by(lambda six: (six[1], six[0], six[3], six[2], *six[4:]))):
    pass


@planted
class RowConvertersLeftOut(amperes_by(lambda six: (*six[:2], 0, 0, six[4], 0))):
    pass


@planted
class RowConvertersPeakLeftOut(amperes_by(lambda six: (*six[:5], 0))):
    pass


@planted
class RowConvertersWithMachines(amperes_by(lambda six: (six.lower, six.upper, 0, 0, six.peak, 0))):
    pass


@planted
class RowOfFixedAmperes(amperes_by(lambda six: (0, LIMIT - 1, 0, LIMIT - 1, LIMIT - 1, LIMIT - 1))):
    pass


@planted
class RowPeakWithoutRoot(amperes_by(lambda six: six._replace(converters_peak=six.converters_upper))):
    pass


def one_row(field, step, bus_of):
    """One field of one row, that of the bus that the number of buses gives: so many amperes beyond
    the least or the greatest whole number that is right."""

    class Changed(StandIn):
        def row(self, study, bus):
            given = super().row(study, bus)
            if bus != bus_of(len(study.buses)):
                return given
            judge = self.judges(study)[bus]
            dues = {
                "machines_lower": judge.machines.floor(),
                "machines_upper": judge.machines.ceiling(),
                "converters_lower": judge.converters.floor(),
                "converters_upper": judge.converters.ceiling(),
                "machines_peak": judge.machines.peak_ceiling(),
                "converters_peak": judge.converters.peak_ceiling(),
            }
            return given._replace(**{field: max(0, dues[field] + step)})

    return Changed


FIRST, MIDDLE, LAST = (lambda count: 0), (lambda count: count // 2), (lambda count: count - 1)


@planted
class FirstRowsLowerOneTooTight(one_row("machines_lower", 1, FIRST)):
    pass


@planted
class MiddleRowsLowerOneTooTight(one_row("machines_lower", 1, MIDDLE)):
    pass


@planted
class LastRowsLowerOneTooTight(one_row("machines_lower", 1, LAST)):
    pass


@planted
class FirstRowsUpperOneTooTight(one_row("machines_upper", -1, FIRST)):
    pass


@planted
class MiddleRowsUpperOneTooTight(one_row("machines_upper", -1, MIDDLE)):
    pass


@planted
class LastRowsUpperOneTooTight(one_row("machines_upper", -1, LAST)):
    pass


@planted
class LastRowsConvertersLowerOneTooTight(one_row("converters_lower", 1, LAST)):
    pass


@planted
class LastRowsConvertersUpperOneTooTight(one_row("converters_upper", -1, LAST)):
    pass


@planted
class LastRowsPeakOneTooLow(one_row("machines_peak", -1, LAST)):
    pass


@planted
class LastRowsConvertersPeakOneTooLow(one_row("converters_peak", -1, LAST)):
    pass


def too_wide(lower, upper):
    """The least upper bound that is too far from the lower."""
    while 1000 * (upper - lower) <= 2000 + upper:
        upper += 1
    return upper


@planted
class RowPairOneTooWide(amperes_by(lambda six: six._replace(machines_upper=too_wide(*six[:2])))):
    pass


@planted
class RowConvertersPairOneTooWide(
    amperes_by(lambda six: six._replace(converters_upper=too_wide(*six[2:4])))
):
    pass


@planted
class RowPeakTooHigh(StandIn):
    """The least machines' peak that is not as near as is promised."""

    def row(self, study, bus):
        given, judge = super().row(study, bus), self.judges(study)[bus]
        while not judge.near_reasons(given):
            given = given._replace(machines_peak=given.machines_peak + 1 + given.machines_peak // 10**5)
        return given


@planted
class RowConvertersPeakTwoAbove(amperes_by(lambda six: (*six[:5], six[5] + 2 * (six[5] > 0)))):
    """By demand 3 still a peak, and 1 A more than is promised."""


# Sameness: right in themselves, but not the same with a converter present


def with_converters(change):
    class Changed(StandIn):
        def row(self, study, bus):
            given = super().row(study, bus)
            some = any(source.kind == CONVERTER for source in study.sources)
            return change(given) if some else given

    return Changed


@planted
class ConverterWidensRowsUpwards(with_converters(lambda six: (six[0], six[1] + 1, *six[2:]))):
    pass


@planted
class ConverterWidensRowsDownwards(with_converters(lambda six: (max(0, six[0] - 1), *six[1:]))):
    pass


@planted
class ConverterRaisesRowsPeak(with_converters(lambda six: (*six[:4], six[4] + (six[4] > 5000), six[5]))):
    pass


@planted
class ManyConvertersWidenRows(StandIn):
    """From three converters on."""

    def row(self, study, bus):
        given = super().row(study, bus)
        many = sum(source.kind == CONVERTER for source in study.sources) > 2
        return given._replace(machines_upper=given.machines_upper + many)


# The two sweeps


class Swept(Network):
    """The sweep away from bus 0 written out, so that parts of it can be left out."""

    def seen_everywhere(self):
        own, sent = self.own_admittances(), super().sweeps().sent
        above, seen = [], []
        for b, bus in enumerate(self.buses):
            beside = None
            if b:
                others = [sent[n] for n in self.children[bus.parent] if n != b]
                beside = total(self.parts(own[bus.parent], above[bus.parent], others, sent[b]))
            above.append(self.from_parent(b, beside) if b else None)
            seen.append(total([own[b], above[b], *(sent[n] for n in self.children[b])]) or ALMOST_NONE)
        return seen

    def parts(self, own, above, others, back):
        """What a bus sees at its parent: the machines there, what comes from beyond, the other
        children's; `back` is its own part."""
        return [own, above, *others]


# An admittance so small that nothing of it is left in a current
ALMOST_NONE = 0, -1, 10**30, 0


def swept_by(kind):
    """Rows by another network, queries by the right one."""

    class Reporting(StandIn):
        row_bench = Bench()
        swept = None, None

        def row(self, study, bus):
            if self.swept[0] is not study:
                network = kind(study.tolerance, study.buses, study.sources)
                self.swept = study, self.row_bench.judges(network)
            return self.amperes_by(self.swept[1][bus])

    return Reporting


def planted_sweep(kind):
    """Enters a fault in the sweeps, by the words of its class."""
    planted(type(kind.__name__, (swept_by(kind),), {}))
    return kind


@planted_sweep
class SweepSeesOwnPartBack(Swept):
    def parts(self, own, above, others, back):
        return [own, above, *others, back]


@planted_sweep
class SweepForgetsOtherChildren(Swept):
    def parts(self, own, above, others, back):
        return [own, above]


@planted_sweep
class SweepForgetsLastChild(Swept):
    def parts(self, own, above, others, back):
        return [own, above, *others[:-1]]


@planted_sweep
class SweepForgetsMachinesOnTheWay(Swept):
    def parts(self, own, above, others, back):
        return [above or own, *others]


@planted_sweep
class SweepReachesOneBranch(Swept):
    """What comes to the parent from beyond it is left out."""

    def parts(self, own, above, others, back):
        return [own, *others]


@planted_sweep
class SweepTowardsBusZeroAlone(Swept):
    def parts(self, own, above, others, back):
        return [None]


@planted_sweep
class SweepAwayNotReferred(Swept):
    """A parent's admittance is not referred to the bus's side."""

    def from_parent(self, b, y):
        return behind(self.branch(b), (1, 1), y)


@planted_sweep
class SweepAwayUpsideDown(Swept):
    def from_parent(self, b, y):
        own, parent = self.rated_sides(b)
        return behind(self.branch(b), (parent**2, own**2), y)


@planted_sweep
class SweepAwayByNominalVolts(Swept):
    def from_parent(self, b, y):
        volts, above = self.buses[b].volts, self.buses[self.buses[b].parent].volts
        return behind(self.branch(b), (volts**2, above**2), y)


def converters_at(network):
    found = [Fraction(0)] * len(network.buses)
    for source in network.sources:
        if source.kind == CONVERTER:
            found[source.bus] += Fraction(source.first * source.second, 1000)
    return found


class Carried(Network):
    """The converters' two sweeps written out: what a bus gets from its parent is `away`."""

    def converters_everywhere(self):
        gathered = converters_at(self)
        sent = [Fraction(0)] * len(gathered)
        for b in range(len(gathered) - 1, 0, -1):
            own, parent = self.rated_sides(b)
            sent[b] = gathered[b] * Fraction(own, parent)
            gathered[self.buses[b].parent] += sent[b]
        for b in range(1, len(gathered)):
            own, parent = self.rated_sides(b)
            gathered[b] += self.away(gathered[self.buses[b].parent], sent[b], Fraction(parent, own))
        return gathered

    def away(self, gathered, sent, ratio):
        return (gathered - sent) * ratio


@planted_sweep
class RowConvertersCountedTwice(Carried):
    """What a bus has sent to its parent comes back."""

    def away(self, gathered, sent, ratio):
        return gathered * ratio


@planted_sweep
class RowConvertersTowardsBusZeroAlone(Carried):
    def away(self, gathered, sent, ratio):
        return 0


@planted_sweep
class RowConvertersUpsideDown(Carried):
    def away(self, gathered, sent, ratio):
        return (gathered - sent) / ratio


@planted_sweep
class RowConvertersNotCarried(Carried):
    def away(self, gathered, sent, ratio):
        return gathered - sent


@planted_sweep
class RowConvertersOfOwnBus(Network):
    def converters_everywhere(self):
        return converters_at(self)


@planted_sweep
class RowsAtToleranceSix(Network):
    def __init__(self, tolerance, buses, sources):
        super().__init__(6, buses, sources)


@planted
class RowsOfStudyBefore(StandIn):
    """What was reported is kept for the next study with as many buses."""

    reported = None

    def report(self, table):
        number = super().report(table)
        if number == 0:
            count = ROW * len(self.study.buses)
            if not self.reported or len(self.reported) != count:
                self.reported = table[:count]
            table[:count] = self.reported
        return number


# The table beyond the rows, and after a refusal


@planted
class ReportClearsNumbersBeyond(StandIn):
    def report(self, table):
        number, count = super().report(table), ROW * len(self.study.buses)
        if number == 0:
            table[count:] = [0] * (len(table) - count)
        return number


@planted
class ReportChangesNumberBehind(StandIn):
    """The first number beyond the last row."""

    def report(self, table):
        number, count = super().report(table), ROW * len(self.study.buses)
        if number == 0 and len(table) > count:
            table[count] = 0
        return number


@planted
class ReportChangesLastNumber(StandIn):
    """The last of all numbers, where it is beyond the rows."""

    def report(self, table):
        number, count = super().report(table), ROW * len(self.study.buses)
        if number == 0 and len(table) > count:
            table[-1] = 0
        return number


@planted
class ReportGivesOneRowMore(StandIn):
    """Six times 0 behind the last row, as far as there is room."""

    def report(self, table):
        number, count = super().report(table), ROW * len(self.study.buses)
        if number == 0:
            table[count : count + ROW] = [0] * len(table[count : count + ROW])
        return number


def touched_on(ground, at):
    class Touched(StandIn):
        def report(self, table):
            number = super().report(table)
            if number == ground and table:
                table[at] = 0
            return number

    return Touched


@planted
class ReportTouchesFirstOpen(touched_on(NOT_CLOSED, 0)):
    pass


@planted
class ReportTouchesLastOpen(touched_on(NOT_CLOSED, -1)):
    pass


@planted
class ReportTouchesFirstTooShort(touched_on(SHORT_REPORT, 0)):
    pass


@planted
class ReportTouchesLastTooShort(touched_on(SHORT_REPORT, -1)):
    pass


def cleared_on(ground):
    """Six times 0 for each bus, as a refused query has."""

    class Cleared(StandIn):
        def report(self, table):
            number = super().report(table)
            if number == ground:
                numbers = [0] * (ROW * len(self.study.buses))
                table[: len(numbers)] = numbers[: len(table)]
            return number

    return Cleared


@planted
class ReportClearsOpen(cleared_on(NOT_CLOSED)):
    pass


@planted
class ReportClearsTooShort(cleared_on(SHORT_REPORT)):
    pass


@planted
class ReportFillsShortTable(StandIn):
    """Refused with 33, and written as far as it goes."""

    def report(self, table):
        number = super().report(table)
        if number == SHORT_REPORT:
            longer = [TABLE_FILL] * (ROW * len(self.study.buses))
            super().report(longer)
            table[:] = longer[: len(table)]
        return number


@planted
class ReportFillsWholeRowsOfShortTable(StandIn):
    """Refused with 33 at the first row for which there is no room."""

    def report(self, table):
        number = super().report(table)
        if number == SHORT_REPORT:
            whole = len(table) // ROW
            for bus in range(whole):
                table[ROW * bus : ROW * (bus + 1)] = self.row(self.study, bus)
        return number


# Grounds


@planted
class ReportShortBeforeOpen(Study):
    """33 tried before 22."""

    def report_grounds(self, room):
        return reversed(list(super().report_grounds(room)))


@planted
class ReportExactTableRefused(Study):
    def report_grounds(self, room):
        return super().report_grounds(room - 1)


def enough_for(needed):
    """Tables of `needed` numbers are long enough; rows are written as far as these go."""

    class Short(StandIn):
        def report(self, table):
            if not self.study.closed or len(table) < needed(len(self.study.buses)):
                return super().report(table)
            longer = table + [TABLE_FILL] * (ROW * len(self.study.buses))
            super().report(longer)
            table[:] = longer[: len(table)]
            return 0

    return Short


@planted
class ReportOneTooShortAccepted(enough_for(lambda buses: ROW * buses - 1)):
    pass


@planted
class ReportWithoutLastRowAccepted(enough_for(lambda buses: ROW * buses - ROW)):
    pass


@planted
class ReportOneRowEnough(enough_for(lambda buses: ROW)):
    pass


@planted
class ReportOneNumberABus(enough_for(lambda buses: buses)):
    pass


@planted
class ReportRoomInBytes(enough_for(lambda buses: ROW * buses % 256)):
    """Six times the buses in eight bits."""


@planted
class ReportAnyRoomAccepted(enough_for(lambda buses: 0)):
    pass


@planted
class ReportWithSpareRowOnly(Study):
    """A row more than there are buses is asked for."""

    def report_grounds(self, room):
        return super().report_grounds(room - ROW)


@planted
class ReportTooShortIsThirty(Study):
    def report(self, room):
        number = super().report(room)
        return TOO_SHORT if number == SHORT_REPORT else number


@planted
class ReportOpenIsTwentyOne(Study):
    def report(self, room):
        number = super().report(room)
        return 21 if number == NOT_CLOSED else number


@planted
class ReportOfOpenStudy(StandIn):
    """A study with its feeder is reported before it is closed."""

    def report(self, table):
        if self.study.closed or not self.study.sources:
            return super().report(table)
        kept, self.study = self.study, self.study.close()[1]
        number = super().report(table)
        self.study = kept
        return number


@planted
class ReportAfterReadingRefused(StandIn):
    """What closed the study was no call of its own."""

    by_reading = False

    def answer(self, line):
        if line.startswith(("start", "read")):
            self.by_reading = line.startswith("read")
        return super().answer(line)

    def report(self, table):
        return NOT_CLOSED if self.by_reading else super().report(table)


@planted
class SecondReportRefused(StandIn):
    """22 where the same study has been reported before."""

    reported = None

    def report(self, table):
        if self.reported is self.study:
            return NOT_CLOSED
        number = super().report(table)
        self.reported = self.study if number == 0 else None
        return number


# The study after it


def without_last(study):
    """The last source taken away, save a feeder."""
    kept = study.sources[:1] + study.sources[1:-1]
    return Study(study.tolerance, study.buses, kept, True)


def left_by(ground, after):
    """Behind a report with this number the study is what `after` makes of it."""

    class Left(StandIn):
        def report(self, table):
            number = super().report(table)
            if number == ground:
                self.study = after(self.study)
            return number

    return Left


def opened(study):
    return Study(study.tolerance, study.buses, study.sources)


@planted
class ReportOpensStudy(left_by(0, opened)):
    pass


@planted
class ShortReportOpensStudy(left_by(SHORT_REPORT, opened)):
    pass


@planted
class RefusedReportClosesStudy(left_by(NOT_CLOSED, lambda study: study.close()[1])):
    pass


@planted
class RefusedReportEmptiesStudy(left_by(NOT_CLOSED, lambda study: Study(study.tolerance))):
    pass


@planted
class ReportDropsSource(left_by(0, without_last)):
    pass


@planted
class ReportLeavesToleranceSix(left_by(0, lambda study: Study(6, study.buses, study.sources, True))):
    pass


# The console


@planted
class ReportCommaForNoRoom(StandIn):
    def answer_report(self, room):
        return super().answer_report(room) + ("" if room else ",")


@planted
class ReportLastNumberNotPrinted(StandIn):
    def answer_report(self, room):
        answer = super().answer_report(room)
        return answer.rpartition(",")[0] if 0 < room <= MOST_REPORT else answer


@planted
class ReportPrintsOneNumberMore(StandIn):
    def answer_report(self, room):
        answer = super().answer_report(room)
        return answer if room > MOST_REPORT else f"{answer},{TABLE_FILL}"


@planted
class ReportPrintsRowsOnly(StandIn):
    """Numbers beyond the last row are not printed."""

    def answer_report(self, room):
        answer = super().answer_report(room)
        if not answer.startswith("0,"):
            return answer
        return ",".join(answer.split(",")[: 1 + ROW * len(self.study.buses)])


@planted
class ReportRefusalWithoutTable(StandIn):
    def answer_report(self, room):
        answer = super().answer_report(room)
        return answer if answer.startswith(("0", "error")) else answer.split(",")[0]


@planted
class ReportWithFigure(StandIn):
    """A figure behind the number, as a breaking has."""

    def answer_report(self, room):
        number, *table = super().answer_report(room).split(",")
        return ",".join([number, "0" if number != "error" else "room", *table])


@planted
class ReportRefusalWithAmperes(StandIn):
    """Six amperes 0 behind the number of a refusal, as a query has."""

    def answer_report(self, room):
        number, *table = super().answer_report(room).split(",")
        zeros = list(map(str, NO_AMPERES)) if number in ("22", "33") else []
        return ",".join([number, *zeros, *table])


@planted
class ReportMostRoomExceeded(StandIn):
    """The console lends one number more than it should."""

    def answer_report(self, room):
        if room != MOST_REPORT + 1:
            return super().answer_report(room)
        return super().answer_report(MOST_REPORT) + f",{TABLE_FILL}"


@planted
class ReportMostRoomRefused(StandIn):
    """The console lends one number less than it should."""

    def answer_report(self, room):
        return "error,room" if room == MOST_REPORT else super().answer_report(room)


@planted
class ReportWithTwoNumbersAnswered(StandIn):
    """A second number is passed over."""

    counts = COUNTS | {"report": [1, 2]}

    def answer_report(self, room, *_):
        return super().answer_report(room)
