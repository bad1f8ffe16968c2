"""Faults planted in the stand-in, each of which the fixed set has to find."""

from fractions import Fraction

from accept import BUSES, BUSES_BEFORE, SOURCES, SOURCES_BEFORE
from accept import Study, first_true, near_nominal, within
from calls import FILL, MOST_ROOM
from exact import (
    CONVERTER,
    TRANSFORMER,
    BusRecord,
    Network,
    SourceRecord,
    behind,
    c_hundredths,
    f_millionths,
    series,
    sine,
)
from judge import Amperes
from reference import StandIn
from shares import Shares

FAULTS = {}
PARTS = {Study: "study_class", Network: "network_class", Shares: "shares_class"}


def planted_in(faults):
    """Enters a fault under its class's words: a StandIn, or the study, network or shares of one."""

    def enter(kind):
        name = "".join(" " + c.lower() if c.isupper() else c for c in kind.__name__).strip()
        part = next((word for base, word in PARTS.items() if issubclass(kind, base)), None)
        faults[name] = type(kind.__name__, (StandIn,), {part: kind}) if part else kind
        return kind

    return enter


planted = planted_in(FAULTS)


# Peaks


@planted
class WrongTableEntry(StandIn):
    """K(137) one too low; it should be 1,037."""

    def entry(self, i):
        return super().entry(i) - (i == 137)


@planted
class LostMinusSign(StandIn):
    """κ with e to the power +3R/X, as document 003 prints it."""

    def entry(self, i):
        return int(1020 + 980 * series(Fraction(3 * min(i, 230), 100)))


@planted
class RatioRoundedUp(StandIn):
    def step(self, values):
        return min(16 * 230, -(-1600 * values.r // values.x))


@planted
class EntriesWithoutSteps(StandIn):
    """The entry at or below R/X: a peak by demand 3, and not as near as is promised."""

    def step(self, values):
        return super().step(values) // 16 * 16


@planted
class PeakTooHigh(StandIn):
    """Two percent and five amperes above the exact peak, a little more than allowed."""

    def amperes(self, study, bus):
        given = super().amperes(study, bus)
        least = self.judges(study)[bus].machines.peak_ceiling()
        return given._replace(machines_peak=102 * least // 100 + 8)


@planted
class ConverterPeakTwoAbove(StandIn):
    """By demand 3 still a peak, and 1 A more than is promised."""

    def amperes(self, study, bus):
        given = super().amperes(study, bus)
        some = given.converters_peak > 0
        return given._replace(converters_peak=given.converters_peak + 2 * some)


@planted
class ConverterPeakWithoutRoot(StandIn):
    def amperes(self, study, bus):
        given = super().amperes(study, bus)
        return given._replace(converters_peak=given.converters_upper)


# Bounds


@planted
class UpperOneTooTight(StandIn):
    def amperes(self, study, bus):
        given = super().amperes(study, bus)
        return given._replace(machines_upper=given.machines_lower)


@planted
class LowerOneTooTight(StandIn):
    def amperes(self, study, bus):
        given = super().amperes(study, bus)
        return given._replace(converters_lower=given.converters_upper)


@planted
class PairTooWide(StandIn):
    def amperes(self, study, bus):
        given = super().amperes(study, bus)
        upper = given.machines_upper
        return given._replace(machines_upper=upper + upper // 1000 + 3)


@planted
class ConverterAsMachine(StandIn):
    """The converters' part entered with the machines'."""

    def amperes(self, study, bus):
        given = super().amperes(study, bus)
        return Amperes(given.lower, given.upper, 0, 0, given.peak, 0)


@planted
class ConverterWidensMachines(StandIn):
    """Machines' bounds right in themselves but not the same with a converter present."""

    def amperes(self, study, bus):
        given = super().amperes(study, bus)
        some = any(source.kind == CONVERTER for source in study.sources)
        return given._replace(machines_upper=given.machines_upper + some)


@planted
class BusZeroForAll(StandIn):
    def amperes(self, study, bus):
        return super().amperes(study, 0)


# Impedances


@planted
class SwappedRatio(Network):
    def rated_sides(self, b):
        own, parent = super().rated_sides(b)
        return parent, own


@planted
class ImpedanceNotReferred(Network):
    """Branch impedance left on its own side when seen from the parent."""

    def to_parent(self, b, y):
        own, parent = self.rated_sides(b)
        return behind(self.branch(b), (parent**2, own**2), y)


@planted
class TransformerFactorWithHundredth(Network):
    """K_T with 0.06 where 0.6 is due, as document 000 prints it."""

    def transformer(self, bus):
        r, x, d = super().transformer(bus)
        w = self.ux(*bus.branch[3:])
        return r * (10 * 10**9 + 60 * w), x * (10 * 10**9 + 60 * w), d * (10 * 10**9 + 6 * w)


@planted
class SwappedResistance(Network):
    """R and X of a generator exchanged, as document 000 prints them."""

    def generator(self, source):
        r, x, d = super().generator(source)
        return x, r, d


@planted
class LowerVoltageForgotten(Network):
    """A transformer's c by its own side, where the lower of the two voltages is due."""

    def transformer(self, bus):
        r, x, d = super().transformer(bus)
        right = self.c(min(bus.volts, self.buses[bus.parent].volts))
        return r * self.c(bus.volts), x * self.c(bus.volts), d * right


@planted
class BelowThousandVolts(Network):
    """The lower c below 1,000 V only."""

    def c(self, volts):
        return 110 if volts == 1000 else c_hundredths(volts, self.tolerance)


@planted
class SineRoundedDown(Network):
    def generator(self, source):
        r, x, d = super().generator(source)
        xd, s = source.fields[2], sine(source.fields[4])
        lower = s - (s * s != 10**8 - 10**4 * source.fields[4] ** 2)
        return r * (10**9 + xd * s), x * (10**9 + xd * s), d * (10**9 + xd * lower)


@planted
class FactorRoundedUp(Network):
    def split(self, top, bottom, rho):
        r, x, d = super().split(top, bottom, rho)
        f = f_millionths(rho)
        more = f + (f * f * (10000 + rho * rho) != 10**16)
        return r * more, x * more, d * f


@planted
class BareSubtreeSeen(Network):
    """A converter taken for a source behind a branch: the branch alone joins in."""

    def own_admittances(self):
        found = super().own_admittances()
        for source in self.sources:
            if source.kind == CONVERTER and found[source.bus] is None:
                found[source.bus] = (1, 0, 0, 1)
        return found


# Verdicts


@planted
class WithinBelowOnly(StandIn):
    def verdict(self, amperes, bus):
        letter, margin = super().verdict(amperes, bus)
        return ("C", 0) if (letter, margin) == ("W", 0) else (letter, margin)


@planted
class PeakTriedLast(StandIn):
    def verdict(self, amperes, bus):
        if amperes.lower > bus.rating:
            return "O", amperes.lower - bus.rating
        return super().verdict(amperes, bus)


@planted
class OverByUpper(StandIn):
    def verdict(self, amperes, bus):
        if amperes.peak <= bus.peak_rating and amperes.upper > bus.rating:
            return "O", amperes.upper - bus.rating
        return super().verdict(amperes, bus)


# Grounds


@planted
class GroundTriedTooLate(Study):
    """Transformer voltage tried behind the ratings."""

    def bus_grounds(self, bus):
        grounds = []
        for number, stands in super().bus_grounds(bus):
            grounds.append((number, stands))
            if stands and number < 7:
                break
        yield from sorted(grounds, key=lambda ground: ground[0] == 7)


@planted
class TableFullTriedLast(Study):
    def add_bus(self, fields):
        number, after = super().add_bus(fields)
        if number == 23:
            return first_true(self.bus_grounds(BusRecord(*fields))) or 23, self
        return number, after


@planted
class BusesOfTheEditionBefore(Study):
    most_buses = BUSES_BEFORE


@planted
class SourcesOfTheEditionBefore(Study):
    most_sources = SOURCES_BEFORE


@planted
class OneBusTooFew(Study):
    most_buses = BUSES - 1


@planted
class OneSourceTooFew(Study):
    most_sources = SOURCES - 1


@planted
class OneBusTooMany(Study):
    most_buses = BUSES + 1


@planted
class OneSourceTooMany(Study):
    most_sources = SOURCES + 1


@planted
class FullInTheEditionBefore(Study):
    """A bus that the edition before has no space for is accepted, and a faulty one gets 23."""

    def add_bus(self, fields):
        number, after = super().add_bus(fields)
        surplus = len(self.buses) >= BUSES_BEFORE and not self.closed
        return 23 if number and surplus else number, after


@planted
class BusesAsFarAsTheEditionBefore(Study):
    def query(self, bus):
        return super().query(bus) or 15 * (bus >= BUSES_BEFORE)


@planted
class NumberOfABusCut(StandIn):
    """Bus numbers are kept in as many bits as those of the edition before need."""

    def amperes(self, study, bus):
        return super().amperes(study, bus % BUSES_BEFORE)


@planted
class DepthOneTooGreat(Study):
    def depth(self, bus):
        branches, transformers = super().depth(bus)
        return branches - 1, transformers


@planted
class RatedVoltsWithoutEnds(Study):
    def transformer_volts_fit(self, bus):
        parent_volts = self.buses[bus.parent].volts
        ends = 9 * bus.volts < 10 * bus.second < 11 * bus.volts
        return near_nominal(bus.first, parent_volts) and ends


@planted
class ResistanceUpToImpedance(Study):
    def branch_fields_fit(self, bus):
        if bus.kind == TRANSFORMER and bus.fifth == bus.fourth:
            return within(bus.third, 10, 10**6) and within(bus.fourth, 100, 30000)
        return super().branch_fields_fit(bus)


@planted
class RefusedRecordStored(Study):
    """A bus refused for its rating is entered all the same."""

    def add_bus(self, fields):
        number, after = super().add_bus(fields)
        if number == 9:
            record = BusRecord(*fields)
            return 9, type(self)(self.tolerance, self.buses + (record,), self.sources)
        return number, after


@planted
class RefusedStartKeepsTolerance(Study):
    def start(self, tolerance):
        number, after = super().start(tolerance)
        return number, type(self)(self.tolerance) if number else after


@planted
class RefusedFileKeepsStudy(Study):
    def read(self, text):
        number, row, after = super().read(text)
        return number, row, self if number else after


@planted
class SecondClosingAccepted(Study):
    def close(self):
        return (0, self) if self.closed else super().close()


@planted
class AbsentBusTriedFirst(Study):
    def query(self, bus):
        return 15 if bus >= len(self.buses) else super().query(bus)


# The file


@planted
class RowOneTooHigh(Study):
    """Rows of broken text counted from 2."""

    def read(self, text):
        number, row, after = super().read(text)
        return number, row + (number == 16), after


@planted
class ClosingRowBehindLast(Study):
    def read(self, text):
        number, row, after = super().read(text)
        return number, row + (number == 25), after


@planted
class LoneLineFeedAccepted(Study):
    def rows(self, text):
        return super().rows(text.replace(b"\r\n", b"\n").replace(b"\n", b"\r\n"))


@planted
class LeadingZeroAccepted(Study):
    def number(self, field):
        return super().number(field.lstrip(b"0") or b"0" if field else field)


@planted
class NumberWraps(Study):
    def number(self, field):
        if field.isdigit() and len(field) == 10 and int(field) >= 2**32:
            return int(field) % 2**32
        return super().number(field)


@planted
class FormTriedBehindRecord(Study):
    """A row of too many fields is refused only when its record is right."""

    def parse(self, row):
        letter, numbers = super().parse(row)
        if letter is None and row.count(b",") == 11:
            first, bus = super().parse(row.rpartition(b",")[0])
            if first == b"B" and not within(bus[1], 100, 420000):
                return first, bus
        return letter, numbers


@planted
class LongTextReadInPart(Study):
    def read(self, text):
        return super().read(text[:65536])


# The text that is written


@planted
class SourcesWrittenFirst(Study):
    def text(self):
        rows = super().text().splitlines(keepends=True)
        return b"".join(sorted(rows, key=lambda row: b"SPB".index(row[:1])))


@planted
class RowsWrittenAsAdded(Study):
    """Buses and sources in the mixture in which they were added."""

    added = ()

    def add_bus(self, fields):
        return self.noted(super().add_bus(fields), ("B", tuple(fields)))

    def add_source(self, fields):
        return self.noted(super().add_source(fields), ("P", tuple(fields)))

    def close(self):
        return self.noted(super().close())

    def noted(self, outcome, *row):
        number, after = outcome
        if not number:
            after.added = self.added + row
        return outcome

    def text(self):
        rows = (("S", (self.tolerance,)), *self.added)
        return b"".join(self.written_row(*row) for row in rows)


@planted
class LineFeedAloneWritten(Study):
    def written_row(self, letter, numbers):
        return super().written_row(letter, numbers).replace(b"\r", b"")


@planted
class LastEndLeftOut(Study):
    """As a file may have it, and a text that is written may not."""

    def text(self):
        return super().text()[:-2]


@planted
class CommaAtRowEnd(Study):
    def written_row(self, letter, numbers):
        return super().written_row(letter, numbers).replace(b"\r", b",\r")


@planted
class LeadingZeroWritten(Study):
    def written_number(self, value):
        return b"%02d" % value


@planted
class NumbersPadded(Study):
    def written_number(self, value):
        return b"%2d" % value


@planted
class UnusedFieldsEmpty(Study):
    def written_number(self, value):
        return b"%d" % value if value else b""


@planted
class NinthDigitLost(Study):
    """Only a feeder's kVA has nine digits, and only where it is 100,000,000."""

    def written_number(self, value):
        return super().written_number(value)[-8:]


@planted
class SevenDigitsWithAPoint(Study):
    """Only ratings and kVA from 1,000,000 on are written otherwise."""

    def written_number(self, value):
        return b"%.6g" % value


@planted
class NinesTakenForOneDigitMore(Study):
    """The number of digits comes from a logarithm that is rounded: 9,999 counts as 10,000."""

    def written_number(self, value):
        digits = super().written_number(value)
        return b"0" + digits if len(digits) >= 4 and set(digits) == set(b"9") else digits


@planted
class ToleranceAlwaysSix(Study):
    def text(self):
        return b"S,6" + super().text().removeprefix(b"S,%d" % self.tolerance)


@planted
class FullTableOfBusesCut(Study):
    def text(self):
        return Study(self.tolerance, self.buses[: BUSES - 1], self.sources).text()


@planted
class FullTableOfSourcesCut(Study):
    def text(self):
        return Study(self.tolerance, self.buses, self.sources[: SOURCES - 1]).text()


@planted
class RefusedRecordWritten(StandIn):
    """A source refused for its fields stands in the text all the same."""

    refused = ()

    def answer_call(self, name, numbers):
        answer = super().answer_call(name, numbers)
        if name == "start":
            self.refused = ()
        if name == "source" and answer == "12":
            self.refused += (SourceRecord(*numbers),)
        return answer

    def write(self, lent):
        study = self.study
        more = study.sources + self.refused
        return Study(study.tolerance, study.buses, more, study.closed).write(lent)


@planted
class ReadTextWritten(StandIn):
    """A study that was read is written with the very bytes that were read."""

    def answer(self, line):
        answer = super().answer(line)
        if answer == "0,0":
            self.study.text = lambda text=bytes.fromhex(line[5:]): text
        return answer


@planted
class ClosedBeforeWritten(StandIn):
    """While a study is open, the one closed before it is written."""

    before = Study()

    def write(self, lent):
        if self.study.closed:
            self.before = self.study
        return self.before.write(lent)


# The lent buffer


@planted
class RoomTriedBeforeState(Study):
    """30 given before 22."""

    def write(self, lent):
        return (30, 0, lent) if len(self.text()) > len(lent) else super().write(lent)


@planted
class LengthOfRoomReported(Study):
    def write(self, lent):
        number, length, after = super().write(lent)
        return number, 0 if number else len(lent), after


@planted
class NeededLengthReported(Study):
    """A room too short is refused with the length that would do, and 0 is due."""

    def write(self, lent):
        number, length, after = super().write(lent)
        return number, len(self.text()) if number == 30 else length, after


@planted
class ShortRoomFilled(Study):
    """Refused, and written as far as the room goes."""

    def write(self, lent):
        number, length, after = super().write(lent)
        return number, length, self.text()[: len(lent)] if number == 30 else after


@planted
class ShortRoomCleared(Study):
    def write(self, lent):
        number, length, after = super().write(lent)
        return number, length, bytes(len(lent)) if number == 30 else after


@planted
class OpenStudyWritten(Study):
    """Refused with 22, and written all the same."""

    def write(self, lent):
        number, length, after = super().write(lent)
        text = self.text()[: len(lent)]
        return number, length, text + lent[len(text) :] if number == 22 else after


@planted
class BytesBeyondCleared(Study):
    def write(self, lent):
        number, length, after = super().write(lent)
        return number, length, after if number else after[:length] + bytes(len(lent) - length)


@planted
class NulBehindText(Study):
    def write(self, lent):
        number, length, after = super().write(lent)
        room = not number and length < len(lent)
        return number, length, after[:length] + b"\0" + after[length + 1 :] if room else after


@planted
class ExactRoomRefused(Study):
    def write(self, lent):
        given = super().write(lent)
        return (30, 0, lent) if given[:2] == (0, len(lent)) else given


@planted
class OneTooShortAccepted(Study):
    """The last byte of the text finds no place."""

    def write(self, lent):
        given = super().write(lent)
        text = self.text()
        short = given[0] == 30 and len(text) == len(lent) + 1
        return (0, len(text), text[:-1]) if short else given


@planted
class MostRoomExceeded(StandIn):
    """The console lends one byte more than it should."""

    def answer_write(self, room):
        if room != MOST_ROOM + 1:
            return super().answer_write(room)
        number, length, lent = self.write(FILL * room)
        return f"{number},{length},{lent.hex()}"


@planted
class MostRoomRefused(StandIn):
    """The console lends one byte less than it should."""

    def answer_write(self, room):
        return "error,room" if room == MOST_ROOM else super().answer_write(room)


@planted
class LastPartNotPrinted(StandIn):
    """A room of whole parts of 4,096 bytes is printed without the last of them."""

    def answer_write(self, room):
        answer = super().answer_write(room)
        return answer[:-8192] if room and room % 4096 == 0 else answer


@planted
class CapitalDigits(StandIn):
    def answer_write(self, room):
        answer = super().answer_write(room)
        return answer if answer.startswith("error") else answer.upper()


# The study after a write


@planted
class WriteOpensStudy(StandIn):
    def write(self, lent):
        given = super().write(lent)
        if given[0] == 0:
            self.study = Study(self.study.tolerance, self.study.buses, self.study.sources)
        return given


@planted
class RefusedWriteClosesStudy(StandIn):
    def write(self, lent):
        given = super().write(lent)
        if given[0] == 22:
            self.study = self.study.close()[1]
        return given


@planted
class WriteDropsSource(StandIn):
    """An accepted write takes the last source away, save a feeder."""

    def write(self, lent):
        given = super().write(lent)
        if given[0] == 0:
            kept = self.study.sources[:1] + self.study.sources[1:-1]
            self.study = Study(self.study.tolerance, self.study.buses, kept, True)
        return given


@planted
class WriteLeavesToleranceSix(StandIn):
    def write(self, lent):
        given = super().write(lent)
        if given[0] == 0:
            self.study = Study(6, self.study.buses, self.study.sources, True)
        return given


@planted
class ShortRoomEmptiesStudy(StandIn):
    """A write refused with 30 leaves what a refused start leaves."""

    def write(self, lent):
        given = super().write(lent)
        if given[0] == 30:
            self.study = Study()
        return given


@planted
class WriteWidensConverters(StandIn):
    """Behind an accepted write other bounds, right in themselves, until the next start."""

    wider = False

    def answer_call(self, name, numbers):
        answer = super().answer_call(name, numbers)
        if name in ("start", "write"):
            self.wider = name == "write" and answer.startswith("0,")
        return answer

    def amperes(self, study, bus):
        given = super().amperes(study, bus)
        more = self.wider and given.converters_upper > 0
        return given._replace(converters_upper=given.converters_upper + more)


@planted
class ReadingWidensConverters(StandIn):
    """A study that was read gets other bounds, right in themselves, than one made by calls."""

    wider = False

    def answer(self, line):
        if line.startswith(("start", "read")):
            self.wider = line.startswith("read")
        return super().answer(line)

    def amperes(self, study, bus):
        given = super().amperes(study, bus)
        more = self.wider and given.converters_upper > 0
        return given._replace(converters_upper=given.converters_upper + more)
