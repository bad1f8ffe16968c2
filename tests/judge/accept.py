"""Which calls and which files are accepted, with number and row; a study as text.

Written from document 01 alone ("The study", "The file" and the two lists of
grounds) and from orders 1 to 3, 5, 7 and 8 of document 02.  A Study is never
changed: each call gives its number and the study after it, so that a refused call
gives back the study it was made on.
"""

from exact import (
    CONVERTER,
    FEEDER,
    GENERATOR,
    LINE,
    MOTOR,
    TRANSFORMER,
    UNIT,
    BusRecord,
    Network,
    SourceRecord,
)

# By order 2, and those of the edition before it; every other file takes them from here
BUSES, SOURCES = 128, 512
BUSES_BEFORE, SOURCES_BEFORE = 64, 256
BRANCHES, TRANSFORMERS = 18, 4
TEXT_BYTES = 65536
# How many numbers a row may have; a source's seven stand for twelve
COUNTS = {b"S": (1,), b"B": (10,), b"P": (7, 12)}
FORM = 16
NOT_CLOSED, TOO_SHORT, NO_DELAY, SHORT_REPORT, NO_PLACE = 22, 30, 31, 33, 34
DELAYS = 20, 50, 100, 250
# How many amperes a report has for each bus
ROW = 6


def within(value, low, high):
    return low <= value <= high


def near_nominal(rated, volts):
    """From 9/10 to 11/10 of the nominal volts, ends included."""
    return 9 * volts <= 10 * rated <= 11 * volts


class Study:
    most_buses, most_sources = BUSES, SOURCES

    def __init__(self, tolerance=6, buses=(), sources=(), closed=False):
        self.tolerance = tolerance
        self.buses = buses
        self.sources = sources
        self.closed = closed

    def network(self):
        return Network(self.tolerance, self.buses, self.sources)

    # Calls

    def start(self, tolerance):
        if tolerance not in (6, 10):
            return 1, type(self)()
        return 0, type(self)(tolerance)

    def add_bus(self, fields):
        record = BusRecord(*fields)
        number = first_true(self.state_grounds(23, len(self.buses) >= self.most_buses))
        number = number or first_true(self.bus_grounds(record))
        if number:
            return number, self
        return 0, type(self)(self.tolerance, self.buses + (record,), self.sources)

    def add_source(self, fields):
        record = SourceRecord(*fields)
        number = first_true(self.state_grounds(24, len(self.sources) >= self.most_sources))
        number = number or first_true(self.source_grounds(record))
        if number:
            return number, self
        return 0, type(self)(self.tolerance, self.buses, self.sources + (record,))

    def close(self):
        number = first_true(self.state_grounds(25, not self.sources))
        if number:
            return number, self
        return 0, type(self)(self.tolerance, self.buses, self.sources, True)

    def withdraw(self, place):
        """Open or closed, the study stays so."""
        if self.nothing_to_change(place):
            return NO_PLACE, self
        return 0, self.with_sources(self.sources[:place] + self.sources[place + 1 :])

    def replace(self, place, fields):
        """Tried as an addition behind the feeder, save the grounds in the state."""
        record = SourceRecord(*fields)
        if self.nothing_to_change(place):
            return NO_PLACE, self
        number = first_true(self.source_grounds(record))
        if number:
            return number, self
        return 0, self.with_sources(self.sources[:place] + (record,) + self.sources[place + 1 :])

    def nothing_to_change(self, place):
        """The feeder at place 0 is neither withdrawn nor replaced."""
        return place == 0 or place >= len(self.sources)

    def with_sources(self, sources):
        return type(self)(self.tolerance, self.buses, sources, self.closed)

    def reopen(self):
        if not self.closed:
            return NOT_CLOSED, self
        return 0, type(self)(self.tolerance, self.buses, self.sources)

    def query(self, bus):
        """The number alone; the amperes of an accepted query are judged elsewhere."""
        if not self.closed:
            return NOT_CLOSED
        return 15 if bus >= len(self.buses) else 0

    def breaking(self, bus, delay, room):
        """The number alone, as for a query; `room` is the length of the lent table."""
        return first_true(self.breaking_grounds(bus, delay, room))

    def breaking_grounds(self, bus, delay, room):
        yield NOT_CLOSED, not self.closed
        yield 15, bus >= len(self.buses)
        yield NO_DELAY, delay not in DELAYS
        yield TOO_SHORT, room < 2 * len(self.sources)

    def report(self, room):
        """The number alone, as for a query; `room` is the length of the lent table."""
        return first_true(self.report_grounds(room))

    def report_grounds(self, room):
        yield NOT_CLOSED, not self.closed
        yield SHORT_REPORT, room < ROW * len(self.buses)

    def write(self, lent):
        """Number, length and the lent bytes after the call; it does not change the study."""
        if not self.closed:
            return NOT_CLOSED, 0, lent
        text = self.text()
        if len(text) > len(lent):
            return TOO_SHORT, 0, lent
        return 0, len(text), text + lent[len(text) :]

    def read(self, text):
        """Number, row and study of a file; the study before it plays no part."""
        number, row, study = self.read_rows(text)
        if number:
            return number, row, type(self)()
        return 0, 0, study

    # Grounds in their order

    def state_grounds(self, number, full):
        yield 21, self.closed
        yield number, full

    def bus_grounds(self, bus):
        """Pairs of a ground and whether it stands, each tried only after the ones before."""
        first = not self.buses
        yield 2, not within(bus.volts, 100, 420000)
        yield 3, bus.parent != 0 if first else bus.parent >= len(self.buses)
        yield 4, bus.kind != 0 if first else bus.kind not in (LINE, TRANSFORMER)
        yield 5, not self.branch_fields_fit(bus)
        if bus.kind == LINE:
            yield 6, bus.volts != self.buses[bus.parent].volts
        if bus.kind == TRANSFORMER:
            yield 7, not self.transformer_volts_fit(bus)
        if not first:
            branches, transformers = self.depth(bus)
            yield 8, branches > BRANCHES or transformers > TRANSFORMERS
        yield 9, not (within(bus.rating, 1, 10**6) and within(bus.peak_rating, 1, 3 * 10**6))

    def branch_fields_fit(self, bus):
        if bus.kind == LINE:
            r, x, metres, circuits, unused = bus.branch
            return (
                within(r, 0, 100000)
                and within(x, 0, 100000)
                and (r, x) != (0, 0)
                and within(metres, 1, 200000)
                and within(circuits, 1, 8)
                and unused == 0
            )
        if bus.kind == TRANSFORMER:
            _, _, kva, uk, ur = bus.branch
            return within(kva, 10, 10**6) and within(uk, 100, 30000) and within(ur, 0, uk - 1)
        return not any(bus.branch)

    def transformer_volts_fit(self, bus):
        parent_volts = self.buses[bus.parent].volts
        return near_nominal(bus.first, parent_volts) and near_nominal(bus.second, bus.volts)

    def depth(self, bus):
        """Branches and transformers from bus 0 to the far end of this branch."""
        branches = transformers = 0
        while bus.kind:
            branches += 1
            transformers += bus.kind == TRANSFORMER
            bus = self.buses[bus.parent]
        return branches, transformers

    def source_grounds(self, source):
        yield 10, source.kind not in (FEEDER, GENERATOR, MOTOR, CONVERTER, UNIT)
        yield 11, source.bus >= len(self.buses)
        yield 12, not self.source_fields_fit(source)
        if source.kind in (GENERATOR, MOTOR):
            yield 13, not near_nominal(source.first, self.buses[source.bus].volts)
        if source.kind == UNIT:
            yield 13, not near_nominal(source.high_volts, self.buses[source.bus].volts)
            yield 32, not near_nominal(source.first, source.low_volts)
        if self.sources:
            yield 14, source.kind == FEEDER
        else:
            yield 14, source.kind != FEEDER or source.bus != 0

    def source_fields_fit(self, source):
        if source.kind == UNIT:
            return self.generator_fields_fit(source) and self.unit_fields_fit(source)
        return not any(source.transformer) and self.first_fields_fit(source)

    def generator_fields_fit(self, source):
        _, kva, xd, rho, power_factor = source.fields
        fits = within(kva, 10, 10**6) and within(xd, 1000, 100000)
        return fits and within(rho, 0, 200) and within(power_factor, 70, 100)

    def unit_fields_fit(self, source):
        low, _, kva, uk, ur = source.transformer
        fits = within(low, 90, 462000) and within(kva, 10, 10**6)
        return fits and within(uk, 100, 30000) and within(ur, 0, uk - 1)

    def first_fields_fit(self, source):
        """The five fields of kinds 1 to 4."""
        one, two, three, four, five = source.fields
        if source.kind == FEEDER:
            fits = within(one, 1000, 10**8) and within(two, 0, 200)
            return fits and not (three or four or five)
        if source.kind == GENERATOR:
            return self.generator_fields_fit(source)
        if source.kind == MOTOR:
            fits = within(two, 1, 100000) and within(three, 10, 100)
            return fits and within(four, 0, 200) and five == 0
        fits = within(one, 1, 100000) and within(two, 100, 300)
        return fits and not (three or four or five)

    # The file

    def read_rows(self, text):
        if not within(len(text), 1, TEXT_BYTES):
            return FORM, 1, None
        rows = self.rows(text)
        study = None
        for place, row in enumerate(rows, 1):
            letter, numbers = self.parse(row)
            if letter is None or (letter == b"S") != (place == 1):
                return FORM, place, None
            if letter == b"S":
                number, study = type(self)().start(*numbers)
            elif letter == b"B":
                number, study = study.add_bus(numbers)
            else:
                number, study = study.add_source(numbers)
            if number:
                return number, place, None
        number, study = study.close()
        return number, len(rows), study

    def rows(self, text):
        """Stretches between CRLF ends; the last end may be left out."""
        rows = text.split(b"\r\n")
        return rows[:-1] if rows[-1] == b"" else rows

    def parse(self, row):
        """Letter and numbers of a row, or None twice when its form is broken."""
        letter, *fields = row.split(b",")
        numbers = [self.number(field) for field in fields]
        if None in numbers or len(numbers) not in COUNTS.get(letter, ()):
            return None, None
        return letter, numbers

    def number(self, field):
        if not 1 <= len(field) <= 10 or not field.isdigit():
            return None
        if field[:1] == b"0" and len(field) > 1:
            return None
        value = int(field)
        return value if value < 2**32 else None

    # The study as text

    def text(self):
        """The start, all buses, all sources, an end after every row."""
        rows = [("S", (self.tolerance,))]
        rows += [("B", bus) for bus in self.buses]
        rows += [("P", source) for source in self.sources]
        return b"".join(self.written_row(*row) for row in rows)

    def written_row(self, letter, numbers):
        fields = [letter.encode(), *map(self.written_number, numbers)]
        return b",".join(fields) + b"\r\n"

    def written_number(self, value):
        return b"%d" % value


class StudyBefore(Study):
    """A study of the edition before order 2."""

    most_buses, most_sources = BUSES_BEFORE, SOURCES_BEFORE


def first_true(grounds):
    for number, stands in grounds:
        if stands:
            return number
    return 0
