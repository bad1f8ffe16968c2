"""Near misses of every ground, faults in company, and broken text.

Each near miss is one change away from an accepted file and says which number
and row are meant, so that the acceptance rules can themselves be tested.
"""

from itertools import combinations

from accept import BUSES, BUSES_BEFORE, SOURCES, SOURCES_BEFORE
from networks import write_file

GREATEST = 2**32 - 1

# The accepted base: rows counted from 1, the start being row 1.  Its motor has the twelve
# numbers of a source, the unit must have them, and the others have seven.
BASE = [
    ("B", (0, 20000, 0, 0, 0, 0, 0, 0, 20000, 60000)),
    ("P", (1, 0, 500000, 10, 0, 0, 0)),
    ("B", (0, 20000, 1, 100, 300, 1000, 2, 0, 15000, 60000)),
    ("B", (1, 400, 2, 20000, 400, 630, 6000, 1000, 30000, 70000)),
    ("P", (2, 2, 400, 500, 15000, 10, 90)),
    ("P", (3, 2, 400, 100, 50, 42, 0, 0, 0, 0, 0, 0)),
    ("P", (4, 1, 1000, 150, 0, 0, 0)),
    ("P", (5, 1, 6300, 12000, 14000, 4, 85, 6000, 21000, 12500, 8000, 500)),
]
ROOT, FEEDER_ROW, LINE_ROW, TRANSFORMER_ROW = range(2, 6)
GENERATOR_ROW, MOTOR_ROW, CONVERTER_ROW, UNIT_ROW = range(6, 10)
SOURCE_ROWS = FEEDER_ROW, GENERATOR_ROW, MOTOR_ROW, CONVERTER_ROW, UNIT_ROW
PARENT, VOLTS, KIND, FIRST, SECOND, THIRD, FOURTH, FIFTH, RATING, PEAK_RATING = range(10)
SOURCE_KIND, SOURCE_BUS, ONE, TWO, THREE, FOUR, FIVE, LOW, HIGH, KVA, UK, UR = range(12)


def filled(numbers):
    """A source's numbers as twelve."""
    return (*numbers, *[0] * (12 - len(numbers)))


def changed(rows, changes):
    """Rows with some fields set: {(row, field): value}; a field behind a source's seven fills its row."""
    rows = [(letter, list(numbers)) for letter, numbers in rows]
    for (row, field), value in changes.items():
        letter, numbers = rows[row - 2]
        if field >= len(numbers):
            rows[row - 2] = letter, list(filled(numbers))
        rows[row - 2][1][field] = value
    return [(letter, tuple(numbers)) for letter, numbers in rows]


class NearMiss:
    def __init__(self, name, text, number, row):
        self.name, self.text, self.number, self.row = name, text, number, row


def miss(name, rows, number, row, tolerance=6, last_end=True):
    return NearMiss(name, write_file(tolerance, rows, last_end), number, row if number else 0)


def ends(row, field, low, high, ground, others=None):
    """Both ends accepted, one step outside and the greatest number refused."""
    found = []
    for value in sorted({max(low - 1, 0), low, high, high + 1, GREATEST}):
        number = 0 if low <= value <= high else ground
        changes = {(row, field): value, **(others or {})}
        meant = f"ground {ground}" if number else "accepted"
        name = f"{meant}: row {row} field {field + 1} is {value}"
        found.append(miss(name, changed(BASE, changes), number, row))
    return found


def bus_field_misses():
    """Ratings and branch fields, at both ends of each range."""
    found = []
    for field in (RATING, PEAK_RATING):
        for row in (ROOT, LINE_ROW, TRANSFORMER_ROW):
            found += ends(row, field, 1, (10**6, 3 * 10**6)[field == PEAK_RATING], 9)
    for field in (FIRST, SECOND, THIRD, FOURTH, FIFTH):
        found += ends(ROOT, field, 0, 0, 5)
    for field, low, high in (
        (FIRST, 0, 100000),
        (SECOND, 0, 100000),
        (THIRD, 1, 200000),
        (FOURTH, 1, 8),
        (FIFTH, 0, 0),
    ):
        found += ends(LINE_ROW, field, low, high, 5)
    found += ends(LINE_ROW, FIRST, 1, 100000, 5, {(LINE_ROW, SECOND): 0})
    found += ends(LINE_ROW, SECOND, 1, 100000, 5, {(LINE_ROW, FIRST): 0})
    found += ends(TRANSFORMER_ROW, THIRD, 10, 10**6, 5)
    found += ends(TRANSFORMER_ROW, FOURTH, 100, 30000, 5, {(TRANSFORMER_ROW, FIFTH): 0})
    found += ends(TRANSFORMER_ROW, FIFTH, 0, 5999, 5)
    for uk in (100, 30000):
        found += ends(TRANSFORMER_ROW, FIFTH, 0, uk - 1, 5, {(TRANSFORMER_ROW, FOURTH): uk})
    found += ends(TRANSFORMER_ROW, FIRST, 18000, 22000, 7)
    found += ends(TRANSFORMER_ROW, SECOND, 360, 440, 7)
    return found


def source_field_misses():
    """Fields and rated volts of sources, at both ends of each range."""
    found = []
    for row, field, low, high in (
        (FEEDER_ROW, ONE, 1000, 10**8),
        (FEEDER_ROW, TWO, 0, 200),
        (GENERATOR_ROW, TWO, 10, 10**6),
        (GENERATOR_ROW, THREE, 1000, 100000),
        (GENERATOR_ROW, FOUR, 0, 200),
        (GENERATOR_ROW, FIVE, 70, 100),
        (MOTOR_ROW, TWO, 1, 100000),
        (MOTOR_ROW, THREE, 10, 100),
        (MOTOR_ROW, FOUR, 0, 200),
        (MOTOR_ROW, FIVE, 0, 0),
        (CONVERTER_ROW, ONE, 1, 100000),
        (CONVERTER_ROW, TWO, 100, 300),
        *((FEEDER_ROW, field, 0, 0) for field in (THREE, FOUR, FIVE)),
        *((CONVERTER_ROW, field, 0, 0) for field in (THREE, FOUR, FIVE)),
        *((row, field, 0, 0) for row in SOURCE_ROWS[:4] for field in (LOW, HIGH, KVA, UK, UR)),
    ):
        found += ends(row, field, low, high, 12)
    for row in (GENERATOR_ROW, MOTOR_ROW):
        found += ends(row, ONE, 360, 440, 13)
    return found


def unit_field_misses():
    """Fields and volts of a unit.  Generator and high volts have no range of their own: 0 and
    the greatest number, and one whose tenfold is right but for 32 bits, are refused by ratio."""
    found = []
    for field, low, high in (
        (TWO, 10, 10**6),
        (THREE, 1000, 100000),
        (FOUR, 0, 200),
        (FIVE, 70, 100),
        (KVA, 10, 10**6),
        (UR, 0, 7999),
    ):
        found += ends(UNIT_ROW, field, low, high, 12)
    found += ends(UNIT_ROW, UK, 100, 30000, 12, {(UNIT_ROW, UR): 0})
    for uk in (100, 30000):
        found += ends(UNIT_ROW, UR, 0, uk - 1, 12, {(UNIT_ROW, UK): uk})
    found += ends(UNIT_ROW, ONE, 5400, 6600, 32) + ends(UNIT_ROW, HIGH, 18000, 22000, 13)
    for field, number, volts in ((ONE, 32, (0, 429502730)), (HIGH, 13, (0, 429516730))):
        for value in volts:
            rows = changed(BASE, {(UNIT_ROW, field): value})
            name = f"ground {number}: unit's field {field + 1} is {value}"
            found.append(miss(name, rows, number, UNIT_ROW))
    for changes in ({UK: 0, UR: 0}, {UK: 0, UR: GREATEST}, {UK: 99, UR: 0}, {LOW: 0, ONE: 0}):
        rows = changed(BASE, {(UNIT_ROW, field): value for field, value in changes.items()})
        found.append(miss(f"ground 12: unit with {changes}", rows, 12, UNIT_ROW))
    return found + unit_low_misses()


def unit_low_misses():
    """Low volts at the ends of their range, and generator volts at 9/10 and 11/10 of them."""
    found = []
    for low in (89, 90, 91, 101, 105, 399, 6003, 461999, 462000, 462001, GREATEST):
        least, greatest = (9 * low + 9) // 10, 11 * low // 10
        for volts in (least - 1, least, low, greatest, greatest + 1):
            number = 12 if not 90 <= low <= 462000 else 0 if least <= volts <= greatest else 32
            changes = {(UNIT_ROW, LOW): low, (UNIT_ROW, ONE): min(volts, GREATEST)}
            name = f"ground {number or 32}: {volts} V generator on low side of {low}"
            found.append(miss(name, changed(BASE, changes), number, UNIT_ROW))
    return found


def row_length_misses():
    """Rows of seven and of twelve numbers: the same but for a unit, which needs what seven lack."""
    twelve = [(letter, filled(numbers) if letter == "P" else numbers) for letter, numbers in BASE]
    seven = [(letter, numbers[:7] if letter == "P" else numbers) for letter, numbers in BASE]
    found = [
        miss("accepted: every source of twelve numbers", twelve, 0, 0),
        miss("accepted: sources of seven numbers", seven[:-1], 0, 0),
        miss("ground 12: unit of seven numbers", seven, 12, UNIT_ROW),
    ]
    for changes, number in (({SOURCE_KIND: 6}, 10), ({SOURCE_BUS: 3}, 11), ({ONE: GREATEST}, 12)):
        rows = changed(seven, {(UNIT_ROW, field): value for field, value in changes.items()})
        found.append(miss(f"ground {number}: seven numbers with {changes}", rows, number, UNIT_ROW))
    return found


def reference_misses():
    """Buses that are not there, kinds that are none, and a line between two voltages."""
    found = []
    for row in SOURCE_ROWS:
        count = 1 if row == FEEDER_ROW else 3
        for bus in (count, count + 1, BUSES, GREATEST):
            rows = changed(BASE, {(row, SOURCE_BUS): bus})
            found.append(miss(f"ground 11: row {row} at bus {bus}", rows, 11, row))
    for row, count in ((ROOT, 1), (LINE_ROW, 1), (TRANSFORMER_ROW, 2)):
        for parent in (count, count + 1, GREATEST):
            rows = changed(BASE, {(row, PARENT): parent})
            found.append(miss(f"ground 3: row {row} under bus {parent}", rows, 3, row))
    for row, kinds in ((ROOT, (1, 2, 3)), (LINE_ROW, (0, 3)), (TRANSFORMER_ROW, (0, 3, GREATEST))):
        for kind in kinds:
            rows = changed(BASE, {(row, KIND): kind})
            found.append(miss(f"ground 4: row {row} of kind {kind}", rows, 4, row))
    for row in SOURCE_ROWS:
        for kind in (0, 6, GREATEST):
            rows = changed(BASE, {(row, SOURCE_KIND): kind})
            found.append(miss(f"ground 10: row {row} of kind {kind}", rows, 10, row))
    for row, kinds in (*((row, [5]) for row in SOURCE_ROWS[:4]), (UNIT_ROW, (1, 2, 3, 4))):
        for kind in kinds:
            rows = changed(BASE, {(row, SOURCE_KIND): kind})
            found.append(miss(f"ground 12: row {row} taken for kind {kind}", rows, 12, row))
    for volts in (19999, 20001, 400, 420000):
        rows = changed(BASE, {(LINE_ROW, VOLTS): volts})
        found.append(miss(f"ground 6: line to {volts} V", rows, 6, LINE_ROW))
    return found


def single_field_misses():
    found = bus_field_misses() + source_field_misses() + unit_field_misses()
    return found + row_length_misses() + reference_misses()


def lone_bus(volts, feeder=(1, 0, 500000, 10, 0, 0, 0)):
    return [("B", (0, volts, 0, 0, 0, 0, 0, 0, 1000, 3000)), ("P", feeder)]


def volts_misses():
    """Nominal volts at their ends, and rated volts where a tenth is not whole."""
    found = []
    for volts in (0, 99, 100, 420000, 420001, GREATEST):
        number = 0 if 100 <= volts <= 420000 else 2
        found.append(miss(f"ground 2: bus 0 at {volts} V", lone_bus(volts), number, 2))
        if number:
            rows = changed(BASE, {(LINE_ROW, VOLTS): volts})
            found.append(miss(f"ground 2: line to {volts} V", rows, 2, LINE_ROW))
    for volts in (101, 105, 109, 399, 405, 419999):
        least, greatest = (9 * volts + 9) // 10, 11 * volts // 10
        for rated in (least - 1, least, greatest, greatest + 1):
            fits = least <= rated <= greatest
            head = lone_bus(volts)
            bus = ("B", (0, volts, 2, rated, volts, 100, 6000, 0, 1000, 3000))
            found.append(
                miss(f"ground 7: {rated} V rated on {volts}", head + [bus], 0 if fits else 7, 4)
            )
            motor = ("P", (3, 0, rated, 100, 50, 42, 0))
            unit = ("P", (5, 0, 99, 10, 1000, 0, 100, 90, rated, 10, 100, 99))
            for name, record in (("motor", motor), ("unit", unit)):
                name = f"ground 13: {name} of {rated} V on {volts}"
                found.append(miss(name, head + [record], 0 if fits else 13, 4))
    return found


def chain_rows(transformers, lines, volts=20000):
    """A lone feeder bus, then a chain of transformers and lines, all at one voltage."""
    rows = lone_bus(volts)
    for i in range(transformers + lines):
        if i < transformers:
            branch = (2, volts, volts, 630, 6000, 1000)
        else:
            branch = (1, 100, 300, 1000, 1, 0)
        rows.append(("B", (i, volts, *branch, 1000, 3000)))
    return rows


def depth_misses():
    found = []
    for transformers, lines in ((0, 18), (0, 19), (4, 14), (4, 15), (4, 0), (5, 0), (5, 14)):
        rows = chain_rows(transformers, lines)
        deep = next(
            (i for i in range(1, transformers + lines + 1) if i > 18 or min(i, transformers) > 4),
            None,
        )
        name = f"ground 8: {transformers} transformers and {lines} lines"
        found.append(miss(name, rows, 8 if deep else 0, deep + 3 if deep else 0))
    return found


def order_misses():
    """Start, order of sources, closing without a source."""
    feeder_at_1 = changed(BASE, {(FEEDER_ROW, SOURCE_BUS): 1})
    feeder_at_1.insert(3, feeder_at_1.pop(1))
    second_feeder = BASE + [BASE[1]]
    found = [
        miss("ground 14: feeder at bus 1", feeder_at_1, 14, 5),
        miss("ground 14: second feeder", second_feeder, 14, len(BASE) + 2),
        miss("ground 25: start alone", [], 25, 1),
        miss("ground 25: start alone, no end", [], 25, 1, last_end=False),
        miss("ground 25: buses alone", [BASE[0], BASE[2], BASE[3]], 25, 4),
        miss("accepted: base", BASE, 0, 0),
        miss("accepted: base, no end", BASE, 0, 0, last_end=False),
        miss("accepted: base at tolerance 10", BASE, 0, 0, tolerance=10),
    ]
    for source in BASE[4:]:
        first = [BASE[0], BASE[2], BASE[3], source, BASE[1]]
        found.append(miss(f"ground 14: kind {source[1][0]} first", first, 14, 5))
    for tolerance in (0, 5, 7, 9, 11, 60, GREATEST):
        found.append(miss(f"ground 1: tolerance {tolerance}", BASE, 1, 1, tolerance))
    return found


LINE_FROM_BUS_0 = ("B", (0, 20000, 1, 100, 300, 1000, 2, 0, 15000, 60000))
CONVERTER_AT_BUS_0 = ("P", (4, 0, 1000, 150, 0, 0, 0))
FAULTY_BUS = ("B", (GREATEST, 1, 7, 1, 1, 1, 1, 1, 0, 0))
FAULTY_SOURCE = ("P", (9, GREATEST, 1, 1, 1, 1, 1))


def buses_in_all(count):
    return lone_bus(20000) + [LINE_FROM_BUS_0] * (count - 1)


def sources_in_all(count):
    return lone_bus(20000) + [CONVERTER_AT_BUS_0] * (count - 1)


def limit_misses(letter, in_all, limit, number):
    """As many records as the limit, one more, and a faulty one more of either kind.

    `number` is due for one more: 0 at a limit of the edition before, where a
    faulty one has its own ground.  It stands in the third row after as many.
    """
    found = [
        miss(f"accepted: {limit} {letter} rows", in_all(limit), 0, 0),
        miss(f"one more than {limit} {letter} rows", in_all(limit + 1), number, limit + 3),
    ]
    for faulty, own in ((FAULTY_BUS, 2), (FAULTY_SOURCE, 10)):
        due = number if number and faulty[0] == letter else own
        name = f"ground {due}: faulty {faulty[0]} row behind {limit} {letter} rows"
        found.append(miss(name, in_all(limit) + [faulty], due, limit + 3))
    return found


def table_misses():
    """Full tables, and those that were full in the edition before."""
    return (
        limit_misses("B", buses_in_all, BUSES_BEFORE, 0)
        + limit_misses("B", buses_in_all, BUSES, 23)
        + limit_misses("P", sources_in_all, SOURCES_BEFORE, 0)
        + limit_misses("P", sources_in_all, SOURCES, 24)
    )


# Faults in company: the lowest ground is due


def subsets(grounds):
    for size in range(1, len(grounds) + 1):
        yield from combinations(grounds, size)


def fault_subsets():
    """(name, rows before, faulty row, number): every company of faults in one record."""
    found = []
    line_rows, transformer_rows = chain_rows(0, 18), chain_rows(4, 0)
    for grounds in subsets((2, 3, 4, 5, 6, 8, 9)):
        volts = 99 if 2 in grounds else 19999 if 6 in grounds else 20000
        if 2 in grounds and 6 not in grounds:
            continue
        parent = 19 if 3 in grounds else 18 if 8 in grounds else 0
        kind = 3 if 4 in grounds else 1
        circuits, rating = (9 if 5 in grounds else 1), (0 if 9 in grounds else 1)
        row = ("B", (parent, volts, kind, 1, 1, 1, circuits, 0, rating, 1))
        found.append((f"line with grounds {grounds}", line_rows, row, grounds[0]))
    for grounds in subsets((2, 3, 4, 5, 7, 8, 9)):
        volts = 420001 if 2 in grounds else 20000
        parent = 5 if 3 in grounds else 4 if 8 in grounds else 0
        kind = 0 if 4 in grounds else 2
        kva, peak = (9 if 5 in grounds else 10), (3000001 if 9 in grounds else 1)
        first = 22001 if 7 in grounds else 22000
        row = ("B", (parent, volts, kind, first, 20000, kva, 100, 99, 1, peak))
        found.append((f"transformer with grounds {grounds}", transformer_rows, row, grounds[0]))
    return found + source_subsets() + unit_subsets()


def unit_subsets():
    """Order 5 tries 32 between 13 and 14.  A field out of range is the generator's or the
    transformer's, volts are beyond either end."""
    found = []
    buses = [BASE[0], BASE[2], BASE[3]]
    for grounds in subsets((10, 11, 12, 13, 32, 14)):
        head = buses if 14 in grounds else buses + [BASE[1]]
        kind, bus = (6 if 10 in grounds else 5), (3 if 11 in grounds else 0)
        for name, kva, ur, high, rated in (("low", 9, 99, 17999, 5399), ("high", 10, 100, 22001, 6601)):
            kva, ur = (kva, ur) if 12 in grounds else (10, 99)
            high = high if 13 in grounds else 20000
            rated = rated if 32 in grounds else 6000
            record = (kind, bus, rated, kva, 1000, 0, 70, 6000, high, 10, 100, ur)
            found.append((f"unit {name} with grounds {grounds}", head, ("P", record), grounds[0]))
    return found


def source_subsets():
    found = []
    buses = [BASE[0], BASE[2], BASE[3]]
    for grounds in subsets((10, 11, 12, 13, 14)):
        bus = 3 if 11 in grounds else 0
        wrong = 12 in grounds
        rated = 17999 if 13 in grounds else 18000
        generator = (6 if 10 in grounds else 2, bus, rated, 9 if wrong else 10, 1000, 0, 70)
        motor = (0 if 10 in grounds else 3, bus, rated, 1, 101 if wrong else 100, 0, 0)
        filled_generator = (*generator[:3], 10, *generator[4:], 0, 0, 0, 0, int(wrong))
        head = buses if 14 in grounds else buses + [BASE[1]]
        machines = ("generator", generator), ("filled generator", filled_generator), ("motor", motor)
        for name, record in machines:
            found.append((f"{name} with grounds {grounds}", head, ("P", record), grounds[0]))
        if 13 in grounds or 10 in grounds:
            continue
        converter = (4, bus, 1, 99 if wrong else 100, 0, 0, 0)
        found.append((f"converter with grounds {grounds}", head, ("P", converter), grounds[0]))
        if 14 in grounds:
            feeder = (1, bus, 999 if wrong else 1000, 0, 0, 0, 0)
            elsewhere = (1, bus or 1, *feeder[2:])
            for name, rows, record in (
                ("second feeder", buses + [BASE[1]], feeder),
                ("feeder elsewhere", buses, elsewhere),
            ):
                found.append((f"{name} with grounds {grounds}", rows, ("P", record), grounds[0]))
    return found


def company_misses():
    """The same companies as files, with more faults in the rows behind."""
    found = []
    later = [("B", (99, 0, 9, 9, 9, 9, 9, 9, 0, 0)), ("P", (0, 99, 0, 0, 0, 0, 0))]
    for name, head, row, number in fault_subsets():
        found.append(miss(f"ground {number}: {name}", head + [row] + later, number, len(head) + 2))
    return found


def record_misses():
    """Near misses of the grounds of records, and of the order of rows."""
    return single_field_misses() + volts_misses() + depth_misses() + order_misses()


def near_misses():
    """Every near miss as a file."""
    return record_misses() + table_misses() + company_misses()
