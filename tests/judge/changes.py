"""Sources withdrawn and replaced, studies reopened (order 8): fixed lists of calls, and drawn
ones whose study is written, read back and written again.

A place holds a source from 0 up, the feeder first.  No two sources of a list are alike where
their order matters, so that the text that is written shows which of them stands where.
"""

from accept import BUSES, SOURCES, Study
from breakings import any_breaking, breakings
from calls import MOST_ROOM, NO_CALLS, as_calls, carried_out, queries, wrong_record
from exact import CONVERTER, FEEDER, GENERATOR, MOTOR, UNIT
from networks import Draft, amount, random_tree, rated_ends, write_file
from refusals import BASE, FAULTY_BUS, FAULTY_SOURCE, GREATEST, LINE_FROM_BUS_0
from refusals import fault_subsets, filled, lone_bus
from reports import any_room
from texts import SMALL, TEXT
from unit_networks import add_units, some_filled
from writes import KEEPS, drawn_rooms, writing

# Room for the text of any small study
LOOK = ("write", 1_500)
FAULTY, FAULTY_CALL = FAULTY_SOURCE[1], ("bus", FAULTY_BUS[1])


def converter(tenths, bus=0):
    return CONVERTER, bus, tenths, 150, 0, 0, 0


# Fixed lists of calls


def changed_lines():
    """What is nearly one of the three calls is no call and changes nothing."""
    words = "withdra", "replac", "reope"
    lines = [line for line in NO_CALLS if line.strip().lower().startswith(words)]
    asked = [call for line in lines for call in [("other", line), LOOK]]
    return [("read", TEXT), *asked, ("reopen",), *asked, ("close",), LOOK]


def refused_places(sources):
    """Places that hold nothing or the feeder, with a record that is right and with one that is not."""
    found = []
    for place in (0, sources, sources + 1, SOURCES, GREATEST):
        found += [("withdraw", place), ("replace", place, converter(7)), ("replace", place, FAULTY)]
    return [*found, ("replace", 0, BASE[1][1])]


def changed_states():
    """Places without a source to change, and reopening, on an empty, an open and a closed study."""
    found, sources = [("start", 10), ("reopen",), *refused_places(0)], 0
    for call in as_calls(BASE):
        sources += call[0] == "source"
        found += [call, ("reopen",), *refused_places(sources)]
    every = refused_places(sources)
    found += [("close",), *every, LOOK, ("close",), ("reopen",), ("reopen",), *every, LOOK]
    found += [("close",), ("close",), LOOK, *queries(3), ("withdraw", 1), *refused_places(4), LOOK]
    return found + [("start", 6), *refused_places(0), ("start", 7), ("reopen",), *refused_places(0)]


def changed_companies():
    """Every company of a source's faults as a replacement, at each place, on a closed study and on
    a reopened one.  Where 14 alone is meant for a first source, the record is accepted."""
    found = [("read", TEXT)]
    records = [numbers for _, _, (letter, numbers), _ in fault_subsets() if letter == "P"]
    records += [BASE[1][1], (FEEDER, 1, *BASE[1][1][2:]), (FEEDER, 3, *BASE[1][1][2:])]
    for n, numbers in enumerate(records):
        found += [("replace", 1 + n % 4, numbers), LOOK]
        if n % 5 == 0:
            found += [("replace", 0, numbers), ("replace", 5, numbers), LOOK]
    found.append(("reopen",))
    found += [("replace", 1 + n % 4, numbers) for n, numbers in enumerate(records[::-1])]
    return [*found, ("close",), LOOK, *queries(3)]


def changed_full_tables():
    """Space freed at each end and between, in open and in closed studies: it takes one addition
    for each withdrawal, and a replacement needs none."""
    added = (("source", converter(tenths)) for tenths in range(1, 2 * SOURCES))
    found = [("start", 6), *as_calls(lone_bus(20000)), *(next(added) for _ in range(SOURCES))]
    written = [("close",), ("write", MOST_ROOM), ("source", FAULTY)]
    for place in (1, SOURCES - 1, 300, 2):
        found += [("replace", place, converter(9000 + place)), ("withdraw", SOURCES)]
        found += [("withdraw", place), ("withdraw", SOURCES - 1), next(added), next(added), *written]
        found += [("withdraw", place), ("withdraw", 1), next(added), ("replace", place, converter(5))]
        found += [("reopen",), next(added), next(added), next(added), ("source", FAULTY)]
    return [*found, *written, ("query", 0)]


def changed_order():
    """Withdrawals at each place of a study of ten sources, and of all but the feeder from the
    first place, from the last and from between."""
    sources = [("source", converter(100 + n)) for n in range(9)]
    made = [("start", 6), *as_calls(lone_bus(20000)), *sources]
    found = []
    for place in range(1, 10):
        found += [*made, ("withdraw", place), ("close",), LOOK]
    for place_of in (lambda count: 1, lambda count: count - 1, lambda count: count // 2):
        found += [*made, ("close",)]
        for count in range(10, 1, -1):
            found += [("withdraw", place_of(count)), LOOK]
        found += [("withdraw", 1), *queries(1), ("breaking", 0, 20, 2), ("report", 6)]
        found += [("reopen",), *sources[:3], ("replace", 2, converter(7)), ("close",), LOOK]
    return found


KINDS = {
    GENERATOR: (GENERATOR, 2, 400, 700, 14000, 9, 85),
    MOTOR: (MOTOR, 2, 400, 120, 55, 40, 0),
    CONVERTER: converter(1234, 1),
    UNIT: (UNIT, 0, 6300, 11000, 13000, 5, 85, 6000, 21000, 12000, 8500, 450),
}


def changed_kinds():
    """Each kind in the place of each other and back, at the first place and at the last."""
    found = [("read", TEXT)]
    for one in KINDS.values():
        for other in KINDS.values():
            for place in (1, 4):
                found += [("replace", place, one), ("replace", place, filled(other)), LOOK]
            found += [("query", 0), ("report", 18), ("breaking", 2, 20, 10)]
    return found


def changed_after_reopening():
    """A bus added behind a reopening, a source at it and one moved to it, each refused with 11
    before the bus is there; what a closed study refuses stays out."""
    beside = 0, 20000, 1, 120, 310, 700, 1, 0, 12000, 50000
    moved = [("replace", 3, converter(77, 3)), ("replace", 1, (GENERATOR, 3, 20000, 900, 15000, 8, 90))]
    added = [("bus", beside), ("source", converter(55, 3)), ("close",)]
    asked = [LOOK, *queries(4), ("report", 24), *breakings([3], [12])]
    found = [("read", TEXT), *moved, *added, *asked, ("reopen",), ("reopen",), *moved, *asked]
    found += [*added, ("close",), *asked, *added, *moved, *asked, ("withdraw", 5), *asked]
    return [*found, ("reopen",), ("withdraw", 1), added[1], ("query", 0), ("close",), *asked]


def changed_after_refusals():
    """A withdrawal and a replacement directly behind each kind of refused call, and behind files."""
    open_ones = [("source", FAULTY), FAULTY_CALL, ("reopen",), ("query", 0), ("write", 9), ("report", 18)]
    closed_ones = [*open_ones[:2], ("close",), ("query", 3), ("write", 9), ("report", 17)]
    closed_ones += [("breaking", 0, 21, 10), ("withdraw", 0), ("replace", 1, FAULTY), ("other", "hello")]
    changes = [("withdraw", 2), ("replace", 2, converter(66))]
    found = []
    for call in open_ones:
        found += [("start", 10), *as_calls(BASE), call, *changes, call, ("close",), LOOK]
    for call in closed_ones:
        found += [("read", TEXT), call, *changes, call, LOOK]
    for text in (SMALL, TEXT + b"x", TEXT, b"", TEXT):
        found += [("read", text), *changes, LOOK]
    return found


CHANGED = [
    changed_lines,
    changed_states,
    changed_companies,
    changed_full_tables,
    changed_order,
    changed_kinds,
    changed_after_reopening,
    changed_after_refusals,
]


# Drawn


class Course:
    """A list of calls as it is drawn, and the study that it leads to."""

    def __init__(self, rng):
        self.rng = rng
        self.calls = []
        self.study = Study()

    def add(self, *calls):
        self.calls += calls
        for call in calls:
            if call[0] not in KEEPS:
                self.study = carried_out(self.study, call)[1]

    def open(self):
        if self.study.closed:
            self.add(("reopen",))

    def close(self):
        if not self.study.closed:
            self.add(("close",))

    @property
    def last(self):
        return len(self.study.sources) - 1

    def any_place(self):
        """Both ends, beside them, or any."""
        ends = [0, 1, 1, self.last, self.last, self.last + 1, GREATEST]
        return max(0, self.rng.choice([*ends, self.rng.randint(0, self.last + 3)]))

    def held_place(self):
        """One that holds more than the feeder."""
        return self.rng.choice([1, self.last, self.rng.randint(1, self.last)])

    def draft(self):
        """A Draft that goes on from the study's buses."""
        draft = Draft(self.rng, None, self.study.tolerance)
        draft.buses = list(self.study.buses)
        draft.depth = [self.study.depth(bus) for bus in self.study.buses]
        return draft

    def record(self, kind=None, bus=None):
        """A source that is accepted behind the feeder, of seven numbers or of twelve."""
        draft = self.draft()
        kinds = [kind] if kind else [GENERATOR, MOTOR, CONVERTER, UNIT]
        draft.any_sources(1, kinds, None if bus is None else [bus])
        return some_filled(self.rng, draft.rows)[-1][1]

    def bus(self):
        """A bus that an open study accepts."""
        draft = self.draft()
        draft.branch(self.rng.choice([b for b, depth in enumerate(draft.depth) if depth[0] < 18]))
        return draft.rows[-1][1]


def faulty(course, grounds):
    """A record to which each of these grounds applies, save those that its kind knows not."""
    rng = course.rng
    kind = FEEDER if 14 in grounds else UNIT if 32 in grounds else rng.choice([GENERATOR, MOTOR, UNIT])
    numbers = list(filled(BASE[1][1] if kind == FEEDER else course.record(kind)))
    if 13 in grounds and kind != FEEDER:
        numbers[8 if kind == UNIT else 2] = beside(rng, course.study.buses[numbers[1]].volts)
    if 32 in grounds and kind == UNIT:
        numbers[2] = beside(rng, numbers[7])
    if 12 in grounds:
        numbers[rng.choice([3, 11])] = GREATEST
    if 11 in grounds:
        numbers[1] = rng.choice([len(course.study.buses), BUSES, GREATEST])
    if 10 in grounds:
        numbers[0] = rng.choice([0, 6, GREATEST])
    return tuple(numbers[:7] if not any(numbers[7:]) and rng.random() < 0.5 else numbers)


def beside(rng, volts):
    """Rated volts just beyond either end of what the nominal volts allow."""
    least, greatest = rated_ends(volts)
    return rng.choice([least - 1, greatest + 1])


# What a course may do next


def withdrawal(course):
    course.add(("withdraw", course.any_place()))


def replacement(course):
    course.add(("replace", course.any_place(), course.record()))


def exchange(course):
    """A machine for one of another kind, and now and then back."""
    if course.last < 1:
        return addition(course)
    place = course.held_place()
    before = course.study.sources[place]
    kind = course.rng.choice([kind for kind in KINDS if kind != before.kind])
    course.add(("replace", place, course.record(kind)))
    if course.rng.random() < 0.5:
        course.add(("replace", place, tuple(before)))


def faulty_replacement(course):
    """One ground or several, at a place that holds a source or at any."""
    rng = course.rng
    grounds = rng.sample((10, 11, 12, 13, 32, 14), rng.choice([1, 1, 1, 2, 3]))
    held = course.last > 0 and rng.random() < 0.7
    place = course.held_place() if held else course.any_place()
    course.add(("replace", place, faulty(course, grounds)))


def addition(course):
    """As a rule to an open study; to a closed one it is refused."""
    if course.rng.random() < 0.7:
        course.open()
    wrong = course.rng.random() < 0.2
    record = course.record()
    course.add(("source", wrong_record(course.rng, record) if wrong else record))


def new_bus(course):
    """A bus behind a reopening, a source at it and another moved to it."""
    course.close()
    course.open()
    course.add(("bus", course.bus()))
    bus = len(course.study.buses) - 1
    if course.rng.random() < 0.7:
        course.add(("source", course.record(None, bus)))
    if course.last > 0 and course.rng.random() < 0.7:
        course.add(("replace", course.held_place(), course.record(None, bus)))


def all_but_feeder(course):
    """As far as the table is small; one withdrawal more is refused."""
    if course.last < 30:
        while course.last > 0:
            course.add(("withdraw", course.held_place()))
        course.add(("withdraw", 1))


def after_refusal(course):
    """A withdrawal directly behind a call that is refused."""
    if course.last > 0:
        refused = [("withdraw", 0), ("source", FAULTY), FAULTY_CALL, ("query", GREATEST), ("write", 0)]
        refused += [("replace", course.held_place(), FAULTY), ("report", 0)]
        refused += [("close",) if course.study.closed else ("reopen",)]
        course.add(course.rng.choice(refused), ("withdraw", course.held_place()))


def other_state(course):
    """Closed or reopened, often twice."""
    call = ("reopen",) if course.study.closed else ("close",)
    course.add(*[call] * course.rng.choice([1, 2]))


def asked(course):
    """Something is asked, as a rule of a closed study, and its sources are looked at."""
    rng = course.rng
    if rng.random() < 0.8:
        course.close()
    buses = len(course.study.buses)
    course.add(("query", rng.randrange(buses + 1)), ("report", any_room(rng, buses)))
    course.add(any_breaking(rng, buses, course.last + 1), ("other", rng.choice(NO_CALLS)), look(course))


def look(course):
    """A write with room for the text."""
    return ("write", len(course.study.text()) + amount(course.rng, 0, 9))


STEPS = [withdrawal, replacement, exchange, faulty_replacement, addition, new_bus, all_but_feeder]
STEPS += [after_refusal, other_state, asked]
WEIGHTS = [5, 4, 4, 6, 5, 2, 1, 2, 3, 5]


def freed_space(course):
    """A table that is full takes an addition behind each withdrawal, and then no more."""
    course.open()
    while course.last + 1 < SOURCES:
        course.add(("source", course.record(CONVERTER)))
    course.add(("source", course.record()))
    if course.rng.random() < 0.5:
        course.close()
    course.add(("withdraw", course.held_place()))
    course.open()
    course.add(("source", course.record()), ("source", course.record()))


def steps(course, count, kinds=STEPS, weights=WEIGHTS):
    for step in course.rng.choices(kinds, weights, k=count):
        step(course)


def drawn_network(course, draft):
    """The network read, or added call by call with changes of what is there between."""
    rows = some_filled(course.rng, draft.rows)
    if course.rng.random() < 0.3:
        course.add(("read", write_file(draft.tolerance, rows)))
        return
    course.add(("start", draft.tolerance))
    for call in as_calls(rows):
        if course.rng.random() < 1 / len(rows):
            (replacement if course.study.buses else withdrawal)(course)
        course.add(call)


def drawn_course(rng):
    """One in forty has a full table, the others a handful of buses and up to a dozen sources."""
    course = Course(rng)
    if rng.random() < 0.975:
        draft = random_tree(rng, rng.randint(1, 6), rng.randint(1, 9))
        add_units(draft, rng.choice([0, 0, 1, 3]))
        drawn_network(course, draft)
        steps(course, rng.randint(5, 18))
    else:
        kinds = rng.choice([(CONVERTER,), (GENERATOR, MOTOR, CONVERTER, UNIT)])
        draft = random_tree(rng, rng.randint(1, 4), rng.randint(1, 9))
        draft.any_sources(SOURCES, kinds)
        drawn_network(course, draft)
        for _ in range(rng.randint(1, 3)):
            freed_space(course)
            steps(course, rng.randint(0, 5))
    course.close()
    return course


def drawn_changes(name, rng):
    """A drawn list, then breaking currents and a report of the study that it leads to; the Writing
    has queries of every bus besides."""
    course = drawn_course(rng)
    buses, sources = len(course.study.buses), course.last + 1
    course.add(any_breaking(rng, buses, sources), any_breaking(rng, buses, sources))
    course.add(("report", any_room(rng, buses)), look(course))
    return writing(name, course.calls, lambda length: drawn_rooms(rng, length))
