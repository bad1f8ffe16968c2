"""Reports of all buses (order 7): fixed lists of calls, and networks that are asked by reports
and by a query of every bus.

A room is the length of the lent table.  Each network comes with its converters, without them
and with further ones, so that rows of networks alike in all but their converters meet.
"""

from random import Random
from typing import NamedTuple

from accept import BUSES, ROW
from breakings import any_breaking
from calls import LOW_VOLTAGE, MOST_REPORT, MOST_ROOM, NO_CALLS, as_calls, queries, wrong_record
from exact import CONVERTER
from fixed import converter_paths, drawn_once, far_ends, greatest_currents, worked_points
from networks import Draft, amount, any_network, with_more_converters, without_converters, write_file
from reactance_networks import fixed_reactance_networks, low_impedances
from refusals import BASE, FAULTY_BUS, FAULTY_SOURCE, GREATEST
from texts import SMALL, TEXT
from unit_networks import some_filled, units_together, with_units


def reports(rooms):
    return [("report", room) for room in rooms]


def rooms_beside(buses):
    """None, beside one row, one number too few, just enough, one more and the most that is lent."""
    enough = ROW * buses
    rooms = {0, ROW - 1, ROW, enough - 1, enough, enough + 1, MOST_REPORT}
    return sorted(room for room in rooms if room <= MOST_REPORT)


# Fixed lists of calls


def reported_lines():
    """What is nearly a report is no call and changes nothing."""
    lines = [line for line in NO_CALLS if line.lower().startswith("repor")]
    asked = [call for line in lines for call in [("other", line), ("report", 18)]]
    return [("start", 6), *asked, ("read", TEXT), *asked]


def reported_states():
    """Every room on an empty, an open and a closed study, and twice on the closed one."""
    found = [("start", 10)]
    base, every = as_calls(BASE), reports(rooms_beside(3))
    for call in base:
        found += [*every, call]
    found += [*every, ("close",), *every, ("other", f"report,{MOST_REPORT + 1}"), *every]
    found += [*queries(3), *base, ("close",), *queries(3), *every]
    return found + [("start", 6), *every, ("close",), *every, ("start", 7), *every]


def reported_after_refusals():
    """Behind each kind of refused call a report tells how the study is left."""
    low, tries = as_calls(LOW_VOLTAGE), reports([0, 5, 6, 7, MOST_REPORT])
    found = []
    for call in (("start", 7), ("start", GREATEST), ("read", b"S,7"), ("read", b""), ("read", TEXT + b"x")):
        found += [("start", 10), *low, ("close",), ("report", 6), call, *tries, *low, *tries]
        found += [("close",), ("report", 6), ("report", 5)]
    kept = [*as_calls([FAULTY_BUS, FAULTY_SOURCE]), ("close",), ("query", 3), ("query", GREATEST)]
    kept += [("breaking", 3, 20, 10), ("breaking", 0, 21, 10), ("breaking", 0, 20, 9), ("write", 1)]
    kept += [("report", 17), ("report", 0), ("other", "report,18,0"), ("other", "hello")]
    found += [("start", 6), low[0], ("close",), *tries, low[1], ("close",), *tries]
    found.append(("read", TEXT))
    for call in kept:
        found += [call, ("report", 18)]
    return found


def reported_between():
    """A report, refused or not, leaves the study as it was: all that can be asked stands around it."""
    asked = [*queries(3), ("breaking", 2, 50, 12), ("write", 400), ("close",), ("bus", BASE[2][1])]
    found = [("read", TEXT), *asked]
    for call in reports([18, 17, 0, 19, MOST_REPORT]):
        found += [call, *asked, call]
    for tolerance in (10, 6):
        found += [("start", tolerance)]
        for call in as_calls(BASE):
            found += [("report", 18), call, ("report", 0)]
        found += [("report", 18), ("close",), ("report", 18), *asked, ("report", 18)]
    return found


def reported_tolerances():
    """The same records at 6 and at 10, asked by reports alone."""
    found = []
    for tolerance in (6, 10, 6):
        found += [("start", tolerance), *as_calls(LOW_VOLTAGE), ("close",), *reports([6, 9])]
    return found


def reported_in_turn():
    """Studies of fewer and of more buses one after another, in the same room."""
    texts = [SMALL, TEXT, SMALL, TEXT.replace(b"S,6", b"S,10"), TEXT, SMALL]
    return [call for text in texts for call in [("read", text), *reports([18, 6, MOST_REPORT])]]


def reported_alike():
    """Converters alone differ: none, one at each bus, many, other currents, and one before the
    machines behind the feeder."""
    machines, asked = as_calls(without_converters(BASE)), [("close",), *reports([18, 23])]
    plans = [[], *([(bus, 1000, 150)] for bus in range(3)), [(1, 1000, 300)], [(1, 1, 100)]]
    plans += [[(bus, 100000, 300) for bus in range(3)], [(n % 3, 7 + n, 100 + n) for n in range(150)]]
    found = []
    for tolerance in (6, 10):
        for plan in plans:
            converters = [("source", (CONVERTER, *one, 0, 0, 0)) for one in plan]
            found += [("start", tolerance), *machines, *converters, *asked]
        early = ("source", (CONVERTER, 0, 1000, 150, 0, 0, 0))
        found += [("start", tolerance), *machines[:2], early, *machines[2:], *asked]
    return found


def reported_sizes():
    """Networks of one bus to the most, each with rooms on both sides of enough: lines of many
    lengths from bus 0, a generator at the last bus and converters at some."""
    found = []
    for count in (1, 2, 3, 10, 21, 42, 43, 63, 64, 65, 85, 86, BUSES - 1, BUSES):
        found += [("start", 6), *as_calls(BASE[:2])]
        for n in range(1, count):
            found.append(("bus", (0, 20000, 1, 100 + n, 300, 100 * n, 2, 0, 15000, 60000)))
        found.append(("source", (2, count - 1, 20000, 5000, 15000, 10, 90)))
        found += [("source", (CONVERTER, n, 100 + n, 150, 0, 0, 0)) for n in range(0, count, 9)]
        found += [("close",), *reports(rooms_beside(count))]
    return found


REPORTED = [
    reported_lines,
    reported_states,
    reported_after_refusals,
    reported_between,
    reported_tolerances,
    reported_in_turn,
    reported_alike,
    reported_sizes,
]


# Networks, by name


def star_with_converters():
    """128 buses at bus 0, one in three behind a transformer, converters and machines at some."""
    draft = Draft(Random("star"), 20000, 6)
    draft.feeder(250000, 12)
    for n in range(1, BUSES):
        if n % 3:
            draft.line(0, 50 + n, 300, 40 * n, 1 + n % 4)
        else:
            draft.transformer(0, (400, 690, 6000)[n % 9 // 3], None, 630 + n, 4000 + n, 900)
        if n % 8 == 0:
            draft.converter(n, 50 * n, 100 + n)
        if n % 32 == 5:
            draft.generator(n, None, 100 * n, 15000, 10, 85)
    return draft


def chain_with_converters():
    """18 branches, 4 of them transformers, a machine or a converter at every bus."""
    draft = Draft(Random("chain"), 110000, 10)
    draft.feeder(2000000, 8)
    bus = 0
    for n in range(18):
        if n % 5 == 3:
            volts = (20000, 6000, 690, 400)[n // 5]
            sides = draft.buses[bus][1] * 21 // 20, volts * 19 // 20
            bus = draft.transformer(bus, volts, sides, 25000, 7000 + n, 300)
        else:
            bus = draft.line(bus, 80, 120, 10 + n, 2)
        if n % 2:
            draft.converter(bus, 900 + n, 120)
        else:
            draft.motor(bus, None, 200 + n, 55, 30)
    draft.generator(bus, None, 800, 14000, 9, 80)
    return draft


def tree_with_converters(place):
    """Three children a bus and four levels, machines and converters in some arms, in others
    nothing at all.  The next bus is taken from a place of those to come: 0 numbers the buses
    level by level, −1 arm by arm."""
    draft = Draft(Random("tree"), 20000, 6)
    draft.feeder(500000, 10)
    todo = [(0, 1, child) for child in range(3)]
    while todo:
        parent, level, child = todo.pop(place)
        if (parent + child) % 3 == 2:
            bus = draft.transformer(parent, (400, 690, 10000)[child], None, 1000 + 9 * parent, 6000, 800)
        else:
            bus = draft.line(parent, 90, 280 + level, 150 + 13 * parent + child, 1)
        todo += [(bus, level + 1, n) for n in range(3)] if level < 4 else []
    for bus in range(1, len(draft.buses), 11):
        draft.generator(bus, None, 300 + bus, 16000, 8, 85)
        draft.converter(bus, 20 * bus, 130)
        draft.converter(bus - 1, 11 * bus, 110)
    return draft


def two_children():
    """Bus 0 has two children, each two of its own, all impedances and machines apart: what a bus
    gets from its parent is without its own part, and with that of the other child."""
    draft = Draft(Random("children"), 10000, 6)
    draft.feeder(50000, 10)
    for parent, metres in ((0, 900), (0, 1700), (1, 800), (2, 1300), (1, 2100), (2, 300)):
        draft.line(parent, 100, 350, metres, 1)
    for bus, kva in enumerate((3000, 7000, 4000, 11000, 2500, 6000), 1):
        draft.generator(bus, 10000, kva, 14000 + bus, 8, 85)
        draft.converter(bus, 300 * bus, 100 + bus)
    return draft


def steps_down():
    """Transformers from parent to child and back up in volts, rated ratios far from the nominal
    ones; converters at each end."""
    draft = Draft(Random("steps"), 20000, 10)
    draft.feeder(300000, 15)
    low = draft.transformer(0, 400, (18000, 440), 1600, 6000, 1000)
    high = draft.transformer(low, 110000, (360, 121000), 40000, 11000, 300)
    beside = draft.transformer(0, 6000, (22000, 5400), 25000, 9000, 400)
    draft.transformer(beside, 400, (6600, 360), 1000, 6000, 1000)
    for bus in range(5):
        draft.converter(bus, 1000 + 77 * bus, 101 + bus)
    draft.generator(high, 110000, 90000, 18000, 5, 85)
    draft.motor(beside, 6000, 900, 60, 20)
    return draft


def own_networks():
    return [
        ("star of 128 buses", star_with_converters()),
        ("chain of 18 branches", chain_with_converters()),
        ("tree numbered level by level", tree_with_converters(0)),
        ("tree numbered arm by arm", tree_with_converters(-1)),
        ("two children of two", two_children()),
        ("steps down and up", steps_down()),
    ]


def fixed_reports():
    """(name, Draft) of the networks asked by reports of many rooms in the fixed set; all others
    of the set get one report each."""
    found = own_networks() + worked_points() + converter_paths() + far_ends() + drawn_once()
    return found + units_together() + greatest_currents() + fixed_reactance_networks()[:2]


class Reporting(NamedTuple):
    """A network made and asked by calls; `text` is its file where it is read."""

    name: str
    calls: list
    text: bytes = None


def variants(rng, rows):
    """Names and rows: the network, without its converters and with further ones."""
    return [
        ("", rows),
        (", without converters", without_converters(rows)),
        (", with more converters", with_more_converters(rng, rows)),
    ]


def buses_of(rows):
    return sum(letter == "B" for letter, _ in rows)


def report_plans(name, draft):
    """A network of the fixed set in its three variants, each read: the first is asked with all
    rooms, the others with one number too few and just enough; then by queries and once more."""
    found = []
    for more, rows in variants(Random(name), draft.rows):
        text, buses = write_file(draft.tolerance, rows), buses_of(rows)
        enough = ROW * buses
        before = reports([enough - 1, enough] if more else rooms_beside(buses))
        calls = [("read", text), *before, *queries(buses), ("report", min(enough + 5, MOST_REPORT))]
        found.append(Reporting(f"report: {name}{more}", calls, text))
    return found


# Drawn


def drawn_draft(rng):
    """A network of any family, with power station units, or of low impedances."""
    way = rng.randrange(10)
    if way < 6:
        return any_network(rng)
    if way < 9:
        return with_units(rng)
    return "low_impedances", low_impedances(rng)


def any_room(rng, buses):
    enough = ROW * buses
    rooms = [enough, enough, enough - 1, enough + 1, enough + ROW, 0, ROW, MOST_REPORT]
    return min(rng.choice([*rooms, amount(rng, 0, MOST_REPORT)]), MOST_REPORT)


def call_between(rng, rows):
    """A call that leaves an open study as it is, as a rule: most of them reports."""
    way = rng.randrange(8)
    if way < 5:
        return ("report", any_room(rng, buses_of(rows)))
    if way < 6:
        return ("other", rng.choice(NO_CALLS))
    letter, numbers = rng.choice(rows)
    return ("bus" if letter == "B" else "source", wrong_record(rng, numbers))


def making(rng, tolerance, rows):
    """The network read, or added call by call with a few calls between."""
    found = [("start", tolerance)]
    if rng.random() < 0.4:
        return [*found, ("report", any_room(rng, buses_of(rows))), ("read", write_file(tolerance, rows))]
    for call in as_calls(some_filled(rng, rows)):
        if rng.random() < 4 / len(rows):
            found.append(call_between(rng, rows))
        found.append(call)
    return [*found, ("report", any_room(rng, buses_of(rows))), ("close",)]


def call_after(rng, buses, sources):
    """A call on the closed study that leaves it so."""
    return rng.choice([
        ("query", amount(rng, 0, BUSES + 6)),
        ("close",),
        ("bus", BASE[0][1]),
        any_breaking(rng, buses, sources),
        ("write", amount(rng, 0, MOST_ROOM)),
        ("other", rng.choice(NO_CALLS)),
        ("report", any_room(rng, buses)),
    ])


def drawn_asking(rng, rows):
    """Rooms just enough, one less, more, none and the most, among them a query of every bus and
    some other calls."""
    buses = buses_of(rows)
    enough, sources = ROW * buses, len(rows) - buses
    rooms = [enough - 1, 0, min(enough + amount(rng, 1, 99), MOST_REPORT), MOST_REPORT]
    rng.shuffle(rooms)
    found = [("report", enough), *queries(buses)]
    for room in rooms:
        found += [call_after(rng, buses, sources), ("report", room)]
    return found


def drawn_reports(name, rng):
    """The Reportings of a drawn network's three variants."""
    family, draft = drawn_draft(rng)
    found = []
    for more, rows in variants(rng, draft.rows):
        calls = making(rng, draft.tolerance, rows) + drawn_asking(rng, rows)
        found.append(Reporting(f"{name}, {family}{more}", calls))
    return found
