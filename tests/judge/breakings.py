"""Breaking currents (order 3): fixed lists of calls, and networks whose shares, q and
sums lie where a calculation goes wrong.

q of a generator at the queried bus itself is c·Un/(√3·X) over its rated
current, which is 1/xd at ρ 0 and power factor 1, whatever else is there; so xd
50 % makes it 2 to the last digit.  Of a unit it is, on the low side and with xT
beside xd, high/Un·Ur/low over xd + xT·(low/Ur)²·kVA/kVA of the transformer.
"""

from random import Random
from typing import NamedTuple

from accept import BUSES, DELAYS, SOURCES
from calls import LOW_VOLTAGE, MOST_TABLE, as_calls, queries, wrong_record
from exact import CONVERTER, GENERATOR, MOTOR, UNIT, Network, SourceRecord
from fixed import drawn_once, far_ends, greatest_currents, worked_points
from networks import Draft, amount, any_network, arm, random_tree
from refusals import BASE, GREATEST
from shares import LAST_TENTH, Shares
from texts import SMALL, TEXT
from unit_networks import FAR, add_units, units_drawn_once, units_together, with_units

NO_DELAYS = [0, 1, 2, 5, 19, 21, 25, 49, 51, 99, 101, 200, 249, 251, 500, 20000, GREATEST]


def breakings(buses, rooms, delays=DELAYS):
    """Each bus with each delay, the rooms in turn."""
    pairs = [(bus, delay) for bus in buses for delay in delays]
    return [("breaking", *pair, rooms[i % len(rooms)]) for i, pair in enumerate(pairs)]


def rooms_beside(sources):
    """Just enough, one more, some more, the most that is lent."""
    enough = 2 * sources
    return [enough, enough + 1, min(enough + 9, MOST_TABLE), MOST_TABLE]


def tries(buses, sources):
    """Each ground alone and in company with those tried after it, rooms on both sides of enough."""
    found = []
    for bus in (0, buses - 1, buses, GREATEST):
        for delay in (20, 250, 21, GREATEST):
            for room in (0, 1, 2 * sources - 1, 2 * sources, 2 * sources + 1, MOST_TABLE):
                found.append(("breaking", bus, delay, room))
    return found


# Fixed lists of calls


def broken_states():
    """Every company of grounds on an empty, an open and a closed study."""
    base = as_calls(BASE)
    every = tries(3, sum(letter == "P" for letter, _ in BASE))
    found = [("start", 10), *every]
    for call in base:
        found += [call, *every[::7]]
    found += [*every, ("close",), *every, *queries(3), *base, ("close",), *every]
    return found + [("start", 6), *every[::5], ("start", 7), *every[::5], ("close",), *every[::5]]


def broken_delays():
    """Numbers beside the four delays, with room and without, at a bus and at none."""
    found = [("start", 10), *as_calls(BASE), ("close",)]
    for delay in [*DELAYS, *NO_DELAYS]:
        found += [("breaking", bus, delay, room) for bus in (2, 3) for room in (9, 10, 13)]
    return found


def broken_between():
    """A breaking, refused or not, leaves the study as it was: queries and writes around it."""
    found = [("read", TEXT)]
    for call in breakings(range(3), [12, 3, 40]) + [("breaking", 0, 7, 40), ("breaking", 9, 20, 40)]:
        found += [call, ("query", call[1]), ("write", 400), ("other", "breaking,0,20")]
    found += [("close",), ("breaking", 0, 20, 40), ("read", SMALL + b"x"), ("breaking", 0, 20, 40)]
    return found + [("read", SMALL), *breakings([0, 1], [1, 2, 3])]


def broken_tolerances():
    """The same records at 6 and at 10, since c weighs the motor's share."""
    found = []
    for tolerance in (6, 10):
        found += [("start", tolerance), *as_calls(LOW_VOLTAGE), ("close",), *breakings([0], [4, 5])]
    return found


def broken_sources():
    """Tables for one source to the most, each enough, one too short and longer."""
    found = []
    for count in (1, 2, 3, 10, 63, 64, 65, 256, 257, SOURCES - 1, SOURCES):
        found += [("start", 6), *as_calls(BASE[:2])]
        for n in range(1, count):
            generator = (20000, 10 + n, 20000, n % 200, 70 + n % 31)
            records = (
                (CONVERTER, 0, n, 150, 0, 0, 0),
                (GENERATOR, 0, *generator),
                (UNIT, 0, *generator, 20000, 20000, 10 + n, 6000, n),
            )
            found.append(("source", records[n % 3]))
        rooms = [2 * count - 1, 2 * count, 2 * count + 1, MOST_TABLE]
        found += [("close",), *breakings([0], rooms)]
    return found


BROKEN = [broken_states, broken_delays, broken_between, broken_tolerances, broken_sources]


# Networks, by name


class Breaking(NamedTuple):
    """A network and the buses to be asked, each with all delays; None for every bus."""

    name: str
    draft: Draft
    buses: tuple = None


def made(name, volts, tolerance=6):
    return Breaking(name, Draft(Random(name), volts, tolerance))


def up_to_two():
    """q exactly 2, and next to it on both sides: at the bus, with ρ, behind a line, and behind a
    line and a transformer whose rated ratio is not the nominal one."""
    found = []
    for rho, xd in ((0, 50000), (75, 40000)):
        for beside in (-1, 0, 1):
            plan = made(f"q of 2 at rho {rho}, xd {xd + beside}", 10000)
            plan.draft.feeder(1000, 10)
            plan.draft.generator(0, 10000, 10**6, xd + beside, rho, 100)
            found.append(plan)
    for metres in (3299, 3300, 3301):
        plan = made(f"q of 2 behind {metres} m", 10000)
        plan.draft.feeder(1000, 0)
        plan.draft.line(0, 0, 1000, metres, 1)
        plan.draft.generator(1, 10000, 10000, 20000, 0, 100)
        plan.draft.motor(0, 10000, 100, 50, 0)
        found.append(plan)
    for x in (87779, 87780, 87781):
        plan = made(f"q of 2 behind a transformer and a line of x {x}", 10000, 10)
        plan.draft.feeder(1000, 0)
        plan.draft.line(0, 0, x, 4, 8)
        plan.draft.transformer(1, 400, (9600, 400), 10**6, 4000, 0)
        plan.draft.generator(2, 380, 800000, 12500, 0, 100)
        found.append(plan)
    return found


def unit_up_to_two():
    """The same of a unit, whose q is 2 on the low side: at the bus with volts as the nominal ones,
    with all four apart, with resistances of one angle, from a high side below the low one, behind
    a line, and behind a line and a transformer."""
    found = []
    for name, xd, machine, transformer in (
        ("at its bus", 40000, (10000, 10**6, 0), (10000, 20000, 10**6, 10000, 0)),
        ("of four volts", 50500, (6600, 10**6, 0), (6000, 22000, 10**6, 12100, 0)),
        ("at rho 75", 32000, (690, 10**6, 75), (690, 20000, 10**6, 10000, 6000)),
        ("of high below low", 40000, (400000, 10**6, 0), (400000, 20000, 10**6, 10000, 0)),
    ):
        rated, kva, rho = machine
        for beside in (-1, 0, 1):
            plan = made(f"q of 2, unit {name}, xd {xd + beside}", 20000)
            plan.draft.feeder(1000, 10)
            plan.draft.unit(0, (rated, kva, xd + beside, rho, 100), transformer)
            found.append(plan)
    for metres in (2199, 2200, 2201):
        plan = made(f"q of 2, unit behind {metres} m", 10000)
        plan.draft.feeder(1000, 0)
        plan.draft.line(0, 0, 1000, metres, 1)
        plan.draft.unit(1, (690, 10000, 20000, 0, 100), (690, 10000, 10000, 10000, 0))
        plan.draft.motor(0, 10000, 100, 50, 0)
        found.append(plan)
    for x in (87779, 87780, 87781):
        plan = made(f"q of 2, unit behind a transformer and a line of x {x}", 10000, 10)
        plan.draft.feeder(1000, 0)
        plan.draft.line(0, 0, x, 4, 8)
        plan.draft.transformer(1, 400, (9600, 400), 10**6, 4000, 0)
        plan.draft.unit(2, (6300, 800000, 10000, 0, 100), (6300, 380, 800000, 1875, 0))
        found.append(plan)
    return found


def unit_volts_and_sizes():
    """q of units well above 2, the volts of all four kinds and the kVA of both parts apart either
    way: one taken for another makes q another."""
    found = []
    for rated, kva, transformer_kva in ((5400, 10**6, 500000), (6600, 500000, 10**6)):
        plan = made(f"q of a unit of {rated} V and {kva} kVA", 20000)
        plan.draft.feeder(1000, 10)
        plan.draft.unit(0, (rated, kva, 16000, 5, 80), (6000, 22000, transformer_kva, 6000, 500))
        found.append(plan)
    return found


def unit_tenths():
    """Units of q at some tenths and just below, each alone at its bus.  On the high side q would
    be far above or far below, so that the factor taken there is found."""
    found = []
    for low in (100, 100000):
        plan = made(f"q of units by tenths, low side of {low} V", 1000)
        plan.draft.feeder(1000, 10)
        for tenths in range(20, LAST_TENTH + 1, 5):
            for step in (0, 1):
                machine = low, 10**6, 10**6 // tenths - 100 + step, 0, 100
                bus = plan.draft.line(0, *FAR)
                plan.draft.unit(bus, machine, (low, 1000, 10**6, 100, 0))
        found.append(plan)
    return found


def every_tenth(step):
    """Generators of q at each tenth from 2 on, `step` on xd beside it, each alone at a bus
    from which the others cannot be felt."""
    plan = made(f"q by tenths, xd {step:+}", 1000)
    plan.draft.feeder(1000, 10)
    steep = [1000, 1001, 2000, 5000, 8000, 9999]
    for xd in [10**6 // tenths + step for tenths in range(20, LAST_TENTH + 1)] + steep:
        bus = plan.draft.line(0, *FAR)
        plan.draft.generator(bus, 1000, 10**6, max(xd, 1000), 0, 100)
    return plan


def small_generators():
    """Hundreds of shares below 1 A, at one bus and over many."""
    found = []
    for volts, xd in ((20000, 40000), (20000, 60000), (420000, 10000)):
        plan = made(f"small generators, {volts} V, xd {xd}", volts)
        plan.draft.feeder(1000, 10)
        for _ in range(SOURCES - 1):
            plan.draft.generator(0, volts, 10, xd, 5, 80)
        found.append(plan)
    plan = made("small generators over many buses", 20000)._replace(buses=(0, 1, 127))
    plan.draft.feeder(1000, 10)
    for n in range(1, BUSES):
        plan.draft.line(0, 100, 300, 10 * n, 1)
        for kva in (10, 11, 25, 70):
            plan.draft.generator(n, 20000, kva, 12000 + n, 5, 80)
    plan.draft.any_sources(3, (MOTOR,), [1])
    return found + [plan]


def stations():
    """Generators behind four transformers, over two arms of 18 branches, rated ratios at their ends."""
    found = []
    for seed, (volts, rise) in enumerate(((420000, 110), (110000, 90), (20000, None), (400, 110))):
        plan = made(f"stations on {volts} V", volts)
        draft = plan.draft
        draft.feeder(10**6, 10)
        ends = []
        for _ in range(2):
            bus = 0
            for n in range(18):
                if n % 5 == 2:
                    low = (20000, 6000, 690, 100)[n // 5]
                    sides = (draft.buses[bus][1] * rise // 100, low * 9 // 10 + 1) if rise else None
                    bus = draft.transformer(bus, low, sides, 10**6, 6000, 500)
                else:
                    bus = draft.line(bus, 10, 10, 1 + n + seed, 8)
            draft.generator(bus, None, 10**5, 15000 + seed, 10, 85)
            draft.generator(bus, None, 10**4, 9000, 0, 100)
            draft.motor(bus, None, 100, 60, 42)
            draft.converter(bus, 500, 120)
            ends.append(bus)
        found.append(plan._replace(buses=(0, 9, *ends, ends[0] - 9)))
    return found


def far_and_weak():
    """The feeder at the queried bus, machines behind long lines: shares far below 1 A, and
    behind strong machines far below any number of 64 bits."""
    found = []
    for strong in (False, True):
        plan = made(f"far machines, {'strong' if strong else 'none'} between", 100)
        draft, ends = plan.draft, [0]
        draft.feeder(10**8, 0)
        for _ in range(2):
            bus = 0
            for n in range(18):
                bus = draft.line(bus, 100000, 100000, 200000, 1)
                if strong or n == 17:
                    draft.generator(bus, 100, 10**6 if strong else 10, 1000, n, 100)
            ends.append(bus)
        draft.motor(bus, 100, 1, 10, 200)
        found.append(plan._replace(buses=(*ends, 9)))
    return found


def mixed():
    """Machines of all kinds and converters at the same buses, and the worked networks."""
    base = Draft(Random("base"), 20000, 10)
    base.feeder(500000, 10)
    works = base.line(0, 100, 300, 1000, 2)
    board = base.transformer(works, 400, (19000, 420), 630, 6000, 1000)
    station = base.transformer(0, 690, (21000, 700), 25000, 8000, 300)
    for bus in (works, board, station):
        volts = base.buses[bus][1]
        for kva, xd in ((500, 15000), (500, 15000), (20000, 9000), (90, 70000)):
            base.generator(bus, volts, kva, xd, 10, 80)
            base.unit(bus, (6300, kva, xd, 10, 80), (6000, volts, kva, 9000, 400))
            base.motor(bus, volts, kva // 3, 55, 30)
            base.converter(bus, 3 * kva, 130)
    found = [Breaking("machines of all kinds", base)]
    return found + [Breaking(name, draft) for name, draft in worked_points()]


def some_buses(draft):
    """Every bus of a small network, and of a large one both ends and some between."""
    count = len(draft.buses)
    return tuple(range(count)) if count <= 6 else (0, 1, count // 2, count - 2, count - 1)


def others():
    """Two networks of each family, the longest way and the greatest currents of the fixed set, and
    its small networks with units."""
    drafts = drawn_once() + far_ends() + greatest_currents() + units_together() + units_drawn_once()
    return [Breaking(name, draft, some_buses(draft)) for name, draft in drafts]


def fixed_breakings():
    found = up_to_two() + unit_up_to_two() + unit_volts_and_sizes() + unit_tenths()
    found += mixed() + small_generators() + stations() + far_and_weak() + others()
    return found + [every_tenth(step) for step in (0, 1)]


def low_breakings():
    """Order 6: two xd next to each other, of a unit and of a generator behind a transformer, of which the
    first has q above 2 and the second below; with ux in thousandths both would be above."""
    found = []
    for ur, kva, of_unit, of_generator in ((99, 2000, 16352, 20599), (1, 3000, 20000, 21517)):
        for step in (0, 1):
            plan = made(f"q next to 2, unit of uR {ur}, xd {of_unit + step}", 10000)
            plan.draft.feeder(1000, 0)
            machine = 10000, 900000, of_unit + step, 0, 100
            plan.draft.unit(0, machine, (10000, 10000, kva, 100, ur))
            found.append(plan)
        for step in (0, 1):
            plan = made(f"q next to 2 behind a transformer of uR {ur}, xd {of_generator + step}", 10000, 10)
            plan.draft.feeder(1000, 0)
            plan.draft.transformer(0, 400, (10000, 400), kva, 100, ur)
            plan.draft.generator(1, 400, 900000, of_generator + step, 0, 100)
            found.append(plan)
    return found


def breaking_calls(plan):
    """The network read, then all that is asked of it."""
    draft = plan.draft
    buses = range(len(draft.buses)) if plan.buses is None else plan.buses
    return [("read", draft.file()), *breakings(buses, rooms_beside(draft.sources))]


# Drawn


def q_sign(tolerance, rows, place, bus, tenths):
    """Sign of the generator's q minus so many tenths, for a fault at the bus."""
    records = {letter: [numbers for kind, numbers in rows if kind == letter] for letter in "BP"}
    shares = Shares(Network(tolerance, records["B"], records["P"]))
    source = shares.network.sources.index(SourceRecord(*rows[place][1]))
    machine = sum(shares.network.is_machine(s) for s in shares.network.sources[:source])
    return -shares.at(bus)[machine].q_square.times(100, 1).compare(tenths**2)


def with_reactance(rows, place, xd):
    rows = list(rows)
    letter, numbers = rows[place]
    rows[place] = letter, (*numbers[:4], xd, *numbers[5:])
    return rows


def tuned(rng):
    """A small network, the xd of one generator or unit set so that its q lies next to 2 or to
    another tenth: the tolerance, and the rows on either side of that border where it has one."""
    draft = random_tree(rng, rng.randint(1, 6), rng.randint(1, 7))
    if rng.random() < 0.5:
        draft.generator(draft.any_bus(), None, amount(rng, 1000, 10**6))
    else:
        add_units(draft, rng.randint(1, 3))
    place, bus = len(draft.rows) - 1, draft.any_bus()
    tenths = rng.choice([20, 20, rng.randint(21, LAST_TENTH)])

    def above(xd):
        rows = with_reactance(draft.rows, place, xd)
        return q_sign(draft.tolerance, rows, place, bus, tenths) > 0

    low, high = 1000, 100000
    if not above(low) or above(high):
        return draft.tolerance, [draft.rows]
    while high - low > 1:
        middle = (low + high) // 2
        low, high = (middle, high) if above(middle) else (low, middle)
    return draft.tolerance, [with_reactance(draft.rows, place, xd) for xd in (low, high)]


def weak_or_strong(rng):
    """Two arms with generators strong or weak at any bus, so that shares are of all sizes."""
    draft = Draft(rng)
    draft.feeder()
    for _ in range(2):
        arm(draft, 0, rng.randint(1, 18), 0)
    draft.any_sources(rng.randint(1, 60), (GENERATOR, GENERATOR, GENERATOR, MOTOR))
    add_units(draft, rng.randrange(20))
    return draft


def crowded(rng):
    """Hundreds of generators alike, of a few amperes or far less."""
    draft = Draft(rng)
    draft.feeder(amount(rng, 1000, 10**6))
    bus = draft.branch(0)
    kva, xd = amount(rng, 10, 1000), amount(rng, 1000, 100000)
    for _ in range(rng.randint(100, SOURCES - 2)):
        draft.generator(bus, None, kva, xd)
    draft.any_sources(1)
    return draft


def drawn_rows(rng):
    """Tolerance and the rows of one network or two."""
    way = rng.randrange(12)
    if way < 4:
        return tuned(rng)
    if way < 6:
        draft = (weak_or_strong, crowded)[way - 4](rng)
    else:
        draft = (any_network if way < 9 else with_units)(rng)[1]
    return draft.tolerance, [draft.rows]


def any_delay(rng):
    return rng.choice([*DELAYS] * 8 + [rng.choice(NO_DELAYS), amount(rng, 0, GREATEST)])


def any_breaking(rng, buses, sources):
    enough = 2 * sources
    rooms = [enough, enough, enough + 1, enough - 1, 0, amount(rng, 0, MOST_TABLE)]
    bus = rng.randrange(buses) if rng.random() < 0.9 else amount(rng, buses, GREATEST)
    return ("breaking", bus, any_delay(rng), max(0, min(rng.choice(rooms), MOST_TABLE)))


def drawn_network(rng, tolerance, rows):
    """The network added call by call, asked in between and at its end."""
    count, buses, sources = len(rows), *(sum(r[0] == letter for r in rows) for letter in "BP")
    found = [("start", tolerance)]
    for call in as_calls(rows):
        if rng.random() < 2 / count:
            found.append(any_breaking(rng, buses, sources))
        if rng.random() < 2 / count:
            found.append((call[0], wrong_record(rng, call[1])))
        found.append(call)
    found += [any_breaking(rng, buses, sources), ("close",)]
    asked = range(buses) if buses <= 6 else rng.sample(range(buses), 5)
    found += breakings(asked, [rng.choice(rooms_beside(sources))])
    return found + [any_breaking(rng, buses, sources) for _ in range(6)]


def drawn_breakings(rng):
    tolerance, networks = drawn_rows(rng)
    return [call for rows in networks for call in drawn_network(rng, tolerance, rows)]
