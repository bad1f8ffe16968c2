"""Networks with power station units (order 5), fixed and drawn.

At ρ 0, power factor 1 and rated volts as the nominal ones a unit has
c·Un²/(1,000·kVA)·(xd + xT·kVA/kVA of the transformer), whatever its low volts.
"""

from itertools import count, islice
from random import Random

from accept import SOURCES
from exact import transformer_ux
from networks import TYPICAL_VOLTS, Draft, any_network, end_of_range, highest, lowest, rated_ends
from refusals import filled

# Impedances of a line behind which the feeder is not felt: r and x per metre, metres, circuits
FAR = 100000, 100000, 200000, 1


# Drawn


def any_unit(draft, bus):
    """A unit whose fields meet: xd next to ux or a thousandth farther, volts of both sides alike,
    kVA far apart."""
    rng = draft.rng
    uk = 100 if rng.random() < 0.2 else draft.one_of(100, 30000)
    ur = uk - 1 if rng.random() < 0.2 else draft.one_of(0, uk - 1)
    beside = transformer_ux(uk, ur) // 1000 + rng.choice([-1, 0, 1])
    xd = beside if beside >= 1000 and rng.random() < 0.4 else None
    kva, transformer_kva = rng.choice([(None, None)] * 4 + [(10, 10**6), (10**6, 10), (5000, 5000)])
    high = draft.one_of(*rated_ends(draft.buses[bus][1]))
    low = rng.choice([high, None, None, rng.choice(TYPICAL_VOLTS)])
    draft.unit(bus, (None, kva, xd, None, None), (low, high, transformer_kva, uk, ur))


def add_units(draft, most):
    """So many units at any bus, as far as there is space."""
    for _ in range(min(most, SOURCES - draft.sources)):
        any_unit(draft, draft.any_bus())


def some_filled(rng, rows):
    """Some of the rows of seven numbers given as twelve."""
    found = []
    for letter, numbers in rows:
        fill = letter == "P" and rng.random() < 0.3
        found.append((letter, filled(numbers) if fill else numbers))
    return found


def among_others(rng):
    """Units at any bus of a network of any family that has space for them."""
    draft = any_network(rng)[1]
    while draft.sources == SOURCES:
        draft = any_network(rng)[1]
    add_units(draft, rng.choice([1, 1, 2, 3, 8, 40]))
    draft.mix()
    return draft


def units_alone(rng):
    """A weak feeder and nothing but units and converters."""
    draft = Draft(rng)
    draft.feeder(1000)
    for _ in range(rng.randrange(12)):
        parent = draft.any_bus()
        if draft.depth[parent][0] < 18:
            draft.branch(parent)
    add_units(draft, rng.randrange(1, 12))
    for _ in range(rng.randrange(3)):
        draft.converter(draft.any_bus())
    return draft.mix()


def units_at_ends(rng):
    """Every field at one of its ends."""
    draft = Draft(rng, draw=rng.choice([end_of_range, end_of_range, lowest, highest]))
    draft.feeder()
    for _ in range(rng.randrange(4)):
        draft.branch(draft.any_bus())
    for _ in range(rng.randrange(1, 8)):
        draft.unit(draft.any_bus())
    return draft.mix()


UNIT_FAMILIES = [among_others, units_alone, units_at_ends]


def with_units(rng):
    """A family's name and a Draft of it."""
    family = rng.choices(UNIT_FAMILIES, [3, 1, 1])[0]
    draft = family(rng)
    draft.rows = some_filled(rng, draft.rows)
    return family.__name__, draft


# The fixed set


def worked_unit():
    """Worked out by hand in the self-test: xT below xd and above it, and with resistances."""
    draft = Draft(Random("unit"), 100000, 6)
    draft.feeder(1000, 0)
    for rated, xd, rho, uk, ur in WORKED:
        machine, transformer = (rated, 100000, xd, rho, 80), (10000, 110000, 121000, uk, ur)
        draft.unit(draft.line(0, *FAR), machine, transformer)
    return [("worked: units", draft)]


WORKED = (10000, 20000, 0, 10000, 0), (10000, 10000, 0, 20000, 0), (10500, 20000, 50, 10000, 6000)

# xd, uk and uR: xd below ux, at it, next to it and above it.  xd is in thousandths of a percent and
# ux in millionths: of 6,000 and 1,000 it is 5,916,079, between two numbers that xd can have; of
# 10,000 and 6,000 it is 8,000,000, and xd can be at it.
REACTANCES = [
    (1000, 30000, 0),
    (5916, 6000, 1000),
    (5915, 6000, 1000),
    (5917, 6000, 1000),
    (100000, 100, 99),
    (100000, 30000, 29999),
    (30000, 30000, 0),
    (1000, 100, 99),
    (8000, 10000, 6000),
    (20000, 12000, 500),
    (2000, 20000, 400),
    (7999, 10000, 6000),
    (8001, 10000, 6000),
]
# Low volts, and the generator's at 9/10, at 11/10 or between
LOW_SIDES = [(90, 81), (690, 759), (10500, 11000), (462000, 508200), (462000, 415800), (1000, 1001)]
KVA = [(10**6, 10**6), (10**6, 10), (10, 10**6), (40000, 63000)]


def each_relation():
    """Units alone at their buses: xd and ux, volts, kVA and power factors against each other."""
    found = []
    for volts, tolerance in ((100, 10), (1000, 6), (20000, 6), (420000, 10)):
        draft = Draft(Random(volts), volts, tolerance)
        draft.feeder(1000, 0)
        highs = [*rated_ends(volts), volts]
        for i in range(len(REACTANCES) * len(KVA)):
            xd, uk, ur = REACTANCES[i % len(REACTANCES)]
            kva, transformer_kva = KVA[i % len(KVA)]
            low, rated = LOW_SIDES[i // 2 % len(LOW_SIDES)]
            machine = rated, kva, xd, 50 * (i % 5), (70, 100, 80)[i % 3]
            transformer = low, highs[i // 3 % 3], transformer_kva, uk, ur
            draft.unit(draft.line(0, *FAR), machine, transformer)
        found.append((f"units of each relation at {volts} V", draft))
    return found


def nominal_borders():
    """c goes by the unit's bus: 999 to 1,001 V, the low side on both sides of 1,000 V."""
    found = []
    for tolerance in (6, 10):
        draft = Draft(Random(tolerance), 10000, tolerance)
        draft.feeder(1000, 0)
        for volts in (999, 1000, 1001, 10000):
            for low in (400, 1000, 1001, 10500):
                bus = draft.transformer(0, volts, (10000, volts), 10, 30000, 0)
                draft.unit(bus, (low, 10000, 18000, 10, 80), (low, volts, 12500, 8000, 400))
        found.append((f"units at 999 to 1,001 V, tolerance {tolerance}", draft))
    return found


def units_together():
    """All fields of units at their lowest, all at their highest, and units beside all other kinds."""
    found = []
    for name, draw in (("lowest", lowest), ("highest", highest)):
        draft = Draft(Random(5), None, 6, draw)
        draft.feeder()
        for bus in (0, draft.transformer(0)):
            for _ in range(3):
                draft.unit(bus)
        found.append((f"units with all fields {name}", draft))
    beside = Draft(Random("beside"), 20000, 6)
    beside.feeder(100000, 10)
    beside.line(beside.transformer(0, 6000, (19000, 6300), 25000, 9000, 300), 80, 110, 700, 1)
    for bus in range(3):
        beside.unit(bus, (10500, 31000, 16000, 5, 85), (10000, None, 31500, 11000, 350))
        beside.generator(bus, None, 3000, 14000, 7, 80)
        beside.motor(bus, None, 900, 55, 30)
        beside.converter(bus, 700, 120)
    found.append(("units beside all other kinds", beside))
    return found


def units_drawn_once():
    """Two small ones of each family from a fixed seed."""
    rng = Random(60909)
    found = []
    for family in UNIT_FAMILIES:
        drafts = (family(rng) for _ in count())
        small = (draft for draft in drafts if len(draft.buses) <= 20 and draft.sources <= 30)
        found += [(f"{family.__name__} {n}", draft) for n, draft in enumerate(islice(small, 2), 1)]
    return found


def fixed_unit_networks():
    """(name, Draft) of the fixed set's networks with units."""
    return worked_unit() + each_relation() + nominal_borders() + units_together() + units_drawn_once()
