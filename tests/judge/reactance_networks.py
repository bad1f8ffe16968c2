"""Networks whose transformers have a low uk (order 6), fixed and drawn.

By document 01 a reactance was rounded down to thousandths of a percent.  Of 100 and 1 they are 99,
and the millionths 99,994: nearly one percent of the impedance.  Of 112 and 111 they are 14, and the
millionths 14,933: a sixteenth of the reactance, and little of the impedance.  A feeder of 10⁸ kVA has
about the impedance of a transformer of 10⁵ kVA and uk 100, so that behind one both weigh, and the
currents at low voltage are so large that a millionth of a percent is many amperes.
"""

from itertools import count, islice
from random import Random

from exact import transformer_ux
from networks import Draft, amount
from unit_networks import FAR

# Sides of right-angled triangles, and a flat one: uk, uR and ux in proportion
WHOLE = (5, 3, 4), (5, 4, 3), (13, 5, 12), (13, 12, 5), (25, 7, 24), (25, 24, 7), (1, 0, 1)


# Drawn


def low_pair(rng):
    """uk from 100 to 300, and uR anywhere below it, often next to it or next to 0."""
    uk = amount(rng, 100, 300)
    near = uk - rng.randint(1, 6)
    return uk, rng.choice([uk - 1, near, near, rng.randint(1, 9), rng.randrange(uk), amount(rng, 0, uk - 1)])


def whole_pair(rng, least, most):
    """uk and uR whose ux is a whole number of thousandths from `least` to `most`, and that number."""
    uk, ur, ux = rng.choice(WHOLE)
    times = rng.randint(-(-least // ux), min(most // ux, 30000 // uk))
    return uk * times, ur * times, ux * times


def beside_reactance(rng):
    """uk and uR of any size, and an xd at their ux, or a thousandth of a percent beside it or less."""
    if rng.random() < 0.5:
        uk, ur, ux = whole_pair(rng, 1001, 8000)
        return uk, ur, ux + rng.choice([-1, 0, 0, 1])
    uk = amount(rng, 2000, 30000)
    ur = rng.randrange(uk * 3 // 4)
    return uk, ur, transformer_ux(uk, ur) // 1000 + rng.choice([0, 1])


def low_transformer(draft, parent):
    rng = draft.rng
    uk, ur = low_pair(rng) if rng.random() < 0.9 else whole_pair(rng, 100, 1000)[:2]
    draft.transformer(parent, None, None, rng.choice([10**4, 10**5, 10**6, None]), uk, ur)


def low_unit(draft, bus):
    """A unit whose transformer weighs as much as its generator, of a low uk or with xd at its ux."""
    rng = draft.rng
    if rng.random() < 0.3:
        uk, ur, xd = beside_reactance(rng)
    else:
        (uk, ur), xd = low_pair(rng), rng.choice([1000, None])
    sizes = rng.choice([(10**6, 10**5), (10**6, 10**4), (10**5, 10**4), (None, None)])
    draft.unit(bus, (None, sizes[0], xd, None, None), (None, None, sizes[1], uk, ur))


def low_impedances(rng):
    """Transformers of low impedance in a row and side by side behind a feeder, most often a strong
    one, with short lines between them and units."""
    draft = Draft(rng)
    draft.feeder(rng.choice([10**8, 10**8, 10**7, None]))
    for _ in range(rng.randrange(1, rng.choice([4, 10, 24]))):
        parent = rng.choice([len(draft.buses) - 1, draft.any_bus()])
        branches, crossed = draft.depth[parent]
        if crossed < 4 and rng.random() < 0.8:
            low_transformer(draft, parent)
        elif branches < 18:
            draft.line(parent, amount(rng, 1, 300), amount(rng, 0, 300), rng.randint(1, 9), 8)
    for _ in range(rng.randrange(4)):
        low_unit(draft, draft.any_bus())
    draft.any_sources(rng.randrange(3))
    return draft.mix()


# The fixed set


def worked_reactances():
    """Worked out by hand in the self-test: ux of 6,000 and 1,000 in a transformer, and in units with
    xd above it, next below and next above."""
    draft = Draft(Random("reactances"), 10000, 10)
    draft.feeder(10**8, 0)
    draft.transformer(0, 400, (10000, 400), 160, 6000, 1000)
    for xd in (20000, 5916, 5917):
        machine, transformer = (10000, 10**5, xd, 0, 80), (10000, 10000, 10**5, 6000, 1000)
        draft.unit(draft.line(0, *FAR), machine, transformer)
    return [("worked: reactances", draft)]


# uk and uR at the ends of their ranges, and next to them
ENDS = (100, 0), (100, 1), (100, 50), (100, 98), (100, 99), (30000, 0), (30000, 1), (30000, 29999)
# Between them: ux a whole number of thousandths, just below one, and such that much of it was lost
WHOLES = (500, 300), (250, 240), (101, 20), (296, 64), (300, 1), (112, 111)


def low_branches():
    """Ends and whole numbers, from bus 0 at 20 kV and at 400 V to buses of 100 V to 420 kV."""
    found = []
    for volts, tolerance in ((20000, 6), (400, 10)):
        draft = Draft(Random(volts), volts, tolerance)
        draft.feeder(10**8, 0)
        for i, (uk, ur) in enumerate(ENDS + WHOLES):
            for j, own in enumerate((100, 400, 20000, 420000)):
                draft.transformer(0, own, (volts, own), (10**5, 10**4, 10**6)[(i + j) % 3], uk, ur)
        found.append((f"low impedances from {volts} V", draft))
    return found


def low_stations():
    """The same of units, each alone at its bus, with xd low and high and, where ux is not below the least
    xd, at ux or next to it on both sides."""
    found = []
    for volts, tolerance in ((400, 6), (20000, 6), (420000, 10)):
        draft = Draft(Random(volts), volts, tolerance)
        draft.feeder(10**8, 0)
        for i, (uk, ur) in enumerate(ENDS + WHOLES):
            beside = -(-transformer_ux(uk, ur) // 1000)
            reactances = {1000, 50000, beside - 1, beside, beside + 1}
            for xd in sorted(xd for xd in reactances if xd >= 1000):
                machine = 10500, 10**6, xd, 20 * (i % 3), (70, 80, 100)[i % 3]
                transformer = 10000, volts, (10**5, 10**4)[i % 2], uk, ur
                draft.unit(draft.line(0, *FAR), machine, transformer)
        found.append((f"units of low impedance at {volts} V", draft))
    return found


def resistance(i, uk):
    """uR next to uk, near it, next to 0 and anywhere between."""
    return (uk - 1, uk - 1 - i % 11, 1 + i % 9, 37 * i % uk)[i % 4]


def each_low_uk():
    """uk from 101 to 300: of transformers side by side, and of units, some at each bus."""
    found = []
    for first in (101, 201):
        draft = Draft(Random(first), 20000, 6)
        draft.feeder(10**8, 0)
        for i in range(100):
            own, kva = (400, 20000, 110000)[i % 3], (10**5, 10**4)[i // 3 % 2]
            draft.transformer(0, own, (20000, own), kva, first + i, resistance(i, first + i))
        found.append((f"transformers of uk {first} up", draft))
    for first, volts in ((101, 400), (151, 20000), (201, 420000), (251, 690)):
        draft = Draft(Random(first), volts, 10)
        draft.feeder(10**8, 0)
        buses = [draft.line(0, *FAR) for _ in range(5)]
        for i in range(50):
            machine = 10000, 10**6, 1000 + 300 * i, 5 * (i % 4), 70 + i % 31
            transformer = 10500, volts, (10**5, 10**4)[i % 2], first + i, resistance(i, first + i)
            draft.unit(buses[i % 5], machine, transformer)
        found.append((f"units of uk {first} up", draft))
    return found


def low_in_a_row():
    """Four transformers of uk 100 and uR 99 from 420 kV down to 400 V, a unit of the same at the end,
    and the other way."""
    found = []
    for levels in ((420000, 110000, 20000, 6000, 400), (400, 6000, 20000, 110000, 420000)):
        draft = Draft(Random(levels[0]), levels[0], 6)
        draft.feeder(10**8, 10)
        for parent, volts in enumerate(levels[1:]):
            draft.transformer(parent, volts, (levels[parent], volts), 10**6, 100, 99)
        draft.unit(4, (10500, 10**6, 10000, 5, 80), (10000, levels[4], 10**5, 100, 99))
        found.append((f"low impedances in a row from {levels[0]} V", draft))
    return found


def low_drawn_once():
    """Two small ones from a fixed seed."""
    rng = Random(60909)
    drafts = (low_impedances(rng) for _ in count())
    small = (draft for draft in drafts if 5 <= len(draft.buses) <= 12 and draft.sources > 2)
    return [(f"low_impedances {n}", draft) for n, draft in enumerate(islice(small, 2), 1)]


def fixed_reactance_networks():
    """(name, Draft) of the fixed set's networks of low impedances."""
    found = worked_reactances() + low_branches() + low_stations() + each_low_uk()
    return found + low_in_a_row() + low_drawn_once()
