"""The fixed set of networks: worked points and sweeps over every table and factor.

None of it depends on a seed, so a fault that this set finds is always found.
"""

from random import Random

from accept import BUSES, SOURCES
from networks import FAMILIES, Draft, highest, lowest
from unit_networks import fixed_unit_networks


def worked_points():
    """The networks of document 01's worked points, with the slip about a further machine."""
    found = []

    def draft(name, volts, tolerance=6, ratings=(None, None)):
        found.append((name, Draft(Random(name), volts, tolerance, ratings=ratings)))
        return found[-1][1]

    alone = draft("worked: feeder 500,000 kVA", 20000)
    alone.feeder(500000, 10)
    two = draft("worked: two buses", 10000)
    two.feeder(100000, 0)
    two.line(0, 0, 1000, 1100, 1)
    two.generator(1, 10000, 10000, 20000, 0, 100)
    with_converter = draft(
        "worked: two buses and a converter, rating 7,898", 10000, ratings=(7898, 3000000)
    )
    with_converter.feeder(100000, 0)
    with_converter.line(0, 0, 1000, 1100, 1)
    with_converter.generator(1, 10000, 10000, 20000, 0, 100)
    with_converter.converter(1, 1000, 200)
    unit = draft("worked: document 000's generator unit", 20000, 10)
    unit.feeder(500000, 10)
    unit.transformer(0, 690, (20000, 690), 1000, 6000, 1000)
    unit.generator(1, 690, 950, 18000, 15, 90)
    for name, joins in (("10 + j10", False), ("12.5 + j7.5", True)):
        slip = draft(f"worked: {name} behind a line of 10 ohms", 10000)
        slip.feeder(11000, 0)
        slip.line(0, 100000, 0, 100, 1)
        if joins:
            slip.generator(0, 10000, 11000, 100000, 200, 100)
    return found


def table_steps():
    """R/X just below, at and just above each step of the peak table, and far above it.

    At 10,000 V a feeder of 27,500,000 kVA has X = 4,000 micro-ohms; eight
    circuits of one metre without reactance and r = 320·i make R/X = i/100.
    """
    resistances = []
    for i in range(0, 232):
        resistances += [r for r in (320 * i - 1, 320 * i, 320 * i + 1) if r > 0]
    resistances += [320 * i for i in (235, 240, 250, 270, 300, 312)]
    found = []
    for start in range(0, len(resistances), BUSES - 1):
        draft = Draft(Random(start), 10000, 6)
        draft.feeder(27500000, 0)
        for r in resistances[start : start + BUSES - 1]:
            draft.line(0, r, 0, 1, 8)
        found.append((f"R/X from {resistances[start]}/32,000", draft))
    steep = Draft(Random("steep"), 10000, 6)
    steep.feeder(27500000, 0)
    for metres in (1, 2, 3, 5, 10, 100, 1000, 10000, 100000, 200000):
        for circuits in (1, 8):
            steep.line(0, 100000, 0, metres, circuits)
    found.append(("R/X far above 2.3", steep))
    return found


def rho_sweeps():
    """Every ρ of a feeder alone, and of motors and generators that outweigh the feeder."""
    found = []
    for rho in range(201):
        draft = Draft(Random(rho), 100 + rho, 6 + 4 * (rho % 2))
        draft.feeder(10**8 - rho, rho)
        found.append((f"feeder of rho {rho}", draft))
    for start in range(0, 201, BUSES - 1):
        for machine in ("motor", "generator"):
            draft = Draft(Random(start), 1000, 6)
            draft.feeder(1000, 0)
            for rho in range(start, min(start + BUSES - 1, 201)):
                bus = draft.line(0, 100000, 100000, 200000, 1)
                if machine == "motor":
                    draft.motor(bus, 900 + rho, 100000, 10 + rho % 91, rho)
                else:
                    draft.generator(bus, 900 + rho, 10**6, 100000 - rho, rho, 70 + rho % 31)
            found.append((f"{machine}s of rho {start} up", draft))
    return found


def power_factors():
    """Every power factor at xd 100 %, where the sine weighs most."""
    draft = Draft(Random(0), 100, 10)
    draft.feeder(1000, 0)
    for power_factor in range(70, 101):
        bus = draft.line(0, 100000, 100000, 200000, 1)
        draft.generator(bus, 100, 10**6, 100000, 0, power_factor)
    return [("generators of every power factor", draft)]


def transformers():
    """uk and uR over their ranges, and nominal volts on both sides of 1,000."""
    rng = Random(7)
    found = []
    all_uk = (100, 101, 150, 1000, 6000, 12345, 29999, 30000, 30000)
    all_volts = (100, 400, 999, 1000, 1001, 20000, 420000)
    for tolerance in (6, 10):
        draft = Draft(rng, 20000, tolerance)
        draft.feeder(10**8, 10)
        for i in range(len(all_uk) * len(all_volts)):
            uk = all_uk[i % len(all_uk)]
            ur = (0, 1, uk - 1, uk - 2, uk // 2, uk // 3, 7 * uk // 8)[i % 7]
            volts = all_volts[i // len(all_uk)]
            draft.transformer(0, volts, None, (10**6, 10, 630)[i % 3], uk, ur)
        draft.any_sources(40)
        found.append((f"transformers at tolerance {tolerance}", draft))
    return found


def voltage_borders():
    """c by 1,000 V at the bus, and by the lower of a transformer's two voltages."""
    found = []
    for tolerance in (6, 10):
        for upper in (999, 1000, 1001):
            draft = Draft(Random(upper), upper, tolerance)
            draft.feeder(10**6, 42)
            for lower in (999, 1000, 1001):
                bus = draft.transformer(0, lower, None, 10**5, 6000, 3000)
                draft.generator(bus, lower, 10**4, 18000, 15, 85)
                draft.motor(bus, lower, 10**3, 55, 30)
            found.append((f"c at {upper} V and tolerance {tolerance}", draft))
    return found


def converter_paths():
    """Converters over transformers whose rated ratios differ from the nominal ones."""
    draft = Draft(Random(11), 110000, 10)
    draft.feeder(10**6, 10)
    first = draft.transformer(0, 20000, (99000, 22000), 40000, 12000, 400)
    second = draft.transformer(first, 400, (18000, 440), 630, 6000, 1000)
    third = draft.transformer(0, 10000, (121000, 9000), 25000, 11000, 300)
    fourth = draft.line(third, 120, 350, 4000, 2)
    for bus, tenths, k in ((0, 7, 101), (second, 100000, 300), (third, 12345, 117)):
        draft.converter(bus, tenths, k)
    draft.converter(fourth, 1, 100)
    draft.converter(second, 99999, 299)
    return [("converters over four voltages", draft)]


def far_ends():
    """Two arms of 18 short lines: the one machine of weight stands 36 branches from the end of the other arm."""
    draft = Draft(Random(36), 10000, 6)
    draft.feeder(1000, 0)
    for _ in range(2):
        bus = 0
        for _ in range(18):
            bus = draft.line(bus, 10, 10, 1, 8)
    draft.generator(bus, 10000, 10**6, 1000, 0, 100)
    draft.converter(bus, 100000, 300)
    return [("36 branches from arm to arm", draft)]


def ends_together():
    """All fields at their lowest, all at their highest."""
    found = []
    for name, draw in (("lowest", lowest), ("highest", highest)):
        for tolerance in (6, 10):
            draft = Draft(Random(3), None, tolerance, draw)
            draft.feeder()
            bus = draft.line(draft.transformer(0))
            draft.generator(bus)
            draft.motor(bus)
            draft.converter(bus)
            draft.any_sources(SOURCES - 4)
            found.append((f"all fields {name}, tolerance {tolerance}", draft))
    return found


def drawn_once():
    """Two of each family from a fixed seed."""
    rng = Random(60909)
    return [(f"{family.__name__} {n}", family(rng)) for family in FAMILIES for n in (1, 2)]


def greatest_currents():
    """A feeder and generators up to the limit, each at its strongest: currents above 32 bits."""
    draft = Draft(Random(32), 100, 10)
    draft.feeder(10**8, 0)
    for _ in range(SOURCES - 1):
        draft.generator(0, 100, 10**6, 1000, 0, 100)
    return [("currents of more than 32 bits", draft)]


def fixed_networks():
    """(name, Draft) of the whole fixed set."""
    return (
        worked_points()
        + table_steps()
        + rho_sweeps()
        + power_factors()
        + transformers()
        + voltage_borders()
        + converter_paths()
        + far_ends()
        + ends_together()
        + drawn_once()
        + greatest_currents()
        + fixed_unit_networks()
    )
