"""Tests of the judge itself.

Document 01's worked points, the sweeps against the plain definitions, the
acceptance rules against meant numbers and against those of the edition before,
a study's text against one typed by hand, and planted faults that the fixed set
has to find; the same for breaking currents, for reports and for lists that
change the sources.  Nothing of the product is run.
"""

import sys
import time
from collections import Counter
from fractions import Fraction
from math import factorial, isqrt
from random import Random

from accept import BUSES_BEFORE, DELAYS, NO_PLACE, ROW, SOURCES, SOURCES_BEFORE
from accept import Study, StudyBefore, first_true
from breaking import BreakingJudge
from breaking_faults import BREAKING_FAULTS
from breakings import BROKEN, drawn_breakings, every_tenth, fixed_breakings, low_breakings, tuned
from calls import MOST_REPORT, TABLE_FILL, as_calls, carried_out, drawn_calls, line_of
from cases import OF_PLAIN_LIST, Unit, breaking_case, breaking_units, change_unit, drawn_unit
from cases import fixed_units, reactance_units, report_cases, report_units, run_unit
from change_faults import CHANGE_FAULTS
from changes import CHANGED, converter, drawn_course
from check import Checker
from confirm import Printed, confirmed
from exact import CONVERTER, GENERATOR, TRANSFORMER, UNIT
from exact import Network, SourceRecord, f_millionths, peak_thousandths, series, sine, transformer_ux
from faults import FAULTS
from fixed import fixed_networks, table_steps, worked_points
from judge import Amperes, Bench, peak_reasons, verdict
from networks import FAMILIES, any_network, crowd, full_tree, random_tree, rated_ends
from networks import without_converters, write_file
from plain import PlainNetwork, table_factor
from plain import ux as plain_ux
from plain_list import told_from_plain_list
from reactance_faults import REACTANCE_BREAKING_FAULTS, REACTANCE_FAULTS, ThousandthsAgain
from reactance_networks import fixed_reactance_networks, low_impedances
from reference import InProcess, StandIn
from refusals import BASE, GREATEST, chain_rows, filled, lone_bus, near_misses
from report_faults import REPORT_FAULTS
from reports import REPORTED, drawn_reports, fixed_reports, report_plans
from run import Commands
from shares import TABLES, RootSum, Shares, Square, compare_roots
from texts import meant_texts, spoil
from unit_faults import UNIT_BREAKING_FAULTS, UNIT_FAULTS
from unit_networks import UNIT_FAMILIES, fixed_unit_networks, with_units
from writes import KEEPS, WRITTEN, back_calls, first_calls, fixed_writings, longest_rows
from writes import study_after, text_of, told_apart

BENCH = Bench()
GENERATORS = GENERATOR, UNIT


class Tests:
    def __init__(self):
        self.passed = self.failed = 0

    def same(self, name, given, due):
        if given == due:
            self.passed += 1
        else:
            self.failed += 1
            print(f"FAILED {name}: {given!r} where {due!r} is due")

    def true(self, name, given):
        self.same(name, bool(given), True)


def study_of(draft):
    number, row, study = Study().read(draft.file())
    assert (number, row) == (0, 0), (number, row)
    return study


def worked_factors(tests):
    for power_factor, due in ((100, 0), (90, 4359), (80, 6000), (70, 7142)):
        tests.same(f"sine at {power_factor}", sine(power_factor), due)
    tests.same("ux", transformer_ux(6000, 1000), 5916079)
    for rho, due in ((0, 1000000), (10, 995037), (42, 921982)):
        tests.same(f"f({rho})", f_millionths(rho), due)
    for i, due in ((0, 2000), (1, 1972), (10, 1747), (42, 1298), (229, 1022), (230, 1021)):
        tests.same(f"K({i})", peak_thousandths(i), due)
    tests.true("T(1) below e", series(1) < Fraction("2.71828182845904523536028747135267"))
    tests.true("T(1) near e", series(1) > Fraction("2.718281828459045235360287"))


def worked_networks(tests):
    networks = {name: study_of(draft) for name, draft in fixed_networks()[:6]}
    names = list(networks)
    alone = networks[names[0]]
    machines = BENCH.judges(alone.network())[0].machines
    tests.same("feeder alone", (machines.floor(), machines.ceiling()), (14433, 14434))
    for peak, right in ((35640, False), (35641, True), (36356, True), (36357, False)):
        tests.same(f"feeder's peak {peak}", not peak_reasons("", peak, machines), right)
    plain = PlainNetwork(6, networks[names[1]].buses, networks[names[1]].sources)
    seen = [plain.seen(b).inverse() for b in (0, 1)]
    dues = [(0, Fraction(825, 1000)), (0, Fraction(11, 10))]
    tests.same("Z of two buses", [(z.re, z.im) for z in seen], dues)
    judge = BENCH.judges(networks[names[1]].network())[0]
    tests.same("I at bus 0", (judge.machines.floor(), judge.machines.ceiling()), (7698, 7699))
    study = networks[names[2]]
    judge = BENCH.judges(study.network())[0]
    tests.same("converter at bus 0", judge.converters.part, 200)
    amperes = Amperes(7698, 7699, 200, 200, 0, 0)
    tests.same("rating 7,898", verdict(amperes, study.buses[0]), ("C", 0))
    unit = networks[names[3]]
    plain = PlainNetwork(10, unit.buses, unit.sources)
    behind = plain.seen(1, 0).inverse() + plain.branch(1)
    z = behind.times(plain.ratio(1, 0) ** 2)
    for name, given, near in (("R", z.re, "15.63"), ("X", z.im, "101.18")):
        tests.true(f"generator unit {name}", abs(given - Fraction(near)) < Fraction(1, 100))
    for name, r, x in ((names[4], 10, 10), (names[5], Fraction(25, 2), Fraction(15, 2))):
        plain = PlainNetwork(6, networks[name].buses, networks[name].sources)
        z = plain.seen(1).inverse()
        tests.same(name, (z.re, z.im), (r, x))
    currents = [BENCH.judges(networks[name].network())[1].machines for name in names[4:6]]
    tests.true("a further machine lowers the current", currents[1].ceiling() < currents[0].floor())


def worked_units(tests):
    """Order 5 by hand.  t² is 121 and K_S·(1 + |xd − xT|·0.6) is 100·1.1/121, or 10/11; Z_G is
    0.2, 0.1 and 0.1 + j0.2 Ω, the last times 1.05², which K_S takes off again from all."""
    name, draft = fixed_unit_networks()[0]
    study = study_of(draft)
    plain = PlainNetwork(6, study.buses, study.sources)
    first = Fraction(10, 11) / Fraction("1.06")
    third = Fraction(10, 11) / Fraction("1.072")
    own = third / Fraction("1.1025")
    for place, r, x in (
        (1, 0, first * Fraction("34.2")),
        (2, 0, first * Fraction("32.1")),
        (3, third * Fraction("12.1") + own * 6, third * Fraction("24.2") + own * 8),
    ):
        source = study.sources[place]
        a, b, d = study.network().machine(source)
        tests.same(f"{name}: Z of source {place}", (Fraction(a, d), Fraction(b, d)), (r, x))
        z = plain.machine(source)
        tests.same(f"{name}: plain Z of source {place}", (z.re, z.im), (r, x))


def worked_reactances(tests):
    """Order 6 by hand.  Of 6,000 and 1,000 w/10⁸ is 0.05916079.  The transformer has 400² V² over
    160 kVA, or 1 Ω, and 0.95·1.1 in K_T; the units have 1 Ω on both sides, and K_S is 1.1 over
    1 + |xd − 0.05916079|·0.6."""
    name, draft = fixed_reactance_networks()[0]
    study = study_of(draft)
    plain = PlainNetwork(10, study.buses, study.sources)
    k_t = Fraction("1.045") / Fraction("1.035496474")
    cases = [("transformer", study.network().branch(1), plain.branch(1), k_t, 0)]
    units = (1, "0.2", "0.14083921"), (2, "0.05916", "0.00000079"), (3, "0.05917", "0.00000921")
    for place, xd, apart in units:
        source = study.sources[place]
        k_s = Fraction("1.1") / (1 + Fraction(apart) * Fraction("0.6"))
        machine = study.network().machine(source), plain.machine(source)
        cases.append((f"source {place}", *machine, k_s, Fraction(xd)))
    for what, (a, b, d), z, k, xd in cases:
        due = k * Fraction("0.01"), k * (xd + Fraction("0.05916079"))
        tests.same(f"{name}: Z of {what}", (Fraction(a, d), Fraction(b, d)), due)
        tests.same(f"{name}: plain Z of {what}", (z.re, z.im), due)


def many_reactances(tests):
    """The root by its own words and by the plain rule, and that document 01's is its thousandths."""
    wrong = []
    for uk in [*range(100, 301), *range(500, 30001, 500), 12345, 29999]:
        for ur in {0, 1, uk // 3, 3 * uk // 5, 7 * uk // 8, uk - 2, uk - 1, *range(uk - 1)[::997]}:
            square, w = uk * uk - ur * ur, transformer_ux(uk, ur)
            right = w * w <= square * 10**6 < (w + 1) ** 2
            if not right or plain_ux(uk, ur) != Fraction(w, 10**8) or w // 1000 != isqrt(square):
                wrong.append((uk, ur))
    tests.same("reactances", wrong, [])


def rows_of_seven(tests, count=60):
    """A row of seven numbers is read as if filled with zeros."""
    for n in range(count):
        draft = any_network(Random(f"seven {n}"))[1]
        study = study_of(draft)
        draft.rows = [(letter, filled(row) if letter == "P" else row) for letter, row in draft.rows]
        tests.same(f"network {n} in rows of twelve", vars(study_of(draft)), vars(study))
        rows = study.text().split(b"\r\n")
        commas = {row[:1]: {other.count(b",") for other in rows if other[:1] == row[:1]} for row in rows}
        tests.same(f"network {n} written", (commas[b"B"], commas[b"P"]), ({10}, {12}))


def worked_grounds(tests):
    head = Study()
    for letter, numbers in lone_bus(20000):
        head = (head.add_bus if letter == "B" else head.add_source)(numbers)[1]
    for rated, due in ((18000, 0), (22000, 0), (17999, 7), (22001, 7)):
        record = (0, 20000, 2, rated, 20000, 630, 6000, 1000, 1, 1)
        tests.same(f"rated {rated} V", head.add_bus(record)[0], due)
    numbers, study = [], Study()
    for letter, record in chain_rows(0, 19):
        number, study = (study.add_bus if letter == "B" else study.add_source)(record)
        numbers.append(number)
    tests.same("depth 18 and 19", (any(numbers[:-1]), numbers[-1]), (False, 8))
    full_tables(tests, study)


def full_tables(tests, study):
    """Order 2's limits in its own numbers, whatever the acceptance rules call them."""
    bus, source = (0, 20000, 1, 1, 1, 1, 1, 0, 1, 1), (4, 0, 1, 100, 0, 0, 0)
    while len(study.buses) < 64:
        study = study.add_bus(bus)[1]
    while len(study.sources) < 256:
        study = study.add_source(source)[1]
    buses = sources = study
    numbers = []
    for _ in range(65):
        number, buses = buses.add_bus(bus)
        numbers.append(number)
    tests.same("the 65th to the 128th bus and the 129th", numbers, [0] * 64 + [23])
    numbers = []
    for _ in range(257):
        number, sources = sources.add_source(source)
        numbers.append(number)
    tests.same("the 257th to the 512th source and the 513th", numbers, [0] * 256 + [24])


def small_networks(count):
    """Small networks of the fixed set, drawn ones without units and with them, and of low impedances."""
    drafts = [("fixed", draft) for _, draft in fixed_networks() if len(draft.buses) <= 4][:20]
    fixed = fixed_unit_networks() + fixed_reactance_networks()
    drafts += [(name, draft) for name, draft in fixed if len(draft.buses) <= 8 and draft.sources <= 30]
    for n in range(count // 3):
        drafts.append((f"units {n}", small_with_units(Random(f"units {n}"))))
        drafts.append((f"low impedances {n}", small_low(Random(f"low {n}"))))
    for n in range(count):
        rng = Random(n)
        name, draft = any_network(rng)
        if len(draft.buses) > 9 or draft.sources > 12:
            name, draft = "random_tree", random_tree(rng, rng.randint(2, 8), rng.randint(1, 9))
        drafts.append((f"{name} {n}", draft))
    return drafts


def small_with_units(rng):
    draft = with_units(rng)[1]
    while len(draft.buses) > 7 or draft.sources > 9:
        draft = with_units(rng)[1]
    return draft


def small_low(rng):
    draft = low_impedances(rng)
    while len(draft.buses) > 6 or draft.sources > 6:
        draft = low_impedances(rng)
    return draft


def against_plain(tests, count=60):
    """Sweeps and gathered formulas against fractions and recursion."""
    for name, draft in small_networks(count):
        study = study_of(draft)
        plain = PlainNetwork(study.tolerance, study.buses, study.sources)
        for b, judge in enumerate(BENCH.judges(study.network())):
            values = judge.machines.values
            square = Fraction(values.square_top, values.square_bottom)
            tests.same(f"{name}: I squared at {b}", square, plain.current_square(b))
            z = plain.seen(b).inverse()
            tests.same(f"{name}: R/X at {b}", Fraction(values.r, values.x), z.re / z.im)
            tests.same(f"{name}: converters at {b}", judge.converters.part, plain.converters(b))
            peak = plain.peak_square(b)
            beside = Fraction(1, 10**150)
            signs = [
                judge.machines.compare_peak(square.numerator, square.denominator)
                for square in (peak - beside, peak, peak + beside)
            ]
            tests.same(f"{name}: peak squared at {b}", signs, [-1, 0, 1])


def against_floats(tests):
    """Large networks against the plain recursion in floating point, some buses of each."""
    families = [*FAMILIES, *UNIT_FAMILIES, low_impedances]
    for n, family in enumerate(family for family in families for _ in range(3)):
        study = study_of(family(Random(n)))
        plain = PlainNetwork(study.tolerance, study.buses, study.sources)
        judges = BENCH.judges(study.network())
        for b in {0, len(judges) // 2, len(judges) - 1}:
            values = judges[b].machines.values
            square = Fraction(values.square_top, values.square_bottom)
            volts = study.buses[b].volts
            near = (float(plain.c(volts)) * volts * abs(plain.seen_nearly(b))) ** 2 / 3
            name = f"{family.__name__} {n}: I squared at {b} in floating point"
            tests.true(name, abs(float(square) / near - 1) < 1e-9)


def meant_numbers(tests):
    for meant in near_misses() + meant_texts():
        number, row, study = Study().read(meant.text)
        tests.same(meant.name, (number, row), (meant.number, meant.row))
        if number:
            empty = study.tolerance == 6 and not (study.buses or study.sources or study.closed)
            tests.true(f"{meant.name}: empty study", empty)


def first_surplus(text):
    """Ground and row of the first record that the edition before has no space for."""
    buses = sources = 0
    for place, row in enumerate(text.split(b"\r\n"), 1):
        buses += row[:1] == b"B"
        sources += row[:1] == b"P"
        if buses > BUSES_BEFORE:
            return 23, place
        if sources > SOURCES_BEFORE:
            return 24, place
    return None


def editions(tests, count=600):
    """Order 2: what the edition before accepts reads as before, and a larger file that is
    accepted now meets 23 or 24 in it at its first surplus row.

    Of a damaged file: the edition before refuses it alike, or has met its first surplus row.
    """
    met = Counter()
    for n in range(count):
        rng = Random(f"editions {n}")
        text = any_network(rng)[1].file()
        text = spoil(rng, text) if n % 3 == 0 else text
        *before, study = StudyBefore().read(text)
        *now, larger = Study().read(text)
        if before[0] == 0:
            met["accepted by both"] += 1
            tests.same(f"edition before, file {n}", (now, vars(larger)), ([0, 0], vars(study)))
        elif before == now:
            met["refused alike"] += 1
            tests.true(f"edition before, file {n} refused otherwise", before[0] not in (23, 24))
        else:
            met["larger and accepted" if now[0] == 0 else "larger and refused"] += 1
            tests.same(f"edition before, larger file {n}", tuple(before), first_surplus(text))
    print(f"{count} files in two editions: {', '.join(f'{name} {met[name]}' for name in sorted(met))}")
    tests.same("kinds of files in two editions", len(met), 4)


def drawn_sizes(tests, count=1000):
    """Networks beyond the edition before are drawn as a matter of course."""
    drafts = [any_network(Random(f"sizes {n}"))[1] for n in range(count)]
    for name, larger in (
        (f"more than {BUSES_BEFORE} buses", [len(d.buses) > BUSES_BEFORE for d in drafts]),
        (f"more than {SOURCES_BEFORE} sources", [d.sources > SOURCES_BEFORE for d in drafts]),
    ):
        print(f"of {count} networks drawn {sum(larger)} have {name}")
        tests.true(f"one in twenty has {name}", 20 * sum(larger) >= count)


def unit_relations(source, volts):
    """What a unit has to show of the relations between its fields, in words."""
    rated, kva, xd, _, power_factor = source.fields
    low, high, transformer_kva, uk, ur = source.transformer
    apart = 1000 * xd - transformer_ux(uk, ur)
    yield f"xd {('below', 'at', 'above')[(apart > 0) - (apart < 0) + 1]} ux"
    if 0 < abs(apart) < 1000:
        yield f"xd next to ux, {'above' if apart > 0 else 'below'}"
    yield f"low volts {('below', 'at', 'above')[(low > high) - (low < high) + 1]} high volts"
    for name, given, against in (("generator volts", rated, low), ("high volts", high, volts)):
        least, greatest = rated_ends(against)
        yield f"{name} {'at 9/10' if given == least else 'at 11/10' if given == greatest else 'between'}"
    yield f"power factor {power_factor if power_factor in (70, 100) else 'between'}"
    yield f"uk 100 and uR 99: {(uk, ur) == (100, 99)}"
    if {kva, transformer_kva} == {10, 10**6}:
        yield f"kVA {kva} to {transformer_kva}"


def drawn_relations(tests, count=400):
    """Each relation is drawn as a matter of course, and units stand on all levels."""
    met = Counter()
    for n in range(count):
        study = study_of(with_units(Random(f"relations {n}"))[1])
        units = [source for source in study.sources if source.kind == UNIT]
        tests.true(f"network {n} has a unit", units)
        for source in units:
            met.update(unit_relations(source, study.buses[source.bus].volts))
            met[f"{study.depth(study.buses[source.bus])[1]} transformers from bus 0"] += 1
    print(f"units of {count} networks drawn: {', '.join(f'{name} {met[name]}' for name in sorted(met))}")
    tests.same("relations of units", len(met), 3 + 2 + 3 + 3 + 3 + 3 + 2 + 2 + 5)
    tests.true("each of them often", min(met.values()) >= count // 40)


def low_relations(study):
    """What the networks of low impedances have to show, in words."""
    pairs = [(bus.fourth, bus.fifth, "bus", bus.volts) for bus in study.buses if bus.kind == TRANSFORMER]
    units = [source for source in study.sources if source.kind == UNIT]
    pairs += [(source.uk, source.ur, "unit", study.buses[source.bus].volts) for source in units]
    for uk, ur, what, volts in pairs:
        level = "up to 1,000 V" if volts <= 1000 else "up to 50 kV" if volts <= 50000 else "above 50 kV"
        if uk <= 300:
            yield f"uk 100 to 300 of a {what}"
            yield f"uk 100 to 300, {level}"
            yield f"uk 100 to 300, uR {'next to uk' if ur >= uk - 6 else 'next to 0' if ur < 10 else 'between'}"
        if ur > 0:
            between = transformer_ux(uk, ur) % 1000
            yield f"ux {'between two' if between else 'a whole number of'} thousandths, of a {what}"
    for source in units:
        apart = 1000 * source.third - transformer_ux(source.uk, source.ur)
        if abs(apart) < 1000 and source.ur > 0:
            yield f"xd {('next below', 'at', 'next above')[(apart > 0) - (apart < 0) + 1]} ux, uR above 0"


def drawn_reactances(tests, count=300):
    """Each of these is drawn as a matter of course, and in most networks a reactance in thousandths
    would be seen: some bus's exact current is then not between the whole amperes that are due."""
    met, told = Counter(), 0
    for n in range(count):
        study = study_of(low_impedances(Random(f"reactances {n}")))
        met.update(low_relations(study))
        before = ThousandthsAgain(study.tolerance, study.buses, study.sources).machine_values()
        judges = BENCH.judges(study.network())
        told += any(
            judge.machines.floor() ** 2 * values.square_bottom > values.square_top
            or judge.machines.ceiling() ** 2 * values.square_bottom < values.square_top
            for judge, values in zip(judges, before)
        )
    print(f"{count} networks of low impedances: {', '.join(f'{name} {met[name]}' for name in sorted(met))}")
    print(f"in {told} of them a reactance in thousandths is seen")
    tests.same("relations of low impedances", len(met), 2 + 3 + 3 + 4 + 3)
    tests.true("each of them often enough", min(met.values()) >= count // 40)
    tests.true("thousandths are seen in three of four", 4 * told >= 3 * count)


BASE_TEXT = (
    b"S,10\r\n"
    b"B,0,20000,0,0,0,0,0,0,20000,60000\r\n"
    b"B,0,20000,1,100,300,1000,2,0,15000,60000\r\n"
    b"B,1,400,2,20000,400,630,6000,1000,30000,70000\r\n"
    b"P,1,0,500000,10,0,0,0,0,0,0,0,0\r\n"
    b"P,2,2,400,500,15000,10,90,0,0,0,0,0\r\n"
    b"P,3,2,400,100,50,42,0,0,0,0,0,0\r\n"
    b"P,4,1,1000,150,0,0,0,0,0,0,0,0\r\n"
    b"P,5,1,6300,12000,14000,4,85,6000,21000,12500,8000,500\r\n"
)


def written_by_hand(tests):
    """The base's text typed out, in rooms beside its length."""
    opened = study_after([("start", 10), *as_calls(BASE)])
    closed = opened.close()[1]
    tests.same("text of the base", closed.text(), BASE_TEXT)
    size = len(BASE_TEXT)
    for room, due in (
        (0, (30, 0, b"")),
        (size - 1, (30, 0, b"U" * (size - 1))),
        (size, (0, size, BASE_TEXT)),
        (size + 3, (0, size, BASE_TEXT + b"UUU")),
    ):
        tests.same(f"base written in {room} bytes", closed.write(b"U" * room), due)
        tests.same(f"base open, {room} bytes", opened.write(b"U" * room), (22, 0, b"U" * room))


def written_and_read(tests):
    """Reading a text gives the study back, so no two studies have the same one."""
    longest = study_after([("start", 10), *as_calls(longest_rows()), ("close",)])
    most = len(longest.text())
    studies = [longest] + [study_of(any_network(Random(n))[1]) for n in range(60)]
    studies += [study_of(with_units(Random(n))[1]) for n in range(60)]
    studies += [Study().read(meant.text)[2] for meant in near_misses() if meant.number == 0]
    for n, study in enumerate(studies):
        number, row, again = Study().read(study.text())
        tests.same(f"study {n} read back", (number, row, vars(again)), (0, 0, vars(study)))
        tests.true(f"study {n} no longer than the longest", len(study.text()) <= most)
    print(f"longest text: {most} bytes")


def answers_told_apart(tests):
    """Answers that differ in one place, each of which may be right by itself."""
    plan = fixed_writings()[0]
    first = StandIn().console(line_of(call) for call in first_calls(plan))
    back = StandIn().console(line_of(call) for call in back_calls(plan, text_of(first[-1])))
    tests.same("nothing told apart", told_apart(plan, first, back), "")
    asked, written = len(plan.made), first[-1]
    other = first[asked].replace(",C,", ",W,") + "0"
    changed = written.replace(b"S,6".hex(), b"S,8".hex())
    for name, one, two in (
        ("before a write", first[:asked] + [other] + first[asked + 1 :], back),
        ("behind a write", first[:-8] + [other] + first[-7:], back),
        ("read back", first, back[:2] + [other] + back[3:]),
        ("text", first, back[:-1] + [changed]),
        ("length beyond the room", first, back[:-1] + [written.replace("0,", "0,1", 1)]),
        ("no text", first, back[:-1] + ["30,0,"]),
    ):
        tests.true(f"told apart: {name}", told_apart(plan, one, two))


def refused_calls(tests):
    """A refused call, starting and reading apart, gives back the very study it was made on."""
    refused, changed = 0, []
    for n in range(20):
        study = Study()
        for call in drawn_calls(Random(n)) + drawn_course(Random(n)).calls:
            if call[0] in KEEPS:
                continue
            (number, *_), after = carried_out(study, call)
            if number and not call[0].startswith(("start", "read")):
                refused += 1
                changed += [call] if after is not study else []
            study = after
    tests.same("refused calls that change the study", changed, [])
    tests.true("many calls are refused", refused > 200)


def units_confirmed(tests):
    """What `board --confirm` asks for: six amperes, the figure and two bounds for each generator and
    unit, and a unit's bound that is one too high told by name."""
    study = study_of(dict(fixed_unit_networks())["units beside all other kinds"])
    stand_in = StandIn()
    stand_in.study = study
    printed = []
    for bus, record in enumerate(study.buses):
        amperes, table = stand_in.amperes(study, bus), [0] * 2 * len(study.sources)
        figure = stand_in.breaking(bus, 100, table)[1]
        letter = verdict(amperes, record)[0]
        head = bus, record.volts, record.rating, record.peak_rating
        printed.append(Printed(*head, tuple(amperes), letter, figure, tuple(table)))
    got = confirmed(study.text(), printed, 100)
    tests.same("units confirmed", got, (3, 3 * (6 + 1 + 2 * 6), 3, []))
    unit = next(place for place, source in enumerate(study.sources) if source.kind == UNIT)
    table = list(printed[0].table)
    table[2 * unit] += 1
    wrong = [printed[0]._replace(table=tuple(table)), *printed[1:]]
    words = "; ".join(words for _, words in confirmed(study.text(), wrong, 100).differences)
    tests.true(f"a unit's share not confirmed: {words}", f"source {unit}: lower" in words)


def judge_borders(tests):
    """Width, enclosure and peaks at their very borders."""
    study = study_of(fixed_networks()[2][1])
    judge = BENCH.judges(study.network())[0]
    right = Amperes(7698, 7699, 200, 200, 21775, 283)
    tests.same("tight amperes", judge.reasons(right), [])
    for changes, words in (
        ({"machines_lower": 7699}, "above the exact"),
        ({"machines_upper": 7698}, "below the exact"),
        ({"machines_upper": 7707}, ""),
        ({"machines_upper": 7708}, "wider"),
        ({"machines_lower": 7690}, ""),
        ({"machines_lower": 7689}, "wider"),
        ({"converters_lower": 198}, ""),
        ({"converters_lower": 197}, "wider"),
        ({"converters_lower": 201}, "above the exact"),
        ({"converters_upper": 199}, "below the exact"),
        ({"converters_peak": 282}, "below the exact"),
        ({"converters_peak": 292}, ""),
        ({"converters_peak": 293}, "above the exact"),
        ({"machines_peak": 21773}, "below the exact"),
        ({"machines_peak": 2**53}, "2^53"),
        ({"machines_lower": -1}, "not from 0"),
    ):
        reasons = "; ".join(judge.reasons(right._replace(**changes)))
        tests.true(f"{changes}: {reasons}", words in reasons if words else not reasons)
    for changes, near in (
        ({"machines_peak": 21774}, True),
        ({"machines_peak": 21806}, True),
        ({"machines_peak": 21807}, False),
        ({"converters_peak": 283}, True),
        ({"converters_peak": 284}, False),
    ):
        reasons = judge.near_reasons(right._replace(**changes))
        tests.same(f"near: {changes}: {reasons}", not reasons, near)


def each_table_entry(tests):
    """Any single entry of the peak table one too low is found by the steps of R/X."""

    class OneTooLow(StandIn):
        low = None

        def entry(self, i):
            return super().entry(i) - (i == self.low)

    stand_in, found = OneTooLow(), set()
    for _, draft in table_steps():
        for judge in BENCH.judges(study_of(draft).network()):
            entry = stand_in.step(judge.machines.values) // 16
            stand_in.low = entry
            peak = stand_in.machines_peak(judge.machines.values)
            if peak_reasons("", peak, judge.machines):
                found.add(entry)
    tests.same("table entries guarded", found, set(range(231)))


# Order 3


def breaking_judge(study, bus):
    return BreakingJudge(BENCH, study.network(), bus)


def worked_factors_of_q(tests):
    """μ at q 2, 5 and 10, from the formulas by hand, and every entry by the plain rule."""
    for delay, due in (
        (20, (995, 911, 860)),
        (50, (990, 824, 736)),
        (100, (1000, 766, 650)),
        (250, (1000, 701, 582)),
    ):
        tests.same(f"factors at {delay} ms", tuple(TABLES[delay][i] for i in (20, 50, 100)), due)
        plain = [table_factor(delay, i) for i in range(101)]
        tests.same(f"table at {delay} ms", TABLES[delay], plain)


def worked_breaking(tests):
    """The worked network with a converter: 11,000 V over √3 and 1.1 Ω of the feeder, 3.3 Ω of the
    generator and its line at bus 0, q 10/3 there; 2.2 Ω each at bus 1, q 5."""
    study = study_of(fixed_networks()[2][1])
    for bus, ohms, tenths in ((0, ("1.1", "3.3"), 33), (1, ("2.2", "2.2"), 50)):
        judge = breaking_judge(study, bus)
        squares = [Fraction(11000) ** 2 / 3 / Fraction(z) ** 2 for z in ohms]
        found = [Fraction(*share.square.fraction()) for share in judge.shares[:2]]
        tests.same(f"shares at bus {bus}", found, squares)
        tests.same(f"tenths at bus {bus}", judge.shares[1].tenths(), tenths)
        tests.same(f"converters at bus {bus}", judge.converters, 200)
        for delay in DELAYS:
            near = 200 + float(squares[0]) ** 0.5 + TABLES[delay][tenths] / 1000 * float(squares[1]) ** 0.5
            tests.same(f"figure at bus {bus}, {delay} ms", judge.sum(delay).ceiling(), int(near) + 1)


def shares_against_plain(tests, count=40):
    """Factors by branch against the division at each bus as it is written."""
    for n in range(count):
        rng = Random(f"shares {n}")
        draft = random_tree(rng, rng.randint(1, 6), rng.randint(1, 8)) if n % 2 else small_with_units(rng)
        draft = small_low(rng) if n % 8 == 0 else draft
        study = study_of(draft)
        plain = PlainNetwork(study.tolerance, study.buses, study.sources)
        for b in range(len(study.buses)):
            judge = breaking_judge(study, b)
            pairs = [pair for pair in zip(study.sources, judge.shares) if pair[1]]
            found = [Fraction(*share.square.fraction()) for _, share in pairs]
            due = [plain.share_square(b, source) for source, _ in pairs]
            tests.same(f"shares of network {n} at {b}", found, due)
            found = [Fraction(*share.q_square.fraction()) for _, share in pairs if share.q_square]
            due = [plain.q_square(b, source) for source, share in pairs if share.q_square]
            tests.same(f"q of network {n} at {b}", found, due)
            for delay in DELAYS:
                found = [share.thousandths(delay) for _, share in pairs]
                due = [plain.factor(b, source, delay) for source, _ in pairs]
                tests.same(f"factors of network {n} at {b}, {delay} ms", found, due)


def shares_against_floats(tests):
    """Large networks by voltages in floating point, some machines at some buses."""
    for n, family in enumerate([*FAMILIES, *UNIT_FAMILIES, low_impedances]):
        study = study_of(family(Random(f"floats {n}")))
        plain = PlainNetwork(study.tolerance, study.buses, study.sources)
        for b in {0, len(study.buses) - 1}:
            pairs = [pair for pair in zip(study.sources, breaking_judge(study, b).shares) if pair[1]]
            for source, share in pairs[:: len(pairs) // 5 + 1]:
                low, high = share.square.root_bounds()
                near, _ = plain.share_nearly(b, source)
                if near > 1e-9:
                    same = abs(low / 2**128 / near - 1) < 1e-9 and high - low < low >> 64
                    tests.true(f"{family.__name__}: share at {b} in floating point", same)


class InFloats(StandIn):
    """Breaking by floating point and voltages, with nothing of shares.py but the tables."""

    margin = 1e-9
    worked = None, None

    def plain(self, study):
        if self.worked[0] is not study:
            self.worked = study, PlainNetwork(study.tolerance, study.buses, study.sources)
        return self.worked[1]

    def factor(self, source, current, delay):
        if source.kind not in GENERATORS:
            return 1.0
        volts, kva = source.fields[:2]
        q = current * 3**0.5 * volts / (1000 * kva)
        if q <= 2 * (1 + self.margin):
            return 1.0
        return TABLES[delay][min(100, int(10 * q * (1 - self.margin)))] / 1000

    def breaking(self, bus, delay, table):
        number = self.study.breaking(bus, delay, len(table))
        if number:
            return number, 0
        plain = self.plain(self.study)
        figure = float(plain.converters(bus))
        for place, source in enumerate(self.study.sources):
            table[2 * place : 2 * place + 2] = 0, 0
            if source.kind != CONVERTER:
                share, current = plain.share_nearly(bus, source)
                figure += share * self.factor(source, current, delay)
                if source.kind in GENERATORS:
                    bounds = int(share * (1 - self.margin)), int(share * (1 + self.margin)) + 1
                    table[2 * place : 2 * place + 2] = bounds
        return 0, int(figure * (1 + self.margin)) + 1


def floats_accepted(tests):
    """A calculation that shares nothing with the judge is not blamed."""
    small = [plan for plan in fixed_breakings() if len(plan.draft.buses) <= 40 >= plan.draft.sources]
    units = [breaking_units()[0], Unit([breaking_case(plan) for plan in small])]
    units += [reactance_units()[-1], drawn_unit("breakings", 3, range(25))]
    for unit in units:
        outcome = run_unit(InProcess(InFloats), unit, BENCH)
        for failure in outcome.failures:
            print(f"{failure.name}: {failure.reason}")
        tests.true("floating point accepted", outcome.passed and not outcome.failures)


def two_reached(tests):
    """Of each three plans with q about 2 the first is above, the second at it and the third below."""
    plans = [plan for plan in fixed_breakings() if plan.name.startswith("q of 2")]
    signs = []
    for plan in plans:
        study = study_of(plan.draft)
        place = next(i for i, source in enumerate(study.sources) if source.kind in GENERATORS)
        signs.append(breaking_judge(study, 0).shares[place].q_square.compare(4))
    tests.same("q about 2", signs, [-1, 0, 1] * 10)


def two_by_millionths(tests):
    """Of each two plans with q next to 2 the first is above and the second below; with a reactance
    in thousandths both would be above."""
    signs, before = [], []
    for plan in low_breakings():
        study = study_of(plan.draft)
        for kind, found in ((Network, signs), (ThousandthsAgain, before)):
            shares = Shares(kind(study.tolerance, study.buses, study.sources)).at(0)
            found.append(shares[1].q_square.compare(4))
    tests.same("q next to 2", (signs, before), ([-1, 1] * 4, [-1] * 8))


def sums_of_roots(tests):
    """Comparisons that the first enclosure cannot tell, and sums that are fractions."""
    for n, due in ((5, 0), (Fraction(5) - Fraction(1, 10**300), -1), (Fraction(5) + Fraction(1, 10**300), 1)):
        tests.same(f"2 + 3 against {float(n)}", compare_roots(n, [(1, 4, 1), (1, 27, 3)]), due)
    for digits in (10, 100, 1000):
        scale = 10**digits
        floor = isqrt(2 * scale**2) + isqrt(3 * scale**2)
        terms = [(1, 2, 1), (1, 3, 1)]
        for step, due in ((0, -1), (2, 1)):
            given = compare_roots(Fraction(floor + step, scale), terms)
            tests.same(f"root 2 + root 3 to {digits} digits, {step:+}", given, due)
    whole = RootSum([(500, Square(16, 1)), (1000, Square(75, 3)), (0, Square(2, 1))], Fraction(1, 2))
    beside = Fraction(1, 9**99)
    signs = [whole.compare(Fraction(15, 2) + step * beside) for step in (-1, 0, 1)]
    tests.same("half of 4, 5 and a half", (signs, whole.ceiling()), ([-1, 0, 1], 8))


def squares_compared(tests):
    """A product of fractions beside whole numbers, by its enclosure and by the whole."""
    rng = Random(3)
    for n in range(200):
        parts = [(rng.getrandbits(300) | 1, rng.getrandbits(300) | 1) for _ in range(rng.randint(1, 9))]
        if n % 4 == 0:
            parts += [(bottom * rng.randint(1, 99), top) for top, bottom in parts]
        square, exact = None, Fraction(1)
        for top, bottom in parts:
            square = square.times(top, bottom) if square else Square(top, bottom)
            exact *= Fraction(top, bottom)
        floor = int(exact)
        due = [(m > exact) - (m < exact) for m in (floor, floor + 1)]
        tests.same(f"product {n}", [square.compare(m) for m in (floor, floor + 1)], due)
        root = isqrt(floor)
        above = root + (root * root != exact)
        tests.same(f"root of product {n}", (square.root_floor(), square.root_ceiling()), (root, above))


def breaking_borders(tests):
    """Width, enclosure and figure at their very borders, in the worked network at bus 0."""
    judge = breaking_judge(study_of(fixed_networks()[2][1]), 0)
    right = [0, 0, 1924, 1925, 0, 0]
    tests.same("tight breaking", judge.reasons(20, 7804, right), [])
    most = int(judge.sum(20).beneath() * 103 / 100 + 4)
    for figure, table, words in (
        (7803, {}, "below the sum"),
        (most, {}, ""),
        (most + 1, {}, "above the sum"),
        (2**53, {}, "2^53"),
        (7804, {2: 1925}, "above the exact share"),
        (7804, {3: 1924}, "below the exact share"),
        (7804, {3: 1927}, ""),
        (7804, {3: 1928}, "wider"),
        (7804, {2: 1922}, ""),
        (7804, {2: 1921}, "wider"),
        (7804, {3: 2**53}, "2^53"),
        (7804, {0: 1}, "0 and 0"),
        (7804, {5: 1}, "0 and 0"),
    ):
        given = [table.get(place, number) for place, number in enumerate(right)]
        reasons = "; ".join(judge.reasons(20, figure, given))
        tests.true(f"{figure}, {table}: {reasons}", words in reasons if words else not reasons)


def each_factor(tests):
    """Any single entry of the four tables from q 2 on one too low is found by the tenths."""
    found = {delay: set() for delay in DELAYS}
    for plan in (every_tenth(0), every_tenth(1)):
        study = study_of(plan.draft)
        for bus in range(1, len(study.buses)):
            judge = breaking_judge(study, bus)
            share = judge.shares[bus]
            if share.q_square.compare(4) < 0:
                for delay in DELAYS:
                    terms = [(s.thousandths(delay) - (s is share), s.square) for s in judge.shares]
                    if judge.figure_reasons(delay, RootSum(terms, 0).ceiling()):
                        found[delay].add(share.tenths())
    for delay in DELAYS:
        tests.same(f"entries guarded at {delay} ms", found[delay], set(range(20, 101)))


def drawn_near(tests, count=200):
    """What is drawn for breaking lies at the borders as a matter of course."""
    pairs = sum(len(tuned(Random(f"near {n}"))[1]) == 2 for n in range(count))
    numbers = Counter()
    for n in range(count):
        study = Study()
        for name, *rest in drawn_breakings(Random(f"near {n}")):
            if name == "breaking":
                numbers[study.breaking(*rest)] += 1
            else:
                study = carried_out(study, (name, *rest))[1]
    met = ", ".join(f"{number}: {numbers[number]}" for number in sorted(numbers))
    print(f"of {count} generators tuned {pairs} have q on both sides of a tenth")
    print(f"breakings drawn by number: {met}")
    tests.true("one in three is tuned", 3 * pairs >= count)
    tests.same("grounds of a breaking drawn", set(numbers), {0, 15, 22, 30, 31})


# Order 7

# By hand: 11,000 V over √3 and 0.825 and 1.1 Ω, κ 2 at ρ 0, and 200 A of the converter.
WORKED_ROWS = 7698, 7699, 200, 200, 21774, 283, 5773, 5774, 200, 200, 16330, 283


def report_of(room, changes=(), number=0):
    """A report's answer with the worked rows and some numbers changed, by place."""
    table = [*WORKED_ROWS, *[TABLE_FILL] * room][:room]
    for place, value in dict(changes).items():
        table[place] = value
    return ",".join(map(str, (number, *table)))


def report_faults_of(room, answer):
    """What is found wrong with a report on the worked network with a converter, and on the same
    network before it is closed."""
    draft = worked_points()[2][1]
    closed = [("read", draft.file()), ("report", room)], ["0,0", answer]
    opened = [("start", 6), *as_calls(draft.rows), ("report", room)]
    opened = opened, ["0"] * (len(opened) - 1) + [answer]
    faults = [Checker(BENCH).first_fault(*asked) for asked in (closed, opened)]
    return ["" if fault is None else fault[1] for fault in faults]


def report_borders(tests):
    """Rows at their very borders; a row may be wider than a query's answer."""
    for room, changes, words in (
        (12, {}, ""),
        (13, {}, ""),
        (MOST_REPORT, {}, ""),
        (12, {0: 7690, 6: 5771}, ""),
        (12, {1: 7707, 7: 5779, 9: 202}, ""),
        (12, {4: 21806, 10: 16355}, ""),
        (12, {0: 7699}, "row of bus 0: machines' lower 7699 is above the exact"),
        (12, {1: 7698}, "row of bus 0: machines' upper 7698 is below the exact"),
        (12, {0: 7689}, "wider"),
        (12, {1: 7708}, "wider"),
        (12, {3: 199}, "row of bus 0: converters' upper 199 is below the exact"),
        (12, {4: 21773}, "row of bus 0: machines' peak 21773 is below the exact"),
        (12, {4: 21807}, "0.15 %"),
        (12, {5: 282}, "row of bus 0: converters' peak 282 is below the exact"),
        (12, {6: 5774}, "row of bus 1: machines' lower 5774 is above the exact"),
        (12, {7: 5773}, "row of bus 1: machines' upper 5773 is below the exact"),
        (12, {8: 201}, "row of bus 1: converters' lower 201 is above the exact"),
        (12, {9: 203}, "wider"),
        (12, {10: 16329}, "row of bus 1: machines' peak 16329 is below the exact"),
        (12, {11: 284}, "row of bus 1: converters' peak 284 is more than"),
        (12, {11: 2**53}, "2^53"),
        (13, {12: 0}, "beyond the last"),
        (13, {12: 8}, "beyond the last"),
        (MOST_REPORT, {MOST_REPORT - 1: 0}, "beyond the last"),
        *[(12, {place: word}, "no answer") for place in (0, 11) for word in ("-1", "1.0", "0200", "", " 7")],
    ):
        reason, reason_open = report_faults_of(room, report_of(room, changes))
        tests.true(f"room {room}, {changes}: {reason}", words in reason if words else not reason)
        tests.true(f"room {room}, {changes} on an open study", "where '22,7" in reason_open)


def report_refusals(tests):
    """Answers to reports that are refused, right and not, and to one that is not."""
    refusal = {room: ",7" * room for room in (0, 5, 11, 12, 13)}
    for room, answer, due, due_open in (
        (0, "33", True, False),
        (0, "22", False, True),
        (0, "33,", False, False),
        (0, "22,", False, False),
        (0, "0", False, False),
        (0, "30", False, False),
        (5, "33" + refusal[5], True, False),
        (11, "33" + refusal[11], True, False),
        (11, "22" + refusal[11], False, True),
        (11, "33" + refusal[11] + ",7", False, False),
        (11, "33" + refusal[5], False, False),
        (11, "33" + refusal[11][:-1] + "0", False, False),
        (11, "33,0" + refusal[11][2:], False, False),
        (11, "30" + refusal[11], False, False),
        (11, report_of(11), False, False),
        (12, "33" + refusal[12], False, False),
        (12, "22" + refusal[12], False, True),
        (12, "0" + refusal[12], False, False),
        (12, report_of(13), False, False),
        (12, report_of(11), False, False),
        (12, report_of(12) + ",", False, False),
        (12, report_of(12, (), 22), False, False),
        (13, report_of(12), False, False),
        (13, "error,room", False, False),
    ):
        given = [not reason for reason in report_faults_of(room, answer)]
        tests.same(f"report of room {room} answered {answer[:40]}", given, [due, due_open])


def reports_alike(tests):
    """Rows of networks alike in all but their converters stand against each other, and not
    against queries, whose bounds may be others."""
    draft = worked_points()[2][1]
    bare = write_file(draft.tolerance, without_converters(draft.rows))
    calls = [("read", draft.file()), ("report", 12), ("query", 0), ("read", bare), ("report", 12)]
    none = {place: 0 for place in (2, 3, 5, 8, 9, 11)}
    for name, changes, reason in (
        ("the same", {}, ""),
        ("another lower", {0: 7697}, "alike"),
        ("another upper", {7: 5775}, "alike"),
        ("another peak", {10: 16331}, "alike"),
    ):
        query = "0,7696,7701,200,200,21790,283,C,0"
        answers = ["0,0", report_of(12), query, "0,0", report_of(12, none | changes)]
        fault = Checker(BENCH).first_fault(calls, answers)
        tests.same(f"{name}: {fault}", (fault or (4, ""))[0], 4)
        tests.true(f"{name}: {fault}", reason in fault[1] if reason else fault is None)


class RowsInFloats(StandIn):
    """Rows by recursion in floating point, with nothing of exact.py's sweeps; a query of the same
    bus gets other bounds."""

    margin = 1e-9
    worked = None, None

    def row(self, study, bus):
        if self.worked[0] is not study:
            plain = PlainNetwork(study.tolerance, study.buses, study.sources)
            self.worked = study, [self.row_by(plain, b) for b in range(len(study.buses))]
        return self.worked[1][bus]

    def row_by(self, plain, bus):
        volts = plain.buses[bus].volts
        seen = plain.seen_nearly(bus)
        y = 3 * max(0.0, (1 / seen).real) / (1 / seen).imag
        kappa = 1.02 + 0.98 / sum(y**k / factorial(k) for k in range(25))
        parts = float(plain.c(volts)) * volts * abs(seen) / 3**0.5, float(plain.converters(bus))
        peaks = parts[0] * kappa * 2**0.5, parts[1] * 2**0.5
        lower = [int(value * (1 - self.margin)) for value in parts]
        upper = [int(value * (1 + self.margin)) + 1 for value in (*parts, *peaks)]
        return Amperes(lower[0], upper[0], lower[1], *upper[1:])


def row_floats_accepted(tests):
    """A report that shares nothing with the judge, and has other bounds than queries, is not blamed."""
    units = [report_units()[0], drawn_unit("reports", 3, range(10))]
    for name, draft in fixed_reports():
        if len(draft.buses) <= 40 and draft.sources <= 60:
            units.append(Unit(report_cases(report_plans(name, draft))))
    rows = 0
    for unit in units:
        outcome = run_unit(InProcess(RowsInFloats), unit, BENCH)
        rows += outcome.tally.rows
        for failure in outcome.failures:
            print(f"{failure.name}: {failure.reason}")
        tests.true("rows in floating point accepted", outcome.passed and not outcome.failures)
    print(f"rows in floating point: {rows}")


def room_words(study, room):
    """What a report's room is for the study as it is, in words."""
    enough = ROW * len(study.buses)
    beside = "just enough" if room == enough else "more" if room > enough else "too few"
    words = [beside] + ["one too few"] * (room == enough - 1) + ["none"] * (room == 0)
    words += ["the most"] * (room == MOST_REPORT)
    return [f"{word}, {'closed' if study.closed else 'open'}" for word in words]


def rooms_drawn(tests, count=100):
    """All rooms that matter are drawn as a matter of course, on open and on closed studies."""
    met, numbers = Counter(), Counter()
    plans = [plan for n in range(count) for plan in drawn_reports("", Random(f"rooms {n}"))]
    for plan in plans:
        study = Study()
        for name, *rest in plan.calls:
            if name == "report":
                met.update(room_words(study, *rest))
                numbers[study.report(*rest)] += 1
            elif name not in KEEPS:
                study = carried_out(study, (name, *rest))[1]
    print(f"rooms of reports of {count} networks: {', '.join(f'{name} {met[name]}' for name in sorted(met))}")
    tests.same("numbers of reports drawn", set(numbers), {0, 22, 33})
    tests.same("rooms of reports drawn", len(met), 2 * 6)
    tests.true("each of them often", min(met.values()) >= count // 4)


def drawn_reports_find(tests):
    """Drawn networks alone find what the fixed ones are there for."""
    names = ["row of bus zero for all", "converter widens rows upwards", "sweep sees own part back"]
    names += ["row converters counted twice", "report one too short accepted", "report clears numbers beyond"]
    unit = drawn_unit("reports", 5, range(8))
    for name in names:
        outcome = run_unit(InProcess(REPORT_FAULTS[name]), unit, BENCH)
        tests.true(f"drawn reports find: {name}", outcome.failures)


# Order 8


def worked_changes(tests):
    """Order 8's words by hand: each call, its number, the first fields behind the feeder's and
    whether the study is closed then."""
    rows = [*lone_bus(20000), ("P", converter(11)), ("P", converter(22)), ("P", converter(33))]
    study = study_after([("start", 6), *as_calls(rows)])
    line = 0, 20000, 1, 100, 300, 1000, 2, 0, 15000, 60000
    for call, *due in (
        (("reopen",), 22, [11, 22, 33], False),
        (("withdraw", 0), 34, [11, 22, 33], False),
        (("withdraw", 4), 34, [11, 22, 33], False),
        (("withdraw", 2), 0, [11, 33], False),
        (("source", converter(44)), 0, [11, 33, 44], False),
        (("replace", 1, converter(55)), 0, [55, 33, 44], False),
        (("close",), 0, [55, 33, 44], True),
        (("source", converter(66)), 21, [55, 33, 44], True),
        (("withdraw", 3), 0, [55, 33], True),
        (("withdraw", 3), 34, [55, 33], True),
        (("replace", 3, (9,) * 7), 34, [55, 33], True),
        (("replace", 0, rows[1][1]), 34, [55, 33], True),
        (("replace", 2, (9,) * 7), 10, [55, 33], True),
        (("replace", 2, converter(77, 1)), 11, [55, 33], True),
        (("replace", 2, converter(0)), 12, [55, 33], True),
        (("replace", 2, (3, 0, 400, 1, 50, 0, 0)), 13, [55, 33], True),
        (("replace", 2, (5, 0, 1, 10, 1000, 0, 70, 90, 20000, 10, 100, 0)), 32, [55, 33], True),
        (("replace", 2, rows[1][1]), 14, [55, 33], True),
        (("replace", 2, converter(77)), 0, [55, 77], True),
        (("reopen",), 0, [55, 77], False),
        (("replace", 1, converter(88, 1)), 11, [55, 77], False),
        (("bus", line), 0, [55, 77], False),
        (("replace", 1, converter(88, 1)), 0, [88, 77], False),
        (("withdraw", 1), 0, [77], False),
        (("withdraw", 1), 0, [], False),
        (("withdraw", 1), 34, [], False),
        (("close",), 0, [], True),
    ):
        (number,), study = carried_out(study, call)
        given = [number, [source.first for source in study.sources[1:]], study.closed]
        tests.same(f"order 8: {call}", given, due)


def plain_list_by_hand(tests):
    """The plain list goes by the answers, right or not; what is written has to be just that list."""
    calls = [("start", 6), ("source", converter(1)), ("source", converter(2)), ("source", converter(3))]
    calls += [("withdraw", 1), ("replace", 0, converter(4)), ("replace", 9, converter(5)), ("write", 200)]
    answers = ["0", "0", "0", "0", "0", "0", "0"]
    for place, answer, left in (
        (0, "0", (4, 3)),
        (0, "1", (4, 3)),
        (1, "14", (4,)),
        (3, "24", (4,)),
        (4, "34", (4, 2, 3)),
        (5, "34", (1, 3)),
        (6, "34", (4, 3)),
    ):
        given = [*answers[:place], answer, *answers[place + 1 :]]
        for written in ((4, 3), (3, 4), (4,), (4, 2, 3), (1, 3)):
            rows = [("P", filled(converter(tenths))) for tenths in written]
            text = write_file(6, rows)
            shown, fault = told_from_plain_list(calls, [*given, f"0,{len(text)},{text.hex()}"])
            name = f"plain list {left}, call {place + 1} answered {answer}, written {written}: {fault}"
            tests.same(name, (shown, fault is None), (1, written == left))
    text = write_file(6, lone_bus(20000))
    for answer, left in (("0,0", 1), ("16,2", 0)):
        lists = [("source", converter(1)), ("read", text), ("write", 200)]
        given = ["0", answer, f"0,{len(text)},{text.hex()}"]
        shown, fault = told_from_plain_list(lists, given)
        tests.same(f"plain list behind a file: {fault}", (shown, fault is None), (1, left == 1))
    tests.same("plain list without a write", told_from_plain_list(calls, [*answers, "22,0,55"]), (0, None))


class ChangesMet:
    """What a list of calls shows of order 8, in words."""

    def __init__(self):
        self.met = Counter()

    def walk(self, calls):
        self.study, self.before, self.buses, self.withdrawn = Study(), None, None, False
        for call in calls:
            if call[0] not in KEEPS:
                (number, *_), after = carried_out(self.study, call)
                self.met.update(self.words(call, number, after))
                self.note(call[0], number, after)

    def note(self, name, number, after):
        if name == "start" or name.startswith("read"):
            self.buses, self.withdrawn = None, False
        if (name, number) == ("reopen", 0) and self.buses is None:
            self.buses = len(after.buses)
        self.withdrawn |= (name, number) == ("withdraw", 0)
        self.study, self.before = after, (name, number)

    def words(self, call, number, after):
        name, *rest = call
        if name in ("withdraw", "replace"):
            yield from self.place_words(name, rest[0])
        if name == "replace":
            yield from self.record_words(rest[0], SourceRecord(*rest[1]), number)
        if name in ("bus", "source"):
            yield from self.addition_words(name, rest[0], number, after)
        if (name, number) == ("withdraw", 0):
            if len(after.sources) == 1:
                yield "all but the feeder withdrawn"
            if self.before[1]:
                yield "withdrawal behind a refused call"
        if self.before == (name, 0) and (name, number) in (("reopen", 22), ("close", 21)):
            yield f"{name} twice"

    def place_words(self, name, place):
        state = "closed" if self.study.closed else "open"
        last = len(self.study.sources) - 1
        ends = ("0", 0), ("1", 1), ("last", last), ("last + 1", last + 1), ("2^32 - 1", GREATEST)
        for words, end in ends:
            if place == end:
                yield f"{name} {words}, {state}"

    def record_words(self, place, record, number):
        if number == NO_PLACE:
            faulty = first_true(self.study.source_grounds(record))
            yield f"place refused, its record {'faulty' if faulty else 'right'}"
        elif number:
            yield f"replacement refused with {number}"
        else:
            if self.study.sources[place].kind != record.kind:
                yield f"kind {self.study.sources[place].kind} replaced by kind {record.kind}"
            if self.buses is not None and record.bus >= self.buses:
                yield "source moved to a bus of a reopened study"

    def addition_words(self, name, numbers, number, after):
        if number == 0 and self.buses is not None:
            if name == "bus":
                yield "bus added to a reopened study"
            elif numbers[1] >= self.buses:
                yield "source added at a bus of a reopened study"
        if name == "source" and self.withdrawn:
            if number == 24:
                yield "24 behind a withdrawal"
            if number == 0 and len(after.sources) == SOURCES:
                yield "freed space filled"


def changes_drawn(tests, count=200):
    """All that order 8 speaks of is drawn as a matter of course."""
    changes = ChangesMet()
    for n in range(count):
        changes.walk(drawn_course(Random(f"changes {n}")).calls)
    met = changes.met
    print(f"{count} lists of changes: {', '.join(f'{name} {met[name]}' for name in sorted(met))}")
    tests.same("changes drawn", len(met), 2 * 2 * 5 + 2 + 6 + 4 * 3 + 3 + 2 + 2 + 2)
    tests.true("each of them often", min(met.values()) >= count // 40)


def plain_list_finds(tests):
    """The plain list finds wrong sources by itself; drawn lists find all faults but that of full
    tables, which not every unit of theirs has."""
    fixed, drawn = change_unit(), drawn_unit("changes", 5, range(20))
    for name in ("withdrawal moves one short", "last source kept behind withdrawal"):
        failures = run_unit(InProcess(CHANGE_FAULTS[name]), fixed, BENCH).failures
        tests.true(f"plain list finds: {name}", any(f.name.endswith(OF_PLAIN_LIST) for f in failures))
    for name in set(CHANGE_FAULTS) - {"freed space not used"}:
        failures = run_unit(InProcess(CHANGE_FAULTS[name]), drawn, BENCH).failures
        tests.true(f"drawn changes find: {name}", failures)


def timing_of_breaking(tests):
    for plan in fixed_breakings():
        if plan.name in ("machines of all kinds", "full_tree 1"):
            study = study_of(plan.draft)
            begun = time.monotonic()
            judge = BreakingJudge(Bench(), study.network(), len(study.buses) - 1)
            figures = [judge.sum(delay).ceiling() for delay in DELAYS]
            took = time.monotonic() - begun
            size = f"{len(study.buses)} buses, {len(study.sources)} sources"
            print(f"{plan.name}, {size}: a bus's shares and four figures in {1000 * took:.0f} ms")
            tests.true(f"{plan.name} judged", sorted(figures, reverse=True) == figures)


def timing(tests):
    for family in (full_tree, crowd):
        study = study_of(family(Random(5)))
        begun = time.monotonic()
        judges = Bench().judges(study.network())
        built = time.monotonic() - begun
        stand_in = StandIn()
        given = [stand_in.amperes(study, b) for b in range(len(study.buses))]
        begun = time.monotonic()
        wrong = [judge.reasons(six) for judge, six in zip(judges, given)]
        took = built + time.monotonic() - begun
        size = f"{len(study.buses)} buses, {len(study.sources)} sources"
        print(f"{family.__name__}, {size}: judged in {took:.2f} s")
        tests.true(f"{family.__name__} judged", not any(wrong))


def by_processes(tests):
    """The stand-in as processes, and programs that print nothing."""
    here = __file__.rpartition("/")[0] or "."
    commands = [f"{sys.executable} {here}/reference.py {role}" for role in ("program", "console")]
    units = fixed_units()
    drawn = [(kind, 2, range(3)) for kind in ("writes", "breakings", "units", "reactances")]
    drawn += [(kind, 2, range(3)) for kind in ("reports", "changes")]
    own = [reactance_units()[-1], *breaking_units()[:2], *report_units()[:2], change_unit()]
    for unit in (*units[:3], units[5], *own, *drawn):
        outcome = run_unit(Commands(*commands), unit, BENCH)
        tests.true("stand-in by processes", outcome.passed and not outcome.failures)
    for unit in (units[5], *drawn):
        outcome = run_unit(Commands("true", "true"), unit, BENCH)
        tests.true("silent programs", outcome.failures and not outcome.passed)


def planted_faults(tests):
    """Every planted fault is found by the fixed set; the stand-in without one is not blamed."""
    units = fixed_units()
    drawn = [drawn_unit("bytes", 1, range(50)), drawn_unit("calls", 1, range(5))]
    drawn.append(drawn_unit("writes", 1, range(20)))
    drawn.append(drawn_unit("breakings", 1, range(20)))
    drawn.append(drawn_unit("units", 1, range(20)))
    drawn.append(drawn_unit("reactances", 1, range(20)))
    drawn.append(drawn_unit("reports", 1, range(40)))
    drawn.append(drawn_unit("changes", 1, range(40)))
    refused, failing = set(), set()
    for unit in units + drawn:
        outcome = run_unit(InProcess(StandIn), unit, BENCH)
        refused |= set(outcome.tally.refused)
        for failure in outcome.failures:
            print(f"{failure.name}: {failure.reason}")
        tests.true("no fault planted", outcome.passed and not outcome.failures)
    tests.same("grounds met", refused, set(range(1, 17)) | set(range(21, 26)) | set(range(30, 35)))
    breakings = breaking_units()
    tried = [(*fault, units) for fault in (FAULTS | UNIT_FAULTS).items()]
    tried += [(*fault, breakings) for fault in (BREAKING_FAULTS | UNIT_BREAKING_FAULTS).items()]
    low = reactance_units()
    tried += [(*fault, low) for fault in REACTANCE_FAULTS.items()]
    tried += [(*fault, low[-1:]) for fault in REACTANCE_BREAKING_FAULTS.items()]
    reports = report_units()
    tried += [(*fault, reports) for fault in REPORT_FAULTS.items()]
    tried += [(*fault, [change_unit()]) for fault in CHANGE_FAULTS.items()]
    for name, stand_in, among in tried:
        found = None
        for unit in among:
            found = found or run_unit(InProcess(stand_in), unit, BENCH).failures
            if found:
                break
        tests.true(f"planted fault: {name}", found)
        if found:
            failing |= {failure.name for failure in found}
            print(f"planted fault: {name}; found by: {found[0].name}; {len(found)} in its unit")
    for make in WRITTEN + BROKEN + REPORTED + CHANGED:
        tests.true(f"some fault fails {make.__name__}", f"calls: {make.__name__}" in failing)


TESTS = [
    worked_factors,
    worked_networks,
    worked_units,
    worked_reactances,
    many_reactances,
    rows_of_seven,
    worked_grounds,
    against_plain,
    against_floats,
    meant_numbers,
    editions,
    drawn_sizes,
    drawn_relations,
    drawn_reactances,
    written_by_hand,
    written_and_read,
    answers_told_apart,
    refused_calls,
    units_confirmed,
    judge_borders,
    each_table_entry,
    worked_factors_of_q,
    worked_breaking,
    shares_against_plain,
    shares_against_floats,
    floats_accepted,
    two_reached,
    two_by_millionths,
    sums_of_roots,
    squares_compared,
    breaking_borders,
    each_factor,
    drawn_near,
    report_borders,
    report_refusals,
    reports_alike,
    row_floats_accepted,
    rooms_drawn,
    drawn_reports_find,
    worked_changes,
    plain_list_by_hand,
    changes_drawn,
    plain_list_finds,
    timing_of_breaking,
    timing,
    by_processes,
    planted_faults,
]


def main():
    tests = Tests()
    for test in TESTS:
        test(tests)
    print(f"{tests.passed} passed, {tests.failed} failed")
    return 1 if tests.failed else 0


if __name__ == "__main__":
    sys.exit(main())
