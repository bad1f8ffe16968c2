"""Cases and units of work: what is asked of a program, and how its answers are gone through.

A case is one test, and a second one by the plain list of sources where something
is written in it.  A unit is a list of cases that share a console process and a
Checker, so that networks alike in all but their converters meet in one unit.
"""

from random import Random
from typing import NamedTuple, Optional

from accept import ROW, Study
from breakings import BROKEN, breaking_calls, breakings, drawn_breakings, fixed_breakings
from breakings import low_breakings
from calls import FIXED, as_calls, at_once, drawn_calls, line_of, queries, states
from changes import CHANGED, drawn_changes
from check import Checker
from fixed import fixed_networks
from judge import Amperes
from networks import any_network, border_ratings, with_more_converters, with_ratings
from networks import without_converters, write_file
from plain_list import told_from_plain_list
from reactance_networks import fixed_reactance_networks, low_impedances
from refusals import near_misses
from reports import REPORTED, buses_of, drawn_reports, fixed_reports, report_plans
from texts import greatest_numbers, meant_texts, spoil, truncations
from unit_networks import with_units
from writes import WRITTEN, back_calls, drawn_writing, first_calls, fixed_writings
from writes import study_after, text_of, told_apart

# The console takes lines of at most so many bytes; a longer text goes to the program alone.
LINE_BYTES = 140_000

OF_PLAIN_LIST = ", the written sources are those of the plain list"


class Case(NamedTuple):
    """`text` is the file of a case about one file; `ending` stands before each LF."""

    name: str
    calls: list
    text: Optional[bytes] = None
    ending: str = ""

    def lines(self):
        return [line_of(call) + self.ending for call in self.calls]


class Failure(NamedTuple):
    name: str
    reason: str
    shown: str


class NetworkPlan(NamedTuple):
    """A network to be judged, with its variants.

    `rounds` says how many files with ratings at the verdict's borders are
    made of the amperes given for it.
    """

    name: str
    tolerance: int
    rows: list
    text: bytes
    seed: int
    rounds: int = 1
    by_program: bool = False


class Unit(NamedTuple):
    cases: list
    networks: list = []
    program_texts: list = []
    alone: bool = False
    writings: list = []


def file_case(name, text):
    number, _, study = Study().read(text)
    after = [("query", 0), ("close",)] if number else queries(len(study.buses))
    return Case(name, [("read", text), *after], text)


def network_case(name, tolerance, rows, text=None):
    """A network's file, drawn so as to be accepted; whether it is, the checker finds out."""
    text = text or write_file(tolerance, rows)
    return Case(name, [("read", text), *queries(buses_of(rows))], text)


def reported_case(*network):
    """The same with a report of all buses behind the queries."""
    case = network_case(*network)
    return case._replace(calls=[*case.calls, ("report", ROW * buses_of(network[2]))])


def network_plan(name, draft, seed, rounds=1, by_program=False):
    return NetworkPlan(name, draft.tolerance, draft.rows, draft.file(), seed, rounds, by_program)


def network_cases(plan):
    """The network, without its converters and with further ones."""
    bare = without_converters(plan.rows)
    more = with_more_converters(Random(plan.seed), plan.rows)
    return [
        reported_case(plan.name, plan.tolerance, plan.rows, plan.text),
        reported_case(plan.name + ", without converters", plan.tolerance, bare),
        reported_case(plan.name + ", with more converters", plan.tolerance, more),
    ]


def border_cases(plan, amperes):
    """Files with ratings at the verdict's borders, going round over the buses."""
    choices = [border_ratings(six) for six in amperes]
    found = []
    for turn in range(plan.rounds):
        picked = [
            pairs[(bus + turn + plan.seed) % len(pairs)][1:] for bus, pairs in enumerate(choices)
        ]
        rows = with_ratings(plan.rows, picked)
        name = f"{plan.name}, ratings at borders {turn + 1}"
        found.append(network_case(name, plan.tolerance, rows))
    return found


# Units of the fixed set and of a seed


def chunks(items, size):
    return [items[i : i + size] for i in range(0, len(items), size)]


def fixed_units():
    texts = [(m.name, m.text) for m in near_misses() + meant_texts()]
    texts += truncations() + greatest_numbers()
    lists = [Case(f"calls: {make.__name__}", make()) for make in FIXED]
    lists.append(Case("calls: states, lines ended by CRLF", states(), None, "\r"))
    units = [Unit(lists)]
    units.append(Unit([Case("calls: at_once", at_once())], alone=True))
    units.append(Unit([Case(f"calls: {make.__name__}", make()) for make in WRITTEN]))
    units.append(Unit([], writings=fixed_writings()))
    units += [text_unit(part, i % 8, 8) for i, part in enumerate(chunks(texts, 100))]
    units += breaking_units()
    plans = []
    for i, (name, draft) in enumerate(fixed_networks()):
        small = len(draft.buses) <= 3 and not name.startswith("feeder")
        plans.append(network_plan(name, draft, i, 21 if small else 1, i % 4 == 0 or small))
    units += [Unit([], part) for part in chunks(plans, 8)]
    return units + reactance_units() + report_units() + [change_unit()]


def reactance_units():
    """Order 6: networks of low impedances, and breaking currents that hang on them."""
    drafts = fixed_reactance_networks()
    plans = [network_plan(name, draft, i, 1, True) for i, (name, draft) in enumerate(drafts)]
    breakings = [breaking_case(plan) for plan in low_breakings()]
    return [*(Unit([], part) for part in chunks(plans, 3)), Unit(breakings)]


def breaking_units():
    """Order 3: lists of calls, and networks asked at their buses with all delays."""
    lists = [Case(f"calls: {make.__name__}", make()) for make in BROKEN]
    networks = [breaking_case(plan) for plan in fixed_breakings()]
    return [Unit(part) for part in (lists, *chunks(networks, 8))]


def breaking_case(plan):
    calls = breaking_calls(plan)
    return Case(f"breaking: {plan.name}", calls, calls[0][1])


def report_units():
    """Order 7: lists of calls, the longest of them last, and networks asked by reports and by a
    query of every bus."""
    lists = [Case(f"calls: {make.__name__}", make()) for make in REPORTED]
    networks = [report_cases(report_plans(*network)) for network in fixed_reports()]
    return [Unit(part) for part in (lists[:-1], lists[-1:], *(sum(four, []) for four in chunks(networks, 4)))]


def report_cases(plans):
    return [Case(plan.name, plan.calls, plan.text) for plan in plans]


def change_unit():
    """Order 8: lists of calls, one of them a second time with lines ended by CRLF."""
    lists = [Case(f"calls: {make.__name__}", make()) for make in CHANGED]
    return Unit([*lists, lists[-1]._replace(name=lists[-1].name + ", lines ended by CRLF", ending="\r")])


# How many of a kind are drawn for one unit of work
DRAWN_TOGETHER = {
    "networks": 8, "bytes": 100, "calls": 20, "writes": 20, "breakings": 10, "units": 8, "reactances": 8,
    "reports": 8, "changes": 20,
}


def drawn_units(seed, counts):
    """Arguments of drawn_unit; `counts` says how many there are to be of each kind."""
    found = []
    for kind, size in DRAWN_TOGETHER.items():
        found += [(kind, seed, part) for part in chunks(range(counts[kind]), size)]
    return found


def drawn_unit(kind, seed, places):
    """Made only when it is run; the n-th of a kind and seed is always the same."""
    draws = [(f"{kind} {n} of seed {seed}", n, Random(f"{seed} {kind} {n}")) for n in places]
    if kind == "networks":
        return Unit([], [drawn_plan(*draw) for draw in draws])
    if kind == "calls":
        return Unit([Case(name, drawn_calls(rng)) for name, _, rng in draws])
    if kind == "breakings":
        return Unit([Case(name, drawn_breakings(rng)) for name, _, rng in draws])
    if kind == "reports":
        return Unit([case for name, _, rng in draws for case in report_cases(drawn_reports(name, rng))])
    if kind == "writes":
        return Unit([], writings=[drawn_writing(name, rng) for name, _, rng in draws])
    if kind == "changes":
        return Unit([], writings=[drawn_changes(name, rng) for name, _, rng in draws])
    if kind == "units":
        return with_calls([drawn_unit_plan(name, rng) for name, _, rng in draws])
    if kind == "reactances":
        return with_calls([drawn_low_plan(name, rng) for name, _, rng in draws])
    return text_unit([(name, spoiled_file(n, rng)) for name, n, rng in draws], 0, 20)


def spoiled_file(n, rng):
    """The file of a network, one in three with power station units, and damaged."""
    _, draft = (any_network if n % 3 else with_units)(rng)
    return spoil(rng, draft.file())


def text_unit(texts, first, every):
    """Texts for the console, some of them for the program too, and those that are too long for the console for the program alone."""
    short = [text for text in texts if len(line_of(("read", text[1]))) <= LINE_BYTES]
    long = [text for text in texts if text not in short]
    return Unit([file_case(*text) for text in short], [], short[first::every] + long)


def drawn_plan(name, n, rng):
    family, draft = any_network(rng)
    return network_plan(f"{name}, {family}", draft, rng.randrange(1000), 1, n % 10 == 0)


def drawn_unit_plan(name, rng):
    """A network with power station units: its file for both programs."""
    family, draft = with_units(rng)
    return network_plan(f"{name}, {family}", draft, rng.randrange(1000), 1, True)


def drawn_low_plan(name, rng):
    """A network of low impedances, likewise."""
    return network_plan(name, low_impedances(rng), rng.randrange(1000), 1, True)


def with_calls(plans):
    """Networks for both programs, by their files and call by call."""
    return Unit([by_calls(plan) for plan in plans], plans)


def by_calls(plan):
    """The same network added call by call, queried, written, reported and asked for breaking
    currents at its first bus and its last."""
    calls = [("start", plan.tolerance), *as_calls(plan.rows), ("close",)]
    study = study_after(calls)
    length, last = len(study.text()), len(study.buses) - 1
    calls += [*queries(last + 1), ("write", length - 1), ("write", length), ("report", ROW * (last + 1))]
    calls += breakings(sorted({0, last}), [2 * len(study.sources)])
    return Case(f"{plan.name}, by calls", calls)


# Running a unit


class Outcome:
    def __init__(self, checker):
        self.checker = checker
        self.passed = 0
        self.failures = []

    @property
    def tally(self):
        return self.checker.tally

    def note(self, name, reason, shown):
        if reason:
            self.failures.append(Failure(name, reason, shown))
        else:
            self.passed += 1


def run_unit(runner, unit, bench=None):
    """Outcome of a unit, or of the arguments of a drawn one.

    `runner` has console(lines), the list of answers, and program(text), the
    bytes printed; either may be None when that program is not tested.
    """
    if not isinstance(unit, Unit):
        unit = drawn_unit(*unit)
    outcome = Outcome(Checker(bench))
    if runner.console:
        run_cases(runner, unit.cases, outcome, unit.alone)
        cases = [network_cases(plan) for plan in unit.networks]
        answers = run_cases(runner, [case for three in cases for case in three], outcome)
        borders = []
        for plan, (case, _, _) in zip(unit.networks, cases):
            amperes = given_amperes(case, answers.get(case.name, []))
            borders += border_cases(plan, amperes) if amperes else []
        run_cases(runner, borders, outcome)
        run_writings(runner, unit.writings, outcome)
    if runner.program:
        texts = [(plan.name, plan.text) for plan in unit.networks if plan.by_program]
        for name, text in unit.program_texts + texts:
            reason = outcome.checker.program_reason(text, runner.program(text))
            outcome.note(f"program: {name}", reason, show_text(text))
    return outcome


def run_cases(runner, cases, outcome, alone=False):
    """Answers by the case's name, all cases in one console process unless `alone`.

    A list of calls that does not begin with a start or a file would depend on
    the case before it; those stand in a unit of their own.
    """
    lines = [line for case in cases for line in case.lines()]
    answers = runner.console(lines) if cases and not alone else []
    together = len(answers) == len(lines)
    found, place = {}, 0
    for case in cases:
        if together:
            own = answers[place : place + len(case.calls)]
            place += len(case.calls)
        else:
            own = runner.console(case.lines())
        found[case.name] = own
        note_case(case, own, outcome)
    return found


def run_writings(runner, plans, outcome):
    """Each study written, read back from the very bytes that the console showed, and written again.

    Where there is no such text or an answer is missing, the case before has failed.
    """
    firsts = [Case(plan.name, first_calls(plan)) for plan in plans]
    answers = run_cases(runner, firsts, outcome)
    backs = [back_case(plan, case, answers[case.name]) for plan, case in zip(plans, firsts)]
    answers |= run_cases(runner, [case for case in backs if case], outcome)
    for plan, case in zip(plans, backs):
        if case and len(answers[case.name]) == len(case.calls):
            reason = told_apart(plan, answers[plan.name], answers[case.name])
            outcome.note(f"{plan.name}, the same after reading back", reason, show_text(case.text))
            outcome.tally.read_back += not reason


def back_case(plan, case, answers):
    """The text of the last write read back, or None where that write gave none."""
    text = text_of(answers[-1]) if len(answers) == len(case.calls) else None
    if text is None:
        return None
    return Case(f"{plan.name}, read back", back_calls(plan, text), text)


def note_case(case, answers, outcome):
    """Each answer for itself, and where something was written, its sources beside the plain list."""
    fault = outcome.checker.first_fault(case.calls, answers)
    asked, given = len(case.calls), len(answers)
    if fault is None and asked != given:
        fault = min(asked, given), f"{given} answers to {asked} calls"
    note_fault(case.name, case, answers, fault, outcome)
    shown, fault = told_from_plain_list(case.calls, answers)
    if shown:
        note_fault(case.name + OF_PLAIN_LIST, case, answers, fault, outcome)
        outcome.tally.plain_lists += shown - bool(fault)


def note_fault(name, case, answers, fault, outcome):
    if fault is None:
        outcome.note(name, "", "")
        return
    place, reason = fault
    line = line_of(case.calls[min(place, len(case.calls) - 1)])
    reason = f"call {place + 1} ({line[:60]}{'...' if len(line) > 60 else ''}): {reason}"
    outcome.note(name, reason, show_case(case, answers, place))


def given_amperes(case, answers):
    """The six amperes of each bus, or None when the file was not answered so far."""
    found = []
    for (name, *_), answer in zip(case.calls, answers):
        fields = answer.split(",")
        if name == "query" and len(fields) == 9 and fields[0] == "0":
            if not all(field.isdecimal() for field in fields[1:7]):
                return None
            found.append(Amperes(*map(int, fields[1:7])))
    asked = sum(name == "query" for name, *_ in case.calls)
    return found if len(found) == asked - 1 else None


def show_text(text):
    """The file row by row, each as Python writes the bytes, so that every byte can be told."""
    return "\n".join(repr(row) for row in text.split(b"\r\n"))


def show_case(case, answers, place):
    if case.text is not None:
        return show_text(case.text)
    shown = []
    for call, answer in list(zip(case.calls, answers))[: place + 1]:
        shown.append(f"{line_of(call)[:2000]} -> {answer[:2000]}")
    return "\n".join(shown)
