"""Whether all that was printed of a study is right, bus by bus: `board --confirm` asks for it.

The study's rows are read here by the rules of acceptance of this folder, and every
figure is held against exact fractions; nothing of what printed them is used.
"""

from typing import NamedTuple

from accept import Study
from breaking import BreakingJudge, share_reasons
from judge import Amperes, Bench, verdict_reasons

FIGURES = len(Amperes._fields)


class Printed(NamedTuple):
    """What was printed of a bus: number, volts, ratings, six amperes and the letter; the
    breaking current and two numbers a source where they were asked for."""

    number: int
    volts: int
    rating: int
    peak_rating: int
    amperes: tuple
    letter: str
    breaking: int = 0
    table: tuple = ()


class Confirmed(NamedTuple):
    """How much was held against exact fractions, and what differs: pairs of a bus and words."""

    buses: int
    figures: int
    verdicts: int
    differences: list


def confirmed(text, printed, delay=0):
    """The Confirmed of a study's text and the Printed of its buses; with a delay, of Ib too."""
    number, row, study = Study().read(text)
    if number:
        return nothing(f"the study is not accepted: ground {number}, row {row}")
    if len(study.buses) != len(printed):
        return nothing(f"{len(printed)} buses are printed, and the study has {len(study.buses)}")
    bench, network = Bench(), study.network()
    differences = []
    for bus, (judge, one) in enumerate(zip(bench.judges(network), printed)):
        found = bus_reasons(judge, one, bus, study.buses[bus])
        if delay:
            found += breaking_reasons(BreakingJudge(bench, network, bus), one, delay)
        differences += [(bus, words) for words in found]
    each = FIGURES + (1 + 2 * generators(network) if delay else 0)
    return Confirmed(len(printed), each * len(printed), len(printed), differences)


def nothing(words):
    return Confirmed(0, 0, 0, [(None, words)])


def generators(network):
    return sum(network.is_generator(source) for source in network.sources)


def bus_reasons(judge, one, bus, record):
    """Why the figures of a bus are not right, with the exact ones; empty when they are."""
    names = "number", "volts", "rating", "peak rating"
    due = bus, record.volts, record.rating, record.peak_rating
    triples = [triple for triple in zip(names, one, due) if triple[1] != triple[2]]
    found = [f"{name} {given} where {own} is due" for name, given, own in triples]
    amperes = Amperes(*one.amperes)
    wrong = judge.reasons(amperes) + judge.near_reasons(amperes)
    found += wrong + ([exact_words(judge)] if wrong else [])
    return found + verdict_reasons(amperes, one.letter, None, record)


def exact_words(judge):
    parts = []
    for name, part in (("machines", judge.machines), ("converters", judge.converters)):
        peak = f"peak {part.peak_ceiling()} rounded up"
        parts.append(f"{name} {part.floor()} to {part.ceiling()}, {peak}")
    return "exact: " + "; ".join(parts)


def breaking_reasons(judge, one, delay):
    """The same of the breaking current and the shares."""
    if len(one.table) != 2 * len(judge.sources):
        return [f"{len(one.table)} bounds of shares for {len(judge.sources)} sources"]
    found = judge.reasons(delay, one.breaking, one.table)
    return found + ([exact_breaking(judge, one, delay)] if found else [])


def exact_breaking(judge, one, delay):
    """The exact breaking current, and the exact shares that lie outside their bounds."""
    parts = [f"breaking current {judge.sum(delay).ceiling()} rounded up"]
    for place, share in judge.generators():
        square = share.square
        if share_reasons(place, *one.table[2 * place : 2 * place + 2], square):
            parts.append(f"source {place} {square.root_floor()} to {square.root_ceiling()}")
    return "exact: " + "; ".join(parts)
