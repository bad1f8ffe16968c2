"""From entries to rows: names become buses, branches a tree from the feeder's bus on, and what document 01 asks of both."""
import heapq
from fractions import Fraction
from typing import NamedTuple

from desk.records import MOST_BRANCHES, MOST_BUSES, MOST_SOURCES, MOST_TRANSFORMERS, values_of

from .entries import did_you_mean, proposal, quoted
from .fields import decimal_text, range_text

# What may be meant where another voltage of an entry would suit the bus; other kinds have one voltage alone.
EXCHANGED = {"transformer": "; are the two sides exchanged?", "unit": "; a unit stands at the bus on its high side"}


class Step(NamedTuple):
    """A bus in the order of the rows. Buses here are numbers of the file's order."""
    bus: int
    parent: int
    branch: object      # the entry that joins it to its parent; none at the feeder's bus
    branches: int       # how many lead to it from there
    transformers: int


class Tree:
    def __init__(self, entries, notes):
        self.notes = notes
        self.buses = [entry for entry in entries if entry.kind.group == "bus"]
        self.branches = [entry for entry in entries if entry.kind.group == "branch"]
        feeders = [entry for entry in entries if entry.kind.table == "feeder"]
        # The feeder is the first source wherever it stands; the others keep the order of the file.
        self.sources = feeders + [entry for entry in entries if entry.kind.group == "source" and entry not in feeders]
        self.by_name = {}
        self.neighbours = [[] for _ in self.buses]      # pairs of bus and branch
        self.together = list(range(len(self.buses)))    # buses that are joined have the same number here
        self.name_buses()
        self.find_buses()
        self.join_branches()
        self.steps = self.steps_from(self.root_of(feeders))

    # Names

    def name_buses(self):
        for number, bus in enumerate(self.buses):
            name = bus.words.get("name")
            if name in self.by_name:
                other = self.buses[self.by_name[name]]
                bus.mistake("name", f"this name is taken by {self.where(other)}; each bus has its own")
            elif name is not None:
                self.by_name[name] = number

    def find_buses(self):
        """Each name of a branch or a source as its bus. For one that is not known the nearest is taken, to look further."""
        wanted = [(entry, key) for entry in self.branches + self.sources for key in entry.kind.ends if key in entry.words]
        for entry, key in wanted:
            name = entry.words[key]
            if name in self.by_name:
                entry.bus[key] = self.by_name[name]
            else:
                self.guess(entry, key, name)

    def guess(self, entry, key, name):
        near = proposal(name, list(self.by_name))
        asked = did_you_mean([quoted(one) for one in near])
        entry.mistake(key, f"{key} = {quoted(name)}: there is no bus of this name{asked}")
        entry.guessed = True
        if near:
            entry.bus[key] = self.by_name[near[0]]

    def name(self, bus):
        return quoted(self.buses[bus].words.get("name", "?"))

    def where(self, entry):
        place = entry.place()
        return entry.label() + ("" if place is None else f" (line {self.notes.line(place)})")

    # The tree

    def join_branches(self):
        for branch in self.branches:
            if len(branch.bus) < 2:
                continue
            a, b = branch.bus["from"], branch.bus["to"]
            if self.together[a] == self.together[b]:
                if not branch.guessed:
                    branch.mistake("to", self.loop_words(branch, a, b))
                continue
            old, new = self.together[b], self.together[a]
            self.together = [new if one == old else one for one in self.together]
            self.neighbours[a].append((b, branch))
            self.neighbours[b].append((a, branch))

    def loop_words(self, branch, a, b):
        """A branch between buses that are joined already: back to its own bus, beside another branch, or round a loop."""
        if a == b:
            return f"from and to are one bus, {self.name(a)}"
        ways = {step.bus: step for step in self.steps_from(a)}
        way = [b]
        while way[-1] != a:
            way.append(ways[way[-1]].parent)
        if len(way) == 2:
            first = self.where(ways[b].branch)
            hint = "; lines alike in parallel are one entry with circuits = 2" if branch.kind.table == "line" else ""
            return f"{self.name(a)} and {self.name(b)} are joined by {first} already{hint}"
        others = [step.branch for step in map(ways.get, way[:-1]) if step.branch.bus["to"] == b]
        second = f"a second branch to {self.name(b)} after {self.where(others[0])}; " if others else ""
        return f"{second}it closes a loop: {', '.join(map(self.name, way + [b]))}; the network must be radial"

    def root_of(self, feeders):
        """The feeder's bus; none where there is no feeder or its bus is not known."""
        if not feeders:
            self.notes.mistake(None, "", "[feeder] is missing: exactly one feeds the network, at the bus that becomes bus 0")
        for feeder in feeders[1:]:
            feeder.mistake("", f"a second feeder after line {self.notes.line(feeders[0].place() or 0)}; a network has exactly one")
        return feeders[0].bus.get("bus") if feeders else None

    def steps_from(self, root):
        """Buses from the root on, each behind its parent; of those that can be next the first of the file is.

        What is joined has no loop, so that a neighbour other than the parent is new.
        """
        ready, steps = ([] if root is None else [Step(root, root, None, 0, 0)]), []
        while ready:
            step = heapq.heappop(ready)
            steps.append(step)
            self.push_neighbours(ready, step)
        return steps

    def push_neighbours(self, ready, step):
        for bus, branch in self.neighbours[step.bus]:
            if bus != step.parent:
                crossed = step.transformers + (branch.kind.table == "transformer")
                heapq.heappush(ready, Step(bus, step.bus, branch, step.branches + 1, crossed))

    # What document 01 asks

    def check(self):
        self.check_joined()
        self.check_totals()
        self.check_entries()
        self.check_depths()

    def check_joined(self):
        """Buses to which nothing leads from the feeder, each group once; without a known feeder, buses without any branch."""
        reached = {step.bus for step in self.steps}
        left = [bus for bus in self.by_name.values() if bus not in reached]
        firsts = {self.together[bus]: bus for bus in reversed(left)}
        for first in firsts.values():
            others = [bus for bus in left if bus != first and self.together[bus] == self.together[first]]
            names = ", ".join(map(self.name, others[:5])) + (" .." if len(others) > 5 else "")
            if not others and len(self.buses) > 1:
                self.buses[first].mistake("", "no line and no transformer leads to this bus")
            elif others and self.steps:
                self.buses[first].mistake("", f"this bus is not joined to the feeder's bus, nor are those joined to it: {names}")

    def check_totals(self):
        if not self.buses:
            self.notes.mistake(None, "", "[[bus]] is missing: a network has at least one bus")
        if len(self.buses) > MOST_BUSES:
            self.buses[MOST_BUSES].mistake("", f"{len(self.buses)} buses; a study has at most {MOST_BUSES}")
        total = sum(entry.numbers.get("count", 1) for entry in self.sources)
        if total > MOST_SOURCES:
            self.sources[-1].mistake("", f"{total} sources in all, each count included; a study has at most {MOST_SOURCES}")

    def check_entries(self):
        for entry in self.branches + self.sources:
            self.check_fields(entry)

    def check_fields(self, entry):
        """What concerns two numbers, as they are in the record."""
        numbers, pair = entry.numbers, entry.kind.not_both_zero
        if pair and not any(numbers.get(name, 1) for name in pair):
            keys = [entry.given[name] for name in pair]
            entry.mistake(keys[0], f"{' and '.join(keys)} are both 0")
        for field in entry.kind.fields:
            if field.below in numbers and field.name in numbers:
                self.check_below(entry, field)
            if field.suits in numbers and field.name in numbers:
                self.check_suits(entry, field)
            if field.rated_at and field.name in numbers:
                self.check_rated(entry, field)
        if entry.kind.table == "line" and len(entry.bus) == 2 and not entry.guessed:
            self.check_line(entry)

    def check_below(self, entry, field):
        if entry.numbers[field.name] >= entry.numbers[field.below]:
            key, other = entry.given[field.name], entry.given[field.below]
            entry.mistake(key, f"{key} = {entry.table[key]}: {field.words} must be below {other} = {entry.table[other]}")

    def check_suits(self, entry, field):
        """Rated volts that go with other rated volts of the entry."""
        other = entry.numbers[field.suits]
        if not fits(entry.numbers[field.name], other):
            key, beside = entry.given[field.name], entry.given[field.suits]
            entry.mistake(key, f"{key} = {entry.table[key]}: {field.words} must be {limits_text(other, field.units[key])} "
                               f"{beside} = {entry.table[beside]}")

    def check_line(self, line):
        ends = [line.bus[key] for key in line.kind.ends]
        nominal = [self.buses[bus].numbers.get("nominal voltage") for bus in ends]
        if None not in nominal and nominal[0] != nominal[1]:
            sides = " and ".join(f"{self.name(bus)} at {decimal_text(Fraction(value, 1000))} kV"
                                 for bus, value in zip(ends, nominal))
            line.mistake("to", f"a line joins equal nominal voltages, but {sides}; a transformer joins different ones")

    def check_rated(self, entry, field):
        """Rated volts go with the bus that the entry names for that side, whichever of the two is nearer the feeder."""
        bus = entry.bus.get(field.rated_at)
        nominal = None if bus is None or entry.guessed else self.buses[bus].numbers.get("nominal voltage")
        if nominal is None or fits(entry.numbers[field.name], nominal):
            return
        key = entry.given[field.name]
        unit = field.units[key]
        others = [entry.numbers[name] for name in voltages_of(entry) if name in entry.numbers and name != field.name]
        exchanged = EXCHANGED[entry.kind.table] if any(fits(other, nominal) for other in others) else ""
        entry.mistake(key, f"{key} = {entry.table[key]}: {field.words} must be {limits_text(nominal, unit)} the nominal voltage "
                           f"of {self.name(bus)}, {decimal_text(Fraction(nominal, unit.times))} {unit.text}{exchanged}")

    def check_depths(self):
        """Said once on each way, at the first bus that is too far."""
        for step in self.steps:
            bus = self.buses[step.bus]
            if step.branches == MOST_BRANCHES + 1:
                bus.mistake("", f"too deep: more than {MOST_BRANCHES} branches lead to this bus from the feeder's")
            if step.transformers == MOST_TRANSFORMERS + 1 and step.branch.kind.table == "transformer":
                bus.mistake("", f"too deep: more than {MOST_TRANSFORMERS} transformers lead to this bus from the feeder's")

    # Rows

    def rows(self, tolerance):
        number = {step.bus: place for place, step in enumerate(self.steps)}
        rows = [("S", tolerance)] + [("B", *self.bus_values(step, number)) for step in self.steps]
        for source in self.sources:
            kind = source.kind.number
            values = {"source kind": kind, "bus": number[source.bus["bus"]], **source.numbers}
            rows += [("P", *values_of("P", kind, values))] * source.numbers.get("count", 1)
        return rows

    def source_names(self):
        return [source.words.get("name", "") for source in self.sources for _ in range(source.numbers.get("count", 1))]

    def bus_values(self, step, number):
        kind = step.branch.kind.number if step.branch else 0
        branch = seen_from(step.branch, step.parent) if step.branch else {}
        values = {"parent": number[step.parent], "branch kind": kind, **self.buses[step.bus].numbers, **branch}
        return values_of("B", kind, values)


def fits(rated, nominal):
    return 9 * nominal <= 10 * rated <= 11 * nominal


def limits_text(volts, unit):
    """What rated volts may be that go with other volts, in words that these follow."""
    return f"{range_text(Fraction(9 * volts, 10), Fraction(11 * volts, 10), unit)}, 9/10 to 11/10 of"


def voltages_of(entry):
    """All rated voltages of an entry; of a branch they are those of its two sides."""
    return [field.name for field in entry.kind.fields if any(unit.text == "V" for unit in field.units.values())]


def seen_from(branch, parent):
    """A branch's numbers by the record's names, in which the first side is the parent's: `from` need not be the parent."""
    sides = voltages_of(branch)
    turned = sides if branch.bus["from"] == parent else sides[::-1]
    return {**branch.numbers, **{side: branch.numbers[other] for side, other in zip(sides, turned)}}
