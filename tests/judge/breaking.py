"""Whether a breaking figure and the table of shares are right for a bus and a delay (order 3)."""

from fractions import Fraction

from judge import LIMIT
from shares import RootSum

# What the figure may be above the sum: 3 %, and 4 A.
ALLOWED = Fraction(103, 100)
ALLOWED_AMPERES = 4


class BreakingJudge:
    """The exact shares of a closed study's sources for a fault at one bus, by a Bench."""

    def __init__(self, bench, network, bus):
        self.network = network
        self.sources = network.sources
        found = iter(bench.shares(network).at(bus))
        self.shares = [next(found) if network.is_machine(s) else None for s in self.sources]
        self.converters = network.converters_everywhere()[bus]
        self.sums = {}

    def generators(self):
        """Place and share of each generator, units among them."""
        pairs, counts = enumerate(zip(self.sources, self.shares)), self.network.is_generator
        return [(place, share) for place, (source, share) in pairs if counts(source)]

    def sum(self, delay):
        if delay not in self.sums:
            machines = [share for share in self.shares if share]
            terms = [(share.thousandths(delay), share.square) for share in machines]
            self.sums[delay] = RootSum(terms, self.converters)
        return self.sums[delay]

    def reasons(self, delay, figure, table):
        """Why an accepted answer is not right; `table` has two numbers a source."""
        found = number_reasons("figure", figure)
        for number in table:
            found += number_reasons("bound", number)
        return found or self.bounds_reasons(table) + self.figure_reasons(delay, figure)

    def bounds_reasons(self, table):
        found = []
        generators = dict(self.generators())
        for place in range(len(self.sources)):
            lower, upper = table[2 * place : 2 * place + 2]
            if place in generators:
                found += share_reasons(place, lower, upper, generators[place].square)
            elif (lower, upper) != (0, 0):
                found.append(f"source {place}: {lower} and {upper} where 0 and 0 are due")
        return found

    def figure_reasons(self, delay, figure):
        due = self.sum(delay)
        if due.compare(figure) < 0:
            return [f"figure {figure} is below the sum"]
        if due.compare((figure - ALLOWED_AMPERES) / ALLOWED) > 0:
            return [f"figure {figure} is more than 3 % and 4 A above the sum"]
        return []

    def figure_excess(self, delay, figure):
        """How far a figure is above the least whole one, against what is allowed."""
        least = self.sum(delay).ceiling()
        return (figure - least) / (ALLOWED_AMPERES + least * float(ALLOWED - 1))


def number_reasons(name, number):
    return [] if number < LIMIT else [f"{name} {number} is not below 2^53"]


def share_reasons(place, lower, upper, square):
    found = []
    if square.compare(lower * lower) > 0:
        found.append(f"source {place}: lower {lower} is above the exact share")
    if square.compare(upper * upper) < 0:
        found.append(f"source {place}: upper {upper} is below the exact share")
    if 1000 * (upper - lower) > 2000 + upper:
        found.append(f"source {place}: {lower} to {upper} is wider than 2 A and a thousandth")
    return found
