"""Seeded networks: drafts of accepted studies, and the files written from them.

Everything drawn comes from the random.Random handed over, so a seed gives the
same networks again.
"""

from accept import BUSES, SOURCES
from exact import CONVERTER, FEEDER, GENERATOR, LINE, MOTOR, TRANSFORMER, UNIT

TYPICAL_VOLTS = [100, 400, 690, 999, 1000, 1001, 6000, 10000, 20000, 110000, 419999, 420000]
TOP_RATING, TOP_PEAK_RATING = 10**6, 3 * 10**6


def amount(rng, low, high):
    """A whole number of the range: an end, any, or one with an even spread of sizes."""
    way = rng.randrange(12)
    if way < 2:
        return (low, high)[way]
    if way < 6:
        return rng.randint(low, high)
    bits = rng.randint(low.bit_length(), high.bit_length())
    return min(high, max(low, rng.getrandbits(bits) if bits else 0))


def rated_ends(volts):
    """Least and greatest rated volts for nominal volts."""
    return -(-9 * volts // 10), 11 * volts // 10


def write_row(letter, numbers):
    return ",".join([letter, *map(str, numbers)]).encode()


def write_file(tolerance, rows, last_end=True):
    lines = [write_row("S", [tolerance])] + [write_row(*row) for row in rows]
    return b"\r\n".join(lines) + (b"\r\n" if last_end else b"")


class Draft:
    """A network being put together; what is not asked for is drawn."""

    def __init__(self, rng, volts=None, tolerance=None, draw=amount, ratings=(None, None)):
        self.rng = rng
        self.draw = draw
        self.tolerance = tolerance or rng.choice([6, 10])
        self.rows = []
        self.buses = []
        self.sources = 0
        self.depth = [(0, 0)]
        self.add_bus((0, volts or self.any_volts(), 0, 0, 0, 0, 0, 0), *ratings)

    def one_of(self, low, high, asked=None):
        return self.draw(self.rng, low, high) if asked is None else asked

    def any_volts(self):
        if self.draw is amount and self.rng.random() < 0.6:
            return self.rng.choice(TYPICAL_VOLTS)
        return self.one_of(100, 420000)

    def add_bus(self, head, rating=None, peak_rating=None):
        ratings = (
            self.one_of(1, TOP_RATING, rating),
            self.one_of(1, TOP_PEAK_RATING, peak_rating),
        )
        self.buses.append(head + ratings)
        self.rows.append(("B", self.buses[-1]))
        return len(self.buses) - 1

    def line(self, parent, r=None, x=None, metres=None, circuits=None):
        r = self.one_of(0, 100000, r)
        x = self.one_of(0 if r else 1, 100000, x)
        metres, circuits = self.one_of(1, 200000, metres), self.one_of(1, 8, circuits)
        self.note_depth(parent, 0)
        volts = self.buses[parent][1]
        return self.add_bus((parent, volts, LINE, r, x, metres, circuits, 0))

    def transformer(self, parent, volts=None, sides=None, kva=None, uk=None, ur=None):
        """`sides` are the rated volts on the parent's side and on the own side."""
        volts = volts or self.any_volts()
        first, second = sides or (
            self.one_of(*rated_ends(self.buses[parent][1])),
            self.one_of(*rated_ends(volts)),
        )
        kva, uk = self.one_of(10, 10**6, kva), self.one_of(100, 30000, uk)
        ur = self.one_of(0, uk - 1, ur)
        self.note_depth(parent, 1)
        return self.add_bus((parent, volts, TRANSFORMER, first, second, kva, uk, ur))

    def note_depth(self, parent, transformers):
        branches, crossed = self.depth[parent]
        self.depth.append((branches + 1, crossed + transformers))

    def branch(self, parent, transformers=0.3):
        """A line or a transformer, as far as four transformers allow."""
        if self.depth[parent][1] < 4 and self.rng.random() < transformers:
            return self.transformer(parent)
        return self.line(parent)

    def any_bus(self):
        return self.rng.randrange(len(self.buses))

    def source(self, kind, bus, *fields):
        self.sources += 1
        self.rows.append(("P", (kind, bus, *fields)))

    def feeder(self, kva=None, rho=None):
        kva, rho = self.one_of(1000, 10**8, kva), self.one_of(0, 200, rho)
        self.source(FEEDER, 0, kva, rho, 0, 0, 0)

    def generator(self, bus, rated=None, kva=None, xd=None, rho=None, power_factor=None):
        self.source(
            GENERATOR,
            bus,
            self.one_of(*rated_ends(self.buses[bus][1]), rated),
            self.one_of(10, 10**6, kva),
            self.one_of(1000, 100000, xd),
            self.one_of(0, 200, rho),
            self.one_of(70, 100, power_factor),
        )

    def motor(self, bus, rated=None, kva=None, ratio=None, rho=None):
        self.source(
            MOTOR,
            bus,
            self.one_of(*rated_ends(self.buses[bus][1]), rated),
            self.one_of(1, 100000, kva),
            self.one_of(10, 100, ratio),
            self.one_of(0, 200, rho),
            0,
        )

    def converter(self, bus, tenths=None, k=None):
        tenths, k = self.one_of(1, 100000, tenths), self.one_of(100, 300, k)
        self.source(CONVERTER, bus, tenths, k, 0, 0, 0)

    def unit(self, bus, machine=(None,) * 5, transformer=(None,) * 5):
        """`machine` is what a generator has; then low and high volts, kVA, uk and uR."""
        rated, kva, xd, rho, power_factor = machine
        low, high, transformer_kva, uk, ur = transformer
        low, uk = self.one_of(90, 462000, low), self.one_of(100, 30000, uk)
        self.source(
            UNIT,
            bus,
            self.one_of(*rated_ends(low), rated),
            self.one_of(10, 10**6, kva),
            self.one_of(1000, 100000, xd),
            self.one_of(0, 200, rho),
            self.one_of(70, 100, power_factor),
            low,
            self.one_of(*rated_ends(self.buses[bus][1]), high),
            self.one_of(10, 10**6, transformer_kva),
            uk,
            self.one_of(0, uk - 1, ur),
        )

    def any_sources(self, count, kinds=(GENERATOR, MOTOR, CONVERTER), buses=None):
        make = {GENERATOR: self.generator, MOTOR: self.motor, CONVERTER: self.converter, UNIT: self.unit}
        for _ in range(min(count, SOURCES - self.sources)):
            bus = self.rng.choice(buses) if buses else self.any_bus()
            make[self.rng.choice(kinds)](bus)

    def mix(self):
        """Move source records up at random, each kind kept in order and behind its bus."""
        sources = [row for row in self.rows if row[0] == "P"]
        mixed, place = [], 0
        for count, bus in enumerate(self.buses, 1):
            mixed.append(("B", bus))
            while place < len(sources) and sources[place][1][1] < count:
                if self.rng.random() < 0.4:
                    break
                mixed.append(sources[place])
                place += 1
        self.rows = mixed + sources[place:]
        return self

    def file(self):
        return write_file(self.tolerance, self.rows, self.rng.random() < 0.8)


# Families: a function of the random.Random gives a Draft


def random_tree(rng, buses=None, sources=None):
    draft = Draft(rng)
    draft.feeder()
    for _ in range(rng.randrange(rng.choice([4, 12, 40, BUSES])) if buses is None else buses - 1):
        near = rng.randrange(max(0, len(draft.buses) - 3), len(draft.buses))
        parent = near if rng.random() < 0.5 else draft.any_bus()
        while draft.depth[parent][0] == 18:
            parent = draft.any_bus()
        draft.branch(parent)
    if sources is None:
        sources = rng.randrange(1, rng.choice([3, 10, 40, 100, SOURCES + 1]))
    draft.any_sources(sources - 1)
    return draft.mix()


def full_tree(rng):
    """As many buses and sources as a study takes."""
    return random_tree(rng, BUSES, SOURCES)


def arm(draft, parent, depth=18, transformers=4):
    """A chain of branches from a bus, with transformers at drawn places; gives its end."""
    places = draft.rng.sample(range(depth), transformers)
    for i in range(depth):
        parent = draft.transformer(parent) if i in places else draft.line(parent)
    return parent


def chain(rng):
    draft = Draft(rng)
    draft.feeder()
    end = arm(draft, 0)
    draft.any_sources(1, buses=[end])
    draft.any_sources(rng.randrange(20))
    return draft.mix()


def arm_to_arm(rng):
    """Two arms of 18 branches; sources at one end are seen from the other over 36."""
    draft = Draft(rng)
    draft.feeder(kva=1000 if rng.random() < 0.5 else None)
    end = arm(draft, 0)
    arm(draft, 0)
    draft.generator(end)
    draft.converter(end)
    draft.any_sources(rng.choice([0, 5]))
    return draft.mix()


def star(rng):
    draft = Draft(rng)
    draft.feeder()
    for _ in range(BUSES - 1):
        draft.branch(0)
    draft.any_sources(rng.choice([0, 20, SOURCES - 1]))
    return draft.mix()


def crowd(rng):
    """As many machines as a study takes, all at one bus."""
    draft = Draft(rng)
    draft.feeder()
    bus = draft.branch(draft.branch(0))
    draft.any_sources(SOURCES - 1, (GENERATOR, MOTOR), [rng.randint(0, bus)])
    return draft


def end_of_range(rng, low, high):
    return rng.choice((low, high))


def extremes(rng):
    """Every field at one of its ends."""
    draft = Draft(rng, draw=rng.choice([end_of_range, lowest, highest]))
    draft.feeder()
    for _ in range(rng.choice([1, 5, 40, BUSES - 1])):
        parent = draft.any_bus()
        if draft.depth[parent][0] < 18:
            draft.branch(parent)
    draft.any_sources(rng.choice([1, 5, 120, SOURCES - 1]))
    return draft.mix()


def lowest(rng, low, high):
    return low


def highest(rng, low, high):
    return high


def plain_lines(rng):
    """Lines without resistance or without reactance."""
    draft = Draft(rng)
    draft.feeder(rho=rng.choice([0, 0, None]))
    for _ in range(rng.randrange(1, 20)):
        parent = draft.any_bus()
        if draft.depth[parent][0] < 18:
            value = amount(rng, 1, 100000)
            draft.line(parent, *rng.choice([(0, value), (value, 0)]))
    draft.any_sources(rng.randrange(5))
    return draft.mix()


def bare_subtrees(rng):
    """A few sources: most subtrees have converters only, or nothing."""
    draft = Draft(rng)
    draft.feeder()
    for _ in range(rng.randrange(3, 40)):
        parent = draft.any_bus()
        if draft.depth[parent][0] < 18:
            draft.branch(parent)
    draft.any_sources(rng.randrange(1, 6), (CONVERTER,))
    draft.any_sources(rng.randrange(2), (GENERATOR, MOTOR))
    return draft.mix()


def low_voltage(rng):
    """Nominal volts on both sides of 1,000, where c changes."""
    draft = Draft(rng, volts=rng.choice([999, 1000, 1001]))
    draft.feeder()
    for _ in range(rng.randrange(1, 10)):
        parent = draft.any_bus()
        if draft.depth[parent][1] < 4:
            draft.transformer(parent, rng.choice([999, 1000, 1001]))
    draft.any_sources(rng.randrange(10))
    return draft.mix()


def steep(rng):
    """R/X anywhere from 0 to far above 2.3, by lines from a strong feeder."""
    draft = Draft(rng, volts=rng.choice([100, 1000, 10000]))
    draft.feeder(kva=rng.choice([10**8, 10**7, None]))
    for _ in range(rng.randrange(1, rng.choice([20, BUSES]))):
        draft.line(0, amount(rng, 1, 100000), amount(rng, 0, rng.choice([1, 100, 100000])))
    draft.any_sources(rng.randrange(3))
    return draft.mix()


FAMILIES = [
    random_tree,
    full_tree,
    chain,
    arm_to_arm,
    star,
    crowd,
    extremes,
    plain_lines,
    bare_subtrees,
    low_voltage,
    steep,
]
# Large networks take the judge longest; the small ones find as much.
WEIGHTS = [24, 1, 6, 6, 1, 1, 6, 9, 9, 9, 6]


def any_network(rng):
    """A family's name and a Draft of it."""
    family = rng.choices(FAMILIES, WEIGHTS)[0]
    return family.__name__, family(rng)


# The same network with other converters or other ratings


def without_converters(rows):
    return [row for row in rows if row[0] == "B" or row[1][0] != CONVERTER]


def with_more_converters(rng, rows):
    """Converters put in at drawn places behind the feeder, the rest left in order."""
    rows = list(rows)
    space = SOURCES - sum(row[0] == "P" for row in rows)
    for _ in range(min(space, rng.randint(1, 8))):
        feeder = next(i for i, row in enumerate(rows) if row[0] == "P")
        place = rng.randint(feeder + 1, len(rows))
        buses = sum(row[0] == "B" for row in rows[:place])
        fields = (amount(rng, 1, 100000), amount(rng, 100, 300), 0, 0, 0)
        rows.insert(place, ("P", (CONVERTER, rng.randrange(buses), *fields)))
    return rows


def border_ratings(amperes):
    """Names and pairs (rating, peak rating) at and beside each border of the verdict."""
    found = []
    sums = (("L", amperes.lower), ("U", amperes.upper))
    for name, border in sums:
        for beside in (-1, 0, 1):
            found.append((f"rating {name}{beside:+}", border + beside, TOP_PEAK_RATING))
            found.append((f"rating {name}{beside:+}, peak P", border + beside, amperes.peak))
    for beside in (-1, 0, 1):
        peak = amperes.peak + beside
        found.append((f"peak P{beside:+}, ample", TOP_RATING, peak))
        found.append((f"peak P{beside:+}, rating L", amperes.lower, peak))
        found.append((f"peak P{beside:+}, rating L-1", amperes.lower - 1, peak))
    return found


def with_ratings(rows, ratings):
    """Rows with other ratings, by bus; those out of range are brought to its ends."""
    ratings = iter(ratings)
    changed = []
    for letter, numbers in rows:
        if letter == "B":
            rating, peak = next(ratings)
            ends = (min(max(rating, 1), TOP_RATING), min(max(peak, 1), TOP_PEAK_RATING))
            numbers = (*numbers[:8], *ends)
        changed.append((letter, numbers))
    return changed
