"""How the buses of a one-line diagram are arranged: what stands beside what, and how much space it takes.

A bus is a thick bar. Its branches leave an upright bar to the right, one below the other, each with the buses behind it. Where
more than half of what lies behind a bus lies behind one branch, that branch goes straight on down instead, as a feeder does
in a planner's drawing; so nothing is pushed to the right more than log2 of the number of buses times. Where many branches
leave a bus, they stand in columns, and the bar runs along the top of these and down beside each. How wide the columns may
get in all is tried out: the drawing is made that can be printed largest on one upright sheet of A4.
"""
from math import inf
from typing import NamedTuple

from desk.records import FEEDER, STATION_UNIT

from . import lettering
from .oneline import Bus, Group, Line, Transformer, branch_words, groups, kilovolts

BAR = 6  # thickness of a busbar
CAP = 15  # half of the crossbar of a bus that is entered from above
STEP = 58  # from a bar to the bars of its branches on the right
ENTRY = 20  # how far below its top an upright bar is entered
OUT = 9  # from the middle of a bar to what stands beside it
SYMBOL = 20  # sides of a source's symbol; that of a power station unit is wider
STUB = 12  # wire between a bar and a source's symbol
SOURCE_ROW = 24
GAP, COLUMN_GAP = 7, 22  # between branches below each other, and between columns
AFTER = 8  # more space below a side branch with several buses
DROP, MARKED_DROP, TRANSFORMER_DROP = 16, 24, 42  # length of a branch straight down: plain, with a number of circuits, ..
TRANSFORMER = (28, 18)  # two circles, along the wire and across
LINK = 4  # wire between transformer and generator in the symbol of a power station unit
PAD = 4  # around the text of a label
BADGE = 18
MARGIN = 24  # around the drawing
SHEET = (718, 1047)  # A4 with margins of 10 mm, in px
FIRST_WIDTH, WIDEST = 300, 4000
WIDTH_STEP = 60
NAME_ROOM, SOURCE_ROOM = 170, 220
SIZES = {"name": 12, "plain": 11, "small": 10}
PITCH = {"name": 14, "plain": 13, "small": 12.5}


class Run(NamedTuple):
    """A piece of a line of text; the tone is ink, muted or verdict."""
    text: str
    style: str
    bold: bool = False
    tone: str = "ink"

    def width(self):
        return lettering.width(self.text, SIZES[self.style], self.bold)


class Head(NamedTuple):
    """What stands at a bus itself: its label and the symbols of its sources. The feeder of bus 0 stands above the bar."""
    bus: Bus
    lines: tuple[tuple[Run, ...], ...]
    groups: list[Group]
    above: list[Group]
    label_width: float
    label_height: float
    width: float


class Block(NamedTuple):
    """A bus with all behind it, measured from the top of the middle of its bar."""
    head: Head
    from_above: bool
    columns: list[list["Block"]]
    lefts: list[float]
    trunk: "Block | None"
    label_top: float
    width: float
    height: float
    trunk_top: float


# ---- the tree

def trunk_of(children, sizes):
    """The branch that goes straight on: the one with more behind it than all the others together."""
    total = sum(sizes[child.number] for child in children)
    return next((child for child in children if 2 * sizes[child.number] > total), None)


def tree_of(buses):
    """The buses behind each, and how many there are behind and with each."""
    children = {bus.number: [] for bus in buses}
    sizes = {bus.number: 1 for bus in buses}
    if len(children) != len(buses) or 0 not in children:
        raise ValueError("there is no bus 0, or two buses have one number")
    for bus in sorted(buses, key=lambda bus: -bus.number):
        if bus.number:
            if not (0 <= bus.parent < bus.number and bus.parent in children):
                raise ValueError(f"bus {bus.number} names bus {bus.parent} as its parent, which is not one above it")
            children[bus.parent].insert(0, bus)
            sizes[bus.parent] += sizes[bus.number]
    return children, sizes


# ---- a bus itself

def label_lines(bus):
    name = lettering.clean(bus.name)
    title = lettering.fitted(f"{bus.number}  {name}" if name else f"Bus {bus.number}", SIZES["name"], True, NAME_ROOM)
    lines = [(Run(title, "name", True), Run(f" {kilovolts(bus.volts)}", "plain"))]
    if bus.figure:
        lines.append((Run(lettering.clean(bus.figure), "plain"),))
    if bus.verdict in ("O", "C") and bus.words:
        lines += [(Run(words, "small", True, "verdict"),) for words in folded(lettering.clean(bus.words))]
    if bus.branch is not None:
        lines.append((Run(branch_words(bus.branch), "small", False, "muted"),))
    return tuple(lines)


def folded(words):
    """A verdict over both ratings in two lines, so that its label is no wider than others; the blank between them is not drawn."""
    first, joint, second = words.partition(" and ")
    return [first, joint + second] if joint else [first]


def source_run(group):
    return Run(lettering.fitted(lettering.clean(group.label), SIZES["small"], False, SOURCE_ROOM), "small")


def symbol_width(kind):
    """The width of a source's symbol: a power station unit is a transformer and, behind it, a generator."""
    return TRANSFORMER[0] + LINK + SYMBOL if kind == STATION_UNIT else SYMBOL


def line_width(line):
    return sum(run.width() for run in line)


def head_of(bus):
    lines = label_lines(bus)
    label_width = 2 * PAD + max(map(line_width, lines)) + (BADGE + PAD if bus.verdict else 0)
    label_height = PAD + sum(PITCH[line[0].style] for line in lines) + 1
    above = [group for group in groups(bus.sources) if group.kind == FEEDER and bus.number == 0]
    rest = [group for group in groups(bus.sources) if group not in above]
    source_widths = [STUB + BAR / 2 + symbol_width(group.kind) + 5 + source_run(group).width() for group in above + rest]
    return Head(bus, lines, rest, above, label_width, label_height, max([OUT + label_width] + source_widths))


# ---- blocks

def split(heights, first_top, other_top, limit):
    """How many blocks go into each column of at most that depth, in order; the first column begins lower than the others."""
    counts, depth = [0], first_top
    for height in heights:
        if counts[-1] and depth + height > limit:
            counts.append(0)
            depth = other_top
        counts[-1] += 1
        depth += height + GAP
    return counts


def even_columns(blocks, count, first_top, other_top):
    """The blocks in at most that many columns, as short as can be in this order."""
    heights = [block.height for block in blocks]
    low, high = max(heights, default=0), first_top + sum(heights) + GAP * len(heights)
    while count > 1 and high - low > 4:
        middle = (low + high) / 2
        if len(split(heights, first_top, other_top, middle)) <= count:
            high = middle
        else:
            low = middle
    counts = split(heights, first_top, other_top, high)
    return [blocks[sum(counts[:k]):sum(counts[:k + 1])] for k in range(len(counts))]


def column_lefts(head, columns):
    """Where the columns begin, and where one more would."""
    widths = [STEP + max((block.width for block in column), default=-STEP) for column in columns]
    widths[0] = max(widths[0], head.width)
    return [sum(widths[:k]) + k * COLUMN_GAP for k in range(len(columns) + 1)]


def head_depth(head, label_top):
    return label_top + head.label_height + SOURCE_ROW * len(head.groups)


def label_top_of(from_above, columns):
    return BAR + 3 if from_above or columns > 1 else 1


def drop(branch):
    if isinstance(branch, Transformer):
        return TRANSFORMER_DROP
    return MARKED_DROP if isinstance(branch, Line) and branch.circuits > 1 else DROP


def block_of(head, from_above, columns, trunk):
    """The block of a bus with these columns of side branches and with a branch straight down, if there is one."""
    label_top = label_top_of(from_above, len(columns))
    below_head = head_depth(head, label_top)
    tops = [below_head + GAP] + [BAR + GAP] * (len(columns) - 1)
    depths = [top + sum(block.height + GAP for block in column) - GAP for column, top in zip(columns, tops) if column]
    bottom = max([below_head] + depths)
    *lefts, end = column_lefts(head, columns)
    width, height, trunk_top = end - COLUMN_GAP, bottom, bottom
    if trunk:
        trunk_top = bottom + drop(trunk.head.bus.branch)
        width, height = max(width, trunk.width), trunk_top + trunk.height
    if not from_above and (trunk or columns[0]):
        height += AFTER
    return Block(head, from_above, columns, lefts, trunk, label_top, width, height, trunk_top)


class Arranger:
    """Finds blocks no wider than asked, as low as can be; what was found for a bus and a width is kept."""

    def __init__(self, buses):
        self.heads = {bus.number: head_of(bus) for bus in buses}
        self.children, self.sizes = tree_of(buses)
        self.found = {}
        self.least, self.most = {}, {}
        for bus in sorted(buses, key=lambda bus: -bus.number):
            self.note_widths(bus.number, [child.number for child in self.children[bus.number]])

    def note_widths(self, number, behind):
        """Below the least width all behind a bus stands in one column each; beyond the most, more width is of no use."""
        own = self.heads[number].width
        beside = min((self.heads[child].width for child in behind), default=0) + own + COLUMN_GAP + STEP
        self.least[number] = min([self.least[child] for child in behind] + [beside if len(behind) > 1 else inf])
        self.most[number] = own + sum(STEP + COLUMN_GAP + self.most[child] for child in behind)

    def block(self, number, width, from_above):
        """Widths are taken in steps, so that few arrangements are tried."""
        if width < self.least[number]:
            width = 0
        width = self.most[number] if width >= self.most[number] else width // WIDTH_STEP * WIDTH_STEP
        key = (number, width, from_above)
        if key not in self.found:
            self.found[key] = self.lowest(number, width, from_above)
        return self.found[key]

    def columns(self, number, sides, count, width, from_above):
        """Side branches in at most that many columns of equal width."""
        room = (width - (count - 1) * COLUMN_GAP) / count - STEP
        blocks = [self.block(side, room, False) for side in sides]
        first_top = head_depth(self.heads[number], label_top_of(from_above, count)) + GAP
        return even_columns(blocks, count, first_top, BAR + GAP)

    def arrangements(self, number, width, from_above):
        """The ways to arrange what is behind a bus, those of few columns first."""
        head, children = self.heads[number], self.children[number]
        straight = trunk_of(children, self.sizes)
        sides = [child.number for child in children if child is not straight]
        trunk = straight and self.block(straight.number, width, True)
        for count in range(1, max(1, len(sides)) + 1):
            yield block_of(head, from_above, self.columns(number, sides, count, width, from_above), trunk)
            if straight and sides:
                # what would go straight down stands beside the others, in what width they leave
                share = (width - COLUMN_GAP) * count / (count + 1)
                columns = self.columns(number, sides, count, share, from_above)
                room = width - column_lefts(head, columns)[-1] - STEP
                yield block_of(head, from_above, columns + [[self.block(straight.number, room, False)]], None)

    def lowest(self, number, width, from_above):
        best = None
        wide = 0
        for block in self.arrangements(number, width, from_above):
            wide += block.width > width
            if best is None or (block.width <= width and block.height < best.height - GAP):
                best = block
            if wide > 2:
                break  # more columns only get wider
        return best


def print_scale(block):
    return min(1.0, SHEET[0] / (block.width + 2 * MARGIN), SHEET[1] / (block.height + 6 * MARGIN))


def best_block(buses):
    """The arrangement that prints largest on a sheet; of equal ones the narrowest."""
    arranger = Arranger(buses)
    best = block = arranger.block(0, 0, True)
    width = FIRST_WIDTH
    while print_scale(best) < 1 and print_scale(best) <= SHEET[0] / (block.width + 2 * MARGIN) and width < WIDEST:
        block = arranger.block(0, width, True)
        best = max(best, block, key=print_scale)
        width *= 1.08
    return best
