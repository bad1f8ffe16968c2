"""Where everything on a one-line diagram goes: a box for each label, symbol, bar and wire, and for heading and legend.

`blocks` arranges the buses; here each thing gets its place. Boxes of two things never overlap, save that a wire reaches
one px into what it joins and a mark for circuits stands on its wire. tests/check-diagram holds the drawing to it.
"""
from typing import NamedTuple

from . import lettering
from .blocks import (BAR, CAP, ENTRY, GAP, MARGIN, OUT, SIZES, SOURCE_ROW, STEP, STUB, SYMBOL, TRANSFORMER, Run, best_block,
                     source_run, symbol_width)
from .oneline import KIND_WORDS, VERDICT_WORDS, Line, Transformer

WIRE = 1.6  # thickness
INTO = 1  # how far a wire reaches into what it joins, so that no gap shows between them
BEYOND = 4  # how far a bar goes on below its last branch
CIRCUITS = (22, 22)  # the mark of parallel circuits, with its number
LEAST_WIDTH = 400  # for heading and legend
LEGEND_ROW, LEGEND_GAP = 24, 18
TITLE_SIZE, TITLE_ROW, TEXT_ROW = 16, 24, 18
VERDICT_LEGEND = {"W": "within its ratings", "O": "over a rating", "C": "close: the bounds enclose the rating"}


class Box(NamedTuple):
    left: float
    top: float
    right: float
    bottom: float


class Item(NamedTuple):
    """A thing on the drawing, the bus that it belongs to (or none) and what the drawing has to know of it besides."""
    kind: str
    bus: int | None
    box: Box
    what: object = None


class Drawing(NamedTuple):
    width: float
    height: float
    items: list[Item]


def across(kind, bus, left, right, y, what=None):
    return Item(kind, bus, Box(left - INTO, y - WIRE / 2, right + INTO, y + WIRE / 2), what)


def upright(kind, bus, x, top, bottom, what=None):
    return Item(kind, bus, Box(x - WIRE / 2, top - INTO, x + WIRE / 2, bottom + INTO), what)


# ---- branches

def branch_across(bus, left, right, y):
    """A branch to the right, from the edge of the parent's bar to that of its own."""
    middle = (left + right) / 2
    if isinstance(bus.branch, Transformer):
        long, wide = TRANSFORMER
        yield across("wire", bus.number, left, middle - long / 2, y)
        yield across("wire", bus.number, middle + long / 2, right, y)
        yield Item("transformer", bus.number, Box(middle - long / 2, y - wide / 2, middle + long / 2, y + wide / 2), "across")
        return
    yield across("wire", bus.number, left, right, y)
    if isinstance(bus.branch, Line) and bus.branch.circuits > 1:
        long, tall = CIRCUITS
        box = Box(middle - 6, y - tall + 6, middle - 6 + long, y + 6)
        yield Item("circuits", bus.number, box, ("across", bus.branch.circuits))


def branch_down(bus, x, top, bottom):
    """A branch straight down, from the end of the parent's bar to its own."""
    if isinstance(bus.branch, Transformer):
        long, wide = TRANSFORMER
        low = bottom - 8
        yield upright("wire", bus.number, x, top, low - long)
        yield upright("wire", bus.number, x, low, bottom)
        yield Item("transformer", bus.number, Box(x - wide / 2, low - long, x + wide / 2, low), "down")
        return
    yield upright("wire", bus.number, x, top, bottom)
    if isinstance(bus.branch, Line) and bus.branch.circuits > 1:
        yield Item("circuits", bus.number, Box(x - 6, bottom - 18, x + 16, bottom - 5), ("down", bus.branch.circuits))


# ---- a bus

def source_items(number, group, x, y, run):
    """Symbol and label of a group of sources; x is the symbol's left edge and y its middle."""
    right = x + symbol_width(group.kind)
    yield Item("source", number, Box(x, y - SYMBOL / 2, right, y + SYMBOL / 2), group)
    left = right + 5
    yield Item("source label", number, Box(left, y - 7, left + run.width(), y + 7), (run, group))


def sources_beside(block, x, y):
    """The sources of a bus, each group on a wire of its own from the bar."""
    top = y + block.label_top + block.head.label_height
    number = block.head.bus.number
    for place, group in enumerate(block.head.groups):
        middle = top + SOURCE_ROW * (place + 0.5)
        edge = x + BAR / 2
        yield across("source wire", number, edge, edge + STUB, middle, group)
        yield from source_items(number, group, edge + STUB, middle, source_run(group))


def sources_above(block, x, y):
    """The feeder over the bar of bus 0."""
    for group in block.head.above:
        yield upright("source wire", block.head.bus.number, x, y - STUB, y, group)
        yield from source_items(block.head.bus.number, group, x - SYMBOL / 2, y - STUB - SYMBOL / 2, source_run(group))


def label_item(block, x, y):
    head, left, top = block.head, x + OUT, y + block.label_top
    return Item("label", head.bus.number, Box(left, top, left + head.label_width, top + head.label_height), head)


def places_of(block, x, y):
    """The blocks of the side branches with the places of their bars, column by column."""
    first = block.label_top + block.head.label_height + SOURCE_ROW * len(block.head.groups) + GAP
    columns = []
    for column, left in zip(block.columns, block.lefts):
        tops = [sum(child.height + GAP for child in column[:k]) for k in range(len(column))]
        start = y + (BAR + GAP if columns else first)
        columns.append([(child, x + left + STEP, start + top) for child, top in zip(column, tops)])
    return columns


def bar_bottom(block, y, column, first):
    """Where an upright bar ends: below its last branch or source, and not above the label of a bus entered from the left."""
    head = block.head
    ends = [top + ENTRY + BEYOND for _, _, top in column]
    if first and head.groups:
        ends.append(y + block.label_top + head.label_height + SOURCE_ROW * (len(head.groups) - 0.5) + BEYOND)
    if first and not block.from_above:
        ends.append(y + block.label_top + head.label_height)
    return max(ends, default=y + BAR)


def bars_of(block, x, y, columns):
    number, last = block.head.bus.number, x + block.lefts[-1]
    if block.from_above or len(columns) > 1:
        left = x - (CAP if block.from_above else BAR / 2)
        yield Item("bar", number, Box(left, y, max(last + BAR / 2, x + CAP), y + BAR))
    for place, (column, left) in enumerate(zip(columns, block.lefts)):
        bottom = bar_bottom(block, y, column, place == 0)
        if bottom > y + BAR:
            yield Item("bar", number, Box(x + left - BAR / 2, y, x + left + BAR / 2, bottom))


def side_items(block, columns):
    """The branches to the right with all behind them."""
    for child, x, y in [place for column in columns for place in column]:
        yield from branch_across(child.head.bus, x - STEP + BAR / 2, x - BAR / 2, y + ENTRY)
        yield from block_items(child, x, y)


def block_items(block, x, y):
    """Everything of a bus and behind it, the top of its bar's middle being at x and y."""
    columns = places_of(block, x, y)
    yield from sources_above(block, x, y)
    yield from bars_of(block, x, y, columns)
    yield label_item(block, x, y)
    yield from sources_beside(block, x, y)
    yield from side_items(block, columns)
    if block.trunk:
        end = bar_bottom(block, y, columns[0], True)
        yield from branch_down(block.trunk.head.bus, x, end, y + block.trunk_top)
        yield from block_items(block.trunk, x, y + block.trunk_top)


# ---- heading and legend

def summary(buses):
    """How many there are, and of each verdict."""
    sources = sum(len(bus.sources) for bus in buses)
    counts = [f"{sum(bus.verdict == letter for bus in buses)} {words}" for letter, words in VERDICT_WORDS.items()]
    told = f"{len(buses)} bus{'es' * (len(buses) != 1)}, {sources} source{'s' * (sources != 1)}"
    return f"{told}: {', '.join(counts)}" if any(bus.verdict for bus in buses) else f"{told}; inputs only, no currents"


def legend_entries(buses):
    """Symbols and their meaning: all verdicts where there is one, and of the elements those that occur."""
    branches = {type(bus.branch) for bus in buses}
    kinds = sorted({source.kind for bus in buses for source in bus.sources})
    entries = list(VERDICT_LEGEND.items()) if any(bus.verdict for bus in buses) else []
    entries += [(kind, KIND_WORDS[kind][0]) for kind in kinds]
    entries += [("line", "line")] if Line in branches else []
    return entries + ([("transformer", "transformer")] if Transformer in branches else [])


def legend_width(symbol):
    """The width of a symbol of the legend: all have the same, as long as they have room in it."""
    return max(TRANSFORMER[0], symbol_width(symbol))


def legend_items(entries, top, room):
    """The entries in rows, as many in each as there is room for."""
    x, y = MARGIN, top
    for symbol, words in entries:
        run = Run(words, "plain")
        wide = legend_width(symbol) + 6 + run.width()
        if x > MARGIN and x + wide > MARGIN + room:
            x, y = MARGIN, y + LEGEND_ROW
        yield Item("legend", None, Box(x, y, x + wide, y + SYMBOL), (symbol, run))
        x += wide + LEGEND_GAP


def text_item(kind, run, y, room, size):
    text = lettering.fitted(lettering.clean(run.text), size, run.bold, room)
    width = lettering.width(text, size, run.bold)
    return Item(kind, None, Box(MARGIN, y, MARGIN + width, y + size * 1.25), (run._replace(text=text), size))


def heading_items(buses, title, note, room):
    """Title, counts, a note and the legend, from the top of the drawing down. Where the title is empty it takes no room."""
    items = [text_item("title", Run(title, "name", True), MARGIN, room, TITLE_SIZE)] if title else []
    texts = [summary(buses), note] if note else [summary(buses)]
    if any(bus.figure for bus in buses):
        texts.append("Currents: upper bound of the initial current / peak")
    top = MARGIN + (TITLE_ROW if title else 0)
    items += [text_item("text", Run(text, "plain", False, "muted"), top + TEXT_ROW * k, room, SIZES["plain"])
              for k, text in enumerate(texts)]
    return items + list(legend_items(legend_entries(buses), top + TEXT_ROW * len(texts) + 6, room))


def layout(buses, title="One-line diagram", note=""):
    """Size and items of the drawing of a study. ValueError where the buses are no tree from bus 0."""
    buses = sorted(buses, key=lambda bus: bus.number)
    block = best_block(buses) if buses else None
    room = max(LEAST_WIDTH, CAP + block.width) if block else LEAST_WIDTH
    items = heading_items(buses, title, note, room)
    bottom = max(item.box.bottom for item in items)
    if block:
        y = bottom + MARGIN + (STUB + SYMBOL if block.head.above else 0)
        items += block_items(block, MARGIN + CAP, y)
        bottom = y + block.height
    return Drawing(room + 2 * MARGIN, bottom + MARGIN, items)
