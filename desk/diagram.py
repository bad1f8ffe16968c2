"""A study as a one-line diagram: one SVG text that needs nothing beside it, no font, no script, no style sheet of a page.

    svg(oneline.buses_of(rows, answers), "Town board")

`oneline` has the data that is drawn and makes it from rows and answers, `layout` gives every thing its place, and here
it is drawn. A verdict has a colour, a letter in a shape of its own (circle within, octagon over, diamond close) and, where
it is not within, its words in a frame, full or dashed; so it can be told apart in grey. There are no ids and no classes that
a page's style sheet could meet, so several drawings can stand on one page.
"""
from math import cos, pi, sin
from xml.sax.saxutils import escape

from . import lettering
from desk.records import CONVERTER, FEEDER, GENERATOR, MOTOR, STATION_UNIT

from .blocks import BADGE, LINK, PAD, PITCH, SIZES, SYMBOL, TRANSFORMER, symbol_width
from .layout import WIRE, Box, layout, legend_width, summary
from .oneline import KIND_WORDS, VERDICT_WORDS, branch_words, kilovolts

INK, MUTED, PAPER = "#1c1c1c", "#4a4a4a", "#ffffff"
COLOURS = {"W": "#00796b", "O": "#b00020", "C": "#8a5a00", "": INK}
TINTS = {"O": "#fdecee", "C": "#fff6e0"}
APART = {"unicode_bidi": "isolate"}  # a name that reads from right to left turns nothing else around
FONTS = "Arial, Helvetica, 'Liberation Sans', 'DejaVu Sans', sans-serif"


# ---- marks

def number(value):
    return f"{value:.2f}".rstrip("0").rstrip(".")


def mark(name, content=None, **attributes):
    """An element; numbers are rounded, an underscore in a name stands for a hyphen, and text is made safe."""
    told = []
    for key, value in attributes.items():
        value = number(value) if isinstance(value, (int, float)) else escape(str(value), {'"': "&quot;"})
        told.append(f' {key.replace("_", "-")}="{value}"')
    return f"<{name}{''.join(told)}/>" if content is None else f"<{name}{''.join(told)}>{content}</{name}>"


def stroke(x1, y1, x2, y2, colour=INK, width=WIRE):
    return mark("line", x1=x1, y1=y1, x2=x2, y2=y2, stroke=colour, stroke_width=width)


def circle(x, y, radius, colour=INK, fill=PAPER, width=1.4):
    return mark("circle", cx=x, cy=y, r=radius, stroke=colour, stroke_width=width, fill=fill)


def square(box, colour=INK, width=1.4):
    return mark("rect", x=box.left, y=box.top, width=box.right - box.left, height=box.bottom - box.top, fill=PAPER,
                stroke=colour, stroke_width=width)


def polygon(points, colour, fill):
    told = " ".join(f"{number(x)},{number(y)}" for x, y in points)
    return mark("polygon", points=told, stroke=colour, stroke_width=1.4, fill=fill, stroke_linejoin="round")


def letter(text, x, y, size, colour=INK):
    return mark("text", escape(text), x=x, y=y + size * 0.36, font_size=size, font_weight="bold", fill=colour,
                text_anchor="middle")


def shrunk(box, by):
    return Box(box.left + by, box.top + by, box.right - by, box.bottom - by)


# ---- symbols, each inside its box

def feeder_symbol(box):
    """The network: a hatched square."""
    box = shrunk(box, 1)
    side = box.right - box.left
    lines = []
    for at in (side / 3, side * 2 / 3, side):
        lines.append(stroke(box.left, box.top + at, box.left + at, box.top, width=1))
        lines.append(stroke(box.right - at, box.bottom, box.right, box.bottom - at, width=1) if at < side else "")
        lines.append(stroke(box.left, box.bottom - at, box.left + at, box.bottom, width=1))
        lines.append(stroke(box.right - at, box.top, box.right, box.top + at, width=1) if at < side else "")
    return square(box) + "".join(lines)


def machine_symbol(box, text):
    x, y = (box.left + box.right) / 2, (box.top + box.bottom) / 2
    return circle(x, y, SYMBOL / 2 - 1) + letter(text, x, y, 11)


def converter_symbol(box):
    """A square with a diagonal: direct current above it, alternating current below."""
    box = shrunk(box, 1)
    left, low = box.left + 9.5, box.bottom - 4.5
    wave = f"M{number(left)},{number(low)} q1.75,-4 3.5,0 t3.5,0"
    return (square(box) + stroke(box.left, box.bottom, box.right, box.top, width=1.2)
            + stroke(box.left + 2.5, box.top + 4, box.left + 8.5, box.top + 4, width=1.2)
            + stroke(box.left + 2.5, box.top + 6.8, box.left + 8.5, box.top + 6.8, width=1.2)
            + mark("path", d=wave, fill="none", stroke=INK, stroke_width=1.2))


def station_unit_symbol(box):
    """A generator behind its own transformer, which stands at the bus."""
    middle, (long, wide) = (box.top + box.bottom) / 2, TRANSFORMER
    near = Box(box.left, middle - wide / 2, box.left + long, middle + wide / 2)
    return (transformer_symbol(near, "across") + stroke(near.right - WIRE / 2, middle, near.right + LINK + WIRE / 2, middle)
            + machine_symbol(Box(box.right - SYMBOL, box.top, box.right, box.bottom), "G"))


def source_symbol(kind, box):
    if kind == FEEDER:
        return feeder_symbol(box)
    if kind == CONVERTER:
        return converter_symbol(box)
    if kind == STATION_UNIT:
        return station_unit_symbol(box)
    return machine_symbol(box, {GENERATOR: "G", MOTOR: "M"}[kind])


def transformer_symbol(box, way):
    """Two circles that overlap, along the wire; without filling, so that both are seen whole."""
    radius = min(box.right - box.left, box.bottom - box.top) / 2 - 0.7
    x, y = (box.left + box.right) / 2, (box.top + box.bottom) / 2
    along = max(box.right - box.left, box.bottom - box.top) / 2 - radius - 0.7
    dx, dy = (along, 0) if way == "across" else (0, along)
    return circle(x - dx, y - dy, radius, fill="none") + circle(x + dx, y + dy, radius, fill="none")


def circuits_mark(box, way, count):
    """A stroke across the wire with the number of circuits."""
    x = box.left + 6
    y = box.bottom - 6 if way == "across" else (box.top + box.bottom) / 2
    figure_x, figure_y = (x + 8, y - 5) if way == "across" else (x + 9, y + 3.6)
    return (stroke(x - 4, y + 5, x + 4, y - 5, width=1.2)
            + mark("text", str(count), x=figure_x, y=figure_y, font_size=SIZES["small"], fill=INK))


def badge(verdict, x, y):
    """The letter of a verdict in its shape, round x and y."""
    colour, radius = COLOURS[verdict], BADGE / 2 - 1
    if verdict == "W":
        return circle(x, y, radius - 0.5, colour) + letter("W", x, y, 9.5, colour)
    if verdict == "C":
        around = [(x, y - radius), (x + radius, y), (x, y + radius), (x - radius, y)]
        return polygon(around, colour, PAPER) + letter("C", x, y, 9.5, colour)
    around = [(x + radius * cos(pi * (k + 0.5) / 4), y + radius * sin(pi * (k + 0.5) / 4)) for k in range(8)]
    return polygon(around, colour, colour) + letter("O", x, y, 9.5, PAPER)


# ---- items

def text_line(runs, x, y, colours):
    """A line of text; y is its baseline."""
    pieces = [mark("tspan", escape(run.text), font_size=SIZES[run.style], font_weight="bold" if run.bold else "normal",
                   fill=colours[run.tone], **({} if run.text.isascii() else APART)) for run in runs]
    return mark("text", "".join(pieces), x=x, y=y)


def label(head, box):
    verdict = head.bus.verdict
    colours = {"ink": INK, "muted": MUTED, "verdict": COLOURS[verdict]}
    drawn = []
    if verdict in TINTS:
        dashes = {"stroke_dasharray": "4 2.5"} if verdict == "C" else {}
        edge = shrunk(box, 0.6)
        drawn.append(mark("rect", x=edge.left, y=edge.top, width=edge.right - edge.left, height=edge.bottom - edge.top, rx=3,
                          fill=TINTS[verdict], stroke=COLOURS[verdict], stroke_width=1.2, **dashes))
    if verdict:
        drawn.append(badge(verdict, box.left + PAD + BADGE / 2, box.top + PAD - 2 + BADGE / 2))
    x, y = box.left + PAD + (BADGE + PAD if verdict else 0), box.top + PAD - 3.5
    for runs in head.lines:
        y += PITCH[runs[0].style]
        drawn.append(text_line(runs, x, y - 1.5, colours))
    return "".join(drawn)


def wire(box):
    if box.right - box.left > box.bottom - box.top:
        return stroke(box.left, (box.top + box.bottom) / 2, box.right, (box.top + box.bottom) / 2)
    return stroke((box.left + box.right) / 2, box.top, (box.left + box.right) / 2, box.bottom)


def legend(symbol, run, box):
    middle, wide = (box.top + box.bottom) / 2, legend_width(symbol)
    if symbol in VERDICT_WORDS:
        drawn = badge(symbol, box.left + wide / 2, middle)
    elif symbol in KIND_WORDS:
        left = box.left + (wide - symbol_width(symbol)) / 2
        drawn = source_symbol(symbol, Box(left, box.top, left + symbol_width(symbol), box.bottom))
    elif symbol == "transformer":
        drawn = transformer_symbol(Box(box.left, middle - 9, box.left + wide, middle + 9), "across")
    else:
        drawn = stroke(box.left, middle, box.left + wide, middle)
    return drawn + text_line((run,), box.left + wide + 6, middle + 4, {"ink": INK})


def inside(item, colour):
    """The marks of an item."""
    box = item.box
    if item.kind == "bar":
        return mark("rect", x=box.left, y=box.top, width=box.right - box.left, height=box.bottom - box.top, fill=colour)
    if item.kind in ("wire", "source wire"):
        return wire(box)
    if item.kind == "transformer":
        return transformer_symbol(box, item.what)
    if item.kind == "circuits":
        return circuits_mark(box, *item.what)
    if item.kind == "source":
        return tooltip(item.what.details) + source_symbol(item.what.kind, box)
    if item.kind == "source label":
        run, group = item.what
        return tooltip(group.details) + text_line((run,), box.left, box.bottom - 3.4, {"ink": INK})
    if item.kind == "legend":
        return legend(*item.what, box)
    if item.kind == "label":
        return label(item.what, box)
    run, size = item.what  # title and texts of the heading
    weight = "bold" if run.bold else "normal"
    return mark("text", escape(run.text), x=box.left, y=box.top + size, font_size=size, font_weight=weight,
                fill=INK if run.bold else MUTED)


def tooltip(text):
    return mark("title", escape("\n".join(map(lettering.clean, text.split("\n")))))


def bus_tooltip(bus):
    name = f"Bus {bus.number} {lettering.clean(bus.name)}".strip()
    told = [f"{name}, {kilovolts(bus.volts)}", branch_words(bus.branch), bus.words, bus.details]
    return tooltip("\n".join(text for text in told if text))


def items_of(items, colour):
    return "\n".join(mark("g", inside(item, colour), data_item=item.kind) for item in items)


def bus_group(bus, items):
    return mark("g", bus_tooltip(bus) + "\n" + items_of(items, COLOURS[bus.verdict]) + "\n", data_bus=bus.number)


def drawn(drawing, buses, title, name=""):
    """A drawing whose places are given, as SVG in its natural size. On a page that shows parts of it again, all that is drawn is a
    group of this name."""
    owned = {bus.number: [] for bus in buses}
    for item in drawing.items:
        owned.setdefault(item.bus, []).append(item)
    words = [mark("title", escape(lettering.clean(title))),
             mark("desc", escape(f"One-line diagram of a radial network from the feeder down. {summary(buses)}."))]
    parts = [mark("rect", width=drawing.width, height=drawing.height, fill=PAPER), items_of(owned.get(None, []), INK)]
    parts += [bus_group(bus, owned[bus.number]) for bus in sorted(buses, key=lambda bus: bus.number)]
    parts = words + ([mark("g", "\n" + "\n".join(parts) + "\n", id=name)] if name else parts)
    wide, tall = number(drawing.width), number(drawing.height)
    return mark("svg", "\n" + "\n".join(parts) + "\n", xmlns="http://www.w3.org/2000/svg", role="img", width=wide, height=tall,
                viewBox=f"0 0 {wide} {tall}", font_family=FONTS) + "\n"


def svg(buses, title="One-line diagram", note=""):
    """The one-line diagram of a study; ValueError where the buses are no tree from bus 0."""
    return drawn(layout(buses, title, note), buses, title)
