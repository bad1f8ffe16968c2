"""What is wrong with a one-line diagram: its places, and its SVG read back from the text. tests/check-diagram uses it."""
import re
import sys
import xml.etree.ElementTree as xml
from pathlib import Path

sys.path.insert(0, str(Path(__file__).resolve().parent.parent))
from desk import lettering, oneline  # noqa: E402
from desk.layout import Box, Item  # noqa: E402
from desk.oneline import Line, Transformer  # noqa: E402
from desk.records import CONVERTER, FEEDER, GENERATOR, MOTOR, STATION_UNIT  # noqa: E402

SVG = "{http://www.w3.org/2000/svg}"
LEAST_TEXT = 9
# Of the symbol of each kind of source: how many circles it has, and its letter. Two of a unit's are its transformer.
SYMBOLS = {FEEDER: (0, ""), GENERATOR: (1, "G"), MOTOR: (1, "M"), CONVERTER: (0, ""), STATION_UNIT: (3, "G")}


# ---- boxes

def meet(a, b, slack=0.01):
    return a.left < b.right - slack and b.left < a.right - slack and a.top < b.bottom - slack and b.top < a.bottom - slack


def holds(outer, inner, slack=0.05):
    return (outer.left - slack <= inner.left and outer.top - slack <= inner.top
            and inner.right <= outer.right + slack and inner.bottom <= outer.bottom + slack)


def around(boxes):
    return Box(min(b.left for b in boxes), min(b.top for b in boxes), max(b.right for b in boxes), max(b.bottom for b in boxes))


def may_meet(a, b, parents):
    """A wire with the bars and the symbol that it joins, the pieces of one bar, and the mark on a wire."""
    kinds = {a.kind, b.kind}
    if a.bus == b.bus:
        return kinds in ({"bar"}, {"wire", "bar"}, {"wire", "transformer"}, {"wire", "circuits"}, {"source wire", "bar"},
                         {"source wire", "source"})
    if kinds != {"wire", "bar"}:
        return False
    wire, bar = (a, b) if a.kind == "wire" else (b, a)
    return parents.get(wire.bus) == bar.bus


def bands_of(items):
    """The things by bands of the drawing, so that only those of one band have to be compared; tall ones are in several."""
    bands = {}
    ends = ((item, range(int(item.box.top // 50), int(item.box.bottom // 50) + 1)) for item in items)
    for item, band in ((item, band) for item, reach in ends for band in reach):
        bands.setdefault(band, []).append(item)
    return bands


def overlaps(drawing, buses):
    """Pairs of things that overlap and may not."""
    parents = {bus.number: bus.parent for bus in buses if bus.number}
    bands = bands_of(drawing.items)
    pairs = ((a, b) for band in bands.values() for place, a in enumerate(band) for b in band[:place]
             if a.box.left < b.box.right and b.box.left < a.box.right and meet(a.box, b.box))
    return [f"{a.kind} of {a.bus} on {b.kind} of {b.bus}" for a, b in pairs if not may_meet(a, b, parents)]


def outside(drawing):
    page = Box(0, 0, drawing.width, drawing.height)
    return [f"{item.kind} of {item.bus} leaves the drawing" for item in drawing.items if not holds(page, item.box, 0)]


# ---- the SVG read back

def numbers(element, *names):
    return [float(element.get(name)) for name in names]


def text_box(element):
    """A line of text, from the height of its capitals to below its descenders."""
    x, y = numbers(element, "x", "y")
    runs = list(element) or [element]
    size = max(float(run.get("font-size")) for run in runs)
    wide = sum(lettering.width(run.text or "", float(run.get("font-size")), run.get("font-weight") == "bold") for run in runs)
    if element.get("text-anchor") == "middle":
        x -= wide / 2
    return Box(x, y - 0.75 * size, x + wide, y + 0.22 * size)


def path_box(element):
    """A path of one absolute start and relative curves, by their control points, which enclose it."""
    start, *curves = re.findall(r"([Mqt])([^Mqt]*)", element.get("d"))
    x, y = map(float, start[1].split(","))
    points = [(x, y)]
    for _, told in curves:
        steps = [tuple(map(float, pair.split(","))) for pair in told.split()]
        points += [(points[-1][0] + dx, points[-1][1] + sign * dy) for dx, dy in steps for sign in (1, -1)]
    return Box(min(p[0] for p in points), min(p[1] for p in points), max(p[0] for p in points), max(p[1] for p in points))


def shape_box(element):
    kind = element.tag.removeprefix(SVG)
    half = float(element.get("stroke-width", 0)) / 2
    if kind == "line":
        x1, y1, x2, y2 = numbers(element, "x1", "y1", "x2", "y2")
        rise = half if y1 == y2 or x1 != x2 else 0
        run = half if x1 == x2 else 0
        return Box(min(x1, x2) - run, min(y1, y2) - rise, max(x1, x2) + run, max(y1, y2) + rise)
    if kind == "rect":
        x, y, wide, tall = numbers(element, "x", "y", "width", "height")
        return Box(x - half, y - half, x + wide + half, y + tall + half)
    if kind == "circle":
        x, y, radius = numbers(element, "cx", "cy", "r")
        return Box(x - radius - half, y - radius - half, x + radius + half, y + radius + half)
    if kind == "polygon":
        points = [tuple(map(float, pair.split(","))) for pair in element.get("points").split()]
        return Box(min(p[0] for p in points) - half, min(p[1] for p in points) - half,
                   max(p[0] for p in points) + half, max(p[1] for p in points) + half)
    return {"text": text_box, "path": path_box}[kind](element)


def groups_of(root):
    """The groups of items, with the bus that each stands under."""
    own = [(None, group) for group in root.findall(f"{SVG}g[@data-item]")]
    buses = root.findall(f"{SVG}g[@data-bus]")
    return own + [(int(bus.get("data-bus")), group) for bus in buses for group in bus.findall(f"{SVG}g")]


def drawn_items(root):
    """What the SVG draws, as kind, bus and the box around its shapes."""
    found = []
    for bus, group in groups_of(root):
        shapes = [shape_box(element) for element in group if element.tag != f"{SVG}title"]
        found.append(Item(group.get("data-item"), bus, around(shapes)))
    return found


def strays(drawing, seen):
    """Differences between the layout's items and those that are drawn: each is drawn once, inside its box."""
    order = {item.bus: place for place, item in enumerate(sorted(drawing.items, key=lambda i: -1 if i.bus is None else i.bus))}
    planned = sorted(drawing.items, key=lambda item: order[item.bus])
    if [(item.kind, item.bus) for item in planned] != [(item.kind, item.bus) for item in seen]:
        return ["what is drawn is not what the layout has"]
    return [f"{item.kind} of {item.bus} is drawn at {item.box}, outside {plan.box}"
            for plan, item in zip(planned, seen) if not holds(plan.box, item.box)]


# ---- buses, sources and branches

def by_bus(seen, kind):
    found = {}
    for item in seen:
        if item.kind == kind:
            found.setdefault(item.bus, []).append(item.box)
    return found


def joined(boxes):
    """Whether boxes hang together."""
    reached, rest = boxes[:1], list(boxes[1:])
    while rest:
        more = [box for box in rest if any(meet(box, other) for other in reached)]
        if not more:
            return False
        reached += more
        rest = [box for box in rest if box not in more]
    return True


def branch_faults(bus, seen):
    """A branch is one wire, or two with a transformer between, from its parent's bar to its own."""
    wires, rings = seen["wire"].get(bus.number, []), seen["transformer"].get(bus.number, [])
    bars = seen["bar"]
    if (len(wires), len(rings)) != ((2, 1) if isinstance(bus.branch, Transformer) else (1, 0)):
        return [f"branch of {bus.number} has {len(wires)} wires and {len(rings)} transformers"]
    touched = {number for number, pieces in bars.items() if any(meet(wire, piece) for wire in wires for piece in pieces)}
    faults = [] if touched == {bus.number, bus.parent} else [f"branch of {bus.number} touches the bars of {sorted(touched)}"]
    if rings:
        ends = [{number for number in touched for piece in bars[number] if meet(wire, piece)} for wire in wires]
        if ends not in ([{bus.parent}, {bus.number}], [{bus.number}, {bus.parent}]):
            faults.append(f"transformer of {bus.number} has wires to the bars of {ends}")
        if not all(meet(wire, rings[0]) for wire in wires):
            faults.append(f"transformer of {bus.number} is not on its wires")
    return faults


def bar_faults(bus, seen):
    """One bar, in pieces that hang together and of which none is drawn twice, with its label beside its upper end."""
    bars, labels = seen["bar"].get(bus.number, []), seen["label"].get(bus.number, [])
    if not bars or not joined(bars) or len(labels) != 1:
        return [f"bus {bus.number}: bar not there or not whole, or {len(labels)} labels"]
    top, left = min(bar.top for bar in bars), min(bar.left for bar in bars)
    faults = [f"bus {bus.number}: a piece of its bar is drawn twice" for place, bar in enumerate(bars)
              for other in bars[:place] if holds(bar, other) or holds(other, bar)]
    if not (0 <= labels[0].top - top <= 16 and 0 <= labels[0].left - left <= 40):
        faults.append(f"bus {bus.number}: its label is not at the upper end of its bar")
    return faults


def source_place_faults(bus, seen):
    """A symbol with a label beside it for each kind of source, each on a wire of its own from the bar."""
    kinds = {source.kind for source in bus.sources}
    symbols, wires, labels = [seen[kind].get(bus.number, []) for kind in ("source", "source wire", "source label")]
    if not len(kinds) == len(symbols) == len(wires) == len(labels):
        return [f"bus {bus.number}: {len(symbols)} symbols, {len(wires)} wires and {len(labels)} labels for {len(kinds)} kinds"]
    bars = seen["bar"].get(bus.number, [])
    loose = [wire for wire in wires if not any(meet(wire, bar) for bar in bars)]
    loose += [box for box in symbols if sum(meet(wire, box) for wire in wires) != 1]
    loose += [box for box in symbols if sum(0 < label.left - box.right < 8 and box.top < label.top and label.bottom < box.bottom
                                            for label in labels) != 1]
    return [f"bus {bus.number}: a source is not joined to its bar or not beside its label" for _ in loose]


def circuits_faults(bus, seen):
    marks, wires = seen["circuits"].get(bus.number, []), seen["wire"].get(bus.number, [])
    due = isinstance(bus.branch, Line) and bus.branch.circuits > 1
    if len(marks) != due or not all(any(meet(mark, wire) for wire in wires) for mark in marks):
        return [f"bus {bus.number}: {len(marks)} marks of circuits, or not on its wire"]
    return []


def parts_faults(buses, items):
    seen = {kind: by_bus(items, kind) for kind in
            ("bar", "wire", "transformer", "label", "source", "source label", "source wire", "circuits")}
    faults = [bar_faults(bus, seen) + source_place_faults(bus, seen) + circuits_faults(bus, seen) for bus in buses]
    faults += [branch_faults(bus, seen) for bus in buses if bus.number]
    return [fault for told in faults for fault in told]


# ---- words

def words_in(group):
    return "".join(text for element in group.iter(f"{SVG}text") for text in element.itertext())


def label_faults(bus, group):
    """Number or name, volts, figure and the verdict's letter, words and frame stand in the label."""
    label = next((g for g in group if g.get("data-item") == "label"), None)
    if label is None:
        return [f"bus {bus.number} has no label"]
    words = words_in(label)
    due = [oneline.kilovolts(bus.volts), bus.figure, oneline.branch_words(bus.branch)]
    due += [bus.words] if bus.verdict in ("O", "C") else []
    faults = [f"bus {bus.number}: {part!r} is not in its label" for part in due if part not in words]
    frame = [element.get("stroke-dasharray") is not None for element in label.findall(f"{SVG}rect")]
    shapes = [element.tag.removeprefix(SVG) for element in label]
    if frame != {"O": [False], "C": [True]}.get(bus.verdict, []):
        faults.append(f"bus {bus.number}: wrong frame")
    if bus.verdict and (words[0] != bus.verdict or ("circle" in shapes) != (bus.verdict == "W")):
        faults.append(f"bus {bus.number}: wrong badge")
    name = lettering.clean(bus.name)
    if not group.find(f"{SVG}title").text.startswith(f"Bus {bus.number} {name}".strip() + ","):
        faults.append(f"bus {bus.number}: its tooltip does not begin with its name")
    return faults


def is_linked(symbol):
    """Whether the generator of a power station unit stands clear of its transformer, on a wire from it; other symbols are whole."""
    *rings, machine = [shape_box(circle) for circle in symbol.findall(f"{SVG}circle")] or [None]
    wires = [shape_box(line) for line in symbol.findall(f"{SVG}line")]
    if not rings:
        return True
    apart = machine.left - max(ring.right for ring in rings)
    return 2 < apart < 6 and len(wires) == 1 and meet(wires[0], machine) and meet(wires[0], rings[-1])


def source_faults(bus, group):
    """The counts in the tooltips of a bus's symbols are those of its sources, and each symbol is that of its kind."""
    symbols = [g for g in group if g.get("data-item") == "source"]
    drawn = sorted((len(g.findall(f"{SVG}circle")), words_in(g)) for g in symbols)
    if drawn != sorted(SYMBOLS[kind] for kind in {source.kind for source in bus.sources}):
        return [f"bus {bus.number}: the symbols of its sources are {drawn}"]
    if not all(map(is_linked, symbols)):
        return [f"bus {bus.number}: transformer and generator of a unit meet, or no wire is between them"]
    told = [g.find(f"{SVG}title").text for g in symbols]
    due = []
    for kind in sorted({source.kind for source in bus.sources}):
        count = sum(source.kind == kind for source in bus.sources)
        due.append(f"{count} {oneline.KIND_WORDS[kind][1]}\n" if count > 1 else oneline.KIND_WORDS[kind][0] + " ")
    if len(told) != len(due) or not all(text.startswith(start) for text, start in zip(sorted(told), sorted(due))):
        return [f"bus {bus.number}: its sources are told as {told}"]
    return []


def text_faults(root, buses):
    groups = {int(group.get("data-bus")): group for group in root.findall(f"{SVG}g[@data-bus]")}
    if sorted(groups) != [bus.number for bus in buses] or len(root.findall(f"{SVG}g[@data-bus]")) != len(buses):
        return ["not every bus has one group"]
    own = [(bus, groups[bus.number]) for bus in buses]
    faults = [fault for bus, group in own for fault in label_faults(bus, group) + source_faults(bus, group)]
    small = [element for element in root.iter() if float(element.get("font-size", LEAST_TEXT)) < LEAST_TEXT]
    return faults + ["text that is too small" for _ in small[:1]]


def page_faults(root, drawing):
    """Title, description, size; and nothing that runs, loads or could meet a page's own names."""
    box = [float(part) for part in root.get("viewBox").split()]
    faults = [] if [child.tag for child in root][:2] == [f"{SVG}title", f"{SVG}desc"] else ["no title or desc"]
    if max(abs(box[2] - drawing.width), abs(box[3] - drawing.height), *map(abs, box[:2])) > 0.01:
        faults.append(f"viewBox {box}")
    known = {"svg", "title", "desc", "g", "rect", "line", "circle", "polygon", "path", "text", "tspan"}
    strange = {element.tag for element in root.iter()} - {SVG + name for name in known}
    names = {name for element in root.iter() for name in element.attrib}
    named = [name for name in names if name in ("id", "class", "style") or name.startswith("on")]
    loads = [name for element in root.iter() for name in element.attrib if "href" in name or "url(" in element.get(name)]
    return faults + [f"strange: {bad}" for bad in (strange, named, loads) if bad]


def faults_of(drawing, buses, text):
    """All that is wrong with a drawing, from its places and from its SVG."""
    try:
        root = xml.fromstring(text.encode("utf-8"))
    except (xml.ParseError, UnicodeEncodeError) as error:
        return [f"not XML: {error}"]
    seen = drawn_items(root)
    return (page_faults(root, drawing) + overlaps(drawing, buses) + outside(drawing) + strays(drawing, seen)
            + parts_faults(buses, seen) + text_faults(root, buses))
