"""The sections of the page of an accepted study: the verdict of the whole, the diagram, the tables and the inputs."""
import re

from desk import diagram, drivers, oneline, ordering
from desk.drawing import drawn_buses
from desk.inputs import entries_of
from desk.layout import layout
from desk.markup import Markup, element, joined, paragraphs, table
from desk.records import rows_of
from desk.refusals import capital
from desk.shares import NO_GENERATOR, WHAT_IT_IS, WHAT_SHARES_ARE, breaking_column, generators_of, share_lines
from desk.sheets import windows
from desk.show import visible
from desk.table import LEFT, columns, note, table_lines, verdict_words
from desk.verdicts import called, whole, worst_first

LISTED = 8  # buses to heed that are named below the verdict of the whole
WIDE = 118  # characters in a line of a table that an upright sheet still has room for
COLUMNS = 9  # of a table of inputs that an upright sheet still has room for; their headings take several lines
TALL = 1060  # px of a drawing that still fits below the heading of the first sheet; a taller one gets a sheet of its own
LONG = 32  # characters of a name that stays on one line
DRAWING = "drawing"
BADGE = 18
NUMBERED = ("from", "to", "at bus")  # headings of buses by number and name
NAMES = ("name", "generator", *NUMBERED)  # of all that the file names


# ---- the study as a whole

def badge(letter):
    """The letter of a verdict in its shape, as in the diagram. What it means stands in words beside it."""
    return element("svg", Markup(diagram.badge(letter, BADGE / 2, BADGE / 2)), class_="badge", viewBox=f"0 0 {BADGE} {BADGE}",
                   aria_hidden="true", font_family=diagram.FONTS)


def kind_of(letter):
    return oneline.VERDICT_WORDS[letter]


def whole_figures(words):
    """Words in which no line ends between a figure and its unit."""
    return re.sub(r"(\d) (k?A)\b", "\\1\u00a0\\2", words)


def to_heed(buses, units):
    """The buses that are over or close, the worst first."""
    found = [bus for bus in worst_first(buses) if bus.letter != "W"]
    told = [element("li", badge(bus.letter), element("bdi", capital(called(bus))), f": {whole_figures(verdict_words(bus, units))}")
            for bus in found[:LISTED]]
    more = [element("li", f"and {len(found) - LISTED} more in the table below")] if len(found) > LISTED else []
    return element("ul", *told, *more, class_="heed") if found else Markup()


def verdict_part(outcome):
    buses = outcome.buses
    letter = worst_first(buses)[0].letter
    return joined([element("p", whole(buses), class_=f"whole {kind_of(letter)}"), to_heed(buses, outcome.units)], "\n")


# ---- the diagram

def diagram_part(outcome, title):
    """The drawing of --svg without its title, which stands on the page; as wide as the page has room for."""
    buses = drawn_buses(outcome.study, outcome.answers, outcome.buses, outcome.units)
    drawing = layout(buses, "")
    cut = windows(drawing)
    drawn = Markup(diagram.drawn(drawing, buses, f"{title}: one-line diagram", DRAWING if cut else ""))
    box = element("div", drawn, class_="diagram", tabindex=0, role="region", aria_label="One-line diagram",
                  style=f"--wide: {diagram.number(drawing.width)}px")
    kind = "large" if cut else "sheet" if drawing.height > TALL else ""
    return element("section", element("h2", "One-line diagram"), "\n", box, *[window_part(one, len(cut)) for one in enumerate(cut, 1)],
                   class_=kind)


def window_part(numbered, count):
    """A part of a large drawing, for paper alone; on a screen the whole is there to scroll."""
    place, (box, column, row) = numbered
    view = " ".join(map(diagram.number, (box.left, box.top, box.right - box.left, box.bottom - box.top)))
    again = element("svg", element("use", href=f"#{DRAWING}"), viewBox=view, font_family=diagram.FONTS)
    return element("div", element("p", f"Sheet {place} of {count}: column {column}, row {row} of the diagram"), again, class_="part",
                   aria_hidden="true")


# ---- the tables

def is_wide(lines):
    """Whether a table asks for a sheet that lies across; names and words that are long take several lines."""
    short = [lines[0], *[[cell[:LONG] for cell in line] for line in lines[1:]]]
    return max(map(len, columns(short).split("\n"))) > WIDE


def named(heading, cell):
    """A cell with a name from the file. A name that reads from right to left turns nothing around it: not the number of a bus before
    it, nor what a generator is called besides."""
    kind = "long" if len(cell) > LONG else ""
    if heading in NUMBERED:
        number, _, name = cell.partition(" ")
        return joined([number, "\u00a0", element("bdi", name, class_=kind)]) if name else cell
    return element("bdi", cell, class_=kind, dir="ltr" if heading == "generator" else "")


def marked_names(lines):
    """Lines whose cells below the headings of names are such."""
    return [lines[0], *[[named(heading, cell) if heading in NAMES else cell for heading, cell in zip(lines[0], line)] for line in lines[1:]]]


def with_marks(lines, buses):
    """The lines of the table of buses with the mark of each verdict before the number, and names and words as such."""
    headings, *body = marked_names(lines)
    return [headings, *[[joined([badge(bus.letter), line[0]]), *line[1:-1], element("span", whole_figures(line[-1]), class_="words")]
                        for line, bus in zip(body, buses)]]


def section(title, *parts):
    return element("section", element("h2", title), "\n", joined(parts, "\n"))


def with_notes(title, made, notes):
    """A section of a table and what is to be known of it."""
    return section(title, made, element("div", paragraphs(notes), class_="note"))


def buses_part(outcome, lines):
    made = table(f"Currents in {outcome.units.currents}", with_marks(lines, outcome.buses), LEFT,
                 [kind_of(bus.letter) for bus in outcome.buses])
    what = [WHAT_IT_IS.format(outcome.delay)] if outcome.delay else []
    return with_notes("Buses", made, "\n\n".join([note(outcome.units), *what]))


def shares_part(outcome, lines):
    """Who contributes how much to the breaking currents; nothing where these were not asked for."""
    if not outcome.delay:
        return Markup()
    title = "Shares in the breaking current"
    if not lines:
        return section(title, element("p", NO_GENERATOR))
    return with_notes(title, table(f"Shares in {outcome.units.currents}", marked_names(lines), LEFT), WHAT_SHARES_ARE)


def lines_of_shares(outcome):
    study = outcome.study
    generators = generators_of(study.rows, study.names, study.sources)
    return share_lines(outcome.breakings, outcome.delay, generators, study.names, outcome.units) if outcome.delay and generators else []


def further_part(outcome, room, lines):
    """The table of another room, which has its title and its note."""
    return with_notes(room.TITLE, table(f"Currents in {outcome.units.currents}", marked_names(lines), LEFT), room.NOTE)


def results_part(outcome):
    """The tables of results. Where one of them asks for a sheet that lies across, all do, so that paper is turned once."""
    buses, units = outcome.buses, outcome.units
    lines = [table_lines(buses, breaking_column(outcome.breakings, outcome.delay, units), units), lines_of_shares(outcome),
             drivers.driver_lines(buses, units), ordering.suggestion_lines(buses, units)]
    parts = [buses_part(outcome, lines[0]), shares_part(outcome, lines[1]), further_part(outcome, drivers, lines[2]),
             further_part(outcome, ordering, lines[3])]
    return element("div", joined(parts, "\n"), class_="across" if any(map(is_wide, filter(None, lines))) else "")


# ---- the inputs

def input_table(entries):
    """A table of inputs; that of power station units has so many columns that it stands on a sheet that lies across."""
    made = table(entries.title, marked_names([entries.headings, *entries.lines]), NAMES)
    return element("div", made, class_="across") if len(entries.headings) > COLUMNS else made


def inputs_part(outcome):
    study = outcome.study
    tolerance = rows_of(study.rows)[0].decode("ascii").split(",")[1]
    told = [element("p", f"Voltage tolerance of the low-voltage network: {tolerance} %.")]
    told += [input_table(entries) for entries in entries_of(study)]
    if study.roundings:
        told.append(element("p", "Rounded to the units of the program:"))
        told.append(element("ul", *[element("li", visible(one)) for one in study.roundings]))
    return section("Inputs", *told)
