"""HTML put together from elements. Text becomes safe on the way in, and the result is well-formed XML too."""
from xml.sax.saxutils import escape

from desk.lettering import harmless

VOID = ("meta",)  # elements that hold nothing and have no end
KEPT = 9  # characters of a heading that stays on one line
SHORT = 20  # lines of a table that is not cut from sheet to sheet


class Markup(str):
    """What is HTML already, as against text."""


def safe(content):
    return content if isinstance(content, Markup) else Markup(escape(harmless(str(content))))


def joined(parts, between=""):
    return Markup(between.join(map(safe, parts)))


def element(name, /, *content, **attributes):
    """An element. In the name of an attribute `_` stands for `-`, and one at the end for nothing; one that is empty is left out."""
    told = "".join(f' {key.rstrip("_").replace("_", "-")}="{escape(harmless(str(value)), {chr(34): "&quot;"})}"'
                   for key, value in attributes.items() if value != "")
    return Markup(f"<{name}{told}/>") if name in VOID else Markup(f"<{name}{told}>{joined(content)}</{name}>")


# ---- tables

def cell(name, content, left, /, **attributes):
    return element(name, content, class_="left" if left else "", **attributes)


def heading(words, left):
    """The heading of a column; a short one stays on one line."""
    kinds = ["left"] * left + ["kept"] * (len(words) <= KEPT)
    return element("th", words, class_=" ".join(kinds), scope="col")


def row(line, left, kind=""):
    """A line of cells; the first is its heading."""
    first, *rest = line
    cells = [cell("th", first, left[0], scope="row")] + [cell("td", one, side) for one, side in zip(rest, left[1:])]
    return element("tr", *cells, class_=kind)


def table(caption, lines, left, kinds=()):
    """A table in a box of its own, which scrolls where it is too wide; the first line has the headings. `left` are the headings of what
    stands to the left, names and words; `kinds` are the classes of the rows."""
    headings, *body = lines
    sides = [words in left for words in headings]
    head = element("tr", *map(heading, headings, sides))
    rows = [row(line, sides, kind) for line, kind in zip(body, kinds or [""] * len(body))]
    whole = element("table", element("caption", caption), "\n", element("thead", head), "\n",
                    element("tbody", "\n", joined(rows, "\n"), "\n"))
    return element("div", whole, class_="scroll short" if len(body) <= SHORT else "scroll", tabindex=0, role="region", aria_label=caption)


def paragraphs(text):
    """Paragraphs from a text in which an empty line parts them."""
    return joined([element("p", " ".join(part.split())) for part in text.split("\n\n")], "\n")
