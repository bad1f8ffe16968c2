"""What is wrong with a page of board --html, read back from its text and held against what the programs printed. tests/check-page uses
it; the figures, units and words that are due are put together here anew."""
import html.parser
import re
import xml.etree.ElementTree as xml
from decimal import Decimal

SVG = "{http://www.w3.org/2000/svg}"
ELEMENTS = {"html", "head", "meta", "title", "style", "body", "header", "main", "footer", "section", "div", "h1", "h2", "p", "ul", "li",
            "dl", "dt", "dd", "pre", "span", "bdi", "table", "caption", "thead", "tbody", "tr", "th", "td"}
DRAWN = {"svg", "g", "title", "desc", "rect", "line", "circle", "polygon", "path", "text", "tspan", "use"}
VOID = {"meta"}
# By the title of a table of inputs: letter and kind of its rows, and of each column the field of the row and how many make one unit.
# A power is in MVA, or in kVA where all of its column are below 1 MVA.
POWER = "power"
INPUTS = {
    "Buses": ("B", None, [(2, 1000), (9, 1000), (10, 1000)]),
    "Lines": ("B", "1", [(4, 1000), (5, 1000), (6, 1000), (7, 1)]),
    "Transformers": ("B", "2", [(4, 1000), (5, 1000), (6, POWER), (7, 1000), (8, 1000)]),
    "Feeder": ("P", "1", [(3, 1000), (4, 100)]),
    "Generators": ("P", "2", [(3, 1000), (4, POWER), (5, 1000), (6, 100), (7, 100)]),
    "Motors": ("P", "3", [(3, 1000), (4, POWER), (5, 10), (6, 100)]),
    "Converters": ("P", "4", [(3, 10), (4, 100)]),
    "Power station units": ("P", "5", [(3, 1000), (4, POWER), (5, 1000), (6, 100), (7, 100), (8, 1000), (9, 1000), (10, POWER),
                                       (11, 1000), (12, 1000)]),
}
VERDICTS = {"W": "within", "O": "over", "C": "close"}


# ---- the text

class Tags(html.parser.HTMLParser):
    """Reads the page as HTML, and notes what is not closed, or closed and not open."""

    def __init__(self):
        super().__init__()
        self.open, self.wrong = [], []

    def handle_starttag(self, tag, attributes):
        if tag not in VOID:
            self.open.append(tag)

    def handle_startendtag(self, tag, attributes):
        if tag not in VOID | DRAWN:
            self.wrong.append(f"<{tag}/> does not end in HTML")

    def handle_endtag(self, tag):
        if not self.open or self.open.pop() != tag:
            self.wrong.append(f"</{tag}> closes nothing")


def tag_faults(text):
    tags = Tags()
    tags.feed(text)
    tags.close()
    return tags.wrong + [f"<{tag}> is not closed" for tag in tags.open]


def plain(name):
    return name.removeprefix(SVG)


def reference_faults(root):
    """Whatever a browser would fetch or run."""
    found = []
    for one in root.iter():
        if plain(one.tag) not in ELEMENTS | DRAWN:
            found.append(f"an element {one.tag}")
        found += [f"{key} = {value}" for key, value in one.items()
                  if key in ("src", "srcset", "data", "action") or key.startswith("on") or key == "href" and value != "#drawing"]
        if "style" in one.attrib and not re.fullmatch(r"--wide: [\d.]+px", one.get("style")):
            found.append(f"style = {one.get('style')}")
    style = "".join(one.text for one in root.iter("style"))
    found += [word for word in ("url(", "@import", "http", "<") if word in style]
    return found


def text_of(element):
    """The text of an element without that of drawings in it."""
    if plain(element.tag) == "svg":
        return ""
    return (element.text or "") + "".join(text_of(one) + (one.tail or "") for one in element)


def said(element):
    """What stands in an element; nothing where there is none."""
    return "" if element is None else text_of(element).replace("\u00a0", " ")


# ---- tables

def tables_of(root):
    """By the heading of its section and its caption: the lines of each table."""
    found = {}
    for section in root.iter("section"):
        for table in section.iter("table"):
            key = said(section.find("h2")), said(table.find("caption"))
            found[key] = [[said(cell) for cell in row] for row in table.iter("tr")]
    return found


def meaning_faults(root):
    """What a reader of the page by ear needs: language, title, captions, and which cells are headings."""
    found = [] if root.get("lang") == "en" and root.findtext("head/title") else ["no language or no title"]
    for table in root.iter("table"):
        heads, rows = list(table.find("thead/tr")), list(table.iter("tr"))[1:]
        if not said(table.find("caption")) or any(head.tag != "th" or head.get("scope") != "col" for head in heads):
            found.append("a table without caption or headings")
        if any(row[0].tag != "th" or row[0].get("scope") != "row" or len(row) != len(heads) for row in rows):
            found.append(f"a row of {said(table.find('caption'))} without its heading or with another number of cells")
    drawings = [one for one in root.iter(SVG + "svg") if one.get("role") == "img"]
    if root.find(".//table") is not None and [bool(one.findtext(SVG + "title")) for one in drawings] != [True]:
        found.append("no drawing with a title")
    return found


def due_buses(rows, answers, names):
    """The cells of the table of buses from the study's rows and what the program printed."""
    records = [row for row in rows if row[0] == "B"]
    lines = []
    for answer, record in zip(answers, records):
        lower, upper, more_lower, more_upper, peak, more_peak = map(int, answer[1:7])
        name = [names[int(answer[0])]] if names else []
        lines.append([answer[0], *name, f"{int(record[2]):,}", f"{lower:,} to {upper:,}", f"{more_lower:,} to {more_upper:,}",
                      f"{peak + more_peak:,}", f"{int(record[9]):,}", f"{int(record[10]):,}"])
    return lines


def without_breaking(lines):
    """The table of buses without the column of breaking currents, which is looked at by itself."""
    place = next((place for place, head in enumerate(lines[0]) if head.startswith("Ib ")), len(lines[0]))
    return [line[:place] + line[place + 1:] for line in lines]


def bus_faults(lines, rows, answers, names):
    """The table of buses, but for the words of its verdicts, of which the first is due."""
    due = due_buses(rows, answers, names)
    found = [f"{line} for {one}" for line, one in zip(lines[1:], due) if line[:-1] != one]
    words = [re.split("[ ,:]", line[-1])[0] for line in lines[1:]]
    if len(lines) != len(due) + 1 or words != [VERDICTS[answer[7]] for answer in answers]:
        found.append("other buses or verdicts")
    return found


def decimal(value, times):
    number = Decimal(value) / times
    return f"{number.normalize():,f}"


def due_inputs(title, rows):
    """The figures of each line of a table of inputs; those of sources alike once."""
    letter, kind, fields = INPUTS[title]
    at = {"B": 3, "P": 1}[letter]
    chosen = [row for row in rows if row[0] == letter and kind in (None, row[at])]
    units = [1000 if times is POWER and any(int(row[place]) >= 1000 for row in chosen) else 1 if times is POWER else times
             for place, times in fields]
    told = [tuple([row[2]] * (letter == "P") + [decimal(row[place], unit) for (place, _), unit in zip(fields, units)]) for row in chosen]
    return told if letter == "B" else list(dict.fromkeys(told))


def input_faults(tables, rows):
    """Each number that was put in stands in its table; that of a source may stand in several lines, one for each name."""
    found = []
    for title, (letter, _, fields) in INPUTS.items():
        due, lines = due_inputs(title, rows), tables.get(("Inputs", title), [[]])
        begin = next((place for place, head in enumerate(lines[0]) if head not in ("bus", "name", "from", "to", "at bus")), 0)
        cells = [tuple([line[0].split(" ")[0]] * (letter == "P") + line[begin:begin + len(fields)]) for line in lines[1:]]
        if (cells if letter == "B" else list(dict.fromkeys(cells))) != due:
            found.append(f"{title}: {cells[:2]} for {due[:2]}")
    return found


# ---- all of it

def drawing_faults(root, answers, names):
    """The drawing has each bus once, with its letter, its figures and its name or number."""
    groups = {one.get("data-bus"): one for one in root.iter(SVG + "g") if one.get("data-bus")}
    found = [] if list(groups) == [answer[0] for answer in answers] else ["other buses in the drawing"]
    for answer in answers:
        texts = ["".join(one.itertext()) for one in groups.get(answer[0], [])]
        told = " ".join(" ".join(texts).split())
        due = [f"machines {int(answer[1]):,} to {int(answer[2]):,} A", f"peak {int(answer[5]) + int(answer[6]):,} A", f"Bus {answer[0]}"]
        due += [" ".join(names[int(answer[0])].split())] if names else []
        found += [f"bus {answer[0]}: {words} is not in the drawing" for words in due if words not in told]
    return found


def count_faults(root, answers):
    """The sentence on the whole has the number of each verdict."""
    words = said(root.find("body/main/p"))
    counts = {word: sum(answer[7] == letter for answer in answers) for letter, word in VERDICTS.items()}
    if counts["within"] == len(answers):
        return [] if re.match(rf"All {len(answers)} buses are within|The bus is within", words) else [words]
    seen = {word: int(number) for number, word in re.findall(r"(\d+) (?:of \d+ bus(?:es)? )?(?:is|are) (\w+)", words)}
    return [] if seen == {word: count for word, count in counts.items() if count} else [words]


def parsed(text):
    """The page as XML, and what is wrong with that; where it is none, an empty page."""
    try:
        return xml.fromstring(text.removeprefix("<!DOCTYPE html>\n")), []
    except xml.ParseError as error:
        return xml.fromstring("<html><body/></html>"), [f"no XML: {error}"]


def form_faults(text):
    """What is wrong with any page, accepted or refused."""
    root, wrong = parsed(text)
    if wrong or not text.startswith("<!DOCTYPE html>\n<html"):
        return wrong or ["no beginning of a page"]
    return tag_faults(text) + reference_faults(root) + meaning_faults(root)


def faults_of(text, rows, answers, names=()):
    """What is wrong with the page of an accepted study: its rows and the program's answers, each row as its fields."""
    wrong = form_faults(text)
    root, broken = parsed(text)
    if broken:
        return wrong
    tables = tables_of(root)
    lines = without_breaking(tables.get(("Buses", "Currents in amperes"), [[]]))
    wrong += bus_faults(lines, rows, answers, names) + input_faults(tables, rows) + count_faults(root, answers)
    wrong += drawing_faults(root, answers, names)
    return wrong + (["the headings are not those of the table"] if lines[0][-1:] != ["verdict"] else [])
