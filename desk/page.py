"""`board --html`: a study as one page that needs nothing beside it, to read on a screen and on paper, and to hand on.

The same file gives the same bytes: no date stands on it. The figures are those of the table; no current is calculated here.
"""
import hashlib

from desk.drawing import title_of
from desk.files import name_of
from desk.lettering import clean
from desk.markup import Markup, element, joined, paragraphs
from desk.outcome import Refused
from desk.refusals import capital
from desk.revision import edition
from desk.sections import diagram_part, inputs_part, results_part, section, verdict_part
from desk.style import STYLE

KIND = "Short-circuit currents: balanced three-phase fault, maximum case of "
STANDARD = element("span", "IEC 60909-0", class_="kept")
ALONE = "default-src 'none'; style-src 'unsafe-inline'"  # the browser is to fetch nothing and to run nothing
MEANINGS = (
    ("machines, converters", """
     The parts of the initial symmetrical short-circuit current I\u2033k that come from the feeder, the generators, alone or in power
     station units, and the motors, and from the converters; each from a lower to an upper bound. The converters' part is a plain sum:
     the rated current times k of every converter counts in full at every bus, carried over the transformers by their rated voltages.
     It is on the safe side."""),
    ("peak", "The peak short-circuit current ip of both parts together."),
    ("over", "The peak is above its rating, or the sum of the lower bounds is above the rating."),
    ("within", """
     The peak is not above its rating, and the sum of the upper bounds is not above the rating; to spare is what is left of the rating."""),
    ("close", "The peak is not above its rating, and the rating lies between the two sums, so that the figures cannot tell."),
)
PROMISE = """\
It is proved for every accepted study that the exact initial currents lie between their bounds, that these differ by at most 2 A plus
a thousandth of the upper, and that each peak, of the machines and of the converters, is no lower than the exact one and above it by at
most 0.15 % plus 1 A. Exact means by the formulas of IEC 60909-0 as the users' specification of the program simplifies and rounds them.

That the program writes these figures and no others, and that this page shows them as they were written, is tested and not proved."""


def meaning_part(confirmation):
    terms = [joined([element("dt", term), element("dd", " ".join(words.split()))]) for term, words in MEANINGS]
    told = "\n\n".join(filter(None, [PROMISE, confirmation]))
    return section("What the figures mean and what is promised", element("dl", *terms),
                   element("div", paragraphs(told), class_="note"))


# ---- a refusal

def refused_parts(refused):
    found = refused.explanation
    if found is None:
        told = [f"line {one.line}: {one.words}" if one.line else one.words for one in refused.mistakes]
        return [element("p", capital(refused.head), class_="whole over"), element("ul", *[element("li", one) for one in told])]
    return [element("p", capital(refused.head), class_="whole over"), element("pre", found.picture) if found.picture else Markup(),
            *[element("p", sentence) for sentence in found.sentences]]


# ---- all of it

def accepted_parts(outcome, title):
    return [verdict_part(outcome), diagram_part(outcome, title), results_part(outcome), inputs_part(outcome),
            meaning_part(outcome.confirmation)]


def footer(source, data):
    """What it was made from and by which edition, so that two pages can be told apart."""
    digest = hashlib.sha256(data).hexdigest()
    name = clean(name_of(source).rsplit("/", 1)[-1])
    return element("footer", element("p", f"Made from {name}, {len(data):,} bytes, SHA-256 {digest}, by {edition()}."))


def page_of(outcome, source, data):
    """The page of a study that was read from `source` with the content `data`."""
    title = clean(title_of(source))
    parts = refused_parts(outcome) if isinstance(outcome, Refused) else accepted_parts(outcome, title)
    head = element("head", element("meta", charset="utf-8"), element("meta", http_equiv="Content-Security-Policy", content=ALONE),
                   element("meta", name="viewport", content="width=device-width, initial-scale=1"),
                   element("title", f"{title}: short-circuit currents"), element("style", Markup(STYLE)))
    body = element("body", "\n", element("header", element("h1", title), "\n", element("p", KIND, STANDARD, class_="kind")), "\n",
                   element("main", joined(parts, "\n")), "\n", footer(source, data), "\n")
    return "<!DOCTYPE html>\n" + element("html", "\n", head, "\n", body, "\n", lang="en") + "\n"
