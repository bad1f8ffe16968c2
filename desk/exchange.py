"""The figures for other programs: `board --json` and `board --csv`. Amperes are whole numbers, and each key names its unit."""
import csv
import io
import json
import unicodedata

from desk.drivers import driver
from desk.inputs import by_key, inputs_of, kind_of_branch, kind_of_source
from desk.oneline import VERDICT_WORDS
from desk.ordering import suggestion
from desk.outcome import Refused
from desk.plan.fields import TOLERANCE
from desk.records import GENERATORS
from desk.show import visible
from desk.table import verdict_words

FORMULA = "=+-@'"  # what makes a spreadsheet calculate with a cell; and the mark that keeps it from that


# ---- of a bus

def rated(bus):
    return {"nominal_V": bus.volts, "rated_initial_A": bus.rating, "rated_peak_A": bus.peak_rating}


def amperes_of(bus):
    """The currents of a bus, and its margins as `board --why` has them: none where the rating lies between the bounds."""
    drives = driver(bus)
    return {"machines_lower_A": bus.lower, "machines_upper_A": bus.upper,
            "converters_lower_A": bus.converters_lower, "converters_upper_A": bus.converters_upper,
            "initial_lower_A": bus.low, "initial_upper_A": bus.high,
            "machines_peak_A": bus.machines_peak, "converters_peak_A": bus.converters_peak, "peak_A": bus.peak,
            "initial_margin_A": drives.both.margin, "peak_margin_A": drives.both_peak.margin}


def verdict_of(bus):
    return {"verdict": VERDICT_WORDS[bus.letter], "verdict_words": verdict_words(bus), "driven_by": driver(bus).words}


def to_order(bus):
    """The rating that is suggested; none where the series has none."""
    rating = suggestion(bus).rating
    return {"suggested_initial_A": rating and rating.current, "suggested_peak_A": rating and rating.peak}


# ---- JSON

def bus_entry(bus, record):
    kind = kind_of_branch(record)
    return {"bus": bus.number, "name": bus.name or None, **rated(bus), "parent": record["parent"] if kind else None,
            "branch": {"kind": kind.table, **by_key(kind, record)} if kind else None}


def source_entry(place, source, name):
    kind = kind_of_source(source)
    return {"source": place, "kind": kind.table, "name": name or None, "at_bus": source["bus"], **by_key(kind, source)}


def study_entry(study, figures):
    """All that was put in; branches and sources by the keys of a plan."""
    inputs = inputs_of(study)
    buses = [bus_entry(bus, record) for bus, record in zip(figures, inputs.buses)]
    sources = [source_entry(place, *pair) for place, pair in enumerate(zip(inputs.sources, inputs.source_names))]
    return {TOLERANCE: inputs.tolerance, "buses": buses, "sources": sources, "roundings": list(map(visible, study.roundings))}


def breaking_entry(outcome):
    """The breaking current of each bus, and the share of each generator, which is called by its place among the sources."""
    sources = inputs_of(outcome.study).sources
    generators = [place for place, source in enumerate(sources) if source["source kind"] in GENERATORS]
    buses = [{"bus": number, "breaking_A": one.figure,
              "shares": [{"source": place, "lower_A": one.bounds[place][0], "upper_A": one.bounds[place][1]} for place in generators]}
             for number, one in enumerate(outcome.breakings)]
    return {"delay_ms": int(outcome.delay), "buses": buses}


def refusal_entry(refused):
    if refused.explanation is None:
        mistakes = [{"line": one.line or None, "words": one.words} for one in refused.mistakes]
        return {"words": refused.words, "mistakes": mistakes}
    found = refused.explanation
    return {"words": refused.words, "ground": found.ground, "row": found.row, "fields": list(found.fields),
            "reason": found.reason, "sentences": list(found.sentences)}


def json_of(outcome):
    """The text of the one object, a line for each bus and source."""
    if isinstance(outcome, Refused):
        return text_of({"accepted": False, "refusal": refusal_entry(outcome)})
    told = {"accepted": True, "study": study_entry(outcome.study, outcome.buses),
            "figures": [{"bus": bus.number, **amperes_of(bus), **verdict_of(bus), **to_order(bus)} for bus in outcome.buses]}
    if outcome.delay:
        told["breaking"] = breaking_entry(outcome)
    if outcome.confirmation:
        told["confirmation"] = " ".join(outcome.confirmation.split())
    return text_of(told)


def text_of(value, depth=0):
    """JSON with a line for each entry of the outer levels; what lies three levels deep, or holds plain values alone, is one line."""
    held = list(value.values() if isinstance(value, dict) else value if isinstance(value, list) else [])
    if depth == 3 or not any(isinstance(one, (dict, list)) for one in held):
        return json.dumps(value, ensure_ascii=False)
    keys = [f"{json.dumps(key)}: " for key in value] if isinstance(value, dict) else [""] * len(held)
    first, last = "{}" if isinstance(value, dict) else "[]"
    lines = [f"{'  ' * (depth + 1)}{key}{text_of(one, depth + 1)}" for key, one in zip(keys, held)]
    return "\n".join([first, ",\n".join(lines), "  " * depth + last])


# ---- CSV

def safe(name):
    """A name that no spreadsheet takes for a formula: an apostrophe stands before one that begins as a formula does, in whatever width,
    and before one that begins with an apostrophe, so that taking it off gives every name back."""
    first = unicodedata.normalize("NFKC", name.lstrip()[:1])
    return "'" + name if first and first[0] in FORMULA else name


def line_of(bus, breaking):
    """The cells of a bus by their headings."""
    extra = {"delay_ms": breaking[0], "breaking_A": breaking[1].figure} if breaking else {}
    return {"bus": bus.number, "name": safe(bus.name), **rated(bus), **amperes_of(bus), **extra, **verdict_of(bus),
            **to_order(bus)}


def csv_of(outcome):
    """A line of headings and one for each bus of an accepted study."""
    breakings = [(outcome.delay, one) for one in outcome.breakings] or [()] * len(outcome.buses)
    lines = [line_of(bus, breaking) for bus, breaking in zip(outcome.buses, breakings)]
    text = io.StringIO(newline="")
    writer = csv.DictWriter(text, lines[0].keys(), lineterminator="\r\n")
    writer.writeheader()
    writer.writerows(lines)
    return text.getvalue()
