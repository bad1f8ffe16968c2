"""What hands a study on: a page, a JSON object or lines of CSV, with the figures or, but for CSV, with the refusal."""
from desk.exchange import csv_of, json_of
from desk.outcome import Refused, outcome_of
from desk.page import page_of
from desk.rewriting import source_of, written
from desk.streams import Answer
from desk.studies import rounded
from desk.targets import JSON, PAGE, TABLE
from desk.verdicts import is_to_heed


def handed(content, outcome, target, force, kind):
    """Writes what was made of an outcome. What was rounded, what was confirmed and why a study was refused goes to standard error
    besides."""
    if isinstance(outcome, Refused):
        return written(content, target, force, kind, outcome.words)._replace(status=1)
    notes = "\n".join(filter(None, [rounded(outcome.study), outcome.confirmation]))
    return written(content, target, force, kind, notes)._replace(heed=is_to_heed(outcome.buses))


def as_page(source, target, force, options):
    data = source_of(source, target)
    outcome = outcome_of(source, data, options)
    return handed(page_of(outcome, source, data).encode("utf-8"), outcome, target, force, PAGE)


def as_json(source, target, force, options):
    outcome = outcome_of(source, source_of(source, target), options)
    return handed((json_of(outcome) + "\n").encode("utf-8"), outcome, target, force, JSON)


def as_csv(source, target, force, options):
    """A refused study has no line for a bus, and nothing is written."""
    outcome = outcome_of(source, source_of(source, target), options)
    if isinstance(outcome, Refused):
        return Answer(1, notes=outcome.words)
    return handed(csv_of(outcome).encode("utf-8"), outcome, target, force, TABLE)
