"""A study as it is given, in rows or as a plan, and the words on a refusal of it."""
import re
from typing import NamedTuple

from desk.plan import Mistakes, rows_of_plan
from desk.refusals import explanation
from desk.show import visible
from desk.texts import MARK, wide

IN_ROWS = re.compile(r"[Ss]\s*[,;\t]\s*\d")
A_PLAN = "It looks like a plan, and was taken for rows: the name of a plan ends in .toml, and --toml and --fix are for rows."


class Options(NamedTuple):
    """What is asked for beside the table."""
    exact: bool = False    # nothing in a plan is rounded
    delay: str = ""        # of the breaking currents, where they are asked for
    units: bool = False    # kV, kA and MVA
    why: bool = False      # what drives the verdicts
    order: bool = False    # what to order
    confirm: bool = False  # a second opinion


class Study(NamedTuple):
    rows: bytes
    names: tuple = ()       # of the buses, where it was a plan
    roundings: tuple = ()   # each in words with its place in the plan
    sources: tuple = ()     # their names, where it was a plan; empty where the plan gives none


# ---- which of the two it is

def in_letters(data):
    """The text, in whatever encoding, as far as letters, digits and signs of ASCII go."""
    found = wide(data)
    return data[len(found.mark):].decode(found.codec, "replace") if found else data.removeprefix(MARK).decode("latin-1")


def first_line(data):
    """The first line that is neither blank nor a remark, in whatever encoding."""
    lines = (line.strip() for line in in_letters(data).splitlines())
    return next((line for line in lines if line and not line.startswith("#")), "")


def looks_like_plan(data):
    """A bracket, or an equals sign before any comma: no row of a study has either."""
    return re.match(r"\[|[^,;]*=", first_line(data)) is not None


def is_plan(path, data):
    return looks_like_plan(data) if path == "-" else path.lower().endswith(".toml")


# ---- from a plan

def text_of(data):
    found = wide(data)
    if found:
        raise Mistakes([f"the whole file is in {found.codec[:6].upper()}; a plan is saved as UTF-8"])
    try:
        return data.decode("utf-8")
    except UnicodeDecodeError as error:
        line = data.count(b"\n", 0, error.start) + 1
        raise Mistakes([f"line {line}: the byte {data[error.start]:02X} is not UTF-8; a plan is saved as UTF-8"]) from None


def from_plan(data, exact):
    """The study of a plan; raises Mistakes."""
    if IN_ROWS.match(first_line(data)):
        raise Mistakes(["it looks like the rows of a study, not like a plan; names that end in .toml, and --rows, are for plans"])
    converted = rows_of_plan(text_of(data), exact)
    return Study(converted.rows, tuple(converted.names), tuple(converted.roundings), tuple(converted.sources))


def mistakes_head(found):
    count = len(found.mistakes)
    return f"refused: the plan has {count} {'mistake' if count == 1 else 'mistakes'}."


def mistaken(found):
    """All mistakes of a plan, as they are listed."""
    return "\n".join([mistakes_head(found)] + ["  " + visible(one) for one in found.mistakes])


def rounded(study):
    """What was rounded; nothing where every number is exact."""
    return "\n".join(["Rounded:"] + ["  " + visible(one) for one in study.roundings]) if study.roundings else ""


# ---- refused

def explanation_of(study, got):
    """The explanation of a refusal. What is wrong with a plan as rows helps nobody, so that only the ground is said."""
    found = explanation(study.rows, *got, study.names)
    is_no_rows = got.number == 16 and looks_like_plan(study.rows)
    return found._replace(picture="", sentences=(A_PLAN,)) if is_no_rows else found


def refused(study, got):
    return explanation_of(study, got).text()
