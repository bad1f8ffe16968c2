"""A study as planners write it: a TOML file with named buses and the units of data sheets, and the rows of document 01.

    rows_of_plan(text, exact)   the rows, the names in the plan and what was rounded; or raises Mistakes, with all of them
    plan_of_rows(data, names)   the TOML text of an accepted study's rows
"""
from typing import NamedTuple

from .entries import Mistakes, Notes, entries_of, in_order, parsed, tolerance_of
from .tree import Tree
from .writing import plan_of_rows

__all__ = ["Converted", "Mistakes", "plan_of_rows", "rows_of_plan"]


class Converted(NamedTuple):
    rows: bytes         # a study file: S, all buses, all sources
    names: list         # of the buses, in the order of the rows
    roundings: list     # each in words; empty where every number is exact
    sources: list       # their names, in the order of the rows, empty where the plan gives none


def rows_of_plan(text, exact=False):
    """With `exact`, a number that is not a whole number of the record's units is a mistake and not rounded."""
    notes = Notes(text.removeprefix("\ufeff"), exact)
    plan = parsed(notes)
    tolerance = tolerance_of(plan, notes)
    tree = Tree(entries_of(plan, notes), notes)
    tree.check()
    notes.end_if_mistaken()
    rows = "".join(",".join(map(str, row)) + "\r\n" for row in tree.rows(tolerance))
    names = [tree.buses[step.bus].words["name"] for step in tree.steps]
    return Converted(rows.encode("ascii"), names, in_order(notes.roundings), tree.source_names())
