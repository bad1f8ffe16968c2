"""Several studies at once: a line for each, and the worst status of all."""
import sys

from desk import files
from desk.outcome import Refused, outcome_of
from desk.show import visible
from desk.streams import Answer, fitted
from desk.studies import Options, is_plan
from desk.table import columns, verdict_words
from desk.trouble import Trouble
from desk.verdicts import called, count_of, is_to_heed, worst

HEADINGS = ("file", "buses", "within", "close", "over", "worst bus")
NONE = ("-",) * 4  # no counts


def cells_of(outcome):
    """What stands behind the name of a file."""
    if isinstance(outcome, Refused):
        return (*NONE, outcome.head)
    buses = outcome.buses
    bus = worst(buses)
    counts = [str(count_of(buses, letter)) for letter in "WCO"]
    return (str(len(buses)), *counts, f"{called(bus)}: {verdict_words(bus)}")


def tried(path, exact):
    """The status of a file, whether there is something to heed in it, and its line. Only what is wrong with the file itself is said
    there: where the program cannot be run, that goes for all of them and ends the command."""
    name = visible(files.name_of(path))
    try:
        data = files.read(path)
        if is_plan(path, data):
            files.whole(path, data)
    except Trouble as trouble:
        return 2, False, (name, *NONE, f"not read: {str(trouble).removeprefix(files.name_of(path) + ': ')}")
    outcome = outcome_of(path, data, Options(exact))
    refused = isinstance(outcome, Refused)
    return int(refused), not refused and is_to_heed(outcome.buses), (name, *cells_of(outcome))


def listed(paths, exact):
    """`board FILE FILE ..`"""
    statuses, heeds, lines = zip(*[tried(path, exact) for path in paths])
    lines = [[fitted(cell, sys.stdout) for cell in line] for line in lines]  # before the columns are measured
    return Answer(max(statuses), columns([HEADINGS, *lines]), heed=any(heeds))
