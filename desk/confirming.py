"""`board --confirm`: a second opinion on all that is printed, by the exact-fraction program of tests/judge.

That program reads the rows itself and shares no code with this folder or the proved programs. It is loaded only here, and only
where it is asked for.
"""
import importlib
import sys
import textwrap
from itertools import chain

from desk.program import ROOT
from desk.trouble import Trouble, reason

FOLDER = ROOT / "tests/judge"
WIDTH = 126
MOST = 20  # lines of differences that are shown
WHAT_IT_DID = """\
The exact-fraction program of tests/judge, which shares no code with the proved programs, read the rows and worked out every current
anew. Each pair of bounds holds the exact current and is no wider than 2 A plus a thousandth; each peak, of the machines and of the
converters, is no lower than the exact one and above it by at most 0.15 % plus 1 A; each verdict follows from the figures and the
ratings."""
WHAT_IT_DID_OF_BREAKING = """\
Each Ib is no lower than the sum of its exact parts and above it by at most 3 % plus 4 A; the bounds of each generator's share hold
the exact one, as near to each other as those of the currents."""
WHAT_IT_LEFT = "What the tables make of these figures by adding, subtracting and converting is their own."


def judging():
    """The module of tests/judge that confirms; its folder is on the path for as long as it is loaded."""
    sys.path.insert(0, str(FOLDER))
    try:
        return importlib.import_module("confirm")
    except ImportError as error:
        raise Trouble(f"--confirm needs the exact-fraction program in {FOLDER}: {reason(error)}") from None
    finally:
        sys.path.remove(str(FOLDER))


def confirmed(text, buses, found=(), delay=""):
    """How many buses, figures and verdicts were confirmed, from an accepted study's text, the Figures of its buses and, with a delay,
    the Breaking of each. A difference is a Trouble."""
    judge = judging()
    printed = [judge.Printed(bus.number, bus.volts, bus.rating, bus.peak_rating,
                             (bus.lower, bus.upper, bus.converters_lower, bus.converters_upper, bus.machines_peak, bus.converters_peak),
                             bus.letter) for bus in buses]
    if delay:
        printed = [one._replace(breaking=breaking.figure, table=tuple(chain.from_iterable(breaking.bounds)))
                   for one, breaking in zip(printed, found)]
    got = judge.confirmed(text, printed, int(delay or 0))
    if got.differences:
        raise Trouble(differing(got.differences, buses))
    return got


def differing(differences, buses):
    """The differences in words, each with its bus."""
    head = ("not confirmed: the exact-fraction program of tests/judge differs from what the proved programs gave, so that no figure is "
            "shown. All in amperes; sources count from 0, in the order of their rows.")
    told = [f"  {place(number, buses)}{words}" for number, words in differences[:MOST]]
    more = len(differences) - len(told)
    return "\n".join([head, *told] + ([f"  and {more:,} lines more"] if more else []))


def place(number, buses):
    if number is None:
        return ""
    name = buses[number].name
    return f"bus {number} ({name}): " if name else f"bus {number}: "


def sentence(got, delay=""):
    """What is said where all is confirmed."""
    verdicts = "1 verdict" if got.verdicts == 1 else f"{got.verdicts:,} verdicts"
    buses = "1 bus" if got.buses == 1 else f"all {got.buses:,} buses"
    head = f"{got.figures:,} figures confirmed in exact fractions, and {verdicts}, of {buses}."
    told = [head, WHAT_IT_DID, WHAT_IT_LEFT] if not delay else [head, WHAT_IT_DID, WHAT_IT_DID_OF_BREAKING, WHAT_IT_LEFT]
    return textwrap.fill(" ".join(told), WIDTH)
