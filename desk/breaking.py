"""The breaking current of each bus, and the generators' shares in it: asked of crates/console/out/console, by its line `breaking`.

No current is calculated here. What the console answers is taken apart and tried; an answer that is not as it should be is a
Trouble.
"""
import re
from typing import NamedTuple

from desk import console
from desk.records import GENERATORS, listed, rows_of
from desk.trouble import Trouble

DELAYS = ("20", "50", "100", "250")  # ms from the fault until a breaker opens, at the least; document 02, order 3
ANSWER = re.compile(r"[0-9]{1,16}(?:,[0-9]{1,16})+")
TASK = "give a breaking current"


class Breaking(NamedTuple):
    """The breaking current of a bus, and of each source the lower and upper bound of its share, 0 and 0 but of generators, alone or in
    power station units."""
    figure: int
    bounds: tuple


def delay_of(word):
    """The delay that stands behind --breaking."""
    if word not in DELAYS:
        given = f"--breaking {word}" if word else "--breaking without a delay"
        raise Trouble(f"{given}: the delay of a breaker is {listed(DELAYS, 'or')}, in ms, as in `board --breaking 100 FILE`")
    return word


def breaking_in(said, kinds):
    """What an answer to `breaking,BUS,DELAY,ROOM` says: the number of the ground, the figure and the lent table. `kinds` are
    those of the sources, in order."""
    if not ANSWER.fullmatch(said):
        raise console.no_answer(TASK, said)
    number, figure, *table = map(int, said.split(","))
    if number != 0:
        raise console.refusal(TASK, number)
    bounds = tuple(zip(table[::2], table[1::2]))
    if figure < 1 or len(table) != 2 * len(kinds) or not all(map(are_bounds, bounds, kinds)):
        raise console.no_answer(TASK, said)
    return Breaking(figure, bounds)


def are_bounds(pair, kind):
    lower, upper = pair
    return lower <= upper and (kind in GENERATORS or upper == 0)


def breakings(text, delay):
    """The Breaking of each bus of an accepted study."""
    rows = [row.split(b",") for row in rows_of(text)]
    kinds = [int(row[1]) for row in rows if row[0] == b"P"]
    buses = sum(row[0] == b"B" for row in rows)
    said = console.answers(text, [f"breaking,{bus},{delay},{2 * len(kinds)}" for bus in range(buses)])
    return [breaking_in(one, kinds) for one in said]
