"""Studies written as text (order 1): lists of calls with writes among them, and
studies that are written, read back from the console's own bytes and written again.

A room is the length of the lent buffer.  Most are taken from the length of the
text that is due, since a writer goes wrong beside that length.
"""

import re
from typing import NamedTuple

from accept import BUSES, BUSES_BEFORE, SOURCES, Study
from calls import LOW_VOLTAGE, MOST_ROOM, NO_CALLS, as_calls, carried_out, queries, wrong_record
from fixed import drawn_once
from networks import amount, any_network
from refusals import BASE, record_misses
from texts import SMALL, TEXT
from unit_networks import units_drawn_once, units_together, with_units

KEEPS = ("query", "breaking", "report", "write", "other")
ACCEPTED = re.compile(r"0,(0|[1-9][0-9]{0,9}),((?:[0-9a-f]{2})*)")


def study_after(calls):
    study = Study()
    for call in calls:
        if call[0] not in KEEPS:
            study = carried_out(study, call)[1]
    return study


def length_after(calls):
    return len(study_after(calls).text())


def writes(rooms):
    return [("write", room) for room in rooms]


def rooms_beside(length):
    """None, one byte, one too few, just enough, one more, much more, the most that is lent."""
    return [0, 1, length - 1, length, length + 1, length + 1000, MOST_ROOM]


# Fixed lists of calls


def written_states():
    """Every room on an empty, an open and a closed study, and twice on the closed one."""
    found = [("start", 10)]
    base = as_calls(BASE)
    every = writes(rooms_beside(length_after(found + base)))
    for call in base:
        found += [*every, call]
    found += [*every, ("close",), *every, ("other", f"write,{MOST_ROOM + 1}"), *every]
    found += [*queries(3), *base, ("close",), *queries(3), *every]
    return found + [("start", 6), *every, ("close",), *every]


def written_after_refusals():
    """A refused start or file leaves an open study of tolerance 6, a refused closing an open one."""
    low = as_calls(LOW_VOLTAGE)
    at_six = length_after([("start", 6), *low])
    at_ten = length_after([("start", 10), *low])
    tries = writes([0, 1, at_six, MOST_ROOM])
    found = []
    for call in (("start", 7), ("read", b"S,7"), ("read", b""), ("read", TEXT + b"x")):
        found += [("start", 10), *low, ("close",), ("write", at_ten), call, *tries]
        found += [*low, *tries, ("close",), ("write", at_six), ("write", at_six - 1)]
    return found + [("start", 6), low[0], ("close",), *tries, low[1], ("close",), *tries]


def written_without_refused():
    """Refused calls before each accepted one and after the closing leave nothing in the text."""
    refused = [
        ("bus", (0, 20000, 1, 100, 300, 1000, 2, 0, 0, 60000)),
        ("bus", (0, 20000, 1, 100, 300, 1000, 9, 0, 15000, 60000)),
        ("source", (4, 0, 1000, 99, 0, 0, 0)),
        ("source", (2, BUSES, 400, 500, 15000, 10, 90)),
        ("source", (5, 0, 5399, 500, 15000, 10, 90, 6000, 20000, 500, 6000, 0)),
        ("query", 0),
        ("other", "hello"),
    ]
    found = [("start", 10)]
    for call in as_calls(BASE):
        found += [*refused, call]
    found += [*refused, ("source", BASE[1][1]), ("close",)]
    length = length_after(found)
    return found + [("write", length), *refused, ("close",), *writes([length, length + 9])]


def written_read():
    """Studies that were read: neither the order of the rows nor a last end left out shows."""
    found = []
    for text in (TEXT, TEXT[:-2], TEXT.replace(b"S,6", b"S,10"), SMALL, SMALL[:-2]):
        length = length_after([("read", text)])
        rooms = [length - 1, length, length + 1]
        found += [("read", text), *writes(rooms), ("query", 0), ("close",), *writes(rooms)]
    return found


def written_rooms():
    """Rooms beside each power of two, open and closed: the console may print them by parts."""
    sizes = [2**power + beside for power in range(4, 17) for beside in (-1, 0, 1)]
    every = writes([*sizes, MOST_ROOM - 1])
    return [("start", 6), *every, ("read", SMALL), *every]


def written_ends():
    """Each field at each end of its range, its longest number with it."""
    found = []
    for meant in record_misses():
        if meant.number == 0:
            call = ("read", meant.text)
            found += [call, ("write", length_after([call]) + 3)]
    return found


def written_numbers():
    """Every length of number and every digit, as ratings of the buses of one study."""
    beside = [10**power + step for power in range(1, 6) for step in (-1, 0, 1)] + [1, 10**6]
    alike = [digit * (10**power // 9) for power in range(1, 7) for digit in range(1, 10)]
    found = [("start", 6), *as_calls(BASE[:2])]
    for i, peak in enumerate(alike):
        rating = beside[i % len(beside)]
        found.append(("bus", (0, 20000, 1, 100, 300, 1000, 2, 0, rating, peak)))
    return found + [("close",), ("write", length_after(found))]


def first_as_long(number):
    """The least bus number with as many digits."""
    return 10 ** (len(str(number)) - 1) if number > 9 else 0


def longest_bus(number):
    """Over a transformer from the first bus whose number is as long as any parent's can be."""
    parent = first_as_long(number - 1)
    return ("B", (parent, 420000, 2, 462000, 462000, 10**6, 30000, 29999, 10**6, 3 * 10**6))


# All machines stand at the first bus whose number has the most digits, so that they can be
# added between the buses behind it.
HOME = first_as_long(BUSES - 1)
LONGEST_UNIT = 508200, 10**6, 100000, 200, 100, 462000, 462000, 10**6, 30000, 29999
LONGEST_SOURCE = ("P", (5, HOME, *LONGEST_UNIT))


def longest_rows():
    """The longest text of all: full tables, every number as long as it can be."""
    rows = [
        ("B", (0, 420000, 0, 0, 0, 0, 0, 0, 10**6, 3 * 10**6)),
        ("P", (1, 0, 10**8, 200, 0, 0, 0)),
    ]
    rows += [longest_bus(number) for number in range(1, HOME + 1)]
    for number in range(HOME + 1, BUSES):
        rows += [LONGEST_SOURCE, longest_bus(number), LONGEST_SOURCE]
    return rows + [LONGEST_SOURCE] * (SOURCES - sum(row[0] == "P" for row in rows))


def written_full_tables():
    """Full tables in a mixture, one bus and one source more refused."""
    over = as_calls([longest_bus(BUSES), LONGEST_SOURCE])
    found = [("start", 10), *as_calls(longest_rows()), *over]
    length = length_after(found)
    found += [("write", length), ("close",), *writes(rooms_beside(length))]
    last = [("query", number) for number in range(BUSES_BEFORE - 1, BUSES + 1)]
    return found + [("query", 0), *last, *over, ("close",), ("write", length)]


WRITTEN = [
    written_states,
    written_after_refusals,
    written_without_refused,
    written_read,
    written_rooms,
    written_ends,
    written_numbers,
    written_full_tables,
]


# Written, read back and written again


class Writing(NamedTuple):
    """A study to be written, read back and written again.

    The calls `made` lead to it; the `rooms` are lent in turn, the last of them
    long enough for its text.
    """

    name: str
    made: list
    rooms: list
    buses: int


# Refused, each with 21, on every closed study
LATE = [("bus", BASE[0][1]), ("source", BASE[1][1]), ("close",)]


def writing(name, made, rooms_for):
    study = study_after(made)
    return Writing(name, made, rooms_for(len(study.text())), len(study.buses))


def first_calls(plan):
    """The study made, then asked and written, then asked, tried and written once more."""
    asked = queries(plan.buses)
    return [*plan.made, *asked, *writes(plan.rooms), *asked, *LATE, ("write", plan.rooms[-1])]


def back_calls(plan, text):
    """Behind a refused start, so that nothing of the study before is left to answer from."""
    return [("start", 7), ("read", text), *queries(plan.buses), ("write", len(text))]


def text_of(answer):
    """The text that the answer to an accepted write shows, or None where it shows none whole."""
    shown = ACCEPTED.fullmatch(answer)
    if not shown or int(shown[1]) > len(shown[2]) // 2:
        return None
    return bytes.fromhex(shown[2])[: int(shown[1])]


def figures(calls, answers):
    return [answer for (name, *_), answer in zip(calls, answers) if name == "query"]


def told_apart(plan, first, back):
    """Where a study read back can be told from the one written, or one written from one not.

    The answers stand against each other here and not against the judge, which
    allows more than one pair of bounds.
    """
    calls, count = first_calls(plan), len(plan.made)
    asked = figures(calls[count:], first[count:])
    before, after = asked[: plan.buses + 1], asked[plan.buses + 1 :]
    text = text_of(first[-1])
    for name, one, other in (
        ("figures behind a write", after, before),
        ("figures of the study read back", figures(back_calls(plan, text), back), before),
        ("text of the study read back", text_of(back[-1]), text),
    ):
        if one != other:
            return f"{name}: not what was given before"
    return ""


def fixed_writings():
    """Studies made by calls, so that what reading makes of their text is another way to them.

    Of the networks drawn once the small ones: the full tables stand for the others.
    """
    found = []

    def plan(name, tolerance, rows):
        made = [("start", tolerance), *as_calls(rows), ("close",)]
        found.append(writing(f"written: {name}", made, lambda length: [0, length - 1, length]))

    plan("base at 6", 6, BASE)
    plan("base at 10", 10, BASE)
    plan("motor at low voltage, 10", 10, LOW_VOLTAGE)
    plan("full tables", 10, longest_rows())
    for name, draft in drawn_once() + units_together() + units_drawn_once():
        if len(draft.rows) <= 50:
            plan(name, draft.tolerance, draft.rows)
    return found


# Drawn


def drawn_rooms(rng, length):
    """Just enough, one too few, none or more; where that is too short, one that is not."""
    more = length + amount(rng, 1, rng.choice([9, 999, MOST_ROOM - length]))
    room = rng.choice([length, length - 1, 0, more])
    return [room] if room >= length else [room, rng.choice([length, more])]


def call_between(rng, rows, study):
    """A call that an open study refuses, as a rule, or that is none."""
    way = rng.randrange(8)
    if way < 2:
        return ("write", rng.choice([0, len(study.text()), amount(rng, 0, MOST_ROOM)]))
    if way < 3:
        return ("query", amount(rng, 0, BUSES + 6))
    if way < 4:
        return ("other", rng.choice(NO_CALLS))
    letter, numbers = rng.choice(rows)
    return ("bus" if letter == "B" else "source", wrong_record(rng, numbers))


def drawn_making(rng):
    """A network read, or added call by call with refused calls between."""
    _, draft = (any_network if rng.random() < 0.6 else with_units)(rng)
    if rng.random() < 0.3:
        return [("read", draft.file())]
    study, found = Study(draft.tolerance), [("start", draft.tolerance)]
    for call in as_calls(draft.rows):
        if rng.random() < 0.2:
            other = call_between(rng, draft.rows, study)
            if other[0] in KEEPS or carried_out(study, other)[0][0]:
                found.append(other)
        found.append(call)
        study = carried_out(study, call)[1]
    return found + [("close",)]


def drawn_writing(name, rng):
    return writing(name, drawn_making(rng), lambda length: drawn_rooms(rng, length))
