"""Lists of single calls, fixed and drawn, with refused ones among them.

A call is a tuple: ("start", tolerance), ("bus", ten numbers), ("source", seven
or twelve numbers), ("withdraw", place), ("replace", place, the numbers of a
source), ("close",), ("reopen",), ("query", bus), ("breaking", bus, delay, room),
("report", room), ("write", room), ("read", bytes), ("read capitals", bytes), the
same in capital digits, or ("other", line) for a line that is no call at all.
"""

from accept import BUSES, BUSES_BEFORE, SOURCES, SOURCES_BEFORE
from networks import amount, any_network, random_tree
from refusals import BASE, CONVERTER_AT_BUS_0, FAULTY_BUS, FAULTY_SOURCE, GREATEST, LINE_FROM_BUS_0
from refusals import chain_rows, fault_subsets, lone_bus
from texts import SMALL, TEXT, spoil
from unit_networks import add_units, some_filled

# The console lends a writing so many bytes at most, each filled so that a changed one shows.
MOST_ROOM = 70_000
FILL = b"\x55"

# Tables of so many numbers at most are lent to a breaking and to a report, each number 7 before the call.
MOST_TABLE = 1_100
MOST_REPORT = 1_000
TABLE_FILL = 7

NO_CALLS = [
    "hello",
    "start",
    "start,",
    "start,6,0",
    "start,-6",
    "start,4294967296",
    "bus,0,100,0,0,0,0,0,0,1",
    "bus,0,100,0,0,0,0,0,0,1,1,1",
    "bus,0,100,0,0,0,0,0,0,1,x",
    *["source,1,0,1000" + ",0" * more for more in (3, 5, 6, 7, 8, 10, 11, 30)],
    "source,5,0,400,100,20000,10,80,400,400,100,6000,600,0",
    "source,5,0,400,100,20000,10,80,400,400,100,6000",
    "source,4,0,1000,150,0,0,0,0,0,0,0,x",
    "source,4,0,1000,150,0,0,0,0,0,0,0,",
    "source,4,0,1000,150,0,0,0,",
    "close,1",
    "query",
    "query,",
    "query,x",
    "query,0,0",
    "query,4294967296",
    "write",
    "write,",
    "write,x",
    "write,-1",
    "write,00",
    "write,100,0",
    f"write,{MOST_ROOM + 1}",
    f"write,{GREATEST}",
    "write,4294967296",
    "Write,100",
    "breaking",
    "breaking,",
    "breaking,0",
    "breaking,0,20",
    "breaking,0,20,",
    "breaking,0,20,10,0",
    "breaking,0,020,10",
    "breaking,x,20,10",
    "breaking,0,-20,10",
    "breaking,0,20,10 ",
    "breaking,4294967296,20,10",
    "breaking,0,4294967296,10",
    "breaking,0,20,4294967296",
    f"breaking,0,20,{MOST_TABLE + 1}",
    f"breaking,0,20,{GREATEST}",
    "Breaking,0,20,10",
    "breakings,0,20,10",
    "break,0,20,10",
    "report",
    "report,",
    "report,x",
    "report,-6",
    "report,+6",
    "report,06",
    "report,6 ",
    "report, 6",
    "report,6,",
    "report,,6",
    "report,6,0",
    "report,0,6",
    "report,0,20,6",
    f"report,{MOST_REPORT + 1}",
    f"report,{MOST_TABLE}",
    f"report,{GREATEST}",
    "report,4294967296",
    "Report,6",
    "REPORT,6",
    "reports,6",
    "repor,6",
    "withdraw",
    "withdraw,",
    "withdraw,x",
    "withdraw,-1",
    "withdraw,+1",
    "withdraw,01",
    "withdraw,1 ",
    "withdraw, 1",
    "withdraw,1,",
    "withdraw,,1",
    "withdraw,1,1",
    "withdraw,4,0,1000,150,0,0,0",
    "withdraw,4294967296",
    "withdraw,4294967297",
    "Withdraw,1",
    "WITHDRAW,1",
    "withdraws,1",
    "withdra,1",
    "replace",
    "replace,",
    "replace,1",
    "replace,1,",
    "replace,4,0,1000,150,0,0,0",
    "replace,1,4,0,1000,150,0,0,",
    "replace,1,4,0,1000,150,0,0,x",
    "replace,x,4,0,1000,150,0,0,0",
    "replace,,4,0,1000,150,0,0,0",
    "replace,01,4,0,1000,150,0,0,0",
    "replace,1,4,0,01000,150,0,0,0",
    "replace,4294967297,4,0,1000,150,0,0,0",
    "replace,1,4,0,4294968296,150,0,0,0",
    *["replace,1,4,0,1000,150" + ",0" * more for more in (2, 4, 5, 6, 7, 9, 10, 30)],
    "replace,1,5,0,400,100,20000,10,80,400,400,100,6000",
    "replace,1,5,0,400,100,20000,10,80,400,400,100,6000,600,0",
    "Replace,1,4,0,1000,150,0,0,0",
    "REPLACE,1,4,0,1000,150,0,0,0",
    "replaces,1,4,0,1000,150,0,0,0",
    "replac,1,4,0,1000,150,0,0,0",
    "reopen,",
    "reopen,1",
    "reopen,0",
    "reopen ",
    " reopen",
    "Reopen",
    "REOPEN",
    "reopens",
    "reope",
    "read",
    "read,0",
    "read,0g",
    "read,0/",
    "read,0:",
    "read,0@",
    "read,0G",
    "read,0`",
    "Start,6",
    "S,6",
    # a word with another byte in the place of its comma
    "start;6",
    "bus;0,20000,0,0,0,0,0,0,1,1",
    "source 1,0,1000,0,0,0,0",
    "close,",
    "close;",
    "query;0",
    "breaking;0,20,10",
    "report;6",
    "report 6",
    "withdraw;1",
    "withdraw 1",
    "replace;1,4,0,1000,150,0,0,0",
    "replace 1,4,0,1000,150,0,0,0",
    "reopen;",
    "write;5",
    "read;" + SMALL.hex(),
    # the bytes beside 0 to 9, A to F and a to f, in either place of a pair
    *[f"read,{byte}3" for byte in "/:@G`g"],
    *[f"read,3{byte}" for byte in "/:@G`g"],
]


class Capitals(bytes):
    """A text that the console gets in capital hexadecimal digits."""

    def hex(self):
        return super().hex().upper()


def as_calls(rows):
    return [("bus" if letter == "B" else "source", numbers) for letter, numbers in rows]


def queries(count):
    """All buses, and the first absent one."""
    return [("query", bus) for bus in range(count + 1)]


def line_of(call):
    """The console's line for a call."""
    name, *rest = call
    if name == "other":
        return rest[0]
    if name == "read":
        return "read," + rest[0].hex()
    if name == "read capitals":
        return "read," + rest[0].hex().upper()
    if name in ("bus", "source", "replace"):
        rest = *rest[:-1], *rest[-1]
    return ",".join([name, *map(str, rest)])


def carried_out(study, call):
    """What a call that may change a study gives, number first, and the study after it."""
    name, *rest = call
    methods = {
        "start": study.start,
        "bus": study.add_bus,
        "source": study.add_source,
        "withdraw": study.withdraw,
        "replace": study.replace,
        "close": study.close,
        "reopen": study.reopen,
        "read": study.read,
        "read capitals": study.read,
    }
    *given, after = methods[name](*rest)
    return given, after


# c cancels for a feeder alone; beside a motor the machines' part tells the tolerances apart
LOW_VOLTAGE = lone_bus(400) + [("P", (3, 0, 400, 100000, 50, 42, 0))]
BUILD_LOW = as_calls(LOW_VOLTAGE) + [("close",), *queries(1)]


def states():
    """Each call on an empty, an open and a closed study."""
    base = as_calls(BASE)
    tries = [
        ("query", 0),
        ("query", 3),
        ("query", GREATEST),
        ("bus", (9, 9, 9, 9, 9, 9, 9, 9, 0, 0)),
        ("source", (9, 9, 9, 9, 9, 9, 9)),
        ("source", (5, 9, 9, 9, 9, 9, 9, 9, 9, 9, 9, 9)),
    ]
    found = [("start", 6), *tries, ("source", BASE[1][1]), ("close",)]
    for call in base:
        found += [call, *tries]
        if call[0] == "bus" and call is base[0]:
            found.append(("close",))
    found += [("close",), *queries(3), *tries, *base, ("close",), *queries(3)]
    found += [("start", 10), *tries, ("close",), *base, ("close",), *queries(3)]
    return found


def refused_starts():
    """A refused start or file leaves tolerance 6 and no records, an open study."""
    found = [("start", 10), *BUILD_LOW]
    for call in (("start", 7), ("start", 0), ("start", GREATEST), ("read", b"S,7"), ("read", b"")):
        found += [("start", 10), *BUILD_LOW, call, ("query", 0), ("close",), *BUILD_LOW]
        found += [("start", 10), *as_calls(LOW_VOLTAGE), call, ("close",), *BUILD_LOW]
    return found


def files_between():
    """Files read into empty, open and closed studies."""
    found = [("start", 10), ("read", TEXT), *queries(3), ("close",), *as_calls(BASE), *queries(3)]
    found += [("start", 10), ("bus", BASE[0][1]), ("read", SMALL), *queries(1)]
    found += [("read", SMALL + b"x"), ("query", 0), ("close",), *BUILD_LOW]
    found += [("read capitals", TEXT), *queries(3), ("read capitals", SMALL + b"x"), ("query", 0)]
    found += [("read", TEXT.replace(b"S,6", b"S,10")), *queries(3), ("read", TEXT), *queries(3)]
    return found + [("read", Capitals(SMALL + b"\xab\xcd\xef")), ("read", Capitals(TEXT)), *queries(3)]


def full_tables():
    """Surplus records right and faulty, open and closed, and every bus beyond the edition before.

    A faulty record goes behind each table of the edition before, full in it
    alone, and before the last record of each.
    """
    bus, converter = as_calls([LINE_FROM_BUS_0, CONVERTER_AT_BUS_0])
    wrong_bus, wrong_source = as_calls([FAULTY_BUS, FAULTY_SOURCE])
    feeder = ("source", BASE[1][1])
    found = [("start", 6), ("bus", BASE[0][1])] + [bus] * (BUSES_BEFORE - 1) + [wrong_bus]
    found += [bus] * (BUSES - BUSES_BEFORE - 1) + [wrong_bus, bus]
    found += [bus, wrong_bus, wrong_source, converter, feeder]
    found += [converter] * (SOURCES_BEFORE - 1) + [wrong_source]
    found += [converter] * (SOURCES - SOURCES_BEFORE - 1) + [wrong_source, converter]
    found += [bus, wrong_bus, converter, wrong_source, feeder, ("query", BUSES), ("query", 0)]
    found += [("close",), bus, wrong_bus, converter, wrong_source, ("close",)]
    last = [("query", number) for number in range(BUSES_BEFORE - 1, BUSES + 2)]
    return found + [("query", 0), *last]


def companies():
    """Every company of faults as calls on one study, which must stay as it was."""
    found = []
    head = None
    for _, rows, (letter, numbers), _ in fault_subsets():
        if rows is not head and rows != head:
            if head is not None and any(row[0] == "P" for row in head):
                found += [("close",), *queries(len(head) - 1)]
            found += [("start", 6), *as_calls(rows)]
            head = rows
        found.append(("bus" if letter == "B" else "source", numbers))
    return found


def depths():
    found = []
    for transformers, lines in ((0, 19), (5, 0), (4, 15)):
        found += [("start", 10), *as_calls(chain_rows(transformers, lines))]
        found += [("close",), *queries(19)]
    return found


def other_lines():
    """Lines that are no call change nothing."""
    found = [("start", 10)]
    for call in BUILD_LOW:
        found += [call] + [("other", line) for line in NO_CALLS]
    return found


def at_once():
    """Calls before any start: an empty open study of tolerance 6."""
    tries = [("query", 0), ("write", 0), ("write", 100), ("report", 0), ("report", 6)]
    tries += [("reopen",), ("withdraw", 0), ("withdraw", 1), ("replace", 0, BASE[1][1])]
    return [*tries, ("close",), *BUILD_LOW, ("report", 6)]


FIXED = [states, refused_starts, files_between, full_tables, companies, depths, other_lines]


# Drawn lists


def wrong_record(rng, numbers):
    """One field changed: refused as a rule, now and then not."""
    numbers = list(numbers)
    for _ in range(rng.choice([1, 1, 2])):
        at = rng.randrange(len(numbers))
        value = numbers[at]
        others = [0, 1, value + 1, max(value - 1, 0), 2 * value, 99, 10**6 + 1, GREATEST]
        numbers[at] = min(rng.choice(others), GREATEST)
    return tuple(numbers)


def side_call(rng, rows):
    """A call that does not belong to the plan."""
    way = rng.randrange(14)
    if way < 4:
        return ("query", amount(rng, 0, BUSES + 6))
    if way < 5:
        return ("close",)
    if way < 6:
        return ("other", rng.choice(NO_CALLS))
    if way < 7 and rng.random() < 0.1:
        return ("start", rng.choice([6, 10, 7, GREATEST]))
    if way < 8 and rng.random() < 0.1:
        return ("read", spoil(rng, TEXT) if rng.random() < 0.7 else SMALL)
    letter, numbers = rng.choice(rows)
    return ("bus" if letter == "B" else "source", wrong_record(rng, numbers))


def drawn_calls(rng):
    """One to three plans, each a network added call by call with others between."""
    found = []
    for _ in range(rng.randint(1, 3)):
        if rng.random() < 0.2:
            found.append(("read", any_network(rng)[1].file()))
        else:
            most = rng.choice([(30, 40)] * 9 + [(BUSES, SOURCES)])
            draft = random_tree(rng, *(rng.randint(1, count) for count in most))
            add_units(draft, rng.choice([0, 0, 1, 5]))
            found += [("start", draft.tolerance)]
            for call in as_calls(some_filled(rng, draft.rows)):
                while rng.random() < 0.4:
                    found.append(side_call(rng, draft.rows))
                found.append(call)
        for _ in range(rng.randrange(4)):
            found.append(side_call(rng, BASE))
        found += [("close",), *queries(rng.randint(0, BUSES))]
        for _ in range(rng.randrange(6)):
            found.append(side_call(rng, BASE))
        found.append(("query", amount(rng, 0, BUSES)))
        if rng.random() < 0.3:
            found.append(("start", rng.choice([6, 10, 8])))
    return found
