"""From rows to a plan: the TOML text of an accepted study, which gives the same rows again."""
from fractions import Fraction

from desk.records import named

from .entries import Mistakes, quoted
from .fields import KINDS, TOLERANCE, decimal_text, kinds_of

HEAD = """\
# A study of short-circuit levels: {buses}, {sources}.
#
# The rows made of it are the tolerance, all buses and all sources, buses and sources each in the order of this file.
# Rows B and P that were mixed come back in this order too; it is the same study. Remarks give the buses' numbers.
"""


def plan_of_rows(data, names=()):
    """`names` are those of the buses in their order; without them they are called bus 0, bus 1 and so on."""
    tolerance, buses, sources = records_of(data)
    names = list(names) or [f"bus {number}" for number in range(len(buses))]
    if len(names) != len(buses) or len(set(names)) != len(names):
        raise ValueError("each bus has a name of its own")
    head = HEAD.format(buses=counted(len(buses), "bus", "buses"), sources=counted(len(sources), "source", "sources"))
    parts = [head, f"{TOLERANCE} = {tolerance}\n", bus_list(buses, names)]
    parts += [branch_list(kind, buses, names) for kind in kinds_of("branch")]
    return "\n".join([part for part in parts if part] + source_blocks(sources, names))


def counted(number, one, more):
    return f"{number} {one if number == 1 else more}"


def records_of(data):
    """The tolerance, the bus records and the source records of a file that the program accepted, by the fields' names."""
    try:
        rows = [row.split(",") for row in data.decode("ascii").removesuffix("\r\n").split("\r\n")]
        rows = [(row[0], *map(int, row[1:])) for row in rows]
        (_, tolerance), *rest = rows
    except ValueError:
        raise Mistakes(["these are not the rows of an accepted study"]) from None
    buses, sources = ([named(letter, row[1:]) for row in rest if row[0] == letter] for letter in "BP")
    return tolerance, buses, sources


# Pairs of a key and its value


def pair(field, value):
    """A number of the record under the key that suits its size."""
    key = next(iter(field.units))
    if field.small and value < field.units[key].times:
        key = field.small
    return key, decimal_text(Fraction(value, field.units[key].times))


def pairs(kind, record):
    return [pair(field, record[field.name]) for field in kind.fields if field.name in record]


# Buses and branches: a list for each kind, a line for each entry


def bus_list(buses, names):
    lines = [[("name", quoted(name)), *pairs(KINDS["bus"], bus)] for name, bus in zip(names, buses)]
    remarks = [f"bus {number}" + ("" if number else ", the feeder's") for number in range(len(buses))]
    return one_list("bus", lines, remarks)


def branch_list(kind, buses, names):
    chosen = [(number, bus) for number, bus in enumerate(buses) if bus["branch kind"] == kind.number]
    lines = [[("from", quoted(names[bus["parent"]])), ("to", quoted(names[number])), *pairs(kind, bus)]
             for number, bus in chosen]
    return one_list(kind.table, lines, [f"bus {number}" for number, _ in chosen])


def one_list(table, lines, remarks):
    """Entries under each other, their keys in columns."""
    if not lines:
        return ""
    cells = [[f"{key} = {value}" for key, value in line] for line in lines]
    cells = [[cell + "," for cell in line[:-1]] + line[-1:] for line in cells]
    widths = [max(map(len, column)) for column in zip(*cells)]
    texts = [" ".join(cell.ljust(width) for cell, width in zip(line, widths)) for line in cells]
    return "\n".join([f"{table} = ["] + [f"    {{ {text} }},  # {remark}" for text, remark in zip(texts, remarks)] + ["]", ""])


# Sources: a block for each; those that are alike and follow each other are one with a count


def source_blocks(sources, names):
    kinds = {kind.number: kind for kind in kinds_of("source")}
    blocks, first = [], 0
    for after in range(1, len(sources) + 1):
        if after == len(sources) or sources[after] != sources[first]:
            blocks.append(source_block(kinds[sources[first]["source kind"]], sources[first], names, after - first))
            first = after
    return blocks


def source_block(kind, source, names, alike):
    lines = [("bus", quoted(names[source["bus"]])), *pairs(kind, source)]
    if alike > 1:
        lines.append(("count", str(alike)))
    header = "[feeder]" if kind.table == "feeder" else f"[[{kind.table}]]"
    width = max(len(key) for key, _ in lines)
    return "\n".join([f"{header}  # at bus {source['bus']}"] + [f"{key:{width}} = {value}" for key, value in lines] + [""])
