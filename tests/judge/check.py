"""Answers of a program against the acceptance rules and the judge."""

import re
from collections import Counter
from os.path import commonprefix

from accept import ROW, Study
from breaking import BreakingJudge
from calls import FILL, TABLE_FILL, carried_out
from exact import CONVERTER
from judge import MACHINES_NEAR, NO_AMPERES, Amperes, Bench, verdict_reasons

NUMBER = re.compile(r"0|[1-9][0-9]{0,19}")
LETTERS = ("W", "O", "C")


class Tally:
    """Figures over many cases."""

    def __init__(self):
        self.networks = 0
        self.buses = 0
        self.verdicts = Counter()
        self.refused = Counter()
        self.writes = Counter()
        self.read_back = 0
        self.breakings = Counter()
        self.shares = 0
        self.reports = Counter()
        self.rows = 0
        self.changes = Counter()
        self.space = Counter()
        self.plain_lists = 0
        self.worst = {}

    def note(self, figure, value):
        self.worst[figure] = max(value, self.worst.get(figure, 0.0))

    def note_amperes(self, judge, amperes, of=""):
        """`of` parts what rows of reports come to from what queries do."""
        for lower, upper in (amperes[0:2], amperes[2:4]):
            self.note(of + "width", 1000 * (upper - lower) / (2000 + upper))
        least = judge.machines.peak_ceiling()
        above = amperes.machines_peak - least
        self.note(of + "peak", above / (4 + least / 50))
        self.note(of + "near", above / (1 + least * float(MACHINES_NEAR - 1)))
        least = judge.converters.peak_ceiling()
        self.note(of + "peak", (amperes.converters_peak - least) / (4 + least / 50))

    def note_breaking(self, judge, delay, figure, table):
        for place, _ in judge.generators():
            lower, upper = table[2 * place : 2 * place + 2]
            self.shares += 1
            self.note("share", 1000 * (upper - lower) / (2000 + upper))
        self.note("figure", judge.figure_excess(delay, figure))

    def add(self, other):
        self.networks += other.networks
        self.buses += other.buses
        self.verdicts += other.verdicts
        self.refused += other.refused
        self.writes += other.writes
        self.read_back += other.read_back
        self.breakings += other.breakings
        self.shares += other.shares
        self.reports += other.reports
        self.rows += other.rows
        self.changes += other.changes
        self.space += other.space
        self.plain_lists += other.plain_lists
        for figure, value in other.worst.items():
            self.note(figure, value)


def numbers_of(fields):
    """Plain decimal integers, or None when one of the fields is something else."""
    if not all(NUMBER.fullmatch(field) for field in fields):
        return None
    return [int(field) for field in fields]


def difference(answer, due):
    """Where the answer to a write first leaves the due one; the whole may have 140,000 digits."""
    given, wanted = answer.split(","), due.split(",")
    if len(given) != len(wanted):
        return f"{answer[:60]!r} is no answer to a write"
    for name, one, other in zip(("number", "length"), given, wanted):
        if one != other:
            return f"{name} {one[:60]!r} where {other} is due"
    at = len(commonprefix([given[2], wanted[2]])) // 2
    one, other = (digits[2 * at : 2 * at + 20] for digits in (given[2], wanted[2]))
    return f"{one!r} from byte {at} on where {other!r} is due"


def shown_table(call, number, answer, zeros, room):
    """Of an answer that shows all of a lent table: the numbers behind the ground's where the call is
    accepted, or None, and what is wrong.  A refused call gives zeros and the table as it was."""
    if number:
        due = ",".join(map(str, (number, *zeros, *[TABLE_FILL] * room)))
        return None, "" if answer == due else f"{answer[:60]!r} where {due[:60]!r} is due"
    numbers = numbers_of(answer.split(","))
    if numbers is None or len(numbers) != 1 + len(zeros) + room:
        return None, f"{answer[:60]!r} is no answer to an accepted {call}"
    if numbers[0] != 0:
        return None, f"{call} refused with {numbers[0]} where it is accepted"
    return numbers[1:], ""


def given_alike(given, study):
    """What was given for networks alike in all but their converters, by bus; `given` has it by network."""
    machines = tuple(source for source in study.sources if source.kind != CONVERTER)
    return given.setdefault((study.tolerance, study.buses, machines), {})


def sameness_reasons(given, bus, amperes):
    """Networks alike in all but their converters get the same machines' amperes."""
    before = given.setdefault(bus, amperes.machines)
    if before == amperes.machines:
        return []
    return [
        f"machines' amperes {amperes.machines} differ from {before}, given for a network"
        " alike in all but its converters"
    ]


class Checker:
    """Walks through calls and answers, the acceptance rules beside it."""

    def __init__(self, bench=None):
        self.bench = bench or Bench()
        self.tally = Tally()
        self.given = {}
        self.reported = {}
        self.judged = None, None
        self.broken = None, {}
        self.withdrawn = self.full = False

    def judges(self, study):
        if self.judged[0] is not study:
            self.judged = study, self.bench.judges(study.network())
            self.tally.networks += 1
        return self.judged[1]

    def first_fault(self, calls, answers):
        """(place, reason) of the first wrong answer, or None."""
        study = Study()
        for place, (call, answer) in enumerate(zip(calls, answers)):
            study, reason = self.step(study, call, answer)
            if reason:
                return place, reason
        return None

    def step(self, study, call, answer):
        """The study after a call, and what is wrong with the answer."""
        name, *rest = call
        if name == "other":
            right = answer.startswith("error,")
            return study, "" if right else f"{answer[:60]!r} where error is due"
        if name == "query":
            return study, self.query_reason(study, rest[0], answer)
        if name == "breaking":
            return study, self.breaking_reason(study, *rest, answer)
        if name == "report":
            return study, self.report_reason(study, rest[0], answer)
        if name == "write":
            return study, self.write_reason(study, rest[0], answer)
        given, study = carried_out(study, call)
        if given[0]:
            self.tally.refused[given[0]] += 1
        self.note_change(name, given[0], study)
        due = ",".join(map(str, given))
        return study, "" if answer == due else f"{answer!r} where {due!r} is due"

    def note_change(self, name, number, study):
        """Counts the call, `study` being the one after it.  Where the table has been full since the
        last start, an accepted addition of a source goes into space that a withdrawal freed."""
        self.tally.changes[name, number] += 1
        if name not in ("bus", "source", "withdraw", "replace", "close", "reopen"):
            self.withdrawn = self.full = False
        if name == "source" and number == 24 and self.withdrawn:
            self.tally.space["refused with 24"] += 1
        if name == "source" and number == 0 and self.full:
            self.tally.space["into freed space"] += 1
        self.withdrawn |= (name, number) == ("withdraw", 0)
        self.full |= len(study.sources) == study.most_sources

    def write_reason(self, study, room, answer):
        """The answer shows the whole lent room, so that a byte changed beyond the text is seen."""
        number, length, lent = study.write(FILL * room)
        self.tally.writes[number] += 1
        if number:
            self.tally.refused[number] += 1
        due = f"{number},{length},{lent.hex()}"
        return "" if answer == due else difference(answer, due)

    def query_reason(self, study, bus, answer):
        number = study.query(bus)
        if number:
            self.tally.refused[number] += 1
            due = ",".join(map(str, (number, *NO_AMPERES, "C", 0)))
            return "" if answer == due else f"{answer!r} where {due!r} is due"
        fields = answer.split(",")
        numbers = numbers_of(fields[:7] + fields[8:])
        if len(fields) != 9 or numbers is None or fields[7] not in LETTERS:
            return f"{answer!r} is no answer to an accepted query"
        if numbers[0] != 0:
            return f"query refused with {numbers[0]} where it is accepted"
        return self.amperes_reason(study, bus, Amperes(*numbers[1:7]), fields[7], numbers[7])

    def amperes_reason(self, study, bus, amperes, letter, given):
        judge = self.judges(study)[bus]
        reasons = judge.reasons(amperes) + judge.near_reasons(amperes)
        reasons += verdict_reasons(amperes, letter, given, study.buses[bus])
        reasons += sameness_reasons(given_alike(self.given, study), bus, amperes)
        self.tally.buses += 1
        self.tally.note_amperes(judge, amperes)
        self.tally.verdicts[letter] += 1
        return f"bus {bus}: " + "; ".join(reasons) if reasons else ""

    def breaking_reason(self, study, bus, delay, room, answer):
        """The answer shows the whole lent table, so that any number changed in it is seen."""
        number = study.breaking(bus, delay, room)
        self.tally.breakings[number] += 1
        if number:
            self.tally.refused[number] += 1
        numbers, reason = shown_table("breaking", number, answer, [0], room)
        return reason if numbers is None else self.table_reason(study, bus, delay, numbers[0], numbers[1:])

    def table_reason(self, study, bus, delay, figure, table):
        count = 2 * len(study.sources)
        if any(number != TABLE_FILL for number in table[count:]):
            return "a number beyond the last source's is changed"
        judge = self.breaking_judge(study, bus)
        reasons = judge.reasons(delay, figure, table[:count])
        if not reasons:
            self.tally.note_breaking(judge, delay, figure, table)
        return f"bus {bus}, {delay} ms: " + "; ".join(reasons) if reasons else ""

    def breaking_judge(self, study, bus):
        if self.broken[0] is not study:
            self.broken = study, {}
        kept = self.broken[1]
        if bus not in kept:
            kept[bus] = BreakingJudge(self.bench, study.network(), bus)
        return kept[bus]

    def report_reason(self, study, room, answer):
        """The answer shows the whole lent table, as that of a breaking does."""
        number = study.report(room)
        self.tally.reports[number] += 1
        if number:
            self.tally.refused[number] += 1
        numbers, reason = shown_table("report", number, answer, [], room)
        return reason if numbers is None else self.rows_reason(study, numbers)

    def rows_reason(self, study, table):
        """Each row for itself: it need not be what a query of its bus gives, and rows of alike
        networks stand against each other, not against queries."""
        count = ROW * len(study.buses)
        if any(number != TABLE_FILL for number in table[count:]):
            return "a number beyond the last bus's row is changed"
        given = given_alike(self.reported, study)
        for bus, judge in enumerate(self.judges(study)):
            amperes = Amperes(*table[ROW * bus : ROW * (bus + 1)])
            reasons = judge.reasons(amperes) + judge.near_reasons(amperes)
            reasons += sameness_reasons(given, bus, amperes)
            if reasons:
                return f"row of bus {bus}: " + "; ".join(reasons)
            self.tally.rows += 1
            self.tally.note_amperes(judge, amperes, "row ")
        return ""

    # The program

    def program_reason(self, text, output):
        number, row, study = Study().read(text)
        if number:
            self.tally.refused[number] += 1
            due = f"refused,{number},{row}\r\n".encode()
            return "" if output == due else f"{output[:200]!r} where {due!r} is due"
        lines = output.split(b"\r\n")
        if lines.pop() != b"" or len(lines) != len(study.buses):
            return f"{output[:200]!r} is not {len(study.buses)} lines with CRLF"
        for bus, line in enumerate(lines):
            fields = line.decode("latin-1").split(",")
            numbers = numbers_of(fields[:7])
            if len(fields) != 8 or numbers is None or fields[7] not in LETTERS:
                return f"{line!r} is no line of an accepted file"
            if numbers[0] != bus:
                return f"line of bus {numbers[0]} where {bus} is due"
            reason = self.amperes_reason(study, bus, Amperes(*numbers[1:7]), fields[7], None)
            if reason:
                return reason
        return ""
