"""A slow stand-in for the program and the console, made of the exact values.

python3 tests/judge/reference.py program < file.csv
python3 tests/judge/reference.py console

It serves to test run.py.  Bounds are the whole numbers next to the exact
parts and shares, peaks come from sixteen steps between the entries of the peak
table, a breaking figure is the least whole number not below its sum; a row of a
report is what a query gives.  --fault plants one of faults.py, breaking_faults.py,
unit_faults.py, reactance_faults.py, report_faults.py or change_faults.py.
"""

import argparse
import re
import sys
from math import isqrt

from accept import ROW, Study
from breaking import BreakingJudge
from calls import FILL, MOST_REPORT, MOST_ROOM, MOST_TABLE, TABLE_FILL, carried_out
from exact import Network, peak_thousandths
from judge import NO_AMPERES, Amperes, Bench, verdict
from shares import RootSum, Shares

COUNTS = {"start": [1], "bus": [10], "source": [7, 12], "close": [0], "query": [1]}
COUNTS |= {"breaking": [3], "report": [1], "write": [1]}
COUNTS |= {"withdraw": [1], "replace": [8, 13], "reopen": [0]}
CALL = re.compile(rf"({'|'.join(COUNTS)})((?:,(?:0|[1-9][0-9]{{0,9}}))*)")
READ = re.compile(r"read,((?:[0-9a-fA-F]{2})*)")
TABLE = [peak_thousandths(i) for i in range(231)]


class StandIn:
    """Answers calls and files; the classes of faults.py change single methods."""

    study_class = Study
    network_class = Network
    shares_class = Shares
    counts = COUNTS
    benches = {}

    def __init__(self):
        self.study = self.study_class()
        classes = self.network_class, self.shares_class
        self.bench = self.benches.setdefault(classes, Bench(self.shares_class))
        self.worked_out = None, None
        self.broken = None, {}

    # Amperes

    def judges(self, study):
        if self.worked_out[0] is not study:
            network = self.network_class(study.tolerance, study.buses, study.sources)
            self.worked_out = study, self.bench.judges(network)
        return self.worked_out[1]

    def step(self, values):
        """R/X in 1,600ths, up to the end of the table."""
        return min(16 * 230, 1600 * values.r // values.x)

    def entry(self, i):
        return TABLE[min(i, 230)]

    def sixteen_thousandths(self, values):
        """Between two entries in sixteen even steps."""
        i, s = divmod(self.step(values), 16)
        return (16 - s) * self.entry(i) + s * self.entry(i + 1)

    def machines_peak(self, values):
        """Least whole number not below √2·I·V/16,000."""
        top = 2 * values.square_top * self.sixteen_thousandths(values) ** 2
        bottom = values.square_bottom * 16000**2
        n = isqrt(top // bottom)
        return n if n * n * bottom >= top else n + 1

    def amperes(self, study, bus):
        return self.amperes_by(self.judges(study)[bus])

    def amperes_by(self, judge):
        return Amperes(
            judge.machines.floor(),
            judge.machines.ceiling(),
            judge.converters.floor(),
            judge.converters.ceiling(),
            self.machines_peak(judge.machines.values),
            judge.converters.peak_ceiling(),
        )

    # Breaking

    def breaking_judge(self, study, bus):
        if self.broken[0] is not study:
            self.broken = study, {}
        if bus not in self.broken[1]:
            network = self.network_class(study.tolerance, study.buses, study.sources)
            self.broken[1][bus] = BreakingJudge(self.bench, network, bus)
        return self.broken[1][bus]

    def bounds(self, share):
        return share.square.root_floor(), share.square.root_ceiling()

    def thousandths(self, source, share, delay):
        return share.thousandths(delay)

    def terms(self, judge, delay):
        """Pairs of μ in thousandths and a share's square, of each machine."""
        pairs = [(source, share) for source, share in zip(judge.sources, judge.shares) if share]
        return [(self.thousandths(*pair, delay), pair[1].square) for pair in pairs]

    def converters(self, judge):
        return judge.converters

    def figure(self, judge, delay):
        return RootSum(self.terms(judge, delay), self.converters(judge)).ceiling()

    def breaking(self, bus, delay, table):
        """Number and figure; the table is lent."""
        number = self.study.breaking(bus, delay, len(table))
        if number:
            return number, 0
        judge = self.breaking_judge(self.study, bus)
        table[: 2 * len(judge.sources)] = [0] * (2 * len(judge.sources))
        for place, share in judge.generators():
            table[2 * place : 2 * place + 2] = self.bounds(share)
        return 0, self.figure(judge, delay)

    # Reports

    def row(self, study, bus):
        return self.amperes(study, bus)

    def report(self, table):
        """The number; the table is lent."""
        number = self.study.report(len(table))
        if not number:
            for bus in range(len(self.study.buses)):
                table[ROW * bus : ROW * (bus + 1)] = self.row(self.study, bus)
        return number

    # The verdict

    def verdict(self, amperes, bus):
        return verdict(amperes, bus)

    # The program

    def program(self, text):
        number, row, study = self.study_class().read(text)
        if number:
            return f"refused,{number},{row}\r\n".encode()
        lines = []
        for b, bus in enumerate(study.buses):
            amperes = self.amperes(study, b)
            letter, _ = self.verdict(amperes, bus)
            lines.append(",".join(map(str, (b, *amperes, letter))) + "\r\n")
        return "".join(lines).encode()

    # The console

    def answer(self, line):
        line = line.removesuffix("\r")
        reading = READ.fullmatch(line)
        if reading:
            number, row, self.study = self.study.read(bytes.fromhex(reading[1]))
            return f"{number},{row}"
        call = CALL.fullmatch(line)
        if not call:
            return "error,no such call"
        numbers = [int(field) for field in call[2].split(",")[1:]]
        if len(numbers) not in self.counts[call[1]] or any(number >= 2**32 for number in numbers):
            return "error,wrong numbers"
        return self.answer_call(call[1], numbers)

    def answer_call(self, name, numbers):
        if name == "query":
            return self.answer_query(*numbers)
        if name == "breaking":
            return self.answer_breaking(*numbers)
        if name == "report":
            return self.answer_report(*numbers)
        if name == "write":
            return self.answer_write(*numbers)
        return str(self.change(name, numbers))

    def change(self, name, numbers):
        """The number of a call that may change the study."""
        if name in ("bus", "source"):
            numbers = [numbers]
        elif name == "replace":
            numbers = [numbers[0], numbers[1:]]
        (number,), self.study = carried_out(self.study, (name, *numbers))
        return number

    def answer_query(self, b):
        number = self.study.query(b)
        amperes, letter, margin = NO_AMPERES, "C", 0
        if not number:
            amperes = self.amperes(self.study, b)
            letter, margin = self.verdict(amperes, self.study.buses[b])
        return ",".join(map(str, (number, *amperes, letter, margin)))

    def answer_breaking(self, bus, delay, room):
        if room > MOST_TABLE:
            return "error,room"
        table = [TABLE_FILL] * room
        return ",".join(map(str, (*self.breaking(bus, delay, table), *table)))

    def answer_report(self, room):
        if room > MOST_REPORT:
            return "error,room"
        table = [TABLE_FILL] * room
        return ",".join(map(str, (self.report(table), *table)))

    def answer_write(self, room):
        if room > MOST_ROOM:
            return "error,room"
        number, length, lent = self.write(FILL * room)
        return f"{number},{length},{lent.hex()}"

    def write(self, lent):
        return self.study.write(lent)

    def console(self, lines):
        return [self.answer(line) for line in lines]


class InProcess:
    """A runner without processes: a new stand-in for each console and each file."""

    def __init__(self, stand_in):
        self.stand_in = stand_in

    def console(self, lines):
        return self.stand_in().console(lines)

    def program(self, text):
        return self.stand_in().program(text)


def main():
    from breaking_faults import BREAKING_FAULTS
    from change_faults import CHANGE_FAULTS
    from faults import FAULTS
    from reactance_faults import REACTANCE_BREAKING_FAULTS, REACTANCE_FAULTS
    from report_faults import REPORT_FAULTS
    from unit_faults import UNIT_BREAKING_FAULTS, UNIT_FAULTS

    faults = FAULTS | BREAKING_FAULTS | UNIT_FAULTS | UNIT_BREAKING_FAULTS
    faults |= REACTANCE_FAULTS | REACTANCE_BREAKING_FAULTS | REPORT_FAULTS | CHANGE_FAULTS
    parser = argparse.ArgumentParser(description=__doc__.splitlines()[0])
    parser.add_argument("role", choices=["program", "console"])
    parser.add_argument("--fault", choices=sorted(faults))
    options = parser.parse_args()
    stand_in = (faults[options.fault] if options.fault else StandIn)()
    if options.role == "program":
        sys.stdout.buffer.write(stand_in.program(sys.stdin.buffer.read()))
        return
    for line in sys.stdin.buffer:
        text = line.decode("latin-1").removesuffix("\n")
        sys.stdout.write(stand_in.answer(text) + "\n")
        sys.stdout.flush()


if __name__ == "__main__":
    main()
