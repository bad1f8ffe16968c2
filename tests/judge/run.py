"""Run the program and the console against the exact judge.

python3 tests/judge/run.py --program crates/noldveig/out/noldveig --console crates/console/out/console
    --seed 1 --networks 200 --bytes 500 --calls 100 --writes 100 --breakings 100 --units 100
    --reactances 100 --reports 100 --changes 100

The fixed set always runs; the seed adds drawn networks, broken texts, lists of
calls, studies that are written, read back and written again, networks asked for
breaking currents, networks with power station units, networks whose transformers
have a low impedance, networks asked by reports, and lists of calls that withdraw
and replace sources and reopen studies.  Give an empty --program or --console to
leave that one out.
"""

import argparse
import shlex
import shutil
import subprocess
import sys
import time
from multiprocessing import Pool

from cases import DRAWN_TOGETHER, drawn_units, fixed_units, run_unit
from check import Tally

SHOWN_WHOLE = 3
SHOWN_BRIEFLY = 30
TIMEOUT = 600


class Commands:
    """Runs the two programs as processes."""

    def __init__(self, program, console):
        self.program = Program(shlex.split(program)) if program else None
        self.console = Console(shlex.split(console)) if console else None


class Program:
    def __init__(self, command):
        self.command = command

    def __call__(self, text):
        return output_of(self.command, text)


class Console:
    def __init__(self, command):
        self.command = command

    def __call__(self, lines):
        given = "".join(line + "\n" for line in lines).encode()
        answers = output_of(self.command, given).decode("latin-1").split("\n")
        if answers[-1] == "":
            answers.pop()
        return [answer.removesuffix("\r") for answer in answers]


def output_of(command, given):
    """Standard output; a process that dies or hangs leaves what it had printed."""
    try:
        done = subprocess.run(command, input=given, stdout=subprocess.PIPE, timeout=TIMEOUT)
    except subprocess.TimeoutExpired as late:
        print(f"{command[0]} did not end within {TIMEOUT} s", file=sys.stderr)
        return late.stdout or b""
    if done.returncode < 0:
        print(f"{command[0]} was ended by signal {-done.returncode}", file=sys.stderr)
    return done.stdout


class Work:
    """A unit with its runner, as handed to a worker process."""

    def __init__(self, runner):
        self.runner = runner

    def __call__(self, unit):
        outcome = run_unit(self.runner, unit)
        return outcome.passed, outcome.failures, outcome.tally


def missing(command):
    return bool(command) and shutil.which(shlex.split(command)[0]) is None


def outcomes(runner, units, jobs):
    work = Work(runner)
    if jobs == 1:
        yield from map(work, units)
    else:
        with Pool(jobs) as pool:
            yield from pool.imap(work, units)


def by_number(counter):
    return ", ".join(f"{number}: {count}" for number, count in sorted(counter.items()))


def summary(tally):
    print(f"networks judged: {tally.networks}, buses: {tally.buses}")
    letters = ", ".join(f"{letter} {count}" for letter, count in sorted(tally.verdicts.items()))
    print(f"verdicts: {letters}")
    print(f"refused by ground: {by_number(tally.refused)}")
    print(f"writes by number: {by_number(tally.writes)}; read back and the same: {tally.read_back}")
    print(f"breakings by number: {by_number(tally.breakings)}; shares judged: {tally.shares}")
    print(f"reports by number: {by_number(tally.reports)}; rows judged: {tally.rows}")
    summary_of_changes(tally)
    for figure, meaning in (
        ("width", "widest pair against its allowance of 2 A and a thousandth"),
        ("peak", "peak farthest above the least whole one, against 2 % and 4 A"),
        ("near", "machines' peak farthest above the least whole one, against 0.15 % and 1 A"),
        ("row width", "a report's widest pair, likewise"),
        ("row peak", "a report's peak farthest above the least whole one, against 2 % and 4 A"),
        ("row near", "a report's machines' peak, likewise against 0.15 % and 1 A"),
        ("share", "widest share's pair against its allowance of 2 A and a thousandth"),
        ("figure", "breaking figure farthest above the least whole one, against 3 % and 4 A"),
    ):
        if figure in tally.worst:
            print(f"{meaning}: {tally.worst[figure]:.3f}")


def summary_of_changes(tally):
    """By the numbers that are due for each call, and not by the program's answers."""
    for call, words in (
        ("withdraw", "withdrawals"),
        ("replace", "replacements"),
        ("reopen", "reopenings"),
        ("close", "closings"),
        ("bus", "additions of buses"),
        ("source", "additions of sources"),
    ):
        numbers = {number: count for (name, number), count in tally.changes.items() if name == call}
        print(f"{words} by number: {by_number(numbers)}")
    space = ", ".join(f"{words} {count}" for words, count in sorted(tally.space.items()))
    print(f"additions of sources behind a withdrawal: {space}")
    print(f"writes whose sources are those of the plain list: {tally.plain_lists}")


def show(failure, count):
    if count <= SHOWN_BRIEFLY:
        print(f"FAILED {failure.name}: {failure.reason}")
    if count <= SHOWN_WHOLE:
        print(failure.shown)
        print()


def main(arguments=None):
    parser = argparse.ArgumentParser(description=__doc__.splitlines()[0])
    parser.add_argument("--program", default="crates/noldveig/out/noldveig")
    parser.add_argument("--console", default="crates/console/out/console")
    parser.add_argument("--seed", type=int, default=1)
    parser.add_argument("--networks", type=int, default=100)
    parser.add_argument("--bytes", type=int, default=300)
    parser.add_argument("--calls", type=int, default=60)
    parser.add_argument("--writes", type=int, default=60)
    parser.add_argument("--breakings", type=int, default=60)
    parser.add_argument("--units", type=int, default=60)
    parser.add_argument("--reactances", type=int, default=60)
    parser.add_argument("--reports", type=int, default=60)
    parser.add_argument("--changes", type=int, default=60)
    parser.add_argument("--jobs", type=int, default=1)
    options = parser.parse_args(arguments)
    for command in (options.program, options.console):
        if missing(command):
            parser.error(f"no program {command}")
    runner = Commands(options.program, options.console)
    begun = time.monotonic()
    counts = {kind: getattr(options, kind) for kind in DRAWN_TOGETHER}
    units = fixed_units() + drawn_units(options.seed, counts)
    tally, passed, failed = Tally(), 0, 0
    for unit_passed, failures, unit_tally in outcomes(runner, units, options.jobs):
        tally.add(unit_tally)
        passed += unit_passed
        for failure in failures:
            failed += 1
            show(failure, failed)
    summary(tally)
    print(f"seconds: {time.monotonic() - begun:.0f}")
    print(f"{passed} passed, {failed} failed")
    return 1 if failed or not passed else 0


if __name__ == "__main__":
    sys.exit(main())
