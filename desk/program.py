"""Runs the proved programs, which rt builds as crates/NAME/out/NAME, and takes the answer of noldveig apart. One that is not of the sources here rt builds first."""
import functools
import subprocess
from typing import NamedTuple

from desk.building import ensure
from desk.revision import ROOT
from desk.trouble import Trouble, reason

PROGRAM = ROOT / "crates/noldveig/out/noldveig"
CONSOLE = ROOT / "crates/console/out/console"  # what desk/console.py asks


class Refusal(NamedTuple):
    """The program's answer to a study that it does not accept: the number of the ground, and the row, from 1."""
    number: int
    row: int


@functools.cache
def ensured(program):
    """Once for each call of board."""
    ensure(program)


def output(program, given):
    """What a program writes for what it is given."""
    ensured(program)
    try:
        done = subprocess.run([str(program)], input=given, capture_output=True)
    except OSError as error:
        raise Trouble(f"{program} does not run: {reason(error)}") from None
    if done.returncode != 0:
        raise Trouble(f"{program} ended with status {done.returncode}")
    return done.stdout.decode("ascii", "replace")


def answer(text):
    """A Refusal, or the row of each bus: its number, the six amperes and the letter of the verdict."""
    rows = [row.split(",") for row in output(PROGRAM, text).split("\r\n") if row]
    try:
        if rows and rows[0][0] == "refused":
            (_, number, row), = rows
            return Refusal(int(number), int(row))
        buses = [(*map(int, fields[:7]), *fields[7:]) for fields in rows]
    except ValueError:
        buses = []
    if not buses or any(len(bus) != 8 for bus in buses):
        raise Trouble(f"{PROGRAM} printed something that is no answer to a study")
    return buses
