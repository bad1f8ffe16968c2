"""Asks crates/console/out/console about a study that noldveig accepts: it reads the study, and answers each call on it with a line."""
from desk.program import CONSOLE, PROGRAM, output
from desk.show import shown
from desk.trouble import Trouble
from desk.words import words_of

ANEW = f"; where it is older than this folder, `rt run` in crates/{CONSOLE.name} builds it anew"


def answers(text, calls):
    """What the console answers to calls on an accepted study, each of them a line."""
    lines = [f"read,{text.hex()}", *calls]
    said = output(CONSOLE, "".join(line + "\n" for line in lines).encode("ascii")).split("\n")
    if len(said) != len(lines) + 1 or said[-1]:
        raise Trouble(f"{CONSOLE} was given {len(lines)} lines, and did not answer with as many")
    if said[0] != "0,0":
        raise Trouble(f"{CONSOLE} was to read the study, which {PROGRAM.name} accepts, and answered {shown(said[0].encode())}"
                      + ANEW)
    return said[1:-1]


def no_answer(task, said):
    """The trouble with an answer that is none to the call."""
    return Trouble(f"{CONSOLE} was to {task}, and answered {shown(said.encode())}" + (ANEW if said.startswith("error,") else ""))


def refusal(task, number):
    """The trouble with a call that was refused; no call on an accepted study should be."""
    return Trouble(f"{CONSOLE} did not {task}: {words_of(number)} (ground {number})")
