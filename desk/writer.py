"""The text of a study as the proved writer puts it down: asked of crates/console/out/console, by its line `write`.

No row is put together here. What the console answers is taken apart and tried; an answer that is not as it should be is a Trouble.
"""
import re

from desk import console
from desk.program import PROGRAM, answer
from desk.records import MOST_BYTES
from desk.trouble import Trouble

ROOM = MOST_BYTES  # the bytes that are lent to the writer; no text of a closed study is longer
LENT = b"\x55"     # what the console fills them with before the call
ANSWER = re.compile(r"([0-9]{1,10}),([0-9]{1,10}),((?:[0-9a-f]{2})*)")
TASK = "write the study"


def text_in(said):
    """The text in an answer to `write,ROOM`: the number of the ground, the length of the text, and all bytes that were lent."""
    found = ANSWER.fullmatch(said)
    if not found:
        raise console.no_answer(TASK, said)
    number, length, lent = int(found[1]), int(found[2]), bytes.fromhex(found[3])
    if number != 0:
        raise console.refusal(TASK, number)
    if len(lent) != ROOM or not 0 < length <= ROOM:
        raise Trouble(f"{console.CONSOLE} was lent {ROOM:,} bytes for the study, and gave {length:,} of {len(lent):,}")
    if lent[length:].strip(LENT):
        raise Trouble(f"{console.CONSOLE} wrote beyond the end of the study, which it says has {length:,} bytes")
    return lent[:length]


def proved_text(text, buses):
    """The text of an accepted study, in order. `buses` is the program's answer to it, and has to be its answer to the result."""
    said, = console.answers(text, [f"write,{ROOM}"])
    result = text_in(said)
    if answer(result) != buses:
        raise Trouble(f"{console.CONSOLE} wrote a study that {PROGRAM.name} answers otherwise than the one that it read")
    return result
