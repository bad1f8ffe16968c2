"""What goes to standard output and standard error, whatever these can take: full, closed, left by their reader, or ASCII alone."""
import os
import sys
from typing import NamedTuple

from desk.trouble import Trouble


# What stands for a letter that an encoding has not, where it has a name; the mark of I″k is as wide as its stand-in.
STAND_INS = {"Ω": "ohm", "μ": "mu", "″": '"', "√": "root "}


class Answer(NamedTuple):
    """The exit status, what goes to standard output (text, or bytes as they are) and what to standard error."""
    status: int
    out: object = ""
    notes: str = ""
    heed: bool = False  # some bus is over or close, which --strict makes a status of its own


def takes(encoding, words):
    try:
        words.encode(encoding)
        return True
    except UnicodeEncodeError:
        return False


def fitted(words, stream):
    """Words as a stream can show them: what its encoding has not comes by its stand-in, or else as \\x codes. What it has stays, so
    that names are as wide in a text as they are alone."""
    encoding = getattr(stream, "encoding", None) or "ascii"
    if takes(encoding, words):
        return words
    stand_ins = {letter: name for letter, name in STAND_INS.items() if not takes(encoding, letter)}
    return words.translate(str.maketrans(stand_ins)).encode(encoding, "backslashreplace").decode(encoding)


def silence(stream):
    """What a stream could not take is given up, so that Python does not try, and complain, once more at its end."""
    os.dup2(os.open(os.devnull, os.O_WRONLY), stream.fileno())


def deliver(said):
    """Writes an answer to standard output."""
    if sys.stdout is None:
        raise Trouble("standard output is closed")
    content = said if isinstance(said, bytes) else (fitted(said, sys.stdout) + "\n").encode(sys.stdout.encoding)
    try:
        sys.stdout.buffer.write(content)
        sys.stdout.flush()
    except OSError as error:
        silence(sys.stdout)
        if isinstance(error, BrokenPipeError):  # the reader has seen enough, as in `board FILE | head -1`
            raise
        raise Trouble(f"standard output: {error.strerror}") from None


def complain(words):
    if sys.stderr is None:
        return
    try:
        print(fitted(words, sys.stderr), file=sys.stderr, flush=True)
    except OSError:
        silence(sys.stderr)
