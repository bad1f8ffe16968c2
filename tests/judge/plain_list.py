"""Order 8's plain list of sources, and whether what the console writes has its sources.

The list goes by the calls alone and by whether the console accepted them: no ground is
tried here, and nothing is taken from accept.py.  An accepted addition joins the end, an
accepted withdrawal deletes its place, an accepted replacement rewrites its place.  A start
empties the list, a file that is read puts its own sources there, and nothing else changes it.
"""

from writes import text_of

SOURCE_NUMBERS = 12


def whole(numbers):
    """The digits of each number; seven numbers are meant as if filled with zeros."""
    digits = [str(number) for number in numbers]
    return digits + ["0"] * (SOURCE_NUMBERS - len(digits))


def sources_in(text):
    """The sources of a text, by its rows of the letter P."""
    rows = [row.decode("latin-1").split(",") for row in text.split(b"\r\n")]
    return [whole(numbers) for letter, *numbers in rows if letter == "P"]


class PlainList:
    def __init__(self):
        self.sources = []

    def note(self, call, answer):
        """What the call makes of the list, given its answer."""
        name, *rest = call
        accepted = answer.split(",")[0] == "0"
        if name in ("start", "read", "read capitals"):
            read = accepted and name != "start"
            self.sources = sources_in(rest[0]) if read else []
        elif accepted and name == "source":
            self.sources.append(whole(rest[0]))
        elif accepted and name == "withdraw":
            self.rewrite(rest[0], [])
        elif accepted and name == "replace":
            self.rewrite(rest[0], [whole(rest[1])])

    def rewrite(self, place, sources):
        """A place behind the end has nothing to delete or to rewrite."""
        if place < len(self.sources):
            self.sources[place : place + 1] = sources


def told_from_plain_list(calls, answers):
    """How many writes were accepted, and (place, reason) of the first that shows other sources than
    the plain list has, or None."""
    plain, shown = PlainList(), 0
    for place, (call, answer) in enumerate(zip(calls, answers)):
        plain.note(call, answer)
        text = text_of(answer) if call[0] == "write" else None
        if text is not None:
            shown += 1
            written = sources_in(text)
            if written != plain.sources:
                return shown, (place, first_difference(written, plain.sources))
    return shown, None


def first_difference(written, plain):
    for place, (one, other) in enumerate(zip(written, plain)):
        if one != other:
            return f"source {place} is written {','.join(one)} where the plain list has {','.join(other)}"
    return f"{len(written)} sources are written where the plain list has {len(plain)}"
