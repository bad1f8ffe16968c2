"""The explanation of a refusal: what the program refused, at the row that it gave.

Nothing is refused here. Where no reason is found the explanation says so; the program's answer stands all the same.
"""
import re
from typing import NamedTuple

from desk import form, grounds
from desk.mend import mended
from desk.plan.entries import quoted
from desk.records import MOST_BYTES, listed, named, rows_of
from desk.show import picture
from desk.words import words_of

NO_CAUSE = "What is wrong there this command cannot tell; the program's answer stands."


def hint(text, row, found):
    """What of it `board --fix` mends."""
    result, changes = mended(text)
    settled = {change.name for change in changes if change.settles(row)}
    if changes and 0 < len(result) <= MOST_BYTES:
        settled.add("length")
    mends = [one for one in found if one.mend in settled]
    if not mends:
        return []
    if len(mends) == len(found):
        return ["`board --fix IN OUT` mends this."]
    return ["`board --fix IN OUT` mends a part of this: " + "; ".join(sorted({one.mend for one in mends})) + "."]


def capital(words):
    return words[:1].upper() + words[1:]


def in_plan(text, row, sentences, names):
    """The names of the buses that a row, or what is said of it, speaks of."""
    case = grounds.case_of(text, row)
    if not case or not names:
        return []
    record = named(case.record.letter, case.record.values)
    own = {"B": [len(case.buses), record.get("parent")], "P": [record.get("bus")]}.get(case.record.letter, [])
    said = [int(number) for number in re.findall(r"\bbus (\d+)", " ".join(sentences))]
    buses = sorted({bus for bus in own + said if bus < len(names)})
    return [f"In the plan, {listed(f'bus {bus} is {quoted(names[bus])}' for bus in buses)}."] if buses else []


class Explanation(NamedTuple):
    """A refusal in words."""
    ground: int
    row: int
    reason: str        # what the ground is
    picture: str       # the row with its number, and marks under the places; empty where it would help nobody
    fields: tuple      # those that are marked, from 1 behind the row's letter; none where the text breaks the form
    sentences: tuple   # what is wrong there

    def head(self):
        return f"refused: {self.reason} (ground {self.ground})."

    def text(self):
        return "\n".join(filter(None, [self.head(), self.picture, *("  " + sentence for sentence in self.sentences)]))


def marked_fields(content, places):
    """The fields of a row that places in it lie in; 0, the letter, is none, and at the row's end stands none."""
    return tuple(sorted({content.count(b",", 0, start) for start, _ in places if start < len(content)} - {0}))


def explanation(text, number, row, names=()):
    """The program's answer `refused,number,row` to a text, explained; `names` of the buses, where a plan was its source."""
    found = form.findings(text, row) if number == 16 else grounds.findings(text, number, row)
    rows = rows_of(text)
    content = rows[row - 1] if 0 < row <= len(rows) else b""
    marks = tuple(place for one in found for place in one.places)
    reason = words_of(number)
    sentences = [capital(one.words) for one in found] or [NO_CAUSE]
    if number == 16:
        sentences += hint(text, row, found)
    sentences += in_plan(text, row, sentences, names)
    heading = f"row {row}, made from the plan: " if names else f"row {row}: "
    fields = () if number == 16 else marked_fields(content, marks)
    return Explanation(number, row, reason, picture(heading, content, marks), fields, tuple(sentences))
