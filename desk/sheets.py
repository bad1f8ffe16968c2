"""A large drawing in parts for paper: windows onto it, a sheet for each, at a scale at which its lettering can be read.

The cuts go where they meet the fewest labels and symbols; one that is met all the same stands whole on the sheet that it begins on.
Bars and wires go on from sheet to sheet.
"""
from math import ceil

from desk.layout import Box

LEAST = 0.66  # the scale below which a drawing is cut: the smallest lettering is then 5 points
FLOOR = 0.58  # what a label at a cut may bring it down to
ROOM = (703, 920)  # px: an upright sheet of A4 within its margins, below a heading
STRAY = 0.12  # how far a cut may lie from where equal parts would have it, in parts of their size
STEP = 2  # px between the places that are tried
LONG = ("bar", "wire", "source wire")  # what may be cut


def met(spans, at):
    """What a cut goes through."""
    return [span for span in spans if span[0] < at < span[1]]


def cut(spans, due, stray):
    """Where to cut: near the place that is due, through as little as can be."""
    places = [due + sign * far for far in range(0, int(stray) + 1, STEP) for sign in (1, -1)]
    return min(places, key=lambda at: (len(met(spans, at)), abs(at - due)))


def cut_in(count, spans, size):
    """A length in so many parts, each with its beginning and its end; what a cut meets belongs to the part before it."""
    cuts = [cut(spans, size * k / count, STRAY * size / count) for k in range(1, count)]
    return [(begin, max([end, *(high for _, high in met(spans, end))])) for begin, end in zip([0, *cuts], [*cuts, size])]


def parts(spans, size, room):
    """The parts of a length: as many as fit a room at the least scale, and one or two more where labels make a part much longer."""
    fewest = ceil(size * LEAST / room)
    tried = [cut_in(count, spans, size) for count in (fewest, fewest + 1, fewest + 2)]
    return next((one for one in tried if max(end - begin for begin, end in one) * FLOOR <= room), tried[-1])


def is_filled(window, boxes):
    """Whether there is anything in a window but bars and wires."""
    return any(box.left < window.right and box.right > window.left and box.top < window.bottom and box.bottom > window.top for box in boxes)


def windows(drawing):
    """The windows onto a drawing, column by column, each a Box with the number of its column and of its row; none where one sheet is
    enough. Where there is nothing but bars and wires there is no window."""
    if min(ROOM[0] / drawing.width, ROOM[1] / drawing.height) >= LEAST:
        return []
    boxes = [item.box for item in drawing.items if item.kind not in LONG]
    found = []
    for column, (left, right) in enumerate(parts([(box.left, box.right) for box in boxes], drawing.width, ROOM[0]), 1):
        inside = [(box.top, box.bottom) for box in boxes if box.left < right and box.right > left]
        found += [(Box(left, top, right, bottom), column, row)
                  for row, (top, bottom) in enumerate(parts(inside, drawing.height, ROOM[1]), 1)]
    return [one for one in found if is_filled(one[0], boxes)]
