"""How wide text gets, on the safe side, and what may stand in a drawing's text.

The widths are those of DejaVu Sans, the widest of the usual sans-serif fonts, each rounded up, in parts of the font size.
Arial and Helvetica are about a sixth narrower, so a label that fits by this reckoning fits wherever it is opened.
"""
import unicodedata
from bisect import bisect_right
from itertools import accumulate

CLASSES = (
    (0.35, " ',./:;I\\ijl|·"),
    (0.43, "!()-[]frt"),
    (0.53, "\"*J`sz"),
    (0.60, "?L_ckvxy"),
    (0.65, "FTaoebdghnpqu$0123456789{}"),
    (0.73, "EKPSYAVBXZCR"),
    (0.80, "HNDGU&OQ"),
    (0.87, "w#+<=>^~M×"),
    (1.02, "%mW@…"),
)
WIDTHS = {letter: width for width, letters in CLASSES for letter in letters}
BOLD = 1.16
ACCENT = 0.13  # most accents widen nothing; a horn or a caron beside its letter does
SMALL_LETTER, SQUARE_LETTER, ANY_LETTER = 1.16, 1.05, 1.45  # of other alphabets; Chinese and the like; all else
FAR = 400  # no line has room for more characters than this
UNSHOWN = ("Cc", "Cf", "Cs", "Co", "Cn", "Zl", "Zp")  # control and direction marks, half characters, no characters


def letter_width(letter):
    if letter in WIDTHS:
        return WIDTHS[letter]
    base = unicodedata.normalize("NFD", letter)[0]
    if base in WIDTHS:
        return WIDTHS[base] + ACCENT
    if unicodedata.combining(base):
        return 0.0
    if unicodedata.east_asian_width(base) in "WF":
        return SQUARE_LETTER
    return SMALL_LETTER if unicodedata.category(base) == "Ll" else ANY_LETTER


def width(text, size, bold=False):
    """An upper estimate of the width of a text in px."""
    return sum(map(letter_width, text)) * size * (BOLD if bold else 1)


def harmless(text):
    """A text without what XML forbids or what would turn it around: such characters become a question mark."""
    if text.isprintable():
        return text
    return "".join("?" if unicodedata.category(letter) in UNSHOWN and not letter.isspace() else letter for letter in text)


def clean(text):
    """The same on one line."""
    return " ".join(harmless(text).split())


def fitted(text, size, bold, room):
    """The text, or as much of its start as there is room for, with dots."""
    widths = list(accumulate(letter_width(letter) * size * (BOLD if bold else 1) for letter in text[:FAR]))
    if len(text) <= FAR and (not widths or widths[-1] <= room):
        return text
    kept = bisect_right(widths, room - width("…", size, bold))
    return text[:kept].rstrip() + "…"
