"""What is odd about a field that should be a number: each oddity by name, with its place in the field."""
import re
from typing import NamedTuple

from desk.records import LARGEST, MOST_DIGITS
from desk.show import printable
from desk.texts import BLANKS

NARROW = rb"\xc2\xa0|\xe2\x80\xaf|\xe2\x80\x89"  # no-break space, narrow no-break space, thin space


class Oddity(NamedTuple):
    """What is wrong, the start of a sentence that goes on with the fields; what is due instead; the place; the mend."""
    words: str
    advice: str
    start: int
    end: int
    mend: str = ""
    anew: bool = False  # another number is needed, so that it helps to know which are allowed


WHOLE = "numbers are whole"
PLAIN = "a number is its digits alone"
# What is said, what is due, the pattern of the whole field, and the pattern of the place in it; the first that fits tells.
PATTERNS = (
    ("A thousands separator stands in", PLAIN, rb"\d{1,3}(?:(?:[ '_]|" + NARROW + rb")\d{3})+", rb"[ '_]|" + NARROW),
    ("Thousands separators stand in", PLAIN, rb"\d{1,3}(?:\.\d{3}){2,}", rb"\."),
    ("A decimal point stands in", WHOLE, rb"\d*\.\d*", rb"\."),
    ("A decimal comma stands in", WHOLE, rb"\d*,\d*", rb","),
    ("An exponent stands in", PLAIN, rb"\d+(?:[.,]\d+)?[eE][+-]?\d+", rb"[eE].*"),
    ("Blanks stand between the digits of", PLAIN, rb"\d+(?:[ \t]+\d+)+", rb"[ \t]+"),
    ("Letters stand behind the number of", "a field has no unit and no words", rb"\d+(?:[.,]\d+)?[ \t]*[A-Za-z%].*",
     rb"[A-Za-z%].*"),
    ("Words stand in", "a field is a number", rb"[A-Za-z].*", rb".+"),
)


def is_digits(content):
    return re.fullmatch(rb"[0-9]+", content) is not None


def value_of(content):
    """The number that a field holds once blanks around it are gone, or None."""
    bare = content.strip(BLANKS)
    return int(bare) if is_digits(bare) and len(bare) <= MOST_DIGITS else None


def blank_name(content):
    kinds = [name for byte, name in ((b" ", "spaces"), (b"\t", "tabs")) if byte in content]
    return "Blanks (" + " and ".join(kinds) + ")"


def around(field, bare):
    """Blanks before and behind what a field holds."""
    before = field.index(bare)
    behind = before + len(bare)
    advice = "fields have no blanks"
    found = []
    if before:
        found.append(Oddity(f"{blank_name(field[:before])} stand before", advice, 0, before, "blanks"))
    if behind < len(field):
        found.append(Oddity(f"{blank_name(field[behind:])} stand behind", advice, behind, len(field), "blanks"))
    return found


def odd_digits(digits):
    """What keeps a field of digits alone from being a number of a study."""
    size = len(digits)
    zeros = size - len(digits.lstrip(b"0"))
    if size > 1 and zeros:
        return [Oddity("Leading zeros stand in", "a number begins with its first digit that counts", 0, min(zeros, size - 1))]
    if size > MOST_DIGITS:
        return [Oddity(f"More than {MOST_DIGITS} digits stand in", f"the largest number is {LARGEST:,}", 0, size, anew=True)]
    if int(digits) > LARGEST:
        return [Oddity("A number of 2^32 or above stands in", f"the largest number is {LARGEST:,}", 0, size, anew=True)]
    return []


def odd_byte(content):
    """The first bytes that are no digits, shown as they are: what no pattern explains."""
    other = re.search(rb"[^0-9]+", content)
    seen = "".join(map(printable, other.group()[:8]))
    return Oddity(f"Other characters (`{seen}`) than digits stand in", PLAIN, other.start(), other.end())


def odd_number(content):
    """What is wrong with a field that has no blanks around it, quotes and sign apart."""
    if is_digits(content):
        return odd_digits(content)
    for words, advice, whole, place in PATTERNS:
        if re.fullmatch(whole, content, re.DOTALL):
            at = re.search(place, content, re.DOTALL)
            return [Oddity(words, advice, at.start(), at.end(), anew=advice != PLAIN)]
    return [odd_byte(content)]


def shifted(oddities, by):
    return [one._replace(start=one.start + by, end=one.end + by) for one in oddities]


def unsigned(content):
    """The sign before a number, and what is wrong with the rest."""
    sign = re.match(rb"[+-]|\xe2\x88\x92", content)
    if not sign or sign.end() == len(content):
        return odd_number(content)
    rest = shifted(odd_number(content[sign.end():]), sign.end())
    return [Oddity("A sign stands before", "numbers have no sign", 0, sign.end(), anew=True)] + rest


def unquoted(content):
    """Quotes around a field, and what is wrong with the rest."""
    inner = content.strip(b"\"'")
    if inner == content:
        return unsigned(content)
    rest = shifted(unsigned(inner), content.index(inner)) if inner else []
    return [Oddity("Quotes stand around", "a study has no quotes", 0, len(content))] + rest


def oddities(field):
    """Everything that is odd about a field; nothing where it is a number."""
    bare = field.strip(BLANKS)
    if not field:
        return [Oddity("Nothing stands in", "a field that is not used is 0", 0, 0, anew=True)]
    if not bare:
        return [Oddity(f"{blank_name(field)} alone stand in", "a field that is not used is 0", 0, len(field))]
    return around(field, bare) + shifted(unquoted(bare), field.index(bare))
