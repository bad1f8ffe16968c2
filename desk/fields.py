"""What is wrong between the separators of a row: its letter, its fields, and how many fields there are."""
import re

from desk.numbers import around, oddities, shifted, value_of
from desk.records import ROWS, allowed, counts_of, fields_of, label, listed, rows_of, summary
from desk.show import Finding, shown
from desk.texts import BLANKS

MOST_NAMED = 4  # fields that one sentence names
START = "row 1 is `S,6` or `S,10`"
COMMA = "a comma always begins another field"


def split_at(line, separators):
    """The places between separators."""
    places, start = [], 0
    for found in re.finditer(b"[" + separators + b"]", line):
        places.append((start, found.start()))
        start = found.end()
    return places + [(start, len(line))]


def letter_in(part):
    """The row letter in a part, blanks, quotes and a small letter forgiven; nothing where there is none."""
    letter = part.strip(b" \t\"'").upper().decode("latin-1")
    return letter if letter in ROWS else ""


# ---- the letter

def of_letter(text, line, place, number):
    """What is wrong with the letter that a row begins with; its blanks and quotes first."""
    part = line[slice(*place)]
    bare = part.strip(BLANKS)
    found = [Finding(f"{one.words} the row's letter: {one.advice}.", ((one.start, one.end),), one.mend)
             for one in (around(part, bare) if bare else [])]
    if bare != bare.strip(b"\"'"):
        found.append(Finding("Quotes stand around the row's letter: a study has no quotes.", (place,)))
    letter = letter_in(part)
    if not letter:
        return found + [no_letter(part, place)]
    if letter.encode() not in part:
        found.append(Finding(f"The row's letter is a small one: it is {letter}, a capital.", (place,), "letters"))
    return found + of_order(text, letter, place, number)


def no_letter(part, place):
    """What stands where the row's letter should be."""
    known = f"a row begins with {listed(ROWS, 'or')} and a comma"
    name = part.strip(b" \t\"'")
    if not name:
        return Finding(f"Nothing stands where the row's letter should be: {known}.", (place,))
    if name[:1].isdigit():
        return Finding(f"The row begins with a number, and its letter is missing: {known}.", (place,))
    if letter_in(name[:1]) and not name[1:2].isalpha():
        behind = part.index(name) + 1
        return Finding(f"No comma stands behind the row's letter: {known}.", ((behind, behind + 1),))
    return Finding(f"{shown(name)} is no letter of a row: {known}.", (place,))


def of_order(text, letter, place, number):
    """S opens the file and stands nowhere else."""
    if number == 1 and letter != "S":
        later = [k + 1 for k, row in enumerate(rows_of(text)) if row.startswith((b"S,", b"s,"))]
        where = f"the S row stands in row {later[0]}, and has to come first" if later else "the S row is missing"
        return [Finding(f"The first row is a {ROWS[letter].name} row: {START}; {where}.", (place,))]
    if number > 1 and letter == "S":
        return [Finding("A second S row stands here: S is the first row and no other.", (place,))]
    return []


# ---- the fields

def of_fields(line, places):
    """What is wrong with the fields, their number included; nothing where the row's letter is not known."""
    letter = letter_in(line[slice(*places[0])])
    if not letter:
        return []
    fields = list(enumerate(places[1:]))
    values = [value_of(line[slice(*place)]) for place in places[1:]]
    counts = counts_of(letter, values)
    for due in counts:
        surplus = b"".join(line[slice(*place)] for _, place in fields[due:])
        if len(fields) > due and not surplus.strip(BLANKS):
            return of_oddities(line, fields[:due], letter, values) + [of_trailing(places, due)]
    pairs = split_numbers(line, fields) if len(fields) not in counts and len(fields) > counts[0] else []
    halves = {right for _, right in pairs}
    whole = [field for field in fields if field not in halves]
    return of_oddities(line, whole, letter, values) + of_count(places, letter, values, pairs)


def of_oddities(line, fields, letter, values):
    """A finding for each thing that is odd, with all the fields in which it is."""
    odd = [(k, one) for k, (start, end) in fields for one in shifted(oddities(line[start:end]), start)]
    groups = {}
    for k, one in odd:
        groups.setdefault(one.words, []).append((k, one))
    return [of_group(group, letter, values) for group in groups.values()]


def of_group(group, letter, values):
    """One sentence for the fields that share an oddity; where it is one field, what is allowed in it."""
    fields = fields_of(letter, values)
    names = [label(fields[k], k) if k < len(fields) else f"field {k + 1}" for k, _ in group]
    more = [f"{len(names) - MOST_NAMED} more"] if len(names) > MOST_NAMED else []
    k, first = group[0]
    due = allowed(fields[k], letter, values) if len(group) == 1 and first.anew and k < len(fields) else ""
    sentence = f"{first.words} {listed(names[:MOST_NAMED] + more)}: {first.advice}" + (f"; allowed is {due}." if due else ".")
    return Finding(sentence, tuple((one.start, one.end) for _, one in group), first.mend)


# ---- how many there are

def of_trailing(places, due):
    """Separators with nothing between them, behind the last field."""
    return Finding(f"Separators stand behind the last field: found are {len(places) - 1} fields, expected {due}.",
                   ((places[due][1], places[-1][1]),), "last separators")


def of_count(places, letter, values, pairs):
    """Too many fields, or too few; `pairs` are neighbours that look like one number with a comma in it."""
    found, counts = len(places) - 1, counts_of(letter, values)
    if found in counts:
        return []
    names = summary(letter, () if pairs else values)  # a number in two parts moves the kind away from its place
    words = f"The number of fields behind {letter} is wrong: found are {found}, expected {listed(counts, 'or')} ({names})."
    end = places[-1][1]
    if found < counts[0]:
        return [Finding(words, ((end, end),))]
    if not pairs:
        last = max(count for count in counts if count < found)
        return [Finding(words, ((places[last + 1][0], end),))]
    looks = f"{len(pairs)} commas look like separators of thousands or decimals" if len(pairs) > 1 else \
        "The comma marked looks like a separator of thousands or decimals"
    return [Finding(f"{words} {looks}: {COMMA}.", tuple((left[1][0], right[1][1]) for left, right in pairs))]


def split_numbers(line, fields):
    """Neighbours such as 20,000 or 0,05: the second begins with a zero, which no number of a study does."""
    pairs = []
    for left, right in zip(fields, fields[1:]):
        both = line[left[1][0]:right[1][1]]
        if re.fullmatch(rb"[1-9][0-9]{0,2},0[0-9]{2}|0,0[0-9]+|[0-9]{3},0[0-9]{2}", both):
            pairs.append((left, right))
    return pairs
