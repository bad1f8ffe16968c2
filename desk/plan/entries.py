"""The entries of a plan: what its TOML says, as exact whole numbers of the record's units, with all mistakes and roundings."""
import difflib
import re
import tomllib
from decimal import Decimal, InvalidOperation
from fractions import Fraction

from .fields import KINDS, TOLERANCE, TOLERANCES, decimal_text, fraction_of, keys_of, range_text, with_unit
from .places import places

# For what planners type and TOML does not know: what tomllib says, what the line looks like, and the advice.
ADVICE = (
    ("", r"=\s*[-+]?\d+,\d", "a decimal point is a point, not a comma"),
    ("Expected newline", r"=\s*[-+]?[\d.]+\s*[%A-Za-zΩµ]", "a number stands without its unit; the key names it"),
    ("Expected newline", r"=\s*0\d", "a number has no zero in front"),
    ("Expected newline", r"=\s*\d+\.\s*(#|$)", "a digit stands on each side of a decimal point"),
    ("Invalid value", r"=\s*\.\d", "a digit stands on each side of a decimal point"),
    ("Invalid value", r"=\s*[^\W\d]", "text stands in quotes"),
    ("Cannot declare ('feeder'", r"", "a network has exactly one feeder"),
    ("Cannot declare", r"^\s*\[[^[]", "where there may be several, two brackets begin each: [[motor]]"),
    ("Cannot mutate", r"^\s*\[\[", "`key = [ .. ]` and [[key]] do not go together; one form for all of a kind"),
    ("Cannot overwrite", r"", "the key stands there twice"),
    ("Unclosed array", r"", "a comma parts the entries of a list, and `]` ends it"),
    ("", r"^\s*\w+[^\w=\s]", "a key has letters, digits, `_` and `-` alone"),
)


class Mistakes(Exception):
    """Why no rows can be made: `mistakes` are all that were found, in words with their places."""

    def __init__(self, mistakes):
        super().__init__("\n".join(mistakes))
        self.mistakes = list(mistakes)


class Notes:
    """What there is to say about a plan: mistakes and roundings, each with its place in the text."""

    def __init__(self, text, exact):
        self.text, self.exact = text, exact
        self.found = {}
        self.mistakes, self.roundings = [], []

    def place(self, *names):
        """The offset of a key, or else of its entry, or else none."""
        return self.found.get(names, self.found.get(names[:2]))

    def words(self, place, label, words):
        head = [] if place is None else [f"line {self.line(place)}"]
        return ": ".join(head + [label] * bool(label) + [words])

    def line(self, place):
        return self.text.count("\n", 0, place) + 1

    def mistake(self, place, label, words):
        self.mistakes.append((-1 if place is None else place, self.words(place, label, words)))

    def rounding(self, place, label, words):
        self.roundings.append((-1 if place is None else place, self.words(place, label, words)))

    def end_if_mistaken(self):
        if self.mistakes:
            raise Mistakes(in_order(self.mistakes))


def in_order(said):
    """Words by their places in the text, each once."""
    return list(dict.fromkeys(words for _, words in sorted(said, key=lambda one: one[0])))


# From the text to tables


def number_of(text):
    """What tomllib has for a number with a point or an exponent: its decimal, all digits as they are written."""
    try:
        return Decimal(text)
    except InvalidOperation:
        return Decimal("nan")


def parsed(notes):
    """The tables of the text. What is not TOML ends the reading: nothing behind it can be told apart."""
    try:
        plan = tomllib.loads(notes.text, parse_float=number_of)
    except tomllib.TOMLDecodeError as error:
        raise Mistakes([not_toml(str(error), notes.text)]) from None
    except (ValueError, RecursionError):
        raise Mistakes(["not TOML: a number or a nesting without end"]) from None
    notes.found = places(notes.text)
    return plan


def not_toml(said, text):
    """tomllib's words with the line they speak of and, for slips that are common, what to do."""
    words, _, behind = said.rpartition(" (at ")
    at = re.match(r"line (\d+)", behind)
    lines = text.rstrip("\n").split("\n")
    number = min(int(at[1]), len(lines)) if at else len(lines)
    line = lines[number - 1].strip()
    advice = next((advice for start, form, advice in ADVICE if words.startswith(start) and re.search(form, line)), "")
    shown = line if len(line) <= 80 else line[:80] + " .."
    return f"line {number}: not TOML: {words}: {shown}" + (f" ({advice})" if advice else "")


def proposal(word, known):
    """What is near among names or keys: but for capitals the same, or by its letters, or by what stands before '_'."""
    small = {one: one.lower() for one in known}
    near = difflib.get_close_matches(word.lower(), sorted(set(small.values())), 2, 0.7)
    stem = word.lower().split("_")[0]
    return ([one for one in known if small[one] == word.lower()] or [one for one in known if small[one] in near]
            or [one for one in known if small[one].split("_")[0] == stem])


def did_you_mean(near):
    return f"; did you mean {' or '.join(near)}?" if near else ""


def shown(value):
    """A value as the TOML has it, shortened."""
    if isinstance(value, bool):
        return str(value).lower()
    if isinstance(value, (list, dict)) or isinstance(value, int) and abs(value) > 10**40:
        return "[ .. ]" if isinstance(value, list) else "{ .. }" if isinstance(value, dict) else hex(value)[:20] + " .."
    words = quoted(value) if isinstance(value, str) else str(value).replace("Infinity", "inf").replace("NaN", "nan")
    return words if len(words) <= 40 else words[:40] + " .."


def quoted(name):
    """A name as a string of TOML."""
    escaped = name.replace("\\", "\\\\").replace('"', '\\"')
    return '"' + "".join(c if c.isprintable() else f"\\U{ord(c):08X}" for c in escaped) + '"'


def type_words(value):
    kinds = ((str, "text"), (bool, "true or false"), ((int, Decimal), "a number"), (list, "a list"), (dict, "a table"))
    return next((words for kind, words in kinds if isinstance(value, kind)), "a date")


def no_number(value):
    """Why a value is not taken as a number."""
    if isinstance(value, str):
        return "this is text; a number stands without quotes"
    words = type_words(value)
    return f"this is {words}" if words != "a number" else "no data sheet has such a one"


def tolerance_of(plan, notes):
    place, value = notes.place(TOLERANCE), plan.get(TOLERANCE)
    if TOLERANCE not in plan and not any(TOLERANCE in proposal(key, [TOLERANCE]) for key in plan):
        notes.mistake(None, "", f"{TOLERANCE} is missing: the voltage tolerance, 6 or 10, above the first bracket of the file")
    elif TOLERANCE in plan and fraction_of(value) not in TOLERANCES:
        notes.mistake(place, "", f"{TOLERANCE} = {shown(value)}: the voltage tolerance must be 6 or 10")
    return int(value) if fraction_of(value) in TOLERANCES else None


def entries_of(plan, notes):
    """Every entry in the order of the text; what is not a key of a plan is a mistake."""
    entries = []
    for table, value in plan.items():
        ones = value if isinstance(value, list) else [value]
        if table in KINDS and all(isinstance(one, dict) for one in ones):
            entries += [Entry(KINDS[table], number, one, notes) for number, one in enumerate(ones)]
        elif table != TOLERANCE:
            place = notes.place(table) if notes.place(table, 0) is None else notes.place(table, 0)
            notes.mistake(place, "", not_an_entry(table, value))
    return sorted(entries, key=lambda entry: (entry.place() is None, entry.place()))


def not_an_entry(table, value):
    if table in KINDS:
        return f"{table} is {type_words(value)}; each entry is a table: [[{table}]] and its keys below it"
    name = f"[[{table}]]" if isinstance(value, (list, dict)) else f"the key {table}"
    near = did_you_mean(proposal(table, [*KINDS, TOLERANCE]))
    return f"{name} is not known" + (near or f"; a plan has {TOLERANCE}, {', '.join(KINDS)}")


class Entry:
    """One bus, branch or source: its words, and its numbers in the record's units. What is mistaken is not there."""

    def __init__(self, kind, number, table, notes):
        self.kind, self.number, self.table, self.notes = kind, number, table, notes
        self.given = {}     # the keys of its fields that the entry has, by the field's name
        self.words = {}     # its name and the names of its buses, by key
        self.numbers = {}   # by the field's name
        self.bus = {}       # the buses that it names, by key, as numbers of the file's order; set by the tree
        self.guessed = False    # one of these names is not known and stands for the nearest
        near = self.read_keys()
        self.read_words(near)
        self.read_numbers(near)

    def place(self, key=""):
        return self.notes.place(self.kind.table, self.number, key)

    def label(self):
        """How the entry is called: by its name, or by its buses, or by its place among its kind."""
        table = "[feeder]" if self.kind.table == "feeder" else f"[[{self.kind.table}]]"
        name, ends = self.table.get("name"), [self.table.get(key) for key in self.kind.ends]
        if isinstance(name, str):
            return f"{table} {quoted(name)}"
        if ends and all(isinstance(end, str) for end in ends):
            return f"{table} {'at ' if len(ends) == 1 else ''}{' to '.join(map(quoted, ends))}"
        return f"{table} {self.number + 1}"

    def mistake(self, key, words):
        self.notes.mistake(self.place(key), self.label(), words)

    def read_keys(self):
        """Says which keys are not known; gives all that were proposed for them, so that these are not missed as well."""
        known, proposed = keys_of(self.kind), set()
        for key in [key for key in self.table if key not in known]:
            near = proposal(key, known)
            proposed.update(near)
            if key in KINDS or key == TOLERANCE:
                self.mistake(key, f"{key} belongs to the top of the file, above the first header in brackets")
            else:
                self.mistake(key, f"the key {key} is not known" + (did_you_mean(near) or f"; the keys here are {', '.join(known)}"))
        return proposed

    def read_words(self, proposed):
        for key in ("name", *self.kind.ends):
            value = self.table.get(key)
            if key not in self.table:
                if (key != "name" or self.kind.group == "bus") and key not in proposed:
                    self.mistake("", f"{key} is missing" + ("" if key == "name" else ": the name of a bus"))
            elif not isinstance(value, str):
                self.mistake(key, f"{key} = {shown(value)} is {type_words(value)}; a name is text in quotes")
            elif not value.strip() or not value.isprintable():
                self.mistake(key, f"{key} = {shown(value)}: a name has at least one letter and no control characters")
            else:
                self.words[key] = value

    def read_numbers(self, proposed):
        for field in self.kind.fields:
            keys = [key for key in field.units if key in self.table]
            if len(keys) > 1:
                self.mistake(keys[1], f"{' and '.join(keys)} both give {field.words}; one of them is enough")
            elif keys:
                self.given[field.name] = keys[0]
                self.read_number(field, keys[0])
            elif field.default is not None:
                self.numbers[field.name] = field.default
            elif not proposed & set(field.units):
                self.mistake("", f"{' or '.join(field.units)} is missing: {field.words}")

    def read_number(self, field, key):
        """The range is that of the value as it is written: rounding does not bring a value into it."""
        written, unit = self.table[key], field.units[key]
        value = fraction_of(written)
        if value is None:
            return self.mistake(key, f"{key} = {shown(written)}: {field.words} must be a number ({no_number(written)})")
        exact = value * unit.times
        if not (field.rated_at or field.suits) and not field.low <= exact <= field.high:
            words = range_text(field.low, field.high, unit)
            return self.mistake(key, f"{key} = {shown(written)}: {field.words} must be {words}")
        if exact.denominator != 1 and field.whole:
            return self.mistake(key, f"{key} = {shown(written)}: {field.words} must be a whole number")
        self.numbers[field.name] = exact.numerator
        if exact.denominator != 1:
            self.numbers[field.name] = int(max(0, exact + Fraction(1, 2)))
            self.note_rounding(key, value, Fraction(self.numbers[field.name], unit.times), unit)

    def note_rounding(self, key, value, rounded, unit):
        """Half of the last place goes up. Percent are of the value as it is written."""
        change = abs(rounded - value)
        percent = float(100 * change / abs(value))
        share = "less than 0.001 %" if percent < 0.001 else f"{percent:.2g} %" if percent < 10 else f"{percent:.0f} %"
        size = with_unit(decimal_text(change), unit) + (" more" if rounded > value else " less")
        text = f"{key} = {shown(self.table[key])} becomes {decimal_text(rounded)}: {size}, {share}"
        if self.notes.exact:
            self.mistake(key, f"{text}; exact conversion was asked for")
        else:
            self.notes.rounding(self.place(key), self.label(), text)
