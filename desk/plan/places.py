"""Where the entries and the keys of a TOML text stand, which tomllib does not tell."""
import re
import tomllib

# Strings first, so that a bracket or a '#' inside one is none. Blanks match nothing and are passed over.
TOKEN = re.compile(r'"""(?:\\.|[^\\])*?"{3,5}' r"|'''.*?'{3,5}" r'|"(?:\\.|[^"\\])*"' r"|'[^']*'"
                   r"""|#[^\n]*|\n|[][{},=]|[^][{},=#"'\s]+""", re.S)


def places(text):
    """Offsets in a text that is TOML: of (key,) at the top, of each entry (table, number), of its keys (table, number, key).

    An entry is what stands below a header `[table]` or `[[table]]`, or one `{ .. }` of a key at the top.
    Something written in a way that nobody writes by hand (dotted keys, tables inside tables) may be missing.
    """
    walk = Walk()
    for match in TOKEN.finditer(text):
        walk.take(match.group(), match.start())
    return walk.found


def name_of(token):
    return tomllib.loads("name = " + token)["name"] if token[0] in "\"'" else token


class Walk:
    def __init__(self):
        self.found = {}
        self.counts = {}        # entries so far, by table
        self.header = None      # where the header that is being read begins
        self.below = ()         # the entry of the last header
        self.entry = ()         # the entry to which the next key belongs
        self.top = None         # the key at the top whose value is being read
        self.open = []          # brackets that are open in a value
        self.key_next = True

    def take(self, token, start):
        if token[0] == "#":
            return
        if token == "\n":
            self.end_line()
        elif token in ("[", "{"):
            self.opening(token, start)
        elif token in ("]", "}"):
            if self.open:
                self.open.pop()
        elif token == ",":
            self.key_next = self.open[-1:] == ["{"]
        elif token != "=":
            self.word(token, start)

    def end_line(self):
        """Only a value with an open bracket, or a string, goes on over the end of a line."""
        if not self.open:
            self.header, self.top, self.entry, self.key_next = None, None, self.below, True

    def opening(self, token, start):
        if token == "[" and not self.open and self.key_next:
            self.header = start if self.header is None else self.header
            return
        if token == "{" and self.top is not None and self.open in ([], ["["]):
            self.begin(self.top, start)
        self.open.append(token)
        self.key_next = token == "{"

    def begin(self, table, start):
        number = self.counts.get(table, 0)
        self.counts[table] = number + 1
        self.entry = (table, number)
        self.found[self.entry] = start

    def word(self, token, start):
        if self.header is not None:
            self.begin(name_of(token), self.header)
            self.below, self.key_next = self.entry, False
        elif self.key_next:
            self.found.setdefault((*self.entry, name_of(token)), start)
            self.key_next = False
            if not self.below and not self.open:
                self.top = name_of(token)
