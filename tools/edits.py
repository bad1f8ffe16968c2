"""The must-fail edits: wrong programs and false laws, each of which the prover must refuse because a proof no longer goes through. Here
they are read and applied; tools/trying.py tries them, tools/logs.py reads what the prover says.

Those that change the body of one function, or its clauses, and nothing else can be tried together, each of another function:
tools/trying.py says why."""
import re
from pathlib import Path
from typing import NamedTuple

# A function at the top of a source file, as rt lays it out: its head with its contract, up to the line that opens the body, and the body,
# up to the line that is a brace alone. Where parameters stand on lines of their own, a parenthesis begins the line that opens the body.
BEGINS = r'(?:#\[[^\n]*\]\n)*(?:pub(?:\(\w+\))? )?(?:extern "C" )?fn (?P<name>\w+)'
OPENS = r"(?![^\n]*\b(?:ghost|requires|ensures)\b)[^\n]*\{\n"
FUNCTION = re.compile(
    rf"^(?P<head>{BEGINS}(?:{OPENS}|[^\n]*\n(?:[ )][^\n]*\n)*?(?:\{{\n|\){OPENS})))(?P<body>(?:(?: [^\n]*)?\n)*?)\}}$", re.M)
# A line that brings in what contracts name; one that brings in one item; and one that brings in several. Types and constants begin with a
# capital letter, functions and modules do not.
CITES = re.compile(r"^ghost use [^;]*;\n", re.M)
BRINGS_ONE = re.compile(r"^(?:pub )?use (?:\w+::)*[a-z]\w*;\n", re.M)
BRINGS_SOME = re.compile(r"^((?:pub )?use (?:\w+::)+)\{([^{}]*)\};\n", re.M)
# The words of what is no part of a body, wherever it stands.
ITEM = re.compile(r"\b(?:fn|const|static|struct|enum|type|use|mod|impl|trait|extern|ghost)\b")
# What a body calls, as far as a name before a parenthesis shows it.
CALL = re.compile(r"\b(\w+)\(")
# So many edits are tried together at most.
MOST = 30


def read(path):
    return Path(path).read_text(encoding="utf-8", errors="replace")


def misplaced(edit):
    """Why an edit shows nothing of the code, whatever the prover says of it: a reason, or None."""
    if edit.suffix != ".edit":
        return "it is no .edit file, so nothing tries it"
    if re.search(r"^file: proofs/", read(edit), re.M):
        return "it edits a proof, which shows nothing of the code"
    return None


class Replacement(NamedTuple):
    """A text of a file and what stands for it; if `within` is there, in the paragraph that begins with that."""

    file: str
    within: str
    old: str
    new: str

    def place(self, text):
        """Where the old text begins in the text of the file; a ValueError says why the replacement does not apply."""
        if self.within and text.count(self.within) != 1:
            raise ValueError(f"an 'in:' text is not in {self.file} just once")
        begins = text.find(self.within) + len(self.within)
        ends = text.find("\n\n", begins) if self.within else -1
        place = text[begins:ends if ends >= 0 else len(text)]
        if not self.old or place.count(self.old) != 1:
            raise ValueError(f"an 'old:' text is not in {self.file} just once")
        return begins + place.find(self.old)

    def made(self, text):
        """The text of the file with the replacement."""
        begins = self.place(text)
        return text[:begins] + self.new + text[begins + len(self.old):]


def replacements(edit):
    """Each replacement, in the layout that rt reads, and with lines `in:`, which rt does not have. Such a line says in which paragraph the
    texts behind it stand: a clause or a field may be worded like that of another function or record."""
    file = within = old = ""
    for line in read(edit).splitlines():
        word, _, rest = line.partition(":")
        if word == "file":
            file, within = rest[1:], ""
        elif word == "in":
            within = rest[1:]
        elif word == "old":
            old = rest[1:]
        elif word == "new":
            yield Replacement(file, within, old, rest[1:])


def edited(edit, folder):
    """The files of a folder that the edit changes, with their new text; a ValueError says which replacement does not apply."""
    texts = {}
    for replacement in replacements(edit):
        texts[replacement.file] = replacement.made(texts.get(replacement.file) or read(folder / replacement.file))
    if not texts:
        raise ValueError("it has no 'old:' and 'new:' pair")
    return texts


# ---- edits of definitions

def changes_specs(edit):
    """Whether an edit changes files of specs/ and no other."""
    return not misplaced(edit) and all(made.file.startswith("specs/") for made in replacements(edit))


def brought_types(found):
    """What is left of a line that brings in several items, without functions and modules."""
    names = [name.strip() for name in found[2].split(",") if name.strip()[:1].isupper()]
    return f"{found[1]}{{{', '.join(names)}}};\n" if names else ""


def without_functions(text):
    """What a source file declares besides functions; a program keeps a `main` that does nothing."""
    text = FUNCTION.sub(lambda found: "fn main() {\n}" if found["name"] == "main" else "", text)
    return BRINGS_SOME.sub(brought_types, BRINGS_ONE.sub("", CITES.sub("", text)))


# ---- edits of one function

class Change(NamedTuple):
    """What an edit makes of the body of one function, or of its clauses, where it changes nothing else. The prover searches for the proof
    of a function with no file of answers only once those that it calls are proved: these names are what it waits for."""

    edit: Path
    file: str
    name: str
    head: str
    body: str
    waits: frozenset = frozenset()

    @property
    def function(self):
        """The function as the prover names it within its crate: src/calls.rt has those of calls, src/lib.rt and src/main.rt the topmost."""
        modules = [part for part in Path(self.file).with_suffix("").parts[1:] if part not in ("lib", "main", "mod")]
        return "::".join([*modules, self.name])


def functions_of(text):
    """The functions of a source file: the head and the body of each."""
    return {found["name"]: (found["head"], found["body"]) for found in FUNCTION.finditer(text)}


def with_functions(text, made):
    """A source file with other heads and bodies of these functions."""
    return FUNCTION.sub(lambda found: "".join(made.get(found["name"], (found["head"], found["body"]))) + "}", text)


def asks_code(folder):
    """Whether a contract of the crate asks what code returns, so that it changes with a body; or a proof names code, which may be that of
    another function where this is recursive."""
    return (any("⟦" in read(path) for path in folder.glob("src/**/*.rt"))
            or any(re.search(r"\bCode\b", read(path)) for path in folder.glob("proofs/**/*.antt")))


def stays_within(old, new):
    """Whether a body has no item of its own, before and after, and then calls nothing that it did not call: two bodies that each call the
    other's function for the first time would make a circle together, and none alone."""
    return not ITEM.search(old + new) and set(CALL.findall(new)) <= set(CALL.findall(old))


def clause_words(head):
    """Each line of a head with the first word of the clause that it belongs to, where it belongs to one."""
    found, word = [], ""
    for line in head.split("\n"):
        if not line.startswith("        "):
            word = line.split()[0] if line.startswith("    ") else ""
        found.append((word, line))
    return found


def other_clauses(old, new):
    """Whether two heads differ in what clauses ensure, line by line, and in nothing else."""
    pairs = list(zip(clause_words(old), clause_words(new)))
    return (old.count("\n") == new.count("\n")
            and all(line == other or line[0] == other[0] == "ensures" for line, other in pairs))


def is_called(folder, name):
    """Whether a function of the crate calls one of this name."""
    return any(name in CALL.findall(body) for path in folder.glob("src/**/*.rt") for _, body in functions_of(read(path)).values())


def called_in(folder):
    """What the functions of a crate call, by their names."""
    found = {}
    for path in folder.glob("src/**/*.rt"):
        for name, (_, body) in functions_of(read(path)).items():
            found.setdefault(name, set()).update(CALL.findall(body))
    return found


def waited_for(folder, change):
    """The names of the functions that have to be proved before the prover searches for the proof of a change's function."""
    answered = (path.parent.relative_to(folder / "proofs").as_posix() for path in folder.glob("proofs/**/*.antt"))
    if change.function.replace("::", "/") in (place.replace("+", "") for place in answered):
        return frozenset()
    calls, found, left = called_in(folder), set(), [*CALL.findall(change.body)]
    while left:
        name = left.pop()
        if name not in found and name in calls:
            found.add(name)
            left += calls[name]
    return frozenset(found - {change.name})


def change_of(edit, folder):
    """What the edit makes of one body, or of the clauses of one function that no other of its crate calls. None where it changes anything
    else, calls something else, or does not apply."""
    try:
        texts = {} if misplaced(edit) or asks_code(folder) else edited(edit, folder)
    except (ValueError, OSError):
        return None
    file = "".join(texts)
    if len(texts) != 1 or not re.fullmatch(r"src/.*\.rt", file):
        return None
    old, new = read(folder / file), texts[file]
    before, after = functions_of(old), functions_of(new)
    names = [name for name in before if before[name] != after.get(name, before[name])]
    if len(names) != 1 or with_functions(old, {names[0]: after[names[0]]}) != new:
        return None
    (head, body), (new_head, new_body) = before[names[0]], after[names[0]]
    of_body = head == new_head and stays_within(body, new_body)
    of_clauses = body == new_body and other_clauses(head, new_head) and not is_called(folder, names[0])
    made = Change(edit, file, names[0], new_head, new_body)
    return made._replace(waits=waited_for(folder, made)) if of_body or of_clauses else None


def together(changes, folder):
    """The files that several changes make, each of another function."""
    made = {}
    for change in changes:
        made.setdefault(change.file, {})[change.name] = (change.head, change.body)
    return {file: with_functions(read(folder / file), functions) for file, functions in made.items()}


def groups_of(changes):
    """Puts changes into groups to be tried together, each of another function, and none that waits for another."""
    functions, groups = [change.function for change in changes], []

    def fits(change, group):
        return len(group) < MOST and all(change.function != other.function and change.name not in other.waits
                                         and other.name not in change.waits for other in group)

    for change in sorted(changes, key=lambda change: (-functions.count(change.function), change.edit, change.file, change.name)):
        group = next((group for group in groups if fits(change, group)), None)
        if group is None:
            groups.append(group := [])
        group.append(change)
    return groups
