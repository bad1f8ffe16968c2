"""Brings the repository's own definitions and lemmas to snake case, and its types to camel case: run once, behind port.py, at the top.

The names are those that specs/ and the lemma files of proofs/ define. Functions of src/, exported names, strings and comments keep theirs;
a name in backticks in a comment or a page follows. If two names fall together, the definition gets the name, and the lemma `_law` behind it."""
import re
from collections import defaultdict
from pathlib import Path

DEFINES = re.compile(r"^ *(?:(?:pattern|unfoldable|abbrev|pub|axiom|infixl|infixr|record|data|ghost)\s+)*([^\s(){}.,;:]+)\s*:\s", re.M)
TOKEN = re.compile(r"(?<![^\s(){}\[\],;.`])[^\s(){}\[\],;.`]+")
# What the rule would spell badly.
GIVEN = {"getD-listed": "get_or_listed", "getD-column": "get_or_column"}
# Two names of two crates that no file has together.
APART = {"row_number"}


def spelled(name):
    """The name in snake case; a type's in camel case."""
    if name in GIVEN:
        return GIVEN[name]
    if name[0].isupper():
        return "".join(part[0].upper() + part[1:] for part in name.split("-") if part) if "-" in name else name
    name = re.sub(r"(?<=[a-z0-9])(?=[A-Z])", "_", name.replace("-", "_")).lower()
    return re.sub(r"__+", "_", name)


def antt_files():
    return sorted(file for part in ("specs", "proofs") for file in Path("crates").glob(f"*/{part}/**/*.antt"))


def code(text):
    return re.sub(r"--.*", "", text)


def defined():
    """Each name that a file of definitions or lemmas gives, with these files."""
    names = defaultdict(set)
    for file in antt_files():
        if file.name != "Proof.antt":
            for found in DEFINES.finditer(code(file.read_text())):
                names[found[1]].add(file)
    return names


def renamed():
    """The names that change, and of those that were in snake case already the files in which they do."""
    names = defined()
    new = {name: spelled(name) for name in names}
    together = defaultdict(list)
    for name in sorted(names):
        together[new[name]].append(name)
    for name, olds in together.items():
        law = lambda old: all("/laws/" in str(file) or "/proofs/" in str(file) for file in names[old])
        for old in sorted(olds, key=lambda old: (law(old), "-" in old, "_" in old))[1:]:
            if name not in APART:
                new[old] = name + "_law"
    within = {old: names[old] for old in new if new[old] == old + "_law"}
    return {old: name for old, name in new.items() if old != name}, within


def uses(text, name, files):
    """Whether a text brings the name in from one of the files."""
    modules = {file.with_suffix("").parts[-1] for file in files}
    return any(re.search(rf"\.{module}\.\{{[^}}]*(?<![\w-]){re.escape(name)}(?![\w-])", text) for module in modules)


def respelled(text, new, comment):
    """The text with its names changed; behind the mark of a comment only those in backticks."""
    change = lambda found: new.get(found[0], found[0])
    lines = []
    for line in text.split("\n"):
        body, mark, rest = line.partition(comment)
        rest = re.sub(r"`[^`]*`", lambda span: TOKEN.sub(change, span[0]), rest)
        lines.append(TOKEN.sub(change, body) + mark + rest)
    return "\n".join(lines)


def main():
    new, within = renamed()
    for file in antt_files() + sorted(Path("crates").glob("*/src/**/*.rt")):
        text = file.read_text()
        here = {old: name for old, name in new.items()
                if old not in within or (file.suffix == ".antt" and (file in within[old] or uses(text, old, within[old])))}
        changed = respelled(text, here, "--" if file.suffix == ".antt" else "//")
        if changed != text:
            file.write_text(changed)
    for page in [Path("README.md"), *sorted(Path("docs").glob("*.md"))]:
        text = page.read_text()
        plain = {old: name for old, name in new.items() if old not in within and not re.fullmatch(r"[a-z]+", old)}
        changed = re.sub(r"`[^`\n]*`", lambda span: TOKEN.sub(lambda found: plain.get(found[0], found[0]), span[0]), text)
        if changed != text:
            page.write_text(changed)


if __name__ == "__main__":
    main()
