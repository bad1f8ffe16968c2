"""How the answers of a proof follow the code that an edit changes.

rt names the goals of a function, and the steps that an answer cites, after the code: `returns-then-p-lt100` after `if p < 100`. An edit that
makes it `p < 99` leaves an answer for a goal that is no longer there, and the check refuses that name before it looks at any fact. rt also
numbers goals and steps of one kind in the order of the code. Where a function has as many of a kind with the edit as without, each numbered
name stands for the same place, and the answers are given the new one. What they prove stays as it is."""
import json
import re
from collections import Counter
from pathlib import Path

# A name in a proof file: what stands between spaces, brackets and dots.
NAME = re.compile(r"(?<![^\s(){}\[\],;.])[^\s(){}\[\],;.]+")
# What rt puts before the name of a loop, and before that of a place.
BEFORE_LOOPS = ("", "invariant-", "decreases-", "iterator-")


def kind_of(name):
    """A numbered name without its number: `returns` of `returns-2`, `wide` of `wide2`."""
    return re.sub(r"-?\d+$", "", name)


def names_by_place(entry):
    """The names of a function's goals, places, steps and loops, by their numbered ones."""
    found = {("goal", old): new for old, new in entry["needs"]}
    found |= {("place", place[0]): new for place, new in zip(entry["places"], entry["places_by_name"])}
    found |= {("step", place[0]): place[2][1] for place in entry["places"]}
    return found | {("loop", loop[0][0]): loop[0][1] for loop in entry["loops"]}


def derived(old, new, kind):
    """The names that rt makes of another: of a loop's those of its invariant, of a test's those of its two branches."""
    if kind == "loop":
        return {word + old: word + new for word in BEFORE_LOOPS}
    if kind == "step" and old.startswith("if-") and new.startswith("if-"):
        return {word + old[3:]: word + new[3:] for word in ("then-", "else-")}
    return {}


def renamed(before, after):
    """The names that an edit changes in one function: of each kind of which there are as many as before."""
    old, new = names_by_place(before), names_by_place(after)
    many = [Counter((part, kind_of(name)) for part, name in names) for names in (old, new)]
    table = {}
    for part, name in old.keys() & new.keys():
        kind = (part, kind_of(name))
        if many[0][kind] == many[1][kind] and old[part, name] != new[part, name]:
            table |= {old[part, name]: new[part, name]} | derived(old[part, name], new[part, name], part)
    return table


def read_names(folder):
    """What `rt check --generated FOLDER --old-names` wrote: of each function the names that the code gives, beside the numbered ones."""
    names = json.loads(Path(folder, "names.json").read_text(encoding="utf-8"))
    return {key: entry for key, entry in names.items() if isinstance(entry, dict) and "places_by_name" in entry}


def followed(crate, before, after):
    """The proof files of a crate with the names that an edit changes, by their path."""
    texts = {}
    for key in before.keys() & after.keys():
        table = renamed(before[key], after[key]) if before[key] != after[key] else None
        folder = re.fullmatch(r"Rattle-\w+-proofs\.(.*)\.Lts\S*", key)
        if not table or not folder:
            continue
        for file in sorted(Path(crate, "proofs", *folder[1].split(".")).glob("*.antt")):
            text = file.read_text(encoding="utf-8")
            given = NAME.sub(lambda name: table.get(name[0], name[0]), text)
            if given != text:
                texts[str(file.relative_to(crate))] = given
    return texts
