"""Which file a result may take the place of: never that of a study, but for a study in the same form, and that with --force alone."""
import os
import re
import stat
from typing import NamedTuple

from desk import files
from desk.plan.fields import KINDS, TOLERANCE
from desk.studies import first_line, in_letters
from desk.texts import MOST_READ
from desk.trouble import Trouble

# How a line of a study begins. A plan is known by any of its lines, so that one with mistakes is known too.
A_ROW = re.compile(r"[SBP]\s*[,;\t]\s*\d", re.IGNORECASE)
A_KEY = re.compile(r"^[ \t]*(?:\[\[?[ \t]*(?:%s)[ \t]*\]|(?:%s)[ \t]*=)" % ("|".join(KINDS), "|".join([*KINDS, TOLERANCE])), re.MULTILINE)
A_PLAN, IN_ROWS = "a plan", "in rows"


class Kind(NamedTuple):
    """What is written: in words, and the form of the study that it is, if it is one."""
    words: str
    form: str = ""


PAGE, JSON, TABLE, DIAGRAM = Kind("page"), Kind("JSON object"), Kind("CSV table"), Kind("diagram")
PLAN, ROWS = Kind("plan", A_PLAN), Kind("rows", IN_ROWS)


def form_of(data):
    """The form of a study, or nothing where a content is none. No plan begins with `<` or `{`, as pages, diagrams and JSON do."""
    first = first_line(data)
    if len(data) > MOST_READ or first.startswith(("<", "{")):
        return ""
    if A_ROW.match(first):
        return IN_ROWS
    return A_PLAN if A_KEY.search(in_letters(data)) else ""


def study_behind(path):
    """The form of the study that a name leads to; nothing where it leads to none, to no file, or to a device or a pipe."""
    try:
        if not stat.S_ISREG(os.stat(path).st_mode):
            return ""
    except (OSError, ValueError):
        return ""  # nothing is lost there; what is wrong with the name is said where it is written
    return form_of(files.read(path))


def guard(path, kind):
    """Ends the command where a result would cost a study, or would be taken for a plan."""
    found = study_behind(path)
    if found and found != kind.form:
        raise Trouble(f"{path} is a study ({found}), and board writes no {kind.words} over it, not even with --force. Name another file "
                      "for the result. `board FILE FILE`, without an option that writes, answers several studies")
    if path.lower().endswith(".toml") and kind is not PLAN:
        raise Trouble(f"{path} is named like a plan, and board would read the {kind.words} as one; give the result another name")


def save(path, content, force, kind):
    """Writes a result into a file. This is the one way in which board writes."""
    guard(path, kind)
    files.write(path, content, force)
