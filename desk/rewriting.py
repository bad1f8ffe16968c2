"""What writes a study down in another way: --fix mends its rows, --toml makes a plan of them, --rows makes rows of a plan, and
--write puts the rows of either in order."""
from desk import files
from desk.mend import mended
from desk.plan import Mistakes, plan_of_rows
from desk.program import Refusal, answer
from desk.records import listed, rows_of
from desk.streams import Answer
from desk.studies import Study, from_plan, is_plan, mistaken, refused, rounded
from desk.targets import PLAN, ROWS, save
from desk.trouble import Trouble
from desk.writer import proved_text


def source_of(source, target):
    """The bytes of a file that is to be written in another way, into another file."""
    if files.is_same(source, target):
        raise Trouble(f"{target} is the file that is read, which is never changed; name another for the result")
    return files.whole(source, files.read(source))


# ---- mending

def stretches(rows):
    """Rows in words: 1 to 4, 6 and 9."""
    runs = []
    for row in rows:
        if runs and runs[-1][1] == row - 1:
            runs[-1][1] = row
        else:
            runs.append([row, row])
    words = [str(first) if first == last else f"{first} to {last}" for first, last in runs]
    return listed(words if len(words) <= 9 else words[:8] + [f"{len(words) - 8} further places"])


def reported(change):
    """A change in words, with the rows and their number."""
    count = len(change.rows)
    where = f": {count:,} {'row' if count == 1 else 'rows'} ({stretches(change.rows)})" if count else ""
    return f"  {change.words}{where}"


def fixed(source, target, force):
    """Mends a file into another, and says what was done and what the program makes of it."""
    if target == "-":
        raise Trouble("the mended study goes to a file; `-` is no name for it")
    text = source_of(source, target)
    result, changes = mended(text)
    got = answer(result)  # before anything is written: where the program cannot be run, no file is left behind
    save(target, result, force, ROWS)
    said = ["Changed:"] + [reported(change) for change in changes] if changes else ["Nothing was to be mended."]
    said.append(f"{target} is written, {len(result):,} bytes" + ("." if changes else f", the same as {files.name_of(source)}."))
    if isinstance(got, Refusal):
        return Answer(1, "\n".join(said + ["The program does not accept it:", refused(Study(result), got)]))
    return Answer(0, "\n".join(said + [f"The program accepts it: {len(got)} {'bus' if len(got) == 1 else 'buses'}."]))


# ---- rows to a plan and back: standard output has the result alone, so that it can be handed on

def written(content, target, force, kind, notes="", counts=""):
    if target == "-":
        return Answer(0, content, notes)
    save(target, content, force, kind)
    return Answer(0, f"{target} is written, {counts}{len(content):,} bytes.", notes)


def as_plan(source, target, force):
    """A study's rows as a plan. The program is asked first: what it refuses has no meaning that a plan could show."""
    study = Study(source_of(source, target))
    got = answer(study.rows)
    if isinstance(got, Refusal):
        return Answer(1, notes=refused(study, got))
    return written(plan_of_rows(study.rows).encode("utf-8"), target, force, PLAN)


def as_rows(source, target, force, exact):
    """A plan as a study's rows, such as the program accepts."""
    try:
        study = from_plan(source_of(source, target), exact)
    except Mistakes as found:
        return Answer(1, notes=mistaken(found))
    got = answer(study.rows)
    if isinstance(got, Refusal):
        return Answer(1, notes=refused(study, got))
    return written(study.rows, target, force, ROWS, rounded(study))


# ---- rows or a plan

def with_accepted(source, target, exact, make):
    """What `make` gives for a study, in rows or as a plan, and the program's answer. What is refused is explained instead."""
    data = source_of(source, target)
    try:
        study = from_plan(data, exact) if is_plan(source, data) else Study(data)
    except Mistakes as found:
        return Answer(1, notes=mistaken(found))
    got = answer(study.rows)
    if isinstance(got, Refusal):
        return Answer(1, notes=refused(study, got))
    return make(study, got)


def bus_and_source_counts(text):
    """The buses and the sources of a text, in words that more follows."""
    letters = [row[:1] for row in rows_of(text)]
    buses, sources = letters.count(b"B"), letters.count(b"P")
    return f"{buses} {'bus' if buses == 1 else 'buses'}, {sources} {'source' if sources == 1 else 'sources'}, "


def nameless(source):
    """What becomes of a plan's names; of one that came on standard input they may be kept nowhere."""
    if source == "-":
        return "Rows have no names: the buses' names are not in the result."
    return f"The buses' names stand in {source} alone; rows have none."


def in_rows(source, target, force, exact):
    """Rows or a plan as the proved writer puts them down: S, all buses, all sources."""
    def make(study, got):
        content = proved_text(study.rows, got)
        counts = bus_and_source_counts(content)
        notes = [f"Written: {counts}{len(content):,} bytes."] if target == "-" else []
        notes.append(rounded(study))
        if study.names:
            notes.append(nameless(source))
        return written(content, target, force, ROWS, "\n".join(filter(None, notes)), counts)
    return with_accepted(source, target, exact, make)
