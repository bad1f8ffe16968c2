"""How the quick must-fail edits are tried.

`rt ci` tries those of crates/NAME/must-fail/, each by a check of the whole crate. Those of must-fail-quick/ beside it are tried here, by
`rt check` in copies of the repository. A copy begins with what a check of the crate as it stands proved, so that only what an edit changes
is checked; the crate must be proved there before the first edit and again after the last, over the same files: so it is the edit that is
refused.

Edits of several functions' bodies are tried together, by one run. Each can break the proof of its own function alone: callers and laws
know a function by its contract, which stays as it is, and a function's code is private to its own proof. So can edits of the clauses of
functions that nothing in their crate calls: no other proof knows those clauses. Of a caller's proof only the last step takes the theorem
of what it calls, and what the prover says of that step where there is no such theorem ("it calls .., which is not proved") never counts.
So an edit counts as refused by such a run where its function is not proved and the first error in that function's own proof is that of a
fact, as in a run for it alone; and only where nothing is at fault that was not changed. Every other edit is tried alone, and what that
says counts. So a group can save time, and lets no edit pass that would not be refused alone.

An edit of a body can also change the names that the proof's answers go by, which is no fact. Where that is what the log says, the edit is
tried once more with answers that follow the code (tools/following.py), and what that says counts.

An edit of specs/ is tried first on the crate without its functions: its types, constants, definitions and laws. No definition and no law
rests on a function, so a law that fails there fails in the whole crate. An edit that is not refused there is tried on the whole."""
import os
import re
import shutil
import subprocess
import tempfile
import time
from contextlib import contextmanager
from pathlib import Path
from threading import Condition, Lock

from edits import change_of, changes_specs, edited, groups_of, misplaced, read, together, without_functions
from following import followed, read_names
from logs import BY_SHAPE, NOT_PROVED, PROVED, fact_in, judge, refused_each

# The folder of a crate that holds its quick edits. It lies beside must-fail/, since rt ci takes each file below that for an edit of its own.
QUICK = "must-fail-quick"
# What a crate is checked from, as rt reads it.
PARTS = ("src", "specs", "proofs")
# What rt ci says of an edit.
TRIED = re.compile(r"rt: must-fail (\w+/\S+): (.*)")
# What it says of one that a proof's failure refuses, and the words behind that where it was something else.
AS_IT_MUST = "refused, as it must be"
WEAKLY = f"{AS_IT_MUST} (only "
REFUSED = "refused, a proof no longer goes through"


def by(fact):
    """The name of the fact that refuses an edit, as a line shows it."""
    return f": {fact}" if fact else ""


def counted(reasons):
    """Passed, failed and the reasons of failure, for a list of edits and what is wrong with each."""
    bad = [f"{edit}: {reason}" for edit, reason in reasons if reason]
    return len(reasons) - len(bad), len(bad), bad


# ---- those that rt ci tried

def listed_edits():
    """What lies in the folders that rt ci tries."""
    return sorted(Path("crates").glob("*/must-fail/*"))


def refusals(edits, lines):
    """Counts the edits that rt ci tried and that were refused because a fact no longer holds, by what it said of them."""
    said = dict(found.groups() for line in lines if (found := TRIED.match(line)))

    def wrong(edit):
        words = said.get(f"{edit.parts[1]}/{edit.name}")
        if words is None:
            return "rt ci did not try it"
        return None if words.startswith(AS_IT_MUST) and not words.startswith(WEAKLY) else words[:300]

    return counted([(edit, misplaced(edit) or wrong(edit)) for edit in edits])


# ---- copies of the repository

def libraries_of():
    """The crates of the repository that each crate stands on, those below these among them."""
    lines = [line.split("#")[0].partition(":") for line in read("crates.txt").splitlines()]
    listed = {head.split()[0]: words.split() for head, _, words in lines if head.strip()}

    def below(name):
        own = [word for word in listed.get(name, []) if word in listed]
        return {library for word in own for library in (word, *below(word))}

    return {name: below(name) for name in listed}


def with_link(source, target):
    """Gives what a check made a second name, or copies it where it can't have one. rt makes such a file anew, and never writes into it."""
    try:
        os.link(source, target)
    except OSError:
        shutil.copy2(source, target)


def with_kept(source, target):
    """The same of what a check keeps, of which only checked modules are never written into."""
    (with_link if source.endswith(".oantt") else shutil.copy2)(source, target)


def check(top, name, *words):
    """What rt check says of a crate of a copy. A check that gave no verdict, killed for memory perhaps, is tried once more."""
    for _ in range(2):
        done = subprocess.run(["rt", "check", *words], cwd=top / "crates" / name, stdin=subprocess.DEVNULL, stdout=subprocess.PIPE,
                              stderr=subprocess.STDOUT, encoding="utf-8", errors="replace")
        if PROVED.search(done.stdout) or NOT_PROVED.search(done.stdout) or done.returncode > 0:
            break
    return done.stdout


def write(folder, texts):
    for file, text in texts.items():
        (folder / file).write_text(text, encoding="utf-8")


class Copies:
    """A copy of the repository, in which each crate with quick edits is checked once, and copies of a crate and what it stands on."""

    def __init__(self, place):
        self.place, self.top, self.libraries = place, place / "whole", libraries_of()
        self.begin(self.top, self.libraries)
        for name in self.libraries:
            self.parts(Path("crates", name), self.top / "crates" / name)

    def begin(self, top, names):
        """Makes the folder of a copy, with its list of crates."""
        (top / ".git").mkdir(parents=True)  # rt wants crates.txt at the top of its repository
        lines = [line for line in read("crates.txt").splitlines() if {*line.split("#")[0].partition(":")[0].split()[:1]} & {*names}]
        write(top, {"crates.txt": "".join(line + "\n" for line in lines)})
        if os.path.isfile("HANDLES"):
            shutil.copy("HANDLES", top)

    def parts(self, crate, to):
        to.mkdir(parents=True)
        for part in PARTS:
            if (crate / part).is_dir():
                shutil.copytree(crate / part, to / part)

    def bare(self, name):
        """A copy with the crate without its functions, which are what laws do not rest on."""
        top = self.place / f"bare-{name}"
        self.fill(top, name, self.top)
        crate = top / "crates" / name
        write(crate, {file.relative_to(crate): without_functions(read(file)) for file in crate.glob("src/**/*.rt")})
        shutil.rmtree(crate / "proofs", ignore_errors=True)
        return top

    def fill(self, top, name, of):
        """Makes a copy with one crate of another copy and what it stands on, and with what checks there proved."""
        self.begin(top, {name, *self.libraries[name]})
        for library in self.libraries[name]:
            shutil.copytree(of / "crates" / library, top / "crates" / library, copy_function=with_link,
                            ignore=lambda folder, names: names if Path(folder).name == "out" and "rlib" not in names else
                            [name for name in names if Path(folder).name == "out" and name != "rlib"])
        crate = of / "crates" / name
        self.parts(crate, top / "crates" / name)
        if (crate / "out/incremental").is_dir():
            shutil.copytree(crate / "out/incremental", top / "crates" / name / "out/incremental", copy_function=with_kept)

    @contextmanager
    def one(self, name, of):
        """A copy to try an edit of the crate in."""
        with tempfile.TemporaryDirectory(prefix="edit-", dir=self.place) as folder:
            top = Path(folder, "copy")
            self.fill(top, name, of)
            yield top


# ---- those that rt check tries

class Quick:
    """The quick edits of a crate: what was found of each, and what is still to be tried, by the workers of a pool."""

    def __init__(self, name, edits, pool):
        self.name, self.edits, self.pool = name, edits, pool
        self.copies, self.bare, self.is_proved = None, None, False
        self.lines, self.reasons, self.seconds = {}, {}, 0
        self.changed, self.naming, self.named = Condition(), Lock(), None

    # what was found

    def found(self, edit, reason, words=""):
        with self.changed:
            self.reasons[edit] = reason
            self.lines[edit] = f"must-fail quick {self.name}/{edit.stem}: {reason or REFUSED}{words}"
            self.changed.notify_all()

    def results(self):
        """Waits until each edit is tried: the lines to print, each edit with what is wrong with it, and the seconds of all runs."""
        with self.changed:
            self.changed.wait_for(lambda: len(self.reasons) == len(self.edits))
        if self.is_proved and not PROVED.search(check(self.top, self.name)):
            self.reasons = {edit: "rt check does not prove the crate after the edits" for edit in self.edits}
        return [self.lines[edit] for edit in self.edits], [(edit, self.reasons[edit]) for edit in self.edits], self.seconds

    # how each is tried

    def begin(self, copies):
        """Checks the crate as it stands, and hands its edits to the workers."""
        began, self.copies = time.monotonic(), copies
        left = [edit for edit in self.edits if not self.is_misplaced(edit)]
        try:
            self.is_proved = bool(PROVED.search(check(self.top, self.name)))
            if not self.is_proved:
                raise ValueError("rt check does not prove the crate without the edit")
            specs = [edit for edit in left if changes_specs(edit)]
            if specs:
                self.begin_bare()
            changes = [change for change in (change_of(edit, self.crate) for edit in left) if change]
            groups = [group for group in groups_of(changes) if len(group) > 1]
        except Exception as error:  # whatever it is, the other crates go on, and these edits fail
            self.lose(left, error)
            return
        finally:
            self.seconds += time.monotonic() - began
        apart = {change.edit for group in groups for change in group}
        for group in groups:
            self.let([change.edit for change in group], self.try_group, group)
        for edit in (edit for edit in left if edit not in apart):
            self.let([edit], self.try_definition if self.bare and edit in specs else self.try_alone, edit)

    def begin_bare(self):
        """Checks the crate without its functions; where that is not proved, edits of definitions are tried on the whole alone."""
        bare = self.copies.bare(self.name)
        self.bare = bare if PROVED.search(check(bare, self.name)) else None

    @property
    def top(self):
        return self.copies.top

    @property
    def crate(self):
        return self.top / "crates" / self.name

    def is_misplaced(self, edit):
        try:
            reason = misplaced(edit)
        except OSError as error:
            reason = f"it was not tried: {type(error).__name__}: {error}"
        if reason:
            self.found(edit, reason)
        return reason

    def let(self, edits, call, *given):
        """Lets a worker make a try. An exception there fails the edits of that try alone."""
        def work():
            began = time.monotonic()
            try:
                call(*given)
            except Exception as error:
                self.lose(edits, error)
            finally:
                self.seconds += time.monotonic() - began

        self.pool.submit(work)

    def lose(self, edits, error):
        why = str(error) if isinstance(error, ValueError) else f"it was not tried: {type(error).__name__}: {error}"
        for edit in edits:
            self.found(edit, why)

    def log_with(self, of, texts):
        """What rt check says of the crate of a copy with these texts in place of its files."""
        with self.copies.one(self.name, of) as top:
            write(top / "crates" / self.name, texts)
            return check(top, self.name, "--jobs", "1")

    def names(self, top):
        """The names that the code of the crate of a copy gives to goals and steps."""
        with tempfile.TemporaryDirectory(prefix="names-", dir=self.copies.place) as folder:
            check(top, self.name, "--jobs", "1", "--generated", folder, "--old-names")
            return read_names(folder)

    def log_followed(self, texts):
        """The same as log_with, with answers that follow the code; None if none has to."""
        with self.copies.one(self.name, self.top) as top:
            crate = top / "crates" / self.name
            with self.naming:
                self.named = self.named or self.names(top)
            write(crate, texts)
            answers = followed(crate, self.named, self.names(top))
            write(crate, answers)
            return check(top, self.name, "--jobs", "1") if answers else None

    def log_alone(self, edit, of):
        """What rt check says of the crate of a copy with one edit, with answers that follow the code where they have to."""
        texts = edited(edit, self.crate)
        log = self.log_with(of, texts)
        if of is self.top and any(file.startswith("src/") for file in texts) and (judge(log) or "").startswith(BY_SHAPE):
            log = self.log_followed(texts) or log
        return log

    def try_alone(self, edit, of=None):
        began, fact = time.monotonic(), None
        try:
            log = self.log_alone(edit, of or self.top)
            reason, fact = judge(log), fact_in(log)
        except (ValueError, OSError) as error:
            reason = f"BAD EDIT: {error}"
        if of and reason:
            self.let([edit], self.try_alone, edit)
        else:
            self.found(edit, reason, f"{by(fact)} ({time.monotonic() - began:.1f} s{' without functions' if of else ''})")

    def try_definition(self, edit):
        self.try_alone(edit, self.bare)

    def try_group(self, group):
        """Tries several changes together. What is not shown to be refused is tried alone."""
        began = time.monotonic()
        log = self.log_with(self.top, together(group, self.crate))
        refused = refused_each(log, {f"{self.name}::{change.function}" for change in group})
        for change in group:
            if f"{self.name}::{change.function}" in refused:
                fact = fact_in(log, f"{self.name}::{change.function}")
                self.found(change.edit, None, f"{by(fact)} ({time.monotonic() - began:.1f} s for {len(group)})")
            else:
                self.let([change.edit], self.try_alone, change.edit)


class QuickEdits:
    """The quick edits of every crate: one worker of a pool checks a crate after the other, and all workers try what is ready."""

    def __init__(self, pool, chosen=lambda edit: True):
        self.pool, self.place = pool, tempfile.TemporaryDirectory(prefix="must-fail-")
        libraries, found = libraries_of(), {}
        for edit in sorted(Path("crates").glob(f"*/{QUICK}/*")):
            if chosen(edit):
                found.setdefault(edit.parts[1], []).append(edit)
        self.crates = [Quick(name, found[name], pool) for name in libraries if name in found]

    def let(self):
        """Lets the edits be tried."""
        self.begun = self.pool.submit(self.begin)

    def begin(self):
        if not self.crates:
            return
        try:
            copies = Copies(Path(self.place.name))
        except Exception as error:  # a full disk for instance: all these edits fail, and the tests go on
            for crate in self.crates:
                crate.lose(crate.edits, error)
            return
        for crate in self.crates:
            crate.begin(copies)

    def results(self):
        """Prints what was tried, a crate after the other: what it counts, and the seconds of all runs together."""
        pairs, total = [], 0
        with self.place:
            for crate in self.crates:
                lines, reasons, seconds = crate.results()
                print("\n".join(lines), flush=True)
                pairs, total = pairs + reasons, total + seconds
            self.begun.result()
        return counted(pairs), total
