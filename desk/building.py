"""Has rt, the Rattle kit's command, prove and build a program: where it is not there, and where it is of other sources than those here.

A program lies where rt builds it, as crates/NAME/out/NAME. desk/NAME beside it says from which sources it was built, by digests: times of
files mislead after `git checkout` and `cp`. Where that says nothing of the program and the sources that are here, rt is asked, which
proves and builds only what has changed, and runs the program on an empty input.
"""
import contextlib
import fcntl
import os
import re
import shutil
import subprocess
import time
from typing import NamedTuple

from desk import revision
from desk.sources import digest_of, newest, sources_digest
from desk.streams import complain
from desk.trouble import Trouble, reason

FIRST = "board: proving and building the program {}, once; some minutes"
ANEW = "board: the sources of the program {} have changed since it was built; proving and building it anew, some minutes"
UNKNOWN = "board: the program {} may be older than its sources; proving and building it anew, some minutes"
WAITING = "board: another call of board is building the program {}; waiting for it"
SOON = 5  # seconds in which rt is done where nothing has changed; it takes 0.5
UNCHANGED = re.compile(r"rt: (?:nothing has changed since the last proved build, .*|running out/\w+; .*)\n?")


class Record(NamedTuple):
    """From what a program was built: digests of the sources and of the program, and the revision of the folder."""
    sources: str
    program: str
    revision: str


# ---- what is known of a program

def root_of(program):
    return program.parent.parent.parent.parent


def place_of(program):
    return program.parent / "desk" / program.name


def record_of(program):
    """What was last recorded for a program of this name; empty where nothing was."""
    try:
        return Record(*place_of(program).read_text(encoding="utf-8").split("\n")[:3])
    except (OSError, ValueError, TypeError):
        return Record("", "", "")


def record(program, sources):
    """Notes that a program is of these sources. Where that cannot be noted, rt is asked the next time too."""
    beside = place_of(program).with_suffix(f".{os.getpid()}")
    known = Record(sources, digest_of(program).hex(), revision.revision(root_of(program)))
    with contextlib.suppress(OSError):
        beside.write_text("\n".join(known) + "\n", encoding="utf-8")
        os.replace(beside, place_of(program))


def is_recorded(program, known):
    """Whether a record is of the program that is there."""
    return known.program == digest_of(program).hex()


def is_current(program):
    """Whether a program is there, and known to be of the sources that are here; without sources any is."""
    sources, known = sources_digest(root_of(program), program.name), record_of(program)
    return program.exists() and (not sources or known.sources == sources and is_recorded(program, known))


# ---- building

def ensure(program):
    """Leaves a program of the sources that are here, or says that it is not."""
    if is_current(program):
        return
    if program.exists() and (hindrance := hindrance_to(program)):
        tell_age(program, hindrance)
        return
    with alone(program):
        if not is_current(program):  # another call of board may have built it meanwhile
            build(program)


def hindrance_to(program):
    """Why a program cannot be built here, or nothing."""
    if not shutil.which("rt"):
        return "rt, the Rattle kit's command, is not there to build it anew"
    return "" if os.access(program.parent, os.W_OK) else f"{program.parent} may not be written to, so that it is not built anew"


def tell_age(program, hindrance):
    """Says that a program is of other sources, where that is known: by the record, or else because a source is newer."""
    known, (changed, path) = record_of(program), newest(root_of(program), program.name)
    if is_recorded(program, known):
        why = f"have changed since it was built (at {known.revision})"
    elif changed > program.stat().st_mtime_ns:
        why = f"are newer, among them {os.path.relpath(path, root_of(program))}"
    else:
        return
    revision.aged.append(program.name)
    complain(f"board: the program {program.name} is older than its sources, which {why}; {hindrance}. Its answers are those of an older "
             "edition")


@contextlib.contextmanager
def alone(program):
    """One call of board builds at a time; the others wait, and say so where it takes long."""
    folder = place_of(program).parent
    try:
        folder.mkdir(parents=True, exist_ok=True)
        lock = open(folder / "lock", "wb")
    except OSError:
        yield  # what cannot be written there, rt says
        return
    with lock:
        if not is_taken(lock, SOON):
            complain(WAITING.format(program.name))
            fcntl.flock(lock, fcntl.LOCK_EX)
        yield


def is_taken(lock, patience):
    """Tries to take a lock for some seconds."""
    end = time.monotonic() + patience
    while True:
        with contextlib.suppress(BlockingIOError):
            fcntl.flock(lock, fcntl.LOCK_EX | fcntl.LOCK_NB)
            return True
        if time.monotonic() > end:
            return False
        time.sleep(0.05)


def build(program):
    """Proves and builds a program. On standard error: how far it is, and all that rt says where it fails."""
    name, root, there = program.name, root_of(program), program.exists()
    sources = sources_digest(root, name)
    anew = ANEW if there and is_recorded(program, record_of(program)) else UNKNOWN
    try:
        child = subprocess.Popen(["rt", "run"], cwd=root / "crates" / name, stdin=subprocess.DEVNULL, stdout=subprocess.DEVNULL,
                                 stderr=subprocess.PIPE, encoding="utf-8", errors="replace")
    except OSError as error:
        raise Trouble(f"rt, the Rattle kit's command, does not run: {reason(error)}") from None
    with child:
        said = heard(child, (anew if there else FIRST).format(name), SOON if there else 0)
    if child.returncode != 0 or not program.exists():
        complain("".join(said).rstrip("\n"))
        raise Trouble(f"`rt run` in crates/{name} did not build the program{' anew' if there else ''}; what it said is above"
                      + (", and the older program is not asked" if there else ""))
    record(program, sources)


def heard(child, begin, patience):
    """All that rt says. Standard error has its own lines as they come, below `begin`; nothing where rt finds soon that nothing has changed."""
    if patience:
        with contextlib.suppress(subprocess.TimeoutExpired):
            child.wait(patience)
    said, told = [], not patience or child.poll() is None
    if told:
        complain(begin)
    for line in child.stderr:
        said.append(line)
        if not told and not UNCHANGED.fullmatch(line):
            told = True
            complain(begin)
        if told and line.startswith("rt: "):
            complain(line.rstrip("\n"))
    return said
