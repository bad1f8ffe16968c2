"""The gate of this repository, started by ./test; docs/GATE.md says how it decides.

Prints what each part prints, then a table of the parts, the reasons of failure, and last `N passed, M failed`. The quick must-fail edits and
the tests of tests/ run beside each other once rt ci has ended; what they print stays in order."""
import os
import re
import shutil
import subprocess
import sys
import time
from concurrent.futures import ThreadPoolExecutor
from pathlib import Path

from edits import read
from trying import QuickEdits, listed_edits, refusals

COUNT = re.compile(r"(\d+) passed, (\d+) failed")
# The tests that take longest, which begin first, so that none of them is left to run alone at the end.
LONG = ("check-plants", "check-judge-itself", "check-board", "check-gate")
# What rt ci says of a crate that it, or an earlier run of it on this machine, proved; where all passed; and of edits that cannot be tried.
SAID_PROVED = re.compile(r"rt: (\w+) (?:proved$|is kept: )")
SAID_OK = re.compile(r"rt: ok; ")
SAID_BAD = re.compile(r"rt: (?:ok; .*must-fail edits: .*[ ,](\d+) bad\b|note: bad must-fail edits, as told above: (\d+))")


def run(command, show=True):
    """Runs a command: its status, its lines, and the count on its last line, if it has one. Its lines are passed on as they come."""
    lines = []
    try:
        child = subprocess.Popen(command, stdin=subprocess.DEVNULL, stdout=subprocess.PIPE, stderr=subprocess.STDOUT,
                                 encoding="utf-8", errors="replace")
    except OSError as error:
        if show:
            print(error)
        return 127, [str(error)], None
    with child:
        for line in child.stdout:
            if show:
                print(line, end="")
            lines.append(line.rstrip("\n"))
    count = COUNT.fullmatch(lines[-1]) if lines else None
    return child.returncode, lines, count and (int(count[1]), int(count[2]))


# ---- the files of the repository

def listed_crates():
    """The names that crates.txt lists, in its order."""
    lines = [line.split("#")[0] for line in read("crates.txt").splitlines()] if os.path.isfile("crates.txt") else []
    return [line.split(":")[0].split()[0] for line in lines if line.split(":")[0].strip()]


def source_files():
    """Every .rt and .antt file that git tracks, or that lies in the tree outside a crate's out/, where rt keeps what it makes."""
    found = set()
    if shutil.which("git"):
        tracked = subprocess.run(["git", "ls-files", "-z"], stdout=subprocess.PIPE, stderr=subprocess.DEVNULL).stdout
        found.update(os.fsdecode(tracked).split("\0"))
    for folder, below, files in os.walk("."):
        below[:] = [name for name in below if name != ".git" and not (name == "out" and os.path.dirname(folder) == "./crates")]
        found.update(os.path.relpath(os.path.join(folder, name)) for name in files)
    return sorted(name for name in found if name.endswith((".rt", ".antt")))


def is_held(file, crates):
    """Whether a listed crate holds the file: below its src/ for Rattle, below its specs/ or proofs/ for antt."""
    top, crate, part, *rest = (file.split("/") + ["", "", ""])[:4]
    kind = ".rt" if part == "src" else ".antt" if part in ("specs", "proofs") else None
    return top == "crates" and crate in crates and kind is not None and file.endswith(kind)


def layout(crates):
    """What is wrong with the repository's files, a reason each."""
    reasons = [] if crates else ["crates.txt: it is absent or lists no crate"]
    for name in sorted(set(crates)):
        if crates.count(name) > 1:
            reasons.append(f"crates.txt: {name} is listed twice")
        if not os.path.isdir(f"crates/{name}"):
            reasons.append(f"crates.txt: {name} is listed, and there is no folder crates/{name}")
    for folder in sorted(Path("crates").glob("*")):
        if folder.is_dir() and folder.name not in crates:
            reasons.append(f"{folder}: crates.txt does not list this folder")
    for file in source_files():
        if not is_held(file, crates):
            reasons.append(f"{file}: no listed crate holds this file, so nothing proves it")
        elif os.path.isfile(file):
            code = [line.split("--")[0] for line in read(file).splitlines()]
            if any(re.match(r"\s*axiom\s", line) for line in code):
                reasons.append(f"{file}: it declares an axiom")
            if any("Prim.Axiom" in line for line in code):
                reasons.append(f"{file}: it uses Prim.Axiom, the module of the axioms lem and ac")
    return reasons


# ---- rt ci

def prove(crates, edits):
    """Runs rt ci: what the crates count that it proved and whose programs wrote what they should, what its edits count, and those crates."""
    status, lines, count = run(["rt", "ci"])
    failed = {word for line in lines if line.startswith("rt: FAILED:") for word in line.split()[2:]}
    proved = {found[1] for line in lines if (found := SAID_PROVED.match(line))}
    bad = [name for name in crates if name in failed or name not in proved]
    reasons = []
    for name in bad:
        functions = [line.split(": ")[0] for line in lines if re.match(rf"fn {name}::.*: (not proved|no proof)", line)]
        reasons.append(f"rt ci: {name} is not proved, or its program fails" + "".join("; " + text for text in functions))
    of_edits = refusals(edits, lines)
    spoilt = max((int(found[1] or found[2]) for line in lines if (found := SAID_BAD.match(line))), default=0)
    if spoilt:
        reasons.append(f"rt ci: {spoilt} of its must-fail edits are bad")
    sound = status == 0 and count == (len(crates) + len(edits), 0) and any(SAID_OK.match(line) for line in lines)
    if not sound and not reasons and not of_edits[2]:
        reasons.append(f"rt ci: status {status} and the count {count}, for {len(crates)} crates and {len(edits)} edits"
                       + "".join("; " + line for line in lines[-3:-1]))
    return (len(crates) - len(bad), len(bad), reasons), of_edits, [name for name in crates if name not in bad]


def noting_programs(crates):
    """What notes, once rt ci has ended, that the programs of these crates are of the sources that are here now: `board` asks such a program,
    and has none built again. Nothing where the repository has no board."""
    if not os.path.isdir("desk"):
        return lambda passed: None
    sys.path.insert(1, os.getcwd())
    from desk.building import place_of, record
    from desk.sources import sources_digest
    root = Path.cwd()
    sources = {name: sources_digest(root, name) for name in crates if os.path.isfile(f"crates/{name}/src/main.rt")}

    def note(passed):
        for name in set(passed) & set(sources):
            program = root / f"crates/{name}/out/{name}"
            if program.is_file():
                place_of(program).parent.mkdir(exist_ok=True)
                record(program, sources[name])

    return note


# ---- the other tests

def judged(path, status, count):
    """What a test that ran counts, and the reasons why it fails."""
    passed, failed = count or (0, 1)
    reasons = []
    if not count:
        reasons.append(f"{path}: its last line is no count 'N passed, M failed'")
    elif failed or not passed:
        reasons.append(f"{path}: {passed} passed, {failed} failed")
    if status != 0:
        reasons.append(f"{path}: it ended with status {status}")
    return passed, failed, reasons


def try_test(path):
    """Runs one test of tests/: its lines, what it counts, why it fails, and the seconds that it took."""
    if not os.access(path, os.X_OK):
        return [], (0, 1, [f"{path}: it is not executable"]), 0
    began = time.monotonic()
    status, lines, count = run([f"./{path}"], show=False)
    return lines, judged(path, status, count), time.monotonic() - began


def let_tests(pool):
    """Lets the workers run the tests of tests/, the long ones first: each test with its task, by name."""
    paths = sorted(Path("tests").glob("check-*"))
    tasks = {path: pool.submit(try_test, path) for path in sorted(paths, key=lambda path: path.name not in LONG)}
    return [(path, tasks[path]) for path in paths]


def result_of(path, task):
    """What a worker gives of a test. An exception there is a failure of the test, and the gate goes on."""
    try:
        return task.result()
    except Exception as error:
        return [], (0, 1, [f"{path}: it was not tried: {type(error).__name__}: {error}"]), 0


# ---- all of it

def shown_parts(pool, crates, edits):
    """The parts of the gate in the order in which they are shown: the name, what it counts and why it fails, and its seconds. The quick
    edits and the tests begin once rt ci is over, which takes all processors."""
    began = time.monotonic()
    print("---- crates (rt ci)")
    note = noting_programs(crates)
    proof, of_edits, passed = prove(crates, edits)
    note(passed)
    seconds = time.monotonic() - began
    quick = QuickEdits(pool)
    quick.let()
    tests = let_tests(pool)
    yield "crates (rt ci)", proof, seconds
    yield "must-fail edits (rt ci)", of_edits, 0
    print("---- must-fail edits (rt check)")
    yield "must-fail edits (rt check)", *quick.results()
    for path, task in tests:
        lines, result, seconds = result_of(path, task)
        print("\n".join([f"---- {path}", *lines]))
        yield str(path), result, seconds


def parts(crates, edits):
    """All parts, by a worker to each processor, up to four."""
    workers = max(1, min(4, os.cpu_count() or 1))
    with ThreadPoolExecutor(workers) as pool:
        try:
            yield from shown_parts(pool, crates, edits)
        finally:
            pool.shutdown(cancel_futures=True)  # where the gate is stopped, nothing more begins


def main():
    os.chdir(Path(__file__).resolve().parent.parent)
    sys.stdout.reconfigure(encoding="utf-8", errors="replace", line_buffering=True)
    crates = listed_crates()
    edits = listed_edits()
    reasons = layout(crates)
    passed, failed = 0, len(reasons)
    if reasons:
        print("Nothing was proved or run: the repository's files are to be put right first.")
    else:
        table = [("part", "passed", "failed", "seconds")]
        began = time.monotonic()
        for name, (good, bad, why), seconds in parts(crates, edits):
            bad = max(bad, 1 if why else 0)
            table.append((name, good, bad, round(seconds)))
            passed, failed, reasons = passed + good, failed + bad, reasons + why
        table.append(("all, many at a time", passed, failed, round(time.monotonic() - began)))
        print("----")
        for row in table:
            print("{:<32}{:>8}{:>8}{:>9}".format(*row))
        if passed == 0:
            reasons.append("nothing passed")
    for reason in reasons:
        print(f"FAILED: {reason}")
    print(f"{passed} passed, {failed} failed")
    return 1 if reasons else 0


if __name__ == "__main__":
    sys.exit(main())
