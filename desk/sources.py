"""What a program is made from: the crates that it stands on, as crates.txt lists them, by the content of their files."""
import functools
import hashlib
import os

PARTS = ("src", "specs", "proofs")  # of a crate; a change in any of them has rt prove it again
ENDINGS = (".rt", ".antt")          # of their files; what an editor leaves beside them is none


@functools.cache
def crates_of(root):
    """What each crate stands on, by its name; nothing where there is no crates.txt."""
    try:
        text = (root / "crates.txt").read_text(encoding="utf-8", errors="replace")
    except OSError:
        return {}
    entries = [line.partition("#")[0].partition(":") for line in text.splitlines()]
    return {head.split()[0]: below.split() for head, colon, below in entries if colon and head.strip()}


def needed(root, name):
    """A program's crate and all that it stands on, in order; nothing where it has no sources here."""
    found, left = set(), [name]
    while left:
        crate = left.pop()
        if crate not in found and (root / "crates" / crate / "src").is_dir():  # what is not there is a library of the kit
            found.add(crate)
            left += crates_of(root).get(crate, [])
    return sorted(found) if name in crates_of(root) else []


@functools.cache
def files_of(root, crate):
    """The files of a crate, in order."""
    walks = (os.walk(root / "crates" / crate / part) for part in PARTS)
    return sorted(os.path.join(folder, name) for walk in walks for folder, _, names in walk for name in names
                  if name.endswith(ENDINGS) and not name.startswith("."))


@functools.cache
def crate_digest(root, crate):
    """What a crate is: the crates that it stands on, and each file's name and bytes."""
    digest = hashlib.sha256(" ".join(crates_of(root).get(crate, [])).encode())
    for path in files_of(root, crate):
        digest.update(os.fsencode(f"\n{path.removeprefix(str(root))}\n") + digest_of(path))
    return digest.digest()


def digest_of(path):
    """The SHA-256 of a file, as bytes; of one that cannot be read, nothing."""
    try:
        with open(path, "rb", buffering=0) as source:
            return hashlib.sha256(source.read()).digest()
    except OSError:
        return b""


def sources_digest(root, name):
    """The sources of a program in one word; empty where it has none here."""
    crates = needed(root, name)
    whole = b"".join(crate.encode() + b"\n" + crate_digest(root, crate) for crate in crates)
    return hashlib.sha256(whole).hexdigest() if crates else ""


def newest(root, name):
    """The file of a program's sources that was changed last, and when."""
    paths = [path for crate in needed(root, name) for path in files_of(root, crate)]
    return max(((os.lstat(path).st_mtime_ns, path) for path in paths), default=(0, ""))
