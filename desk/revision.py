"""Which edition of this folder is at work."""
import os
import subprocess
from pathlib import Path

ROOT = Path(__file__).resolve().parent.parent
aged = []  # the programs that were found to be of older sources, by name, and were asked all the same


def revision(root=ROOT):
    """The short commit of a folder where it is a git repository of its own."""
    try:
        done = subprocess.run(["git", "-C", str(root), "rev-parse", "--show-toplevel", "--short", "HEAD"],
                              capture_output=True, text=True, errors="replace")
    except OSError:
        return "unknown revision"
    said = done.stdout.split("\n")
    own = done.returncode == 0 and len(said) == 3 and os.path.realpath(said[0]) == str(root)
    return f"revision {said[1]}" if own else "unknown revision"


def edition():
    return f"Noldveig board, {revision()}" + (", with an older program" if aged else "")
