"""Reading a study and writing another; every failure is a Trouble with a sentence."""
import contextlib
import errno
import os
import stat
import sys

from desk.texts import MOST_READ
from desk.trouble import Trouble, reason


def opened(path):
    if path != "-":
        return open(path, "rb")
    if sys.stdin is None:
        raise Trouble("standard input is closed")
    return sys.stdin.buffer


def name_of(path):
    return "standard input" if path == "-" else path


def read(path):
    """The bytes of a file, of standard input for `-`; one byte beyond MOST_READ where there are more."""
    try:
        with opened(path) as source:
            return source.read(MOST_READ + 1)
    except (OSError, ValueError) as error:
        raise Trouble(f"{name_of(path)}: {reason(error)}") from None


def whole(path, content):
    """What was read of a file, where that is all of it."""
    if len(content) > MOST_READ:
        raise Trouble(f"{name_of(path)} has more than {MOST_READ:,} bytes, as no study has")
    return content


def is_same(source, target):
    """Whether both names lead to one file, by whatever way; a target that is not there is no other."""
    try:
        other = os.stat(target)
        return os.path.samestat(os.fstat(0) if source == "-" else os.stat(source), other)
    except OSError:
        return False


# ---- writing

def write(path, content, force):
    """Writes a file that is not there yet, or any with `force`. One that could not be written whole is not left behind, and one
    that is there stays as it is until the other is whole."""
    try:
        there = state_of(path, force)
        if there is None:
            put_beside(file_behind(path), content, os.replace if force else take_name)
        elif stat.S_ISREG(there.st_mode) and not is_handed(there):
            exchange(path, content, there)
        else:
            pour(path, content)
    except FileExistsError:
        raise Trouble(f"{path} is there already, and is left as it is; --force overwrites it") from None
    except (OSError, ValueError) as error:
        raise Trouble(f"{path}: {reason(error)}") from None


def state_of(path, force):
    """What is there under a name, or where it leads as a link; none where nothing is. Without `force` nothing may be there."""
    if not force and os.path.lexists(path):
        raise FileExistsError()
    try:
        return os.stat(path)
    except FileNotFoundError:
        return None


def file_behind(path):
    """A link stays one: what it leads to is written."""
    return os.path.realpath(path) if os.path.islink(path) else path


def is_handed(there):
    """Whether a file was handed to us open, as /dev/stdout or /dev/fd/3 name it: who did so goes on with that very file."""
    for number in os.listdir("/dev/fd") if os.path.isdir("/dev/fd") else []:  # without this folder no name leads to such a file
        with contextlib.suppress(OSError):  # the one that the folder itself was read by is closed again
            if number != "0" and os.path.samestat(os.fstat(int(number)), there):
                return True
    return False


def put_beside(target, content, place, like=None):
    """Writes a file under a name that nothing else has, in the target's folder; once it is whole, `place` gives it its own.

    `like` is the state of the file that it follows. Whatever keeps it from becoming whole, Ctrl-C too, leaves no part behind.
    """
    name = os.path.join(os.path.dirname(target), f".board-{os.urandom(16).hex()}")
    mode = 0o600 if like else 0o666  # nobody else reads what follows a secret file; the system takes the umask off a new one's
    try:
        with open(name, "xb", opener=lambda path, flags: os.open(path, flags, mode)) as beside:
            if like:
                take_permissions(beside.fileno(), like)
            beside.write(content)
            beside.flush()
            os.fsync(beside.fileno())  # some disks say only now that they are full
        place(name, target)
    finally:
        with contextlib.suppress(OSError):  # it has another name by now, or could not be begun
            os.unlink(name)


def take_permissions(number, like):
    """Group, owner and permissions of another file for an open one, as far as the system lets us."""
    for take in (lambda: os.fchown(number, -1, like.st_gid), lambda: os.fchown(number, like.st_uid, -1),
                 lambda: os.fchmod(number, like.st_mode & 0o777)):
        with contextlib.suppress(OSError):
            take()


def take_name(name, target):
    """Gives a file a name only where nothing has it, even if it came up just now.

    A disk without links, as most memory sticks are, needs two steps: an empty file takes the name first.
    """
    try:
        os.link(name, target)
    except OSError:
        with open(target, "xb"):  # ends with the same error where the name is taken
            pass
        try:
            os.replace(name, target)
        except BaseException:
            os.unlink(target)
            raise


def exchange(path, content, there):
    """Puts another file in the place of one that is there, which stays as it is where that fails."""
    os.close(os.open(path, os.O_WRONLY))  # a file that is protected from writing is not exchanged either
    try:
        put_beside(file_behind(path), content, os.replace, there)
    except OSError as error:
        if error.errno not in (errno.EACCES, errno.EPERM, errno.EBUSY):
            raise Trouble(f"{path}: {reason(error)}; it is left as it was") from None
        pour(path, content)  # the file may be written, and its folder lets no other come into its place


def pour(path, content):
    """Writes into what is there: a device, a pipe, or a file that no other can take the place of."""
    begun = False
    try:
        with open(path, "wb") as target:
            begun = True
            target.write(content)
    except OSError as error:
        raise Trouble(f"{path}: {reason(error)}" + (", so that it is not complete" if begun else "")) from None
