"""Where something is written: a file is written beside and put in its place when it is whole, and no file is written over
that is read."""
import os
import stat
import sys
import tempfile


class OutputConflict(Exception):
    """An output that has another use."""


def identity(name):
    """A file by device and number, whatever its names, or, if it is not there yet, by its folder and name; None for a device,
    which may be named as often as one likes, and for what cannot be there."""
    try:
        found = os.stat(name)
    except (OSError, ValueError):
        folder, own = os.path.split(os.path.realpath(name))
        try:
            found = os.stat(folder)
        except OSError:
            return None
        return found.st_dev, found.st_ino, own
    return None if stat.S_ISCHR(found.st_mode) else (found.st_dev, found.st_ino)


def check_output(out, inputs):
    """An output is none of the inputs."""
    own = identity(out)
    if own is not None and own in [identity(name) for name in inputs]:
        raise OutputConflict(f"{out} is read: name another file with -o")


def write_file(out, data):
    """Writes bytes to a file; what stood there before is there until all are written. A device or a pipe is written to as it
    stands."""
    there = os.path.exists(out)
    if there and not stat.S_ISREG(os.stat(out).st_mode):
        with open(out, "wb") as opened:
            opened.write(data)
        return
    path = os.path.realpath(out)
    if there:
        os.close(os.open(path, os.O_WRONLY))
    handle, beside = -1, ""
    try:
        handle, beside = tempfile.mkstemp(prefix=".watchtool-", dir=os.path.dirname(path))
        with open(handle, "wb") as opened:
            opened.write(data)
            opened.flush()
            os.fsync(handle)
            os.fchmod(handle, stat.S_IMODE(os.stat(path).st_mode) if there else 0o666 & ~umask())
        os.replace(beside, path)
    except OSError as error:
        if beside:
            os.unlink(beside)
        raise OSError(error.errno, error.strerror, out) from None


def umask():
    """The rights that new files do not have."""
    mask = os.umask(0)
    os.umask(mask)
    return mask


def write_stdout(data):
    """Writes bytes to standard output, which may be closed."""
    if sys.stdout is None:
        raise OSError(9, "Bad file descriptor", "standard output")
    sys.stdout.buffer.write(data)
    sys.stdout.buffer.flush()
