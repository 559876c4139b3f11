"""Writes a file so that at each moment it is the old file or the whole new one.

The new file is written beside the old one, flushed to the device, and only then takes its name; then the folder is flushed. If that
fails, or a signal ends the command, the part that was written is removed. A link stays a link: the file that it names is replaced. A file that
is not regular (a device, a FIFO) is written directly.
"""
import errno
import os
import stat

PENDING = set()  # temporary files that are not renamed yet


def write(path, data):
    """Raises OSError, which names the path that was given and never the file beside it."""
    try:
        real = os.path.realpath(path)
        mode = mode_of(real)
        if mode is None or stat.S_ISREG(mode):
            replace(real, data, mode)
        elif stat.S_ISDIR(mode):
            raise IsADirectoryError(errno.EISDIR, os.strerror(errno.EISDIR))
        else:
            write_to(os.open(real, os.O_WRONLY | os.O_CLOEXEC), data)
    except OSError as error:
        raise OSError(error.errno, error.strerror or str(error), path) from None


def mode_of(path):
    try:
        return os.stat(path).st_mode
    except FileNotFoundError:
        return None


def replace(path, data, mode):
    folder = os.path.dirname(path) or "."
    beside = os.path.join(folder, f".ducat.{os.getpid()}.{os.urandom(6).hex()}.new")
    try:
        PENDING.add(beside)
        write_to(os.open(beside, os.O_WRONLY | os.O_CREAT | os.O_EXCL | os.O_CLOEXEC, 0o666), data, mode, flush=True)
        os.rename(beside, path)
        PENDING.discard(beside)
    finally:
        tidy()
    flush_folder(folder)


def tidy():
    """Removes files that were written and not renamed."""
    while PENDING:
        try:
            os.unlink(PENDING.pop())
        except OSError:
            pass


def write_to(descriptor, data, mode=None, flush=False):
    try:
        if mode is not None:
            os.fchmod(descriptor, stat.S_IMODE(mode))
        left = memoryview(data)
        while left:
            left = left[os.write(descriptor, left):]
        if flush:
            os.fsync(descriptor)
    finally:
        os.close(descriptor)


def flush_folder(folder):
    """Some file systems cannot flush a folder, and report EINVAL."""
    descriptor = os.open(folder, os.O_RDONLY | os.O_DIRECTORY | os.O_CLOEXEC)
    try:
        os.fsync(descriptor)
    except OSError as error:
        if error.errno != errno.EINVAL:
            raise
    finally:
        os.close(descriptor)
