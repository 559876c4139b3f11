"""The inputs of a command: names, folders, lists of names, standard input; and how much of each is read.

A folder is searched for table files (*.table) and scripts, sorted by name. Hidden folders and links to folders are skipped, and so is what
--exclude names and what is neither a file nor a link. A name on the command line is always read: a device, a FIFO, a link.
"""
import fnmatch
import os
import stat

from .numbers import FILE_BYTES, NAME_BYTES, NODE_BYTES, NODES
from .output import Failed

TABLE_MOST = FILE_BYTES + 1  # one byte more than the largest table file
RECORDS_MOST = NODES * NODE_BYTES + 1
NAMES_MOST = NAME_BYTES + 1
SCRIPT_MOST = 2 ** 24  # bytes
LIST_MOST = 2 ** 30  # bytes of a list of names
CHUNK = 1 << 20
ENDINGS = (".star", ".bzl", ".sky", ".bazel", ".BUILD")
NAMES = ("BUILD", "BUCK", "WORKSPACE")


def is_script(name, as_script=()):
    """Whether a name is that of a script: by its ending, or by the globs of --as-script. All others are table files."""
    last = os.path.basename(name)
    return last.endswith(ENDINGS) or last in NAMES or matches(last, name, as_script)


def matches(last, path, globs):
    """Whether a glob matches a name or its path."""
    if not globs:
        return False
    path = os.path.normpath(path)
    return any(fnmatch.fnmatchcase(last, glob) or fnmatch.fnmatchcase(path, glob) for glob in globs)


class Input:
    """A file to be read: its path (None is standard input), and its name for the user."""

    __slots__ = ("path", "name", "script", "error")

    def __init__(self, path, name=None, error=None, as_script=()):
        self.path, self.name, self.error = path, path if name is None else name, error
        self.script = is_script(self.name, as_script)


class Joined:
    """Scripts that become one table. Their source file numbers count from `first` on."""

    __slots__ = ("scripts", "name", "first")
    path = error = None
    script = True

    def __init__(self, scripts, first=1):
        self.scripts, self.name, self.first = scripts, " + ".join(one.name for one in scripts), first


def scripts_of(one):
    """The scripts of an input, each with its source file number."""
    return list(enumerate(one.scripts, one.first)) if isinstance(one, Joined) else [(1, one)]


def standard_input(filename=None, as_script=()):
    return Input(None, filename or "-", None, as_script)


# ---- reading

def read(one, most):
    """The bytes of an input, no more than `most`. Raises OSError."""
    if one.error is not None:
        raise one.error
    if one.path is None:
        return read_from(0, most)
    descriptor = os.open(one.path, os.O_RDONLY | os.O_CLOEXEC | os.O_NOCTTY)
    try:
        data = os.read(descriptor, most)
        # a short read is the end of a regular file; only other files need the empty read that shows it
        return data + read_from(descriptor, most - len(data)) if data else data
    finally:
        os.close(descriptor)


def read_from(descriptor, most):
    parts = []
    while most > 0:
        part = os.read(descriptor, min(most, CHUNK))
        if not part:
            break
        parts.append(part)
        most -= len(part)
    return b"".join(parts)


def read_and_count(one, most, each=None):
    """As `read`, and the number of bytes in all: the rest is read and counted. `each` is called with all bytes."""
    if one.error is not None:
        raise one.error
    descriptor = 0 if one.path is None else os.open(one.path, os.O_RDONLY | os.O_CLOEXEC | os.O_NOCTTY)
    try:
        kept = read_from(descriptor, most)
        total = len(kept)
        if each:
            each(kept)
        while True:
            part = os.read(descriptor, CHUNK)
            if not part:
                return kept, total
            total += len(part)
            if each:
                each(part)
    finally:
        if one.path is not None:
            os.close(descriptor)


def read_script(one):
    """A script. Raises OSError also if it is too long."""
    data = read(one, SCRIPT_MOST + 1)
    if len(data) > SCRIPT_MOST:
        raise OSError(0, f"a script has at most {SCRIPT_MOST:,} bytes, and this one has more")
    return data


def reason(error):
    return error.strerror or str(error)


# ---- finding

class Search:
    """Collects inputs, and counts what is excluded. Without `scripts` a folder is searched only for table files."""

    def __init__(self, exclude=(), stdin_filename=None, as_script=(), scripts=True):
        self.exclude, self.stdin_filename, self.as_script, self.scripts = tuple(exclude), stdin_filename, tuple(as_script), scripts
        self.found, self.excluded, self.empty = [], 0, []

    def name(self, path):
        """A PATH of the command line."""
        if path == "-":
            self.found.append(standard_input(self.stdin_filename, self.as_script))
        else:
            self.listed(path)

    def listed(self, path):
        """A name of the command line or of a list: a file, or a folder that is searched."""
        try:
            folder = stat.S_ISDIR(os.stat(path).st_mode)
        except (OSError, ValueError):
            folder = False  # reading it says what is wrong
        if not folder:
            self.found.append(Input(path, as_script=self.as_script))
            return
        before, excluded = len(self.found), self.excluded
        self.folder(path)
        if len(self.found) == before:
            self.empty.append((path, self.excluded - excluded))

    def folder(self, path):
        waiting = [path]
        while waiting:
            folder = waiting.pop()
            try:
                with os.scandir(folder) as scan:
                    entries = sorted(scan, key=lambda entry: os.fsencode(entry.name))
            except OSError as error:
                self.found.append(Input(folder, error=error))
                continue
            below = []
            for entry in entries:
                self.entry(entry, below)
            waiting += reversed(below)

    def entry(self, entry, below):
        """A folder goes to `below`, a file to what is found. So the files of a folder come before those of the folders in it."""
        folder = entry.is_dir(follow_symlinks=False)
        if folder and entry.name.startswith("."):
            return
        if not folder and not (entry.name.endswith(".table") or self.scripts and is_script(entry.path, self.as_script)):
            return
        if not folder and not entry.is_symlink() and not entry.is_file(follow_symlinks=False):
            return
        if entry.is_symlink() and entry.is_dir():
            return
        if self.is_excluded(entry):
            self.excluded += 1
        elif folder:
            below.append(entry.path)
        else:
            self.found.append(Input(entry.path, as_script=self.as_script))

    def is_excluded(self, entry):
        return matches(entry.name, entry.path, self.exclude)


def names_in(path, nul):
    """The names in a list: a file, or - for standard input."""
    try:
        data = read(standard_input() if path == "-" else Input(path), LIST_MOST + 1)
    except OSError as error:
        raise Failed(f"{path}: {reason(error)}") from None
    if len(data) > LIST_MOST:
        raise Failed(f"{path}: a list of names has at most {LIST_MOST:,} bytes")
    return [os.fsdecode(name) for name in data.split(b"\0" if nul else b"\n") if name]
