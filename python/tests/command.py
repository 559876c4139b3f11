"""Shared by the tests of commands: a run of `ducat` in its own process, and a folder for what is made.

Most runs fork this process, so that the library is loaded once; `real` starts ./ducat itself.
"""
import os
import shutil
import signal
import subprocess
import sys
import tempfile
import unittest
from typing import NamedTuple

import support
from ducatmuffin import cli, table

DUCAT = os.path.join(support.ROOT, "ducat")
NOT_PROVED = b"ducat: this library is not proved"
STEP = "ducat: a script's table is made by ducat's own parser, and that step is not proved\n"


class Ran(NamedTuple):
    status: int
    out: str
    err: str


def forked(words, cwd, input_, stdin=None):
    """A run of the command in a fork of this process; `stdin` is a descriptor."""
    with tempfile.TemporaryFile() as out, tempfile.TemporaryFile() as err, tempfile.TemporaryFile() as given:
        given.write(input_)
        given.seek(0)
        library = support.library()
        sys.stdout.flush()
        child = os.fork()
        if not child:
            status = 2
            try:
                os.chdir(cwd)
                for descriptor, put in ((given.fileno() if stdin is None else stdin, 0), (out.fileno(), 1), (err.fileno(), 2)):
                    os.dup2(descriptor, put)
                cli.open_library = lambda: library
                status = cli.main([os.fsdecode(word) for word in words])
            finally:
                os._exit(status)
        _, ended = os.waitpid(child, 0)
        status = -os.WTERMSIG(ended) if os.WIFSIGNALED(ended) else os.WEXITSTATUS(ended)
        texts = []
        for file in (out, err):
            file.seek(0)
            texts.append(file.read().decode("utf-8", "surrogateescape"))
        return Ran(status, *texts)


def command(*words):
    """The words that start ./ducat itself, as a test of an installed Python would."""
    return [sys.executable, "-I", "-S", DUCAT, *words]


def real(*words, cwd=support.ROOT, **more):
    """A run of ./ducat itself. If the tests use a library that is not proved, what the command says about that is left out."""
    ran = subprocess.run(command(*words), cwd=cwd, stdout=subprocess.PIPE, stderr=subprocess.PIPE, stdin=more.pop("stdin", subprocess.DEVNULL),
                         **more)
    return Ran(ran.returncode, ran.stdout.decode("utf-8", "surrogateescape"), without_notice(ran.stderr).decode("utf-8", "surrogateescape"))


def without_notice(err):
    if not os.environ.get("DUCAT_TEST_LIBRARY"):
        return err
    return b"".join(line for line in err.splitlines(True) if not line.startswith(NOT_PROVED))


class CommandTest(unittest.TestCase):
    """A test with its own folder. Names of samples are relative to the repository, which is the current folder of a run."""

    maxDiff = None

    def setUp(self):
        self.room = tempfile.mkdtemp(prefix="ducat-test-")
        self.addCleanup(shutil.rmtree, self.room, True)

    def at(self, name):
        return os.path.join(self.room, name)

    def put(self, name, data):
        path = os.path.join(os.fsencode(self.room), os.fsencode(name))
        os.makedirs(os.path.dirname(path), exist_ok=True)
        with open(path, "wb") as file:
            file.write(data if isinstance(data, bytes) else data.encode())
        return os.fsdecode(path)

    def read(self, name):
        with open(self.at(name), "rb") as file:
            return file.read()

    def made(self, name, text, script=None):
        """A table file made from a text."""
        return self.put(name, table.read_text(text, lambda _: script).file())

    def run_ducat(self, *words, input=b"", cwd=support.ROOT, stdin=None):
        return forked(words, cwd, input, stdin)

    def says(self, status, out, err, *words, **more):
        """A run: its status, what it prints, and what it writes to standard error; None allows anything."""
        ran = self.run_ducat(*words, **more)
        self.assertEqual((ran.status, ran.out if out is not None else None), (status, out), f"{words}: {ran.err}")
        if err is not None:
            self.assertEqual(ran.err, err, words)
        return ran

    def alone(self):
        """Nothing is left beside what was written."""
        left = [name for _, _, names in os.walk(self.room) for name in names if name.endswith(".new")]
        self.assertEqual(left, [])


def gone(pid):
    """Whether a process has ended; one that nobody waits for counts as ended."""
    try:
        with open(f"/proc/{pid}/stat", "rb") as file:
            return file.read().rpartition(b")")[2].split()[0] in (b"Z", b"X")
    except OSError:
        return True


ENDING = (signal.SIGINT, signal.SIGTERM, signal.SIGHUP)
