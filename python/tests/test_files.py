"""The module `files`: a file is flushed before it takes its name, then its folder is; after a failure nothing is left beside it."""
import errno
import os
import stat
import unittest
from unittest import mock

from command import CommandTest
from ducatmuffin import files

CALLS = ("open", "write", "fsync", "rename", "unlink", "close", "fchmod")


class Recorded:
    """Writes a file with every call of the operating system noted; one of them may fail."""

    def __init__(self, path, data, fails=None, error=errno.ENOSPC):
        self.calls, self.names = [], {}
        with mock.patch.multiple(files.os, **{name: self.noted(name, getattr(os, name), fails, error) for name in CALLS}):
            try:
                files.write(path, data)
                self.error = None
            except OSError as failed:
                self.error = failed

    def noted(self, name, real, fails, error):
        def call(*words, **more):
            what = f"{name} {self.told(words[0])}"
            self.calls.append(what)
            if what == fails:
                raise OSError(error, os.strerror(error))
            result = real(*words, **more)
            if name == "open":
                self.names[result] = "folder" if os.path.isdir(words[0]) else "new" if words[0].endswith(".new") else "out"
            return result
        return call

    def told(self, word):
        if isinstance(word, int):
            return self.names.get(word, "?")
        return "folder" if os.path.isdir(word) else "new" if word.endswith(".new") else "out"


class Write(CommandTest):
    def test_the_order(self):
        ran = Recorded(self.put("out", "old"), b"data")
        self.assertIsNone(ran.error)
        self.assertEqual(ran.calls, ["open new", "fchmod new", "write new", "fsync new", "close new", "rename new", "open folder", "fsync folder",
                                     "close folder"])
        self.assertEqual(self.read("out"), b"data")
        self.alone()

    def test_every_failure_before_the_rename(self):
        for fails in ("open new", "fchmod new", "write new", "fsync new", "close new", "rename new"):
            path = self.put("out", "old")
            ran = Recorded(path, b"data", fails)
            self.assertEqual((ran.error.errno, ran.error.filename), (errno.ENOSPC, path), fails)
            self.assertEqual(self.read("out"), b"old")
            self.assertIn("unlink new", ran.calls)
            self.alone()

    def test_a_folder_that_cannot_be_flushed(self):
        self.assertEqual(Recorded(self.put("out", "old"), b"data", "fsync folder", errno.EIO).error.errno, errno.EIO)
        self.assertIsNone(Recorded(self.put("out", "old"), b"data", "fsync folder", errno.EINVAL).error)

    def test_a_new_file_has_the_usual_mode(self):
        before = os.umask(0o027)
        try:
            files.write(self.at("new"), b"x")
        finally:
            os.umask(before)
        self.assertEqual(stat.S_IMODE(os.stat(self.at("new")).st_mode), 0o640)

    def test_an_old_file_keeps_its_mode(self):
        path = self.put("out", "old")
        os.chmod(path, 0o604)
        files.write(path, b"data")
        self.assertEqual(stat.S_IMODE(os.stat(path).st_mode), 0o604)

    def test_a_link_stays_a_link(self):
        path = self.put("real", "old")
        os.symlink(path, self.at("link"))
        files.write(self.at("link"), b"data")
        self.assertTrue(os.path.islink(self.at("link")))
        self.assertEqual(self.read("real"), b"data")
        os.symlink(self.at("later"), self.at("dangling"))
        files.write(self.at("dangling"), b"data")
        self.assertEqual(self.read("later"), b"data")

    def test_what_is_no_regular_file(self):
        files.write("/dev/null", b"data")
        self.assertTrue(stat.S_ISCHR(os.stat("/dev/null").st_mode))
        with self.assertRaises(IsADirectoryError) as failed:
            files.write(self.room, b"data")
        self.assertEqual(failed.exception.filename, self.room)

    def test_a_long_write_in_parts(self):
        real = os.write
        with mock.patch.object(files.os, "write", lambda descriptor, data: real(descriptor, data[:3])):
            files.write(self.at("out"), b"0123456789")
        self.assertEqual(self.read("out"), b"0123456789")

    def test_a_signal_leaves_nothing(self):
        class Stopped(BaseException):
            pass

        def stop(*_):
            raise Stopped

        with mock.patch.object(files.os, "fsync", stop), self.assertRaises(Stopped):
            files.write(self.put("out", "old"), b"data")
        self.assertEqual((self.read("out"), files.PENDING), (b"old", set()))
        self.alone()

    def test_two_at_a_time(self):
        """No other process uses the name beside a file."""
        names = set()
        real = os.open

        def noted(path, *words, **more):
            names.add(path)
            return real(path, *words, **more)

        with mock.patch.object(files.os, "open", noted):
            for _ in range(20):
                files.write(self.at("out"), b"x")
        self.assertEqual(len([name for name in names if name.endswith(".new")]), 20)


if __name__ == "__main__":
    unittest.main()
