"""ducat as a process: words, help, version, closed and full output, broken pipes, signals, a terminal, and Python without site."""
import os
import pty
import re
import select
import signal
import subprocess
import sys
import time
import unittest

import support
from command import ENDING, CommandTest, command, gone, real, without_notice
from ducatmuffin import __version__, cli

PIPE = {"stdout": subprocess.PIPE, "stderr": subprocess.PIPE}


class Words(CommandTest):
    def test_help(self):
        ran = self.says(0, None, "", "--help")
        for name in cli.COMMANDS:
            self.assertIn(f"ducat {name}", ran.out)
            for word in ("--help", "-h"):
                told = self.says(0, None, "", name, word)
                self.assertTrue(told.out.startswith(f"usage: ducat {name}"), told.out[:80])
        self.assertEqual(self.run_ducat("-h").out, ran.out)

    def test_help_says_what_is_covered(self):
        text = " ".join(self.run_ducat("check", "--help").out.split())
        for covered in ("10 to 19", "20 to 24", "30 to 33", "40 to 45", "50 to 61", "Not covered", "No option and no comment switches a rule off",
                        "59,905", "16,777,216"):
            self.assertIn(covered, text)

    def test_wrong_words(self):
        for words, said in (((), "no command is named"), (("chek",), "there is no command chek"), (("--nothing",), "there is no option --nothing"),
                            (("check",), "no PATH is given"), (("check", "--nothing", "x"), "unrecognized arguments: --nothing"),
                            (("check", "--modul", "x"), "unrecognized arguments: --modul"), (("check", "--format", "xml", "x"), "invalid choice"),
                            (("write", "a", "-o", "x"), "NAMES"), (("table", "a"), "one of -o and --compare is needed"), (("build", "x"), "unrecognized arguments: x"),
                            (("check", "--x\nerrors"), "unrecognized arguments: --x?errors")):
            ran = self.run_ducat(*words)
            self.assertEqual((ran.status, ran.out, len(ran.err.splitlines())), (2, "", 1), (words, ran.err))
            self.assertTrue(ran.err.startswith("ducat: ") and said in ran.err, (said, ran.err))

    def test_nothing_is_built_before_the_words_are_understood(self):
        from unittest import mock
        from ducatmuffin.output import Failed, Out
        out = Out()
        with mock.patch.object(cli, "open_library", side_effect=AssertionError("a build")):
            for words in (["check", "--dialect", "basic", "x.star"], ["check", "--dialect", "all", "x.table"], ["check", "--jobs", "0", "x"],
                          ["check", "--script", "/nowhere", "x.table"], ["check", "--files-from", "/nowhere"], ["check", "--config", "/nowhere", "x"],
                          ["bind", "--call", "1", "x"], ["bind", "--script", "/nowhere", "x"], ["rescue", "x"], ["rescue", "x", "-o", "-"],
                          ["write", "-", "-", "-o", "x"], ["write", "a", "b", "--dialect", "basic", "-o", "x"], ["table", "--dialect", "all", "x.txt", "-o", "y"],
                          ["table", "--number", "1000", "x.star", "-o", "y"], ["check", "--join", "x.table"], ["bind", "--join", "x.star", "x.table"],
                          ["check", "--script", "1=x", "--script", "y", "x.table"], ["check", "--quiet", "--script", "0=x", "x.table"],
                          ["dump"], ["nothing"]):
                with self.assertRaises(Failed, msg=words):
                    cli.dispatch(words, out)

    def test_options_anywhere(self):
        clean = "nodes 34, dialect standard\nerrors 0: the whole checker accepts: the module pass, and every job on every node that it fits\n"
        for words in (("--explain", "samples/clean.table"), ("samples/clean.table", "--explain"), ("--explain", "--", "samples/clean.table")):
            self.says(0, clean, "", "check", *words)
        ran = self.run_ducat("check", "samples/clean.table", "--explain", "samples/take.table", "--bad-only")
        self.assertEqual(ran.out, "files 2, with errors 0, refused 0, not read 0, errors 0\n")

    def test_a_fault_is_not_taken_for_errors(self):
        """An exception that nobody expects gives status 2, in one line."""
        from unittest import mock
        with mock.patch("ducatmuffin.check.run", side_effect=ZeroDivisionError("x")):
            ran = self.run_ducat("check", "samples/clean.table")
        self.assertEqual((ran.status, ran.out, len(ran.err.splitlines())), (2, "", 1))
        self.assertIn("a fault of ducat itself", ran.err)


class Real(CommandTest):
    """./ducat itself, under python3 -I -S."""

    def test_the_first_command(self):
        self.assertEqual(real("check", "samples/example.table"), (1, "nodes 6\n13 1 14 15\n55 1 20 25\nerrors 2\n", ""))

    def test_as_a_module(self):
        ran = subprocess.run([sys.executable, "-S", "-m", "ducatmuffin", "check", "samples/clean.table"], cwd=support.ROOT,
                             env={**os.environ, "PYTHONPATH": os.path.join(support.ROOT, "python")}, **PIPE)
        self.assertEqual((ran.returncode, ran.stdout, without_notice(ran.stderr)), (0, b"nodes 34\nerrors 0\n", b""))

    def test_from_another_folder_and_by_a_link(self):
        os.symlink(os.path.join(support.ROOT, "ducat"), self.at("ducat"))
        ran = subprocess.run([sys.executable, "-I", "-S", self.at("ducat"), "check", "-"], cwd=self.room, input=support.sample("clean.table"), **PIPE)
        self.assertEqual((ran.returncode, ran.stdout), (0, b"nodes 34\nerrors 0\n"))

    def test_version(self):
        before = os.times()
        ran = real("--version")
        after = os.times()
        lines = ran.out.splitlines()
        self.assertEqual((ran.status, ran.err, lines[0], len(lines)), (0, "", f"ducat {__version__}", 2))
        self.assertRegex(lines[1], r"^library \d+\.\d+\.\d+, (NOT )?proved, SHA-256 [0-9a-f]{64}, /.*\.so")
        self.assertLess(sum(after[2:4]) - sum(before[2:4]), 0.2)

    def test_what_is_not_used_is_not_imported(self):
        code = ("import sys; sys.path.insert(0, sys.argv[1]); from ducatmuffin import cli; status = cli.main(['--version']); "
                "print(sorted({'argparse', 'json', 'subprocess', 'configparser', 'ducatmuffin.check', 'ducatmuffin.export', 'ducatmuffin.parser'} & set(sys.modules)))")
        ran = subprocess.run([sys.executable, "-I", "-S", "-c", code, os.path.join(support.ROOT, "python")], **PIPE)
        self.assertEqual(ran.stdout.splitlines()[-1], b"[]")

    def test_all_commands(self):
        out = self.at("out")
        self.assertEqual(real("rescue", "samples/lost.table", "-o", out)[:2], (1, support.sample("lost.printed").decode()))
        self.assertEqual(real("table", "samples/example.txt", "-o", out)[:2], (0, "written 1536\n"))
        self.assertEqual(real("dump", out).status, 0)
        self.assertEqual(real("bind", "--script", "samples/take.star", "samples/take.table")[:2], (1, support.sample("take.bound").decode()))


class Output(CommandTest):
    def ended(self, words, **more):
        ran = subprocess.run(command(*words), cwd=support.ROOT, stderr=subprocess.PIPE, stdin=subprocess.DEVNULL, **more)
        return ran.returncode, without_notice(ran.stderr)

    def shell(self, line):
        """A line of sh, in which $@ is ducat."""
        ran = subprocess.run(["sh", "-c", line, "sh", *command()], cwd=support.ROOT, stdin=subprocess.DEVNULL, **PIPE)
        return ran.returncode, ran.stdout, without_notice(ran.stderr)

    def test_closed_output(self):
        self.assertEqual(self.shell('"$@" check samples/clean.table >&-'), (2, b"", b"ducat: standard output is closed\n"))

    def test_closed_input(self):
        self.assertEqual(self.shell('"$@" check - <&-'), (2, b"", b"ducat: -: Bad file descriptor\n"))

    def test_closed_error(self):
        status, out, _ = self.shell('"$@" check samples/missing.table samples/clean.table 2>&-')
        self.assertEqual((status, out.count(b"\n")), (2, 5))

    @unittest.skipUnless(os.path.exists("/dev/full"), "there is no /dev/full")
    def test_a_full_device(self):
        for words in (("check", "samples/clean.table"), ("check", "--json", "samples/clean.table"), ("--help",), ("check", "--help"), ("--version",),
                      ("bind", "samples/take.table"), ("dump", "samples/take.table")):
            with open("/dev/full", "wb") as full:
                self.assertEqual(self.ended(words, stdout=full), (2, b"ducat: standard output cannot be written: No space left on device\n"), words)

    def test_a_reader_that_is_gone(self):
        for words in (("check", *["samples/example.table"] * 20000), ("bind", "samples/take.table"), ("--help",)):
            reading, writing = os.pipe()
            os.close(reading)
            try:
                self.assertEqual(self.ended(words, stdout=writing), (2, b""))
            finally:
                os.close(writing)
        status, out, err = self.shell('"$@" check samples samples samples 2>/dev/null | head -n 1')
        self.assertEqual((status, err), (0, b""))

    def test_a_terminal_shows_progress(self):
        parent, child = pty.openpty()
        names = ["samples/clean.table"] * 3000 + ["samples/example.table"] * 12
        ran = subprocess.Popen(command("check", "--bad-only", *names), cwd=support.ROOT, stdout=subprocess.DEVNULL, stderr=child,
                               stdin=subprocess.DEVNULL)
        os.close(child)
        shown = b""
        while True:
            try:
                part = os.read(parent, 65536)
            except OSError:
                break
            if not part:
                break
            shown += part
        os.close(parent)
        self.assertEqual(ran.wait(), 1)
        self.assertIn(b"\r3,012 of 3,012 files, 12 with errors", shown)
        self.assertTrue(shown.endswith(b"\r\x1b[K"))

    def test_no_terminal_no_progress(self):
        self.assertEqual(real("check", "--bad-only", *["samples/clean.table"] * 3000).err, "")


class Signals(CommandTest):
    """INT, TERM and HUP end the command and all that it has started; after KILL nothing holds a pipe open."""

    def started(self, *words, **more):
        """A run that waits for a FIFO without a writer."""
        if os.path.exists(self.at("fifo")):
            os.remove(self.at("fifo"))
        os.mkfifo(self.at("fifo"))
        running = subprocess.Popen(command("check", *words, self.at("fifo"), self.at("fifo"), self.at("fifo")), cwd=support.ROOT,
                                   stdin=subprocess.DEVNULL, **PIPE, **more)
        self.addCleanup(running.stdout.close)
        self.addCleanup(running.stderr.close)
        return running

    def waits(self, running, many=0):
        """Waits until the run has as many processes as are expected, and one of them reads from the FIFO. Returns these processes."""
        until = time.monotonic() + 60
        while time.monotonic() < until and running.poll() is None:
            below = self.below(running.pid)
            if len(below) >= many:
                try:
                    # a FIFO can be opened for writing at once only if it has a reader
                    self.addCleanup(os.close, os.open(self.at("fifo"), os.O_WRONLY | os.O_NONBLOCK))
                    time.sleep(0.2)  # it has opened the FIFO, and continues to read
                    return below
                except OSError:
                    pass
            time.sleep(0.02)
        running.kill()
        self.fail("the command does not come to wait")

    def below(self, pid):
        try:
            with open(f"/proc/{pid}/task/{pid}/children") as file:
                return [int(word) for word in file.read().split()]
        except FileNotFoundError:
            return []

    def test_signals(self):
        for number in ENDING:
            for jobs, many in (("1", 0), ("2", 2)):
                running = self.started("--jobs", jobs)
                below = self.waits(running, many)
                running.send_signal(number)
                self.assertEqual(running.wait(30), -number)
                self.assertEqual((running.stdout.read(), without_notice(running.stderr.read())), (b"", b""))
                self.assertTrue(all(gone(pid) for pid in below))

    def test_a_signal_that_is_ignored_stays_so(self):
        running = self.started(preexec_fn=lambda: signal.signal(signal.SIGHUP, signal.SIG_IGN))
        self.waits(running)
        running.send_signal(signal.SIGHUP)
        time.sleep(0.3)
        self.assertIsNone(running.poll())
        running.terminate()
        self.assertEqual(running.wait(30), -signal.SIGTERM)

    def test_kill(self):
        running = self.started("--jobs", "3")
        below = self.waits(running, 3)
        running.kill()
        running.wait()
        until = time.monotonic() + 30
        ends = [running.stdout, running.stderr]
        while ends and time.monotonic() < until:
            for ready in select.select(ends, [], [], 1)[0]:
                if not os.read(ready.fileno(), 4096):
                    ends.remove(ready)
        self.assertEqual(ends, [], "a pipe is still held open")
        while time.monotonic() < until and not all(gone(pid) for pid in below):
            time.sleep(0.02)
        self.assertTrue(all(gone(pid) for pid in below))

    def test_a_job_that_is_killed(self):
        running = self.started("--jobs", "2")
        below = self.waits(running, 2)
        os.kill(below[0], signal.SIGKILL)
        self.assertEqual(running.wait(30), 2)
        self.assertIn(b"ducat: a process of --jobs ended without an answer\n", running.stderr.read())


class Text(unittest.TestCase):
    def test_no_word_of_how_it_was_made(self):
        """Messages and help are only about the project."""
        for name in os.listdir(os.path.dirname(cli.__file__)):
            if name.endswith(".py"):
                with open(os.path.join(os.path.dirname(cli.__file__), name), encoding="utf-8") as file:
                    self.assertIsNone(re.search(r"/(?:work|home|root)/", file.read()), name)


if __name__ == "__main__":
    unittest.main()
