#!/usr/bin/env python3
"""The gate, started by ./test: proves every crate, tries every wrong answer, runs every program, test and comparison.

gate.py             every step. Prints first what is missing on this machine and which steps are skipped for that
gate.py NAME...     only these steps, with what earlier steps have made
gate.py --list      the names of the steps, with what each shows

STEPS lists every step once. .ci/steps lists their names a second time: a step that is in only one of the lists fails the run, so that
none is removed unnoticed. A step passes with status 0. Status 3 is a step that skips itself, allowed only if it has `needs`. Every other
status fails, and so does a step that was never run. The last line is 'N passed, M failed'; N counts crates, wrong answers, tests of the
package and steps. The exit status is 0 only if M is 0. target/test.log keeps what a whole run printed.
"""
import os
import pathlib
import re
import shutil
import signal
import subprocess
import sys
import tempfile
import threading
import time
from typing import NamedTuple, Optional, Tuple

from reports import fault
from repository import ROOT

REQUIRED = ROOT / ".ci" / "steps"
PUBLISHED = ROOT.parent / "shared" / "docs" / "src" / "src" / "lib.rs"

# No step runs on a library that the environment names: it might not be proved.
ENVIRONMENT = {name: value for name, value in os.environ.items() if not name.startswith("DUCAT")}

# Where a step runs. FIRST: what needs no proof and takes seconds. PROOFS: rt ci. BESIDE: the library for this machine and what runs it, one step
# after the other. WRONG: the wrong answers.
FIRST, PROOFS, BESIDE, WRONG = "first", "proofs", "beside", "wrong"
LANES = (FIRST, PROOFS, BESIDE, WRONG)  # the order in which steps run

# What a step may need besides rt and Python: how it is called, and whether it is here.
NEEDS = {tool: (tool, lambda tool=tool: shutil.which(tool) is not None) for tool in ("cc", "rustc", "cargo", "nm", "dpkg-deb", "flake8", "chromium", "chromedriver")}
NEEDS["published"] = ("the crate's published files", PUBLISHED.exists)
ORACLE = ("cc", "rustc", "cargo", "nm", "dpkg-deb", "published")


class Step(NamedTuple):
    """A step: its name, what it shows, its command, what it needs, where it runs, and the pattern of its last line if it counts for itself."""

    name: str
    shows: str
    command: Tuple[str, ...]
    needs: Tuple[str, ...] = ()
    lane: str = FIRST
    counts: Optional[str] = None


def python(*words):
    return (sys.executable, *words)


def data(kind, text, made):
    """The command that compares data of a program with the text that it is made from."""
    return python("tools/tables.py", kind, text, made, "--check")


STEPS = [
    Step("gate", "the gate reports a step that fails, is missing, or skips itself without a reason", python("tools/tests/try_gate.py")),
    Step("try-checks", "every check script reports a planted fault for each message that it can give", python("tools/tests/try_checks.py")),
    Step("promises", "every public function has a contract, a theorem and wrong answers", python("tools/gate/promises.py")),
    Step("numbers", "the numbers, rules and kinds in documents, code, definitions and interfaces agree", python("tools/gate/numbers.py")),
    Step("prototypes", "header, package and wrapper have the functions, constants and fields of the code", python("tools/gate/prototypes.py")),
    Step("format", "docs/FORMAT.md agrees with code and definitions, and its example is the sample", python("tools/gate/format.py")),
    Step("try-native", "native-lib reports what is proved, and refuses to compile what is not", ("tools/tests/try_native.sh",)),
    Step("samples", "the sample tables are those of their texts", ("sh", "-c", "exec python3 tools/tables.py files samples/*.txt --check")),
    Step("tablecheck-data", "the input of tablecheck is a sample", data("file", "samples/example.txt", "crates/tablecheck/data/example.table")),
    Step("tablerescue-data", "the input of tablerescue is a sample", data("file", "samples/lost.txt", "crates/tablerescue/data/lost.table")),
    Step(
        "tablefigures-data",
        "the samples of joined files are other samples joined, and the input of tablefigures is one of them",
        ("sh", "-c", "cd samples && cat example.table parameters.table take.table | cmp - three.tables && "
         "cat example.table damaged.table take.table | cmp - three-damaged.tables && cmp three.tables ../crates/tablefigures/data/three.tables && "
         "cmp three.figures ../crates/tablefigures/stdout"),
    ),
    Step("filetest-data", "the file that filetest damages is a sample", data("file", "samples/parameters.txt", "crates/filetest/data/parameters.table")),
    Step("filetest-files", "the files that filetest reads are those of its list", data("filecases", "crates/filetest/files.txt", "crates/filetest/data/files.bin")),
    Step("kinds", "the cases of each kind are those that its rule in sentences gives", python("tools/kinds.py", "--check")),
    Step(
        "cases",
        "the data of the program cases are those of its texts",
        python("tools/tables.py", "cases", "crates/cases/cases.txt", "crates/cases/kinds.txt", "crates/cases/data/cases.bin", "--check"),
    ),
    Step("planted", "every fault for the comparison can be planted in the code", ("oracle/faults-port", "--check")),
    Step("planted-steps", "every fault for a step of the gate can be planted", python("tools/tests/faults.py", "--check")),
    Step("cited", "every path, link and name that the documents cite exists", python("tools/gate/cited.py")),
    Step("counted", "every count in the documents is written by the tool that counts", python("tools/gate/counted.py")),
    Step("statements", "docs/STATEMENTS.md has the statements of the crate statements, and every theorem that is named is restated", python("tools/gate/statements_page.py", "--check")),
    Step("imports", "no file has an unused import", python("tools/gate/imports.py")),
    Step("lines", "line length, chains of numbers and of `.before`, and the length of laws are within their limits", python("tools/gate/lines.py")),
    Step("flake8", "flake8 finds no fault in the Python files", ("flake8", "--config", "tools/gate/flake8.ini", ".", "ducat", "bench/command", "bench/corpus", "oracle/faults-port"), ("flake8",)),
    # rt ci is the verdict
    Step(
        "proofs",
        "rt ci: every crate is proved, every edit of must-fail is refused, every program is run, and rt fmt would change no file",
        python("tools/gate/proofs.py"),
        lane=PROOFS,
        counts=r"(\d+) passed, (\d+) failed",
    ),
    Step(
        "wrong",
        "the prover refuses every wrong answer (an edit of the code)",
        python("tools/gate/wrong_answers.py"),
        lane=WRONG,
        counts=r"(\d+) wrong answers refused, (\d+) not",
    ),
    Step(
        "weaker",
        "a weaker theorem does not prove its statement (two modules; tools/gate/weaker.py tries all)",
        python("tools/gate/weaker.py", "Demand3", "Rescue", "--records", "1"),
        lane=WRONG,
    ),
    Step("try-wrong", "an edit that shows nothing is reported as bad", python("tools/gate/wrong_answers.py", "--try", "tools/tests/bad-edits"), lane=WRONG),
    Step("native", "the library is proved and compiled for this machine", ("./ducat", "build"), lane=BESIDE),
    Step(
        "python",
        "the tests of the package and the command pass, without the current folder and without installed packages",
        python("-I", "-S", "python/tests"),
        lane=BESIDE,
        counts=r"(\d+) tests passed, (\d+) failed",
    ),
    Step("speed", "ducat checks scripts in at most 1.2 times the time of flake8, and its time is linear", python("-I", "-S", "python/tests/speed_scripts.py"), ("flake8",), BESIDE),
    Step("programs", "tablecheck, tablerescue and tablefigures read, print and replace files as specified", python("tools/tests/try_programs.py"), lane=BESIDE),
    Step("against", "ducat prints and writes the same bytes as the three programs", python("-I", "-S", "python/tests/against_programs.py"), lane=BESIDE),
    Step("books", "the book functions agree with a model that uses a map of entries", python("oracle/books"), lane=BESIDE),
    Step("namesakes", "the namesakes job agrees with calls in Python", python("oracle/namesakes"), lane=BESIDE),
    Step("books-time", "a lookup in books of 100 blocks and an addition take at most 1 ms each", python("bench/books"), lane=BESIDE),
    Step("page", "a browser shows the page of ducat report, light and dark, and loads 500 scripts in under a second", python("-I", "-S", "python/tests/browser.py"),
         ("chromium", "chromedriver"), BESIDE),
    Step(
        "figures-time",
        "figures take at most 1.5 times the time of starlark_check_file on the same files, and ducat at most 10 s for 100,000 files on disk",
        python("bench/figures"),
        lane=BESIDE,
    ),
    Step("shown", "the commands print the output that the documents show", python("tools/gate/shown.py"), lane=BESIDE),
    Step("faults", "the comparison finds a planted fault of each job, and is not empty", ("oracle/faults", "--gate"), ORACLE, BESIDE),
    Step("compare", "the port gives the same answers as the crate (quick run)", ("oracle/compare",), ORACLE, BESIDE),
    Step("examples", "the examples in C and Rust print the expected output; the stack is as measured", ("bindings/run",), ("cc", "cargo", "rustc"), BESIDE),
    Step("install", "a program is compiled against the installed library and run", ("tools/tests/try_install.sh",), ("cc",), BESIDE),
]


def required():
    """The names in .ci/steps."""
    lines = (line.partition("#")[0].strip() for line in REQUIRED.read_text().splitlines())
    return [line for line in lines if line]


class Gate:
    """One run: its steps, what was printed, and what each step came to."""

    def __init__(self, steps, needs=None, log=None, out=None):
        self.steps, self.needs, self.log = steps, NEEDS if needs is None else needs, log
        self.out = out or sys.stdout
        self.passed, self.failed, self.ended, self.skipped = 0, 0, set(), {}
        self.running, self.lock, self.starting, self.signalled = set(), threading.RLock(), False, 0

    def say(self, text):
        for place in (self.out, self.log):
            if place:
                place.write(text + "\n")
                place.flush()

    # what is missing, and what is therefore skipped

    def missing(self, step):
        return [self.needs[need][0] for need in step.needs if not self.needs[need][1]()]

    def say_missing(self):
        absent = {}
        for step in self.steps:
            for what in self.missing(step):
                absent.setdefault(what, []).append(step.name)
        for what, names in absent.items():
            self.say(f"test: {what}: missing, so skipped: {', '.join(names)}")
        if not absent:
            self.say("test: nothing is missing, no step is skipped for it")

    def compare_names(self, demanded):
        """A fault for each name that is in only one of the two lists, and for each that is there twice."""
        listed = [step.name for step in self.steps]
        for name in sorted(set(demanded) - set(listed)):
            self.fail(fault(f"the step {name} of .ci/steps is not in tools/gate/gate.py"))
        for name in sorted(set(listed) - set(demanded)):
            self.fail(fault(f"the step {name} of tools/gate/gate.py is not in .ci/steps"))
        for name in sorted({name for name in listed if listed.count(name) > 1}):
            self.fail(fault(f"the step {name} is in tools/gate/gate.py more than once"))

    def fail(self, text):
        self.failed += 1
        self.say(f"test: {text}: FAILED")

    # running a command

    def start(self, command, output):
        """Starts a command in its own session, so that it can be ended with all that it started."""
        with self.lock:
            self.starting = True
            try:
                child = subprocess.Popen(
                    command, cwd=ROOT, env=ENVIRONMENT, stdin=subprocess.DEVNULL, stdout=output, stderr=subprocess.STDOUT,
                    start_new_session=True,
                )
                self.running.add(child)
            finally:
                self.starting = False
        if self.signalled:
            self.stop()
        return child

    def finish(self, child):
        status = child.wait()
        with self.lock:
            self.running.discard(child)
        return status

    def on_signal(self, number, _):
        """Ends the run. A command that is just being started is not in `running` yet: `start` then ends the run once it is."""
        self.signalled = number
        with self.lock:  # waits for a start in the other thread; a start in this one continues after the handler
            if not self.starting:
                self.stop()

    def stop(self):
        """Ends what runs, and then this process."""
        with self.lock:
            for child in self.running:
                try:
                    os.killpg(child.pid, signal.SIGTERM)
                except ProcessLookupError:
                    pass
            os._exit(128 + self.signalled)

    def shown(self, step):
        """Runs a step and prints what it prints as it comes. Returns its status and its last line."""
        try:
            child = self.start(step.command, subprocess.PIPE)
        except OSError as error:
            self.say(str(error))
            return 127, ""
        last = ""
        for line in child.stdout:
            last = line.decode(errors="replace").rstrip("\n")
            self.say(last)
        return self.finish(child), last

    def kept(self, step, file):
        """Runs a step whose output goes into a file. Returns its status."""
        try:
            child = self.start(step.command, file)
        except OSError as error:
            file.write(f"{error}\n".encode())
            return 127
        return self.finish(child)

    # what a step came to

    def skip(self, step, why):
        self.ended.add(step.name)
        self.skipped[step.name] = why
        self.say(f"test: {step.name}: SKIPPED ({why})")

    def end(self, step, status, last, seconds):
        self.ended.add(step.name)
        more, less = (1, 0) if status == 0 else (0, 1)
        if status == 3 and step.needs:
            self.skip(step, last or "it says nothing")
            return
        if step.counts:
            found = re.fullmatch(step.counts, last)
            more, less = (int(found.group(1)), int(found.group(2))) if found else (0, 0)
            # without a count, with a count of nothing, or with a status that its count contradicts: at least one failure
            less = less or int(status != 0 or more == 0)
        self.passed += more
        self.failed += less
        came = f"{more} passed" if step.counts and not less else "passed" if not less else fault(f"FAILED, status {status}")
        self.say(f"test: {step.name}: {came} ({seconds} s)")

    def run(self, step):
        """Runs a step now, unless something that it needs is missing."""
        absent = self.missing(step)
        if absent:
            self.skip(step, f"missing: {', '.join(absent)}")
            return
        self.say(f"== {step.name}: {step.shows}")
        began = time.monotonic()
        status, last = self.shown(step)
        self.end(step, status, last, round(time.monotonic() - began))

    def lane(self, lane):
        return [step for step in self.steps if step.lane == lane]

    def run_beside(self, room, results):
        """Runs the steps of BESIDE one after the other; each has its output in a file, and its status and seconds in `results`."""
        for step in self.lane(BESIDE):
            if not self.missing(step):
                began = time.monotonic()
                with open(room / step.name, "wb") as file:
                    status = self.kept(step, file)
                results[step.name] = (status, round(time.monotonic() - began))

    def report_beside(self, room, results):
        for step in self.lane(BESIDE):
            absent = self.missing(step)
            if absent:
                self.skip(step, f"missing: {', '.join(absent)}")
            elif step.name in results:
                text = (room / step.name).read_text(errors="replace").rstrip("\n")
                self.say(f"== {step.name}: {step.shows}\n{text}")
                self.end(step, results[step.name][0], text.rpartition("\n")[2], results[step.name][1])

    def run_all(self, demanded, prepare=()):
        """Every step. `prepare` is a command that is run beside the proofs; its status is ignored."""
        self.say_missing()
        self.compare_names(demanded)
        for step in self.lane(FIRST):
            self.run(step)
        ahead = self.start(prepare, subprocess.DEVNULL) if prepare else None
        for step in self.lane(PROOFS):
            self.run(step)
        if ahead:
            self.finish(ahead)
        with tempfile.TemporaryDirectory() as folder:
            # some of these steps measure time, so the wrong answers, which keep every processor busy, come after them
            room, results = pathlib.Path(folder), {}
            self.run_beside(room, results)
            self.report_beside(room, results)
            for step in self.lane(WRONG):
                self.run(step)
        for step in self.steps:
            if step.name not in self.ended:
                self.fail(fault(f"the step {step.name} was not run"))

    def run_some(self, names):
        for step in self.steps:
            if step.name in names:
                self.run(step)

    def last_lines(self):
        """The number of skipped steps and their names, then the counts. Returns the exit status: 0 passed, 1 something failed, 3 all was skipped."""
        self.say(f"test: {len(self.skipped)} steps skipped{': ' if self.skipped else ''}{', '.join(self.skipped)}")
        self.say(f"{self.passed} passed, {self.failed} failed")
        return 1 if self.failed else 0 if self.passed else 3


def end_on_signals(gate):
    """A signal ends the gate and what it started. With our own handler each command also gets its default signals back, HUP under nohup too."""
    ignored = signal.getsignal(signal.SIGHUP) == signal.SIG_IGN
    for number in (signal.SIGHUP, signal.SIGINT, signal.SIGQUIT, signal.SIGTERM):
        harmless = number == signal.SIGHUP and ignored
        signal.signal(number, (lambda *_: None) if harmless else gate.on_signal)


def main(words):
    names = [step.name for step in STEPS]
    if words == ["--list"]:
        print("\n".join(f"{step.name:<18}{step.shows}" for step in STEPS))
        return 0
    unknown = [word for word in words if word not in names]
    if unknown:
        print(fault(f"test: there is no step {unknown[0]}; ./test --list prints the names"), file=sys.stderr)
        return 2
    if words:
        gate = Gate(STEPS)
        end_on_signals(gate)
        gate.run_some(words)
        return gate.last_lines()
    with tempfile.TemporaryFile("w+") as log:
        gate = Gate(STEPS, log=log)
        end_on_signals(gate)
        gate.run_all(required(), ("nice", "oracle/compare", "--prepare"))
        status = gate.last_lines()
        log.seek(0)
        (ROOT / "target").mkdir(exist_ok=True)
        (ROOT / "target" / "test.log").write_text(log.read())
    return status


if __name__ == "__main__":
    sys.exit(main(sys.argv[1:]))
