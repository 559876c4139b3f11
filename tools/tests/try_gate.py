#!/usr/bin/env python3
"""Tries the gate itself: plants faults in made-up lists of steps and requires that each is reported, and that nothing else is.

The trials run gate.py's own code on commands that take no time. Status 1, with a line for each fault, where one is not as it must be, or where
no trial reaches a message of gate.py.
"""
import contextlib
import io
import os
import pathlib
import shutil
import subprocess
import sys
import tempfile
import time

sys.path.append(str(pathlib.Path(__file__).resolve().parent.with_name("gate")))
import gate  # noqa: E402
import reports  # noqa: E402
from gate import BESIDE, FIRST, PROOFS, WRONG, Gate, Step  # noqa: E402

FAULTS = []
TRIED = []
COUNTED = r"(\d+) passed, (\d+) failed"
NEEDS = {"here": ("here", lambda: True), "gone": ("gone", lambda: False)}


def sh(name, script, needs=(), lane=FIRST, counts=None):
    return Step(name, "a trial", ("sh", "-c", script), needs, lane, counts)


def tried(words, steps, demanded=None, last="", status=0, says=(), without=()):
    """Runs a list of steps, and compares the last line, the exit status and what is printed with what is expected."""
    out = io.StringIO()
    run = Gate(steps, NEEDS, out=out)
    run.run_all([step.name for step in steps] if demanded is None else demanded)
    got = run.last_lines()
    text = out.getvalue()
    TRIED.append(words)
    if text.splitlines()[-1] != last or got != status:
        FAULTS.append(f"{words}: {text.splitlines()[-1]!r} and status {got}, expected {last!r} and {status}")
    FAULTS.extend(f"{words}: does not print {line!r}" for line in says if line not in text)
    FAULTS.extend(f"{words}: prints {line!r}" for line in without if line in text)


def statuses():
    good = sh("good", "true")
    tried("status 0", [good], last="1 passed, 0 failed", says=["test: good: passed (0 s)", "test: 0 steps skipped\n"])
    tried("status 1", [good, sh("bad", "exit 1")], last="1 passed, 1 failed", status=1, says=["test: bad: FAILED, status 1"])
    tried("status 1 with needs", [good, sh("bad", "exit 1", ("here",))], last="1 passed, 1 failed", status=1)
    tried("status 2", [good, sh("bad", "exit 2", ("here",))], last="1 passed, 1 failed", status=1)
    tried("a signal", [good, sh("bad", "kill -KILL $$")], last="1 passed, 1 failed", status=1)
    tried("no such command", [good, Step("bad", "a trial", ("/no/such/command",))], last="1 passed, 1 failed", status=1)
    tried("status 3 without needs", [good, sh("bad", "exit 3")], last="1 passed, 1 failed", status=1)
    tried("status 3 with needs", [good, sh("odd", "echo no network; exit 3", ("here",))], last="1 passed, 0 failed",
          says=["test: odd: SKIPPED (no network)", "test: 1 steps skipped: odd"])
    tried("all skipped", [sh("odd", "exit 3", ("here",))], last="0 passed, 0 failed", status=3)
    tried("something missing", [good, sh("odd", "echo it was run", ("here", "gone"))], last="1 passed, 0 failed", without=["it was run"],
          says=["test: gone: missing, so skipped: odd", "test: odd: SKIPPED (missing: gone)", "test: 1 steps skipped: odd"])
    for lane in (PROOFS, WRONG, BESIDE):
        tried(f"status 1 in {lane}", [good, sh("bad", "echo why; exit 1", lane=lane)], last="1 passed, 1 failed", status=1, says=["why"])
        tried(f"something missing in {lane}", [good, sh("odd", "false", ("gone",), lane)], last="1 passed, 0 failed", says=["test: odd: SKIPPED"])


def counts():
    def one(script):
        return [sh("many", script, counts=COUNTED)]

    tried("a count", one("echo 7 passed, 0 failed"), last="7 passed, 0 failed", says=["test: many: 7 passed (0 s)"])
    tried("a count with failures", one("echo 7 passed, 2 failed; exit 1"), last="7 passed, 2 failed", status=1)
    tried("failures with status 0", one("echo 7 passed, 2 failed"), last="7 passed, 2 failed", status=1)
    tried("status 1 without failures", one("echo 7 passed, 0 failed; exit 1"), last="7 passed, 1 failed", status=1)
    tried("a count of nothing", one("echo 0 passed, 0 failed"), last="0 passed, 1 failed", status=1)
    tried("no count", one("echo something else"), last="0 passed, 1 failed", status=1)
    tried("no output", one("true"), last="0 passed, 1 failed", status=1)
    tried("a count that is not last", one("echo 7 passed, 0 failed; echo more"), last="0 passed, 1 failed", status=1)
    tried("a count inside a line", one("echo 'of 7 passed, 0 failed'"), last="0 passed, 1 failed", status=1)
    tried("a count beside", [sh("many", "echo 7 passed, 0 failed", lane=BESIDE, counts=COUNTED)], last="7 passed, 0 failed")


def lists():
    steps = [sh("one", "true"), sh("two", "true")]
    tried("a step is lost", steps[:1], ["one", "two"], "1 passed, 1 failed", 1, ["the step two of .ci/steps is not in tools/gate/gate.py"])
    tried("a step is not demanded", steps, ["one"], "2 passed, 1 failed", 1, ["the step two of tools/gate/gate.py is not in .ci/steps"])
    tried("a step is listed twice", [*steps, steps[0]], ["one", "two"], "3 passed, 1 failed", 1, ["one is in tools/gate/gate.py more than once"])
    tried("a step of no lane", [steps[0], steps[1]._replace(lane="nowhere")], None, "1 passed, 1 failed", 1, ["the step two was not run"])
    names = [step.name for step in gate.STEPS]
    TRIED.append("the gate's own lists")
    if names != gate.required():
        FAULTS.append("tools/gate/gate.py and .ci/steps have different steps, or another order")
    for step in gate.STEPS:  # a name that is misspelt in `needs` or `lane` would be noticed only when it matters
        if step.lane not in gate.LANES or any(need not in gate.NEEDS for need in step.needs):
            FAULTS.append(f"{step.name}: its lane or a need is not known")


def beside():
    """The steps of BESIDE end before those of WRONG begin: one makes a file that the other looks for."""
    with tempfile.TemporaryDirectory() as room:
        tried("one lane after the other", [sh("a", f"[ -e {room}/made ]", lane=WRONG), sh("b", f"sleep 1; touch {room}/made", lane=BESIDE)], last="2 passed, 0 failed")


def as_command():
    """./test as a user runs it: without rt, with an unknown name, with one step."""
    with tempfile.TemporaryDirectory() as room:
        for tool in ("sh", "dirname", "python3"):
            (pathlib.Path(room) / tool).symlink_to(shutil.which(tool))
        for words, path, status, said in (
            ([], room, 2, "test: the Rattle kit (rt) is missing, and without it nothing can be proved\n"),
            (["nonsense"], os.environ["PATH"], 2, "test: there is no step nonsense; ./test --list prints the names\n"),
        ):
            TRIED.append(f"./test {' '.join(words)}")
            done = subprocess.run([gate.ROOT / "test", *words], env={**os.environ, "PATH": path}, capture_output=True, text=True)
            if (done.returncode, done.stdout, done.stderr) != (status, "", said):
                FAULTS.append(f"{TRIED[-1]}: status {done.returncode}, {done.stdout!r}, {done.stderr!r}")
    TRIED.append("an unknown step")
    with contextlib.redirect_stderr(io.StringIO()) as said:
        if gate.main(["nonsense"]) != 2 or "there is no step nonsense" not in said.getvalue():
            FAULTS.append(f"an unknown step: {said.getvalue()!r}")
    TRIED.append("./test lines")
    done = subprocess.run([gate.ROOT / "test", "lines"], capture_output=True, text=True)
    if done.returncode != 0 or not done.stdout.endswith("test: 0 steps skipped\n1 passed, 0 failed\n"):
        FAULTS.append(f"./test lines: status {done.returncode}, {done.stdout!r}, {done.stderr!r}")


SIGNALLED = """
import sys
sys.path.insert(0, sys.argv[1])
import gate
run = gate.Gate([gate.Step("slow", "a trial", ("sh", "-c", "sleep 60 & echo $! >" + sys.argv[2] + "; wait"))])
gate.end_on_signals(run)
run.run_all(["slow"])
"""


def signals():
    """TERM ends the gate and what it started. A step has its default signals, though the gate was started with HUP ignored."""
    with tempfile.TemporaryDirectory() as room:
        note = pathlib.Path(room) / "pid"
        TRIED.append("TERM")
        words = [sys.executable, "-c", SIGNALLED, str(pathlib.Path(gate.__file__).parent), str(note)]
        child = subprocess.Popen(words, stdout=subprocess.DEVNULL)
        waited(lambda: note.exists() and note.read_text().strip())
        child.terminate()
        if child.wait(20) != 128 + 15 or not waited(lambda: is_gone(int(note.read_text()))):
            FAULTS.append(f"TERM: status {child.returncode}, or a process is left")
    TRIED.append("HUP is ignored")
    hup = "import os, signal, sys; sys.exit(signal.getsignal(signal.SIGHUP) != signal.SIG_DFL)"
    inner = SIGNALLED.replace('("sh", "-c", "sleep 60 & echo $! >" + sys.argv[2] + "; wait")', "(sys.executable, '-c', sys.argv[2])")
    words = ["sh", "-c", 'trap "" HUP; exec "$@"', "sh", sys.executable, "-c", inner + "sys.exit(run.failed)\n"]
    done = subprocess.run([*words, str(pathlib.Path(gate.__file__).parent), hup], stdout=subprocess.DEVNULL)
    if done.returncode:
        FAULTS.append("HUP is ignored: a step is deaf to it too")


def waited(test):
    """Waits until a test holds, at most ten seconds."""
    end = time.monotonic() + 10
    while not test() and time.monotonic() < end:
        time.sleep(0.05)
    return test()


def is_gone(pid):
    """Whether a process has ended. One that nobody has waited for is gone too."""
    try:
        return pathlib.Path(f"/proc/{pid}/stat").read_text().rpartition(")")[2].split()[0] == "Z"
    except OSError:
        return True


def main():
    for trials in (statuses, counts, lists, beside, as_command, signals):
        trials()
    path = pathlib.Path(gate.__file__)
    FAULTS.extend(f"{path.name}:{line}: no trial reaches this message" for line in reports.unreached(path))
    FAULTS.extend(f"{path.name}:{line}: this is not reported by reports.fault" for line in reports.unmeasured(path))
    print("\n".join(f"try_gate: {fault}" for fault in FAULTS) or f"try_gate: {len(TRIED)} trials came out as they must")
    return 1 if FAULTS else 0


if __name__ == "__main__":
    sys.exit(main())
