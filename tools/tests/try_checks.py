#!/usr/bin/env python3
"""Tries every check script of the gate: plants faults in a copy of what it reads, one at a time, and requires that each is reported.

try_checks.py              every script
try_checks.py SCRIPT...    these scripts by themselves: promises.py

planted.py and planted_prover.py list the planted faults: what is planted, and a pattern of the message that must come, or None
where the script must accept what is planted. A planted fault counts if the script ends with status 1 or 2 and prints the message. One that has
no place in the present files fails the trial as NOT PLANTED. The scripts are run in this process, and so is the prover's part of two of them,
which is made up.

The trial measures itself. Every message is made by reports.fault, and each call of it that the syntax of a script has must be reached by a planted
fault; nor may a script report in another way. Every Python script of tools/ and oracle/ that a step of the gate runs must be here, except for those
of TRIALS. The last line is 'N planted faults reported, M messages, K faults'; status 0 where K is 0.
"""
import pathlib
import re
import sys
import tempfile

sys.path.append(str(pathlib.Path(__file__).resolve().parent.with_name("gate")))
import gate  # noqa: E402
import planted  # noqa: E402
import planted_prover  # noqa: E402
import reports  # noqa: E402
from repository import ROOT  # noqa: E402
from trial import Room, Unplanted, script  # noqa: E402

# scripts of steps that are trials themselves, of the gate and of the programs, and comparisons with a model
TRIALS = {"try_checks.py", "try_gate.py", "try_programs.py", "books", "namesakes"}


# what a script reports about work that is not a check: a planted fault that cannot be compiled, which a run of faults-port shows as not run
EXCEPTED = {"faults-port": "raise build.BuildError("}


def short(text):
    return text if len(text) < 1500 else text[:500] + "\n…\n" + text[-900:]


def tried(check, room):
    """Tries one script: the faults of the trial, the number of planted faults that were reported, and the calls of `fault` that were reached."""
    faults, good = [], 0
    if check.prepare:
        check.prepare(room)
        room.changed = {}
    status, text, all_reached = room.run(check.script, check.argv)
    if status != 0:
        faults.append(f"{check.script}: status {status} before anything is planted:\n{short(text)}")
    for words, plant, message, argv in check.planted:
        try:
            plant(room)
            status, text, reached = room.run(check.script, check.argv if argv is None else argv)
            all_reached |= reached
            if message is None and status != 0:
                faults.append(f"{check.script}: {words}: NOT ACCEPTED, status {status}:\n{short(text)}")
            elif message is not None and (status not in (1, 2) or not re.search(message, text, re.M)):
                faults.append(f"{check.script}: {words}: NOT REPORTED, status {status}:\n{short(text)}")
            else:
                good += 1
        except Unplanted as none:
            faults.append(f"{check.script}: {words}: NOT PLANTED: {none}")
        room.restore()
    return faults, good, all_reached


def unmeasured(scripts, reached, root=ROOT):
    """The faults of the measure: messages that no planted fault reaches, and those that are not made by `fault`. And the number of messages."""
    faults, count = [], 0
    for name in scripts:
        path = script(root, name)
        lines = path.read_text().splitlines()
        count += len(reports.calls(path))
        for line in reports.unreached(path, {(str(path), line) for file, line in reached if file == name}):
            faults.append(f"{name}:{line}: no planted fault reaches this message: {lines[line - 1].strip()}")
        for line in reports.unmeasured(path):
            if name in EXCEPTED and EXCEPTED[name] in lines[line - 1]:
                continue
            faults.append(f"{name}:{line}: this is not reported by reports.fault: {lines[line - 1].strip()}")
    return faults, count


def without_trial(scripts):
    """The scripts of the gate's steps that have no trial."""
    files = {ROOT / word for step in gate.STEPS for word in step.command if re.match(r"(?:tools|oracle)/", word)}
    run = {path.name for path in files if path.is_file() and b"python" in path.read_bytes().partition(b"\n")[0]}
    return [f"{name}: a step of the gate runs it, and no fault is planted for it" for name in sorted(run - set(scripts) - TRIALS)]


# a script with a message that no planted fault reaches and two that are not made by `fault`, and what the trial must report about it
MADE_UP = '''from reports import ended, fault
from repository import ROOT


def main(words):
    text, faults = (ROOT / "made-up").read_text(), []
    if "one" in text:
        faults.append(fault("it has one"))
    if "two" in text and "three" in text:
        faults.append(fault("it has both"))
    if "four" in text:
        faults.append("it has four, and says so")
    assert "five" not in text, "it has five"
    return ended(faults, "it has neither")
'''
ITSELF = [
    ("a fault that is reported", "one", "it has one", ""), ("a rule that is switched off", "two", "it has two", "NOT REPORTED, status 0"),
    ("another message", "one", "it has both", "NOT REPORTED, status 1"), ("what is accepted", "six", None, ""), ("what is not accepted", "one", None, "NOT ACCEPTED, status 1"),
    ("a message that is a text", "four", "it has four", "NOT REPORTED, status an exception"), ("a fault without a place", None, "it has one", "NOT PLANTED"),
]
MEASURED = ["made_up.py:10: no planted fault reaches this message", "made_up.py:12: this is not reported by reports.fault", "made_up.py:13: this is not reported by reports.fault"]


def of_itself(folder):
    """Tries the trial: what it does not report about a made-up script."""
    room = Room(folder, ())
    room.write("made-up", "nothing")
    room.write("tools/gate/made_up.py", MADE_UP)
    room.changed = {}
    planted_here = [planted.Planted(words, planted.changed("made-up", "nothing" if text else "nowhere", text or ""), message) for words, text, message, _ in ITSELF]
    faults, good, reached = tried(planted.Check("made_up.py", (), planted_here, ()), room)
    for words, _, _, said in ITSELF:
        found = [one for one in faults if one.startswith(f"made_up.py: {words}:")]
        if len(found) != bool(said) or not all(said in one for one in found):
            yield f"the trial itself: {words}: {found or 'not reported'}"
    lines, _ = unmeasured(["made_up.py"], reached, room.root)
    if [line.rpartition(": ")[0] for line in sorted(lines)] != MEASURED:
        yield f"the trial itself: the measure finds {lines}"


def main(words):
    checks = [check for check in planted.CHECKS + planted_prover.CHECKS if not words or check.script in words]
    faults, good, reached = [], 0, set()
    with tempfile.TemporaryDirectory() as folder:
        rooms = {}
        faults += of_itself(pathlib.Path(folder) / "itself")
        for number, check in enumerate(checks):
            key = check.reads if not check.prepare else number
            if key not in rooms:
                rooms[key] = Room(pathlib.Path(folder) / str(number), check.reads)
            more, count, lines = tried(check, rooms[key])
            faults, good, reached = faults + more, good + count, reached | lines
            print(f"try_checks: {check.script}: {count} of {len(check.planted)} planted faults reported", flush=True)
    scripts = list(dict.fromkeys(name for check in checks for name in (check.script, *check.also)))
    more, messages = unmeasured(scripts, reached)
    faults += more + ([] if words else without_trial(scripts))
    for one in faults:
        print(f"try_checks: {one}")
    print(f"{good} planted faults reported, {messages} messages, {len(faults)} faults")
    return 1 if faults or not checks else 0


if __name__ == "__main__":
    sys.exit(main(sys.argv[1:]))
