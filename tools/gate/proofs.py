#!/usr/bin/env python3
"""Runs `rt ci`, the verdict on every crate: it proves each crate, tries each edit of must-fail, and runs each program and test.

It runs at the top of the checkout, with no crate named. What rt has passed on this machine, of the same files, it does not try again. rt passes a bad edit of must-fail, which shows nothing, so this
script does not: the line 'rt: ok' must say that every edit of must-fail was refused. rt also refuses a file that `rt fmt` would change.
The last line is rt's 'N passed, M failed', in which each fault of this script is one that failed. The exit status is 0 only if M is 0.
"""
import re
import subprocess
import sys

import repository
from reports import fault
from repository import CRATES, ROOT

OK = re.compile(r"^rt: ok\b.*$", re.M)
COUNTS = re.compile(r"^(\d+) passed, (\d+) failed$")
EDITS = re.compile(r"; must-fail edits: (\d+) refused(?:, (\d+) of them only by a limit)?(?:, (\d+) bad)?(?=[;,]|$)")


def faults_of(text, status, wanted):
    """What is wrong with a run of rt that printed this text: `wanted` is the number of edits that it must refuse."""
    counts, ok = COUNTS.match(text.rstrip("\n").rpartition("\n")[2]), OK.findall(text)
    if not counts:
        yield fault("the last line of rt ci is not 'N passed, M failed'")
    elif (status == 0) != (int(counts[2]) == 0):
        yield fault(f"rt ci ended with status {status}, and says {counts[0]}")
    elif status == 0 and len(ok) != 1:
        yield fault(f"rt ci passed and has {len(ok)} lines 'rt: ok'")
    elif status == 0:
        edits = EDITS.search(ok[0])
        refused, bad = (int(edits[1]), int(edits[3] or 0)) if edits else (0, 0)
        if bad:
            yield fault(f"{bad} edits of must-fail are bad: they show nothing")
        if refused != wanted:
            yield fault(f"rt ci refused {refused} edits of must-fail, and {wanted} are there")


def main(_):
    done = subprocess.Popen(["rt", "ci"], cwd=ROOT, stdin=subprocess.DEVNULL, stdout=subprocess.PIPE, stderr=subprocess.STDOUT, text=True, errors="replace")
    said = []
    for line in done.stdout:
        said.append(line)
        if not COUNTS.match(line):
            print(line, end="", flush=True)
    status, text = done.wait(), "".join(said)
    wanted = sum(len(list((CRATES / name / "must-fail").glob("*.edit"))) for name in repository.crates())
    told = list(faults_of(text, status, wanted))
    counts = COUNTS.match(text.rstrip("\n").rpartition("\n")[2])
    passed, failed = (int(counts[1]), int(counts[2])) if counts else (0, 0)
    print("".join(f"proofs: {one}\n" for one in told) + f"{passed} passed, {failed + len(told)} failed")
    return 1 if status or told else 0


if __name__ == "__main__":
    sys.exit(main(sys.argv[1:]))
