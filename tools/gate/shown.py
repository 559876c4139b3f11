#!/usr/bin/env python3
"""Compares what the documents show with what the command prints.

A block of lines that are indented by four spaces, after the line '<!-- shown: COMMAND -->', is the standard output of COMMAND, run at the
root. ROOM in a command is a temporary folder. README's first command is such a block without the mark, and is listed here; for its second one README shows
parts of the output. Files of samples/ that have the output of a command are listed here too. Prints a line for each difference, and for a document
that shows nothing; the exit status is then 1.
"""
import re
import shlex
import subprocess
import sys
import tempfile

from reports import ended, fault
from repository import ROOT

DOCUMENTS = ("docs/COMMANDS.md",)
MARKED = re.compile(r"^<!-- shown: (.+) -->\n((?:    .*\n|\n(?=    ))+)", re.M)
FIRST = ("README.md", "./ducat check samples/example.star", """    nodes 6
    samples/example.star:1:15: 13 a parameter without a default follows one that has a default
        def f(a, b=1, c):
                      ^
    samples/example.star:2:3: 55 `break` is outside a `for` loop
          break
          ^^^^^
    errors 2
""")

# parts of what a command prints that README shows
PARTS = ("README.md", "./ducat bind --strict --expect take2.trains=trains samples/take.star", (
    """    10:5 take(tracks, trains), def 1:1
        trains, by place only: tracks (10:10)
        tracks, by place only: trains (10:18)
        exchanged: tracks (10:10) reaches trains, and trains (10:18) reaches tracks
""", """    expect take2.trains=trains: not met
        12:26 trains takes tracks, not trains
        13:11 trains takes tracks, not trains
"""))

# the bindings of two joined scripts, from their table and from the scripts themselves
RECORDED = [("samples/joined.bound", "./ducat bind --script 1=samples/joined.1.star --script 2=samples/joined.2.star samples/joined.table"),
            ("samples/joined.bound", "./ducat bind --join samples/joined.1.star samples/joined.2.star"),
            ("samples/three.figures", "./ducat figures samples/three.tables"),
            ("samples/three.figures", "./ducat figures --jobs 2 samples/example.table samples/parameters.table samples/take.table"),
            ("samples/three-damaged.figures", "./ducat figures samples/three-damaged.tables")]


def printed(command, room):
    words = shlex.split(command.replace("ROOM", room))
    done = subprocess.run(words, cwd=ROOT, stdout=subprocess.PIPE, stderr=subprocess.DEVNULL)
    return indented(done.stdout.decode())


def indented(text):
    return re.sub(r"^(?=.)", "    ", text, flags=re.M)


def main(words):
    if "--help" in words:
        print(__doc__.strip())
        return 0
    faults = []
    readme = (ROOT / FIRST[0]).read_text()
    shown = [FIRST]
    if f"    {FIRST[1]}\n" not in readme or FIRST[2] not in readme:
        faults.append(fault("README.md does not show the first command with what it prints"))
    if f"    {PARTS[1]}\n" not in readme or any(part not in readme for part in PARTS[2]):
        faults.append(fault("README.md does not show the release check with parts of what it prints"))
    if readme.count("\n") > 150:
        faults.append(fault(f"README.md has {readme.count(chr(10))} lines, and 150 are allowed"))
    for document in DOCUMENTS:
        found = [(document, command, block.rstrip("\n") + "\n") for command, block in MARKED.findall((ROOT / document).read_text())]
        shown += found
        if not found:
            faults.append(fault(f"{document} shows nothing"))
    shown += [(path, command, indented((ROOT / path).read_text())) for path, command in RECORDED]
    with tempfile.TemporaryDirectory() as room:
        said = printed(PARTS[1], room)
        faults += [fault(f"{PARTS[0]}: `{PARTS[1]}` does not print this part:\n{part}") for part in PARTS[2] if part not in said]
        for document, command, block in shown:
            said = printed(command, room)
            if said != block:
                faults.append(fault(f"{document}: `{command}` prints something else than is shown:\n{said}"))
    return ended(faults, f"shown.py: {len(shown) + 1} commands print what the documents show")


if __name__ == "__main__":
    sys.exit(main(sys.argv[1:]))
