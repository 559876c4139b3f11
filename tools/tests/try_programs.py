#!/usr/bin/env python3
"""Tries what no promise says about the programs tablecheck, tablerescue and tablefigures: how much they read, what they print, and how OUT is replaced.

They must be built, as rt ci builds them. Each is run as it is. For the comparison of the command with them there is a step of its own. Status 1, with a line for each fault, where something is not as it must be.
"""
import os
import pathlib
import resource
import subprocess
import sys
import tempfile

import end_rescue

sys.path.append(str(pathlib.Path(__file__).resolve().parent.with_name("gate")))
import repository  # noqa: E402
from repository import ROOT  # noqa: E402

sys.path.append(str(ROOT / "tools"))
from tables import tables  # noqa: E402

SAMPLES = ROOT / "samples"
ROUNDS = 100  # how often the rescue is ended by KILL
HUGE = 3 * 2 ** 30 + 5  # bytes of a sparse file
MEMORY = 1000 * 2 ** 20  # bytes of memory that the program may use for it
# tables with wrong source file numbers: what the rescue prints, and what is kept
NUMBERED = [
    ("a child with a wrong source file number", "(Statements (Break) (Break file=9) (Break file=1000) (Break))",
     "statements 2\nnodes 3\ndropped 2\nbytes 0\n", "(Statements (Break) (Break file=9))"),
    ("a record below it with another number", "(Statements (Break) (If (Int) (Break file=2)) (Break))",
     "statements 1\nnodes 2\ndropped 4\nbytes 0\n", "(Statements (Break))"),
    ("the zeros of files before source file numbers", "(Statements (Break file=0) (Break file=0))", "refused 91\n", None),
    ("a root with a source file number", "(Statements file=1 (Break))", "refused 91\n", None)]
FAULTS = []
TRIED = []


def command(name):
    """The words that run a program."""
    return [str(repository.CRATES / name / "out" / name)]


def run(words, **more):
    return subprocess.run(words, stdout=subprocess.PIPE, stderr=subprocess.PIPE, **more)


def must(words, good, told=""):
    TRIED.append(words)
    if not good:
        FAULTS.append(f"{words}: {told}" if told else words)


def file_of(text):
    return tables.file_of(*tables.parse_text(text))


def largest():
    """2,100 nodes, 8,064 name bytes and a dialect: 117 blocks. The last node of the last block has the one error."""
    made = file_of(f"dialect: Standard\n(Statements ^64<(OtherSimple (Identifier {'0' * 126}))> ^1970<(OtherSimple)> (Break))\n")
    must("the largest file has 59,904 bytes", len(made) == 59904, len(made))
    return made


def check(room):
    """tablecheck on files of both sides of its limits, by name and from standard input."""
    whole = largest()
    loads = "".join(f"{number} 1 {i} {i + 1}\n" for i in range(3, 2100) for number in (58, 59))
    trials = [
        ("the largest file", whole, "nodes 2100\n55 1 2099 2100\nerrors 1\n"),
        ("a byte more", whole + b"\0", "refused 75\n"),
        ("a byte less", whole[:-1], "refused 70\n"),
        ("more than is read", whole + bytes(100000), "refused 75\n"),
        ("no byte", b"", "refused 70\n"),
        ("two errors at each load", file_of("dialect: 110000010\n(If (Int) (Statements ^2097<(Load)>))\n"), f"nodes 2100\n{loads}errors 4194\n"),
    ]
    trials += [(path.stem, path.read_bytes(), path.with_suffix(".out").read_text()) for path in sorted(SAMPLES.glob("*.table"))]
    place = room / "in.table"
    for words, data, expected in trials:
        place.write_bytes(data)
        by_name, by_input = run([*command("tablecheck"), str(place)]), run(command("tablecheck"), input=data)
        must(f"tablecheck, {words}, by name", (by_name.stdout, by_name.stderr) == (expected.encode(), b""), by_name.stdout[:200])
        must(f"tablecheck, {words}, from standard input", by_input.stdout == expected.encode(), by_input.stdout[:200])
    place.write_bytes(file_of("dialect: 110000010\n(If (Int) (Statements ^2097<(Load)>))\n"))
    printed = run([*command("tablecheck"), str(place)]).stdout.decode().splitlines()
    must("tablecheck, a list of thousands: the number of its lines", len(printed) == 1 + 4194 + 1, len(printed))
    must("tablecheck, a list of thousands: its last lines", printed[-2:] == ["59 1 2099 2100", "errors 4194"], printed[-2:])
    gone = run([*command("tablecheck"), "no such file"])
    must("tablecheck, no file", gone.stdout == b"" and b"No such file" in gone.stderr, gone)


def rescued(room, words, source, lines, out, before=b"old", **more):
    """A rescue: what it prints, and OUT afterwards. Nothing is left beside OUT. If IN is OUT, `before` is its content."""
    new, place = room / "new", room / "out"
    place.write_bytes(before)
    done = run([*command("tablerescue"), str(source), str(new), str(place)], **more)
    must(f"tablerescue, {words}: prints", done.stdout.decode() == lines, done)
    must(f"tablerescue, {words}: OUT", place.read_bytes() == out, len(place.read_bytes()))
    must(f"tablerescue, {words}: nothing is left", not new.exists())


def rescue(room):
    """tablerescue on the sample, with IN as OUT, on what it refuses, and on a file of three gigabytes."""
    lost, kept, take = ((SAMPLES / name).read_bytes() for name in ("lost.table", "lost.rescued", "take.table"))
    told = (SAMPLES / "lost.printed").read_text()
    rescued(room, "the sample", SAMPLES / "lost.table", told, kept)
    rescued(room, "IN as OUT", room / "out", told, kept, before=lost)
    rescued(room, "a whole file", SAMPLES / "take.table", "statements 3\nnodes 62\ndropped 0\nbytes 0\n", take)
    rescued(room, "a damaged header", SAMPLES / "damaged.table", "refused 90\n", b"old")
    rescued(room, "nothing to be kept", SAMPLES / "cut.table", "refused 91\n", b"old")
    numbered = room / "numbered"
    for words, tree, lines, kept in NUMBERED:
        numbered.write_bytes(file_of(tree))
        rescued(room, words, numbered, lines, file_of(kept) if kept else b"old")
    longer = room / "longer"
    longer.write_bytes(largest() + bytes(513))
    rescued(room, "the largest and 513 bytes", longer, "statements 2035\nnodes 2100\ndropped 0\nbytes 513\n", largest())
    huge = room / "huge"
    huge.write_bytes(take)
    os.truncate(huge, HUGE)
    lines = f"statements 3\nnodes 62\ndropped 0\nbytes {HUGE - len(take)}\n"
    rescued(room, "three gigabytes", huge, lines, take, preexec_fn=lambda: resource.setrlimit(resource.RLIMIT_AS, (MEMORY, MEMORY)))
    huge.unlink()


def late(room):
    """tablerescue on a terminal that ends and then has more bytes: OUT stays as it is."""
    leader, follower = os.openpty()
    os.write(leader, b"first\n\4later\n\4")
    place = room / "out"
    place.write_bytes(b"old")
    done = run([*command("tablerescue"), os.ttyname(follower), str(room / "new"), str(place)])
    must("tablerescue, bytes after the end: reported", (done.stdout, done.stderr.endswith(b": Input/output error\n")) == (b"", True), done)
    must("tablerescue, bytes after the end: OUT", place.read_bytes() == b"old" and not (room / "new").exists())
    os.close(leader)
    os.close(follower)


def names_and_outputs(room):
    """A file name that is not UTF-8 is reported, and a write that fails ends the program with status 1."""
    odd = os.fsencode(room) + b"/\xff"
    pathlib.Path(os.fsdecode(odd)).write_bytes((SAMPLES / "example.table").read_bytes())
    for name, more in (("tablecheck", []), ("tablerescue", ["new", "out"]), ("tablefigures", [])):
        told = run([*command(name), odd, *more], cwd=room)
        must(f"{name}, a name that is not text", told.stdout == b"" and told.stderr.startswith(b"the file's name: Invalid"), told)
        with open("/dev/full", "wb") as full:
            words = [*command(name), str(SAMPLES / "example.table"), *more]
            left = subprocess.run(words, stdout=full, stderr=subprocess.PIPE, cwd=room)
        must(f"{name}, a full device", left.returncode == 1 and b"No space left" in left.stderr, left)


def figures(room):
    """tablefigures on the samples, on many files through its buffer, and on what cannot be read."""
    place, one, whole = room / "in.tables", (SAMPLES / "example.table").read_bytes(), largest()
    none = "".join(line.rpartition(" ")[0] + " 0\n" for line in (SAMPLES / "three.figures").read_text().splitlines())
    trials = [(name, (SAMPLES / f"{name}.tables").read_bytes(), (SAMPLES / f"{name}.figures").read_text()) for name in ("three", "three-damaged")]
    trials += [("no byte", b"", none), ("one byte", b"\0", none + "refused 70 0\n")]
    for words, data, expected in trials:
        place.write_bytes(data)
        by_name, by_input = run([*command("tablefigures"), str(place)]), run(command("tablefigures"), input=data)
        must(f"tablefigures, {words}, by name", (by_name.stdout, by_name.stderr) == (expected.encode(), b""), by_name.stdout[:200])
        must(f"tablefigures, {words}, from standard input", by_input.stdout == expected.encode(), by_input.stdout[:200])
    many = run(command("tablefigures"), input=(one * 50 + whole) * 20 + b"x").stdout.decode().splitlines()
    position = 20 * (50 * len(one) + len(whole))
    must("tablefigures, many files", (many[0], many[-1], len(many)) == ("files 1020", f"refused 70 {position}", 33), many)
    gone = run([*command("tablefigures"), "no such file"])
    must("tablefigures, no file", gone.stdout == b"" and b"No such file" in gone.stderr, gone)
    unread = run([*command("tablefigures"), str(room)])
    must("tablefigures, a read that fails", unread.stdout == b"" and unread.stderr != b"", unread)


def ended(room):
    """tablerescue, ended many times while it works on a file whose block 100 is damaged."""
    damaged, whole = room / "damaged", room / "whole"
    made = bytearray(largest())
    made[51300] ^= 255
    damaged.write_bytes(made)
    run([*command("tablerescue"), str(damaged), str(room / "new"), str(whole)])
    must("tablerescue, ended by KILL", end_rescue.main([str(ROUNDS), str(damaged), str(whole), *command("tablerescue")]) == 0)


def main():
    for name in ("tablecheck", "tablerescue", "tablefigures"):
        if not pathlib.Path(*command(name)).exists():
            print(f"try_programs: {name} is not built; rt ci makes it")
            return 2
    with tempfile.TemporaryDirectory() as folder:
        for trials in (check, rescue, late, names_and_outputs, figures, ended):
            trials(pathlib.Path(folder))
    print("\n".join(f"try_programs: {fault}" for fault in FAULTS) or f"try_programs: {len(TRIED)} trials of the programs came out as they must")
    return 1 if FAULTS else 0


if __name__ == "__main__":
    sys.exit(main())
