#!/usr/bin/env python3
"""Makes the data of the gate's programs from texts. python/ducatmuffin/table.py describes the text form of a tree.

tables.py cases TEXT... OUT         the requests of crates/cases
tables.py filecases TEXT... OUT     the table files of crates/filetest
tables.py file TEXT OUT             the table file of a text (`ducat table` makes the same)
tables.py files TEXT...             the same for several: from X.txt to X.table
With --check at the end: only reports whether the file is that of its text (exit status 1 if not). An error in a text is reported
with its line and kind, and nothing is written.

A line of cases is 'label | request | tree'. In cases, names, details, positions and source file numbers may be anything, since tables that are
not sound are needed. A record has the source file number 1, a root Statements 0; file=N gives one record another. Types are read by edition 1, or
by edition=N.
Cases of files have, between label and tree: bits= the dialect's numbers, edition= the edition's byte, names= the number of name bytes, byte=P:V byte P
becomes V and the sum of its block is updated, damage=P:V the same without a new sum, more= the number of zeros after the file, cut= the number
of bytes that are kept.
"""
import os
import pathlib
import re
import struct
import sys

sys.path.append(str(pathlib.Path(__file__).resolve().parent / "gate"))
from reports import Fault, ended, fault  # noqa: E402
from repository import ROOT  # noqa: E402

sys.path.insert(0, str(ROOT / "python"))
from ducatmuffin import table as tables  # noqa: E402
from ducatmuffin.table import TextError, file_of, table_of, trees  # noqa: E402

JOBS = {"check": 1, "node": 2, "dialect": 3, "call": 4, "params": 5, "target": 6, "assignment": 7, "type": 8, "module": 9, "bind": 10,
        "audit": 11, "format": 12, "parts": 13, "namesakes": 14}
numbers = tables._numbers
WANTED = {"parameters": 1, "call": 2, "assignment": 3, "expression": 4}


def digits(text):
    """Bytes, each given by a digit."""
    if not re.fullmatch("[0-9]*", text):
        raise TextError(0, fault(f"{text} is not made of digits"))
    return bytes(int(digit) for digit in text)


def looked_up(word, names, what):
    if word not in names:
        raise TextError(0, fault(f"no {what} is called {word}"))
    return names[word]


def count(text):
    return numbers(text, None, [65535])[0]


def request(line, number):
    """A line of cases: a heading, or a label, the request, and the tree."""
    if line.startswith("#"):
        return pack(0, line, b"", b"", b"", 0, 0, 0)
    label, asked, *tree = [part.strip() for part in line.split("|")] + [""] * ("|" not in line)
    if not asked or len(tree) > 1:
        raise TextError(0, fault("a case is: label | request | tree"))
    job, *words = asked.split()
    if job in ("format", "parts"):
        return format_case(job, label, words, tree[0] if tree else "")
    table, names = table_of(trees(tree[0] if tree else "", number))
    dialect, wanted, node, room, owner = b"", 0, 0, 0, int(job in ("type", "audit"))
    for word in words:
        key, mark, value = word.partition("=")
        if key == "names":
            names = names[:count(value)].ljust(count(value), b"a")
        elif key == "bytes":
            table = table[:count(value)].ljust(count(value), b"\0")
        elif key == "bits":
            dialect = digits(value)
        elif key == "room":
            room = count(value)
        elif key == "def" or key == "edition" and job in ("type", "audit"):
            owner = count(value)
        elif word.isdigit():
            node, = numbers(word, None, [2 ** 32 - 1])
        else:
            wanted = looked_up(word, WANTED, "wish")
    return pack(looked_up(job, JOBS, "job"), label + ": ", table, names, dialect, wanted, room, node, owner)


def format_case(job, label, words, text):
    """A case of a format text. In `format` the third part of the line is the texts, and `words` has the words of the parts. In `parts` it is the
    text, and `texts` has the length of the second buffer."""
    said = dict(word.partition("=")[::2] for word in words)
    if not set(said) <= {"words", "bits", "room", "texts"}:
        raise TextError(0, fault(f"there is no such word for {job}: {' '.join(words)}"))
    parts = b"".join(struct.pack("<I", int(word)) for word in said.get("words", "").split(",") if word)
    room, texts = count(said.get("room", "0")), count(said.get("texts", "0"))
    return pack(JOBS[job], label + ": ", text.encode(), parts, digits(said.get("bits", "")), 0, room, 0, texts)


def text_of(path):
    return tables.decoded(pathlib.Path(path).read_bytes()).replace("\r\n", "\n")


def at_line(make, line, number):
    """What is made from a line; an error in it is reported with its number."""
    try:
        return make(line, number)
    except TextError as error:
        error.line = error.line or number
        raise


def table_file(path):
    """The table file that a text gives. A script that it names is beside it."""
    return tables.read_text(text_of(path), lambda name: (pathlib.Path(path).parent / name).read_bytes()).file()


def summed(made, at):
    """Updates the sum of the block that has byte `at`."""
    start = at // 512 * 512
    total = sum((p + 1) * byte for p, byte in enumerate(made[start:start + 508]))
    made[start + 508:start + 512] = struct.pack("<I", total)


def file_case(line, number):
    """A line of filecases: a heading, or a label, what is done to the file, and the tree."""
    if line.startswith("#"):
        return struct.pack("<HH", len(line.encode()), 0) + line.encode()
    parts = [part.strip() for part in line.split("|")]
    if len(parts) != 3:
        raise TextError(0, fault("a case is: label | what is done to the file | tree"))
    label, done, tree = parts
    said = [word.partition("=")[::2] for word in done.split()]
    for key, _ in said:
        if key not in ("names", "bits", "edition", "byte", "damage", "more", "cut"):
            raise TextError(0, fault(f"there is no {key} to be done to a file"))
    (table, names), once = table_of(trees(tree, number)), dict(said)
    edition = numbers(once["edition"], None, [255])[0] if "edition" in once else None
    made = bytearray(file_of(table, names.ljust(count(once.get("names", "0")), b"a"), digits(once.get("bits", "")), edition))
    for key, value in said:
        if key in ("byte", "damage"):
            at, byte = numbers(value, ":", [len(made) - 1, 255])
            if made[at] == byte:
                raise TextError(0, fault(f"{label}: byte {at} is {byte} already"))
            made[at] = byte
        if key == "byte":
            summed(made, at)
    made = (made + bytes(count(once.get("more", "0"))))[:count(once.get("cut", "65535"))]
    text = (label + ": ").encode()
    return struct.pack("<HH", len(text), len(made)) + text + bytes(made)


def lines_of(one):
    """Makes all lines of a text with a function for one line."""
    def make(path):
        lines = enumerate(text_of(path).split("\n"), 1)
        return b"".join(at_line(one, line, number) for number, line in lines if line.strip())
    return make


def pack(job, label, table, names, dialect, wanted, room, node, owner=0):
    text = label.encode()
    lengths = struct.pack("<HHHHHHHHI", job, len(text), len(table), len(names), len(dialect), wanted, room, owner, node)
    return lengths + text + table + names + dialect


MAKERS = {"cases": lines_of(request), "filecases": lines_of(file_case), "file": table_file}


def made_of(texts, maker):
    made = b""
    for text in texts:
        try:
            made += maker(text)
        except TextError as error:
            sys.exit(Fault(error.message).at(f"{text}:{error.line}" if error.line else text))
        except (OSError, struct.error) as error:
            sys.exit(fault(f"{text}: {error}"))
    return made


def main(words):
    what, *files = [word for word in words if word != "--check"] or [""]
    make = MAKERS.get(what)
    most = len(files) if what in ("cases", "filecases") else 2
    if what == "files":
        pairs = [([text], os.path.splitext(text)[0] + ".table", table_file) for text in files]
    elif make and 2 <= len(files) <= most:
        pairs = [(files[:-1], files[-1], make)]
    else:
        sys.exit(fault(__doc__))
    faults = []
    for out, made, texts in [(out, made_of(texts, maker), texts) for texts, out, maker in pairs]:
        try:
            if "--check" not in words:
                pathlib.Path(out).write_bytes(made)
            elif not os.path.exists(out) or pathlib.Path(out).read_bytes() != made:
                faults.append(fault(f"{out}: is NOT what comes of {' and '.join(texts)}"))
        except OSError as error:
            sys.exit(fault(f"{out}: {error}"))
    of = "their texts" if what == "files" else " and ".join(pairs[0][0])
    return ended(faults, f"{', '.join(out for _, out, _ in pairs)}: what comes of {of}") if "--check" in words else 0


if __name__ == "__main__":
    sys.exit(main(sys.argv[1:]))
