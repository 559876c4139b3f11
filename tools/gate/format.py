#!/usr/bin/env python3
"""Compares docs/FORMAT.md with the repository, and makes the example at its end from samples/example.table.

format.py           reports whether the page agrees (exit status 1 if not)
format.py --write   first writes the example

Compared: the kinds with their children, details and names, with crates/cases/sentences.txt as tools/kinds.py reads it; the switches and rows of the
dialects, with crates/dialect/src/lib.rt and the package; the limits, with the constants of include/starlark.h; which records count in the depth,
with crates/table/specs/Depth.antt; the example, with the sample.
"""
import re
import struct
import sys

from reports import ended, fault
from repository import CRATES, ROOT

sys.path.append(str(ROOT / "tools"))
import kinds  # noqa: E402
from tables import tables  # noqa: E402

PAGE = ROOT / "docs" / "FORMAT.md"
SAMPLE, SCRIPT = ROOT / "samples" / "example.table", ROOT / "samples" / "example.star"
FIRST, LAST = (f"<!-- made by tools/gate/format.py: {where} here -->\n" for where in ("from", "to"))
WORD = {number: word for word, number in tables.KIND.items()}
CLASS = {"S": "statement", "E": "expression", "P": "parameter", "A": "argument"}
PART = re.compile(r"(?:\[([\d, ]+): )?(\((\w) \3\)\*|\w)(?:\*|\{(\d+),(\d*)\})?\]?")


class NoSample(Exception):
    """A sample that is not a table file."""


def rows(text, head):
    """The rows of the page's table whose first row begins with this text."""
    lines = text[text.index(f"| {head} |"):].splitlines()
    table = []
    for line in lines[2:]:
        if not line.startswith("|"):
            break
        table.append([cell.strip().replace("\\|", "|") for cell in re.split(r"(?<!\\)\|", line)[1:-1]])
    return table


def part(word):
    """A part of the children: its details (None is all), its class, and the allowed numbers of children, up to 9."""
    details, one, pair, least, most = PART.fullmatch(word).groups()
    if pair:
        return details, CLASS[pair], {0, 2, 4, 6, 8}
    if least is not None:
        return details, CLASS[one], set(range(int(least), int(most or 9) + 1))
    return details, CLASS[one], set(range(10)) if word.rstrip("]").endswith("*") else {1}


def parts(words, detail):
    """The parts of the children for a detail."""
    found = [part(word) for word in re.findall(r"\[[^]]*\]|\(\w \w\)\*|[^\s\[\]]+", words)]
    return [(one, counts) for details, one, counts in found if details is None or str(detail) in re.findall(r"\d", details)]


def merged(found):
    """Adjacent parts of the same class as one, with every sum of their numbers; without those that are always empty."""
    out = []
    for one, counts in found:
        if out and out[-1][0] == one:
            out[-1] = one, {a + b for a in out[-1][1] for b in counts if a + b < 10}
        else:
            out.append((one, counts))
    return [(one, counts) for one, counts in out if counts != {0}]


def of_kinds(text):
    """The faults of the kinds' table."""
    known = kinds.read((CRATES / "cases" / "sentences.txt").read_text())
    table, faults = rows(text, "Number | Kind"), []
    if [(int(number), word) for number, word, *_ in table] != sorted(WORD.items()):
        return [fault("the kinds are not those of the package in their order")]
    for number, word, children, details, named, _ in table:
        kind = known[int(number)]
        if int(details) != kind.details:
            faults.append(fault(f"{word}: the largest detail is {kind.details}"))
        if (named == "yes") != kind.named:
            faults.append(fault(f"{word}: whether it has a name"))
        for detail in range(kind.details + 1):
            wanted = merged([(one, {n for n in range(10) if may_be(n)}) for one, may_be, _ in kind.parts(detail)])
            if merged(parts(children, detail)) != wanted:
                faults.append(fault(f"{word}: its children with detail {detail}"))
    return faults


def of_dialects(text):
    """The faults of the dialects' table."""
    code = (CRATES / "dialect" / "src" / "lib.rt").read_text()
    fields = re.findall(r"^    pub (enable_\w+):", code, re.M)
    names = re.findall(r"^    (\w+),$", re.search(r"^pub enum Name \{\n(.*?)^\}", code, re.M | re.S)[1], re.M)
    numbers = [re.findall(r"\d", row) for row in re.findall(r"^    \[([\d, ]+)\],$", code, re.M)]
    table = rows(text, "Byte | Switch")
    faults = []
    if [row[:2] for row in table] != [[str(at), field] for at, field in enumerate(fields)]:
        faults.append(fault("the switches are not those of crates/dialect in their order"))
    head = text[text.index("| Byte | Switch |"):].splitlines()[0].split(" | ")[4:]
    if [name.rstrip(" |") for name in head] != names:
        faults.append(fault("the names of the three rows are not those of crates/dialect"))
    if [list(column) for column in zip(*(row[4:] for row in table))] != numbers:
        faults.append(fault("the three rows are not those of crates/dialect"))
    if any(tables.DIALECTS[name.lower()] != bytes(map(int, row)) for name, row in zip(names, numbers)):
        faults.append(fault("the package has other rows of dialects than crates/dialect"))
    meant = re.search(r"^const NONE_GIVEN: Name = Name::(\w+);", code, re.M)[1]
    if f"**No dialect.** No dialect bytes mean {meant}." not in text:
        faults.append(fault(f"no dialect bytes mean {meant}"))
    return faults


def of_limits(text):
    """The faults of the table of limits."""
    header = (ROOT / "include" / "starlark.h").read_text()
    said = {name: int(number) for name, number in re.findall(r"^#define STARLARK_(\w+) (\d+)$", header, re.M)}
    wanted = {"nodes": said["NODES"], "bytes of the table": said["NODES"] * said["NODE_BYTES"], "name bytes": said["NAME_BYTES"],
              "size": said["NODES"], "source file number of a top-level statement": said["LAST_FILE"], "depth": said["DEPTH"],
              "bytes of a table file": said["FILE_BYTES"]}
    found = {row[0].partition(",")[0]: int(row[2].replace(",", "")) for row in rows(text, "Limit | Least")}
    return [fault(f"the limit of {what} is {most:,}") for what, most in wanted.items() if found.get(what) != most]


def of_depth(text):
    """The faults of the sentence on the depth."""
    defined = (CRATES / "table" / "specs" / "Depth.antt").read_text()
    counted = re.findall(r"^    if' \(eqb class (\w+)\) \(λ _\. 1\)", defined, re.M)
    said = re.search(r"A (\w+) or an (\w+) is one deeper than its parent; a parameter or an argument has the depth of its parent\.", text)
    if said and counted == [*said.groups()]:
        return []
    return [fault("what counts in the depth is not what the definition of weight says")]


def hexed(part):
    return " ".join(f"{byte:02x}" for byte in part)


def fields_of(record, names, at):
    """A record in words: its fields that are not 0."""
    kind, detail, length, start, begin, end, size, file, position = struct.unpack("<BBHIIIHHI", record)
    said = [f"{WORD[kind]}" + (f", detail {detail}" if detail else "")]
    if length:
        said.append(f"name `{names[start:start + length].decode()}`: {length} byte{'s' * (length > 1)} from {start} on")
    said.append(f"bytes {begin} to {end}")
    said.append(f"{size} record{'s' * (size > 1)}" + (f": nodes {at} to {at + size - 1}" if size > 1 else ""))
    said.append(f"source file {file}")
    return "; ".join(said + [f"its name at {position}"] * (WORD[kind] == "Named"))


def example():
    """The sample, block by block and record by record."""
    file, script = SAMPLE.read_bytes(), SCRIPT.read_bytes()
    lines = ["", *(f"    {line}" for line in script.decode().splitlines()), ""]
    nodes, count = struct.unpack_from("<HH", file, 4)
    blocks = [file[at:at + 512] for at in range(0, len(file), 512)]
    used = [struct.unpack_from("<H", one, 2)[0] for one in blocks]
    first = 1 + -(-count // 504)
    names = b"".join(one[4:4 + n] for one, n in zip(blocks[1:first], used[1:first]))
    table = b"".join(one[4:4 + n] for one, n in zip(blocks[first:], used[first:]))
    if len(names) != count or len(table) != 24 * nodes:
        raise NoSample(fault("the blocks of samples/example.table do not have the names and nodes that its header states"))
    lines += ["| Bytes of the file | Hexadecimal | What it is |", "|---|---|---|"]
    for number, (one, n) in enumerate(zip(blocks, used)):
        at, content, total = 512 * number, one[4:4 + n], struct.unpack_from("<I", one, 508)[0]
        if tables._block(number, content) != one:
            raise NoSample(fault(f"block {number} of samples/example.table is not a block"))
        lines.append(f"| {at} to {at + 3} | `{hexed(one[:4])}` | block {number}, {n} bytes used |")
        if number == 0:
            dialect = "no dialect" if n == 4 else "the dialect " + " ".join(map(str, content[4:]))
            lines.append(f"| {at + 4} to {at + 3 + n} | `{hexed(content)}` | {nodes} nodes, {count} name bytes, {dialect} |")
        elif number < first:
            lines.append(f"| {at + 4} to {at + 3 + n} | `{hexed(content)}` | the names: `{content.decode()}` |")
        else:
            before = sum(used[first:number]) // 24
            for i in range(n // 24):
                lines.append(f"| {at + 4 + 24 * i} to {at + 27 + 24 * i} | node {before + i}, below | |")
        terms = [f"{p + 1} · {byte}" for p, byte in enumerate(one[:508]) if byte]
        told = f", that is {' + '.join(terms)}" if len(terms) < 9 else ""
        lines.append(f"| {at + 508} to {at + 511} | `{hexed(one[508:])}` | the sum: {total:,}{told} |")
    lines += ["", "The records, field by field: kind, detail, name length, name start, begin, end, size, file, name position.", "",
              "| Node | Hexadecimal | What it is | In the script |", "|---|---|---|---|"]
    for at in range(nodes):
        record = table[24 * at:24 * at + 24]
        cut = [0, 1, 2, 4, 8, 12, 16, 18, 20, 24]
        shown = " · ".join(hexed(record[a:b]) for a, b in zip(cut, cut[1:]))
        begin, end = struct.unpack_from("<II", record, 8)
        text = script[begin:end].decode().replace("\n", "⏎")
        lines.append(f"| {at} | `{shown}` | {fields_of(record, names, at)} | `{text}` |")
    return "\n".join(lines) + "\n\n"


def of_example(made):
    """The faults of the example at the end of the page."""
    try:
        return [] if made == example() else [fault("the example is not samples/example.table (tools/format.py --write makes it)")]
    except NoSample as none:
        return [*none.args]


def main(words):
    text = PAGE.read_text()
    above, rest = text.split(FIRST)
    made, below = rest.split(LAST)
    if words == ["--write"]:
        made = example()
        PAGE.write_text(above + FIRST + made + LAST + below)
    faults = of_kinds(text) + of_dialects(text) + of_limits(text) + of_depth(text) + of_example(made)
    return ended(faults, "docs/FORMAT.md: its kinds, dialects, limits and example are those of the repository", "docs/FORMAT.md: ")


if __name__ == "__main__":
    sys.exit(main(sys.argv[1:]))
