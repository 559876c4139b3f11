#!/usr/bin/env python3
"""Writes the numbers of documents that a tool can count, and finds those that nothing writes.

counted.py           reports whether each is right (exit status 1 if not)
counted.py --write   first writes them again

`<!-- counted: NAME -->N<!-- -->` in a document is a number that this tool writes; COUNTS has the names. README, PROOFS, CRATES, FORMAT, CONTRIBUTING and
the notes of docs/landings have no other count of what COUNTED lists: a count that nothing writes becomes wrong unnoticed. A paragraph or row
that names a commit is a record of that commit, and is not changed.
"""
import re
import sys

from reports import ended, fault
from repository import ROOT, crates, edits, is_library

DOCUMENTS = ["README.md", *(f"docs/{name}.md" for name in ("CONTRIBUTING", "CRATES", "FORMAT", "PROOFS")),
             *sorted(str(path.relative_to(ROOT)) for path in (ROOT / "docs" / "landings").glob("*.md"))]
MARK = re.compile(r"<!-- counted: ([\w-]+) -->(.*?)<!-- -->")
COUNTED = r"crates|functions|wrong answers|theorems|planted faults|faults in the stand-in|tests|kinds|numbers|steps of the gate|statements in \d+ modules"
UNWRITTEN = re.compile(rf"(?<![\w-])(\d[\d,]*(?<!,)) ((?:new |other |more )?(?:{COUNTED}))\b")
COMMIT = re.compile(r"\b(?=[0-9a-f]*\d)[0-9a-f]{7}\b")
FAULTS = []


def report(message):
    FAULTS.append(message)


def lines_of(path, pattern):
    """The number of lines of a file that match."""
    return len(re.findall(pattern, (ROOT / path).read_text(), re.M))


def version():
    found = re.search(r'^#define STARLARK_VERSION "(.*)"$', (ROOT / "include" / "starlark.h").read_text(), re.M)
    return found[1] if found else ""


def how_many(path):
    """The number of rows that a theorem `how_many_lem` states."""
    found = re.search(r"how_many_lem : .* ≡ (\d+)$", (ROOT / path).read_text(), re.M)
    return int(found[1]) if found else 0


# what can be counted, and how
COUNTS = {
    "version": version,
    "crates": lambda: len(crates()),
    "libraries": lambda: sum(map(is_library, crates())),
    "wrong-answers": lambda: sum(len(edits(name)) for name in crates()),
    "kinds": lambda: lines_of("docs/kinds.tsv", r"^\d"),
    "numbers": lambda: lines_of("docs/numbers.tsv", r"^\d"),
    "functions": lambda: lines_of("include/starlark.h", r"^uint32_t starlark_\w+\("),
    "steps": lambda: lines_of(".ci/steps", r"^[\w-]+$"),
    "port-faults": lambda: lines_of("oracle/port-faults.list", r"^[^#\n]"),
    "stand-in-faults": lambda: lines_of("oracle/faults.list", r"^[^#\n]"),
    "examples": lambda: how_many("crates/examples/proofs/Examples.antt"),
    "corner-cases": lambda: how_many("crates/reached/proofs/Examples.antt"),
}


def written(text, document):
    """A document with each marked number as it is counted."""
    def number(found):
        if found[1] not in COUNTS:
            report(fault(f"{document}: there is no count {found[1]}"))
            return found[0]
        return f"<!-- counted: {found[1]} -->{COUNTS[found[1]]()}<!-- -->"
    return MARK.sub(number, text)


def unwritten(text):
    """The counts that nothing writes, with the number of their line."""
    for part in re.finditer(r"(?:^\|.*\n)|(?:^(?!\|)\S.*\n)+|^ .*\n", text, re.M):
        if not COMMIT.search(part[0]):
            for found in UNWRITTEN.finditer(MARK.sub("", part[0])):
                yield text.count("\n", 0, part.start()) + 1, found[0]


def main(words):
    FAULTS.clear()
    marked = 0
    for document in DOCUMENTS:
        path = ROOT / document
        text = path.read_text()
        right = written(text, document)
        marked += len(MARK.findall(text))
        if "--write" in words and right != text:
            path.write_text(right)
        elif right != text:
            report(fault(f"{document}: a number is not what is counted (tools/gate/counted.py --write writes it)"))
        for line, found in unwritten(right):
            report(fault(f"{document}: from line {line} on: nothing writes the count \"{found}\""))
    if not marked:
        report(fault("no document has a number that is counted"))
    return ended(FAULTS, f"counted.py: the {marked} counts of the documents are right, and there is no other")


if __name__ == "__main__":
    sys.exit(main(sys.argv[1:]))
