#!/usr/bin/env python3
"""Compares the lists of numbers: the numbers that are given, the jobs that give them, their rules, and the kinds of records.

numbers.py          reports whether they agree, number by number and name by name (exit status 1 if not)
numbers.py --write  first writes docs/RULES.md

- docs/numbers.tsv, the constants of crates/table/src/numbers.rt and the definitions of its specs/Numbers.antt
- the column "given by" of docs/numbers.tsv and the comment of each job in include/starlark.h; a file gives what reader and module pass give
- docs/RULES.md and the rules and examples of python/ducatmuffin/rules.py; where the crate's published files are present, each line that a rule
  cites has the words that it cites
- the constants of crates/soundness/src/kinds.rt, the definitions of its specs/KindNumbers.antt, and the words of the package
- docs/kinds.tsv, those words, and the classes of crates/cases/sentences.txt; then what tools/interfaces.py makes for C and Rust
"""
import re
import sys

from reports import ended, fault
from repository import CRATES, ROOT

sys.path[:0] = [str(ROOT / "tools"), str(ROOT / "python")]
import interfaces  # noqa: E402
import kinds  # noqa: E402
from ducatmuffin import rules  # noqa: E402
from tables import tables  # noqa: E402

# the numbers, in the order of docs/RULES.md
GIVEN = [*range(1, 8), *range(10, 20), *range(20, 25), *range(30, 34), *range(40, 46), *range(50, 65), *range(70, 77), *range(80, 85), 90, 91,
         *range(95, 99)]
HEAD = ["number", "name", "meaning", "given by"]
JOBS = ["table", "params", "call", "bind", "namesakes", "target", "assignment", "type", "module", "audit", "write", "rescue", "read", "file",
        "fstring_write", "fstring_read", "book_lookup", "book_add", "book_remove", "book_blank", "figures", "figures_step"]


def capitals(name):
    """IF_ELSE as IfElse."""
    return "".join(word.capitalize() for word in name.split("_"))


def snake(name):
    """IfElse as if_else; FString as fstring."""
    return re.sub(r"([a-z0-9])([A-Z])", r"\1_\2", name).lower()


def said_of(path, pattern):
    """The (number, name) pairs of a source file, in its order."""
    return [(int(number), name) for name, number in re.findall(pattern, (CRATES / path).read_text(), re.M)]


def difference(wanted, found):
    """How a list differs from the wanted one, in words."""
    return f"differs: {sorted(set(wanted) ^ set(found)) or 'in its order'}"


def ranges(text):
    """The numbers of '1 to 4, 6'."""
    return [n for first, last in re.findall(r"(\d+)(?: to (\d+))?", text) for n in range(int(first), int(last or first) + 1)]


def given_by_jobs():
    """The numbers that each job gives: those of the header, and for a file those of the reader and the module pass."""
    given = {}
    for words, job in re.findall(r"/\*(.*?)\*/\nuint32_t starlark_(\w+)\(", (ROOT / "include" / "starlark.h").read_text(), re.S):
        words = words.rpartition("/*")[2]
        listed = re.findall(r": ([\d, to]+)\.\s+(?:\* )?Accepted", words) + re.findall(r"number \(([\d, to]+)\)", words)
        given[job] = set(ranges(", ".join(listed)))
    # a file is checked by the program and by starlark_check_file; the reader refuses with 74 what 1 and 2 would refuse
    given["file"] = given["module"] - {1, 2} | set(range(70, 76))
    return given


def of_numbers():
    """The faults of the numbers."""
    head, *rows = [line.split("\t") for line in (ROOT / "docs" / "numbers.tsv").read_text().splitlines()]
    if head != HEAD or any(len(row) != len(HEAD) or not row[2].strip() for row in rows):
        return [fault(f"docs/numbers.tsv: a row is not {', '.join(HEAD)}")], 0
    table = [(int(number), name) for number, name, _, _ in rows]
    faults = []
    if [number for number, _ in table] != GIVEN:
        faults.append(fault("docs/numbers.tsv: its numbers are not the known ones in their order"))
    code = said_of("table/src/numbers.rt", r"^pub const (\w+): u32 = (\d+);")
    if code != table:
        faults.append(fault(f"crates/table/src/numbers.rt {difference(table, code)}"))
    definitions, specs = [(number, name.lower()) for number, name in table], said_of("table/specs/Numbers.antt", r"^(\w+) = (\d+)$")
    if specs != definitions:
        faults.append(fault(f"crates/table/specs/Numbers.antt {difference(definitions, specs)}"))
    given = given_by_jobs()
    if given.pop("check_file", None) != given["file"]:
        faults.append(fault("include/starlark.h: starlark_check_file does not give the numbers that the program gives"))
    if given.pop("version", None):
        faults.append(fault("include/starlark.h: starlark_version gives a number, but it is not a job"))
    if sorted(given) != sorted(JOBS):
        return [*faults, fault(f"include/starlark.h: its jobs are not those of docs/numbers.tsv: {sorted(given)}")], 0
    for number, _, _, by in rows:
        wanted = ", ".join(job for job in JOBS if int(number) in given[job])
        if by != wanted:
            faults.append(fault(f"docs/numbers.tsv: {number} is given by '{by}', in the header by '{wanted}'"))
    return faults, len(table)


def of_kinds():
    """The faults of the kinds' numbers."""
    code = said_of("soundness/src/kinds.rt", r"^pub const (\w+): u8 = (\d+);")
    specs = said_of("soundness/specs/KindNumbers.antt", r"^kind_(\w+) = (\d+)$")
    words, faults = [(number, word) for word, number in tables.KIND.items()], []
    definitions = [(number, snake(word)) for number, word in words]
    if specs != definitions:
        faults.append(fault(f"crates/soundness/specs/KindNumbers.antt {difference(definitions, specs)}"))
    classes = {number: kind.own for number, kind in kinds.read((kinds.FOLDER / "sentences.txt").read_text()).items()}
    table = [tuple(line.split("\t")) for line in (ROOT / "docs" / "kinds.tsv").read_text().splitlines()]
    wanted = [("number", "name", "class")] + [(str(n), word, classes[n]) for n, word in words]
    if table != wanted:
        faults.append(fault(f"docs/kinds.tsv {difference(wanted, table)}"))
    in_code = [(number, capitals(name)) for number, name in code]
    if in_code != words:
        faults.append(fault(f"crates/soundness/src/kinds.rt {difference(words, in_code)}"))
    return faults, len(words)


PAGE = ROOT / "docs" / "RULES.md"
PUBLISHED = ROOT.parent / "shared" / "docs" / "src" / "src" / "syntax"
SECTIONS = [
    (1, 7, "Tables, nodes, dialects and buffers", "A job checks these in the order of their numbers, before its own rules. [FORMAT.md](FORMAT.md) has the format of a table."),
    (10, 19, "Parameter lists", "19 is checked first, then 10. Then each parameter in order: 11, and the rule of its kind (12 to 16). After the last one 17 and 18, for a bare `*`. "
     "The first error of a list is reported. An ordinary parameter is one without stars: `a`, `a=1`, `a: int`."),
    (20, 24, "Arguments of a call", "Accepted: positional arguments, then named ones, then one `*` at most, then one `**` at most. The first error of a call is reported."),
    (30, 33, "Targets and assignments", "Of an assignment, 31 is checked first, then 30, 32 and 33. The first error is reported."),
    (40, 45, "Types", "45 is checked first. Then a type is read from the left, what is before brackets before what is in them, and the first error is reported."),
    (50, 61, "Statements and expressions of a module", "The module pass reports all errors: first those of the statements, then those of the expressions, in the order of the script. "
     "A parameter list has 50 for each `*`, then 51 for each `/`, then one of 10 to 19. [FORMAT.md](FORMAT.md#the-dialect) has the switches of a dialect."),
    (62, 64, "Format texts of f-strings", "[FORMAT.md](FORMAT.md#format-texts) has what a format text is."),
    (70, 76, "Table files", "Checked for each block: 70, 72, 71, 73. After block 0: 74. After the last block: 75. Then 3 to 5. [FORMAT.md](FORMAT.md#a-table-file) has the blocks."),
    (80, 84, "Which argument reaches which parameter", "`ducat bind` first checks the two lists (10 to 24), then 80 for all arguments, 81 to 83 for each argument in order, 84 for all parameters."),
    (90, 91, "Rescue of a damaged file", "`ducat rescue` gives these where nothing can be kept."),
    (95, 98, "Books", "[FORMAT.md](FORMAT.md#books) has the format of a book and the order in which two books are checked."),
]
TOP = f"""# Rules

<!-- made by tools/gate/numbers.py --write from docs/numbers.tsv and python/ducatmuffin/rules.py -->

Every number that a command or a function gives: what it means, its rule, where the rule comes from, which jobs give it, and an example that gives it.
`ducat rule NUMBER` prints the same, and the tests run every example.

*From* cites a line of a file of the Rust crate {rules.CRATE}, with the words of that line, or a section of a document here for a rule that the
crate does not have. The crate's files are `def.rs`, `call.rs`, `grammar_util.rs`, `type_expr.rs` and `validate.rs` in its folder src/syntax.

*Given by* lists jobs. `ducat check` runs `audit` and, for a table file, `read`; `ducat check --module` runs `module`, and for a table file `file`; `ducat bind` runs `bind` and `namesakes`;
`ducat rescue`, `ducat write`, `ducat book` and `ducat figures` run the jobs of their names. [include/starlark.h](../include/starlark.h) has a function for each job.

"""


def section(first, last, title, text, rows):
    """A section of docs/RULES.md: the numbers from first to last, each with its meaning, rule, source, jobs and example."""
    parts = [f"## {first} to {last}: {title}" if last - first > 1 else f"## {first}, {last}: {title}", text]
    for number, name, meaning, by in rows:
        if first <= int(number) <= last:
            rule, example = rules.RULES[int(number)], rules.EXAMPLES[int(number)]
            source = rule.source
            where = f"[{source.file}]({source.file.replace('docs/', '')}), \"{source.words}\"" if source.file.startswith("docs/") else (
                f"`{source.file}`, line {source.line}: `` {source.words} ``" if source.line else f"[{source.file}](../{source.file}), {source.words}")
            lines = "\n".join(f"      {line}" for line in example.text.split("\n"))
            parts += [f"### {number} {name}", f"{meaning[0].upper()}{meaning[1:]}.",
                      f"- Rule: {rule.text}\n- From: {where}\n- Given by: {by}\n- Example: {example.words()}\n\n{lines}"]
    return parts


def page(rows):
    return TOP + "\n\n".join(part for one in SECTIONS for part in section(*one, rows)) + "\n"


def of_rules(write):
    """The faults of docs/RULES.md, and of the lines of the crate that the rules cite."""
    _, *rows = [line.split("\t") for line in (ROOT / "docs" / "numbers.tsv").read_text().splitlines()]
    if [*rules.RULES] != GIVEN or [*rules.EXAMPLES] != GIVEN or [n for first, last, *_ in SECTIONS for n in GIVEN if first <= n <= last] != GIVEN:
        return [fault("python/ducatmuffin/rules.py: its numbers are not those of docs/numbers.tsv")]
    if write:
        PAGE.write_text(page(rows))
    faults = []
    if not PAGE.exists() or PAGE.read_text() != page(rows):
        faults.append(fault("docs/RULES.md is not what the lists give (tools/gate/numbers.py --write makes it)"))
    for number, (_, source) in rules.RULES.items():
        if source.line and PUBLISHED.exists() and source.words not in (PUBLISHED / source.file).read_text().splitlines()[source.line - 1]:
            faults.append(fault(f"python/ducatmuffin/rules.py: {number}: line {source.line} of {source.file} does not have: {source.words}"))
        document = ROOT / source.file
        if not source.line and not (document.exists() and (document.suffix != ".md" or f"\n## {source.words}\n" in document.read_text())):
            faults.append(fault(f"python/ducatmuffin/rules.py: {number}: {source.file} has no section {source.words}"))
    return faults


def main(words):
    (faults, count), (more, known) = of_numbers(), of_kinds()
    faults += more
    faults += [] if faults else of_rules("--write" in words)
    faults += [] if faults else interfaces.faults()
    said = f"docs/numbers.tsv: its {count} numbers, names, jobs and rules, and the {known} kinds, are those of code, definitions, header, wrapper and docs/RULES.md"
    return ended(faults, said)


if __name__ == "__main__":
    sys.exit(main(sys.argv[1:]))
