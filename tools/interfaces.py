#!/usr/bin/env python3
"""Makes the numbers and kinds for C, Rust and Python from docs/numbers.tsv and docs/kinds.tsv, and compares the interfaces.

interfaces.py           reports whether everything agrees (exit status 1 if not)
interfaces.py --write   first writes what is made

Made: the enums and the dialects of include/starlark.h; include/starlark_names.h; bindings/rust/src/made.rs; python/ducatmuffin/numbers.py.
Compared: the version, which the header has, the Rust crates, the Python package and the code; the header's constants with those of the code
and of bindings/rust/src/lib.rs; its functions with the declarations of bindings/raw/src/lib.rs. tools/gate/numbers.py compares the two lists with
the code.
"""
import pathlib
import re
import sys

sys.path.append(str(pathlib.Path(__file__).resolve().parent / "gate"))
from reports import ended, fault  # noqa: E402
from repository import CRATES, ROOT  # noqa: E402

HEADER, NAMES = ROOT / "include" / "starlark.h", ROOT / "include" / "starlark_names.h"
RUST, RAW = ROOT / "bindings" / "rust", ROOT / "bindings" / "raw"
PYTHON = ROOT / "python" / "ducatmuffin"
# the header's constants that the wrapper has too, and where the code has them
SHARED = ["WORDS", "NODES", "NODE_BYTES", "NAME_BYTES", "DEPTH", "PARAMETERS", "FILE_BYTES", "ERRORS", "ERROR_WORDS", "AUDIT_ERRORS", "AUDIT_WORDS",
          "STACK_BYTES", "DIALECT_BYTES", "FIGURES", "WINDOW_BYTES"]
IN_CODE = {"NODES": "table/src/lib.rt: MOST_NODES", "NAME_BYTES": "table/src/lib.rt: MOST_NAMES", "DEPTH": "table/src/depth.rt: MOST_DEPTH",
           "NODE_BYTES": "forest/src/lib.rt: RECORD", "PARAMETERS": "deflist/src/lib.rt: MOST_PARAMETERS",
           "LAST_FILE": "soundness/src/sound.rt: LAST_FILE", "ERROR_WORDS": "errors/src/lib.rt: WIDTH",
           "AUDIT_WORDS": "errors/src/lib.rt: WIDTH_WITH_NODE"}
# the bytes that starlark_params and starlark_type store, as crates/deflist/specs and crates/types/specs define them
MODES = ["PosOnly", "PosOrName", "NameOnly", "Args", "Kwargs"]
SHAPES = ["Ellipsis", "Path", "Index", "Index2", "List", "Union", "Tuple"]
# the errors that starlark_figures counts
COUNTED = [*range(10, 20), *range(50, 62)]
# the dialects of crates/dialect that have a name, and what the interfaces call them
DIALECTS = {"Standard": "STANDARD", "Extended": "EXTENDED", "AllOptionsInternal": "ALL"}


class Unmade(Exception):
    """The lists or the header do not give what is to be made."""


def rows(name):
    """The rows of a list in docs/, without its head."""
    return [line.split("\t") for line in (ROOT / "docs" / name).read_text().splitlines()[1:]]


def capitals(name):
    """IF_ELSE as IfElse; a name with small letters is not changed."""
    return "".join(word.capitalize() for word in name.split("_")) if name.isupper() else name


def constant(name):
    """IfElse as IF_ELSE; Index2 as INDEX2."""
    return re.sub(r"(?<!^)([A-Z])", r"_\1", name).upper()


def constant_name(name):
    """pos_only as PosOnly."""
    return "".join(word.capitalize() for word in name.split("_"))


def in_c(words):
    """Words as they may be in a comment or a string of C."""
    if re.search(r'\*/|/\*|["\\]', words):
        raise Unmade(fault(f"docs/numbers.tsv: neither a comment nor a string of C may hold these words: {words}"))
    return words


def c_enum(name, lines):
    return f"enum starlark_{name} {{\n" + "".join(f"    {line}\n" for line in lines) + "};\n"


def number_enum():
    return c_enum("number", [f"STARLARK_NUMBER_{name} = {number}, /* {in_c(words)} */" for number, name, words, _ in rows("numbers.tsv")])


def kind_enum():
    return c_enum("kind", [f"STARLARK_KIND_{constant(name)} = {number}, /* {own} */" for number, name, own in rows("kinds.tsv")])


def listed_enum(name, cases):
    """An enum of C whose numbers count from 1."""
    return c_enum(name, [f"STARLARK_{name.upper()}_{constant(case)} = {number}," for number, case in enumerate(cases, 1)])


def figure_enum():
    """The places of the counts of starlark_figures."""
    cases = ["FILES", "NODES", "LISTS", *(f"MODE_{constant(mode)}" for mode in MODES), "CALLS_ACCEPTED", "CALLS_REFUSED",
             *(f"ERROR_{number}" for number in COUNTED)]
    return c_enum("figure", [f"STARLARK_FIGURE_{case} = {place}," for place, case in enumerate(cases)])


def switches():
    """The names of a dialect's switches in the code."""
    return re.findall(r"^    pub (enable_\w+):", (CRATES / "dialect" / "src" / "lib.rt").read_text(), re.M)


def dialects():
    """The dialects that have a name, by the interfaces' names: their bytes in the code."""
    code = (CRATES / "dialect" / "src" / "lib.rt").read_text()
    names = re.findall(r"^    (\w+),$", re.search(r"^pub enum Name \{\n(.*?)^\}", code, re.M | re.S)[1], re.M)
    rows_found = [[int(digit) for digit in re.findall(r"\d", row)] for row in re.findall(r"^    \[([\d, ]+)\],$", code, re.M)]
    if names != list(DIALECTS) or any(len(row) != len(switches()) for row in rows_found):
        raise Unmade(fault("crates/dialect/src/lib.rt: its dialects are not those of tools/interfaces.py"))
    return {DIALECTS[name]: row for name, row in zip(names, rows_found)}


def with_dialects(text):
    """The header's text with the bytes of the dialects."""
    for name, row in dialects().items():
        made = f'#define STARLARK_DIALECT_{name} ((const uint8_t *)"{"".join(f"{chr(92)}{byte}" for byte in row)}")'
        text, count = re.subn(rf"^#define STARLARK_DIALECT_{name}\b.*$", lambda _: made, text, flags=re.M)
        if count != 1:
            raise Unmade(fault(f"include/starlark.h has STARLARK_DIALECT_{name} {count} times"))
    return text


def header_constants(header):
    """The header's constants, without STARLARK_: name to number."""
    said = dict(re.findall(r"^#define STARLARK_(\w+) (.*)$", header, re.M))
    return {name: value(text) for name, text in said.items() if value(text) is not None}


def python():
    """The Python package's module `numbers`."""
    numbers, kinds = rows("numbers.tsv"), rows("kinds.tsv")
    limits = header_constants(HEADER.read_text())

    def listed(name, words, cases):
        return f"# {words}\n{name} = {{\n" + "".join(f"    {key!r}: {text}," + "\n" for key, text in cases) + "}\n"

    parts = [
        "# what a function returns that accepts, and the word for \"no place\" and \"no earlier node\"\nACCEPTED = 0\nNONE = 0xFFFFFFFF\n",
        "# the limits of include/starlark.h; OUT_WORDS is the number of words that an answer has\n"
        + "".join(f"{'OUT_WORDS' if name == 'WORDS' else name} = {limits[name]}\n" for name in SHARED)
        + f"MOST_FILES = {limits['MOST_FILES']}\n",
        listed("NUMBERS", "the name of each number", [(int(number), f'"{name}"') for number, name, _, _ in numbers]),
        listed("WORDS", "what each number means", [(int(number), f'"{in_c(words)}"') for number, _, words, _ in numbers]),
        listed("GIVEN", "the jobs that give each number", [(int(number), f'"{jobs}"') for number, _, _, jobs in numbers]),
        listed("KINDS", "the name and the class of each kind", [(int(number), f'("{name}", "{own}")') for number, name, own in kinds]),
        "# the number of each kind by its name\nKIND = {name: number for number, (name, _) in KINDS.items()}\n",
        listed("DIALECTS", "the dialects that have a name", [(name.lower(), f"bytes({row})") for name, row in dialects().items()])
        .replace("'", '"'),
        "# what each byte of a dialect switches\nSWITCHES = (\n" + "".join(f'    "{name}",\n' for name in switches()) + ")\n",
        listed("MODES", "the modes of parameters", [(number, f'"{name}"') for number, name in enumerate(MODES, 1)]),
        listed("SHAPES", "the shapes of types", [(number, f'"{name}"') for number, name in enumerate(SHAPES, 1)]),
    ]
    return '"""The numbers, kinds, limits, dialects, modes and shapes.\n\nMade by tools/interfaces.py from docs/numbers.tsv, docs/kinds.tsv, ' \
           'include/starlark.h and crates/dialect.\n"""\n' + "\n".join(parts)


def c_switch(name, what, cases):
    """A function of C from a number to a text."""
    lines = "".join(f'    case {case}: return "{in_c(text)}";\n' for case, text in cases)
    return f'/* {what} */\nstatic inline const char *starlark_{name}(uint32_t {name.split("_")[0]}) {{\n' \
           f"    switch ({name.split('_')[0]}) {{\n{lines}    default: return \"unknown\";\n    }}\n}}\n"


def names_header():
    numbers, kinds = rows("numbers.tsv"), rows("kinds.tsv")
    parts = [
        c_switch("number_name", "The name of a number, as docs/numbers.tsv has it; \"ACCEPTED\" for 0, \"unknown\" for any other value.",
                 [("STARLARK_ACCEPTED", "ACCEPTED")] + [(f"STARLARK_NUMBER_{name}", name) for _, name, _, _ in numbers]),
        c_switch("number_words", "What a number means, in words.",
                 [("STARLARK_ACCEPTED", "accepted")] + [(f"STARLARK_NUMBER_{name}", words) for _, name, words, _ in numbers]),
        c_switch("kind_name", "The name of a kind of records, as docs/kinds.tsv has it; \"unknown\" for any other value.",
                 [(f"STARLARK_KIND_{constant(name)}", name) for _, name, _ in kinds]),
    ]
    return "/* Numbers and kinds in words, for printing. To call the checks, starlark.h is enough.\n" \
           " * Made by tools/interfaces.py from docs/numbers.tsv and docs/kinds.tsv. */\n" \
           "#ifndef STARLARK_NAMES_H\n#define STARLARK_NAMES_H\n\n#include \"starlark.h\"\n\n" + "\n".join(parts) + "\n#endif\n"


def rust_enum(name, words, of, cases):
    """An enum of Rust: its words, the type of its numbers, and its cases, each with its words."""
    lines = "".join(f"    /// {said}\n    {capitals(case)} = {number},\n" for number, case, said in cases)
    return f"/// {words}\n#[derive(Clone, Copy, Debug, PartialEq, Eq, PartialOrd, Ord, Hash)]\n#[repr({of})]\n#[non_exhaustive]\n" \
           f"pub enum {name} {{\n{lines}}}\n"


def rust():
    numbers, kinds = rows("numbers.tsv"), rows("kinds.tsv")
    number = rust_enum("Number", "A number given back: why a job refuses, an error of a module, or a notice (62).", "u32",
                       [(number, name, words) for number, name, words, _ in numbers])
    kind = rust_enum("Kind", "The kind of a record: its byte 0. docs/FORMAT.md has what each takes below it.", "u8",
                     [(number, name, f"{own.capitalize()} {number}.") for number, name, own in kinds])
    mode = rust_enum("Mode", "The mode of a parameter: what [`crate::Table::params`] stores for each.", "u8",
                     [(at, name, f"Mode {at}.") for at, name in enumerate(MODES, 1)])
    shape = rust_enum("Shape", "The shape of a type: what [`crate::Table::type_shape`] stores for each node that it reads as a type.", "u8",
                      [(at, name, f"Shape {at}.") for at, name in enumerate(SHAPES, 1)])
    named_rows = "".join(f"    /// The dialect {name}.\n    pub const {DIALECTS[name]}: [u8; {len(row)}] = {row};\n"
                         for name, row in zip(DIALECTS, dialects().values()))
    lists = "".join(f"/// Each {what.lower()}.\npub const {what.upper()}S: [{what}; {len(cases)}] = ["
                    + ", ".join(f"{what}::{name}" for name in cases) + "];\n\n" for what, cases in (("Mode", MODES), ("Shape", SHAPES)))
    said = "".join(f'    (Number::{capitals(name)}, "{name}", "{in_c(words)}"),\n' for _, name, words, _ in numbers)
    named = "".join(f'    (Kind::{name}, "{name}", Class::{own.capitalize()}),\n' for _, name, own in kinds)
    return "//! The numbers and kinds, with their names and words. Made by tools/interfaces.py from docs/numbers.tsv and docs/kinds.tsv.\n\n" \
           f"use crate::Class;\n\n{number}\n{kind}\n{mode}\n{shape}\n{lists}" \
           f"/// The dialects that have a name, as their nine bytes.\npub mod dialect {{\n{named_rows}}}\n\n" \
           f"/// Each number, its name and what it means.\npub const NUMBERS: [(Number, &str, &str); {len(numbers)}] = [\n{said}];\n\n" \
           f"/// Each kind, its name and its class.\npub const KINDS: [(Kind, &str, Class); {len(kinds)}] = [\n{named}];\n"


def with_enum(text, name, made):
    """The header's text with this enum in the place of the one of its name."""
    found, count = re.subn(rf"^enum starlark_{name} \{{\n.*?^\}};\n", lambda _: made, text, flags=re.M | re.S)
    if count != 1:
        raise Unmade(fault(f"include/starlark.h has the enum starlark_{name} {count} times"))
    return found


def made():
    """What is made: each file's text as it must be."""
    header = with_dialects(HEADER.read_text())
    enums = {"number": number_enum(), "kind": kind_enum(), "mode": listed_enum("mode", MODES), "shape": listed_enum("shape", SHAPES),
             "figure": figure_enum()}
    for name, enum in enums.items():
        header = with_enum(header, name, enum)
    return {HEADER: header, NAMES: names_header(), RUST / "src" / "made.rs": rust(), PYTHON / "numbers.py": python()}


def value(text):
    """A constant's number: 2_100, 1 << 18, (1 << 18)."""
    factors = re.fullmatch(r"\(?([\d_]+)(?: << (\d+))?\)?", text.strip())
    return int(factors[1].replace("_", "")) << int(factors[2] or 0) if factors else None


def versions():
    """The faults of the version: the header has it as three numbers and as a string."""
    header = HEADER.read_text()
    parts = [re.search(rf"^#define STARLARK_VERSION_{part} (\d+)$", header, re.M) for part in ("MAJOR", "MINOR", "PATCH")]
    if not all(parts):
        return [fault("include/starlark.h: the version is not there as three numbers")]
    version = ".".join(part[1] for part in parts)
    held = {"include/starlark.h": re.search(r'^#define STARLARK_VERSION "(.*)"$', header, re.M),
            "bindings/rust/Cargo.toml": re.search(r'^version = "(.*)"$', (RUST / "Cargo.toml").read_text(), re.M),
            "bindings/raw/Cargo.toml": re.search(r'^version = "(.*)"$', (RAW / "Cargo.toml").read_text(), re.M),
            "python/ducatmuffin/__init__.py": re.search(r'^__version__ = "(.*)"$', (PYTHON / "__init__.py").read_text(), re.M)}
    told = [fault(f"{path}: the version is not {version}") for path, found in held.items() if not found or found[1] != version]
    defined = re.search(r"^version = version_of (\d+) (\d+) (\d+)$", (CRATES / "starlark_checks" / "specs" / "Version.antt").read_text(), re.M)
    if not defined or ".".join(defined.groups()) != version:
        told.append(fault(f"crates/starlark_checks/specs/Version.antt: the version is not {version}"))
    return told


def constants():
    """The faults of the header's constants: the code and the wrapper have the same."""
    faults, wrapper = [], (RUST / "src" / "lib.rs").read_text()
    said = dict(re.findall(r"^#define STARLARK_(\w+) (.*)$", HEADER.read_text(), re.M))
    for name in SHARED:
        found = re.search(rf"^pub const {name}: usize = (.*);$", wrapper, re.M)
        if not found or value(found[1]) is None or value(found[1]) != value(said.get(name, "")):
            faults.append(fault(f"bindings/rust/src/lib.rs: {name} is not the header's STARLARK_{name}"))
    for name, (path, of) in {name: place.split(": ") for name, place in IN_CODE.items()}.items():
        found = code_value((CRATES / path).read_text(), of)
        if found is None or found != value(said.get(name, "")):
            faults.append(fault(f"include/starlark.h: STARLARK_{name} is not {of} of crates/{path}"))
    return faults


def code_value(code, name):
    """The number of a constant of the code: 4, or another constant plus a number; None if it is neither."""
    found = re.search(rf"^(?:pub )?const {name}: \w+ = (.*);", code, re.M)
    added = re.fullmatch(r"([A-Z_]+) \+ (\d+)", found[1]) if found else None
    if added:
        base = code_value(code, added[1])
        return None if base is None else base + int(added[2])
    return value(found[1]) if found else None


def stored():
    """The faults of modes and shapes: their bytes are those of the definitions."""
    modes = re.findall(r"^mode_(\w+) = (\d+)$", (CRATES / "deflist" / "specs" / "Unpack.antt").read_text(), re.M)
    modes = [(constant_name(name), byte) for name, byte in modes]
    forms = (CRATES / "types" / "specs" / "Forms.antt").read_text()
    shapes = [row for row in re.findall(r"^shape_of (\w+) = (\d+)$", forms, re.M) if row[0] not in ("List", "Other")]
    shapes += [("List", re.search(r"^list_shape = (\d+)$", forms, re.M)[1])]
    told = []
    for what, cases, found in (("modes", MODES, modes), ("shapes", SHAPES, shapes)):
        if sorted((int(byte), name) for name, byte in found) != list(enumerate(cases, 1)):
            told.append(fault(f"tools/interfaces.py: the {what} are not those of the definitions"))
    return told


def declared():
    """The faults of the functions: Rust declares, and Python calls, those of the header with the same arguments, in the same order."""
    told, kinds_c = [], {"uint32_t *": "*mut u32", "uint8_t *": "*mut u8", "const uint8_t *": "*const u8", "const uint32_t *": "*const u32",
                         "uint64_t *": "*mut Counts", "size_t ": "usize", "uint32_t ": "u32"}
    header = dict(re.findall(r"^uint32_t starlark_(\w+)\(([^;]*)\);", HEADER.read_text(), re.M))
    rust_text = dict(re.findall(r"^    pub fn starlark_(\w+)\(([^;]*?),?\s*\) -> u32;", (RAW / "src" / "lib.rs").read_text(), re.M))
    for name, words in header.items():
        wanted = []
        for word in re.split(r",\s*", words) if words != "void" else []:
            kind, of = re.fullmatch(r"(.*?)(\w+)", word).groups()
            wanted.append(f"{of}: {'*mut Words' if of == 'out' else kinds_c.get(kind)}")
        if re.split(r",\s*", rust_text.get(name, "none").strip()) != (wanted or [""]):
            told.append(fault(f"bindings/raw/src/lib.rs: starlark_{name} is not declared as in the header"))
    if sorted(header) != sorted(rust_text):
        told.append(fault("bindings/raw/src/lib.rs declares other functions than the header"))
    return told


def faults():
    """All faults."""
    try:
        differ = [path for path, text in made().items() if not path.exists() or path.read_text() != text]
    except Unmade as unmade:
        return [*unmade.args]
    told = [fault(f"{path.relative_to(ROOT)} is not what the lists give (tools/interfaces.py --write makes it)") for path in differ]
    return told + versions() + constants() + stored() + declared()


def main(words):
    if words == ["--write"]:
        for path, text in made().items():
            path.write_text(text)
    return ended(faults(), "interfaces.py: C, Rust and Python have the enums, names, constants, functions and version of the lists and the header")


if __name__ == "__main__":
    sys.exit(main(sys.argv[1:]))
