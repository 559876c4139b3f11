#!/usr/bin/env python3
"""Compares the interfaces with the code, argument by argument, and docs/FORMAT.md's fields with the code that reads them.

prototypes.py    reports whether they agree (exit status 1 if not)

- The functions of include/starlark.h have the parameters of crates/starlark_checks_c/src/lib.rt: their names and types, in order. A slice is a
  pointer and a length. tools/interfaces.py compares the header with the declarations for Rust.
- The package's ctypes signatures have the same types, and its methods pass the numbers (node, call, def, zone, ...) in the code's order. So
  do the calls of bindings/rust/src/interface.rs.
- What the header says about `out` for each number is what bindings/c/refusals has, the record of a C program that runs one case of each.
- Each constant of the header, and each enum that is not made by tools/interfaces.py from a list, is the code's or the definitions'.
- docs/FORMAT.md: the fields of a record, of a block, of block 0 and of a book's entry are where the code reads them.
"""
import ast
import ctypes
import re
import sys

from reports import ended, fault
from repository import CRATES, ROOT

sys.path[:0] = [str(ROOT / "python"), str(ROOT / "tools")]
import interfaces  # noqa: E402
from ducatmuffin import library  # noqa: E402

CODE = CRATES / "starlark_checks_c" / "src" / "lib.rt"
WRAPPER = ROOT / "bindings" / "rust" / "src" / "interface.rs"
PACKAGE = ROOT / "python" / "ducatmuffin" / "library.py"
PAGE = ROOT / "docs" / "FORMAT.md"
# the parameters of C for a type of the code: type and ending of the name
IN_C = {
    "&[u8]": [("const uint8_t *", ""), ("size_t ", "_len")],
    "&[u32]": [("const uint32_t *", ""), ("size_t ", "_len")],
    "&mut [u8]": [("uint8_t *", ""), ("size_t ", "_len")],
    "&mut [u32]": [("uint32_t *", ""), ("size_t ", "_len")],
    "&mut [u32; 12]": [("uint32_t *", "")],
    "&mut [u64; 32]": [("uint64_t *", "")],
    "usize": [("size_t ", "")],
    "u32": [("uint32_t ", "")],
}
# a type of C as ctypes may have it
IN_PYTHON = {"size_t ": [ctypes.c_size_t], "uint32_t ": [ctypes.c_uint32], "const uint8_t *": [ctypes.c_char_p, ctypes.c_void_p]}
# the fields of a record: their names in the code and on the page
FIELDS = {"kind": "kind", "detail": "detail", "name_len": "name length", "name_start": "name start", "begin": "begin", "stop": "end", "size": "size",
          "file": "file", "source": "name position"}
WIDTHS = {"byte": 1, "half": 2, "word": 4}
# the header's constants that something else compares: the version, made texts, and the stack, which bindings/c/stack.c measures
ELSEWHERE = {"VERSION", "VERSION_MAJOR", "VERSION_MINOR", "VERSION_PATCH", "STACK_BYTES", "DIALECT_STANDARD", "DIALECT_EXTENDED", "DIALECT_ALL"}
FAULTS = []


def report(message):
    FAULTS.append(message)


def found_in(path, pattern):
    """The first group of a pattern in a file of crates/, or None."""
    found = re.search(pattern, (CRATES / path).read_text(), re.M)
    return found[1] if found else None


# ---- functions


def of_code():
    """The functions of the code: name to its parameters, each a name and a type."""
    found = re.findall(r'^pub extern "C" fn starlark_(\w+)\(([^)]*)\) -> u32$', CODE.read_text(), re.M)
    return {name: [tuple(word.strip().split(": ")) for word in words.split(",") if word.strip()] for name, words in found}


def in_c(parameters):
    """Parameters of the code as those of C: type and name."""
    return [(kind, name + end) for name, of in parameters for kind, end in IN_C[of]]


def of_header():
    """The functions of the header: name to its parameters, each a type and a name."""
    found = re.findall(r"^uint32_t starlark_(\w+)\(([^;]*)\);", interfaces.HEADER.read_text(), re.M)
    return {name: [re.fullmatch(r"(.*?)(\w+)", word).groups() for word in re.split(r",\s*", words) if word != "void"] for name, words in found}


def header_functions(code):
    header = of_header()
    for name in sorted(set(code) ^ set(header)):
        report(fault(f"include/starlark.h: starlark_{name} is in the {'code' if name in code else 'header'} alone"))
    for name in sorted(set(code) & set(header)):
        if header[name] != in_c(code[name]):
            report(fault(f"include/starlark.h: the parameters of starlark_{name} are not the code's: {', '.join(a + b for a, b in in_c(code[name]))}"))


def package_functions(code):
    """The ctypes signatures, and the order of the numbers that the methods pass."""
    for name in sorted(set(code) ^ set(library.FUNCTIONS)):
        report(fault(f"python/ducatmuffin/library.py: starlark_{name} is in {'the code' if name in code else 'FUNCTIONS'} alone"))
    for name in sorted(set(code) & set(library.FUNCTIONS)):
        wanted = [IN_PYTHON.get(kind, [ctypes.c_void_p]) for kind, _ in in_c(code[name])]
        found = library.FUNCTIONS[name]
        if len(found) != len(wanted) or any(kind not in may for kind, may in zip(found, wanted)):
            report(fault(f"python/ducatmuffin/library.py: FUNCTIONS has other types for starlark_{name} than the code"))
    methods = [part for one in ast.parse(PACKAGE.read_text()).body if isinstance(one, ast.ClassDef) and one.name == "Library" for part in one.body]
    for method in (part for part in methods if isinstance(part, ast.FunctionDef) and part.name in code):
        order = scalars(code[method.name])
        passed = [[word.arg for word in method.args.args]]
        passed += [names_in(call) for call in ast.walk(method) if isinstance(call, ast.Call)]
        if any(in_order(names, order) != sorted(in_order(names, order)) for names in passed):
            report(fault(f"python/ducatmuffin/library.py: {method.name} has {' and '.join(order)} in another order than the code"))


def scalars(parameters):
    return [name for name, of in parameters if of in ("usize", "u32")]


def in_order(names, order):
    """The places, in the code's order, of those names that are in it."""
    return [order.index(name.rstrip("_")) for name in names if name.rstrip("_") in order]


def names_in(call):
    """The names in a call's arguments, in their order; what a call within it has counts there."""
    return [word.id for part in call.args for word in ast.walk(part) if isinstance(word, ast.Name)]


def wrapper_functions(code):
    """The calls of the Rust wrapper: each number in its place, in the call and in the function around it."""
    text = WRAPPER.read_text()
    for name, parameters in code.items():
        wanted = {at: of for at, (_, of) in enumerate(in_c(parameters)) if of in scalars(parameters)}
        calls = [re.split(r",\s*", words.strip().rstrip(",")) for words in re.findall(rf"\bstarlark_{name}\(((?:[^()]|\(\))*)\)", text)]
        if not calls:
            report(fault(f"bindings/rust/src/interface.rs: starlark_{name} is not called"))
        for words in calls:
            if any(at >= len(words) or words[at] != of for at, of in wanted.items()):
                report(fault(f"bindings/rust/src/interface.rs: starlark_{name} is not called with {', '.join(wanted.values())} where the code has them"))
    for own, words, body in re.findall(r"^pub fn (\w+)\(([^)]*)\) -> u32 \{\n(.*?)^\}", text, re.M | re.S):
        called = re.search(r"\bstarlark_(\w+)\(", body)
        order = scalars(code.get(called[1], [])) if called else []
        places = in_order(re.findall(r"(\w+):", words), order)
        if places != sorted(places):
            report(fault(f"bindings/rust/src/interface.rs: {own} takes {' and '.join(order)} in another order than the code"))


# ---- what a refusal writes into `out`


def numbers_of(text):
    """The numbers of '1, 2, 70 to 75 and 90'."""
    return [n for first, last in re.findall(r"(\d+)(?: to (\d+))?", text) for n in range(int(first), int(last or first) + 1)]


def words_said():
    """Which words of `out` each number writes, by the header: numbers to places, and under "all others" those of the rest."""
    text = re.search(r"\* `out`, twelve words\n(.*?)^ \*   Every word that is not named", interfaces.HEADER.read_text(), re.M | re.S)
    rows, said = [], {}
    for line in text[1].splitlines() if text else []:
        label, words = line[5:19].strip(), line[19:]
        if label:
            rows.append([label, words])
        else:
            rows[-1][1] += " " + words
    for label, words in rows:
        places = set() if words.startswith("nothing") else {int(place) for place in re.findall(r"out\[(\d+)\]", words)}
        also = re.search(r"; the same for (.*)$", words)
        if label == "all others":
            said[label] = places
        elif label[0].isdigit():
            said.update({n: places for n in numbers_of(label) + numbers_of(also[1] if also else "")})
    return said


def recorded_words():
    """The words of `out` after each number, by the record: a dot for one that did not change. Numbers of lists and notices, which are not refusals,
    are left out."""
    record = (ROOT / "bindings" / "c" / "refusals").read_text()
    return {int(n): out.split() for n, out in re.findall(r"^(\d+) .*; out (.*)$", record, re.M)}


def out_words():
    said, recorded = words_said(), recorded_words()
    if "all others" not in said or len(recorded) < 2:
        report(fault("include/starlark.h: the table of `out` cannot be read, or bindings/c/refusals has no record"))
    for number, words in recorded.items():
        places = {at for at, word in enumerate(words) if word != "."}
        wanted = {0, 1} if number == 63 else said.get(number, said.get("all others", set()))  # 63: see starlark_fstring_read
        if places != wanted:
            report(fault(f"include/starlark.h: {number} writes the words {sorted(places)} of `out`, and the header says {sorted(wanted)}"))
    earlier = re.search(r"out\[3\] STARLARK_NONE; but for (\d+) and (\d+),", interfaces.HEADER.read_text())
    carrying = [number for number, words in recorded.items() if words[3] not in (".", "none")]
    if not earlier or carrying != [int(number) for number in earlier.groups()]:
        report(fault(f"include/starlark.h: the numbers that carry an earlier node are {carrying}"))


# ---- constants


def constants():
    """The header's constants and where each comes from."""
    said = dict(re.findall(r"^#define STARLARK_(\w+) (.*)$", interfaces.HEADER.read_text(), re.M))
    nodes, block = number("table/src/lib.rt", "MOST_NODES"), number("blocks/src/lib.rt", "BLOCK_BYTES")
    largest = block * number("tablefile/src/lib.rt", "MOST_BLOCKS")
    wanted = {
        "ACCEPTED": int(found_in("starlark_checks/specs/Words.antt", r"^number \(accepted vs\) = (\d+)$")),
        "NONE": int(found_in("starlark_checks/src/lib.rt", r"^    p\.unwrap_or\((0x[\dA-F_]+)\)$"), 16),
        "WORDS": int(found_in("starlark_checks_c/src/lib.rt", r"^pub extern .*out: &mut \[u32; (\d+)\]\)")),
        "FIGURES": number("figures/src/lib.rt", "FIGURES"),
        "MOST_FILES": number("figures/src/lib.rt", "MOST_FILES"),
        "FILE_BYTES": largest,
        "WINDOW_BYTES": largest,
        "ERRORS": nodes * int(found_in("validate/proofs/Theorems.antt", r"pub errors_few : .* ≤ (\d+) \* \(length t / 24\)$")),
        "AUDIT_ERRORS": nodes * int(found_in("audit/proofs/Theorems.antt", r"pub errors_few : .* ≤ (\d+) \* \(length t / 24\)$")),
        "DIALECT_BYTES": len(interfaces.switches()),
    }
    for name, text in said.items():
        if name in wanted:
            if whole(text) != wanted[name]:
                report(fault(f"include/starlark.h: STARLARK_{name} is {text}, and {wanted[name]} in the code"))
        elif name not in interfaces.IN_CODE and name not in ELSEWHERE:
            report(fault(f"include/starlark.h: nothing says where STARLARK_{name} comes from"))
    for name in sorted({*wanted, *interfaces.IN_CODE} - set(said)):
        report(fault(f"include/starlark.h: STARLARK_{name} is not there"))


def number(path, name):
    return interfaces.code_value((CRATES / path).read_text(), name)


def whole(text):
    """The number of a constant: 12, (1 << 18), UINT32_C(0xFFFFFFFF)."""
    found = re.fullmatch(r"UINT32_C\((0x[\dA-F]+)\)", text.strip())
    return int(found[1], 16) if found else interfaces.value(text)


def enum_of(name):
    """The cases of an enum of the header."""
    body = re.search(rf"^enum starlark_{name} \{{\n(.*?)^\}};", interfaces.HEADER.read_text(), re.M | re.S)
    return {case: int(of) for case, of in re.findall(rf"^    STARLARK_{name.upper()}_(\w+) = (\d+),", body[1], re.M)} if body else {}


def enums():
    """The enums that are written by hand, and the places of figures."""
    editions = dict(re.findall(r"\(eqb n (\d+)\) \(λ _\. Some (One|Two)\)", (CRATES / "dialect" / "specs" / "Editions.antt").read_text()))
    if enum_of("edition") != {{"One": "1", "Two": "2"}[of]: int(word) for word, of in editions.items()}:
        report(fault("include/starlark.h: enum starlark_edition does not have the editions of crates/dialect/specs/Editions.antt"))
    words = dict(re.findall(r"\(eqb kind (\d+)\) \(λ _\. (text|str|repr)", (CRATES / "fstring" / "specs" / "Words.antt").read_text()))
    parts = {of.upper(): int(word) for word, of in words.items()}
    parts["NONE"] = ({0, 1, 2, 3} - set(parts.values())).pop()
    if enum_of("part") != parts:
        report(fault("include/starlark.h: enum starlark_part does not have the words of crates/fstring/specs/Words.antt"))
    places = {case: number("figures/src/lib.rt", case) for case in ("FILES", "NODES", "LISTS", "CALLS_ACCEPTED", "CALLS_REFUSED")}
    places |= {"MODE_POS_ONLY": number("figures/src/lib.rt", "MODES"), "ERROR_10": number("figures/src/lib.rt", "ERRORS")}
    for case, place in places.items():
        if enum_of("figure").get(case) != place:
            report(fault(f"include/starlark.h: STARLARK_FIGURE_{case} is not {place}, where crates/figures/src/lib.rt has it"))


# ---- docs/FORMAT.md


def page_fields(head):
    """The fields of the page's table with this head: the first and last byte, and the field."""
    text, rows = PAGE.read_text(), []
    at = text.find(f"| {head} | Field |")
    for line in text[at:].splitlines()[2:] if at >= 0 else []:
        found = re.match(r"\| (\d+)(?: to (\d+))? \| ([\w ]*?) *\|", line)
        if not found:
            break
        rows.append((int(found[1]), int(found[2] or found[1]), found[3]))
    return rows


def read_at(path, pattern):
    """Where the code reads a field: its first and last byte, from a call fields::byte, half or word."""
    found = re.search(pattern.replace("FIELD", r"fields::(byte|half|word)\(\w+, (\d+)\)"), (CRATES / path).read_text(), re.S)
    return (int(found[2]), int(found[2]) + WIDTHS[found[1]] - 1) if found else None


def fields():
    """The tables of fields: each field is where the code reads it, and they follow each other without a gap."""
    record = [(*(read_at("forest/src/lib.rt", rf"\npub fn {name}\(t: &\[u8\]\) -> \w+\n[^{{]*{{[^\n]*\n{{\n    FIELD\n}}") or (None, None)), words)
              for name, words in FIELDS.items()]
    content = number("blocks/src/lib.rt", "CONTENT_BYTES")
    block = [(*(read_at("blocks/src/lib.rt", r"FIELD as usize == number") or (None, None)), "number"),
             (*(read_at("blocks/src/lib.rt", r"let said = FIELD") or (None, None)), "used"), (4, 3 + content, "content"),
             (*(read_at("blocks/src/lib.rt", r"sum\(b\) == FIELD") or (None, None)), "sum")]
    entry = [(*(read_at("books/src/places.rt", r"belongs\(line, FIELD\)") or (None, None)), "zone"),
             (*(read_at("books/src/places.rt", r"1 <= FIELD\)") or (None, None)), "setting"), (6, 5 + len(interfaces.switches()), "dialect"),
             (6 + len(interfaces.switches()), number("forest/src/lib.rt", "RECORD") - 1, "")]
    for head, wanted in (("Bytes", record), ("Bytes of a block", block), ("Bytes of an entry", entry)):
        found = page_fields(head)
        for one in wanted:
            if one not in found:
                report(fault(f"docs/FORMAT.md, \"{head}\": the code reads the field {one[2] or 'of zeros'} from byte {one[0]} to {one[1]}"))
        if [(begin, end) for begin, end, _ in found] != [(begin, end) for begin, end, _ in wanted]:
            report(fault(f"docs/FORMAT.md, \"{head}\": its fields do not follow each other as in the code"))


def main(_):
    FAULTS.clear()
    code = of_code()
    if not code:
        report(fault("crates/starlark_checks_c/src/lib.rt: no function is found"))
    header_functions(code)
    package_functions(code)
    wrapper_functions(code)
    out_words()
    constants()
    enums()
    fields()
    told = f"prototypes.py: the {len(code)} functions, the constants and the tables of fields are those of the code"
    return ended(FAULTS, told)


if __name__ == "__main__":
    sys.exit(main(sys.argv[1:]))
