"""The faults that tools/tests/try_checks.py plants, check by check: for each message of a script at least one, and what a script must accept.

A plant is a function of a Room, the copy. It raises Unplanted if the files have no place for it.
"""
import re

from trial import Check, Planted, Unplanted


# ---- ways to plant

def changed(file, old, new):
    """The first match of a pattern in a file, replaced."""
    def plant(room):
        text = room.read(file)
        after, times = re.subn(old, new, text, count=1, flags=re.M | re.S)
        if not times or after == text:
            raise Unplanted(f"{file} has no {old}")
        room.write(file, after)
    return plant


def byte_changed(file, at):
    """A byte of a file that is not text."""
    def plant(room):
        data = bytearray((room.root / file).read_bytes())
        data[at] ^= 1
        room.write(file, bytes(data))
    return plant


def added(file, more):
    """A text at the end of a file."""
    return changed(file, r"\Z", lambda _: "\n" + more)


def created(file, text):
    return lambda room: room.write(file, text)


def removed(file):
    def plant(room):
        if not (room.root / file).exists():
            raise Unplanted(f"there is no {file}")
        room.delete(file)
    return plant


def all_of(*plants):
    def plant(room):
        for one in plants:
            one(room)
    return plant


def exchanged(file, pattern):
    """The first two lines of a file that match a pattern, exchanged."""
    def plant(room):
        text = room.read(file)
        lines = re.findall(rf"^{pattern}\n", text, re.M)
        if len(lines) < 2:
            raise Unplanted(f"{file} has no two lines {pattern}")
        one, two = lines[:2]
        room.write(file, text.replace(one, "\0").replace(two, one).replace("\0", two))
    return plant


def nothing(room):
    """Nothing is planted: the files are already at fault with the script's arguments."""


# ---- numbers.py, interfaces.py, format.py, kinds.py

NUMBERS, KINDS, HEADER = "docs/numbers.tsv", "docs/kinds.tsv", "include/starlark.h"
LISTED = ("docs/*", "include/*", "bindings/*", "python/ducatmuffin", "samples/*", "crates/cases", "crates/dialect/src", "crates/deflist/s*",
          "crates/types/specs", "crates/errors/src", "crates/forest/src", "crates/soundness/s*", "crates/table/s*", "crates/starlark_checks/specs")

IN_NUMBERS = [
    Planted("a row without its last column", changed(NUMBERS, r"^(4\tTOO_DEEP\t[^\t]*)\t[^\n]*", r"\1"), "a row is not number, name, meaning"),
    Planted("a number without a meaning", changed(NUMBERS, r"^(4\tTOO_DEEP\t)[^\t]*", r"\1"), "a row is not number, name, meaning"),
    Planted("another head", changed(NUMBERS, "^number\t", "numbers\t"), "a row is not number, name, meaning"),
    Planted("two numbers exchanged", exchanged(NUMBERS, r"[12]\t[^\n]*"), "its numbers are not the known ones in their order"),
    Planted("a name in the list", changed(NUMBERS, r"^4\tTOO_DEEP", "4\tDEEP"), r"crates/table/src/numbers\.rt differs: .*DEEP"),
    Planted("a constant of the code", changed("crates/table/src/numbers.rt", r"(TOO_DEEP: u32 = )4;", r"\g<1>44;"), r"table/src/numbers\.rt differs: .*44"),
    Planted("a definition", changed("crates/table/specs/Numbers.antt", r"^(too_deep = )4$", r"\g<1>44"), r"specs/Numbers\.antt differs: .*44"),
    Planted("two definitions exchanged", exchanged("crates/table/specs/Numbers.antt", r"\w+ = \d+"), r"specs/Numbers\.antt differs: in its order"),
    Planted("starlark_version with a number", changed(HEADER, r"( \*/\nuint32_t starlark_version\(void\))", r" Its number (1).\1"), "starlark_version gives a number"),
    Planted("a number of starlark_check_file", changed(HEADER, r"(: 70 to )75(?=, 3 to 5\. Accepted: (?:(?!\*/).)*\*/\nuint32_t starlark_check_file\()", r"\g<1>76"),
            "starlark_check_file does not give the numbers that the program gives"),
    Planted("a job of another name", changed(HEADER, r"^uint32_t starlark_rescue\(", "uint32_t starlark_saved("), "its jobs are not those of docs/numbers.tsv"),
    Planted("a job that gives a number more", changed(HEADER, r"in `file`: 90, 91, 7\.", "in `file`: 90, 91, 7, 6."), r"6 is given by '.*', in the header by .*rescue"),
    Planted("a job that a number leaves out", changed(NUMBERS, r"^(90\t[^\n]*\t)rescue$", r"\1"), "90 is given by"),
    Planted("a kind of the definitions", changed("crates/soundness/specs/KindNumbers.antt", r"^(kind_def = )2$", r"\g<1>22"), r"KindNumbers\.antt differs: .*22"),
    Planted("a class in the list of kinds", changed(KINDS, "^2\tDef\tstatement", "2\tDef\texpression"), r"docs/kinds\.tsv differs: .*expression"),
    Planted("a kind of the code", changed("crates/soundness/src/kinds.rt", r"^(pub const DEF: u8 = )2;", r"\g<1>22;"), r"src/kinds\.rt differs: .*22"),
    Planted("a number that has no rule", changed("python/ducatmuffin/rules.py", r"^    4: (table|script)\(", r"    400: \1("), "its numbers are not those of docs/numbers.tsv"),
    Planted("a line of the page of rules", changed("docs/RULES.md", "^# Rules", "# The rules"), "docs/RULES.md is not what the lists give"),
    Planted("a page of rules that is gone", removed("docs/RULES.md"), "docs/RULES.md is not what the lists give"),
    Planted("words of another line of the published files", lambda room: other_line(room), r"rules\.py: \d+: line \d+ of \S+ does not have: "),
    Planted("a section that a rule cites", changed("docs/FORMAT.md", r"^## A sound table$", "## What is sound"), r"rules\.py: 3: docs/FORMAT\.md has no section A sound table"),
    Planted("a fault of the interfaces", changed("bindings/rust/src/made.rs", "TooDeep", "TooFar"), r"made\.rs is not what the lists give"),
]



def published(room):
    """The published files of the trial: each line that a rule cites, and nothing else."""
    with room.inside():
        sources = [source for _, source in room.load("numbers.py").rules.RULES.values() if source.line]
    for file in {source.file for source in sources}:
        lines = {source.line: source.words for source in sources if source.file == file}
        path = room.root.parent / "shared" / "docs" / "src" / "src" / "syntax" / file
        path.parent.mkdir(parents=True, exist_ok=True)
        path.write_text("".join(f"{lines.get(number, '')}\n" for number in range(1, max(lines) + 1)))


def other_line(room):
    """One more line at the top of a published file."""
    path = next((room.root.parent / "shared" / "docs" / "src" / "src" / "syntax").iterdir())
    room.write(str(path), "\n" + path.read_text())


IN_INTERFACES = [
    Planted("words that end a comment of C", changed(NUMBERS, r"^(4\tTOO_DEEP\t)", r"\1*/ "), "neither a comment nor a string of C may hold these words"),
    Planted("words with a quotation mark", changed(NUMBERS, r"^(4\tTOO_DEEP\t)", r'\1"deep" '), "neither a comment nor a string of C may hold these words"),
    Planted("a dialect more in the code", changed("crates/dialect/src/lib.rt", r"^    AllOptionsInternal,\n", "    AllOptionsInternal,\n    Other,\n"),
            "its dialects are not those of tools/interfaces.py"),
    Planted("a dialect of eight switches in the code", changed("crates/dialect/src/lib.rt", r"^    \[1, ([\d, ]+)\],$", r"    [\1],"), "its dialects are not those of tools/interfaces.py"),
    Planted("a dialect twice in the header", changed(HEADER, r"^(#define STARLARK_DIALECT_ALL .*?\n)", r"\1\1"), "has STARLARK_DIALECT_ALL 2 times"),
    Planted("an enum that the header lacks", changed(HEADER, r"^enum starlark_mode \{", "enum starlark_modes {"), "has the enum starlark_mode 0 times"),
    *(Planted(f"a change of {file}", changed(file, old, new), rf"{re.escape(file)} is not what the lists give") for file, old, new in (
        (HEADER, "STARLARK_NUMBER_TOO_DEEP = 4", "STARLARK_NUMBER_TOO_DEEP = 5"), ("include/starlark_names.h", '"TOO_DEEP"', '"DEEP"'),
        ("bindings/rust/src/made.rs", "TooDeep = 4", "TooDeep = 5"), ("python/ducatmuffin/numbers.py", "    4: ", "    5: "))),
    Planted("a file that is gone", removed("include/starlark_names.h"), r"starlark_names\.h is not what the lists give"),
    Planted("the version without its patch number", changed(HEADER, r"^#define STARLARK_VERSION_PATCH \d+\n", ""), "the version is not there as three numbers"),
    *(Planted(f"another version in {file}", changed(file, pattern, r"\g<1>9.9.9"), rf"{re.escape(file)}: the version is not") for file, pattern in (
        (HEADER, r'^(#define STARLARK_VERSION ")[^"]*'), ("bindings/rust/Cargo.toml", r'^(version = ")[^"]*'),
        ("bindings/raw/Cargo.toml", r'^(version = ")[^"]*'), ("python/ducatmuffin/__init__.py", r'^(__version__ = ")[^"]*'))),
    Planted("another version in the definitions", changed("crates/starlark_checks/specs/Version.antt", r"^(version = version_of \d+ \d+ )\d+", r"\g<1>99"),
            r"Version\.antt: the version is not"),
    Planted("no version in the definitions", changed("crates/starlark_checks/specs/Version.antt", r"^version = version_of", "version = made"), r"Version\.antt: the version is not"),
    Planted("no version in the package", changed("python/ducatmuffin/__init__.py", r"^__version__ = ", "VERSION = "), r"__init__\.py: the version is not"),
    Planted("a limit that the Rust crate lacks", changed("bindings/rust/src/lib.rs", r"^pub const NODES: usize", "const NODES: usize"), "NODES is not the header's STARLARK_NODES"),
    Planted("a limit that the code lacks", changed("crates/table/src/lib.rt", r"const MOST_NODES: ", "const NODES_MOST: "), "STARLARK_NODES is not MOST_NODES"),
    Planted("a limit of the Rust crate", changed("bindings/rust/src/lib.rs", r"^pub const NODES: usize = .*?;", "pub const NODES: usize = 2101;"),
            "NODES is not the header's STARLARK_NODES"),
    Planted("a limit of the code", changed("crates/table/src/lib.rt", r"(const MOST_NODES: \w+ = )[^;]*", r"\g<1>2101"), "STARLARK_NODES is not MOST_NODES"),
    Planted("a sum of constants of the code", changed("crates/errors/src/lib.rt", r"(const WIDTH_WITH_NODE: \w+ = WIDTH \+ )\d+", r"\g<1>2"),
            "STARLARK_AUDIT_WORDS is not WIDTH_WITH_NODE"),
    Planted("a mode of the definitions", changed("crates/deflist/specs/Unpack.antt", r"^(mode_args = )\d+", r"\g<1>9"), "the modes are not those of the definitions"),
    Planted("a shape of the definitions", changed("crates/types/specs/Forms.antt", r"^(list_shape = )\d+", r"\g<1>9"), "the shapes are not those of the definitions"),
    Planted("a parameter of a declaration", changed("bindings/raw/src/lib.rs", r"(fn starlark_params\(.*?node: )usize", r"\1u32"), "starlark_params is not declared as in the header"),
    Planted("a function that Rust declares alone", changed("bindings/raw/src/lib.rs", r"^(    pub fn starlark_)(params\(.*?-> u32;\n)", r"\1\2\1other_\2"),
            "declares other functions than the header"),
]

FORMAT = "docs/FORMAT.md"
IN_FORMAT = [
    Planted("a kind of another name", changed(FORMAT, r"^\| 2 \| Def ", "| 2 | Defs "), "the kinds are not those of the package in their order"),
    Planted("a detail", changed(FORMAT, r"^(\| 2 \| Def \| [^|]* \| )1", r"\g<1>2"), "Def: the largest detail is 1"),
    Planted("a name of a kind that has none", changed(FORMAT, r"^(\| 2 \| Def \| [^|]* \| 1 \|) \|", r"\1 yes |"), "Def: whether it has a name"),
    Planted("children", changed(FORMAT, r"^(\| 23 \| Index \| E E) ", r"\1 E "), "Index: its children with detail 0"),
    Planted("children in another order", changed(FORMAT, r"^(\| 3 \| For \| E) E S ", r"\1 S E "), "For: its children with detail 0"),
    Planted("children with a detail alone", changed(FORMAT, r"^(\| 2 \| Def \| P\* \[)1", r"\g<1>0"), "Def: its children with detail 1"),
    Planted("two switches exchanged", exchanged(FORMAT, r"\| \d \| enable_[^\n]*"), "the switches are not those of crates/dialect in their order"),
    Planted("a dialect of another name", changed(FORMAT, r"^(\| Byte \| Switch [^\n]* )Extended ", r"\1Wide "), "the names of the three rows are not those of crates/dialect"),
    Planted("a switch of a dialect", changed(FORMAT, r"^(\| 0 \| enable_def [^\n]*) 1 \|$", r"\1 0 |"), "the three rows are not those of crates/dialect"),
    Planted("a dialect of the package", changed("python/ducatmuffin/numbers.py", r'("standard": bytes\(\[)1', r"\g<1>0"), "the package has other rows of dialects"),
    Planted("the dialect of no bytes", changed("crates/dialect/src/lib.rt", r"^(const NONE_GIVEN: Name = Name::)\w+", r"\1Standard"), "no dialect bytes mean Standard"),
    *(Planted(f"the limit of {what}", changed(FORMAT, rf"^(\| {what}[^|]*\| [\d,]+ \| )[\d,]+", r"\g<1>1"), f"the limit of {what} is")
      for what in ("nodes", "bytes of the table", "name bytes", "size", "source file number of a top-level statement", "depth", "bytes of a table file")),
    Planted("what counts in the depth", changed(FORMAT, "A statement or an expression is one deeper", "A statement or an argument is one deeper"), "what counts in the depth"),
    Planted("no sentence of the depth", changed(FORMAT, " is one deeper than its parent;", " is deeper than its parent;"), "what counts in the depth"),
    Planted("the example", changed(FORMAT, r"(from here -->.*?^\| 0 to 3 \| `)00", r"\g<1>01"), "the example is not samples/example.table"),
    Planted("the script of the example", changed("samples/example.star", "break", "brake"), "the example is not samples/example.table"),
    Planted("a sum of the sample", byte_changed("samples/example.table", 508), "block 0 of samples/example.table is not a block"),
    Planted("the number of name bytes of the sample", byte_changed("samples/example.table", 6), "do not have the names and nodes that its header states"),
    Planted("the number of nodes of the sample", byte_changed("samples/example.table", 4), "do not have the names and nodes that its header states"),
]

SENTENCES = "crates/cases/sentences.txt"
IN_KINDS = [
    Planted("a case", changed("crates/cases/kinds.txt", r"^1 Statements of nothing \| check", "1 Statements of nothing | node"), r"kinds\.txt is NOT what the sentences give"),
    Planted("an answer", changed("crates/cases/stdout", r"^(6 Break of nothing): sound", r"\1: 3 at 0"), r"cases/stdout is NOT what the sentences give"),
    Planted("a list of cases that is gone", removed("crates/cases/kinds.txt"), r"kinds\.txt is NOT what the sentences give"),
    Planted("a sentence of another number", changed(SENTENCES, "kind 50: 0 to 3", "kind 50: 0 to 2"), "neither the scope nor a request has these words: Names stand on"),
    Planted("a rule in other words", changed(SENTENCES, r"4 If \(condition, statement\)", "4 If (a condition, statement)"), "unknown words in a sentence: a condition"),
    Planted("a kind without children that has some", changed(SENTENCES, r"28 String;", "28 String (2);"), "the list of kinds without children is not that of the rules before it"),
    Planted("a kind left out", changed(SENTENCES, r"6 Break; ", ""), "the sentences do not give the kinds of the package"),
]


def documents(room):
    """The two documents of the trial: the sentences that crates/cases cites."""
    for name in ("01-scope.md", "02-change-requests.md"):
        path = room.root.parent / "shared" / "docs" / name
        path.parent.mkdir(parents=True, exist_ok=True)
        path.write_text(room.read(SENTENCES))


# ---- cited.py, statements_page.py

PROOFS = "docs/PROOFS.md"
IN_CITED = [
    Planted("a document that is gone", removed("docs/JSON.md"), r"there is no docs/JSON\.md"),
    Planted("a link", added(PROOFS, "[a page](NOWHERE.md)\n"), r"the link NOWHERE\.md leads nowhere"),
    Planted("a link to a page outside", added(PROOFS, "[a page](https://example.com/NOWHERE.md)\n"), None),
    Planted("a path", added(PROOFS, "`crates/fields/specs/Nowhere.antt`\n"), r"there is no crates/fields/specs/Nowhere\.antt"),
    Planted("a name that a file lacks", added(PROOFS, "`crates/fields/specs/Field.antt`: `field`, `meadow`\n"), r"specs/Field\.antt does not define meadow"),
    Planted("a name that a file defines", added(PROOFS, "`fields/specs/Field.antt`: `field`\n"), None),
    Planted("a name that is only in a comment of the logic", all_of(
        added("crates/fields/specs/Field.antt", "-- pub meadow : ℕ\n"), added(PROOFS, "`crates/fields/specs/Field.antt`: `meadow`\n")), "does not define meadow"),
    Planted("a name that is only in a comment of the code", all_of(
        added("crates/fields/src/lib.rt", "// fn meadow() {}\n"), added(PROOFS, "`crates/fields/src/lib.rt`: `meadow`\n")), "does not define meadow"),
    Planted("a name that a file imports and does not define", added(PROOFS, "`crates/demand3/specs/Cut.antt`: `Cut` and `Distinct`\n"), "does not define Distinct"),
    Planted("a name of the file beside", added(PROOFS, "`crates/demand3/specs/Cut.antt`: `Cut`; `Numbers.antt`: `x`\n"), r"there is no Numbers\.antt"),
    Planted("a field, a constructor, a variant", added(PROOFS, "`crates/demand3/specs/Cut.antt`: `middle`, `no_slash`; `dialect/src/lib.rt`: `ParseOnly`, `enable_def`\n"), None),
    Planted("a theorem without a path that no file has", added(PROOFS, "The theorem `was_never_proved` says it.\n"), "no file defines was_never_proved"),
    Planted("a function without a path that no file has", added(PROOFS, "The function `never_was_written` does it.\n"), "no file defines never_was_written"),
    Planted("a definition without a path that no file has", added(PROOFS, "The type `NeverSaid` has it, and `never-said` too.\n"), "no file defines never-said"),
    Planted("a function that another crate has", added(PROOFS, "The function `fields::type_shape` does it.\n"), "no file defines fields::type_shape"),
    Planted("names without a path that are there", added(PROOFS, "`shapes::type_shape`, `from_bytes`, `starlark_read`, `accepted_iff_cut`, `MOST_NODES`\n"), None),
]

STATEMENTS = "crates/statements/proofs/Examples.antt"
UNSAID = "no sentence, no words, or no theorem"
IN_STATEMENTS = [
    Planted("a statement without its words", changed(STATEMENTS, "In words: ", "So: "), rf"Examples\.\S+: {UNSAID}"),
    Planted("a statement without its sentence", changed(STATEMENTS, r"^--[^\n]*\n(?=-- In words: )", ""), rf"Examples\.\S+: {UNSAID}"),
    Planted("a statement that cites no theorem", changed(STATEMENTS, r"^how_many_lem = theorem\.how_many_lem", "how_many_lem = law.how_many_lem"), rf"Examples\.how_many_lem: {UNSAID}"),
    Planted("a module over two crates", changed(STATEMENTS, "^use ", "use Rattle.fields.proofs.Fields as theorem-fields\nuse "), "Examples: it cites theorems of 2 crates"),
    Planted("a line of the page", changed("docs/STATEMENTS.md", r"^## ", "### "), "docs/STATEMENTS.md is not what crates/statements says"),
    Planted("a statement", changed(STATEMENTS, "pub how_many_lem : length table ≡ 14", "pub how_many_lem : length table ≡ 13"), "docs/STATEMENTS.md is not what crates/statements says"),
    Planted("a page that is gone", removed("docs/STATEMENTS.md"), "docs/STATEMENTS.md is not what crates/statements says"),
    Planted("a theorem of a file that is not restated", all_of(
        added("crates/fields/proofs/Promises.antt", "pub planted_here : ℕ\n"), added(PROOFS, "`crates/fields/proofs/Promises.antt`: `planted_here`\n")),
            r"PROOFS\.md names planted_here of fields/proofs/Promises\.antt, which no statement restates"),
    Planted("a theorem without a file that is not restated", all_of(
        added("crates/fields/proofs/Promises.antt", "pub planted_here : ℕ\n"), added("README.md", "That is `planted_here`.\n")),
            r"README\.md names planted_here of no file, .* which no statement restates"),
    Planted("a theorem of one answer", all_of(
        added("crates/fields/proofs/Promises.antt", "pub planted_one : ℕ\n"), added("README.md", "That is `planted_one`.\n")), None),
    Planted("a theorem of the name of a function", all_of(
        added("crates/fields/proofs/Promises.antt", "pub judge_room : ℕ\n"), added("README.md", "That is `judge_room`.\n")),
            r"README\.md names judge_room of no file, .* which no statement restates"),
    Planted("a function with its crate, of a theorem's name", all_of(
        added("crates/fields/proofs/Promises.antt", "pub judge_room : ℕ\n"), added("README.md", "That is `tablefile::judge_room`.\n")), None),
]


# ---- imports.py, lines.py

SPECS, CODE, PROOF = "crates/fields/specs/Field.antt", "crates/fields/src/lib.rt", "crates/fields/proofs/Promises.antt"
ANSWERS, LAWS = "crates/fields/proofs/half/Answers.antt", "crates/table/proofs/Answers.antt"
IN_IMPORTS = [
    Planted("a name in a list", changed(SPECS, r"\A", "use lib.Made.{meadow}\n"), r"specs/Field\.antt imports and does not use meadow"),
    Planted("a second name in a list", changed(SPECS, r"^(use \S+\.\{[^}]*)\}", r"\1, meadow}"), "does not use meadow"),
    Planted("a name under another", changed(SPECS, r"^(use \S+\.\{[^}]*)\}", r"\1, field as meadow}"), "does not use meadow"),
    Planted("a module", changed(SPECS, r"\A", "use lib.Made as meadow\n"), "does not use meadow"),
    Planted("a name of the code", changed(CODE, r"^ghost use", "use crate::meadow;\nghost use"), r"src/lib\.rt imports and does not use meadow"),
    Planted("a name of the code in a list", changed(CODE, r"^ghost use", "use crate::{field, meadow};\nghost use"), r"src/lib\.rt imports and does not use meadow"),
    Planted("a module itself", changed(CODE, r"^ghost use", "use crate::meadow::{self};\nghost use"), r"src/lib\.rt imports and does not use meadow"),
    Planted("a trait of which no method is called", changed(CODE, r"^ghost use", "use std::io::{Write};\nghost use"), "does not use Write"),
    Planted("a trait of which a method is called", all_of(
        changed(CODE, r"^ghost use", "use std::io::{Write};\nghost use"), added(CODE, "fn made(w: &mut W) {\n    w.flush()\n}\n")), None),
    Planted("an import in an import", changed(CODE, r"^ghost use", "use crate::{field::{meadow}, byte};\nghost use"), r"src/lib\.rt has an import that is not read"),
    Planted("a name of a contract", changed(CODE, r"^(ghost use \S+\.\{[^}]*)\}", r"\1, meadow}"), "does not use meadow"),
    Planted("a name that is only in a comment", all_of(changed(SPECS, r"\A", "use lib.Made.{meadow}\n"), added(SPECS, "-- meadow\n")), "does not use meadow"),
    Planted("a name that is a part of another", all_of(changed(SPECS, r"\A", "use lib.Made.{meadow}\n"), added(SPECS, "pub meadows : ℕ\n")), "does not use meadow"),
    Planted("an operator", changed(SPECS, r"\A", "use lib.Made.{◌⊗◌}\n"), "does not use ◌⊗◌"),
    Planted("an operator in front", changed(SPECS, r"\A", "use lib.Made.{¬◌}\n"), "does not use ¬◌"),
    Planted("operators that are used", all_of(changed(SPECS, r"\A", "use lib.Made.{◌⊗◌, ¬◌, ◌⊕◌}\n"), added(SPECS, "pub other : ¬ (ℕ ⊗ ℕ) (◌⊕◌)\n")), None),
    Planted("an operator that is a part of another", all_of(changed(SPECS, r"\A", "use lib.Made.{◌⊗◌}\n"), added(SPECS, "pub other : ℕ ⊗⊗ ℕ\n")), "does not use ◌⊗◌"),
    Planted("a name that ends in an underscore", all_of(changed(SPECS, r"\A", "use lib.Made.{meadow_}\n"), added(SPECS, "pub meadow : ℕ\n")), "does not use meadow_"),
    Planted("a name that is used", all_of(changed(SPECS, r"\A", "use lib.Made.{meadow}\n"), added(SPECS, "pub other : meadow\n")), None),
    Planted("a name that is handed on", changed(SPECS, r"\A", "pub use lib.Made.{meadow}\n"), None),
]


def before(times):
    return ".before" * times


def law(lines, first=""):
    """A law with a number of lines, after a blank line."""
    return "\nlong = " + first + "x\n" + "    y\n" * (lines - 1)


IN_LINES = [
    Planted("a line of 120 columns", added(SPECS, "x" * 120 + "\n"), None),
    Planted("a line of 121 columns", added(SPECS, "x" * 121 + "\n"), r"lines: crates/fields/specs/Field\.antt:\d+: 121 columns"),
    Planted("an import of 133 columns", changed(SPECS, r"\A", "use lib.Made.{" + "x" * 119 + "}\n"), None),
    Planted("a comment of 133 columns", added(CODE, "// " + "x" * 130 + "\n"), r"src/lib\.rt:\d+: 133 columns"),
    Planted("a chain of four", added(PROOF, f"(search (c{before(4)}.judge))\n"), None),
    Planted("a chain of five", added(PROOF, f"(search (c{before(5)}.judge))\n"), "a chain of 5 `.before`"),
    Planted("a waypoint of six", added(PROOF, f"    let judge = c{before(6)}.judge in\n"), None),
    Planted("a waypoint of seven", added(PROOF, f"    let judge = c{before(7)}.judge in\n"), "a chain of 7 `.before`"),
    Planted("a chain of five that is no waypoint", added(PROOF, f"    let judge = law (c{before(5)}.judge) in\n"), "a chain of 5 `.before`"),
    Planted("a chain on two lines", added(PROOF, f"(c{before(3)}\n    .before.before.judge)\n"), "a chain of 5 `.before`"),
    Planted("a chain of ten numbers", added(ANSWERS, f"put_range-requires-9 c = search (c.requires{'.1' * 9}.0)\n"), None),
    Planted("a chain of eleven numbers", added(ANSWERS, f"put_range-requires-9 c = search (c.requires{'.1' * 10}.0)\n"), r"Answers\.antt:\d+: a chain of 11 numbers"),
    Planted("a waypoint of eleven numbers", added(ANSWERS, f"    let last = c.requires{'.1' * 11} in\n"), "a chain of 11 numbers"),
    Planted("a law of 25 lines", added(PROOF, law(25)), None),
    Planted("a law of 26 lines", added(PROOF, law(26)), r"lines: crates/fields/proofs/Promises\.antt:\d+: a law of 26 lines"),
    Planted("a law of 26 lines in a file of laws that is named Answers", added(LAWS, law(26)), r"lines: crates/table/proofs/Answers\.antt:\d+: a law of 26 lines"),
    Planted("a law with nine lets in a file of laws that is named Answers", added(LAWS, law(2, "let a = b in " * 9)), r"Answers\.antt:\d+: a law with 9 `let`s"),
    Planted("answers of 26 lines", added(ANSWERS, law(26)), None),
    Planted("a law of 26 lines, one a comment", added(PROOF, law(25) + "    -- why\n"), None),
    Planted("a definition of 26 lines", added(SPECS, law(26)), None),
    Planted("a law with eight lets", added(PROOF, law(2, "let a = b in " * 8)), None),
    Planted("a law with nine lets", added(PROOF, law(2, "let a = b in " * 9)), "a law with 9 `let`s"),
    Planted("no file", nothing, "there is no file", ("crates/fields/nowhere",)),
]


# ---- tables.py

def line(text, made=False):
    """A line of cases in t.txt, and no file that is made from it."""
    return all_of(created("t.txt", text), lambda room: (room.root / "out").unlink(missing_ok=True))


def cases(kind, text, message):
    return Planted(f"{kind}: {text!r}", line(text), message and rf"^t\.txt{re.escape(message)}$", (kind, "t.txt", "out"))


IN_TABLES = [
    cases("cases", "a name | check | (Break x)", None), cases("cases", "none | check | (Identifier)", None),
    cases("cases", "detail | check | (Break:255)", None), cases("cases", "spans | check | (Break span=9-4)", None), cases("cases", "nothing | check", None),
    cases("cases", "files | check | (Statements file=1 (Break file=0) (Break file=65535))", None),
    cases("cases", "a | check | (Break file=65536)", ":1: Break: 65536 is more than 65535"),
    cases("cases", "a | check | (Break pad=1)", ":1: Break: there is no field pad"),
    cases("cases", "# heading\n\na | chek | (Break)", ":3: no job is called chek"),
    cases("cases", "# heading\na | check colour | (Break)", ":2: no wish is called colour"),
    cases("cases", "a | check names=x | (Break)", ":1: x is not a number"), cases("cases", "a", ":1: a case is: label | request | tree"),
    cases("cases", "a | check | (Break) | b", ":1: a case is: label | request | tree"),
    cases("cases", "a | check bits=12x | (Break)", ":1: 12x is not made of digits"),
    cases("cases", "# heading\na | check | (Brake)", ":2: no kind is called Brake"),
    cases("cases", "a | format colour=1 | text", ":1: there is no such word for format: colour=1"),
    cases("filecases", "a name | | (Break x)", None), cases("filecases", "a | cut=3", ":1: a case is: label | what is done to the file | tree"),
    cases("filecases", "# heading\na | byte=1 | (Break)", ":2: 1 is not 2 numbers"),
    cases("filecases", "a | colour=1 | (Break)", ":1: there is no colour to be done to a file"),
    cases("filecases", "a | byte=1024:1 | (Break)", ":1: 1024 is more than 1023"),
    cases("filecases", "a | byte=1024:1 | (Break)", ":1: 1024 is more than 1023"),
    cases("filecases", "a | byte=0:0 | (Break)", ":1: a: byte 0 is 0 already"),
    Planted("a text that is not there", line("a | | (Break)"), "^no.txt: ", ("file", "no.txt", "out")),
    Planted("a folder as the text", line("a | | (Break)"), r"^\.: ", ("file", ".", "out")),
    Planted("a folder that is not there", line("a | | (Break)"), "^no/out: ", ("filecases", "t.txt", "no/out")),
    Planted("too few words", line("a | | (Break)"), "^Makes the data of the gate's programs", ("file", "t.txt")),
    Planted("data that is not what its text gives", all_of(line("a | | (Break)"), created("out", "other")), "^out: is NOT what comes of t.txt", ("filecases", "t.txt", "out", "--check")),
    Planted("data that is not there", line("a | | (Break)"), "^out: is NOT what comes of t.txt", ("filecases", "t.txt", "out", "--check")),
    Planted("a sample", byte_changed("samples/example.table", 30), "^samples/example.table: is NOT what comes of samples/example.txt", ("files", "samples/example.txt", "--check")),
]


# ---- shown.py

DUCAT = r"""#!/bin/sh
cat "$(dirname "$0")/printed/$(printf %s "$*" | sed 's#\( \)/[^ ]*/#\1#' | tr ' /' '__')"
"""


def command(room):
    """A command that prints what the documents show, from its own files."""
    room.write("ducat", DUCAT, 0o755)
    with room.inside():
        shown = room.load("shown.py")
        blocks = [shown.FIRST, *((None, words, text) for words, text in shown.MARKED.findall(room.read("docs/COMMANDS.md")))]
        blocks += [(None, words, shown.indented(room.read(path))) for path, words in shown.RECORDED]
        blocks.append((None, shown.PARTS[1], "".join(shown.PARTS[2])))
    for _, words, text in blocks:
        arguments = re.search(r"\./ducat ([^|\"]*?)(?: \||$)", words)[1].replace("ROOM/", "")
        room.write(f"printed/{re.sub('[ /]', '_', arguments)}", re.sub(r"(?m)^    ", "", text.rstrip("\n") + "\n"))


IN_SHOWN = [
    Planted("the first command of README", changed("README.md", r"^    \./ducat check samples/example\.star\n", ""), "README.md does not show the first command"),
    Planted("what the first command prints", changed("README.md", r"^    errors 2\n", "    errors 3\n"), "README.md does not show the first command"),
    Planted("the release check of README", changed("README.md", "--expect take2.trains=trains samples", "--expect take.trains=trains samples"), "README.md does not show the release check"),
    Planted("a part of the release check", changed("README.md", r"^    expect take2\.trains=trains: not met", "    expect take2.trains=trains: met"), "README.md does not show the release check"),
    Planted("a README of 151 lines", added("README.md", "\n" * 150), r"README\.md has \d+ lines, and 150 are allowed"),
    Planted("a document that shows nothing", changed("docs/COMMANDS.md", r"\A.*\Z", "# Commands\n"), r"docs/COMMANDS\.md shows nothing"),
    Planted("a command that prints nothing of the release check", created("printed/bind_--strict_--expect_take2.trains=trains_samples_take.star", "nothing\n"), "does not print this part"),
    Planted("a command that prints another line", created("printed/check_samples_example.star", "nodes 7\n"), r"README\.md: `\./ducat check samples/example\.star` prints something else"),
    Planted("a document that shows another line", changed("docs/COMMANDS.md", r"^(<!-- shown: [^\n]* -->\n    )", r"\1x"), r"docs/COMMANDS\.md: `.*` prints something else"),
    Planted("a recorded file", changed("samples/three.figures", r"\A", "x"), r"samples/three\.figures: `.*` prints something else"),
]


# ---- promises.py, contracts.py

MADE_UP = "fn made_up(n: u32) -> u32 {\n    n\n}\n"
MADE_OF = "pub struct Made {\n    pub n: u32,\n}\n\nimpl From<u32> for Made {\n    fn from(n: u32) -> Made {\n        Made { n: 0 }\n    }\n}\n"


def source(crate):
    return f"crates/{crate}/src/lib.rt"


def theorems(crate):
    return f"crates/{crate}/proofs/Promises.antt"


def edits(room, crate):
    """The files of a crate's wrong answers in the copy."""
    return [str(path.relative_to(room.root)) for folder in ("must-fail", "wrong") for path in sorted((room.root / "crates" / crate / folder).glob("*.edit"))]


def deleted(crate, keep):
    """The wrong answers of a crate without some."""
    def plant(room):
        files = edits(room, crate)[keep:]
        if not files:
            raise Unplanted(f"{crate} has no wrong answers to delete")
        for file in files:
            room.delete(file)
    return plant


def edited(crate, file, old, new):
    """One more wrong answer, whose text must be in the crate's file."""
    def plant(room):
        if old not in room.read(f"crates/{crate}/{file}"):
            raise Unplanted(f"{crate}/{file} has no such text")
        room.write(f"crates/{crate}/wrong/planted.edit", f"A wrong answer elsewhere.\nfile: {file}\nold: {old}\nnew: {new}\n")
    return plant


def without_ensures(file, function):
    """A function that has no 'ensures' at all."""
    return changed(file, rf"fn {function}\(.*?\n\{{\n", lambda found: re.sub(r"    ensures .*? \}\n(?=\{)", "", found[0], flags=re.S))


def moved_edits(crate, function, file, old, new):
    """Every wrong answer in a function's body is moved to a function that it calls."""
    def plant(room):
        with room.inside():
            of_crate = room.load("promises.py").Crate(crate)
            labels = of_crate.own_edits(next(f for f in of_crate.public if f.path == function))
        files = [file for file in edits(room, crate) if file.rpartition("/")[2].removesuffix(".edit") in labels]
        if not files or old not in room.read(f"crates/{crate}/{file}"):
            raise Unplanted(f"{crate}::{function} has no wrong answer that could be moved")
        for path in files:
            room.write(path, f"A wrong answer elsewhere.\nfile: {file}\nold: {old}\nnew: {new}\n")
    return plant


NO_SHAPES_PROMISE = changed(source("shapes"), r"^    ensures \w+ \{ shapes\.new .*? \}\n(?=    ensures|\{)", "")
IN_PROMISES = [
    Planted("every 'ensures' of starlark_assignment deleted", without_ensures(source("starlark_checks"), "starlark_assignment"),
            "starlark_checks::starlark_assignment: no 'ensures' fixes its answer"),
    Planted("the buffer promise of type_shape deleted", NO_SHAPES_PROMISE, "shapes::type_shape: no 'ensures' fixes what shapes is at exit"),
    Planted("and from its theorem too", all_of(NO_SHAPES_PROMISE, *[changed(theorems("shapes"), rf"→ shapes-{answer} ≡ [^→]*", "") for answer in "rs"]),
            "shapes::type_shape: no 'ensures' fixes what shapes is at exit"),
    Planted("a 'requires' at a public function", changed(source("targets"), r"(^pub fn target\([^\n]*\n)", r"\1    requires { node ≤ 1 }\n"),
            "targets::target: it has a 'requires'"),
    Planted("no comment above a public function", changed(source("fields"), r"^(?://[^\n]*\n)+(?=pub fn half)", ""), "fields::half: no comment above it says what it answers"),
    Planted("an answer that is '&mut'", changed(source("fields"), r"^(pub fn half\([^)]*\) -> )\w+", r"\1&mut u32"), "fields::half: its answer can be changed later"),
    Planted("a parameter that is named as the theorem's answer", changed(source("fields"), r"^(pub fn half\()(\w+)", r"\1r"), "fields::half: a parameter is named r or s"),
    Planted("a public function that answers nothing", added(source("fields"), "// Does nothing.\npub fn idle(n: u32) {\n}\n"),
            "fields::idle: it returns nothing and changes no buffer"),
    Planted("a promise that cites a proof", all_of(
        changed(source("targets"), "targeted result ≡ target_of", "targeted result ≡ planted"),
        changed(source("targets"), "^ghost use ", "ghost use Rattle.targets.proofs.Promises.{planted};\nghost use ")),
            "targets::target: its promise cites planted of a proof"),
    Planted("a promise that cites a proof of another crate", all_of(
        changed(source("targets"), "targeted result ≡ target_of", "targeted result ≡ planted"),
        changed(source("targets"), "^ghost use ", "ghost use Rattle.fields.proofs.Promises.{planted};\nghost use ")),
            "targets::target: its promise cites planted of a proof"),
    Planted("another definition in an 'ensures'", changed(source("targets"), "targeted result ≡ target_of", "targeted result ≡ assignment_of"),
            "targets::target: its contract gives '.*assignment_of.*', but its theorem says '.*target_of"),
    Planted("a definition that is not imported", changed(source("targets"), "targeted result ≡ target_of", "targeted result ≡ nowhere"), "targets::target: not read: the name nowhere in its contract"),
    Planted("an answer that is promised to be itself", changed(source("fields"), "result ≡ field 2 [^}]*", "result ≡ result "), "fields::half: no 'ensures' fixes its answer"),
    Planted("an 'ensures' commented out", changed(source("fields"), r"    (?=ensures \{ result ≡ field 2)", "    // "), "fields::half: no 'ensures' fixes its answer"),
    Planted("a premise of a theorem weakened", changed(theorems("shapes"), "shapes-s ≡ shapes_after [^→]*", "shapes-s ≡ shapes-r "),
            "shapes::type_shape: its contract gives .* but its theorem says '.*shapes-s ≡ shapes-r"),
    Planted("a conclusion of a theorem weakened", changed(theorems("starlark_checks"), r"\(r ≡ s\) × \(out-r ≡ out-s\)", "r ≡ s"),
            "starlark_checks::starlark_table: its contract gives .* but its theorem says"),
    Planted("a theorem over another definition of the same name", changed(theorems("targets"), r"(?<=[{ ])target_of", "assignment_of as target_of"),
            "targets::target: proofs/Promises.antt does not take target_of from"),
    Planted("a theorem over another definition of the library of the same name", changed(theorems("fields"), r"^use lib\.ListN\.\{get_or\}", "use lib.ListN.{drop as get_or}"),
            "fields::byte: proofs/Promises.antt does not take get_or from"),
    Planted("a theorem over the library's definition as another module hands it on", changed(theorems("fields"), r"^use lib\.ListN\.\{get_or\}", "use Rattle.std.specs.Prelude.{get_or}"), None),
    Planted("a theorem over a definition of its own", added(theorems("fields"), "field : ℕ → List ℕ → ℕ → ℕ\n"), "fields::half: proofs/Promises.antt defines field itself"),
    Planted("a theorem left out", changed(theorems("fields"), "^pub word_one", "pub words_two"), "fields::word: proofs/Promises.antt has no theorem 'pub word_one"),
    Planted("a theorem commented out", changed(theorems("fields"), "^pub word_one.*", lambda found: re.sub("(?m)^", "-- ", found[0])),
            "fields::word: proofs/Promises.antt has no theorem 'pub word_one"),
    Planted("a theorem of no function", added(theorems("fields"), "pub nobody_one : ℕ\n"), "fields: nobody_one in proofs/Promises.antt is the theorem of no public function"),
    Planted("two functions of one theorem", added(source("fields"), "pub " + MADE_UP.replace("made_up", "half_")), "fields: half_one would be the theorem of several functions"),
    Planted("a record of a promise that says nothing of the list", changed("crates/errors/specs/Errors.antt", r"\n  pub words : ys ≡ stored l \(kept l es\) xs", ""),
            "errors::push_at: no 'ensures' fixes what errors is at exit"),
    Planted("a new public function with nothing", added(source("blocks"), "pub " + MADE_UP), "blocks::made_up: no 'ensures' fixes its answer"),
    Planted("a new method with nothing", added(source("parameters"), "impl Range {\n    pub fn made_up(self) -> usize {\n        self.from\n    }\n}\n"),
            "parameters::Range::made_up: no 'ensures' fixes its answer"),
    Planted("a new function for C that is not 'pub'", added(source("starlark_checks"), '#[unsafe(no_mangle)]\nextern "C" ' + MADE_UP),
            "starlark_checks::made_up: no 'ensures' fixes its answer"),
    # a static library
    Planted("a function of the static library that calls another one", changed(source("starlark_checks_c"), r"^(    starlark_checks::)starlark_call\(", r"\1starlark_target("),
            "starlark_checks_c::starlark_call: its contract is not that of starlark_checks::starlark_target"),
    Planted("two arguments exchanged in the static library", changed(source("starlark_checks_c"), r"^(    starlark_checks::starlark_call\()table, names", r"\1names, table"),
            "starlark_checks_c::starlark_call: its body is not one call with its own parameters in their order"),
    Planted("a function of the static library that does more", changed(source("starlark_checks_c"), r"^(?=    starlark_checks::starlark_call\()", "    out[0] = 0;\n"),
            "starlark_checks_c::starlark_call: its body is not one call with its own parameters in their order"),
    Planted("a weaker contract in the static library", changed(source("starlark_checks_c"), r"^    ensures \w+ \{ result ≡ number \(call_of [^\n]*\n", ""),
            "starlark_checks_c::starlark_call: its contract is not that of starlark_checks::starlark_call"),
    Planted("another definition of the same name in the static library", changed(source("starlark_checks_c"), r"(?<=[{ ])call_of(?=[,}])", "call_values as call_of"),
            "starlark_checks_c::starlark_call: its contract is not that of starlark_checks::starlark_call"),
    Planted("another equation of the same sign in the static library",
            changed(source("starlark_checks_c"), r"^(ghost use Rattle\.std\.specs\.Prelude\.\{)◌≡◌, ", r"ghost use Rattle.fields.specs.Field.{◌≡◌};\n\1"),
            "starlark_checks_c::starlark_call: its contract is not that of starlark_checks::starlark_call"),
    Planted("a call of the static library into no library here", changed(source("starlark_checks_c"), r"^    starlark_checks::starlark_call\(", "    elsewhere::starlark_call("),
            "starlark_checks_c::starlark_call: elsewhere::starlark_call is no public function of a library here"),
    Planted("a private function of the static library", added(source("starlark_checks_c"), MADE_UP), "starlark_checks_c::made_up: a static library has public functions alone"),
    Planted("a private function of a library with nothing", added(source("blocks"), MADE_UP), "blocks::made_up: it promises nothing"),
    Planted("a method of a trait with nothing", added(source("blocks"), MADE_OF), "blocks::MadeFrom::from: it promises nothing"),
    Planted("an iterator without its law", changed(source("forest"), r"^    ghost next_gives = \{ NextNode \};\n", ""), "forest::NodesIterator::next: it promises nothing"),
    Planted("a public function of a program", changed("crates/cases/src/answers.rt", r"^pub\(crate\) fn", "pub fn"), r"cases::answers::\w+: .*(ensures|answers nothing)"),
    Planted("no public function at all", changed("crates.txt", r"\A.*\Z", "audited: demand3\n"), "there is no public function"),
    # what is not read
    Planted("a function that does not begin its line", added(source("blocks"), "#[inline] pub " + MADE_UP), "not read: blocks/src/lib.rt has a function that does not begin"),
    Planted("a trait", added(source("blocks"), "trait Made {\n}\n"), "not read: blocks/src/lib.rt has a trait or a macro"),
    Planted("a bracket that is open", added(source("blocks"), "pub fn made_up(n: u32) -> u32 {\n    (n\n"), "not read: a bracket that is never closed"),
    Planted("words behind the parameters", added(source("blocks"), "pub fn made_up(n: u32) where T {\n}\n"), "not read: made_up: the text after its parameters"),
    Planted("words behind a contract", added(source("blocks"), "pub fn made_up(n: u32) -> u32\n    ensures { result ≡ n }\n    decreases { n }\n{\n    n\n}\n"),
            "not read: made_up: the text between its contract and its body"),
    Planted("a parameter that is a pattern", added(source("blocks"), "pub fn made_up((a, b): Pair) -> u32 {\n    a\n}\n"), r"not read: a parameter '\(a, b\): Pair'"),
    Planted("a type that is generic", changed(source("fields"), r"^(pub fn half\([^)]*)\)", r"\1, more: Vec<u8>)"), "fields::half: not read: the type Vec<u8>"),
    Planted("a clause that is no fact", changed(source("fields"), r"(?<=ensures \{ )(result ≡ field 2 [^}]*?)(?= \})", r"⌜ \1 ⌝"), "fields::half: not read: the clause '.*' is no fact"),
    Planted("a clause with another value of a parameter", changed(source("fields"), r"(?<=result ≡ field 2 )b\.now", "b.exit.now"),
            "fields::half: not read: the clause '.*' speaks of a parameter's value in another way"),
    # the document
    Planted("a line of the document edited by hand", changed("docs/PROMISES.md", r"^(\| `byte` \| )", r"\1 Always "), "docs/PROMISES.md has a line that the sources do not give"),
    Planted("a line of the document deleted", changed("docs/PROMISES.md", r"^\| `byte` \|[^\n]*\n", ""), "docs/PROMISES.md lacks a line that the sources give"),
    Planted("two lines of the document exchanged", exchanged("docs/PROMISES.md", r"\| `(?:byte|half)` \|[^\n]*"), "docs/PROMISES.md has its lines in another order"),
    Planted("the place of the generated part", changed("docs/PROMISES.md", "^<!-- end of the generated part -->", "<!-- end -->"), "docs/PROMISES.md lacks the lines"),
    # wrong answers
    Planted("the wrong answers of a function moved to one that it calls", moved_edits("table", "check", "src/depth.rt", "if MOST_DEPTH < here {", "if 65 < here {"),
            "table::check: no wrong answer .* is in its body"),
    Planted("all wrong answers of a function but one deleted", removed("crates/fields/wrong/half_high_byte_first.edit"), "fields::half: it has fewer than two wrong answers"),
    Planted("a wrong answer in a contract", created("crates/fields/wrong/planted.edit", "file: src/lib.rt\nold: result ≡ field 2 b\nnew: result ≡ field 4 b\n"),
            "fields: a text that the wrong answer planted changes is in no function's body"),
    Planted("a wrong answer in a function that nothing calls", all_of(
        added(source("fields"), "fn lonely(n: u32) -> u32 {\n    n + 77\n}\n"), edited("fields", "src/lib.rt", "n + 77", "n + 78")),
            "fields: the wrong answer planted is in nothing that a public function calls"),
    Planted("the wrong answers of a crate without code deleted but for one", deleted("audited", 1), "audited: it has no code, and fewer than two wrong answers"),
    Planted("a wrong answer of a crate without code in a comment", edited("demand3", "specs/Cut.antt", "-- the parts joined", "-- the parts"),
            "demand3: a text that the wrong answer planted changes is in no definition"),
    Planted("a wrong answer of a crate without code in an import", edited("demand3", "specs/Cut.antt", "use Rattle.std.specs.Prelude.{◌≡◌", "use Rattle.std.specs.Prelude.{refl, ◌≡◌"),
            "demand3: a text that the wrong answer planted changes is in no definition"),
    Planted("a wrong answer of a crate without code in a theorem",
            edited("demand3", "proofs/Demand3.antt", "holders (cut_ranges c) i ≡ 1", "holders (cut_ranges c) i ≡ 2"),
            "demand3: a text that the wrong answer planted changes is in no definition"),
    Planted("a wrong answer of `statements` in a proof", edited("statements", "proofs/Examples.antt", "how_many_lem = theorem.how_many_lem", "how_many_lem = theorem.examples"),
            "statements: a text that the wrong answer planted changes is in no definition"),
    Planted("a wrong answer of `statements` not in the document",
            edited("statements", "proofs/Examples.antt", "pub how_many_lem : length table ≡ 14", "pub how_many_lem : length table ≡ 13"),
            "docs/PROMISES.md lacks a line that the sources give .*planted"),
]

# ---- prototypes.py, counted.py

JOBS, PACKAGE, WRAPPER = "crates/starlark_checks_c/src/lib.rt", "python/ducatmuffin/library.py", "bindings/rust/src/interface.rs"


def without_functions(room):
    """No function for C is laid out as the script reads it."""
    text = room.read(JOBS)
    if 'extern "C" fn starlark_' not in text:
        raise Unplanted(f"{JOBS} has no functions")
    room.write(JOBS, text.replace('extern "C" fn starlark_', 'extern "C" fn  starlark_'))


IN_PROTOTYPES = [
    Planted("no function of the code", without_functions, "no function is found"),
    Planted("a function of the header", changed(HEADER, r"^uint32_t starlark_rescue\(", "uint32_t starlark_saved("), r"starlark\.h: starlark_saved is in the header alone"),
    Planted("two parameters of the header exchanged", changed(HEADER, r"(starlark_bind\([^;]*size_t )call(, size_t )def", r"\1def\2call"), "the parameters of starlark_bind are not the code's"),
    Planted("a function of the package", changed(PACKAGE, r'^    "rescue": ', '    "saved": '), r"library\.py: starlark_rescue is in the code alone"),
    Planted("a type of the package", changed(PACKAGE, r'^(    "call": READ \* 2 \+ \[)LENGTH', r"\1WORD"), "FUNCTIONS has other types for starlark_call"),
    Planted("a parameter less in the package", changed(PACKAGE, r'^(    "call": READ \* )2', r"\g<1>1"), "FUNCTIONS has other types for starlark_call"),
    Planted("two numbers exchanged in a call of the package", changed(PACKAGE, r"(self\._bind\([^\n]*)_node\(call\), _node\(def_\)", r"\1_node(def_), _node(call)"),
            r"library\.py: bind has call and def in another order"),
    Planted("a function that the wrapper does not call", changed(WRAPPER, r"unsafe \{ starlark_bind\(", "unsafe { starlark_bound("), "starlark_bind is not called$"),
    Planted("two numbers exchanged in a call of the wrapper", changed(WRAPPER, r"(starlark_bind\([^)]*)call, def", r"\1def, call"), "starlark_bind is not called with call, def where"),
    Planted("two parameters of the wrapper exchanged", changed(WRAPPER, r"^(pub fn bind\(table: Table, )call: usize, def: usize", r"\1def: usize, call: usize"),
            r"interface\.rs: bind takes call and def in another order"),
    Planted("no row of all others", changed(HEADER, r"^ \*   all others ", " *   the others "), "the table of `out` cannot be read"),
    Planted("no record of refusals", created("bindings/c/refusals", ""), r"bindings/c/refusals has no record"),
    Planted("a word of `out`", changed(HEADER, r"^( \*   3, 4          out\[)0", r"\g<1>1"), r"3 writes the words \[0\] of `out`, and the header says \[1\]"),
    Planted("a number that carries an earlier node", changed(HEADER, r"(out\[3\] STARLARK_NONE; but for 11 and )22", r"\g<1>23"), r"the numbers that carry an earlier node are \[11, 22\]"),
    Planted("a constant", changed(HEADER, r"^(#define STARLARK_FIGURES )\d+", r"\g<1>33"), "STARLARK_FIGURES is 33, and 32 in the code"),
    Planted("a constant of nowhere", changed(HEADER, r"^(#define STARLARK_FIGURES )", r"#define STARLARK_MADE 1\n\1"), "nothing says where STARLARK_MADE comes from"),
    Planted("a constant that is gone", changed(HEADER, r"^#define STARLARK_FILE_BYTES [^\n]*\n", ""), "STARLARK_FILE_BYTES is not there"),
    Planted("an edition", changed(HEADER, r"(STARLARK_EDITION_2 = )2", r"\g<1>3"), "enum starlark_edition does not have the editions"),
    Planted("two words of parts exchanged", all_of(changed(HEADER, "STARLARK_PART_STR = 2", "STARLARK_PART_STR = 3"), changed(HEADER, "STARLARK_PART_REPR = 3", "STARLARK_PART_REPR = 2")),
            "enum starlark_part does not have the words"),
    Planted("a place of the figures", changed(HEADER, r"(STARLARK_FIGURE_LISTS = )\d+", r"\g<1>9"), "STARLARK_FIGURE_LISTS is not"),
    Planted("a field of a record", changed(FORMAT, r"^\| 16 to 17 \| size", "| 16 to 17 | length"), r'"Bytes": the code reads the field size from byte 16 to 17'),
    Planted("a field of a block", changed(FORMAT, r"^\| 2 to 3 \| used", "| 2 to 4 | used"), r'"Bytes of a block": its fields do not follow each other'),
]

IN_COUNTED = [
    Planted("a count of nothing known", added(PROOFS, "<!-- counted: meadows -->3<!-- -->\n"), r"PROOFS\.md: there is no count meadows"),
    Planted("a count that is wrong", changed("README.md", r"(<!-- counted: version -->)[^<]*", r"\g<1>9.9.9"), r"README\.md: a number is not what is counted"),
    Planted("a count that nothing writes", added(PROOFS, "There are 12 theorems.\n"), 'nothing writes the count "12 theorems"'),
    Planted("a count of a commit", added(PROOFS, "At 1eac965 there were 12 theorems.\n"), None),
    Planted("a count that is written", added(PROOFS, "There are <!-- counted: kinds -->45<!-- --> kinds.\n"), None),
    Planted("no count at all", lambda room: [room.write(str(path.relative_to(room.root)), re.sub("<!-- counted: [^>]*-->.*?<!-- -->", "some", path.read_text()))
                                            for path in [room.root / "README.md", *(room.root / "docs").rglob("*.md")]], "no document has a number that is counted"),
]

STEPS = "tools/tests/faults.list"
FIRST_OF_STEPS = r"^(header_bind_exchanged: [^\n]*\nstep: )prototypes"
IN_STEPS = [
    Planted("a fault whose text is not there", changed(HEADER, r"size_t call, size_t def,", "size_t def, size_t call,"), r"header_bind_exchanged: its text is in include/starlark\.h 0 times"),
    Planted("a fault of a file that is gone", changed(STEPS, r"^(header_bind_exchanged: .*?file: include/)", r"\1nowhere/"), "header_bind_exchanged: there is no include/nowhere/"),
    Planted("a fault without an edit", added(STEPS, "meadow: words alone\nstep: prototypes\n"), "meadow: it has no edit"),
    Planted("a step that is not there", changed(STEPS, FIRST_OF_STEPS, r"\1nowhere"), "header_bind_exchanged: there is no step nowhere"),
    Planted("a fault twice", changed(STEPS, r"^(header_bind_exchanged: .*?\n\n)", r"\1\1"), "header_bind_exchanged is listed twice"),
    Planted("no fault", nothing, "the list is empty", ("--check", "nowhere")),
]

LIST = "oracle/port-faults.list"
IN_FAULTS = [
    Planted("a fault twice", changed(LIST, r"^(fields/half_factor[^\n]*\n)", r"\1\1"), "fields/half_factor is listed twice"),
    Planted("another call", changed(LIST, r"\| call \w+", "| call nowhere"), "there is no call nowhere"),
    Planted("a wrong answer that is not in the list", changed(LIST, r"^fields/half_factor[^\n]*\n", ""), "fields/half_factor is a wrong answer, and the list does not say"),
    Planted("an edit that is gone", removed("crates/fields/wrong/half_factor.edit"), "there is no edit fields/half_factor"),
    Planted("an edit whose text is not there", changed("crates/fields/wrong/half_factor.edit", r"^old: ", "old: x"), "fields/half_factor: its text is not there once"),
    Planted("an edit without a pair", created("crates/fields/wrong/half_factor.edit", "Words alone.\n"), "fields/half_factor: it has no edit"),
    Planted("no such edit", nothing, "there is no such edit in the list", ("--check", "nowhere")),
]

WHOLE = ("README.md", ".ci/steps", ".pre-commit-hooks.yaml", "docs", "include", "bindings", "python/ducatmuffin", "samples", "crates", "oracle/*", "python/tests",
         "bench/*", "test", "ducat", "NOTICE")
PROMISED = ("docs/PROMISES.md", "crates/*/src", "crates/*/specs", "crates/*/wrong", "crates/*/must-fail", "crates/*/proofs/*.antt")
PORT = ("oracle/faults-port", "oracle/*.list", "oracle/plant", "python/ducatmuffin", "crates/*/src", "crates/*/specs", "crates/*/wrong", "crates/*/must-fail")
FEW = ("crates/fields",)

CHECKS = [
    Check("numbers.py", (), IN_NUMBERS, LISTED, published),
    Check("interfaces.py", (), IN_INTERFACES, LISTED),
    Check("format.py", (), IN_FORMAT, LISTED),
    Check("kinds.py", ("--check",), IN_KINDS, LISTED, documents),
    Check("cited.py", (), IN_CITED, WHOLE),
    Check("statements_page.py", ("--check",), IN_STATEMENTS, WHOLE),
    Check("prototypes.py", (), IN_PROTOTYPES, WHOLE),
    Check("counted.py", (), IN_COUNTED, WHOLE),
    Check("faults.py", ("--check",), IN_STEPS, WHOLE),
    Check("imports.py", (), IN_IMPORTS, FEW),
    Check("lines.py", (), IN_LINES, (*FEW, LAWS)),
    Check("tables.py", ("files", "samples/example.txt", "--check"), IN_TABLES, LISTED),
    Check("shown.py", (), IN_SHOWN, ("README.md", "docs/*", "samples/*"), command),
    Check("faults-port", ("--check",), IN_FAULTS, PORT),
    Check("promises.py", (), IN_PROMISES, PROMISED, also=("contracts.py",)),
]
