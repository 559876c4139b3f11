#!/usr/bin/env python3
"""Compares the documents with the repository: every path and link that they name exists, and every name that they cite is defined.

In a table or a sentence, `crates/a/b.antt`: `x`, `y` cites x and y of that file; a later `C.antt`: `z` is a file of the same folder. A path may
omit crates/. A name counts where the file defines it, not where a comment or another definition has it. A name without a path that only
code can mean (it has an inner hyphen, underscore or capital, or `::`) must be defined in some file; `a::b::c` in the sources of crate a, where
there is such a crate. KNOWN has the words of that form that are not names of the repository. Status 1, with a line for each fault.
"""
import ast
import functools
import re
import sys

from reports import ended, fault
from repository import CRATES, ROOT

DOCUMENTS = ["README.md", "samples/README.md", *(f"docs/{name}.md" for name in ("COMMANDS", "CONTRIBUTING", "CRATES", "DECISIONS", "DIFFERENCES", "FORMAT",
                                                                              "JSON", "PROOFS", "RULES"))]
PATH = re.compile(r"^[\w./+-]+\.(?:antt|rt|py|txt|tsv|md|h|c|rs|list|sha256)$")
# a name that only code can mean: with an inner hyphen or underscore, with a capital after a small letter, or a path of names
NAME = re.compile(r"(?=.*(?:\w[-_]\w|[a-z][A-Z]|\w::\w))[^\W\d_][\w']*(?:(?:-|::)[\w']+)*")


def found(path, folder):
    """The file that a document names: from the root, under crates/, or beside the file that was named before."""
    places = [ROOT / path, CRATES / path] + ([folder / path] if folder else [])
    return next((place for place in places if place.exists()), None)


def cited(text):
    """The citations of a line: each path with the names after it. A colon starts the names, anything but a comma or 'and' ends them. The other
    names come without a path."""
    path, names, last = None, [], 0
    for match in re.finditer(r"`([^`]+)`", text):
        between, word = text[last:match.start()], match.group(1)
        last = match.end()
        if PATH.match(word) and "/" in word or re.match(r"^[A-Z]\w*\.antt$", word):
            if path:
                yield path, names
            path, names = word, []
        elif path and (between == ": " if not names else between in (", ", " and ", ", and ")):
            names.append(word)
        else:
            if path:
                yield path, names
            path, names = None, []
            yield None, [word]
    if path:
        yield path, names


# words of that form that the repository does not define
KNOWN = {
    "get_or",  # of the kit's library
    "param_count",  # of the published crate
    "tracks_north",  # a variable of a script
    "as-script",  # a line of ducat.ini
    "mode_1", "mode_5", "error_10", "error_19", "error_50", "error_61",  # keys with a number
}


# ---- what a file defines

def in_logic(text):
    """The definitions, theorems, records, fields and constructors of a file of the logic: what has a type."""
    text = re.sub(r"(?m)(^|\s)--(\s.*)?$", "", text)
    names = re.findall(r"^ *(?:(?:pub|abbrev|unfoldable|record|data) )*([^\s(){}:]+)(?: [({].*)? :(?:\s|$)", text, re.M)
    return [name.strip("«»") for name in names]


def in_code(text):
    """The functions, constants, types, modules, fields and variants of a source of Rattle or Rust."""
    text = re.sub(r"//.*", "", text)
    for block in re.findall(r"^(?:pub )?(?:struct|enum) \w+[^{;\n]*\{\n(.*?)^\}", text, re.M | re.S):
        yield from re.findall(r"^    (?:pub )?(\w+)(?=[:,({ ])", block, re.M)
    yield from re.findall(r"\b(?:fn|const|static|struct|enum|mod|type) (\w+)", text)


def in_python(text):
    """The functions, classes, variables and parameters of a Python file, and the keys of its dictionaries."""
    for node in ast.walk(ast.parse(text)):
        if isinstance(node, (ast.FunctionDef, ast.ClassDef)):
            yield node.name
        elif isinstance(node, ast.Name) and isinstance(node.ctx, ast.Store):
            yield node.id
        elif isinstance(node, (ast.arg, ast.keyword)):
            yield node.arg
        elif isinstance(node, ast.Dict):
            yield from (key.value for key in node.keys if isinstance(key, ast.Constant))
        elif isinstance(node, ast.Subscript) and isinstance(node.slice, ast.Constant):
            yield node.slice.value


def in_c(text):
    """The functions, constants and types of a header or a file of C."""
    text = re.sub(r"/\*.*?\*/|//[^\n]*", "", text, flags=re.S)
    return re.findall(r"^#define (\w+)|^    (\w+) = \d+,|^(?:[\w ]+[ *])(\w+)\(|\b(?:enum|struct) (\w+) \{", text, re.M)


def in_words(text):
    """The words of a text without definitions: a list of cases, a table."""
    return re.findall(r"[\w'-]+", text)


# files that are lists of names: the crates, the steps, the hooks, the numbers
LISTS = ["crates.txt", ".ci/steps", ".pre-commit-hooks.yaml", "docs/numbers.tsv"]
READ = {".antt": in_logic, ".rt": in_code, ".rs": in_code, ".py": in_python, ".h": in_c, ".c": in_c}


@functools.cache
def names_of(suffix, text):
    names = READ.get(suffix, in_words)(text)
    return {part for name in names for part in (name if isinstance(name, tuple) else [name]) if isinstance(part, str)}


def defined(path):
    """The names that a file defines."""
    return names_of(path.suffix, path.read_text())


@functools.cache
def anywhere():
    """The names that some file of the repository defines, the names of files, and those of LISTS."""
    names = {name for file in LISTS for name in in_words((ROOT / file).read_text())}
    for folder in ("crates", "include", "bindings", "python", "tools", "oracle"):
        for path in sorted((ROOT / folder).rglob("*")):
            if not {"target", "out"} & {*path.relative_to(ROOT).parts}:
                names |= {path.name, *(defined(path) if path.suffix in READ else ())}
    return names


def of_crate(crate):
    """The names that the sources of a crate define, and its modules."""
    files = [*(CRATES / crate / "src").rglob("*.rt")]
    return {name for path in files for name in (path.stem, *defined(path))}


def is_defined(name):
    """Whether a name without a path is defined: after a crate's name in that crate, otherwise anywhere."""
    first, *rest = name.split("::")
    if rest and (CRATES / first / "src").is_dir():
        return all(part in of_crate(first) for part in rest)
    return all(part in anywhere() for part in [first, *rest])


# ---- the documents

def faults_of(document):
    folder = None
    if not (ROOT / document).exists():
        yield fault(f"there is no {document}")
        return
    for number, line in enumerate((ROOT / document).read_text().splitlines(), 1):
        for target in re.findall(r"\]\(([^)#]+)\)", line):
            if "://" not in target and not ((ROOT / document).parent / target).exists():
                yield fault(f"{document}:{number}: the link {target} leads nowhere")
        for path, names in cited(line):
            if path is None:
                if NAME.fullmatch(names[0]) and names[0] not in KNOWN and not is_defined(names[0]):
                    yield fault(f"{document}:{number}: no file defines {names[0]}")
                continue
            if path.startswith(("proofs/", "src/", "specs/")):  # of each crate
                continue
            place = found(path, folder)
            if place is None:
                yield fault(f"{document}:{number}: there is no {path}")
                continue
            folder = place.parent
            for name in names:
                if name.split("::")[-1] not in defined(place):
                    yield fault(f"{document}:{number}: {path} does not define {name}")


def main(_):
    anywhere.cache_clear()
    faults = [one for document in DOCUMENTS for one in faults_of(document)]
    return ended(faults, "cited.py: every path, link and name that the documents cite is there")


if __name__ == "__main__":
    sys.exit(main(sys.argv[1:]))
