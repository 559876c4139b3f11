#!/usr/bin/env python3
"""Reports imported names that a file does not use, in definitions, proofs and code.

imports.py            prints a line for each file with an unused import; status 1 if there is one
imports.py --write    removes the unused names, and each `use` that is then empty
"""
import functools
import re
import sys

import repository
from reports import ended, fault

USE = re.compile(r"^((?:pub )?(?:ghost )?use )([^\s{;]+?)(?:(\.|::)\{([^{}]*)\}|((?: as [^\s;]+)?))(;?)\n", re.M)
ANY = re.compile(r"^(?:pub )?(?:ghost )?use ", re.M)
COMMENT = {".antt": re.compile(r"--.*"), ".rt": re.compile(r"//.*")}


@functools.lru_cache(1)
def words_of(body):
    """The words of a text, between spaces, brackets and marks."""
    return set(re.split(r"[\s(){},;.]+", body))


def is_used(name, body):
    """Whether a text has a name: a word as a whole, an operator by its name or by each of its parts as a word."""
    if "◌" in name:
        return name in words_of(body) or all(part in words_of(body) for part in name.split("◌") if part)
    word = re.escape(name.strip("«»"))
    return re.search(rf"(?<![\w'′«-]){word}(?![\w'′»-])|«{word}»", body) is not None


# the traits of std whose methods code calls without naming the trait
METHODS = {"Env": ("arg", "var", "var_at", "current_dir", "set_current_dir"), "Read": ("read", "read_to_end", "read_exact"), "Write": ("write", "write_all", "flush")}


def is_called(name, body, suffix):
    """Whether a name is that of a trait of which code calls a method."""
    return suffix == ".rt" and any(re.search(rf"\.{method}\(", body) for method in METHODS.get(name, ()))


def local(entry, module=""):
    """The name that an import brings in: the one after `as`, if there is one, and for `self` the module's."""
    name = entry.split(" as ")[-1].strip()
    return re.split(r"[.:]+", module)[-1] if name == "self" else name


def kept(text, suffix):
    """The text without its unused imports, and the names that are gone."""
    body = COMMENT[suffix].sub("", USE.sub("", text))
    gone = []

    def without(match):
        head, module, mark, names, renamed, end = match.groups()
        if head.startswith("pub "):
            return match[0]
        if names is None:
            name = local(renamed) if renamed else re.split(r"[.:]+", module)[-1]
            if is_used(name, body):
                return match[0]
            gone.append(name)
            return ""
        entries = [entry.strip() for entry in names.split(",") if entry.strip()]
        used = [entry for entry in entries if is_used(local(entry, module), body) or is_called(local(entry), body, suffix)]
        gone.extend(local(entry, module) for entry in entries if entry not in used)
        if len(used) == len(entries):
            return match[0]
        return f"{head}{module}{mark}{{{', '.join(used)}}}{end}\n" if used else ""

    return USE.sub(without, text), gone


def main(words):
    faults = []
    for path in repository.sources(*COMMENT):
        text = path.read_text()
        if ANY.search(USE.sub("", text)):
            faults.append(fault(f"{path.relative_to(repository.ROOT)} has an import that is not read"))
        new, gone = kept(text, path.suffix)
        if gone:
            faults.append(fault(f"{path.relative_to(repository.ROOT)} imports and does not use {', '.join(gone)}"))
            if words == ["--write"]:
                path.write_text(new)
    status = ended(faults, "imports.py: every imported name is used")
    return 0 if words == ["--write"] else status


if __name__ == "__main__":
    sys.exit(main(sys.argv[1:]))
