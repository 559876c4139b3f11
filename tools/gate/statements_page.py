#!/usr/bin/env python3
"""Makes docs/STATEMENTS.md from crates/statements, so that page and crate cannot differ.

statements_page.py            writes the page
statements_page.py --check    status 1 if the page is not what the crate gives, if a statement lacks a sentence or its words, if a module
                              cites theorems of several crates, or if README.md, docs/PROOFS.md or a landing note names a theorem to
                              users that no statement restates

A module of crates/statements/proofs opens with a comment: its title in capitals, an empty line, an introduction. Above each public statement
there is a comment: the user's sentence, and from 'In words:' on the statement in words. The page has, in the order of Lib.antt, the sentence,
the statement (only its lines are indented by their parentheses), the words, and the theorem that proves it; then where each
name is defined.
"""
import re
import sys

from reports import ended, fault
from repository import ROOT

FOLDER = ROOT / "crates" / "statements" / "proofs"
PAGE = ROOT / "docs" / "STATEMENTS.md"
HEAD = """# What is proved, statement by statement

This page is made from crates/statements by tools/gate/statements_page.py; `./test statements` compares the two. Each statement is proved there by citing the
theorem that is named below it. Nothing is abbreviated: every hypothesis is an arrow, and every claim of a conclusion is written out. So a
theorem that assumed more or claimed less would not prove its statement (tools/gate/weaker.py tries that).

Read `A → B` as "if A then B", `(x : A) →` as "for every x of A", `(x : A) ×` as "there is an x of A with", `×` as "and", `⊎` as "or",
`↔` as "if and only if", `≡` as "is", `⊥` as "impossible". `get_or l i 0` is number i of the list l, or 0 after its end.
"""


def words(lines):
    return " ".join(line.strip().removeprefix("--").strip() for line in lines).strip()


def laid(lines):
    """A signature with each line indented by the parentheses that are open before it."""
    out, depth = [], 0
    for n, line in enumerate(lines):
        text = line.strip()
        more = 1 if n else 0
        if n and depth == 0 and text[0] in "⊎↔×≡":
            more = 2
        out.append("    " * min(more, 1) + "  " * (max(more - 1, 0) + depth) + text)
        depth += sum((c in "({") - (c in ")}") for c in text)
    return out


def page():
    out, wrong, count = [HEAD], [], 0
    for name in re.findall(r"^pub mod (\w+)$", (FOLDER / "Lib.antt").read_text(), re.M):
        text = (FOLDER / f"{name}.antt").read_text()
        lines = text.split("\n")
        opening = lines[: next(i for i, l in enumerate(lines) if not l.startswith("--"))]
        files = {alias: (crate, file) for crate, file, alias in re.findall(r"^use Rattle\.(\w+)\.proofs\.(\w+) as (theorem\S*)$", text, re.M)}
        if len({crate for crate, _ in files.values()}) != 1:
            wrong.append(fault(f"{name}: it cites theorems of {len({crate for crate, _ in files.values()})} crates; tools/gate/weaker.py can try those of one"))
        out += [f"## {words(opening[:1]).capitalize() if words(opening[:1]).isupper() else words(opening[:1])}", "", words(opening[2:]), ""]
        used = set()
        for i, line in enumerate(lines):
            m = re.match(r"pub (\S+) : ", line)
            if not m:
                continue
            end = i + 1
            while lines[end].startswith(" "):
                end += 1
            start = i
            while lines[start - 1].startswith("--"):
                start -= 1
            comment = words(lines[start:i])
            sentence, mark, said = comment.partition("In words: ")
            stop = end
            while stop < len(lines) and lines[stop]:
                stop += 1
            cited = re.findall(r"(?<![^\s(])(theorem[^\s.()]*)\.([^\s()]+)", "\n".join(lines[end:stop]))
            if not (sentence and said and cited):
                wrong.append(fault(f"{name}.{m.group(1)}: no sentence, no words, or no theorem"))
            count += 1
            out += [sentence.strip(), "", "```text", *laid(lines[i:end]), "```", "", f"{said[:1].upper() + said[1:]}", ""]
            crate, file = files[cited[0][0]] if cited else ("", "")
            out += [f"Proved by `{cited[0][1] if cited else ''}` of [crates/{crate}/proofs/{file}.antt](../crates/{crate}/proofs/{file}.antt).", ""]
            used |= set(re.findall(r"[^\s(){}.,]+", " ".join(lines[i:end])))
        where = {}
        for m in re.finditer(r"^use Rattle\.(\w+)\.(specs|proofs)\.([\w.-]+)\.\{([^}]*)\}", text, re.M):
            owner, part, module, names = m.groups()
            if not (ROOT / "crates" / owner).is_dir():  # a library of the kit, which has no file here
                source = f"`Rattle.{owner}.{part}.{module}` of the kit"
            elif module.startswith("declared."):
                source = f"[crates/{owner}/src](../crates/{owner}/src)"
            else:
                path = f"crates/{owner}/{part}/{module.replace('.', '/')}.antt"
                source = f"[{path}](../{path})"
            where.setdefault(source, []).extend(n for n in (x.split(" as ")[-1].strip() for x in names.split(",")) if n in used)
        out += ["Where the names are defined:", "", "| Names | File |", "|---|---|"]
        out += [f"| {', '.join(f'`{n}`' for n in sorted(set(ns)))} | {s} |" for s, ns in sorted(where.items()) if ns]
        out.append("")
    return "\n".join(out).rstrip("\n") + "\n", wrong, count


# theorems of other kinds, each with its own page or step: of one answer (docs/PROMISES.md, tools/gate/promises.py)
ONE_ANSWER = re.compile(r".*_one$|.*_injective$")
# crates whose theorems need no statement: closed instances of what theorems assume
INSTANCES = {"Example.antt"}


def unrestated():
    """The theorems that the documents name to users and no statement cites. Where the document names the file before
    the theorem, that file's theorem must be restated; else one of that name. A function of such a name is named with its crate (`tablefile::judge_room`)."""
    restated, public = {}, {}
    for path in FOLDER.glob("*.antt"):
        text = path.read_text()
        files = {alias: f"{crate}/proofs/{file}.antt" for crate, file, alias in re.findall(r"^use Rattle\.(\w+)\.proofs\.(\w+) as (theorem\S*)$", text, re.M)}
        for alias, name in re.findall(r"(?<![^\s(])(theorem[^\s.()]*)\.([^\s()]+)", text):
            restated.setdefault(name, set()).add(files.get(alias))
    for path in sorted((ROOT / "crates").glob("*/proofs/*.antt")):
        if path.parent.parent.name != "statements" and path.name not in INSTANCES:
            for name in re.findall(r"^ *pub ([^\s:]+) : ", path.read_text(), re.M):
                public.setdefault(name, set()).add(str(path.relative_to(ROOT / "crates")))
    for document in [ROOT / "README.md", ROOT / "docs" / "PROOFS.md", *sorted((ROOT / "docs" / "landings").glob("*.md"))]:
        text, seen = document.read_text(), set()
        for file, names in re.findall(r"`(?:crates/)?(\w+/proofs/\w+\.antt)`: ((?:`[^`]+`(?:, )?)+)", text):
            for name in re.findall(r"`([^`\s]+)`", names):
                seen.add(name)
                if file in public.get(name, ()) and file not in restated.get(name, ()):
                    yield fault(f"{document.relative_to(ROOT)} names {name} of {file}, which no statement restates")
        for name in dict.fromkeys(re.findall(r"`([a-z0-9]+(?:[-_][a-z0-9]+)+)`", text)):
            if name in public and name not in restated and name not in seen and not ONE_ANSWER.fullmatch(name):
                yield fault(f"{document.relative_to(ROOT)} names {name} of no file, as {min(public[name])} has it, which no statement restates")


def main(words):
    text, wrong, count = page()
    if words == ["--check"]:
        if not PAGE.exists() or PAGE.read_text() != text:
            wrong.append(fault("docs/STATEMENTS.md is not what crates/statements says"))
        wrong += unrestated()
    else:
        PAGE.write_text(text)
    return ended(wrong, f"statements_page.py: {count} statements, and every theorem that the documents name is restated", "statements_page.py: ")


if __name__ == "__main__":
    sys.exit(main(sys.argv[1:]))
