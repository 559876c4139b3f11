#!/usr/bin/env python3
"""Spells the definitions and lemmas of this repository as today's Rattle does: words in snake case.

usage: python3 tools/port_names.py [--look]     at the top, once, after the kit's port/port.py; with --look it prints and writes nothing

A name in camel case (kidsSound) or with dashes (kids-tests), that a file of crates/*/specs or crates/*/proofs declares, is written
with underscores wherever it stands in specs, proofs, clauses and comments of crates/. Where a definition and a lemma would fall
together, the lemma ends in _lem. Names that Rattle makes (goals, invariants) stay, and so do strings and the code of functions.
"""
import collections
import os
import re
import sys

TOKEN = re.compile(r"[A-Za-z_][A-Za-z0-9_'\-]*(?:◌[A-Za-z0-9_'\-◌]*)?")
DECLARED = re.compile(r"^(\s*)((?:(?:pub|abbrev|unfoldable|pattern)\s+)*)([a-z][^\s:(){}«»◌]*)\s*:\s+(.*)$")
# Names that the same spelling would give to two things of one file.
APART = {
    "seen◌optional": "had_optional",
    "index◌of◌star": "star_index",
    "inside◌def": "within_def",
    "inside◌for": "within_for",
    "num◌positional": "positional_count",
    "num◌positional◌only": "positional_only_count",
    "top◌level": "on_top",
}


def snake(w):
    w = re.sub(r"([a-z0-9])([A-Z])", lambda m: m.group(1) + "_" + m.group(2), w)
    return w.lower().replace("-", "_")


def odd(n):
    return bool(re.search(r"[A-Z]", n) or "-" in n)


def read():
    files = {}
    for folder, dirs, fs in os.walk("crates"):
        dirs[:] = sorted(d for d in dirs if d != "out")
        for f in sorted(fs):
            if f.endswith((".antt", ".rt")):
                p = os.path.join(folder, f)
                with open(p, encoding="utf-8") as h:
                    files[p] = h.read()
    return files


def declared(files):
    """Each declared name, with the files that declare it; names of goals are left out."""
    names = collections.defaultdict(set)
    for p, t in files.items():
        if not p.endswith(".antt"):
            continue
        for line in t.splitlines():
            m = DECLARED.match(line)
            if m and not re.match(r"(tie|goal|given|[a-z0-9_\-]*-lts)\.", m.group(4)):
                names[m.group(3)].add(p)
    return names


def mapping(names):
    turn = {}
    plain = {n for n in names if not odd(n)}
    taken = collections.defaultdict(list)
    for n in names:
        if odd(n) and not re.match(r"(invariant|decreases|returns|loop)-?\d*$", n):
            taken[snake(n)].append(n)
    for new, olds in taken.items():
        camel = [n for n in olds if re.search(r"[A-Z]", n)]
        if len(camel) > 1:
            print("two definitions fall together:", olds)
        for n in olds:
            to = new
            if n not in camel and (camel or new in plain):
                to = new + "_lem"
            elif n in camel and new in plain:
                # the plain one is a lemma whose dash went before
                turn[new] = new + "_lem"
            turn[n] = to
    turn.update(APART)
    return turn


def kept(text, crates):
    """The names that a file takes from a library: they keep the library's spelling there."""
    names = set()
    for m in re.finditer(r"(?m)^\s*(?:pub |ghost )*use ([A-Za-z_.0-9+\-']+?)\.\{([^}]*)\}", text):
        parts = m.group(1).split(".")
        if parts[0] != "Rattle" or parts[1] not in crates:
            for item in m.group(2).split(","):
                item = item.strip()
                names.add(item)
                if " as " in item:
                    names.add(item.split(" as ")[0].strip())
    return names


def respell(text, turn, seen, stays, code):
    def one(m):
        w = m.group(0)
        if w in turn and w not in stays and (odd(w) or "◌" in w or not code):
            # a folder of proofs has the name of its function
            if not odd(w) and re.search(r"Rattle(\.[\w+]+)*\.$", text[max(0, m.start() - 120) : m.start()]):
                return w
            seen.add((w, turn[w]))
            return turn[w]
        return w

    return TOKEN.sub(one, text)


def main():
    look = "--look" in sys.argv
    files = read()
    names = declared(files)
    turn = mapping(names)
    bad = 0
    crates = set(os.listdir("crates"))
    for p, t in files.items():
        seen = set()
        stays = kept(t, crates)
        if p.endswith(".rt"):
            parts = re.split(r'("(?:[^"\\\n]|\\.)*")', t)
            new = "".join(x if i % 2 else respell(x, turn, seen, stays, True) for i, x in enumerate(parts))
        else:
            new = respell(t, turn, seen, stays, False)
        bare = re.sub(r"--.*|//.*", "", t) if p.endswith(".antt") else re.sub(r"//.*", "", t)
        bare = re.sub(r"Rattle(?:\.[A-Za-z0-9_+\-']+)+", "", bare)
        had = set(re.findall(r"(?<![.\w])" + TOKEN.pattern, bare))
        # a function or a clause may have the name of a definition: code and clauses are apart
        apart = set(re.findall(r"\b(?:fn|requires|ensures) (\w+)", t)) | set(re.findall(r"::(\w+)", t)) if p.endswith(".rt") else set()
        for old, to in sorted(seen):
            if to in had and to not in turn and to not in apart:
                bad += 1
                print(f"falls together: {p}: {old} -> {to}")
        back = collections.defaultdict(set)
        for old, to in seen:
            back[to].add(old)
        for to, olds in back.items():
            if len(olds) > 1:
                print(f"falls together: {p}: {sorted(olds)} -> {to}")
        if not look and new != t:
            with open(p, "w", encoding="utf-8") as h:
                h.write(new)
    print(f"{len(turn)} names, {bad} places that fall together")


if __name__ == "__main__":
    main()
