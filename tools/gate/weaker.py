#!/usr/bin/env python3
"""Plants faults in the theorems that crates/statements cites, and checks that the statements then fail.

weaker.py [MODULE...] [--records N] [--list]
    after rt ci; MODULE is a file of crates/statements/proofs (all of them)

Rules for a module of `statements`: it cites theorems of one crate, each file of them imported 'as theorem' or 'as theorem-NAME'; it imports
nothing from a crate above that one; every statement is proved by citing one theorem. A module that breaks a rule is reported and counts as bad.
--list prints what each module cites, and which public theorems of these files no statement cites.

The tool copies the theorems' crate and those below it out of the checkout, puts the module beside the proofs of that crate there, and has `rt ci`
prove the copy. The crates below it are not proved again, since rt keeps what it has proved on this machine:
1. all weakened conclusions at once. For each conjunct of each cited theorem a theorem is put after the right one, in which that conjunct is
   Unit, proved by citing the right one (so the copy is proved); and beside the statement a copy that cites it, which must be refused. Records
   and abbreviations in a conclusion are opened: a field of a record is a conjunct. For each theorem there is also one that assumes ⊥ in addition.
   A twin of each statement, which cites the right theorem, must be accepted: otherwise a refusal shows nothing.
2. a field `never : ⊥` in each record of a hypothesis, one check for each (--records N: the first N of each module). The module must
   be refused for its own reason. If the crate makes such a record in the proof of the theorem, the crate refuses the field, the theorem is
   missing, and the module shows nothing: this is counted separately.
The last line is 'N of M faults refused, A by the statements and B by the crate of the record alone'; status 0 if N is M and every twin is
accepted.
"""
import argparse
import contextlib
import pathlib
import re
import subprocess
import sys
import tempfile
import time

import repository
from reports import fault
from repository import CRATES

NOT_ADMITTED = "was not admitted"


# ---- types as text

def split(text, mark):
    """The parts of a text between marks that are not in parentheses."""
    parts, depth, last = [], 0, 0
    for i, c in enumerate(text):
        depth += (c in "({") - (c in ")}")
        if depth == 0 and text.startswith(mark, i):
            parts.append(text[last:i].strip())
            last = i + len(mark)
    return [*parts, text[last:].strip()]


def bare(text):
    """A type without the parentheses around the whole of it; a binder keeps its own."""
    text = text.strip()
    while text.startswith("(") and len(groups(text)) == 1 and len(split(text, " ")) >= 1 and closes(text) == len(text) - 1:
        inner = text[1:-1].strip()
        if is_binder(text):
            break
        text = inner
    return text


def closes(text):
    depth = 0
    for i, c in enumerate(text):
        depth += (c in "({") - (c in ")}")
        if depth == 0:
            return i
    return -1


def groups(text):
    """The adjacent words and groups in parentheses of a text."""
    found, i = [], 0
    while i < len(text):
        if text[i].isspace():
            i += 1
        elif text[i] in "({":
            end = i + closes(text[i:])
            end += re.compile(r"(?:\.[^\s(){}]+)?").match(text, end + 1).end() - (end + 1)  # (f x).field is one
            found.append(text[i : end + 1])
            i = end + 1
        else:
            end = re.compile(r"[\s(){}]|$").search(text, i).start()
            found.append(text[i:end])
            i = end
    return found


def is_binder(text):
    return bool(re.match(r"[({]\s*[^\s():]+(?: [^\s():]+)* : ", text)) and closes(text) == len(text) - 1


def wrapped(text):
    return text if " " not in text or closes(text) == len(text) - 1 and text[0] == "(" else f"({text})"


def arrows(text):
    """The items of a type between its arrows; the last is the conclusion."""
    return split(text, "→")


# ---- a crate's declarations

class Record:
    """A record: its explicit parameters, its fields, its file, and where its crate is another one, the file's text with imports from outside."""

    def __init__(self, name, params, head, fields, path, foreign=None):
        self.name, self.params, self.head, self.fields, self.path, self.foreign = name, params, head, fields, path, foreign


RECORD = r"^pub record (\S+)((?: [({][^)}]*[)}])+) : Type 0 where\n((?:  .*\n)+)"


def record_in(found, path, foreign=None):
    names = [n for g in groups(found.group(2)) if g[0] == "(" for n in g[1:-1].split(" : ")[0].split()]
    body = re.split(r"^  pub (?=\S+ : )", re.sub(r"^ *--.*\n", "", found.group(3), flags=re.M), flags=re.M)[1:]
    fields = [(f.split(" : ", 1)[0], " ".join(f.split(" : ", 1)[1].split())) for f in body]
    return Record(found.group(1), names, found.group(2), fields, path, foreign)


def from_outside(text, crate, path):
    """The imports of a file of a crate as another crate must write them, with the file's own public names."""
    uses = re.findall(r"^use .*", text, re.M)
    own = re.findall(r"^(?:unfoldable )?(?:abbrev )?pub (?:record |data )?(?!mod )([^\s:]+) ", text, re.M)
    part, *rest = path.relative_to(CRATES / crate).with_suffix("").parts
    return [*uses, f"use Rattle.{crate}.{part}.{'.'.join(rest)}.{{{', '.join(own)}}}"]


class Crate:
    """What the files of a crate declare: records with parameters, abbreviations of one clause, and where."""

    def __init__(self, name, folder):
        self.name, self.folder, self.records, self.abbrevs = name, folder, {}, {}
        self.needs, self.known = set(), {"⊎_elim": "mathlib.Core.Logic", "inl": "mathlib.Core.Logic", "inr": "mathlib.Core.Logic"}
        for path in sorted([*(folder / "specs").rglob("*.antt"), *(folder / "proofs").rglob("*.antt")]):
            text = path.read_text()
            for module, names in re.findall(r"^use (\S+)\.\{([^}]*)\}", text, re.M):
                self.known.update({n.strip(): module for n in names.split(",") if " as " not in n})
            self.known.update({n: self.module(path) for n in re.findall(r"^(?:unfoldable )?(?:abbrev )?pub (?:record |data )?([^\s:]+) ", text, re.M) if n != "mod"})
            for m in re.finditer(RECORD, text, re.M):
                self.records[m.group(1)] = record_in(m, path)
            for below, part, file, names in re.findall(r"^use Rattle\.(\w+)\.(specs|proofs)\.(\w+)\.\{([^}]*)\}", text, re.M):
                there = CRATES / below / part / f"{file}.antt"
                for m in re.finditer(RECORD, there.read_text() if there.is_file() else "", re.M):
                    if m.group(1) in [n.strip() for n in names.split(",")]:
                        self.records.setdefault(m.group(1), record_in(m, there, from_outside(there.read_text(), below, there)))
            for m in re.finditer(r"^abbrev pub (\S+) : [^\n]*Type 0\n((?:^(?! *--)\S.*\n(?:  +.*\n)*)+)", text, re.M):
                clauses = re.findall(rf"^{re.escape(m.group(1))} (.*?)=(?= |\n)((?:.*\n)(?:  +.*\n)*)", m.group(2), re.M)
                if len(clauses) == 1 and re.fullmatch(r"(?:\S+ )*", clauses[0][0]) and "(" not in clauses[0][0]:
                    self.abbrevs[m.group(1)] = (clauses[0][0].split(), " ".join(clauses[0][1].split()))

    def module(self, path):
        part, *rest = path.relative_to(self.folder).with_suffix("").parts
        return f"Rattle.{self.name}.{part}." + ".".join(rest)


def put(text, names, args):
    """A text with arguments for names."""
    table = dict(zip(names, args))
    return re.sub(r"(?<![^\s(){}])([^\s(){}.]+)((?:\.[^\s(){}]+)?)(?=[\s(){}]|$)", lambda m: wrapped(table[m.group(1)]) + m.group(2) if m.group(1) in table else m.group(0), text)


def opened(crate, type_):
    """A theorem's type with its arrows. If the whole type is an abbreviation, as the claims of a crate are, it is expanded."""
    items = arrows(type_)
    if items[-1].startswith("let "):  # a name for a term
        named, rest = split(items[-1], " in ")[0], " in ".join(split(items[-1], " in ")[1:])
        name, term = re.fullmatch(r"let (\S+) = (.*)", named).groups()
        return opened(crate, " → ".join([*items[:-1], put(rest, [name], [term])]))
    head, *args = groups(bare(items[-1]))
    function = re.fullmatch(r"\(λ ([^.]+)\. (.*)\)", head)
    if function and len(function.group(1).split()) == len(args):
        body = put(function.group(2), function.group(1).split(), args)
    elif head in crate.abbrevs and len(crate.abbrevs[head][0]) == len(args) and (not args or "→" in crate.abbrevs[head][1]):
        names, body = crate.abbrevs[head]
        crate.needs |= set(re.findall(r"[^\s(){}.,;λ]+", body)) - set(names)
        body = put(body, names, args)
    else:
        return type_
    return opened(crate, " → ".join([*items[:-1], body]))


# ---- a theorem

class Theorem:
    def __init__(self, name, indent, sig, end, params):
        self.name, self.indent, self.sig, self.end, self.params = name, indent, sig, end, params


def theorems(text):
    """The public declarations of a file that have a signature, by name; 'end' is the line after their text."""
    lines, found, modules, i = text.split("\n"), {}, [], 0
    while i < len(lines):
        line = lines[i]
        indent = len(line) - len(line.lstrip())
        if line.strip():
            modules = [m for m in modules if m[0] < indent]
        if re.match(r" *module _ ", line):
            head = [line.strip()]
            while not head[-1].endswith("where"):
                i += 1
                head.append(lines[i].strip())
            modules.append((indent, [g for g in groups(" ".join(head)) if g[0] in "({"]))
        m = re.match(r"( *)pub (\S+) : (.*)", line)
        if m and not re.match(r" *pub (?:mod|record|data)\b", line):
            name, sig, j = m.group(2), [m.group(3)], i + 1
            while j < len(lines) and re.match(rf" {{{indent + 1},}}\S", lines[j]):
                sig.append(lines[j].strip())
                j += 1
            while j < len(lines) and (re.match(rf" {{{indent + 1},}}\S", lines[j]) or re.match(rf" {{{indent}}}(?:(?:unfolding|{re.escape(name)})(?= )|[)}}])", lines[j]) or (not lines[j].strip() and j + 1 < len(lines) and re.match(rf" {{{indent + 1},}}\S", lines[j + 1]))):
                j += 1
            found[name] = Theorem(name, indent, " ".join(sig), j, [g for m in modules for g in m[1]])
            i = j - 1
        i += 1
    return found


# what holds for every entry of a list, with the law that maps it
MAPS = {"All": "all_map", "Each": "each_map"}


class Weak:
    """One weakened conclusion: its type, the term that makes it from the right one (at x), and the records that it needs."""

    def __init__(self, type_, term, what, records=()):
        self.type, self.term, self.what, self.records = type_, term, what, list(records)


def weakened(crate, type_, x, label):
    """Every way to make one conjunct of a type Unit."""
    t = bare(type_)
    if len(arrows(t)) > 1:
        yield Weak("Unit {0}", "tt", t)
        return
    sides = split(t, "↔")
    if len(sides) == 2:
        for k, (a, b) in enumerate([(sides[0], sides[1]), (sides[1], sides[0])]):
            for w in weakened(crate, b, "z'", label):
                ways = [f"({wrapped(a)} → {w.type if ' ' not in w.type else wrapped(w.type)})", f"({wrapped(sides[1 - k])} → {wrapped(sides[k])})"]
                terms = [f"(λ z. let z' = {x}.{k} z in {w.term})", f"{x}.{1 - k}"]
                if k:
                    ways, terms = ways[::-1], terms[::-1]
                yield Weak(" × ".join(ways), f"({', '.join(terms)})", f"{'←' if k else '→'} {w.what}", w.records)
        return
    sides = split(t, "⊎")
    if len(sides) == 2:
        crate.needs |= {"⊎_elim", "inl", "inr"}
        for k in (0, 1):
            for w in weakened(crate, sides[k], "y'", label):
                both = [wrapped(s) for s in sides]
                both[k] = wrapped(w.type)
                arms = ["λ (y' : %s). inl y'" % bare(sides[0]), "λ (y' : %s). inr y'" % bare(sides[1])]
                arms[k] = f"λ (y' : {bare(sides[k])}). in{'lr'[k]} {wrapped(w.term)}"
                yield Weak(" ⊎ ".join(both), f"⊎_elim ({arms[0]}) ({arms[1]}) {wrapped(x)}", f"in{'lr'[k]} {w.what}", w.records)
        return
    parts = split(t, "×")
    if len(parts) > 1:
        for k, part in enumerate(parts):
            if is_binder(part):
                continue
            for w in weakened(crate, part, f"{x}.{k}", label):
                types = [*parts[:k], wrapped(w.type), *parts[k + 1 :]]
                terms = [f"{x}.{i}" if i != k else w.term for i in range(len(parts))]
                yield Weak(" × ".join(types), f"({', '.join(terms)})", w.what, w.records)
        return
    head, *args = groups(t)
    if head in crate.abbrevs and len(crate.abbrevs[head][0]) == len(args):
        names, body = crate.abbrevs[head]
        opened = put(body, names, args)
        crate.needs |= set(re.findall(r"[^\s(){}.,;λ]+", body)) - set(names)
        if re.match(r"(?:All|Each) \(λ|.*×", opened) or groups(opened)[0] in crate.records:
            yield from weakened(crate, opened, x, label)
            return
    m = re.fullmatch(r"\(λ (\S+)\. (.*)\)", args[0]) if head in MAPS and len(args) == 2 else None
    if m:
        crate.needs |= {head, MAPS[head]}
        for w in weakened(crate, m.group(2), "a'", label):
            yield Weak(f"{head} (λ {m.group(1)}. {w.type}) {args[1]}", f"{MAPS[head]} (λ {m.group(1)} (a' : {m.group(2)}). {w.term}) {args[1]} {wrapped(x)}", f"{head}: {w.what}", w.records)
        return
    if head in crate.records and len(crate.records[head].params) == len(args):
        r = crate.records[head]
        for k, (field, own) in enumerate(r.fields):
            later = " ".join(o for _, o in r.fields[k + 1 :])
            if not is_claim(crate, own) or re.search(rf"(?<![^\s(]){re.escape(field)}(?![^\s).])", later):
                continue  # a value, or a claim that a later field uses
            inner = bare(own).split(" ")[0]
            ways = weakened(crate, own, f"{x}.{field}", label) if inner in crate.records and not r.foreign else [Weak("Unit {0}", "tt", f"{head}.{field}")]
            for w in ways:
                name = f"{head}-{next(label)}"
                copy = [(f, w.type if i == k else o) for i, (f, o) in enumerate(r.fields)]
                terms = [f"{f} = {w.term if i == k else x + '.' + f}" for i, (f, _) in enumerate(r.fields)]
                what = w.what if w.what.startswith(head) else f"{head}.{w.what}"
                yield Weak(" ".join([name, *args]), f"record {{ {'; '.join(terms)} }}", what, [*w.records, (r, name, copy)])
        return
    yield Weak("Unit {0}", "tt", t)


def is_claim(crate, type_):
    """Whether a field is a claim, and not a value such as a number or a node."""
    t = bare(type_)
    return bool(re.search(r"[≡≤<→×⊎]", t)) or groups(t)[0] in crate.records or len(groups(t)) > 1 and groups(t)[0] not in ("List", "Maybe")


def clause(sig):
    """The names of a theorem's explicit arguments, and its items."""
    items, names = arrows(sig), []
    for n, item in enumerate(items[:-1]):
        if all(is_binder(g) for g in groups(item)):
            names += [x for g in groups(item) if g[0] == "(" for x in g[1:-1].split(" : ")[0].split()]
        else:
            names.append(f"h'{n}")
    return names, items


# ---- a copy of a crate, and what the prover says about it

@contextlib.contextmanager
def copy_of(name):
    """A copy of a crate and those below it, outside of the checkout: the crate's folder there."""
    with tempfile.TemporaryDirectory(prefix="weaker-") as room:
        repository.copy_crates(pathlib.Path(room), [name])
        yield pathlib.Path(room) / "crates" / name


def check(name, folder):
    """The errors that rt reports for a crate of a copy: (file, declaration, text)."""
    subprocess.run(["rt", "fmt"], cwd=folder, stdin=subprocess.DEVNULL, stdout=subprocess.PIPE, stderr=subprocess.STDOUT)
    done = subprocess.run(["rt", "ci"], cwd=folder.parent.parent, stdin=subprocess.DEVNULL, stdout=subprocess.PIPE, stderr=subprocess.STDOUT, text=True, errors="replace")
    if not re.search(rf"^logic=not-proved|^rt: {name} (?:proved|is kept)", done.stdout, re.M):
        sys.exit(fault(f"weaker.py: no verdict on {name}: {done.stdout[-400:]}"))
    return re.findall(r"^(?:\./)?((?:src|specs|proofs)/\S+?):\d+:\d+: error: (?:`([^`]*)`: )?(.*)", done.stdout.partition(f"== {name}\n")[2], re.M)


class Module:
    """A module of `statements`, and the crate and the file of theorems that it cites."""

    def __init__(self, path):
        self.path, self.text = path, path.read_text()
        found = re.findall(r"^use Rattle\.(\w+)\.proofs\.(\w+) as (theorem\S*)$", self.text, re.M)
        if len({crate for crate, _, _ in found}) != 1:
            sys.exit(fault(f"weaker.py: {path.stem} cites theorems of {len({crate for crate, _, _ in found})} crates"))
        self.crate = found[0][0]
        self.files = {alias: file for _, file, alias in found}
        self.statements = theorems(self.text)
        self.cited = {s: c for s in self.statements for c in [self.cites(s)] if c}
        self.uncited = [s for s in self.statements if s not in self.cited]
        self.left_out = [f"{file}.{t}" for alias, file in self.files.items() for t in self.right(CRATES / self.crate, alias) if (alias, t) not in self.cited.values()]

    def broken(self):
        """The rules for a module that this one breaks, in words."""
        stands, todo = {self.crate}, [self.crate]
        while todo:
            below = [c for c in repository.crates()[todo.pop()] if c in repository.crates() and c not in stands]
            stands |= set(below)
            todo += below
        for crate in sorted(set(re.findall(r"^use Rattle\.(\w+)", self.text, re.M)) & set(repository.crates()) - stands):
            yield fault(f"it imports from {crate}, which {self.crate} does not depend on")
        for name in self.uncited:
            yield fault(f"{name} cites no theorem")

    def place(self, crate, r, new):
        """The module of a weakened record in the copy."""
        return f"Rattle.{self.crate}.proofs.W{new.replace('-', '')}" if r.foreign else crate.module(r.path)

    def right(self, folder, alias):
        """The theorems of a file that the module cites, in the crate or in a copy of it."""
        return theorems((folder / "proofs" / f"{self.files[alias]}.antt").read_text())

    def body(self, name):
        """A statement's text, without the comment above it."""
        lines = self.text.split("\n")
        start = next(i for i, l in enumerate(lines) if l.startswith(f"pub {name} : "))
        return "\n".join(lines[start : self.statements[name].end])

    def cites(self, name):
        """The theorem that a statement cites, with the name under which its file is imported."""
        return next(iter(re.findall(r"(?<![^\s(])(theorem[^\s.()]*)\.([^\s().]+)", self.body(name))), None)

    def head(self):
        """The imports and the helpers: everything but statements."""
        text = self.text
        for name in self.statements:
            text = text.replace(self.body(name), "")
        return text

    def conclusions(self):
        """All weakened conclusions in one check. Returns (refused, tried, twins not accepted, what was not refused)."""
        with copy_of(self.crate) as folder:
            return self.conclusions_in(folder)

    def conclusions_in(self, folder):
        crate = Crate(self.crate, folder)
        right = {alias: self.right(folder, alias) for alias in self.files}
        inserted, faults, records, statements = {}, {}, [], [self.head()]
        label = iter(range(1, 100000))
        for name, (alias, cited) in self.cited.items():
            t = right[alias][cited]
            names, items = clause(opened(crate, t.sig))
            call = " ".join([cited, *names])
            statements.append(self.body(name).replace(f"pub {name} :", f"pub {name}-twin :").replace(f"\n{name} ", f"\n{name}-twin "))
            ways = list(weakened(crate, items[-1], "x'", label))
            ways.append(None)
            for w in ways:
                n = next(label)
                weak, bad = f"{cited}-{n}", f"{name}-{n}"
                pad = " " * t.indent
                if w is None:
                    text, what = f"{pad}pub {weak} : ⊥ → {t.sig}\n{pad}{weak} never = {cited}\n", "asks ⊥ in addition"
                else:
                    start = " → ".join(items[:-1])
                    value = "tt" if w.term == "tt" else f"let x' = {call} in {w.term}"
                    text = f"{pad}pub {weak} : {start + ' → ' if start else ''}{w.type if ' ' not in w.type or not start else wrapped(w.type)}\n{pad}{' '.join([weak, *names])} = {value}\n"
                    records += w.records
                    what = w.what
                inserted.setdefault(alias, {}).setdefault(t.end, []).append(text)
                faults[bad] = (cited, what)
                copy = self.body(name).replace(f"pub {name} :", f"pub {bad} :").replace(f"\n{name} ", f"\n{bad} ").replace(f"{alias}.{cited}", f"{alias}.{weak}")
                for r, new, _ in w.records if w else []:
                    head, eq, body = copy.partition(f"\n{bad} ")
                    copy = head + eq + re.sub(rf"(?<![\w-]){re.escape(r.name)}(?![\w-])", new, body)
                statements.append(copy)
        for alias, places in inserted.items():
            file = folder / "proofs" / f"{self.files[alias]}.antt"
            lines = file.read_text().split("\n")
            for at in sorted(places, reverse=True):
                lines[at:at] = ["", *"\n".join(places[at]).rstrip("\n").split("\n")]
            text = "\n".join(lines)
            uses = "".join(f"use {self.place(crate, r, new)}.{{{new}}}\n" for r, new, _ in records if (r.foreign or r.path != file) and new in text)
            put = " ".join(t for texts in places.values() for t in texts)
            bound = {name for names in re.findall(r"[({]([^(){}:]+) : ", put) for name in names.split()}  # (later : List ℕ) is no import
            planted = set(re.findall(r"[^\s(){}.,;]+", put)) - bound
            wanted = crate.needs & planted
            for n in sorted((wanted | {f"◌{n}◌" for n in wanted}) & set(crate.known)):  # an operator is imported as ◌≡◌
                if not re.search(rf"^use .*[{{ ]{re.escape(n)}[,}}]", text, re.M) and crate.known[n] != crate.module(file):
                    uses += f"use {crate.known[n]}.{{{n}}}\n"
            first = re.search(r"^use ", text, re.M).start()
            file.write_text(text[:first] + uses + text[first:])
        foreign = [(r, new, fields) for r, new, fields in records if r.foreign]
        for r, new, fields in records:
            text = f"\npub record {new}{r.head} : Type 0 where\n" + "".join(f"  pub {f} : {o}\n" for f, o in fields)
            if r.foreign:
                (folder / "proofs" / f"W{new.replace('-', '')}.antt").write_text("\n".join(r.foreign) + "\n" + text)
                continue
            uses = "".join(f"use {self.place(crate, q, n)}.{{{n}}}\n" for q, n, _ in records if (q.foreign or q.path != r.path) and n in text)
            whole = r.path.read_text()
            own = next(m for m in re.finditer(RECORD, whole, re.M) if m.group(1) == r.name)
            whole = whole[: own.end()] + text + whole[own.end() :]
            first = re.search(r"^use ", whole, re.M).start()
            r.path.write_text(whole[:first] + uses + whole[first:])
        with (folder / "proofs" / "Lib.antt").open("a") as lib:
            lib.write("".join(f"pub mod W{new.replace('-', '')}\n" for _, new, _ in foreign))
        shown = "".join(f"use {self.place(crate, r, new)}.{{{new}}}\n" for r, new, _ in records)
        body = "\n\n".join(statements)
        first = re.search(r"^use ", body, re.M).start()
        (folder / "proofs" / "Weaker.antt").write_text(body[:first] + shown + body[first:] + "\n")
        with (folder / "proofs" / "Lib.antt").open("a") as lib:
            lib.write("pub mod Weaker\n")
        errors = check(self.crate, folder)
        broken = [e for e in errors if e[0] != "proofs/Weaker.antt"]
        for e in broken:
            print("  " + fault(f"the planted theorem itself is not proved: {e[0]} {e[1]}: {e[2][:300]}"))
        ours = {e[1]: e[2] for e in errors if e[0] == "proofs/Weaker.antt"}
        twins = [n for n in self.cited if f"{n}-twin" in ours]
        stood = [f for f in faults if f not in ours or NOT_ADMITTED in ours[f]]
        for f in stood:
            print("  " + fault(f"NOT REFUSED: {f}: {faults[f][0]} without: {faults[f][1]}{' (' + ours[f][:200] + ')' if f in ours else ''}"))
        for n in twins:
            print("  " + fault(f"its twin is refused too: {n}: {ours[n + '-twin'][:300]}"))
        return len(faults) - len(stood), len(faults), len(twins) + len(broken)

    def hypotheses(self):
        """The records of the crate in a hypothesis of a cited theorem, or in such a record's fields."""
        crate = Crate(self.crate, CRATES / self.crate)
        right = {alias: self.right(CRATES / self.crate, alias) for alias in self.files}
        found, todo = [], []
        for alias, cited in self.cited.values():
            items = arrows(opened(crate, right[alias][cited].sig))
            todo += right[alias][cited].params + items[:-1]
            todo += [items[-1]] if "↔" in items[-1] else []
        seen = set()
        while todo:
            for word in re.findall(r"[^\s(){}.,]+", todo.pop(0)):
                if word in seen:
                    continue
                seen.add(word)
                if word in crate.records and not crate.records[word].foreign:
                    found.append(crate.records[word])
                    todo += [o for _, o in crate.records[word].fields]
                elif word in crate.abbrevs:
                    todo.append(crate.abbrevs[word][1])
        return found

    def record(self, r):
        """A field `never : ⊥` in a record. Returns whether the statements refuse it, and whether the crate itself does."""
        with copy_of(self.crate) as folder:
            return self.record_in(folder, r)

    def record_in(self, folder, r):
        path = folder / r.path.relative_to(CRATES / self.crate)
        path.write_text(re.sub(rf"(^pub record {re.escape(r.name)}(?: [({{][^)}}]*[)}}])+ : Type 0 where\n(?:  .*\n)+)", r"\1  pub never : ⊥\n", path.read_text(), count=1, flags=re.M))
        (folder / "proofs" / "Weaker.antt").write_text(self.text)
        with (folder / "proofs" / "Lib.antt").open("a") as lib:
            lib.write("pub mod Weaker\n")
        errors = check(self.crate, folder)
        ours = [e for e in errors if e[0] == "proofs/Weaker.antt" and NOT_ADMITTED not in e[2]]
        theirs = [e for e in errors if e[0] != "proofs/Weaker.antt" and NOT_ADMITTED not in e[2]]
        gone = not ours and any(e[0] == "proofs/Weaker.antt" for e in errors)
        return ours, theirs, gone


def main(given):
    words = argparse.ArgumentParser(description=__doc__, formatter_class=argparse.RawDescriptionHelpFormatter)
    words.add_argument("modules", nargs="*")
    words.add_argument("--records", type=int, default=1000)
    words.add_argument("--list", action="store_true")
    asked = words.parse_args(given)
    refused = tried = bad = masked = 0
    for name in asked.modules:
        if not (CRATES / "statements" / "proofs" / f"{name}.antt").exists():
            bad += 1
            print(fault(f"weaker.py: there is no module {name} of crates/statements"))
    for path in sorted((CRATES / "statements" / "proofs").glob("*.antt")):
        if path.stem == "Lib" or asked.modules and path.stem not in asked.modules:
            continue
        m = Module(path)
        if asked.list:
            print(path.stem, m.crate, *m.files.values(), "records:", " ".join(r.name for r in m.hypotheses()), "theorems:", " ".join(m.cited))
            print(path.stem, "public in these files and not restated:", " ".join(m.left_out) or "none")
            continue
        began = time.time()
        n, k, b = m.conclusions()
        refused, tried, bad = refused + n, tried + k, bad + b
        print(f"{path.stem}: {n} of {k} weaker conclusions refused, {len(m.cited)} twins, {b} bad ({time.time() - began:.1f} s)", flush=True)
        for words in m.broken():
            bad += 1
            print(f"{path.stem}: {words}")
        for r in m.hypotheses()[: asked.records]:
            began = time.time()
            ours, theirs, gone = m.record(r)
            refused, tried, masked = refused + bool(ours), tried + 1, masked + gone
            said = f"refused by the statements ({' '.join(sorted({e[1] for e in ours}))})" if ours else "its crate refuses it, and a theorem is gone" if gone else fault("NOT REFUSED by the statements")
            print(f"{path.stem}: {r.name} with `never : ⊥`: {said}; {'refused' if theirs else 'not refused'} by its own crate ({' '.join(sorted({e[1] for e in theirs})) or '-'}) ({time.time() - began:.1f} s)", flush=True)
    if asked.list:
        return 0
    if not tried:
        bad += 1
        print(fault("weaker.py: no fault was planted"))
    print(f"{refused + masked} of {tried} faults refused, {refused} by the statements and {masked} by the crate of the record alone" + (f", {bad} bad" if bad else ""))
    return 0 if refused + masked == tried and not bad else 1


if __name__ == "__main__":
    sys.exit(main(sys.argv[1:]))
