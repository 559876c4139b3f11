"""ducat bind: which argument of a call reaches which parameter of a def, and which arguments have the name of another parameter.

The library gives the answers. This module pairs calls with defs, by the names of defs in the scripts: a table does not have them.
"""
import os
import re

from . import dialects, inputs, reasons
from .check import (MADE, NO_TABLE, SAYS_THE_STEP, STEP, SYNTAX, Found, complaints, evidence_of, failed_json, hint_of, in_one_table, is_joined, node_json, parsed,
                    read_parts, span_json, start, syntax_errors, syntax_lines)
from .expect import Expectations
from .library import Refusal
from .numbers import KIND, KINDS
from .output import PLAIN, Failed, named, say, shown, visible
from .scripts import NONE, files_of
from .table import children, decode, name_of, parents

DEF, CALL, IDENTIFIER, NAMED, DOT = (KIND[word] for word in ("Def", "Call", "Identifier", "Named", "Dot"))
STARS = {KIND["ArgsParam"]: "*", KIND["KwArgsParam"]: "**"}
FLAT = frozenset([KIND["Normal"], *STARS])
MODES = {1: "by place only", 2: "by place or name", 3: "by name only", 4: "collects by place", 5: "collects by name"}
LONGEST = 60  # characters of a script's text in a line
MANY, BATCH, THREADS = 2000, 16, 4  # the number of pairs from which on threads are used, of calls at a time, and the largest number of threads
HEAD = re.compile(rb"def[\s\\]+([\w\x80-\xff]+)")
NO_DEF = "no def of this name"
UNNAMED = {CALL: "a call of a call, which is bound to no def", DOT: "a method call, which is bound to no def"}
OTHER = "a call of an expression, which is bound to no def"


class Tree:
    """A sound table by its defs and calls. `number` gives the number of a node in JSON, which is its own except in a table of two statements."""

    def __init__(self, table, names, number=lambda node: node):
        self.table, self.names, self.records, self.number = table, names, decode(table), number

    def of_kind(self, kind):
        return [node for node, record in enumerate(self.records) if record.kind == kind]

    def name(self, node):
        return name_of(self.records[node], self.names)

    def span(self, node):
        return self.records[node].begin, self.records[node].end

    def file(self, node):
        return self.records[node].file

    def flat(self, node):
        """A def's parameters, without the marks."""
        return [child for child in children(self.records, node) if self.records[child].kind in FLAT]

    def arguments(self, node):
        return list(children(self.records, node))[1:]

    def path(self, node):
        """The names of an expression that is an identifier or a path, as zone.tracks; otherwise None."""
        names = []
        while self.records[node].kind == DOT:
            names.append(self.name(node))
            node += 1
        return (self.name(node), *reversed(names)) if self.records[node].kind == IDENTIFIER else None

    def callee(self, node):
        """The name of the callee, if it is an identifier."""
        return self.name(node + 1) if self.records[node + 1].kind == IDENTIFIER else None

    def unnamed(self, node):
        """The form of a call whose callee is not an identifier."""
        return UNNAMED.get(self.records[node + 1].kind, OTHER)


class Bytes:
    """Places in bytes, without a script; the text of an argument comes from its table."""

    scripts = NONE

    def __init__(self, tree):
        self.tree = tree

    def text(self, argument):
        said = self.value(argument + 1)
        return f"{shown(self.tree.name(argument))}={said}" if self.tree.records[argument].kind == NAMED else said

    def value(self, node):
        """An expression: a name or a path as it is, any other by its kind."""
        path = self.tree.path(node)
        return shown(b".".join(path)) if path else f"({KINDS[self.tree.records[node].kind][0]})"

    def place(self, node):
        return "node {}, file {}, bytes {} to {}".format(node, self.tree.file(node), *self.tree.span(node))

    def refused(self, refusal):
        return f"refused {refusal.number}" + (f" {refusal.file} {refusal.begin} {refusal.end}" if refusal.begin is not None else "")


class Places:
    """Places by line and column of scripts, and their texts. With several scripts a place has its script's name. What has no script is placed in
    bytes."""

    def __init__(self, tree, scripts):
        self.tree, self.scripts, self.defs, self.known, self.bytes = tree, scripts, {}, {}, Bytes(tree)
        self.named = len(scripts.by_file) > 1 or not scripts.every and len(files_of(tree.table)) > 1
        self.unnamed = {}  # by source file number, the defs that no script names
        for node in tree.of_kind(DEF):
            source = self.source(node)
            if not source:
                self.unnamed.setdefault(tree.file(node), []).append(node)
                continue
            head = HEAD.match(source.bytes, *tree.span(node))
            self.demand(head, node, "a def")
            self.defs.setdefault(head[1], []).append(node)
        for node in tree.of_kind(CALL):
            name, source = tree.callee(node), self.source(node)
            if name is not None and source:
                begin, end = tree.span(node + 1)
                self.demand(source.bytes[begin:end] == name, node + 1, shown(name))

    def source(self, node):
        return self.scripts.of(self.tree.file(node))

    def demand(self, met, node, what):
        if not met:
            begin, end = self.tree.span(node)
            number = "" if self.scripts.every else f" of source file {self.tree.file(node)}"
            raise Failed(f"{self.source(node).path} is not the table's script{number}: at bytes {begin} to {end} is not {what}")

    def text(self, node):
        source = self.source(node)
        return text_in(source, *self.tree.span(node)) if source else self.of_table(node)

    def value(self, node):
        """The text of an expression."""
        source = self.source(node)
        return text_in(source, *self.tree.span(node)) if source else self.bytes.value(node)

    def of_table(self, node):
        """The text of an argument or a call, as far as its table gives it."""
        if self.tree.records[node].kind != CALL:
            return self.bytes.text(node)
        name = self.tree.callee(node)
        return f"{shown(name)}(…)" if name is not None else "(Call)"

    def place(self, node):
        if node not in self.known:
            source = self.source(node)
            self.known[node] = place_in(source, self.tree.records[node].begin, self.named) if source else self.bytes.place(node)
        return self.known[node]

    def refused(self, refusal):
        return f"refused {refusal.number}" + (f", {self.text(refusal.node)} ({self.place(refusal.node)})" if refusal.node is not None else "")


def text_in(source, begin, end):
    """A part of a script in one line."""
    first, more, _ = source.bytes[begin:end].partition(b"\n")
    text = shown(first)
    return text[:LONGEST - 1] + "…" if more or len(text) > LONGEST else text


def place_in(source, begin, named):
    """The line and column of a byte, after the script's name if that is wanted."""
    where = "{}:{}".format(*source.line_column(begin))
    return f"{visible(source.path)}:{where}" if named else where


class Namesake:
    """An argument with the name of an ordinary parameter, `parameter`, that reaches another one, `reaches`. `other` is the one that it is exchanged
    with: each has the name of the parameter that the other reaches. `expected` is the expectation that states it."""

    def __init__(self, argument, reaches, parameter, taker):
        self.argument, self.reaches, self.parameter, self.taker = argument, reaches, parameter, taker
        self.other = self.expected = None


class Binder:
    """Calls the library for the calls and defs of one table."""

    def __init__(self, library, tree):
        self.library, self.tree, self.modes, self.flat, self.arguments, self.named = library, tree, {}, {}, {}, {}

    def flat_of(self, def_):
        if def_ not in self.flat:
            self.flat[def_] = self.tree.flat(def_)
        return self.flat[def_]

    def arguments_of(self, call):
        if call not in self.arguments:
            self.arguments[call] = self.tree.arguments(call)
        return self.arguments[call]

    def names_in(self, node, list_, of):
        """The names of a def's parameters or of a call's arguments, found once."""
        if node not in self.named:
            self.named[node] = frozenset(map(of, list_(node)))
        return self.named[node]

    def argument_name(self, argument):
        path = self.tree.records[argument + 1].kind in (DOT, IDENTIFIER)
        return self.tree.name(argument + 1) if path else None

    def namesakes(self, call, def_):
        """The namesakes of an accepted call, in order. The library is called only if an argument has the name of a parameter: it reports no others."""
        if self.names_in(call, self.arguments_of, self.argument_name).isdisjoint(self.names_in(def_, self.flat_of, self.tree.name)):
            return ()
        answer, flat = self.library.namesakes(self.tree.table, self.tree.names, call, def_), self.flat_of(def_)
        found = {one.argument: Namesake(one.argument, flat[one.reached], flat[one.namesake], one.taken) for one in answer.found}
        for one in found.values():
            other = found.get(one.taker)
            if other and other.taker == one.argument:
                one.other = other
        return tuple(found.values())

    def bound(self, call, def_):
        return self.library.bind(self.tree.table, self.tree.names, call, def_)

    def answers(self, pairs):
        """For each call with its defs the list of answers, in order. Many pairs are bound in several threads: the library works without the lock."""
        def ask(pair):
            return [self.bound(pair[0], def_) for def_ in pair[1]]

        threads = min(os.cpu_count() or 1, THREADS)
        if threads < 2 or sum(len(defs) for _, defs in pairs) < MANY:
            yield from map(ask, pairs)
            return
        from concurrent.futures import ThreadPoolExecutor
        with ThreadPoolExecutor(threads) as pool:
            for first in range(0, len(pairs), BATCH):
                yield from pool.map(ask, pairs[first:first + BATCH])

    def taken(self, answer, call, def_):
        """Each parameter of an accepted call: its node, its mode, and the arguments that it takes."""
        tree, arguments = self.tree, self.arguments_of(call)
        if def_ not in self.modes:
            self.modes[def_] = self.library.params(tree.table, tree.names, def_).modes
        for at, (parameter, mode, node) in enumerate(zip(self.flat_of(def_), self.modes[def_], answer.parameters)):
            if mode in (4, 5):
                yield parameter, mode, [one for one, reached in zip(arguments, answer.arguments) if reached == at]
            else:
                yield parameter, mode, [node] if node else None

    def lines(self, answer, call, def_, places, explain):
        """The lines of an answer."""
        if type(answer) is Refusal:
            return [places.refused(answer) + (f": {answer.words}{self.counted(answer)}" if explain else "")]
        lines = []
        for parameter, mode, taken in self.taken(answer, call, def_):
            if taken is None:
                said = "default"
            else:
                said = "; ".join([f"{places.text(one)} ({places.place(one)})" for one in taken]) or "none"
            lines.append(f"{self.parameter(parameter)}, {MODES[mode]}: {said}")
        return lines or ["no parameters"]

    def parameter(self, node):
        """A parameter's name with its stars."""
        return STARS.get(self.tree.records[node].kind, "") + shown(self.tree.name(node))

    def reached(self, one, places, place=True):
        """`tracks reaches trains`, with the argument's place."""
        value = one.argument + 1
        where = f" ({places.place(value)})" if place else ""
        return f"{places.value(value)}{where} reaches {self.parameter(one.reaches)}"

    def though(self, one, places, place=True):
        return f"{self.reached(one, places, place)}, though there is a parameter {shown(self.tree.name(one.parameter))}"

    def counted(self, answer):
        """For 19 the number of entries of the list."""
        return f": {reasons.too_many(self.entries(answer))}" if answer.number == reasons.TOO_MANY else ""

    def entries(self, answer):
        return reasons.entries(self.tree.table, self.tree.names, answer.node)

    def in_json(self, answer, call, def_, scripts):
        told = {"call": self.node(call, scripts), "def": self.node(def_, scripts)}
        if type(answer) is Refusal:
            carried = {} if answer.node is None else {**node_json(self.tree.table, answer.node, self.tree.number(answer.node)),
                                                      **span_json(scripts.of(answer.file), answer.file, answer.begin, answer.end)}
            if answer.earlier is not None:
                carried["earlier"] = self.node(answer.earlier, scripts)
            if answer.number == reasons.TOO_MANY:
                carried["entries"] = self.entries(answer)
            return {**told, "refused": {"number": answer.number, "words": answer.words, **carried}}
        told["parameters"] = [
            {"name": shown(self.tree.name(parameter)), "mode": MODES[mode], "default": taken is None,
             "arguments": [self.node(one, scripts) for one in taken or ()]}
            for parameter, mode, taken in self.taken(answer, call, def_)]
        return told

    def namesake_json(self, one, places):
        return {**self.node(one.argument, places.scripts), "words": self.though(one, places, False), "reaches": self.parameter(one.reaches),
                "parameter": shown(self.tree.name(one.parameter)), "taken_by": self.node(one.taker, places.scripts) if one.taker else None,
                "exchanged": one.other is not None, **({"expected": one.expected} if one.expected else {})}

    def node(self, node, scripts):
        return {"node": self.tree.number(node), **place_json(self.tree, node, scripts)}


def place_json(tree, node, scripts):
    return span_json(scripts.of(tree.file(node)), tree.file(node), *tree.span(node))


def script_json(found):
    """The scripts of an input; those that are joined are listed with their evidence."""
    if is_joined(found.one):
        return {}
    return {"script": named(found.one.name)} if found.one.script else found.scripts.in_json()


def joined_evidence(found):
    return evidence_of(found) if is_joined(found.one) else {}


def counted(n, what):
    return f"{n} {what}{'' if n == 1 else 's'}"


def status_of(answer):
    if type(answer) is not Refusal:
        return 0
    return 1 if 10 <= answer.number else 2


class Pair:
    """A call and a def of one table, and the library's answer. `judged` is the total that the pair counts in, `beyond` why it is not judged."""

    beyond = None

    def __init__(self, binder, places, call, def_, answer):
        self.binder, self.places, self.nodes, self.answer = binder, places, (call, def_), answer
        self.call, self.def_, self.status = call, def_, status_of(answer)
        refused = type(answer) is Refusal
        self.judged, self.namesakes = "refused" if refused else "bound", () if refused else binder.namesakes(call, def_)

    def lines(self, explain):
        return self.binder.lines(self.answer, *self.nodes, self.places, explain) + self.namesake_lines()

    def namesake_lines(self):
        """A line for each namesake; two that are exchanged have one."""
        lines, told = [], set()
        for one in self.namesakes:
            stated = [each.expected for each in (one, one.other) if each and each.expected]
            expected = f"; {' and '.join(stated)} expect{'' if len(stated) > 1 else 's'} it" if stated else ""
            if one.other is None:
                lines.append(f"namesake: {self.binder.though(one, self.places)}{expected}")
            elif one.other not in told:
                lines.append(f"exchanged: {self.binder.reached(one, self.places)}, and {self.binder.reached(one.other, self.places)}{expected}")
                told.add(one)
        return lines

    def in_json(self):
        told = self.binder.in_json(self.answer, *self.nodes, self.places.scripts)
        if self.namesakes:
            told["namesakes"] = [self.binder.namesake_json(one, self.places) for one in self.namesakes]
        return told

    @property
    def unexpected(self):
        """The namesakes that no expectation states."""
        return [one for one in self.namesakes if not one.expected]


class Nodes:
    """The kinds and names of a tree's nodes, a parent before its children, and their parents."""

    def __init__(self, kinds, names, above, spot):
        self.kinds, self.names, self.parents, self.spot = kinds, names, above, spot

    def is_callee(self, at):
        above = self.parents[at]
        return above is not None and self.kinds[above] == CALL and at == above + 1


class Whole:
    """All calls and defs of one table. A call and a def are the numbers of their nodes."""

    def __init__(self, library, tree, places):
        self.binder, self.tree, self.places, self.scripts, self.defs = Binder(library, tree), tree, places, places.scripts, places.defs

    def paired(self):
        """Each call, in order, with its pairs."""
        calls = [(call, self.defs.get(self.tree.callee(call), [])) for call in self.tree.of_kind(CALL)]
        for (call, defs), answers in zip(calls, self.binder.answers(calls)):
            yield call, [Pair(self.binder, self.places, call, def_, answer) for def_, answer in zip(defs, answers)]

    def trees(self):
        """The nodes of the table, for code that visits all of them."""
        yield Nodes([record.kind for record in self.tree.records], [name_of(record, self.tree.names) for record in self.tree.records],
                    parents(self.tree.records), lambda at: at)

    def notes(self):
        """The notes about defs that no script names."""
        return [f"{self.scripts.note(file)}; {counted(len(defs), 'def')} of it {'is' if len(defs) == 1 else 'are'} paired with no call"
                for file, defs in sorted(self.places.unnamed.items())]

    def lacking(self):
        """The source file numbers without a script, each with a sentence."""
        return [self.scripts.note(file) for file in files_of(self.tree.table) if not self.scripts.of(file)]

    def callee(self, call):
        return self.tree.callee(call)

    def parameters(self, def_):
        return [self.tree.name(node) for node in self.binder.flat_of(def_)]

    def source(self, node):
        """The bytes of a node, or None where there is no script."""
        source = self.places.source(node)
        return source.bytes[slice(*self.tree.span(node))] if source else None

    def place(self, node):
        return self.places.place(node)

    def text(self, call):
        return self.places.text(call)

    def head(self, call):
        return f"{self.place(call)} {self.text(call)}"

    def alone(self, call):
        """Why a call is bound to no def."""
        return self.tree.unnamed(call) if self.callee(call) is None else NO_DEF

    def node_json(self, node):
        return self.binder.node(node, self.scripts)

    def call_json(self, call):
        return call_json(self.tree, call, self.scripts)


def call_json(tree, node, scripts=NONE):
    name = tree.callee(node)
    return {"node": node, **place_json(tree, node, scripts), "callee": None if name is None else shown(name),
            "form": "name" if name is not None else {CALL: "call", DOT: "method"}.get(tree.records[node + 1].kind, "expression"),
            "arguments": len(tree.arguments(node))}


class Run:
    """A run over several files."""

    def __init__(self, library, options, out):
        self.library, self.options, self.out = library, options, out
        self.status, self.report, self.many = 0, None, len(options.files) > 1

    def worse(self, status):
        self.status = max(self.status, status)

    def file(self, one):
        """One input."""
        found = Found(one)
        if one.script and not self.parsed(found):
            return
        if one.script and not in_one_table(found):
            from .wide import Wide
            self.paired(found, Wide(self.library, found))
            return
        if not (self.sound(found) if one.script else self.read(found)):
            return
        tree = Tree(found.table, found.names)
        try:
            self.table(found, tree)
        except Failed as error:
            self.failed(found, str(error))

    def read(self, found):
        """Reads a table file, and returns whether it is accepted."""
        try:
            found.data = inputs.read(found.one, inputs.TABLE_MOST)
        except (OSError, ValueError) as error:
            found.message = inputs.reason(error)
            self.failed(found)
            return False
        answer = self.library.read(found.data)
        if type(answer) is Refusal:
            self.refused(found, answer)
            return False
        found.table, found.names, found.dialect, found.scripts = answer.table, answer.names, answer.dialect, self.options.scripts
        found.edition = answer.edition
        return True

    def parsed(self, found):
        """Reads a script, or several, and returns whether all are Starlark."""
        found.dialect = self.options.dialect
        if not (read_parts(found) and parsed(found)):
            self.not_starlark(found) if found.verdict == SYNTAX else self.failed(found)
            return False
        return True

    def sound(self, found):
        """Returns whether the table of a script is accepted."""
        answer = self.library.table(found.table, found.names)
        if type(answer) is Refusal:
            self.refused(found, answer)
            return False
        return True

    def add(self, found, entry):
        """Adds the JSON of an input to the report, in its format."""
        from .formats import rendered
        data = rendered(self.options.format, entry, found.one.name, found.scripts or NONE)
        if data:
            self.report.add(data)

    # ---- what cannot be bound

    def unmet(self, why):
        """An input that is not bound meets no expectation. In JSON this is a part of the input's, otherwise lines."""
        judged = self.options.expectations.unmet(f"the input {why}")
        self.worse(int(bool(judged)))
        if self.report:
            return {"expectations": [one.in_json() for one in judged]} if judged else {}
        self.expected_lines(judged)
        return None

    def failed(self, found, message=None):
        """An input that is not read or has no table, or, with a message, whose script is not the table's."""
        self.worse(2)
        none = found.verdict == NO_TABLE
        why = "is not bound to its script" if message is not None else "has no table" if none else "cannot be read"
        if self.report:
            told = failed_json(found) if message is None else {"failed": visible(message)}
            verdict = "no table" if none else "unreadable"
            self.add(found, {**start(found), **joined_evidence(found), "verdict": verdict, **told, **self.unmet(why)})
            return
        for line in complaints(found) if message is None else [message]:
            say(line)
        self.unmet(why)

    def not_starlark(self, found):
        self.worse(1)
        if self.report:
            self.add(found, {**start(found), **evidence_of(found), "verdict": "syntax", "errors": syntax_errors(found), **self.unmet("is not Starlark")})
            return
        self.header(found.one)
        for part in found.syntax:
            self.out.lines(syntax_lines(part.source, part.syntax, self.options.paint))
        self.unmet("is not Starlark")

    def refused(self, found, refusal):
        self.worse(2)
        one, found.refusal = found.one, refusal
        why = reasons.why_file(self.library, found.data, refusal, len(found.data) < inputs.TABLE_MOST) if not one.script else reasons.Why()
        unmet = f"is refused with {refusal.number}"
        if self.report:
            told = {"number": refusal.number, "words": refusal.words, **why.in_json()}
            self.add(found, {**start(found), **evidence_of(found), "verdict": "refused", "refused": told, **self.unmet(unmet)})
            return
        said = f"refused {refusal.number}: {refusal.words}{why}"
        self.header(one)
        paint = self.options.paint.refusal
        if self.options.explain:
            hint = hint_of(found)
            self.out.lines([paint(said)] + ([f"hint: {hint}"] if hint else []))
        else:
            self.out.lines([paint(f"refused {refusal.number}")])
            self.out.flush()
            say(f"{one.name}: {said}")
        self.unmet(unmet)

    # ---- what can

    def header(self, one):
        if self.many:
            self.out.lines([self.options.paint.bold(visible(one.name) + ":")])

    def table(self, found, tree):
        if self.options.call is not None:
            self.pair(found, tree)
        elif found.scripts:
            self.paired(found, Whole(self.library, tree, Places(tree, found.scripts)))
        else:
            self.listed(found, tree)

    def told(self, found, **more):
        table = {"table": MADE} if found.one.script else {}
        self.add(found, {**start(found), **evidence_of(found), **table, **dialects.both_json(found.dialect, found.edition), **more})

    def pair(self, found, tree):
        """A call and a def by their nodes."""
        call, def_ = self.options.call, self.options.def_
        binder = Binder(self.library, tree)
        pair = Pair(binder, Bytes(tree), call, def_, binder.bound(call, def_))
        self.worse(max(pair.status, int(self.options.strict and bool(pair.namesakes))))
        if not self.report:
            self.out.lines(map(self.options.paint.refusal, pair.lines(self.options.explain)))
            return
        verdict, strict = ("bound", "refused", "refused")[pair.status], {"strict": True} if self.options.strict else {}
        if pair.status == 2:
            told = {"call": {"node": call}, "def": {"node": def_}, "refused": {"number": pair.answer.number, "words": pair.answer.words}}
        else:
            told = pair.in_json()
        self.told(found, verdict=verdict, pairs=[told], **strict)

    def listed(self, found, tree):
        """The defs and calls of a table, in its order."""
        defs, calls = tree.of_kind(DEF), tree.of_kind(CALL)
        if self.report:
            self.told(found, verdict="listed", defs=[self.def_json(tree, node) for node in defs],
                      calls=[call_json(tree, node) for node in calls])
            return
        self.header(found.one)
        lines = []
        for node in sorted(defs + calls):
            where = "{}, file {}, bytes {} to {}".format(node, tree.file(node), *tree.span(node))
            if tree.records[node].kind == DEF:
                lines.append(f"def {where}: {counted(len(tree.flat(node)), 'parameter')}")
            else:
                name = tree.callee(node)
                called = shown(name) if name is not None else tree.unnamed(node).partition(",")[0]
                lines.append(f"call {where}: {called}, {counted(len(tree.arguments(node)), 'argument')}")
        self.out.lines([*lines, f"defs {len(defs)}, calls {len(calls)}"])

    def def_json(self, tree, node, scripts=NONE):
        return {"node": node, **place_json(tree, node, scripts), "parameters": len(tree.flat(node))}

    def bound(self, head, lines):
        paint = self.options.paint
        self.out.lines([paint.bold(head), *("    " + paint.refusal(line) for line in lines)])

    def paired(self, found, world):
        """All calls of a name with the defs of that name, and the calls that have none."""
        totals, alone, pairs, expected = self.totals(world), [], [], self.options.expectations.start()
        if not self.report:
            self.header(found.one)
        for call, of_call in world.paired():
            expected.see(world, call, of_call)
            for pair in of_call:
                self.count(totals, pair)
                if self.report:
                    pairs.append(pair.in_json())
                else:
                    self.bound(f"{world.head(call)}, def {world.place(pair.def_)}", pair.lines(self.options.explain))
            if not of_call:
                alone.append(call)
                if not self.report:
                    self.out.lines([f"{world.head(call)}, {world.alone(call)}"])
        totals["without_def"], judged = len(alone), expected.judged(world)
        self.worse(int(any(not one.met for one in judged)))
        if self.report:
            self.paired_json(found, world, totals, pairs, alone, judged)
        else:
            self.paired_end(found, world, totals, judged)

    @staticmethod
    def totals(world):
        return {"bound": 0, "refused": 0, "without_def": 0, **({} if type(world) is Whole else {"not_judged": 0}), "namesakes": 0}

    def count(self, totals, pair):
        totals[pair.judged] += 1
        totals["namesakes"] += len(pair.namesakes)
        self.worse(pair.status)
        if self.options.strict and pair.unexpected:
            self.worse(1)

    def paired_json(self, found, world, totals, pairs, alone, judged):
        verdict = "not judged" if totals.get("not_judged") else "refused" if totals["refused"] else "bound"
        notes = world.notes()
        more = {"notes": notes} if notes else {}
        if self.options.strict:
            more["strict"] = True
        if judged:
            more["expectations"] = [one.in_json() for one in judged]
        self.told(found, verdict=verdict, **script_json(found), pairs=pairs, without_def=[world.call_json(call) for call in alone], **more, totals=totals)

    def paired_end(self, found, world, totals, judged):
        """The totals, the results of the expectations, and on standard error the notes."""
        line = "bound {bound}, refused {refused}, without a def {without_def}".format(**totals)
        line += f", namesakes {totals['namesakes']}" if totals["namesakes"] else ""
        self.out.lines([line + (f", not judged {totals['not_judged']}" if "not_judged" in totals else "")])
        self.expected_lines(judged)
        self.out.flush()
        for note in world.notes():
            say(f"{found.one.name}: {note}")

    def expected_lines(self, judged):
        paint = self.options.paint
        for one in judged:
            self.out.lines([f"expect {one.text}: {paint.refusal(one.came)}", *(f"    {line}" for line in one.lines())])


class Options:
    """How a run binds and prints; `json` and `paint` as in check.Options."""

    def __init__(self, files, explain=False, json=False, dialect=None, scripts=None, call=None, def_=None, format=None, paint=PLAIN, expectations=(),
                 strict=False):
        self.files, self.explain, self.dialect, self.format = files, explain, dialect, format or ("json" if json else "text")
        self.json, self.scripts, self.call, self.def_, self.paint = self.format != "text", scripts, call, def_, paint
        self.expectations, self.strict = Expectations(expectations), strict


def run(library, options, out, front):
    """Binds the calls of all files, and returns the exit status."""
    one = Run(library, options, out)
    if options.json:
        from .formats import report
        one.report = report(options.format, out, front)
    if options.format not in SAYS_THE_STEP and any(file.script for file in options.files):
        say(STEP)
    for file in options.files:
        one.file(file)
    if one.report:
        one.report.end(status=one.status)
    return one.status


