"""The release check of `ducat bind`: --expect DEF.PARAMETER=NAME says that every call of DEF passes NAME to PARAMETER.

The library answers which argument reaches which parameter. This module decides which calls are judged, and what leaves an expectation unmet. Judged are
calls whose callee is the name DEF. Whatever could make another function of that name, or call DEF in another way, leaves it unmet.
"""
import re

from . import inputs
from .lexer import NAME, STRING, tokens
from .library import Refusal
from .numbers import KIND
from .output import Failed, shown

FORM = re.compile(r"([A-Za-z_][A-Za-z0-9_]*)\.([A-Za-z_][A-Za-z0-9_]*)=([A-Za-z_][A-Za-z0-9_]*(?:\.[A-Za-z_][A-Za-z0-9_]*)*)")
MOST = 1 << 20  # bytes of a file of expectations
IDENTIFIER, DOT, LOAD = KIND["Identifier"], KIND["Dot"], KIND["Load"]
PARAMETERS = frozenset(KIND[word] for word in ("Normal", "ArgsParam", "KwArgsParam"))
LISTS = frozenset((KIND["Tuple"], KIND["List"]))
BINDING = frozenset(KIND[word] for word in ("Assign", "AssignModify", "For"))


class Expectation:
    """What is expected: the names of a def and of a parameter, and the path that must be passed. `text` is the text that was given."""

    def __init__(self, text, def_, parameter, path):
        self.text, self.def_, self.parameter, self.name = text, def_.encode(), parameter.encode(), path
        self.path = tuple(path.encode().split(b"."))


def expectation(text, where):
    """An expectation, or Failed with its place."""
    found = FORM.fullmatch(text)
    if not found:
        raise Failed(f"{where}: {text or 'nothing'} is not an expectation: DEF.PARAMETER=NAME is needed, where NAME is a name or a path such as zone.tracks")
    return Expectation(text, *found.groups())


def in_file(path):
    """The expectations of a file: one in a line, and what follows a # is a comment."""
    try:
        data = inputs.read(inputs.standard_input() if path == "-" else inputs.Input(path), MOST + 1)
    except OSError as error:
        raise Failed(f"{path}: {inputs.reason(error)}") from None
    if len(data) > MOST:
        raise Failed(f"{path}: a file of expectations has at most {MOST:,} bytes")
    try:
        lines = data.decode("utf-8-sig").splitlines()
    except UnicodeDecodeError:
        raise Failed(f"{path}: not UTF-8") from None
    texts = [(number, line.partition("#")[0].strip()) for number, line in enumerate(lines, 1)]
    return [expectation(text, f"{path}:{number}") for number, text in texts if text]


def gathered(words, path, configuration):
    """All expectations, each once: of the command line, of its file, and of the configuration. Raises Failed also if two contradict each other."""
    found = [expectation(word, "--expect") for word in words]
    found += in_file(path) if path is not None else []
    found += [expectation(line, configuration.path) for line in configuration.expect] if configuration else []
    known = {}
    for one in found:
        other = known.setdefault((one.def_, one.parameter), one)
        if other.path != one.path:
            raise Failed(f"{other.text} and {one.text} cannot both be met")
    return list(known.values())


class Unmet:
    """Why an expectation is not met: words, and a place as text and in JSON."""

    def __init__(self, words, place=None, told=None):
        self.words, self.place, self.told = words, place, told or {}

    def order(self):
        return self.told.get("file", 0), self.told.get("begin", 0), self.told.get("end", 0)


class Judged:
    """The result of an expectation: the number of calls judged, and what leaves it unmet, in the order of the scripts."""

    def __init__(self, one, calls, unmet):
        self.text, self.calls, self.unmet = one.text, calls, sorted(unmet, key=Unmet.order)
        self.met = not unmet

    @property
    def came(self):
        return f"met by {self.calls} call{'' if self.calls == 1 else 's'}" if self.met else "not met"

    def lines(self):
        return [f"{one.place} {one.words}" if one.place else one.words for one in self.unmet]

    def in_json(self):
        return {"expect": self.text, "met": self.met, "calls": self.calls, "not_met": [{"words": one.words, **one.told} for one in self.unmet]}


class Expectations:
    """The expectations of a run."""

    def __init__(self, expected=()):
        self.expected = list(expected)
        self.by_def = {}
        for one in self.expected:
            self.by_def.setdefault(one.def_, []).append(one)

    def start(self):
        """The check of one input."""
        return Seen(self)

    def unmet(self, why):
        """The result of the expectations for an input that is not bound."""
        return [Judged(one, 0, [Unmet(why)]) for one in self.expected]


class Seen:
    """The calls of one input whose callee is the name of an expectation's def, each with its pairs."""

    def __init__(self, expectations):
        self.expectations, self.calls = expectations, {name: [] for name in expectations.by_def}

    def see(self, world, call, pairs):
        """Notes a call, and marks the namesakes of its pairs that an expectation states."""
        name = world.callee(call)
        if name not in self.calls:
            return
        self.calls[name].append((call, pairs))
        for one in self.expectations.by_def[name]:
            for pair in pairs:
                mark(one, pair)

    def judged(self, world):
        if not self.expectations.expected:
            return []
        others = {name: [] for name in self.calls}
        for nodes in world.trees():
            for at, name, words in other_uses(world, nodes, others):
                spot = nodes.spot(at)
                others[name].append(unmet_at(world, spot, words))
        lacking = [Unmet(note) for note in world.lacking()]
        return [Judged(one, len(self.calls[one.def_]), [*of_defs(world, one, self.calls[one.def_]), *of_calls(world, one, self.calls[one.def_]),
                                                        *others[one.def_], *lacking])
                for one in self.expectations.expected]


def mark(one, pair):
    for namesake in pair.namesakes:
        tree = pair.binder.tree
        if tree.name(namesake.reaches) == one.parameter and tree.path(namesake.argument + 1) == one.path:
            namesake.expected = one.text


def unmet_at(world, spot, words):
    return Unmet(words, world.place(spot), world.node_json(spot))


# ---- the def

def of_defs(world, one, calls):
    """There is one such def, it is called, and it has the parameter."""
    defs, name, parameter = world.defs.get(one.def_, []), shown(one.def_), shown(one.parameter)
    if not defs:
        yield Unmet(f"{name} is defined nowhere")
    for def_ in defs:
        if len(defs) > 1:
            yield unmet_at(world, def_, f"{name} is defined here, and {len(defs)} times in all")
        if one.parameter not in world.parameters(def_):
            yield unmet_at(world, def_, f"{name} has no parameter {parameter}")
        if not calls:
            yield unmet_at(world, def_, f"{name} is never called")
    if not defs and not calls:
        yield Unmet(f"{name} is never called")


# ---- its calls

def of_calls(world, one, calls):
    for call, pairs in calls:
        for pair in pairs:
            yield from of_pair(world, one, call, pair)


def of_pair(world, one, call, pair):
    if pair.beyond:
        yield unmet_at(world, call, f"the call is not judged: {pair.beyond}")
    elif type(pair.answer) is Refusal:
        yield unmet_at(world, call, f"the call is refused with {pair.answer.number}: {pair.answer.words}")
    else:
        binder, parameter = pair.binder, shown(one.parameter)
        for node, _, taken in binder.taken(pair.answer, *pair.nodes):
            if binder.tree.name(node) != one.parameter or taken and len(taken) == 1 and binder.tree.path(taken[0] + 1) == one.path:
                continue
            if not taken:
                yield unmet_at(world, call, f"{parameter} {'takes its default' if taken is None else 'collects nothing'}, not {one.name}")
            for argument in taken or ():
                verb = "takes" if len(taken) == 1 else f"collects {len(taken)} arguments, among them"
                yield Unmet(f"{parameter} {verb} {pair.places.value(argument + 1)}, not {one.name}", pair.places.place(argument),
                            binder.node(argument, world.scripts))


# ---- what else has its name

def other_uses(world, nodes, names):
    """Each node that may make DEF another function, or may call it in another way: its number, the name of the def, and words."""
    for at, kind in enumerate(nodes.kinds):
        if kind == LOAD:
            for name in names:
                words = of_load(world.source(nodes.spot(at)), name)
                if words:
                    yield at, name, words
            continue
        name = nodes.names[at]
        if name not in names:
            continue
        if kind in PARAMETERS:
            yield at, name, f"a parameter has the name {shown(name)}"
        elif kind == DOT and nodes.is_callee(at):
            yield at, name, f"a method of the name {shown(name)} is called"
        elif kind == IDENTIFIER and not nodes.is_callee(at):
            yield at, name, f"a target binds {shown(name)}" if is_target(nodes, at) else f"{shown(name)} is used other than as a callee"


def is_target(nodes, at):
    """Whether a node is the target of an assignment or a loop, or a part of one."""
    above = nodes.parents[at]
    while above is not None and nodes.kinds[above] in LISTS:
        at, above = above, nodes.parents[above]
    return above is not None and nodes.kinds[above] in BINDING and at == above + 1


def of_load(text, name):
    """What a load does to a name, in words; None where it does nothing. A table has no names of a load, so its script is read."""
    if text is None:
        return f"a load without its script may bind {shown(name)}"
    found, local, module = tokens(text), None, True
    for kind, begin, end in zip(found.kinds, found.begins, found.ends):
        if kind == NAME:
            local = text[begin:end]
        elif kind == STRING:
            there = None if module else string_of(text[begin:end])
            if not module and (name == local or there in (name, UNKNOWN)):
                return f"a load renames {shown(name)}" if local not in (None, name) else f"a load binds {shown(name)}"
            local, module = None, False
    return None


UNKNOWN = object()  # the value of a string that is not known


def string_of(text):
    """The bytes that a string literal denotes. A literal of Starlark that Python does not accept may denote any bytes."""
    import ast
    try:
        return ast.literal_eval(text.decode()).encode()
    except (SyntaxError, ValueError, AttributeError):
        return UNKNOWN
