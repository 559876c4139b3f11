"""The calls and defs of scripts that are larger than a table may be, for `ducat bind`: a call and a def are bound in a table of their two top-level
statements. Numbers of nodes are those that one table of the whole would have.
"""
from . import bind, export
from .bind import CALL, DEF, DOT, FLAT, HEAD, IDENTIFIER, NO_DEF, OTHER, UNNAMED, Binder, Nodes, Places, Tree, place_in, text_in
from .check import span_json
from .output import shown


class Statement:
    """A top-level statement: its script's number and source, its nodes, and the number of the first of them."""

    def __init__(self, root, file, source, first):
        self.root, self.file, self.source, self.first = root, file, source, first
        self.nodes = export.preorder(root)[0]


class Spot:
    """A call, a def or another node: its statement, its number there, and its node. `name` is the name that is called, or None, or the def's own."""

    def __init__(self, statement, at, node):
        self.statement, self.at, self.node, self.number, self.name = statement, at, node, statement.first + at, None
        if node.kind == DEF:
            self.name = HEAD.match(statement.source.bytes, node.begin, node.end)[1]
        elif node.kind == CALL and node.children[0].kind == IDENTIFIER:
            self.name = node.children[0].name

    @property
    def unnamed(self):
        return UNNAMED.get(self.node.children[0].kind, OTHER)


class Pair(bind.Pair):
    """A call and a def, and the library's answer in a table of their statements."""

    def __init__(self, wide, shared, call, def_):
        if not shared.beyond:
            nodes = shared.number_of(call), shared.number_of(def_)
            binder = Binder(wide.library, shared.tree)
            super().__init__(binder, shared.places, *nodes, binder.bound(*nodes))
        else:
            self.judged, self.status, self.answer, self.namesakes = "not_judged", 2, None, ()
        self.wide, self.call, self.def_, self.beyond = wide, call, def_, shared.beyond

    def lines(self, explain):
        return [f"not judged: {self.beyond}"] if self.beyond else super().lines(explain)

    def in_json(self):
        if self.beyond:
            return {"call": self.wide.node_json(self.call), "def": self.wide.node_json(self.def_), "not_judged": self.beyond}
        return super().in_json()


class Shared:
    """The table of one statement or of two, in their order."""

    def __init__(self, statements, scripts):
        self.statements, self.tree, self.places, self.beyond = statements, None, None, None
        files = [statement.file for statement in statements]
        try:
            made = export.table_of(export.root_of([statement.root for statement in statements], files), files)
        except export.Beyond as beyond:
            self.beyond = beyond.message
            return
        self.tree = Tree(made.table, made.names, self.in_whole)
        self.places = Places(self.tree, scripts)

    def number_of(self, spot):
        if len(self.statements) == 1:
            return spot.at
        first, second = self.statements
        return 1 + spot.at + (len(first.nodes) if spot.statement is second else 0)

    def in_whole(self, node):
        """The number of a node in the table of the whole."""
        if len(self.statements) == 1:
            return self.statements[0].first + node
        first, second = self.statements
        if not node:
            return 0
        return first.first + node - 1 if node <= len(first.nodes) else second.first + node - 1 - len(first.nodes)


class Wide:
    """All calls and defs of an input, in the order of its nodes."""

    def __init__(self, library, found):
        self.library, self.scripts, self.named = library, found.scripts, len(found.scripts.by_file) > 1
        self.calls, self.defs, self.known, self.of, self.statements = [], {}, {}, None, []
        number = 1
        for part, statements in zip(found.parts, found.statements):
            for root in statements:
                statement = Statement(root, part.file, part.source, number)
                number += len(statement.nodes)
                self.add(statement)

    def add(self, statement):
        self.statements.append(statement)
        for at, node in enumerate(statement.nodes):
            if node.kind == CALL:
                self.calls.append(Spot(statement, at, node))
            elif node.kind == DEF:
                spot = Spot(statement, at, node)
                self.defs.setdefault(spot.name, []).append(spot)

    def pair(self, call, def_):
        """The pair's table. Those of a statement's calls are kept until the next statement."""
        if self.of is not call.statement:
            self.of, self.known = call.statement, {}
        other = def_.statement
        if other not in self.known:
            both = [call.statement] if other is self.of else sorted((call.statement, other), key=lambda statement: statement.first)
            self.known[other] = Shared(both, self.scripts)
        return Pair(self, self.known[other], call, def_)

    def paired(self):
        """Each call, in order, with its pairs."""
        for call in self.calls:
            yield call, [self.pair(call, def_) for def_ in self.defs.get(call.name, [])]

    def trees(self):
        """The nodes of each statement, for code that visits all of them."""
        for statement in self.statements:
            number, above = {id(node): at for at, node in enumerate(statement.nodes)}, [None] * len(statement.nodes)
            for at, node in enumerate(statement.nodes):
                for child in node.children:
                    above[number[id(child)]] = at
            yield Nodes([node.kind for node in statement.nodes], [node.name for node in statement.nodes], above,
                        lambda at, statement=statement: Spot(statement, at, statement.nodes[at]))

    def callee(self, call):
        return call.name

    def parameters(self, def_):
        return [node.name for node in def_.node.children if node.kind in FLAT]

    def source(self, spot):
        return spot.statement.source.bytes[spot.node.begin:spot.node.end]

    def notes(self):
        return []

    lacking = notes

    # ---- printing

    def alone(self, call):
        return call.unnamed if call.name is None else NO_DEF

    def place(self, spot):
        return place_in(spot.statement.source, spot.node.begin, self.named)

    def text(self, call):
        return text_in(call.statement.source, call.node.begin, call.node.end)

    def head(self, call):
        return f"{self.place(call)} {self.text(call)}"

    def node_json(self, spot):
        return {"node": spot.number, **span_json(spot.statement.source, spot.statement.file, spot.node.begin, spot.node.end)}

    def call_json(self, call):
        form = "name" if call.name is not None else {CALL: "call", DOT: "method"}.get(call.node.children[0].kind, "expression")
        return {**self.node_json(call), "callee": None if call.name is None else shown(call.name), "form": form,
                "arguments": len(call.node.children) - 1}
