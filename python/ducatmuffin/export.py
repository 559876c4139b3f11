"""A table of a Starlark script, or of several: the tree of the module `parser` as records. No part of this is proved: the checker's answers are
proved only for the table.

    table, names = export(source, "a.star", dialect)     raises ScriptError with line, column and message
    made = joined_export([zone, line])                   raises ScriptError, whose `at` says which script it is of
    pieces = cut([zone, line], statements)               several tables, where one would be larger than a table may be

Equal names share their bytes. A script of one statement is that statement, one of several a Statements at the root. Several scripts are a Statements
whose children are the statements of all of them in turn, from 0 to the largest end. Each record has the number of its script, and positions in it.
"""
from typing import List, NamedTuple, Optional, Sequence, Set, Tuple

from . import numbers
from .lexer import NotStarlark
from .parser import DICT_COMP, F_STRING, LIST_COMP, NAMED, STATEMENTS, Node, TooDeep, joined, parse
from .places import Source
from .table import RECORD, Piece, weight

LONGEST_NAME = 255  # bytes, of a name in a table
WEIGHTS = [weight(kind) for kind in range(256)]


class Exported(NamedTuple):
    """A table, its names, and what a table does not have: the nodes that are targets of comprehensions, and each f-string by its node and its parts."""
    table: bytes
    names: bytes
    targets: List[int]
    fstrings: List[Tuple[int, list]]


class ScriptError(ValueError):
    """Why there is no table of a script, and where: line and column count from 1, columns in characters; begin and end are bytes. `at` says which of
    several scripts it is, from 0."""

    def __init__(self, source: bytes, begin: int, end: int, message: str, at: int = 0):
        self.begin, self.end, self.message, self.at = begin, end, message, at
        self.line, self.column = Source("", source).line_column(begin)
        super().__init__(f"{self.line}:{self.column}: {message}")


class ScriptSyntaxError(ScriptError):
    """The script is not Starlark."""

    def __init__(self, source, begin, end, message):
        super().__init__(source, begin, end, f"syntax: {message}")


class ScriptTooLarge(ScriptError):
    """The script is larger than a table may be, or nested more deeply than the parser follows."""


class Beyond(Exception):
    """The first node beyond a limit, by its number and itself, and a message."""

    def __init__(self, number, node, message):
        super().__init__(message)
        self.number, self.node, self.message = number, node, message


def long_name(name):
    return f"a name of {len(name)} bytes, and a table has names of {LONGEST_NAME} at most"


def statements_of(source: bytes) -> List[Node]:
    """The top-level statements of a script, as nodes. Raises ScriptError."""
    try:
        source.decode()
    except UnicodeDecodeError as error:
        raise ScriptSyntaxError(source, error.start, error.start + 1, "not UTF-8") from None
    try:
        return parse(source)
    except NotStarlark as error:
        raise ScriptSyntaxError(source, error.begin, error.end, error.message) from None
    except TooDeep as error:
        raise ScriptTooLarge(source, error.begin, error.begin + 1, error.message) from None
    except RecursionError:  # a caller that is nested deeply itself
        raise ScriptTooLarge(source, 0, 0, "nested too deeply") from None


def preorder(root: Node) -> Tuple[List[Node], List[int]]:
    """The nodes of a tree, a parent before its children, and the depth of each."""
    nodes, depths, waiting = [], [], [(root, WEIGHTS[root.kind])]
    while waiting:
        node, depth = waiting.pop()
        nodes.append(node)
        depths.append(depth)
        for child in reversed(node.children):
            waiting.append((child, depth + WEIGHTS[child.kind]))
    return nodes, depths


def table_of(root: Node, files: Sequence[int]) -> Exported:
    """The table of a tree. `files` has the source file number of each top-level statement:
    of the children of a root Statements, or of the root."""
    nodes, depths = preorder(root)
    names, known, reached, over = [], {b"": 0}, 0, None
    for number, node in enumerate(nodes):
        name = node.name
        if name not in known:
            if len(name) > LONGEST_NAME:
                raise Beyond(number, node, long_name(name))
            known[name] = reached
            names.append(name)
            reached += len(name)
            if over is None and reached > numbers.NAME_BYTES:
                over = number
    if len(nodes) > numbers.NODES:
        raise Beyond(numbers.NODES, nodes[numbers.NODES], f"a table has at most {numbers.NODES}, and this has {len(nodes)} nodes")
    if over is not None:
        raise Beyond(over, nodes[over], f"a table has at most {numbers.NAME_BYTES}, and this has {reached} bytes of names")
    deepest = max(depths)
    if deepest > numbers.DEPTH:
        first = next(number for number, depth in enumerate(depths) if depth > numbers.DEPTH)
        raise Beyond(first, nodes[first], f"a table has at most {numbers.DEPTH}, and this has {deepest} nested levels")
    sizes = _sizes(nodes)
    fstrings = [(number, node.parts) for number, node in enumerate(nodes) if node.kind == F_STRING]
    return Exported(_records(nodes, sizes, _files(root, sizes, files), known), b"".join(names), _targets(nodes), fstrings)


def _sizes(nodes):
    """The number of nodes of each node's subtree."""
    sizes = {}
    for node in reversed(nodes):
        size = 1
        for child in node.children:
            size += sizes[id(child)]
        sizes[id(node)] = size
    return sizes


def _files(root, sizes, files):
    """The source file number of each node: 0 of a root Statements, else that of its top-level statement."""
    if root.kind != STATEMENTS:
        return [files[0]] * sizes[id(root)]
    of_all = [0]
    for child, file in zip(root.children, files):
        of_all += [file] * sizes[id(child)]
    return of_all


def _records(nodes, sizes, files, known):
    """The records of nodes in order; `known` has the place of each name."""
    records = []
    for node, file in zip(nodes, files):
        name = node.name
        records.append(RECORD.pack(node.kind, node.detail, len(name), known[name], node.begin, node.end, sizes[id(node)], file,
                                   node.begin if node.kind == NAMED else 0))
    return b"".join(records)


def _targets(nodes):
    """The numbers of the nodes that are targets of comprehensions."""
    marked = {id(target) for node in nodes if node.kind == LIST_COMP or node.kind == DICT_COMP for target in node.targets}
    return [number for number, node in enumerate(nodes) if id(node) in marked] if marked else []


def _root(scripts):
    """The statements of scripts as one: of a single script as in the crate, of several a Statements from 0 to the largest end."""
    if len(scripts) == 1:
        return joined(scripts[0])
    statements = [statement for script in scripts for statement in script]
    return Node(STATEMENTS, 0, max((statement.end for statement in statements), default=0), statements)


def _script_at(root, scripts, number):
    """Which script the node with a number is of."""
    sizes = _sizes(preorder(root)[0])
    left = number - (root.kind == STATEMENTS)
    for at, script in enumerate(scripts):
        left -= sum(sizes[id(statement)] for statement in script)
        if left < 0:
            return at
    return 0


def join(sources: Sequence[bytes], scripts: Sequence[List[Node]], first: int = 1) -> Exported:
    """One table of the statements of scripts, numbered from `first` on. Raises ScriptTooLarge."""
    root = _root(scripts)
    try:
        return table_of(root, [file for file, script in enumerate(scripts, first) for _ in script])
    except Beyond as beyond:
        at = _script_at(root, scripts, beyond.number)
        raise ScriptTooLarge(sources[at], beyond.node.begin, beyond.node.end, beyond.message, at) from None


class _Group:
    """Top-level statements that are to be one table, with their scripts' numbers: the number of their nodes, their names and their depth."""

    def __init__(self):
        self.statements, self.files, self.nodes, self.names, self.name_bytes, self.depth = [], [], 0, set(), 0, 0

    def takes(self, size):
        """Whether a further statement fits. A second one needs a root above both."""
        if not self.statements:
            return True
        more = sum(len(name) for name in size.names - self.names)
        return (1 + self.nodes + size.nodes <= numbers.NODES and self.name_bytes + more <= numbers.NAME_BYTES
                and 1 + max(self.depth, size.depth) <= numbers.DEPTH)

    def add(self, statement, file, size):
        self.statements.append(statement)
        self.files.append(file)
        self.nodes += size.nodes
        self.name_bytes += sum(len(name) for name in size.names - self.names)
        self.names |= size.names
        self.depth = max(self.depth, size.depth)


def root_of(statements: List[Node], files: Sequence[int]) -> Node:
    """Some top-level statements as one: those of one script as they are there, those of several from 0 to the largest end."""
    if len(set(files)) < 2:
        return joined(statements)
    return Node(STATEMENTS, 0, max(statement.end for statement in statements), statements)


class Size(NamedTuple):
    """The size of a statement: the number of its nodes, its names, its depth, and the first node whose name is longer than a table's may be."""
    nodes: int
    names: Set[bytes]
    depth: int
    long: Optional[Node]

    @property
    def name_bytes(self):
        return sum(len(name) for name in self.names)

    def beyond(self):
        """The limits of a table that it exceeds, in words; none if it fits."""
        limits = ((self.nodes, numbers.NODES, "nodes"), (self.name_bytes, numbers.NAME_BYTES, "bytes of names"), (self.depth, numbers.DEPTH, "levels"))
        return [f"{found:,} {what}, and a table has at most {most:,}" for found, most, what in limits if found > most]


def size_of(statement: Node) -> Size:
    nodes, depths = preorder(statement)
    return Size(len(nodes), {node.name for node in nodes}, max(depths), next((node for node in nodes if len(node.name) > LONGEST_NAME), None))


def cut(sources: Sequence[bytes], scripts: Sequence[List[Node]], first: int = 1) -> List[Piece]:
    """The top-level statements of scripts in several tables, each with as many as fit. Raises ScriptTooLarge for a statement that alone is larger than
    a table may be."""
    groups = [_Group()]
    for at, script in enumerate(scripts):
        for statement in script:
            size = size_of(statement)
            if size.long:
                raise ScriptTooLarge(sources[at], size.long.begin, size.long.end, long_name(size.long.name), at)
            if size.beyond():
                raise ScriptTooLarge(sources[at], statement.begin, statement.end, f"this statement has {'; '.join(size.beyond())}", at)
            if not groups[-1].takes(size):
                groups.append(_Group())
            groups[-1].add(statement, first + at, size)
    # the table of the whole has a root above its statements, except for a single script of one statement
    pieces, number = [], int(len(scripts) > 1 or len(scripts[0]) != 1)
    for group in groups:
        made = table_of(root_of(group.statements, group.files), group.files)
        pieces.append(Piece(*made, number, number - (len(group.statements) != 1)))
        number += group.nodes
    return pieces


def joined_export(sources: Sequence[bytes], first: int = 1) -> Exported:
    """One table of scripts, numbered from `first` on. Raises ScriptError."""
    scripts = []
    for at, source in enumerate(sources):
        try:
            scripts.append(statements_of(bytes(source)))
        except ScriptError as error:
            error.at = at
            raise
    return join(sources, scripts, first)


def exported(source: bytes) -> Exported:
    """The table of a script. Raises ScriptError."""
    return joined_export([source])


def export(source: bytes, name: str = "", dialect: Optional[bytes] = None) -> Tuple[bytes, bytes]:
    """The table of a script, and its names. Neither its file's name nor its dialect changes the table."""
    return tuple(exported(source)[:2])


def export_parts(source: bytes, name: str = "", dialect: Optional[bytes] = None, file: int = 1) -> List[Tuple[bytes, bytes]]:
    """The table of each top-level statement, and its names: for a script that is larger than a table may be. `file` is the script's number."""
    parts = []
    for statement in statements_of(bytes(source)):
        try:
            parts.append(tuple(table_of(statement, [file])[:2]))
        except Beyond as beyond:
            raise ScriptTooLarge(source, beyond.node.begin, beyond.node.end, beyond.message) from None
    return parts
