"""Tables: records decoded and encoded, names, trees, table files, and the text form of a table, both ways. docs/FORMAT.md has the format.

The text form. A tree is written (Kind children): (Statements (Break) (Return (Identifier x))). After the kind may come
  :1              the detail
  x               the name, where the kind has one
  size=3 span=4-9 file=2 pos=7 name=0+256 kind=13     a field that is not as usual (name: start and length)
^3<text> is the text three times: ^3<(Break)>, and ^3<(Not >(Int)^3<)> for (Not (Not (Not (Int)))); a # in it is the number of the turn,
from 0, in base 36. Sizes follow from the tree, names are put one after the other, and node i has the span i to i + 1.

Above the tree there may be such lines:
  # a comment
  script: FILE          the script of the tree; then each node quotes its part of it: (Break `break`)
  dialect: none         or Standard, Extended, AllOptionsInternal (all), or nine digits: 111000100
  edition: 2            the edition of the type rules, 1 or 2, where the file has that byte; there must be a dialect
  names: shared         equal names share their bytes
  names: "ab\\x00"       the name bytes as they are; each name is then given as name=START+LENGTH, and a word before it must be the same name
  rules: off            names, details, positions and the edition may be anything: the text form of a table that is not sound
  change: 600 7         byte 600 of the file is changed to 7
  cut: 700              only 700 bytes of the file are kept
Above the tree and between its top-level statements there may also be lines
  file: 2               the source file number of the statements in the lines that follow; before the first such line it is 1
A root Statements has the source file number 0. file=2 is for one record only, not for those below it.

A quote is the first such text within the parent's, after the child before it and after the name of a Normal or a Named, with which their quotes
begin. `def f…break` goes from the first words to the first such last words after them. span=4-9 can be given in place of a quote.
"""
import bisect
import re
import struct
from typing import Callable, Iterator, List, NamedTuple, Optional, Sequence, Tuple

from . import numbers

RECORD = struct.Struct("<BBHIIIHHI")
BLOCK, CONTENT = 512, 504
KIND = numbers.KIND
LAST_POSITION = 2 ** 31 - 1
LAST_FILE = 999  # the largest source file number
EDITIONS = (1, 2)  # of the type rules
NAMED = frozenset(KIND[word] for word in ("Dot", "Identifier", "Normal", "ArgsParam", "KwArgsParam", "Named"))
MOST_DETAIL = {KIND["Normal"]: 3, **{KIND[word]: 1 for word in ("Def", "Assign", "AssignModify", "Op", "ArgsParam", "KwArgsParam")}}
DIALECTS = {"none": b"", **numbers.DIALECTS, "alloptionsinternal": numbers.DIALECTS["all"]}
DIALECT_NAMES = {numbers.DIALECTS["standard"]: "Standard", numbers.DIALECTS["extended"]: "Extended",
                 numbers.DIALECTS["all"]: "AllOptionsInternal"}
# the fields that may be given as words, each with the mark between its numbers and the most that they may be
FIELDS = {"size": (None, [65535]), "span": ("-", [2 ** 32 - 1] * 2), "file": (None, [65535]), "pos": (None, [2 ** 32 - 1]),
          "name": ("+", [2 ** 32 - 1, 65535]), "kind": (None, [255])}
LINES = ("script", "dialect", "edition", "change", "cut", "names", "rules")
TOKEN = re.compile(r"\n|[()]|`[^`]*`|[^\s()]+")
# a name that can be written as a word; others are given by their place in the name bytes
WORD = re.compile(rb"[A-Za-z_][A-Za-z0-9_]*")


class Record(NamedTuple):
    """A record of a table. `source` is where the name begins in the script (kind Named), `file` the source file number."""
    kind: int
    detail: int
    name_length: int
    name_start: int
    begin: int
    end: int
    size: int
    file: int = 0
    source: int = 0


class TextError(ValueError):
    """What is wrong with a text: its line (0 if there is none), and a message."""

    def __init__(self, line: int, message: str):
        super().__init__(f"{line}: {message}" if line else message)
        self.line, self.message = line, message


class FileError(ValueError):
    """A file whose blocks have less than its first block states."""


# ---- records


def decode(table) -> List[Record]:
    """The records of a table of whole records."""
    return list(map(Record._make, RECORD.iter_unpack(table)))


def encode(records) -> bytes:
    return b"".join(RECORD.pack(*record) for record in records)


def kind_name(kind: int) -> str:
    """The name of a kind, or `kind 13` for a number that is not a kind."""
    return numbers.KINDS[kind][0] if kind in numbers.KINDS else f"kind {kind}"


def kind_class(kind: int) -> Optional[str]:
    """statement, expression, parameter or argument; None for a number that is not a kind."""
    return numbers.KINDS[kind][1] if kind in numbers.KINDS else None


def name_of(record: Record, names) -> bytes:
    """The name of a record; no bytes if it has none."""
    return bytes(names[record.name_start:record.name_start + record.name_length])


def children(records: List[Record], node: int) -> Iterator[int]:
    """The children of a node, by stepping over sizes. In a table that is not sound they end at the first that does not fit."""
    at, end = node + 1, min(node + records[node].size, len(records))
    while at < end:
        yield at
        size = records[at].size
        if size < 1:
            return
        at += size


def parents(records: List[Record]) -> List[Optional[int]]:
    """The parent of each node: the last node before it whose subtree it is in; None if there is none."""
    found, open_nodes = [], []
    for at, record in enumerate(records):
        while open_nodes and open_nodes[-1][1] <= at:
            open_nodes.pop()
        found.append(open_nodes[-1][0] if open_nodes else None)
        open_nodes.append((at, at + record.size))
    return found


# ---- table files


def _block(number, content):
    """A block: number, used bytes, content, and the sum."""
    front = struct.pack("<HH", number & 65535, len(content)) + content.ljust(CONTENT, b"\0")
    return front + struct.pack("<I", sum(at * byte for at, byte in enumerate(front, 1)))


def file_of(table, names, dialect: Optional[bytes] = None, edition: Optional[int] = None) -> bytes:
    """The table file of any table, sound or not; starlark_write writes the same for a sound one, and is proved."""
    parts = [struct.pack("<HH", len(table) // RECORD.size, len(names)) + (dialect or b"") + (b"" if edition is None else bytes([edition]))]
    for content in (bytes(names), bytes(table)):
        parts += [content[at:at + CONTENT] for at in range(0, len(content), CONTENT)]
    return b"".join(_block(number, content) for number, content in enumerate(parts))


def parts_of(data) -> Tuple[bytes, bytes, Optional[bytes], Optional[int]]:
    """Table, names, dialect and edition of a file that is long enough for its counts. Nothing is checked: the library judges blocks and tables."""
    data = bytes(data)
    if len(data) < BLOCK:
        raise FileError("the file has no whole block")
    used, nodes, count = struct.unpack_from("<HHH", data, 2)
    blocks = [data[at + 4:at + 4 + CONTENT] for at in range(BLOCK, len(data) - BLOCK + 1, BLOCK)]
    first = -(-count // CONTENT)
    names, table = b"".join(blocks[:first])[:count], b"".join(blocks[first:])[:RECORD.size * nodes]
    if len(names) < count or len(table) < RECORD.size * nodes:
        raise FileError("the file ends before what its first block counts")
    return table, names, data[8:17] if used in (13, 14) else None, data[17] if used == 14 else None


# ---- the text form, read


class Node:
    """A node of a tree in words."""

    def __init__(self, kind, detail, line=0):
        self.kind, self.detail, self.name, self.quote, self.fields, self.children = kind, detail, b"", None, {}, []
        self.line = line


class Text(NamedTuple):
    """The content of a text: its table, names, dialect and edition, and the changes to the file."""
    table: bytes
    names: bytes
    dialect: Optional[bytes]
    edition: Optional[int]
    change: Optional[Tuple[str, int]]
    cut: Optional[Tuple[str, int]]

    def file(self) -> bytes:
        """The table file, changed and cut as the text states."""
        made = file_of(self.table, self.names, self.dialect, self.edition)
        if self.change:
            made = _at_line(lambda text: _changed(made, text), *self.change)
        if self.cut:
            made = made[:_at_line(lambda text: _numbers(text, None, [len(made)])[0], *self.cut)]
        return made


class Piece(NamedTuple):
    """A table of some top-level statements. Their first node is node `first` of the table that all statements would have, and the number of each node
    is there larger by `shift`."""
    table: bytes
    names: bytes
    targets: List[int]
    fstrings: List[Tuple[int, list]]
    first: int
    shift: int


def weight(kind):
    """What a record adds to the depth: a statement or an expression one, a parameter or an argument nothing."""
    return int(kind < KIND["Normal"])


def demand(met, words, node=None):
    if not met:
        raise TextError(node.line if node else 0, f"{kind_name(node.kind)}: {words}" if node else words)


def _numbers(text, mark, most, node=None):
    """The numbers of a text, as many as `most` has, each up to that."""
    found = text.split(mark)
    demand(len(found) == len(most), f"{text} is not {len(most)} number{'s' * (len(most) > 1)}", node)
    demand(all(re.fullmatch("[0-9]+", number) for number in found), f"{text} is not a number", node)
    for number, limit in zip(found, most):
        demand(len(number) < 20 and int(number) <= limit, f"{number} is more than {limit}", node)
    return tuple(int(number) for number in found)


def _head(word, line):
    kind, mark, detail = word.partition(":")
    if kind not in KIND:
        raise TextError(line, f"no kind is called {kind}")
    node = Node(KIND[kind], 0, line)
    if mark:
        node.detail, = _numbers(detail, None, [255], node)
    return node


def _word_of(node, word):
    """A word after the kind: a quote, a field, or the name."""
    key, mark, value = word.partition("=")
    if word.startswith("`"):
        demand(len(word) > 1 and word.endswith("`"), f"a quote that does not end: {word}", node)
        demand(node.quote is None, "two quotes", node)
        node.quote = word[1:-1].encode()
    elif not mark:
        demand(not node.name, f"two names, {node.name.decode()} and {word}", node)
        node.name = word.encode()
    else:
        demand(key in FIELDS, f"there is no field {key}", node)
        between, most = FIELDS[key]
        found = _numbers(value, between, most, node)
        node.fields[key] = found if between else found[0]


def _base36(n):
    return ("" if n < 36 else _base36(n // 36)) + "0123456789abcdefghijklmnopqrstuvwxyz"[n % 36]


def _repeated(match):
    """A text repeated, in one line, with its line ends after it, so that the lines are still counted correctly."""
    times, text = match.groups()
    demand(len(times) < 6, f"^{times} is too often")
    return "".join(text.replace("#", _base36(n)).replace("\n", " ") for n in range(int(times))) + "\n" * text.count("\n")


def trees(text: str, line: int = 1) -> List[Node]:
    """The trees of a text, whose first line has this number."""
    roots = Node(0, 0)
    way, opened = [roots], False
    for token in TOKEN.findall(re.sub(r"\^(\d+)<([^>]*)>", _repeated, text)):
        if token == "\n":
            line += 1
        elif opened:
            way[-1].children.append(_head(token, line))
            way.append(way[-1].children[-1])
            opened = False
        elif token == "(":
            opened = True
        elif len(way) == 1:
            raise TextError(line, f"{token} is outside a tree")
        elif token == ")":
            way.pop()
        else:
            _word_of(way[-1], token)
            line += token.count("\n")
    demand(len(way) == 1 and not opened, "a bracket that is not closed", way[-1] if way[1:] else None)
    return roots.children


def preorder(roots: List[Node]) -> Iterator[Node]:
    """The nodes of trees side by side, a parent before its children."""
    waiting = list(reversed(roots))
    while waiting:
        node = waiting.pop()
        yield node
        waiting += reversed(node.children)


def _as_documented(node):
    """Requires that a node's name, detail and positions follow docs/FORMAT.md."""
    named = node.kind in NAMED
    if "kind" not in node.fields:
        demand(named or not node.name, f"the name {node.name.decode()}, and this kind has none", node)
        demand(not named or node.name or "name" in node.fields, "a name is missing", node)
        demand(node.detail <= MOST_DETAIL.get(node.kind, 0), f"this kind has no detail {node.detail}", node)
    demand(len(node.name) <= 255, f"a name of {len(node.name)} bytes, and 255 is the most", node)
    begin, end = node.fields.get("span", (0, 0))
    demand(begin <= end, f"a span from {begin} to {end}, which is before it", node)
    demand(end <= LAST_POSITION, f"a span to {end}, and {LAST_POSITION} is the last position", node)
    demand(node.fields.get("pos", 0) + len(node.name) <= LAST_POSITION, f"a name that ends beyond {LAST_POSITION}", node)


def _kind(node):
    """The kind that a node's record has."""
    return node.fields.get("kind", node.kind)


def _files(roots, lines):
    """The source file number of each node's record. `lines` has the lines file:, each with its number and what it says."""
    numbers = {}
    if roots and _kind(roots[0]) == KIND["Statements"]:
        numbers[id(roots[0])] = 0
        roots = roots[0].children + roots[1:]
    first = [line for line, _ in lines]
    for top in roots:
        said = bisect.bisect(first, top.line)
        for node in preorder([top]):
            if said < len(first) and first[said] <= node.line:
                raise TextError(first[said], "a line file: within a statement")
            numbers[id(node)] = lines[said - 1][1] if said else 1
    return numbers


def table_of(roots: List[Node], shared: bool = False, given: Optional[bytes] = None, lines: Sequence[Tuple[int, int]] = ()) -> Tuple[bytes, bytes]:
    """The records of trees side by side, and their name bytes: one after the other, shared by equal names, or as they are given. `lines` has the lines
    file: of the text, each with its number and what it says."""
    nodes = list(preorder(roots))
    sizes, numbered = _sizes(nodes), _files(roots, lines)
    records, names, known = [], bytearray(given or b""), {}
    for at, node in enumerate(nodes):
        f = node.fields
        start, length = 0, len(node.name)
        if "name" in f:
            start, length = f["name"]
        if given is not None:
            _same_name(node, given)
        elif node.name:
            place = known.setdefault(node.name, len(names)) if shared else len(names)
            if place == len(names):
                names.extend(node.name)
            start = f.get("name", (place,))[0]
        begin, end = f.get("span", (at, at + 1))
        record = (_kind(node), node.detail, length, start, begin, end, f.get("size", sizes[id(node)]), f.get("file", numbered[id(node)]),
                  f.get("pos", 0))
        demand(record[6] <= 65535, f"a subtree of {record[6]} nodes, and 65535 is the most that a record can say", node)
        demand(length <= 65535, f"a name of {length} bytes, and 65535 is the most that a record can say", node)
        records.append(RECORD.pack(*record))
    return b"".join(records), bytes(names)


def _sizes(nodes):
    """The number of nodes of each subtree."""
    sizes = {}
    for node in reversed(nodes):
        sizes[id(node)] = 1 + sum(sizes[id(child)] for child in node.children)
    return sizes


def _same_name(node, given):
    """If the name bytes are given, a name states its place in them, and its word is the same."""
    demand("name" in node.fields or not node.name, "a name without its place, name=START+LENGTH, and the name bytes are given", node)
    if node.name:
        start, length = node.fields["name"]
        demand(given[start:start + length] == node.name, f"the name {node.name.decode()} is not what lies at {start}+{length}", node)


def _found(text, script, begin, end, node):
    """Where a text is in a part of a script: its begin and its end."""
    at = script.find(text, begin, end)
    demand(0 <= at, f"`{text.decode()}` is not between {begin} and {end} of the script", node)
    return at, at + len(text)


def _spanned(node, script, begin, end):
    """Gives a node the span of its quote, which is searched in a part of the script."""
    if "span" not in node.fields:
        demand(node.quote, "it quotes nothing of the script", node)
        first, mark, last = node.quote.partition("…".encode())
        start, stop = _found(first, script, begin, end, node)
        if mark:
            stop = _found(last, script, stop, end, node)[1]
        node.fields["span"] = start, stop
    if node.kind == KIND["Named"]:
        node.fields.setdefault("pos", node.fields["span"][0])


def place(root: Node, script: bytes) -> None:
    """Gives a node and all below it the spans of their quotes."""
    _spanned(root, script, 0, len(script))
    way = [(root, iter(root.children), _behind(root))]
    while way:
        node, left, behind = way.pop()
        child = next(left, None)
        if child is None:
            continue
        _spanned(child, script, behind, node.fields["span"][1])
        way.append((node, left, child.fields["span"][1]))
        way.append((child, iter(child.children), _behind(child)))


def _behind(node):
    """Where the search for the first child of a node begins."""
    return node.fields["span"][0] + len(node.name) * (node.kind in (KIND["Normal"], KIND["Named"]))


def _lines_said(text):
    """The lines of a text besides its tree, each with its number, the lines file:, and the tree, with an empty line for each of them."""
    said, files, tree = {}, [], []
    for number, line in enumerate(text.replace("\r\n", "\n").split("\n"), 1):
        key, mark, value = line.partition(":")
        if mark and key == "file":
            files.append((number, _at_line(lambda text: _numbers(text, None, [65535])[0], value.strip(), number)))
        elif mark and key in LINES:
            if key in said:
                raise TextError(number, f"a second line {key}:")
            said[key] = value.strip(), number
        tree.append("" if line.startswith("#") or mark and (key == "file" or key in said) else line)
    return said, files, "\n".join(tree)


def decoded(data: bytes) -> str:
    """The characters of a text's bytes."""
    try:
        return data.decode()
    except UnicodeDecodeError as error:
        raise TextError(data.count(b"\n", 0, error.start) + 1, "not UTF-8") from None


def dialect_of(word: str) -> Optional[bytes]:
    """A dialect by its name or its nine digits; None for `none`."""
    row = DIALECTS.get(word.lower())
    if row is None:
        known = re.fullmatch("[01]{5}[012][01]{3}", word)
        demand(known, f"{word} is not a dialect: a name is needed, or nine numbers, 0 or 1, the sixth 0 to 2")
        row = bytes(int(digit) for digit in word)
    return row or None


def _any_dialect(word):
    """A dialect, or nine bytes in hexadecimal, which need not be one."""
    if re.fullmatch("x[0-9a-f]{18}", word):
        return bytes.fromhex(word[1:])
    return dialect_of(word)


def dialect_name(dialect: Optional[bytes]) -> str:
    """How a dialect is written in a text."""
    if not dialect:
        return "none"
    if dialect in DIALECT_NAMES:
        return DIALECT_NAMES[dialect]
    digits = "".join(map(str, dialect))
    return digits if re.fullmatch("[01]{5}[012][01]{3}", digits) else f"x{bytes(dialect).hex()}"


def _edition(word, dialect, off):
    """An edition, or any byte if the rules are off."""
    edition, = _numbers(word, None, [255])
    demand(off or edition in EDITIONS, f"{edition} is not an edition: 1 or 2")
    demand(dialect, "an edition, and no dialect: a file without a dialect has none")
    return edition


def _given_names(word):
    """The name bytes that a line gives: None for `shared`, else the text in quotes."""
    if word == "shared":
        return None
    demand(re.fullmatch(r'"([ !#-\[\]-~]|\\[\\"]|\\x[0-9a-f]{2})*"', word), f"{word} is neither shared nor name bytes in quotes")
    plain = re.sub(r"\\(x[0-9a-f]{2}|.)", lambda found: chr(int(found[1][1:], 16)) if len(found[1]) == 3 else found[1], word[1:-1])
    return plain.encode("latin-1")


def _escaped(names):
    """Name bytes as a line gives them."""
    return "".join(f"\\{chr(byte)}" if byte in b'\\"' else chr(byte) if 32 <= byte < 127 else f"\\x{byte:02x}" for byte in names)


def _at_line(make, text, line):
    """The value of a line's text; an error in it is reported with the line."""
    try:
        return make(text)
    except TextError as error:
        raise TextError(error.line or line, error.message) from None


def _is_off(word):
    demand(word == "off", f"{word} is not off")
    return True


def _changed(made, text):
    """A file with one byte changed."""
    at, value = _numbers(text, None, [len(made) - 1, 255])
    demand(made[at] != value, f"byte {at} is {value} already")
    return made[:at] + bytes([value]) + made[at + 1:]


def read_text(text: str, script: Optional[Callable[[str], bytes]] = None) -> Text:
    """The content of a text. `script` reads the script that a text names."""
    said, files, tree = _lines_said(text)
    off = "rules" in said and _at_line(_is_off, *said["rules"])
    roots = trees(tree)
    demand(roots or off and "script" not in said, "there is no tree")
    demand(len(roots) < 2, "a second tree", roots[-1] if roots else None)
    if "script" in said:
        demand(script, "the text names a script, and none is given")
        place(roots[0], script(said["script"][0]))
    for node in preorder(roots):
        demand("script" in said or node.quote is None, "a quote, and no script is named", node)
        if not off:
            _as_documented(node)
    names = _at_line(_given_names, *said["names"]) if "names" in said else None
    table, names = table_of(roots, "names" in said, names, files)
    dialect = _at_line(_any_dialect if off else dialect_of, *said.get("dialect", ("none", 0)))
    edition = _at_line(lambda word: _edition(word, dialect, off), *said["edition"]) if "edition" in said else None
    return Text(table, names, dialect, edition, said.get("change"), said.get("cut"))


def parse_text(text: str, script: Optional[Callable[[str], bytes]] = None) -> Tuple[bytes, bytes, Optional[bytes], Optional[int]]:
    """Table, names, dialect and edition of a text. Raises TextError."""
    return tuple(read_text(text, script)[:4])


# ---- the text form, printed


def _nested(records):
    """Each record with its level and the number of brackets that close after it. A record whose size does not fit is a leaf; the root has all."""
    ends = [len(records)]
    for at, record in enumerate(records):
        while len(ends) > 1 and ends[-1] <= at:
            ends.pop()
        level, limit = len(ends) - 1, ends[-1]
        end = limit if at == 0 else at + record.size if 0 < record.size <= limit - at else at + 1
        ends.append(end)
        closed = sum(1 for other in ends if other == at + 1) - (ends[0] == at + 1)
        yield at, record, level, end - at, closed


def _node_text(record, size, names, placed, file):
    """A record in words, without brackets. `file` is the source file number that it has without a word."""
    kind = record.kind if record.kind in numbers.KINDS else KIND["Break"]
    words = [kind_name(kind) + (f":{record.detail}" if record.detail else "")]
    name = name_of(record, names)
    if record.name_length and len(name) == record.name_length and WORD.fullmatch(name):
        words.append(name.decode())
    if placed and (record.name_length or record.name_start):
        words.append(f"name={record.name_start}+{record.name_length}")
    words.append(f"span={record.begin}-{record.end}")
    others = (("pos", record.source, 0), ("size", record.size, size), ("file", record.file, file), ("kind", record.kind, kind))
    return " ".join(words + [f"{key}={value}" for key, value, usual in others if value != usual])


def _printed(records, names, lines, placed):
    parts, file = list(lines), 1
    several = bool(records) and records[0].kind == KIND["Statements"]
    for at, record, level, size, closed in _nested(records):
        if level == several and record.file != file:
            file = record.file
            parts.append(f"file: {file}")
        usual = 0 if several and at == 0 else file
        parts.append("  " * min(level, numbers.DEPTH) + "(" + _node_text(record, size, names, placed, usual) + ")" * closed)
    return "\n".join(parts) + "\n"


def print_text(table, names, dialect: Optional[bytes] = None, edition: Optional[int] = None) -> str:
    """The text form of a table of whole records: parse_text gives the same table, names, dialect and edition back. The first form is taken that does."""
    table, names = bytes(table), bytes(names)
    if len(table) % RECORD.size:
        raise TextError(0, f"{len(table)} bytes are not whole records of {RECORD.size}")
    records, wanted = decode(table), (table, names, dialect or None, edition)
    given = f'names: "{_escaped(names)}"'
    first = [f"dialect: {dialect_name(dialect)}"] + ([] if edition is None else [f"edition: {int(edition)}"])
    for lines, placed in (([], False), (["names: shared"], False), ([given], True), ([given, "rules: off"], True)):
        text = _printed(records, names, first + lines, placed)
        try:
            if parse_text(text) == wanted:
                return text
        except TextError:
            continue
    raise TextError(0, "this table has no text form")
