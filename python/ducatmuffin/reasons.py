"""Why a table file is refused, in words beyond its number.

Nothing is decided here. For 3 the library names the record, and this module finds the rule of docs/FORMAT.md that the record breaks. For 70 to 73 the
library reads the first blocks: it answers 70 until the bad one is among them.
"""
import struct

from .numbers import KINDS, NAME_BYTES, NODE_BYTES, NODES, PARAMETERS, SWITCHES
from .table import BLOCK, CONTENT, EDITIONS, LAST_FILE, LAST_POSITION, MOST_DETAIL, NAMED, RECORD, parts_of

COUNTS = 4  # where block 0 has its two counts
USED = (4, 13, 14)  # the number of bytes that block 0 uses: the counts, then a dialect, then an edition
MOST_NAME = 255
NAMED_ARGUMENT = 61
STATEMENTS = 1
LISTS = (2, 27)  # the kinds that have a parameter list
TOO_MANY = 19
OLD = "bytes 18 and 19 are 0 in every record: the file is older than source file numbers and must be exported again"
ARTICLE = {"statement": "a statement", "expression": "an expression", "parameter": "a parameter", "argument": "an argument"}

S, E, P, A = "statement", "expression", "parameter", "argument"
# kind: the classes that come first, the class that may be repeated with its least and most number, the classes that come last
ROWS = {
    1: ((), S, 0, None, ()), 3: ((E, E, S), None, 0, 0, ()), 4: ((E, S), None, 0, 0, ()), 5: ((E, S, S), None, 0, 0, ()),
    8: ((), E, 0, 1, ()), 10: ((), E, 0, None, ()), 20: ((), E, 0, None, ()), 21: ((E,), None, 0, 0, ()), 22: ((E,), A, 0, None, ()),
    23: ((E, E), None, 0, 0, ()), 24: ((E, E, E), None, 0, 0, ()), 25: ((), E, 1, 4, ()), 27: ((), P, 0, None, (E,)),
    33: ((E,), None, 0, 0, ()), 34: ((E,), None, 0, 0, ()), 35: ((E,), None, 0, 0, ()), 36: ((E,), None, 0, 0, ()),
    37: ((E, E), None, 0, 0, ()), 38: ((E, E, E), None, 0, 0, ()), 39: ((), E, 0, None, ()), 40: ((), E, 0, None, ()),
    41: ((), E, 1, None, ()), 42: ((), E, 2, None, ()), 43: ((), E, 0, None, ()),
    60: ((E,), None, 0, 0, ()), 61: ((E,), None, 0, 0, ()), 62: ((E,), None, 0, 0, ()), 63: ((E,), None, 0, 0, ())}
NONE = ((), None, 0, 0, ())
DICT = 40


def row_of(kind, detail):
    """The rule of a kind's children, with what its detail adds."""
    if kind == 2:
        return (), P, 0, None, (E,) * detail + (S,)
    if kind in (11, 12):
        return (E,) * (2 + detail), None, 0, 0, ()
    if kind == 50:
        return (E,) * ((detail & 1) + (detail >> 1)), None, 0, 0, ()
    if kind in (53, 54):
        return (E,) * detail, None, 0, 0, ()
    return ROWS.get(kind, NONE)


def name_of(kind):
    return KINDS[kind][0] if kind in KINDS else str(kind)


def class_of(kind):
    return KINDS[kind][1] if kind in KINDS else None


class Records:
    """A table of any bytes by its records."""

    def __init__(self, table, names):
        self.rows, self.names = list(RECORD.iter_unpack(table)), names

    def __len__(self):
        return len(self.rows)

    def size(self, node):
        return self.rows[node][6]

    def children(self, node):
        """The nodes of the children, for a record whose children fill it."""
        at, end = node + 1, node + self.size(node)
        while at < end:
            yield at
            at += self.size(at)


def unsound(table, names, node):
    """Which rule the record at a node breaks; None if it breaks none."""
    records = Records(table, names)
    row = records.rows[node]
    return fields(row, len(names)) or subtree(records, node, row) or children(records, node, row) or source_file(records, node)


def top_of(records, node):
    """The top-level statement that a node is in: the root, or its child, found by steps over sizes."""
    if node == 0 or records.rows[0][0] != STATEMENTS:
        return 0
    top = 1
    while top + max(1, records.size(top)) <= node:
        top += max(1, records.size(top))
    return top


def source_file(records, node):
    """What is wrong with a record's source file number."""
    file, top = records.rows[node][7], top_of(records, node)
    if not any(row[7] for row in records.rows):
        return OLD if node or records.rows[0][0] != STATEMENTS else None
    if node == 0 and records.rows[0][0] == STATEMENTS:
        return f"the source file number is {file}, and a root Statements has 0" if file else None
    if node == top:
        return None if 1 <= file <= LAST_FILE else f"the source file number is {file}, and must be 1 to {LAST_FILE}"
    wanted = records.rows[top][7]
    return None if file == wanted else f"the source file number is {file}, and that of its top-level statement, node {top}, is {wanted}"


def fields(row, name_bytes):
    kind, detail, length, start, begin, end, _, _, position = row
    if kind not in KINDS:
        return f"{kind} is not a kind"
    if detail > MOST_DETAIL.get(kind, 0):
        return f"the detail is {detail}, and {name_of(kind)} has at most {MOST_DETAIL.get(kind, 0)}"
    return name_fields(kind, length, start, name_bytes) or positions(kind, length, begin, end, position)


def name_fields(kind, length, start, name_bytes):
    if kind not in NAMED:
        if length:
            return f"the name length is {length}, and {name_of(kind)} has no name"
        return f"the name start is {start}, and {name_of(kind)} has no name" if start else None
    if not 1 <= length <= MOST_NAME:
        return f"the name length is {length}, and must be 1 to {MOST_NAME}"
    if start + length > name_bytes:
        return f"the name ends at byte {start + length} of the names, and there are {name_bytes}"
    return None


def positions(kind, length, begin, end, position):
    if begin > end:
        return f"the span begins at {begin} and ends before that, at {end}"
    if end > LAST_POSITION:
        return f"the span ends at {end}, and the last position is {LAST_POSITION}"
    if kind != NAMED_ARGUMENT and position:
        return f"the name position is {position}, and only {name_of(NAMED_ARGUMENT)} has one"
    if kind == NAMED_ARGUMENT and position + length > LAST_POSITION:
        return f"the name ends at {position + length}, and the last position is {LAST_POSITION}"
    return None


def subtree(records, node, row):
    kind, size, total = row[0], row[6], len(records)
    if size == 0:
        return "the subtree size is 0, and a record counts itself"
    if node + size > total:
        return f"the subtree of {size} records passes the table's end: {total - node} are left"
    if node == 0 and class_of(kind) != S:
        return f"node 0 is {ARTICLE[class_of(kind)]}, and must be a statement"
    if node == 0 and size != total:
        return f"the subtree of node 0 has {size} records, and must have all {total}"
    return None


def children(records, node, row):
    kind, detail, size = row[0], row[1], row[6]
    found, at, end = [], node + 1, node + size
    while at < end:
        below = records.size(at)
        if below == 0:
            return f"child {len(found) + 1} has the subtree size 0"
        if at + below > end:
            return f"child {len(found) + 1} passes the end of its parent's subtree by {at + below - end} records"
        found.append(at)
        at += below
    return child_rule(records, kind, detail, found)


def child_rule(records, kind, detail, found):
    first, repeated, least, most, last = row_of(kind, detail)
    fixed, many = len(first) + len(last), len(found)
    if many < fixed + least or most is not None and many > fixed + most:
        return f"it has {counted(many, 'child', 'children')}, and {name_of(kind)}{f' with detail {detail}' if detail else ''} takes " \
            + taken(fixed + least, None if most is None else fixed + most)
    wanted = first + (repeated,) * (many - fixed) + last
    for place, (child, one) in enumerate(zip(found, wanted), 1):
        if class_of(records.rows[child][0]) != one:
            return f"child {place} of {many}, node {child}, is not {ARTICLE[one]}"
    if kind == DICT and many % 2:
        return f"it has {many} children, and Dict takes an even number"
    return None


def counted(number, one, more):
    return f"{number} {one if number == 1 else more}"


def taken(least, most):
    if most is None:
        return f"{least} or more"
    return str(least) if least == most else f"{least} to {most}"


# ---- parameter lists

def entries(table, names, node):
    """The number of entries of the parameter list of a Def or Lambda, marks counted."""
    records = Records(table, names)
    return sum(class_of(records.rows[child][0]) == P for child in records.children(node))


def too_many(many):
    """The words for a list with 19."""
    return f"it has {many}, and {PARAMETERS} are allowed"


# ---- table files

def bad_block(library, data, number):
    """The block that is short or bad: the library answers 70 until it is among the first ones."""
    if number == 70:
        return len(data) // BLOCK
    for many in range(1, len(data) // BLOCK + 1):
        answer = library.read(data[:BLOCK * many])
        if getattr(answer, "number", 0) != 70:
            return many - 1
    return None


class Why:
    """What is known about a refusal besides its number and words: the block, or the node and its kind, and a sentence."""

    def __init__(self, sentence=None, block=None, node=None, kind=None):
        self.sentence, self.block, self.node, self.kind = sentence, block, node, kind

    def __str__(self):
        """The text after the words of a refusal."""
        said = "" if self.block is None else f", block {self.block}"
        if self.node is not None:
            known = f"kind {self.kind} {name_of(self.kind)}" if self.kind in KINDS else f"kind {self.kind}, which is not a kind"
            said += f", node {self.node}, {known}"
        return said + (f": {self.sentence}" if self.sentence else "")

    def in_json(self):
        said = {} if self.block is None else {"block": self.block}
        if self.node is not None:
            said.update(node=self.node, kind={"number": self.kind, "name": KINDS[self.kind][0] if self.kind in KINDS else None})
        return {**said, **({"reason": self.sentence} if self.sentence else {})}


def why_file(library, data, refusal, whole=True):
    """Why a table file is refused."""
    number = refusal.number
    if number in (70, 71, 72, 73):
        block = bad_block(library, data, number)
        return Why(short(data, block) if number == 70 else used(data, block) if number == 73 else None, block)
    if number == 74:
        nodes, names = struct.unpack_from("<HH", data, COUNTS)
        return Why(f"it counts {counted(nodes, 'node', 'nodes')} and {counted(names, 'name byte', 'name bytes')}; "
                   f"1 to {NODES} and 0 to {NAME_BYTES} are allowed", 0)
    if number == 75:
        return Why(left_over(data, whole))
    if number in (3, 4, 5):
        table, names, dialect, edition = parts_of(data)
        return why_table(table, names, dialect, refusal, edition)
    return Why()


def short(data, block):
    if not data:
        return "the file is empty"
    left = len(data) - BLOCK * block
    return f"the file ends after {len(data)} bytes, " + (f"{left} bytes into this block" if left else "before this block")


def used(data, block):
    """What is wrong with the used bytes of block 0; those of other blocks depend on its counts."""
    many, = struct.unpack_from("<H", data, 2)
    return None if block or many in USED else f"it says {counted(many, 'used byte', 'used bytes')}, and must say {USED[0]}, {USED[1]} or {USED[2]}"


def left_over(data, whole):
    nodes, names = struct.unpack_from("<HH", data, COUNTS)
    blocks = 1 + -(-names // CONTENT) + -(-nodes * NODE_BYTES // CONTENT)
    many = len(data) - BLOCK * blocks
    return f"{counted(many, 'byte', 'bytes')}{'' if whole else ' or more'} after block {blocks - 1}"


def bad_dialect(dialect, edition):
    """What is wrong with a dialect's bytes or, if they are valid, with the edition."""
    valid = len(dialect) in (0, len(SWITCHES)) and all(byte <= (2 if name == "enable_types" else 1) for name, byte in zip(SWITCHES, dialect))
    if not valid or edition is None:
        return f"the bytes are {' '.join(map(str, dialect))}"
    return f"the edition is {edition}, and must be 1 or 2" if edition not in EDITIONS else "an edition, and no dialect"


def why_table(table, names, dialect, refusal, edition=None):
    """Why a table, its dialect or its edition is refused."""
    if refusal.number in (3, 4) and refusal.node is not None:
        kind = table[NODE_BYTES * refusal.node]
        return Why(unsound(table, names, refusal.node) if refusal.number == 3 else None, node=refusal.node, kind=kind)
    if refusal.number == 5:
        return Why(bad_dialect(dialect or b"", edition))
    if refusal.number == 1:
        return Why(f"it has {counted(len(table), 'byte', 'bytes')}{' or more' if len(table) > NODES * NODE_BYTES else ''}, "
                   f"{NODE_BYTES} for each record")
    if refusal.number == 2:
        return Why(f"there are {len(names)}{' or more' if len(names) > NAME_BYTES else ''}")
    return Why()
