"""Every function of include/starlark.h as a typed Python function, over ctypes.

    library = load()
    answer = library.check_file(data)
    if isinstance(answer, Refusal): ...

Each function takes any bytes (bytes, bytearray, memoryview) of any length and returns a dataclass: what the job answers, or a Refusal. Several
threads may call at the same time: each has its own buffers, and ctypes releases the interpreter's lock while the library works.

`room` is the length of the buffer that the job gets: bytes for modes, shapes, files and format texts, words of four bytes for errors, bindings and
the parts of a format text. Without it the buffer is never too short.
"""
import ctypes
import enum
import operator
import os
import threading
from dataclasses import dataclass
from typing import ClassVar, NamedTuple, Optional, Sequence, Tuple, Union

from . import __version__, numbers

NAME = "libstarlark_checks.so"
SONAME = f"{NAME}.{'.'.join(__version__.split('.')[:2])}"
NONE = numbers.NONE
MOST = 2 ** 64 - 1  # of a size_t
LIST_WORDS = numbers.AUDIT_WORDS * numbers.AUDIT_ERRORS  # the longest list of errors
FILE_WORDS = numbers.ERROR_WORDS * numbers.ERRORS  # the longest one of the module pass
BARE = frozenset([1, 2, 5, 6, 7, 64, *range(70, 76), 90, 91])  # the numbers that carry nothing
COUNTED_ERRORS = (*range(10, 20), *range(50, 62))  # the numbers that figures count, in their order
Bytes = Union[bytes, bytearray, memoryview]

POINTER, LENGTH, WORD, COUNT = ctypes.c_char_p, ctypes.c_size_t, ctypes.c_uint32, ctypes.c_uint64
LENT = [ctypes.c_void_p, LENGTH]  # a buffer that is written
READ = [POINTER, LENGTH]  # a buffer that is only read
OUT = [ctypes.c_void_p]
# the arguments of each function, in the header's order
FUNCTIONS = {
    "table": READ * 2 + OUT,
    "params": READ * 2 + [LENGTH] + LENT + OUT,
    "call": READ * 2 + [LENGTH] + OUT,
    "bind": READ * 2 + [LENGTH] * 2 + LENT + OUT,
    "namesakes": READ * 2 + [LENGTH] * 2 + LENT + OUT,
    "target": READ * 2 + [LENGTH] + OUT,
    "assignment": READ * 2 + [LENGTH] + OUT,
    "type": READ * 3 + [WORD, LENGTH] + LENT + OUT,
    "module": READ * 3 + LENT + OUT,
    "audit": READ * 3 + [WORD] + LENT + OUT,
    "write": READ * 3 + [WORD] + LENT + OUT,
    "rescue": READ + LENT + OUT,
    "read": READ + LENT * 2 + OUT,
    "check_file": READ + LENT + OUT,
    "fstring_write": [ctypes.c_void_p, LENGTH] + READ * 2 + LENT + OUT,
    "fstring_read": READ + LENT * 2 + OUT,
    "book_lookup": READ * 2 + [WORD] * 2 + OUT,
    "book_add": LENT * 2 + [WORD] * 2 + READ + OUT,
    "book_remove": LENT * 2 + [WORD] * 2 + OUT,
    "book_blank": LENT + OUT,
    "figures": READ + [ctypes.c_void_p] + OUT,
    "figures_step": [ctypes.c_void_p, LENGTH, ctypes.c_void_p] + OUT,
    "version": [],
}
# the first words of the parts of a format text that are not text
CONVERSIONS = {"none": 1, "str": 2, "repr": 3}


class LibraryError(Exception):
    """The library cannot be used; the message says why and what to do."""


class LibraryMissing(LibraryError):
    """There is no library."""


class LibraryMismatch(LibraryError):
    """There is a file, and it is not a library of this version for this machine."""


class Edition(enum.IntEnum):
    """An edition of the type rules. Edition 2 reads a path that ends in `type` as a path, which edition 1 refuses with 44."""
    ONE = 1
    TWO = 2


@dataclass(frozen=True)
class Refusal:
    """Why a job refuses: a number of docs/RULES.md, its meaning, and what it carries. None where a number does not carry it. `file` is the source file
    number of the node, which every refusal with a span has."""
    number: int
    words: str
    node: Optional[int] = None
    begin: Optional[int] = None
    end: Optional[int] = None
    earlier: Optional[int] = None
    file: Optional[int] = None
    position: Optional[int] = None
    accepted: ClassVar[bool] = False


@dataclass(frozen=True)
class Checked:
    """The table is sound."""
    accepted: ClassVar[bool] = True


@dataclass(frozen=True)
class Params:
    """A parameter list without its marks: five ranges of indices, the number of parameters, and the mode of each (numbers.MODES)."""
    pos_only: range
    pos_or_named: range
    args: range
    named_only: range
    kwargs: range
    count: int
    modes: bytes
    accepted: ClassVar[bool] = True


@dataclass(frozen=True)
class Called:
    """The number of positional and of named arguments, and the places of `*` and `**`, from 0."""
    positional: int
    named: int
    star: Optional[int]
    star_star: Optional[int]
    accepted: ClassVar[bool] = True


@dataclass(frozen=True)
class Bound:
    """For each parameter the node of the argument that it takes (0 for its default, and for `*args` and `**kwargs`); for each argument the
    index of the parameter that it reached."""
    parameters: Tuple[int, ...]
    arguments: Tuple[int, ...]
    accepted: ClassVar[bool] = True


class Namesake(NamedTuple):
    """An argument that has the name of one ordinary parameter and reaches another: its node, the index of the parameter that it reaches, the
    index of the one that has its name, and the node of the argument that the latter takes (0: none, or its default)."""
    argument: int
    reached: int
    namesake: int
    taken: int


@dataclass(frozen=True)
class Namesakes:
    """The arguments that are reported, in order."""
    found: Tuple[Namesake, ...]
    accepted: ClassVar[bool] = True


@dataclass(frozen=True)
class Targeted:
    """The number of leaves of a target: identifiers, dots and indices."""
    leaves: int
    accepted: ClassVar[bool] = True


@dataclass(frozen=True)
class Shaped:
    """The shape of each node of a type (numbers.SHAPES), from the type's own node on; 0 for a node that is not read as a type."""
    shapes: bytes
    accepted: ClassVar[bool] = True


class Error(NamedTuple):
    """An error of a module, with the source file number that its span is in; the node only where the audit lists it."""
    number: int
    file: int
    begin: int
    end: int
    node: Optional[int] = None


@dataclass(frozen=True)
class Errors:
    """The number of errors, those that are stored, and for a file the number of nodes."""
    total: int
    errors: Tuple[Error, ...]
    nodes: Optional[int] = None
    accepted: ClassVar[bool] = True


@dataclass(frozen=True)
class Written:
    """A table file."""
    data: bytes
    accepted: ClassVar[bool] = True


@dataclass(frozen=True)
class Rescued:
    """What is kept of a damaged file: a table file, its statements and nodes, the nodes dropped, the bytes after the last block."""
    data: bytes
    statements: int
    nodes: int
    dropped: int
    bytes_after: int
    accepted: ClassVar[bool] = True


@dataclass(frozen=True)
class Loaded:
    """The contents of a table file. `edition` is the edition byte, for `write`; `effective_edition` the one that applies, for `type` and `audit`."""
    table: bytes
    names: bytes
    dialect: Optional[bytes]
    edition: Optional[Edition] = None
    effective_edition: Edition = Edition.ONE
    accepted: ClassVar[bool] = True


# a part of an f-string: a text, or the conversion of an expression: "none", "str" or "repr"
Part = Union[bytes, str]


@dataclass(frozen=True)
class Formatted:
    """A format text, and whether the dialect has f-strings. If it has none, the notice is 62, and the text is still made."""
    data: bytes
    enabled: bool
    accepted: ClassVar[bool] = True

    @property
    def notice(self) -> Optional[int]:
        return None if self.enabled else 62


@dataclass(frozen=True)
class Parts:
    """The parts of a format text: a text as bytes, an expression as "none" or "repr"."""
    parts: Tuple[Part, ...]
    accepted: ClassVar[bool] = True


@dataclass(frozen=True)
class BookRefusal:
    """Why a book or an entry is refused: 95 to 98, what it means, and the book (0 the zone book, 1 the line book) where the number carries it."""
    number: int
    words: str
    book: Optional[int] = None
    accepted: ClassVar[bool] = False


@dataclass(frozen=True)
class Found:
    """The dialect of a lookup: its nine bytes, their book (0 the zone book, 1 the line book), and where they begin in it."""
    dialect: bytes
    book: int
    at: int
    accepted: ClassVar[bool] = True


@dataclass(frozen=True)
class Changed:
    """An entry added or removed: the book (0 the zone book, 1 the line book), the place in it from 0, and both books afterwards."""
    book: int
    place: int
    zone_book: bytes
    line_book: bytes
    accepted: ClassVar[bool] = True


# The 32 counts of figures, in the order of the C interface: mode_1 is PosOnly and so on (numbers.MODES), error_10 the number of errors 10
Figures = NamedTuple("Figures", [(name, int) for name in (
    "files", "nodes", "lists", *(f"mode_{mode}" for mode in numbers.MODES), "calls_accepted", "calls_refused",
    *(f"error_{number}" for number in COUNTED_ERRORS))])
NO_FIGURES = Figures(*[0] * len(Figures._fields))


@dataclass(frozen=True)
class Report:
    """The figures of files that are joined: their counts, and why and where the report ended, or None and None if it is complete. `position` is
    that of the refused file's first byte."""
    figures: Figures
    number: Optional[int] = None
    position: Optional[int] = None

    @property
    def whole(self) -> bool:
        return self.number is None


@dataclass(frozen=True)
class Stepped:
    """The figures with those of one more file, and the number of bytes that it takes: 0 if the window is empty."""
    figures: Figures
    taken: int
    accepted: ClassVar[bool] = True


class Buffers(threading.local):
    """The buffers of a thread: the words of the answer, and the largest buffers that a job needs."""

    def __init__(self):
        self.out = (WORD * numbers.OUT_WORDS)()
        self.words = (WORD * LIST_WORDS)()
        self.file = ctypes.create_string_buffer(numbers.FILE_BYTES)
        self.names = ctypes.create_string_buffer(numbers.NAME_BYTES)
        self.counts = (COUNT * len(Figures._fields))()
        # addresses, so that a call need not make a pointer each time
        self.out_at = ctypes.addressof(self.out)
        self.words_at = ctypes.addressof(self.words)
        self.file_at = ctypes.addressof(self.file)
        self.names_at = ctypes.addressof(self.names)
        self.counts_at = ctypes.addressof(self.counts)


def _bytes(data):
    """Bytes that do not change while the library reads them."""
    if type(data) is bytes:
        return data
    if not isinstance(data, (bytes, bytearray, memoryview)):
        raise TypeError(f"bytes are needed, not {type(data).__name__}")
    return bytes(data)


def _node(node):
    """A node's number for the library; one that does not fit into a size_t is beyond every table."""
    node = operator.index(node)
    if node < 0:
        raise ValueError(f"a node has no negative number: {node}")
    return min(node, MOST)


def _room(room, most, size):
    """The length of the buffer, and a new buffer if that of the thread is shorter."""
    if room is None:
        return most, None
    room = operator.index(room)
    if room < 0:
        raise ValueError(f"a buffer has no negative length: {room}")
    return room, ctypes.create_string_buffer(room * size) if room > most else None


def _place(word):
    return None if word == NONE else word


def _wide(low, high):
    """A number in two words."""
    return high << 32 | low


def _part_words(parts):
    """The words of parts, and their texts. A text that is longer than a word can say is several parts."""
    words, texts, most = [], [], 2 ** 32 - 1
    for part in parts:
        if isinstance(part, str):
            if part not in CONVERSIONS:
                raise ValueError(f"a part is bytes or one of {', '.join(CONVERSIONS)}, not {part!r}")
            words += [CONVERSIONS[part], 0]
        else:
            text = _bytes(part)
            texts.append(text)
            for at in range(0, len(text), most):
                words += [0, min(most, len(text) - at)]
    return words, b"".join(texts)


def _word(number, what):
    """A number of 32 bits: a larger one is rejected, not cut."""
    number = operator.index(number)
    if not 0 <= number < 2 ** 32:
        raise ValueError(f"a {what} is from 0 to 4294967295: {number}")
    return number


def _edition(edition):
    """An edition of 32 bits. The library decides which numbers are editions (5). The C word for no edition is rejected: it is None here."""
    edition = _word(edition, "edition")
    if edition == NONE:
        raise ValueError(f"{NONE} is the C interface's word for no edition, which is None here")
    return edition


def _book_refusal(number, out):
    return BookRefusal(number, numbers.WORDS.get(number, "unknown"), out[0] if number in (95, 96) else None)


def _refusal(number, out):
    words = numbers.WORDS.get(number, "unknown")
    if number in (3, 4):
        return Refusal(number, words, out[0])
    if number in BARE:
        return Refusal(number, words)
    if number == 63:
        return Refusal(number, words, position=_wide(out[0], out[1]))
    return Refusal(number, words, out[0], out[1], out[2], _place(out[3]), out[4])


def _errors(out, words, room, width):
    """The stored errors: all of them, or those that fit."""
    total = out[0]
    if not total:
        return 0, ()
    stored = words[:width * min(total, room // width)]
    columns = (stored[at::width] for at in range(width))
    return total, tuple(map(Error, *columns)) if stored else ()


def version_text(version):
    return f"{version >> 16}.{version >> 8 & 255}.{version & 255}"


def version_number(text):
    """major * 65536 + minor * 256 + patch."""
    major, minor, patch = (int(part) for part in text.split("."))
    return major << 16 | minor << 8 | patch


class Library:
    """A loaded library. `path` is its file, `proved` whether it was proved, `version` its version as text, `checksum` the file's SHA-256."""

    def __init__(self, path):
        self.path = os.path.abspath(os.fspath(path))
        try:
            self._stat = _identity(self.path)
            self._library = ctypes.CDLL(self.path)
        except FileNotFoundError:
            raise LibraryMissing(f"there is no {self.path}") from None
        except OSError as error:
            raise LibraryMismatch(f"{self.path} cannot be loaded: {error.strerror or error}") from None
        for name, arguments in FUNCTIONS.items():
            setattr(self, f"_{name}", self._function(name, arguments))
        self._compare_version()
        # a library that was compiled without a proof has this symbol
        self.proved = not hasattr(self._library, "starlark_unproved")
        self._buffers = Buffers()
        self._checksum = None

    def _function(self, name, arguments):
        try:
            function = getattr(self._library, f"starlark_{name}")
        except AttributeError:
            raise LibraryMismatch(f"{self.path} has no starlark_{name}: it is not version {__version__} of the library") from None
        function.argtypes, function.restype = arguments, WORD
        return function

    def _compare_version(self):
        found, wanted = self._version(), version_number(__version__)
        self.version = version_text(found)
        if found >> 8 != wanted >> 8 or found < wanted:
            major_minor, patch = __version__.rsplit(".", 1)
            raise LibraryMismatch(f"{self.path} is version {self.version}; {major_minor}, patch {patch} or later, is needed")

    @property
    def checksum(self):
        if self._checksum is None:
            import hashlib
            with open(self.path, "rb") as file:
                content = file.read()
            if _identity(self.path) != self._stat:
                raise LibraryError(f"{self.path} was replaced after it was loaded")
            self._checksum = hashlib.sha256(content).hexdigest()
        return self._checksum

    def table(self, table: Bytes, names: Bytes) -> Union[Checked, Refusal]:
        """The table check: 1 to 4."""
        table, names, own = _bytes(table), _bytes(names), self._buffers
        number = self._table(table, len(table), names, len(names), own.out_at)
        return _refusal(number, own.out) if number else Checked()

    def params(self, table: Bytes, names: Bytes, node: int, room: Optional[int] = None) -> Union[Params, Refusal]:
        """The parameter list of the Def or Lambda at a node."""
        table, names, own = _bytes(table), _bytes(names), self._buffers
        room, buffer = _room(room, numbers.NODES, 1)
        lent = own.file_at if buffer is None else ctypes.addressof(buffer)
        number = self._params(table, len(table), names, len(names), _node(node), lent, room, own.out_at)
        if number:
            return _refusal(number, own.out)
        out = own.out[:11]
        return Params(*(range(out[at], out[at + 1]) for at in range(0, 10, 2)), out[10], ctypes.string_at(lent, out[10]))

    def call(self, table: Bytes, names: Bytes, node: int) -> Union[Called, Refusal]:
        """The arguments of the Call at a node."""
        table, names, own = _bytes(table), _bytes(names), self._buffers
        number = self._call(table, len(table), names, len(names), _node(node), own.out_at)
        if number:
            return _refusal(number, own.out)
        out = own.out
        return Called(out[0], out[1], _place(out[2]), _place(out[3]))

    def bind(self, table: Bytes, names: Bytes, call: int, def_: int, room: Optional[int] = None) -> Union[Bound, Refusal]:
        """Which argument of a Call reaches which parameter of a Def."""
        table, names, own = _bytes(table), _bytes(names), self._buffers
        room, buffer = _room(room, LIST_WORDS, 4)
        lent = own.words_at if buffer is None else ctypes.addressof(buffer)
        number = self._bind(table, len(table), names, len(names), _node(call), _node(def_), lent, room, own.out_at)
        if number:
            return _refusal(number, own.out)
        flat, many = own.out[:2]
        words = (WORD * (flat + many)).from_address(lent)[:]
        return Bound(tuple(words[:flat]), tuple(words[flat:]))

    def namesakes(self, table: Bytes, names: Bytes, call: int, def_: int, room: Optional[int] = None) -> Union[Namesakes, Refusal]:
        """Which arguments of a Call have the name of one ordinary parameter of a Def and reach another."""
        table, names, own = _bytes(table), _bytes(names), self._buffers
        room, buffer = _room(room, LIST_WORDS, 4)
        lent = own.words_at if buffer is None else ctypes.addressof(buffer)
        number = self._namesakes(table, len(table), names, len(names), _node(call), _node(def_), lent, room, own.out_at)
        if number:
            return _refusal(number, own.out)
        words = (WORD * (4 * own.out[0])).from_address(lent)[:]
        return Namesakes(tuple(Namesake(*words[at:at + 4]) for at in range(0, len(words), 4)))

    def target(self, table: Bytes, names: Bytes, node: int) -> Union[Targeted, Refusal]:
        """Whether the expression at a node is a target."""
        table, names, own = _bytes(table), _bytes(names), self._buffers
        number = self._target(table, len(table), names, len(names), _node(node), own.out_at)
        return _refusal(number, own.out) if number else Targeted(own.out[0])

    def assignment(self, table: Bytes, names: Bytes, node: int) -> Union[Targeted, Refusal]:
        """The assignment at a node."""
        table, names, own = _bytes(table), _bytes(names), self._buffers
        number = self._assignment(table, len(table), names, len(names), _node(node), own.out_at)
        return _refusal(number, own.out) if number else Targeted(own.out[0])

    def type(self, table: Bytes, names: Bytes, dialect: Optional[Bytes], edition: int, node: int, room: Optional[int] = None) -> Union[Shaped, Refusal]:
        """Whether the expression at a node is a type in a dialect (None is no dialect, which means Extended) and an edition of the type rules."""
        table, names, dialect, own = _bytes(table), _bytes(names), _bytes(dialect or b""), self._buffers
        edition = _edition(edition)
        room, buffer = _room(room, numbers.NODES, 1)
        lent = own.file_at if buffer is None else ctypes.addressof(buffer)
        node = _node(node)
        size = int.from_bytes(table[24 * node + 16:24 * node + 18], "little")
        ctypes.memset(lent, 0, min(room, size))
        number = self._type(table, len(table), names, len(names), dialect, len(dialect), edition, node, lent, room, own.out_at)
        return _refusal(number, own.out) if number else Shaped(ctypes.string_at(lent, size))

    def module(self, table: Bytes, names: Bytes, dialect: Optional[Bytes], room: Optional[int] = None) -> Union[Errors, Refusal]:
        """The module pass under a dialect (None is no dialect, which means Extended)."""
        return self._listed(self._module, table, names, dialect, (), room, numbers.ERROR_WORDS)

    def audit(self, table: Bytes, names: Bytes, dialect: Optional[Bytes], edition: int, room: Optional[int] = None) -> Union[Errors, Refusal]:
        """Every job on every node that it applies to, under a dialect (None is no dialect, which means Extended) and an edition of the type rules."""
        return self._listed(self._audit, table, names, dialect, (_edition(edition),), room, numbers.AUDIT_WORDS)

    def _listed(self, job, table, names, dialect, edition, room, width):
        table, names, dialect, own = _bytes(table), _bytes(names), _bytes(dialect or b""), self._buffers
        room, buffer = _room(room, LIST_WORDS, 4)
        lent = own.words_at if buffer is None else ctypes.addressof(buffer)
        number = job(table, len(table), names, len(names), dialect, len(dialect), *edition, lent, room, own.out_at)
        if number:
            return _refusal(number, own.out)
        words = own.words if buffer is None else (WORD * room).from_buffer(buffer)
        return Errors(*_errors(own.out, words, room, width))

    def write(self, table: Bytes, names: Bytes, dialect: Optional[Bytes], edition: Optional[int],
              room: Optional[int] = None) -> Union[Written, Refusal]:
        """The table file of a table, its names, a dialect and an edition of the type rules. None is a file without a dialect, or without an edition."""
        table, names, dialect, own = _bytes(table), _bytes(names), _bytes(dialect or b""), self._buffers
        edition = NONE if edition is None else _edition(edition)
        room, buffer = _room(room, numbers.FILE_BYTES, 1)
        lent = own.file_at if buffer is None else ctypes.addressof(buffer)
        number = self._write(table, len(table), names, len(names), dialect, len(dialect), edition, lent, room, own.out_at)
        return _refusal(number, own.out) if number else Written(ctypes.string_at(lent, own.out[0]))

    def rescue(self, data: Bytes, room: Optional[int] = None) -> Union[Rescued, Refusal]:
        """What can be kept of a damaged table file."""
        data, own = _bytes(data), self._buffers
        room, buffer = _room(room, numbers.FILE_BYTES, 1)
        lent = own.file_at if buffer is None else ctypes.addressof(buffer)
        number = self._rescue(data, len(data), lent, room, own.out_at)
        if number:
            return _refusal(number, own.out)
        size, statements, nodes, dropped, low, high = own.out[:6]
        return Rescued(ctypes.string_at(lent, size), statements, nodes, dropped, high << 32 | low)

    def read(self, data: Bytes, room: Optional[int] = None, names_room: Optional[int] = None) -> Union[Loaded, Refusal]:
        """The contents of a table file."""
        data, own = _bytes(data), self._buffers
        room, buffer = _room(room, numbers.NODES * numbers.NODE_BYTES, 1)
        names_room, names_buffer = _room(names_room, numbers.NAME_BYTES, 1)
        lent = own.file_at if buffer is None else ctypes.addressof(buffer)
        names_lent = own.names_at if names_buffer is None else ctypes.addressof(names_buffer)
        number = self._read(data, len(data), lent, room, names_lent, names_room, own.out_at)
        if number:
            return _refusal(number, own.out)
        nodes, names, has_dialect = own.out[:3]
        dialect = bytes(own.out)[12:21] if has_dialect else None
        edition = None if own.out[6] == NONE else Edition(own.out[6])
        return Loaded(ctypes.string_at(lent, numbers.NODE_BYTES * nodes), ctypes.string_at(names_lent, names), dialect, edition, Edition(own.out[7]))

    def check_file(self, data: Bytes, room: Optional[int] = None) -> Union[Errors, Refusal]:
        """The module pass over a table file, in its own dialect."""
        own = self._buffers
        if room is None and type(data) is bytes:
            room, words = FILE_WORDS, own.words
            number = self._check_file(data, len(data), own.words_at, room, own.out_at)
        else:
            data = _bytes(data)
            room, buffer = _room(room, FILE_WORDS, 4)
            words = own.words if buffer is None else (WORD * room).from_buffer(buffer)
            number = self._check_file(data, len(data), ctypes.addressof(words), room, own.out_at)
        if number:
            return _refusal(number, own.out)
        total, errors = _errors(own.out, words, room, numbers.ERROR_WORDS)
        return Errors(total, errors, own.out[1])

    def fstring_write(self, parts: Sequence[Part], dialect: Optional[Bytes], room: Optional[int] = None) -> Union[Formatted, Refusal]:
        """The format text of an f-string's parts in a dialect (None is no dialect, which means Extended)."""
        words, texts = _part_words(parts)
        return self.fstring_write_words(words, texts, dialect, room)

    def fstring_write_words(self, words: Sequence[int], texts: Bytes, dialect: Optional[Bytes],
                            room: Optional[int] = None) -> Union[Formatted, Refusal]:
        """The same for parts in words, as the C interface takes them: 0 and the length of a text, or 1, 2, 3 for none, str, repr and then 0."""
        texts, dialect, own = _bytes(texts), _bytes(dialect or b""), self._buffers
        if any(not 0 <= operator.index(word) < 2 ** 32 for word in words):
            raise ValueError("a word is a number from 0 to 4,294,967,295")
        lent = (WORD * len(words))(*words)
        room, buffer = _room(2 * (len(words) + len(texts)) if room is None else room, 0, 1)
        text_at = own.file_at if buffer is None else ctypes.addressof(buffer)
        number = self._fstring_write(ctypes.addressof(lent), len(words), texts, len(texts), dialect, len(dialect), text_at, room, own.out_at)
        if number:
            return _refusal(number, own.out)
        return Formatted(ctypes.string_at(text_at, _wide(own.out[0], own.out[1])), own.out[2] == 0)

    def fstring_read(self, text: Bytes, room: Optional[int] = None, texts_room: Optional[int] = None) -> Union[Parts, Refusal]:
        """The parts of a format text. `room` counts words, two a part, `texts_room` bytes."""
        text, own = _bytes(text), self._buffers
        room, buffer = _room(2 * len(text) if room is None else room, 0, 4)
        texts_room, texts_buffer = _room(len(text) if texts_room is None else texts_room, 0, 1)
        lent = own.words_at if buffer is None else ctypes.addressof(buffer)
        texts_at = own.names_at if texts_buffer is None else ctypes.addressof(texts_buffer)
        number = self._fstring_read(text, len(text), lent, room, texts_at, texts_room, own.out_at)
        if number:
            return _refusal(number, own.out)
        many, size = _wide(own.out[0], own.out[1]), _wide(own.out[2], own.out[3])
        words, texts, parts, at = (WORD * (2 * many)).from_address(lent)[:], ctypes.string_at(texts_at, size), [], 0
        names = {number: name for name, number in CONVERSIONS.items()}
        for kind, length in zip(words[::2], words[1::2]):
            parts.append(names[kind] if kind else texts[at:at + length])
            at += length
        return Parts(tuple(parts))

    def book_lookup(self, zone_book: Bytes, line_book: Bytes, zone: int, setting: int) -> Union[Found, BookRefusal]:
        """The dialect of a zone at a setting, by the zone book or, if it has no fitting entry, by the line book."""
        books, own = (_bytes(zone_book), _bytes(line_book)), self._buffers
        number = self._book_lookup(
            books[0], len(books[0]), books[1], len(books[1]), _word(zone, "zone"), _word(setting, "setting"), own.out_at)
        if number:
            return _book_refusal(number, own.out)
        book, at = own.out[:2]
        return Found(books[book][at:at + 9], book, at)

    def book_add(self, zone_book: Bytes, line_book: Bytes, zone: int, setting: int, dialect: Bytes) -> Union[Changed, BookRefusal]:
        """The two books with one more entry, in the line book for zone 0, otherwise in the zone book."""
        dialect = _bytes(dialect)
        return self._book_change(self._book_add, zone_book, line_book, zone, setting, dialect, len(dialect))

    def book_remove(self, zone_book: Bytes, line_book: Bytes, zone: int, setting: int) -> Union[Changed, BookRefusal]:
        """The two books without the entry of exactly this zone and setting."""
        return self._book_change(self._book_remove, zone_book, line_book, zone, setting)

    def _book_change(self, change, zone_book, line_book, zone, setting, *dialect):
        books, own = [ctypes.create_string_buffer(data, len(data)) for data in (_bytes(zone_book), _bytes(line_book))], self._buffers
        zone, setting = _word(zone, "zone"), _word(setting, "setting")
        number = change(ctypes.addressof(books[0]), len(books[0]), ctypes.addressof(books[1]), len(books[1]), zone, setting, *dialect, own.out_at)
        if number:
            return _book_refusal(number, own.out)
        return Changed(own.out[0], own.out[1], books[0].raw, books[1].raw)

    def book_blank(self, blocks: int) -> Union[bytes, BookRefusal]:
        """A book of empty places, of 1 to 100 blocks."""
        blocks = operator.index(blocks)
        if not 0 <= blocks <= 101:
            return BookRefusal(95, numbers.WORDS[95])
        book, own = ctypes.create_string_buffer(512 * blocks), self._buffers
        number = self._book_blank(ctypes.addressof(book), len(book), own.out_at)
        return BookRefusal(number, numbers.WORDS[number]) if number else book.raw

    def figures(self, data: Bytes) -> Report:
        """The figures of table files, one after another. A refused file ends the report."""
        data, own = _bytes(data), self._buffers
        number = self._figures(data, len(data), own.counts_at, own.out_at)
        figures = Figures(*own.counts)
        return Report(figures, number, _wide(own.out[0], own.out[1])) if number else Report(figures)

    def figures_step(self, window: Bytes, figures: Figures) -> Union[Stepped, Refusal]:
        """Adds the figures of the table file at the front of a window, which need not be longer than numbers.WINDOW_BYTES."""
        window, own = _bytes(window), self._buffers
        if any(not 0 <= operator.index(count) <= MOST for count in figures):
            raise ValueError("a count is a number from 0 to 2 ** 64 - 1")
        own.counts[:] = figures
        number = self._figures_step(window, len(window), own.counts_at, own.out_at)
        return Refusal(number, numbers.WORDS.get(number, "unknown")) if number else Stepped(Figures(*own.counts), own.out[0])

    def figures_steps(self, at: int, end: int, least: int, counts: ctypes.Array) -> Tuple[int, int]:
        """Steps over the memory from address `at` to `end`, as long as `least` bytes are there. `counts` is an array of 32 COUNT. Returns the
        address of the first byte that no step took, and the number of the refusal there, or 0."""
        step, own, counts_at = self._figures_step, self._buffers, ctypes.addressof(counts)
        out, out_at = own.out, own.out_at
        while end - at >= least:
            number = step(at, end - at, counts_at, out_at)
            if number:
                return at, number
            at += out[0]
        return at, 0


def _identity(path):
    found = os.stat(path)
    return found.st_dev, found.st_ino, found.st_size, found.st_mtime_ns


def checkout():
    """The folder of the checkout that this package is part of, or None if it is installed."""
    root = os.path.dirname(os.path.dirname(os.path.dirname(os.path.abspath(__file__))))
    return root if os.path.isfile(os.path.join(root, "crates.txt")) else None


def candidates():
    """Where a library may be, the best first."""
    root = checkout()
    if root:
        return [os.path.join(root, "target", folder, NAME) for folder in ("native", "unproved")]
    # tools/install puts the package into PREFIX/lib/ducat/ducatmuffin, and the library into PREFIX/lib
    return [os.path.join(os.path.dirname(os.path.dirname(os.path.dirname(os.path.abspath(__file__)))), SONAME)]


def load(path: Optional[str] = None) -> Library:
    """The library at a path, or else the proved one of the checkout, the unproved one, or the installed one.
    Raises LibraryMissing or LibraryMismatch."""
    if path is not None:
        return Library(path)
    places = candidates()
    for place in places:
        if os.path.exists(place):
            return Library(place)
    if checkout():
        raise LibraryMissing(f"the library is not built: there is no {places[0]}; `ducat build` makes it")
    raise LibraryMissing(f"the installation is incomplete: there is no {places[0]}; tools/install PREFIX puts it there")
