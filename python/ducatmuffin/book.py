"""ducat book: looks up, adds and removes entries of a zone book and a line book, lists them, and makes an empty book.

A change takes a lock on a file beside the book, opens the book only then, and replaces the whole book. So two commands at once
never lose an entry, and a command that is ended leaves the old book or the new one.
"""
import os
import stat
import struct

from . import dialects, files, inputs
from .against import SWITCHES
from .library import BookRefusal
from .output import Failed, digest, named, say, visible

BLOCK, CONTENT, ENTRY, PLACES, MOST_BLOCKS = 512, 504, 24, 21, 100
MOST = MOST_BLOCKS * BLOCK + 1  # one byte more than the largest book
BOOKS = ("zone", "line")
UNUSED = b""  # the book that a change does not read
TYPES = ("disabled", "parsed only", "enabled")


class Entry:
    """An entry: its place from 0, its zone and setting, and its nine dialect bytes."""

    def __init__(self, place, data):
        self.place = place
        self.zone, self.setting = struct.unpack_from("<HI", data)
        self.dialect = data[6:15]

    @property
    def digits(self):
        return digits(self.dialect)


def digits(dialect):
    """Nine bytes as --dialect takes them."""
    return "".join(str(byte) for byte in dialect)


def place_at(place):
    return BLOCK * (place // PLACES) + 4 + ENTRY * (place % PLACES)


def entries(book):
    """The entries of a book that passes, in the order of their places."""
    for place in range(PLACES * (len(book) // BLOCK)):
        data = book[place_at(place):place_at(place) + ENTRY]
        if any(data):
            yield Entry(place, data)


# ---- why a book is refused

def unsound(book, line):
    """What is wrong with a book that 95 refuses: its length, a block or an entry; None if nothing is found."""
    if len(book) % BLOCK or not 1 <= len(book) // BLOCK <= MOST_BLOCKS:
        more = " or more" if len(book) >= MOST else ""
        return f"a book has 1 to {MOST_BLOCKS} blocks of {BLOCK} bytes, and this one has {len(book):,} bytes{more}"
    for number in range(len(book) // BLOCK):
        wrong = bad_block(book[BLOCK * number:BLOCK * (number + 1)], number)
        if wrong:
            return f"block {number}: {wrong}"
    for place in range(PLACES * (len(book) // BLOCK)):
        wrong = bad_entry(book[place_at(place):place_at(place) + ENTRY], line)
        if wrong:
            return f"place {place} (block {place // PLACES}): {wrong}"
    return None


def bad_block(block, number):
    said, used = struct.unpack_from("<HH", block)
    total, = struct.unpack_from("<I", block, BLOCK - 4)
    found = sum((at + 1) * byte for at, byte in enumerate(block[:BLOCK - 4]))
    if total != found:
        return f"its sum is {total}, and its bytes give {found}"
    if said != number:
        return f"its number is {said}"
    return f"it uses {used} bytes, and not {CONTENT}" if used != CONTENT else None


def bad_entry(data, line):
    if not any(data):
        return None
    entry = Entry(0, data)
    if not entry.setting:
        return "its setting is 0"
    if any(byte > (2 if at == 5 else 1) for at, byte in enumerate(entry.dialect)):
        return f"{entry.dialect.hex(' ')} are not nine dialect bytes"
    if any(data[15:]):
        return "its last nine bytes are not zero"
    if bool(entry.zone) == line:
        return f"its zone is {entry.zone}, in the {BOOKS[line]} book"
    return None


def twice(book):
    """The two places that have the same zone and setting."""
    seen = {}
    for entry in entries(book):
        key = entry.zone, entry.setting
        if key in seen:
            return f"zone {entry.zone} and setting {entry.setting} are at place {seen[key]} and at place {entry.place}"
        seen[key] = entry.place
    return None


class Asked:
    """The request of a command, so that a refusal can be explained."""

    def __init__(self, books, names, entry=None):
        self.books, self.names, self.entry = books, names, entry

    def wrong(self, refusal):
        """What is wrong with the book that a refusal names."""
        book, line = self.books[refusal.book], refusal.book == 1
        return (unsound(book, line) if refusal.number == 95 else twice(book)) or self.entry

    def why(self, refusal):
        if refusal.book is None:
            return ""
        return f", {BOOKS[refusal.book]} book {visible(self.names[refusal.book])}: {self.wrong(refusal)}"


def refused(out, refusal, asked, explain):
    """Prints a refusal. Returns the exit status."""
    said = f"refused {refusal.number}: {refusal.words}{asked.why(refusal)}"
    if explain:
        out.lines([said])
    else:
        out.lines([f"refused {refusal.number}"])
        out.flush()
        say(said)
    return status_of(refusal)


def status_of(refusal):
    return 1 if refusal.number in (97, 98) else 2


# ---- the commands

def read(name):
    one = inputs.standard_input() if name == "-" else inputs.Input(name)
    try:
        return inputs.read(one, MOST)
    except OSError as error:
        raise Failed(f"{name}: {inputs.reason(error)}") from None


def switches(dialect):
    """The nine switches in words."""
    words = [f"{name} {TYPES[byte] if name == 'enable_types' else ('no', 'yes')[byte]}" for name, byte in zip(SWITCHES, dialect)]
    return ", ".join(words)


def lookup(library, options, out):
    names = (options.zone_book, options.line_book)
    books = [read(name) for name in names]
    found = library.book_lookup(*books, options.zone, options.setting)
    if type(found) is BookRefusal:
        return refused(out, found, Asked(books, names), options.explain)
    out.lines([digits(found.dialect)])
    if options.explain:
        entry = Entry(0, books[found.book][found.at - 6:found.at + 18])
        out.lines([f"{BOOKS[found.book]} book {visible(names[found.book])}, zone {entry.zone}, setting {entry.setting}",
                   f"dialect {dialects.name_of(found.dialect)}: {switches(found.dialect)}"])
    return 0


def change(library, options, out, call, entry=None):
    """Changes the book of an entry in place, under a lock; the other book is not read."""
    line = int(options.zone == 0)
    name = (options.zone_book, options.line_book)[line]
    if name == "-":
        raise Failed("a book that is changed is a file, not standard input")
    path = os.path.realpath(name)
    with Lock(path, name):
        data = read(regular(path, name))
        books = [UNUSED, UNUSED]
        books[line] = data
        answer = call(*books)
        if type(answer) is BookRefusal:
            return refused(out, answer, Asked(books, (name, name), entry), options.explain)
        try:
            files.write(path, (answer.zone_book, answer.line_book)[answer.book])
        except OSError as error:
            raise Failed(f"{name}: {inputs.reason(error)}") from None
    out.lines([f"{BOOKS[answer.book]} {answer.place}"])
    return 0


def regular(path, name):
    try:
        if stat.S_ISREG(os.stat(path).st_mode):
            return path
    except OSError as error:
        raise Failed(f"{name}: {inputs.reason(error)}") from None
    raise Failed(f"{name}: a book that is changed must be a regular file")


class Lock:
    """The right to change a book, from a file beside it. That file is not removed: another command may wait for it."""

    def __init__(self, path, name):
        self.path, self.name, self.descriptor = f"{path}.lock", name, None

    def __enter__(self):
        import fcntl
        if not os.path.isdir(os.path.dirname(self.path)):
            raise Failed(f"{self.name}: there is no such folder")
        try:
            self.descriptor = os.open(self.path, os.O_RDWR | os.O_CREAT | os.O_CLOEXEC | os.O_NOFOLLOW, 0o666)
            fcntl.flock(self.descriptor, fcntl.LOCK_EX)
        except OSError as error:
            raise Failed(f"{self.path}: {inputs.reason(error)}") from None

    def __exit__(self, *_):
        os.close(self.descriptor)


def add(library, options, out):
    unsound_entry = f"the entry, zone {options.zone}, setting {options.setting}, dialect {digits(options.dialect)}"
    return change(library, options, out, lambda *books: library.book_add(*books, options.zone, options.setting, options.dialect), unsound_entry)


def remove(library, options, out):
    return change(library, options, out, lambda *books: library.book_remove(*books, options.zone, options.setting))


def judged(library, book, line):
    """The library's answer for one book: None, or the refusal."""
    other = library.book_blank(1)
    answer = library.book_lookup(*((other, book) if line else (book, other)), 0, 0)
    return answer if answer.number in (95, 96) else None


def list_(library, options, out):
    """The entries of a book; it is read as a line book if it is valid as one and not as a zone book."""
    book = read(options.book)
    line = judged(library, book, False) is not None and judged(library, book, True) is None
    refusal = judged(library, book, line)
    if refusal is not None:
        return refused(out, refusal, Asked([book, book], (options.book, options.book)), options.explain)
    out.lines(f"place {entry.place}, zone {entry.zone}, setting {entry.setting}, dialect {entry.digits}" for entry in entries(book))
    return 0


def show(library, options, out):
    """A grid: a row for each zone of the zone book and one for all others, a column for each setting at which an answer may change."""
    names = (options.zone_book, options.line_book)
    books = [read(name) for name in names]
    first = library.book_lookup(*books, 0, 0)
    if first.number != 97:
        return refused(out, first, Asked(books, names), options.explain)
    own, line = {}, set()
    for entry in entries(books[0]):
        own.setdefault(entry.zone, set()).add(entry.setting)
    line.update(entry.setting for entry in entries(books[1]))
    columns = sorted(line.union(*own.values()))
    rows = [(f"zone {zone}", own[zone]) for zone in sorted(own)] + [("other zones", set())]
    width = max(len(name) for name, _ in rows)
    out.lines([" ".join(["setting".ljust(width), *map(str, columns)])])
    for name, settings in rows:
        cells = [cell(settings, line, asked).ljust(len(str(asked))) for asked in columns]
        out.lines([" ".join([name.ljust(width), *cells]).rstrip()])
    out.lines(["Z the zone book answers, L the line book, . neither (97); a setting between two columns is answered as the left one"])
    return 0


def cell(own, line, asked):
    return "Z" if own and min(own) <= asked else "L" if line and min(line) <= asked else "."


def new(library, options, out):
    book = library.book_blank(options.blocks)
    try:
        descriptor = os.open(options.out, os.O_WRONLY | os.O_CREAT | os.O_EXCL | os.O_CLOEXEC, 0o666)
    except FileExistsError:
        raise Failed(f"{options.out}: it exists, and a book is not overwritten") from None
    except OSError as error:
        raise Failed(f"{options.out}: {inputs.reason(error)}") from None
    try:
        files.write_to(descriptor, book, flush=True)
        files.flush_folder(os.path.dirname(os.path.abspath(options.out)))
    except OSError as error:
        os.unlink(options.out)
        raise Failed(f"{options.out}: {inputs.reason(error)}") from None
    out.lines([f"written {len(book)}"])
    return 0


RUN = {"lookup": lookup, "add": add, "remove": remove, "list": list_, "show": show, "new": new}


# ---- the words of the command line

def number_up_to(most):
    def parsed(text):
        import argparse
        if not (text.isascii() and text.isdigit()) or len(text) > 12 or int(text) > most:
            raise argparse.ArgumentTypeError(f"a number from 0 to {most} is needed, not {visible(text)}")
        return int(text)
    return parsed


ZONE, SETTING = number_up_to(65535), number_up_to(2 ** 32 - 1)


def blocks(text):
    import argparse
    if not (text.isascii() and text.isdigit()) or not 1 <= int(text[:6]) <= MOST_BLOCKS:
        raise argparse.ArgumentTypeError(f"a book has 1 to {MOST_BLOCKS} blocks")
    return int(text)


ABOUT = {
    "lookup": "Prints the nine digits of the dialect that a zone has at a setting, as --dialect takes them: those of the zone's entry with the\n"
              "highest setting not above SETTING or, where the zone book has no fitting entry, of the line book's. Zone 0 is the line's.",
    "add": "Adds an entry to its book, zone 0 to the line book, at the first empty place, and prints `zone PLACE` or `line PLACE`. The book is\n"
           "changed in place; the other one is not read.",
    "remove": "Removes the entry of exactly this zone and setting from its book, and prints `zone PLACE` or `line PLACE`. The book is changed in\n"
              "place; the other one is not read.",
    "list": "Prints a line for each entry of a book, in the order of its places.",
    "show": "Prints a grid of zones by setting that shows which book answers.",
    "new": "Makes a book of empty places.",
}
MORE = ("A refusal prints `refused NUMBER`:\n"
        "  95  a book has an invalid length, block or entry, or the entry to be added is invalid\n"
        "  96  a book has two entries for the same zone and setting, or the entry to be added is already there\n"
        "  97  neither book has a matching entry, or there is none to remove\n"
        "  98  the book has no empty place\n"
        "\n"
        "Exit status: 0; 1 for 97 and 98; 2 for 95 and 96, a file that cannot be read or written, wrong usage, or no library.")


def parser_of(command, make_parser):
    parser = make_parser(f"book {command}", ABOUT[command], MORE)
    if command == "list":
        parser.add_argument("book", metavar="BOOK")
    elif command == "new":
        parser.add_argument("blocks", metavar="BLOCKS", type=blocks)
        parser.add_argument("-o", "--output", dest="out", metavar="BOOK", required=True, help="the book that is made; it must not be there")
    else:
        parser.add_argument("zone_book", metavar="ZONEBOOK")
        parser.add_argument("line_book", metavar="LINEBOOK")
    if command in ("lookup", "add", "remove"):
        parser.add_argument("zone", metavar="ZONE", type=ZONE)
        parser.add_argument("setting", metavar="SETTING", type=SETTING)
    if command == "add":
        parser.add_argument("dialect", metavar="DIALECT", help="standard, extended, all or nine digits")
    if command != "new":
        parser.add_argument("--explain", action="store_true", help="say what is found or why it is refused, in words")
    return parser


# ---- ducat check --books

class ForCheck:
    """The books of a check: the dialect that they give for a zone and a setting, or why they give none."""

    def __init__(self, library, options):
        self.zone, self.setting = options.zone, options.setting
        self.asked = Asked([read(name) for name in options.books], options.books)
        found = library.book_lookup(*self.asked.books, self.zone, self.setting)
        self.refusal, self.dialect = (found, None) if type(found) is BookRefusal else (None, found.dialect)

    def book_json(self, book):
        data = self.asked.books[book]
        return {**named(self.asked.names[book]), "sha256": digest(data), "bytes": len(data), "whole": len(data) < MOST}

    def in_json(self):
        return {"zone": self.zone, "setting": self.setting, "zone_book": self.book_json(0), "line_book": self.book_json(1)}

    def refused(self, options, out, front):
        """Prints why nothing is checked. Returns the exit status. 97 is reported for the line book, which is checked last."""
        refusal, status = self.refusal, status_of(self.refusal)
        if options.quiet:
            say(f"refused {refusal.number}: {refusal.words}{self.asked.why(refusal)}")
        elif front is None:
            refused(out, refusal, self.asked, options.explain)
        else:
            from . import check, formats, scripts
            book = 1 if refusal.book is None else refusal.book
            told = {"number": refusal.number, "words": refusal.words}
            if refusal.book is not None:
                told.update(book=BOOKS[book], reason=visible(self.asked.wrong(refusal)))
            entry = {**self.book_json(book), "kind": "book", "verdict": "refused", "refused": told}
            report = formats.report(options.format, out, front)
            report.add(formats.rendered(options.format, entry, self.asked.names[book], scripts.NONE))
            report.end(totals=check.Totals().in_json(), status=status)
        return status
