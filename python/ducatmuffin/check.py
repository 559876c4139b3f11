"""ducat check: table files and scripts, each with every job (or, with --module, with the module pass alone), in one process or several."""
from . import dialects, inputs, reasons, scripts
from .library import Error, Errors, Refusal
from .numbers import KINDS, NODE_BYTES, WORDS
from .output import PLAIN, Progress, encoded, named, say, tell, visible
from .places import Source
from .table import Piece

ALL = "the whole checker accepts: the module pass, and every job on every node that it fits"
MODULE = "none of 10 to 19 and 50 to 61; 20 to 45 (calls, targets, types) are not looked for with --module"
STEP = "a script's table is made by ducat's own parser, and that step is not proved"
MADE = "made from the script by ducat's own parser; that step is not proved"
SYNTAX_WORD = "syntax:"  # the begin of the message for a script that is not Starlark
TEXT = frozenset(range(32, 127)) | frozenset(range(128, 256)) | frozenset(b"\t\n\r\f")
VERDICTS = ("accepted", "errors", "refused", "unreadable", "no table", "syntax", "no opening", "other dialect")
ACCEPTED, ERRORS, REFUSED, UNREADABLE, NO_TABLE, SYNTAX, NO_OPENING, OTHER = range(8)  # no opening is against.py's
STATUS = (0, 1, 2, 2, 2, 1, 2, 2)
SAYS_THE_STEP = ("json", "sarif")  # the formats that report that the table of a script is not proved
REPEATED = {11: "parameter", 22: "argument"}  # the errors that have an earlier place


class Options:
    """How a run checks and prints. `json` is whether an input's JSON is made, for every `format` but text; `paint` colours the text."""

    def __init__(self, module=False, explain=False, quiet=False, bad_only=False, json=False, many=False, dialect=None, scripts=None, format=None,
                 paint=PLAIN, edition=None):
        self.module, self.explain, self.quiet, self.bad_only = module, explain, quiet, bad_only
        self.format = format or ("json" if json else "text")
        self.json, self.many, self.dialect, self.scripts, self.paint = self.format != "text", many, dialect, scripts, paint
        self.edition = edition  # of scripts; None if none is given, and then edition 1 applies
        self.by_books = False  # the dialect is the books', also of table files


class Answer:
    """The result for one input: its verdict, the number of its errors, and the bytes for standard output and standard error."""

    __slots__ = ("verdict", "errors", "out", "err")

    def __init__(self, verdict, errors=0, out=b"", err=b""):
        self.verdict, self.errors, self.out, self.err = verdict, errors, out, err


class Part:
    """A script of an input, with its source file number; why it is not read or has no table, and where; its syntax error."""

    def __init__(self, file, one):
        self.file, self.one = file, one
        self.data = self.source = self.failed = self.place = self.syntax = None


class Found:
    """What is found in one input. `parts` are its scripts, where it is one or several. `pieces` are its tables: one, or several of a script that is
    larger than a table may be. The numbers of nodes are those that one table of the whole would have."""

    def __init__(self, one):
        self.one, self.verdict, self.nodes, self.errors, self.total, self.pieces = one, ACCEPTED, None, (), 0, ()
        self.parts = [Part(file, script) for file, script in inputs.scripts_of(one)] if one.script else []
        self.refusal = self.why = self.message = self.data = self.dialect = self.table = self.names = self.scripts = self.statements = None
        self.edition, self.effective_edition = None, dialects.EDITION  # what the file has or is given for a script, and what applies

    def hold(self, table, names, targets=(), fstrings=()):
        """One table, and what a script has besides: the targets of comprehensions and the f-strings, as export.Exported has them."""
        self.table, self.names, self.pieces = table, names, [Piece(table, names, targets, fstrings, 0, 0)]

    def place_of(self, node):
        """The table that has a node, and the node's number in it."""
        piece = next((piece for piece in reversed(self.pieces) if piece.first <= node), self.pieces[0])
        return piece, node - piece.shift

    @property
    def failed(self):
        """The scripts without a table."""
        return [part for part in self.parts if part.failed]

    @property
    def syntax(self):
        """The scripts that are not Starlark."""
        return [part for part in self.parts if part.syntax]


def read_parts(found):
    """Reads the scripts of an input, and returns whether all are read."""
    for part in found.parts:
        try:
            part.data = inputs.read_script(part.one)
            part.source = Source(part.one.name, part.data)
        except (OSError, ValueError) as error:
            part.failed = inputs.reason(error)
    if found.failed:
        found.verdict = UNREADABLE
        return False
    found.scripts = scripts.Scripts({part.file: part.source for part in found.parts})
    return True


def parsed(found):
    """Reads the statements of the scripts, and returns whether all are Starlark."""
    from . import export
    found.statements = []
    for part in found.parts:
        try:
            found.statements.append(export.statements_of(part.data))
        except export.ScriptSyntaxError as error:
            part.syntax = error
        except export.ScriptError as error:
            part.failed, part.place = error.message, (error.line, error.column)
    if found.failed or found.syntax:
        found.verdict, found.total = (NO_TABLE, 0) if found.failed else (SYNTAX, len(found.syntax))
        return False
    return True


def in_one_table(found):
    """Makes one table of the statements, and returns whether it is within the limits of a table."""
    from . import export
    try:
        found.hold(*export.join([part.data for part in found.parts], found.statements, found.parts[0].file))
        return True
    except export.ScriptTooLarge:
        return False


def in_tables(found):
    """Makes several tables of the statements, and returns whether each statement fits into one."""
    from . import export
    try:
        found.pieces = export.cut([part.data for part in found.parts], found.statements, found.parts[0].file)
    except export.ScriptTooLarge as error:
        part = found.parts[error.at]
        found.verdict, part.failed, part.place = NO_TABLE, error.message, (error.line, error.column)
        return False
    found.table, found.names = found.pieces[0][:2]
    return True


class Checker:
    """Checks one input after the other."""

    def __init__(self, library, options):
        self.library, self.options = library, options
        self.plain = not (options.explain or options.json or options.scripts or options.by_books or options.paint.on)

    def answer(self, one):
        if self.plain and self.options.module and not one.script:
            return self.module_file(one)
        return self.rendered(self.found(one))

    def module_file(self, one):
        """The shortest way: the module pass on a table file, as the program tablecheck runs it."""
        try:
            data = inputs.read(one, inputs.TABLE_MOST)
        except (OSError, ValueError) as error:
            found = Found(one)
            found.verdict, found.message = UNREADABLE, inputs.reason(error)
            return self.rendered(found)
        answer = self.library.check_file(data)
        if type(answer) is Refusal:
            found = Found(one)
            found.data = data
            self.refused(found, answer)
            return self.rendered(found)
        if self.options.quiet or self.options.bad_only and not answer.total:
            return Answer(ERRORS if answer.total else ACCEPTED, answer.total)
        lines = [f"nodes {answer.nodes}\n"] + [f"{number} {file} {begin} {end}\n" for number, file, begin, end, _ in answer.errors]
        text = "".join(lines) + f"errors {answer.total}\n"
        return Answer(ERRORS if answer.total else ACCEPTED, answer.total, self.header(one) + text.encode())

    # ---- finding

    def found(self, one):
        found = Found(one)
        if one.script:
            self.check_scripts(found)
        else:
            self.check_file(found)
        return found

    def check_scripts(self, found):
        found.dialect = self.options.dialect
        if self.options.edition is not None:
            found.edition = found.effective_edition = self.options.edition
        if read_parts(found) and parsed(found) and (in_one_table(found) or in_tables(found)):
            self.judge(found)

    def check_file(self, found):
        try:
            found.data = inputs.read(found.one, inputs.TABLE_MOST)
        except (OSError, ValueError) as error:
            found.verdict, found.message = UNREADABLE, inputs.reason(error)
            return
        answer = self.library.read(found.data)
        if type(answer) is Refusal:
            self.refused(found, answer)
            return
        found.hold(answer.table, answer.names)
        found.dialect, found.edition, found.effective_edition = answer.dialect, answer.edition, answer.effective_edition
        if self.options.by_books and not self.of_the_books(found):
            return
        self.judge(found)

    def of_the_books(self, found):
        """Whether a table file has the dialect of the books, or none, and then gets it."""
        if found.dialect not in (None, self.options.dialect):
            own, wanted = dialects.name_of(found.dialect), dialects.name_of(self.options.dialect)
            found.verdict, found.message = OTHER, f"its dialect is {own}, and the books give {wanted}: it is not checked"
            return False
        found.dialect = self.options.dialect
        return True

    def judge(self, found):
        answer = self.in_pieces(found, self.library.module, found.dialect) if self.options.module else self.audit(found, found.dialect)
        if type(answer) is Refusal:
            return
        found.nodes, found.total, found.errors = nodes_of(found), answer.total, answer.errors
        if not self.options.module:
            more = [*self.in_comprehensions(found), *self.in_f_strings(found)]
            found.total += len(more)
            found.errors = sorted([*found.errors, *more], key=order)
        found.verdict = ERRORS if found.total else ACCEPTED

    def audit(self, found, dialect):
        """The errors of every job in a dialect, with types read by the input's edition."""
        return self.in_pieces(found, self.library.audit, dialect, found.effective_edition)

    def in_pieces(self, found, job, dialect, *edition):
        """The errors of a job in all tables of an input, or its refusal of one, which is noted."""
        total, errors = 0, []
        for piece in found.pieces:
            answer = job(piece.table, piece.names, dialect or b"", *edition)
            if type(answer) is Refusal:
                found.table, found.names = piece[:2]
                self.refused(found, answer)
                return answer
            if len(found.pieces) == 1 and not piece.shift:
                return answer
            total += answer.total
            errors += [shifted(error, piece.shift) for error in answer.errors]
        return Errors(total, tuple(errors))

    def in_comprehensions(self, found):
        """The errors of the targets of a script's comprehensions, which a table does not mark: the target job on each."""
        answers = [(self.library.target(piece.table, piece.names, node), piece.shift) for piece in found.pieces for node in piece.targets]
        return [Error(answer.number, answer.file, answer.begin, answer.end, answer.node + shift)
                for answer, shift in answers if type(answer) is Refusal]

    def in_f_strings(self, found):
        """62 for each f-string of a script, which a table does not mark, if the writer of format texts reports that the dialect has none."""
        return [Error(62, file_of(piece.table, node), *span_of(piece.table, node), node + piece.shift)
                for piece in found.pieces for node, parts in piece.fstrings
                if self.library.fstring_write(parts, found.dialect).notice]

    def refused(self, found, refusal):
        found.verdict, found.refusal = REFUSED, refusal
        if self.options.quiet:
            return
        if found.table is None:
            found.why = reasons.why_file(self.library, found.data, refusal, len(found.data) < inputs.TABLE_MOST)
        else:
            found.why = reasons.why_table(found.table, found.names, found.dialect, refusal, found.edition)

    def earlier(self, found, error):
        """The span of the first parameter or argument with the repeated name, and its node."""
        if error.number not in REPEATED:
            return None
        for piece, node in self.nodes_of(found, error):
            parent = parent_of(piece.table, node)
            job = self.library.params if error.number == 11 else self.library.call
            answer = job(piece.table, piece.names, parent)
            if type(answer) is Refusal and (answer.number, answer.node) == (error.number, node) and answer.earlier is not None:
                return (answer.earlier + piece.shift, *span_of(piece.table, answer.earlier))
        return None

    def entries(self, found, error):
        """For 19 the number of entries of the list, marks counted; otherwise None."""
        if error.number != reasons.TOO_MANY:
            return None
        places = self.nodes_of(found, error, reasons.LISTS)
        return max((reasons.entries(piece.table, piece.names, node) for piece, node in places), default=None)

    def nodes_of(self, found, error, kinds=(50, 53, 54)):
        """The table of an error and the node in it; the module pass does not list the node, so it is searched by its kind and span."""
        if error.node is not None:
            return [found.place_of(error.node)]
        return [(piece, node) for piece in found.pieces for node, row in enumerate(reasons.Records(piece.table, piece.names).rows)
                if row[0] in kinds and (row[7], row[4], row[5]) == (error.file, error.begin, error.end)]

    # ---- printing

    def rendered(self, found):
        answer = Answer(found.verdict, found.total)
        if found.verdict == ACCEPTED and self.options.bad_only or self.options.quiet:
            answer.err = self.complaint(found) if found.verdict in (UNREADABLE, NO_TABLE, OTHER) else b""
            return answer
        if self.options.json:
            from .formats import rendered
            answer.out = rendered(self.options.format, self.entry(found), found.one.name, found.scripts or scripts.NONE)
            return answer
        answer.out, answer.err = self.header(found.one) + self.lines(found), self.complaint(found)
        return answer

    def header(self, one):
        return encoded(self.options.paint.bold(visible(one.name) + ":") + "\n") if self.options.many else b""

    def complaint(self, found):
        """What goes to standard error: why there is no answer, or why the file is refused."""
        said = []
        if found.verdict in (UNREADABLE, NO_TABLE, OTHER):
            said = complaints(found)
        elif found.verdict == REFUSED and not self.options.explain:
            said = [f"{found.one.name}: {self.refusal(found)}"]
        return b"".join(encoded(visible(f"ducat: {line}")) + b"\n" for line in said)

    def refusal(self, found):
        return f"refused {found.refusal.number}: {found.refusal.words}{found.why or ''}"

    def lines(self, found):
        explain = self.options.explain
        if found.verdict in (UNREADABLE, NO_TABLE, OTHER):
            return b""
        if found.verdict == SYNTAX:
            lines = [line for part in found.syntax for line in syntax_lines(part.source, part.syntax, self.options.paint)]
            return encoded("\n".join([*lines, f"errors {found.total}"]) + "\n")
        if found.verdict == REFUSED:
            paint = self.options.paint.refusal
            if not explain:
                return encoded(paint(f"refused {found.refusal.number}") + "\n")
            hint = hint_of(found)
            return encoded(paint(self.refusal(found)) + "\n" + (f"hint: {hint}\n" if hint else ""))
        lines = [counted(found) + (f", dialect {dialects.told(found.dialect, found.one.script)}{dialects.edition_told(found.edition)}" if explain else "")]
        for error in found.errors:
            lines += self.error(found, error)
        covered = f": {MODULE if self.options.module else ALL}" if explain and not found.total else ""
        lines.append(f"errors {found.total}{covered}")
        return encoded("\n".join(lines) + "\n")

    def scripts_of(self, found):
        """The scripts that places are shown in: the input itself, those that --script names, or those beside a table file."""
        if found.scripts is None:
            found.scripts = self.options.scripts or scripts.NONE
            if not found.scripts and (self.options.explain or self.options.json):
                found.scripts = scripts.beside(found.one.path, found.table)
        return found.scripts

    def error(self, found, error):
        """The lines of an error."""
        number, file, begin, end, node = error
        held, paint = self.scripts_of(found), self.options.paint
        source, note, red = held.of(file), held.note(file), paint.red(str(number))
        if not source and not note and not self.options.explain:
            return [f"{red} {file} {begin} {end}"]
        kind = f", node {node}, kind {kind_words(*found.place_of(node))}" if self.options.explain and node is not None else ""
        many = self.entries(found, error)
        words = WORDS[number] + kind + (f": {reasons.too_many(many)}" if many else "")
        earlier = self.earlier(found, error)
        if source:
            lines = placed(source, begin, end, f"{red} {words}", paint)
            return lines + (placed(source, *earlier[1:], f"note: the earlier {REPEATED[number]}", paint) if earlier else [])
        before = f"; the earlier {REPEATED[number]} is node {earlier[0]}, bytes {earlier[1]} to {earlier[2]}" if earlier else ""
        return [f"{red} {file} {begin} {end}: {words}{before}"] + ([f"    note: {visible(note)}"] if note else [])

    # ---- JSON

    def entry(self, found):
        one = found.one
        entry = {**start(found), "verdict": VERDICTS[found.verdict], **evidence_of(found)}
        if found.verdict in (UNREADABLE, NO_TABLE, OTHER):
            return {**entry, **failed_json(found)}
        if found.verdict == SYNTAX:
            return {**entry, "errors": syntax_errors(found)}
        if one.script:
            entry["table"] = MADE
        entry.update(dialects.both_json(found.dialect, found.edition) if found.table is not None else {"dialect": None, "edition": None})
        if found.verdict == REFUSED:
            hint = hint_of(found)
            entry["refused"] = {"number": found.refusal.number, "words": found.refusal.words, **found.why.in_json(),
                                **({"hint": hint} if hint else {})}
            return entry
        held = self.scripts_of(found)
        if not one.script:
            entry.update(held.in_json())
        if len(found.pieces) > 1:
            entry["tables"] = len(found.pieces)
        entry.update(nodes=found.nodes, errors=[self.in_json(found, error) for error in found.errors])
        return entry

    def in_json(self, found, error):
        number, file, begin, end, node = error
        held = self.scripts_of(found)
        source, note = held.of(file), held.note(file)
        told = {"number": number, "words": WORDS[number], **span_json(source, file, begin, end)}
        if source:
            told["script"] = named(source.path)
        if note:
            told["note"] = visible(note)
        if node is not None:
            piece, at = found.place_of(node)
            told.update(node_json(piece.table, at, node))
        earlier = self.earlier(found, error)
        if earlier:
            told["earlier"] = {"node": earlier[0], **span_json(source, file, *earlier[1:])}
        many = self.entries(found, error)
        return {**told, "entries": many} if many else told


# ---- messages for an input without a table

def is_joined(one):
    return isinstance(one, inputs.Joined)


def start(found):
    """The name and the kind of an input in JSON."""
    one = found.one
    return {**named(one.name), "kind": "joined" if is_joined(one) else "script" if one.script else "table"}


def complaints(found):
    """Why there is no answer, a line for each file. With several scripts also those that are not Starlark."""
    if not found.parts:
        return [f"{found.one.name}: {found.message}"]
    lines = []
    for part in found.failed + found.syntax:
        where = part.place or part.syntax and (part.syntax.line, part.syntax.column)
        lines.append(part.one.name + (f":{where[0]}:{where[1]}" if where else "") + f": {part.failed or part.syntax.message}")
    return lines


def failed_json(found):
    if is_joined(found.one):
        return {"failed": visible("; ".join(complaints(found)))}
    return part_failed(found.parts[0]) if found.parts else {"failed": visible(found.message)}


def part_failed(part):
    """Why a script is not read or has no table, in JSON."""
    if not part.failed:
        return {}
    return {"failed": visible(part.failed), **({"line": part.place[0], "column": part.place[1]} if part.place else {})}


def syntax_errors(found):
    """The errors of scripts that are not Starlark, in JSON."""
    return [{**syntax_json(part.syntax, part.file), "script": named(part.one.name)} for part in found.syntax]


# ---- what the table and the script say

def parent_of(table, node):
    """The node whose child a node is."""
    parent = node - 1
    while parent + size_of(table, parent) <= node:
        parent -= 1
    return parent


def size_of(table, node):
    return int.from_bytes(table[NODE_BYTES * node + 16:NODE_BYTES * node + 18], "little")


def span_of(table, node):
    """The span of a node; for a named argument that of its name, as in refusal 22."""
    kind, _, length, _, begin, end, _, _, position = reasons.RECORD.unpack_from(table, NODE_BYTES * node)
    return (position, position + length) if kind == reasons.NAMED_ARGUMENT else (begin, end)


def file_of(table, node):
    """The source file number of a node."""
    return reasons.RECORD.unpack_from(table, NODE_BYTES * node)[7]


def kind_words(piece, node):
    kind = piece.table[NODE_BYTES * node]
    return f"{kind} {KINDS[kind][0]}"


def node_json(table, node, number=None):
    """A node and its kind in JSON; `number` is its number in the table of the whole, if that is another one."""
    kind = table[NODE_BYTES * node]
    return {"node": node if number is None else number, "kind": {"number": kind, "name": KINDS[kind][0]}}


def shifted(error, shift):
    """An error with the node's number of the whole."""
    return error if error.node is None else error._replace(node=error.node + shift)


def nodes_of(found):
    """The number of nodes that one table of the whole has."""
    last = found.pieces[-1]
    return len(last.table) // NODE_BYTES + last.shift


def counted(found):
    return f"nodes {found.nodes}" + (f", in {len(found.pieces)} tables" if len(found.pieces) > 1 else "")


def order(error):
    """Errors are sorted by this, except with --module."""
    return error.file, error.begin, error.end, error.number


def span_json(source, file, begin, end):
    told = {"file": file, "begin": begin, "end": end}
    if source and not source.is_beyond(begin, end):
        told["line"], told["column"] = source.line_column(begin)
    return told


def evidence(data, script):
    """What identifies the bytes that were read. Only the first bytes are read of a table file that is longer than allowed."""
    from .output import digest
    return {"sha256": digest(data), "bytes": len(data), "whole": script or len(data) < inputs.TABLE_MOST}


def evidence_of(found):
    """The evidence of an input; for joined scripts that of each, with its source file number."""
    if is_joined(found.one):
        return {"scripts": [{"file": part.file, **named(part.one.name), **(evidence(part.data, True) if part.data is not None else {}),
                             **part_failed(part)} for part in found.parts]}
    data = found.parts[0].data if found.parts else found.data
    return evidence(data, found.one.script) if data is not None else {}


def placed(source, begin, end, words, paint=PLAIN):
    """A place in a script, with its line and carets."""
    path = visible(source.path)
    if source.is_beyond(begin, end):
        return [f"{paint.bold(path + ':')} {words}", f"    (bytes {begin} to {end}, beyond the script's {len(source.bytes)})"]
    line, column = source.line_column(begin)
    text, carets = source.drawn(begin, end)
    return [f"{paint.bold(f'{path}:{line}:{column}:')} {words}", f"    {text}".rstrip(), paint.red(f"    {carets}".rstrip())]


def syntax_lines(source, error, paint=PLAIN):
    """Why a script is not Starlark, as an error of it. At the end of a script there is nothing to draw."""
    words = paint.red(SYNTAX_WORD) + error.message[len(SYNTAX_WORD):]
    if error.begin < error.end:
        return placed(source, error.begin, error.end, words, paint)
    return [f"{paint.bold(f'{visible(source.path)}:{error.line}:{error.column}:')} {words}"]


def syntax_json(error, file):
    return {"number": None, "words": error.message, "file": file, "begin": error.begin, "end": error.end, "line": error.line, "column": error.column}


def hint_of(found):
    """What a refused file seems to be, if it is not a table file at all."""
    data = found.data
    if found.refusal.number < 70 or found.one.script:
        return None
    if data and TEXT.issuperset(data):
        return "this looks like a script; `ducat check` takes it under a name that ends in .star, with --as-script, or with --stdin-filename"
    if len(data) % reasons.BLOCK and len(data) < inputs.TABLE_MOST:
        return f"its {len(data)} bytes are not a multiple of 512, so this is not a whole table file"
    return None


# ---- a run

class Totals:
    """What a run has found."""

    def __init__(self):
        self.files = self.faulty = self.refused = self.unread = self.errors = self.status = 0

    def add(self, answer):
        self.files += 1
        self.errors += answer.errors
        self.faulty += answer.verdict in (ERRORS, SYNTAX)
        self.refused += answer.verdict == REFUSED
        self.unread += answer.verdict in (UNREADABLE, NO_TABLE, OTHER)
        self.status = max(self.status, STATUS[answer.verdict])

    def line(self):
        return f"files {self.files}, with errors {self.faulty}, refused {self.refused}, not read {self.unread}, errors {self.errors}"

    def in_json(self):
        return {"files": self.files, "with_errors": self.faulty, "refused": self.refused, "not_read": self.unread, "errors": self.errors}


def run(library, options, found, jobs, out, front, checker=None, totals=None):
    """Checks all inputs and prints the results. Returns the exit status. `front` is what JSON has first. `checker` and `totals` replace
    those of a plain check."""
    from .workers import answers
    checker, totals = checker or Checker(library, options), totals or Totals()
    if any(one.script for one in found) and options.format not in SAYS_THE_STEP and not options.quiet:
        say(STEP)
    report = None
    if options.json and not options.quiet:
        from .formats import report as report_in
        report = report_in(options.format, out, front)
    progress = Progress(len(found), not options.quiet)
    out.before = progress.clear
    given = answers(checker, found, jobs)
    try:
        for answer in given:
            totals.add(answer)
            if answer.out:
                report.add(answer.out) if report else out.write(answer.out)
            if answer.err:
                progress.clear()
                out.flush()
                tell(answer.err)
            if progress.shown:
                progress.step(totals.files, totals.faulty + totals.refused + totals.unread)
    finally:
        given.close()  # ends the processes of --jobs
        progress.clear()
    if report:
        report.end(totals=totals.in_json(), status=totals.status)
    elif options.many and not options.quiet:
        out.lines([totals.line()])
    return totals.status
