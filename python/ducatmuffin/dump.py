"""ducat dump: the text form of a table file, or of a script's table. `ducat table` makes the same bytes of it. The f-strings of a script are comments."""
import json

from . import dialects, files, inputs, reasons, table
from .check import MADE, STEP, evidence
from .library import Refusal
from .numbers import KINDS
from .output import Failed, Report, dumps, named, say, shown


def run(library, options, out, front):
    """Prints the text, or writes it. Returns the exit status: 0, or 2 if the blocks of the file are refused."""
    one = options.input
    try:
        data = inputs.read_script(one) if one.script else inputs.read(one, inputs.TABLE_MOST)
    except (OSError, ValueError) as error:
        raise Failed(f"{one.name}: {inputs.reason(error)}") from None
    refusal, why, parts = (of_script if one.script else of_file)(library, options, data)
    if parts is None:
        return refused(options, out, front, data, refusal, why)
    if refusal:
        say(f"{one.name}: this table is not sound: {refusal.number} {refusal.words}{why}")
    return printed(options, out, front, data, *parts)


def of_file(library, options, data):
    """A table that is not sound is shown too; a file whose blocks are bad is not."""
    answer = library.read(data)
    if type(answer) is not Refusal:
        return None, None, (answer.table, answer.names, answer.dialect, answer.edition)
    why = reasons.why_file(library, data, answer, len(data) < inputs.TABLE_MOST)
    return answer, why, table.parts_of(data) if answer.number in (3, 4, 5) else None


def of_script(library, options, data):
    from . import export
    from .tabling import no_table
    if not options.json:
        say(STEP)
    try:
        made = export.exported(data)
        texts = [(node, library.fstring_write(parts, None).data.decode()) for node, parts in made.fstrings]
        return None, None, (made.table, made.names, options.dialect, None, texts)
    except export.ScriptError as error:
        raise no_table(options.input, error) from None


def refused(options, out, front, data, refusal, why):
    one = options.input
    if options.json:
        report = Report(out, front)
        report.add(dumps({**start(one, data), "verdict": "refused",
                          "refused": {"number": refusal.number, "words": refusal.words, **why.in_json()}}))
        report.end(status=2)
    else:
        out.lines([f"refused {refusal.number}"])
        out.flush()
        say(f"{one.name}: refused {refusal.number}: {refusal.words}{why}")
    return 2


def start(one, data):
    made = {"table": MADE} if one.script else {}
    return {**named(one.name), "kind": "script" if one.script else "table", **evidence(data, one.script), **made}


def comments(fstrings):
    """A line for each f-string, with its format text, which a table does not have."""
    return "".join(f"# node {node}, the format text of an f-string: {json.dumps(text)}\n" for node, text in fstrings)


def printed(options, out, front, data, records, names, dialect, edition, fstrings=()):
    try:
        text = comments(fstrings) + table.print_text(records, names, dialect, edition)
    except table.TextError as error:
        raise Failed(f"{options.input.name}: {error}") from None
    if options.out:
        try:
            files.write(options.out, text.encode())
        except OSError as error:
            raise Failed(f"{options.out}: {inputs.reason(error)}") from None
    if options.json:
        report = Report(out, front)
        told = {"f_strings": [{"node": node, "format": text} for node, text in fstrings]} if options.input.script else {}
        report.add(dumps({**start(options.input, data), "verdict": "dumped", **dialects.both_json(dialect, edition), "text": text, **told,
                          "records": [record_json(node, record, names) for node, record in enumerate(table.decode(records))]}))
        report.end(status=0)
    elif not options.out:
        out.write(text.encode())
    return 0


def record_json(node, record, names):
    name = KINDS[record.kind][0] if record.kind in KINDS else None
    told = {"node": node, "kind": {"number": record.kind, "name": name}, "detail": record.detail, "file": record.file, "begin": record.begin,
            "end": record.end, "size": record.size}
    if record.name_length:
        told.update(name=shown(table.name_of(record, names)), name_start=record.name_start, name_length=record.name_length)
    if record.source:
        told["name_position"] = record.source
    return told
