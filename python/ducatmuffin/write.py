"""ducat write: a table file from the raw bytes of a table, of its names, a dialect and an edition."""
from . import dialects, files, inputs, reasons
from .library import Refusal
from .output import Failed, Report, digest, dumps, named, say


def content(one, most):
    try:
        return inputs.read(one, most)
    except (OSError, ValueError) as error:
        raise Failed(f"{one.name}: {inputs.reason(error)}") from None


def run(library, options, out, front):
    """Writes the file. Returns the exit status: 0 it is written, 2 it is refused."""
    table, names = content(options.table, inputs.RECORDS_MOST), content(options.names, inputs.NAMES_MOST)
    answer = library.write(table, names, options.dialect or b"", options.edition)
    entries = [{**named(one.name), "kind": kind, "sha256": digest(data), "bytes": len(data), "whole": len(data) < most}
               for one, kind, data, most in ((options.table, "records", table, inputs.RECORDS_MOST),
                                             (options.names, "names", names, inputs.NAMES_MOST))] if options.json else []
    if type(answer) is Refusal:
        return refused(options, out, front, entries, answer, reasons.why_table(table, names, options.dialect, answer, options.edition))
    return written(options, out, front, entries, answer.data, dialects.both_json(options.dialect, options.edition))


def refused(options, out, front, entries, refusal, why):
    if options.json:
        told = {"number": refusal.number, "words": refusal.words, **why.in_json()}
        finish(out, front, entries, verdict="refused", refused=told, status=2)
    else:
        out.lines([f"refused {refusal.number}"])
        out.flush()
        say(f"refused {refusal.number}: {refusal.words}{why}")
    return 2


def written(options, out, front, entries, data, more):
    """Writes the file that was made, and reports it."""
    try:
        files.write(options.out, data)
    except OSError as error:
        raise Failed(f"{options.out}: {inputs.reason(error)}") from None
    if options.json:
        finish(out, front, entries, verdict="written", **more, output={**named(options.out), "sha256": digest(data), "bytes": len(data)}, status=0)
    else:
        out.lines([f"written {len(data)}"])
    return 0


def finish(out, front, entries, **last):
    report = Report(out, front)
    for entry in entries:
        report.add(dumps(entry))
    report.end(**last)
