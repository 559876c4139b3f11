"""ducat table SCRIPT... --compare FILE: whether a table file is the table of scripts, and the first record that differs.

A record differs in its kind, detail, name, source file number, span or the place of its name. Where its name's bytes are in the file does not count.
A size differs where there are other nodes below, so sizes are compared last.
"""
from . import dialects, inputs, reasons, table
from .check import evidence
from .library import Refusal
from .numbers import KINDS
from .output import Failed, named, shown, visible
from .places import Source

FIELDS = ("kind", "detail", "name", "file", "begin", "end", "name_position")


class Side:
    """One of the two tables."""

    def __init__(self, records, names, dialect, edition):
        self.records, self.names, self.dialect, self.edition = table.decode(records), names, dialect, edition

    def fields(self, node):
        record = self.records[node]
        name = table.name_of(record, self.names)
        return (record.kind, record.detail, name if len(name) == record.name_length else None, record.file, record.begin, record.end, record.source)


class Difference:
    """What differs: the node, if there is one, and for each field the two values."""

    def __init__(self, node, **fields):
        self.node, self.fields = node, fields

    def in_json(self):
        told = {} if self.node is None else {"node": self.node}
        return {**told, "fields": {name: {"script": in_json(name, ours), "file": in_json(name, theirs)} for name, (ours, theirs) in self.fields.items()}}


def difference(ours, theirs, dialect, edition):
    """The first difference of two tables, or None. The dialect is compared where `dialect` is true, the edition where `edition` is."""
    both = min(len(ours.records), len(theirs.records))
    for node in range(both):
        pairs = zip(FIELDS, ours.fields(node), theirs.fields(node))
        differing = {name: (a, b) for name, a, b in pairs if a != b}
        if differing:
            return Difference(node, **differing)
    if len(ours.records) != len(theirs.records):
        return Difference(both, nodes=(len(ours.records), len(theirs.records)))
    for node in range(both):
        sizes = ours.records[node].size, theirs.records[node].size
        if sizes[0] != sizes[1]:
            return Difference(node, size=sizes)
    if dialect and ours.dialect != theirs.dialect:
        return Difference(None, dialect=(ours.dialect, theirs.dialect))
    if edition and ours.edition != theirs.edition:
        return Difference(None, edition=(ours.edition, theirs.edition))
    return None


def words_of(name, value):
    """A value of a field in words."""
    if name == "kind":
        return f"{value} {KINDS[value][0]}" if value in KINDS else str(value)
    if name == "name":
        return "beyond the name bytes" if value is None else shown(value) or "none"
    if name == "dialect":
        return dialects.name_of(value) if value else "none"
    return "none" if value is None else str(int(value))


def in_json(name, value):
    if name == "name":
        return None if value is None else shown(value)
    if name == "edition":
        return dialects.edition_json(value)
    return dialects.in_json(value) if name == "dialect" else value


def line_of(found, ours, sources):
    """The difference in a line: the place in the script, if there is one, and the values of the script's table and of the file's."""
    said = "; ".join(f"{name.replace('_', ' ')} {words_of(name, a)} and {words_of(name, b)}" for name, (a, b) in found.fields.items())
    if found.node is None or "nodes" in found.fields:
        return f"differs, {said}"
    record = ours.records[found.node]
    source = sources.get(record.file)
    where = ", {}:{}:{}".format(visible(source.path), *source.line_column(record.begin)) if source else ""
    return f"differs, node {found.node}{where}: {said}"


def read(library, options):
    """The table of FILE, its evidence, and the refusal if its blocks are bad. A table that is not sound is compared too."""
    one = inputs.standard_input() if options.compare == "-" else inputs.Input(options.compare)
    try:
        data = inputs.read(one, inputs.TABLE_MOST)
    except (OSError, ValueError) as error:
        raise Failed(f"{options.compare}: {inputs.reason(error)}") from None
    told, answer = {**named(options.compare), **evidence(data, False)}, library.read(data)
    if type(answer) is not Refusal:
        return Side(answer.table, answer.names, answer.dialect, answer.edition), told, None
    if answer.number in (3, 4, 5):
        return Side(*table.parts_of(data)), told, None
    return None, told, (answer, reasons.why_file(library, data, answer, len(data) < inputs.TABLE_MOST))


def run(library, options, out, front, datas, made, entries):
    """Compares, and returns the exit status: 0 the tables are the same, 1 they differ, 2 FILE is refused."""
    from . import write
    theirs, told, refused = read(library, options)
    if refused:
        return write.refused(options, out, front, entries, *refused)
    ours = Side(*made, options.dialect, options.edition)
    found = difference(ours, theirs, options.given or options.dialect is not None, options.edition is not None)
    sources = {file: Source(one.name, data) for file, (one, data) in enumerate(zip(options.inputs, datas), options.number)}
    if options.json:
        more = {"difference": found.in_json()} if found else {"nodes": len(ours.records)}
        write.finish(out, front, entries, verdict="differs" if found else "same", compared=told, **more, status=int(bool(found)))
    else:
        out.lines([line_of(found, ours, sources) if found else f"same {len(ours.records)}"])
    return int(bool(found))
