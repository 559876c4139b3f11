"""ducat rescue: writes a sound table file from what can be kept of a damaged one."""
from . import files, inputs, reasons
from .bind import HEAD, LONGEST
from .library import Refusal
from .numbers import KIND, KINDS
from .output import Failed, Report, dumps, named, say, shown, visible
from .scripts import NONE
from .table import children, decode

WORDS = {
    "statements": "statements of the outermost list that are kept, from the first on",
    "nodes": "nodes that are kept",
    "dropped": "nodes that the header counts and that are lost",
    "bytes": "bytes after the last block that the header counts, which are left out"}
LINES = (("statements", "statements"), ("nodes", "nodes"), ("dropped", "dropped"), ("bytes", "bytes_after"))


class Statement:
    """A statement of the outermost list, by its source file number and its span."""

    def __init__(self, node, record):
        self.node, self.kind, self.file, self.begin, self.end = node, record.kind, record.file, record.begin, record.end

    def place(self):
        return self.file, self.begin, self.end, self.kind

    def text(self, scripts):
        """Its name and line if there is a script, otherwise its kind and span."""
        source = scripts.of(self.file)
        if not source or source.is_beyond(self.begin, self.end):
            return f"{KINDS[self.kind][0]}, node {self.node}, file {self.file}, bytes {self.begin} to {self.end}"
        line, column = source.line_column(self.begin)
        return f"{self.name(source)}, {visible(source.path)}:{line}:{column}"

    def name(self, source):
        head = HEAD.match(source.bytes, self.begin, self.end)
        if head:
            return f"def {shown(head[1])}"
        first, more, _ = source.bytes[self.begin:self.end].partition(b"\n")
        text = shown(first)
        return text[:LONGEST - 1] + "…" if more or len(text) > LONGEST else text

    def in_json(self, scripts):
        told = {"kind": {"number": self.kind, "name": KINDS[self.kind][0]}, "file": self.file, "begin": self.begin, "end": self.end, "node": self.node}
        source = scripts.of(self.file)
        if source and not source.is_beyond(self.begin, self.end):
            told["name"] = self.name(source)
            told["line"], told["column"] = source.line_column(self.begin)
        return told


def statements(table):
    """The statements of the outermost list; the root itself if it is not a list."""
    records = decode(table)
    nodes = children(records, 0) if records[0].kind == KIND["Statements"] else [0]
    return [Statement(node, records[node]) for node in nodes]


def in_scripts(scripts, kept):
    """All statements of the scripts in the order of their numbers, if they can be read and begin with those that are kept; None otherwise. One script
    of all numbers has the number of the first statement."""
    from . import export
    held = [(kept[0].file if kept else 1, scripts.every)] if scripts.every else sorted(scripts.by_file.items())
    try:
        table = export.joined_export([source.bytes for _, source in held]).table
    except export.ScriptError:
        return None
    found = statements(table)
    for one in found:
        one.file = held[one.file - 1][0]
    return found if [one.place() for one in found[:len(kept)]] == [one.place() for one in kept] else None


class Told:
    """Which statements are kept and which are lost."""

    def __init__(self, library, rescued, scripts):
        self.rescued, self.scripts = rescued, scripts or NONE
        self.kept = statements(library.read(rescued.data).table)
        self.all = in_scripts(scripts, self.kept) if scripts else None

    @property
    def lost(self):
        """The lost statements by the scripts; None if the scripts do not show them."""
        return None if self.all is None else self.all[len(self.kept):]

    def lines(self):
        of = f" of {len(self.all)}" if self.all is not None else ""
        lines = [f"kept {at}{of}: {one.text(self.scripts)}" for at, one in enumerate(self.kept, 1)]
        if self.lost is not None and self.rescued.dropped:
            return lines + [f"lost {at}{of}: {one.text(self.scripts)}" for at, one in enumerate(self.lost, len(self.kept) + 1)]
        if self.rescued.dropped:
            after = f"after byte {self.kept[-1].end} of file {self.kept[-1].file}" if self.kept else "all"
            lines.append(f"lost: {self.rescued.dropped} nodes, {after}")
        return lines

    def in_json(self):
        lost = self.lost if self.rescued.dropped else []
        return {"kept": [one.in_json(self.scripts) for one in self.kept],
                "lost": None if lost is None else [one.in_json(self.scripts) for one in lost]}


def run(library, options, out, front):
    """Rescues one file. Returns the exit status: 0 nothing is lost, 1 something is, 2 it is refused or cannot be read or written."""
    import hashlib
    one, total_hash = options.input, hashlib.sha256()
    try:
        data, total = inputs.read_and_count(one, inputs.TABLE_MOST, total_hash.update if options.json else None)
    except (OSError, ValueError) as error:
        raise Failed(f"{one.name}: {inputs.reason(error)}") from None
    answer = library.rescue(data)
    report = Report(out, front) if options.json else None
    entry = {**named(one.name), "kind": "table", "sha256": total_hash.hexdigest(), "bytes": total, "whole": True}
    if type(answer) is Refusal:
        return refused(library, options, out, report, entry, data, answer)
    after = answer.bytes_after + total - len(data)
    told = Told(library, answer, options.scripts) if options.explain or report else None
    try:
        files.write(options.out, answer.data)
    except OSError as error:
        raise Failed(f"{options.out}: {inputs.reason(error)}") from None
    status = 1 if answer.dropped or after else 0
    numbers = {word: after if word == "bytes" else getattr(answer, field) for word, field in LINES}
    if report:
        out_json = {**named(options.out), "sha256": hashlib.sha256(answer.data).hexdigest(), "bytes": len(answer.data)}
        report.add(dumps({**entry, "verdict": "lost" if status else "whole", "output": out_json,
                          **{("bytes_after" if word == "bytes" else word): number for word, number in numbers.items()}, **told.in_json()}))
        report.end(status=status)
        return status
    out.lines(f"{word} {number}" + (f": {WORDS[word]}" if options.explain else "") for word, number in numbers.items())
    if options.explain:
        out.lines(told.lines())
        if options.scripts and told.all is None:
            say(f"{options.scripts.paths}: the statements of {'this script' if options.scripts.every else 'these scripts'} are not known, or are not the "
                "table's; lost ones are not named")
    return status


def refused(library, options, out, report, entry, data, refusal):
    """A file of which nothing can be kept: the reader's answer is the reason."""
    reader, why = library.read(data), ""
    told = {"number": refusal.number, "words": refusal.words}
    if type(reader) is Refusal:
        because = reasons.why_file(library, data, reader, len(data) < inputs.TABLE_MOST)
        why = f"; the reader's answer is {reader.number}: {reader.words}{because}"
        told["reader"] = {"number": reader.number, "words": reader.words, **because.in_json()}
    said = f"refused {refusal.number}: {refusal.words}{why}"
    if report:
        report.add(dumps({**entry, "verdict": "refused", "refused": told}))
        report.end(status=2)
    elif options.explain:
        out.lines([said])
    else:
        out.lines([f"refused {refusal.number}"])
        out.flush()
        say(f"{options.input.name}: {said}")
    return 2

