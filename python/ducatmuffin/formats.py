"""What is found, in the formats of other tools: lines as gcc prints them, workflow commands of GitHub, and SARIF 2.1.0. Each is made of the JSON of an
input (docs/JSON.md) and its scripts.

    rendered("gcc", entry, name, scripts)    the bytes of an input
    report("sarif", out, front)              what they are added to, with add and end as output.Report has them
"""
import os

from .numbers import NUMBERS, WORDS
from .output import Report, digest, dumps, encoded, visible

MACHINE = ("json", "gcc", "github", "sarif")
SYNTAX, UNREADABLE, NO_TABLE, NO_OPENING, NOT_JUDGED = "syntax", "unreadable", "no-table", "no-opening", "not-judged"
EXPECT, NAMESAKE = "expect", "namesake"
FAILED = {"no table": NO_TABLE, "other dialect": "other-dialect"}  # by verdict; every other one is unreadable
REPEATED = {11: "parameter", 22: "argument"}
SCHEMA = "https://docs.oasis-open.org/sarif/sarif/v2.1.0/errata01/os/schemas/sarif-schema-2.1.0.json"
SAFE = frozenset(b"ABCDEFGHIJKLMNOPQRSTUVWXYZabcdefghijklmnopqrstuvwxyz0123456789-._~/")
NAMED_RULES = {SYNTAX: "the script is not Starlark", EXPECT: "an expectation of a call's arguments is not met",
               NAMESAKE: "an argument has the name of a parameter and reaches another one"}
RULES = [*map(str, WORDS), *NAMED_RULES]
INDEX = {rule: at for at, rule in enumerate(RULES)}


class Place:
    """A place in a file: lines and columns count from 1, and the end column is the one after the last. Without a script there are none."""

    def __init__(self, path, source=None, begin=0, end=0):
        self.path, self.line = path, None
        if source and not source.is_beyond(begin, end):
            self.line, self.column = source.line_column(begin)
            self.end_line, self.end_column = source.line_column(min(max(begin, end), len(source.bytes)))

    def at(self, line, column):
        """The same with a line and column alone."""
        self.line, self.column, self.end_line, self.end_column = line, column, line, column
        return self


class Finding:
    """An error, a refusal or another reason: its rule, its words, its place, notes (a place and words each), what SARIF has besides, and its level."""

    level = "error"

    def __init__(self, rule, words, place, notes=(), **more):
        self.rule, self.words, self.place, self.notes, self.more = str(rule), words, place, notes, more


# ---- what an input's JSON says

def place_of(told, name, scripts):
    """The place of an object with `file`, `begin` and `end`; the input if there is no script of that number."""
    source = scripts.of(told["file"]) if "file" in told else None
    return Place(source.path, source, told["begin"], told["end"]) if source else Place(name)


def placed(told, words, place):
    """Words, which also name the bytes if there is no line."""
    if place.line is None and "begin" in told:
        return f"{words} (source file {told['file']}, bytes {told['begin']} to {told['end']})"
    return words


def ruled(entry):
    """The dialect and the edition that an input was judged by."""
    return {key: entry[key] for key in ("dialect", "edition") if entry.get(key)}


def properties(entry, told):
    more = {key: told[key] for key in ("file", "begin", "end", "node", "kind") if key in told}
    return {**more, **ruled(entry)}


def note(told, words, name, scripts):
    place = place_of(told, name, scripts)
    return place, placed(told, words, place)


def earlier_of(told, number, name, scripts):
    return [note(told["earlier"], f"the earlier {REPEATED[number]}", name, scripts)] if "earlier" in told else []


def of_error(entry, told, name, scripts):
    number, place = told["number"], place_of(told, name, scripts)
    return Finding(SYNTAX if number is None else number, placed(told, told["words"], place), place, earlier_of(told, number, name, scripts),
                   **properties(entry, told))


def of_pair(entry, pair, name, scripts):
    """A call that is refused or not judged."""
    call, def_ = pair["call"], pair["def"]
    notes = [note(told, words, name, scripts) for told, words in ((call, "the call"), (def_, "the def")) if "begin" in told]
    if "not_judged" in pair:
        return Finding(NOT_JUDGED, f"not judged: {pair['not_judged']}", place_of(call, name, scripts), notes[1:], **properties(entry, call))
    told = pair["refused"]
    at = told if "begin" in told else call
    place = place_of(at, name, scripts) if "begin" in at else Place(name)
    return Finding(told["number"], placed(at, told["words"], place), place, [*earlier_of(told, told["number"], name, scripts), *notes],
                   **properties(entry, at))


def of_namesakes(entry, pair, name, scripts):
    """The namesakes of a pair that no expectation states; two that are exchanged are one. They are errors with --strict, otherwise warnings."""
    done = set()
    for told in pair.get("namesakes", ()):
        if "expected" in told or told["node"] in done:
            continue
        notes, other = [note(pair["def"], "the def", name, scripts)], told["taken_by"]
        if told["exchanged"]:
            done.add(other["node"])
            notes.insert(0, note(other, "it is exchanged with this argument", name, scripts))
        place = place_of(told, name, scripts)
        one = Finding(NAMESAKE, placed(told, told["words"], place), place, notes, **properties(entry, told))
        one.level = "error" if entry.get("strict") else "warning"
        yield one


def of_expectations(entry, name, scripts):
    for expectation in entry.get("expectations", ()):
        for told in expectation["not_met"]:
            place, words = place_of(told, name, scripts), f"{expectation['expect']} is not met: {told['words']}"
            yield Finding(EXPECT, placed(told, words, place), place, **properties(entry, told))


def of_failure(entry, name):
    """Why an input is not read, has no table or another dialect than the books'; for joined scripts the reason of each."""
    rule = FAILED.get(entry["verdict"], UNREADABLE)
    parts = [part for part in entry.get("scripts", ()) if "failed" in part] or [{"failed": entry["failed"], **{
        key: entry[key] for key in ("line", "column") if key in entry}}]
    for part in parts:
        place = Place(name_of(part) if "name" in part else name)
        yield Finding(rule, part["failed"], place.at(part["line"], part["column"]) if "line" in part else place)


def name_of(told):
    return os.fsdecode(bytes.fromhex(told["name_bytes"])) if "name_bytes" in told else told["name"]


def findings(entry, name, scripts):
    """All that is found in an input."""
    return [*of_input(entry, name, scripts), *of_expectations(entry, name, scripts)]


def of_input(entry, name, scripts):
    if "failed" in entry:
        return list(of_failure(entry, name))
    if "refused" in entry:
        told = entry["refused"]
        words = told["words"] + "".join(f", {key} {told[key]}" for key in ("block", "node") if key in told)
        words += f": {told['reason']}" if "reason" in told else ""
        return [Finding(told["number"], words, Place(name), **ruled(entry))]
    if entry["verdict"] == "no opening":
        return [Finding(NO_OPENING, f"no opening, closes {', '.join(entry['closes'])}", Place(name))]
    found = [of_error(entry, told, name, scripts) for told in entry.get("errors", ())]
    for pair in entry.get("pairs", ()):
        found += [of_pair(entry, pair, name, scripts)] if "refused" in pair or "not_judged" in pair else of_namesakes(entry, pair, name, scripts)
    return found


# ---- lines

def gcc_line(place, level, words):
    where = f":{place.line}:{place.column}" if place.line else ""
    return f"{visible(place.path)}{where}: {level}: {visible(words)}"


def gcc(found):
    lines = []
    for one in found:
        lines.append(f"{gcc_line(one.place, one.level, one.words)} [{one.rule}]")
        lines += [gcc_line(place, "note", words) for place, words in one.notes]
    return lines


def escaped(text, marks):
    for mark in marks:
        text = text.replace(mark, f"%{ord(mark):02X}")
    return text


def github(found):
    """An annotation of a line has columns; one of several lines cannot have any."""
    lines = []
    for one in found:
        place = one.place
        told = {"file": place.path}
        if place.line:
            told["line"] = place.line
            if place.end_line > place.line:
                told["endLine"] = place.end_line
            else:
                told.update(col=place.column, endColumn=max(place.column, place.end_column - 1))
        told["title"] = f"ducat {one.rule}"
        words = "".join([one.words, *(f"\n{gcc_line(place, 'note', text)}" for place, text in one.notes)])
        lines.append(f"::{one.level} " + ",".join(f"{key}={escaped(str(value), '%' + chr(13) + chr(10) + ':,')}" for key, value in told.items())
                     + f"::{escaped(words, '%' + chr(13) + chr(10))}")
    return lines


# ---- SARIF

def uri(path):
    """A path as a reference of RFC 3986; an absolute one as a file."""
    text = "".join(chr(byte) if byte in SAFE else f"%{byte:02X}" for byte in os.fsencode(path))
    return f"file://{text}" if text.startswith("/") else text


def location(place, words=None, at=None):
    told = {} if at is None else {"id": at}
    told["physicalLocation"] = {"artifactLocation": {"uri": uri(place.path)}}
    if place.line:
        told["physicalLocation"]["region"] = {"startLine": place.line, "startColumn": place.column, "endLine": place.end_line,
                                              "endColumn": place.end_column}
    return {**told, "message": {"text": words}} if words else told


def result(one):
    told = {"ruleId": one.rule, "ruleIndex": INDEX[one.rule], "level": one.level, "message": {"text": one.words}, "locations": [location(one.place)]}
    if one.notes:
        told["relatedLocations"] = [location(place, words, at) for at, (place, words) in enumerate(one.notes, 1)]
    return {**told, "properties": one.more} if one.more else told


def notification(one):
    return {"descriptor": {"id": one.rule}, "level": "error", "message": {"text": one.words}, "locations": [location(one.place)]}


def artifacts(entry, name, scripts):
    """The files that were read, with their checksums; also the scripts of a table's places, with those of the bytes that were read."""
    told = [(name_of(part) if "name" in part else name, part) for part in (entry, *entry.get("scripts", ())) if "sha256" in part]
    told += [(source.path, {"sha256": digest(source.bytes), "bytes": len(source.bytes)}) for source in (scripts.every, *scripts.by_file.values()) if source]
    known, made = {}, {"properties": {"table": entry["table"]}} if "table" in entry else {}
    for path, part in told:
        known.setdefault(uri(path), {"location": {"uri": uri(path)}, "length": part["bytes"], "roles": ["analysisTarget"],
                                     "hashes": {"sha-256": part["sha256"]}, **made})
    return list(known.values())


def sarif(entry, name, scripts):
    """What an input adds to a run: results for what has a rule, notifications for the rest, and its files."""
    found = findings(entry, name, scripts)
    return {"results": [result(one) for one in found if one.rule in INDEX], "notifications": [notification(one) for one in found if one.rule not in INDEX],
            "artifacts": artifacts(entry, name, scripts)}


def rule(name):
    if name in NAMED_RULES:
        return {"id": name, "name": name.capitalize(), "shortDescription": {"text": NAMED_RULES[name]}}
    number = int(name)
    return {"id": name, "name": "".join(word.capitalize() for word in NUMBERS[number].split("_")), "shortDescription": {"text": WORDS[number]}}


class Sarif:
    """A run as one SARIF log. It is written at the end, since its parts are grouped by type."""

    def __init__(self, out, front):
        self.out, self.front, self.results, self.notifications, self.artifacts = out, front, [], [], {}

    def add(self, data):
        import json
        told = json.loads(data)
        self.results += told["results"]
        self.notifications += told["notifications"]
        for artifact in told["artifacts"]:
            self.artifacts.setdefault(artifact["location"]["uri"], artifact)

    def end(self, **last):
        front, status = self.front, last["status"]
        library = front["library"]
        about = {key: front[key] for key in ("command", "configuration", "module", "against") if front.get(key) is not None}
        driver = {"name": "ducat", "version": front["ducat"], "rules": [rule(name) for name in RULES],
                  "properties": {"library": library["version"], "sha256": library["sha256"], "proved": library["proved"]}}
        invocation = {"executionSuccessful": status != 2, "exitCode": status, "toolExecutionNotifications": self.notifications}
        run = {"tool": {"driver": driver}, "invocations": [invocation], "columnKind": "unicodeCodePoints", "artifacts": list(self.artifacts.values()),
               "results": self.results, "properties": {**about, **({"totals": last["totals"]} if "totals" in last else {})}}
        self.out.write(dumps({"$schema": SCHEMA, "version": "2.1.0", "runs": [run]}) + b"\n")


class Lines:
    """Lines, as they come."""

    def __init__(self, out):
        self.out = out

    def add(self, data):
        self.out.write(data)

    def end(self, **last):
        pass


def rendered(format_, entry, name, scripts):
    """An input in a format, as bytes for the report."""
    if format_ == "json":
        return dumps(entry)
    if format_ == "sarif":
        return dumps(sarif(entry, name, scripts))
    lines = (gcc if format_ == "gcc" else github)(findings(entry, name, scripts))
    return b"".join(encoded(line) + b"\n" for line in lines)


def report(format_, out, front):
    if format_ == "json":
        return Report(out, front)
    return Sarif(out, front) if format_ == "sarif" else Lines(out)
