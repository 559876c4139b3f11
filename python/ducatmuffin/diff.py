"""ducat diff OLD.json NEW.json: the errors of two runs of `ducat check`, or of `ducat bind`, that only one of them has.

An error is the same if its input, its number, its source file number and its bytes are the same; for a call also those of the def. An error that
has moved in its script is gone from its old place and new at the other: nothing shows that it is the same.
"""
import json

from . import inputs
from .output import FORMAT, Failed, Report, digest, dumps, encoded, named, visible

JSON_MOST = 2 ** 30  # bytes of a run's JSON
PLACE = ("file", "begin", "end")


def read(path):
    """A run by its JSON."""
    one = inputs.standard_input() if path == "-" else inputs.Input(path)
    try:
        data = inputs.read(one, JSON_MOST + 1)
    except (OSError, ValueError) as error:
        raise Failed(f"{path}: {inputs.reason(error)}") from None
    try:
        told = json.loads(data)
        if told["version"] != FORMAT or told["command"] not in ("check", "bind"):
            raise Failed(f"{path}: this is version {told['version']} of `ducat {told['command']}`; version {FORMAT} of check or bind is needed")
        told["status"]  # a run that was cut off has none
        return told, items(told), {**named(path), "kind": "run", "sha256": digest(data), "bytes": len(data)}
    except (ValueError, KeyError, TypeError, RecursionError):
        raise Failed(f"{path}: this is not the JSON of a whole run of `ducat check` or `ducat bind`") from None


def items(told):
    """The errors of a run by the key that identifies them, each with its words; one that a run has twice is there twice."""
    found = {}
    for entry in told["inputs"]:
        for key, words in of_input(entry):
            found.setdefault((entry.get("name_bytes") or entry["name"], *key), []).append(words)
    return found


def of_input(entry):
    name = entry["name"]
    if "failed" in entry:
        yield (entry["verdict"],), f"{name}: {entry['failed']}"
    elif "refused" in entry:
        number = entry["refused"]["number"]
        yield ("refused", number), f"{name}: refused {number}: {entry['refused']['words']}"
    elif entry["verdict"] == "no opening":
        yield ("no opening",), f"{name}: no opening, closes {', '.join(entry['closes'])}"
    for error in entry.get("errors", ()):
        number = error["number"]
        words = error["words"] if number is None else f"{number} {error['words']}"
        yield (number, error["words"] if number is None else None, *place(error)), f"{where(error, error.get('script', entry)['name'])}: {words}"
    for pair in entry.get("pairs", ()):
        if "refused" in pair or "not_judged" in pair:
            yield of_pair(pair, entry)
        for told in pair.get("namesakes", ()):
            if "expected" not in told:
                yield ("namesake", *place(told), *place(pair["def"])), f"{where(told, script_name(entry, told))}: {told['words']}"
    for expectation in entry.get("expectations", ()):
        for told in expectation["not_met"]:
            yield of_unmet(expectation["expect"], told, entry)


def of_pair(pair, entry):
    name = script_name(entry, pair["call"])
    refused = pair.get("refused")
    number = refused["number"] if refused else None
    words = f"refused {number}: {refused['words']}" if refused else f"not judged: {pair['not_judged']}"
    key = (number, *place(pair["call"]), *place(pair["def"]), *place(refused or {}))
    return key, f"{where(pair['call'], name)}, def {where(pair['def'], script_name(entry, pair['def']))}: {words}"


def of_unmet(expect, told, entry):
    return ("expect", expect, told["words"], *place(told)), f"{where(told, script_name(entry, told))}: {expect} is not met: {told['words']}"


def script_name(entry, told):
    """The script that a place is in, or the input."""
    for script in entry.get("scripts", ()):
        if script["file"] == told.get("file"):
            return script["name"]
    return entry.get("script", entry)["name"]


def place(told):
    return tuple(told.get(key) for key in PLACE)


def where(told, name):
    if "line" in told:
        return f"{name}:{told['line']}:{told['column']}"
    return f"{name}: source file {told['file']}, bytes {told['begin']} to {told['end']}" if "begin" in told else name


def lacking(first, second):
    """The words of what only the first of two runs has."""
    return [words for key, said in first.items() for words in said[len(second.get(key, ())):]]


def run(options, out, front):
    """Prints what is new and what is gone. Returns the exit status: 1 if something is new."""
    (old, before, first), (new, after, second) = read(options.old), read(options.new)
    for key in ("command", "module", "against"):
        if old.get(key) != new.get(key):
            raise Failed(f"{options.old} and {options.new} are not runs of the same command and options: {key} differs")
    came, went = lacking(after, before), lacking(before, after)
    same = sum(map(len, after.values())) - len(came)
    status = int(bool(came))
    if options.json:
        report = Report(out, front)
        report.add(dumps(first))
        report.add(dumps(second))
        report.end(new=came, gone=went, totals={"new": len(came), "gone": len(went), "same": same}, status=status)
        return status
    for word, said in (("new", came), ("gone", went)):
        out.write(b"".join(encoded(f"{word}: {visible(words)}\n") for words in said))
    out.lines([f"new {len(came)}, gone {len(went)}, same {same}"])
    return status
