"""ducat check --against DIALECT: what the move of an input from its own dialect to one that permits more does to its errors.

Both lists are answers of the proved library. Where DIALECT permits all that the input's own dialect does, and both agree on top-level
statements, the second list of the module pass is the first without the numbers of the switches that open (crates/opening). So the move removes
what the second answer lacks. If the second answer is not a part of the first, that is an internal error, and the command ends.
"""
from . import check, dialects
from .library import Refusal
from .numbers import DIALECTS
from .output import encoded, head

SWITCHES = ("enable_def", "enable_lambda", "enable_load", "enable_keyword_only_arguments", "enable_positional_only_arguments", "enable_types",
            "enable_load_reexport", "enable_top_level_stmt", "enable_f_strings")  # in the order of the nine bytes
TOP_LEVEL = SWITCHES.index("enable_top_level_stmt")
PASS = "module pass (10 to 19 and 50 to 61):"
OTHERS = "other jobs, in the new dialect:"
NOT_TIED = "enable_top_level_stmt opens and there were errors, so no theorem relates the two lists"


def row(dialect):
    """The nine bytes of a dialect; Extended's for none."""
    return dialect or DIALECTS[dialects.MEANT]


def raised(first, second):
    """The switches that the second of two rows has higher."""
    return [name for name, a, b in zip(SWITCHES, first, second) if a < b]


def place(error):
    return error.number, error.file, error.begin, error.end


def lacking(first, second):
    """The errors of a list that are missing in another one, which is the list without some errors."""
    out, at = [], 0
    for error in first:
        if at < len(second) and place(second[at]) == place(error):
            at += 1
        else:
            out.append(error)
    if at < len(second):
        raise AssertionError("the errors in the new dialect are not a part of those in the old one, though crates/opening proves that they are")
    return out


def besides(errors, known):
    """The errors of the audit that the module pass does not list."""
    left = {}
    for error in known:
        left[place(error)] = left.get(place(error), 0) + 1
    out = []
    for error in errors:
        if left.get(place(error)):
            left[place(error)] -= 1
        else:
            out.append(error)
    return out


class Move:
    """What the move does: the switches that open and close, the module pass's totals before and after, and the errors that are removed (None if the
    lists are not tied); the errors of the other jobs after it."""

    def __init__(self, first, second):
        self.opens, self.closes = raised(first, second), raised(second, first)
        self.tied, self.before, self.after, self.out, self.others = True, 0, 0, None, ()

    def compare(self, before, after, audit):
        self.before, self.after = before.total, after.total
        self.tied = SWITCHES[TOP_LEVEL] not in self.opens or not before.total
        if self.tied:
            self.out = lacking(before.errors, after.errors)
        self.others = besides(audit, after.errors)


class Comparer(check.Checker):
    """Checks each input in its own dialect and in another one."""

    def __init__(self, library, options, against):
        super().__init__(library, options)
        self.against = against

    def judge(self, found):
        own = found.dialect
        found.move, found.from_ = None, own
        before = self.in_pieces(found, self.library.module, own)
        if type(before) is Refusal:
            return
        found.dialect = self.against
        after = self.in_pieces(found, self.library.module, self.against)
        if type(after) is Refusal:
            return
        audit = self.audit(found, self.against)
        found.nodes, found.move = check.nodes_of(found), Move(row(own), row(self.against))
        if found.move.closes:
            found.verdict = check.NO_OPENING
            return
        more = self.in_comprehensions(found)
        found.total = audit.total + len(more)
        found.errors = sorted([*audit.errors, *more], key=check.order)
        found.move.compare(before, after, found.errors)
        found.verdict = check.ERRORS if found.total or after.total else check.ACCEPTED

    # ---- printing

    def lines(self, found):
        if found.verdict in (check.UNREADABLE, check.NO_TABLE, check.SYNTAX, check.REFUSED):
            return super().lines(found)
        move, script = found.move, found.one.script
        said = ""
        if self.options.explain:
            said = f", from {dialects.told(found.from_, script)} to {dialects.name_of(row(self.against))}{dialects.edition_told(found.edition)}"
        lines = [check.counted(found) + said]
        if found.verdict == check.NO_OPENING:
            return joined([*lines, f"no opening, closes {', '.join(move.closes)}"])
        lines += [f"opens {', '.join(move.opens) or 'nothing'}", PASS]
        if move.tied:
            for error in move.out:
                lines += self.error(found, error)
            lines.append(f"taken out {len(move.out)}, left {move.after}")
        else:
            lines.append(f"{NOT_TIED}: before {move.before}, after {move.after}")
        lines.append(OTHERS)
        for error in move.others:
            lines += self.error(found, error)
        covered = f": {check.ALL}" if self.options.explain and found.verdict == check.ACCEPTED else ""
        return joined([*lines, f"other errors {len(move.others)}{covered}"])

    # ---- JSON

    def entry(self, found):
        entry = super().entry(found)
        if found.table is not None:
            entry["dialect"] = dialects.in_json(found.from_)
        move = getattr(found, "move", None)
        if move is None:
            return entry
        entry.update(opens=move.opens, closes=move.closes)
        if found.verdict == check.NO_OPENING:
            del entry["errors"]
            return entry
        taken = [self.in_json(found, error) for error in move.out] if move.tied else None
        entry.update(tied=move.tied, before=move.before, taken_out=taken, left=move.after)
        return entry


def joined(lines):
    return encoded("\n".join(lines) + "\n")


class Totals(check.Totals):
    """What a run has found, with the inputs for which the new dialect is not an opening."""

    def __init__(self):
        super().__init__()
        self.closing = 0

    def add(self, answer):
        super().add(answer)
        self.closing += answer.verdict == check.NO_OPENING

    def line(self):
        return f"{super().line()}, no opening {self.closing}"

    def in_json(self):
        return {**super().in_json(), "no_opening": self.closing}


def front(library, configuration, against):
    """What JSON has first."""
    return head("check", library, configuration, module=False, against=dialects.in_json(against))


def run(library, options, against, found, jobs, out, first):
    return check.run(library, options, found, jobs, out, first, Comparer(library, options, against), Totals())
