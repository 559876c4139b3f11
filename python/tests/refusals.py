"""One case of each number: the request that gives it, and how Python, Rust and C report the answer.

refusals.py --write    writes bindings/refusals.txt, the requests as C and Rust read them, and bindings/refusals, what Python and Rust print for each.
                       Run it only if a number is added or its words are changed on purpose: the words are compared with the record

A request is a line: the number, the job, and the job's arguments in the header's order. `x:HEX` are bytes, with `*N` repeated N times; `b:N` and `w:N`
are buffers of N bytes and words, each 9; `p:A,B` are words; `c:N` are counts of figures of which the first is N; anything else is a number.
"""
import os
import sys

import support
from ducatmuffin import library as made
from ducatmuffin import numbers, table

REQUESTS, RECORD = (os.path.join(support.ROOT, "bindings", name) for name in ("refusals.txt", "refusals"))
ALL, STANDARD, EMPTY = numbers.DIALECTS["all"], numbers.DIALECTS["standard"], bytes(9)
MANY = " ".join(f"(Normal p{at})" for at in range(49))

# number, job, tree, and the other arguments: bytes, ("b" or "w", length), numbers
CASES = [
    (1, "table", b"\1" * 23, b""),
    (2, "table", "(Break)", b"a" * 8065),
    (3, "table", "(Assign (Identifier x))"),
    (4, "table", "(OtherSimple ^64<(Not >(Int)^64<)>)"),
    (5, "type", "(OtherSimple (Identifier x))", ALL[:8], 1, 1, ("b", 1)),
    (6, "call", "(Break)", 0),
    (7, "params", "(Def (Normal a) (Break))", 0, ("b", 0)),
    (10, "params", "(Def (Slash) (Normal a) (Break))", 0, ("b", 3)),
    (11, "params", "(Def (Normal b) (Normal a) (Normal a) (Break))", 0, ("b", 3)),
    (12, "params", "(Def (KwArgsParam k) (Normal a) (Break))", 0, ("b", 3)),
    (13, "params", "(Def (Normal:2 a (Int)) (Normal b) (Break))", 0, ("b", 3)),
    (14, "params", "(Def (ArgsParam a) (ArgsParam b) (Break))", 0, ("b", 3)),
    (15, "params", "(Def (Normal a) (Slash) (Normal b) (Slash) (Break))", 0, ("b", 4)),
    (16, "params", "(Def (KwArgsParam a) (KwArgsParam b) (Break))", 0, ("b", 3)),
    (17, "params", "(Def (Normal a) (NoArgs) (Break))", 0, ("b", 3)),
    (18, "params", "(Def (NoArgs) (KwArgsParam a) (Break))", 0, ("b", 3)),
    (19, "params", f"(Def {MANY} (Break))", 0, ("b", 49)),
    (20, "call", "(OtherSimple (Call (Identifier f) (Named a (Int)) (Positional (Int))))", 1),
    (21, "call", "(OtherSimple (Call (Identifier f) (ArgsArg (Int)) (Named a (Int))))", 1),
    (22, "call", "(OtherSimple (Call (Identifier f) (Named a (Int)) (Named a (Int))))", 1),
    (23, "call", "(OtherSimple (Call (Identifier f) (ArgsArg (Int)) (ArgsArg (Int))))", 1),
    (24, "call", "(OtherSimple (Call (Identifier f) (KwArgsArg (Int)) (KwArgsArg (Int))))", 1),
    (30, "target", "(OtherSimple (Int))", 1),
    (31, "assignment", "(AssignModify (Tuple (Identifier a)) (Int))", 0),
    (32, "assignment", "(AssignModify:1 (Identifier a) (Identifier int) (Int))", 0),
    (33, "assignment", "(Assign:1 (Tuple (Identifier a)) (Identifier int) (Int))", 0),
    (40, "type", "(OtherSimple (Int))", ALL, 1, 1, ("b", 1)),
    (41, "type", "(OtherSimple (List))", ALL, 1, 1, ("b", 1)),
    (42, "type", "(OtherSimple (Dot a (Call (Identifier f))))", ALL, 1, 1, ("b", 3)),
    (43, "type", "(OtherSimple (Index2 (Call (Identifier f)) (Identifier a) (Identifier b)))", ALL, 1, 1, ("b", 5)),
    (44, "type", "(OtherSimple (Dot type (Identifier a)))", ALL, 1, 1, ("b", 2)),
    (45, "type", "(OtherSimple (Identifier a))", STANDARD, 1, 1, ("b", 1)),
    (50, "module", "(Def (NoArgs) (Normal a) (OtherSimple))", STANDARD, ("w", 4)),
    (51, "module", "(Def (Normal a) (Slash) (OtherSimple))", STANDARD, ("w", 4)),
    (52, "module", "(Def (OtherSimple))", EMPTY, ("w", 4)),
    (53, "module", "(For (Identifier a) (Int) (OtherSimple))", STANDARD, ("w", 4)),
    (54, "module", "(If (Int) (OtherSimple))", STANDARD, ("w", 4)),
    (55, "module", "(Break)", ALL, ("w", 4)),
    (56, "module", "(Continue)", ALL, ("w", 4)),
    (57, "module", "(Return)", ALL, ("w", 4)),
    (58, "module", "(Def (Load))", ALL, ("w", 4)),
    (59, "module", "(Load)", EMPTY, ("w", 4)),
    (60, "module", "(OtherSimple (Ellipsis))", STANDARD, ("w", 4)),
    (61, "module", "(OtherSimple (Lambda (Int)))", EMPTY, ("w", 4)),
    (62, "fstring_write", ("p", 1, 0), b"", STANDARD, ("b", 8)),
    (63, "fstring_read", b"a}}b{", ("w", 8), ("b", 8)),
    (64, "fstring_write", ("p", 4, 0), b"", ALL, ("b", 8)),
    (70, "read", ("file", "cut: 1000\n(Break)"), ("b", 24), ("b", 1)),
    (71, "read", ("file", "(Break)", 512, 2), ("b", 24), ("b", 1)),
    (72, "read", ("file", "change: 516 7\n(Break)"), ("b", 24), ("b", 1)),
    (73, "read", ("file", "(Break)", 514, 23), ("b", 24), ("b", 1)),
    (74, "read", ("file", "(Break)", 4, 0), ("b", 24), ("b", 1)),
    (75, "read", ("file", "more: 1\n(Break)"), ("b", 24), ("b", 1)),
    (76, "figures_step", ("file", "(Break)"), ("c", numbers.MOST_FILES)),
    (80, "bind", "(Statements (Def (Normal a) (Break)) (OtherSimple (Call (Identifier f) (ArgsArg (Int)))))", 5, 1, ("w", 4)),
    (81, "bind", "(Statements (Def (Normal a) (Break)) (OtherSimple (Call (Identifier f) (Positional (Int)) (Positional (Int)))))", 5, 1, ("w", 4)),
    (82, "bind", "(Statements (Def (Normal a) (Break)) (OtherSimple (Call (Identifier f) (Named b (Int)))))", 5, 1, ("w", 4)),
    (83, "bind", "(Statements (Def (Normal a) (Break)) (OtherSimple (Call (Identifier f) (Positional (Int)) (Named a (Int)))))", 5, 1, ("w", 4)),
    (84, "bind", "(Statements (Def (Normal a) (Break)) (OtherSimple (Call (Identifier f))))", 5, 1, ("w", 4)),
    (90, "rescue", ("file", "cut: 500\n(Break)"), ("b", 1024)),
    (91, "rescue", ("file", "cut: 600\n(Break)"), ("b", 1024)),
    (95, "book_lookup", b"", ("book",), 7, 1),
    (96, "book_add", ("book",), ("book", 0, 1), 0, 1, ALL),
    (97, "book_lookup", ("book",), ("book",), 7, 1),
    (98, "book_add", ("book", *(part for setting in range(1, 22) for part in (7, setting))), ("book",), 7, 99, ALL),
]


def summed(block):
    """A block with the right sum."""
    return block[:508] + (sum(at * byte for at, byte in enumerate(block[:508], 1)) % 2 ** 32).to_bytes(4, "little")


def book(entries):
    """A book of one block with entries: zones and settings."""
    places = b"".join(zone.to_bytes(2, "little") + setting.to_bytes(4, "little") + ALL + bytes(9) for zone, setting in zip(entries[::2], entries[1::2]))
    return summed((b"\0\0\xf8\1" + places).ljust(508, b"\0"))


def file(text, at=None, value=None):
    """A table file, of which a byte may be changed and the sum of its block updated; `more: N` are bytes after it."""
    more, _, rest = text.partition("\n") if text.startswith("more: ") else ("", "", text)
    data = table.read_text(rest).file()
    if at is not None:
        first = at - at % 512
        data = data[:first] + summed(data[first:at] + bytes([value]) + data[at + 1:first + 512]) + data[first + 512:]
    return data + bytes(int(more.partition(" ")[2] or 0))


def arguments(case):
    """A case's arguments, each as a kind and what it is: x bytes, b, w, p, c, n a number."""
    out = []
    for part in case[2:]:
        if isinstance(part, str):
            text = table.read_text("rules: off\n" + part)
            out += [("x", text.table), ("x", text.names)]
        elif isinstance(part, bytes):
            if len(case) == 4 and case[1] == "table" and isinstance(case[2], str):
                out.pop()
            out.append(("x", part))
        elif isinstance(part, int):
            out.append(("n", part))
        elif part[0] == "file":
            out.append(("x", file(*part[1:])))
        elif part[0] == "book":
            out.append(("x", book(part[1:])))
        else:
            out.append((part[0], list(part[1:]) if part[0] == "p" else part[1]))
    return out


def written(kind, value):
    """An argument as it is in a request."""
    if kind == "x":
        same = len(set(value)) == 1 and len(value) > 100
        return f"x:{value[:1].hex()}*{len(value)}" if same else f"x:{value.hex()}"
    return str(value) if kind == "n" else f"{kind}:{','.join(map(str, value)) if kind == 'p' else value}"


def request(case):
    return " ".join([str(case[0]), case[1], *(written(*argument) for argument in arguments(case))])


def answer(case):
    """What the package answers."""
    lib, job, values = support.library(), case[1], [value for _, value in arguments(case)]
    if job == "fstring_write":
        return lib.fstring_write_words(*values)
    if job == "figures_step":
        return lib.figures_step(values[0], made.NO_FIGURES._replace(files=values[1]))
    return getattr(lib, job)(*values)


def line(case):
    """What is printed for a case: the number, its name and words, and what it carries."""
    got = answer(case)
    if isinstance(got, made.Errors):
        number, file_number, begin, end, _ = got.errors[0]
        words, carried = numbers.WORDS[number], f"file {file_number}, bytes {begin} to {end}"
    elif isinstance(got, made.Formatted):
        number, words, carried = got.notice, numbers.WORDS[got.notice], "notice"
    elif isinstance(got, made.BookRefusal):
        number, words, carried = got.number, got.words, "nothing" if got.book is None else f"book {got.book}"
    else:
        number, words, carried = got.number, got.words, carries(got)
    return f"{number} {numbers.NUMBERS[number]}: {words}; {carried}"


def carries(refusal):
    if refusal.position is not None:
        return f"position {refusal.position}"
    if refusal.begin is None:
        return "nothing" if refusal.node is None else f"node {refusal.node}"
    first = "" if refusal.earlier is None else f", first at node {refusal.earlier}"
    return f"node {refusal.node}, file {refusal.file}, bytes {refusal.begin} to {refusal.end}{first}"


def main():
    if sys.argv[1:] != ["--write"]:
        sys.exit(__doc__)
    for path, lines in ((REQUESTS, map(request, CASES)), (RECORD, map(line, CASES))):
        with open(path, "w", encoding="utf-8") as out:
            out.write("".join(f"{one}\n" for one in lines))


if __name__ == "__main__":
    main()
