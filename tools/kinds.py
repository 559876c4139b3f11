#!/usr/bin/env python3
"""Makes cases for each kind of record from sentences about the kinds, with the answers that the sentences require.

kinds.py            writes crates/cases/kinds.txt (cases in words) and, below its heading, the end of crates/cases/stdout (their answers)
kinds.py --check    only reports whether they are what the sentences give and, if the scope and the requests are present, whether these have
                    the sentences

The sentences are in crates/cases/sentences.txt; tools/gate/format.py compares them with docs/FORMAT.md. Nothing here is taken from the definitions or
the code, so a mistake that is in both of them is found. For each kind and detail: valid children, and children with one or two dropped, changed or
added; the largest detail and one more; a name where none is allowed, and no name where one is required; the kind in the place of each class.
Then each kind and detail with its records at the largest depth and one deeper (W-206): under statements or expressions alone, and with
parameters and arguments of every kind in between. Then each kind with source file numbers on both sides of each limit (W-208): as the root, as
its child and further below, where the number of its top-level statement is the right one.
"""
import itertools
import pathlib
import re
import sys

sys.path.append(str(pathlib.Path(__file__).resolve().parent / "gate"))
from reports import ended, fault  # noqa: E402
from repository import CRATES, ROOT  # noqa: E402
from tables import tables, trees  # noqa: E402

FOLDER = CRATES / "cases"
DOCUMENTS = [ROOT.parent / "shared" / "docs" / name for name in ("01-scope.md", "02-change-requests.md")]
HEADING = "# 3: each kind, by the sentences of its rule (made by tools/kinds.py)"
DEEP = "# 4: each kind at the largest depth and one deeper (made by tools/kinds.py)"
FILES = "# 3: each kind with source file numbers on both sides of each limit (made by tools/kinds.py)"
NUMBER = tables.KIND
WORD = {number: word for word, number in NUMBER.items()}

# the largest depth of docs/FORMAT.md, and what is counted (W-206): "statements and expressions only; a parameter or argument record has its
# parent's depth"
MOST_DEPTH = 64
COUNTED = ("statement", "expression")
# what may be above a record of a class, each one level deeper: its own class alone, and, in turn, kinds that have parameters and arguments.
# {} is the record; a parameter or an argument is in the last.
ALONE = {"statement": ["(Statements {})"], "expression": ["(Not {})"]}
MIXED = {"statement": ["(Def (Normal a) (NoArgs) (Normal b) {})", "(For (Int) (Int) {})", "(If (Int) {})", "(IfElse (Int) (Break) {})"],
         "expression": ["(Call (Int) (Positional {}))", "(Lambda (Normal:2 a {}) (Int))", "(Call (Int) (Named a {}))",
                        "(Lambda (Normal:1 a {}) (Int))", "(Call (Int) (ArgsArg {}))", "(Lambda (ArgsParam:1 a {}) (Int))",
                        "(Call (Int) (KwArgsArg {}))", "(Lambda (KwArgsParam:1 a {}) (Int))", "(Lambda (Normal a) (Slash) {})"]}
OWNER = {"statement": [("{}", "statement")], "expression": [("{}", "expression")], "argument": [("(Call (Int) {})", "expression")],
         "parameter": [("(Def {} (Break))", "statement"), ("(Lambda {} (Int))", "expression")]}

# a child of each class, and where a record of each class may be: what is around it, and its index there
CHILD = {"statement": "(Break)", "expression": "(Int)", "parameter": "(NoArgs)", "argument": "(ArgsArg (Int))"}
PLACE = {"statement": ("{}", 0), "expression": ("(OtherSimple {})", 1), "parameter": ("(Def {} (Break))", 1),
         "argument": ("(OtherSimple (Call (Int) {}))", 3)}
# a place that takes records of one class only, and the index of the record that is unsound if it has another class
HOLDER = {"statement": ("(Statements {})", 0), "expression": ("(OtherSimple {})", 0), "parameter": ("(Def {} (Break))", 0),
          "argument": ("(OtherSimple (Call (Int) {}))", 1)}

# the words of the sentences for one child
ONE = {"statement": ["body statement", "statement"],
       "expression": ["target", "over", "condition", "value", "object", "callee", "return type", "type", "default", "body expression",
                      "one expression each"]}
SOME = 3  # the numbers that are tried for "any number"


class Unknown(Exception):
    """Sentences that this script does not read."""


def counts(words, own):
    """A part of a rule as a class, and the allowed number of its children: as a test, and as the numbers that are tried."""
    for one, known in ONE.items():
        if words in known:
            return one, lambda n: n == 1, [1]
    if words in ("parameters", "arguments"):
        return words[:-1], lambda n: True, [0, 1, SOME]
    if words == "none":
        return own, lambda n: n == 0, [0]
    if words == "two statements":
        return "statement", lambda n: n == 2, [2]
    if words in ("any", f"any {own}s", "any expressions"):
        return "expression" if words == "any expressions" else own, lambda n: True, [0, 1, SOME]
    if words == "0 or 1 expression":
        return "expression", lambda n: n < 2, [0, 1]
    if words == "an even number":
        return own, lambda n: n % 2 == 0, [0, 2, 4]
    numbers = [int(n) for n in re.findall(r"\d+", words)]
    if re.fullmatch(r"\d+ to \d+", words):
        return own, lambda n: numbers[0] <= n <= numbers[1], [*range(numbers[0], numbers[1] + 1)]
    if re.fullmatch(r"\d+ or more", words):
        return own, lambda n: numbers[0] <= n, [numbers[0], numbers[0] + 1, numbers[0] + SOME]
    if re.fullmatch(r"\d+( each for \d+ to \d+)?", words):
        return own, lambda n: n == numbers[0], [numbers[0]]
    raise Unknown(fault(f"unknown words in a sentence: {words}"))


class Kind:
    """A kind: its number, class, rule of children in words, largest detail, and whether it has a name and a position."""

    def __init__(self, number, own, rule):
        self.number, self.own, self.rule = number, own, rule
        self.details, self.named, self.placed = int("detail 1" in rule), False, False

    def parts(self, detail):
        """The parts of the rule that apply to a detail."""
        found = []
        for part in self.rule.partition(";")[0].split(", "):
            words, mark, given = part.partition(" if ")
            if not mark or str(detail) in re.findall(r"\d", given):
                found.append(counts(words, self.own))
        return found

    def fits(self, detail, children):
        """Whether these classes are children of the kind: whether they can be cut into the rule's parts, in order."""
        ends = {0}
        for one, may_be, _ in self.parts(detail):
            ends = {to for at in ends for to in range(at, len(children) + 1)
                    if set(children[at:to]) <= {one} and may_be(to - at)}
        return len(children) in ends

    def met(self, detail):
        """Children that the rule allows: each part with each number that is tried."""
        parts = self.parts(detail)
        for numbers in itertools.product(*(tried for _, _, tried in parts)):
            yield tuple(itertools.chain.from_iterable([one] * n for (one, _, _), n in zip(parts, numbers)))

    def text(self, detail, children, words=None):
        """The record in words, with the name `a` if it has one."""
        words = (" a" if self.named else "") if words is None else words
        below = "".join(" " + CHILD[child] for child in children)
        return f"({WORD[self.number]}{f':{detail}' if detail else ''}{words}{below})"


def read(text):
    """The kinds that the sentences give, by number."""
    kinds = {}
    for own, said in re.findall(r"^- (\w+)s: (.*)$", text, re.M):
        said, _, none = said.partition(". ")
        waiting = []
        for number, rule, mark in re.findall(r"(\d+) [A-Za-z]\w*(?: simple)?(?: `\*`)?(?: \(([^)]*)\))?(,| and|;|\.|$)", said):
            waiting.append(int(number))
            if rule or mark not in (",", " and"):
                kinds.update({n: Kind(n, own.lower(), rule or "none") for n in waiting})
                waiting = []
            each = re.search(r"each for (\d+) to (\d+)", rule)
            if each:
                kinds.update({n: Kind(n, own.lower(), rule) for n in range(int(each[1]), int(each[2]) + 1)})
        if none:
            without = listed(none)
            if not without or any(kinds[n].rule != "none" for n in without):
                raise Unknown(fault(f"the list of kinds without children is not that of the rules before it: {none}"))
    for n in listed(re.search(r"Names stand on ([\d, and]*),", text)[1]):
        kinds[n].named = True
    for n, most in re.findall(r"\(kind (\d+): 0 to (\d+)\)", text):
        kinds[int(n)].details = int(most)
    kinds[int(re.search(r"position of the name in kind (\d+)", text)[1])].placed = True
    if sorted(kinds) != sorted(WORD):
        raise Unknown(fault("the sentences do not give the kinds of the package"))
    return kinds


def listed(text):
    """The numbers of '26 and 28 to 32'."""
    found = []
    for first, last in re.findall(r"(\d+)(?: to (\d+))?", text):
        found += range(int(first), int(last or first) + 1)
    return found


def changed(children):
    """These children, and with one dropped, one of another class, one more at either end; and two less or more, for what goes in pairs."""
    yield children
    yield children[:-2]
    for at in range(len(children)):
        yield children[:at] + children[at + 1:]
        for one in CHILD:
            yield children[:at] + (one,) + children[at + 1:]
    for one in CHILD:
        yield (one,) + children
        yield children + (one,)
        yield children + (one, one)


def told(children):
    return ", ".join(children) or "nothing"


class Cases:
    """Cases in words and their answers, each tree once."""

    def __init__(self):
        self.cases, self.answers, self.trees = [HEADING], [HEADING], set()

    def add(self, label, tree, refused_at=None, names="", number=3):
        if (tree, names) not in self.trees:
            self.trees.add((tree, names))
            self.cases.append(f"{label} | check{names} | {tree}")
            self.answers.append(f"{label}: {'sound' if refused_at is None else f'{number} at {refused_at}'}")

    def head(self, heading):
        self.cases.append(heading)
        self.answers.append(heading)


def of_kind(kind, cases):
    name = f"{kind.number} {WORD[kind.number]}"
    around, at = PLACE[kind.own]

    def add(label, record, sound, names=""):
        cases.add(label, around.format(record), None if sound else at, names)

    least = {detail: min(kind.met(detail), key=len) for detail in range(kind.details + 1)}
    for detail in least:
        for children in kind.met(detail):
            for others in changed(children):
                add(f"{name}{f':{detail}' if detail else ''} of {told(others)}", kind.text(detail, others), kind.fits(detail, others))
    for children in dict.fromkeys(least.values()):
        for detail in (kind.details + 1, 255):
            add(f"{name}:{detail} of {told(children)}, a detail that it has not", kind.text(detail, children), False)
    if kind.named:
        add(f"{name} without a name", kind.text(0, least[0], ""), False)
        add(f"{name}, a name of 255 bytes", kind.text(0, least[0], " name=0+255"), True, " names=256")
        add(f"{name}, a name of 256 bytes", kind.text(0, least[0], " name=0+256"), False, " names=256")
    else:
        add(f"{name} with a name", kind.text(0, least[0], " name=0+1"), False, " names=16")
        add(f"{name} with the start of a name", kind.text(0, least[0], " name=1+0"), False, " names=16")
    add(f"{name}, a position in bytes 20 to 23", kind.text(0, least[0], (" a" if kind.named else "") + " pos=1"), kind.placed)
    for own, (holder, index) in HOLDER.items():
        cases.add(f"{name} in the place of a kind of {own}", holder.format(kind.text(0, least[0])), None if own == kind.own else index)


def depths(tree, kinds):
    """The depth of each node of a tree in words, in table order."""
    found = []

    def walk(node, above):
        depth = above + (kinds[node.kind].own in COUNTED)
        found.append(depth)
        for child in node.children:
            walk(child, depth)

    for root in trees(tree):
        walk(root, 0)
    return found


def at_depth(deepest, record, own, levels, kinds):
    """A tree in words, with as many levels around the record as give its deepest node the depth `deepest`."""
    root = "(OtherSimple {})" if own == "expression" else "{}"
    times, left = divmod(deepest - max(depths(root.format(record), kinds)), len(levels))
    for part, turns in (levels, times), (levels[:left], 1):
        before, behind = zip(*(level.split("{}") for level in part)) if part else ("", "")
        before, behind = "".join(before), "".join(reversed(behind))
        record = f"{before}{record}{behind}" if turns == 1 else f"^{turns}<{before}>{record}^{turns}<{behind}>"
    return root.format(record)


def deep_of_kind(kind, kinds, cases):
    for detail in range(kind.details + 1):
        record = kind.text(detail, max(kind.met(detail), key=len))
        for owner, own in OWNER[kind.own]:
            for way, levels in (f"under {own}s alone", ALONE[own]), (f"under {own}s of many kinds", MIXED[own]):
                for deepest in MOST_DEPTH, MOST_DEPTH + 1:
                    tree = at_depth(deepest, owner.format(record), own, levels, kinds)
                    over = [at for at, depth in enumerate(depths(tree, kinds)) if depth > MOST_DEPTH]
                    name = f"{kind.number} {WORD[kind.number]}{f':{detail}' if detail else ''}"
                    cases.add(f"{name}, depth {deepest}, {way}", tree, over[0] if over else None, number=4)


def first_wrong_file(tree, limits):
    """The first record whose source file number is wrong, or None. Down the tree, as in the sentences: a root Statements has 0 and its
    children are the top-level statements; another root is one itself; each has a number within the limits, and all records under it have the same."""
    root, = trees(tree)
    nodes = list(tables.preorder([root]))
    tops = root.children if root.kind == NUMBER["Statements"] else [root]
    right = {id(node): {top.fields["file"]} for top in tops for node in tables.preorder([top])}
    right.update({id(top): range(limits[0], limits[1] + 1) for top in tops})
    right.setdefault(id(root), {0})
    return next((at for at, node in enumerate(nodes) if node.fields["file"] not in right[id(node)]), None)


def numbered(tree, file):
    """A tree in words, each record with this source file number."""
    return re.sub(r"\((\w+(?::\d+)?)", rf"(\1 file={file}", tree)


def files_of_kind(kind, limits, cases):
    name = f"{kind.number} {WORD[kind.number]}"
    record = kind.text(0, min(kind.met(0), key=len))
    around = PLACE[kind.own][0]
    both_sides = sorted({beside for limit in limits for beside in (limit - 1, limit)} | {limits[1] + 1})

    def add(label, tree):
        cases.add(f"{name}, {label}", tree, first_wrong_file(tree, limits))

    for file in both_sides:
        if kind.own == "statement":
            add(f"file {file} as the root", numbered(record, file))
            add(f"file {file} under a root Statements", f"(Statements file=0 {numbered(record, file)})")
            add(f"file {file} under a root Statements that has 1", f"(Statements file=1 {numbered(record, file)})")
    for top in limits:
        for file in (top - 1, top, top + 1):
            one = numbered(record, top).replace(f"file={top}", f"file={file}", 1)
            below = numbered(around.format("{}"), top).format(one)
            if kind.own == "statement":
                below = f"(Statements file={top} {one})"
            add(f"file {file} in a statement of {top}", f"(Statements file=0 {below})")
            if kind.own != "statement":
                add(f"file {file} in a root of {top}", below)


def made(text):
    """The cases and their answers."""
    kinds, cases = read(text), Cases()
    limits = [int(n) for n in re.search(r"a source file number from (\d+) to (\d+);", text).groups()]
    for number in sorted(kinds):
        of_kind(kinds[number], cases)
    for number in [n for n in range(max(kinds) + 2) if n not in kinds] + [255]:
        cases.add(f"{number} is no kind", f"(Break kind={number})", 0)
    cases.head(DEEP)
    for number in sorted(kinds):
        deep_of_kind(kinds[number], kinds, cases)
    cases.head(FILES)
    for number in sorted(kinds):
        files_of_kind(kinds[number], limits, cases)
    return "\n".join(cases.cases) + "\n", "\n".join(cases.answers) + "\n", len(cases.trees)


def main(words):
    text = (FOLDER / "sentences.txt").read_text()
    try:
        cases, answers, count = made(text)
    except Unknown as unknown:
        return ended([*unknown.args], "")
    stdout = FOLDER / "stdout"
    above = stdout.read_text().partition(HEADING)[0]
    files = {FOLDER / "kinds.txt": cases, stdout: above + answers}
    if words != ["--check"]:
        for path, wanted in files.items():
            path.write_text(wanted)
    faults = [fault(f"{path.relative_to(ROOT)} is NOT what the sentences give") for path, wanted in files.items()
              if not path.exists() or path.read_text() != wanted]
    at_hand = all(document.exists() for document in DOCUMENTS)
    if at_hand:
        documents = "".join(document.read_text() for document in DOCUMENTS)
        quoted = [line for line in text.splitlines() if not line.startswith("#")]
        faults += [fault(f"neither the scope nor a request has these words: {line}") for line in quoted if line not in documents]
    where = "which are those of the scope and the requests" if at_hand else "which were not compared: the scope and the requests are not present"
    return ended(faults, f"crates/cases: {count} cases and answers are what the sentences give, {where}")


if __name__ == "__main__":
    sys.exit(main(sys.argv[1:]))
