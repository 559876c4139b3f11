"""Every parameter list and every argument list of up to four entries, and every form of target: the parser gives the table that is written here
beside the script, without a parser, and the checker gives the same numbers and places for both.
"""
import itertools
import unittest

import support
from ducatmuffin import export, numbers
from ducatmuffin.table import KIND, Node, place, table_of, trees

MOST = 4  # entries
ALL = numbers.DIALECTS["all"]
NAMES = "abcd"


def naming(count):
    """The names of the given number of entries, up to a change of letters: every choice of which of them are equal."""
    def further(chosen):
        if len(chosen) == count:
            yield chosen
            return
        for letter in NAMES[:len(set(chosen)) + 1]:
            yield from further(chosen + letter)
    return further("")


def entry_lists(forms):
    """Every list of up to four forms, with every choice of names for the forms that have one: pairs of a form and a name."""
    for length in range(MOST + 1):
        for chosen in itertools.product(forms, repeat=length):
            for letters in naming(sum("NAME" in form for form in chosen)):
                left = iter(letters)
                yield [(form, next(left) if "NAME" in form else "") for form in chosen]


class Writer:
    """A script, and the nodes of its table, which get their spans as the script is written."""

    def __init__(self):
        self.text = ""

    def write(self, text):
        self.text += text

    def node(self, kind, *parts, detail=0, name=""):
        """A node of parts: a text is written, anything else makes a child. The span is what the parts have written."""
        made, begin = Node(KIND[kind], detail), len(self.text)
        made.name = name.encode()
        for part in parts:
            if isinstance(part, str):
                self.write(part)
            else:
                made.children.append(part())
        made.fields["span"] = begin, len(self.text)
        if kind == "Named":
            made.fields["pos"] = begin
        return made

    def value(self):
        return self.node("Int", "1")

    def identifier(self):
        return self.node("Identifier", "v", name="v")


PARAMETERS = {
    "NAME": lambda writer, name: writer.node("Normal", name, name=name),
    "NAME=1": lambda writer, name: writer.node("Normal", name + "=", writer.value, detail=2, name=name),
    "*": lambda writer, _: writer.node("NoArgs", "*"),
    "/": lambda writer, _: writer.node("Slash", "/"),
    "*NAME": lambda writer, name: writer.node("ArgsParam", "*" + name, name=name),
    "**NAME": lambda writer, name: writer.node("KwArgsParam", "**" + name, name=name)}
TYPED = {
    "NAME: v": lambda writer, name: writer.node("Normal", name + ": ", writer.identifier, detail=1, name=name),
    "NAME: v = 1": lambda writer, name: writer.node("Normal", name + ": ", writer.identifier, " = ", writer.value, detail=3, name=name),
    "*": PARAMETERS["*"],
    "*NAME: v": lambda writer, name: writer.node("ArgsParam", f"*{name}: ", writer.identifier, detail=1, name=name),
    "**NAME: v": lambda writer, name: writer.node("KwArgsParam", f"**{name}: ", writer.identifier, detail=1, name=name)}
ARGUMENTS = {
    "1": lambda writer, _: writer.node("Positional", writer.value),
    "(1)": lambda writer, _: writer.node("Positional", "(", writer.value, ")"),
    "NAME=1": lambda writer, name: writer.node("Named", name + "=", writer.value, name=name),
    "*v": lambda writer, _: writer.node("ArgsArg", "*", writer.identifier),
    "**v": lambda writer, _: writer.node("KwArgsArg", "**", writer.identifier)}


def entries(writer, forms, chosen):
    """The parts of a list: its entries, with commas between them."""
    parts = []
    for at, (form, name) in enumerate(chosen):
        parts += ([", "] if at else []) + [lambda form=form, name=name: forms[form](writer, name)]
    return parts


def a_def(writer, forms, chosen):
    return writer.node("Def", "def f(", *entries(writer, forms, chosen), "): ", lambda: writer.node("OtherSimple", "pass"))


def a_lambda(writer, forms, chosen):
    return writer.node("OtherSimple", lambda: writer.node("Lambda", "lambda ", *entries(writer, forms, chosen), ": ", writer.value))


def a_call(writer, forms, chosen):
    return writer.node("OtherSimple", lambda: writer.node("Call", writer.identifier, "(", *entries(writer, forms, chosen), ")"))


class Lists(unittest.TestCase):
    def every(self, write, forms, wanted, number):
        """Compares all lists of some forms: their number, and the numbers of rules that the checker gives for some of them."""
        library, seen, count = support.library(), set(), 0
        for chosen in entry_lists(forms):
            writer = Writer()
            expected = table_of([write(writer, forms, chosen)], shared=True)
            found = export.export(writer.text.encode())
            self.assertEqual(found, expected, writer.text)
            errors = library.audit(*found, ALL, 1).errors
            self.assertEqual(errors, library.audit(*expected, ALL, 1).errors, writer.text)
            seen.update(error.number for error in errors)
            count += 1
        self.assertEqual(seen, wanted)
        self.assertEqual(count, number)

    def test_parameters_of_a_def(self):
        self.every(a_def, PARAMETERS, set(range(10, 19)), 7939)

    def test_parameters_of_a_lambda(self):
        self.every(a_lambda, PARAMETERS, set(range(10, 19)), 7939)

    def test_parameters_with_types(self):
        self.every(a_def, TYPED, {11, 12, 13, 14, 16, 17, 18}, 5805)

    def test_arguments(self):
        self.every(a_call, ARGUMENTS, set(range(20, 25)), 972)


# a target, its tree in the text form, and whether it is a tuple or a list
TARGETS = [
    ("x", "(Identifier x)", False), ("(x)", "(Identifier x)", False), ("x.y", "(Dot y `x.y` (Identifier x))", False),
    ("x[0]", "(Index `x[0]` (Identifier x) (Int `0`))", False), ("x[0, 1]", "(Index2 `x[0, 1]` (Identifier x) (Int `0`) (Int `1`))", False),
    ("x[0:1]", "(Slice `x[0:1]` (Identifier x) (Int `0`) (Int `1`))", False), ("x()", "(Call `x()` (Identifier x))", False),
    ("7", "(Int `7`)", False), ("7.", "(Float `7.`)", False), ("'x'", "(String `'x'`)", False), ("b'x'", "(Bytes `b'x'`)", False),
    ("...", "(Ellipsis `...`)", False),
    ("f'x'", "(FString `f'x'`)", False), ("-x", "(Minus `-x` (Identifier x))", False), ("+x", "(Plus `+x` (Identifier x))", False),
    ("~x", "(BitNot `~x` (Identifier x))", False), ("not x", "(Not `not x` (Identifier x))", False),
    ("x + y", "(Op `x + y` (Identifier x) (Identifier y))", False), ("x | y", "(Op:1 `x | y` (Identifier x) (Identifier y))", False),
    ("x if y else z", "(IfExpr `x if y else z` (Identifier y span=5-6) (Identifier x span=0-1) (Identifier z span=12-13))", False),
    ("lambda: x", "(Lambda `lambda: x` (Identifier x))", False), ("{}", "(Dict `{}`)", False),
    ("[x for y in z]", "(ListComprehension `[x for y in z]` (Identifier x) (Identifier y) (Identifier z))", False),
    ("{x: y for w in z}", "(DictComprehension `{x: y for w in z}` (Identifier x) (Identifier y) (Identifier w) (Identifier z))", False),
    ("x, y", "(Tuple `x, y` (Identifier x) (Identifier y))", True), ("(x, y)", "(Tuple `(x, y)` (Identifier x) (Identifier y))", True),
    ("[x, 7]", "(List `[x, 7]` (Identifier x) (Int `7`))", True), ("()", "(Tuple `()`)", True), ("[]", "(List `[]`)", True),
    ("x, (y, [7, z()])", "(Tuple `x, (y, [7, z()])` (Identifier x) (Tuple `(y, [7, z()])` (Identifier y) (List `[7, z()]` (Int `7`)"
     " (Call `z()` (Identifier z)))))", True)]


def quoted(node):
    """Gives each node that quotes nothing its name as its quote."""
    for child in node.children:
        quoted(child)
    if node.quote is None:
        node.quote = node.name


class Targets(unittest.TestCase):
    def test_every_form(self):
        library, seen = support.library(), set()
        for target, words, several in TARGETS:
            for typed, sign in itertools.product((False, True), ("=", "+=", "|=", "<<=")):
                source = target + ": t" * typed + f" {sign} 1"
                root, = trees(f"({'Assign' if sign == '=' else 'AssignModify'}:{int(typed)} `{source}` {words}" + " (Identifier t span=0-0)" * typed
                              + f" (Int span={len(source) - 1}-{len(source)}))")
                if typed:
                    at = len(target) + 2
                    root.children[1].fields["span"] = at, at + 1
                quoted(root)
                place(root, source.encode())
                expected = table_of([root], shared=True)
                found = export.export(source.encode())
                self.assertEqual(found, expected, source)
                told = [error.number for error in library.audit(*found, ALL, 1).errors]
                seen.update(told)
                if sign != "=" and several:
                    self.assertEqual(told[0], 31, source)
        self.assertEqual(seen & set(range(30, 40)), {30, 31, 32, 33})


if __name__ == "__main__":
    unittest.main()
