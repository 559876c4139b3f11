"""The module `table`: records, files, and the text form both ways."""
import os
import random
import unittest

import support
from ducatmuffin import numbers, table

NAME = "n" * 255
# a text, and the message about it, with its line
WRONG = [
    # the tree
    ("", ": there is no tree"),
    ("# nothing\ndialect: Standard\n", ": there is no tree"),
    ("(Break)\n(Break)", ":2: Break: a second tree"),
    ("(Statements\n  (Brake))", ":2: no kind is called Brake"),
    ("()", ":1: no kind is called )"),
    ("((Break))", ":1: no kind is called ("),
    ("(Statements\n  (Def\n  (Break)", ":2: Def: a bracket that is not closed"),
    ("(Break)\n(", ": a bracket that is not closed"),
    ("(Break))", ":1: ) is outside a tree"),
    ("\n\ndialct: Standard\n(Break)", ":3: dialct: is outside a tree"),
    ("(Break)\nmore", ":2: more is outside a tree"),
    ("(Statements ^2<(Break)\n(Break)>\n(Brake))", ":3: no kind is called Brake"),
    ("(Statements ^100000<(Break)>)", ": ^100000 is too often"),
    # names
    ("(Statements\n(Break x))", ":2: Break: the name x, and this kind has none"),
    ("(Return (Int 7))", ":1: Int: the name 7, and this kind has none"),
    ("(OtherSimple (String s))", ":1: String: the name s, and this kind has none"),
    ("(OtherSimple (Call f (Int)))", ":1: Call: the name f, and this kind has none"),
    ("(Def f (Break))", ":1: Def: the name f, and this kind has none"),
    ("(OtherSimple\n\n(Identifier))", ":3: Identifier: a name is missing"),
    ("(OtherSimple (Dot (Int)))", ":1: Dot: a name is missing"),
    ("(Def (Normal) (Break))", ":1: Normal: a name is missing"),
    ("(Def (ArgsParam) (Break))", ":1: ArgsParam: a name is missing"),
    ("(Def (KwArgsParam) (Break))", ":1: KwArgsParam: a name is missing"),
    ("(OtherSimple (Call (Int) (Named (Int))))", ":1: Named: a name is missing"),
    ("(OtherSimple (Identifier a b))", ":1: Identifier: two names, a and b"),
    (f"(OtherSimple (Identifier {NAME}n))", ":1: Identifier: a name of 256 bytes, and 255 is the most"),
    # details
    ("(Break:1)", ":1: Break: this kind has no detail 1"),
    ("(Def:2 (Int) (Break))", ":1: Def: this kind has no detail 2"),
    ("(Def (Normal:4 a) (Break))", ":1: Normal: this kind has no detail 4"),
    ("(OtherSimple (Op:2 (Int) (Int)))", ":1: Op: this kind has no detail 2"),
    ("(Def (ArgsParam:2 a) (Break))", ":1: ArgsParam: this kind has no detail 2"),
    ("(Break:x)", ":1: Break: x is not a number"),
    ("(Break:)", ":1: Break:  is not 1 number"),
    ("(Break:256)", ":1: Break: 256 is more than 255"),
    # fields
    ("(Break colour=3)", ":1: Break: there is no field colour"),
    ("(Break span=4)", ":1: Break: 4 is not 2 numbers"),
    ("(Break span=4-5-6)", ":1: Break: 4-5-6 is not 2 numbers"),
    ("(Break span=4-x)", ":1: Break: 4-x is not a number"),
    ("(Break span=-4-5)", ":1: Break: -4-5 is not 2 numbers"),
    ("(Statements\n(Break span=9-4))", ":2: Break: a span from 9 to 4, which is before it"),
    ("(Break span=0-2147483648)", ":1: Break: a span to 2147483648, and 2147483647 is the last position"),
    ("(Break span=0-4294967296)", ":1: Break: 4294967296 is more than 4294967295"),
    (f"(Break span=0-{'9' * 5000})", f":1: Break: {'9' * 5000} is more than 4294967295"),
    ("(Break size=65536)", ":1: Break: 65536 is more than 65535"),
    ("(Break size=)", ":1: Break:  is not 1 number"),
    ("(Break kind=256)", ":1: Break: 256 is more than 255"),
    ("(Break file=65536)", ":1: Break: 65536 is more than 65535"),
    ("(Break name=1)", ":1: Break: 1 is not 2 numbers"),
    ("(Break name=0+65536)", ":1: Break: 65536 is more than 65535"),
    ("(OtherSimple (Call (Int) (Named ab pos=2147483646 (Int))))", ":1: Named: a name that ends beyond 2147483647"),
    # source file numbers
    ("file: 65536\n(Break)", ":1: 65536 is more than 65535"),
    ("file: one\n(Break)", ":1: one is not a number"),
    ("(Statements\nfile:\n(Break))", ":2:  is not 1 number"),
    ("(Statements\n(Break) (If (Int)\nfile: 2\n(Break)))", ":3: a line file: within a statement"),
    ("(If (Int)\nfile: 2\n(Break))", ":2: a line file: within a statement"),
    # quotes
    ("(Break `break`)", ":1: Break: a quote, and no script is named"),
    ("script: s.star\n(Statements `pass…break` (OtherSimple `pass`)\n(Break))", ":3: Break: it quotes nothing of the script"),
    ("script: s.star\n(Break ``)", ":2: Break: it quotes nothing of the script"),
    ("script: s.star\n(Break `brake`)", ":2: Break: `brake` is not between 0 and 11 of the script"),
    ("script: s.star\n(Statements `pass…brake`)", ":2: Statements: `brake` is not between 4 and 11 of the script"),
    ("script: s.star\n(Statements `pass`\n(Break `break`))", ":3: Break: `break` is not between 0 and 4 of the script"),
    ("script: s.star\n(Break `break)", ":2: Break: a quote that does not end: `break"),
    ("script: s.star\n(Break `break` `break`)", ":2: Break: two quotes"),
    # the other lines
    ("dialect: normal\n(Break)", ":1: normal is not a dialect: a name is needed, or nine numbers, 0 or 1, the sixth 0 to 2"),
    ("(Break)\ndialect: 11100010", ":2: 11100010 is not a dialect: a name is needed, or nine numbers, 0 or 1, the sixth 0 to 2"),
    ("dialect: 111003100\n(Break)", ":1: 111003100 is not a dialect: a name is needed, or nine numbers, 0 or 1, the sixth 0 to 2"),
    ("edition: 1\n(Break)", ":1: an edition, and no dialect: a file without a dialect has none"),
    ("dialect: none\nedition: 2\n(Break)", ":2: an edition, and no dialect: a file without a dialect has none"),
    ("rules: off\nedition: 2\n(Break)", ":2: an edition, and no dialect: a file without a dialect has none"),
    ("dialect: all\nedition: 0\n(Break)", ":2: 0 is not an edition: 1 or 2"),
    ("dialect: all\nedition: 3\n(Break)", ":2: 3 is not an edition: 1 or 2"),
    ("dialect: all\nedition: one\n(Break)", ":2: one is not a number"),
    ("dialect: all\nedition: 1\nedition: 1\n(Break)", ":3: a second line edition:"),
    ("rules: off\ndialect: all\nedition: 256\n(Break)", ":3: 256 is more than 255"),
    ("dialect: none\ndialect: none\n(Break)", ":2: a second line dialect:"),
    ("change: 600\n(Break)", ":1: 600 is not 2 numbers"),
    ("change: 600 256\n(Break)", ":1: 256 is more than 255"),
    ("change: 1024 7\n(Break)", ":1: 1024 is more than 1023"),
    ("change: 2 4\n(Break)", ":1: byte 2 is 4 already"),
    ("cut: x\n(Break)", ":1: x is not a number"),
    ("cut: 1025\n(Break)", ":1: 1025 is more than 1024"),
    # names and rules
    ("names: a\n(Break)", ":1: a is neither shared nor name bytes in quotes"),
    ('names: "a\\y"\n(Break)', ':1: "a\\y" is neither shared nor name bytes in quotes'),
    ('names: "ab"\n(OtherSimple (Identifier a))', ":2: Identifier: a name without its place, name=START+LENGTH, and the name bytes are given"),
    ('names: "ab"\n(OtherSimple (Identifier a name=1+1))', ":2: Identifier: the name a is not what lies at 1+1"),
    ("rules: on\n(Break)", ":1: on is not off"),
    ("rules: off\nscript: s.star", ": there is no tree"),
    ("(Break)\nnames: shared\nnames: shared", ":3: a second line names:"),
    (b"(Statements\n(OtherSimple (Identifier \xff)))", ":2: not UTF-8"),
]
# texts that are right, and the number of blocks that they take
RIGHT = [
    ("(Break)", 2), ("(Statements)", 2), (f"(OtherSimple (Identifier {NAME}))", 3), ("(Break kind=13)", 2), ("(Assign (Int))", 2),
    ("(Break size=0 file=0 pos=7 name=1+0)", 2), ("(Break span=2147483647-2147483647)", 2), ("(Def:1 (Normal:3 a (Int) (Int)) (Int) (Break))", 3),
    ("script: s.star\r\n(Statements `pass…break` (OtherSimple `pass`) (Break `break`))\r\n", 2), ("cut: 0\n(Break)", 0),
    ("(OtherSimple\n  (Op:1 (Identifier\n  a) (Ellipsis)))", 3), ("(Statements ^70<(Statements >^70<)>)", 5), ("^20000<(Not >(Int)^20000<)>", 954),
    ("rules: off\n(Break:9 x span=9-4)", 3), ("rules: off\n", 1), ("dialect: all\n(Break)", 2), ("dialect: standard\n(Break)", 2)]


def script(name):
    """The script that the texts here quote."""
    return {"s.star": b"pass; break"}[name]


def wrong(self, text, said):
    with self.assertRaises(table.TextError) as caught:
        table.read_text(table.decoded(text) if isinstance(text, bytes) else text, script).file()
    error = caught.exception
    self.assertEqual(f":{error.line}: {error.message}" if error.line else f": {error.message}", said)


def right(self, text, blocks):
    self.assertEqual(len(table.read_text(text, script).file()), 512 * blocks)


@support.each(wrong, WRONG, "wrong")
class Wrong(unittest.TestCase):
    """A text that is wrong is refused with its line and its kind."""


@support.each(right, RIGHT, "right")
class Right(unittest.TestCase):
    """Texts that are right though odd."""


class Records(unittest.TestCase):
    def test_decode_and_encode(self):
        data = random.Random(1).getrandbits(24 * 8 * 50).to_bytes(24 * 50, "little")
        self.assertEqual(table.encode(table.decode(data)), data)
        self.assertEqual(table.decode(memoryview(data)), table.decode(data))

    def test_fields(self):
        held = table.parts_of(support.sample("example.table"))[0]
        self.assertEqual(table.decode(held)[2], table.Record(50, 2, 1, 1, 9, 12, 2, 1, 0))

    def test_names_and_children(self):
        held, names, dialect, _ = table.parts_of(support.sample("example.table"))
        records = table.decode(held)
        self.assertEqual([table.name_of(record, names) for record in records], [b"", b"a", b"b", b"", b"c", b""])
        self.assertEqual(list(table.children(records, 0)), [1, 2, 4, 5])
        self.assertEqual(list(table.children(records, 2)), [3])
        self.assertEqual(table.parents(records), [None, 0, 0, 2, 0, 0])
        self.assertEqual(dialect, numbers.DIALECTS["standard"])

    def test_children_of_an_unsound_table_end(self):
        records = [table.Record(1, 0, 0, 0, 0, 1, 9), table.Record(6, 0, 0, 0, 0, 1, 0), table.Record(6, 0, 0, 0, 0, 1, 1)]
        self.assertEqual(list(table.children(records, 0)), [1])

    def test_kinds(self):
        self.assertEqual((table.kind_name(22), table.kind_class(22)), ("Call", "expression"))
        self.assertEqual((table.kind_name(13), table.kind_class(13)), ("kind 13", None))


class Files(unittest.TestCase):
    def test_the_library_writes_the_same(self):
        for name in support.samples(".table"):
            data = support.sample(f"{name}.table")
            held = support.library().read(data)
            if held.accepted:
                with self.subTest(name):
                    self.assertEqual(table.parts_of(data), (held.table, held.names, held.dialect, held.edition))
                    self.assertEqual(table.file_of(held.table, held.names, held.dialect, held.edition), data)

    def test_every_length_of_names(self):
        for count in (0, 1, 503, 504, 505, 8064):
            held, names = table.encode([table.Record(6, 0, 0, 0, 0, 1, 1, 1)]), b"n" * count
            data = support.library().write(held, names, None, None).data
            self.assertEqual(table.file_of(held, names, None), data)
            self.assertEqual(table.parts_of(data), (held, names, None, None))

    def test_a_file_that_is_cut(self):
        for size in (0, 1, 511, 512, 1535):
            with self.assertRaises(table.FileError):
                table.parts_of(support.sample("example.table")[:size])


class Texts(unittest.TestCase):
    def same(self, held, names, dialect, edition=None):
        text = table.print_text(held, names, dialect, edition)
        self.assertEqual(table.parse_text(text), (bytes(held), bytes(names), dialect, edition))
        return text

    def test_samples_give_their_files(self):
        for name in support.samples(".txt"):
            with self.subTest(name):
                text = table.read_text(table.decoded(support.sample(f"{name}.txt")), support.sample)
                self.assertEqual(text.file(), support.sample(f"{name}.table"))
                self.same(*text[:4])

    def test_a_printed_text(self):
        self.assertEqual(table.print_text(*table.parts_of(support.sample("example.table"))), """dialect: Standard
(Def span=0-25
  (Normal a span=6-7)
  (Normal:2 b span=9-12
    (Int span=11-12))
  (Normal c span=14-15)
  (Break span=20-25))
""")

    def test_a_printed_text_with_shared_names(self):
        held, names = table.table_of(table.trees("(OtherSimple (Op (Identifier a) (Identifier a)))"), shared=True)
        self.assertEqual(self.same(held, names, None), """dialect: none
names: shared
(OtherSimple span=0-1
  (Op span=1-2
    (Identifier a span=2-3)
    (Identifier a span=3-4)))
""")

    def test_names_of_any_bytes(self):
        whole = bytes(range(256))
        for start, length in ((0, 1), (10, 1), (32, 1), (34, 1), (40, 2), (92, 1), (96, 1), (61, 1), (200, 56), (1, 255)):
            held = table.encode([table.Record(10, 0, 0, 0, 0, 1, 2, 1), table.Record(26, 0, length, start, 0, 1, 1, 1)])
            self.assertTrue(support.library().write(held, whole, None, None).accepted)
            self.same(held, whole, None)

    def test_names_shared_overlapping_and_unused(self):
        for places in (((0, 2), (0, 2)), ((0, 2), (1, 2)), ((2, 1), (0, 2)), ((0, 1), (0, 1))):
            records = [table.Record(1, 0, 0, 0, 0, 9, 5)]
            for start, length in places:
                records += [table.Record(10, 0, 0, 0, 0, 1, 2, 1), table.Record(26, 0, length, start, 0, 1, 1, 1)]
            held = table.encode(records)
            self.assertTrue(support.library().write(held, b"aaab", None, None).accepted)
            self.same(held, b"aaab", None)

    def test_every_dialect(self):
        held = table.encode([table.Record(6, 0, 0, 0, 0, 1, 1)])
        for number in range(2 ** 8 * 3):
            digits = [number >> at & 1 for at in range(8)]
            self.same(held, b"", bytes(digits[:5] + [number >> 8] + digits[5:]))

    def test_every_edition(self):
        """Any byte of an edition has a text, one that is not an edition with `rules: off`."""
        held, row = table.encode([table.Record(6, 0, 0, 0, 0, 1, 1, 1)]), numbers.DIALECTS["standard"]
        for edition in range(256):
            text = self.same(held, b"", row, edition)
            self.assertEqual(text.split("\n")[1], f"edition: {edition}")
            self.assertEqual("rules: off" in text, edition not in (1, 2))
        self.assertNotIn("edition", self.same(held, b"", row))

    def test_tables_that_are_not_sound(self):
        known = random.Random(2)
        sound, names, dialect, _ = table.parts_of(support.sample("whole.table"))
        for turn in range(400):
            held = bytearray(sound)
            for _ in range(known.randrange(1, 6)):
                held[known.randrange(len(held))] = known.randrange(256)
            if turn % 4 == 0:
                held = bytearray(known.getrandbits(8) for _ in range(24 * known.randrange(40)))
            of_names = bytes(known.getrandbits(8) for _ in range(known.randrange(30))) if turn % 2 else names
            self.same(held, of_names, bytes(known.getrandbits(8) for _ in range(9)) if turn % 3 == 0 else dialect,
                      known.randrange(256) if turn % 5 == 0 else None)

    def test_the_largest_tables(self):
        deep = [table.Record(1, 0, 0, 0, 0, 1, numbers.NODES - at) for at in range(numbers.NODES)]
        self.same(table.encode(deep), b"", None)
        wide = [table.Record(1, 0, 0, 0, 0, 1, numbers.NODES)] + [table.Record(6, 0, 0, 0, 0, 1, 1)] * (numbers.NODES - 1)
        self.same(table.encode(wide), b"n" * numbers.NAME_BYTES, None)

    def test_parts_of_records(self):
        with self.assertRaises(table.TextError):
            table.print_text(bytes(25), b"", None)

    def test_source_file_numbers(self):
        """Without a word 1, and 0 on a root Statements; file: for what follows; file= for one record."""
        for text, wanted in (("(Break)", [1]), ("(Statements)", [0]), ("(Statements (Statements (Break)) (Break))", [0, 1, 1, 1]),
                             ("(If (Int) (Break))", [1, 1, 1]), ("file: 2\n(If (Int) (Break))", [2, 2, 2]), ("file: 2\n(Statements (Break))", [0, 2]),
                             ("(Statements file=5 (If file=999 (Int) (Break)))", [5, 999, 1, 1]), ("(Break file=0)", [0]),
                             ("(Statements\nfile: 3\n(Break)\n(If (Int)\n(Break))\nfile: 1000\nfile: 4\n(Break) (Break)\nfile: 3\n(Break))",
                              [0, 3, 3, 3, 3, 4, 4, 3]), ("(Break kind=1)", [0]), ("(Statements kind=13)", [1])):
            with self.subTest(text):
                held, names, dialect, _ = table.parse_text(text)
                self.assertEqual([record.file for record in table.decode(held)], wanted)
                self.same(held, names, dialect)

    def test_a_printed_text_of_two_scripts(self):
        text = """dialect: none
(Statements span=0-9
  (Break span=0-1)
file: 2
  (If span=0-9
    (Int span=3-4)
    (Break span=6-9 file=7)))
"""
        self.assertEqual(self.same(*table.parse_text(text)), text)

    def test_a_printed_text_of_zeros(self):
        """A table that is older than source file numbers."""
        held, names, dialect, _ = table.parts_of(support.sample("example.table"))
        zeros = table.encode(record._replace(file=0) for record in table.decode(held))
        self.assertTrue(self.same(zeros, names, dialect).startswith("dialect: Standard\nfile: 0\n(Def span=0-25\n  (Normal a span=6-7)\n"))


class Numbers(unittest.TestCase):
    """The package's lists are those of docs/."""

    def rows(self, name):
        with open(os.path.join(support.ROOT, "docs", name), encoding="utf-8") as file:
            return [line.rstrip("\n").split("\t") for line in file][1:]

    def test_numbers(self):
        self.assertEqual(numbers.WORDS, {int(number): words for number, _, words, _ in self.rows("numbers.tsv")})
        self.assertEqual(numbers.NUMBERS, {int(number): name for number, name, _, _ in self.rows("numbers.tsv")})

    def test_the_largest_source_file_number(self):
        with open(os.path.join(support.ROOT, "include", "starlark.h"), encoding="utf-8") as file:
            self.assertIn(f"#define STARLARK_LAST_FILE {table.LAST_FILE}\n", file.read())

    def test_kinds(self):
        self.assertEqual(numbers.KINDS, {int(number): (name, own) for number, name, own in self.rows("kinds.tsv")})


if __name__ == "__main__":
    unittest.main()
