"""The parts of f-strings, by the crate's lexer and by Python's result for the same f-strings; the comments of `ducat dump`."""
import json
import random
import unittest

import support
from command import STEP, CommandTest
from ducatmuffin import export

ROUNDS = 2000
# a script of one f-string, its parts, and its format text
CASES = [
    ('f""', [], b""),
    ('f"{a}"', ["none"], b"{}"),
    ('f"{a!s}{b!r}"', ["str", "repr"], b"{}{!r}"),
    ('f"x{a}y{b!r}z"', [b"x", "none", b"y", "repr", b"z"], b"x{}y{!r}z"),
    ('f"{{}}{{{a}}}"', [b"{}{", "none", b"}"], b"{{}}{{{}}}"),
    (r'f"\n\t\\\"\'\x41\u00e9\U0001f600\101\0\q\{{a}"', ["\n\t\\\"'A\u00e9\U0001f600A\0\\q\\{".encode(), "none"],
     "\n\t\\\"'A\u00e9\U0001f600A\0\\q\\{{{}".encode()),
    (r'f"\{"', [b"\\{"], b"\\{{"),
    (r'fr"\n\"{a}\{"', [rb'\n"', "none", b"\\{"], rb'\n"{}\{{'),
    ("f'''a\n\"'' {a}\r\nb\\\nc'''", [b"a\n\"'' ", "none", b"\nbc"], b"a\n\"'' {}\nbc"),
    ("f\"{f'{a}!{b!r}'}\"", ["none"], b"{}"),
    ("f\"{ {'k': a}['k'] }\"", ["none"], b"{}"),
    (r'f"\777\400"', ["\u01ff\u0100".encode()], "\u01ff\u0100".encode()),
]


def format_text(parts):
    return support.library().fstring_write(parts, None).data


def fstrings_of(source):
    return export.exported(source.encode()).fstrings


class Parts(unittest.TestCase):
    def test_cases(self):
        for source, parts, text in CASES:
            with self.subTest(source):
                (_, found), *_ = fstrings_of(source)
                self.assertEqual((found, format_text(found)), (parts, text))

    def test_nodes(self):
        made = export.exported(b"x = f'{a}'\ny = [f'b', f'{f\"{c}\"}']\n")
        self.assertEqual([(node, made.table[24 * node]) for node, _ in made.fstrings], [(3, 43), (8, 43), (9, 43), (10, 43)])
        self.assertEqual([parts for _, parts in made.fstrings], [["none"], [b"b"], ["none"], ["none"]])
        large = b"pass\n" * 2100 + b"f'{a!r}'\n"
        last = export.cut([large], [export.statements_of(large)])[-1]
        self.assertEqual([(node + last.shift, parts) for node, parts in last.fstrings], [(2102, ["repr"])])

    def test_as_python_has_it(self):
        """The format text with the values inserted is the string that Python makes."""
        draw, values = random.Random(62), {"a": "q'", "b": 7}
        texts = ["x", " ", "é", "{{", "}}", "\\n", "\\\\", "\\x41", "\\u00e9", "\\101", "\\t", "'", "1"]
        for _ in range(ROUNDS):
            raw, quote = draw.choice(["", "r"]), draw.choice(['"', '"""'])
            written, given = "", []
            for _ in range(draw.randrange(6)):
                if draw.random() < 0.4:
                    name, conversion = draw.choice("ab"), draw.choice(["", "!r", "!s"])
                    written += f"{{{name}{conversion}}}"
                    given.append(values[name])
                else:
                    # in a raw one a backslash before a brace has the brace as text, other than in Python
                    written += draw.choice([text for text in texts if not raw or "\\" not in text])
            source = f"f{raw}{quote}{written}{quote}"
            parts = fstrings_of(source)[0][1]
            self.assertEqual(format_text(parts).decode().format(*given), eval(source, {}, values), source)
            self.assertTrue(all(part for part in parts))
            self.assertFalse(any(isinstance(one, bytes) and isinstance(two, bytes) for one, two in zip(parts, parts[1:])))


class Dump(CommandTest):
    def test_comments(self):
        path = self.put("f.star", 'x = f"a {y!r} {{\\n\u2028{z}"\n')
        ran = self.says(0, None, STEP, "dump", path)
        self.assertEqual(ran.out.splitlines()[0], '# node 2, the format text of an f-string: "a {!r} {{\\n\\u2028{}"')
        text, made = self.put("f.txt", ran.out), [self.at("1.table"), self.at("2.table")]
        self.says(0, None, "", "table", text, "-o", made[0])
        self.says(0, None, STEP, "table", path, "-o", made[1])
        self.assertEqual(self.read("1.table"), self.read("2.table"))
        entry, = json.loads(self.run_ducat("dump", "--json", path).out)["inputs"]
        self.assertEqual(entry["f_strings"], [{"node": 2, "format": "a {!r} {{\n\u2028{}"}])
        entry, = json.loads(self.run_ducat("dump", "--json", made[0]).out)["inputs"]
        self.assertNotIn("f_strings", entry)


class Check(CommandTest):
    """62 for each f-string of a script if the dialect has none."""

    def numbers(self, status, *words):
        ran = self.says(status, None, STEP, "check", *words)
        return [line.split(": ")[0].rsplit("/", 1)[-1] for line in ran.out.splitlines() if ": 62 " in line]

    def test_where_the_dialect_has_none(self):
        path = self.put("f.star", 'x = f"{a}"\ny = [f"b", f"{c!r}"]\n')
        for words in ((), ("--dialect", "extended"), ("--dialect", "standard")):
            with self.subTest(words):
                self.assertEqual(self.numbers(1, *words, path)[:3], ["f.star:1:5", "f.star:2:6", "f.star:2:12"])
        self.assertEqual(self.numbers(0, "--dialect", "all", path), [])
        self.says(0, None, STEP, "check", "--module", path)

    def test_of_joined_scripts(self):
        paths = [self.put("a.star", 'x = f"{a}"\n'), self.put("b.star", 'y = 1\nz = f"{b}"\n')]
        self.assertEqual(self.numbers(1, "--join", *paths), ["a.star:1:5", "b.star:2:5"])

    def test_of_a_script_in_several_tables(self):
        path = self.put("large.star", "x = [1, 2, 3]\n" * 600 + 'y = f"{b}"\n')
        self.assertEqual(self.numbers(1, path), ["large.star:601:5"])

    def test_a_table_does_not_mark_them(self):
        path = self.put("f.star", 'x = f"{a}"\n')
        self.says(0, None, STEP, "table", path, "-o", self.at("f.table"))
        ran = self.says(0, None, "", "check", self.at("f.table"))
        self.assertNotIn("62", ran.out.split("nodes")[1].splitlines()[1:])


if __name__ == "__main__":
    unittest.main()
