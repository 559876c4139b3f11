"""ducat write, table and dump: what is written is what the samples have, what is refused leaves OUT unchanged, and a dump gives the same bytes back."""
import json
import os
import random
import unittest

import support
from command import STEP, CommandTest
from ducatmuffin import numbers, table

LARGEST = "dialect: Standard\n(Statements ^64<(OtherSimple (Identifier " + "0" * 126 + "))> ^1970<(OtherSimple)> (Break))"


class Write(CommandTest):
    def parts(self, text):
        """Table and names of a text, in files."""
        self.put("table", text.table)
        self.put("names", text.names)
        return self.at("table"), self.at("names")

    def refused(self, number, table_, names, *more):
        self.put("out", "old")
        ran = self.run_ducat("write", table_, names, "-o", self.at("out"), *more)
        self.assertEqual((ran.status, ran.out, len(ran.err.splitlines())), (2, f"refused {number}\n" if number else "", 1), ran.err)
        self.assertEqual(self.read("out"), b"old")
        self.alone()
        return ran.err

    def test_each_sample(self):
        for name in support.samples(".txt"):
            text = table.read_text(support.sample(f"{name}.txt").decode(), support.sample)
            parts = self.parts(text)
            dialect = ["--dialect", "".join(map(str, text.dialect))] if text.dialect else []
            if name == "unsound":
                self.assertIn("it has 1 child, and Assign takes 2", self.refused(3, *parts, *dialect))
                continue
            if name == "edition-bad":
                self.assertIn("an edition is 1 or 2", self.refused(0, *parts, *dialect, "--edition", str(text.edition)))
                continue
            dialect += ["--edition", str(text.edition)] if text.edition else []
            whole = table.file_of(text.table, text.names, text.dialect, text.edition)
            self.says(0, f"written {len(whole)}\n", "", "write", *parts, *dialect, "-o", self.at("out"))
            self.assertEqual(self.read("out"), whole)
            self.alone()

    def test_the_largest_and_what_is_longer(self):
        text = table.read_text(LARGEST)
        records, names = self.parts(text)
        self.says(0, "written 59904\n", "", "write", records, names, "--dialect", "standard", "-o", self.at("out"))
        self.assertEqual(self.read("out"), text.file())
        long_records, long_names = self.put("long table", text.table + b"\0"), self.put("long names", text.names + b"\0")
        self.refused(1, long_records, long_names, "--dialect", "111003100")
        self.refused(2, records, long_names, "--dialect", "111003100")
        self.assertIn("the bytes are 1 1 1 0 0 3 1 0 0", self.refused(5, records, names, "--dialect", "111003100"))

    def test_dialects(self):
        text = table.read_text(support.sample("example-none.txt").decode(), support.sample)
        parts = self.parts(text)
        for more in ([], ["--dialect", "none"]):
            self.says(0, "written 1536\n", "", "write", *parts, *more, "-o", self.at("out"))
            self.assertEqual(self.read("out"), support.sample("example-none.table"))
        for word in ("standard", "111000100"):
            self.says(0, "written 1536\n", "", "write", *parts, "--dialect", word, "-o", self.at("out"))
            self.assertEqual(self.read("out"), support.sample("example.table"))
        self.assertIn("basic is not a dialect", self.refused(0, *parts, "--dialect", "basic"))

    def test_editions(self):
        """An edition is the 14th used byte; without --edition there is none. It needs a dialect."""
        text = table.read_text(support.sample("example.txt").decode(), support.sample)
        parts, row = self.parts(text), ("--dialect", "standard")
        for edition in (1, 2):
            self.says(0, "written 1536\n", "", "write", *parts, *row, "--edition", str(edition), "-o", self.at("out"))
            data = self.read("out")
            self.assertEqual((data[2:4], data[17]), (b"\x0e\0", edition))
            self.assertEqual(data, table.file_of(text.table, text.names, text.dialect, edition))
            told = json.loads(self.run_ducat("write", *parts, *row, "--edition", str(edition), "--json", "-o", self.at("out")).out)
            self.assertEqual(told["edition"], {"number": edition, "given": True})
        told = json.loads(self.run_ducat("write", *parts, *row, "--json", "-o", self.at("out")).out)
        self.assertEqual(told["edition"], {"number": 1, "given": False})
        needs = "--edition needs a dialect: a file without a dialect has no edition"
        self.assertIn(needs, self.refused(0, *parts, "--edition", "1"))
        self.assertIn(needs, self.refused(0, *parts, "--edition", "2", "--dialect", "none"))
        for word in ("0", "3", "01", "one", "", "257"):
            self.assertIn("an edition is 1 or 2", self.refused(0, *parts, *row, "--edition", word))
        self.assertIn("the bytes are 1 1 1 0 0 3 1 0 0", self.refused(5, *parts, "--dialect", "111003100", "--edition", "2"))

    def test_standard_input(self):
        text = table.read_text(support.sample("example.txt").decode(), support.sample)
        records, names = self.parts(text)
        self.says(0, None, "", "write", "-", names, "--dialect", "standard", "-o", self.at("out"), input=text.table)
        self.assertEqual(self.read("out"), support.sample("example.table"))
        self.assertIn("named twice", self.refused(0, "-", "-"))

    def test_what_cannot_be_read_or_written(self):
        records, names = self.parts(table.read_text("(Break)"))
        self.assertIn("nothing: No such file or directory", self.refused(0, self.at("nothing"), names))
        self.assertIn(f"{self.room}: Is a directory", self.refused(0, records, self.room))
        ran = self.run_ducat("write", records, names, "-o", self.at("nowhere/file"))
        self.assertEqual((ran.status, ran.out, ran.err), (2, "", f"ducat: {self.at('nowhere/file')}: No such file or directory\n"))

    def test_json(self):
        records, names = self.parts(table.read_text("(Break)"))
        told = json.loads(self.run_ducat("write", records, names, "--json", "-o", self.at("out")).out)
        self.assertEqual((told["command"], told["verdict"], told["output"]["bytes"], [one["kind"] for one in told["inputs"]]),
                         ("write", "written", 1024, ["records", "names"]))
        told = json.loads(self.run_ducat("write", names, names, "--json", "-o", self.at("out")).out)
        self.assertEqual((told["status"], told["refused"]["number"]), (2, 1))


class Table(CommandTest):
    def test_the_samples_texts(self):
        for name in support.samples(".txt"):
            ran = self.run_ducat("table", f"samples/{name}.txt", "-o", self.at("out"))
            self.assertEqual((ran.status, ran.out), (0, f"written {len(support.sample(f'{name}.table'))}\n"))
            self.assertEqual(self.read("out"), support.sample(f"{name}.table"), name)
            self.assertEqual(bool(ran.err), name in ("edition-bad", "unsound"))

    def test_a_script(self):
        self.says(0, "written 2048\n", STEP, "table", "--dialect", "standard", "samples/clean.star", "-o", self.at("out"))
        self.says(0, "nodes 34\nerrors 0\n", "", "check", self.at("out"))
        self.says(0, None, STEP, "table", "-", "--stdin-filename", "x.star", "-o", self.at("out"), input=b"pass\n")
        large, wrong = self.put("large.star", "pass\n" * 2100), self.put("wrong.star", "x = (1\n")
        self.says(2, "", f"{STEP}ducat: {large}:2100:1: a table has at most 2100, and this has 2101 nodes\n", "table", large, "-o", self.at("none"))
        for words in (("table", wrong, "-o", self.at("none")), ("dump", wrong)):
            self.says(1, "", f"{STEP}ducat: {wrong}:2:1: syntax: expected `)`, found end of script: the `(` of line 1 is not closed\n", *words)
        self.assertFalse(os.path.exists(self.at("none")))
        other = self.put("rules.tpl", "pass\n")
        self.says(0, "written 1024\n", STEP, "table", "--as-script", "*.tpl", other, "-o", self.at("out"))
        ran = self.run_ducat("table", "--dialect", "111003100", "samples/clean.star", "-o", self.at("none"))
        self.assertEqual((ran.status, ran.out), (2, "refused 5\n"))

    def test_parts(self):
        folder = self.at("parts")
        self.says(0, "files 3\n", STEP, "table", "--parts", "--dialect", "all", "samples/take.star", "-o", folder)
        self.assertEqual(sorted(os.listdir(folder)), ["0001.table", "0002.table", "0003.table"])
        self.says(0, None, "", "check", folder)
        self.says(2, "", f"{STEP}ducat: {folder}: the folder is not empty\n", "table", "--parts", "samples/take.star", "-o", folder)
        self.says(2, "", "ducat: --parts is for scripts\n", "table", "--parts", "samples/take.txt", "-o", self.at("none"))
        path = self.put("large.star", "f(1, 2, 3, 4)\n" * 300)
        ran = self.run_ducat("table", path, "-o", self.at("none"))
        self.assertEqual((ran.status, "a table has at most 2100" in ran.err), (2, True))
        self.says(0, "files 300\n", STEP, "table", "--parts", path, "-o", self.at("many"))
        told = json.loads(self.run_ducat("table", "--json", "--parts", "samples/take.star", "-o", self.at("again")).out)
        self.assertEqual((told["verdict"], len(told["outputs"])), ("written", 3))

    def test_a_text_that_is_wrong(self):
        for text, said in (("(Statements\n  (Brake))", ":2: no kind is called Brake"), ("", ": there is no tree"),
                           (b"(Break \xff)", ":1: not UTF-8"), ("script: nothing.star\n(Break)", "nothing.star: No such file or directory")):
            path = self.put("t.txt", text)
            ran = self.run_ducat("table", path, "-o", self.at("out"))
            self.assertEqual((ran.status, ran.out, len(ran.err.splitlines()), os.path.exists(self.at("out"))), (2, "", 1, False))
            self.assertIn(said, ran.err)
        self.says(2, "", "ducat: --dialect is for scripts: a text has its own dialect\n", "table", "--dialect", "all", path, "-o", self.at("out"))

    def test_standard_input(self):
        self.says(0, "written 1024\n", "", "table", "-", "-o", self.at("out"), input=b"(Break)")
        told = json.loads(self.run_ducat("table", "-", "--json", "-o", self.at("out"), input=b"(Break)").out)
        self.assertEqual((told["inputs"][0]["kind"], told["output"]["bytes"]), ("text", 1024))


class Dump(CommandTest):
    def again(self, data):
        """A dump of a file gives the same bytes back."""
        path = self.put("in.table", data)
        ran = self.run_ducat("dump", path, "-o", self.at("text"))
        self.assertEqual((ran.status, ran.out), (0, ""), ran.err)
        ran = self.run_ducat("table", self.at("text"), "-o", self.at("again"))
        self.assertEqual((ran.status, self.read("again")), (0, data), ran.err)

    def test_the_example(self):
        self.says(0, """dialect: Standard
(Def span=0-25
  (Normal a span=6-7)
  (Normal:2 b span=9-12
    (Int span=11-12))
  (Normal c span=14-15)
  (Break span=20-25))
""", "", "dump", "samples/example.table")

    def test_the_samples(self):
        for name in support.samples(".table"):
            if name not in ("cut", "damaged", "lost"):
                self.again(support.sample(f"{name}.table"))

    def test_tables_that_are_not_sound(self):
        """Every table in good blocks has a text; standard error reports what is wrong with it."""
        draw, take = random.Random(11), support.library().read(support.sample("take.table"))
        for _ in range(25):
            changed = bytearray(take.table)
            for _ in range(3):
                changed[draw.randrange(len(changed))] = draw.randrange(256)
            self.again(table.file_of(bytes(changed), take.names, take.dialect))
        self.again(table.file_of(take.table, take.names, bytes([9] * 9)))
        for edition in (0, 1, 2, 3, 255):
            self.again(table.file_of(take.table, take.names, take.dialect, edition))
        ran = self.run_ducat("dump", "samples/unsound.table")
        self.assertIn("this table is not sound: 3 ", ran.err)

    def test_names_of_any_bytes(self):
        names = bytes(range(256))
        records = table.encode([table.Record(10, 0, 0, 0, 0, 1, 3, 1), table.Record(26, 0, 255, 1, 0, 1, 1, 1),
                                table.Record(26, 0, 3, 8, 0, 1, 1, 1)])
        self.again(table.file_of(records, names))

    def test_refused(self):
        self.says(2, "refused 72\n", None, "dump", "samples/damaged.table")
        self.says(2, "refused 70\n", None, "dump", "samples/cut.table", "-o", self.at("none"))
        self.assertFalse(os.path.exists(self.at("none")))

    def test_a_script_and_standard_input(self):
        self.says(0, "dialect: Standard\n(OtherSimple span=0-4)\n", STEP, "dump", "--dialect", "standard", self.put("x.star", "pass\n"))
        self.says(0, None, "", "dump", "-", input=support.sample("clean.table"))
        self.says(2, "", "ducat: --dialect is for scripts: a table file has its own dialect\n", "dump", "--dialect", "all", "samples/clean.table")

    def test_json(self):
        told = json.loads(self.run_ducat("dump", "--json", "samples/example.table").out)
        entry, = told["inputs"]
        self.assertEqual((entry["dialect"]["name"], len(entry["records"]), entry["records"][1]["name"]), ("standard", 6, "a"))
        self.assertEqual(table.read_text(entry["text"]).file(), support.sample("example.table"))
        self.assertEqual(numbers.KINDS[entry["records"][0]["kind"]["number"]][0], "Def")


if __name__ == "__main__":
    unittest.main()
