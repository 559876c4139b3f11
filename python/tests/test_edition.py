"""Editions of the type rules (W-212) in the commands: what --edition is for, how types of a table file are read, and what carries the byte."""
import json
import os
import unittest

import support
from command import STEP, CommandTest
from ducatmuffin import numbers, table

SCRIPT = "x: a.type = 1\ny: b.type[int, str] = 2\nz: c.type[int] = 3\n"
BAN = "a path in a type ends in `.type`, which edition 2 allows"
WORDS_5 = "the dialect bytes are not a dialect, or the edition is neither 1 nor 2, or there is an edition and no dialect"
EXTENDED = numbers.DIALECTS["extended"]


class EditionTest(CommandTest):
    def script(self, text=SCRIPT, name="x.star"):
        return self.put(name, text)

    def table(self, edition, dialect=EXTENDED, name="x.table"):
        """The table file of the script with an edition byte, or without."""
        from ducatmuffin import export
        return self.put(name, table.file_of(*export.export(SCRIPT.encode()), dialect, edition))

    def numbers(self, *words):
        """The numbers of the errors that a check lists, and its status."""
        ran = self.run_ducat("check", "--json", *words)
        return [error["number"] for entry in json.loads(ran.out)["inputs"] for error in entry["errors"]], ran.status


class Scripts(EditionTest):
    def test_edition_1_is_meant(self):
        path = self.script()
        for more in ((), ("--edition", "1")):
            self.assertEqual(self.numbers(*more, path), ([44, 44, 40], 1))
        self.assertEqual(self.numbers("--edition", "2", path), ([40], 1))

    def test_the_message_of_44_names_edition_2(self):
        ran = self.run_ducat("check", self.script())
        self.assertIn(f"x.star:1:4: 44 {BAN}\n", ran.out)

    def test_explain(self):
        path = self.script()
        for more, said in (((), ""), (("--edition", "1"), ", edition 1"), (("--edition", "2"), ", edition 2")):
            first = self.run_ducat("check", "--explain", *more, path).out.split("\n")[0]
            self.assertEqual(first, f"nodes 21, dialect extended (none is given){said}")

    def test_several_scripts_and_joined_ones(self):
        one, two = self.script(), self.script(name="y.star")
        for more in ((), ("--join",), ("--jobs", "2")):
            self.assertEqual(self.numbers("--edition", "2", *more, one, two), ([40, 40], 1))
            self.assertEqual(self.numbers(*more, one, two), ([44, 44, 40] * 2, 1))

    def test_a_script_of_several_tables(self):
        """Each table of a large script is read by the edition."""
        path = self.script("x: a.type = 1\n" * 900)
        self.assertEqual(self.numbers("--edition", "2", path), ([], 0))
        self.assertEqual(self.numbers(path), ([44] * 900, 1))

    def test_a_folder_and_a_list(self):
        """Of the files found, scripts are read by --edition and table files by their own edition."""
        os.mkdir(self.at("d"))
        self.put("d/x.star", SCRIPT)
        self.put("d/y.table", self.read(os.path.basename(self.table(None))))
        self.assertEqual(self.numbers("--edition", "2", self.at("d")), ([40, 44, 44, 40], 1))
        names = self.put("names", f"{self.at('d/x.star')}\n{self.at('d/y.table')}\n")
        self.assertEqual(self.numbers("--edition", "2", "--files-from", names), ([40, 44, 44, 40], 1))

    def test_against(self):
        """The jobs beside the module pass are run in the new dialect, by the same edition."""
        path = self.script()
        for more, others in ((("--edition", "2"), 1), ((), 3)):
            ran = self.run_ducat("check", "--against", "all", *more, path)
            self.assertIn(f"\nother errors {others}\n", ran.out)

    def test_books(self):
        path = self.script()
        books = ("--books", "samples/zones.book", "samples/line.book", "--zone", "12", "--setting", "4")
        self.assertEqual(self.numbers(*books, "--edition", "2", path), ([40], 1))
        self.assertEqual(self.numbers(*books, path), ([44, 44, 40], 1))

    def test_wrong_usage(self):
        path = self.script()
        for word in ("0", "3", "257", "one", "", "1 "):
            self.says(2, "", "ducat: argument --edition: an edition is 1 or 2 (`ducat check --help` says how)\n", "check", "--edition", word, path)
        self.says(2, "", "ducat: --edition is for types, which the module pass does not read: it cannot be used with --module\n",
                  "check", "--edition", "2", "--module", path)
        self.says(2, "", "ducat: --edition is for scripts: a table file has its own edition\n", "check", "--edition", "2", "samples/edition.table")
        for command in ("bind", "dump"):
            ran = self.run_ducat(command, "--edition", "2", path)
            self.assertEqual(ran.status, 2)
            self.assertIn("unrecognized arguments: --edition", ran.err)


class TableFiles(EditionTest):
    def test_types_are_read_by_the_file_s_edition(self):
        for edition, errors in ((None, [44, 44, 40]), (1, [44, 44, 40]), (2, [40])):
            self.assertEqual(self.numbers(self.table(edition)), (errors, 1))

    def test_the_module_pass_does_not_look_at_it(self):
        said = {self.run_ducat("check", "--module", self.table(edition)).out for edition in (None, 1, 2)}
        self.assertEqual(said, {"nodes 21\nerrors 0\n"})

    def test_explain_names_it_where_it_stands(self):
        for edition, said in ((None, ""), (1, ", edition 1"), (2, ", edition 2")):
            first = self.run_ducat("check", "--explain", self.table(edition)).out.split("\n")[0]
            self.assertEqual(first, f"nodes 21, dialect extended{said}")
            first = self.run_ducat("check", "--explain", "--against", "all", self.table(edition)).out.split("\n")[0]
            self.assertEqual(first, f"nodes 21, from extended to all{said}")

    def test_json_and_other_formats(self):
        for edition in (None, 1, 2):
            path, wanted = self.table(edition), {"number": edition or 1, "given": edition is not None}
            for words in (("check",), ("check", "--module"), ("bind",), ("dump",), ("check", "--against", "all")):
                entry, = json.loads(self.run_ducat(*words, "--json", path).out)["inputs"]
                self.assertEqual(entry["edition"], wanted, words)
            results = json.loads(self.run_ducat("check", "--format", "sarif", path).out)["runs"][0]["results"]
            self.assertEqual([one["properties"]["edition"] for one in results], [wanted] * len(results))
        self.assertNotIn("edition", self.run_ducat("check", "--format", "gcc", self.table(2)).out)

    def test_a_bad_byte(self):
        for byte in (0, 3, 255):
            path = self.table(byte)
            said = f"refused 5: {WORDS_5}: the edition is {byte}, and must be 1 or 2\n"
            for words in (("check",), ("check", "--module"), ("bind",)):
                self.says(2, "refused 5\n", f"ducat: {path}: {said}", *words, path)
            entry, = json.loads(self.run_ducat("check", "--json", path).out)["inputs"]
            self.assertEqual((entry["refused"]["number"], entry["refused"]["reason"], entry["edition"]), (5, f"the edition is {byte}, and must be 1 or 2", None))
            ran = self.says(2, "refused 90\n", None, "rescue", path, "-o", self.at("none"))
            self.assertIn(f"the reader's answer is 5: {WORDS_5}: the edition is {byte}", ran.err)

    def test_a_bad_dialect_is_said_first(self):
        path = self.table(3, bytes([9] * 9))
        self.assertIn(": the bytes are 9 9 9 9 9 9 9 9 9\n", self.says(2, "refused 5\n", None, "check", path).err)

    def test_used_bytes(self):
        data = bytearray(support.sample("example.table"))
        for used in range(21):
            data[2] = used
            data[508:512] = sum(at * byte for at, byte in enumerate(data[:508], 1)).to_bytes(4, "little")
            ran = self.run_ducat("check", self.put("u.table", bytes(data)))
            if used not in (4, 13, 14):
                self.assertIn(f", block 0: it says {used} used byte{'' if used == 1 else 's'}, and must say 4, 13 or 14\n", ran.err)
            self.assertEqual(ran.out.split("\n")[0], {4: "refused 73", 13: "nodes 6", 14: "refused 5"}.get(used, "refused 73"))


class Carried(EditionTest):
    def test_dump_and_table(self):
        """The text form has the edition, and gives the same file back."""
        for edition in (None, 1, 2):
            path = self.table(edition)
            text = self.run_ducat("dump", path).out
            self.assertEqual(f"edition: {edition}\n" in text, edition is not None)
            self.says(0, None, "", "table", self.put("x.txt", text), "-o", self.at("again.table"))
            self.assertEqual(self.read("again.table"), self.read("x.table"))

    def test_table_of_a_script(self):
        path, out = self.script(), self.at("made.table")
        for edition in (1, 2):
            self.says(0, "written 1536\n", STEP, "table", "--dialect", "extended", "--edition", str(edition), path, "-o", out)
            self.assertEqual(table.parts_of(self.read("made.table"))[2:], (EXTENDED, edition))
            told = json.loads(self.run_ducat("table", "--dialect", "extended", "--edition", str(edition), "--json", path, "-o", out).out)
            self.assertEqual(told["edition"], {"number": edition, "given": True})
        self.says(0, "written 1536\n", STEP, "table", "--dialect", "extended", path, "-o", out)
        self.assertEqual(table.parts_of(self.read("made.table"))[3], None)

    def test_table_parts(self):
        self.says(0, "files 3\n", STEP, "table", "--parts", "--dialect", "all", "--edition", "2", self.script(), "-o", self.at("parts"))
        for number in (1, 2, 3):
            self.assertEqual(table.parts_of(self.read(f"parts/000{number}.table"))[3], 2)

    def test_table_needs_a_dialect(self):
        needs = "ducat: --edition needs a dialect: a file without a dialect has no edition (--dialect gives one)\n"
        for more in ((), ("--dialect", "none")):
            self.says(2, "", needs, "table", *more, "--edition", "2", self.script(), "-o", self.at("none"))
        self.says(2, "", "ducat: --edition is for scripts: a text has its own edition\n",
                  "table", "--edition", "2", self.put("x.txt", "(Break)"), "-o", self.at("none"))
        self.put("ducat.ini", "[ducat]\ndialect = extended\n")
        self.says(0, "written 1536\n", None, "table", "--config", self.at("ducat.ini"), "--edition", "2", self.script(), "-o", self.at("made.table"))

    def test_compare(self):
        """The edition is compared if --edition gives one."""
        path = self.script()
        for edition in (None, 1, 2):
            file = self.table(edition)
            self.says(0, "same 21\n", None, "table", "--dialect", "extended", path, "--compare", file)
            for given in (1, 2):
                words = ("table", "--dialect", "extended", "--edition", str(given), path, "--compare", file)
                if given == edition:
                    self.says(0, "same 21\n", None, *words)
                else:
                    self.says(1, f"differs, edition {given} and {edition or 'none'}\n", None, *words)
                    told = json.loads(self.run_ducat(*words, "--json").out)
                    self.assertEqual(told["difference"]["fields"]["edition"]["script"], {"number": given, "given": True})

    def test_rescue(self):
        """A whole file is kept unchanged, and a cut one keeps its edition."""
        for edition in (None, 1, 2):
            path = self.table(edition)
            self.says(0, None, "", "rescue", path, "-o", self.at("kept.table"))
            self.assertEqual(self.read("kept.table"), self.read("x.table"))
            text = "dialect: Standard\n" + (f"edition: {edition}\n" if edition else "") + "(Statements ^40<(Break)>)"
            whole = table.read_text(text).file()
            self.says(1, None, "", "rescue", self.put("cut.table", whole[:1024]), "-o", self.at("kept.table"))
            self.assertEqual(table.parts_of(self.read("kept.table"))[3], edition)
            self.says(0, None, "", "rescue", self.at("kept.table"), "-o", self.at("again.table"))
            self.assertEqual(self.read("again.table"), self.read("kept.table"))

    def test_bind(self):
        """A binding does not use the edition."""
        made = table.read_text(support.sample("take.txt").decode(), support.sample)
        said = set()
        for edition in (None, 1, 2):
            path = self.put("take.table", table.file_of(made.table, made.names, made.dialect, edition))
            said.add(self.run_ducat("bind", "--script", "samples/take.star", path).out)
        self.assertEqual(said, {support.sample("take.bound").decode()})

    def test_books(self):
        """A table file with an edition has a dialect, which must be the books'; its own edition is used."""
        books = ("--books", "samples/zones.book", "samples/line.book", "--zone", "7", "--setting", "5")
        for edition, errors in ((None, [44, 44, 40]), (1, [44, 44, 40]), (2, [40])):
            self.assertEqual(self.numbers(*books, self.table(edition)), (errors, 1))


if __name__ == "__main__":
    unittest.main()
