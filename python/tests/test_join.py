"""Two and more scripts in one table: joined scripts, tables of several source file numbers with --script and beside their scripts, what is older than
these numbers."""
import json
import os
import unittest

import support
from command import STEP, CommandTest
from ducatmuffin import numbers, scripts, table
from ducatmuffin.output import Failed

LINE, ZONE = "samples/joined.1.star", "samples/joined.2.star"
JOINED = "samples/joined.table"
OLD = "bytes 18 and 19 are 0 in every record: the file is older than source file numbers and must be exported again"
NO_DEFAULT = f"""{{0}}:5:19: 13 {numbers.WORDS[13]}{{1}}
    def spare(gap=90, train):
                      ^^^^^
"""
IN_LINE = NO_DEFAULT.format(LINE, "")
IN_ZONE = f"""{ZONE}:4:15: 20 {numbers.WORDS[20]}
    order(gap=60, ["7"], ["2"])
                  ^^^^^
{ZONE}:5:1: 55 {numbers.WORDS[55]}
    break
    ^^^^^
"""
BOUND = f"""{ZONE}:2:1 order(["7", "14"], ["2", "3"], gap=120), def {LINE}:2:1
    trains, by place only: ["7", "14"] ({ZONE}:2:7)
    tracks, by place only: ["2", "3"] ({ZONE}:2:20)
    gap, by place or name: gap=120 ({ZONE}:2:32)
{ZONE}:3:1 order(tracks=["2"], trains=["7"]), def {LINE}:2:1
    refused 82, tracks=["2"] ({ZONE}:3:7)
{ZONE}:4:1 order(gap=60, ["7"], ["2"]), def {LINE}:2:1
    refused 20, ["7"] ({ZONE}:4:15)
bound 1, refused 2, without a def 0
"""
JOIN = ("--join", LINE, ZONE)
BOTH = ("--script", f"1={LINE}", "--script", f"2={ZONE}")


class JoinTest(CommandTest):
    def told(self, status, *words, **more):
        ran = self.run_ducat(*words, "--json", **more)
        self.assertEqual((ran.status, ran.err), (status, ""))
        return json.loads(ran.out)

    def wrong(self, said, *words):
        """Wrong usage: one line on standard error, and status 2."""
        ran = self.run_ducat(*words)
        self.assertEqual((ran.status, ran.out, len(ran.err.splitlines())), (2, "", 1), (words, ran.err))
        self.assertIn(said, ran.err)


class Check(JoinTest):
    def test_errors_in_both(self):
        self.says(1, f"nodes 52\n{IN_LINE}{IN_ZONE}errors 3\n", STEP, "check", "--dialect", "all", *JOIN)
        self.says(1, None, STEP, "check", "--dialect", "all", "--explain", *JOIN)

    def test_the_order_given(self):
        self.says(1, f"nodes 52\n{IN_ZONE}{IN_LINE}errors 3\n", STEP, "check", "--dialect", "all", "--join", ZONE, LINE)

    def test_the_module_pass_keeps_its_order(self):
        first, second = self.put("1.star", "x = lambda a, a: 1\n"), self.put("2.star", "break\n")
        out = self.run_ducat("check", "--module", "--join", first, second).out
        self.assertEqual([line.split(": ")[1][:2] for line in out.splitlines() if line.startswith(self.room)], ["55", "11", "no"])
        out = self.run_ducat("check", "--join", first, second).out
        self.assertEqual([line.split(": ")[1][:2] for line in out.splitlines() if line.startswith(self.room)], ["11", "no", "55"])

    def test_targets_of_comprehensions(self):
        first, second = self.put("1.star", "break\n"), self.put("2.star", "[a for 1 in b]\n")
        out = self.run_ducat("check", "--join", first, second).out
        self.assertTrue(out.endswith(f"{second}:1:8: 30 {numbers.WORDS[30]}\n    [a for 1 in b]\n           ^\nerrors 2\n"), out)

    def test_one_script_is_as_without(self):
        alone = self.run_ducat("check", ZONE)
        self.assertEqual(self.run_ducat("check", "--join", ZONE), alone)
        self.assertNotIn("nodes 52", alone.out)

    def test_a_script_twice(self):
        path = self.put("b.star", "break\n")
        self.says(1, None, STEP, "check", "--join", path, path)
        self.assertEqual([error["file"] for error in self.told(1, "check", "--join", path, path)["inputs"][0]["errors"]], [1, 2])

    def test_lists_and_standard_input(self):
        names = self.put("names", f"{LINE}\n{ZONE}\n")
        expected = f"nodes 52\n{IN_LINE}{IN_ZONE}errors 3\n"
        self.says(1, expected, STEP, "check", "--dialect", "all", "--join", "--files-from", names)
        self.says(1, expected.replace(ZONE, "zone.star"), STEP, "check", "--dialect", "all", "--join", LINE, "-", "--stdin-filename", "zone.star",
                  input=support.sample("joined.2.star"))

    def test_every_form(self):
        self.says(1, "", "", "check", "--quiet", *JOIN)
        self.says(1, f"nodes 52\n{IN_LINE}{IN_ZONE}errors 3\n", STEP, "check", "--dialect", "all", "--bad-only", "--jobs", "4", *JOIN)
        out = self.run_ducat("check", "--dialect", "all", "--explain", *JOIN).out
        self.assertTrue(out.startswith("nodes 52, dialect all\n" + NO_DEFAULT.format(LINE, ", node 15, kind 50 Normal")), out)

    def test_json(self):
        entry, = self.told(1, "check", "--dialect", "all", *JOIN)["inputs"]
        self.assertEqual((entry["name"], entry["kind"], entry["verdict"], entry["nodes"]), (f"{LINE} + {ZONE}", "joined", "errors", 52))
        self.assertEqual([(one["file"], one["name"], one["bytes"]) for one in entry["scripts"]],
                         [(file, f"samples/joined.{file}.star", len(support.sample(f"joined.{file}.star"))) for file in (1, 2)])
        self.assertEqual(entry["errors"][0], {
            "number": 13, "words": numbers.WORDS[13], "file": 1, "begin": 128, "end": 133, "line": 5, "column": 19, "script": {"name": LINE}, "node": 15,
            "kind": {"number": 50, "name": "Normal"}})
        self.assertEqual([(error["number"], error["file"], error["script"]["name"]) for error in entry["errors"][1:]], [(20, 2, ZONE), (55, 2, ZONE)])
        self.assertNotIn("sha256", entry)

    def test_the_earlier_place(self):
        first, second = self.put("1.star", "def f(a, b): pass\n"), self.put("2.star", "def f(a, a): pass\n")
        for module in ([], ["--module"]):
            entry, = self.told(1, "check", *module, "--join", first, second)["inputs"]
            error, = entry["errors"]
            self.assertEqual((error["file"], error["earlier"]["file"], error["earlier"]["begin"], error["earlier"]["column"]), (2, 2, 6, 7))

    def test_what_cannot_be_read(self):
        missing, other = self.at("missing.star"), self.at("other.star")
        said = f"ducat: {missing}: No such file or directory\nducat: {other}: No such file or directory\n"
        self.says(2, "", STEP + said, "check", "--join", missing, ZONE, other)
        self.says(2, "", said, "check", "--quiet", "--join", missing, ZONE, other)
        entry, = self.told(2, "check", "--join", missing, ZONE)["inputs"]
        self.assertEqual((entry["verdict"], entry["failed"]), ("unreadable", f"{missing}: No such file or directory"))
        self.assertEqual([one.get("failed") for one in entry["scripts"]], ["No such file or directory", None])

    def test_every_script_that_is_not_starlark_is_told(self):
        first, second = self.put("1.star", "x = \n"), self.put("2.star", "f(1 2)\n")
        self.says(1, f"{first}:1:5: syntax: unexpected end of line\n    x =\n        ^\n{second}:1:5: syntax: expected `)`, found `2`\n    f(1 2)\n        ^\n"
                  "errors 2\n", STEP, "check", "--join", first, LINE, second)
        entry, = self.told(1, "check", "--join", first, LINE, second)["inputs"]
        self.assertEqual([(error["number"], error["file"], error["script"]["name"]) for error in entry["errors"]], [(None, 1, first), (None, 3, second)])

    def test_too_large_together(self):
        first, second = self.put("1.star", "pass\n" * 2000), self.put("2.star", "pass\n" * 100)
        self.says(0, "nodes 2101, in 2 tables\nerrors 0\n", STEP, "check", "--join", first, second)
        self.says(0, None, STEP, "check", first, second)
        entry, = self.told(0, "check", "--join", first, second)["inputs"]
        self.assertEqual((entry["verdict"], entry["tables"], entry["nodes"]), ("accepted", 2, 2101))
        large = self.put("large.star", "pass\nx = [" + "1, " * 2200 + "]\n")
        said = f"ducat: {large}:2:1: this statement has 2,203 nodes, and a table has at most 2,100\n"
        self.says(2, "", STEP + said, "check", "--join", first, large)
        entry, = self.told(2, "check", "--join", first, large)["inputs"]
        self.assertEqual((entry["verdict"], entry["scripts"][1]["line"], "failed" in entry["scripts"][0]), ("no table", 2, False))
        deep, wrong = self.put("deep.star", "x = " + "(" * 300 + "1" + ")" * 300), self.put("wrong.star", "x = \n")
        ran = self.says(2, "", None, "check", "--join", wrong, deep)
        self.assertIn("nested too deeply", ran.err)
        self.assertIn(f"ducat: {wrong}:1:5: syntax: unexpected end of line\n", ran.err)

    def test_wrong_usage(self):
        self.wrong("--join is for scripts, and samples/take.table is taken as a table file", "check", "--join", LINE, "samples/take.table")
        self.wrong("--join is for scripts, and samples is a folder", "check", "--join", "samples")
        self.wrong("--script is for table files, not for scripts that are joined", "check", "--script", LINE, *JOIN)
        self.wrong("source file numbers end at 999, and the last of 1000 scripts from 1 on would be 1000", "check", "--join", *[LINE] * 1000)
        self.wrong("standard input (`-`) is named twice", "check", "--join", "-", "-", "--stdin-filename", "x.star")

    def test_999_scripts(self):
        path = self.put("b.star", "break\n")
        entry, = self.told(1, "check", "--join", *[path] * 999)["inputs"]
        self.assertEqual([error["file"] for error in entry["errors"]], list(range(1, 1000)))

    def test_against(self):
        words = ("check", "--dialect", "111000010", "--against", "all", *JOIN)
        self.says(1, f"""nodes 52
opens enable_keyword_only_arguments, enable_positional_only_arguments, enable_types, enable_load_reexport, enable_f_strings
module pass (10 to 19 and 50 to 61):
{LINE}:2:27: 51 {numbers.WORDS[51]}
    def order(trains, tracks, /, gap=90):
                              ^
taken out 1, left 2
other jobs, in the new dialect:
{IN_ZONE.partition(f"{ZONE}:5:1")[0]}other errors 1
""", STEP, *words)
        entry, = self.told(1, *words)["inputs"]
        self.assertEqual([(error["number"], error["file"]) for error in entry["taken_out"]], [(51, 1)])

    def test_against_tells_equal_places_of_two_files_apart(self):
        first, second = self.put("1.star", "x = lambda: 1\n"), self.put("2.star", "x = lambda: 1\n")
        out = self.run_ducat("check", "--dialect", "000000010", "--against", "010000010", "--join", first, second).out
        self.assertIn("taken out 2, left 0\n", out)
        self.assertLess(out.index(first), out.index(second))

    def test_configuration(self):
        self.put("ducat.ini", "[ducat]\ndialect = 111000010\nas-script = *.tpl\n")
        self.put("line.tpl", support.sample("joined.1.star"))
        self.put("zone.star", support.sample("joined.2.star"))
        ran = self.run_ducat("check", "--join", "line.tpl", "zone.star", cwd=self.room)
        self.assertEqual((ran.status, ran.err), (1, "ducat: configuration ducat.ini: dialect 111000010, 0 paths excluded\n" + STEP))
        self.assertIn("line.tpl:2:27: 51 ", ran.out)


class Bind(JoinTest):
    def test_a_call_of_the_other_script_s_def(self):
        """The zone's call is bound to the line's def."""
        self.says(1, BOUND, STEP, "bind", *JOIN)
        self.says(1, BOUND, STEP, "bind", "--join", ZONE, LINE)
        self.says(1, BOUND, "", "bind", *BOTH, JOINED)

    def test_alone_there_is_no_def(self):
        self.assertTrue(self.run_ducat("bind", ZONE).out.endswith("bound 0, refused 0, without a def 3\n"))

    def test_a_def_in_each(self):
        first, second = self.put("1.star", "def f(a): pass\nf(1)\n"), self.put("2.star", "def f(b, c): pass\n")
        self.says(1, f"{first}:2:1 f(1), def {first}:1:1\n    a, by place or name: 1 ({first}:2:3)\n"
                  f"{first}:2:1 f(1), def {second}:1:1\n    refused 84, c ({second}:1:10)\nbound 1, refused 1, without a def 0\n", STEP,
                  "bind", "--join", first, second)

    def test_a_script_is_missing(self):
        """What has no script is placed in bytes; its defs have no name."""
        ran = self.says(0, None, None, "bind", "--script", f"2={ZONE}", JOINED)
        self.assertEqual(ran.out.splitlines()[0], f'{ZONE}:2:1 order(["7", "14"], ["2", "3"], gap=120), no def of this name')
        self.assertEqual(ran.err, f"ducat: {JOINED}: source file 1 has no script: --script 1=SCRIPT names it; 2 defs of it are paired with no call\n")
        ran = self.says(1, None, "", "bind", "--script", f"1={LINE}", JOINED)
        self.assertEqual(ran.out.splitlines()[0], f"node 19, file 2, bytes 39 to 78 order(…), def {LINE}:2:1")
        self.assertIn("    trains, by place only: (List) (node 21, file 2, bytes 45 to 56)\n", ran.out)
        self.assertIn("    refused 82, tracks=(List) (node 34, file 2, bytes 85 to 97)\n", ran.out)
        entry, = self.told(0, "bind", "--script", f"2={ZONE}", JOINED)["inputs"]
        self.assertEqual(entry["notes"], ["source file 1 has no script: --script 1=SCRIPT names it; 2 defs of it are paired with no call"])

    def test_scripts_that_are_exchanged(self):
        ran = self.run_ducat("bind", "--script", f"2={LINE}", "--script", f"1={ZONE}", JOINED)
        self.assertEqual((ran.status, ran.err), (2, f"ducat: {ZONE} is not the table's script of source file 1: at bytes 38 to 108 is not a def\n"))

    def test_nodes(self):
        ran = self.run_ducat("bind", JOINED)
        self.assertIn("def 1, file 1, bytes 38 to 108: 3 parameters\n", ran.out)
        self.assertIn("call 19, file 2, bytes 39 to 78: order, 3 arguments\n", ran.out)
        self.says(1, "refused 82 2 85 97\n", "", "bind", JOINED, "--call", "32", "--def", "1")
        self.says(1, "refused 13 1 128 133\n", "", "bind", JOINED, "--call", "32", "--def", "12")

    def test_json(self):
        for words, kind in ((JOIN, "joined"), ((*BOTH, JOINED), "table")):
            entry, = self.told(1, "bind", *words)["inputs"]
            self.assertEqual((entry["kind"], entry["totals"]), (kind, {"bound": 1, "refused": 2, "without_def": 0, "namesakes": 0}))
            self.assertEqual([(one["file"], one["name"]) for one in entry["scripts"]], [(1, LINE), (2, ZONE)])
            pair = entry["pairs"][0]
            self.assertEqual((pair["call"], pair["def"]), ({"node": 19, "file": 2, "begin": 39, "end": 78, "line": 2, "column": 1},
                                                           {"node": 1, "file": 1, "begin": 38, "end": 108, "line": 2, "column": 1}))
            self.assertEqual(entry["pairs"][1]["refused"]["file"], 2)
        entry, = self.told(0, "bind", JOINED)["inputs"]
        self.assertEqual([call["file"] for call in entry["calls"]], [2, 2, 2])

    def test_what_cannot_be_bound(self):
        wrong, missing = self.put("wrong.star", "x = \n"), self.at("missing.star")
        self.says(1, f"{wrong}:1:5: syntax: unexpected end of line\n    x =\n        ^\n", STEP, "bind", "--join", LINE, wrong)
        self.says(2, "", f"{STEP}ducat: {missing}: No such file or directory\n", "bind", "--join", missing, LINE)
        entry, = self.told(2, "bind", "--join", missing, LINE)["inputs"]
        self.assertEqual((entry["verdict"], entry["scripts"][0]["failed"]), ("unreadable", "No such file or directory"))
        self.wrong("--join is for scripts", "bind", "--join", LINE, JOINED)
        self.wrong("--script is for table files", "bind", "--script", LINE, *JOIN)
        self.wrong("--call and --def need one table file", "bind", "--call", "1", "--def", "2", *JOIN)


class Table(JoinTest):
    def test_the_sample(self):
        self.says(0, "written 2560\n", STEP, "table", "--dialect", "all", LINE, ZONE, "-o", self.at("out"))
        self.assertEqual(self.read("out"), support.sample("joined.table"))

    def test_one_script_gives_the_table_that_it_gave(self):
        self.run_ducat("table", LINE, "-o", self.at("one"))
        one = support.library().read(self.read("one"))
        self.assertEqual({record.file for record in table.decode(one.table)}, {0, 1})
        self.says(0, None, STEP, "table", "--number", "999", LINE, "-o", self.at("last"))
        last = support.library().read(self.read("last"))
        self.assertEqual([record._replace(file=1 if record.file else 0) for record in table.decode(last.table)], table.decode(one.table))
        self.assertEqual({record.file for record in table.decode(last.table)}, {0, 999})

    def test_numbers(self):
        self.says(0, None, STEP, "table", "--number", "998", ZONE, LINE, "-o", self.at("out"))
        records = table.decode(support.library().read(self.read("out")).table)
        self.assertEqual((sorted({record.file for record in records}), records[0].begin, records[0].end), ([0, 998, 999], 0, 152))
        self.wrong("source file numbers end at 999, and the last of 2 scripts from 999 on would be 1000", "table", "--number", "999", ZONE, LINE, "-o", "x")
        for number in ("0", "1000", "-1", "x", "", "99999999999"):
            self.wrong("a source file number is 1 to 999" if number != "-1" else "", "table", "--number", number, ZONE, "-o", self.at("none"))
        self.assertFalse(os.path.exists(self.at("none")))

    def test_a_text_among_them(self):
        self.wrong("several INPUTs must be scripts, and samples/take.txt is taken as the text form of a table", "table", LINE, "samples/take.txt", "-o", "x")
        self.wrong("--number is for scripts: a text has its own source file numbers", "table", "--number", "2", "samples/take.txt", "-o", "x")
        self.wrong("the following arguments are required: INPUT", "table", "-o", "x")
        self.wrong("standard input (`-`) is named twice", "table", "-", "-", "--stdin-filename", "x.star", "-o", "x")

    def test_what_has_no_table(self):
        wrong = self.put("wrong.star", "\nx = \n")
        self.says(1, "", f"{STEP}ducat: {wrong}:2:5: syntax: unexpected end of line\n", "table", LINE, wrong, "-o", self.at("none"))
        self.says(2, "", "ducat: missing.star: No such file or directory\n", "table", LINE, "missing.star", "-o", self.at("none"))
        self.assertFalse(os.path.exists(self.at("none")))

    def test_parts(self):
        self.says(0, "files 6\n", STEP, "table", "--parts", "--number", "5", LINE, ZONE, "-o", self.at("parts"))
        files = [{record.file for record in table.decode(support.library().read(self.read(f"parts/000{at}.table")).table)} for at in range(1, 7)]
        self.assertEqual(files, [{5}, {5}, {6}, {6}, {6}, {6}])

    def test_json(self):
        told = self.told(0, "table", "--number", "3", LINE, ZONE, "-o", self.at("out"))
        self.assertEqual([(one["file"], one["name"], one["kind"]) for one in told["inputs"]], [(3, LINE, "script"), (4, ZONE, "script")])
        told = self.told(0, "table", "samples/joined.txt", "-o", self.at("out"))
        self.assertNotIn("file", told["inputs"][0])

    def test_a_dump_gives_the_same_bytes_back(self):
        for number in ("1", "998"):
            self.run_ducat("table", "--number", number, LINE, ZONE, "-o", self.at("out"))
            ran = self.run_ducat("dump", self.at("out"), "-o", self.at("text"))
            self.assertEqual((ran.status, ran.err), (0, ""))
            self.says(0, None, "", "table", self.at("text"), "-o", self.at("again"))
            self.assertEqual(self.read("out"), self.read("again"))
        self.assertIn(b"\nfile: 998\n", self.read("text"))
        entry, = self.told(0, "dump", self.at("out"))["inputs"]
        self.assertEqual([entry["records"][at]["file"] for at in (0, 1, 20)], [0, 998, 999])


class Scripts(JoinTest):
    """The scripts of a table of several source file numbers."""

    def test_each_number(self):
        self.says(1, f"nodes 52\n{IN_LINE}{IN_ZONE}errors 3\n", "", "check", *BOTH, JOINED)
        self.says(1, "nodes 52\n13 1 128 133\n20 2 127 132\n55 2 141 146\nerrors 3\n", "", "check", JOINED)
        self.says(1, "nodes 52\n13 1 128 133\n55 2 141 146\nerrors 2\n", "", "check", "--module", JOINED)

    def test_one_script_means_all_numbers(self):
        out = self.run_ducat("check", "--script", ZONE, JOINED).out
        self.assertEqual([line.partition(": ")[0] for line in out.splitlines() if line.startswith("samples")], [f"{ZONE}:4:16", f"{ZONE}:4:15", f"{ZONE}:5:1"])

    def test_a_number_without_a_script(self):
        """Its errors are reported in bytes, with a note."""
        note = "    note: source file 1 has no script: --script 1=SCRIPT names it\n"
        self.says(1, f"nodes 52\n13 1 128 133: {numbers.WORDS[13]}\n{note}{IN_ZONE}errors 3\n", "", "check", "--script", f"2={ZONE}", JOINED)
        ran = self.run_ducat("check", "--explain", "--script", f"2={ZONE}", JOINED)
        self.assertIn(f"13 1 128 133: {numbers.WORDS[13]}, node 15, kind 50 Normal\n{note}", ran.out)
        entry, = self.told(1, "check", "--script", f"2={ZONE}", JOINED)["inputs"]
        self.assertEqual(entry["scripts"], [{"file": 2, "name": ZONE}])
        first, second, _ = entry["errors"]
        self.assertEqual((first["note"], "script" in first, "line" in first), ("source file 1 has no script: --script 1=SCRIPT names it", False, False))
        self.assertEqual((second["script"], second["line"], "note" in second), ({"name": ZONE}, 4, False))
        self.says(1, f"nodes 6\n13 1 14 15: {numbers.WORDS[13]}\n{note}55 1 20 25: {numbers.WORDS[55]}\n{note}errors 2\n", "",
                  "check", "--script", f"2={ZONE}", "samples/example.table")

    def test_beside_a_table(self):
        out = self.run_ducat("check", "--explain", JOINED).out
        self.assertTrue(out.startswith("nodes 52, dialect all\n" + NO_DEFAULT.format(LINE, ", node 15, kind 50 Normal")), out)
        self.assertIn(f"{ZONE}:5:1: 55 ", out)
        entry, = self.told(1, "check", JOINED)["inputs"]
        self.assertEqual(entry["scripts"], [{"file": 1, "name": LINE}, {"file": 2, "name": ZONE}])
        self.assertNotIn("script", entry)

    def test_one_of_two_beside_a_table(self):
        path = self.put("x.table", support.sample("joined.table"))
        self.put("x.star", support.sample("joined.1.star"))
        note = "    note: source file {} has no script: there is no {}.{}.star\n"
        out = self.run_ducat("check", "--explain", path).out
        self.assertIn("13 1 128 133: ", out)
        self.assertIn(note.format(1, self.at("x"), 1), out)
        self.put("x.1.star", support.sample("joined.1.star"))
        out = self.run_ducat("check", "--explain", path).out
        self.assertIn(f"{self.at('x.1.star')}:5:19: 13 ", out)
        self.assertEqual(out.count(note.format(2, self.at("x"), 2)), 2)
        brace = self.put("{0}.table", support.sample("joined.table"))
        self.assertIn(note.format(1, self.at("{0}"), 1), self.run_ducat("check", "--explain", brace).out)

    def test_a_table_of_one_number(self):
        """X.star is its script for any number."""
        star = self.put("x.star", "break\n")
        self.run_ducat("table", "--number", "7", star, "-o", self.at("x.table"))
        self.put("x.7.star", "pass\n")
        out = self.run_ducat("check", "--explain", self.at("x.table")).out
        self.assertIn(f"{star}:1:1: 55 ", out)
        self.says(1, "nodes 1\n55 7 0 5\nerrors 1\n", "", "check", self.at("x.table"))
        self.assertEqual(self.told(1, "check", self.at("x.table"))["inputs"][0]["script"], {"name": star})

    def test_order_of_errors(self):
        """By file, begin, end, number; not with --module."""
        path = self.made("o.table", "(Statements\nfile: 2\n(Break span=0-5)\n(Break span=0-4)\nfile: 1\n(Break span=7-9)\n(Break span=2-9)\nfile: 2\n(Break span=0-3))")
        pairs = ["2 0 5", "2 0 4", "1 7 9", "1 2 9", "2 0 3"]
        for words, order in (((), (3, 2, 4, 1, 0)), (("--module",), range(5))):
            self.says(1, "nodes 6\n" + "".join(f"55 {pairs[at]}\n" for at in order) + "errors 5\n", "", "check", *words, path)

    def test_several_tables_and_jobs(self):
        names = [JOINED, "samples/example.table", JOINED, "samples/clean.table"]
        for words in ((), ("--explain",), BOTH, ("--json",)):
            self.assertEqual(self.run_ducat("check", *words, *names), self.run_ducat("check", "--jobs", "3", *words, *names))

    def test_wrong_usage(self):
        for words, said in (((f"1={LINE}", f"1={ZONE}"), "--script 1=SCRIPT is given twice"), ((f"1={LINE}", ZONE), "--script SCRIPT means all source file numbers"),
                            ((LINE, ZONE), "--script SCRIPT means all source file numbers"), ((f"0={LINE}",), "a source file number is 1 to 999"),
                            ((f"1000={LINE}",), "a source file number is 1 to 999"), ((f"{'9' * 5000}={LINE}",), "a source file number is 1 to 999"),
                            (("1=nothing",), "nothing: No such file or directory"), (("a=b",), "a=b: No such file or directory")):
            given = [word for script in words for word in ("--script", script)]
            self.wrong(said, "check", *given, JOINED)
            self.wrong(said, "bind", *given, JOINED)
            self.wrong(said, "rescue", *given, JOINED, "-o", self.at("none"))
        self.assertEqual(scripts.parsed(["001=x"]), [(1, "x")])
        with self.assertRaises(Failed):
            scripts.parsed(["01=x", "1=y"])

    def test_the_numbers_of_a_table(self):
        for text, found in (("(Statements)", []), ("(Break)", [1]), ("file: 999\n(If (Int) (Break))", [999]), ("(Statements\nfile: 300\n(Break)\nfile: 2\n(Break))", [2, 300])):
            self.assertEqual(scripts.files_of(table.parse_text(text)[0]), found)


class Rescue(JoinTest):
    def cut(self):
        """The sample without its last statement."""
        data = bytearray(support.sample("joined.table"))
        text = table.read_text(support.sample("joined.txt").decode())
        records = table.decode(text.table)
        records[-1] = records[-1]._replace(kind=99)
        data = table.file_of(table.encode(records), text.names, text.dialect)
        return self.put("cut.table", data)

    def test_statements_of_both(self):
        out = ("-o", self.at("out"))
        ran = self.run_ducat("rescue", "--explain", *BOTH, self.cut(), *out)
        self.assertEqual((ran.status, ran.err), (1, ""))
        self.assertEqual(ran.out.splitlines()[4:], [
            f"kept 1 of 6: def order, {LINE}:2:1", f"kept 2 of 6: def spare, {LINE}:5:1",
            f'kept 3 of 6: order(["7", "14"], ["2", "3"], gap=120), {ZONE}:2:1', f'kept 4 of 6: order(tracks=["2"], trains=["7"]), {ZONE}:3:1',
            f'kept 5 of 6: order(gap=60, ["7"], ["2"]), {ZONE}:4:1', f"lost 6 of 6: break, {ZONE}:5:1"])
        kept = support.library().read(self.read("out")).table
        self.assertEqual([record.file for record in table.decode(kept)], [0] + [1] * 17 + [2] * 33)
        ran = self.run_ducat("rescue", "--explain", self.cut(), *out)
        self.assertIn("kept 2: Def, node 12, file 1, bytes 110 to 152\nkept 3: OtherSimple, node 18, file 2, bytes 39 to 78\n", ran.out)
        self.assertTrue(ran.out.endswith("lost: 1 nodes, after byte 140 of file 2\n"))

    def test_some_scripts(self):
        ran = self.run_ducat("rescue", "--explain", "--script", f"2={ZONE}", self.cut(), "-o", self.at("out"))
        self.assertEqual(ran.err, f"ducat: {ZONE}: the statements of these scripts are not known, or are not the table's; lost ones are not named\n")
        self.assertIn("kept 1: Def, node 1, file 1, bytes 38 to 108\nkept 2: Def, node 12, file 1, bytes 110 to 152\nkept 3: order", ran.out)

    def test_numbers_that_do_not_follow(self):
        star, other = self.put("a.star", "pass\nbreak\n"), self.put("b.star", "pass\n")
        path = self.made("n.table", "(Statements\nfile: 4\n(OtherSimple span=0-4)\n(Break span=5-10)\nfile: 9\n(OtherSimple span=0-4 kind=99))")
        ran = self.run_ducat("rescue", "--explain", "--script", f"4={star}", "--script", f"9={other}", path, "-o", self.at("out"))
        self.assertEqual(ran.out.splitlines()[4:], [f"kept 1 of 3: pass, {star}:1:1", f"kept 2 of 3: break, {star}:2:1", f"lost 3 of 3: pass, {other}:1:1"])

    def test_json(self):
        entry, = self.told(1, "rescue", *BOTH, self.cut(), "-o", self.at("out"))["inputs"]
        self.assertEqual([(one["file"], one["line"]) for one in entry["kept"]], [(1, 2), (1, 5), (2, 2), (2, 3), (2, 4)])
        self.assertEqual([(one["file"], one["name"]) for one in entry["lost"]], [(2, "break")])

    def test_a_wrong_number_is_where_it_cuts(self):
        path = self.made("w.table", "(Statements (Break) (Break) (Break file=0) (Break))")
        self.says(1, "statements 2\nnodes 3\ndropped 2\nbytes 0\n", "", "rescue", path, "-o", self.at("out"))
        path = self.made("r.table", "(Statements file=1 (Break))")
        ran = self.says(2, "refused 91\n", None, "rescue", path, "-o", self.at("none"))
        self.assertIn("the source file number is 1, and a root Statements has 0", ran.err)


class Older(JoinTest):
    """Files that are older than source file numbers."""

    def old(self, name="example"):
        held = table.parts_of(support.sample(f"{name}.table"))
        records = [record._replace(file=0) for record in table.decode(held[0])]
        return self.put(f"{name}-old.table", table.file_of(table.encode(records), held[1], held[2]))

    def test_it_must_be_exported_again(self):
        for name, node, kind in (("example", 0, "2 Def"), ("whole", 0, "2 Def"), ("joined", 1, "2 Def")):
            path = self.old(name)
            said = f"refused 3: {numbers.WORDS[3]}, node {node}, kind {kind}: {OLD}\n"
            for module in ([], ["--module"], ["--against", "all"]):
                self.says(2, "refused 3\n", f"ducat: {path}: {said}", "check", *module, path)
            self.says(2, said, "", "check", "--explain", path)
            self.says(2, "refused 3\n", f"ducat: {path}: {said}", "bind", path)
            entry, = self.told(2, "check", path)["inputs"]
            self.assertEqual(entry["refused"]["reason"], OLD)

    def test_other_commands(self):
        path = self.old()
        ran = self.says(2, "refused 91\n", None, "rescue", path, "-o", self.at("none"))
        self.assertIn(OLD, ran.err)
        ran = self.run_ducat("dump", path, "-o", self.at("text"))
        self.assertIn(OLD, ran.err)
        ran = self.run_ducat("table", self.at("text"), "-o", self.at("again"))
        self.assertIn(OLD, ran.err)
        self.assertEqual(self.read("again"), self.read("example-old.table"))
        held = table.parts_of(self.read("example-old.table"))
        ran = self.says(2, "refused 3\n", None, "write", self.put("t", held[0]), self.put("n", held[1]), "-o", self.at("none"))
        self.assertIn(OLD, ran.err)

    def test_not_where_another_rule_is_broken_or_one_number_is_there(self):
        for text, said in (("file: 0\n(Statements (Break:1))", "the detail is 1"), ("(Statements (Break file=0) (Break))", "the source file number is 0, and must be")):
            path = self.made("x.table", "rules: off\n" + text)
            ran = self.says(2, "refused 3\n", None, "check", path)
            self.assertIn(said, ran.err)
            self.assertNotIn("older", ran.err)

    def test_a_root_alone(self):
        self.says(0, "nodes 1\nerrors 0\n", "", "check", self.made("x.table", "(Statements)"))


if __name__ == "__main__":
    unittest.main()
