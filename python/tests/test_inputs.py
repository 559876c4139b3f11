"""The inputs of ducat: folders, lists of names, scripts, links, FIFOs, devices, and how much of a file is read."""
import json
import os
import re
import threading
import time
import unittest
from unittest import mock

import support
from command import STEP, CommandTest
from ducatmuffin import inputs, numbers

PLAN = 'def plan(trains):\n    return trains\n\nfor train in ["7"]:\n    plan(train)\n'
CLEAN = "nodes 34\nerrors 0\n"


class Hook(unittest.TestCase):
    def test_the_hook_takes_the_names_of_scripts(self):
        """.pre-commit-hooks.yaml has a pattern of paths; pre-commit uses it with re.search."""
        with open(os.path.join(support.ROOT, ".pre-commit-hooks.yaml"), encoding="utf-8") as file:
            text = file.read()
        pattern = re.search(r"(?m)^  files: '(.*)'$", text)[1]
        self.assertIn("\n  language: system\n", text)
        for folder in ("", "zone/", "a.star/"):
            for name in ("plan.star", "a.bzl", "a.sky", "MODULE.bazel", "x.BUILD", "BUILD", "BUCK", "WORKSPACE", "a.table", "BUILDER", "MYBUILD", "a.star.txt",
                         "BUILD.txt", "xBUCK", "plan.STAR", "star", "aBUILD"):
                self.assertEqual(bool(re.search(pattern, folder + name)), inputs.is_script(folder + name), folder + name)


class Scripts(CommandTest):
    def test_errors_are_told_in_the_script(self):
        path = self.put("plan.star", PLAN)
        self.says(1, f"nodes 14\n{path}:4:1: 53 the dialect has no `for` at top level\n    for train in [\"7\"]:\n    ^^^^^^^^^^^^^^^^^^^ (to line 5)\n"
                  "errors 1\n", STEP, "check", path, "--dialect", "standard")
        self.says(0, "nodes 14\nerrors 0\n", STEP, "check", path)
        self.says(0, "", "", "check", "--quiet", path)

    def test_every_name_of_a_script(self):
        for name in ("plan.bzl", "plan.sky", "BUILD", "BUILD.bazel", "zlib.BUILD", "BUCK", "WORKSPACE"):
            self.says(0, "nodes 14\nerrors 0\n", STEP, "check", "--dialect", "all", self.put(name, PLAN))

    def test_other_names_are_table_files(self):
        self.says(2, "refused 70\n", None, "check", self.put("plan.table", PLAN))
        self.says(0, CLEAN, "", "check", self.put("BUILD.table", support.sample("clean.table")))
        self.says(2, "refused 70\n", None, "check", "-", input=PLAN.encode())

    def test_names_by_a_glob(self):
        path = self.put("rules/plan.bzl.tpl", PLAN)
        self.says(0, "nodes 14\nerrors 0\n", STEP, "check", "--dialect", "all", "--as-script", "*.tpl", path)
        self.says(0, "nodes 14\nerrors 0\n", STEP, "check", "--as-script", "*.inc", "--as-script", f"{self.room}/rules/*", path)
        self.says(2, "refused 70\n", None, "check", "--as-script", "*.inc", path)
        self.says(0, "nodes 14\nerrors 0\n", STEP, "check", "--as-script", "-", "-", input=PLAN.encode())
        ran = self.run_ducat("check", "--as-script", "*.tpl", self.room)
        self.assertEqual((ran.status, ran.out.splitlines()[0]), (0, f"{path}:"))
        ran = self.run_ducat("bind", "--as-script", "*.tpl", path)
        self.assertEqual((ran.status, ran.out.splitlines()[-1]), (0, "bound 1, refused 0, without a def 0"))

    def test_standard_input_with_a_script_s_name(self):
        self.says(1, "nodes 14\nplan.star:4:1: 53 the dialect has no `for` at top level\n    for train in [\"7\"]:\n    ^^^^^^^^^^^^^^^^^^^ (to line 5)\n"
                  "errors 1\n", STEP, "check", "--stdin-filename", "plan.star", "--dialect", "standard", "-", input=PLAN.encode())
        self.says(0, CLEAN, "", "check", "-", "--stdin-filename", "x.table", input=support.sample("clean.table"))

    def test_the_earlier_place_is_a_note(self):
        path = self.put("twice.star", "def f(a, b,\n      a):\n    pass\n")
        self.says(1, f"""nodes 5
{path}:2:7: 11 a parameter has the name of an earlier one
          a):
          ^
{path}:1:7: note: the earlier parameter
    def f(a, b,
          ^
errors 1
""", STEP, "check", path)
        path = self.put("twice.star", "def f(a, b):\n    return f(a=1,\n             a=2)\n")
        self.assertIn(f"{path}:2:14: note: the earlier argument\n", self.run_ducat("check", path).out)

    def test_a_wrong_order_reaches_the_checker(self):
        self.says(1, """nodes 6
samples/example.star:1:15: 13 a parameter without a default follows one that has a default
    def f(a, b=1, c):
                  ^
samples/example.star:2:3: 55 `break` is outside a `for` loop
      break
      ^^^^^
errors 2
""", STEP, "check", "samples/example.star")

    def test_a_sample_s_script_has_the_errors_of_its_table(self):
        for name in ("example", "parameters", "lambda", "whole"):
            of_table, = json.loads(self.run_ducat("check", "--json", f"samples/{name}.table").out)["inputs"]
            dialect = "".join(map(str, of_table["dialect"]["bytes"])) if of_table["dialect"]["given"] else "none"
            of_script, = json.loads(self.run_ducat("check", "--json", "--dialect", dialect, f"samples/{name}.star").out)["inputs"]
            self.assertTrue(of_table["errors"])
            self.assertEqual(of_script["errors"], of_table["errors"], name)

    def test_targets_of_comprehensions(self):
        """A table does not mark them, so they are checked only in scripts."""
        path = self.put("comprehension.star", "[x for 1 in y]\n{x: y for x, [f()] in y if x for z[0] in w if 7 for (8) in x}\n")
        ran = self.says(1, None, STEP, "check", path)
        self.assertEqual([line for line in ran.out.splitlines() if not line.startswith(" ")],
                         ["nodes 24", *(f"{path}:{place}: 30 {numbers.WORDS[30]}" for place in ("1:8", "2:15", "2:54")), "errors 3"])
        self.says(0, "nodes 24\nerrors 0\n", STEP, "check", "--module", path)
        self.says(0, "nodes 8\nerrors 0\n", STEP, "check", self.put("right.star", "[x for x, y.z in w]\n"))

    def test_what_is_not_starlark(self):
        path = self.put("wrong.star", "x = 1\nwhile x:\n    pass\n")
        said = f"{path}:2:1: syntax: `while` is a reserved word\n"
        lines = f"{said}    while x:\n    ^^^^^\nerrors 1\n"
        for options in ((), ("--explain",), ("--module",), ("--bad-only",)):
            self.says(1, lines, STEP, "check", path, *options)
        self.says(1, "", "", "check", "--quiet", path)
        self.says(1, f"{path}:\n{lines}samples/clean.table:\nnodes 34\nerrors 0\nfiles 2, with errors 1, refused 0, not read 0, errors 1\n", STEP,
                  "check", path, "samples/clean.table")
        ran = self.run_ducat("check", "--json", path)
        told = json.loads(ran.out)
        entry, = told["inputs"]
        self.assertEqual((ran.status, entry["verdict"], told["totals"]["errors"], told["totals"]["with_errors"]), (1, "syntax", 1, 1))
        self.assertEqual(entry["errors"], [{"number": None, "words": said.partition(":2:1: ")[2][:-1], "file": 1, "begin": 6, "end": 11, "line": 2,
                                            "column": 1, "script": {"name": path}}])
        self.assertNotIn("nodes", entry)

    def test_the_end_of_a_script(self):
        path = self.put("end.star", "x = [\n  1,\n")
        self.says(1, f"{path}:3:1: syntax: unexpected end of script: the `[` of line 1 is not closed\nerrors 1\n", STEP, "check", path)
        path = self.put("line.star", "def f()\n  pass\n")
        self.says(1, f"{path}:1:8: syntax: expected `:`, found end of line\n    def f()\n           ^\nerrors 1\n", STEP, "check", path)

    def test_what_has_no_table(self):
        path = self.put("large.star", "pass\n\nx = [" + "1, " * 2200 + "]\n")
        said = f"ducat: {path}:3:1: this statement has 2,203 nodes, and a table has at most 2,100\n"
        self.says(2, "", f"{STEP}{said}", "check", path)
        self.says(2, "", said, "check", "--quiet", path)
        ran = self.run_ducat("check", "--json", path)
        entry, = json.loads(ran.out)["inputs"]
        self.assertEqual((ran.status, entry["verdict"], entry["line"], entry["column"]), (2, "no table", 3, 1))
        self.says(2, f"{path}:\nsamples/clean.table:\nnodes 34\nerrors 0\n"
                  "files 2, with errors 0, refused 0, not read 1, errors 0\n", None, "check", path, "samples/clean.table")
        deep = self.put("deep.star", "x = " + "(" * 300 + "1" + ")" * 300 + "\n")
        ran = self.says(2, "", None, "check", deep)
        self.assertIn("nested too deeply", ran.err)

    def test_dialects(self):
        path = self.put("plan.star", PLAN)
        self.says(2, "", "ducat: --dialect: basic is not a dialect: standard, extended, all, none or nine digits\n",
                  "check", "--dialect", "basic", path)
        self.says(2, "", "ducat: --dialect is for scripts: a table file has its own dialect\n", "check", "--dialect", "all", "samples/clean.table")
        self.says(2, "refused 5\n", f"{STEP}ducat: {path}: refused 5: the dialect bytes are not a dialect, or the edition is neither 1 nor 2, or there is an edition and no dialect: the bytes are 1 1 1 0 0 3 1 0 0\n",
                  "check", "--dialect", "111003100", path)
        for word, name in (("none", "extended (none is given)"), ("STANDARD", "standard"), ("111112111", "all"), ("111000000", "111000000")):
            self.assertIn(f"nodes 14, dialect {name}\n", self.run_ducat("check", "--explain", "--dialect", word, path).out)
        self.says(0, None, STEP, "check", "--dialect", "all", "samples/clean.table", path)

    def test_json(self):
        path = self.put("plan.star", PLAN)
        ran = self.run_ducat("check", "--json", "--dialect", "111000100", path)
        entry, = json.loads(ran.out)["inputs"]
        self.assertEqual((ran.status, ran.err, entry["kind"], entry["dialect"]["name"]), (1, "", "script", "standard"))
        self.assertEqual(entry["table"], "made from the script by ducat's own parser; that step is not proved")
        self.assertEqual(entry["errors"], [{"number": 53, "words": "the dialect has no `for` at top level", "file": 1, "begin": 37, "end": 72,
                                            "line": 4, "column": 1, "script": {"name": path}, "node": 5, "kind": {"number": 3, "name": "For"}}])

    def test_the_longest_script(self):
        path = self.put("long.star", b"#" * (inputs.SCRIPT_MOST + 1))
        self.says(2, "", f"{STEP}ducat: {path}: a script has at most 16,777,216 bytes, and this one has more\n", "check", path)


class Folders(CommandTest):
    def tree(self):
        clean = support.sample("clean.table")
        for name in ("b.table", "a.star", "sub/c.table", "sub/BUILD", ".hidden/d.table", "sub/.git/e.table", "x.txt", ".f.table"):
            self.put(name, clean if name.endswith(".table") else "pass\n")
        os.symlink(self.at("sub"), self.at("link"))
        os.symlink(self.at("b.table"), self.at("to-file.table"))
        os.symlink(self.at("nowhere"), self.at("broken.table"))
        os.mkfifo(self.at("fifo.table"))
        os.mkdir(self.at("folder.table"))

    def names(self, *words):
        ran = self.run_ducat("check", "--json", *words, cwd=self.room)
        return [(entry["name"], entry["verdict"]) for entry in json.loads(ran.out)["inputs"]], ran

    def test_search(self):
        self.tree()
        found, ran = self.names(".")
        self.assertEqual(found, [("./.f.table", "accepted"), ("./a.star", "accepted"), ("./b.table", "accepted"), ("./broken.table", "unreadable"),
                                 ("./to-file.table", "accepted"), ("./sub/BUILD", "accepted"), ("./sub/c.table", "accepted")])
        self.assertEqual(ran.status, 2)

    def test_exclude(self):
        self.tree()
        self.assertEqual(self.names("--exclude", "sub", "--exclude", "*.table", ".")[0], [("./a.star", "accepted")])
        self.assertEqual(self.names("--exclude", "sub/*.table", "sub", "b.table")[0], [("sub/BUILD", "accepted"), ("b.table", "accepted")])

    def test_a_named_file_is_not_excluded(self):
        self.tree()
        self.assertEqual(self.names("--exclude", "*.table", "b.table")[0], [("b.table", "accepted")])

    def test_a_link_that_is_named_is_searched(self):
        self.tree()
        self.assertEqual(self.names("link")[0], [("link/BUILD", "accepted"), ("link/c.table", "accepted")])

    def test_one_file_of_a_folder_has_its_name(self):
        self.put("one/x.table", support.sample("clean.table"))
        self.says(0, "one/x.table:\nnodes 34\nerrors 0\nfiles 1, with errors 0, refused 0, not read 0, errors 0\n", "", "check", "one", cwd=self.room)

    def test_nothing_is_found(self):
        os.mkdir(self.at("empty"))
        path = self.at("empty")
        self.says(2, "files 0, with errors 0, refused 0, not read 0, errors 0\n",
                  f"ducat: {path}: no table file and no script is found in this folder\n", "check", path)
        self.put("full/x.table", support.sample("clean.table"))
        self.says(2, None, f"ducat: {self.at('full')}: no table file and no script is found in this folder; 1 excluded\n", "check", "--exclude", "x.*",
                  self.at("full"))
        self.says(2, None, None, "check", path, "samples/clean.table")

    @unittest.skipIf(os.geteuid() == 0 and not os.path.exists("/proc/self/fd"), "no folder can be made unreadable")
    def test_a_folder_that_cannot_be_read(self):
        with mock.patch("os.scandir", side_effect=PermissionError(13, "Permission denied")):
            search = inputs.Search()
            search.listed(support.ROOT)
        self.assertEqual([(one.path, inputs.reason(one.error)) for one in search.found], [(support.ROOT, "Permission denied")])
        with self.assertRaises(PermissionError):
            inputs.read(search.found[0], 1)


class Lists(CommandTest):
    def test_lines_and_nul(self):
        names = ["samples/clean.table", "", "samples/take.table"]
        for nul, mark in (([], "\n"), (["-0"], "\0")):
            path = self.put("list", mark.join(names) + mark)
            out = self.run_ducat("check", *nul, "--files-from", path).out
            self.assertEqual(out, "samples/clean.table:\nnodes 34\nerrors 0\nsamples/take.table:\nnodes 62\nerrors 0\n"
                             "files 2, with errors 0, refused 0, not read 0, errors 0\n")
        self.assertEqual(self.run_ducat("check", "--files-from", "-", input="\n".join(names).encode()).out, out)

    def test_names_of_any_bytes(self):
        odd = self.put(b"new\nline\xff.table", support.sample("clean.table"))
        ran = self.run_ducat("check", "--files-from", "-", "-0", input=os.fsencode(odd) + b"\0")
        self.assertEqual((ran.status, ran.out.splitlines()[1:3]), (0, ["nodes 34", "errors 0"]))

    def test_a_list_that_cannot_be_read(self):
        self.says(2, "", "ducat: samples/missing: No such file or directory\n", "check", "--files-from", "samples/missing")
        self.says(2, "", "ducat: standard input (`-`) is named twice\n", "check", "--files-from", "-", "-")
        self.says(2, "", "ducat: standard input (`-`) is named twice\n", "check", "-", "-")
        self.says(2, "", "ducat: -0 is for --files-from\n", "check", "-0", "samples/clean.table")

    def test_time_grows_with_the_number_of_names(self):
        """100,000 names against 20,000: five times as many take less than twelve times as long."""
        one = os.fsencode(self.put("x.table", support.sample("clean.table"))) + b"\n"
        took = []
        for many in (20000, 100000):
            before = os.times()
            ran = self.run_ducat("check", "--module", "--bad-only", "--files-from", "-", input=one * many)
            after = os.times()
            self.assertEqual(ran, (0, f"files {many}, with errors 0, refused 0, not read 0, errors 0\n", ""))
            took.append(sum(after[2:4]) - sum(before[2:4]))
        self.assertLess(took[1], 12 * took[0] + 1)

    def test_bind_takes_a_list(self):
        ran = self.run_ducat("bind", "--files-from", "-", input=b"samples/take.table\nsamples/clean.table\n")
        self.assertEqual(ran.out.count(".table:\n"), 2)


class Files(CommandTest):
    def test_a_fifo(self):
        os.mkfifo(self.at("fifo"))

        def feed():
            with open(self.at("fifo"), "wb") as file:
                for at in range(0, 2048, 100):
                    file.write(support.sample("clean.table")[at:at + 100])
                    file.flush()
                    time.sleep(0.001)

        feeder = threading.Thread(target=feed, daemon=True)
        feeder.start()
        self.says(0, CLEAN, "", "check", self.at("fifo"))
        feeder.join(30)

    def test_a_fifo_that_does_not_end(self):
        os.mkfifo(self.at("fifo"))
        wrote = []

        def feed():
            try:
                with open(self.at("fifo"), "wb", buffering=0) as file:
                    while True:
                        wrote.append(file.write(bytes(4096)))
            except BrokenPipeError:
                pass

        feeder = threading.Thread(target=feed, daemon=True)
        feeder.start()
        self.says(2, "refused 73\n", None, "check", self.at("fifo"))
        feeder.join(30)
        self.assertFalse(feeder.is_alive())
        self.assertLess(sum(wrote), numbers.FILE_BYTES + 2 ** 18)

    def test_devices(self):
        self.says(2, "refused 73\n", None, "check", "/dev/zero")
        self.says(2, "refused 70\n", None, "check", "/dev/null")

    def test_links(self):
        os.symlink(os.path.join(support.ROOT, "samples", "clean.table"), self.at("link.table"))
        os.symlink(self.at("loop.table"), self.at("loop.table"))
        self.says(0, CLEAN, "", "check", self.at("link.table"))
        ran = self.run_ducat("check", self.at("loop.table"))
        self.assertEqual((ran.status, ran.out), (2, ""))
        self.assertIn("loop.table: Too many levels of symbolic links", ran.err)

    def test_a_name_that_no_file_can_have(self):
        ran = self.run_ducat("check", "--files-from", "-", "-0", "x" * 5000, input=b"")
        self.assertEqual((ran.status, "File name too long" in ran.err), (2, True))
        ran = self.run_ducat("check", "--files-from", "-", input=b"a\0b\n")
        self.assertEqual((ran.status, "embedded null" in ran.err), (2, True))

    def test_a_file_that_grows_or_vanishes(self):
        path = self.put("x.table", support.sample("clean.table"))
        parts, real = [b"", support.sample("clean.table")], os.read

        def growing(descriptor, most):
            """Between two reads the file has grown."""
            data = real(descriptor, min(most, 700))
            with open(path, "ab") as file:
                file.write(b"more")
            return data

        with mock.patch("os.read", growing):
            data = inputs.read(inputs.Input(path), inputs.TABLE_MOST)
        self.assertTrue(data.startswith(parts[1]) and len(data) > len(parts[1]))
        os.remove(path)
        self.says(2, "", f"ducat: {path}: No such file or directory\n", "check", path)

    def test_no_more_is_read_than_the_largest_file_and_a_byte(self):
        path, asked, real = self.put("big", bytes(500000)), [], os.read

        def counted(descriptor, most):
            data = real(descriptor, most)
            asked.append(len(data))
            return data

        with mock.patch("os.read", counted):
            self.assertEqual(len(inputs.read(inputs.Input(path), inputs.TABLE_MOST)), 59905)
        self.assertEqual(sum(asked), 59905)


class Jobs(CommandTest):
    def test_the_output_is_the_same(self):
        names = [f"samples/{name}.table" for name in support.samples(".table")] * 3 + ["samples/missing.table", "samples/take.star", "samples"]
        for more in ([], ["--module"], ["--explain"], ["--json"], ["--bad-only"], ["--quiet"]):
            one = self.run_ducat("check", *more, *names)
            for jobs in ("2", "3", "64"):
                self.assertEqual(self.run_ducat("check", "--jobs", jobs, *more, *names), one)

    def test_standard_input_among_them(self):
        ran = self.run_ducat("check", "--jobs", "2", "samples/take.table", "-", "samples/take.table", input=support.sample("clean.table"))
        self.assertEqual(ran.out, "samples/take.table:\nnodes 62\nerrors 0\n-:\nnodes 34\nerrors 0\nsamples/take.table:\nnodes 62\nerrors 0\n"
                         "files 3, with errors 0, refused 0, not read 0, errors 0\n")

    def test_wrong_numbers(self):
        for word in ("0", "-1", "x", "1025", ""):
            ran = self.run_ducat("check", "--jobs", word, "samples/clean.table")
            self.assertEqual((ran.status, ran.out), (2, ""), word)


if __name__ == "__main__":
    unittest.main()
