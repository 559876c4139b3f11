"""The configuration file ducat.ini."""
import json
import os
import unittest

import support
from command import STEP, CommandTest

LOOP = "for x in []:\n    pass\n"


class Config(CommandTest):
    def run_here(self, *words, **more):
        return self.run_ducat(*words, cwd=self.room, **more)

    def test_the_current_folder(self):
        self.put("ducat.ini", "[ducat]\ndialect = standard\nexclude =\n    old\n    *.tmp.star\n")
        for name in ("a.star", "b.tmp.star", "old/c.star", "old/d.star"):
            self.put(name, LOOP)
        ran = self.run_here("check", ".")
        self.assertEqual(ran.err, f"ducat: configuration ducat.ini: dialect standard, 2 paths excluded\n{STEP}")
        self.assertEqual((ran.status, ran.out.splitlines()[-1]), (1, "files 1, with errors 1, refused 0, not read 0, errors 1"))
        told = json.loads(self.run_here("check", "--json", ".").out)
        self.assertEqual(told["configuration"], {"name": "ducat.ini", "dialect": "standard", "excluded": 2})
        self.assertEqual(told["inputs"][0]["dialect"]["name"], "standard")

    def test_the_command_line_comes_first(self):
        self.put("ducat.ini", "[ducat]\ndialect = standard\n")
        path = self.put("a.star", LOOP)
        ran = self.run_here("check", "--dialect", "all", path)
        self.assertEqual((ran.status, ran.err), (0, f"ducat: configuration ducat.ini: dialect all, 0 paths excluded\n{STEP}"))

    def test_a_named_file(self):
        path = self.put("other.ini", "[ducat]\nexclude = x.star\n")
        self.put("ducat.ini", "[ducat]\ndialect = nonsense\n")
        self.put("sub/x.star", LOOP)
        self.put("sub/y.star", LOOP)
        ran = self.run_here("check", "--config", path, "sub")
        self.assertEqual((ran.status, ran.err), (0, f"ducat: configuration {path}: dialect extended, 1 path excluded\n{STEP}"))

    def test_it_excludes_nothing_that_is_named(self):
        self.put("ducat.ini", "[ducat]\nexclude = *\n")
        self.put("x.table", support.sample("clean.table"))
        ran = self.run_here("check", "x.table")
        self.assertEqual((ran.status, ran.out), (0, "nodes 34\nerrors 0\n"))

    def test_other_commands(self):
        self.put("ducat.ini", "[ducat]\ndialect = all\n")
        self.put("take.star", support.sample("take.star"))
        said = "ducat: configuration ducat.ini: dialect all, 0 paths excluded\n"
        for words in (("bind", "take.star"), ("table", "take.star", "-o", "out"), ("dump", "take.star")):
            ran = self.run_here(*words)
            self.assertEqual(ran.err, said + STEP, words)
        self.assertEqual(support.library().read(self.read("out")).dialect, bytes([1, 1, 1, 1, 1, 2, 1, 1, 1]))

    def test_what_is_wrong_with_it(self):
        for text, said in (("[ducat]\ndialct = all\n", "there is no key dialct, only dialect, exclude, as-script, expect"),
                           ("[duct]\n", "there is no section [duct], only [ducat]"),
                           ("[ducat]\ndialect = basic\n", "basic is not a dialect"), ("dialect = all\n", "no section headers"),
                           (b"[ducat]\nexclude = \xff\n", "not UTF-8"), ("[ducat]\ndialect=all\ndialect=all\n", "already exists"),
                           ("#" * (2 ** 20 + 1), "more than 1,048,576 bytes")):
            self.put("ducat.ini", text)
            ran = self.run_here("check", os.path.join(support.ROOT, "samples/clean.table"))
            self.assertEqual((ran.status, ran.out, len(ran.err.splitlines())), (2, "", 1), text[:40])
            self.assertIn(f"ducat: ducat.ini: {said}" if said[0] in "tn" and "section headers" not in said else said, ran.err)

    def test_a_file_that_cannot_be_read(self):
        ran = self.run_here("check", "--config", "nothing.ini", "x")
        self.assertEqual((ran.status, ran.err), (2, "ducat: nothing.ini: No such file or directory\n"))
        os.symlink("nowhere", self.at("ducat.ini"))
        ran = self.run_here("check", "x")
        self.assertEqual((ran.status, ran.err), (2, "ducat: ducat.ini: No such file or directory\n"))

    def test_which_files_are_scripts(self):
        self.put("ducat.ini", "[ducat]\nas-script =\n    *.tpl\n    rules/*\n")
        for name in ("sub/a.bzl.tpl", "sub/b.txt", "rules/c", "d.inc"):
            self.put(name, LOOP)
        ran = self.run_here("check", "--json", ".", "--as-script", "*.inc")
        self.assertEqual([(entry["name"], entry["kind"]) for entry in json.loads(ran.out)["inputs"]],
                         [("./d.inc", "script"), ("./rules/c", "script"), ("./sub/a.bzl.tpl", "script")])
        ran = self.run_here("dump", "rules/c")
        self.assertEqual(ran.status, 0)

    def test_percent_and_empty(self):
        self.put("ducat.ini", "[ducat]\nexclude = 100%.star\n")
        self.put("sub/100%.star", LOOP)
        self.assertIn("1 excluded", self.run_here("check", "sub").err)
        self.put("ducat.ini", "")
        self.assertIn("configuration ducat.ini: dialect extended", self.run_here("check", "sub").err)


if __name__ == "__main__":
    unittest.main()
