"""ducat bind: the sample, every mode and refusal, wrong nodes and files, scripts that are not the table's, many pairs."""
import json
import os
import unittest

import support
from command import STEP, CommandTest

TAKE = "samples/take.table"
MODES = """dialect: AllOptionsInternal
(Statements
  (Def (Normal a) (Slash) (Normal b) (Normal:2 c (Int)) (ArgsParam rest) (Normal d) (Normal:2 e (Int)) (KwArgsParam more) (Break))
  (OtherSimple
    (Call (Identifier f) (Positional (Identifier x)) (Positional (Int)) (Named d (Identifier y)))
    (Call (Identifier f) (Positional (Int)) (Positional (Int)) (Positional (Int)) (Positional (Identifier x)) (Positional (Int))
      (Named z (List)) (Named d (Int)) (Named a (Identifier y)))
    (Call (Dot f (Identifier g)) (Positional (Int)) (Named d (Int)) (Named b (Tuple)))
    (Call (Identifier g)))
  (Def (Break)))
"""
REFUSALS = """dialect: AllOptionsInternal
(Statements
  (Def (Normal a) (Normal:2 b (Int)) (Break))
  (Def (Normal:2 a (Int)) (Normal b) (Break))
  (OtherSimple
    (Call (Identifier f) (ArgsArg (Identifier x)))
    (Call (Identifier f) (Positional (Int)) (Positional (Int)) (Positional (Int)))
    (Call (Identifier f) (Positional (Int)) (Named a (Int)))
    (Call (Identifier f) (Named b (Int)))
    (Call (Identifier f) (Named a (Int)) (Positional (Int)))
    (Lambda (Normal a) (Int))))
"""
PAIRS_STAR = """def f(a): pass
def f(b): pass
f(b="Zürich"); f(1)
print(1); x.f(2); f(111111111111111111111111111111111111111111111111111111111111)
f(
    2)
"""
PAIRS = """script: pairs.star
(Statements `def…    2)`
  (Def `def f(a): pass` (Normal a `a`) (OtherSimple `pass`))
  (Def `def f(b): pass` (Normal b `b`) (OtherSimple `pass`))
  (OtherSimple `f(b="Zürich")` (Call `f(b="Zürich")` (Identifier f `f`) (Named b `b="Zürich"` (String `"Zürich"`))))
  (OtherSimple `f(1)` (Call `f(1)` (Identifier f `f`) (Positional `1` (Int `1`))))
  (OtherSimple `print(1)` (Call `print(1)` (Identifier print `print`) (Positional `1` (Int `1`))))
  (OtherSimple `x.f(2)` (Call `x.f(2)` (Dot f `x.f` (Identifier x `x`)) (Positional `2` (Int `2`))))
  (OtherSimple `f(1…1)` (Call `f(1…1)` (Identifier f `f`)
    (Positional `111111111111111111111111111111111111111111111111111111111111`
      (Int `111111111111111111111111111111111111111111111111111111111111`))))
  (OtherSimple `f(…2)` (Call `f(…2)` (Identifier f `f`) (Positional `2` (Int `2`)))))
"""
BOUND = """3:1 f(b="Zürich"), def 1:1
    refused 82, b="Zürich" (3:3)
3:1 f(b="Zürich"), def 2:1
    b, by place or name: b="Zürich" (3:3)
3:16 f(1), def 1:1
    a, by place or name: 1 (3:18)
3:16 f(1), def 2:1
    b, by place or name: 1 (3:18)
4:1 print(1), no def of this name
4:11 x.f(2), a method call, which is bound to no def
4:19 f(111111111111111111111111111111111111111111111111111111111…, def 1:1
    a, by place or name: 111111111111111111111111111111111111111111111111111111111111 (4:21)
4:19 f(111111111111111111111111111111111111111111111111111111111…, def 2:1
    b, by place or name: 111111111111111111111111111111111111111111111111111111111111 (4:21)
5:1 f(…, def 1:1
    a, by place or name: 2 (6:5)
5:1 f(…, def 2:1
    b, by place or name: 2 (6:5)
bound 7, refused 1, without a def 2
"""


class BindTest(CommandTest):
    def pair(self, status, out, path, call, def_, *more, err=""):
        self.says(status, out, err, "bind", path, "--call", str(call), "--def", str(def_), *more)


class Sample(BindTest):
    def test_the_whole_script(self):
        bound = support.sample("take.bound").decode()
        self.says(1, bound, "", "bind", "--script", "samples/take.star", TAKE)
        self.says(1, bound, STEP, "bind", "samples/take.star")
        self.says(1, bound, STEP, "bind", "--dialect", "all", "samples/take.star")
        self.says(1, bound, STEP, "bind", self.put("BUILD", support.sample("take.star")))
        self.says(1, bound, STEP, "bind", "-", "--stdin-filename", "x.star", input=support.sample("take.star"))

    def test_defs_and_calls(self):
        self.says(0, """def 1, file 1, bytes 0 to 56: 2 parameters
def 9, file 1, bytes 58 to 112: 2 parameters
def 16, file 1, bytes 114 to 334: 2 parameters
call 21, file 1, bytes 144 to 164: take, 2 arguments
call 28, file 1, bytes 169 to 203: take, 2 arguments
call 35, file 1, bytes 208 to 228: take, 2 arguments
call 42, file 1, bytes 233 to 268: take2, 2 arguments
call 49, file 1, bytes 273 to 308: take2, 2 arguments
call 56, file 1, bytes 313 to 334: take2, 2 arguments
defs 3, calls 6
""", "", "bind", TAKE)

    def test_single_calls(self):
        self.pair(0, "trains, by place only: trains (node 23, file 1, bytes 149 to 155)\ntracks, by place only: tracks (node 25, file 1, bytes 157 to 163)\n",
                  TAKE, 21, 1)
        self.pair(1, "refused 82 1 174 187\n", TAKE, 28, 1)
        self.pair(1, "refused 82 1 174 187: a named argument matches no parameter, and there is no `**kwargs`\n", TAKE, 28, 1, "--explain")
        self.pair(0, "trains, by place or name: trains=tracks (node 32, file 1, bytes 189 to 202)\n"
                  "tracks, by place or name: tracks=trains (node 30, file 1, bytes 174 to 187)\n"
                  "exchanged: trains (node 31, file 1, bytes 181 to 187) reaches tracks, and tracks (node 33, file 1, bytes 196 to 202) reaches trains\n",
                  TAKE, 28, 9, "--explain")
        self.says(0, "trains, by place only: tracks (node 37, file 1, bytes 213 to 219)\ntracks, by place only: trains (node 39, file 1, bytes 221 to 227)\n"
                  "exchanged: tracks (node 38, file 1, bytes 213 to 219) reaches trains, and trains (node 40, file 1, bytes 221 to 227) reaches tracks\n", "",
                  "bind", "-", "--call", "35", "--def", "1", input=support.sample("take.table"))


class Modes(BindTest):
    def test_list(self):
        self.says(0, """def 1, file 1, bytes 1 to 2: 7 parameters
call 14, file 1, bytes 14 to 15: f, 3 arguments
call 22, file 1, bytes 22 to 23: f, 8 arguments
call 40, file 1, bytes 40 to 41: a method call, 3 arguments
call 49, file 1, bytes 49 to 50: g, 0 arguments
def 51, file 1, bytes 51 to 52: 0 parameters
defs 2, calls 4
""", "", "bind", self.made("modes", MODES))

    def test_every_mode(self):
        path = self.made("modes", MODES)
        self.pair(0, """a, by place only: x (node 16, file 1, bytes 16 to 17)
b, by place or name: (Int) (node 18, file 1, bytes 18 to 19)
c, by place or name: default
*rest, collects by place: none
d, by name only: d=y (node 20, file 1, bytes 20 to 21)
e, by name only: default
**more, collects by name: none
""", path, 14, 1)
        self.pair(0, """a, by place only: (Int) (node 24, file 1, bytes 24 to 25)
b, by place or name: (Int) (node 26, file 1, bytes 26 to 27)
c, by place or name: (Int) (node 28, file 1, bytes 28 to 29)
*rest, collects by place: x (node 30, file 1, bytes 30 to 31); (Int) (node 32, file 1, bytes 32 to 33)
d, by name only: d=(Int) (node 36, file 1, bytes 36 to 37)
e, by name only: default
**more, collects by name: z=(List) (node 34, file 1, bytes 34 to 35); a=y (node 38, file 1, bytes 38 to 39)
""", path, 22, 1)
        self.pair(0, """a, by place only: (Int) (node 43, file 1, bytes 43 to 44)
b, by place or name: b=(Tuple) (node 47, file 1, bytes 47 to 48)
c, by place or name: default
*rest, collects by place: none
d, by name only: d=(Int) (node 45, file 1, bytes 45 to 46)
e, by name only: default
**more, collects by name: none
""", path, 40, 1)
        self.pair(0, "no parameters\n", path, 49, 51)

    def test_each_refusal(self):
        path = self.made("refusals", REFUSALS)
        for call, def_, line in ((12, 1, "80 1 14 15"), (16, 1, "81 1 22 23"), (24, 1, "83 1 28 29"), (30, 1, "84 1 2 3"), (34, 1, "20 1 38 39"),
                                 (12, 6, "13 1 9 10")):
            self.pair(1, f"refused {line}\n", path, call, def_)

    def test_nodes_that_are_wrong(self):
        path = self.made("refusals", REFUSALS)
        for call, def_ in ((1, 12), (12, 40), (12, 43), (43, 1), (12, 2100), (12, 4294967295), (12, 18446744073709551616), (10 ** 26 - 1, 1)):
            self.pair(2, "refused 6\n", path, call, def_)
        self.pair(2, "refused 6: the node is beyond the table, or of the wrong kind\n", path, 0, 0, "--explain")


class Files(BindTest):
    def test_refused(self):
        self.says(2, "refused 72\n", None, "bind", "samples/damaged.table")
        self.says(2, "refused 70: the file ends before a block is complete, block 2: the file ends after 1500 bytes, 476 bytes into this block\n"
                  "hint: its 1500 bytes are not a multiple of 512, so this is not a whole table file\n", "",
                  "bind", "--explain", "samples/cut.table", "--call", "1", "--def", "2")
        self.says(2, "refused 3\n", None, "bind", "samples/unsound.table", "--script", "samples/unsound.star")
        self.says(2, "refused 75\n", None, "bind", self.put("over", support.sample("take.table") + bytes(100000)))
        self.says(2, "refused 70\n", None, "bind", self.put("nothing", b""), "--call", "1", "--def", "2")

    def test_the_largest(self):
        path = self.made("largest", "dialect: Standard\n(Statements ^64<(OtherSimple (Identifier " + "0" * 126
                         + "))> ^1966<(OtherSimple)> (Def (Break)) (OtherSimple (Call (Int))))")
        self.pair(0, "no parameters\n", path, 2098, 2095)

    def test_not_read(self):
        self.says(2, "", "ducat: samples/missing.table: No such file or directory\n", "bind", "samples/missing.table")
        self.says(2, "", "ducat: samples: Is a directory\n", "bind", "samples")
        folder = os.open(support.ROOT, os.O_RDONLY)
        try:
            self.says(2, "", "ducat: -: Is a directory\n", "bind", "-", stdin=folder)
        finally:
            os.close(folder)

    def test_several(self):
        ran = self.run_ducat("bind", TAKE, "samples/missing.table", "samples/damaged.table", "samples/take.star")
        self.assertEqual(ran.status, 2)
        self.assertEqual([line for line in ran.out.splitlines() if line.startswith("samples/")],
                         ["samples/take.table:", "samples/damaged.table:", "samples/take.star:"])
        self.assertIn("refused 72\n", ran.out)
        self.assertTrue(ran.out.endswith("bound 5, refused 1, without a def 0, namesakes 6\n"))

    def test_words_that_are_wrong(self):
        for words, said in (((), "no FILE is given"), ((TAKE, "--call", "1"), "--call and --def go together"),
                            ((TAKE, "--call", "x", "--def", "1"), "a node is a number"),
                            ((TAKE, "--call", "-1", "--def", "1"), ""), ((TAKE, "--nothing"), "unrecognized arguments: --nothing"),
                            ((TAKE, "--script"), "expected one argument"),
                            (("--script", "samples/take.star", TAKE, "--call", "21", "--def", "1"), "--script pairs calls and defs: it cannot be used"),
                            ((TAKE, TAKE, "--call", "21", "--def", "1"), "--call and --def need one table file"),
                            (("samples/take.star", "--call", "21", "--def", "1"), "--call and --def need one table file"),
                            (("--script", "samples/take.star", "samples/take.star"), "--script needs one table file"),
                            (("--dialect", "all", TAKE), "--dialect is for scripts"), (("--dialect", "basic", "samples/take.star"), "basic is not a dialect")):
            ran = self.run_ducat("bind", *words)
            self.assertEqual((ran.status, ran.out, len(ran.err.splitlines())), (2, "", 1), words)
            self.assertIn(said, ran.err)


class Scripts(BindTest):
    def test_pairs(self):
        self.put("pairs.star", PAIRS_STAR)
        path = self.made("pairs", PAIRS, PAIRS_STAR.encode())
        self.says(1, BOUND, "", "bind", "--script", self.at("pairs.star"), path)
        self.says(1, BOUND, STEP, "bind", self.at("pairs.star"))

    def test_calls_of_calls_and_methods(self):
        path = self.put("outer.star", "def outer(a):\n  return outer\nouter(1)(2)\nx.f(3)\n[f][0](1)\n")
        self.says(0, """3:1 outer(1)(2), a call of a call, which is bound to no def
3:1 outer(1), def 1:1
    a, by place or name: 1 (3:7)
4:1 x.f(3), a method call, which is bound to no def
5:1 [f][0](1), a call of an expression, which is bound to no def
bound 1, refused 0, without a def 3
""", STEP, "bind", path)
        told = json.loads(self.run_ducat("bind", "--json", path).out)
        self.assertEqual([call["form"] for call in told["inputs"][0]["without_def"]], ["call", "method", "expression"])

    def test_a_script_that_is_not_the_table_s(self):
        self.says(2, "", "ducat: samples/clean.star is not the table's script: at bytes 0 to 56 is not a def\n",
                  "bind", "--script", "samples/clean.star", TAKE)
        other = self.put("other.star", support.sample("take.star").replace(b"    take2(tracks=tracks", b"    toke2(tracks=tracks"))
        self.says(2, "", f"ducat: {other} is not the table's script: at bytes 233 to 238 is not take2\n", "bind", "--script", other, TAKE)
        self.says(2, "", "ducat: samples/missing.star: No such file or directory\n", "bind", "--script", "samples/missing.star", TAKE)

    def test_nothing_to_bind(self):
        self.says(0, "bound 0, refused 0, without a def 0\n", "", "bind", "--script", "samples/example.star", "samples/example.table")
        self.says(0, "defs 0, calls 0\n", "", "bind", self.made("plain", "(Break)"))

    def test_no_table(self):
        path = self.put("deep.star", "x = " + "(" * 300 + "1" + ")" * 300 + "\n")
        self.assertIn("nested too deeply", self.says(2, "", None, "bind", path).err)

    def test_not_starlark(self):
        path = self.put("wrong.star", "def f(): pass\nf(1 2)\n")
        lines = f"{path}:2:5: syntax: expected `)`, found `2`\n    f(1 2)\n        ^\n"
        self.says(1, lines, STEP, "bind", path)
        self.says(2, None, None, "bind", path, "samples/missing.table")
        ran = self.says(1, None, STEP, "bind", path, "samples/take.star")
        self.assertTrue(ran.out.startswith(f"{path}:\n{lines}samples/take.star:\n"), ran.out)

    def test_lists_in_a_wrong_order(self):
        self.says(0, "bound 0, refused 0, without a def 0\n", STEP, "bind", "samples/parameters.star")
        path = self.put("order.star", "def f(a=1, b): pass\ndef g(a, b): pass\nf(1)\ng(a=1, 2)\n")
        self.says(1, "3:1 f(1), def 1:1\n    refused 13, b (1:12)\n4:1 g(a=1, 2), def 2:1\n    refused 20, 2 (4:8)\n"
                  "bound 0, refused 2, without a def 0\n", STEP, "bind", path)

    def test_a_name_makes_no_line_of_its_own(self):
        path = self.made("control", "(Statements (Def (Normal a\x01\x1bb) (Break)) (OtherSimple (Call (Identifier f\x02) "
                         "(Positional (Identifier g\x03)))))")
        self.pair(0, "a??b, by place or name: g? (node 7, file 1, bytes 7 to 8)\n", path, 5, 1)

    def test_many_pairs(self):
        """330 calls and 330 defs of one name: every pair is bound, in no more than 40 s of processor time."""
        script = "def f(): pass\n" * 330 + "f(1)\n" * 100 + "f()\n" * 230
        path = self.put("many.star", script)
        before = os.times()
        ran = self.run_ducat("bind", path)
        after = os.times()
        self.assertEqual((ran.status, ran.out.splitlines()[-1]), (1, "bound 75900, refused 33000, without a def 0"))
        self.assertEqual(len(ran.out.splitlines()), 2 * 330 * 330 + 1)
        self.assertEqual([line for line in ran.out.splitlines()[:-1:2] if ", def " not in line], [])
        self.assertLess(sum(after[2:4]) - sum(before[2:4]), 40)


class Json(BindTest):
    def told(self, status, *words, **more):
        ran = self.run_ducat("bind", "--format", "json", *words, **more)
        self.assertEqual((ran.status, ran.err), (status, ""))
        return json.loads(ran.out)

    def test_script(self):
        told = self.told(1, "--script", "samples/take.star", TAKE)
        entry, = told["inputs"]
        self.assertEqual((told["command"], entry["verdict"], entry["totals"]), ("bind", "refused", {"bound": 5, "refused": 1, "without_def": 0, "namesakes": 6}))
        first, second = entry["pairs"][:2]
        self.assertEqual(first["parameters"][0], {"name": "trains", "mode": "by place only", "default": False, "arguments": [
            {"node": 23, "file": 1, "begin": 149, "end": 155, "line": 8, "column": 10}]})
        self.assertEqual(second["refused"], {
            "number": 82, "words": "a named argument matches no parameter, and there is no `**kwargs`", "node": 30,
            "kind": {"number": 61, "name": "Named"}, "file": 1, "begin": 174, "end": 187, "line": 9, "column": 10})

    def test_list_and_pair(self):
        entry, = self.told(0, TAKE)["inputs"]
        self.assertEqual((len(entry["defs"]), len(entry["calls"]), entry["calls"][0]["callee"]), (3, 6, "take"))
        entry, = self.told(0, TAKE, "--call", "21", "--def", "1")["inputs"]
        self.assertEqual(entry["verdict"], "bound")
        entry, = self.told(2, TAKE, "--call", "0", "--def", "1")["inputs"]
        self.assertEqual(entry["pairs"][0]["refused"]["number"], 6)

    def test_the_earlier_argument(self):
        path = self.made("twice", "(Statements (Def (KwArgsParam k) (Break)) (OtherSimple (Call (Identifier f) (Named a (Int)) (Named a (Int)))))")
        entry, = self.told(1, path, "--call", "5", "--def", "1")["inputs"]
        self.assertEqual((entry["pairs"][0]["refused"]["number"], entry["pairs"][0]["refused"]["earlier"]["node"]), (22, 7))

    def test_what_cannot_be_bound(self):
        deep, wrong = self.put("deep.star", "x = " + "(" * 300 + "1" + ")" * 300 + "\n"), self.put("wrong.star", "x = \n")
        told = self.told(2, "samples/damaged.table", "samples/missing.table", deep, wrong)
        self.assertEqual([entry["verdict"] for entry in told["inputs"]], ["refused", "unreadable", "no table", "syntax"])
        self.assertEqual(told["inputs"][3]["errors"], [{"number": None, "words": "syntax: unexpected end of line", "file": 1, "begin": 4, "end": 5,
                                                        "line": 1, "column": 5, "script": {"name": wrong}}])


if __name__ == "__main__":
    unittest.main()
