"""Scripts that are larger than a table may be: checked in several tables, bound in tables of two statements, and not written as one table."""
import itertools
import json
import unittest
from unittest import mock

import support
from command import STEP, CommandTest
from ducatmuffin import check, export, inputs, numbers
from ducatmuffin.places import Source
from ducatmuffin.scripts import Scripts

ALL = numbers.DIALECTS["all"]
# statements with errors of many kinds, each with its own span
WRONG = """def f(a=1, b): break
def g(a, a, /, *, **k): return [x for x() in y]
def h(/, *args, *, c: []): continue
f(a=1, 2)
f(*a, b=1, **c, **d)
f(a=1, a=2)
(1)[0], f() = 3
x, y += 1
lambda a=1, b: 2
def i(z: 3.4) -> x.y.type:
    load("a", "b")
    for f() in x: pass
if 1:
    return
continue
{x: y for x, 1 in z for [a, b()] in c}
"""


def found_of(*sources):
    """The statements of scripts, numbered from 1."""
    one = inputs.Joined([inputs.Input(f"{at}.star") for at in range(len(sources))]) if len(sources) > 1 else inputs.Input("0.star")
    found = check.Found(one)
    for part, source in zip(found.parts, sources):
        part.data, part.source = source.encode(), Source(part.one.name, source.encode())
    found.scripts, found.dialect = Scripts({part.file: part.source for part in found.parts}), ALL
    assert check.parsed(found)
    return found


def judged(found, module):
    checker = check.Checker(support.library(), check.Options(module=module, dialect=ALL))
    checker.judge(found)
    return found


class Cut(unittest.TestCase):
    """The errors of pieces are those of the whole: number, file, place, and the node's number in the whole."""

    def compare(self, nodes, name_bytes, depth, *sources):
        for module in (False, True):
            whole, cut = found_of(*sources), found_of(*sources)
            self.assertTrue(check.in_one_table(whole))
            with mock.patch.multiple(numbers, NODES=nodes, NAME_BYTES=name_bytes, DEPTH=depth):
                if not check.in_tables(cut):
                    return 0
            judged(whole, module)
            judged(cut, module)
            self.assertEqual((whole.nodes, whole.total, whole.verdict), (cut.nodes, cut.total, cut.verdict))
            self.assertEqual(sorted(whole.errors, key=str), sorted(cut.errors, key=str))
            if not module:
                self.assertEqual(whole.errors, cut.errors)
            for piece in cut.pieces:
                self.assertLessEqual(len(piece.table), nodes * numbers.NODE_BYTES)
                self.assertLessEqual(len(piece.names), name_bytes)
        return len(cut.pieces)

    def test_every_limit_of_nodes(self):
        pieces = [self.compare(nodes, 8064, 64, WRONG) for nodes in range(1, 140)]
        self.assertEqual(pieces[0], 0)  # a statement is larger
        self.assertTrue(set(range(2, 12)) <= set(pieces), set(pieces))
        self.assertEqual(pieces[-1], 1)

    def test_every_limit_of_names_and_levels(self):
        names = [self.compare(2100, most, 64, WRONG) for most in range(1, 40)]
        self.assertTrue({0, 1, 2} <= set(names), set(names))
        levels = [self.compare(2100, 8064, most, WRONG) for most in range(1, 9)]
        self.assertTrue({0, 1} <= set(levels) and max(levels) > 1, levels)

    def test_scripts_that_are_joined_keep_their_numbers(self):
        for first, second in itertools.product((WRONG, "", "break\n", "f(a=1, 2)\nbreak\n"), repeat=2):
            for nodes in (18, 20, 25, 40, 2100):
                self.compare(nodes, 8064, 64, first, second)
        found = found_of(WRONG, WRONG)
        with mock.patch.object(numbers, "NODES", 40):
            self.assertTrue(check.in_tables(found))
        files = [sorted({low | high << 8 for low, high in zip(piece.table[18::24], piece.table[19::24])} - {0}) for piece in found.pieces]
        self.assertEqual((files[0], files[-1]), ([1], [2]))
        self.assertEqual(sorted(set(map(tuple, files)) - {(1, 2)}), [(1,), (2,)])

    def test_one_table_without_a_root(self):
        """An empty script and one of a single statement that has 64 levels: the table of both has a root, and 65."""
        found = found_of("", "x() = " + "[" * 62 + "1" + "]" * 62)
        self.assertFalse(check.in_one_table(found))
        self.assertTrue(check.in_tables(found))
        judged(found, False)
        self.assertEqual((len(found.pieces), found.nodes, found.errors), (1, 67, [(30, 2, 0, 3, 2)]))
        self.assertEqual(found.place_of(2), (found.pieces[0], 1))

    def test_the_samples(self):
        for name in support.samples(".star"):
            for nodes in (10, 30):
                self.compare(nodes, 8064, 64, support.sample(f"{name}.star").decode())

    def test_nodes_of_the_whole(self):
        """The node of each error has, in its own table, the span that the error names or is in."""
        found = found_of(WRONG)
        with mock.patch.object(numbers, "NODES", 30):
            self.assertTrue(check.in_tables(found))
        whole = found_of(WRONG)
        self.assertTrue(check.in_one_table(whole))
        for node in range(1, check.nodes_of(whole)):
            piece, at = found.place_of(node)
            records = [held[24 * n:24 * n + 16] for held, n in ((whole.table, node), (piece.table, at))]
            self.assertEqual((records[0][:2], records[0][8:]), (records[1][:2], records[1][8:]))


class Limits(CommandTest):
    def test_one_node_more(self):
        self.says(0, "nodes 2100\nerrors 0\n", STEP, "check", self.put("most.star", "pass\n" * 2099))
        self.says(0, "nodes 2101, in 2 tables\nerrors 0\n", STEP, "check", self.put("more.star", "pass\n" * 2100))
        self.says(0, "nodes 2100\nerrors 0\n", STEP, "check", self.put("one.star", "x = [" + "1," * 2097 + "]\n"))
        path = self.put("two.star", "\nx = [" + "1," * 2098 + "]\n")
        self.says(2, "", f"{STEP}ducat: {path}:2:1: this statement has 2,101 nodes, and a table has at most 2,100\n", "check", path)

    def test_one_name_byte_more(self):
        names = [f"{letter}{'n' * 250}{number:01}" for letter in "abcd" for number in range(8)]  # 32 names of 252 bytes: 8,064
        self.says(0, "nodes 65\nerrors 0\n", STEP, "check", self.put("most.star", "".join(f"{name}\n" for name in names)))
        self.says(0, "nodes 67, in 2 tables\nerrors 0\n", STEP, "check", self.put("more.star", "".join(f"{name}\n" for name in (*names, "z"))))
        path = self.put("one.star", f"[{', '.join([*names, 'z'])}]\n")
        self.says(2, "", f"{STEP}ducat: {path}:1:1: this statement has 8,065 bytes of names, and a table has at most 8,064\n", "check", path)

    def test_one_level_more(self):
        # the statement itself is a level, and the root of several another one
        at, over = "x = " + "[" * 62 + "1" + "]" * 62 + "\n", "x = " + "[" * 63 + "1" + "]" * 63 + "\n"
        self.says(0, "nodes 65\nerrors 0\n", STEP, "check", self.put("most.star", at))
        self.says(0, "nodes 67, in 2 tables\nerrors 0\n", STEP, "check", self.put("two.star", f"{at}pass\n"))
        path = self.put("over.star", f"pass\n{over}")
        self.says(2, "", f"{STEP}ducat: {path}:2:1: this statement has 65 levels, and a table has at most 64\n", "check", path)

    def test_a_long_name(self):
        path = self.put("name.star", "pass\n" * 2100 + "x = [1, " + "n" * 256 + "]\n")
        self.says(2, "", f"{STEP}ducat: {path}:2101:9: a name of 256 bytes, and a table has names of 255 at most\n", "check", path)

    def test_every_way_to_print(self):
        path = self.put("large.star", "pass\n" * 2200 + "def f(a, b=1, a):\n    break\n")
        first = f"{path}:2201:15: 11 a parameter has the name of an earlier one"
        self.says(1, f"nodes 2207, in 2 tables\n{first}\n    def f(a, b=1, a):\n                  ^\n{path}:2201:7: note: the earlier parameter\n"
                  f"    def f(a, b=1, a):\n          ^\n{path}:2202:5: 55 `break` is outside a `for` loop\n        break\n        ^^^^^\nerrors 2\n", STEP,
                  "check", path)
        ran = self.says(1, None, STEP, "check", "--explain", "--dialect", "all", path)
        self.assertEqual(ran.out.splitlines()[0], "nodes 2207, in 2 tables, dialect all")
        self.assertIn(", node 2205, kind 50 Normal", ran.out)
        self.assertIn(", node 2206, kind 6 Break", ran.out)
        entry, = json.loads(self.run_ducat("check", "--json", path).out)["inputs"]
        self.assertEqual((entry["tables"], entry["nodes"], [(error["number"], error["node"], error["line"]) for error in entry["errors"]]),
                         (2, 2207, [(11, 2205, 2201), (55, 2206, 2202)]))
        self.assertEqual((entry["errors"][0]["kind"]["name"], entry["errors"][0]["earlier"]["node"]), ("Normal", 2202))
        self.says(1, "", "", "check", "--quiet", path)
        ran = self.says(1, None, STEP, "check", "--module", path)
        self.assertIn(first, ran.out)
        ran = self.says(1, None, STEP, "check", "--against", "all", "--dialect", "standard", path)
        self.assertEqual(ran.out.splitlines()[0], "nodes 2207, in 2 tables")
        self.assertIn("so no theorem relates the two lists: before 2, after 2\n", ran.out)
        ran = self.says(1, None, STEP, "check", "--against", "all", path)
        self.assertIn("taken out 0, left 2\n", ran.out)

    def test_a_table_is_not_written(self):
        path, out = self.put("large.star", "pass\n" * 2100), self.at("out.table")
        said = f"{STEP}ducat: {path}:2100:1: a table has at most 2100, and this has 2101 nodes\n"
        self.says(2, "", said, "table", path, "-o", out)
        self.put("out.table", b"old")
        self.says(2, "", said, "table", path, "-o", out)
        self.assertEqual(self.read("out.table"), b"old")
        self.says(2, "", said, "table", path, "--compare", "samples/example.table")
        small = self.put("small.star", "pass\n" * 2099)
        self.says(2, "", f"{STEP}ducat: {path}:1:1: a table has at most 2100, and this has 4200 nodes\n", "table", small, path, "-o", out)
        self.alone()


class Bind(CommandTest):
    CALLS = "def f(a, /, b=1): return g(a)\ndef g(x): pass\nf(1)\nf(b=2)\nh(1)\nx.f(1)\nf(1)(2)\nf(1, 2, 3)\n"

    def compare(self, *sources, join=()):
        """A script has the same bindings as without the statements that make it large."""
        small = [self.put(f"small.{at}.star", source) for at, source in enumerate(sources)]
        large = [self.put(f"large.{at}.star", source + "pass\n" * 2100) for at, source in enumerate(sources)]
        for more in ((), ("--explain",)):
            ran, other = self.run_ducat("bind", *join, *small, *more), self.run_ducat("bind", *join, *large, *more)
            self.assertEqual((ran.status, ran.err), (other.status, other.err))
            self.assertEqual(ran.out.replace("small.", "large.").splitlines()[:-1], other.out.splitlines()[:-1])
            self.assertEqual(ran.out.splitlines()[-1] + ", not judged 0", other.out.splitlines()[-1])
        ran, other = (json.loads(self.run_ducat("bind", "--json", *join, *names).out.replace("small.", "large.")) for names in (small, large))
        for key in ("pairs", "without_def") if len(sources) == 1 else ("without_def",):
            self.assertEqual(ran["inputs"][0][key], other["inputs"][0][key])
        self.assertEqual({**ran["inputs"][0]["totals"], "not_judged": 0}, other["inputs"][0]["totals"])

    def test_as_in_one_table(self):
        self.compare(self.CALLS)
        self.compare("def f(a):\n    def g(b): return f(1) + g(2) + f(g(3))\n    return g(c=1)\nf(1, 2)\n")
        self.compare(support.sample("take.star").decode())

    def test_joined(self):
        self.compare(support.sample("joined.1.star").decode(), support.sample("joined.2.star").decode(), join=("--join",))

    def test_not_judged(self):
        large = "def f(a):\n    return [" + "1, " * 2090 + "]\n"
        path = self.put("pair.star", large + "def g(a): pass\nf(1)\n" + "g(1)\n" * 10 + "f([1, 2, 3, 4, 5])\n")
        ran = self.run_ducat("bind", path)
        self.assertEqual(ran.status, 2)
        self.assertIn("4:1 f(1), def 1:1\n    a, by place or name: 1 (4:3)\n", ran.out)
        self.assertIn("15:1 f([1, 2, 3, 4, 5]), def 1:1\n    not judged: a table has at most 2100, and this has 2105 nodes\n", ran.out)
        self.assertEqual(ran.out.splitlines()[-1], "bound 11, refused 0, without a def 0, not judged 1")
        ran = self.run_ducat("bind", "--json", path)
        told = json.loads(ran.out)
        entry, = told["inputs"]
        self.assertEqual((ran.status, told["status"], entry["verdict"], entry["totals"]["not_judged"]), (2, 2, "not judged", 1))
        self.assertEqual(entry["pairs"][-1]["not_judged"], "a table has at most 2100, and this has 2105 nodes")
        self.assertEqual((entry["pairs"][-1]["call"]["line"], entry["pairs"][-1]["def"]["line"]), (15, 1))

    def test_a_statement_that_is_too_large(self):
        path = self.put("one.star", "def f(a): pass\nx = [f(1), " + "1, " * 2200 + "]\nf(2)\n")
        self.says(2, "2:6 f(1), def 1:1\n    not judged: a table has at most 2100, and this has 2211 nodes\n3:1 f(2), def 1:1\n"
                  "    a, by place or name: 2 (3:3)\nbound 1, refused 0, without a def 0, not judged 1\n", STEP, "bind", path)


class Growth(unittest.TestCase):
    def test_many_statements(self):
        """Cutting is linear: each statement is visited twice."""
        source = b"def f(a, b=1):\n    return [a, b]\n" * 3000
        pieces = export.cut([source], [export.statements_of(source)])
        self.assertEqual(sum(len(piece.table) // 24 - 1 for piece in pieces), 3000 * 8)
        self.assertTrue(all(len(piece.table) // 24 > 2080 for piece in pieces[:-1]))


if __name__ == "__main__":
    unittest.main()
