"""ducat bind --expect, and namesakes: each reason why an expectation is not met, with its place; --strict; 1,000 random calls against Python's own calls."""
import json
import random
import unittest

import support
from command import STEP, CommandTest
from ducatmuffin import bind, expect, export
from ducatmuffin.bind import Binder, Tree
from ducatmuffin.library import Refusal
from ducatmuffin.output import Failed

DEF = "def order(trains, tracks):\n  return trains\n"


class ExpectTest(CommandTest):
    def judged(self, status, script, *expectations, words=(), name="a.star"):
        """The lines printed for expectations over a script."""
        path = self.put(name, script) if isinstance(script, (str, bytes)) else None
        files = [path] if path else list(script)
        ran = self.run_ducat("bind", *files, *(word for one in expectations for word in ("--expect", one)), *words)
        self.assertEqual(ran.status, status, ran.out + ran.err)
        lines = ran.out.splitlines()
        first = next((at for at, line in enumerate(lines) if line.startswith("expect ")), len(lines))
        return lines[first:]

    def unmet(self, script, *reasons, expectation="order.trains=trains", status=1, words=()):
        """The one expectation is not met, for these reasons."""
        self.assertEqual(self.judged(status, script, expectation, words=words), [f"expect {expectation}: not met", *(f"    {one}" for one in reasons)])


class Met(ExpectTest):
    def test_every_call(self):
        script = DEF + "order(trains, tracks)\ndef f(trains):\n  order(tracks=[], trains=trains)\n"
        self.assertEqual(self.judged(0, script, "order.trains=trains"), ["expect order.trains=trains: met by 2 calls"])

    def test_a_path(self):
        script = DEF + "order(zone.trains, zone.north.tracks)\n"
        self.assertEqual(self.judged(0, script, "order.trains=zone.trains", "order.tracks=zone.north.tracks"), [
            "expect order.trains=zone.trains: met by 1 call", "expect order.tracks=zone.north.tracks: met by 1 call"])
        self.unmet(script, "3:7 trains takes zone.trains, not trains")
        self.unmet(script, "3:20 tracks takes zone.north.tracks, not zone.tracks", expectation="order.tracks=zone.tracks")

    def test_a_parameter_that_collects(self):
        script = "def f(*rest, **more): pass\nf(a, x=b)\n"
        self.assertEqual(self.judged(0, script, "f.rest=a", "f.more=b"), ["expect f.rest=a: met by 1 call", "expect f.more=b: met by 1 call"])
        self.unmet("def f(*rest): pass\nf(a, b)\n", "2:3 rest collects 2 arguments, among them a, not a", "2:6 rest collects 2 arguments, among them b, not a",
                   expectation="f.rest=a")
        self.unmet("def f(*rest): pass\nf()\n", "2:1 rest collects nothing, not a", expectation="f.rest=a")

    def test_other_callees_do_not_count(self):
        script = DEF + "order(trains, tracks)\nx.sort(trains)\nprint(order(trains, 1))\nf(order=1)\nx.order\n"
        self.assertEqual(self.judged(0, script, "order.trains=trains"), ["expect order.trains=trains: met by 2 calls"])

    def test_a_name_that_is_no_parameter_s(self):
        """The exchange that only the release check can find."""
        script = "def order(first, second): pass\norder(trains, tracks)\norder(tracks, trains)\n"
        ran = self.run_ducat("bind", "--strict", self.put("a.star", script))
        self.assertEqual((ran.status, "namesake" in ran.out), (0, False))
        self.unmet(script, "3:7 first takes tracks, not trains", expectation="order.first=trains")


class NotMet(ExpectTest):
    def test_something_else(self):
        self.unmet(DEF + "order(trains, tracks)\norder(tracks, trains)\norder(tracks=1, trains=f(trains))\norder(trains[0], 1)\n",
                   "4:7 trains takes tracks, not trains", "5:17 trains takes f(trains), not trains", "6:7 trains takes trains[0], not trains")
        self.unmet("def order(trains=[]): pass\norder()\n", "2:1 trains takes its default, not trains")

    def test_a_refused_call(self):
        words = {80: "order(*trains)", 81: "order(1, 2, 3)", 82: "order(trains, tracks, x=1)", 83: "order(trains, trains=1)", 84: "order(trains)",
                 20: "order(trains=1, 2)", 22: "order(tracks=1, tracks=2)"}
        for number, call in words.items():
            line, = self.judged(1, DEF + call + "\n", "order.trains=trains")[1:]
            self.assertTrue(line.startswith(f"    3:1 the call is refused with {number}: "), line)
        line, = self.judged(1, "def order(trains=1, tracks): pass\norder(trains, tracks)\n", "order.trains=trains")[1:]
        self.assertTrue(line.startswith("    2:1 the call is refused with 13: "), line)

    def test_twice_never_and_never_called(self):
        self.unmet(DEF + DEF + "order(trains, tracks)\n", "1:1 order is defined here, and 2 times in all", "3:1 order is defined here, and 2 times in all")
        self.unmet("order(trains, tracks)\n", "order is defined nowhere")
        self.unmet(DEF, "1:1 order is never called")
        self.unmet("pass\n", "order is defined nowhere", "order is never called")

    def test_no_such_parameter(self):
        self.unmet(DEF + "order(trains, tracks)\n", "1:1 order has no parameter first", expectation="order.first=trains")
        self.unmet(DEF, "1:1 order has no parameter first", "1:1 order is never called", expectation="order.first=trains")

    def test_other_uses(self):
        call = "order(trains, tracks)\n"
        for line, reason in (("x = order", "4:5 order is used other than as a callee"), ("f(order)", "4:3 order is used other than as a callee"),
                             ("order.x", "4:1 order is used other than as a callee"), ("[order]", "4:2 order is used other than as a callee"),
                             ("order = f", "4:1 a target binds order"), ("(a, [order]) = f", "4:6 a target binds order"),
                             ("order += f", "4:1 a target binds order"), ("for order in f: pass", "4:5 a target binds order"),
                             ("[x for order in f]", "4:8 order is used other than as a callee"), ("order[0] = f", "4:1 order is used other than as a callee"),
                             ("lambda order: 1", "4:8 a parameter has the name order"), ("def f(order): pass", "4:7 a parameter has the name order"),
                             ("def f(*order): pass", "4:7 a parameter has the name order"), ("def f(**order): pass", "4:7 a parameter has the name order"),
                             ("zone.order(1)", "4:1 a method of the name order is called")):
            self.unmet(DEF + call + line + "\n", reason)

    def test_loads(self):
        call = "order(trains, tracks)\n"
        for line, reason in (('load("x", "order")', "a load binds order"), ('load("x", "a", order="b")', "a load binds order"),
                             ('load("x", o="order")', "a load renames order"), ('load("x", order="order",)', "a load binds order"),
                             ('load("x", "ord\\x65r")', "a load binds order"), ('load("x",\n  o = "order")', "a load renames order")):
            self.unmet(line + "\n" + DEF + call, f"1:1 {reason}")
        for line in ('load("order", "x")', 'load("x", "orders", y="reorder")'):
            self.assertEqual(self.judged(0, line + "\n" + DEF + call, "order.trains=trains"), ["expect order.trains=trains: met by 1 call"])

    def test_inputs_without_an_answer(self):
        one = "order.trains=trains"
        for path, status, reason in ((self.put("x.star", "x = \n"), 1, "the input is not Starlark"), ("missing.star", 2, "the input cannot be read"),
                                     (self.put("deep.star", "x = " + "(" * 300 + "1" + ")" * 300 + "\n"), 2, "the input has no table")):
            self.assertEqual(self.judged(status, [path], one), [f"expect {one}: not met", f"    {reason}"])
        self.assertEqual(self.judged(2, ["samples/damaged.table"], one, words=("--script", "samples/take.star")),
                         [f"expect {one}: not met", "    the input is refused with 72"])
        self.assertEqual(self.judged(2, ["samples/take.table"], one, words=("--script", "samples/clean.star")),
                         [f"expect {one}: not met", "    the input is not bound to its script"])

    def test_a_pair_that_is_not_judged(self):
        script = DEF + "".join(f"def f{at}(): return [{'1, ' * 1000}]\n" for at in range(3))
        script += f"order(trains, [{'1, ' * 2090}])\n"
        line, = self.judged(2, script, "order.trains=trains")[1:]
        self.assertTrue(line.startswith("    6:1 the call is not judged: a table has at most 2100"), line)

    def test_a_large_script(self):
        """Over a script that is larger than a table may be the same reasons are found."""
        more = "".join(f"def f{at}(): return [{'1, ' * 1000}]\n" for at in range(3))
        script = DEF + more + 'order(trains, tracks)\norder(tracks, trains)\nx = order\nload("x", "order")\ny.order(1)\ndef g(order): pass\n(order, a) = f\n'
        self.unmet(script, "7:7 trains takes tracks, not trains", "8:5 order is used other than as a callee", "9:1 a load binds order",
                   "10:1 a method of the name order is called", "11:7 a parameter has the name order", "12:2 a target binds order")

    def test_joined_scripts(self):
        line, zone = self.put("line.star", DEF), self.put("zone.star", "order(trains, tracks)\norder(tracks, trains)\n")
        self.unmet([line, zone], f"{zone}:2:7 trains takes tracks, not trains", words=("--join",))
        self.put("zone.star", "order(trains, tracks)\n")
        self.assertEqual(self.judged(0, [line, zone], "order.trains=trains", words=("--join",)), ["expect order.trains=trains: met by 1 call"])
        lines = self.judged(1, [line, zone], "order.trains=trains")  # each by itself
        self.assertEqual([line for line in lines if line.startswith("    ")], ["    1:1 order is never called", "    order is defined nowhere"])

    def test_a_table_of_scripts(self):
        self.put("1.star", DEF)
        self.put("2.star", "order(trains, tracks)\n")
        self.run_ducat("table", "1.star", "2.star", "-o", "x.table", cwd=self.room)
        paths = [f"{number}={self.at(f'{number}.star')}" for number in (1, 2)]
        self.assertEqual(self.judged(0, [self.at("x.table")], "order.trains=trains", words=("--script", paths[0], "--script", paths[1])),
                         ["expect order.trains=trains: met by 1 call"])
        self.unmet([self.at("x.table")], "source file 2 has no script: --script 2=SCRIPT names it", words=("--script", paths[0]))


class Words(ExpectTest):
    def test_files(self):
        path = self.put("a.star", DEF + "order(trains, tracks)\n")
        held = self.put("held", "# what must hold\n\norder.trains=trains  # the trains\n  order.tracks=tracks\norder.trains=trains\n")
        ran = self.run_ducat("bind", path, "--expectations", held)
        self.assertEqual((ran.status, ran.out.splitlines()[-2:]), (0, ["expect order.trains=trains: met by 1 call", "expect order.tracks=tracks: met by 1 call"]))
        ran = self.run_ducat("bind", path, "--expectations", "-", input=b"order.trains=tracks\n")
        self.assertEqual((ran.status, ran.out.splitlines()[-1]), (1, "    3:7 trains takes trains, not tracks"))

    def test_the_configuration(self):
        self.put("ducat.ini", "[ducat]\nexpect =\n    order.trains=tracks\n    # a comment\n    order.tracks=tracks\n")
        self.put("a.star", DEF + "order(trains, tracks)\n")
        ran = self.run_ducat("bind", "a.star", cwd=self.room)
        self.assertEqual((ran.status, [line for line in ran.out.splitlines() if line.startswith("expect")]),
                         (1, ["expect order.trains=tracks: not met", "expect order.tracks=tracks: met by 1 call"]))

    def test_what_is_wrong(self):
        path = self.put("a.star", DEF)
        held, other = self.put("held", "\norder=x\n"), self.put("other", b"\xff\n")
        for words, said in (((path, "--expect", "order"), "--expect: order is not an expectation: DEF.PARAMETER=NAME is needed"),
                            ((path, "--expect", "order.a.b=c"), "is not an expectation"), ((path, "--expect", "order.a=c d"), "is not an expectation"),
                            ((path, "--expect", "order.a=1"), "is not an expectation"), ((path, "--expect", ""), "nothing is not an expectation"),
                            ((path, "--expectations", held), f"{held}:2: order=x is not an expectation"), ((path, "--expectations", other), "not UTF-8"),
                            ((path, "--expectations", "missing"), "missing: No such file or directory"),
                            ((path, "--expect", "f.a=b", "--expect", "f.a=c"), "f.a=b and f.a=c cannot both be met"),
                            (("samples/take.table", "--expect", "f.a=b"), "needs --script for the table file samples/take.table"),
                            (("samples/take.table", "--call", "21", "--def", "1", "--expect", "f.a=b"), "it cannot be used with --call and --def"),
                            (("-", "--expectations", "-"), "standard input (`-`) is named twice")):
            ran = self.run_ducat("bind", *words)
            self.assertEqual((ran.status, ran.out, len(ran.err.splitlines())), (2, "", 1), words)
            self.assertIn(said, ran.err)
        self.assertRaises(Failed, expect.expectation, "f.a", "here")

    def test_json_and_lines(self):
        path = self.put("a.star", DEF + "order(tracks, trains)\n")
        told = json.loads(self.run_ducat("bind", "--json", path, "--expect", "order.trains=trains", "--expect", "f.a=b").out)
        entry, = told["inputs"]
        first, second = entry["expectations"]
        self.assertEqual((told["status"], first["expect"], first["met"], first["calls"], second["met"]), (1, "order.trains=trains", False, 1, False))
        self.assertEqual(first["not_met"], [{"words": "trains takes tracks, not trains", "node": 9, "file": 1, "begin": 49, "end": 55, "line": 3, "column": 7}])
        self.assertEqual(second["not_met"], [{"words": "f is defined nowhere"}, {"words": "f is never called"}])
        ran = self.run_ducat("bind", "--format", "gcc", path, "--expect", "order.trains=trains")
        self.assertIn(f"{path}:3:7: error: order.trains=trains is not met: trains takes tracks, not trains [expect]\n", ran.out)
        told = json.loads(self.run_ducat("bind", "--json", "missing.star", "--expect", "order.trains=trains").out)
        self.assertEqual(told["inputs"][0]["expectations"][0]["not_met"], [{"words": "the input cannot be read"}])
        log = json.loads(self.run_ducat("bind", "--format", "sarif", path, "--expect", "order.trains=trains").out)
        self.assertEqual([result["ruleId"] for result in log["runs"][0]["results"]], ["namesake", "expect"])

    def test_diff(self):
        path = self.put("a.star", DEF + "order(trains, tracks)\n")
        self.put("old.json", self.run_ducat("bind", "--json", path, "--expect", "order.trains=trains").out)
        self.put("a.star", DEF + "order(tracks, trains)\n")
        self.put("new.json", self.run_ducat("bind", "--json", path, "--expect", "order.trains=trains").out)
        ran = self.run_ducat("diff", self.at("old.json"), self.at("new.json"))
        self.assertEqual((ran.status, ran.out), (1, f"new: {path}:3:7: tracks reaches trains, though there is a parameter tracks\n"
                         f"new: {path}:3:15: trains reaches tracks, though there is a parameter trains\n"
                         f"new: {path}:3:7: order.trains=trains is not met: trains takes tracks, not trains\nnew 3, gone 0, same 0\n"))


class Namesakes(ExpectTest):
    def test_pairs_and_others(self):
        path = self.put("a.star", "def f(a, b, *rest, c=1, **more): pass\nf(b, a)\nf(b, 1)\nf(x.b, 1, c=a)\nf(1, 2, a, x=b)\nf(a, b, c=c)\nf(b[0], a())\n")
        ran = self.says(0, None, STEP, "bind", path)
        self.assertEqual([line for line in ran.out.splitlines() if "reaches" in line], [
            "    exchanged: b (2:3) reaches a, and a (2:6) reaches b", "    namesake: b (3:3) reaches a, though there is a parameter b",
            "    namesake: x.b (4:3) reaches a, though there is a parameter b", "    namesake: a (4:13) reaches c, though there is a parameter a",
            "    namesake: a (5:9) reaches *rest, though there is a parameter a", "    namesake: b (5:14) reaches **more, though there is a parameter b"])
        self.assertEqual(ran.out.splitlines()[-1], "bound 6, refused 0, without a def 1, namesakes 7")

    def test_strict(self):
        path = self.put("gcd.star", "def gcd(a, b):\n  return gcd(b, a % b)\n")
        self.says(0, None, STEP, "bind", path)
        self.says(1, None, STEP, "bind", "--strict", path)
        ran = self.says(0, None, STEP, "bind", "--strict", path, "--expect", "gcd.a=b")
        self.assertIn("    namesake: b (2:14) reaches a, though there is a parameter b; gcd.a=b expects it\n", ran.out)
        self.says(1, None, STEP, "bind", "--strict", path, "--expect", "gcd.b=b")
        self.assertEqual(self.run_ducat("bind", "--strict", "--format", "gcc", path, "--expect", "gcd.a=b").out, "")
        ran = self.run_ducat("bind", "--strict", "--format", "github", path)
        self.assertEqual((ran.status, ran.out.partition(" ")[0]), (1, "::error"))
        self.assertEqual(self.run_ducat("bind", "--format", "github", path).out.partition(" ")[0], "::warning")

    def test_json(self):
        entry, = json.loads(self.run_ducat("bind", "--json", "--strict", "samples/take.star", "--expect", "take.trains=tracks").out)["inputs"]
        first, second = entry["pairs"][2]["namesakes"]
        self.assertEqual(first, {"node": 37, "file": 1, "begin": 213, "end": 219, "line": 10, "column": 10,
                                 "words": "tracks reaches trains, though there is a parameter tracks", "reaches": "trains", "parameter": "tracks",
                                 "taken_by": {"node": 39, "file": 1, "begin": 221, "end": 227, "line": 10, "column": 18}, "exchanged": True,
                                 "expected": "take.trains=tracks"})
        self.assertEqual((second["exchanged"], "expected" in second, entry["strict"], entry["totals"]["namesakes"]), (True, False, True, 6))

    def test_a_large_script(self):
        more = "".join(f"def f{at}(): return [{'1, ' * 1000}]\n" for at in range(3))
        ran = self.says(0, None, STEP, "bind", self.put("a.star", DEF + more + "order(tracks, trains)\n"))
        self.assertEqual(ran.out.splitlines()[-2:], ["    exchanged: tracks (6:7) reaches trains, and trains (6:15) reaches tracks",
                                                     "bound 1, refused 0, without a def 0, namesakes 2, not judged 0"])
        self.says(1, None, STEP, "bind", "--strict", self.at("a.star"))

    def test_nodes(self):
        self.says(1, None, "", "bind", "--strict", "samples/take.table", "--call", "35", "--def", "1")
        self.says(0, None, "", "bind", "--strict", "samples/take.table", "--call", "21", "--def", "1")


class Model(unittest.TestCase):
    """Random calls against a model: Python binds the same call, and the namesakes follow from the sentence of the definition."""

    NAMES = "abcde"

    def drawn(self, chance):
        """A parameter list that both accept, and its ordinary, star and star-star parameters."""
        names = chance.sample(self.NAMES, chance.randint(0, 5))
        before, between, after = sorted(chance.randint(0, len(names)) for _ in range(3))[:2] + [len(names)]
        entries, default = [], False
        for at, name in enumerate(names[:between]):
            default = default or chance.random() < 0.2
            entries.append(f"{name}=None" if default else name)
            if at + 1 == before:
                entries.append("/")
        star = chance.choice(["rest", None]) if between == after else chance.choice(["rest", ""])
        entries += [] if star is None else [f"*{star}"]
        entries += [name + chance.choice(["", "=None"]) for name in names[between:]]
        more = chance.random() < 0.3
        return ", ".join(entries + (["**more"] if more else [])), names, star, more

    def arguments(self, chance):
        """Arguments: each a name of a parameter for which it is given, or None, and its expression."""
        made = []
        for at in range(chance.randint(0, 6)):
            value = chance.choice([*self.NAMES, *self.NAMES, *(f"z.{name}" for name in self.NAMES), "1", "z[a]", "b(1)"])
            made.append((chance.choice([None, None, *self.NAMES, "x"]), value))
        made.sort(key=lambda one: one[0] is not None)
        named = [name for name, _ in made if name]
        return made if len(named) == len(set(named)) else self.arguments(chance)

    @staticmethod
    def reached(parameters, names, star, more, arguments):
        """For each argument the parameter that it reaches, by a call of Python; None if Python refuses the call."""
        held = {}
        exec(f"def f({parameters}): return locals()", held)
        try:
            bound = held["f"](*(at for at, (name, _) in enumerate(arguments) if not name), **{name: at for at, (name, _) in enumerate(arguments) if name})
        except TypeError:
            return None
        by = {at: name for name, at in bound.items() if name in names and at is not None}
        by.update({at: "*rest" for at in bound.get("rest", ())} if star else {})
        by.update({at: "**more" for at in bound["more"].values()} if more else {})
        return by

    @staticmethod
    def own_name(value):
        last = value.rpartition(".")[2]
        return last if last.isidentifier() else None

    def model(self, reached, names, arguments):
        """The four words of each namesake: the argument, what it reaches, the parameter of its name, and the argument that this one takes."""
        takes = {name: at for at, name in reached.items()}
        for at, (_, value) in enumerate(arguments):
            own = self.own_name(value)
            if own in names and reached[at] != own:
                yield at, reached[at], own, takes.get(own)

    def test_calls(self):
        library, chance, bound, reported, exchanged = support.library(), random.Random(42), 0, 0, 0
        while bound < 1000:
            parameters, names, star, more = self.drawn(chance)
            arguments = self.arguments(chance)
            call = ", ".join(f"{name}={value}" if name else value for name, value in arguments)
            made = export.exported(f"def f({parameters}): pass\nf({call})\n".encode())
            tree = Tree(made.table, made.names)
            binder, def_, site = Binder(library, tree), tree.of_kind(bind.DEF)[0], tree.of_kind(bind.CALL)[0]
            answer, reached = binder.bound(site, def_), self.reached(parameters, names, star, more, arguments)
            self.assertEqual(type(answer) is Refusal, reached is None, (parameters, call))
            if reached is None:
                continue
            bound += 1
            rows = {node: at for at, node in enumerate(tree.arguments(site))}
            found = [(rows[one.argument], binder.parameter(one.reaches), tree.name(one.parameter).decode(), rows.get(one.taker), one.other)
                     for one in binder.namesakes(site, def_)]
            wanted = list(self.model(reached, names, arguments))
            self.assertEqual([one[:4] for one in found], wanted, (parameters, call))
            for at, reaches, own, _, other in found:
                pairs = [(a, r, o) for a, r, o, _ in wanted if r == own and o == reaches]
                self.assertEqual(rows[other.argument] if other else None, pairs[0][0] if pairs else None, (parameters, call))
            reported, exchanged = reported + len(wanted), exchanged + sum(one[4] is not None for one in found)
        self.assertGreater(reported, 300)
        self.assertGreater(exchanged, 10)


if __name__ == "__main__":
    unittest.main()
