"""--format gcc, github and sarif, and --color. SARIF is compared with the rules of its schema, which are written here for the objects that are used."""
import json
import os
import pty
import re
import subprocess
import unittest

import support
from command import STEP, CommandTest, command
from ducatmuffin import formats, numbers
from ducatmuffin.output import paint_of

# SARIF 2.1.0: of each object the properties that must be there and those that may, as far as ducat has them; others are not allowed.
# A value: a type, "uri", ("int", least), ("one", words), ("list", value), or the name of another object.
TEXT = {"text": str}
RULES = {
    "log": ({"version": ("one", ["2.1.0"]), "runs": ("list", "run")}, {"$schema": "uri"}),
    "run": ({"tool": "tool"}, {"invocations": ("list", "invocation"), "artifacts": ("unique", "artifact"), "results": ("list", "result"),
                               "columnKind": ("one", ["utf16CodeUnits", "unicodeCodePoints"]), "properties": dict}),
    "tool": ({"driver": "component"}, {}),
    "component": ({"name": str}, {"version": str, "rules": ("unique", "rule"), "properties": dict}),
    "rule": ({"id": str}, {"name": str, "shortDescription": "message"}),
    "invocation": ({"executionSuccessful": bool}, {"exitCode": ("int", 0), "toolExecutionNotifications": ("list", "notification")}),
    "notification": ({"message": "message"}, {"descriptor": "descriptor", "level": ("one", ["none", "note", "warning", "error"]),
                                              "locations": ("unique", "location")}),
    "descriptor": ({"id": str}, {}),
    "artifact": ({}, {"location": "place", "length": ("int", -1), "roles": ("list", ("one", ["analysisTarget"])), "hashes": dict, "properties": dict}),
    "result": ({"message": "message"}, {"ruleId": str, "ruleIndex": ("int", -1), "level": ("one", ["none", "note", "warning", "error"]),
                                        "locations": ("list", "location"), "relatedLocations": ("unique", "location"), "properties": dict}),
    "location": ({}, {"id": ("int", -1), "physicalLocation": "physical", "message": "message"}),
    "physical": ({"artifactLocation": "place"}, {"region": "region"}),
    "place": ({}, {"uri": "uri"}),
    "region": ({}, {"startLine": ("int", 1), "startColumn": ("int", 1), "endLine": ("int", 1), "endColumn": ("int", 1)}),
    "message": ({"text": str}, {}),
}
URI = re.compile(r"(?:[a-z]+://)?(?:[A-Za-z0-9._~!$&'()*+,;=@/-]|%[0-9A-F]{2})*")


def faults(value, rule, at=""):
    """What does not follow the schema, a line for each."""
    if isinstance(rule, type):
        return [] if isinstance(value, rule) and (rule is bool or not isinstance(value, bool)) else [f"{at}: no {rule.__name__}"]
    if rule == "uri":
        return [] if isinstance(value, str) and URI.fullmatch(value) else [f"{at}: no uri: {value}"]
    if isinstance(rule, tuple):
        form, of = rule
        if form == "int":
            return [] if type(value) is int and value >= of else [f"{at}: {value}"]
        if form == "one":
            return [] if value in of else [f"{at}: {value}"]
        if not isinstance(value, list):
            return [f"{at}: no list"]
        twice = form == "unique" and len({json.dumps(one, sort_keys=True) for one in value}) < len(value)
        return ([f"{at}: twice the same"] if twice else []) + [fault for n, one in enumerate(value) for fault in faults(one, of, f"{at}[{n}]")]
    must, may = RULES[rule]
    if not isinstance(value, dict):
        return [f"{at}: no object"]
    found = [f"{at}: {key} is missing" for key in must if key not in value] + [f"{at}: {key} is not known" for key in value if key not in {**must, **may}]
    return found + [fault for key, of in {**must, **may}.items() if key in value for fault in faults(value[key], of, f"{at}.{key}")]


class Sarif(CommandTest):
    def log(self, status, *words):
        ran = self.run_ducat(*words, "--format", "sarif")
        self.assertEqual(ran.status, status, ran.err)
        told = json.loads(ran.out)
        self.assertEqual(faults(told, "log"), [])
        run, = told["runs"]
        rules = [rule["id"] for rule in run["tool"]["driver"]["rules"]]
        self.assertEqual(rules, [*map(str, numbers.WORDS), "syntax", "expect", "namesake"])
        for result in run["results"]:
            self.assertEqual(rules[result["ruleIndex"]], result["ruleId"])
            for location in (*result["locations"], *result.get("relatedLocations", ())):
                region = location["physicalLocation"].get("region")
                if region:
                    self.assertLessEqual((region["startLine"], region["startColumn"]), (region["endLine"], region["endColumn"]))
        known = {artifact["location"]["uri"] for artifact in run["artifacts"]}
        places = [location["physicalLocation"]["artifactLocation"]["uri"] for result in run["results"] for location in result["locations"]]
        self.assertEqual(set(places) - known, set())
        invocation, = run["invocations"]
        self.assertEqual((invocation["exitCode"], invocation["executionSuccessful"]), (status, status != 2))
        return run

    def test_the_rules_can_fail(self):
        log = {"version": "2.1.0", "runs": [{"tool": {"driver": {"name": "x"}}, "results": [{"message": {"text": "y"}}]}]}
        self.assertEqual(faults(log, "log"), [])
        for change in ({"version": "2.0"}, {"runs": 1}, {"more": 1}, {"$schema": "a b"}):
            self.assertNotEqual(faults({**log, **change}, "log"), [], change)
        self.assertNotEqual(faults({"startLine": 0}, "region"), [])
        self.assertNotEqual(faults({"ruleId": "13"}, "result"), [])
        self.assertNotEqual(faults({"executionSuccessful": 1}, "invocation"), [])
        self.assertNotEqual(faults([{"id": "a"}, {"id": "a"}], ("unique", "descriptor")), [])

    def test_a_script(self):
        run = self.log(1, "check", "--dialect", "standard", "samples/example.star")
        first, second = run["results"]
        self.assertEqual((first["ruleId"], first["message"]["text"]), ("13", numbers.WORDS[13]))
        self.assertEqual(first["locations"], [{"physicalLocation": {"artifactLocation": {"uri": "samples/example.star"}, "region": {
            "startLine": 1, "startColumn": 15, "endLine": 1, "endColumn": 16}}}])
        self.assertEqual(first["properties"], {"file": 1, "begin": 14, "end": 15, "node": 4, "kind": {"number": 50, "name": "Normal"}, "dialect": {
            "name": "standard", "bytes": list(numbers.DIALECTS["standard"]), "given": True}, "edition": {"number": 1, "given": False}})
        self.assertEqual(run["artifacts"][0]["length"], 26)
        self.assertIn("not proved", run["artifacts"][0]["properties"]["table"])
        self.assertEqual(run["properties"]["totals"]["errors"], 2)

    def test_every_sample(self):
        names = [f"samples/{name}{ending}" for ending in (".table", ".star") for name in support.samples(ending)]
        run = self.log(2, "check", *names, "samples/missing.table")
        self.assertEqual(run["invocations"][0]["toolExecutionNotifications"][-1], {
            "descriptor": {"id": "unreadable"}, "level": "error", "message": {"text": "No such file or directory"},
            "locations": [{"physicalLocation": {"artifactLocation": {"uri": "samples/missing.table"}}}]})
        found = {result["ruleId"] for result in run["results"]}
        self.assertTrue({"3", "10", "13", "22", "33", "55", "61", "70", "72"} <= found, found)
        for name in names:
            self.log(self.run_ducat("check", "--quiet", name).status, "check", name)

    def test_notes_and_the_jobs(self):
        run = self.log(1, "check", "samples/whole.star", "--dialect", "all")
        related = [result["relatedLocations"] for result in run["results"] if "relatedLocations" in result]
        self.assertEqual([one[0]["message"]["text"] for one in related], ["the earlier argument", "the earlier parameter"])
        one = self.run_ducat("check", "samples", "--format", "sarif").out
        self.assertEqual(self.run_ducat("check", "samples", "--format", "sarif", "--jobs", "3").out, one)

    def test_bind(self):
        for words in (("--script", "samples/take.star", "samples/take.table"), ("samples/take.star",)):
            result, *exchanged = self.log(1, "bind", *words)["results"]
            self.assertEqual((result["ruleId"], [one["message"]["text"] for one in result["relatedLocations"]]), ("82", ["the call", "the def"]))
            self.assertEqual([(one["ruleId"], one["level"], one["relatedLocations"][0]["message"]["text"]) for one in exchanged],
                             [("namesake", "warning", "it is exchanged with this argument")] * 3)
        self.log(1, "bind", "--join", "samples/joined.1.star", "samples/joined.2.star")
        self.assertEqual(self.log(0, "bind", "samples/take.table")["results"], [])
        self.log(2, "bind", "samples/take.table", "--call", "0", "--def", "0")
        self.log(2, "bind", "samples/damaged.table", "samples/missing.table", self.put("x.star", "x = \n"))

    def test_odd_names_and_scripts(self):
        for name in ("a b.star", "50%.star", "c:d.star", "ü.star", b"\xff.star", "new\nline.star"):
            self.log(1, "check", self.put(name, "break\n"))
        self.log(1, "check", self.put("empty.star", "x = ["))
        self.log(1, "check", self.put("lines.star", "def f(\n  a=1,\n  b): pass\nf(a=1,\n  [\n  2]\n)\n"))
        self.log(1, "check", self.put("twice.star", "break\n"), self.at("twice.star"))

    def test_large_against_and_no_opening(self):
        large = self.put("large.star", "pass\nx = [" + "1, " * 2200 + "]\n")
        notes = self.log(2, "check", large)["invocations"][0]["toolExecutionNotifications"]
        self.assertEqual((notes[0]["descriptor"]["id"], notes[0]["locations"][0]["physicalLocation"]["region"]["startLine"]), ("no-table", 2))
        self.log(2, "check", "--join", large, "samples/missing.star")
        self.log(1, "check", "--against", "111112101", "samples/lambda.table")
        notes = self.log(2, "check", "--against", "standard", "samples/toplevel.table")["invocations"][0]["toolExecutionNotifications"]
        self.assertEqual(notes[0]["descriptor"]["id"], "no-opening")
        pair = self.put("pair.star", "def f(a): pass\nx = [f(1), " + "1, " * 2200 + "]\n")
        notes = self.log(2, "bind", pair)["invocations"][0]["toolExecutionNotifications"]
        self.assertEqual(notes[0]["descriptor"]["id"], "not-judged")


class Lines(CommandTest):
    def test_gcc(self):
        self.says(1, f"samples/example.star:1:15: error: {numbers.WORDS[13]} [13]\nsamples/example.star:2:3: error: {numbers.WORDS[55]} [55]\n", STEP,
                  "check", "--format", "gcc", "samples/example.star")
        ran = self.run_ducat("check", "--format", "gcc", "samples/whole.table", "samples/clean.table")
        self.assertIn(f"samples/whole.star:3:18: error: {numbers.WORDS[22]} [22]\nsamples/whole.star:3:10: note: the earlier argument\n", ran.out)
        alone = self.put("alone.table", support.sample("example.table"))
        self.says(1, f"{alone}: error: {numbers.WORDS[13]} (source file 1, bytes 14 to 15) [13]\n"
                  f"{alone}: error: {numbers.WORDS[55]} (source file 1, bytes 20 to 25) [55]\n", "", "check", "--format", "gcc", alone)
        self.says(2, f"samples/damaged.table: error: {numbers.WORDS[72]}, block 1 [72]\nsamples/no.table: error: No such file or directory [unreadable]\n", "",
                  "check", "--format", "gcc", "samples/damaged.table", "samples/no.table")
        path = self.put("x.star", "x = \n")
        self.says(1, f"{path}:1:5: error: syntax: unexpected end of line [syntax]\n", STEP, "check", "--format", "gcc", path)
        self.says(1, "samples/take.star:9:10: error: a named argument matches no parameter, and there is no `**kwargs` [82]\n"
                  "samples/take.star:9:5: note: the call\nsamples/take.star:1:1: note: the def\n"
                  "samples/take.star:10:10: warning: tracks reaches trains, though there is a parameter tracks [namesake]\n"
                  "samples/take.star:10:18: note: it is exchanged with this argument\nsamples/take.star:1:1: note: the def\n"
                  "samples/take.star:12:11: warning: trains reaches tracks, though there is a parameter trains [namesake]\n"
                  "samples/take.star:12:26: note: it is exchanged with this argument\nsamples/take.star:4:1: note: the def\n"
                  "samples/take.star:13:11: warning: tracks reaches trains, though there is a parameter tracks [namesake]\n"
                  "samples/take.star:13:19: note: it is exchanged with this argument\nsamples/take.star:4:1: note: the def\n", STEP,
                  "bind", "--format", "gcc", "samples/take.star")
        self.says(0, "", "", "check", "--format", "gcc", "samples/clean.table")
        self.says(1, "", "", "check", "--format", "gcc", "--quiet", "samples/example.star")

    def test_github(self):
        self.says(1, f"::error file=samples/example.star,line=1,col=15,endColumn=15,title=ducat 13::{numbers.WORDS[13]}\n"
                  f"::error file=samples/example.star,line=2,col=3,endColumn=7,title=ducat 55::{numbers.WORDS[55]}\n", STEP,
                  "check", "--format", "github", "samples/example.star")
        path = self.put("a,b:50%.star", "f(a=1,\n  [\n  2])\n")
        said = path.replace("%", "%25").replace(":", "%3A").replace(",", "%2C")
        self.says(1, f"::error file={said},line=2,endLine=3,title=ducat 20::{numbers.WORDS[20]}\n", STEP, "check", "--format", "github", path)

    def test_one_line_for_each(self):
        """No name of a file makes its own line or command."""
        path = self.put("a\n::error::b.star", "break\n")
        for name in ("gcc", "github"):
            self.assertEqual(len(self.run_ducat("check", "--format", name, path).out.splitlines()), 1)

    def test_only_check_and_bind(self):
        for words in (("dump", "samples/example.table"), ("rescue", "samples/lost.table", "-o", self.at("x")), ("build",)):
            ran = self.says(2, "", None, *words, "--format", "gcc")
            self.assertIn("invalid choice: 'gcc'", ran.err)


class Color(CommandTest):
    PLAIN = ("check", "samples/example.star", "samples/damaged.table")

    def test_always(self):
        ran, plain = self.run_ducat(*self.PLAIN, "--color", "always"), self.run_ducat(*self.PLAIN)
        self.assertEqual(re.sub("\x1b\\[[0-9;]*m", "", ran.out), plain.out)
        for said in ("\x1b[1msamples/example.star:1:15:\x1b[0m \x1b[1;31m13\x1b[0m a parameter", "\x1b[1;31mrefused 72\x1b[0m\n",
                     "\x1b[1;31m                  ^\x1b[0m\n"):
            self.assertIn(said, ran.out)
        for words in (("bind", "samples/take.star"), ("bind", "samples/damaged.table"), ("check", "--explain", "samples/whole.table"),
                      ("check", "--module", "samples/example.table"), ("check", self.put("x.star", "x = \n"))):
            ran, plain = self.run_ducat(*words, "--color", "always"), self.run_ducat(*words, "--color", "never")
            self.assertIn("\x1b[1;31m", ran.out)
            self.assertEqual(re.sub("\x1b\\[[0-9;]*m", "", ran.out), plain.out)

    def test_not_in_other_formats(self):
        for name in formats.MACHINE:
            self.assertNotIn("\x1b", self.run_ducat(*self.PLAIN, "--color", "always", "--format", name).out)

    def test_auto(self):
        self.assertNotIn("\x1b", self.run_ducat(*self.PLAIN).out)
        for word, terminal, environment, on in (
                ("auto", True, {}, True), ("auto", False, {}, False), ("auto", True, {"NO_COLOR": "1"}, False), ("auto", True, {"NO_COLOR": ""}, True),
                ("auto", True, {"TERM": "dumb"}, False), ("always", False, {"NO_COLOR": "1"}, True), ("never", True, {}, False)):
            self.assertEqual(paint_of(word, terminal, environment).on, on, (word, terminal, environment))

    def test_on_a_terminal(self):
        for environment, on in (({}, True), ({"NO_COLOR": "1"}, False)):
            keep, terminal = pty.openpty()
            kept = {key: value for key, value in os.environ.items() if key not in ("NO_COLOR", "TERM")}
            with subprocess.Popen(command("check", "samples/example.table"), cwd=support.ROOT, stdout=terminal, stderr=subprocess.DEVNULL,
                                  env={**kept, **environment}) as child:
                child.wait()
            os.close(terminal)
            self.assertEqual(b"\x1b[1;31m13\x1b[0m" in os.read(keep, 1 << 16), on)
            os.close(keep)


if __name__ == "__main__":
    unittest.main()
