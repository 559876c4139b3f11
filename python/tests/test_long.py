"""Lists of thousands of errors: every form of output prints all of them, up to the last."""
import json
import re

from command import CommandTest
from ducatmuffin import numbers

LOADS = "dialect: 110000010\n(If (Int) (Statements ^2097<(Load)>))\n"  # two errors at each load, 58 and 59
ERRORS = [(number, at) for at in range(3, 2100) for number in (58, 59)]
LINES = 5000  # of a script, an error in each


class Tables(CommandTest):
    """A table file with 4,194 errors, the most of any with this form."""

    def setUp(self):
        super().setUp()
        self.file = self.made("long.table", LOADS)

    def test_text(self):
        for module in ((), ("--module",)):
            out = self.says(1, None, "", "check", *module, self.file).out.splitlines()
            self.assertEqual((len(out), out[0], out[-1]), (4196, "nodes 2100", "errors 4194"))
            self.assertEqual(out[1:-1], [f"{number} 1 {at} {at + 1}" for number, at in ERRORS])
            self.assertEqual(out[-2], "59 1 2099 2100")

    def test_explained(self):
        out = self.says(1, None, "", "check", "--explain", self.file).out.splitlines()
        told = [line for line in out if re.match(r"5[89] 1 ", line)]
        self.assertEqual((len(told), out[-1]), (4194, "errors 4194"))
        self.assertEqual(told[-1], f"59 1 2099 2100: {numbers.WORDS[59]}, node 2099, kind 9 Load")

    def test_json(self):
        for module in ((), ("--module",)):
            told = json.loads(self.says(1, None, "", "check", "--json", *module, self.file).out)
            found = told["inputs"][0]["errors"]
            self.assertEqual([(error["number"], error["begin"]) for error in found], ERRORS)
            self.assertEqual(told["totals"]["errors"], 4194)

    def test_several_files(self):
        """The list of one file does not end that of the next, and each line is printed."""
        files = [self.made(f"{at}.table", LOADS) for at in range(3)]
        out = self.says(1, None, "", "check", *files).out.splitlines()
        self.assertEqual(sum(line == "errors 4194" for line in out), 3)
        self.assertEqual(sum(bool(re.search(r"\b5[89] 1 \d+ \d+$", line)) for line in out), 3 * 4194)

    def test_audit(self):
        """The errors of targets and types, which the module pass does not have."""
        file = self.made("types.table", "dialect: 110000010\n(Statements ^524<(Assign:1 (Int) (Int) (Int))> (Load))\n")
        out = self.says(1, None, "", "check", file).out.splitlines()
        wanted = sorted([(59, 2097), *((number, at + more) for at in range(1, 2097, 4) for number, more in ((30, 1), (45, 2)))], key=lambda one: one[1])
        found = [tuple(map(int, line.split()[:3:2])) for line in out[1:-1]]
        self.assertEqual((sorted(found, key=lambda one: one[1]), out[-1]), (wanted, "errors 1049"))


class Scripts(CommandTest):
    """A script with an error in each of 5,000 lines, checked in several tables."""

    def setUp(self):
        super().setUp()
        self.script = self.put("long.star", "break\n" * LINES)

    def lines(self, *words):
        return self.run_ducat("check", *words, self.script).out.splitlines()

    def test_text(self):
        out = self.lines()
        told = [line for line in out if line.startswith(self.script)]
        self.assertEqual(told, [f"{self.script}:{line}:1: 55 {numbers.WORDS[55]}" for line in range(1, LINES + 1)])
        self.assertEqual(out[-1], f"errors {LINES}")

    def test_other_forms(self):
        told = self.lines("--format", "gcc")
        self.assertEqual((len(told), told[-1]), (LINES, f"{self.script}:{LINES}:1: error: {numbers.WORDS[55]} [55]"))
        told = self.lines("--format", "github")
        self.assertEqual((len(told), f",line={LINES}," in told[-1]), (LINES, True))
        told = json.loads("\n".join(self.lines("--format", "sarif")))["runs"][0]["results"]
        self.assertEqual((len(told), told[-1]["locations"][0]["physicalLocation"]["region"]["startLine"]), (LINES, LINES))

    def test_json(self):
        told = json.loads("\n".join(self.lines("--json")))
        self.assertEqual((len(told["inputs"][0]["errors"]), told["totals"]["errors"]), (LINES, LINES))

    def test_diff(self):
        """What only one of two runs has: all but the first error."""
        old = self.put("old.json", self.run_ducat("check", "--json", self.script).out)
        self.put("long.star", "break\n")
        new = self.put("new.json", self.run_ducat("check", "--json", self.script).out)
        out = self.run_ducat("diff", old, new).out.splitlines()
        self.assertEqual((len(out), out[-1]), (LINES, f"new 0, gone {LINES - 1}, same 1"))
        self.assertEqual(out[-2], f"gone: {self.script}:{LINES}:1: 55 {numbers.WORDS[55]}")

    def test_bind(self):
        """Each of 2,000 calls is printed, and counted if it is refused."""
        script = self.put("calls.star", "def f(a): pass\n" + "f(1, 2)\n" * 2000)
        out = self.run_ducat("bind", script).out
        self.assertEqual(len(re.findall(r"(?m)^\s*refused 81\b", out)), 2000)
        self.assertIn("\n2001:1 ", out)
