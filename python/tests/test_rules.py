"""ducat rule: each example gives its number. ducat diff: what only one of two runs has."""
import json
import re
import unittest

import support
from command import STEP, CommandTest
from ducatmuffin import numbers, rules, table
from ducatmuffin.library import NO_FIGURES, Refusal


def with_bytes(data, then, more):
    """A table file with bytes changed, the sums of their blocks updated, and bytes after it."""
    for at, value in then:
        first = at - at % 512
        front = bytearray(data[first:first + 508])
        front[at - first] = value
        total = sum(number * byte for number, byte in enumerate(front, 1)) % 2 ** 32
        data = data[:first] + bytes(front) + total.to_bytes(4, "little") + data[first + 512:]
    return data + bytes(more)


class Rule(CommandTest):
    def given(self, number):
        """The number that an example gives, by what its command prints or its job answers."""
        example = rules.EXAMPLES[number]
        if example.script:
            name = self.put(f"{number}.star", example.text + "\n")
            return self.printed(example.how, name, "--dialect", example.dialect)
        if example.how in (rules.READ_TEXT, rules.WRITE_TEXT):
            return self.format_text(example)
        if example.how == rules.COMMANDS:
            ran = [self.printed(*(self.at(f"{number}.{word}") if word.endswith(".book") else word for word in line.split()[1:])) for line in example.text.split("\n")]
            self.assertFalse(any(ran[:-1]), ran)
            return ran[-1]
        text = table.read_text(example.text)
        if example.how == rules.WRITE:
            return self.printed("write", self.put("records", text.table), self.put("names", text.names), "-o", self.at("x.table"))
        if example.how == rules.PARAMS:
            answer = support.library().params(text.table, text.names, 0, room=0)
            return {answer.number} if type(answer) is Refusal else set()
        if example.how == rules.STEP:
            answer = support.library().figures_step(text.file(), NO_FIGURES._replace(files=numbers.MOST_FILES))
            return {answer.number} if type(answer) is Refusal else set()
        name = self.put(f"{number}.table", with_bytes(text.file(), example.then, example.more))
        if example.how == rules.PAIR:
            return self.printed("bind", name, "--call", "0", "--def", "0")
        return self.printed(example.how, name, *(("-o", self.at("x.table")) if example.how == rules.RESCUE else ()))

    def format_text(self, example):
        library = support.library()
        answer = (library.fstring_read(example.text.encode()) if example.how == rules.READ_TEXT
                  else library.fstring_write_words([int(word) for word in example.text.split()], b"", None))
        return {answer.number} if type(answer) is Refusal else set()

    def printed(self, *words):
        """The numbers of a run: of errors in a script or a table, and of refusals."""
        ran = self.run_ducat(*words)
        return {int(number) for number in re.findall(r"(?m)^(?:\S+:\d+:\d+: |\s*refused )(\d+)\b", ran.out)}

    def test_each_example_gives_its_number(self):
        self.assertEqual(list(rules.EXAMPLES), list(numbers.WORDS))
        for number in numbers.WORDS:
            with self.subTest(number):
                self.assertEqual(self.given(number), {number})

    def test_a_script_where_one_gives_it(self):
        """The numbers of jobs on a table alone and of files have no script."""
        self.assertEqual([number for number, example in rules.EXAMPLES.items() if not example.script],
                         [1, 2, 3, 4, 6, 7, 63, 64, *range(70, 77), 90, 91, *range(95, 99)])

    def test_what_is_printed(self):
        said = ("13 NO_DEFAULT_AFTER_DEFAULT\nmeaning: a parameter without a default follows one that has a default\n"
                "rule: Before a star, each parameter after one with a default has a default too. A `/` does not end this rule, a star does. "
                "Reported at the parameter without a default.\nfrom: def.rs, line 207: positional parameter after non positional\n"
                "given by: params, bind, namesakes, module, audit, file\nexample: a script; `ducat check --dialect all FILE`\n    def f(a=1, b): pass\n")
        for word in ("13", "no_default_after_default", "NO_DEFAULT_AFTER_DEFAULT"):
            self.says(0, said, "", "rule", word)
        for number in numbers.WORDS:
            ran = self.says(0, None, "", "rule", str(number))
            self.assertTrue(ran.out.startswith(f"{number} {numbers.NUMBERS[number]}\nmeaning: {numbers.WORDS[number]}\nrule: {rules.RULES[number].text}\nfrom: "), ran.out)
            rule = json.loads(self.run_ducat("rule", "--json", str(number)).out)["rule"]
            self.assertEqual((rule["number"], rule["words"], ", ".join(rule["given_by"])), (number, numbers.WORDS[number], numbers.GIVEN[number]))
            self.assertEqual((rule["rule"], rules.Source(**rule["source"])), rules.RULES[number])
        for word in ("0", "8", "99", "13a", "-1", "", "1" * 30):
            self.assertEqual(self.run_ducat("rule", "--", word).status, 2)


class Diff(CommandTest):
    def run_of(self, name, *words):
        return self.put(name, self.run_ducat(*words, "--json").out)

    def test_new_and_gone(self):
        script = self.put("plan.star", "break\ncontinue\n")
        old = self.run_of("old.json", "check", script, "samples/clean.table")
        self.says(0, "new 0, gone 0, same 2\n", "", "diff", old, old)
        self.put("plan.star", "break\nf(a=1, 2)\n")
        new = self.run_of("new.json", "check", script, "samples/clean.table", "samples/damaged.table", "samples/missing.table")
        first, second = f"{script}:2:1: 56 {numbers.WORDS[56]}", f"{script}:2:8: 20 {numbers.WORDS[20]}"
        third, fourth = f"samples/damaged.table: refused 72: {numbers.WORDS[72]}", "samples/missing.table: No such file or directory"
        self.says(1, f"new: {second}\nnew: {third}\nnew: {fourth}\ngone: {first}\nnew 3, gone 1, same 1\n", "", "diff", old, new)
        self.says(1, f"new: {first}\ngone: {second}\ngone: {third}\ngone: {fourth}\nnew 1, gone 3, same 1\n", "", "diff", new, old)
        self.put("plan.star", "break\n")
        fixed = self.run_of("fixed.json", "check", script)
        self.says(0, f"gone: {first}\nnew 0, gone 1, same 1\n", "", "diff", old, fixed)
        told = json.loads(self.run_ducat("diff", "--json", old, new).out)
        self.assertEqual((told["command"], told["library"], [one["name"] for one in told["inputs"]]), ("diff", None, [old, new]))
        self.assertEqual((told["new"], told["gone"], told["totals"], told["status"]), (
            [second, third, fourth], [first], {"new": 3, "gone": 1, "same": 1}, 1))

    def test_an_error_that_moves_is_new(self):
        script = self.put("plan.star", "break\n")
        old = self.run_of("old.json", "check", script)
        self.put("plan.star", "\nbreak\n")
        self.says(1, f"new: {script}:2:1: 55 {numbers.WORDS[55]}\ngone: {script}:1:1: 55 {numbers.WORDS[55]}\nnew 1, gone 1, same 0\n", "", "diff", old,
                  self.run_of("new.json", "check", script))

    def test_syntax_bytes_and_twice(self):
        script, alone = self.put("plan.star", "x = \n"), self.put("alone.table", support.sample("example.table"))
        old, new = self.run_of("old.json", "check", script), self.run_of("new.json", "check", script, alone, alone)
        said = [f"new: {alone}: source file 1, bytes {place}: {number} {numbers.WORDS[number]}\n" for number, place in ((13, "14 to 15"), (55, "20 to 25"))]
        self.says(1, f"{said[0] * 2}{said[1] * 2}new 4, gone 0, same 1\n", "", "diff", old, new)
        self.put("plan.star", "x == \n")
        ran = self.says(1, None, "", "diff", old, self.run_of("other.json", "check", script))
        self.assertEqual(ran.out.splitlines()[-1], "new 1, gone 1, same 0")

    def test_bind(self):
        script = self.put("take.star", "def f(a, /): pass\nf(1)\nf(a=1)\n")
        old = self.run_of("old.json", "bind", script)
        self.put("take.star", "def f(a, /): pass\nf(a)\nf(a=1)\nf()\nx = [" + "1, " * 2200 + "f(1)]\n")
        new = self.run_of("new.json", "bind", script)
        self.says(1, f"new: {script}:4:1, def {script}:1:1: refused 84: {numbers.WORDS[84]}\n"
                  f"new: {script}:5:6606, def {script}:1:1: not judged: a table has at most 2100, and this has 2212 nodes\nnew 2, gone 0, same 1\n", "",
                  "diff", old, new)
        joined = self.run_of("joined.json", "bind", "--join", "samples/joined.1.star", "samples/joined.2.star")
        ran = self.says(1, None, "", "diff", old, joined)
        self.assertIn(f"new: samples/joined.2.star:3:1, def samples/joined.1.star:2:1: refused 82: {numbers.WORDS[82]}\n", ran.out)

    def test_what_is_no_run(self):
        run = self.run_of("run.json", "check", "samples/example.table")
        words = "this is not the JSON of a whole run of `ducat check` or `ducat bind`"
        for name, content in (("cut", self.read("run.json")[:-20]), ("list", "[]"), ("none", ""), ("open", "[" * 100000), ("part", '{"version": 1, "command": "check"}'),
                              ("odd", '{"version": 1, "command": "check", "inputs": [1], "status": 0}'), ("bytes", b"\xff")):
            path = self.put(name, content)
            self.says(2, "", f"ducat: {path}: {words}\n", "diff", run, path)
            self.says(2, "", f"ducat: {path}: {words}\n", "diff", path, run)
        missing = self.at("missing")
        self.says(2, "", f"ducat: {missing}: No such file or directory\n", "diff", run, missing)
        for other in (self.run_of("1", "check", "--module", "samples/example.table"), self.run_of("2", "bind", "samples/take.star"),
                      self.run_of("3", "check", "--against", "all", "samples/clean.table")):
            ran = self.says(2, "", None, "diff", run, other)
            self.assertIn("are not runs of the same command and options", ran.err)
        ran = self.says(2, "", None, "diff", run, self.run_of("4", "dump", "samples/example.table"))
        self.assertIn("this is version 1 of `ducat dump`", ran.err)
        self.says(2, "", "ducat: standard input (`-`) is named twice\n", "diff", "-", "-")
        self.says(0, "new 0, gone 0, same 2\n", "", "diff", "-", run, input=self.read("run.json"))


class Compare(CommandTest):
    """ducat table SCRIPT... --compare FILE."""

    def test_same(self):
        self.says(0, "same 6\n", STEP, "table", "samples/example.star", "--compare", "samples/example.table")
        both = ("samples/joined.1.star", "samples/joined.2.star")
        self.says(0, "same 52\n", STEP, "table", *both, "--compare", "samples/joined.table")
        self.says(0, "same 52\n", STEP, "table", "--dialect", "all", *both, "--compare", "samples/joined.table")
        self.says(1, "differs, dialect standard and all\n", STEP, "table", "--dialect", "standard", *both, "--compare", "samples/joined.table")
        self.says(1, "differs, node 1, samples/joined.1.star:2:1: file 7 and 1\n", STEP, "table", "--number", "7", *both, "--compare", "samples/joined.table")
        out = self.at("seven.table")
        self.says(0, None, STEP, "table", "--number", "7", *both, "-o", out)
        self.says(0, "same 52\n", STEP, "table", "--number", "7", *both, "--compare", out)
        for name in support.samples(".star"):
            self.says(0, None, STEP, "table", f"samples/{name}.star", "-o", out)
            self.says(0, None, STEP, "table", f"samples/{name}.star", "--compare", out)

    def test_each_field(self):
        """A table of the script with one field of one record changed is found at that record."""
        script = self.put("plan.star", "def f(a, b=1):\n    return a\nf(b=2)\n")
        out = self.at("plan.table")
        self.says(0, None, STEP, "table", script, "-o", out)
        records, names, dialect, _ = table.parts_of(self.read("plan.table"))
        found = table.decode(records)
        wanted = {"kind": "kind", "detail": "detail", "name_length": "name", "begin": "begin", "end": "end", "file": "file", "source": "name position"}
        for node, record in enumerate(found):
            for field, word in wanted.items():
                changed = [*found[:node], record._replace(**{field: getattr(record, field) + 1}), *found[node + 1:]]
                other = self.put("other.table", table.file_of(b"".join(map(lambda one: table.RECORD.pack(*one), changed)), names, dialect))
                ran = self.run_ducat("table", script, "--compare", other)
                self.assertEqual(ran.status, 1, (node, field))
                self.assertTrue(ran.out.startswith(f"differs, node {node}") and f"{word} " in ran.out, (node, field, ran.out))

    def test_nodes_and_sizes(self):
        script = self.put("plan.star", "break\npass\n")
        out = self.at("plan.table")
        for text, said in (("(Statements span=0-10 (Break span=0-5))", "differs, nodes 3 and 2"),
                           ("(Statements span=0-10 (Break span=0-5) (OtherSimple span=6-10) (Break span=6-10))", "differs, nodes 3 and 4"),
                           ("(Statements span=0-10 (Break span=0-5) (Break span=6-10))", f"differs, node 2, {script}:2:1: kind 10 OtherSimple and 6 Break"),
                           ("rules: off\n(Statements span=0-10 size=2 (Break span=0-5) (OtherSimple span=6-10))", "differs, node 0: size 3 and 2")):
            self.made("plan.table", text)
            ran = self.says(1, None, STEP, "table", script, "--compare", out)
            self.assertEqual(ran.out, said + "\n")
        self.says(2, "refused 70\n", None, "table", script, "--compare", "samples/cut.table")
        self.says(2, "", None, "table", script, "--compare", "samples/missing.table")
        self.says(1, "", None, "table", self.put("wrong.star", "x = \n"), "--compare", out)

    def test_json(self):
        ran = self.run_ducat("table", "--json", "samples/example.star", "--number", "2", "--compare", "samples/example.table")
        told = json.loads(ran.out)
        self.assertEqual((ran.status, told["verdict"], told["difference"]), (1, "differs", {"node": 0, "fields": {"file": {"script": 2, "file": 1}}}))
        told = json.loads(self.run_ducat("table", "--json", "samples/example.star", "--compare", "samples/example.table").out)
        self.assertEqual((told["verdict"], told["nodes"], told["compared"]["bytes"], told["status"]), ("same", 6, 1536, 0))

    def test_wrong_usage(self):
        for words in (("samples/example.star",), ("samples/example.star", "-o", self.at("x"), "--compare", "samples/example.table"),
                      ("samples/example.txt", "--compare", "samples/example.table"), ("samples/example.star", "--parts", "--compare", "samples/example.table"),
                      ("-", "--stdin-filename", "x.star", "--compare", "-")):
            self.assertEqual(self.run_ducat("table", *words).status, 2, words)

    def test_a_script_is_not_written_over(self):
        script = self.put("plan.star", "break\n")
        for words in (("table", "samples/example.star"), ("table", "samples/example.txt"), ("table", "--parts", script), ("rescue", "samples/lost.table"),
                      ("write", script, script), ("dump", "samples/example.table")):
            ran = self.says(2, "", None, *words, "-o", script)
            self.assertEqual(ran.err, f"ducat: -o {script}: this is a script's name, and nothing is written over a script\n")
        other = self.put("plan.tpl", "break\n")
        self.assertEqual(self.run_ducat("table", "--as-script", "*.tpl", other, "-o", other).status, 2)
        self.assertEqual((self.read("plan.star"), self.read("plan.tpl")), (b"break\n", b"break\n"))


if __name__ == "__main__":
    unittest.main()
