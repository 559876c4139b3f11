"""ducat check on table files: the samples, standard input, several files, every form of output, and what cannot be read."""
import json
import os
import struct
import unittest

import support
from command import CommandTest
from ducatmuffin import numbers, table

STATUS = {"clean": 0, "cut": 2, "damaged": 2, "edition": 1, "edition-bad": 2, "example": 1, "example-none": 1, "joined": 1, "lambda": 1, "lost": 2,
          "parameters": 1, "placement": 1, "statements": 1, "take": 0, "toplevel": 0, "toplevel-standard": 1, "unsound": 2, "whole": 1}
ALL = "the whole checker accepts: the module pass, and every job on every node that it fits"
MODULE = "none of 10 to 19 and 50 to 61; 20 to 45 (calls, targets, types) are not looked for with --module"
LOOKS = "hint: this looks like a script; `ducat check` takes it under a name that ends in .star, with --as-script, or with --stdin-filename\n"
DEFAULT = "a parameter without a default follows one that has a default"
BREAK = "`break` is outside a `for` loop"
LARGEST = "dialect: Standard\n(Statements ^64<(OtherSimple (Identifier " + "0" * 126 + "))> ^1970<(OtherSimple)> (Break))"


def sorted_lines(text):
    """An answer with its errors sorted by file, begin, end and number."""
    lines = text.splitlines()
    if len(lines) < 2:
        return text.partition(":")[0] + ("\n" if ":" in text else "")
    errors = sorted(([int(word) for word in line.split()] for line in lines[1:-1]), key=lambda error: (*error[1:], error[0]))
    return "\n".join([lines[0], *(" ".join(map(str, error)) for error in errors), lines[-1]]) + "\n"


class Samples(CommandTest):
    def test_every_sample_has_its_status(self):
        self.assertEqual(sorted(STATUS), sorted(support.samples(".table")))

    def test_module_prints_what_the_program_prints(self):
        for name, status in STATUS.items():
            with self.subTest(name):
                self.says(status, support.sample(f"{name}.out").decode(), None, "check", "--module", f"samples/{name}.table")

    def test_every_job_sorted(self):
        for name, status in STATUS.items():
            with self.subTest(name):
                audited = f"{name}.all" if os.path.exists(os.path.join(support.ROOT, "samples", f"{name}.all")) else f"{name}.out"
                self.says(status, sorted_lines(support.sample(audited).decode()), None, "check", f"samples/{name}.table")

    def test_the_example_of_document_01(self):
        self.says(1, "nodes 6\n13 1 14 15\n55 1 20 25\nerrors 2\n", "", "check", "samples/example.table")

    def test_the_module_pass_keeps_its_order(self):
        out = self.run_ducat("check", "--module", "samples/lambda.table").out
        self.assertNotEqual(out, sorted_lines(out))

    def test_a_refusal_is_one_line_and_a_sentence(self):
        self.says(2, "refused 3\n", "ducat: samples/unsound.table: refused 3: a record of the table is unsound, node 0, kind 11 Assign: "
                  "it has 1 child, and Assign takes 2\n", "check", "samples/unsound.table")
        self.says(2, "refused 72\n", "ducat: samples/damaged.table: refused 72: the sum of a block is wrong, so a byte is damaged, block 1\n",
                  "check", "--module", "samples/damaged.table")


class Inputs(CommandTest):
    def test_standard_input(self):
        self.says(1, support.sample("example.out").decode(), "", "check", "-", input=support.sample("example.table"))
        self.says(1, support.sample("example.out").decode(), "", "check", "--", "-", input=support.sample("example.table"))

    def test_several_files_and_the_highest_status(self):
        clean, example = (support.sample(f"{name}.out").decode() for name in ("clean", "example"))
        both = f"samples/clean.table:\n{clean}samples/example.table:\n{example}"
        self.says(1, both + "files 2, with errors 1, refused 0, not read 0, errors 2\n", "", "check", "samples/clean.table", "samples/example.table")
        self.says(2, both + "samples/missing.table:\nfiles 3, with errors 1, refused 0, not read 1, errors 2\n",
                  "ducat: samples/missing.table: No such file or directory\n",
                  "check", "samples/clean.table", "samples/example.table", "samples/missing.table")

    def test_what_cannot_be_read(self):
        self.says(2, "", "ducat: samples/missing.table: No such file or directory\n", "check", "samples/missing.table")
        folder = os.open(os.path.join(support.ROOT, "samples"), os.O_RDONLY)
        try:
            self.says(2, "", "ducat: -: Is a directory\n", "check", "-", stdin=folder)
        finally:
            os.close(folder)

    def test_an_empty_file_is_cut_short(self):
        self.says(2, "refused 70\n", None, "check", self.put("nothing", b""))

    def test_the_largest_file_a_byte_more_and_a_byte_less(self):
        largest = table.read_text(LARGEST).file()
        self.assertEqual(len(largest), numbers.FILE_BYTES)
        for module in ([], ["--module"]):
            self.says(1, "nodes 2100\n55 1 2099 2100\nerrors 1\n", "", "check", *module, self.put("largest", largest))
            self.says(2, "refused 75\n", None, "check", *module, self.put("larger", largest + b"\0"))
            self.says(2, "refused 70\n", None, "check", *module, self.put("shorter", largest[:-1]))

    def test_more_bytes_than_are_read(self):
        over = support.sample("clean.table") + bytes(100000)
        self.says(2, "refused 75\n", "ducat: -: refused 75: there are bytes after the last block: 57857 bytes or more after block 3\n",
                  "check", "-", input=over)

    def test_all_errors_are_printed(self):
        """2,097 loads in a permitted `if`, in a dialect without load: two errors each."""
        path = self.made("loads.table", "dialect: 110000010\n(If (Int) (Statements ^2097<(Load)>))")
        lines = [f"{number} 1 {at} {at + 1}" for at in range(3, 2100) for number in (58, 59)]
        for module in ([], ["--module"]):
            self.says(1, "\n".join(["nodes 2100", *lines, "errors 4194"]) + "\n", "", "check", *module, path)

    def test_what_the_module_pass_does_not_look_for(self):
        path = self.made("u.table", "dialect: Standard\n(Statements (OtherSimple (Call (Identifier f) (Named a (Int)) (Positional (Int)))) "
                         "(Assign (Int) (Int)))")
        self.says(0, "nodes 11\nerrors 0\n", "", "check", "--module", path)
        self.says(1, "nodes 11\n20 1 6 7\n30 1 9 10\nerrors 2\n", "", "check", path)

    def test_a_name_makes_no_line_of_its_own(self):
        forged = self.put("x\nerrors 0", support.sample("example.table"))
        out = f"{self.room}/x?errors 0:\n" + support.sample("example.out").decode() + "?nodes 1?:\n"
        self.says(2, out + "files 2, with errors 1, refused 0, not read 1, errors 2\n", "ducat: ?nodes 1?: No such file or directory\n",
                  "check", forged, "\nnodes 1\n")

    def test_a_name_that_looks_like_an_option(self):
        self.says(2, "", "ducat: --explain: No such file or directory\n", "check", "--", "--explain")
        self.put("-x.table", support.sample("clean.table"))
        self.says(0, "nodes 34\nerrors 0\n", "", "check", "--", "-x.table", cwd=self.room)

    def test_a_name_that_is_not_utf_8(self):
        name = self.put(b"\xff\xfe.table", support.sample("damaged.table"))
        err = f"ducat: {name}: refused 72: the sum of a block is wrong, so a byte is damaged, block 1\n"
        self.says(2, "refused 72\n", err, "check", name)
        ran = self.run_ducat("check", "--json", name)
        entry, = json.loads(ran.out)["inputs"]
        self.assertEqual(bytes.fromhex(entry["name_bytes"]), os.fsencode(name))
        self.assertEqual(entry["name"], os.fsencode(name).decode("utf-8", "replace"))


class Quiet(CommandTest):
    def test_the_status_is_the_answer(self):
        for name, status in (("clean", 0), ("example", 1), ("damaged", 2)):
            for more in ([], ["--json"], ["--explain"], ["--module"]):
                self.says(status, "", "", "check", "--quiet", *more, f"samples/{name}.table")
        self.says(1, "", "", "check", "--quiet", "-", input=support.sample("example.table"))

    def test_what_is_not_read_is_still_said(self):
        self.says(2, "", "ducat: samples/missing.table: No such file or directory\n", "check", "--quiet", "samples/clean.table",
                  "samples/missing.table")
        self.says(2, "", "ducat: samples/missing.table: No such file or directory\n", "check", "--quiet", "--json", "samples/missing.table")

    def test_bad_only(self):
        example = support.sample("example.out").decode()
        totals = "files 4, with errors 1, refused 1, not read 1, errors 2\n"
        for module in ([], ["--module"]):
            self.says(2, f"samples/example.table:\n{example}samples/cut.table:\nrefused 70\nsamples/missing.table:\n{totals}", None,
                      "check", "--bad-only", *module, "samples/clean.table", "samples/example.table", "samples/cut.table", "samples/missing.table")
        self.says(0, "", "", "check", "--bad-only", "samples/clean.table")
        ran = self.run_ducat("check", "--bad-only", "--json", "samples/clean.table", "samples/example.table")
        told = json.loads(ran.out)
        self.assertEqual([entry["name"] for entry in told["inputs"]], ["samples/example.table"])
        self.assertEqual(told["totals"]["files"], 2)


class Explain(CommandTest):
    def test_files_with_totals(self):
        self.says(2, f"""samples/clean.table:
nodes 34, dialect standard
errors 0: {ALL}
samples/example-none.table:
nodes 6, dialect extended (the file has none)
13 1 14 15: {DEFAULT}, node 4, kind 50 Normal
55 1 20 25: {BREAK}, node 5, kind 6 Break
errors 2
samples/damaged.table:
refused 72: the sum of a block is wrong, so a byte is damaged, block 1
samples/example.table:
nodes 6, dialect standard
samples/example.star:1:15: 13 {DEFAULT}, node 4, kind 50 Normal
    def f(a, b=1, c):
                  ^
samples/example.star:2:3: 55 {BREAK}, node 5, kind 6 Break
      break
      ^^^^^
errors 2
files 4, with errors 2, refused 1, not read 0, errors 4
""", "", "check", "--explain", "samples/clean.table", "samples/example-none.table", "samples/damaged.table", "samples/example.table")

    def test_module(self):
        self.says(0, f"nodes 34, dialect standard\nerrors 0: {MODULE}\n", "", "check", "--explain", "--module", "samples/clean.table")
        self.says(1, f"nodes 6, dialect extended (the file has none)\n13 1 14 15: {DEFAULT}\n55 1 20 25: {BREAK}\nerrors 2\n", "",
                  "check", "--explain", "--module", "samples/example-none.table")

    def test_totals_of_many(self):
        names = [f"samples/{name}.table" for name in ("clean", "damaged", "example-none", "missing")] * 5
        out = self.run_ducat("check", "--explain", *names).out
        self.assertEqual(out.splitlines()[-1], "files 20, with errors 5, refused 5, not read 5, errors 10")
        self.assertEqual(sum(line.startswith("samples/") and line.endswith(":") for line in out.splitlines()), 20)

    def test_what_is_no_table_file_is_told_as_what_it_looks_like(self):
        short = "refused 70: the file ends before a block is complete, block "
        self.says(2, short + "2: the file ends after 1500 bytes, 476 bytes into this block\n"
                  "hint: its 1500 bytes are not a multiple of 512, so this is not a whole table file\n", "", "check", "--explain", "samples/cut.table")
        self.says(2, short + "0: the file is empty\n", "", "check", "--explain", self.put("nothing", b""))
        text = self.put("text", 'x = "Zürich"\n')
        self.says(2, short + "0: the file ends after 14 bytes, 14 bytes into this block\n" + LOOKS, "", "check", "--explain", text)
        self.says(2, short + "0: the file ends after 14 bytes, 14 bytes into this block\n" + LOOKS, "", "check", "--explain", "-",
                  input='x = "Zürich"\n'.encode())
        readme = self.put("README.md", b"text " * 300)
        self.says(2, "refused 72: the sum of a block is wrong, so a byte is damaged, block 0\n" + LOOKS, "", "check", "--explain", readme)
        over = self.put("over", support.sample("clean.table") + bytes(10))
        self.says(2, "refused 75: there are bytes after the last block: 10 bytes after block 3\n"
                  "hint: its 2058 bytes are not a multiple of 512, so this is not a whole table file\n", "", "check", "--explain", over)

    def test_nodes_of_refusals(self):
        unsound = "refused 3: a record of the table is unsound, node 0, kind "
        self.says(2, unsound + "11 Assign: it has 1 child, and Assign takes 2\n", "", "check", "--explain", "samples/unsound.table")
        strange = self.made("strange", "(Statements (Return (Int)) (Return kind=99 (Int)))")
        self.says(2, unsound + "1 Statements: child 2 of 2, node 3, is not a statement\n", "", "check", "--explain", strange)
        deep = self.made("deep", "(Statements (Break) (OtherSimple ^70<(Not >(Int)^70<)>))")
        self.says(2, "refused 4: a statement or expression is more than 64 deep, node 65, kind 33 Not\n", "", "check", "--explain", deep)
        self.says(2, "refused 4\n", None, "check", deep)

    def test_the_earlier_place(self):
        """11 and 22 name the first use: with --explain, and never without it."""
        self.assertEqual(support.sample("whole.out").decode(), self.run_ducat("check", "--module", "samples/whole.table").out)
        self.assertIn("22 1 87 90\n", self.run_ducat("check", "samples/whole.table").out)
        path = self.put("whole", support.sample("whole.table"))
        out = self.run_ducat("check", "--explain", path).out
        self.assertIn("22 1 87 90: a named argument has the name of an earlier one, node 20, kind 61 Named; the earlier argument is node 18, "
                      "bytes 79 to 82\n", out)
        self.assertIn("11 1 258 263: a parameter has the name of an earlier one, node 52, kind 50 Normal; the earlier parameter is node 51, "
                      "bytes 251 to 256\n", out)
        out = self.run_ducat("check", "--explain", "--module", path).out
        self.assertIn("11 1 258 263: a parameter has the name of an earlier one; the earlier parameter is node 51, bytes 251 to 256\n", out)
        self.assertIn("samples/whole.star:3:10: note: the earlier argument\n        plan(gap=90, gap=120)\n             ^^^\n",
                      self.run_ducat("check", "--explain", "samples/whole.table").out)

    def test_the_first_of_three_equal_names(self):
        path = self.made("three", "(Def (Normal a) (Normal b) (Normal a) (Normal a) (Break))")
        self.assertIn("11 1 3 4: a parameter has the name of an earlier one, node 3, kind 50 Normal; the earlier parameter is node 1, bytes 1 to 2",
                      self.run_ducat("check", "--explain", path).out)


class Limit(CommandTest):
    """A parameter list has at most 48 entries, marks counted: 19 at the Def or Lambda."""
    WORDS = "the parameter list has more than 48 entries, `*` and `/` counted"

    def list_of(self, many, front="", back=""):
        """A def with a list of the given number of entries, and a lambda with the same."""
        given = (front + back).replace("(Int)", "").count("(")
        entries = front + "".join(f"(Normal p{at})" for at in range(many - given)) + back
        return self.made("long", f"dialect: AllOptionsInternal\n(Statements (Def {entries} (OtherSimple)) (OtherSimple (Lambda {entries} (Int))))")

    def test_both_sides(self):
        for front, back in (("", ""), ("(Normal a)(Slash)", ""), ("", "(NoArgs)(Normal z)"), ("(Normal a)(Slash)", "(ArgsParam z)(KwArgsParam k)")):
            for many in (47, 48):
                self.says(0, f"nodes {2 * many + 6}\nerrors 0\n", "", "check", self.list_of(many, front, back))
            self.says(1, "nodes 104\n19 1 1 2\n19 1 53 54\nerrors 2\n", "", "check", self.list_of(49, front, back))
            self.says(1, "nodes 104\n19 1 1 2\n19 1 53 54\nerrors 2\n", "", "check", "--module", self.list_of(49, front, back))

    def test_it_comes_first(self):
        for front, back in (("(Slash)", ""), ("(Normal p1)", ""), ("(Normal:2 a (Int))", ""), ("", "(NoArgs)")):
            out = self.run_ducat("check", self.list_of(49, front, back)).out
            self.assertEqual([line.split()[0] for line in out.splitlines()[1:-1]], ["19", "19"], front + back)

    def test_explain(self):
        path = self.list_of(50)
        self.says(1, f"""nodes 106, dialect all
19 1 1 2: {self.WORDS}, node 1, kind 2 Def: it has 50, and 48 are allowed
19 1 54 55: {self.WORDS}, node 54, kind 27 Lambda: it has 50, and 48 are allowed
errors 2
""", "", "check", "--explain", path)
        self.assertIn(f"19 1 1 2: {self.WORDS}: it has 50, and 48 are allowed\n", self.run_ducat("check", "--explain", "--module", path).out)
        told = json.loads(self.run_ducat("check", "--json", path).out)["inputs"][0]["errors"]
        self.assertEqual([(error["number"], error["entries"]) for error in told], [(19, 50), (19, 50)])

    def test_bind(self):
        entries = "".join(f"(Normal p{at})" for at in range(49))
        path = self.made("bound", f"(Statements (Def {entries} (OtherSimple)) (OtherSimple (Call (Identifier f))))")
        said = f"refused 19 1 1 2: {self.WORDS}: it has 49, and 48 are allowed\n"
        self.says(1, said, "", "bind", path, "--call", "53", "--def", "1", "--explain")
        pair, = json.loads(self.run_ducat("bind", path, "--call", "53", "--def", "1", "--json").out)["inputs"][0]["pairs"]
        self.assertEqual((pair["refused"]["number"], pair["refused"]["node"], pair["refused"]["entries"]), (19, 1, 49))

    def test_the_table_of_a_longer_list_is_made(self):
        script = self.put("long.star", f"def f({', '.join(f'p{at}' for at in range(60))}):\n    pass\n")
        made = self.at("long.table")
        self.assertEqual(self.run_ducat("table", script, "-o", made).status, 0)
        self.assertIn("19 1 ", self.run_ducat("check", made).out)


class Json(CommandTest):
    def told(self, status, *words, **more):
        ran = self.run_ducat("check", "--json", *words, **more)
        self.assertEqual((ran.status, ran.err), (status, ""))
        return json.loads(ran.out)

    def test_head(self):
        import hashlib
        from ducatmuffin import __version__
        told = self.told(0, "samples/clean.table")
        with open(support.library().path, "rb") as file:
            held = hashlib.sha256(file.read()).hexdigest()
        self.assertEqual((told["version"], told["command"], told["ducat"], told["module"], told["status"]), (1, "check", __version__, False, 0))
        self.assertEqual(told["library"], {"version": support.library().version, "sha256": held, "proved": support.library().proved})
        self.assertIsNone(told["configuration"])

    def test_evidence(self):
        import hashlib
        data = support.sample("clean.table")
        entry, = self.told(0, "samples/clean.table")["inputs"]
        self.assertEqual(entry, {
            "name": "samples/clean.table", "kind": "table", "verdict": "accepted", "sha256": hashlib.sha256(data).hexdigest(), "bytes": 2048,
            "whole": True, "dialect": {"name": "standard", "bytes": [1, 1, 1, 0, 0, 0, 1, 0, 0], "given": True},
            "edition": {"number": 1, "given": False}, "script": {"name": "samples/clean.star"}, "nodes": 34, "errors": []})

    def test_errors(self):
        entry, = self.told(1, "samples/example-none.table")["inputs"]
        self.assertEqual(entry["errors"], [
            {"number": 13, "words": DEFAULT, "file": 1, "begin": 14, "end": 15, "node": 4, "kind": {"number": 50, "name": "Normal"}},
            {"number": 55, "words": BREAK, "file": 1, "begin": 20, "end": 25, "node": 5, "kind": {"number": 6, "name": "Break"}}])
        self.assertEqual(entry["dialect"]["given"], False)
        entry, = self.told(1, "--module", "samples/example.table")["inputs"]
        self.assertEqual(entry["errors"][0], {"number": 13, "words": DEFAULT, "file": 1, "begin": 14, "end": 15, "line": 1, "column": 15,
                                              "script": {"name": "samples/example.star"}})

    def test_refusals(self):
        told = self.told(2, "samples/damaged.table", "samples/cut.table", "samples/missing.table", "samples/unsound.table")
        damaged, cut, missing, unsound = told["inputs"]
        self.assertEqual(damaged["refused"], {"number": 72, "words": "the sum of a block is wrong, so a byte is damaged", "block": 1})
        self.assertEqual(cut["refused"]["hint"], "its 1500 bytes are not a multiple of 512, so this is not a whole table file")
        self.assertEqual(missing, {"name": "samples/missing.table", "kind": "table", "verdict": "unreadable", "failed": "No such file or directory"})
        self.assertEqual(unsound["refused"], {
            "number": 3, "words": "a record of the table is unsound", "node": 0, "kind": {"number": 11, "name": "Assign"},
            "reason": "it has 1 child, and Assign takes 2"})
        self.assertEqual(told["totals"], {"files": 4, "with_errors": 0, "refused": 3, "not_read": 1, "errors": 0})
        self.assertEqual(told["status"], 2)

    def test_earlier(self):
        entry, = self.told(1, "samples/whole.table")["inputs"]
        earlier = {error["number"]: error["earlier"] for error in entry["errors"] if "earlier" in error}
        self.assertEqual(earlier, {22: {"node": 18, "file": 1, "begin": 79, "end": 82, "line": 3, "column": 10},
                                   11: {"node": 51, "file": 1, "begin": 251, "end": 256, "line": 10, "column": 19}})

    def test_a_file_that_is_longer_than_what_is_read(self):
        entry, = self.told(2, "-", input=support.sample("clean.table") + bytes(100000))["inputs"]
        self.assertEqual((entry["bytes"], entry["whole"]), (numbers.FILE_BYTES + 1, False))

    def test_every_input_has_a_line(self):
        ran = self.run_ducat("check", "--format", "json", "samples/clean.table", "samples/example.table")
        lines = ran.out.splitlines()
        self.assertEqual(len(lines), 4)
        self.assertEqual(json.loads(lines[1].rstrip(","))["name"], "samples/clean.table")

    def test_no_input(self):
        os.mkdir(self.at("empty"))
        ran = self.run_ducat("check", "--json", self.at("empty"))
        self.assertEqual((ran.status, json.loads(ran.out)["inputs"]), (2, []))


class Blocks(CommandTest):
    """70 to 73 name the block."""

    def refused(self, data):
        ran = self.run_ducat("check", "--json", "-", input=data)
        return json.loads(ran.out)["inputs"][0]["refused"]

    def test_each_block_of_a_file(self):
        take = support.sample("take.table")
        for block in range(5):
            bad = bytearray(take)
            bad[512 * block + 20] ^= 1
            self.assertEqual((self.refused(bytes(bad))["number"], self.refused(bytes(bad))["block"]), (72, block))
            self.assertEqual([self.refused(take[:512 * block + cut])[key] for cut in (0, 1, 511) for key in ("number", "block")],
                             [70, block] * 3)

    def test_number_and_used_bytes(self):
        for at, value, number in ((512, 7, 71), (514, 1, 73)):
            bad = bytearray(support.sample("take.table"))
            bad[at] = value
            total = sum((p + 1) * byte for p, byte in enumerate(bad[512:1020]))
            bad[1020:1024] = struct.pack("<I", total)
            told = self.refused(bytes(bad))
            self.assertEqual((told["number"], told["block"]), (number, 1))

    def test_counts_and_dialect(self):
        self.assertEqual(self.refused(table.file_of(b"", b"abc"))["reason"], "it counts 0 nodes and 3 name bytes; 1 to 2100 and 0 to 8064 are allowed")
        told = self.refused(table.file_of(support.library().read(support.sample("clean.table")).table, support.library().read(
            support.sample("clean.table")).names, bytes([1, 1, 1, 0, 0, 3, 1, 0, 0])))
        self.assertEqual((told["number"], told["reason"]), (5, "the bytes are 1 1 1 0 0 3 1 0 0"))


if __name__ == "__main__":
    unittest.main()
