"""ducat check --against DIALECT: what a move removes and leaves, moves that are not an opening, lists that are not tied, and every form of output."""
import itertools
import json
import unittest

import support
from command import STEP, CommandTest
from ducatmuffin import against, dialects, numbers, table

PASS = "module pass (10 to 19 and 50 to 61):\n"
OTHERS = "other jobs, in the new dialect:\n"
NOT_TIED = "enable_top_level_stmt opens and there were errors, so no theorem relates the two lists"
ALL_NINE = ("enable_def, enable_lambda, enable_load, enable_keyword_only_arguments, enable_positional_only_arguments, enable_types, "
            "enable_load_reexport, enable_top_level_stmt, enable_f_strings")
# each of the six errors that an opening may remove, a 55 that stays, and a call that only another job refuses
MANY = """dialect: {}
(Statements (Def (Normal a) (Slash) (NoArgs) (Normal b) (OtherSimple))
 (Load) (OtherSimple (Lambda (Int))) (OtherSimple (Ellipsis)) (Break))"""
OUT = {"50": 3, "51": 4, "52": 0, "59": 2, "60": 5, "61": 1}  # the number that each switch removes, and its place in the row
EVERY = [bytes(row) for row in itertools.product(*((0, 1, 2) if at == 5 else (0, 1) for at in range(9)))]


def digits(row):
    return "".join(map(str, row))


def body(opens, errors, taken, left, others=(), total=None):
    """What is printed for a move."""
    lines = "".join(f"{error}\n" for error in errors)
    return f"opens {opens}\n{PASS}{lines}taken out {taken}, left {left}\n{OTHERS}" + "".join(f"{error}\n" for error in others) \
        + f"other errors {len(others) if total is None else total}\n"


class Moves(CommandTest):
    def many(self, row):
        return self.made("many.table", MANY.format(row))

    def test_all_six_are_taken_out_in_their_order(self):
        path = self.many("000000010")
        before = self.run_ducat("check", "--module", path).out.splitlines()[1:-1]
        self.assertEqual(sorted(line.split()[0] for line in before), ["50", "51", "52", "55", "59", "60", "61"])
        left = [line for line in before if not line.startswith("55")]
        opens = ALL_NINE.replace("enable_top_level_stmt, ", "")
        self.says(1, f"nodes {self.nodes(path)}\n{body(opens, left, 6, 1)}", "", "check", "--against", "all", path)

    def nodes(self, path):
        return self.run_ducat("check", path).out.split()[1]

    def test_each_switch_takes_out_its_own_number(self):
        path = self.many("000000010")
        before = self.run_ducat("check", "--module", path).out.splitlines()[1:-1]
        for at, name in enumerate(against.SWITCHES):
            if at == against.TOP_LEVEL:
                continue
            row = bytearray(9)
            row[at], row[7] = 1, 1
            out = [line for line in before if OUT.get(line.split()[0]) == at]
            with self.subTest(name):
                self.says(1, f"nodes {self.nodes(path)}\n{body(name, out, len(out), 7 - len(out))}", "", "check", "--against", digits(row), path)

    def test_from_parse_only_to_enable_nothing_is_taken_out(self):
        path = self.many("000001010")
        self.says(1, f"nodes {self.nodes(path)}\n{body('enable_types', [], 0, 6)}", "", "check", "--against", "000002010", path)

    def test_the_same_dialect_opens_nothing(self):
        self.says(1, f"nodes 6\n{body('nothing', [], 0, 2)}", "", "check", "--against", "standard", "samples/example.table")
        self.says(0, f"nodes 62\n{body('nothing', [], 0, 0)}", "", "check", "--against", "all", "samples/take.table")

    def test_a_file_without_a_dialect_and_a_move_to_none_mean_extended(self):
        path = self.made("none.table", "(Statements (OtherSimple))")
        self.says(0, f"nodes 2\n{body('nothing', [], 0, 0)}", "", "check", "--against", "none", path)
        self.says(0, f"nodes 2\n{body('nothing', [], 0, 0)}", "", "check", "--against", "extended", path)
        self.says(2, "nodes 2\nno opening, closes enable_keyword_only_arguments, enable_types, enable_top_level_stmt\n", "",
                  "check", "--against", "standard", path)

    def test_no_opening_names_what_closes_alone(self):
        path = self.made("closes.table", "dialect: 100000000\n(Statements (Break))")
        self.says(2, "nodes 2\nno opening, closes enable_def\n", "", "check", "--against", "011112111", path)

    def test_the_order_is_that_of_the_nine_bytes(self):
        for first, second in (("standard", "extended"), ("extended", "all"), ("standard", "all")):
            up = against.Move(dialects.of(first), dialects.of(second))
            down = against.Move(dialects.of(second), dialects.of(first))
            self.assertEqual((up.closes, down.opens), ([], []))
            self.assertEqual(up.opens, down.closes)
            self.assertNotEqual(up.opens, [])


class TopLevel(CommandTest):
    def test_a_break_below_an_if(self):
        """The smallest module whose lists are not tied: 54 becomes 55."""
        path = self.made("if.table", "dialect: Standard\n(If (Int) (Break))")
        self.says(1, f"nodes 3\nopens enable_top_level_stmt\n{PASS}{NOT_TIED}: before 1, after 1\n{OTHERS}other errors 0\n", "",
                  "check", "--against", "111000110", path)

    def test_errors_that_go(self):
        self.says(0, f"nodes 5\nopens enable_keyword_only_arguments, enable_types, enable_top_level_stmt\n{PASS}{NOT_TIED}: before 1, after 0\n"
                  f"{OTHERS}other errors 0\n", "", "check", "--against", "extended", "samples/toplevel-standard.table")

    def test_no_errors_stay_no_errors(self):
        self.says(0, f"nodes 34\n{body('enable_keyword_only_arguments, enable_types, enable_top_level_stmt', [], 0, 0)}", "",
                  "check", "--against", "extended", "samples/clean.table")


class Others(CommandTest):
    def test_types_that_open_bring_40(self):
        path = self.made("type.table", "dialect: Standard\n(Assign:1 (Identifier x) (Int) (Int))")
        self.assertIn("\n45 ", self.run_ducat("check", path).out)
        self.says(1, f"nodes 4\n{body('enable_types', [], 0, 0, ['40 1 2 3'])}", "", "check", "--against", "111002100", path)

    def test_status_1_for_another_job_alone(self):
        path = self.made("call.table", "dialect: 000000010\n(Statements (OtherSimple (Lambda (Int))) (OtherSimple (Call (Identifier f) "
                         "(Named a (Int)) (Positional (Int)))))")
        ran = self.run_ducat("check", "--against", "010000010", path)
        self.assertEqual(ran.status, 1)
        self.assertIn("taken out 1, left 0\n", ran.out)
        self.assertRegex(ran.out, r"in the new dialect:\n20 1 \d+ \d+\nother errors 1\n$")

    def test_a_list_of_parameters_that_the_module_pass_does_not_reach(self):
        """Below a top-level `if` that the dialect does not permit, the module pass checks no def; the parameter job does."""
        path = self.made("below.table", "dialect: Standard\n(If (Int) (Def (Normal a) (Normal a) (OtherSimple)))")
        ran = self.run_ducat("check", "--against", "standard", path)
        self.assertIn("taken out 0, left ", ran.out)
        self.assertEqual(ran.status, 1)


class Forms(CommandTest):
    def test_the_targets_of_comprehensions(self):
        """A table does not mark them, so a script is checked for them here as without --against."""
        self.put("target.star", b"x = [a for 1 in b]\n")
        ran = self.run_ducat("check", "--against", "all", self.at("target.star"))
        self.assertEqual((ran.status, ran.out.splitlines()[-1]), (1, "other errors 1"))
        self.assertIn(":1:12: 30 ", ran.out)

    def test_a_script(self):
        path = self.put("a.star", "def f(a, *, b):\n    return lambda: a\n")
        self.says(0, f"nodes {self.nodes(path)}\nopens enable_keyword_only_arguments\n{PASS}"
                  f"{path}:1:10: 50 {numbers.WORDS[50]}\n    def f(a, *, b):\n             ^\ntaken out 1, left 0\n{OTHERS}other errors 0\n", STEP,
                  "check", "--dialect", "110000000", "--against", "110100000", path)

    def nodes(self, path):
        return self.run_ducat("check", path).out.split()[1]

    def test_explain(self):
        path = self.made("x.table", "dialect: 000000000\n(OtherSimple (Lambda (Int)))")
        said = self.run_ducat("check", "--explain", "--against", "010000000", path).out
        self.assertRegex(said, r"^nodes 3, from 000000000 to 010000000\nopens enable_lambda\n")
        self.assertIn(f": {numbers.WORDS[61]}", said)
        self.assertTrue(said.endswith("other errors 0: the whole checker accepts: the module pass, and every job on every node that it fits\n"))
        said = self.run_ducat("check", "--explain", "--against", "standard", "samples/toplevel.table").out
        self.assertTrue(said.startswith("nodes 5, from extended (the file has none) to standard\nno opening, closes "))

    def test_quiet(self):
        for status, dialect, name in ((0, "all", "take"), (1, "all", "whole"), (2, "standard", "toplevel"), (2, "all", "cut"), (2, "999999999", "clean")):
            self.says(status, "", "", "check", "--quiet", "--against", dialect, f"samples/{name}.table")

    def test_several_inputs_and_jobs(self):
        names = [f"samples/{name}.table" for name in support.samples(".table")]
        one = self.run_ducat("check", "--against", "extended", *names, "samples/missing.table")
        self.assertEqual(one.status, 2)
        self.assertRegex(one.out, r"\nfiles 19, with errors \d+, refused 5, not read 1, errors \d+, no opening [1-9]\d*\n$")
        self.assertEqual(one, self.run_ducat("check", "--jobs", "3", "--against", "extended", *names, "samples/missing.table"))

    def test_bad_only(self):
        self.says(1, None, "", "check", "--bad-only", "--against", "all", "samples/take.table", "samples/whole.table")
        self.says(0, "files 2, with errors 0, refused 0, not read 0, errors 0, no opening 0\n", "", "check", "--bad-only", "--against", "all",
                  "samples/take.table", "samples/clean.table")

    def test_json(self):
        path = self.made("x.table", "dialect: 000000000\n(Statements (OtherSimple (Lambda (Int))) (Break))")
        told = json.loads(self.run_ducat("check", "--json", "--against", "010000000", path).out)
        self.assertEqual((told["against"]["name"], told["module"], told["status"]), ("010000000", False, 1))
        self.assertEqual(told["totals"]["no_opening"], 0)
        entry = told["inputs"][0]
        self.assertEqual((entry["verdict"], entry["opens"], entry["closes"]), ("errors", ["enable_lambda"], []))
        self.assertEqual((entry["tied"], entry["before"], entry["left"], entry["dialect"]["name"]), (True, 2, 1, "000000000"))
        self.assertEqual([error["number"] for error in entry["taken_out"]], [61])
        self.assertEqual([error["number"] for error in entry["errors"]], [55])

    def test_json_where_lists_are_not_tied_and_where_it_is_no_opening(self):
        told = json.loads(self.run_ducat("check", "--json", "--against", "extended", "samples/toplevel-standard.table", "samples/take.table").out)
        untied, closed = told["inputs"]
        self.assertEqual((untied["tied"], untied["before"], untied["left"], untied["taken_out"]), (False, 1, 0, None))
        self.assertEqual((closed["verdict"], closed["opens"]), ("no opening", []))
        self.assertIn("enable_positional_only_arguments", closed["closes"])
        self.assertNotIn("errors", closed)
        self.assertEqual((told["status"], told["totals"]["no_opening"]), (2, 1))

    def test_refused_and_unreadable(self):
        self.says(2, "refused 72\n", None, "check", "--against", "all", "samples/damaged.table")
        self.says(2, "refused 5\n", "ducat: samples/clean.table: refused 5: the dialect bytes are not a dialect, or the edition is neither 1 nor 2, or there is an edition and no dialect: the bytes are 2 0 0 0 0 0 0 0 0\n",
                  "check", "--against", "200000000", "samples/clean.table")
        self.says(2, "", "ducat: samples/missing.table: No such file or directory\n", "check", "--against", "all", "samples/missing.table")

    def test_words_that_do_not_fit(self):
        self.says(2, "", "ducat: --against: wide is not a dialect: standard, extended, all, none or nine digits\n",
                  "check", "--against", "wide", "samples/clean.table")
        self.says(2, "", "ducat: --against runs the module pass and the other jobs: it cannot be used with --module\n",
                  "check", "--module", "--against", "all", "samples/clean.table")


class Lists(unittest.TestCase):
    def error(self, number):
        return support.library().module(*self.table("(Break)"), b"").errors[0]._replace(number=number)

    def table(self, text):
        made = table.read_text(text)
        loaded = support.library().read(made.file())
        return loaded.table, loaded.names

    def test_what_a_list_lacks(self):
        a, b, c = (self.error(number) for number in (50, 51, 52))
        self.assertEqual(against.lacking([a, b, a, c], [b, c]), [a, a])
        self.assertEqual(against.lacking([a], [a]), [])

    def test_a_list_that_is_no_part_of_the_other_is_a_fault(self):
        a, b = self.error(50), self.error(51)
        for first, second in (([], [a]), ([a], [b]), ([a, b], [b, a]), ([a], [a, a])):
            with self.assertRaises(AssertionError):
                against.lacking(first, second)

    def test_both_clauses_on_every_pair_of_dialects_of_one_module(self):
        """39,366 pairs: the library's lists agree with the theorems."""
        loaded = self.table(MANY.format("000000000").partition("\n")[2])
        lists = {row: [against.place(error) for error in support.library().module(*loaded, row).errors] for row in EVERY}
        pairs = 0
        for first, second in itertools.product(EVERY, repeat=2):
            if any(a > b for a, b in zip(first, second)):
                continue
            pairs += 1
            if first[7] == second[7]:
                out = {number for number, at in OUT.items() if not first[at] and second[at]}
                self.assertEqual(lists[second], [error for error in lists[first] if str(error[0]) not in out])
            if not lists[first]:
                self.assertEqual(lists[second], [])
        self.assertEqual((len(EVERY), pairs), (768, 39366))


if __name__ == "__main__":
    unittest.main()
