"""Why a table is refused with 3: a test for each rule of a record, and that a reason is found exactly where the library refuses."""
import random
import struct
import sys
import unittest

import support
from ducatmuffin import reasons, table
from ducatmuffin.library import Refusal

POSITION = 2 ** 31 - 1
OLD = "bytes 18 and 19 are 0 in every record: the file is older than source file numbers and must be exported again"
# a tree in words, the node that is refused, and the reason
REASONS = [
    # fields
    ("(Break kind=13)", 0, "13 is not a kind"),
    ("(Break:1)", 0, "the detail is 1, and Break has at most 0"),
    ("(Def:2 (Int) (Break))", 0, "the detail is 2, and Def has at most 1"),
    ("(Def (Normal:4 a) (Break))", 1, "the detail is 4, and Normal has at most 3"),
    ("(Break x)", 0, "the name length is 1, and Break has no name"),
    ("(Break name=1+0)", 0, "the name start is 1, and Break has no name"),
    ("(OtherSimple (Identifier))", 1, "the name length is 0, and must be 1 to 255"),
    ("(OtherSimple (Identifier " + "n" * 256 + "))", 1, "the name length is 256, and must be 1 to 255"),
    ("(OtherSimple (Identifier name=0+4))", 1, "the name ends at byte 4 of the names, and there are 0"),
    ("(OtherSimple (Identifier x name=4294967295+1))", 1, "the name ends at byte 4294967296 of the names, and there are 1"),
    ("(Break span=9-4)", 0, "the span begins at 9 and ends before that, at 4"),
    (f"(Break span=0-{POSITION + 1})", 0, f"the span ends at {POSITION + 1}, and the last position is {POSITION}"),
    ("(Break pos=7)", 0, "the name position is 7, and only Named has one"),
    (f"(OtherSimple (Call (Int) (Named ab pos={POSITION - 1} (Int))))", 3, f"the name ends at {POSITION + 1}, and the last position is {POSITION}"),
    # the subtree
    ("(Break size=0)", 0, "the subtree size is 0, and a record counts itself"),
    ("(Break size=2)", 0, "the subtree of 2 records passes the table's end: 1 are left"),
    ("(Identifier x)", 0, "node 0 is an expression, and must be a statement"),
    ("(Normal x)", 0, "node 0 is a parameter, and must be a statement"),
    ("(Positional (Int))", 0, "node 0 is an argument, and must be a statement"),
    ("(Statements size=1 (Break))", 0, "the subtree of node 0 has 1 records, and must have all 2"),
    # children
    ("(Statements (Break) (Break size=0))", 0, "child 2 has the subtree size 0"),
    ("(Statements (If size=4 (Int) (Break)))", 0, "child 1 passes the end of its parent's subtree by 1 records"),
    ("(For (Int) (Int))", 0, "it has 2 children, and For takes 3"),
    ("(Assign:1 (Int) (Int))", 0, "it has 2 children, and Assign with detail 1 takes 3"),
    ("(Return (Int) (Int))", 0, "it has 2 children, and Return takes 0 to 1"),
    ("(Break (Int))", 0, "it has 1 child, and Break takes 0"),
    ("(Def)", 0, "it has 0 children, and Def takes 1 or more"),
    ("(OtherSimple (Slice (Int) (Int) (Int) (Int) (Int)))", 1, "it has 5 children, and Slice takes 1 to 4"),
    ("(OtherSimple (DictComprehension (Int)))", 1, "it has 1 child, and DictComprehension takes 2 or more"),
    ("(OtherSimple (Dict (Int) (Int) (Int)))", 1, "it has 3 children, and Dict takes an even number"),
    ("(Def (Normal:3 a (Int)) (Break))", 1, "it has 1 child, and Normal with detail 3 takes 2"),
    ("(Def (ArgsParam:1 a) (Break))", 1, "it has 0 children, and ArgsParam with detail 1 takes 1"),
    ("(For (Int) (Break) (Break))", 0, "child 2 of 3, node 2, is not an expression"),
    ("(If (Int) (Int))", 0, "child 2 of 2, node 2, is not a statement"),
    ("(Def (Int) (Break))", 0, "child 1 of 2, node 1, is not a parameter"),
    ("(OtherSimple (Call (Int) (Int)))", 1, "child 2 of 2, node 3, is not an argument"),
    ("(Statements (Return kind=99 (Int)))", 0, "child 1 of 1, node 1, is not a statement"),
    # the source file number
    ("(Statements file=1 (Break))", 0, "the source file number is 1, and a root Statements has 0"),
    ("(Statements file=1)", 0, "the source file number is 1, and a root Statements has 0"),
    ("(Break file=1000)", 0, "the source file number is 1000, and must be 1 to 999"),
    ("(If file=0 (Int) (Break))", 0, "the source file number is 0, and must be 1 to 999"),
    ("(Statements (Break) (Break file=0))", 2, "the source file number is 0, and must be 1 to 999"),
    ("(Statements (Break) (Break file=1000))", 2, "the source file number is 1000, and must be 1 to 999"),
    ("(Statements (Statements file=0 (Break)))", 1, "the source file number is 0, and must be 1 to 999"),
    ("(Statements (Break) (If file=7 (Int file=7) (Break)))", 4, "the source file number is 1, and that of its top-level statement, node 2, is 7"),
    ("(If (Int) (Break file=2))", 2, "the source file number is 2, and that of its top-level statement, node 0, is 1"),
    ("(Statements (Break) (Break file=0) (Break (Int)))", 2, "the source file number is 0, and must be 1 to 999"),
    # all of them 0: older than source file numbers, where the record breaks no other rule
    ("(Break file=0)", 0, OLD),
    ("(If file=0 (Int file=0) (Break file=0))", 0, OLD),
    ("(Statements (Break file=0) (Break file=0))", 1, OLD),
    ("(Statements (Statements file=0 (Break file=0)))", 1, OLD),
    ("(Statements (Break:1 file=0) (Break file=0))", 1, "the detail is 1, and Break has at most 0"),
    ("(Statements (Break file=0) (Break:1 file=0))", 1, OLD),
]


@support.each(lambda self, text, node, reason: self.refused(text, node, reason), REASONS, "reason")
class Reasons(unittest.TestCase):
    def refused(self, text, node, reason):
        made = table.table_of(table.trees(text))
        answer = support.library().table(*made)
        self.assertEqual((answer.number, answer.node), (3, node))
        self.assertEqual(reasons.unsound(*made, node), reason)

    def test_every_rule_has_a_test(self):
        """Each line of the module that gives a reason is reached by one of those above."""
        reached = set()

        def trace(frame, event, _):
            if frame.f_code.co_filename != reasons.__file__:
                return None
            reached.add(frame.f_lineno)
            return trace

        sys.settrace(trace)
        try:
            for text, node, _ in REASONS:
                reasons.unsound(*table.table_of(table.trees(text)), node)
        finally:
            sys.settrace(None)
        with open(reasons.__file__, encoding="utf-8") as file:
            lines = file.read().splitlines()
        part = range(lines.index("def source_file(records, node):"), lines.index("# ---- parameter lists"))
        giving = [at + 1 for at in part if lines[at].lstrip().startswith(("return f\"", "return \"", "return OLD", "return None if"))]
        self.assertGreater(len(giving), 15)
        self.assertEqual([lines[at - 1] for at in giving if at not in reached], [])

    def test_the_words_beside_a_refusal(self):
        self.assertEqual(str(reasons.Why("s", node=3, kind=11)), ", node 3, kind 11 Assign: s")
        self.assertEqual(str(reasons.Why(node=3, kind=13)), ", node 3, kind 13, which is not a kind")
        self.assertEqual(str(reasons.Why(block=2)), ", block 2")


class Agreement(unittest.TestCase):
    """A reason is found for the record that the library names, and for none before it."""

    def held(self, records, names):
        answer = support.library().table(records, names)
        refused = answer.node if type(answer) is Refusal and answer.number == 3 else None
        last = len(records) // 24 if refused is None else refused
        for node in range(last):
            self.assertIsNone(reasons.unsound(records, names, node), (records.hex(), node))
        if refused is not None:
            self.assertIsNotNone(reasons.unsound(records, names, refused), (records.hex(), refused))
        return refused is not None

    def test_changed_samples(self):
        draw, refused = random.Random(31), 0
        for name in support.samples(".table"):
            answer = support.library().read(support.sample(f"{name}.table"))
            if type(answer) is Refusal:
                continue
            self.assertFalse(self.held(answer.table, answer.names))
            for _ in range(120):
                changed = bytearray(answer.table)
                for _ in range(draw.choice((1, 1, 2))):
                    at = 24 * draw.randrange(len(changed) // 24)
                    self.change(draw, changed, at)
                refused += self.held(bytes(changed), answer.names)
        self.assertGreater(refused, 500)

    def change(self, draw, changed, at):
        form, offset = draw.choice((("B", 0), ("B", 1), ("<H", 2), ("<I", 4), ("<I", 8), ("<I", 12), ("<H", 16), ("<H", 18), ("<I", 20)))
        size = struct.calcsize(form)
        least = [0, 1, 2, 3, 255, 256, 999, 1000, changed[at + offset] ^ 1]
        values = least + list(reasons.KINDS) if offset == 0 else least + [2 ** (8 * size) - 1, 2 ** (8 * size - 1)]
        value = draw.choice(values) % 2 ** (8 * size)
        struct.pack_into(form, changed, at + offset, value)

    def test_random_tables(self):
        draw, refused = random.Random(3), 0
        kinds = list(reasons.KINDS)
        for turn in range(3000):
            many, files = draw.randrange(1, 7), ((0, 1), (0, 1), (0, 1, 2, 999, 1000), (0,))[turn % 4]
            records = []
            for at in range(many):
                kind = draw.choice((1, 2, 4, 8, 10)) if at == 0 else draw.choice(kinds)
                named = kind in reasons.NAMED
                records.append(table.Record(kind, draw.choice((0, 0, 0, 1, 2, 3)), int(named), 0, at, at + 1,
                                            draw.choice((many - at, 1, 1, 2, 3)), draw.choice(files) if turn % 4 > 1 else int(at > 0 or kind > 1), 0))
            refused += self.held(table.encode(records), b"x")
        self.assertTrue(2000 < refused < 3000)


if __name__ == "__main__":
    unittest.main()
