"""The module `library`: every function on accepted and refused inputs, buffers of every length, threads, versions."""
import hashlib
import os
import random
import re
import shutil
import subprocess
import tempfile
import threading
import unittest
import unittest.mock

import support
from ducatmuffin import __version__, library, numbers, table
from ducatmuffin.library import (Bound, Called, Checked, Edition, Error, Errors, Loaded, Namesake, Namesakes, Params, Refusal, Rescued, Shaped,
                                 Targeted, Written)


def made(text):
    """Table and names of a tree in words."""
    return table.parse_text(text)[:2]


def job(name, *words, **others):
    return getattr(support.library(), name)(*words, **others)


BREAK = made("(Break)")
DEF = made("(Def (Normal a) (Slash) (Normal:2 b (Int)) (NoArgs) (Normal c) (KwArgsParam k) (Break))")
CALL = made("(OtherSimple (Call (Identifier f) (Positional (Int)) (Named b (Int)) (ArgsArg (Int)) (KwArgsArg (Int))))")
BOTH = made("(Statements (Def (Normal a) (Normal:2 b (Int)) (KwArgsParam k) (Break))"
            " (OtherSimple (Call (Identifier f) (Named c (Int)) (Named a (Int)))))")
TYPE = made("(Def:1 (Op:1 (Identifier a) (Index (Identifier list) (Identifier b))) (Break))")


def summed(data):
    """A file with the sum of block 0 updated."""
    data[508:512] = sum(at * byte for at, byte in enumerate(data[:508], 1)).to_bytes(4, "little")
    return bytes(data)


def refusal(number, *carried, file=None):
    """A refusal; what has a span has a source file number, 1 if no other is given."""
    return Refusal(number, numbers.WORDS[number], *carried, file=1 if file is None and len(carried) > 1 else file)


class Jobs(unittest.TestCase):
    """Each function, accepted and refused."""

    def test_table(self):
        self.assertEqual(job("table", *BREAK), Checked())
        self.assertEqual(job("table", b"", b""), refusal(1))
        self.assertEqual(job("table", bytes(25), b""), refusal(1))
        self.assertEqual(job("table", BREAK[0], bytes(8065)), refusal(2))
        self.assertEqual(job("table", *made("(Statements (Break size=0))")), refusal(3, 0))
        self.assertEqual(job("table", *made("^65<(Statements >^65<)>")), refusal(4, 64))

    def test_params(self):
        expected = Params(range(0, 1), range(1, 2), range(2, 2), range(2, 3), range(3, 4), 4, bytes([1, 2, 3, 5]))
        self.assertEqual(job("params", *DEF, 0), expected)
        self.assertEqual(job("params", *DEF, 1), refusal(6))
        self.assertEqual(job("params", *made("(Def (Slash) (Break))"), 0), refusal(10, 1, 1, 2))
        self.assertEqual(job("params", *made("(Def (Normal a) (Normal b) (Normal a) (Break))"), 0), refusal(11, 3, 3, 4, 1))

    def test_params_room(self):
        for room in range(6):
            self.assertEqual(job("params", *DEF, 0, room=room), refusal(7))
        for room in (6, 7, 2100, 2101, 100000):
            self.assertEqual(job("params", *DEF, 0, room=room), job("params", *DEF, 0))

    def test_call(self):
        self.assertEqual(job("call", *CALL, 1), Called(1, 1, 2, 3))
        self.assertEqual(job("call", *made("(OtherSimple (Call (Int)))"), 1), Called(0, 0, None, None))
        self.assertEqual(job("call", *CALL, 0), refusal(6))
        twice = made("(OtherSimple (Call (Int) (Named a pos=70 (Int)) (Named a pos=90 (Int))))")
        self.assertEqual(job("call", *twice, 1), refusal(22, 5, 90, 91, 3))

    def test_bind(self):
        self.assertEqual(job("bind", *BOTH, 8, 1), Bound((12, 0, 0), (2, 0)))
        self.assertEqual(job("bind", *BOTH, 1, 8), refusal(6))
        self.assertEqual(job("bind", *BOTH, 8, 1, room=4), refusal(7))
        for room in (5, 6, 5 * 8400 + 1):
            self.assertEqual(job("bind", *BOTH, 8, 1, room=room), Bound((12, 0, 0), (2, 0)))
        less = made("(Statements (Def (Normal a) (Break)) (OtherSimple (Call (Identifier f))))")
        self.assertEqual(job("bind", *less, 5, 1).number, 84)

    def test_namesakes(self):
        called = "(Call (Identifier f) (Positional (Identifier b)) (Positional (Dot a (Identifier z))) (Positional (Int)))"
        both = made(f"(Statements (Def (Normal a) (Normal b) (Slash) (ArgsParam c) (Break)) (OtherSimple {called}))")
        found = Namesakes((Namesake(10, 0, 1, 12), Namesake(12, 1, 0, 10)))
        self.assertEqual(job("namesakes", *both, 8, 1), found)
        self.assertEqual(job("namesakes", *both, 1, 8), refusal(6))
        for room in range(12):
            self.assertEqual(job("namesakes", *both, 8, 1, room=room), refusal(7))
        self.assertEqual(job("namesakes", *both, 8, 1, room=12), found)
        self.assertEqual(job("namesakes", *BOTH, 8, 1), Namesakes(()))
        less = made("(Statements (Def (Normal a) (Break)) (OtherSimple (Call (Identifier f))))")
        self.assertEqual(job("namesakes", *less, 5, 1), job("bind", *less, 5, 1))

    def test_target(self):
        tuples = made("(Assign (Tuple (Identifier a) (Tuple (Identifier b) (Dot c (Int)))) (Int))")
        self.assertEqual(job("target", *tuples, 1), Targeted(3))
        self.assertEqual(job("target", *tuples, 0), refusal(6))
        self.assertEqual(job("target", *made("(Assign (Int) (Int))"), 1), refusal(30, 1, 1, 2))

    def test_assignment(self):
        self.assertEqual(job("assignment", *made("(Assign (Identifier a) (Int))"), 0), Targeted(1))
        self.assertEqual(job("assignment", *made("(AssignModify (List) (Int))"), 0), refusal(31, 1, 1, 2))

    def test_type(self):
        self.assertEqual(job("type", *TYPE, None, 1, 1), Shaped(bytes([6, 2, 3, 0, 2])))
        self.assertEqual(job("type", *TYPE, numbers.DIALECTS["all"], 1, 2), Shaped(bytes([2])))
        self.assertEqual(job("type", *TYPE, numbers.DIALECTS["standard"], 1, 1), refusal(45, 1, 1, 2))
        self.assertEqual(job("type", *TYPE, bytes(8), 1, 1), refusal(5))
        for room in range(5):
            self.assertEqual(job("type", *TYPE, None, 1, 1, room=room), refusal(7))
        for room in (5, 6, 3000):
            self.assertEqual(job("type", *TYPE, None, 1, 1, room=room), job("type", *TYPE, None, 1, 1))

    def test_type_leaves_nothing_of_an_earlier_one(self):
        job("type", *made("(Def:1 (Tuple (Identifier a) (Identifier a) (Identifier a) (Identifier a)) (Break))"), None, 1, 1)
        self.assertEqual(job("type", *TYPE, None, 1, 1).shapes, bytes([6, 2, 3, 0, 2]))

    def test_module(self):
        held = job("read", support.sample("example.table"))
        expected = Errors(2, (Error(13, 1, 14, 15), Error(55, 1, 20, 25)))
        self.assertEqual(job("module", held.table, held.names, held.dialect), expected)
        self.assertEqual(job("module", held.table, held.names, bytes([9] * 9)), refusal(5))
        for room, stored in ((0, 0), (3, 0), (4, 1), (7, 1), (8, 2), (9, 2), (50000, 2)):
            self.assertEqual(job("module", held.table, held.names, held.dialect, room=room), Errors(2, expected.errors[:stored]))

    def test_audit(self):
        held = job("read", support.sample("whole.table"))
        answer = job("audit", held.table, held.names, held.dialect, held.effective_edition)
        lines = support.sample("whole.all").decode().split("\n")
        self.assertEqual(answer.total, len(answer.errors))
        self.assertEqual(sorted(f"{error.number} {error.file} {error.begin} {error.end}" for error in answer.errors), sorted(lines[1:-2]))
        self.assertTrue(all(error.node is not None for error in answer.errors))
        for room, stored in ((0, 0), (4, 0), (5, 1), (9, 1), (10, 2)):
            self.assertEqual(job("audit", held.table, held.names, held.dialect, 1, room=room).errors, answer.errors[:stored])

    def test_the_most_errors(self):
        held = made("(Statements ^2099<(Break)>)")
        answer = job("module", *held, None)
        self.assertEqual((answer.total, len(answer.errors), answer.errors[-1]), (2099, 2099, Error(55, 1, 2099, 2100)))
        self.assertEqual(job("audit", *held, None, 1).errors[-1], Error(55, 1, 2099, 2100, 2099))

    def test_write_and_read(self):
        for name in support.samples(".table"):
            data = support.sample(f"{name}.table")
            held = job("read", data)
            if held.accepted:
                with self.subTest(name):
                    self.assertEqual(job("write", held.table, held.names, held.dialect, held.edition), Written(data))
                    self.assertEqual(job("write", held.table, held.names, held.dialect, held.edition, room=len(data) - 1), refusal(7))
                    self.assertEqual(job("write", held.table, held.names, held.dialect, held.edition, room=len(data)), Written(data))

    def test_editions_of_types(self):
        """Edition 2 reads a path that ends in `type` as a Path; anything but 1 and 2 is 5, and nothing is taken for 1."""
        held = made("(Assign:1 (Identifier a) (Dot type (Identifier x)) (Int))")
        self.assertEqual(job("type", *held, None, 1, 2).number, 44)
        self.assertEqual(job("type", *held, None, Edition.TWO, 2), Shaped(bytes([2, 0])))
        self.assertEqual([error.number for error in job("audit", *held, None, Edition.ONE).errors], [44])
        self.assertEqual(job("audit", *held, None, 2), Errors(0, ()))
        for edition in (0, 3, 255, 256, 257, 258, 65537, 2 ** 32 - 2):
            self.assertEqual(job("type", *held, None, edition, 2), refusal(5))
            self.assertEqual(job("type", *held, None, edition, 400), refusal(5))
            self.assertEqual(job("audit", *held, None, edition), refusal(5))
            self.assertEqual(job("write", *held, numbers.DIALECTS["all"], edition), refusal(5))
        for edition in (-1, 2 ** 32 - 1, 2 ** 32, 2 ** 32 + 1):
            for words in (("type", *held, None, edition, 2), ("audit", *held, None, edition), ("write", *held, numbers.DIALECTS["all"], edition)):
                with self.assertRaises(ValueError):
                    job(*words)
        for words in (("type", *held, None, None, 2), ("audit", *held, None, None), ("audit", *held, None), ("write", *held, None)):
            with self.assertRaises(TypeError):
                job(*words)

    def test_the_word_for_no_edition(self):
        """By the C interface itself: 5 for the type job and the audit, and no byte for the writer."""
        library, held, row = support.library(), made("(Break)"), numbers.DIALECTS["all"]
        lent = (held[0], len(held[0]), held[1], len(held[1]), row, len(row), numbers.NONE)
        own = library._buffers
        self.assertEqual(library._type(*lent, 0, own.file_at, 9, own.out_at), 5)
        self.assertEqual(library._audit(*lent, own.words_at, 9, own.out_at), 5)
        self.assertEqual(library._write(*lent, own.file_at, 1024, own.out_at), 0)
        self.assertEqual(own.file[2:4], b"\x0d\0")

    def test_editions_of_files(self):
        """13 used bytes and 14 used bytes with edition 1 are different files, and each is written back unchanged."""
        held, row, files = made("(Break)"), numbers.DIALECTS["standard"], set()
        for edition, effective in ((None, 1), (1, 1), (2, 2)):
            data = job("write", *held, row, edition).data
            answer = job("read", data)
            self.assertEqual(answer, Loaded(*held, row, edition, effective))
            self.assertIs(type(answer.effective_edition), Edition)
            self.assertEqual(job("write", answer.table, answer.names, answer.dialect, answer.edition), Written(data))
            self.assertEqual(job("rescue", data).data, data)
            files.add(data)
        self.assertEqual(len(files), 3)
        for edition in (1, 2):
            self.assertEqual(job("write", *held, None, edition), refusal(5))
            self.assertEqual(job("write", *held, b"", edition), refusal(5))

    def test_every_used_count_and_every_edition_byte(self):
        held, row = made("(Break)"), numbers.DIALECTS["standard"]
        for used in range(21):
            content = (row + b"\2" + b"\1" * 10)[:max(0, used - 4)]
            data = bytearray(table.file_of(*held))
            data[2:4], data[8:8 + len(content)] = used.to_bytes(2, "little"), content
            answer = job("read", summed(data))
            self.assertEqual(answer.accepted, used in (4, 13, 14), used)
            self.assertEqual(getattr(answer, "number", 73), 73)
            self.assertEqual(job("check_file", bytes(data)).accepted, answer.accepted)
        for byte in range(256):
            data = table.file_of(*held, row, byte)
            good = byte in (1, 2)
            self.assertEqual(job("read", data), Loaded(*held, row, byte, byte) if good else refusal(5))
            self.assertEqual(job("check_file", data), Errors(1, (Error(55, 1, 0, 1),), 1) if good else refusal(5))
            self.assertEqual(job("rescue", data), Rescued(data, 1, 1, 0, 0) if good else refusal(90))

    def test_read(self):
        data = support.sample("example-none.table")
        held = job("read", data)
        self.assertEqual(held, Loaded(table.parts_of(data)[0], b"abc", None))
        self.assertEqual(job("read", data, room=len(held.table) - 1), refusal(7))
        self.assertEqual(job("read", data, names_room=2), refusal(7))
        self.assertEqual(job("read", data, room=len(held.table), names_room=3), held)
        self.assertEqual(job("read", data, room=60000, names_room=9000), held)
        self.assertEqual(job("read", b""), refusal(70))

    def test_rescue(self):
        data, kept = support.sample("lost.table"), support.sample("lost.rescued")
        said = [int(word) for word in re.findall(r"\d+", support.sample("lost.printed").decode())]
        answer = job("rescue", data)
        self.assertEqual(answer.data, kept)
        self.assertEqual([answer.statements, answer.nodes, answer.dropped, answer.bytes_after][:len(said)], said)
        self.assertEqual(job("rescue", data, room=len(kept) - 1), refusal(7))
        self.assertEqual(job("rescue", data, room=70000), answer)
        self.assertEqual(job("rescue", b""), refusal(90))
        whole = support.sample("take.table")
        self.assertEqual(job("rescue", whole + bytes(5)), Rescued(whole, 3, 62, 0, 5))

    def test_check_file(self):
        for name in support.samples(".table"):
            answer = job("check_file", support.sample(f"{name}.table"))
            if answer.accepted:
                lines = [f"nodes {answer.nodes}", *(f"{e.number} {e.file} {e.begin} {e.end}" for e in answer.errors), f"errors {answer.total}"]
            else:
                lines = [f"refused {answer.number}"]
            with self.subTest(name):
                self.assertEqual("\n".join(lines) + "\n", support.sample(f"{name}.out").decode())
        data = support.sample("example.table")
        for room, stored in ((0, 0), (3, 0), (4, 1), (7, 1), (8, 2), (17000, 2)):
            self.assertEqual(len(job("check_file", data, room=room).errors), stored)


class Files(unittest.TestCase):
    """The source file number that an answer carries."""

    def test_each_job(self):
        """Statement by statement of another file: the refusal and the error have the number of the node that they name."""
        for number, text, name, node in (
                (10, "(Def (Slash) (Break))", "params", 2), (11, "(Def (Normal a) (Normal a) (Break))", "params", 2),
                (20, "(OtherSimple (Call (Int) (Named a (Int)) (Positional (Int))))", "call", 3),
                (22, "(OtherSimple (Call (Int) (Named a (Int)) (Named a pos=70 (Int))))", "call", 3),
                (30, "(Assign (Int) (Int))", "assignment", 2), (31, "(AssignModify (List) (Int))", "assignment", 2)):
            for file in (1, 2, 999):
                held = made(f"(Statements\nfile: 5\n(OtherSimple)\nfile: {file}\n{text})")
                answer = job(name, *held, node)
                self.assertEqual((answer.number, answer.file), (number, file))
                error, = [error for error in job("audit", *held, None, 1).errors if error.number == number]
                self.assertEqual((error.file, error.begin, error.end, error.node), (file, answer.begin, answer.end, answer.node))
        held = made("(Statements\nfile: 7\n(Assign:1 (Identifier a) (Int) (Int)))")
        self.assertEqual(job("type", *held, None, 1, 3), refusal(40, 3, 3, 4, file=7))

    def test_a_binding_across_files(self):
        """The Def's number for what is wrong in it or left empty, the Call's for its arguments."""
        held = made("(Statements\nfile: 3\n(Def (Normal a) (Slash) (Break))\nfile: 8\n"
                    "(OtherSimple (Call (Identifier f) (Positional (Int))))\n(OtherSimple (Call (Identifier f)))\n"
                    "(OtherSimple (Call (Identifier f) (Named a (Int)))))")
        calls = [node for node, record in enumerate(table.decode(held[0])) if record.kind == numbers.KIND["Call"]]
        self.assertEqual(job("bind", *held, calls[0], 1), Bound((8,), (0,)))
        self.assertEqual(job("bind", *held, calls[1], 1), refusal(84, 2, 2, 3, file=3))
        self.assertEqual(job("bind", *held, calls[2], 1), refusal(82, 16, 16, 17, file=8))

    def test_lists_in_their_order(self):
        held = made("(Statements\nfile: 2\n(Break)\nfile: 1\n(Break)\nfile: 999\n(Break))")
        self.assertEqual(job("module", *held, None).errors, (Error(55, 2, 1, 2), Error(55, 1, 2, 3), Error(55, 999, 3, 4)))
        self.assertEqual(job("audit", *held, None, 1).errors, (Error(55, 2, 1, 2, 1), Error(55, 1, 2, 3, 2), Error(55, 999, 3, 4, 3)))
        data = job("write", *held, None, None).data
        self.assertEqual(job("check_file", data).errors, job("module", *held, None).errors)
        self.assertEqual((job("read", data).table, job("rescue", data).data), (held[0], data))

    def test_numbers_that_are_wrong(self):
        for text, node in (("(Statements (Break file=0))", 1), ("(Statements (Break file=1000))", 1), ("(Statements file=1 (Break))", 0),
                           ("(If (Int file=2) (Break))", 1), ("(Break file=0)", 0), ("(Break file=1000)", 0)):
            self.assertEqual(job("table", *made(text)), refusal(3, node))
        for text in ("(Statements)", "(Break)", "(Break file=999)", "(Statements (Break file=999) (Break))"):
            self.assertEqual(job("table", *made(text)), Checked())


class Inputs(unittest.TestCase):
    """Any bytes, any lengths, any node."""

    def test_kinds_of_bytes(self):
        data = support.sample("example.table")
        expected = job("check_file", data)
        for other in (bytearray(data), memoryview(data), memoryview(b"." + data)[1:], memoryview(data * 2)[:len(data)]):
            self.assertEqual(job("check_file", other), expected)
        held = job("read", memoryview(data))
        self.assertEqual(job("module", bytearray(held.table), memoryview(held.names), bytearray(held.dialect)).total, 2)

    def test_what_are_no_bytes(self):
        for other in ("text", None, 5, [1, 2]):
            with self.assertRaises(TypeError):
                job("check_file", other)
            with self.assertRaises(TypeError):
                job("table", other, b"")

    def test_nodes(self):
        for node in (2, 2 ** 32, 2 ** 64 - 1, 2 ** 64, 2 ** 64 + 1, 2 ** 80):
            self.assertEqual(job("call", *CALL, node).number, 6)
            self.assertEqual(job("bind", *BOTH, node, node).number, 6)
            self.assertEqual(job("type", *TYPE, None, 1, node + 10).number, 6)
        for bad in (-1, -2 ** 70):
            with self.assertRaises(ValueError):
                job("call", *CALL, bad)
            with self.assertRaises(ValueError):
                job("check_file", b"", room=bad)
        with self.assertRaises(TypeError):
            job("call", *CALL, "1")

    def test_any_bytes(self):
        known = random.Random(3)
        answers = set()
        for turn in range(3000):
            data = bytearray(support.sample("whole.table"))
            for _ in range(turn % 3):
                data[known.randrange(len(data))] = known.randrange(256)
            data = bytes(data[:known.randrange(len(data) + 1)]) if turn % 2 else bytes(data)
            answer = job("check_file", data)
            answers.add(answer.accepted or answer.number)
            self.assertEqual(answer.accepted, job("read", data).accepted)
            held, names = data[512:512 + 24 * (turn % 60)], data[:turn % 50]
            for name in ("table", "module", "audit", "write"):
                job(name, held, names, *([] if name == "table" else [None]), *([turn % 4] if name in ("audit", "write") else []))
            for name in ("params", "call", "target", "assignment"):
                job(name, held, names, turn % 7)
            job("rescue", data)
        self.assertLessEqual({True, 70, 72}, answers)

    def test_long_inputs(self):
        self.assertEqual(job("check_file", bytes(10 ** 7)).number, 73)
        self.assertEqual(job("table", bytes(24 * 10 ** 5), b"").number, 1)
        self.assertEqual(job("rescue", support.sample("take.table") + bytes(10 ** 6)).bytes_after, 10 ** 6)


class Threads(unittest.TestCase):
    def test_several_threads(self):
        """Each thread has its own buffers: the answer of one does not depend on another."""
        files = [support.sample(f"{name}.table") for name in ("example", "lambda", "take", "unsound", "whole", "statements")]
        expected = [(job("check_file", data), job("read", data), job("rescue", data)) for data in files]
        faults = []

        def work(first):
            for turn in range(400):
                at = (first + turn) % len(files)
                if (job("check_file", files[at]), job("read", files[at]), job("rescue", files[at])) != expected[at]:
                    faults.append(at)

        threads = [threading.Thread(target=work, args=(first,)) for first in range(6)]
        for thread in threads:
            thread.start()
        for thread in threads:
            thread.join()
        self.assertEqual(faults, [])


class Loading(unittest.TestCase):
    """What is loaded, and what is not."""

    def test_what_is_said_of_it(self):
        loaded = support.library()
        with open(loaded.path, "rb") as file:
            self.assertEqual(loaded.checksum, hashlib.sha256(file.read()).hexdigest())
        self.assertEqual(loaded.version, __version__)
        self.assertEqual(loaded.proved, "DUCAT_TEST_LIBRARY" not in os.environ)

    def test_every_function_of_the_header(self):
        with open(os.path.join(support.ROOT, "include", "starlark.h"), encoding="utf-8") as file:
            declared = re.findall(r"^uint32_t starlark_(\w+)\(", file.read(), re.M)
        self.assertEqual(sorted(declared), sorted(library.FUNCTIONS))

    def test_missing(self):
        with self.assertRaisesRegex(library.LibraryMissing, "there is no /nowhere/lib.so"):
            library.load("/nowhere/lib.so")

    def test_no_library(self):
        with self.assertRaises(library.LibraryMismatch):
            library.load(os.path.join(support.ROOT, "README.md"))
        with self.assertRaises(library.LibraryMismatch):
            library.load(support.ROOT)

    def test_replaced(self):
        with tempfile.TemporaryDirectory() as room:
            path = os.path.join(room, "lib.so")
            shutil.copyfile(support.library().path, path)
            loaded = library.load(path)
            os.replace(shutil.copyfile(path, path + ".new"), path)
            with self.assertRaisesRegex(library.LibraryError, "was replaced"):
                loaded.checksum

    def test_version_numbers(self):
        self.assertEqual(library.version_number("0.4.0"), 1024)
        self.assertEqual(library.version_text(library.version_number("1.20.3")), "1.20.3")


@unittest.skipUnless(shutil.which("cc"), "a C compiler makes the libraries of other versions")
class Versions(unittest.TestCase):
    """A library of another version is not used: the same major and minor number, and at least the patch number."""

    def load(self, version, extra="", without=()):
        names = [name for name in library.FUNCTIONS if name not in ("version", *without)]
        text = f"unsigned starlark_version(void) {{ return {library.version_number(version)}; }}\n" * ("version" not in without) + extra
        text += "".join(f"unsigned starlark_{name}(void) {{ return 1; }}\n" for name in names)
        with tempfile.TemporaryDirectory() as room:
            source, path = os.path.join(room, "l.c"), os.path.join(room, "l.so")
            with open(source, "w", encoding="utf-8") as file:
                file.write(text)
            subprocess.run(["cc", "-shared", "-fPIC", source, "-o", path], check=True)
            return library.load(path)

    def test_versions(self):
        major, minor, patch = (int(part) for part in __version__.split("."))
        for version in (f"{major}.{minor}.{patch}", f"{major}.{minor}.{patch + 1}", f"{major}.{minor}.255"):
            self.assertEqual(self.load(version).version, version)
        for version in (f"{major}.{minor + 1}.{patch}", f"{major + 1}.{minor}.{patch}", f"{major}.{minor - 1}.9", f"{major + 1}.0.0"):
            with self.assertRaisesRegex(library.LibraryMismatch, f"is version {version}; {major}.{minor}, patch {patch} or later, is needed"):
                self.load(version)

    def test_patches(self):
        with unittest.mock.patch.object(library, "__version__", "0.2.3"):
            for version in ("0.2.3", "0.2.4"):
                self.assertEqual(self.load(version).version, version)
            with self.assertRaisesRegex(library.LibraryMismatch, "is version 0.2.2; 0.2, patch 3 or later, is needed"):
                self.load("0.2.2")

    def test_the_high_word_of_a_rescue(self):
        """More than 4 GiB after the last block."""
        rescue = "unsigned starlark_rescue(void *i, unsigned long il, void *f, unsigned long fl, unsigned *out)" \
                 " { for (int at = 0; at < 6; at++) out[at] = at; return 0; }\n"
        answer = self.load(__version__, rescue, without=("rescue",)).rescue(b"")
        self.assertEqual((answer.statements, answer.nodes, answer.dropped, answer.bytes_after), (1, 2, 3, 5 << 32 | 4))

    def test_a_function_is_missing(self):
        for name in ("version", "audit"):
            with self.assertRaisesRegex(library.LibraryMismatch, f"has no starlark_{name}"):
                self.load(__version__, without=(name,))

    def test_unproved(self):
        self.assertTrue(self.load(__version__).proved)
        self.assertFalse(self.load(__version__, 'const char starlark_unproved[] = "";\n').proved)


if __name__ == "__main__":
    unittest.main()
