"""ducat figures: counts over joined files, against a model that counts with the other jobs of the library; --jobs, --add, and what cannot be read."""
import json
import os
import pty
import random
import subprocess
import unittest

import support
from command import CommandTest, command
from ducatmuffin import figures, table
from ducatmuffin.library import COUNTED_ERRORS, NO_FIGURES, Figures, Refusal, Report, Stepped
from ducatmuffin.numbers import KIND, MODES, MOST_FILES, WINDOW_BYTES, WORDS

LINES = 32


def with_byte(data, at, byte, sealed=True):
    """A file with a byte changed, and the sum of its block updated."""
    first = at - at % 512
    block = bytearray(data[first:first + 508])
    block[at - first] = byte
    total = sum(place * value for place, value in enumerate(block, 1)) if sealed else int.from_bytes(data[first + 508:first + 512], "little")
    return data[:first] + bytes(block) + total.to_bytes(4, "little") + data[first + 512:]


def length_of(data):
    """The length that the header of the first file gives."""
    nodes, names = (int.from_bytes(data[at:at + 2], "little") for at in (4, 6))
    return 512 * (1 + -(-names // 504) + -(-nodes // 21))


def counts_of(data):
    """What one accepted file adds, counted by the other jobs."""
    library = support.library()
    held, counts = library.read(data), dict.fromkeys(Figures._fields, 0)
    counts["files"], counts["nodes"] = 1, len(held.table) // 24
    for node in range(counts["nodes"]):
        kind = held.table[24 * node]
        if kind in (KIND["Def"], KIND["Lambda"]):
            counts["lists"] += 1
            list_ = library.params(held.table, held.names, node)
            for mode in () if type(list_) is Refusal else list_.modes:
                counts[f"mode_{mode}"] += 1
        elif kind == KIND["Call"]:
            counts["calls_accepted" if library.call(held.table, held.names, node).accepted else "calls_refused"] += 1
    for error in library.check_file(data).errors:
        counts[f"error_{error.number}"] += 1
    return Figures(**counts)


def modelled(data):
    """The report of an input: each file is cut off by its header, and judged by the reader."""
    sums, at = list(NO_FIGURES), 0
    while at < len(data):
        rest = data[at:]
        # the length in a bad header does not count: the reader reports why
        length = length_of(rest) if len(rest) >= 512 else len(rest)
        answer = support.library().read(rest[:max(512, length)])
        if type(answer) is Refusal:
            return Report(Figures(*sums), answer.number, at)
        sums = [old + new for old, new in zip(sums, counts_of(rest[:length]))]
        at += length
    return Report(Figures(*sums))


def text_of(report):
    """What the command prints for a report."""
    lines = [f"{label} {count}" for label, count in zip(figures.LABELS, report.figures)]
    return "".join(line + "\n" for line in [*lines, *([] if report.whole else [f"refused {report.number} {report.position}"])])


def made(text):
    return table.read_text(text).file()


GOOD = [support.sample(f"{name}.table") for name in ("example", "clean", "lambda", "parameters", "placement", "statements", "take", "joined", "toplevel")]
BREAK = made("(Break)")
LARGEST = made("(Statements ^2099<(Break)>)")


def refused_files():
    """Files that are refused, by number."""
    good = support.sample("parameters.table")
    return {70: good[:-1], 72: with_byte(good, 700, good[700] ^ 1, False), 71: with_byte(good, 512, 9), 73: with_byte(good, 514, 1), 74: with_byte(good, 4, 0),
            3: made("(Assign (Identifier x))"), 4: made("(OtherSimple ^64<(Not >(Int)^64<)>)"),
            5: with_byte(support.sample("example.table"), 8, 3)}


class Counts(CommandTest):
    """What the library counts."""

    def counted(self, data):
        found = support.library().figures(data)
        self.assertEqual(found, modelled(data))
        return found

    def test_nothing(self):
        self.assertEqual(self.counted(b""), Report(NO_FIGURES))

    def test_each_sample_and_all_together(self):
        for data in GOOD:
            self.assertTrue(self.counted(data).whole)
        joined = self.counted(b"".join(GOOD))
        self.assertEqual((joined.whole, joined.figures.files), (True, len(GOOD)))
        self.assertEqual(joined.figures, Figures(*(sum(column) for column in zip(*map(counts_of, GOOD)))))

    def test_each_refusal_at_each_place(self):
        for number, bad in refused_files().items():
            for before in range(3):
                data = b"".join(GOOD[:before])
                # a cut file is whole again if the next file's bytes fill it up, so the cut one is last
                after = b"" if number == 70 else GOOD[0]
                self.assertEqual(self.counted(data + bad + after), Report(modelled(data).figures, number, len(data)))

    def test_a_byte_after_a_file_begins_the_next(self):
        self.assertEqual(self.counted(GOOD[0] + b"\0"), Report(counts_of(GOOD[0]), 70, len(GOOD[0])))

    def test_every_cut_of_three(self):
        joined = GOOD[0] + GOOD[2] + BREAK
        ends = [len(GOOD[0]), len(GOOD[0] + GOOD[2]), len(joined)]
        for cut in range(0, len(joined) + 1, 7):
            found = support.library().figures(joined[:cut])
            whole = [end for end in [0, *ends] if end <= cut]
            self.assertEqual((found.figures.files, found.position), (len(whole) - 1, None if cut in [0, *ends] else whole[-1]))

    def test_random_joins(self):
        chosen, files = random.Random(214), GOOD + [BREAK]
        for _ in range(200):
            parts = [chosen.choice(files) for _ in range(chosen.randrange(6))]
            if parts and chosen.random() < 0.5:
                at = chosen.randrange(len(parts))
                place = chosen.randrange(len(parts[at]))
                parts[at] = with_byte(parts[at], place, parts[at][place] ^ chosen.randrange(1, 256), chosen.random() < 0.7)
            self.counted(b"".join(parts))

    def test_steps(self):
        library, data = support.library(), b"".join(GOOD[:3]) + LARGEST + BREAK
        sums, at = NO_FIGURES, 0
        while at < len(data):
            stepped = library.figures_step(data[at:at + WINDOW_BYTES], sums)
            self.assertEqual(stepped, library.figures_step(data[at:], sums))
            sums, at = stepped.figures, at + stepped.taken
        self.assertEqual((sums, len(LARGEST)), (library.figures(data).figures, 51712))
        self.assertEqual(library.figures_step(b"", sums), Stepped(sums, 0))

    def test_limits(self):
        """76 comes first, and needs a byte; a count stays at the largest number of 64 bits."""
        library, most = support.library(), 2 ** 64 - 1
        for files in (MOST_FILES, MOST_FILES + 1, most):
            full = NO_FIGURES._replace(files=files)
            for window in (b"\0", GOOD[0], refused_files()[72]):
                self.assertEqual(library.figures_step(window, full), Refusal(76, WORDS[76]))
            self.assertEqual(library.figures_step(b"", full), Stepped(full, 0))
        last = library.figures_step(BREAK, Figures(MOST_FILES - 1, *[most] * 31))
        self.assertEqual(last, Stepped(Figures(MOST_FILES, *[most] * 31), len(BREAK)))
        for count in (-1, most + 1):
            self.assertRaises(ValueError, library.figures_step, BREAK, NO_FIGURES._replace(nodes=count))


class Command(CommandTest):
    def files(self, *data):
        return [self.put(f"{at}.table", one) for at, one in enumerate(data)]

    def test_lines(self):
        names = self.files(*GOOD)
        ran = self.says(0, text_of(modelled(b"".join(GOOD))), "", "figures", *names)
        self.assertEqual(len(ran.out.splitlines()), LINES)
        self.says(0, ran.out, "", "figures", input=b"".join(GOOD))
        self.says(0, ran.out, "", "figures", "-", input=b"".join(GOOD))
        self.says(0, ran.out, "", "figures", names[0], "-", *names[2:], input=GOOD[1])
        self.says(0, text_of(Report(NO_FIGURES)), "", "figures")

    def test_the_order_of_a_folder(self):
        self.put("b/2.table", GOOD[1])
        self.put("b/1.table", GOOD[0])
        self.put("b/a/0.table", GOOD[2][:-1])
        self.put("b/script.star", "break\n")
        data = GOOD[0] + GOOD[1] + GOOD[2][:-1]
        self.says(2, text_of(modelled(data)), "", "figures", self.at("b"))
        os.mkdir(self.at("empty"))
        self.says(2, "", f"ducat: {self.at('empty')}: no table file is found in this folder\n", "figures", self.at("b"), self.at("empty"))

    def test_each_refusal(self):
        for number, bad in refused_files().items():
            names = self.files(GOOD[0], b"", bad) + self.files()
            ran = self.says(2, text_of(Report(counts_of(GOOD[0]), number, len(GOOD[0]))), "", "figures", *names)
            for jobs in ("2", "3", "9"):
                self.says(2, ran.out, "", "figures", "--jobs", jobs, *names)
            told = self.run_ducat("figures", "--explain", *names).out.splitlines()[-1]
            self.assertEqual(told, f"refused {number} {len(GOOD[0])}: {WORDS[number]}; in {names[2]}, the file from byte 0 on")

    def test_explain(self):
        data = GOOD[0] + BREAK
        out = self.says(0, None, "", "figures", "--explain", input=data).out.splitlines()
        plain = self.run_ducat("figures", input=data).out.splitlines()
        self.assertEqual([line.partition(": ")[0] for line in out], plain)
        self.assertIn(f"error 55 2: {WORDS[55]}", out)

    def test_the_place_in_a_file_that_begins_before(self):
        """A refused file that begins in one name and continues in the next."""
        bad = refused_files()[72]
        names = self.files(GOOD[0] + bad[:600], bad[600:] + GOOD[1])
        for jobs in ("1", "2"):
            told = self.run_ducat("figures", "--explain", "--jobs", jobs, *names).out.splitlines()[-1]
            self.assertEqual(told, f"refused 72 {len(GOOD[0])}: {WORDS[72]}; in {names[0]}, the file from byte {len(GOOD[0])} on")

    def test_csv(self):
        for data, status in ((GOOD[0], 0), (GOOD[0] + b"x", 2)):
            head, row = self.says(status, None, "", "figures", "--format", "csv", input=data).out.splitlines()
            told = dict(zip(head.split(","), row.split(",")))
            self.assertEqual(len(told), LINES + 2)
            self.assertEqual([int(told[field]) for field in Figures._fields], list(counts_of(GOOD[0])))
            self.assertEqual((told["refused"], told["position"]), ("70", str(len(GOOD[0]))) if status else ("", ""))

    def test_json(self):
        names = self.files(GOOD[0], refused_files()[72], GOOD[1])
        told = json.loads(self.says(2, None, "", "figures", "--json", *names).out)
        self.assertEqual(told["figures"], counts_of(GOOD[0])._asdict())
        self.assertEqual(told["refused"], {"number": 72, "words": WORDS[72], "position": len(GOOD[0]), "input": {"name": names[1]}, "place": 0})
        self.assertEqual([one["bytes"] for one in told["inputs"]], [os.path.getsize(name) for name in names])
        self.assertEqual((told["bytes"], told["status"], told["command"]), (sum(map(os.path.getsize, names)), 2, "figures"))
        for jobs in ("2", "3"):
            self.assertEqual(json.loads(self.run_ducat("figures", "--json", "--jobs", jobs, *names).out), told)
        told = json.loads(self.says(0, None, "", "figures", "--json", input=GOOD[0]).out)
        self.assertEqual((told["refused"], told["bytes"], told["inputs"]), (None, len(GOOD[0]), [{"name": "-", "kind": "table", "bytes": len(GOOD[0])}]))

    def test_what_cannot_be_read(self):
        names = self.files(GOOD[0], GOOD[1])
        missing = self.at("missing.table")
        for jobs in ("1", "2"):
            self.says(2, "", f"ducat: {missing}: No such file or directory\n", "figures", "--jobs", jobs, *names, missing)
        # what is after a refused file is not read
        bad = self.put("bad.table", refused_files()[72])
        self.says(2, text_of(Report(counts_of(GOOD[0]), 72, len(GOOD[0]))), "", "figures", names[0], bad, missing)
        descriptor = os.open(self.room, os.O_RDONLY)
        try:
            self.says(2, "", "ducat: -: Is a directory\n", "figures", stdin=descriptor)
        finally:
            os.close(descriptor)

    def test_wrong_usage(self):
        for words in (["-", "-"], ["--add"], ["--add", "--jobs", "2", "a.json"], ["--format", "xml"], ["--jobs", "0"]):
            self.assertEqual(self.run_ducat("figures", *words).status, 2)

    def test_progress_on_a_terminal(self):
        """A line on standard error, which is gone at the end."""
        path = self.put("many.table", LARGEST * 400)
        ours, theirs = pty.openpty()
        try:
            environment = dict(os.environ)
            ran = subprocess.run(command("figures", path), stdout=subprocess.PIPE, stderr=theirs, env=environment, timeout=120)
            os.close(theirs)
            said = b""
            while True:
                try:
                    part = os.read(ours, 4096)
                except OSError:
                    break
                if not part:
                    break
                said += part
        finally:
            os.close(ours)
        self.assertEqual((ran.returncode, ran.stdout.splitlines()[0]), (0, b"files 400"))
        if b"bytes" in said:
            self.assertTrue(said.rstrip().endswith(b"\x1b[K"), said)


class Jobs(CommandTest):
    """--jobs gives exactly the answer of one process."""

    def same(self, pieces):
        names = [self.put(f"{at:03}.table", piece) for at, piece in enumerate(pieces)]
        one = self.run_ducat("figures", *names)
        self.assertEqual(one.out, text_of(modelled(b"".join(pieces))))
        for jobs in ("2", "3", "7"):
            self.says(one.status, one.out, one.err, "figures", "--jobs", jobs, *names)
        return one

    def test_a_file_cut_in_two(self):
        for cut in (1, 511, 512, 513, 700, len(GOOD[3]) - 1):
            self.assertEqual(self.same([GOOD[3][:cut], GOOD[3][cut:]]).status, 0)
            self.assertEqual(self.same([GOOD[0], GOOD[3][:cut], GOOD[3][cut:] + GOOD[1], GOOD[2]]).status, 0)

    def test_a_file_in_many_pieces(self):
        joined = GOOD[0] + GOOD[3] + GOOD[1]
        self.same([joined[at:at + 100] for at in range(0, len(joined), 100)])
        self.same([GOOD[0], b"", b"", GOOD[1], b""])

    def test_random_pieces(self):
        chosen = random.Random(76)
        for _ in range(25):
            data = b"".join(chosen.choice(GOOD) for _ in range(5))
            if chosen.random() < 0.5:
                place = chosen.randrange(len(data))
                data = with_byte(data, place, data[place] ^ 1, chosen.random() < 0.5)
            cuts = sorted(chosen.randrange(len(data) + 1) for _ in range(chosen.randrange(1, 6)))
            self.same([data[first:last] for first, last in zip([0, *cuts], [*cuts, len(data)])])

    def test_too_many_files(self):
        """If the parts have more files than can be counted, one process reads all."""
        names, told = [self.put(f"{at}.table", BREAK) for at in range(3)], []
        library = support.library()

        def many(found, *more, **named):
            told.append(len(found))
            counted = once(library, found, *more, **named)
            return figures.Counted([2 ** 31, *counted.counts[1:]], lengths=counted.lengths) if len(found) == 1 else counted

        once, figures.count = figures.count, lambda _, found, *more, **named: many(found, *more, **named)
        try:
            from ducatmuffin.inputs import Input
            counted = figures.count_in_parts(library, [Input(name) for name in names], 3, False, figures.Silent())
        finally:
            figures.count = once
        self.assertEqual((counted.counts[0], told), (3, [3]))


class Add(CommandTest):
    def report(self, name, data):
        return self.put(name, self.run_ducat("figures", "--json", input=data).out)

    def test_sums(self):
        one, two = self.report("1.json", GOOD[0] + GOOD[1]), self.report("2.json", GOOD[2] + b"x")
        whole = self.run_ducat("figures", input=GOOD[0] + GOOD[1] + GOOD[2] + b"x")
        self.notices(2, whole.out, [one, two], "figures", "--add", one, two)
        # a sum is a report again
        summed = self.put("sum.json", self.run_ducat("figures", "--add", "--json", one, two).out)
        self.notices(2, whole.out, [summed], "figures", "--add", summed)
        self.notices(2, whole.out, [self.report("0.json", b""), one, two], "figures", "--add", self.at("0.json"), one, two)
        told = json.loads(self.read("sum.json"))
        self.assertEqual((told["bytes"], told["refused"]["position"], told["added"]), (len(b"".join(GOOD[:3])) + 1, len(b"".join(GOOD[:3])), True))

    def notices(self, status, out, reports, *words):
        """A run over reports of a library that may not be proved: then it reports that for each."""
        said = "" if support.library().proved else "".join(f"ducat: {report}: the library that made this report is not proved\n" for report in reports)
        self.says(status, out, said, *words)

    def test_a_refusal_that_is_not_last(self):
        one, two = self.report("1.json", GOOD[0] + b"x"), self.report("2.json", GOOD[1])
        ran = self.says(2, "", None, "figures", "--add", one, two)
        self.assertIn(f"ducat: {one}: a refusal ended this report, so no other can follow it\n", ran.err)

    def test_too_many_files(self):
        told = json.loads(self.run_ducat("figures", "--json", input=GOOD[0]).out)
        told["figures"]["files"] = MOST_FILES
        full, one = self.put("full.json", json.dumps(told)), self.report("1.json", GOOD[0])
        self.assertEqual(self.run_ducat("figures", "--add", full).out.splitlines()[0], f"files {MOST_FILES}")
        ran = self.says(2, "", None, "figures", "--add", full, one)
        self.assertIn(f"ducat: {one}: with this report there are more than 4,294,967,295 files\n", ran.err)

    def test_what_is_no_report(self):
        check = self.put("check.json", self.run_ducat("check", "--json", "samples/clean.table").out)
        for data in (b"", b"{", b"[]", b"{}", self.read("check.json"), self.run_ducat("figures", "--json", input=GOOD[0]).out.encode()[:-20]):
            name = self.put("wrong.json", data)
            self.assertEqual(self.says(2, "", None, "figures", "--add", name).err.count(name), 1)
        told = json.loads(self.run_ducat("figures", "--json", input=GOOD[0]).out)
        for key, value in (("bytes", -1), ("bytes", "1"), ("figures", {}), ("refused", {"number": 72}), ("figures", {**told["figures"], "nodes": 2 ** 64})):
            name = self.put("wrong.json", json.dumps({**told, key: value}))
            self.assertIn("this is not the JSON of a whole run", self.says(2, "", None, "figures", "--add", name).err)
        self.says(2, "", f"ducat: {self.at('none.json')}: No such file or directory\n", "figures", "--add", self.at("none.json"))
        self.assertTrue(check)


class Places(unittest.TestCase):
    def test_each_count_has_its_place(self):
        """The fields of Python, the labels of the command and the enum of C are in one order."""
        with open(os.path.join(support.ROOT, "include", "starlark.h"), encoding="utf-8") as file:
            enum = file.read().partition("enum starlark_figure {")[2].partition("}")[0]
        places = [line.strip().rstrip(",").split(" = ") for line in enum.strip().splitlines()]
        names = {f"mode_{mode}": f"MODE_{name}" for mode, name in zip(MODES, ("POS_ONLY", "POS_OR_NAME", "NAME_ONLY", "ARGS", "KWARGS"))}
        self.assertEqual([(name, int(place)) for name, place in places],
                         [(f"STARLARK_FIGURE_{names.get(field, field.upper())}", at) for at, field in enumerate(Figures._fields)])
        self.assertEqual([label.replace(" ", "_") for label in figures.LABELS], list(Figures._fields))
        self.assertEqual(len(COUNTED_ERRORS), 22)


if __name__ == "__main__":
    unittest.main()
