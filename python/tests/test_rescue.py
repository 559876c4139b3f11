"""ducat rescue: samples, cut and damaged files, IN as OUT, files of gigabytes, what cannot be read or written, and KILL at any moment."""
import json
import os
import random
import resource
import signal
import subprocess
import time
import unittest

import support
from command import CommandTest, command
from ducatmuffin import table

LARGEST = "dialect: Standard\n(Statements ^64<(OtherSimple (Identifier " + "0" * 126 + "))> ^1970<(OtherSimple)> (Break))"
WHOLE = ("clean", "example", "example-none", "lambda", "parameters", "placement", "statements", "take", "toplevel")
WORDS = ("statements of the outermost list that are kept, from the first on", "nodes that are kept",
         "nodes that the header counts and that are lost", "bytes after the last block that the header counts, which are left out")


class RescueTest(CommandTest):
    def rescued(self, status, numbers, out, path, **more):
        """A rescue: its status, the four numbers, and what is written."""
        lines = "".join(f"{word} {number}\n" for word, number in zip(("statements", "nodes", "dropped", "bytes"), numbers))
        self.put("out.table", "old")
        self.says(status, lines, "", "rescue", path, "-o", self.at("out.table"), **more)
        self.assertEqual(self.read("out.table"), out)
        self.alone()

    def refused(self, out, said, *words, **more):
        """What leaves OUT unchanged."""
        self.put("kept.table", "old")
        words = words if "-o" in words else (*words, "-o", self.at("kept.table"))
        ran = self.run_ducat("rescue", *words, **more)
        self.assertEqual((ran.status, ran.out, len(ran.err.splitlines())), (2, out, 1), ran.err)
        self.assertIn(said, ran.err)
        self.assertNotIn(".new", ran.err)
        self.assertEqual(self.read("kept.table"), b"old")
        self.alone()


class Kept(RescueTest):
    def test_the_sample(self):
        self.rescued(1, (2, 16, 46, 0), support.sample("lost.rescued"), "samples/lost.table")
        self.says(1, support.sample("lost.printed").decode(), "", "rescue", "samples/lost.table", "-o", self.at("out.table"))

    def test_what_is_kept_is_what_the_writer_writes(self):
        text = table.read_text(support.sample("lost.txt").decode(), lambda name: support.sample(name))
        records = table.decode(text.table)[:16]
        kept = table.encode([records[0]._replace(size=16), *records[1:]])
        self.assertEqual(support.library().write(kept, text.names, text.dialect, text.edition).data, support.sample("lost.rescued"))
        self.says(0, None, "", "check", "samples/lost.rescued")

    def test_nothing_is_lost_of_what_is_whole(self):
        self.rescued(0, (2, 16, 0, 0), support.sample("lost.rescued"), "samples/lost.rescued")
        for name in WHOLE:
            self.says(0, None, "", "rescue", f"samples/{name}.table", "-o", self.at("out"))
            self.assertEqual(self.read("out"), support.sample(f"{name}.table"))

    def test_bytes_after_the_last_block(self):
        take = support.sample("take.table")
        self.rescued(1, (3, 62, 0, 5), take, self.put("longer", take + b"later"))
        self.rescued(1, (3, 62, 0, 5), take, "-", input=take + b"later")

    def test_in_as_out(self):
        take = support.sample("take.table")
        longer = self.put("longer", take + b"later")
        self.says(1, None, "", "rescue", longer, "-o", longer)
        self.assertEqual(self.read("longer"), take)
        self.put("same", support.sample("lost.table"))
        os.link(self.at("same"), self.at("other"))
        self.says(1, None, "", "rescue", self.at("same"), "-o", self.at("other"))
        self.assertEqual((self.read("same"), self.read("other")), (support.sample("lost.table"), support.sample("lost.rescued")))

    def test_a_name_that_looks_like_an_option(self):
        self.says(1, None, "", "rescue", os.path.join(support.ROOT, "samples/lost.table"), "-o-out", cwd=self.room)
        self.assertEqual(self.read("-out"), support.sample("lost.rescued"))

    def test_the_largest_and_more(self):
        largest = table.read_text(LARGEST).file()
        self.rescued(0, (2035, 2100, 0, 0), largest, self.put("largest", largest))
        self.rescued(1, (2035, 2100, 0, 513), largest, self.put("larger", largest + bytes(513)))
        self.rescued(1, (2035, 2100, 0, 1), largest, self.put("larger", largest + bytes(1)))

    def test_three_gigabytes(self):
        """Every byte is counted, and few are kept: with one gigabyte of memory."""
        path = self.put("huge", support.sample("take.table"))
        os.truncate(path, 3221225477)
        soft, hard = resource.getrlimit(resource.RLIMIT_AS)
        resource.setrlimit(resource.RLIMIT_AS, (2 ** 30, hard))
        try:
            self.rescued(1, (3, 62, 0, 3221222917), support.sample("take.table"), path)
        finally:
            resource.setrlimit(resource.RLIMIT_AS, (soft, hard))
            os.remove(path)


class Refused(RescueTest):
    def test_nothing_can_be_kept(self):
        take = support.sample("take.table")
        for data, number in ((b"", 90), (take[:511], 90), (take[:1023], 90), (take[:1024], 91)):
            self.refused(f"refused {number}\n", f"refused {number}: ", self.put("in", data))
        self.refused("refused 91\n", "the reader's answer is 70: the file ends before a block is complete, block 2", "samples/cut.table")
        self.refused("refused 91\n", "the reader's answer is 3: a record of the table is unsound, node 0", "samples/unsound.table")
        self.refused("refused 90\n", "the reader's answer is 72: the sum of a block is wrong, so a byte is damaged, block 1", "samples/damaged.table")

    def test_a_refusal_makes_no_file(self):
        ran = self.run_ducat("rescue", "--explain", "samples/cut.table", "-o", self.at("none"))
        self.assertTrue(ran.out.startswith("refused 91: the file is damaged, and no child of its root can be kept"))
        self.assertEqual((ran.status, ran.err, os.path.exists(self.at("none"))), (2, "", False))

    def test_what_cannot_be_read_or_written(self):
        self.refused("", "nothing: No such file or directory", self.at("nothing"))
        self.refused("", "samples: Is a directory", "samples")
        self.refused("", "nowhere/file: No such file or directory", "samples/lost.table", "-o", self.at("nowhere/file"))
        os.mkdir(self.at("folder"))
        self.refused("", "folder: Is a directory", "samples/lost.table", "-o", self.at("folder"))

    def test_words(self):
        for words, said in ((("samples/lost.table",), "-o/--output"), (("-o", "x"), "IN"), (("a", "b", "-o", "x"), "unrecognized arguments: b"),
                            (("--nothing", "a", "-o", "x"), "--nothing"), (("a", "-o", "-"), "-o needs the name of a file")):
            ran = self.run_ducat("rescue", *words, cwd=self.room)
            self.assertEqual((ran.status, ran.out, said in ran.err), (2, "", True), (words, ran.err))


class Explain(RescueTest):
    def test_without_a_script(self):
        ran = self.run_ducat("rescue", "--explain", "samples/lost.table", "-o", self.at("out"))
        numbers = "".join(f"{word} {number}: {words}\n" for word, number, words in
                          zip(("statements", "nodes", "dropped", "bytes"), (2, 16, 46, 0), WORDS))
        self.assertEqual(ran.out, numbers + "kept 1: Def, node 1, file 1, bytes 0 to 56\nkept 2: Def, node 9, file 1, bytes 58 to 112\n"
                         "lost: 46 nodes, after byte 112 of file 1\n")

    def test_with_a_script(self):
        ran = self.run_ducat("rescue", "--explain", "--script", "samples/take.star", "samples/lost.table", "-o", self.at("out"))
        self.assertEqual(ran.out.splitlines()[4:], ["kept 1 of 3: def take, samples/take.star:1:1", "kept 2 of 3: def take2, samples/take.star:4:1",
                                                    "lost 3 of 3: def plan, samples/take.star:7:1"])
        self.assertEqual((ran.status, ran.err), (1, ""))

    def test_with_another_script(self):
        ran = self.run_ducat("rescue", "--explain", "--script", "samples/clean.star", "samples/lost.table", "-o", self.at("out"))
        self.assertIn("lost ones are not named", ran.err)
        self.assertIn("lost: 46 nodes, after byte 112 of file 1\n", ran.out)
        self.says(2, "", "ducat: samples/missing.star: No such file or directory\n", "rescue", "--script", "samples/missing.star",
                  "samples/lost.table", "-o", self.at("out"))

    def test_nothing_is_lost(self):
        ran = self.run_ducat("rescue", "--explain", "--script", "samples/take.star", "samples/take.table", "-o", self.at("out"))
        self.assertEqual([line.partition(":")[0] for line in ran.out.splitlines()[4:]], ["kept 1 of 3", "kept 2 of 3", "kept 3 of 3"])

    def test_json(self):
        import hashlib
        ran = self.run_ducat("rescue", "--json", "--script", "samples/take.star", "samples/lost.table", "-o", self.at("out"))
        told = json.loads(ran.out)
        entry, = told["inputs"]
        self.assertEqual([entry[key] for key in ("verdict", "statements", "nodes", "dropped", "bytes_after")], ["lost", 2, 16, 46, 0])
        self.assertEqual(entry["sha256"], hashlib.sha256(support.sample("lost.table")).hexdigest())
        self.assertEqual(entry["output"]["sha256"], hashlib.sha256(support.sample("lost.rescued")).hexdigest())
        self.assertEqual([one["name"] for one in entry["lost"]], ["def plan"])
        ran = self.run_ducat("rescue", "--json", "samples/damaged.table", "-o", self.at("out"))
        self.assertEqual(json.loads(ran.out)["inputs"][0]["refused"]["reader"]["block"], 1)


class Ended(CommandTest):
    """KILL at any moment: OUT is the old file or the whole new one."""

    ROUNDS = 40

    def test_kill(self):
        largest = table.read_text(LARGEST).file()
        damaged = bytearray(largest)
        damaged[51300] ^= 255
        rescued = support.library().rescue(bytes(damaged)).data
        self.put("in", bytes(damaged))
        draw, seen = random.Random(7), {"old": 0, "new": 0, "beside": 0}
        began = time.monotonic()
        subprocess.run(command("rescue", self.at("in"), "-o", self.at("first")), stdout=subprocess.DEVNULL, stderr=subprocess.DEVNULL)
        self.longest = time.monotonic() - began
        self.assertEqual(self.read("first"), rescued)
        for number in range(self.ROUNDS):
            self.round(number, draw, seen, bytes(damaged), rescued)
        self.assertGreater(seen["old"], 0)
        self.assertGreater(seen["new"], 0)

    def round(self, number, draw, seen, damaged, rescued):
        old = damaged if number % 2 else b"what was there before"
        self.put("out", old)
        source = self.at("out") if number % 2 else self.at("in")
        began = time.monotonic()
        running = subprocess.Popen(command("rescue", source, "-o", self.at("out")), stdout=subprocess.DEVNULL, stderr=subprocess.DEVNULL)
        if number % 8 == 0:  # a complete run, so that the moments of the next ones fit the load of the machine
            running.wait()
            self.longest = time.monotonic() - began
        until = began + draw.uniform(0, 1.2 * self.longest)
        while time.monotonic() < until and running.poll() is None:
            self.assertIn(self.read("out"), (old, rescued))
            if number % 4 > 1 and any(name.endswith(".new") for name in os.listdir(self.room)):
                break
        running.send_signal(signal.SIGKILL)
        running.wait()
        found = self.read("out")
        self.assertIn(found, (old, rescued))
        seen["new" if found == rescued else "old"] += 1
        for name in os.listdir(self.room):
            if name.endswith(".new"):
                seen["beside"] += 1
                os.remove(self.at(name))


if __name__ == "__main__":
    unittest.main()
