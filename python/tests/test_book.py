"""ducat book and ducat check --books: each command, its refusals and words, what is written, KILL at any moment, and two writers at once."""
import json
import os
import random
import signal
import subprocess
import time

import support
from command import CommandTest, command
from ducatmuffin import book
from ducatmuffin.library import BookRefusal

STANDARD, EXTENDED = "111000100", "111102110"
ZONES, LINE = "samples/zones.book", "samples/line.book"


class BookTest(CommandTest):
    def books(self, *entries, blocks=1):
        """A zone book and a line book in the folder, with entries added."""
        for name in ("zones", "line"):
            self.says(0, f"written {512 * blocks}\n", "", "book", "new", str(blocks), "-o", self.at(name))
        for zone, setting, dialect in entries:
            self.says(0, None, "", "book", "add", self.at("zones"), self.at("line"), str(zone), str(setting), dialect)

    def lookup(self, status, out, zone, setting):
        self.says(status, out, None, "book", "lookup", self.at("zones"), self.at("line"), str(zone), str(setting))

    def changed(self, status, out, what, zone, setting, *dialect):
        self.says(status, out, None, "book", what, self.at("zones"), self.at("line"), str(zone), str(setting), *dialect)


class Commands(BookTest):
    def test_lookup(self):
        self.books((7, 3, STANDARD), (7, 5, EXTENDED), (0, 4, "all"))
        for zone, setting, out in ((7, 3, STANDARD), (7, 4, STANDARD), (7, 5, EXTENDED), (7, 4294967295, EXTENDED), (8, 4, "111112111"), (0, 9, "111112111")):
            self.lookup(0, f"{out}\n", zone, setting)
        for zone, setting in ((7, 2), (8, 3), (0, 0), (7, 0)):
            self.lookup(1, "refused 97\n", zone, setting)

    def test_add_and_remove(self):
        self.books()
        before = self.read("zones")
        self.changed(0, "zone 0\n", "add", 7, 3, "standard")
        self.changed(0, "zone 1\n", "add", 7, 4, "extended")
        self.changed(0, "line 0\n", "add", 0, 1, STANDARD)
        self.changed(2, "refused 96\n", "add", 7, 3, "extended")
        self.changed(1, "refused 97\n", "remove", 7, 5)
        self.changed(0, "zone 0\n", "remove", 7, 3)
        self.changed(0, "zone 0\n", "add", 9, 1, "standard")
        self.changed(0, "zone 0\n", "remove", 9, 1)
        self.changed(0, "zone 1\n", "remove", 7, 4)
        self.assertEqual(self.read("zones"), before)

    def test_what_may_not_be_added(self):
        self.books()
        for zone, setting, dialect in ((7, 0, STANDARD), (7, 1, "222222222"), (7, 1, "none")):
            self.changed(2, "refused 95\n", "add", zone, setting, dialect)
        for setting in range(1, 22):
            self.changed(0, f"zone {setting - 1}\n", "add", 7, setting, STANDARD)
        self.changed(1, "refused 98\n", "add", 7, 22, STANDARD)
        self.changed(2, "refused 96\n", "add", 7, 21, STANDARD)

    def test_numbers_are_rejected_before_a_file_is_read(self):
        for words in (("lookup", "65536", "1"), ("lookup", "7", "4294967296"), ("lookup", "-1", "1"), ("lookup", "x", "1"), ("remove", "65536", "1")):
            ran = self.run_ducat("book", words[0], "no-such", "no-such", *words[1:])
            self.assertEqual((ran.status, ran.out), (2, ""))
            self.assertNotIn("No such file", ran.err)
        for blocks in ("0", "101", "x"):
            self.assertEqual(self.run_ducat("book", "new", blocks, "-o", self.at("new")).status, 2)
        self.assertFalse(os.path.exists(self.at("new")))

    def test_new_overwrites_nothing(self):
        self.put("there", "old")
        ran = self.run_ducat("book", "new", "1", "-o", self.at("there"))
        self.assertEqual((ran.status, ran.out, self.read("there")), (2, "", b"old"))

    def test_list(self):
        self.says(0, f"place 0, zone 7, setting 3, dialect {STANDARD}\nplace 1, zone 7, setting 5, dialect {EXTENDED}\n"
                  "place 2, zone 12, setting 4, dialect 111112111\n", "", "book", "list", ZONES)
        self.says(0, f"place 0, zone 0, setting 1, dialect {STANDARD}\nplace 1, zone 0, setting 6, dialect {EXTENDED}\n", "", "book", "list", LINE)

    def test_show(self):
        self.says(0, "setting     1 3 4 5 6\nzone 7      L Z Z Z Z\nzone 12     L L Z Z Z\nother zones L L L L L\n"
                  "Z the zone book answers, L the line book, . neither (97); a setting between two columns is answered as the left one\n", "",
                  "book", "show", ZONES, LINE)

    def test_the_grid_is_what_lookups_say(self):
        rng = random.Random(1)
        for _ in range(20):
            own = set(rng.sample(range(1, 9), rng.randint(0, 4)))
            line = set(rng.sample(range(1, 9), rng.randint(0, 4)))
            zones, lines = support.library().book_blank(1), support.library().book_blank(1)
            for setting in own:
                zones = support.library().book_add(zones, lines, 7, setting, bytes(9)).zone_book
            for setting in line:
                lines = support.library().book_add(zones, lines, 0, setting, bytes(9)).line_book
            for asked in range(1, 10):
                found = support.library().book_lookup(zones, lines, 7, asked)
                self.assertEqual(book.cell(own, line, asked), "." if type(found) is BookRefusal else "ZL"[found.book])

    def test_explained(self):
        ran = self.run_ducat("book", "lookup", "--explain", ZONES, LINE, "7", "4")
        self.assertEqual(ran.status, 0)
        for words in (STANDARD, "zone book samples/zones.book, zone 7, setting 3", "dialect standard", "enable_types disabled"):
            self.assertIn(words, ran.out)

    def test_why_a_book_is_refused(self):
        good = support.sample("zones.book")
        cases = {
            "block 0: its sum is": good[:10] + b"\x00" + good[11:],
            "a book has 1 to 100 blocks": good[:513],
            "place 0 (block 0): its setting is 0": self.sealed(good, 6, 0),
            "are not nine dialect bytes": self.sealed(good, 10, 2),
            "its last nine bytes are not zero": self.sealed(good, 27, 1),
            "its zone is 0": self.sealed(good, 4, 0),
            "block 0: it uses 500 bytes": self.sealed(good, 2, 0xf4)}
        for words, data in cases.items():
            with self.subTest(words):
                self.put("bad", data)
                for said in (self.run_ducat("book", "lookup", self.at("bad"), LINE, "7", "4").err,
                             self.run_ducat("book", "lookup", "--explain", self.at("bad"), LINE, "7", "4").out):
                    self.assertIn("refused 95", said)
                    self.assertIn(words, said)
        self.says(2, None, "", "book", "lookup", "--explain", "samples/damaged.book", LINE, "7", "4")

    def sealed(self, data, at, value):
        """A book with a byte of block 0 changed, and its sum updated."""
        block = bytearray(data[:508])
        block[at] = value
        return bytes(block) + sum((n + 1) * byte for n, byte in enumerate(block)).to_bytes(4, "little") + data[512:]

    def test_twice(self):
        good = bytearray(support.sample("zones.book"))
        good[28:52] = good[4:28]
        self.put("twice", self.sealed(bytes(good), 0, 0))
        ran = self.run_ducat("book", "lookup", "--explain", self.at("twice"), LINE, "7", "4")
        self.assertEqual(ran.status, 2)
        self.assertIn("zone 7 and setting 3 are at place 0 and at place 1", ran.out)

    def test_the_other_book_is_not_read(self):
        self.books()
        os.unlink(self.at("line"))
        self.changed(0, "zone 0\n", "add", 7, 3, STANDARD)
        self.changed(2, "", "add", 0, 3, STANDARD)

    def test_a_link_stays_a_link(self):
        self.books()
        os.rename(self.at("zones"), self.at("real"))
        os.symlink("real", self.at("zones"))
        self.changed(0, "zone 0\n", "add", 7, 3, STANDARD)
        self.assertTrue(os.path.islink(self.at("zones")))
        self.lookup(0, f"{STANDARD}\n", 7, 3)


class Checked(BookTest):
    def test_scripts_and_files_without_a_dialect(self):
        books = ("--books", ZONES, LINE, "--zone", "7", "--setting")
        self.assertEqual(self.run_ducat("check", "--quiet", *books, "4", "samples/toplevel.star").status, 1)
        self.assertEqual(self.run_ducat("check", "--quiet", *books, "5", "samples/toplevel.star").status, 0)
        self.assertEqual(self.run_ducat("check", "--quiet", *books, "4", "samples/toplevel.table").status, 1)
        self.assertEqual(self.run_ducat("check", "--quiet", *books, "5", "samples/toplevel.table").status, 0)

    def test_a_file_of_another_dialect_is_not_checked(self):
        ran = self.run_ducat("check", "--books", ZONES, LINE, "--zone", "7", "--setting", "5", "samples/clean.table")
        self.assertEqual((ran.status, ran.out), (2, ""))
        self.assertIn("its dialect is standard, and the books give extended", ran.err)
        self.says(0, None, None, "check", "--books", ZONES, LINE, "--zone", "7", "--setting", "4", "samples/clean.table")

    def test_where_the_lookup_refuses_nothing_is_checked(self):
        ran = self.run_ducat("check", "--books", ZONES, LINE, "--zone", "7", "--setting", "0", "samples/clean.star")
        self.assertEqual((ran.status, ran.out), (1, "refused 97\n"))
        ran = self.run_ducat("check", "--books", "samples/damaged.book", LINE, "--zone", "7", "--setting", "4", "samples/clean.star")
        self.assertEqual((ran.status, ran.out), (2, "refused 95\n"))

    def told(self, status, setting, *words):
        """The JSON of a check of zone 7 at a setting."""
        ran = self.run_ducat("check", "--json", "--books", ZONES, LINE, "--zone", "7", "--setting", setting, *words)
        self.assertEqual((ran.status, ran.err), (status, ""))
        return json.loads(ran.out)

    def test_json(self):
        told = self.told(2, "5", "samples/clean.table", "samples/toplevel.table")
        other, checked = told["inputs"]
        self.assertEqual((other["verdict"], other["failed"]), ("other dialect", "its dialect is standard, and the books give extended: it is not checked"))
        self.assertEqual((other["bytes"], "errors" in other), (len(support.sample("clean.table")), False))
        self.assertEqual((checked["verdict"], checked["dialect"]["name"], checked["dialect"]["given"]), ("accepted", "extended", True))
        self.assertEqual((told["totals"]["not_read"], told["totals"]["files"]), (1, 2))
        books = told["books"]
        self.assertEqual((books["zone"], books["setting"], books["zone_book"]["name"], books["line_book"]["name"]), (7, 5, ZONES, LINE))
        self.assertEqual(books["zone_book"]["bytes"], len(support.sample("zones.book")))

    def test_a_refused_lookup_in_json(self):
        book, = self.told(1, "0", "samples/clean.star")["inputs"]
        self.assertEqual((book["kind"], book["name"], book["refused"]["number"]), ("book", LINE, 97))
        ran = self.run_ducat("check", "--json", "--books", "samples/damaged.book", LINE, "--zone", "7", "--setting", "4", "samples/clean.star")
        told = json.loads(ran.out)
        book, = told["inputs"]
        self.assertEqual((ran.status, told["status"], book["name"], book["refused"]["number"], book["refused"]["book"]), (2, 2, "samples/damaged.book", 95, "zone"))
        self.assertIn("its sum is", book["refused"]["reason"])

    def test_formats_of_other_tools(self):
        books = ("--books", ZONES, LINE, "--zone", "7", "--setting")
        self.says(2, "samples/clean.table: error: its dialect is standard, and the books give extended: it is not checked [other-dialect]\n", "",
                  "check", "--format", "gcc", *books, "5", "samples/clean.table")
        ran = self.run_ducat("check", "--format", "sarif", *books, "5", "samples/clean.table")
        note, = json.loads(ran.out)["runs"][0]["invocations"][0]["toolExecutionNotifications"]
        self.assertEqual((ran.status, note["descriptor"]["id"]), (2, "other-dialect"))
        ran = self.run_ducat("check", "--format", "sarif", *books, "0", "samples/clean.table")
        result, = json.loads(ran.out)["runs"][0]["results"]
        self.assertEqual((ran.status, result["ruleId"]), (1, "97"))
        ran = self.run_ducat("check", "--format", "gcc", *books, "0", "samples/clean.table")
        self.assertEqual((ran.status, ran.out.startswith(f"{LINE}: error: "), ran.out[-6:]), (1, True, " [97]\n"))

    def test_explained_and_quiet(self):
        books = ("--books", ZONES, LINE, "--zone", "7", "--setting")
        ran = self.run_ducat("check", "--explain", *books, "5", "samples/clean.table")
        self.assertEqual((ran.status, ran.out), (2, ""))
        self.assertIn("the books give extended", ran.err)
        self.assertIn("dialect standard", self.run_ducat("check", "--explain", *books, "4", "samples/clean.star").out)
        for setting, status in (("5", 2), ("0", 1)):
            ran = self.run_ducat("check", "--quiet", *books, setting, "samples/clean.table")
            self.assertEqual((ran.status, ran.out, len(ran.err.splitlines())), (status, "", 1))

    def test_joined_scripts(self):
        pair = ("--join", "samples/toplevel.star", "samples/clean.star")
        self.assertEqual(self.told(1, "4", *pair)["inputs"][0]["dialect"]["name"], "standard")
        joined, = self.told(0, "5", *pair)["inputs"]
        self.assertEqual((joined["kind"], joined["dialect"]["name"], joined["errors"]), ("joined", "extended", []))

    def test_the_options_go_together(self):
        for words in (("--books", ZONES, LINE), ("--zone", "7"), ("--books", ZONES, LINE, "--zone", "7"),
                      ("--books", ZONES, LINE, "--zone", "7", "--setting", "4", "--dialect", "all")):
            self.assertEqual(self.run_ducat("check", *words, "samples/clean.star").status, 2)


class AtOnce(BookTest):
    def start(self, *words):
        return subprocess.Popen(command(*words), cwd=support.ROOT, stdout=subprocess.PIPE, stderr=subprocess.PIPE)

    def test_killed_at_100_moments(self):
        self.books(*((7, setting, STANDARD) for setting in range(1, 11)))
        draw, seen, longest = random.Random(213), {"old": 0, "new": 0}, 0
        old = self.read("zones")
        new = support.library().book_add(old, b"", 9, 1, bytes(map(int, STANDARD))).zone_book
        for number in range(100):
            self.put("zones", old)
            began = time.monotonic()
            running = self.start("book", "add", self.at("zones"), self.at("line"), "9", "1", STANDARD)
            if number % 8 == 0:  # a complete run, so that the moments of the next ones fit the load of the machine
                running.wait()
                longest = time.monotonic() - began
            until = began + draw.uniform(0, 1.2 * longest)
            while time.monotonic() < until and running.poll() is None:
                self.assertIn(self.read("zones"), (old, new))
            running.send_signal(signal.SIGKILL)
            running.communicate()
            found = self.read("zones")
            self.assertIn(found, (old, new))
            seen["new" if found == new else "old"] += 1
        self.assertTrue(seen["old"] and seen["new"], seen)
        # a command that was killed holds no lock
        self.put("zones", old)
        self.changed(0, "zone 10\n", "add", 9, 1, STANDARD)

    def test_two_writers_100_times(self):
        for turn in range(100):
            self.put("zones", support.library().book_blank(1))
            self.put("line", support.library().book_blank(1))
            first = self.start("book", "add", self.at("zones"), self.at("line"), "7", "1", STANDARD)
            second = self.start("book", "add", self.at("zones"), self.at("line"), "7", "2", EXTENDED)
            said = sorted(child.communicate()[0] for child in (first, second))
            self.assertEqual(said, [b"zone 0\n", b"zone 1\n"], turn)
            self.assertEqual({entry.setting for entry in book.entries(self.read("zones"))}, {1, 2})
