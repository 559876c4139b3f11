"""Format texts: parts to a text and back, through the library."""
import itertools
import unittest

import support
from ducatmuffin import numbers
from ducatmuffin.library import Formatted, Parts, Refusal

ALL = numbers.DIALECTS["all"]


def write(parts, dialect=ALL, **others):
    return support.library().fstring_write(parts, dialect, **others)


def write_words(words, texts, dialect=ALL, **others):
    return support.library().fstring_write_words(words, texts, dialect, **others)


def read(text, **others):
    return support.library().fstring_read(text, **others)


def refusal(number, **carried):
    return Refusal(number, numbers.WORDS[number], **carried)


def normal(parts):
    """Adjacent texts joined, empty ones left out, str as none."""
    found = []
    for is_text, group in itertools.groupby(parts, lambda part: isinstance(part, bytes)):
        joined = [b"".join(group)] if is_text else ["none" if part == "str" else part for part in group]
        found += [part for part in joined if part != b""]
    # an empty text between two texts leaves neighbours
    return found if found == parts else normal(found)


class Writing(unittest.TestCase):
    def test_text(self):
        parts = [b"{train", b"} ", "str", b"", b" at ", "repr", "none"]
        self.assertEqual(write(parts), Formatted(b"{{train}} {} at {!r}{}", True))
        self.assertEqual(write([]), Formatted(b"", True))
        self.assertEqual(write([b"\xc3", b"\xa9"]), Formatted("é".encode(), True))

    def test_notice(self):
        for dialect in (None, b"", numbers.DIALECTS["standard"], numbers.DIALECTS["extended"]):
            answer = write([b"}", "repr"], dialect)
            self.assertEqual((answer, answer.notice), (Formatted(b"}}{!r}", False), 62))
        self.assertIsNone(write([b"a"]).notice)

    def test_refusals(self):
        self.assertEqual(write([b"a"], b"12345678"), refusal(5))
        for words, texts in (([0], b""), ([1, 0, 0], b""), ([4, 0], b""), ([2 ** 32 - 1, 0], b""), ([1, 1], b""), ([0, 2], b"a"), ([0, 0], b"a"),
                             ([0, 2 ** 32 - 1, 0, 1], b"")):
            self.assertEqual(write_words(words, texts, room=0), refusal(64))
        self.assertEqual(write_words([4, 0], b"", b"1"), refusal(5))

    def test_room(self):
        for parts, needed in (([b"{a}"], 5), (["none"], 2), (["str"], 2), (["repr"], 4), ([b"a", "repr", b"}"], 7), ([], 0)):
            for room in range(needed):
                self.assertEqual(write(parts, room=room), refusal(7))
            for room in (needed, needed + 1, 100000):
                self.assertEqual(len(write(parts, room=room).data), needed)

    def test_what_is_no_part(self):
        for bad in ("text", "", 5, None):
            with self.assertRaises((TypeError, ValueError)):
                write([bad])
        for bad in (-1, 2 ** 32):
            with self.assertRaises(ValueError):
                write_words([0, bad], b"")


class Reading(unittest.TestCase):
    def test_parts(self):
        self.assertEqual(read(b"{{train}} {} at {!r}{}"), Parts((b"{train} ", "none", b" at ", "repr", "none")))
        self.assertEqual(read(b""), Parts(()))
        self.assertEqual(read(b"{{!r}}"), Parts((b"{!r}",)))

    def test_stray(self):
        for text, at in ((b"{{}", 2), (b"{}}", 2), (b"{!s}", 0), (b"{a}", 0), (b"a{!r", 1), (b"{", 0), (b"}", 0), (b"{}" * 300 + b"{", 600)):
            self.assertEqual(read(text), refusal(63, position=at))
            self.assertEqual(read(text, room=0, texts_room=0), refusal(63, position=at))

    def test_room(self):
        text, answer = b"a{}b}}", Parts((b"a", "none", b"b}"))
        for room in range(6):
            self.assertEqual(read(text, room=room), refusal(7))
        for texts_room in range(3):
            self.assertEqual(read(text, texts_room=texts_room), refusal(7))
        for room in (6, 7, 100000):
            self.assertEqual(read(text, room=room, texts_room=3), answer)


class Back(unittest.TestCase):
    def test_parts_and_back(self):
        each = [b"", b"a", b"{", b"}", b"r}", "none", "str", "repr"]
        for length in range(4):
            for parts in itertools.product(each, repeat=length):
                self.assertEqual(list(read(write(list(parts)).data).parts), normal(list(parts)), parts)

    def test_texts_and_back(self):
        for length in range(6):
            for letters in itertools.product(b"{}!ra", repeat=length):
                text = bytes(letters)
                answer = read(text)
                if answer.accepted:
                    self.assertEqual(write(answer.parts).data, text)
                else:
                    self.assertIn(text[answer.position:answer.position + 1], (b"{", b"}"))


if __name__ == "__main__":
    unittest.main()
