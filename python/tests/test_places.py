"""Places in a script: lines, columns, and carets under a span."""
import unittest

import support
from command import CommandTest
from ducatmuffin.places import Source

WORDS = ": 55 `break` is outside a `for` loop"
# a script, spans in it, and what is printed for an error at each
CARETS = [
    # a tab, wide characters, one that combines, a mark that changes the direction, a byte that is not a character
    (b"a\tb = 1\n\tc\n", "2-3 9-10 8-10", """odd.star:1:3:
    a       b = 1
            ^
odd.star:2:1:
            c
    ^^^^^^^^^
odd.star:2:2:
            c
            ^
"""),
    ("駅 = \"東京\", x\ncafe\u0301 = y\n\u202ez".encode() + b"\xff = w", "0-3 6-14 16-17 18-24 27-28 29-32 33-34 36-37", """odd.star:1:1:
    駅 = "東京", x
    ^^
odd.star:1:5:
    駅 = "東京", x
         ^^^^^^
odd.star:1:11:
    駅 = "東京", x
                 ^
odd.star:2:1:
    cafe\u0301 = y
    ^^^^
odd.star:2:9:
    cafe\u0301 = y
           ^
odd.star:3:1:
    ?z\ufffd = w
    ^
odd.star:3:3:
    ?z\ufffd = w
      ^
odd.star:3:6:
    ?z\ufffd = w
         ^
"""),
    # several lines, empty, at the end, beyond the end, half beyond it; lines that end in CR LF
    (b"one = [\r\n  1,\r\n]\r\n", "0-9 0-16 3-3 6-7 7-8 13-14 17-21 18-18 18-19 400-500", """odd.star:1:1:
    one = [
    ^^^^^^^
odd.star:1:1:
    one = [
    ^^^^^^^ (to line 3)
odd.star:1:4:
    one = [
       ^ (an empty span)
odd.star:1:7:
    one = [
          ^
odd.star:1:8:
    one = [
           ^
odd.star:2:5:
      1,
        ^
odd.star:3:3:
    ]
     ^ (to byte 21, beyond the script's 18)
odd.star:4:1:

    ^ (an empty span)
odd.star:
    (bytes 18 to 19, beyond the script's 18)
odd.star:
    (bytes 400 to 500, beyond the script's 18)
"""),
    # an empty script, one that begins with a byte order mark, a long line
    (b"", "0-0 0-1", """odd.star:1:1:

    ^ (an empty span)
odd.star:
    (bytes 0 to 1, beyond the script's 0)
"""),
    (b"\xef\xbb\xbfbreak", "3-8", "odd.star:1:1:\n    break\n    ^^^^^\n"),
    ("".join(f"{number:04} " for number in range(100)).encode(), "0-4 250-254 250-499 495-499",
     "odd.star:1:1:\n    " + "".join(f"{number:04} " for number in range(24)) + "…\n    ^^^^\n"
     "odd.star:1:251:\n    …" + "".join(f"{number:04} " for number in range(42, 66)) + "…\n    " + " " * 41 + "^^^^\n"
     "odd.star:1:251:\n    …" + "".join(f"{number:04} " for number in range(42, 66)) + "…\n    " + " " * 41 + "^" * 80 + "\n"
     "odd.star:1:496:\n    …" + "".join(f"{number:04} " for number in range(76, 100)).rstrip() + "\n    " + " " * 116 + "^^^^\n"),
]


@support.each(lambda self, script, spans, drawn: self.carets(script, spans, drawn), CARETS, "carets")
class Carets(CommandTest):
    def carets(self, script, spans, drawn):
        """A table of one `break` for each span, against a script."""
        path = self.made("odd", "(Statements " + " ".join(f"(Break span={span})" for span in spans.split()) + ")")
        self.put("odd.star", script)
        ran = self.run_ducat("check", "--script", "odd.star", path, cwd=self.room)
        self.assertEqual((ran.status, ran.err), (1, ""))
        lines = ran.out.splitlines()[1:-1]
        self.assertEqual("\n".join(line.replace(WORDS, ":") for line in lines) + "\n", drawn)


class Places(unittest.TestCase):
    def test_every_byte_has_a_line_and_a_column(self):
        script = "a\r\né = '東'\n\nx".encode()
        source = Source("x.star", script)
        for at in range(len(script) + 1):
            before = script[:at].decode("utf-8", "replace")
            line, column = before.count("\n") + 1, len(before) - before.rfind("\n")
            self.assertEqual(source.line_column(at), (line, column))


class Scripts(CommandTest):
    """--script, and the script beside a table file."""

    PLACED = """nodes 6
{0}:1:15: 13 a parameter without a default follows one that has a default
    def f(a, b=1, c):
                  ^
{0}:2:3: 55 `break` is outside a `for` loop
      break
      ^^^^^
errors 2
"""

    def test_script(self):
        star = self.put("order.star", support.sample("example.star"))
        path = self.put("order.table", support.sample("example.table"))
        self.says(1, self.PLACED.format(star), "", "check", "--script", star, "samples/example-none.table")
        self.says(1, self.PLACED.format(star), "", "check", "--script", star, "-", input=support.sample("example.table"))
        self.says(1, support.sample("example.out").decode(), "", "check", path)
        self.assertIn(f"{star}:2:3: 55 ", self.run_ducat("check", "--explain", path).out)

    def test_script_that_cannot_be_read(self):
        self.says(2, "", "ducat: samples/missing.star: No such file or directory\n", "check", "--script", "samples/missing.star",
                  "samples/example.table")
        self.says(2, "", "ducat: samples: Is a directory\n", "check", "--script", "samples", "samples/example.table")
        self.says(2, "", None, "check", "samples/example.table", "--script")
        self.says(2, "", "ducat: --script is for table files, not for scripts\n", "check", "--script", "samples/clean.star",
                  "samples/clean.star")


if __name__ == "__main__":
    unittest.main()
