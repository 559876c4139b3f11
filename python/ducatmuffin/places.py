"""Places in a script: from bytes to line and column, and a line with carets under a span."""
import bisect
import re

TAB = 8  # columns
LONGEST = 120  # characters of a script's line that are shown


class Source:
    """A script by its lines."""

    def __init__(self, path, data):
        self.path, self.bytes = path, data
        self.starts = [0] + [match.end() for match in re.finditer(b"\n", data)]

    def line_at(self, at):
        """The line, from 0, of a byte."""
        return bisect.bisect_right(self.starts, at) - 1

    def line_before(self, at):
        """The characters before a byte in its line. A byte order mark is not counted."""
        before = self.bytes[self.starts[self.line_at(at)]:at].decode("utf-8", "replace")
        return before[1:] if before.startswith("\ufeff") else before

    def line_column(self, at):
        """The line and column of a byte: both from 1, and columns count characters."""
        return self.line_at(at) + 1, len(self.line_before(at)) + 1

    def is_beyond(self, begin, end):
        """Whether a span is outside the script."""
        return len(self.bytes) < begin or begin == len(self.bytes) < end

    def drawn(self, begin, end):
        """The line of a span inside the script, a caret under each column of it, and a note on what these do not show."""
        stop = self.bytes.find(b"\n", begin)
        stop = len(self.bytes) if stop < 0 else stop
        within, after = (self.bytes[a:b].decode("utf-8", "replace") for a, b in ((begin, min(end, stop)), (min(end, stop), stop)))
        line, carets = drawn(self.line_before(begin), within, after)
        return [line, carets + self.unseen(begin, end)]

    def unseen(self, begin, end):
        if begin == end:
            return " (an empty span)"
        if len(self.bytes) < end:
            return f" (to byte {end}, beyond the script's {len(self.bytes)})"
        last = self.line_at(end - 1)
        return f" (to line {last + 1})" if self.line_at(begin) < last else ""


def cell(c, column):
    """How a character is shown in a column, and the number of columns that it takes. A carriage return belongs to the line's end."""
    import unicodedata
    if c == "\r":
        return "", 0
    if c == "\t":
        return " " * (TAB - column % TAB), TAB - column % TAB
    width = 2 if unicodedata.east_asian_width(c) in "WF" else 1
    if unicodedata.category(c) == "Zs":
        return " " * width, width
    if not c.isprintable():
        return "?", 1
    return c, 0 if unicodedata.category(c) in ("Mn", "Me") else width


def drawn(before, within, after):
    """A line of three parts, and carets under the second. Of a long line only the part around the begin of the second is shown."""
    text, first = before + within + after, len(before)
    start = max(0, min(first - LONGEST // 3, len(text) - LONGEST))
    stop = min(len(text), start + LONGEST)
    line = "…" if start else ""
    column, left, carets = len(line), len(line), 0
    for at in range(start, stop):
        said, width = cell(text[at], column)
        line, column = line + said, column + width
        if at < first:
            left = column
        elif at < first + len(within):
            carets += width
    return line + ("…" if stop < len(text) else ""), " " * left + "^" * max(1, carets)
