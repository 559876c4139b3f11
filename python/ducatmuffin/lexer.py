"""The tokens of a Starlark script, as in the crate's lexer.rs. No part of this is proved.

    tokens(script) -> Tokens        script: bytes that are UTF-8

All places are bytes of the script. The lexer does not raise an error for what is not Starlark: the last token is then an ERROR, and the parser raises it
when it reaches it, so that the first error is reported.

Kinds of tokens: a keyword or a symbol is its own kind ("def", "+="). The others are the names below.
"""
import re

NAME, INT, FLOAT, STRING, BYTES = "name", "int", "float", "string", "bytes"
NEWLINE, INDENT, DEDENT, END, ERROR = "newline", "indent", "dedent", "end", "error"
# an f-string: its start, then for each field FIELD, the tokens of an expression, perhaps BANG and a name, and FIELD_END; its end
FSTRING, FIELD, BANG, FIELD_END, FSTRING_END = "f-string", "field", "bang", "field end", "f-string end"

KEYWORDS = ("and", "break", "continue", "def", "elif", "else", "for", "if", "in", "lambda", "load", "not", "or", "pass", "return")
RESERVED = frozenset(b"as assert async await class del except finally from global import is nonlocal raise try while with yield".split())
SYMBOLS = ("...", "//=", "<<=", ">>=", "->", "**", "//", "<<", ">>", "+=", "-=", "*=", "/=", "%=", "&=", "|=", "^=", "==", "!=", "<=", ">=",
           ",", ";", ":", "+", "-", "*", "%", "/", ".", "&", "|", "^", "~", "=", "<", ">", "(", ")", "[", "]", "{", "}")
WORDS = {word.encode(): word for word in KEYWORDS + SYMBOLS}
MARK = b"\xef\xbb\xbf"  # a byte order mark: some editors put it before UTF-8

# blanks and a token. A string is matched here if it is in one line and has no backslash; otherwise only its quotes are matched.
TOKEN = re.compile(rb"""
    [ ]*
    (?: (?P<symbol>[,)(=:.\]\[](?![=.0-9]))
      | (?P<string>r?(?:"[^"\\\n]+" | '[^'\\\n]+'))
      | (?P<quote>(?:r|b|br|rb|f|fr)?(?:\"\"\" | ''' | " | '))
      | (?P<name>[a-zA-Z_][a-zA-Z0-9_]*)
      | (?P<newline>\r?\n)
      | (?P<skipped>\\\r?\n | \#[^\r\n]*)
      | (?P<float>[0-9]+\.[0-9]*(?:[eE][-+]?[0-9]+)? | [0-9]+[eE][-+]?[0-9]+ | \.[0-9]+(?:[eE][-+]?[0-9]+)?)
      | (?P<int>0[xX][A-Fa-f0-9]+ | 0[bB][01]+ | 0[oO][0-7]+ | [0-9]+)
      | (?P<other>""" + b" | ".join(re.escape(symbol.encode()) for symbol in SYMBOLS) + rb""")
      | (?P<end>\Z)
    )""", re.VERBOSE)
QUOTE = re.compile(rb"([a-z]*)(.+)")
SPACES = re.compile(rb" *")
BLANKS = re.compile(rb"[ \t\r]*")  # at the begin of a line
# where the characters of a string, or the text of an f-string, must be read one by one
STOPS = {quote: re.compile(rb'[\\\n' + quote + rb']' if len(quote) == 1 else rb'\\|' + quote) for quote in (b'"', b"'", b'"""', b"'''")}
TEXT_STOPS = {quote: re.compile(rb'[{}\\\n' + quote + rb']' if len(quote) == 1 else rb'[{}\\]|' + quote) for quote in STOPS}
ESCAPE = re.compile(rb"\\(?:x[0-9a-fA-F]{2} | u([0-9a-fA-F]{4}) | U([0-9a-fA-F]{8}) | \r\n | ([0-7]{1,3}) | [^xuU\r])", re.VERBOSE | re.DOTALL)
RAW_ESCAPE = re.compile(rb"\\.", re.DOTALL)


class NotStarlark(Exception):
    """Why bytes are not a Starlark script, and where."""

    def __init__(self, message, begin, end=None):
        super().__init__(message)
        self.message, self.begin, self.end = message, begin, begin + 1 if end is None else end


class Tokens:
    """The tokens of a script: their kinds and where they begin and end. `opened` are the brackets that are not closed, `fstrings` the f-strings by where
    they begin."""

    def __init__(self, script):
        self.script, self.kinds, self.begins, self.ends, self.error, self.opened, self.fstrings = script, [], [], [], None, [], {}

    def add(self, kind, begin, end):
        self.kinds.append(kind)
        self.begins.append(begin)
        self.ends.append(end)


class Field:
    """An f-string: its quote, whether it is raw, where it begins, the number of brackets that are open where its field begins, and its texts as they are
    written, before, between and after its fields."""

    __slots__ = ("quote", "raw", "begin", "depth", "texts")

    def __init__(self, quote, raw, begin, depth):
        self.quote, self.raw, self.begin, self.depth, self.texts = quote, raw, begin, depth, []


def tokens(script):
    """All tokens of a script. A byte order mark is skipped."""
    lexer = Lexer(script)
    try:
        lexer.run(len(MARK) if script.startswith(MARK) else 0)
    except NotStarlark as error:
        lexer.found.error = error
        lexer.found.add(ERROR, error.begin, error.end)
    return lexer.found


class Lexer:
    """Reads a script once. `levels` are the indentations of the blocks around, `opened` the open brackets, `fields` the f-strings around."""

    def __init__(self, script):
        self.script, self.found = script, Tokens(script)
        self.levels, self.opened, self.fields = [0], self.found.opened, []

    def run(self, at):
        """Adds all tokens from a place on."""
        script, add, match, words = self.script, self.found.add, TOKEN.match, WORDS
        at = self.indentation(at)
        while True:
            token = match(script, at)
            if token is None:
                at = self.unmatched(at)
                continue
            group = token.lastgroup
            begin, end = token.span(group)
            if group == "name":
                text = token[group]
                if text in RESERVED:
                    raise NotStarlark(f"`{text.decode()}` is a reserved word", begin, end)
                add(words.get(text, NAME), begin, end)
            elif group == "symbol" or group == "other":
                end = self.symbol(words[token[group]], begin, end)
            elif group == "newline":
                if not self.opened and not self.fields:
                    add(NEWLINE, begin, end)
                    end = self.indentation(end)
            elif group == "string":
                add(STRING, begin, end)
            elif group == "quote":
                end = self.quoted(begin, end)
            elif group == "end":
                return self.ended(begin)
            elif group != "skipped":
                self.number(group, begin, end)
            at = end

    def ended(self, at):
        """The tokens at the end of the script."""
        if self.fields:
            raise NotStarlark("a field of an f-string is not closed", self.fields[-1].begin, at)
        self.found.add(NEWLINE, at, at)
        for _ in self.levels[1:]:
            self.found.add(DEDENT, at, at)
        self.found.add(END, at, at)

    def indentation(self, at):
        """Skips blank lines and comments, and compares the indentation of the next line with that of its block. Returns its end."""
        script = self.script
        while True:
            end = BLANKS.match(script, at).end()
            byte = script[end:end + 1]
            if byte == b"#":
                end = script.find(b"\n", end)
                if end < 0:
                    return len(script)
            elif not byte:
                return end
            elif byte != b"\n":
                break
            at = end + 1
        blanks = script[at:end]
        if b"\t" in blanks:
            raise NotStarlark("a tab is not allowed in indentation", at + blanks.index(b"\t"))
        width = len(blanks) - blanks.count(b"\r")
        if width > self.levels[-1]:
            self.levels.append(width)
            self.found.add(INDENT, at, end)
        while width < self.levels[-1]:
            self.levels.pop()
            if width > self.levels[-1]:
                raise NotStarlark("the indentation matches no block around this line", at, end)
            self.found.add(DEDENT, at, at)
        return end

    def symbol(self, kind, begin, end):
        """A symbol. `}` may be the end of a field of an f-string; then the text of the f-string continues."""
        if kind in ("(", "[", "{"):
            self.opened.append(begin)
        elif kind in (")", "]", "}"):
            if kind == "}" and self.fields and self.fields[-1].depth == len(self.opened):
                self.found.add(FIELD_END, begin, end)
                return self.text(end)
            if self.opened:
                self.opened.pop()
        self.found.add(kind, begin, end)
        return end

    def number(self, kind, begin, end):
        text = self.script[begin:end]
        if kind == INT and len(text) > 1 and text[:1] == b"0" and text.isdigit():
            raise NotStarlark(f"an integer cannot begin with 0: {text[:40].decode()}", begin, end)
        self.found.add(kind, begin, end)

    def unmatched(self, at):
        """What begins no token: the `!` of a field, directly after its expression, or an error."""
        begin = SPACES.match(self.script, at).end()
        byte = self.script[begin:begin + 1]
        if byte == b"!" and self.fields and self.fields[-1].depth == len(self.opened) and begin == self.found.ends[-1]:
            self.found.add(BANG, begin, begin + 1)
            return begin + 1
        if byte == b"\t":
            raise NotStarlark("a tab is not allowed outside strings and comments", begin)
        if byte == b"\r":
            raise NotStarlark("a carriage return without a newline after it", begin)
        if byte == b"\\":
            raise NotStarlark("a `\\` outside strings must be the last character of its line", begin)
        if byte == b"!" and self.fields:
            raise NotStarlark("a `!` must follow the expression of a field directly", begin)
        character = self.script[begin:begin + 4].decode(errors="ignore")[0]
        end = begin + len(character.encode())
        if not character.isprintable():
            raise NotStarlark(f"Starlark has no such character: U+{ord(character):04X}", begin, end)
        raise NotStarlark(f"Starlark has no `{character}` outside strings and comments", begin, end)

    # ---- strings

    def quoted(self, begin, end):
        """A string from its quotes, or the start of an f-string and its first text."""
        script = self.script
        prefix, quote = QUOTE.match(script, begin, end).groups()
        raw = b"r" in prefix
        if b"f" in prefix:
            self.found.add(FSTRING, begin, end)
            self.found.fstrings[begin] = field = Field(quote, raw, begin, None)
            self.fields.append(field)
            return self.text(end)
        stops, kind = STOPS[quote], BYTES if b"b" in prefix else STRING
        at = end
        while True:
            stop = stops.search(script, at)
            if stop is None or stop[0] == b"\n":
                raise self.unfinished(begin, stop)
            if stop[0] == quote:
                self.found.add(kind, begin, stop.end())
                return stop.end()
            at = self.escape(stop.start(), raw, kind, begin)

    def text(self, at):
        """The text of the innermost f-string, to its next field or its end."""
        field, script, first = self.fields[-1], self.script, at
        stops = TEXT_STOPS[field.quote]
        while True:
            stop = stops.search(script, at)
            if stop is None or stop[0] == b"\n":
                raise self.unfinished(field.begin, stop)
            begin, end, text = stop.start(), stop.end(), stop[0]
            if text == field.quote:
                self.found.add(FSTRING_END, begin, end)
                self.fields.pop()
                field.texts.append(script[first:begin])
                return end
            if text == b"\\":
                at = self.escape(begin, field.raw, FSTRING, field.begin)
            elif script[end:end + 1] == text:  # a doubled brace
                at = end + 1
            elif text == b"{":
                self.found.add(FIELD, begin, end)
                field.depth = len(self.opened)
                field.texts.append(script[first:begin])
                return end
            else:
                raise NotStarlark("a `}` that closes no field of the f-string: `}}` is the character", begin)

    def unfinished(self, begin, stop):
        return NotStarlark("a string that is not closed" + (" in its line" if stop else ""), begin, stop.start() if stop else len(self.script))

    def escape(self, at, raw, kind, begin):
        """Where a `\\` and what belongs to it ends. In a raw string that is the next character."""
        found = (RAW_ESCAPE if raw else ESCAPE).match(self.script, at)
        if found is None:
            if at + 1 == len(self.script):
                raise NotStarlark("a string that is not closed", begin, at + 1)
            raise NotStarlark("an escape that Starlark does not have: \\x has 2 hexadecimal digits, \\u 4 and \\U 8", at, at + 2)
        if not raw:
            digits, octal = found[1] or found[2], found[3]
            code = int(digits, 16) if digits else 0
            if 0xD800 <= code < 0xE000 or code > 0x10FFFF:
                raise NotStarlark(f"an escape that is not a character: {found[0].decode()}", at, found.end())
            if octal and kind == BYTES and int(octal, 8) > 255:
                raise NotStarlark(f"an escape that is not a byte: {found[0].decode()}", at, found.end())
        return found.end()
