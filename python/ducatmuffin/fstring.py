"""The parts of an f-string, as the crate's lexer gives them to fstring_from_parts in grammar_util.rs. A text is bytes with its escapes resolved; a field is
its conversion: "none", "str" or "repr". No part of this is proved.

    parts = parts_of(texts, conversions, quote, raw)     a text before, between and after the fields; empty ones are left out

Their format text is the library's answer (fstring_write).
"""
import re

CONVERSIONS = {None: "none", b"s": "str", b"r": "repr"}
LETTERS = {b"n": b"\n", b"r": b"\r", b"t": b"\t", b"a": b"\x07", b"b": b"\x08", b"f": b"\x0c", b"v": b"\x0b", b'"': b'"', b"'": b"'", b"\\": b"\\"}
# a doubled brace, a carriage return, which is left out, or an escape: of a character by its number, of a line's end, or another
WRITTEN = re.compile(rb"(\{\{|\}\})|\r|\\(?:x(..)|u(.{4})|U(.{8})|([0-7]{1,3})|(\r?\n)|(.))", re.DOTALL)
RAW = re.compile(rb"(\{\{|\}\})|\r|\\(.)", re.DOTALL)


def resolved(found):
    """The text that a match of WRITTEN denotes."""
    brace, *hexadecimal, octal, line, letter = found.groups()
    if brace:
        return brace[:1]
    digits = next(filter(None, hexadecimal), None)
    if digits or octal:
        return chr(int(digits, 16) if digits else int(octal, 8)).encode()
    if letter is None:
        return b""  # a line's end, or a carriage return
    return LETTERS.get(letter, b"\\" + letter)


def text_of(text, quote, raw):
    """The text that a part of an f-string denotes. In a raw one a `\\` is removed only before the quote."""
    if not raw:
        return WRITTEN.sub(resolved, text)

    def kept(found):
        brace, after = found.groups()
        return brace[:1] if brace else b"" if after is None else after if after == quote[:1] else b"\\" + after

    return RAW.sub(kept, text)


def parts_of(texts, conversions, quote, raw):
    """The parts, from the bytes between the fields as they are written and the letter after each field's `!`, or None."""
    parts = []
    for at, text in enumerate(texts):
        parts += [text_of(text, quote, raw)] if text else []
        parts += [CONVERSIONS[conversions[at]]] if at < len(conversions) else []
    return [part for part in parts if part]
