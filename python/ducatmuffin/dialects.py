"""Dialects by their names: what --dialect takes, and how a dialect and an edition of the type rules are named in what is printed."""
import re

from .numbers import DIALECT_BYTES, DIALECTS

MEANT = "extended"  # where there is none
EDITION = 1  # the edition of the type rules if none is given
FORM = "standard, extended, all, none or nine digits"


def of(word):
    """The bytes of a dialect's name or digits; None for none. The library decides which digits are a dialect (5)."""
    if word.lower() == "none":
        return None
    if word.lower() in DIALECTS:
        return DIALECTS[word.lower()]
    if re.fullmatch(f"[0-9]{{{DIALECT_BYTES}}}", word):
        return bytes(int(digit) for digit in word)
    raise ValueError(f"{word} is not a dialect: {FORM}")


def name_of(dialect):
    """The name of nine bytes, or their digits."""
    for name, row in DIALECTS.items():
        if row == dialect:
            return name
    return "".join(str(byte) if byte < 10 else f"[{byte}]" for byte in dialect)


def told(dialect, script=False):
    """The dialect in use, and a note if none was given."""
    return name_of(dialect) if dialect else f"{MEANT} ({'none is given' if script else 'the file has none'})"


def edition_told(edition):
    """The text after a dialect if an edition of the type rules is given."""
    return "" if edition is None else f", edition {int(edition)}"


def edition_json(edition):
    """If none is given, edition 1 applies."""
    return {"number": int(edition or EDITION), "given": edition is not None}


def in_json(dialect):
    return {"name": name_of(dialect), "bytes": list(dialect), "given": True} if dialect else \
        {"name": MEANT, "bytes": list(DIALECTS[MEANT]), "given": False}


def both_json(dialect, edition):
    """A dialect and an edition, as the keys of an input."""
    return {"dialect": in_json(dialect), "edition": edition_json(edition)}
