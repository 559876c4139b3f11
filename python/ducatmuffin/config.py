"""The configuration file ducat.ini: the dialect of scripts, what a search leaves out, which other files are scripts, and what `ducat bind` expects.

    [ducat]
    dialect = standard
    exclude =
        generated
        *.tmp.star
    as-script =
        *.bzl.tpl
    expect =
        order.trains=trains
"""
import os

from . import dialects
from .output import Failed, named

NAME = "ducat.ini"
SECTION = "ducat"
KEYS = ("dialect", "exclude", "as-script", "expect")
MOST = 1 << 20  # bytes


class Configuration:
    """The contents of a file. `dialect` is the word in it, or None."""

    def __init__(self, path, dialect=None, exclude=(), as_script=(), expect=()):
        self.path, self.dialect, self.exclude, self.as_script, self.expect = path, dialect, tuple(exclude), tuple(as_script), tuple(expect)


def load(path=None):
    """The configuration that --config names, or the one of the current folder; None if there is none."""
    if path is None:
        if not os.path.lexists(NAME):
            return None
        path = NAME
    try:
        with open(path, "rb") as file:
            data = file.read(MOST + 1)
    except OSError as error:
        raise Failed(f"{path}: {error.strerror or error}") from None
    if len(data) > MOST:
        raise Failed(f"{path}: more than {MOST:,} bytes")
    return parsed(path, data)


def parsed(path, data):
    import configparser
    parser = configparser.ConfigParser(interpolation=None, default_section="")
    try:
        parser.read_string(data.decode("utf-8-sig"), source=path)
    except UnicodeDecodeError:
        raise Failed(f"{path}: not UTF-8") from None
    except configparser.Error as error:
        raise Failed(f"{path}: {' '.join(str(error).split())}") from None
    for section in parser.sections():
        if section != SECTION:
            raise Failed(f"{path}: there is no section [{section}], only [{SECTION}]")
        for key in parser[section]:
            if key not in KEYS:
                raise Failed(f"{path}: there is no key {key}, only {', '.join(KEYS)}")
    held = parser[SECTION] if parser.has_section(SECTION) else {}
    dialect = held.get("dialect")
    if dialect is not None:
        try:
            dialects.of(dialect)
        except ValueError as error:
            raise Failed(f"{path}: {error}") from None
    lists = ([line.strip() for line in held.get(key, "").splitlines() if line.strip()] for key in KEYS[1:])
    return Configuration(path, dialect, *lists)


def told(configuration, dialect, excluded):
    """The line on standard error for a run that uses a configuration."""
    return f"configuration {configuration.path}: dialect {dialect}, {excluded:,} path{'' if excluded == 1 else 's'} excluded"


def in_json(configuration, dialect, excluded):
    return {**named(configuration.path), "dialect": dialect, "excluded": excluded} if configuration else None
