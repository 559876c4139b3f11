"""The scripts of a table, by source file number: those that --script names, those beside a table file, and those that were joined."""
import os
import re

from . import inputs
from .numbers import NODE_BYTES
from .output import Failed, named
from .places import Source
from .table import LAST_FILE

NUMBERED = re.compile("([0-9]+)=(.*)", re.S)
ENDING, SCRIPT = ".table", ".star"


class Scripts:
    """A script for each source file number in `by_file`, or one for `every` number. `lacking` says, with a number, how a missing one is given."""

    def __init__(self, by_file=None, every=None, lacking=None):
        self.by_file, self.every, self.lacking = by_file or {}, every, lacking

    def __bool__(self):
        return bool(self.every or self.by_file)

    def of(self, file):
        return self.every or self.by_file.get(file)

    @property
    def paths(self):
        return self.every.path if self.every else ", ".join(source.path for _, source in sorted(self.by_file.items()))

    def note(self, file):
        """Why a number has no script; None if it has one, or none is needed."""
        if self.of(file) or not self.lacking:
            return None
        return f"source file {file} has no script: {self.lacking.format(file)}"

    def in_json(self):
        """The script of all numbers, or the scripts by their numbers."""
        if self.every:
            return {"script": named(self.every.path)}
        return {"scripts": [{"file": file, **named(source.path)} for file, source in sorted(self.by_file.items())]} if self.by_file else {}


NONE = Scripts()


def files_of(table):
    """The source file numbers of a sound table, the least first. A root Statements has none."""
    return sorted({low | high << 8 for low, high in zip(table[18::NODE_BYTES], table[19::NODE_BYTES])} - {0})


# ---- --script

def parsed(words):
    """What the words of --script name: (None, SCRIPT) for all numbers, or (N, SCRIPT) for each. Raises Failed for wrong usage."""
    found = []
    for word in words:
        numbered = NUMBERED.fullmatch(word)
        number = int(numbered[1][:6]) if numbered else None
        if numbered and not 1 <= number <= LAST_FILE:
            raise Failed(f"--script {word}: a source file number is 1 to {LAST_FILE}")
        found.append((number, numbered[2] if numbered else word))
    numbers = [number for number, _ in found]
    if None in numbers and len(numbers) > 1:
        raise Failed("--script SCRIPT means all source file numbers, so it is given once and alone; --script N=SCRIPT names one of several")
    for number in numbers:
        if numbers.count(number) > 1:
            raise Failed(f"--script {number}=SCRIPT is given twice")
    return found


def read(found):
    """The scripts of parsed words; None if there are none."""
    if not found:
        return None
    if found[0][0] is None:
        return Scripts(every=source_of(found[0][1]))
    return Scripts({number: source_of(path) for number, path in found}, lacking="--script {0}=SCRIPT names it")


def source_of(path):
    """A script that --script names."""
    try:
        return Source(path, inputs.read_script(inputs.Input(path)))
    except (OSError, ValueError) as error:
        raise Failed(f"{path}: {inputs.reason(error)}") from None


# ---- beside a table file

def beside(path, table):
    """X.star beside X.table if the table has one number, otherwise X.N.star for each number N."""
    if path is None or not path.endswith(ENDING):
        return NONE
    stem, numbers = path[:-len(ENDING)], files_of(table)
    if len(numbers) < 2:
        return Scripts(every=found_at(stem + SCRIPT))
    held = {number: found_at(f"{stem}.{number}{SCRIPT}") for number in numbers}
    shown = stem.replace("{", "{{").replace("}", "}}")
    return Scripts({number: source for number, source in held.items() if source}, lacking=f"there is no {shown}.{{0}}{SCRIPT}")


def found_at(path):
    """The script at a path, if there is one that can be read."""
    if not os.path.isfile(path):
        return None
    try:
        return Source(path, inputs.read_script(inputs.Input(path)))
    except OSError:
        return None
