#!/usr/bin/env python3
"""Checks that lines of code, definitions and proofs are short enough to read.

  lines.py [PATH..]     names each line of more than 120 columns, imports excepted, which rt writes in one line; each chain that is too long: of
                        numbers (`.1`) more than ten, of `.before` more than four outside a waypoint and more than six in one; and each law
                        of more than 25 lines or more than eight `let`s. PATH: files or folders, crates/ where there is none

A chain of numbers leads to a part of a fact that has many, as `c.requires.1.1.1.0` to the fourth. The limit is ten, since that is the longest chain
there is: `put_ranges` of starlark_checks requires that each of eleven words fits, and its proof cites the tenth. A waypoint gives a place on a
function's way its name: `let judge = c.before.before.judge in`. A law is a block between blank lines in a file of laws; imports and comments do not
count. The files Answers, Invariants and Proof in the folder of a function have no limit for laws, nor have those of `statements`: every hypothesis
and every part of a conclusion is written out there. Status 1 if something is reported, or if there is no file."""
import os
import re
import sys

from reports import ended, fault
from repository import ROOT

WIDTH = 120
NUMBERS = 10
CHAIN = 4
WAYPOINT = 6
LAW, LETS = 25, 8

waypoint = re.compile(r'^\s*let [^\s=]+ = \w+(?:\.[\w-]+)*( in\b.*)?$')
chain = re.compile(r'\.before(?:\s*\.before)*')
numbers = re.compile(r'(?:\.\d+){5,}')
law_file = re.compile(r'.*/(?!statements/)[^/]+/proofs/(?!.+/(?:Answers|Invariants|Proof)\.antt$)(?:.*/)?[^/]+\.antt$')
let = re.compile(r'(?<![\w-])let (?=\S)')


def faults_of(text):
    """What is wrong in a text: line numbers and words."""
    lines = text.split('\n')
    for number, line in enumerate(lines, 1):
        if re.match(r'(?:pub |ghost )*use \S+\.\{', line):
            continue
        if len(line) > WIDTH:
            yield number, fault('%d columns' % len(line))
        for found in numbers.finditer(line):
            if found.group().count('.') > NUMBERS:
                yield number, fault('a chain of %d numbers' % found.group().count('.'))
    for found in chain.finditer(text):
        number = text.count('\n', 0, found.start())
        long = found.group().count('.before')
        if long > (WAYPOINT if waypoint.match(lines[number]) else CHAIN):
            yield number + 1, fault('a chain of %d `.before`' % long)


def laws_of(text):
    """The blocks of a file of laws that are not imports: the number of the first line, and the lines without comments."""
    for block in re.finditer(r'(?:^[^\n]*\S[^\n]*(?:\n|\Z))+', text, re.M):
        lines = [line for line in block.group().split('\n') if line.strip() and not line.strip().startswith('--')]
        if lines and not re.match(r'(?:pub )?(?:use|mod) ', lines[0]):
            yield text.count('\n', 0, block.start()) + 1, lines


def long_laws(text):
    """The laws of a text that are too long to read: line numbers and words."""
    for number, lines in laws_of(text):
        if len(lines) > LAW:
            yield number, fault('a law of %d lines' % len(lines))
        lets = sum(len(let.findall(line)) for line in lines)
        if lets > LETS:
            yield number, fault('a law with %d `let`s' % lets)


def files(paths):
    for path in paths:
        if os.path.isfile(path):
            yield path
        for folder, below, names in os.walk(path):
            below[:] = sorted(name for name in below if name != 'out')  # what rt makes
            for name in sorted(names):
                if name.endswith(('.rt', '.antt')):
                    yield os.path.join(folder, name)


def main(paths):
    count, faults = 0, []
    for path in files(paths or [ROOT / 'crates']):
        count += 1
        with open(path, encoding='utf-8') as file:
            text = file.read()
        found = [*faults_of(text), *(long_laws(text) if law_file.match(str(path)) else ())]
        faults += [words.at('lines: %s:%d' % (os.path.relpath(path, ROOT), number)) for number, words in found]
    if not count:
        faults.append(fault('lines: there is no file'))
    return ended(faults, 'lines: %d files, no line to mend' % count)


if __name__ == '__main__':
    sys.exit(main(sys.argv[1:]))
