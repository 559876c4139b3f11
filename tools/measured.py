#!/usr/bin/env python3
"""Writes measurements into docs/measured, so that no number there is copied by hand.

A document has sections between the lines '<!-- measured: NAME -->' and '<!-- end -->', which this tool writes. Each section
states when it was measured, on which machine, and at which commit.

measured.py gate LOG       from the log of ./test (target/test.log): its steps, and its crates one by one
measured.py quick LOG      from the output of oracle/compare: the jobs of each family
measured.py long LOG       from the output of oracle/compare --long
measured.py jobs LOG       from the output of bench/run: its tables, unchanged
measured.py corpus LOG     from the output of bench/run --corpus
measured.py versus LOG     from the output of bench/versus
measured.py stack LOG      from the log of ./test or the output of bindings/run: the stack that each job needs
measured.py sizes          lines and characters of code, definitions and proofs, crate by crate; reads the crates themselves

docs/measured/FAULTS.md is written by `oracle/faults-port --write` and `tools/tests/faults.py --write`, from their logs.
"""
import datetime
import os
import pathlib
import platform
import re
import subprocess
import sys

sys.path.append(str(pathlib.Path(__file__).resolve().parent / "gate"))
import repository  # noqa: E402

PLACES = {"gate": "GATE", "quick": "COMPARISON", "long": "COMPARISON", "faults": "FAULTS", "steps": "FAULTS", "jobs": "BENCHMARKS", "corpus": "BENCHMARKS",
          "versus": "BENCHMARKS", "stack": "STACK", "sizes": "SIZES"}


def table(head, rows):
    """A table in Markdown."""
    return "\n".join("| " + " | ".join(str(cell) for cell in row) + " |" for row in [head, ["---"] * len(head), *rows])


def number(text):
    return f"{int(text):,}"


def gate(log):
    """The steps with their seconds, and each crate: its edits that rt tries itself, all its edits, and how many of them this run has tried."""
    steps = re.findall(r"^test: ([\w-]+): (\d+ passed|passed|SKIPPED|FAILED)(?:, status -?\d+)?(?: \((?:(\d+) s|[^)]*)\))?$", log, re.M)
    tried = {}
    for crate in re.findall(r"^rt: must-fail (\w+)/\S+: refused", log, re.M):
        tried[crate] = tried.get(crate, 0) + 1
    tries = log.partition("test: wrong:")[0]  # after it the tool tries itself with bad edits
    wrong = {crate: rest for crate, *rest in re.findall(r"^wrong (\w+): (\d+) edits, (\d+) of them tried in this run$", tries, re.M)}
    rows = [(f"`{c}`", tried.get(c, 0), *wrong.get(c, ("0", "0"))) for c in repository.crates()]
    sums = ["all", *(sum(int(row[i] or 0) for row in rows) for i in range(1, 4))]
    first = table(["step", "came to", "s"], steps)
    second = table(["crate", "must-fail edits", "all edits", "tried in this run"], [*rows, sums])
    return f"**{log.splitlines()[-1]}**\n\n{first}\n\n{second}"


def families(log):
    """The families of oracle/compare: six columns of numbers after each name."""
    rows = re.findall(r"^(.+?) +" + r" +".join([r"(\d+)"] * 6) + "$", log, re.M)
    head = ["family", "jobs", "judged by the crate", "by the model alone", "refused with 1 to 7", "other comparisons", "differ"]
    last = re.findall(r"^compare: (.*)$", log, re.M)[-1]
    return f"**{last}**\n\n" + table(head, [(name, *map(number, counts)) for name, *counts in rows])


def stack(log):
    """The most stack that each job needed, of all tables that bindings/c/stack.c makes."""
    needed = re.findall(r"^bindings: stack needed, (.*)$", log, re.M)[-1]
    return table(["job", "bytes of stack"], [(job, number(most)) for job, most in re.findall(r"([a-z ]+?) (\d+) ?", needed)])


def jobs(log):
    """The tables of bench/run, which are in Markdown already, with the lines between them."""
    return log[log.index("|"):].strip() if "|" in log else log.strip()


def whole(log):
    """What a benchmark prints, unchanged."""
    return log.strip()


def sizes(_):
    """Lines without blank ones and comments, and all characters of the files, of code, definitions and proofs."""
    rows, sums = [], [0] * 6
    for crate in repository.crates():
        counts = []
        for folder, end, comment in (("src", "rt", "//"), ("specs", "antt", "--"), ("proofs", "antt", "--")):
            texts = [path.read_text() for path in (repository.CRATES / crate / folder).rglob(f"*.{end}")]
            lines = [line.strip() for text in texts for line in text.splitlines()]
            counts += [sum(1 for line in lines if line and not line.startswith(comment)), sum(map(len, texts))]
        sums = [a + b for a, b in zip(sums, counts)]
        rows.append((f"`{crate}`", *map(number, counts), f"{counts[5] / counts[1]:.1f}" if counts[0] else "–"))
    rows.append(("all", *map(number, sums), f"{sums[5] / sums[1]:.1f}"))
    head = ["crate", "code, lines", "characters", "definitions, lines", "characters", "proofs, lines", "characters", "proof for one character of code"]
    return table(head, rows)


def write(name, text):
    """Puts the text into its section, with the day, the machine and the commit."""
    path = repository.ROOT / "docs" / "measured" / f"{PLACES[name]}.md"
    commit = subprocess.run(["git", "rev-parse", "--short", "HEAD"], cwd=repository.ROOT, capture_output=True, text=True).stdout.strip()
    when = f"{datetime.date.today()}, {platform.machine()}, {os.cpu_count()} processors, commit {commit or 'unknown'}:"
    old = path.read_text()
    pattern = re.compile(rf"(<!-- measured: {name} -->\n).*?(<!-- end -->)", re.S)
    if not pattern.search(old):
        sys.exit(f"measured.py: {path.name} has no section {name}")
    path.write_text(pattern.sub(lambda found: f"{found[1]}{when}\n\n{text}\n{found[2]}", old))
    print(f"measured.py: docs/measured/{path.name}, section {name}, is written")


def main(words):
    makers = {"gate": gate, "quick": families, "long": families, "jobs": jobs, "corpus": whole, "versus": whole, "stack": stack, "sizes": sizes}
    if not words or words[0] not in makers or len(words) != (1 if words[0] == "sizes" else 2):
        sys.exit(__doc__)
    log = open(words[1], encoding="utf-8").read() if words[1:] else ""
    write(words[0], makers[words[0]](log))


if __name__ == "__main__":
    main(sys.argv[1:])
