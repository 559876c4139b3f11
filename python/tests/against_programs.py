"""Compares `ducat check --module`, `ducat rescue` and `ducat figures` with the Rattle programs tablecheck, tablerescue and tablefigures, byte by byte.

    python3 -I -S python/tests/against_programs.py [--quick]

The inputs: every sample, every cut of samples/take.table, and 300 damaged files. Every cut of the other samples is compared with
starlark_check_file. Figures are compared over joins of samples and damaged files, over every 16th cut of one, and over joins around the size of
the program's buffer. --quick takes every 40th cut and 20 damaged files.

A program is what `rt ci` has built, crates/NAME/out/NAME.
Exit status: 0 they agree; 1 they do not; 3 skipped: rt or a program is missing.
"""
import os
import random
import shutil
import subprocess
import sys
import tempfile
from concurrent.futures import ThreadPoolExecutor

sys.path.insert(0, os.path.dirname(os.path.abspath(__file__)))
import support  # noqa: E402
from command import forked  # noqa: E402
from ducatmuffin import table  # noqa: E402
from ducatmuffin.library import Refusal  # noqa: E402

DAMAGED = 300


def built(name):
    """The path of a program that rt has built."""
    return os.path.join(support.ROOT, "crates", name, "out", name)


def damaged(many):
    """Files of samples with bytes changed, cut, added or exchanged; in half of them the sums of blocks are updated."""
    draw = random.Random(31)
    whole = [support.sample(f"{name}.table") for name in support.samples(".table")]
    for _ in range(many):
        data = bytearray(draw.choice(whole))
        for _ in range(draw.choice((1, 1, 2, 5))):
            how = draw.randrange(6)
            at = draw.randrange(len(data)) if data else 0
            if how < 3 and data:
                data[at] = draw.randrange(256)
            elif how == 3:
                data[at:at] = bytes(draw.randrange(256) for _ in range(draw.choice((1, 24, 512))))
            elif how == 4:
                del data[at:at + draw.choice((1, 24, 512))]
            elif len(data) >= 1024:
                one, other = (512 * draw.randrange(len(data) // 512) for _ in range(2))
                data[one:one + 512], data[other:other + 512] = data[other:other + 512], data[one:one + 512]
        if draw.randrange(2):
            for start in range(0, len(data) - 511, 512):
                total = sum(place * byte for place, byte in enumerate(data[start:start + 508], 1))
                data[start + 508:start + 512] = total.to_bytes(4, "little")
        yield bytes(data)


def cases(quick):
    """The inputs of both comparisons."""
    take = support.sample("take.table")
    found = [support.sample(f"{name}.table") for name in support.samples(".table")]
    found += [take[:cut] for cut in range(0, len(take) + 1, 40 if quick else 1)]
    return found + list(damaged(20 if quick else DAMAGED))


def joins(quick):
    """Inputs of many files: whole samples, damaged ones among them, cuts, and files around the program's buffer of two windows."""
    draw, whole = random.Random(214), [support.sample(f"{name}.table") for name in support.samples(".table")]
    good = [data for data in whole if support.library().check_file(data).accepted]
    found = [b"", b"\0", *(support.sample(f"{name}.tables") for name in support.samples(".tables"))]
    bad = list(damaged(20 if quick else 100))
    for one in bad:
        parts = [draw.choice(good) for _ in range(draw.randrange(4))]
        found.append(b"".join([*parts, one, *(draw.choice(good) for _ in range(draw.randrange(2)))]))
    three = support.sample("three.tables")
    found += [three[:cut] for cut in range(0, len(three) + 1, 160 if quick else 16)]
    largest = table.read_text("(Statements ^2099<(Break)>)").file()
    long = b"".join([*good, largest, largest, *good, largest]) * 3
    found += [long, long + b"x", long[:-1], long + bad[0], *(bytes(largest * 2 + good[0] * at + long) for at in range(0, 40, 10 if quick else 3))]
    return found


def checked(paths):
    """What one run of ducat prints for many files, and the lines of each."""
    ran = forked(("check", "--module", "--files-from", "-", "-0"), support.ROOT, b"\0".join(map(os.fsencode, paths)))
    answers, wanted = {}, set(paths)
    for line in ran.out.splitlines(True)[:-1]:
        if line.endswith(":\n") and line[:-2] in wanted:
            answers[line[:-2]] = current = []
        else:
            current.append(line)
    return {path: "".join(lines).encode() for path, lines in answers.items()}


def lines_of(answer):
    """What the program tablecheck prints for an answer of the library."""
    if isinstance(answer, Refusal):
        return f"refused {answer.number}\n".encode()
    errors = "".join(f"{error.number} {error.file} {error.begin} {error.end}\n" for error in answer.errors)
    return f"nodes {answer.nodes}\n{errors}errors {answer.total}\n".encode()


class Comparison:
    def __init__(self, room, quick):
        self.room, self.quick, self.faults = room, quick, []

    def put(self, name, data):
        path = os.path.join(self.room, name)
        with open(path, "wb") as file:
            file.write(data)
        return path

    def program(self, name, *words, stdin=subprocess.DEVNULL):
        ran = subprocess.run([built(name), *words], stdin=stdin, stdout=subprocess.PIPE, stderr=subprocess.PIPE)
        return ran.stdout, ran.stderr

    def fault(self, words):
        self.faults.append(words)
        if len(self.faults) < 20:
            print(f"against_programs: {words}")

    def check(self, found):
        """ducat check --module, and the program tablecheck."""
        paths = [self.put(f"{at:05}", data) for at, data in enumerate(found)]
        said = checked(paths)
        with ThreadPoolExecutor(os.cpu_count() or 1) as pool:
            for path, (out, err) in zip(paths, pool.map(lambda path: self.program("tablecheck", path), paths)):
                if err or not out or said.get(path) != out:
                    self.fault(f"{path}: ducat prints {said.get(path)}, tablecheck {out} and {err}")
        return len(paths)

    def rescue(self, found):
        """ducat rescue, and the program tablerescue: what they print and what they write."""
        paths = [self.put(f"{at:05}", data) for at, data in enumerate(found)]

        def program(path):
            return self.program("tablerescue", path, f"{path}.part", f"{path}.program")

        with ThreadPoolExecutor(os.cpu_count() or 1) as pool:
            answers = list(pool.map(program, paths))
        for path, (out, err) in zip(paths, answers):
            ran = forked(("rescue", path, "-o", f"{path}.ducat"), support.ROOT, b"")
            if err or not out or ran.out.encode() != out:
                self.fault(f"{path}: ducat prints {ran.out}, tablerescue {out} and {err}")
            files = [self.content(f"{path}.{who}") for who in ("ducat", "program")]
            if files[0] != files[1] or (files[0] is None) != out.startswith(b"refused"):
                self.fault(f"{path}: ducat and tablerescue write different files")
        return len(paths)

    def figures(self, found):
        """ducat figures, and the program tablefigures, by name and from standard input in turn."""
        paths = [self.put(f"joined.{at:05}", data) for at, data in enumerate(found)]
        with ThreadPoolExecutor(os.cpu_count() or 1) as pool:
            answers = pool.map(lambda case: self.counted(*case), enumerate(paths))
            for path, (out, err) in zip(paths, answers):
                ran = forked(("figures", path), support.ROOT, b"")
                if err or not out or ran.out.encode() != out:
                    self.fault(f"{path}: ducat prints {ran.out}, tablefigures {out} and {err}")
        return len(paths)

    def counted(self, at, path):
        if at % 2:
            return self.program("tablefigures", path)
        with open(path, "rb") as file:
            return self.program("tablefigures", stdin=file)

    def content(self, path):
        try:
            with open(path, "rb") as file:
                data = file.read()
        except FileNotFoundError:
            return None
        os.remove(path)
        return data

    def cuts(self):
        """Every cut of the other samples, and starlark_check_file."""
        tried = 0
        for name in support.samples(".table"):
            data = support.sample(f"{name}.table")
            if name == "take":
                continue
            lengths = range(0, len(data) + 1, 40 if self.quick else 1)
            paths = {self.put(f"{name}.{cut:05}", data[:cut]): cut for cut in lengths}
            said = checked(list(paths))
            for path, cut in paths.items():
                if said.get(path) != lines_of(support.library().check_file(data[:cut])):
                    self.fault(f"{name}, {cut} bytes: ducat prints {said.get(path)}")
                os.remove(path)
            tried += len(paths)
        return tried


def main():
    missing = [] if shutil.which("rt") else ["rt"]
    missing += [name for name in ("tablecheck", "tablerescue", "tablefigures") if not os.path.exists(built(name))]
    if missing:
        print(f"against_programs: skipped: {' and '.join(missing)} missing")
        return 3
    quick = "--quick" in sys.argv
    with tempfile.TemporaryDirectory(prefix="ducat-test-") as room:
        comparison, found = Comparison(room, quick), cases(quick)
        many = comparison.check(found), comparison.rescue(found), comparison.figures(joins(quick)), comparison.cuts()
    print("against_programs: {} files checked, {} rescued and {} inputs counted as the programs do, {} cuts as starlark_check_file; {} differ".format(
        *many, len(comparison.faults)))
    return 1 if comparison.faults else 0


if __name__ == "__main__":
    sys.exit(main())
