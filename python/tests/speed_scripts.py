"""The speed of ducat on scripts, in processor time.

    python3 -I -S python/tests/speed_scripts.py

`ducat check` of 500 scripts of 85 lines takes at most 1.2 times as long as flake8 on the same files. The parser's cost is linear: a line of a script
of 100,000 lines takes at most twice as long as one of 1,000 lines, also if the script is cut into tables. Short runs are repeated, and the
least time counts. Exit status: 0 all hold; 1 one does not; 3 the others hold, and flake8 is missing.
"""
import os
import shutil
import sys
import tempfile
import time

sys.path.insert(0, os.path.dirname(os.path.abspath(__file__)))
from command import command  # noqa: E402
from speed import least  # noqa: E402
from ducatmuffin import export, parser  # noqa: E402

FILES, LINES, TIMES = 500, 85, 1.2
SHORT, LONG, GROWTH = 1000, 100000, 2
HEAD = '''"""Trains and tracks, in the order of the timetable."""

load("//timetable:tracks.bzl", "tracks", gap="default_gap")

'''
DEF = '''
def order_{0}(trains, tracks, /, gap=90, *others, **limits):
    """Puts each train on the first track that is free."""
    found = {{"{0}": [], "late": [train for train in trains if train.late]}}
    for number, train in enumerate(trains):
        if train.gap < gap or not tracks:  # it waits
            found["late"].append((number, train.name, "%s of %d" % (gap, 1)))
            continue
        elif train.name in ("7", "14") and limits.get("peak", False):
            found["{0}"] += [train.name + "-" + str(number), tracks[0].name]
        else:
            found[train.name] = place(train, track=tracks[-1], gap=gap * 2)
    return found

'''


def of_lines(lines):
    """A script of defs, of about the given number of lines, cut at the end of a def."""
    return (HEAD + "".join(DEF.format(at) for at in range((lines - HEAD.count("\n")) // DEF.count("\n")))).encode()


def timed(work, lines, times):
    """The least processor time of the given number of runs, for a line, and the result of the last."""
    best = None
    for _ in range(times):
        began = time.process_time()
        given = work()
        took = time.process_time() - began
        best = took if best is None else min(best, took)
    return best / lines, given


def costs(lines, times):
    """What a line of a script costs: to parse, and to cut into tables."""
    source = of_lines(lines)
    parse, statements = timed(lambda: parser.parse(source), source.count(b"\n"), times)
    return parse, timed(lambda: export.cut([source], [statements]), source.count(b"\n"), times)[0]


def main():
    linear = True
    for what, short, long in zip(("parsed", "cut into tables"), costs(SHORT, 5), costs(LONG, 1)):
        linear = linear and long <= GROWTH * short
        print(f"speed: {what}: a line of {SHORT:,} lines {1e6 * short:.1f} us, of {LONG:,} lines {1e6 * long:.1f} us, of {GROWTH * 1e6 * short:.1f} us")
    flake8 = shutil.which("flake8")
    with tempfile.TemporaryDirectory(prefix="ducat-test-") as room:
        source = of_lines(LINES)
        source += b"# the end\n" * (LINES - source.count(b"\n"))
        names = [f"{at:04}.star" for at in range(FILES)]
        for name in names:
            with open(os.path.join(room, name), "wb") as file:
                file.write(source)
        ducat, told = least(command("check", "--dialect", "all", *names), room, 2)
        other = least([flake8, "--isolated", "-j", "1", *names], room, 1)[0] if flake8 else None
    right = told.splitlines()[-1:] == [b"files %d, with errors 0, refused 0, not read 0, errors 0" % FILES]
    if not right:
        print("speed: ducat does not accept the scripts")
    print(f"speed: {FILES} scripts of {LINES} lines: ducat {ducat:.2f} s, {1000 * ducat / FILES:.1f} ms a script; "
          + (f"flake8 {other:.2f} s, of which ducat takes {ducat / other:.2f} (at most {TIMES})" if flake8 else "flake8 is missing"))
    if not linear or not right or flake8 and ducat > TIMES * other:
        return 1
    return 0 if flake8 else 3


if __name__ == "__main__":
    sys.exit(main())
