"""The speed of ducat, in processor time, each ratio within one run.

    python3 -I -S python/tests/speed.py

`ducat check --module` of 1,000 table files takes at most 10 times as long as a loop in C over starlark_check_file that reads the same files, plus
0.2 s; `ducat --version` takes less than 0.2 s. Each is run several times, and the least counts.
Exit status: 0 both hold; 1 one does not; 3 skipped: there is no C compiler.
"""
import os
import resource
import shutil
import subprocess
import sys
import tempfile

sys.path.insert(0, os.path.dirname(os.path.abspath(__file__)))
import support  # noqa: E402
from command import command  # noqa: E402
from ducatmuffin import table  # noqa: E402

FILES, RUNS = 1000, 5
TIMES, MORE, VERSION = 10, 0.2, 0.2
DEF = "(Def (Normal a) (Normal b) (Return (Call (Identifier f) (Positional (Identifier a)) (Positional (Identifier b)))))"
LOOP = r"""
#include <fcntl.h>
#include <stdio.h>
#include <unistd.h>
#include "starlark.h"

int main(int count, char **names) {
    static uint8_t file[STARLARK_FILE_BYTES + 1];
    static uint32_t errors[STARLARK_ERROR_WORDS * STARLARK_ERRORS];
    uint32_t out[STARLARK_WORDS];
    for (int i = 1; i < count; i++) {
        int descriptor = open(names[i], O_RDONLY);
        size_t length = 0;
        ssize_t part;
        while (length < sizeof file && (part = read(descriptor, file + length, sizeof file - length)) > 0) length += part;
        close(descriptor);
        uint32_t number = starlark_check_file(file, length, errors, STARLARK_ERROR_WORDS * STARLARK_ERRORS, out);
        if (number) {
            printf("refused %u\n", number);
            continue;
        }
        printf("nodes %u\n", out[1]);
        for (uint32_t k = 0; k < out[0]; k++) {
            uint32_t *error = errors + STARLARK_ERROR_WORDS * k;
            printf("%u %u %u %u\n", error[0], error[1], error[2], error[3]);
        }
        printf("errors %u\n", out[0]);
    }
    return 0;
}
"""


def least(words, cwd, runs=RUNS):
    """The least processor time of several runs, and the output of the last."""
    best, out = None, b""
    for _ in range(runs):
        before = resource.getrusage(resource.RUSAGE_CHILDREN)
        out = subprocess.run(words, cwd=cwd, stdin=subprocess.DEVNULL, stdout=subprocess.PIPE, stderr=subprocess.DEVNULL).stdout
        after = resource.getrusage(resource.RUSAGE_CHILDREN)
        took = after.ru_utime + after.ru_stime - before.ru_utime - before.ru_stime
        best = took if best is None else min(best, took)
    return best, out


def main():
    compiler = shutil.which("cc")
    if not compiler:
        print("speed: skipped: cc is missing")
        return 3
    with tempfile.TemporaryDirectory(prefix="ducat-test-") as room:
        data = table.read_text("dialect: Standard\n(Statements " + DEF * 11 + " (Break))").file()
        names = [f"{at:04}.table" for at in range(FILES)]
        for name in names:
            with open(os.path.join(room, name), "wb") as file:
                file.write(data)
        with open(os.path.join(room, "loop.c"), "w", encoding="utf-8") as file:
            file.write(LOOP)
        library = support.library().path
        subprocess.run([compiler, "-O2", "-I", os.path.join(support.ROOT, "include"), "loop.c", library,
                        f"-Wl,-rpath,{os.path.dirname(library)}", "-o", "loop"], cwd=room, check=True)
        # the program finds the library by its SONAME
        named = subprocess.run([os.path.join(room, "loop")], stderr=subprocess.PIPE)
        if named.returncode:
            from ducatmuffin.library import SONAME
            shutil.copy(library, os.path.join(room, SONAME))
            subprocess.run([compiler, "-O2", "-I", os.path.join(support.ROOT, "include"), "loop.c", os.path.join(room, SONAME), f"-Wl,-rpath,{room}",
                            "-o", "loop"], cwd=room, check=True)
        loop, printed = least([os.path.join(room, "loop"), *names], room)
        ducat, told = least(command("check", "--module", *names), room)
        version, _ = least(command("--version"), room)
    lines = [line for line in told.splitlines()[:-1] if not line.endswith(b":")]
    same = lines == printed.splitlines()
    limit = TIMES * loop + MORE
    print(f"speed: {FILES} files: C {loop:.3f} s, ducat {ducat:.3f} s, of {limit:.3f} s; --version {version:.3f} s of {VERSION} s"
          + ("" if same else "; what they print DIFFERS"))
    return 0 if same and ducat <= limit and version < VERSION else 1


if __name__ == "__main__":
    sys.exit(main())
