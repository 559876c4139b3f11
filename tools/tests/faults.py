#!/usr/bin/env python3
"""Plants faults in the header, the package, the wrapper, the documents and the check scripts, one at a time, and runs the step that must find each.

faults.py [OPTION...] [NAME...]   NAME is a fault of faults.list; without a name all of them
    --log FILE   where results are kept (default: oracle/target/step-faults.jsonl)
    --again      also runs faults that have a result in the log
    --check      only reports whether each edit can be planted and its step is one of the gate (exit status 1 if not); nothing is run
    --write      writes the table of docs/measured/FAULTS.md from the log; nothing is run
    --help       prints this

faults.list has a paragraph for each fault: its name and words, `step:` with the step that must fail, `file:`, `old:` and `new:` as in an edit
(tools/gate/repository.py), and `run:` with a command that is run in the copy afterwards, such as one that makes files again. `step: python MODULE` is
the step python with only the tests of one module. Each fault is planted in a copy of the repository, where its step must fail; without a fault the
step must pass there. An edit that does not apply counts as not run. The copy has the library of this checkout, proved or not: no step here
proves anything. A result is kept under the checksum of the fault and of the repository, so that a run may be ended and continued.

oracle/faults-port plants faults in the port's code, and oracle/faults in the stand-in.

Exit status: 0 all were found; 1 one was not, or was not run; 2 it could not be run.
"""
import argparse
import datetime
import hashlib
import json
import os
import pathlib
import resource
import shutil
import subprocess
import sys
import tempfile

HERE = pathlib.Path(__file__).resolve().parent
sys.path[:0] = [str(HERE.with_name("gate")), str(HERE.parent)]
import gate  # noqa: E402
import measured  # noqa: E402
from reports import ended, fault  # noqa: E402
from repository import ROOT  # noqa: E402

LIST, LOG = HERE / "faults.list", ROOT / "oracle" / "target" / "step-faults.jsonl"
SECONDS = 1200
LIBRARY = "libstarlark_checks.so"
FAULTS = []


class Planted:
    """A fault of the list."""

    def __init__(self, text):
        self.text, self.step, self.runs, self.pairs, self.words = text, "", [], [], []
        file, old = None, None
        head, *lines = text.splitlines()
        self.name, _, first = head.partition(": ")
        self.words.append(first)
        for line in lines:
            key, _, value = line.partition(": ")
            if key == "file":
                file = value
            elif key == "old":
                old = value
            elif key == "new" or line == "new:":
                self.pairs.append((file, old, value))
            elif key == "step":
                self.step = value
            elif key == "run":
                self.runs.append(value.split())
            else:
                self.words.append(line)

    def applied(self, root):
        """The changed files of a folder, and the reason if the fault does not apply."""
        texts = {}
        for file, old, new in self.pairs:
            path = root / file
            if not path.exists():
                return {}, f"there is no {file}"
            text = texts.get(path) or path.read_text()
            if text.count(old) != 1:
                return {}, f"its text is in {file} {text.count(old)} times: {old}"
            texts[path] = text.replace(old, new)
        return texts, "" if texts else "it has no edit"


def listed():
    parts = LIST.read_text().split("\n\n")
    texts = ["\n".join(line for line in part.splitlines() if not line.startswith("#")).strip() for part in parts]
    return [Planted(text) for text in texts if text]


def checked(chosen):
    """Each fault applies, and has a step of the gate; no name is listed twice."""
    FAULTS.clear()
    names, steps = [one.name for one in listed()], {step.name for step in gate.STEPS}
    for one in chosen:
        why = one.applied(ROOT)[1]
        if why:
            FAULTS.append(fault(f"{one.name}: {why}"))
        if one.step.partition(" ")[0] not in steps:
            FAULTS.append(fault(f"{one.name}: there is no step {one.step}"))
        if names.count(one.name) > 1:
            FAULTS.append(fault(f"{one.name} is listed twice"))
    if not chosen:
        FAULTS.append(fault("the list is empty"))
    return ended(FAULTS, f"faults.py: {len(chosen)} faults can be planted", "faults.list: ")


# ---- the copy


def tracked():
    """The files of the repository, new ones too."""
    said = subprocess.run(["git", "ls-files", "-co", "--exclude-standard", "-z"], cwd=ROOT, capture_output=True, check=True).stdout
    return [name for name in said.decode().split("\0") if name and (ROOT / name).is_file()]


def checksum():
    """Of all files except records of measurements."""
    whole = hashlib.sha256()
    for name in tracked():
        if not name.startswith(("docs/measured/", "docs/landings/")):
            whole.update(name.encode() + b"\0" + (ROOT / name).read_bytes())
    return whole.hexdigest()


def copied(folder):
    """A copy of the repository with the library and the programs of this checkout."""
    for name in tracked():
        (folder / name).parent.mkdir(parents=True, exist_ok=True)
        shutil.copy(ROOT / name, folder / name)
    (folder / "target").mkdir()
    for name in ("native", "unproved"):
        if (ROOT / "target" / name).exists():
            shutil.copytree(ROOT / "target" / name, folder / "target" / name)
    for program in ROOT.glob("crates/*/out/*"):
        if program.name == program.parent.parent.name and program.is_file():
            (folder / program.relative_to(ROOT)).parent.mkdir(parents=True, exist_ok=True)
            shutil.copy(program, folder / program.relative_to(ROOT))
    subprocess.run(["git", "init", "-q"], cwd=folder, check=True)
    subprocess.run(["git", "add", "-A"], cwd=folder, check=True)


class Copy:
    """The copy, in which each fault is planted and removed again."""

    def __init__(self, folder):
        self.root, self.good = folder, {}
        copied(folder)

    def run(self, step):
        """The status of a step, and the last line that it prints."""
        name, _, module = step.partition(" ")
        words, more = [sys.executable, "tools/gate/gate.py", name], {}
        if module:
            places = [self.root / "target" / where / LIBRARY for where in ("native", "unproved")]
            words, more = [sys.executable, "-I", "-S", "python/tests", module], {"DUCAT_TEST_LIBRARY": str(next((p for p in places if p.exists()), places[0]))}
        environment = {key: value for key, value in os.environ.items() if not key.startswith("DUCAT")} | more
        try:
            said = subprocess.run(words, cwd=self.root, env=environment, stdin=subprocess.DEVNULL, stdout=subprocess.PIPE, stderr=subprocess.STDOUT,
                                  text=True, errors="replace", timeout=SECONDS)
        except subprocess.TimeoutExpired:
            return 2, f"the step did not end in {SECONDS} s"
        lines = [line for line in said.stdout.splitlines() if line.strip()]
        telling = [line for line in lines if line.startswith(("FAIL:", "ERROR:")) or "prints something else" in line]
        telling = telling or [line for line in lines if not line.startswith(("==", "test:"))]
        return said.returncode, (telling or lines or [""])[0][:160]

    def passes(self, step):
        """Whether the step passes if nothing is planted."""
        if step not in self.good:
            self.good[step] = self.run(step)
        return self.good[step][0] == 0

    def plant(self, one):
        """Whether its step finds a fault, and the words for it; None if it was not run."""
        texts, why = one.applied(self.root)
        if why:
            return None, why
        if not self.passes(one.step):
            return None, f"the step {one.step} does not pass without a fault: {self.good[one.step][1]}"
        for path, text in texts.items():
            path.write_text(text)
        try:
            for words in one.runs:
                said = subprocess.run(words, cwd=self.root, stdin=subprocess.DEVNULL, capture_output=True, text=True)
                if said.returncode not in (0, 1):
                    return None, f"{' '.join(words)} ended with status {said.returncode}: {said.stderr.strip()[-200:]}"
            status, last = self.run(one.step)
        finally:
            subprocess.run(["git", "checkout", "-q", "."], cwd=self.root, check=True)
        return (status == 1, last) if status in (0, 1) else (None, f"status {status}: {last}")


def plant_all(chosen, log, again):
    kept = results(log)
    whole, count = checksum(), {True: 0, False: 0, None: 0}
    with tempfile.TemporaryDirectory(prefix="faults-") as folder:
        copy = None
        for one in chosen:
            key = key_of(one, whole)
            result = None if again else kept.get(key)
            if not result or result["found"] is None:
                copy = copy or Copy(pathlib.Path(folder))
                began = resource.getrusage(resource.RUSAGE_CHILDREN)
                found, words = copy.plant(one)
                ended = resource.getrusage(resource.RUSAGE_CHILDREN)
                result = {"key": key, "name": one.name, "step": one.step, "found": found, "words": words, "day": str(datetime.date.today()),
                          "seconds": round(ended.ru_utime + ended.ru_stime - began.ru_utime - began.ru_stime, 1)}
                log.parent.mkdir(parents=True, exist_ok=True)
                with open(log, "a", encoding="utf-8") as file:
                    file.write(json.dumps(result) + "\n")
            count[result["found"]] += 1
            came = {True: "found: ", False: "NOT FOUND: ", None: "NOT RUN: "}[result["found"]]
            print(f"{one.name:<40} {one.step:<24} {came}{result['words']}", flush=True)
    print(f"{count[True]} of {len(chosen)} planted faults were found" + (f", {count[None]} were not run" if count[None] else ""))
    return 0 if chosen and count[True] == len(chosen) else 1


def key_of(one, whole):
    return hashlib.sha256(f"{one.text}\0{whole}".encode()).hexdigest()[:24]


def results(log):
    lines = log.read_text().splitlines() if log.exists() else []
    return {result["key"]: result for result in map(json.loads, lines)}


def write(log):
    """Writes the table of FAULTS.md: the result of each fault for the present repository."""
    kept, whole, made, count = results(log), checksum(), [], {True: 0, False: 0, None: 0}
    for one in listed():
        result = kept.get(key_of(one, whole), {})
        found = None if one.applied(ROOT)[1] else result.get("found")
        count[found] += 1
        came = {True: result.get("words", ""), False: "**not found**", None: "not run"}[found].replace("|", "\\|")
        made.append((one.name, one.words[0], one.step, came))
    first = f"**{count[True]} of {count[True] + count[False]} planted faults were found; {count[None]} of the list were not run on these files**\n\n"
    measured.write("steps", first + measured.table(["fault", "what it does", "step", "what the step printed"], made))
    return 1 if count[False] else 0


def main(words):
    parser = argparse.ArgumentParser(usage=argparse.SUPPRESS, add_help=False)
    for flag in ("--check", "--write", "--again", "--help"):
        parser.add_argument(flag, action="store_true")
    parser.add_argument("--log", default=LOG, type=pathlib.Path)
    parser.add_argument("names", nargs="*")
    asked = parser.parse_args(words)
    if asked.help:
        print(__doc__.strip())
        return 0
    chosen = [one for one in listed() if not asked.names or one.name in asked.names]
    if asked.check:
        return checked(chosen)
    return write(asked.log) if asked.write else plant_all(chosen, asked.log, asked.again)


if __name__ == "__main__":
    sys.exit(main(sys.argv[1:]))
