"""The parts of a trial of a check script: planted faults, and the copy of the repository in which they are planted."""
import contextlib
import importlib.machinery
import importlib.util
import io
import os
import pathlib
import shutil
import sys
import traceback
from typing import Callable, List, NamedTuple, Optional, Tuple

from repository import ROOT


class Unplanted(Exception):
    """A fault that has no place in the present files."""


class Planted(NamedTuple):
    """A planted fault: its words, what plants it, the pattern of the message (None: the script accepts it), and the script's words if others."""

    words: str
    plant: Callable
    message: Optional[str]
    argv: Optional[Tuple[str, ...]] = None


class Check(NamedTuple):
    """A script, its words, its planted faults, what it reads, what prepares the copy, and the other files whose messages it gives."""

    script: str
    argv: Tuple[str, ...]
    planted: List[Planted]
    reads: Tuple[str, ...]
    prepare: Optional[Callable] = None
    also: Tuple[str, ...] = ()


def script(root, name):
    """A check script of a repository or of a copy of it."""
    return next(path for folder in ("tools", "oracle") for path in (root / folder).rglob(name))


class Room:
    """A copy of files of the repository. `restore` undoes what a planted fault has written."""

    def __init__(self, folder, reads):
        self.root = folder / "repository"
        self.changed, self.modules, self.made = {}, {}, None
        for pattern in ("crates.txt", "tools/*", *reads):
            for path in sorted(ROOT.glob(pattern)):
                if path.name not in ("__pycache__", "target"):
                    self.copy(path)

    def copy(self, path):
        there = self.root / path.relative_to(ROOT)
        there.parent.mkdir(parents=True, exist_ok=True)
        if path.is_dir():
            shutil.copytree(path, there, dirs_exist_ok=True, ignore=shutil.ignore_patterns("__pycache__", "target", "out"))
        else:
            shutil.copy(path, there)

    # files

    def read(self, file):
        return (self.root / file).read_text()

    def write(self, file, text, mode=None):
        self.keep(file)
        path = self.root / file
        path.parent.mkdir(parents=True, exist_ok=True)
        path.write_bytes(text if isinstance(text, bytes) else text.encode())
        path.chmod(mode or 0o644)

    def delete(self, file):
        self.keep(file)
        (self.root / file).unlink()

    def keep(self, file):
        path = self.root / file
        self.changed.setdefault(file, path.read_bytes() if path.exists() else None)

    def restore(self):
        for file, before in self.changed.items():
            if before is None:
                (self.root / file).unlink(missing_ok=True)
            else:
                (self.root / file).write_bytes(before)
        self.changed = {}

    # running a script

    def tool(self, name):
        """A script of tools/ or of a folder in it, or of oracle/."""
        return script(self.root, name)

    @contextlib.contextmanager
    def inside(self):
        """The process as the script expects it: its folder, its modules, its path."""
        names = {"faults-port", *(path.stem for path in (self.root / "tools").rglob("*.py"))}
        here, path, writes = os.getcwd(), sys.path[:], sys.dont_write_bytecode
        others = {name: sys.modules.pop(name) for name in list(sys.modules) if name.partition(".")[0] in {*names, "ducatmuffin"}}
        if any(file.endswith(".py") for file in self.changed):
            self.modules = {}
        sys.modules.update(self.modules)
        sys.path[:0] = sorted({str(tool.parent) for tool in (self.root / "tools").rglob("*.py")})
        sys.dont_write_bytecode = True
        os.chdir(self.root)
        try:
            yield
        finally:
            os.chdir(here)
            sys.path[:], sys.dont_write_bytecode = path, writes
            mine = {name: sys.modules.pop(name) for name in list(sys.modules) if name.partition(".")[0] in {*names, "ducatmuffin"}}
            self.modules = {} if any(file.endswith(".py") for file in self.changed) else mine
            sys.modules.update(others)

    def load(self, script):
        """The module of a script of the copy."""
        path = self.tool(script)
        if path.stem not in sys.modules:
            loader = importlib.machinery.SourceFileLoader(path.stem, str(path))
            spec = importlib.util.spec_from_loader(path.stem, loader)
            sys.modules[path.stem] = importlib.util.module_from_spec(spec)
            loader.exec_module(sys.modules[path.stem])
        return sys.modules[path.stem]

    def run(self, script, argv):
        """Runs a script on the copy: its exit status, what it prints, and the calls of `fault` that it reached."""
        out = io.StringIO()
        with self.inside(), contextlib.redirect_stdout(out), contextlib.redirect_stderr(out):
            try:
                module = self.load(script)
                if self.made:
                    self.made(module)
                status = module.main(list(argv))
            except SystemExit as ended:
                status = ended.code if isinstance(ended.code, int) else 1 if ended.code else 0
                print("" if isinstance(ended.code, int) else ended.code)
            except Exception:
                status = "an exception"
                traceback.print_exc()
            reached = {(self.name_of(file), line) for file, line in self.load("reports.py").REACHED}
            self.load("reports.py").REACHED.clear()
        return status, out.getvalue(), reached

    def name_of(self, file):
        return pathlib.Path(file).name if str(self.root) in file else None
