"""Shared by the tests: the package on the path, the repository's folder, the library.

The tests use target/native, which is proved. DUCAT_TEST_LIBRARY names another file, for work on the package when nothing is proved yet.
"""
import os
import sys

ROOT = os.path.dirname(os.path.dirname(os.path.dirname(os.path.abspath(__file__))))
PACKAGE = os.path.join(ROOT, "python")
if PACKAGE not in sys.path:
    sys.path.insert(0, PACKAGE)

from ducatmuffin import library as _library  # noqa: E402

_loaded = []


def library():
    """The library, loaded once."""
    if not _loaded:
        path = os.environ.get("DUCAT_TEST_LIBRARY") or os.path.join(ROOT, "target", "native", _library.NAME)
        _loaded.append(_library.load(path))
    return _loaded[0]


def sample(name):
    """The bytes of a file of samples/."""
    with open(os.path.join(ROOT, "samples", name), "rb") as file:
        return file.read()


def samples(ending):
    """The names of the samples with an ending, without it."""
    names = sorted(os.listdir(os.path.join(ROOT, "samples")))
    return [name[:-len(ending)] for name in names if name.endswith(ending)]


def each(test, cases, name):
    """Gives a test case class a method for each case, so that each is counted. `test` gets the instance and the case's parts."""
    def add(to):
        for number, case in enumerate(cases):
            def method(self, case=case):
                test(self, *case)
            method.__doc__ = f"{name} {number}"
            setattr(to, f"test_{name}_{number:03}", method)
        return to
    return add
