"""Runs every test of the package, or the named ones: python3 -I -S python/tests [MODULE[.CLASS[.TEST]]...]

The last line is 'N tests passed, M failed'; a test with several subtests counts once. Tests that take more than two seconds are listed.
Exit status: 0 every test passed; 1 one did not, none was found, or one was skipped.
"""
import os
import sys
import time
import unittest

HERE = os.path.dirname(os.path.abspath(__file__))
if HERE not in sys.path:
    sys.path.insert(0, HERE)


class Result(unittest.TextTestResult):
    """Lists the tests that take long."""

    def startTest(self, test):
        super().startTest(test)
        self.began = time.monotonic()

    def stopTest(self, test):
        super().stopTest(test)
        took = time.monotonic() - self.began
        if took > 2:
            self.stream.writeln(f" {test.id()}: {took:.1f} s")


def main():
    names = sys.argv[1:] or sorted(name[:-3] for name in os.listdir(HERE) if name.startswith("test_") and name.endswith(".py"))
    found = unittest.defaultTestLoader.loadTestsFromNames(names)
    done = unittest.TextTestRunner(stream=sys.stdout, resultclass=Result).run(found)
    failed = {test.id().partition(" ")[0] for test, _ in done.failures + done.errors} | {test.id() for test in done.unexpectedSuccesses}
    for test, why in done.skipped:
        print(f"skipped: {test.id()}: {why}")
    print(f"{done.testsRun - len(failed) - len(done.skipped)} tests passed, {len(failed)} failed")
    return 0 if done.wasSuccessful() and done.testsRun and not done.skipped else 1


if __name__ == "__main__":
    sys.exit(main())
