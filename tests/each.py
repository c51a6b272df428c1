"""Runs a file of tests for ./test: tests/each.py test_price. It says `passed`, `failed` or `skipped REASON` in a line on the standard
output as each test ends, and at last on standard error what failed. A test that hangs is ended, with the places at which it waits."""
import faulthandler
import os
import signal
import sys
import unittest

from program import SECONDS


def report():
    """The standard output for this file alone: what the tests and their programs print goes to standard error."""
    own = os.fdopen(os.dup(1), "w", encoding="utf-8")
    os.dup2(2, 1)
    return own


class Result(unittest.TextTestResult):
    """Says how each test ended."""

    report = report()

    def bad(self):
        return len(self.failures) + len(self.errors) + len(self.unexpectedSuccesses)

    def startTest(self, test):
        faulthandler.dump_traceback_later(2 * SECONDS, exit=True)
        self.before = self.bad(), len(self.skipped)
        super().startTest(test)

    def stopTest(self, test):
        super().stopTest(test)
        bad, skipped = self.before
        if self.bad() > bad:
            self.say("failed")
        elif len(self.skipped) > skipped:
            self.say(f"skipped {'; '.join(dict.fromkeys(why for _, why in self.skipped[skipped:]))}")
        else:
            self.say("passed")

    def say(self, line):
        print(line.replace("\n", " "), file=self.report, flush=True)


if __name__ == "__main__":
    # ./test ends it so, also where it was told to pass such a signal over itself: the files of the tests are then removed.
    signal.signal(signal.SIGINT, signal.default_int_handler)
    tests = unittest.defaultTestLoader.loadTestsFromName(sys.argv[1])
    ended = unittest.TextTestRunner(sys.stderr, verbosity=0, resultclass=Result).run(tests)
    sys.exit(0 if ended.wasSuccessful() else 1)
