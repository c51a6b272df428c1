"""The scripts of `bench/hostile/`, each at a few of its places, so that they go on running."""
import os
import shutil
import subprocess
import sys
import unittest

from program import PROGRAM, ROOT, SECONDS

FOLDER = os.path.join(ROOT, "bench", "hostile")
LAST = r"\n[1-9]\d* cases, \d+ bad\n$"


class Script(unittest.TestCase):
    def last(self, script, *given):
        """What a script tells in all of these words, once it went to its end."""
        words = [sys.executable, "-B", os.path.join(FOLDER, script), *map(str, given)]
        how = {"capture_output": True, "encoding": "utf-8", "timeout": SECONDS}
        ended = subprocess.run(words, env={**os.environ, "FLAGOPS": PROGRAM}, check=False, **how)
        self.assertRegex(ended.stdout, LAST, ended.stderr)
        self.assertEqual(ended.stderr, "")
        return ended.stdout.splitlines()[-1]

    def none_bad(self, script, *given):
        """None of a script's cases are bad."""
        self.assertRegex(self.last(script, *given), "cases, 0 bad$")


class Hostile(Script):
    def test_bad_peers(self):
        self.last("network.py", 1)

    def test_many_at_once(self):
        self.assertEqual(self.last("many.py", 4, 1), "5 cases, 0 bad")

    def test_for_long(self):
        self.none_bad("long.py", 1)

    def test_a_search_for_dear_bodies(self):
        self.last("search.py", 5)


@unittest.skipUnless(shutil.which("cc"), "no compiler of C is here")
class Libraries(Script):
    def test_refused_requests_for_memory(self):
        self.none_bad("memory.py", 2)
        self.none_bad("streams.py", 2)

    def test_failing_devices(self):
        self.none_bad("devices.py", 1, "check")
        self.none_bad("devices.py", 1, "record")
        self.last("devices.py", 1, "drive")

    def test_mutated_files(self):
        self.assertEqual(self.last("mutate.py", 20, 1), "280 cases, 0 bad")
        self.none_bad("mutate.py", 20, 0, "tally", "frames", "other files, cut")

    def test_costly_documents(self):
        self.assertEqual(self.last("costly.py", "evaluation", "levels"), "2 cases, 0 bad")
        self.assertEqual(self.last("costly.py", "evaluations", "at 3,000 sites"), "1 cases, 0 bad")
        self.assertEqual(self.last("costly.py", "rules", "60 MB"), "2 cases, 0 bad")
        self.assertEqual(self.last("costly.py", "service", "160 buckets"), "1 cases, 0 bad")

    def test_a_service_that_lacks_something(self):
        self.none_bad("ofrep.py", 1)

    @unittest.skipUnless(shutil.which("valgrind"), "no valgrind is here")
    def test_races(self):
        self.none_bad("races.py", "drd", "record")

    @unittest.skipUnless(shutil.which("afl-fuzz") and shutil.which("objdump"), "no AFL++ is here")
    def test_fuzzers(self):
        self.none_bad("fuzz.py", "verify", 3)


if __name__ == "__main__":
    unittest.main()
