"""The scripts of `bench/service/` for a few turns each: what operators do to the logs of a service under load, and what logs hold."""
import os
import subprocess
import sys
import unittest

from program import PROGRAM, ROOT, SECONDS, needs

FOLDER = os.path.join(ROOT, "bench", "service")


class Acts(unittest.TestCase):
    def ran(self, script, *given):
        """What a script prints, which ends well."""
        words = [sys.executable, "-B", os.path.join(FOLDER, script), *map(str, given)]
        how = {"capture_output": True, "encoding": "utf-8", "timeout": SECONDS}
        ended = subprocess.run(words, env={**os.environ, "FLAGOPS": PROGRAM}, check=False, **how)
        self.assertEqual((ended.returncode, ended.stderr), (0, ""), ended.stdout)
        return ended.stdout

    def none_lost(self, *acts, rounds=2, clients=3):
        lines = self.ran("acts.py", rounds, clients, *acts).splitlines()
        self.assertEqual(len(lines), len(acts))
        for act, line in zip(acts, lines):
            self.assertRegex(line, rf"\A{act}: {rounds} times, [1-9]\d* told, 0 lost\b")

    def test_logs_that_are_moved_or_removed(self):
        self.none_lost("mv", "rm", "rm-folder")

    @needs("gzip", "sed")
    def test_logs_that_are_replaced_or_cut(self):
        self.none_lost("gzip", "sed", "copytruncate")

    def test_two_services_at_one_start(self):
        self.none_lost("services")

    @unittest.skipUnless(os.geteuid() == 0 and not subprocess.run(["unshare", "-m", "true"], stderr=subprocess.DEVNULL, check=False).returncode, "this may mount nothing")
    def test_another_file_system_at_the_folder(self):
        self.none_lost("remount")

    def test_kills(self):
        self.assertRegex(self.ran("kill9.py", 2, 2), r"\n[1-9]\d* told over 2 kills, none lost\n\Z")

    @needs("logrotate")
    def test_rotations(self):
        self.assertRegex(self.ran("rotate.py", 3, 2), r", [1-9]\d* told, [1-9]\d* lines, 0 lost, ")

    def test_polls(self):
        """Where each user keeps a connection, the logs have each line once, however often all poll."""
        words = [sys.executable, "-B", os.path.join(FOLDER, "polls.py"), "30", "10", "4"]
        ended = subprocess.run(words, env={**os.environ, "FLAGOPS": PROGRAM}, capture_output=True, encoding="utf-8", timeout=SECONDS, check=False)
        self.assertRegex(ended.stdout, r"\A30 users each on a connection, 10 flags, 4 polls each: [\d,]+ bytes, 300 lines, 300 of them differ", ended.stderr)


if __name__ == "__main__":
    unittest.main()
