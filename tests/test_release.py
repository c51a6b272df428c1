"""The shell command that runs the shipped program, over a small checkout of its own and without the kit on the path."""
import os
import shutil
import subprocess
import tempfile
import unittest

from program import ROOT, SECONDS

FILES = {
    "HANDLES": "Handles allowed: none.\n",
    "crates.txt": "# lowest first\nlow:\nmiddle may_wait=1: low serde_json\nflagops: middle clap\nlow_tests: low\n",
    "crates/low/src/lib.rt": "low\n",
    "crates/low/must-fail/one.edit": "edit\n",
    "crates/middle/proofs/part/Answers.antt": "middle\n",
    "crates/flagops/src/main.rt": "main\n",
    "crates/low_tests/src/lib.rt": "tests\n",
    "README.md": "readme\n",
}
PROGRAM = "#!/bin/sh\necho \"shipped $*\"\nexit 3\n"


class ShippedTest(unittest.TestCase):
    def setUp(self):
        folder = tempfile.TemporaryDirectory()
        self.addCleanup(folder.cleanup)
        self.top = os.path.join(folder.name, "checkout")
        for name, text in FILES.items():
            self.write(name, text)
        for name in ["flagops", "release/sources.sh", "release/prove.sh"]:
            os.makedirs(os.path.dirname(os.path.join(self.top, name)), exist_ok=True)
            shutil.copy(os.path.join(ROOT, name), os.path.join(self.top, name))
        # The path has the shell and coreutils alone.
        self.path = os.path.join(folder.name, "bin")
        os.mkdir(self.path)
        for tool in ["sh", "cat", "cut", "dirname", "mkdir", "mv", "readlink", "sha256sum", "sort", "stat", "uname"]:
            os.symlink(shutil.which(tool), os.path.join(self.path, tool))
        self.ship()

    def write(self, name, text):
        path = os.path.join(self.top, name)
        os.makedirs(os.path.dirname(path), exist_ok=True)
        with open(path, "w", encoding="utf-8") as file:
            file.write(text)

    def shell(self, command):
        return subprocess.run(
            ["sh", "-c", f"here={self.top}; . {self.top}/release/sources.sh; {command}"],
            capture_output=True, text=True, check=True, env={"PATH": self.path}, timeout=SECONDS,
        ).stdout.strip()

    def sum(self):
        return self.shell("sum_of_sources")

    def ship(self):
        self.write("release/x86_64-linux/flagops", PROGRAM)
        os.chmod(os.path.join(self.top, "release/x86_64-linux/flagops"), 0o755)
        program = self.shell('sum_of "$shipped"')
        self.write("release/BUILT-FROM", f"kit a kit\nprogram {program}\nsources {self.sum()}\n")

    def run_it(self, command=None):
        return subprocess.run(
            [command or os.path.join(self.top, "flagops"), "one", "two words"],
            capture_output=True, text=True, check=False, env={"PATH": self.path}, timeout=SECONDS,
        )

    def assert_runs(self):
        ran = self.run_it()
        self.assertEqual((ran.stdout, ran.stderr, ran.returncode), ("shipped one two words\n", "", 3))

    def assert_refused(self, told):
        ran = self.run_it()
        self.assertEqual((ran.stdout, ran.returncode), ("", 1))
        self.assertIn(told, ran.stderr)
        self.assertIn("./build", ran.stderr)

    def test_runs_with_a_shell_and_coreutils(self):
        self.assert_runs()
        self.assert_runs()

    def test_runs_through_links(self):
        folder = os.path.dirname(self.top)
        os.symlink(os.path.join(self.top, "flagops"), os.path.join(folder, "link"))
        os.symlink("link", os.path.join(folder, "link-of-link"))
        for link in ["link", "link-of-link"]:
            ran = self.run_it(os.path.join(folder, link))
            self.assertEqual((ran.stdout, ran.stderr, ran.returncode), ("shipped one two words\n", "", 3))

    def test_the_sum_is_that_of_the_sources(self):
        before = self.sum()
        for name, old, new in [
            ("HANDLES", "none", "Wait"),
            ("crates.txt", "may_wait=1", "may_wait=2"),
            ("crates/low/src/lib.rt", "low", "lox"),
            ("crates/middle/proofs/part/Answers.antt", "mid", "min"),
            ("crates/flagops/src/main.rt", "main", "mai"),
        ]:
            self.write(name, FILES[name].replace(old, new))
            self.assertNotEqual(self.sum(), before, name)
            self.write(name, FILES[name])
            self.assertEqual(self.sum(), before, name)
        for name in ["README.md", "crates/low/must-fail/one.edit", "crates/low/out/lib", "crates/low_tests/src/lib.rt"]:
            self.write(name, "another\n")
            self.assertEqual(self.sum(), before, name)
        self.write("crates.txt", FILES["crates.txt"].replace("lowest first", "another order").replace("low_tests: low", "low_tests:"))
        self.assertEqual(self.sum(), before)
        self.write("crates/low/src/more.rt", "")
        self.assertNotEqual(self.sum(), before)

    def test_a_sum_that_stands_in_its_sources(self):
        """Its digits are no part of it, and the rest of their file is; `sed` takes them out."""
        os.symlink(shutil.which("sed"), os.path.join(self.path, "sed"))

        def told(text):
            self.write("crates/low/src/lib.rt", text)
            return self.shell("telling=crates/low/src/lib.rt; sum_of_sources")

        one, other, rest = (told(f"low {digits * 64}{end}\n") for digits, end in (("0", ""), ("a", ""), ("0", ".")))
        self.assertEqual((one == other, one == rest), (True, False))
        self.assertNotEqual(one, self.sum())

    def test_an_edit_is_seen_after_a_first_run(self):
        self.assert_runs()
        self.write("crates/middle/proofs/part/Answers.antt", "middlE\n")
        self.assert_refused("the sources of this checkout are not those")
        self.assert_refused("the sources of this checkout are not those")
        self.write("crates/middle/proofs/part/Answers.antt", FILES["crates/middle/proofs/part/Answers.antt"])
        self.assert_runs()
        self.write("crates/low/src/more.rt", "")
        self.assert_refused("the sources of this checkout are not those")
        os.remove(os.path.join(self.top, "crates/low/src/more.rt"))
        self.write("README.md", "another\n")
        self.assert_runs()

    def test_another_program_is_not_run(self):
        self.write("release/x86_64-linux/flagops", PROGRAM + "\n")
        self.assert_refused("is not the program that release/BUILT-FROM names")
        os.remove(os.path.join(self.top, "release/BUILT-FROM"))
        self.assert_refused("there is no shipped program")

    def test_a_folder_that_may_not_be_written(self):
        # A file stands where the answer would be remembered.
        self.write("out", "a file\n")
        self.assert_runs()
        self.assert_runs()


if __name__ == "__main__":
    unittest.main()
