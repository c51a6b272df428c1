"""Files that a command writes are replaced whole: by `drive`, whatever becomes of it."""
import os
import random
import shutil
import stat
import subprocess
import tempfile
import time
import unittest

from given import BOOK, EMPTY_BOOK, document
from program import PROGRAM, text_of
from test_drive import ASKS

OLD = EMPTY_BOOK


class Replacing(unittest.TestCase):
    def setUp(self):
        folder = tempfile.TemporaryDirectory()
        self.addCleanup(folder.cleanup)
        self.folder = folder.name
        self.write("d", document())
        self.write("a", ASKS)
        self.write("b", OLD)

    def write(self, name, text):
        with open(os.path.join(self.folder, name), "w", encoding="utf-8") as file:
            file.write(text)

    def path(self, name):
        return os.path.join(self.folder, name)

    def start(self, book, program=PROGRAM, **how):
        """A `drive` whose book is this."""
        words = [program, "drive", self.path("d"), self.path("a"), "1", book]
        return subprocess.Popen(words, cwd=self.folder, stdout=subprocess.PIPE, stderr=subprocess.DEVNULL, **how)

    def assert_driven(self, book, name):
        """A book at this path is written to the file of that name."""
        ended = self.start(book)
        ended.communicate()
        self.assertEqual(ended.returncode, 0)
        self.assertEqual(text_of(self.path(name)), BOOK)

    def assert_refused(self, folder, **how):
        """A book in the folder is refused, and stays as it was, alone."""
        book = os.path.join(folder, "b")
        ended = self.start(book, **how)
        printed, _ = ended.communicate()
        self.assertEqual((ended.returncode, printed), (1, b"refused store 1 Unwritable\n"))
        self.assertEqual((os.listdir(folder), text_of(book)), (["b"], OLD))

    def test_the_mode_stays_and_nothing_is_left_beside(self):
        os.chmod(self.path("b"), 0o640)
        self.assert_driven("b", "b")
        self.assertEqual(stat.S_IMODE(os.stat(self.path("b")).st_mode), 0o640)
        self.assertEqual(sorted(os.listdir(self.folder)), ["a", "b", "d"])

    def test_a_file_that_was_not_there(self):
        self.assert_driven("new", "new")

    def test_a_link_stays_a_link(self):
        os.mkdir(self.path("to"))
        for link, target, name in [("to/b", "../b", "b"), ("again", "to/b", "b"), ("none", "to/none", "to/none")]:
            with self.subTest(link=link):
                os.symlink(target, self.path(link))
                self.assert_driven(link, name)
                self.assertEqual(os.readlink(self.path(link)), target)
                if name == "b":
                    self.write("b", OLD)

    def test_a_link_to_itself(self):
        os.symlink("loop", self.path("loop"))
        ended = self.start("loop")
        self.assertEqual(ended.communicate()[0], b"refused store 1 Unwritable\n")

    def test_a_pipe_is_written_as_it_is(self):
        ended = self.start("/dev/stdout")
        self.assertTrue(ended.communicate()[0].decode().startswith(BOOK))
        os.mkfifo(self.path("pipe"))
        with subprocess.Popen(["cat", self.path("pipe")], stdout=subprocess.PIPE) as reader:
            self.start("pipe").communicate()
            self.assertEqual(reader.communicate()[0].decode(), BOOK)
        self.assertTrue(stat.S_ISFIFO(os.stat(self.path("pipe")).st_mode))

    def test_the_standard_output_is_written_in_its_place(self):
        """Behind what stands there, and what is printed behind it, whether it is a file or a pipe."""
        for mode in ("wb", "ab"):
            with self.subTest(mode=mode):
                with open(self.path("all"), mode) as out:
                    subprocess.run([PROGRAM, "book", "-", self.path("b")], stdout=out, check=True)
                with open(self.path("all"), encoding="utf-8") as file:
                    texts = file.read()
                one = OLD + "inputs 0\nfiles 1\n"
                self.assertEqual(texts, one if mode == "wb" else one + one)
        piped = subprocess.run([PROGRAM, "book", "-", self.path("b")], stdout=subprocess.PIPE, encoding="utf-8", check=True)
        self.assertEqual(piped.stdout, one)

    def test_a_full_disk(self):
        disk = self.path("disk")
        os.mkdir(disk)
        mounted = subprocess.run(["mount", "-t", "tmpfs", "-o", "size=8k", "tmpfs", disk], stderr=subprocess.PIPE, check=False)
        if mounted.returncode != 0:
            self.skipTest("no disk can be mounted")
        try:
            with open(os.path.join(disk, "b"), "w", encoding="utf-8") as file:
                file.write(OLD)
            with open(os.path.join(disk, "rest"), "wb") as file:
                file.write(b"x" * 4096)
            os.rename(os.path.join(disk, "rest"), os.path.join(disk, "b2"))
            ended = self.start(os.path.join(disk, "b"))
            self.assertEqual(ended.communicate()[0], b"refused store 1 Unwritable\n")
            self.assertEqual(sorted(os.listdir(disk)), ["b", "b2"])
            self.assertEqual(text_of(os.path.join(disk, "b")), OLD)
        finally:
            subprocess.run(["umount", disk], check=True)

    def test_a_folder_without_the_right_to_write(self):
        if os.getuid() != 0:
            self.skipTest("the words are for root, who gives the rights away")
        folder = self.path("sealed")
        os.mkdir(folder)
        with open(os.path.join(folder, "b"), "w", encoding="utf-8") as file:
            file.write(OLD)
        # The user `nobody` may perhaps not enter the folders above the program.
        program = shutil.copy(PROGRAM, self.path("program"))
        for path, mode in [(self.folder, 0o755), (program, 0o755), (self.path("d"), 0o644), (self.path("a"), 0o644)]:
            os.chmod(path, mode)
        os.chmod(os.path.join(folder, "b"), 0o666)
        os.chmod(folder, 0o555)
        self.assert_refused(folder, program=program, user=65534)

    def test_a_process_that_is_ended(self):
        """Ended at 200 moments, it leaves the old book or the new one."""
        whole, chosen = min(self.seconds() for _ in range(5)), random.Random(35)
        for _ in range(200):
            self.write("b", OLD)
            ended = self.start("b")
            time.sleep(chosen.random() * whole)
            ended.kill()
            ended.communicate()
            self.assertIn(text_of(self.path("b")), [OLD, BOOK])

    def seconds(self):
        """How long a run takes that is not ended."""
        began = time.monotonic()
        self.start("b").communicate()
        return time.monotonic() - began


if __name__ == "__main__":
    unittest.main()
