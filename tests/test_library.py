"""The shipped library, or the one in the folder that FLAGOPS_LIBRARY_FOLDER names: its tests in C, by a C compiler where one is here."""
import ctypes
import functools
import os
import re
import shutil
import subprocess
import tempfile
import unittest

from program import PROGRAM, ROOT, SECONDS

SHIPPED = os.path.join(ROOT, "release", "x86_64-linux")
FOLDER = os.environ.get("FLAGOPS_LIBRARY_FOLDER")

# Tells whether the shipped library is built of these sources.
ASK = f"here={ROOT}; . release/sources.sh; . release/prove.sh; . release/library.sh; is_library_of_these"


@functools.cache
def why_not():
    """Why there is no library to be tested, or None."""
    if FOLDER:
        return None
    if not os.path.exists(os.path.join(SHIPPED, "libflagops.so.0")):
        return "no library is shipped"
    if subprocess.run(["sh", "-c", ASK], cwd=ROOT, check=False).returncode:
        return "the shipped library is built of other sources"
    return None


class WithLibrary(unittest.TestCase):
    """Tests of a library, where there is one."""

    folder = FOLDER or SHIPPED

    def setUp(self):
        if why_not():
            self.skipTest(why_not())


def first_program(language):
    """The program of library/README.md in a language."""
    with open(os.path.join(ROOT, "library", "README.md"), encoding="utf-8") as file:
        return file.read().split(f"```{language}\n")[1].split("```")[0]


class SourcesTest(unittest.TestCase):
    def test_nothing_is_forgotten(self):
        """No clause refuses a body that loses memory, so no body calls what does. One takes a box apart, which another makes again."""
        found = []
        for crate in ("held_box", "library_seat", "library_rollouts", "flagops_c"):
            folder = os.path.join(ROOT, "crates", crate, "src")
            for name in sorted(os.listdir(folder)):
                with open(os.path.join(folder, name), encoding="utf-8") as file:
                    found += [(crate, word) for word in re.findall(r"\b(?:forget|\w*leak\w*|into_raw\w*|ManuallyDrop)\b", file.read())]
        self.assertEqual(found, [("held_box", "into_raw_with_allocator")])

    def test_few_calls(self):
        """The header has 20 calls at most."""
        with open(os.path.join(ROOT, "library", "flagops.h"), encoding="utf-8") as file:
            calls = re.findall(r"^(?:uint32_t|void) flagops_\w+\(", file.read(), re.M)
        self.assertLessEqual(len(calls), 20)


class LibraryTest(WithLibrary):
    def assert_passes(self, part, tool=None):
        if tool and not shutil.which(tool):
            self.skipTest(f"{tool} is not here")
        words = [os.path.join(ROOT, "library", "test"), self.folder, PROGRAM, part]
        ran = subprocess.run(words, capture_output=True, text=True, timeout=SECONDS, check=False)
        self.assertEqual((ran.returncode, ran.stdout.splitlines()[-1:]), (0, ["1 passed, 0 failed"]), ran.stderr)

    def test_its_names_are_the_headers(self):
        self.assert_passes("names", "cc")

    def test_answers(self):
        self.assert_passes("answers", "cc")

    def test_rollouts(self):
        self.assert_passes("rollouts", "cc")

    def test_examples(self):
        self.assert_passes("examples", "cc")

    def test_threads(self):
        self.assert_passes("threads", "cc")

    def test_streams(self):
        self.assert_passes("streams", "cc")

    def test_each_request_for_memory_refused(self):
        self.assert_passes("failing", "cc")

    def test_it_agrees_with_the_program(self):
        self.assert_passes("agree")

    def test_rollouts_agree_with_the_program(self):
        self.assert_passes("plans")

    def test_it_says_what_it_is(self):
        library, out, written = ctypes.CDLL(os.path.join(self.folder, "libflagops.so.0")), ctypes.create_string_buffer(1000), ctypes.c_size_t()
        self.assertEqual(library.flagops_about(out, ctypes.c_size_t(len(out)), ctypes.byref(written)), 0)
        about = out.raw[: written.value].decode()
        self.assertRegex(about, r"\Alibflagops \d+\.\d+\.\d+\nproved with rattle-kit-.+\nsources [0-9a-f]{64}\n\Z")
        if not FOLDER:
            with open(os.path.join(ROOT, "release", "LIBRARY-BUILT-FROM"), encoding="utf-8") as file:
                kit, sources = (file.readline() for _ in range(2))
            self.assertEqual(about.split("\n", 1)[1], f"proved with {kit.removeprefix('kit ')}{sources}")

    def test_the_first_programs(self):
        """Those of library/README.md in C, C++ and Rust."""
        examples, archive = os.path.join(ROOT, "library", "examples"), os.path.join(self.folder, "libflagops.a")
        for language, name, words in (
            ("c", "hello.c", ["cc", "-std=c11", "-Wall", "-Wextra", "-Werror", "-I", self.folder, "hello.c", archive, "-o", "hello"]),
            ("cpp", "hello.cc", ["c++", "-std=c++17", "-Wall", "-Wextra", "-Werror", "-I", self.folder, "-I", examples, "hello.cc", archive, "-o", "hello"]),
            ("rust", "hello.rs", ["rustc", "--edition", "2021", "-D", "warnings", "-L", self.folder, "hello.rs"]),
        ):
            with self.subTest(language), tempfile.TemporaryDirectory() as folder:
                if not shutil.which(words[0]):
                    self.skipTest(f"{words[0]} is not here")
                with open(os.path.join(folder, name), "w", encoding="utf-8") as file:
                    file.write(first_program(language))
                shutil.copy(os.path.join(examples, "flagops.rs"), folder)
                subprocess.run(words, cwd=folder, timeout=SECONDS, check=True)
                told = subprocess.run([os.path.join(folder, "hello")], stdout=subprocess.PIPE, text=True, timeout=SECONDS, check=True).stdout
                self.assertEqual(told, "true, by the variant on\n")

    def test_pkg_config(self):
        for tool in ("pkg-config", "cc"):
            if not shutil.which(tool):
                self.skipTest(f"{tool} is not here")
        asked = ["pkg-config", "--cflags", "--libs", "flagops"]
        found = subprocess.run(asked, env={**os.environ, "PKG_CONFIG_PATH": self.folder}, capture_output=True, text=True, timeout=SECONDS, check=True).stdout
        with tempfile.TemporaryDirectory() as folder:
            words = ["cc", os.path.join(ROOT, "library", "examples", "hello.c"), *found.split(), "-o", os.path.join(folder, "hello")]
            subprocess.run(words, timeout=SECONDS, check=True)
            told = subprocess.run([words[-1]], stdout=subprocess.PIPE, text=True, timeout=SECONDS, check=True).stdout
        self.assertEqual(told, "hi is true, by the variant on\n")

    def test_the_header_is_the_shipped_one(self):
        for name in ("flagops.h", "flagops.pc"):
            with open(os.path.join(ROOT, "library", name), "rb") as one, open(os.path.join(self.folder, name), "rb") as other:
                self.assertEqual(one.read(), other.read())


if __name__ == "__main__":
    unittest.main()
