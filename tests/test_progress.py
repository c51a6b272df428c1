"""What stands on a terminal while a command takes more than a second, and that nothing is left of it."""
import os
import pty
import re
import subprocess
import tempfile
import threading
import time
import unittest
from concurrent.futures import ThreadPoolExecutor
from typing import NamedTuple

from given import BOOK, document, request
from program import PROGRAM, SECONDS, wait_until
from test_drive import ASKS, compact
from test_records import DOCUMENT

# What is written of a line: to its front, no wrapping; what is behind its text; and to its front, where it is erased.
BEFORE, BEHIND, ERASED = "\r\x1b[?7l", "\x1b[K\x1b[?7h", "\r\x1b[K"

# Seconds after which a line would stand on a terminal.
LATE = 1.5


class Ran(NamedTuple):
    """What a run printed, what was written to its error outlet, its status, and its seconds."""

    out: str
    err: str
    status: int
    seconds: float


class Slow(NamedTuple):
    """A text of which the second half comes once the terminal shows a line with this, or where there is no terminal, late."""

    text: str
    shown: str

    def write(self, open_pipe, told, is_terminal):
        half = len(self.text) // 2
        with open_pipe() as pipe:
            pipe.write(self.text[:half].encode())
            pipe.flush()
            if is_terminal:
                wait_until(lambda: self.shown in lines_of(text_of(told)), f"no line says {self.shown}")
            else:
                time.sleep(LATE)
            pipe.write(self.text[half:].encode())


def drain(source, into):
    """Reads until nobody writes any more, which a terminal tells by an error."""
    while True:
        try:
            part = os.read(source, 65536)
        except OSError:
            break
        if not part:
            break
        into.append(part)


def text_of(told):
    """What was written to an error outlet so far."""
    return b"".join(told).decode(errors="replace").replace("\r\n", "\n")


def run(words, files, slow=None, is_terminal=True):
    """A run in a folder with these files, whose error outlet is a terminal or a pipe. The texts of `slow` come slowly: from named
    pipes, that of `-` from the standard input."""
    slow = slow or {}
    with tempfile.TemporaryDirectory() as folder:
        for name, text in files.items():
            with open(os.path.join(folder, name), "w", encoding="utf-8") as file:
                file.write(text)
        for name in slow:
            if name != "-":
                os.mkfifo(os.path.join(folder, name))
        own, theirs = pty.openpty() if is_terminal else os.pipe()
        given = subprocess.PIPE if "-" in slow else subprocess.DEVNULL
        began = time.monotonic()
        process = subprocess.Popen([PROGRAM, *words], cwd=folder, stdin=given, stdout=subprocess.PIPE, stderr=theirs)
        os.close(theirs)
        told = []
        threads = [threading.Thread(target=drain, args=(own, told))]
        for name, text in slow.items():
            opened = (lambda: process.stdin) if name == "-" else (lambda path=os.path.join(folder, name): open(path, "wb"))
            threads.append(threading.Thread(target=text.write, args=(opened, told, is_terminal)))
        for thread in threads:
            thread.daemon = True
            thread.start()
        out = process.stdout.read().decode()
        process.stdout.close()
        status = process.wait(timeout=SECONDS)
        seconds = time.monotonic() - began
        for thread in threads:
            thread.join(SECONDS)
        os.close(own)
    return Ran(out, text_of(told), status, seconds)


def lines_of(err):
    """The lines of progress in what was written to a terminal, in their order."""
    return re.findall(re.escape(BEFORE) + "(.*?)" + re.escape(BEHIND), err)


def left_of(err):
    """What is left on the terminal: what stands behind the last line of progress, which was erased."""
    if BEFORE not in err:
        return err
    behind = err[err.rindex(BEHIND) + len(BEHIND) :]
    return behind[len(ERASED) :] if behind.startswith(ERASED) else "not erased: " + behind


# How many bytes a unit is in which a line counts them.
UNITS = {"bytes": 1, "kB": 1000}

# A targeting with a thousand tests before its buckets.
TESTS = [{"==": [{"var": "key"}, f"nobody {n}"]} for n in range(1000)]
HARD = {"if": [{"or": TESTS}, "red", {"fractional": [{"var": "key"}, ["red", 1], ["blue", 1]]}]}


class Progress(unittest.TestCase):
    def assert_as_without(self, ran, plain):
        """The run prints, ends and leaves on the terminal what it prints, ends with and tells without a terminal."""
        self.assertEqual((ran.status, ran.out), (plain.status, plain.out))
        self.assertEqual(left_of(ran.err), plain.err)
        self.assertNotIn("\x1b", plain.err)

    def assert_tells(self, words, files, what, name, text):
        """The run on a terminal tells of a text that comes slowly that it reads its half, and never of fewer bytes than before; the
        same run without a terminal."""
        half = len(text) // 2
        amount = f"{half:,} bytes" if half < 10_000 else f"{half // 1000:,} kB"
        slow = {name: Slow(text, f"reading {what}: {amount}")}
        with ThreadPoolExecutor() as pool:
            ran, plain = pool.map(lambda is_terminal: run(words, files, slow, is_terminal), (True, False))
        self.assert_as_without(ran, plain)
        counts = re.findall(f"reading {re.escape(what)}: ([\\d,]+) (\\w+)", "\n".join(lines_of(ran.err)))
        amounts = [int(count.replace(",", "")) * UNITS[unit] for count, unit in counts]
        self.assertEqual(amounts, sorted(amounts))
        self.assertLessEqual(amounts[-1], len(text))
        return ran

    def test_a_slow_file(self):
        self.assert_tells(["drive", "d", "a", "2", "b"], {"d": document()}, '"a"', "a", ASKS)

    def test_a_slow_refusal(self):
        self.assertEqual(self.assert_tells(["bucket", "r", "key"], {}, '"r"', "r", "[1,2").status, 1)

    def test_the_standard_input(self):
        lines = "".join(compact({"key": f"user{n}"}) + "\n" for n in range(20_000))
        for words, text in [(["record", "d", "color"], lines), (["drive", "d", "-", "2", "b"], ASKS)]:
            with self.subTest(words=words):
                self.assert_tells(words, {"d": DOCUMENT}, "the standard input", "-", text)

    def test_answers(self):
        """Of so many asks that they take more than a second, as the machine is: on a fast one there are more."""
        flag = {"state": "ENABLED", "variants": {"red": 1, "blue": 2}, "defaultVariant": "red", "targeting": HARD}
        done, count = [], 4_000
        while not done:
            asks = [
                {"key": "f", "want": "whole", "default": 0, "context": {"key": f"user{n}"}, "moment": 0} for n in range(count)
            ]
            files = {"d": compact({"flags": {"f": flag}}), "a": compact(asks)}
            ran = run(["drive", "d", "a", "1", "b"], files)
            told = [re.fullmatch(rf"answering asks: ([\d,]+) of {count:,}", line) for line in lines_of(ran.err)]
            done = [int(each[1].replace(",", "")) for each in told if each]
            count *= 2
        self.assertEqual(done, sorted(done))
        self.assert_as_without(ran, run(["drive", "d", "a", "4", "b"], files, is_terminal=False))

    def test_nothing_within_a_second(self):
        """A run that takes longer, as on a busy machine, says nothing of that: another one is tried."""
        words = ["drive", "d", "a", "2", "b"]
        files = {"d": document(), "a": ASKS}
        plain = run(words, files, is_terminal=False)
        for _ in range(100):
            ran = run(words, files)
            self.assert_as_without(ran, plain)
            if ran.seconds < 1:
                self.assertEqual(ran.err, plain.err)
                return
        self.skipTest("each run takes more than a second here")

    def test_plan_tells_a_terminal(self):
        """On a terminal `plan` tells what `--explain` tells, and prints the same."""
        files = {"d": document(), "r": request('"red":6,"blue":4'), "b": BOOK}
        ran = run(["plan", "d", "r", "b"], files)
        explained = run(["plan", "--explain", "d", "r", "b"], files, is_terminal=False)
        self.assert_as_without(ran, explained)
        self.assertIn("recorded users", explained.err)
        self.assertEqual(run(["plan", "d", "r", "b"], files, is_terminal=False)[:3], (ran.out, "", ran.status))

    def test_long_paths(self):
        name = "x" * 60 + "\x1b[2J\n"
        self.assert_tells(["check", name], {}, '"..' + "x" * 27 + '?[2J?"', name, DOCUMENT)


if __name__ == "__main__":
    unittest.main()
