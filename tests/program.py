"""Runs of the program, each over files in a folder of its own: of the one that FLAGOPS names (./test sets it), else of the one that
was built here, else of the shipped one."""
import json
import os
import resource
import shutil
import socket
import subprocess
import tempfile
import time
import unittest
from typing import NamedTuple

ROOT = os.path.dirname(os.path.dirname(os.path.abspath(__file__)))
BUILT = os.path.join(ROOT, "crates", "flagops", "out", "flagops")
SHIPPED = os.path.join(ROOT, "release", "x86_64-linux", "flagops")
PROGRAM = os.environ.get("FLAGOPS") or (BUILT if os.path.exists(BUILT) else SHIPPED)

# The seconds after which a test gives up waiting. No test depends on time: they wait for what is to happen (a line, a file, a
# connection), and this only ends one that hangs.
SECONDS = 900

# The seconds of a processor that a run may take which is to be cheap, however long it waits for one.
CHEAP = 20


class Ran(NamedTuple):
    """What a run printed, what it told a person, its status, and the files that it left, by their names."""

    out: str
    err: str
    status: int
    files: dict


def run(words, files, **how):
    """A run with these words, in a folder with these files: texts or bytes by their names. `how` goes to `subprocess.run`."""
    with tempfile.TemporaryDirectory() as folder:
        for name, text in files.items():
            with open(os.path.join(folder, name), "wb") as file:
                file.write(text.encode() if isinstance(text, str) else text)
        how = {"stdout": subprocess.PIPE, "stderr": subprocess.PIPE, **how}
        ended = subprocess.run(
            [PROGRAM, *words], cwd=folder, encoding="utf-8", timeout=SECONDS, check=False, **how
        )
        left = {name: text_of(os.path.join(folder, name)) for name in os.listdir(folder)}
    return Ran(ended.stdout, ended.stderr, ended.returncode, left)


def cheap():
    """For `preexec_fn`: a run that takes many seconds of a processor is ended by a signal."""
    resource.setrlimit(resource.RLIMIT_CPU, (CHEAP, CHEAP))


def wait_until(is_so, what):
    """Waits until this is so."""
    end = time.monotonic() + SECONDS
    while not is_so():
        if time.monotonic() > end:
            raise TimeoutError(f"waited {SECONDS} seconds: {what}")
        time.sleep(0.01)


class Deadline:
    """Seconds from now on, in which something is to be done."""

    def __init__(self, seconds):
        self.seconds, self.end, self.is_met = seconds, time.monotonic() + seconds, False

    def met(self):
        """It is done; in time or not."""
        self.is_met = time.monotonic() < self.end


def in_time(act):
    """Calls `act` with a deadline: as many seconds as the program is told by `--wait`, in which something is to reach it. Where that
    was late by this process's own clock, since the machine is busy, a failure says nothing, and there is a longer deadline."""
    for seconds in (1, 3, 10, 30, 100, 300):
        deadline = Deadline(seconds)
        try:
            return act(deadline)
        except Exception:
            if deadline.is_met or seconds == 300:
                raise


def free_port(test):
    """A port of this host on which nobody listens. It stays bound until the test ends, so that the system gives it to nobody else;
    the program can listen there all the same."""
    probe = socket.socket()
    test.addCleanup(probe.close)
    probe.setsockopt(socket.SOL_SOCKET, socket.SO_REUSEADDR, 1)
    probe.bind(("127.0.0.1", 0))
    return probe.getsockname()[1]


def text_of(path):
    """The text of a file, with marks in place of bytes that are no UTF-8."""
    with open(path, encoding="utf-8", errors="surrogateescape", newline="") as file:
        return file.read()


def found(program):
    """The path of a program of the system; nothing where it is not there. Debian has some where only root looks."""
    return shutil.which(program, path=os.environ.get("PATH", "") + ":/usr/sbin:/sbin")


def needs(*programs):
    """Skips a test where one of the programs is not there."""
    lacking = [it for it in programs if not found(it)]
    return unittest.skipIf(lacking, f"there is no {', '.join(lacking)}")


def broken_lines(told):
    """What is told of broken flags, without what is doubted of others."""
    return "".join(line for line in told.splitlines(keepends=True) if line.startswith("broken: "))


class ProgramTest(unittest.TestCase):
    """Tests of runs."""

    maxDiff = None

    def assert_ends(self, words, files, status, report, **how):
        """The run ends with this status and prints this; a refusal is told in words, and an answer in none but a note."""
        ran = run(words, files, **how)
        self.assertEqual((ran.status, ran.out), (status, report))
        is_told = ran.err != "" and not ran.err.startswith("note: ")
        self.assertEqual(is_told, status == 1, ran.err)
        return ran

    def assert_json(self, words, files, members):
        """The run ends with status 0 and prints these members as JSON: one line without blanks, sorted by their names."""
        ran = run(words, files)
        self.assertEqual((ran.status, ran.err), (0, ""), ran.out)
        self.assertEqual(json.loads(ran.out), members)
        self.assertEqual(ran.out, json.dumps(members, ensure_ascii=False, separators=(",", ":"), sort_keys=True) + "\n")

    def assert_mistake(self, words, files, told):
        """The words ask for nothing: that is told beside the output, with this within."""
        ran = run(words, files)
        self.assertEqual((ran.status, ran.out), (2, ""))
        self.assertIn(told, ran.err)
