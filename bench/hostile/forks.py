"""Many runs of the shipped program of one start for each command: `forks.c`, or another library that serves forks, is loaded before it."""
import os
import struct
import subprocess
import tempfile
from typing import NamedTuple

TOP = os.path.join(os.path.dirname(os.path.abspath(__file__)), "..", "..")
PROGRAM = os.environ.get("FLAGOPS", os.path.abspath(os.path.join(TOP, "release", "x86_64-linux", "flagops")))
HERE = os.path.dirname(os.path.abspath(__file__))


class Ran(NamedTuple):
    """How a run ended: negative where by a signal; what it printed and told; seconds of a processor and kilobytes."""

    status: int
    out: bytes
    err: bytes
    seconds: float
    kilobytes: int


def built(name, folder):
    """A library of a source beside, built into a folder."""
    library = os.path.join(folder, f"{name}.so")
    subprocess.run(["cc", "-O1", "-shared", "-fPIC", "-o", library, os.path.join(HERE, f"{name}.c"), "-ldl"], check=True)
    return library


class Start:
    """A start of the program with these words in a folder, of which runs are made."""

    def __init__(self, words, folder, library, own, more):
        self.outlets = [os.path.join(own, name) for name in ("out", "err")]
        (asked, self.asks), (self.answers, answered) = os.pipe(), os.pipe()
        how = {"LD_PRELOAD": library, "FORKS": f"{asked},{answered}", "OUT": self.outlets[0], "ERR": self.outlets[1], "LD_BIND_NOW": "1", **more}
        null = subprocess.DEVNULL
        self.child = subprocess.Popen([PROGRAM, *words], cwd=folder, env=how, pass_fds=(asked, answered), stdin=null, stdout=null, stderr=null)
        os.close(asked)
        os.close(answered)

    def run(self, settings):
        """A run with these settings."""
        text = b"".join(f"{name}={value}".encode() + b"\0" for name, value in settings.items())
        os.write(self.asks, struct.pack("i", len(text)) + text)
        answer = os.read(self.answers, 24)
        status, spent, kilobytes = struct.unpack("3q", answer)
        texts = []
        for path in self.outlets:
            with open(path, "rb") as file:
                texts.append(file.read())
        return Ran(os.waitstatus_to_exitcode(status), *texts, spent / 1e6, kilobytes)

    def end(self):
        """No more runs."""
        os.close(self.asks)
        os.close(self.answers)
        self.child.wait()


class Forks:
    """The starts of one library, each made when it is first wanted."""

    def __init__(self, name="forks", **more):
        self.more = more
        self.own = tempfile.TemporaryDirectory(dir="/dev/shm" if os.path.isdir("/dev/shm") else None)
        self.library, self.starts = built(name, self.own.name), {}

    def run(self, words, folder, **settings):
        """A run in a folder."""
        place = (tuple(words), folder)
        if place not in self.starts:
            self.starts[place] = Start(words, folder, self.library, self.own.name, self.more)
        return self.starts[place].run(settings)

    def __enter__(self):
        return self

    def __exit__(self, *ignored):
        for start in self.starts.values():
            start.end()
        self.own.cleanup()
