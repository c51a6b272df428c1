"""Outputs that fail midway, and want of memory."""
import json
import os
import resource
import signal
import tempfile
import unittest

from given import document, request
from program import ProgramTest, run

HALVES = '[["red",50],["blue",50]]'
FAILED = "error: the output cannot be written: File too large (os error 27)\n"
ANSWER = 'hash ba6bd213\npoint 72\nvariant "blue"\n'

# The words, a rule file and what is printed of it.
REPORTS = [
    (["bucket", "f", "test"], HALVES, ANSWER),
    (["bucket", "f", "test"], "[]", "refused read_rule 1 NoWeight\n"),
    (["bucket", "--help"], "", None),
]

PAGE = r'{"by":"{\"var\":[\"key\"]}","flag":"color","site":0}'

USERS = sorted(f"user-{number}" for number in range(50_000))

ASKS = [
    {"key": "color", "want": "text", "default": "d", "context": {"key": user}, "moment": 0} for user in USERS[:5000]
]

# The words, and large files: a rule, a book, and asks.
LARGE = [
    (["bucket", "f", "test"], {"f": '[["red",50],' + '["a",0],' * 200_000 + '["blue",50]]'}),
    (
        ["plan", "d", "r", "b"],
        {
            "d": document('["red",500000],["blue",500000]'),
            "r": request('"red":300000,"blue":700000'),
            "b": '{"book":1}\n' + PAGE + "\n" + "".join(f'"{user}"\n' for user in USERS),
        },
    ),
    (["drive", "d", "a", "4", "b"], {"d": document(), "a": json.dumps(ASKS)}),
]


def at_most(bytes_written):
    """Lets a process write no more bytes than these to a file."""

    def limit():
        signal.signal(signal.SIGXFSZ, signal.SIG_IGN)
        resource.setrlimit(resource.RLIMIT_FSIZE, (bytes_written, bytes_written))

    return limit


def within(bytes_mapped):
    """Lets a process map no more bytes of memory than these."""
    return lambda: resource.setrlimit(resource.RLIMIT_AS, (bytes_mapped, bytes_mapped))


class Outputs(ProgramTest):
    def test_an_output_that_fails_has_what_it_took(self):
        """Its status is 1, and the system's word for it is told behind what is told of a refusal."""
        for words, rule, report in REPORTS:
            report = report or run(words, {"f": rule}).out
            for count in range(len(report)):
                with self.subTest(words=words, rule=rule, count=count), tempfile.TemporaryFile() as out:
                    ran = run(words, {"f": rule}, stdout=out, preexec_fn=at_most(count))
                    out.seek(0)
                    self.assertEqual((out.read(), ran.status), (report.encode()[:count], 1))
                    told, failed = ran.err[: -len(FAILED)], ran.err[-len(FAILED) :]
                    self.assertEqual((told == "", failed), (not report.startswith("refused"), FAILED))

    def test_a_full_device_is_named(self):
        with open("/dev/full", "w", encoding="utf-8") as full:
            ran = run(["bucket", "f", "test"], {"f": HALVES}, stdout=full)
        self.assertEqual((ran.status, ran.err), (1, "error: the output cannot be written: No space left on device (os error 28)\n"))

    def test_of_a_reader_that_has_gone_nothing_is_told(self):
        read, written = os.pipe()
        os.close(read)
        ran = run(["bucket", "f", "test"], {"f": HALVES}, stdout=written)
        os.close(written)
        self.assertEqual((ran.status, ran.err), (1, ""))

    def test_want_of_memory_is_a_refusal_of_its_call(self):
        """However much is free, all is as it is where enough is, or a call wants memory and no file is left."""
        for words, files in LARGE:
            enough = run(words, files)
            self.assertEqual(enough.status, 0)
            statuses = set()
            for free in [8, 12, 16, 24, 32, 48, 64, 96, 128, 256, 512, 1024, 4096]:
                ran = run(words, files, preexec_fn=within(free << 20))
                statuses.add(ran.status)
                with self.subTest(words=words, free=free):
                    if ran.status == 0:
                        self.assertEqual(ran, enough)
                    else:
                        self.assertRegex(ran.out, r"^refused [A-Za-z_:]+ 0 WantOfMemory\n$")
                        self.assertEqual((ran.status, ran.files), (1, files))
            self.assertEqual(statuses, {0, 1}, words)


if __name__ == "__main__":
    unittest.main()
