"""The filters `record`, `tally` and `join`: what they pass over, tell and refuse, and how they end."""
import json
import os
import subprocess
import tempfile
import unittest

from program import PROGRAM, ROOT, SECONDS, ProgramTest, run
from test_planner import murmur3
from test_records import DOCUMENT, TOTAL, compact, note, printed, sorted_once

BROKEN = compact(
    {
        "flags": {
            "color": {"state": "ENABLED", "variants": {"red": 1.5}, "targeting": {"fractional": [["red", 1]]}},
            "plain": {"state": "ENABLED", "variants": {"red": 1}, "defaultVariant": "red"},
            "empty": {
                "state": "ENABLED",
                "variants": {"red": 1},
                "defaultVariant": "red",
                "targeting": {"fractional": [["red", 0]]},
            },
            "large": {
                "state": "ENABLED",
                "variants": {"red": 1},
                "defaultVariant": "red",
                "targeting": {"fractional": [["red", 1_000_001]]},
            },
        }
    }
)


def context(key):
    """A line with the context of a key."""
    return compact({"key": key}) + "\n"


def record(lines, *more, document=DOCUMENT, key="color"):
    """What `record` comes to on these lines."""
    return run(["record", "d", key, *more], {"d": document}, input=lines)


def why(contexts, *causes):
    """What `record` tells where it reads so many contexts and notes nothing of them."""
    return f"record: nothing is recorded: {', '.join([f'contexts {contexts}', *causes])}\n"


def tally(lines, *more, document=DOCUMENT, key="color", site="0"):
    """What `tally` comes to on these lines."""
    return run(["tally", "d", key, site, *more], {"d": document}, input=lines)


NONE = "tally: no line is of the page of this site, and nothing is counted; 'cut -d, -f1-3' shows the pages of lines\n"

NO_KEY = why(1, "1 without a targetingKey")

WORKERS = ("1", "2", "3", "4", "64")


class WorkersTest(ProgramTest):
    """`record` by any number of workers, each of which takes some lines of a batch that lie side by side."""

    def assert_same(self, lines, count, refused=None):
        """By any number of workers these lines give the notes of the first of them, and the line of the refusal."""
        expected = "".join(note(f"user{n}") for n in range(count)) + (f"refused record 1 Line {refused}\n" if refused else "")
        ran = [record(lines, "--workers", n) for n in WORKERS]
        told = {each.err for each in ran}
        self.assertEqual([(each.out == expected, each.status) for each in ran], [(True, 1 if refused else 0)] * len(ran))
        self.assertEqual(len(told), 1, told)
        return told.pop()

    def test_one_batch(self):
        """A line that is no context stands at each place of a batch, alone and before another one: first and last of a worker's
        lines, and within them."""
        filler = "f" * 32_768
        good = [compact({"filler": filler, "key": f"user{n}"}) + "\n" for n in range(16)]
        self.assertEqual(self.assert_same("".join(good), 16), "")
        for bad in range(16):
            for also in (None, (bad + 5) % 16):
                with self.subTest(bad=bad, also=also):
                    lines = list(good)
                    for at in {bad} if also is None else {bad, also}:
                        lines[at] = "[]\n"
                    first = bad if also is None else min(bad, also)
                    self.assertIn(f"line {first + 1} ", self.assert_same("".join(lines), first, first + 1))

    def test_batches(self):
        """Several batches, with a line that is no context at the first, the last and some other places."""
        filler = "f" * 4_096
        good = [compact({"filler": filler, "key": f"user{n}"}) + "\n" for n in range(4_500)]
        self.assertEqual(self.assert_same("".join(good), 4_500), "")
        for bad in (0, 1_018, 2_036, 4_499):
            with self.subTest(bad=bad):
                self.assert_same("".join([*good[:bad], "{\n", *good[bad + 1 :]]), bad, bad + 1)

    def test_unequal_lines(self):
        """Fewer lines than workers, blank ones, a long line among short ones, and a last line without its end."""
        long = compact({"filler": "f" * 4_000_000, "key": "user0"}) + "\n"
        short = [compact({"key": f"user{n}"}) + "\n" for n in range(1, 4)]
        self.assertEqual(self.assert_same(long, 1), "")
        self.assertEqual(self.assert_same(long + "".join(short), 4), "")
        self.assertEqual(self.assert_same(long + "\n" * 100_000 + "".join(short), 4), "")
        self.assertIn("no line feed", self.assert_same(long + "".join(short) + "{", 4))

    def test_long_inputs(self):
        """Inputs above 1,024 bytes are counted over all workers."""
        lines = "".join(context("k" * 1025) + context(f"user{n}") for n in range(1_000))
        self.assertIn("1000 inputs", self.assert_same(lines, 1_000))


class FiltersTest(ProgramTest):
    """The filters on small inputs."""

    def test_empty(self):
        """No line gives no note, and the tally of none."""
        for ran, out in [(record(""), ""), (tally(""), printed([], TOTAL))]:
            self.assertEqual((ran.out, ran.status), (out, 0))
            self.assertIn(": the standard input is empty, and nothing is ", ran.err)
        for ran, out, told in [(record("\n"), "", why(0)), (tally("\n"), printed([], TOTAL), NONE)]:
            self.assertEqual((ran.out, ran.status, ran.err), (out, 0, told))

    def test_a_byte_order_mark(self):
        """It is told of the first line, and of no other."""
        for ran, call in [
            (record("\ufeff" + context("a")), "record"),
            (tally("\ufeff" + note("a")), "tally"),
        ]:
            self.assertEqual((ran.out, ran.status), (f"refused {call} 1 Line 1\n", 1))
            self.assertIn(", as it begins with a byte order mark\n", ran.err)
        for ran, call in [
            (record(context("a") + "\ufeff" + context("b")), "record"),
            (tally(note("a") + "\ufeff" + note("b")), "tally"),
        ]:
            self.assertTrue(ran.out.endswith(f"refused {call} 1 Line 2\n"), ran.out)
            self.assertNotIn(", as it begins with a byte order mark\n", ran.err)

    def test_refused_line(self):
        """What was printed before stays, the line of the refusal is the last, and later lines are not looked at."""
        for bad in ["[]", "{", "1", '{"key":05.0}', '{"key":"b"} x', '"b"']:
            with self.subTest(bad=bad):
                ran = record(context("a") + "\n" + bad + "\n" + context("c") + "}\n")
                self.assertEqual((ran.out, ran.status), (note("a") + "refused record 1 Line 3\n", 1))
                self.assertIn("line 3", ran.err)
                refused = tally(ran.out)
                self.assertEqual((refused.out, refused.status), ("refused tally 1 Line 2\n", 1))

    def test_numbers_as_they_are_sent(self):
        """A number that is not whole is in nobody's way."""
        numbered = context("a")[:-2] + ',"latitude":52.1,"age":5.0}\n'
        self.assertEqual(record(numbered), (note("a"), "", 0, {"d": DOCUMENT}))

    def test_passed_over(self):
        """Blank lines are passed over, and a last line without its end, which is told."""
        for lines in [context("a") + " \t\r\n\n" + context("b"), context("a") + context("b")]:
            self.assertEqual(record(lines), (note("a") + note("b"), "", 0, {"d": DOCUMENT}))
            torn = record(lines + '{"key":"c"}')
            self.assertEqual((torn.out, torn.status), (note("a") + note("b"), 0))
            self.assertIn("no line feed", torn.err)
        torn = tally(note("a") + note("b")[:-1])
        self.assertEqual((torn.out, torn.status), (printed([note("a")], TOTAL), 0))
        self.assertIn("no line feed", torn.err)

    def test_long_inputs(self):
        """An input above 1,024 bytes is not noted; their number is told."""
        ran = record(context("k" * 1024) + context("k" * 1025) + context("é" * 513))
        self.assertEqual((ran.out, ran.status), (note("k" * 1024), 0))
        self.assertIn("2 inputs", ran.err)

    def test_long_lines(self):
        """A line has at most 4,194,304 bytes, whether or not it ends."""
        most = 4_194_304
        line = '{"key":"a"' + " " * (most - 11) + "}"
        self.assertEqual(len(line), most)
        self.assertEqual(record(line + "\n").out, note("a"))
        for end in ["\n", ""]:
            ran = record(context("b") + line.replace("}", " }") + end)
            self.assertEqual((ran.out, ran.status), (note("b") + "refused record 1 Line 2\n", 1))
            ran = tally(note("b") + "x" * (most + 1) + end)
            self.assertEqual((ran.out, ran.status), ("refused tally 1 Line 2\n", 1))

    def test_batches(self):
        """Lines of more than one batch, cut at any place, are those of one."""
        filler = "f" * 1000
        keys = [f"user{n}" for n in range(30_000)]
        lines = "".join(compact({"filler": filler, "key": key}) + "\n" for key in keys)
        ran = record(lines)
        self.assertEqual((ran.out == "".join(map(note, keys)), ran.status), (True, 0))
        lines = sorted_once(note(f"{filler}{n}") for n in range(20_000))
        self.assertEqual(tally("".join(lines)).out, printed(lines, TOTAL))
        refused = tally("".join(lines) + lines[-1])
        self.assertEqual(refused.out, "refused tally 2 Order 20001\n")

    def test_flags(self):
        """A flag that is not there or broken, and a site that is not there, are refused as `plan` refuses them."""
        ran = record(context("a"), document=BROKEN, key="none")
        self.assertEqual((ran.out, ran.status), ("refused plan 2 UnknownFlag\n", 1))
        self.assertIn('"none"', ran.err)
        self.assertEqual(record("", document=BROKEN).out, "refused plan 3 NoSite\n")
        no_site = "record: the targeting has no fractional, and nothing is recorded\n"
        self.assertEqual(record(context("a"), document=BROKEN, key="plain"), ("", no_site, 0, {"d": BROKEN}))
        for key, site, refused in [
            ("none", "0", "2 UnknownFlag"),
            ("color", "0", "3 NoSite"),
            ("plain", "0", "3 NoSite"),
            ("empty", "1", "3 NoSite"),
            ("empty", "0", "9 NoWeight"),
            ("large", "0", "7 TotalTooLarge"),
        ]:
            with self.subTest(key=key, site=site):
                ran = tally("", document=BROKEN, key=key, site=site)
                self.assertEqual((ran.out, ran.status), (f"refused plan {refused}\n", 1))
        self.assertEqual(tally("", "--refine", "125000").out, printed([], 1_000_000))
        self.assertEqual(tally("", "--refine", "125001").out, "refused plan 7 TotalTooLarge\n")

    def test_moment(self):
        """The moment is that of each evaluation; where it is left out, 0, or the clock's second where the targeting may read it."""
        pick = {"fractional": [{"var": "key"}, ["red", 1]]}
        flags = {
            key: {"state": "ENABLED", "variants": {"red": 1}, "defaultVariant": "red", "targeting": targeting}
            for key, targeting in {
                "timed": {"if": [{">": [{"var": "$flagd.timestamp"}, 5]}, pick, "red"]},
                "missing": {"if": [{"missing": "$flagd.timestamp"}, "red", pick]},
                "computed": {"if": [{"var": {"cat": ["$flagd.", "timestamp"]}}, pick, "red"]},
                "scope": {"if": [{"var": ["", 0]}, pick, "red"]},
                "bucket": {"fractional": [{"var": "key"}, [{"if": [{"var": "$flagd"}, "red", "red"]}, 1], ["red", 1]]},
            }.items()
        }
        document = compact({"flags": flags})
        for moment, count, told in [("0", 0, NO_KEY), ("5", 0, NO_KEY), ("6", 1, "")]:
            ran = record(context("a"), "--moment", moment, document=document, key="timed")
            self.assertEqual((len(ran.out.splitlines()), ran.err, ran.status), (count, told, 0))
        ran = record(context("a"), document=document, key="missing")
        self.assertEqual((len(ran.out.splitlines()), ran.err, ran.status), (1, "", 0))
        told = r"record: the targeting reads \$flagd\.timestamp and no --moment is given: the moment is \d+, the clock's second\n"
        for key in ["timed", "computed", "scope", "bucket"]:
            with self.subTest(key=key):
                ran = record(context("a"), document=document, key=key)
                self.assertEqual((len(ran.out.splitlines()), ran.status), (1, 0))
                self.assertRegex(ran.err, "^" + told + "$")
        ran = record(context("a") + "[]\n", document=document, key="timed")
        self.assertEqual((len(ran.out.splitlines()), ran.status), (2, 1))
        self.assertRegex(ran.err, "^error: the standard input: line 2 is a list, not a context\n(  [^\n]*\n)*" + told + "$")

    def test_why_nothing_is_recorded(self):
        """Where no line is noted of any context it is told why, each context by one cause; where one is, nothing of it."""
        site = {"fractional": [["red", 1]]}
        flags = {
            "mixed": {"state": "ENABLED", "targeting": {"if": [{">": [{"var": "age"}, 5]}, site, "red"]}},
            "unnamed": {"state": "ENABLED", "targeting": {"if": [{"var": "age"}, site, "blue"]}},
            "off": {"state": "DISABLED", "targeting": site},
        }
        document = compact({"flags": {key: {**flag, "variants": {"red": 1}, "defaultVariant": "red"} for key, flag in flags.items()}})
        no_key, unreached = "{}", '{"targetingKey":"a"}'
        keyless_at_site, number_as_key = '{"age":6}', '{"targetingKey":1,"age":6}'
        fault, long = '{"targetingKey":"a","age":[5.5]}', compact({"targetingKey": "k" * 1025, "age": 6})
        one_long = "record: 1 inputs have more than 1024 bytes and are not noted\n"
        causes = ["3 without a targetingKey", "1 with no fractional reached", "1 with PARSE_ERROR", "1 with inputs of more than 1024 bytes"]
        for key, lines, told in [
            ("mixed", [no_key, keyless_at_site, number_as_key], why(3, "3 without a targetingKey")),
            ("mixed", [unreached, unreached], why(2, "2 with no fractional reached")),
            ("unnamed", [unreached], why(1, "1 with no fractional reached")),
            ("mixed", [fault], why(1, "1 with PARSE_ERROR")),
            ("mixed", [long], why(1, "1 with inputs of more than 1024 bytes") + one_long),
            ("off", [no_key, unreached, fault], why(3, "3 with DISABLED")),
            ("mixed", [" ", long, "", fault, keyless_at_site, unreached, number_as_key, no_key], why(6, *causes) + one_long),
            ("mixed", [unreached, '{"targetingKey":"a","age":6}'], None),
        ]:
            for workers in WORKERS:
                with self.subTest(key=key, lines=lines, workers=workers):
                    ran = record("".join(line + "\n" for line in lines), "--workers", workers, document=document, key=key)
                    self.assertEqual((ran.err, ran.out == "", ran.status), (told or "", told is not None, 0))
        torn = "record: the last line has no line feed and is skipped\n"
        self.assertEqual(record(unreached, document=document, key="mixed").err, why(0) + torn)

    def test_unreadable(self):
        """A read that fails is a refusal of its own."""
        with tempfile.TemporaryDirectory() as folder:
            with open(os.path.join(folder, "d"), "w", encoding="utf-8") as file:
                file.write(DOCUMENT)
            for words, refused in [
                (["record", "d", "color"], "record 2 Unreadable"),
                (["tally", "d", "color", "0"], "tally 4 Unreadable"),
            ]:
                directory = os.open(folder, os.O_RDONLY)
                try:
                    ended = subprocess.run(
                        [PROGRAM, *words], cwd=folder, stdin=directory, capture_output=True, timeout=SECONDS, check=False
                    )
                finally:
                    os.close(directory)
                self.assertEqual((ended.stdout.decode(), ended.returncode), (f"refused {refused}\n", 1))

    def test_closed_pipe(self):
        """A pipe that is closed early ends `record` quietly, with status 1."""
        with tempfile.TemporaryDirectory() as folder:
            with open(os.path.join(folder, "d"), "w", encoding="utf-8") as file:
                file.write(DOCUMENT)
            with open(os.path.join(folder, "c"), "w", encoding="utf-8") as file:
                file.writelines(context(f"user{n}") for n in range(600_000))
            for workers in WORKERS:
                with self.subTest(workers=workers):
                    self.assert_breaks_off(workers, folder)

    def assert_breaks_off(self, workers, folder):
        """It does so by this number of workers."""
        with open(os.path.join(folder, "c"), "rb") as contexts:
            running = subprocess.Popen(
                [PROGRAM, "record", "d", "color", "--workers", workers],
                cwd=folder,
                stdin=contexts,
                stdout=subprocess.PIPE,
                stderr=subprocess.PIPE,
            )
            first = running.stdout.readline()
            running.stdout.close()
            told = running.stderr.read()
            running.stderr.close()
            status = running.wait(SECONDS)
        self.assertEqual((first.decode(), told, status), (note("user0"), b"", 1))

    def test_words(self):
        """Words that are none of the filters'."""
        for words in [
            ["record", "d"],
            ["record", "d", "color", "more"],
            ["record", "d", "color", "--workers", "0"],
            ["record", "d", "color", "--workers", "65"],
            ["record", "d", "color", "--moment", "x"],
            ["tally", "d", "color"],
            ["tally", "d", "color", "-1"],
            ["tally", "d", "color", "4294967296"],
            ["tally", "d", "color", "0", "--refine", "0"],
            ["join"],
        ]:
            with self.subTest(words=words):
                ran = run(words, {"d": DOCUMENT}, input="")
                self.assertEqual((ran.out, ran.status), ("", 2))
                self.assertTrue(ran.err.startswith("error: ") and "try '--help'.\n" in ran.err, ran.err)
        self.assertIn("--workers", run(["record", "--help"], {}, input="").out)

    def test_files(self):
        """Files that are not there, and documents that are none."""
        self.assertEqual(run(["record", "d", "color"], {}, input="").out, "refused load 1 Unreadable\n")
        self.assertEqual(run(["tally", "d", "color", "0"], {"d": "{}"}, input="").out, "refused read_flags 2 NoFlags\n")
        ran = run(["join", "a", "b"], {"a": printed([note("a")], TOTAL)})
        self.assertEqual((ran.out, ran.status), ("refused load 1 Unreadable\n", 1))
        self.assertIn('"b"', ran.err)

    def test_ends_of_a_file(self):
        """What `join` tells of a file that is empty, begins with a byte order mark, or was cut."""
        whole = printed([note("a")], TOTAL)
        for text, told in [
            ("", 'error: "a" is empty, which is not a tally\n'),
            ("\ufeff" + whole, 'error: "a" begins with a byte order mark, so it is not a tally\n'),
            (whole[:-1], "its last line has no line feed"),
        ]:
            with self.subTest(text=text[:20]):
                ran = run(["join", "b", "a"], {"a": text, "b": whole})
                self.assertTrue(ran.out.startswith("refused read_tally "), ran.out)
                self.assertEqual(ran.status, 1)
                self.assertIn(told, ran.err)

    def test_book(self):
        """The tally of the demo's contexts has the counts of the book that `drive` writes of the same asks."""
        path = os.path.join(ROOT, "demo")
        shop = os.path.join(path, "flags", "shop.json")
        with open(os.path.join(path, "drive", "asks.json"), encoding="utf-8") as file:
            asks = json.load(file)
        with open(os.path.join(path, "rollout", "book.txt"), encoding="utf-8") as file:
            inputs = [json.loads(line) for line in file.readlines()[2:]]
        lines = "".join(compact(ask["context"]) + "\n" for ask in asks)
        ran = run(["record", shop, "checkout"], {}, input=lines)
        self.assertEqual((ran.err, ran.status), ("", 0))
        lines = sorted_once(ran.out.splitlines(keepends=True))
        self.assertEqual([json.loads(line)[3] for line in lines], inputs)
        printed_tally = run(["tally", shop, "checkout", "0"], {}, input="".join(lines)).out.splitlines()
        counts = {}
        for each in inputs:
            point = murmur3(each.encode()) * 100 >> 32
            counts[point] = counts.get(point, 0) + 1
        self.assertEqual(json.loads(printed_tally[1])["inputs"], len(inputs))
        self.assertEqual([json.loads(line) for line in printed_tally[2:]], [[p, counts[p]] for p in sorted(counts)])


if __name__ == "__main__":
    unittest.main()
