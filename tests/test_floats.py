"""Flags with floats: `--floats` at each command that reads a document, and `ofrep`, which always takes them."""
import json
import unittest

from given import BOOK, FREE, RED_3, document
from program import ProgramTest, run
from test_keep import OLD, TEXT
from test_ramp import THREE
from test_service import ServiceTest, FLAGS, compact, context
from test_streams import Streams, frames

# Numbers as JSON spells them, which a float would print otherwise.
SPELLED = ["0.5", "5.0", "1e3", "-0", "-0.0", "1E+2", "0.1000000000000000055511151231257827", "1e400", "12345678901234567890123", "2.50"]

FLOATS = """{"flags":{
"limits":{"state":"ENABLED","variants":{"low":{"rate":0.25,"n":1},"high":{"n":2,"rate":1e2}},"defaultVariant":"high"},
"mixed":{"state":"ENABLED","variants":{"a":0.5,"b":"x"},"defaultVariant":"a"},
"off":{"state":"DISABLED","variants":{"a":0.5},"defaultVariant":"a"},
"rate":{"state":"ENABLED","variants":{"low":0.50,"high":1},"defaultVariant":"low",
  "targeting":{"if":[{"==":[{"var":"plan"},"pro"]},"high",null]}},
"text":{"state":"ENABLED","variants":{"a":"0.5","b":"1"},"defaultVariant":"a"},
"whole":{"state":"ENABLED","variants":{"a":1,"b":2},"defaultVariant":"b"}}}"""

STANDING = """"limits" good
"mixed" broken
"off" good
"rate" good
"text" good
"whole" good
"""

ANN = '{"targetingKey":"ann"}'
PRO = '{"targetingKey":"ann","plan":"pro"}'


def given(reason, value, variant):
    """A resolution to a variant, without an error."""
    return f'{{"code":null,"reached":[],"reason":"{reason}","value":{value},"variant":"{variant}"}}\n'


def failed(code, value):
    """The resolution to the default for an error."""
    return f'{{"code":"{code}","reached":[],"reason":"ERROR","value":{value},"variant":null}}\n'


# A flag's key, a kind, a default, a context and what is printed.
RESOLUTIONS = [
    ("rate", "float", "7", ANN, given("DEFAULT", "0.50", "low")),
    ("rate", "float", "7", PRO, given("TARGETING_MATCH", "1", "high")),
    ("rate", "whole", "7", ANN, failed("TYPE_MISMATCH", "7")),
    ("rate", "whole", "7", PRO, failed("TYPE_MISMATCH", "7")),
    ("rate", "text", '"d"', ANN, failed("TYPE_MISMATCH", '"d"')),
    ("rate", "object", '{"d":1}', ANN, failed("TYPE_MISMATCH", '{"d":1}')),
    ("limits", "object", "{}", ANN, given("STATIC", '{"n":2,"rate":1e2}', "high")),
    ("limits", "float", "7", ANN, failed("TYPE_MISMATCH", "7")),
    ("limits", "text", '"d"', ANN, failed("TYPE_MISMATCH", '"d"')),
    ("whole", "float", "7", ANN, given("STATIC", "2", "b")),
    ("whole", "whole", "7", ANN, given("STATIC", "2", "b")),
    ("text", "text", '"d"', ANN, given("STATIC", '"0.5"', "a")),
    ("text", "float", "7", ANN, failed("TYPE_MISMATCH", "7")),
    ("mixed", "float", "7", ANN, failed("PARSE_ERROR", "7")),
    ("nope", "float", "7", ANN, failed("FLAG_NOT_FOUND", "7")),
    ("off", "float", "7", ANN, '{"code":null,"reached":[],"reason":"DISABLED","value":7,"variant":null}\n'),
]

WHOLE = """{"flags":{
"b":{"state":"ENABLED","variants":{"x":true}},
"n":{"state":"ENABLED","variants":{"x":1,"y":2},"defaultVariant":"y"},
"o":{"state":"ENABLED","variants":{"x":{"a":[1,null]}},"defaultVariant":"x"},
"t":{"state":"ENABLED","variants":{"x":"1.5"},"defaultVariant":"x"},
"z":{"state":"on","variants":{"x":true}}}}"""


def spelled(number):
    """A document with a flag of this number."""
    return '{"flags":{"n":{"state":"ENABLED","variants":{"v":%s,"w":0.5},"defaultVariant":"v"}}}' % number


class Commands(ProgramTest):
    """`check` and `resolve` with `--floats`, and without it."""

    def test_check(self):
        ran = run(["check", "--floats", "d"], {"d": FLOATS})
        self.assertEqual((ran.status, ran.out), (0, STANDING))
        self.assertIn("mixed", ran.err)
        self.assertNotIn("--floats", ran.err)
        self.assertNotIn("rate", ran.err)

    def test_without_the_word_check_says_what_reads_them(self):
        ran = run(["check", "d"], {"d": FLOATS})
        self.assertEqual(ran.status, 0)
        self.assertEqual(ran.out.count("broken"), 4)
        for line in ran.err.splitlines():
            if line.startswith("broken: flags"):
                self.assertEqual("--floats reads it" in line, "mixed" not in line, line)

    def test_what_is_doubted_does_not_depend_on_how_a_number_is_spelled(self):
        """Not even where it is too large for a double, so that the document is JSON with floats alone."""
        text = '{"flags":{"f":{"state":"ENABLED","variants":{"a":%s,"b":2.5},"defaultVariant":"a","targting":{"if":[]}}},"flgs":{}}'
        told = """note: "d" has a member that is not read:
  "flgs"; perhaps "flags" is meant
note: "d": flag "f" has a member that is not read: "targting" (perhaps "targeting" is meant) (Unread)
"""
        for number in SPELLED:
            with self.subTest(number):
                ran = run(["check", "--floats", "--strict", "d"], {"d": text % number})
                self.assertEqual((ran.out, ran.err, ran.status), ('"f" good\n', told, 1))

    def test_resolutions(self):
        for key, kind, default, context_, printed in RESOLUTIONS:
            with self.subTest(key=key, kind=kind):
                ran = run(["resolve", "--floats", "d", key, kind, default, "c", "0"], {"d": FLOATS, "c": context_})
                self.assertEqual((ran.status, ran.out), (0, printed))
                self.assertEqual(ran.err.startswith('note: "d"'), '"FLAG_NOT_FOUND"' in printed or '"TYPE_MISMATCH"' in printed)

    def test_each_number_is_printed_as_it_is_spelled(self):
        for number in SPELLED:
            with self.subTest(number):
                ran = run(["resolve", "--floats", "d", "n", "float", "7", "c", "0"], {"d": spelled(number), "c": ANN})
                self.assertEqual((ran.status, ran.out), (0, given("STATIC", number, "v")))

    def test_without_the_word_such_a_flag_is_broken(self):
        ran = run(["resolve", "d", "rate", "float", "7", "c", "0"], {"d": FLOATS, "c": ANN})
        self.assertEqual((ran.status, ran.out), (0, failed("PARSE_ERROR", "7")))

    def test_drive(self):
        """Each resolution in a line, by any number of workers; the default of an ask has whole numbers only."""
        asks = [f'{{"key":"{key}","want":"{kind}","default":{default},"context":{given},"moment":0}}' for key, kind, default, given, _ in RESOLUTIONS]
        files = {"d": FLOATS, "a": "[" + ",\n".join(asks) + "]"}
        printed = "".join(line for *_, line in RESOLUTIONS)
        for workers in ("1", "3"):
            ran = run(["drive", "--floats", "d", "a", workers, "b"], files)
            self.assertEqual((ran.status, "".join(ran.out.splitlines(keepends=True)[:-5])), (0, printed))
        ran = run(["drive", "d", "a", "1", "b"], files)
        self.assertEqual(ran.out.splitlines(keepends=True)[0], failed("PARSE_ERROR", "7"))

    def test_drive_notes_what_asks_for_a_flag_with_floats_reach(self):
        flag = '{"state":"ENABLED","variants":{"a":%s,"b":2},"targeting":{"fractional":[["a",1],["b",1]]}}'
        ask = '{"key":"f","want":"float","default":7,"context":{"targetingKey":"%s"},"moment":0}'
        asks = "[" + ",".join(ask % key for key in ("ann", "bob", "eve", "ann")) + "]"
        books = [run(["drive", *words, "d", "a", "1", "b"], {"d": '{"flags":{"f":%s}}' % (flag % value), "a": asks}).files["b"] for words, value in (([], "1"), (["--floats"], "1.50"))]
        self.assertEqual(*books)
        self.assertEqual(books[0].count("\n"), 5)

    def test_the_word_changes_nothing_of_whole_numbers(self):
        files = {"d": WHOLE, "c": ANN}
        asks = [f'{{"key":"{key}","want":"{kind}","default":7,"context":{ANN},"moment":0}}' for key in "bnotz" for kind in ("bool", "text", "whole", "object", "float")]
        for words in (["drive", "d", "a", "2", "b"], ["drive", "--json", "--strict", "d", "a", "1", "b"]):
            given = {"d": WHOLE, "a": "[" + ",".join(asks) + "]"}
            self.assertEqual(run(words, given), run([*words, "--floats"], given))
        for words in (["check", "d"], ["check", "--json", "d"], ["check", "--strict", "d"]):
            self.assertEqual(run(words, files), run([*words, "--floats"], files))
        for key in "bnotz":
            for kind, default in (("bool", "true"), ("text", '"d"'), ("whole", "7"), ("object", "{}"), ("float", "7")):
                words = ["resolve", "d", key, kind, default, "c", "0"]
                self.assertEqual(run(words, files), run([*words, "--floats"], files))


class Filters(ProgramTest):
    """`record` and `tally` with `--floats`: a rollout is of names, whatever their values are."""

    SHARED = '{"flags":{"f":{"state":"ENABLED","variants":{"a":%s,"b":2},"defaultVariant":"b","targeting":{"fractional":[["a",1],["b",3]]}}}}'
    USERS = '{"targetingKey":"ann"}\n{"targetingKey":"bob","cart":1.5}\n'

    def filtered(self, words, value, given):
        ran = run(words, {"d": self.SHARED % value}, input=given)
        self.assertEqual((ran.status, ran.err), (0, ""))
        return ran.out

    def test_record_and_tally(self):
        notes = self.filtered(["record", "d", "f"], "1", self.USERS)
        self.assertEqual(len(notes.splitlines()), 2)
        self.assertEqual(self.filtered(["record", "--floats", "d", "f"], "1.5", self.USERS), notes)
        lines = "".join(sorted(notes.splitlines(keepends=True)))
        self.assertEqual(
            self.filtered(["tally", "d", "f", "0", "--floats"], "1.5", lines), self.filtered(["tally", "d", "f", "0"], "1", lines)
        )

    def test_without_the_word_such_a_flag_is_broken(self):
        for words, given in ((["record", "d", "f"], self.USERS), (["tally", "d", "f", "0"], "")):
            ran = run(words, {"d": self.SHARED % "1.5"}, input=given)
            self.assertEqual(ran.status, 1)
            self.assertIn("NoSite", ran.out)


class Rollouts(ProgramTest):
    """The commands on rollouts with `--floats`: a rollout is of names, whatever their values are, and no value is spelled anew."""

    SPELLING = {"red": "0.50", "blue": "1e2", "green": "-0.0"}
    VARIANTS = ",".join(f'"{name}":{value}' for name, value in SPELLING.items())
    # The same flag with texts, and with floats.
    TEXTS, NUMBERS = document(), document(variants=VARIANTS)
    # A document with blanks and with members that no command reads; its other flag has floats, too.
    LONG = TEXT.replace('"red": "r", "blue": "b", "green": "g"', VARIANTS)
    FILES = {"request": RED_3, "book": BOOK, "plan": FREE, "steps": THREE}

    PLAN = ["plan", "doc", "request", "book"]
    VERIFY = ["verify", "doc", "request", "book", "plan"]
    KEEP = ["apply", "--keep", "doc", "plan", "request", "book"]
    # Of each what is printed has no values.
    WITHOUT_VALUES = [
        PLAN,
        [*PLAN, "--explain"],
        VERIFY,
        [*VERIFY, "--json"],
        ["ramp", "doc", "steps", "book"],
        ["picture", "doc", "request", "book", "plan"],
        ["compare", "doc", "doc", "book"],
    ]

    def files(self, text, **more):
        return {**self.FILES, "doc": text, **more}

    def ramp(self, text, *words):
        """The answers to the steps."""
        ran = run(["ramp", *words, "doc", "steps", "book"], self.files(text))
        self.assertEqual((ran.status, ran.err), (0, ""))
        return ran.out

    def test_values_make_no_difference(self):
        for words in self.WITHOUT_VALUES:
            with self.subTest(" ".join(words)):
                ran = run([*words, "--floats"], self.files(self.NUMBERS))
                self.assertEqual(ran[:3], run(words, self.files(self.TEXTS))[:3])
                self.assertEqual(ran.status, 0)

    def test_steps(self):
        ramp = self.ramp(self.NUMBERS, "--floats")
        self.assertEqual(ramp, self.ramp(self.TEXTS))
        for words in (["verify-ramp", "doc", "steps", "book", "ramp"], ["picture", "--ramp", "doc", "steps", "book", "ramp"]):
            ran = run([*words, "--floats"], self.files(self.NUMBERS, ramp=ramp))
            self.assertEqual(ran[:3], run(words, self.files(self.TEXTS, ramp=ramp))[:3])
            self.assertEqual(ran.status, 0)

    def test_without_the_word_such_a_flag_is_broken(self):
        given = self.files(self.NUMBERS, ramp=self.ramp(self.TEXTS))
        for words, call in (
            (self.PLAN, "plan"),
            (self.VERIFY, "verify"),
            (self.KEEP, "apply"),
            (["apply", "doc", "plan", "color", "0"], "apply"),
            (["ramp", "doc", "steps", "book"], "ramp"),
            (["apply", "--step", "1", "doc", "ramp", "color", "0"], "apply"),
        ):
            ran = run(words, given)
            self.assertEqual((ran.status, ran.out), (1, f"refused {call} 3 NoSite\n"), words)

    def test_the_printed_document_has_each_value_as_it_is_spelled(self):
        for words, given in (
            (["apply", "doc", "plan", "color", "0"], self.files(self.NUMBERS)),
            (["apply", "--step", "1", "doc", "ramp", "color", "0"], self.files(self.NUMBERS, ramp=self.ramp(self.TEXTS))),
        ):
            ran = run([*words, "--floats"], given)
            self.assertEqual((ran.status, ran.err), (0, ""))
            for name, value in self.SPELLING.items():
                self.assertIn(f'"{name}":{value}', ran.out)
            texts = run(words, {**given, "doc": self.TEXTS}).out
            for name, value in self.SPELLING.items():
                texts = texts.replace(f'"{name}":"{name[0]}"', f'"{name}":{value}')
            self.assertEqual(ran.out, texts)

    def test_from_the_plan_to_the_written_document_and_back(self):
        """Only the buckets are changed, and each user has the value, as it is spelled, of the variant that the rule gives."""
        plan = run([*self.PLAN, "--floats"], self.files(self.LONG))
        self.assertEqual((plan.status, plan.err), (0, ""))
        given = self.files(self.LONG, plan=plan.out)
        checked = run([*self.VERIFY, "--floats"], given)
        self.assertEqual((checked.status, checked.out, checked.err), (0, "valid cost 0\n", ""))
        buckets = ",\n        ".join(json.dumps(it, separators=(",", ":")) for it in json.loads(plan.out)["rule"])
        wanted = self.LONG.replace(OLD, buckets)
        ran = run([*self.KEEP, "--floats"], given)
        self.assertEqual((ran.status, ran.out, ran.err, ran.files), (0, wanted, "", given))
        ran = run([*self.KEEP, "--write", "--floats"], given)
        self.assertEqual((ran.status, ran.out, ran.err), (0, f"written {len(wanted)}\n", ""))
        self.assertEqual(ran.files, {**given, "doc": wanted})
        self.assertEqual(run(["check", "--floats", "doc"], ran.files).out, '"color" good\n"discount" good\n')
        for line in BOOK.splitlines()[2:]:
            context_ = json.dumps({"key": json.loads(line)})
            ended = run(["resolve", "--floats", "doc", "color", "float", "7", "c", "0"], {**ran.files, "c": context_})
            name = json.loads(ended.out)["variant"]
            self.assertIn(f'"value":{self.SPELLING[name]},"variant":"{name}"', ended.out)

    def test_a_step_that_is_kept(self):
        given = self.files(self.LONG, ramp=self.ramp(self.LONG, "--floats"))
        ran = run(["apply", "--step", "1", "--keep", "--write", "--floats", "doc", "ramp", "steps", "book"], given)
        self.assertEqual((ran.status, ran.err), (0, ""))
        front, back = self.LONG.split(OLD)
        self.assertTrue(ran.files["doc"].startswith(front) and ran.files["doc"].endswith(back))
        self.assertEqual(run(["check", "--floats", "doc"], ran.files).out, '"color" good\n"discount" good\n')

    def test_the_word_changes_nothing_of_whole_numbers(self):
        text = document(variants='"red":1,"blue":2,"green":3')
        given = self.files(text, ramp=self.ramp(text), old=self.TEXTS)
        for words in (
            *self.WITHOUT_VALUES,
            [*self.PLAN, "--picture", "p"],
            self.KEEP,
            [*self.KEEP, "--write"],
            ["apply", "doc", "plan", "color", "0"],
            ["apply", "doc", "plan", "color", "1"],
            ["apply", "--step", "2", "doc", "ramp", "color", "0"],
            ["apply", "--step", "1", "--keep", "--write", "doc", "ramp", "steps", "book"],
            ["verify-ramp", "doc", "steps", "book", "ramp"],
            ["picture", "--ramp", "doc", "steps", "book", "ramp"],
            ["compare", "old", "doc", "book"],
        ):
            with self.subTest(" ".join(words)):
                self.assertEqual(run(words, given), run([*words, "--floats"], given))


class Service(ServiceTest):
    """`ofrep` takes floats always."""

    def answer(self, key, body):
        """The text of the answer for one flag."""
        return self.ask("POST", f"{FLAGS}/{key}", body)[2].decode()

    def setUp(self):
        super().setUp()
        self.put("d", FLOATS)

    def test_one_flag(self):
        self.start()
        answers = [
            ("rate", {}, '{"key":"rate","metadata":{},"reason":"DEFAULT","value":0.50,"variant":"low"}'),
            ("rate", {"plan": "pro"}, '{"key":"rate","metadata":{},"reason":"TARGETING_MATCH","value":1,"variant":"high"}'),
            ("limits", {}, '{"key":"limits","metadata":{},"reason":"STATIC","value":{"n":2,"rate":1e2},"variant":"high"}'),
            ("text", {}, '{"key":"text","metadata":{},"reason":"STATIC","value":"0.5","variant":"a"}'),
            ("whole", {}, '{"key":"whole","metadata":{},"reason":"STATIC","value":2,"variant":"b"}'),
        ]
        for key, more, text in answers:
            with self.subTest(key, **more):
                self.assertEqual(self.answer(key, context("ann", **more)), text)
        self.assertEqual(json.loads(self.answer("mixed", context("ann")))["errorCode"], "PARSE_ERROR")

    def test_every_flag_has_what_it_has_alone(self):
        self.start()
        status, _, text = self.ask("POST", FLAGS, context("ann"))
        alone = ",".join(self.answer(key, context("ann")) for key in ("limits", "mixed", "rate", "text", "whole"))
        self.assertEqual((status, text.decode()), (200, f'{{"flags":[{alone}]}}'))

    def test_each_number_is_answered_as_it_is_spelled(self):
        for number in SPELLED:
            self.put("d", spelled(number))
            with self.subTest(number):
                child = self.start()
                self.assertIn(f'"value":{number},"variant":"v"', self.answer("n", context("ann")))
                child.kill()

    def test_a_later_document_counts_with_its_floats(self):
        self.put("e", '{"flags":{"rate":{"state":"ENABLED","variants":{"x":"0.5"},"defaultVariant":"x"},"whole":{"state":"ENABLED","variants":{"x":2.0},"defaultVariant":"x"}}}')
        self.start(documents=("d", "e"))
        self.assertIn('"value":"0.5"', self.answer("rate", context("ann")))
        self.assertIn('"value":2.0', self.answer("whole", context("ann")))

    def test_broken_flags_are_told_as_with_floats(self):
        child = self.start()
        told = self.told(child, "mixed")
        self.assertNotIn("rate", told)
        self.assertNotIn("limits", told)


class Stream(unittest.TestCase):
    """`serve` publishes floats where it is told so, and `follow` reads frames of either kind."""

    setUp, put, start, free_port = Streams.setUp, Streams.put, Streams.start, Streams.free_port
    connect, assert_ends = Streams.connect, Streams.assert_ends

    def framed(self, *words):
        """The document of the only frame."""
        self.put("1.json", FLOATS)
        port = self.free_port()
        server = self.start("serve", port, "1", "1.json", *words)
        while "listens on" not in server.stderr.readline():
            pass
        with self.connect(port) as stream:
            (number, document), *others = frames(stream)
        self.assertEqual((number, others), (1, []))
        self.assert_ends(server, "published 1\n", 0)
        return document.decode()

    def test_frames(self):
        document = self.framed("--floats")
        for part in ('"low":0.50', '"high":1', '"rate":0.25', '"rate":1e2', '"a":"0.5"', '"mixed":{}'):
            self.assertIn(part, document)
        self.assertEqual(run(["check", "--floats", "d"], {"d": document}).out, STANDING)
        without = self.framed()
        self.assertIn('"rate":{}', without)
        self.assertEqual(run(["check", "d"], {"d": without}).out.count("broken"), 4)

    def test_follow(self):
        server, port = None, self.free_port()
        self.put("1.json", FLOATS)
        server = self.start("serve", port, "1", "1.json", "--floats")
        while "listens on" not in server.stderr.readline():
            pass
        follower = self.start("follow", port, "1000")
        self.assert_ends(follower, "snapshot 1 flags 6\nended\n", 0)
        self.assert_ends(server, "published 1\n", 0)


# The tests of the file that these helpers come from run there.
del Streams

if __name__ == "__main__":
    unittest.main()
