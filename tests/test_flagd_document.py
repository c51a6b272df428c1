"""A document as flagd's users have it: flags of each of flagd's types, with targetings by `$ref`, `fractional`, `sem_ver` and the time.
It is checked, resolved, planned, kept, streamed and served as it is, and what is not taken is told with what to do."""
import json
import unittest

from ofrep_server import bucket
from program import ProgramTest, run
from test_drive import compact
from test_service import FLAGS, ServiceTest, context
from test_streams import Streams, frames

DOCUMENT = """{
  "$schema": "https://flagd.dev/schema/v0/flags.json",
  "flags": {
    "myBoolFlag": {
      "state": "ENABLED",
      "variants": { "on": true, "off": false },
      "defaultVariant": "on"
    },
    "myStringFlag": {
      "state": "ENABLED",
      "variants": { "key1": "val1", "key2": "val2" },
      "defaultVariant": "key1"
    },
    "myFloatFlag": {
      "state": "ENABLED",
      "variants": { "one": 1.23, "two": 2.340 },
      "defaultVariant": "one"
    },
    "myIntFlag": {
      "state": "ENABLED",
      "variants": { "one": 1, "two": 2 },
      "defaultVariant": "one"
    },
    "myObjectFlag": {
      "state": "ENABLED",
      "variants": { "object1": { "key": "val" }, "object2": { "key": true, "ratio": 0.5 } },
      "defaultVariant": "object2"
    },
    "isColorYellow": {
      "state": "ENABLED",
      "variants": { "on": true, "off": false },
      "defaultVariant": "off",
      "targeting": { "if": [ { "==": [ { "var": [ "color" ] }, "yellow" ] }, "on", "off" ] }
    },
    "fibAlgo": {
      "state": "ENABLED",
      "variants": { "recursive": "recursive", "memo": "memo", "loop": "loop", "binet": "binet" },
      "defaultVariant": "recursive",
      "targeting": { "if": [ { "$ref": "emailWithFaas" }, "binet", null ] }
    },
    "headerColor": {
      "state": "ENABLED",
      "variants": { "red": "#FF0000", "blue": "#0000FF", "green": "#00FF00", "yellow": "#FFFF00" },
      "defaultVariant": "red",
      "targeting": {
        "if": [
          { "$ref": "emailWithFaas" },
          { "fractional": [ { "var": "email" }, [ "red", 25 ], [ "blue", 25 ], [ "green", 25 ], [ "yellow", 25 ] ] },
          null
        ]
      }
    },
    "discount": {
      "state": "ENABLED",
      "variants": { "none": 0, "half": 0.50, "full": 1e0 },
      "defaultVariant": "none",
      "targeting": { "fractional": [ { "cat": [ { "var": "$flagd.flagKey" }, { "var": "email" } ] }, [ "none", 50 ], [ "half", 50 ] ] }
    },
    "newClient": {
      "state": "ENABLED",
      "variants": { "on": true, "off": false },
      "defaultVariant": "off",
      "targeting": { "if": [ { "sem_ver": [ { "var": "app.version" }, ">=", "2.1.0" ] }, "on", "off" ] }
    },
    "sale": {
      "state": "ENABLED",
      "variants": { "before": 0.9, "after": 1 },
      "defaultVariant": "after",
      "targeting": { "if": [ { "<": [ { "var": "$flagd.timestamp" }, 1893456000 ] }, "before", "after" ] }
    }
  },
  "$evaluators": {
    "emailWithFaas": { "in": [ "@faas.com", { "var": [ "email" ] } ] }
  }
}
"""
KEYS = sorted(json.loads(DOCUMENT)["flags"])
FLOATS = ["discount", "myFloatFlag", "myObjectFlag", "sale"]

FAAS = {"targetingKey": "u", "email": "ann@faas.com", "color": "yellow", "app": {"version": "2.1.0"}}
OTHER = {"targetingKey": "u", "email": "bob@example.com", "app": {"version": "2.0.9"}}

COLORS = [["red", 25], ["blue", 25], ["green", 25], ["yellow", 25]]


def discount(email):
    """The variant of the flag `discount` and its value, for this email."""
    name = bucket([["none", 50], ["half", 50]], "discount" + email)
    return name, {"none": "0", "half": "0.50"}[name]


# A key, flagd's word for its type, a default, a context, the moment, and the reason, the variant and the value that are printed.
RESOLUTIONS = [
    ("myBoolFlag", "boolean", "false", OTHER, 0, "STATIC", "on", "true"),
    ("myStringFlag", "string", '"d"', OTHER, 0, "STATIC", "key1", '"val1"'),
    ("myFloatFlag", "float", "7", OTHER, 0, "STATIC", "one", "1.23"),
    ("myIntFlag", "integer", "7", OTHER, 0, "STATIC", "one", "1"),
    ("myIntFlag", "float", "7", OTHER, 0, "STATIC", "one", "1"),
    ("myObjectFlag", "object", "{}", OTHER, 0, "STATIC", "object2", '{"key":true,"ratio":0.5}'),
    ("isColorYellow", "boolean", "false", FAAS, 0, "TARGETING_MATCH", "on", "true"),
    ("isColorYellow", "boolean", "false", OTHER, 0, "TARGETING_MATCH", "off", "false"),
    ("fibAlgo", "string", '"d"', FAAS, 0, "TARGETING_MATCH", "binet", '"binet"'),
    ("fibAlgo", "string", '"d"', OTHER, 0, "DEFAULT", "recursive", '"recursive"'),
    ("headerColor", "string", '"d"', OTHER, 0, "DEFAULT", "red", '"#FF0000"'),
    ("newClient", "boolean", "false", FAAS, 0, "TARGETING_MATCH", "on", "true"),
    ("newClient", "boolean", "false", OTHER, 0, "TARGETING_MATCH", "off", "false"),
    ("sale", "float", "7", OTHER, 1893455999, "TARGETING_MATCH", "before", "0.9"),
    ("sale", "float", "7", OTHER, 1893456000, "TARGETING_MATCH", "after", "1"),
    *(("discount", "float", "7", it, 0, "TARGETING_MATCH", *discount(it["email"])) for it in (FAAS, OTHER)),
]

# Of what is not taken: a part of the document, what stands in its place, and what is told of it with `--floats`.
NOT_TAKEN = [
    ('"one": 1.23', '"one": "1.23"', "flags.myFloatFlag"),
    ('1893456000', '1893456000.5', "flags.sale.targeting"),
    ('"ENABLED"', '"enabled"', 'flags.myBoolFlag.state is "enabled"'),
]


class Commands(ProgramTest):
    """The commands over the document as it is."""

    FILES = {"doc": DOCUMENT, "c": compact(FAAS)}

    def test_check(self):
        ran = run(["check", "--floats", "doc"], self.FILES)
        self.assertEqual((ran.status, ran.out), (0, "".join(f'"{key}" good\n' for key in KEYS)))
        self.assertNotIn("broken", ran.err)

    def test_without_the_word_the_remedy_is_told(self):
        ran = run(["check", "doc"], self.FILES)
        broken = [json.loads(line[: -len(" broken")]) for line in ran.out.splitlines() if line.endswith(" broken")]
        self.assertEqual(broken, FLOATS)
        told = [line for line in ran.err.splitlines() if line.startswith("broken: ")]
        self.assertEqual(len(told), len(FLOATS))
        for key, line in zip(FLOATS, told):
            self.assertIn(f"flags.{key}.", line)
            self.assertIn("--floats reads it", line)

    def test_what_is_not_taken_is_told(self):
        for old, new, part in NOT_TAKEN:
            with self.subTest(new):
                text = DOCUMENT.replace(old, new, 1)
                self.assertNotEqual(text, DOCUMENT)
                ran = run(["check", "--floats", "doc"], {"doc": text})
                self.assertEqual((ran.status, ran.out.count("broken")), (0, 1))
                self.assertIn(part, ran.err)
                self.assertNotIn("--floats", ran.err)

    def test_resolve(self):
        for key, kind, default, given, moment, reason, variant, value in RESOLUTIONS:
            with self.subTest(key=key, context=given, moment=moment):
                ran = run(["resolve", "--floats", "doc", key, kind, default, "c", str(moment)], {**self.FILES, "c": compact(given)})
                self.assertEqual((ran.status, ran.err), (0, ""))
                self.assertTrue(ran.out.endswith(f'"reason":"{reason}","value":{value},"variant":"{variant}"}}\n'), ran.out)

    def test_drive(self):
        """The same asks at once, with flagd's words for the types."""
        asks, ends = [], []
        for key, kind, default, given, moment, reason, variant, value in RESOLUTIONS:
            asks.append(f'{{"key":"{key}","want":"{kind}","default":{default},"context":{compact(given)},"moment":{moment}}}')
            ends.append(f'"reason":"{reason}","value":{value},"variant":"{variant}"}}')
        ran = run(["drive", "--floats", "doc", "asks", "2", "book"], {**self.FILES, "asks": "[" + ",\n".join(asks) + "]"})
        self.assertEqual(ran.status, 0, ran.out)
        for line, end in zip(ran.out.splitlines(), ends):
            self.assertTrue(line.endswith(end), (line, end))
        self.assertIn("inputs 2\n", ran.out)

    def test_from_the_plan_to_the_written_document(self):
        users = [f"user-{n}@faas.com" for n in range(50)]
        given = "".join(compact({"email": email}) + "\n" for email in users)
        notes = run(["record", "--floats", "doc", "headerColor"], self.FILES, input=given)
        self.assertEqual(notes.status, 0)
        made = run(["book", "book", "notes"], {"notes": notes.out})
        request = '{"plan":1,"flag":"headerColor","site":0,"totals":{"red":40,"blue":20,"green":20,"yellow":20}}'
        files = {**self.FILES, "request": request, "book": made.files["book"]}
        plan = run(["plan", "--floats", "doc", "request", "book"], files)
        self.assertEqual(plan.status, 0, plan.out)
        files["plan"] = plan.out
        checked = run(["verify", "--floats", "doc", "request", "book", "plan"], files)
        self.assertTrue(checked.out.startswith("valid cost "), checked.out)
        kept = run(["apply", "--keep", "--write", "--floats", "doc", "plan", "request", "book"], files)
        self.assertEqual(kept.status, 0, kept.out)
        after = kept.files["doc"]
        old = DOCUMENT.index('[ "red", 25 ]'), DOCUMENT.index('[ "yellow", 25 ]') + len('[ "yellow", 25 ]')
        self.assertTrue(after.startswith(DOCUMENT[: old[0]]) and after.endswith(DOCUMENT[old[1] :]))
        self.assertEqual(run(["check", "--floats", "doc"], {"doc": after}).out, "".join(f'"{key}" good\n' for key in KEYS))
        rule = json.loads(plan.out)["rule"]
        moved = sum(bucket(COLORS, email) != bucket(rule, email) for email in users)
        self.assertEqual(checked.out, f"valid cost {moved}\n")


class Service(ServiceTest):
    """`ofrep` over the same document."""

    def test_every_flag(self):
        self.put("d", DOCUMENT)
        self.start()
        status, _, text = self.ask("POST", FLAGS, context("u", email="bob@example.com", app={"version": "2.0.9"}, cart=49.99))
        self.assertEqual(status, 200)
        told = {flag["key"]: flag for flag in json.loads(text)["flags"]}
        self.assertEqual(sorted(told), KEYS)
        for key, _, _, given, moment, reason, variant, value in RESOLUTIONS:
            if given is OTHER and key != "sale":
                self.assertEqual((told[key]["reason"], told[key]["variant"], told[key]["value"]), (reason, variant, json.loads(value)), key)
                self.assertIn(f'"value":{value},"variant":"{variant}"', text.decode())


class Stream(unittest.TestCase):
    """`serve` publishes the document to a subscriber."""

    setUp, put, start, free_port = Streams.setUp, Streams.put, Streams.start, Streams.free_port
    connect, assert_ends = Streams.connect, Streams.assert_ends

    def test_frame(self):
        self.put("1.json", DOCUMENT)
        port = self.free_port()
        server = self.start("serve", port, "1", "1.json", "--floats")
        while "listens on" not in server.stderr.readline():
            pass
        with self.connect(port) as stream:
            (number, document), *others = frames(stream)
        self.assertEqual((number, others), (1, []))
        self.assert_ends(server, "published 1\n", 0)
        for part in ('"two":2.340', '"half":0.50', '"full":1e0', '"ratio":0.5', '"before":0.9'):
            self.assertIn(part, document.decode())
        self.assertEqual(run(["check", "--floats", "d"], {"d": document.decode()}).out, "".join(f'"{key}" good\n' for key in KEYS))


# The tests of the file that these helpers come from run there.
del Streams

if __name__ == "__main__":
    unittest.main()
