"""The metadata of documents and flags in the answers of `ofrep`: whose members a flag has, how they are spelled, and what is broken."""
import json
import unittest

from program import wait_until
from test_service import FLAGS, ServiceTest, context

BROKEN = "is broken and left out of answers"


def flag(value, metadata=None):
    """The text of a flag whose one variant has this value."""
    more = "" if metadata is None else f',"metadata":{metadata}'
    return f'{{"state":"ENABLED","variants":{{"on":{value}}},"defaultVariant":"on"{more}}}'


def document(flags, metadata=None):
    """The text of a document with these texts of flags."""
    members = ",".join(f'"{key}":{text}' for key, text in flags.items())
    return f'{{"flags":{{{members}}}}}' if metadata is None else f'{{"metadata":{metadata},"flags":{{{members}}}}}'


def body(key, value, metadata):
    """The text of the answer for such a flag."""
    return f'{{"key":"{key}","metadata":{metadata},"reason":"STATIC","value":{value},"variant":"on"}}'


# Documents, the later ones behind the earlier, with what the flag `f` is answered with, and what stands beside every flag.
DESCRIBED = [
    ("nothing", [document({"f": flag(1)})], "{}", None),
    ("empty objects", [document({"f": flag(1, "{}")}, "{}")], "{}", None),
    ("of the document", [document({"f": flag(1)}, '{"team":"shop","level":1}')], '{"level":1,"team":"shop"}', '{"level":1,"team":"shop"}'),
    ("of the flag", [document({"f": flag(1, '{"owner":"ann"}')})], '{"owner":"ann"}', None),
    ("the flag over its document", [document({"f": flag(1, '{"b":2,"c":3}')}, '{"a":1,"b":1}')], '{"a":1,"b":2,"c":3}', '{"a":1,"b":1}'),
    ("of another flag", [document({"f": flag(1), "g": flag(1, '{"a":1}')})], "{}", None),
    ("numbers as they are spelled", [document({"f": flag(1, '{"n":2.50,"m":1E+2}')}, '{"z":-0,"y":12345678901234567890.0}')],
        '{"m":1E+2,"n":2.50,"y":12345678901234567890.0,"z":-0}', '{"y":12345678901234567890.0,"z":-0}'),
    ("booleans and texts", [document({"f": flag(1, '{"on":true,"off":false,"text":"a \\"b\\" \\u00e9"}')})], '{"off":false,"on":true,"text":"a \\"b\\" é"}', None),
    ("the last of one name", [document({"f": flag(1, '{"a":1,"a":2}')}, '{"b":1,"b":2}')], '{"a":2,"b":2}', '{"b":2}'),
    ("the same flag in two documents", [document({"f": flag(1, '{"a":1}')}, '{"from":"d","d":1}'), document({"f": flag(2, '{"b":1}')}, '{"from":"e"}')],
        '{"b":1,"from":"e"}', '{"d":1,"from":"e"}'),
    ("the flag in the earlier of two", [document({"f": flag(1, '{"a":1}')}, '{"from":"d","d":1}'), document({"g": flag(2)}, '{"from":"e","e":1}')],
        '{"a":1,"d":1,"from":"d"}', '{"d":1,"e":1,"from":"e"}'),
    ("a later one without metadata", [document({"f": flag(1, '{"a":1}')}, '{"d":1}'), document({"f": flag(2)})], "{}", '{"d":1}'),
    ("a broken member of the flag", [document({"f": flag(1, '{"a":1,"b":null}')}, '{"d":1}')], '{"d":1}', '{"d":1}'),
    ("a broken member of the document", [document({"f": flag(1, '{"a":1}')}, '{"d":[]}')], '{"a":1}', None),
    ("no objects", [document({"f": flag(1, "1")}, '"d"')], "{}", None),
]


class Answers(ServiceTest):
    """What is answered."""

    def texts(self):
        """The texts of the answers for the flag `f` and for every flag."""
        one = self.ask("POST", f"{FLAGS}/f", context("ann"))
        every = self.ask("POST", FLAGS, context("ann"))
        self.assertEqual((one[0], every[0]), (200, 200))
        return one[2].decode(), every[2].decode()

    def test_flags_and_documents(self):
        for name, texts, of_flag, of_all in DESCRIBED:
            with self.subTest(name):
                paths = tuple("de"[: len(texts)])
                for path, text in zip(paths, texts):
                    self.put(path, text)
                child = self.start(documents=paths)
                one, every = self.texts()
                value = json.loads(one)["value"]
                self.assertEqual(one, body("f", value, of_flag))
                self.assertTrue(every.startswith('{"flags":[' + one), every)
                self.assertTrue(every.endswith("]}" if of_all is None else f'],"metadata":{of_all}}}'), every)
                child.kill()

    def test_each_flag_has_its_own(self):
        self.put("d", document({"a": flag(1), "b": flag(2, '{"x":1}'), "c": flag(3, '{"team":"b"}')}, '{"team":"a"}'))
        self.start()
        flags = [body("a", 1, '{"team":"a"}'), body("b", 2, '{"team":"a","x":1}'), body("c", 3, '{"team":"b"}')]
        status, _, text = self.ask("POST", FLAGS, context("ann"))
        self.assertEqual((status, text.decode()), (200, f'{{"flags":[{",".join(flags)}],"metadata":{{"team":"a"}}}}'))

    def test_failures_have_none(self):
        self.put("d", document({"f": '{"state":"ENABLED","metadata":{"a":1}}', "off": '{"state":"DISABLED","variants":{"on":1},"metadata":{"a":1}}'}, '{"d":1}'))
        self.start()
        for key, status in (("f", 400), ("off", 404), ("unknown", 404)):
            self.assertEqual((self.flag(key)[0], sorted(self.flag(key)[1])), (status, ["errorCode", "errorDetails", "key"]))


class Changing(ServiceTest):
    """Documents whose metadata changes."""

    def setUp(self):
        super().setUp()
        self.put("d", document({"f": flag(1)}, '{"version":1}'))

    def every(self, tag=None):
        """The status, the tag and the text of the answer for every flag, to who has that of a tag."""
        status, headers, text = self.ask("POST", FLAGS, context("ann"), {"If-None-Match": tag} if tag else {})
        return status, {name.lower(): value for name, value in headers.items()}["etag"], text.decode()

    def test_the_tag_changes_with_metadata_alone(self):
        self.start("--poll", "1")
        _, first, _ = self.every()
        self.assertEqual(self.every(first)[0], 304)
        self.put("d", document({"f": flag(1)}, '{"version":1.0}'))
        wait_until(lambda: self.every(first)[0] == 200, "the change is published")
        status, second, text = self.every(first)
        version = '{"version":1.0}'
        self.assertEqual((status, text), (200, f'{{"flags":[{body("f", 1, version)}],"metadata":{version}}}'))
        self.assertNotEqual(first, second)
        self.assertEqual(self.every(second)[0], 304)

    def test_what_is_refused_describes_nothing(self):
        child = self.start("--poll", "1")
        self.put("d", document({"f": '{"state":"ENABLED"}'}, '{"version":2}'))
        self.told(child, "is refused")
        self.assertEqual(self.flag("f")[1]["metadata"], {"version": 1})
        self.put("d", document({"f": flag(1)}, '{"version":3}'))
        wait_until(lambda: self.flag("f")[1]["metadata"] == {"version": 3}, "the mended one is published")


class Broken(ServiceTest):
    """Broken metadata is told, and nothing else is."""

    DOCUMENT = document({"f": flag(1, '{"a":{}}'), "g": flag(2), "h": flag(3, "null")}, '{"d":[1]}')

    def test_at_the_start(self):
        self.put("d", self.DOCUMENT)
        child = self.start()
        told = self.told(child, "answers from snapshot 1, with 3 flags, of which 0 are broken")
        self.assertEqual(told.count(BROKEN), 3, told)
        for part in ('the metadata of "d" ' + BROKEN, 'the metadata of the flag "f" of "d" ' + BROKEN, 'the metadata of the flag "h" of "d" ' + BROKEN):
            self.assertEqual(told.count(part), 1, told)
        self.assertEqual([self.flag(key)[1]["metadata"] for key in "fgh"], [{}, {}, {}])

    def test_with_a_change(self):
        self.put("d", document({"f": flag(1, '{"a":1}')}))
        child = self.start("--poll", "1")
        self.assertNotIn(BROKEN, self.told(child, "answers from snapshot 1"))
        self.put("d", document({"f": flag(1, '{"a":[]}')}))
        told = self.told(child, "answers from snapshot 2")
        self.assertEqual(told.count(BROKEN), 1, told)
        self.assertIn('the metadata of the flag "f" of "d" ' + BROKEN, told)
        self.assertEqual(self.flag("f")[1]["metadata"], {})


if __name__ == "__main__":
    unittest.main()
