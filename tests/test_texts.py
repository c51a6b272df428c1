"""JSON texts: which are read, how they are printed, and what the others are refused for. `resolve` of a key that no flag has
prints its default."""
import unittest

from program import ProgramTest, run

DOCUMENT = '{"flags":{}}'

# The most bytes of a text.
LIMIT = 4_194_304


def lists(levels, inside=""):
    """So many lists, with this in the inmost one."""
    return "[" * levels + inside + "]" * levels


# Levels of lists, and the fault.
NESTING = [
    (1, None),
    (120, None),
    (121, "4 TooDeep"),
    (127, "4 TooDeep"),
    (128, "1 NotJson"),
]

# A text, and the fault.
REFUSALS = [
    (b"", "1 NotJson"),
    (b'["a",', "1 NotJson"),
    (b'"\xff"', "1 NotJson"),
    (b'"\xed\xa0\x80"', "1 NotJson"),
    (b"[1.5, 1e400000]", "1 NotJson"),
    (b"[[1.5]]", "2 NotWhole"),
    (lists(121, "x").encode(), "1 NotJson"),
    (lists(121, "1.5").encode(), "4 TooDeep"),
]

# What a text begins with that has a byte too many, whatever else is wrong with it.
TOO_LARGE = ['[1, {"a": -7}]', '["a",', lists(121, "1.5")]

# A number, and whether it is whole.
NUMBERS = [
    ("0", True),
    ("9007199254740991", True),
    ("-9007199254740991", True),
    ("9007199254740992", False),
    ("-9007199254740992", False),
    ("18446744073709551616", False),
    ("-0", False),
    ("1.0", False),
    ("1e2", False),
    ("1E-2", False),
]

# A text, and how it is printed.
PRINTED = [
    (r' {"b": [null, true, -12], "a": "x\u00e9\n", "b": {}}', r'{"a":"xé\n","b":{}}'),
    (r'{"": 0, "\u0000": "\u001f\"\\/\u007f"}', r'{"":0,"\u0000":"\u001f\"\\/' + "\x7f" + '"}'),
    ("[ ] ", "[]"),
    (r'{"t": "x", "b": true, "l": [1], "n": -3}', r'{"b":true,"l":[1],"n":-3,"t":"x"}'),
]

# A member's name among the five of an object, and its number there.
NAMES = [
    ("", 0),
    ("a", None),
    ("b", 1),
    ("bb", 2),
    ("bbb", None),
    ("d", 3),
    ("é", 4),
    ("ê", None),
]


class Texts(ProgramTest):
    def assert_default(self, default, report):
        """A default is printed so, or refused."""
        status = int(report.startswith("refused"))
        if not status:
            report = f'{{"code":"FLAG_NOT_FOUND","reached":[],"reason":"ERROR","value":{report},"variant":null}}\n'
        words = ["resolve", "--", "d", "nope", "object", default, "c", "0"]
        self.assert_ends(words, {"d": DOCUMENT, "c": "{}"}, status, report)

    def assert_refused(self, context, fault):
        """A context is refused by this fault, or read where there is none."""
        ran = run(["resolve", "d", "nope", "bool", "false", "c", "0"], {"d": DOCUMENT, "c": context})
        self.assertEqual(ran.out, f"refused read_tree {fault}\n" if fault else ran.out)
        self.assertEqual((ran.status, ran.err.startswith('note: "d" has no flag "nope"')), (1, False) if fault else (0, True))

    def test_nesting(self):
        for levels, fault in NESTING:
            with self.subTest(levels=levels):
                self.assert_default(lists(levels), f"refused read_tree {fault}\n" if fault else lists(levels))

    def test_refusals(self):
        for text, fault in REFUSALS:
            with self.subTest(text=text):
                self.assert_refused(text, fault)

    def test_a_text_is_read_up_to_its_limit(self):
        self.assert_refused("{}" + " " * (LIMIT - 2), None)
        for text in TOO_LARGE:
            with self.subTest(text=text):
                self.assert_refused(text.ljust(LIMIT + 1), "3 TooLarge")

    def test_whole_numbers(self):
        for number, is_whole in NUMBERS:
            with self.subTest(number=number):
                self.assert_default(number, number if is_whole else "refused read_tree 2 NotWhole\n")

    def test_what_is_printed_reads_back(self):
        for text, printed in PRINTED:
            with self.subTest(text=text):
                self.assert_default(text, printed)
                self.assert_default(printed, printed)

    def test_members_are_found_by_their_names(self):
        """As the variant that a targeting names, and as the evaluator that it refers to."""
        members = '{"b": 1, "": 0, "bb": 2, "d": 3, "é": 4}'
        for name, number in NAMES:
            for targeting in ['{"if":[true,"NAME"]}', '{"if":[true,{"cat":[{"$ref":"NAME"}]}]}']:
                with self.subTest(name=name, targeting=targeting):
                    self.assert_found(members, targeting.replace("NAME", name), number)

    def assert_found(self, members, targeting, number):
        """A flag with these variants, and evaluators that stand for their numbers, resolves to this number."""
        evaluators = '{"b":"b","":"","bb":"bb","d":"d","é":"é"}'
        flag = f'{{"state":"ENABLED","variants":{members},"targeting":{targeting}}}'
        files = {"d": f'{{"$evaluators":{evaluators},"flags":{{"f":{flag}}}}}', "c": "{}"}
        ran = run(["resolve", "d", "f", "whole", "9", "c", "0"], files)
        value = 9 if number is None else number
        self.assertEqual((ran.status, f'"value":{value},' in ran.out), (0, True), ran.out)


if __name__ == "__main__":
    unittest.main()
