"""Targeting expressions: what is read and refused, within which limits, how they are written, and the numbers of their
`fractional` operations."""
import json
import unittest

from given import EMPTY_BOOK, plan_of
from program import ProgramTest, broken_lines, run


def flag(targeting, *variants):
    """A flag with this targeting, whose variants are these."""
    members = ",".join(f'"{name}":"{name}"' for name in variants or ["on"])
    return f'{{"state":"ENABLED","targeting":{targeting},"variants":{{{members}}}}}'


# An expression, and how it is written.
WRITTEN = [
    ('{"var":"key"}', '{"var":["key"]}'),
    ('[1,{"a":1,"b":{"nand":1}},{}]', '[1,{"a":1,"b":{"nand":1}},{}]'),
    ('{"fractional":"x"}', '{"fractional":["x"]}'),
    ('{"fractional":null}', '{"fractional":[null]}'),
    ('{"fractional":[]}', '{"fractional":[]}'),
    (
        '{"fractional":[{"var":"key"},["red",5],["blue"]]}',
        '{"fractional":[{"var":["key"]},["red",5],["blue",1]]}',
    ),
    (
        '{"fractional":[[{"var":"v"}],[7,{"max":1}],["a",-1]]}',
        '{"fractional":[[{"var":["v"]},1],[7,{"max":[1]}],["a",-1]]}',
    ),
    (
        '{"fractional":[["a",2147483647],["b",2147483648],["c",0]]}',
        '{"fractional":[["a",2147483647],["b",2147483648],["c",0]]}',
    ),
]

# The names of operators, and the least and the most of their arguments, of up to 9.
COUNTS = [
    ("missing if or and + merge cat", 0, 9),
    ("var", 0, 2),
    ("! !!", 1, 1),
    ("max min *", 1, 9),
    ("-", 1, 2),
    ("== === != !== > >= % missing_some in map filter all none some starts_with ends_with", 2, 2),
    ("< <= reduce substr", 2, 3),
    ("sem_ver", 3, 3),
]

# A targeting, and what is told of the first operation in it that is none.
FAULTS = [
    ('{"nand":[1,2]}', ': the operator "nand" is unknown'),
    ('{"$ref":5}', ': the operator "$ref" is unknown'),
    ('{"!":[1,2]}', ': the operator "!" does not take 2 arguments'),
    ('{"!":[{"nand":1},2]}', ': the operator "!" does not take 2 arguments'),
    ('{"+":[{"nand":1},{"!":[]}]}', '["+"][0]: the operator "nand" is unknown'),
    ('{"cat":[{"!":[]},{"nand":1}]}', '.cat[0]: the operator "!" does not take 0 arguments'),
    ('{"fractional":[{"nand":1},2]}', ': argument 1 of "fractional" is not a bucket [name, weight]'),
    ('{"fractional":[{"nand":1},[]]}', ': argument 1 of "fractional" is not a bucket [name, weight]'),
    ('{"fractional":[["a",1,2]]}', ': argument 0 of "fractional" is not a bucket [name, weight]'),
    ('{"fractional":[["a"],"b"]}', ': argument 1 of "fractional" is not a bucket [name, weight]'),
    ('{"fractional":[{"nand":1},["a"]]}', '.fractional[0]: the operator "nand" is unknown'),
    ('{"fractional":[["a"],[{"!":[]},{"nand":1}]]}', '.fractional[1][0]: the operator "!" does not take 0 arguments'),
]

TOO_BIG = " has more than 10,000 nodes or 100 levels, with its references replaced (TargetingSize)"


def levels(front, middle, back, count):
    """So many times the front, the middle, and as many times the back."""
    return front * count + middle + back * count


def listed(middle, count):
    """So many lists around the middle, under an operator. That is two levels: arguments stand in a list, written or not."""
    return '{"!":' + levels("[", middle, "]", count + 1) + "}"


# A targeting, and what is told of it where its flag is broken.
LEVELS = [
    (listed("", 98), None),
    (listed("", 99), TOO_BIG),
    (levels('{"!":', "1", "}", 50), None),
    (levels('{"!":', "1", "}", 51), TOO_BIG),
    (levels('{"nand":', "1", "}", 50), ': the operator "nand" is unknown (Expression)'),
    (levels('{"nand":', "1", "}", 51), TOO_BIG),
    (listed('{"fractional":[["a"]]}', 96), None),
    (listed('{"fractional":[["a"]]}', 97), TOO_BIG),
    (listed('{"fractional":[[1]]}', 95), None),
    (listed('{"fractional":[[1]]}', 96), TOO_BIG),
]

# A targeting up to its last arguments, which are all alike, their number, and what is told where its flag is broken.
NODES = [
    ('{"+":[0', ",0", 9997, None),
    ('{"+":[0', ",0", 9998, TOO_BIG),
    ('{"nand":[0', ",0", 9998, TOO_BIG),
    ('{"fractional":[["a"]', ',["a",0]', 20000, None),
    ('{"fractional":[["a"]', ",[1]", 3332, None),
    ('{"fractional":[["a"]', ",[1]", 3333, TOO_BIG),
]

# One operation.
ONE = '{"fractional":[{"var":"key"},["red",5],["blue",5]]}'

# One inside the bucketing expression of another and one in a weight, and none in a literal object.
NESTED = (
    '{"cat":[{"a":{"fractional":[]},"b":1},{"fractional":[{"cat":[{"fractional":[null,["x",2]]}]},["p",1]]},'
    '{"fractional":[["q",{"fractional":[["y"]]}]]}]}'
)

ANOTHER = '[["u",3],["v",1]]'

# Another rule at the sites of both.
REPLACED = [
    (ONE, 0, '{"fractional":[{"var":["key"]},["u",3],["v",1]]}'),
    (ONE, 1, "refused apply 3 NoSite\n"),
    (
        NESTED,
        0,
        '{"cat":[{"a":{"fractional":[]},"b":1},{"fractional":[{"cat":[{"fractional":[null,["x",2]]}]},["u",3],["v",1]]},'
        '{"fractional":[["q",{"fractional":[["y",1]]}]]}]}',
    ),
    (
        NESTED,
        1,
        '{"cat":[{"a":{"fractional":[]},"b":1},{"fractional":[{"cat":[{"fractional":[null,["u",3],["v",1]]}]},["p",1]]},'
        '{"fractional":[["q",{"fractional":[["y",1]]}]]}]}',
    ),
    (NESTED, 2, "refused apply 4 Computed\n"),
    (
        NESTED,
        3,
        '{"cat":[{"a":{"fractional":[]},"b":1},{"fractional":[{"cat":[{"fractional":[null,["x",2]]}]},["p",1]]},'
        '{"fractional":[["q",{"fractional":[["u",3],["v",1]]}]]}]}',
    ),
    (NESTED, 4, "refused apply 3 NoSite\n"),
]

# The bucketing expressions and the entries of the sites, as a request asks for them.
PAGES = [
    (ONE, 0, '{"var":["key"]}', [["red", 5], ["blue", 5]]),
    (NESTED, 0, '{"cat":[{"fractional":[null,["x",2]]}]}', [["p", 1]]),
    (NESTED, 1, "null", [["x", 2]]),
    (NESTED, 3, None, [["y", 1]]),
]

# A targeting, a site and the refusal; what is told of a site that is not there.
NO_PAGES = [
    (ONE, 1, "3 NoSite", 'has 1 "fractional"'),
    (NESTED, 2, "4 Computed", "is computed"),
    (NESTED, 4, "3 NoSite", 'has 4 "fractional"'),
]

# Two of the sites computed, with weights that are numbers; and the book of an evaluation.
REACHED = (
    '{"cat":[{"a":{"fractional":[]},"b":1},{"fractional":[{"cat":[{"fractional":[null,["x",2]]}]},["p",1]]},'
    '{"fractional":[["q",{"if":[{"fractional":[["y"]]},1]}]]}]}'
)
REACHED_BOOK = r"""{"book":1}
{"by":"{\"cat\":[{\"fractional\":[null,[\"x\",2]]}]}","flag":"f","site":0}
""
{"by":null,"flag":"f","site":2}
"fst"
{"by":null,"flag":"f","site":3}
"fst"
"""

# A bucket, a weight that its site is asked for, and the refusal: the weight is that of a literal bucket, or it is computed.
BUCKETS = [
    ('["on"]', 1, None),
    ('["on"]', 2, "6 TotalsSum"),
    ('["on",2147483647]', 2147483647, "7 TotalTooLarge"),
    ('["on",2147483647]', 2147483646, "6 TotalsSum"),
    ('["on",0]', 0, "9 NoWeight"),
    ('["on",2147483648]', 1, "4 Computed"),
    ('["on",-1]', 1, "4 Computed"),
    ('["on",1,1]', 1, "3 NoSite"),
    ("[]", 1, "3 NoSite"),
]

# The buckets of a site, one of which is none that a plan can take, and what is told of it.
COMPUTED = [
    ('["on",2147483648]', 'argument 1 of "fractional", the bucket "on", has the weight 2147483648, above 2147483647'),
    ('["blue",1],["on",-1]', 'argument 2 of "fractional", the bucket "on", has the weight -1, below 0'),
    (
        '["on","1"]',
        'argument 1 of "fractional", the bucket "on", has the weight "1", a text: write the number alone, without quotes or sign',
    ),
    ("[5]", 'argument 1 of "fractional" has the name 5, which is not a text'),
    ('["on",{"+":[1,1]}]', 'argument 1 of "fractional" has a weight that is computed'),
    ('["on",1],[{"var":"k"}]', 'argument 2 of "fractional" has a name that is computed'),
]

NAMES = ["blue", "p", "red", "u", "v", "x", "y"]


class Expressions(ProgramTest):
    def assert_written(self, expression, written):
        """The expression is written so, in a flag beside one that takes another rule."""
        document = f'{{"flags":{{"a":{flag(ONE_SITE)},"f":{flag(under(expression))}}}}}'
        printed = f'{{"flags":{{"a":{flag(ONE_SITE)},"f":{flag(under(written))}}}}}\n'
        files = {"d": document, "p": plan_of(rule='[["on",1]]')}
        self.assert_ends(["apply", "d", "p", "a", "0"], files, 0, printed)

    def assert_checked(self, targeting, told):
        """A flag with this targeting is good, or this is told of it."""
        ran = run(["check", "d"], {"d": f'{{"flags":{{"f":{flag(targeting)}}}}}'})
        want = ('"f" broken\n', f"broken: flags.f.targeting{told}\n") if told else ('"f" good\n', "")
        self.assertEqual((ran.status, ran.out, broken_lines(ran.err)), (0, *want))

    def test_written_and_read_back(self):
        for expression, written in WRITTEN:
            with self.subTest(expression=expression):
                self.assert_written(expression, written)
                self.assert_written(written, written)

    def test_argument_counts(self):
        """One document has each operator with from none to nine arguments."""
        flags, report, told = {}, [], []
        for names, least, most in COUNTS:
            for name in names.split():
                for count in range(10):
                    targeting = {name: [0] * count}
                    key = f"f{len(flags):03}"
                    flags[key] = {"state": "ENABLED", "variants": {"on": 1}, "targeting": targeting}
                    is_taken = least <= count <= most
                    report.append(f'"{key}" {"good" if is_taken else "broken"}\n')
                    if not is_taken:
                        what = f'the operator "{name}" does not take {count} arguments'
                        told.append(f'broken: flags.{key}.targeting: {what} (Expression)\n')
        ran = run(["check", "d"], {"d": json.dumps({"flags": flags})})
        self.assertEqual((ran.status, ran.out), (0, "".join(report)))
        self.assertEqual(broken_lines(ran.err), "".join(told))

    def test_faults_in_preorder(self):
        for targeting, told in FAULTS:
            with self.subTest(targeting=targeting):
                self.assert_checked(targeting, f"{told} (Expression)")

    def test_levels(self):
        for targeting, told in LEVELS:
            with self.subTest(targeting=targeting):
                self.assert_checked(targeting, told)

    def test_nodes(self):
        for head, item, count, told in NODES:
            with self.subTest(head=head, count=count):
                self.assert_checked(head + item * count + "]}", told)

    def test_another_rule_at_a_site(self):
        for targeting, site, replaced in REPLACED:
            with self.subTest(targeting=targeting, site=site):
                files = {"d": f'{{"flags":{{"f":{flag(targeting, *NAMES)}}}}}', "p": plan_of(rule=ANOTHER)}
                status = int(replaced.startswith("refused"))
                report = replaced if status else f'{{"flags":{{"f":{flag(replaced, *NAMES)}}}}}\n'
                self.assert_ends(["apply", "d", "p", "f", str(site)], files, status, report)

    def planned(self, targeting, site, totals):
        """What `plan` prints of these totals at a site."""
        request = json.dumps({"plan": 1, "flag": "f", "site": site, "totals": totals})
        document = f'{{"flags":{{"f":{flag(targeting, "on", *NAMES)}}}}}'
        return run(["plan", "d", "r", "b"], {"d": document, "r": request, "b": EMPTY_BOOK})

    def test_sites_and_their_bucketing_expressions(self):
        for targeting, site, by, entries in PAGES:
            with self.subTest(targeting=targeting, site=site):
                ran = self.planned(targeting, site, dict(entries))
                self.assertEqual((ran.status, json.loads(ran.out)["rule"]), (0, entries))
                self.assertEqual(ran.err.splitlines()[1], f'  flag "f", "site":{site}, "by":{json.dumps(by)}')

    def test_sites_that_are_none(self):
        for targeting, site, refusal, told in NO_PAGES:
            with self.subTest(targeting=targeting, site=site):
                ran = self.planned(targeting, site, {})
                self.assertEqual((ran.status, ran.out), (1, f"refused plan {refusal}\n"))
                self.assertIn(told, ran.err)

    def test_buckets_that_are_not_literal(self):
        for buckets, told in COMPUTED:
            with self.subTest(buckets=buckets):
                ran = self.planned(f'{{"fractional":[null,{buckets}]}}', 0, {})
                self.assertEqual((ran.status, ran.out), (1, "refused plan 4 Computed\n"))
                self.assertIn(f'site 0 of "f": {told}\n', ran.err)
                self.assertIn("each weight a whole number from 0 to 2147483647", ran.err)

    def test_pages_of_the_sites_that_are_reached(self):
        asks = '[{"key":"f","want":"text","default":0,"context":{"targetingKey":"st"},"moment":0}]'
        files = {"d": f'{{"flags":{{"f":{flag(REACHED)}}}}}', "a": asks}
        ran = run(["drive", "d", "a", "1", "b"], files)
        self.assertEqual((ran.status, ran.files["b"]), (0, REACHED_BOOK))

    def test_literal_buckets(self):
        for bucket, weight, refusal in BUCKETS:
            with self.subTest(bucket=bucket, weight=weight):
                ran = self.planned(f'{{"fractional":[null,{bucket}]}}', 0, {"on": weight})
                if refusal:
                    self.assertEqual((ran.status, ran.out), (1, f"refused plan {refusal}\n"))
                else:
                    self.assertEqual((ran.status, json.loads(ran.out)["rule"]), (0, [["on", weight]]))


# A site of a flag of its own.
ONE_SITE = '{"fractional":[["on",1]]}'


def under(expression):
    """An expression as the argument of an operator, as a targeting is an operation."""
    return f'{{"!":[{expression}]}}'


if __name__ == "__main__":
    unittest.main()
