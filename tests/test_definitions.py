"""Which definitions of a flag document are good, as `check` tells; documents at their limits, and their refusals."""
import unittest

from given import document
from program import ProgramTest, broken_lines, run

# A definition, and whether it is good or broken.
DEFINITIONS = [
    ('{"state":"ENABLED","variants":{"on":1}}', "good"),
    ('{"state":"ENABLED","variants":{"on":1},"more":1.5}', "good"),
    ('{"state":"ENABLED","variants":{"on":1},"defaultVariant":null,"targeting":null}', "good"),
    (r'{"state":"ENABLED","variants":{"":{},"\u00e9":{"a":[]}},"defaultVariant":""}', "good"),
    ('{"state":"DISABLED","state":"ENABLED","variants":1,"variants":{"on":1}}', "good"),
    ("[]", "broken"),
    ('{"variants":{"on":1}}', "broken"),
    ('{"state":"enabled","variants":{"on":1}}', "broken"),
    ('{"state":true,"variants":{"on":1}}', "broken"),
    ('{"state":"ENABLED"}', "broken"),
    ('{"state":"ENABLED","variants":{}}', "broken"),
    ('{"state":"ENABLED","variants":[1]}', "broken"),
    ('{"state":"ENABLED","variants":{"a":1,"b":true}}', "broken"),
    ('{"state":"ENABLED","variants":{"a":null}}', "broken"),
    ('{"state":"ENABLED","variants":{"a":[1]}}', "broken"),
    ('{"state":"ENABLED","variants":{"a":{"b":-0}}}', "broken"),
    ('{"state":"ENABLED","variants":{"a":1e2}}', "broken"),
    ('{"state":"ENABLED","variants":{"a":9007199254740992}}', "broken"),
    ('{"state":"ENABLED","variants":{"on":1},"defaultVariant":"off"}', "broken"),
    ('{"state":"ENABLED","variants":{"on":1},"defaultVariant":1}', "broken"),
    ('{"state":"ENABLED","variants":{"on":1},"targeting":[]}', "broken"),
    ('{"state":"ENABLED","variants":{"on":1},"targeting":{"if":[1.5]}}', "broken"),
    ('{"state":"ENABLED","variants":{"on":1},"targeting":{"nope":[]}}', "broken"),
    ('{"state":"ENABLED","variants":{"on":1},"targeting":{"$ref":5}}', "broken"),
    ('{"state":"ENABLED","variants":{"on":1},"targeting":{"a":{"$ref":5},"b":1}}', "good"),
]

EVALUATORS = (
    '{"a":{"$ref":"b"},"b":true,"c":{"$ref":"d"},"d":{"$ref":"c"},"list":["on",5],"name":"on","none":{},"null":null,"text":"a"}'
)

# A targeting over these evaluators, and whether its flag is good or broken.
TARGETINGS = [
    ('{"if":[{"$ref":"a"},"on"]}', "good"),
    ('{"if":[{"$ref":"c"},"on"]}', "broken"),
    ('{"if":[{"$ref":"e"},"on"]}', "broken"),
    ('{"$ref":"none"}', "good"),
    ('{"$ref":"null"}', "good"),
    ('{"$ref":"b"}', "broken"),
    ('{"$ref":{"$ref":"text"}}', "broken"),
    ('{"fractional":[{"$ref":"list"},[{"$ref":"name"},5]]}', "good"),
    ('{"a":{"$ref":"a"},"b":1}', "good"),
    ('{"a":{"$ref":"c"},"b":1}', "broken"),
]

# What the first evaluator stands for, the operator, the last evaluator, and the state of the flag that refers to it.
GROWING = [
    ("1", "+", 11, "good"),
    ("1", "+", 12, "broken"),
    ("1", "+", 60, "broken"),
    ('["on",1]', "cat", 1, "good"),
    ('["on",1]', "cat", 10, "good"),
    ('["on",1]', "cat", 11, "broken"),
    ('["on",1]', "cat", 12, "broken"),
    ('["on",1]', "cat", 60, "broken"),
]

# Numbers of flags and of buckets, and whether the document is read.
HEAVY = [(1, 100, True), (1, 105, False), (1, 9000, False), (300, 100, False)]

# The number of evaluators in a chain, what the last one refers to, and the state of the flag that refers to the first.
CHAINS = [
    (3, "end", "good"),
    (3, "0", "broken"),
    (100_000, "end", "good"),
    (100_000, "0", "broken"),
    (100_000, "nobody", "broken"),
]

# A document and its refusal, none where it is read.
REFUSALS = [
    ('{"flags":{}}', None),
    ('{"flags":{"":1}}', None),
    ('{"flags":{"a":1e400000}}', "1 NotJson"),
    ("{}", "2 NoFlags"),
    ("[]", "2 NoFlags"),
    ('{"flags":[]}', "2 NoFlags"),
    ('{"flags":null}', "2 NoFlags"),
]

TOO_LARGE = "refused read_flags 3 TooLarge\n"


def with_targeting(targeting):
    """The definition of a flag with this targeting."""
    return f'{{"state":"ENABLED","variants":{{"on":1}},"targeting":{targeting}}}'


def growing(first, operator, last):
    """Evaluators from `e0` up, each with what the one before stands for twice under an operator."""
    evaluators = [f'"e0":{first}']
    for number in range(last):
        evaluators.append(f'"e{number + 1}":{{"{operator}":[{{"$ref":"e{number}"}},{{"$ref":"e{number}"}}]}}')
    return "{" + ",".join(evaluators) + "}"


def heavy(flags, buckets):
    """A document with flags whose targeting is a reference to a `fractional` with so many buckets, each of them a reference to
    one with a name of 40,000 bytes."""
    bucket = '["' + "x" * 40_000 + '",1]'
    site = '{"fractional":[["on"]' + ',{"$ref":"b"}' * buckets + "]}"
    definitions = [f'"{number}":' + with_targeting('{"$ref":"t"}') for number in range(flags)]
    evaluators = f'{{"b":{bucket},"t":{site}}}'
    return f'{{"$evaluators":{evaluators},"flags":{{"f":1,{",".join(definitions)}}}}}'


def chain(count, last):
    """Evaluators, each of which refers to the next, and the last to this."""
    follows = [str(number + 1) for number in range(count - 1)] + [last]
    evaluators = [f'"{number}":{{"$ref":"{follow}"}}' for number, follow in enumerate(follows)]
    return '{"end":{"var":"a"},' + ",".join(evaluators) + "}"


class Definitions(ProgramTest):
    def assert_state(self, definition, state, evaluators="{}"):
        """The one flag of a document with these evaluators is in this state."""
        ran = run(["check", "d"], {"d": f'{{"$evaluators":{evaluators},"flags":{{"f":{definition}}}}}'})
        self.assertEqual((ran.status, ran.out, broken_lines(ran.err) != ""), (0, f'"f" {state}\n', state == "broken"))

    def test_definitions(self):
        for definition, state in DEFINITIONS:
            with self.subTest(definition=definition):
                self.assert_state(definition, state)

    def test_targetings(self):
        for targeting, state in TARGETINGS:
            with self.subTest(targeting=targeting):
                self.assert_state(with_targeting(targeting), state, EVALUATORS)

    def test_up_to_64_variants(self):
        for count, state in [(1, "good"), (64, "good"), (65, "broken")]:
            with self.subTest(count=count):
                variants = ",".join(f'"{number}":{number}' for number in range(count))
                self.assert_state(f'{{"state":"ENABLED","variants":{{{variants}}}}}', state)

    def test_evaluators_that_grow_past_10000_nodes(self):
        for first, operator, last, state in GROWING:
            with self.subTest(first=first, last=last):
                targeting = with_targeting(f'{{"$ref":"e{last}"}}')
                self.assert_state(targeting, state, growing(first, operator, last))

    def test_buckets_that_print_in_too_many_bytes(self):
        for flags, buckets, is_read in HEAVY:
            with self.subTest(flags=flags, buckets=buckets):
                ran = run(["check", "d"], {"d": heavy(flags, buckets)})
                self.assertEqual((ran.status, ran.out), (0, '"0" good\n"f" broken\n') if is_read else (1, TOO_LARGE))

    def test_chains_and_cycles_of_references(self):
        for count, last, state in CHAINS:
            with self.subTest(count=count, last=last):
                self.assert_state(with_targeting('{"$ref":"0"}'), state, chain(count, last))

    def test_up_to_10000_flags(self):
        for count, is_read in [(10_000, True), (10_001, False)]:
            with self.subTest(count=count):
                flags = ",".join(f'"{number}":0' for number in range(count))
                ran = run(["check", "d"], {"d": f'{{"flags":{{{flags}}}}}'})
                self.assertEqual((ran.status, ran.out.count("\n")), (0, count) if is_read else (1, 1))
                self.assertEqual(ran.out == TOO_LARGE, not is_read)

    def test_refusals(self):
        for text, refusal in REFUSALS:
            with self.subTest(text=text):
                ran = run(["check", "d"], {"d": text})
                self.assertEqual(ran.status, int(refusal is not None))
                self.assertEqual(ran.out.startswith("refused"), refusal is not None)
                self.assertEqual(ran.out, f"refused read_flags {refusal}\n" if refusal else ran.out)

    def test_a_document_that_is_cut_is_no_json(self):
        whole = document()
        for taken in range(len(whole)):
            with self.subTest(taken=taken):
                self.assert_ends(["check", "d"], {"d": whole[:taken]}, 1, "refused read_flags 1 NotJson\n")


if __name__ == "__main__":
    unittest.main()
