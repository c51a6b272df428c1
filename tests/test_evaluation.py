"""The value of an expression over a context, and the sites that its evaluation reached, as `resolve` shows them."""
import json
import unittest

from program import ProgramTest, run

# Contexts.
ROW = '{"a":1,"l":[1,2,3]}'
WIDE = '{"e":"","l":[1,[2,{"k":"v"}]],"n":null,"o":{"":5,"p":{"q":"r"}},"t":"yes","targetingKey":"st","z":false}'

# Expressions, each with its value and the sites reached: their numbers, inputs and totals. The first table is of ROW, the
# others are of WIDE.
WORKED = [
    ('{"var":"l.1"}', "2", []),
    ('{"var":["b",7]}', "7", []),
    ('{"missing":["a","b"]}', '["b"]', []),
    ('{"missing_some":[1,["a","b"]]}', "[]", []),
    ('{"==":[1,"1"]}', "true", []),
    ('{"===":[1,"1"]}', "false", []),
    ('{"==":[[],[]]}', "false", []),
    ('{"<":[1,2,3]}', "true", []),
    ('{"<":[1,3,3]}', "false", []),
    ('{"+":["2",3]}', "5", []),
    ('{"%":[-7,3]}', "-1", []),
    ('{"reduce":[{"var":"l"},{"+":[{"var":"current"},{"var":"accumulator"}]},0]}', "6", []),
    ('{"all":[[],true]}', "false", []),
    ('{"merge":[1,[2,3]]}', "[1,2,3]", []),
    ('{"cat":["a",1,null,true]}', '"a1true"', []),
    ('{"substr":["jsonlogic",-5]}', '"logic"', []),
    ('{"substr":["jsonlogic",4,-2]}', '"log"', []),
    ('{"sem_ver":["v1.2","^","1.9.0"]}', "true", []),
    ('{"sem_ver":["1.0.0-beta","<","1.0.0"]}', "true", []),
    ('{"sem_ver":["1.x","=","1.0.0"]}', "false", []),
    ('{"map":[["test",""],{"fractional":[{"var":""},["x",5],["y",5]]}]}', '["y","x"]', [[0, "test", 10], [0, "", 10]]),
    ('{"if":[true,"x",{"fractional":["test",["x"]]}]}', '"x"', []),
]

PATHS = [
    ('{"var":"o.p.q"}', '"r"', []),
    ('{"var":"o."}', "5", []),
    ('{"var":["o..x",2]}', "2", []),
    ('{"var":"l.1.1.k"}', '"v"', []),
    ('{"var":["l.01",3]}', "3", []),
    ('{"var":["l.99999999999999999999999",4]}', "4", []),
    ('{"var":["l.-1",5]}', "5", []),
    ('{"var":["n",6]}', "null", []),
    ('{"var":[true,7]}', "7", []),
    ('{"var":"$flagd.flagKey"}', '"te"', []),
    ('{"==":[{"var":"$flagd.timestamp"},7]}', "true", []),
    ('{"map":[[5,[6,7]],{"var":1}]}', "[null,7]", []),
    ('{"map":[[5],{"var":[]}]}', "[5]", []),
    ('{"map":[[5],{"var":"t"}]}', "[null]", []),
    ('{"missing":[["t","e","n","x"],"y"]}', '["e","n","x"]', []),
    ('{"missing":["t",true,null]}', "[true]", []),
    ('{"missing_some":[2,["t","x"]]}', '["x"]', []),
    ('{"!":[[]]}', "true", []),
    ('{"!!":"0"}', "true", []),
    ('{"!!":0}', "false", []),
    ('{"!!":{"a":1,"b":2}}', "true", []),
    ('{"!!":[[0]]}', "true", []),
    ('{"!!":""}', "false", []),
    ('{"and":[]}', "null", []),
    ('{"and":[1,0,2]}', "0", []),
    ('{"and":[1,2]}', "2", []),
    ('{"or":[0,3,4]}', "3", []),
    ('{"or":[0,""]}', '""', []),
    ('{"if":[]}', "null", []),
    ('{"if":[5]}', "5", []),
    ('{"if":[0,1]}', "null", []),
    ('{"if":[0,1,1,2,3]}', "2", []),
    ('{"if":[0,1,0,2,3]}', "3", []),
]

COMPARISONS = [
    ('{"==":[true,1]}', "true", []),
    ('{"==":[false,"0"]}', "false", []),
    ('{"==":[null,null]}', "true", []),
    ('{"==":[null,0]}', "false", []),
    ('{"==":["-0",0]}', "true", []),
    ('{"==":["007",7]}', "true", []),
    ('{"==":["+1",1]}', "false", []),
    ('{"==":[" 1",1]}', "false", []),
    ('{"==":["1.0",1]}', "false", []),
    ('{"==":["9007199254740992",1]}', "false", []),
    ('{"!=":[1,2]}', "true", []),
    ('{"!==":[1,"1"]}', "true", []),
    ('{"<":["a","b"]}', "true", []),
    ('{"<":["10","9"]}', "true", []),
    ('{"<":["10",9]}', "false", []),
    ('{"<":[false,"1"]}', "true", []),
    ('{"<=":[null,1]}', "false", []),
    ('{">":[2,1]}', "true", []),
    ('{">=":[2,2]}', "true", []),
    ('{"<=":[1,1,0]}', "false", []),
    ('{"+":[]}', "0", []),
    ('{"+":"5"}', "5", []),
    ('{"-":3}', "-3", []),
    ('{"-":[3,5]}', "-2", []),
    ('{"*":[2,"3",4]}', "24", []),
    ('{"max":["3",1]}', "3", []),
    ('{"min":[3,"1"]}', "1", []),
    ('{"%":[7,-3]}', "1", []),
]

LISTS = [
    ('{"filter":[[0,1,2],{"var":""}]}', "[1,2]", []),
    ('{"map":[5,1]}', "[]", []),
    ('{"filter":["x",1]}', "[]", []),
    ('{"all":[[1,2],{"var":""}]}', "true", []),
    ('{"all":[[1,0],{"var":""}]}', "false", []),
    ('{"some":[[0,1],{"var":""}]}', "true", []),
    ('{"some":[[],1]}', "false", []),
    ('{"none":[[],1]}', "true", []),
    ('{"none":[[0],{"var":""}]}', "true", []),
    ('{"some":[[1,"x"],{"+":[{"var":""}]}]}', "true", []),
    ('{"reduce":[[],1,"s"]}', '"s"', []),
    ('{"reduce":[[1,2],{"cat":[{"var":"accumulator"},{"var":"current"}]},"s"]}', '"s12"', []),
    ('{"merge":[]}', "[]", []),
    ('{"merge":[[[1]],null]}', "[[1],null]", []),
    ('{"in":["b","abc"]}', "true", []),
    ('{"in":["",""]}', "true", []),
    ('{"in":["c","ab"]}', "false", []),
    ('{"in":[1,"1"]}', "false", []),
    ('{"in":[1,["1",1]]}', "true", []),
    ('{"in":[[1],[[1]]]}', "false", []),
    ('{"in":[1,5]}', "false", []),
    (r'{"cat":[-5,[1],{"a":1,"b":2},false,"\u00e9"]}', '"-5falseé"', []),
    (r'{"substr":["a\u00e9\u20ac",1]}', '"é€"', []),
    (r'{"substr":["a\u00e9\u20ac",-1]}', '"€"', []),
    (r'{"substr":["a\u00e9\u20ac",0,2]}', '"aé"', []),
    ('{"substr":["abc",5]}', '""', []),
    ('{"substr":["abc",-9,1]}', '"a"', []),
    ('{"substr":["abc",1,-5]}', '""', []),
    ('{"substr":[123,"1",1]}', '"2"', []),
    ('{"starts_with":["abc","ab"]}', "true", []),
    ('{"ends_with":["abc","bc"]}', "true", []),
    ('{"starts_with":["a","ab"]}', "false", []),
    ('{"ends_with":[1,"1"]}', "false", []),
    ('{"ends_with":["",""]}', "true", []),
]

VERSIONS = [
    ('{"sem_ver":["V1","=","1.0.0"]}', "true", []),
    ('{"sem_ver":["1.2.3+a","=","1.2.3+b"]}', "true", []),
    ('{"sem_ver":["1.2.3","~","1.2.9"]}', "true", []),
    ('{"sem_ver":["1.2.3","~","1.3.0"]}', "false", []),
    ('{"sem_ver":["1.0.0-a.2","<","1.0.0-a.10"]}', "true", []),
    ('{"sem_ver":["1.2-a","!=","1.0.0"]}', "false", []),
    ('{"sem_ver":["2",">=","2.0"]}', "true", []),
    ('{"sem_ver":["2.0.0","<>","2.0.0"]}', "false", []),
    ('{"sem_ver":[1,"=","1"]}', "false", []),
    ('{"sem_ver":["vv1","=","1"]}', "false", []),
    ('{"sem_ver":["1.0.1","!=","1.0.0"]}', "true", []),
    ('{"fractional":[["red",50],["blue",50]]}', '"blue"', [[0, "test", 100]]),
    ('{"fractional":[null,["red"]]}', "null", []),
    ('{"fractional":["a"]}', "null", []),
    ('{"fractional":["a",["x",0]]}', "null", []),
    ('{"fractional":["a",[{"var":"t"},{"+":[1,2]}]]}', '"yes"', [[0, "a", 3]]),
    (
        '[{"fractional":["a",["x"]]},{"if":[0,{"fractional":["b",["x"]]},{"fractional":["c",["z"]]}]}]',
        '["x","z"]',
        [[0, "a", 1], [2, "c", 1]],
    ),
    ('{"reduce":[[1,2],{"fractional":[{"cat":[{"var":"current"}]},["x"]]}]}', '"x"', [[0, "1", 1], [0, "2", 1]]),
    ('{"map":[[1],{"fractional":[["x"]]}]}', '["x"]', [[0, "test", 1]]),
    (
        '{"fractional":[{"fractional":["a",["k"]]},[{"fractional":["b",["n"]]}]]}',
        '"n"',
        [[1, "a", 1], [2, "b", 1], [0, "k", 1]],
    ),
]

# Expressions that come to no value.
FAULTS = [
    '{"%":[1,0]}',
    '{"+":[9007199254740991,1,-1]}',
    '{"fractional":["a",["x",2147483647],["y"]]}',
    '{"none":[[0,"x"],{"+":[{"var":""}]}]}',
]

# The most bytes of a text that an evaluation makes.
LONGEST = 65_536

CURRENT = {"var": "current"}


def is_list(value, items):
    """Holds of an expression whose value is the list of these values. `reduce` goes over nothing but a list."""
    if not items:
        return {"!": [{"merge": [value]}]}
    count = {"reduce": [CURRENT, {"+": [{"var": "accumulator"}, 1]}, 0]}
    each = [is_value({"var": f"current.{i}"}, item) for i, item in enumerate(items)]
    return {"reduce": [[value], {"and": [{"===": [count, len(items)]}, *each]}, False]}


def is_value(value, want):
    """Holds of an expression that comes to this value, of the same kind. It evaluates that expression once."""
    return is_list(value, want) if isinstance(want, list) else {"===": [value, want]}


def document(targeting):
    """The flag `te` with this targeting."""
    flag = {"state": "ENABLED", "variants": {"yes": 1, "no": 0}, "targeting": targeting}
    return json.dumps({"flags": {"te": flag}})


def zeros(count):
    """A context with a list of so many zeros."""
    return json.dumps({"l": [0] * count})


class Evaluation(ProgramTest):
    def assert_resolves(self, targeting, context, reason, code, variant, reached):
        """The flag `te` with this targeting resolves so at the moment 7."""
        files = {"d": document(targeting), "c": context}
        ran = run(["resolve", "d", "te", "whole", "9", "c", "7"], files)
        self.assertEqual((ran.status, ran.err), (0, ""))
        value = {"yes": 1, "no": 0, None: 9}[variant]
        want = {"code": code, "reached": reached, "reason": reason, "value": value, "variant": variant}
        self.assertEqual(json.loads(ran.out), want)

    def assert_value(self, expression, context, want, reached):
        """The expression comes to this value, and reaches these sites."""
        targeting = {"if": [is_value(expression, want), "yes", "no"]}
        self.assert_resolves(targeting, context, "TARGETING_MATCH", None, "yes", reached)

    def assert_no_variant(self, targeting, context):
        """The targeting has a value, which names no variant."""
        self.assert_resolves(targeting, context, "ERROR", "GENERAL", None, [])

    def assert_fault(self, targeting, context):
        """The targeting comes to no value."""
        self.assert_resolves(targeting, context, "ERROR", "PARSE_ERROR", None, [])

    def assert_values(self, rows, context):
        for expression, want, reached in rows:
            with self.subTest(expression=expression):
                self.assert_value(json.loads(expression), context, json.loads(want), reached)

    def test_worked_values(self):
        self.assert_values(WORKED, ROW)

    def test_paths_and_truth(self):
        self.assert_values(PATHS, WIDE)

    def test_comparisons_and_arithmetic(self):
        self.assert_values(COMPARISONS, WIDE)

    def test_lists_and_texts(self):
        self.assert_values(LISTS, WIDE)

    def test_versions_and_sites(self):
        self.assert_values(VERSIONS, WIDE)

    def test_faults(self):
        for expression in FAULTS:
            with self.subTest(expression=expression):
                self.assert_fault(json.loads(expression), WIDE)

    def test_another_value_is_told_apart(self):
        """The comparisons by which the values above are shown."""
        for value, want in [(1, "1"), (1, [1]), ([1], 1), ([1, 2], [1]), ([], 0), (0, []), ([[1]], [1]), ([1], [[1]])]:
            with self.subTest(value=value, want=want):
                targeting = {"if": [is_value(value, want), "yes", "no"]}
                self.assert_resolves(targeting, ROW, "TARGETING_MATCH", None, "no", [])

    def test_budget_of_units(self):
        """A list of n zeros is given as `l`: `map` over it costs 4n + 4, within 100,000 units."""
        targeting = {"map": [{"var": "l"}, {"var": ""}]}
        self.assert_no_variant(targeting, zeros(24_999))
        self.assert_fault(targeting, zeros(25_000))
        self.assert_value(targeting, zeros(9), [0] * 9, [])

    def test_the_longest_text(self):
        half = "0123456789abcdef" * (LONGEST // 32)
        self.assert_value({"cat": [half, half]}, ROW, half + half, [])
        self.assert_fault({"cat": [half, half, 1]}, ROW)

    def test_the_longest_input(self):
        """The flag's key stands in front of the targeting key; where no bucket has weight, no input is made."""
        site = {"fractional": [["yes"]]}
        key = "k" * (LONGEST - 2)
        context = json.dumps({"targetingKey": key})
        self.assert_resolves(site, context, "TARGETING_MATCH", None, "yes", [[0, "te" + key, 1]])
        context = json.dumps({"targetingKey": "k" * LONGEST})
        self.assert_fault(site, context)
        self.assert_resolves({"fractional": [["yes", 0]]}, context, "DEFAULT", None, None, [])

    def test_deep_values(self):
        """A value that is put into 90 lists at each of 45 items."""
        inside = {"var": "accumulator"}
        for _ in range(90):
            inside = [inside]
        targeting = {"if": [{"!!": {"reduce": [{"var": "l"}, inside]}}, "yes", "no"]}
        self.assert_resolves(targeting, zeros(45), "TARGETING_MATCH", None, "yes", [])


if __name__ == "__main__":
    unittest.main()
