"""The commands `check` and `resolve`."""
import unittest

from program import ProgramTest, broken_lines, run

DOCUMENT = """{"$evaluators":{"vip":{"in":[{"var":"key"},["test"]]}},"flags":{
"color":{"state":"ENABLED","variants":{"red":"r","blue":"b","green":"g"},"defaultVariant":"red",
  "targeting":{"fractional":[{"var":"key"},["red",5],["blue",5]]}},
"half":{"state":"ENABLED","variants":{"a":1.5},"defaultVariant":"a"},
"off":{"state":"DISABLED","variants":{"on":true},"defaultVariant":"on"},
"plain":{"state":"ENABLED","variants":{"on":true,"off":false},"defaultVariant":"on","targeting":{}},
"vip":{"state":"ENABLED","variants":{"true":true,"false":false},"defaultVariant":"false",
  "targeting":{"if":[{"$ref":"vip"},true,null]}},
"lost":{"state":"ENABLED","variants":{"on":1},"defaultVariant":"on","targeting":{"if":[true,"no such"]}},
"bare":{"state":"ENABLED","variants":{"on":1},"targeting":{"if":[false,"on"]}},
"loop":{"state":"ENABLED","variants":{"on":1},"defaultVariant":"on","targeting":{"$ref":"nobody"}},
"te":{"state":"ENABLED","variants":{"red":1,"blue":2},"defaultVariant":"red",
  "targeting":{"fractional":[["red",50],["blue",50]]}},
"zero":{"state":"ENABLED","variants":{"on":1},"defaultVariant":"on","targeting":{"%":[1,0]}}}}"""

STANDING = """"bare" good
"color" good
"half" broken
"loop" broken
"lost" good
"off" good
"plain" good
"te" good
"vip" good
"zero" good
"""

# A document, the status and what is printed.
CHECKS = [
    (DOCUMENT, 0, STANDING),
    ('{"flags":{}}', 0, ""),
    (r'{"flags":{"":5,"\"":{}}}', 0, '"" broken\n"\\"" broken\n'),
    ('{"flags":{}', 1, "refused read_flags 1 NotJson\n"),
    ('{"flags":[]}', 1, "refused read_flags 2 NoFlags\n"),
]

# Flags for what those leave out.
MORE = r"""{"flags":{
"bare-plain":{"state":"ENABLED","variants":{"on":{}}},
"clock":{"state":"ENABLED","variants":{"now":"n","then":"t"},"defaultVariant":"then",
  "targeting":{"if":[{"==":[{"var":"$flagd.timestamp"},9007199254740991]},"now"]}},
"list":{"state":"ENABLED","variants":{"on":{"a":[1,"\u00e9\n"]}},"defaultVariant":"on",
  "targeting":{"map":[["test",""],{"fractional":[{"var":""},["x",5],["y",5]]}]}},
"named":{"state":"ENABLED","variants":{"red":"r","blue":"b","green":"g"},"defaultVariant":"red","targeting":{"var":"name"}},
"number":{"state":"ENABLED","variants":{"1":1},"targeting":{"+":[1]}},
"object":{"state":"ENABLED","variants":{"on":{"a":[1,"\u00e9\n"]}},"targeting":{"if":[true,"on"]}},
"weightless":{"state":"ENABLED","variants":{"red":"r","blue":"b","green":"g"},"defaultVariant":"red",
  "targeting":{"fractional":[{"var":"key"},["red",0],["blue",0]]}},
"wrong":{"state":"ENABLED","variants":{"on":1},"defaultVariant":"on"}}}"""

TEST = '{"key":"test","targetingKey":"st"}'

# The default that is given for a kind.
DEFAULTS = {"bool": "false", "text": '"d"', "whole": "9", "object": '{"d":null}', "float": "8"}


def matched(value, variant, reached=""):
    """The resolution to the variant that the targeting names."""
    return f'{{"code":null,"reached":[{reached}],"reason":"TARGETING_MATCH","value":{value},"variant":"{variant}"}}\n'


def given(reason, value, variant="null"):
    """A resolution for this reason, without an error, to a variant or to none."""
    return f'{{"code":null,"reached":[],"reason":"{reason}","value":{value},"variant":{variant}}}\n'


def failed(code, value, reached=""):
    """The resolution to the default for an error."""
    return f'{{"code":"{code}","reached":[{reached}],"reason":"ERROR","value":{value},"variant":null}}\n'


# A flag's key, a kind, the context and what is printed with the kind's default: of the document at the moment 0, and of the
# other flags at the last moment.
RESOLUTIONS = [
    ("color", "text", TEST, matched('"b"', "blue", '[0,"test",10]')),
    ("color", "bool", TEST, failed("TYPE_MISMATCH", "false", '[0,"test",10]')),
    ("colour", "text", TEST, failed("FLAG_NOT_FOUND", '"d"')),
    ("half", "whole", TEST, failed("PARSE_ERROR", "9")),
    ("loop", "whole", TEST, failed("PARSE_ERROR", "9")),
    ("zero", "whole", TEST, failed("PARSE_ERROR", "9")),
    ("off", "bool", TEST, given("DISABLED", "false")),
    ("plain", "bool", TEST, given("STATIC", "true", '"on"')),
    ("vip", "bool", TEST, matched("true", "true")),
    ("vip", "bool", '{"key":"x"}', given("DEFAULT", "false", '"false"')),
    ("lost", "whole", TEST, failed("GENERAL", "9")),
    ("bare", "whole", TEST, given("DEFAULT", "9")),
    ("te", "whole", TEST, matched("2", "blue", '[0,"test",100]')),
    ("te", "whole", "{}", given("DEFAULT", "1", '"red"')),
    ("te", "float", "{}", given("DEFAULT", "1", '"red"')),
    ("plain", "float", TEST, failed("TYPE_MISMATCH", "8")),
    ("nope", "bool", TEST, failed("FLAG_NOT_FOUND", "false")),
    ("nope", "bool", "[]", failed("INVALID_CONTEXT", "false")),
]
MORE_RESOLUTIONS = [
    ("bare-plain", "object", TEST, given("DEFAULT", '{"d":null}')),
    ("clock", "text", TEST, matched('"n"', "now")),
    ("list", "object", TEST, failed("GENERAL", '{"d":null}', '[0,"test",10],[0,"",10]')),
    ("named", "text", '{"name":"green"}', matched('"g"', "green")),
    ("named", "text", '{"name":"gold"}', failed("GENERAL", '"d"')),
    ("named", "text", "{}", given("DEFAULT", '"r"', '"red"')),
    ("number", "whole", TEST, failed("GENERAL", "9")),
    ("object", "object", TEST, matched(r'{"a":[1,"é\n"]}', "on")),
    ("weightless", "text", TEST, given("DEFAULT", '"r"', '"red"')),
    ("wrong", "text", TEST, failed("TYPE_MISMATCH", '"d"')),
]

# A default, a context and the refusal.
REFUSALS = [
    ('"d', "{}", "refused read_tree 1 NotJson\n"),
    ("1.5", "{}", "refused read_tree 2 NotWhole\n"),
    ('"d"', '{"a":1.5}', "refused read_tree 2 NotWhole\n"),
]

# A kind, a moment and the status: a kind is one of five, a moment a number up to 2^53-1.
WORDS = [
    ("bool", "0", 0),
    ("object", "+5", 0),
    ("whole", "007", 0),
    ("text", "9007199254740991", 0),
    ("text", "9007199254740992", 2),
    ("text", "", 2),
    ("text", "-1", 2),
    ("text", "1.0", 2),
    ("text", "18446744073709551616", 2),
    ("number", "0", 2),
    ("", "0", 2),
    ("Bool", "0", 2),
]


GOOD = '{"flags":{"b":{"state":"ENABLED","variants":{"x":true}},"a":{"state":"ENABLED","variants":{"y":"1"}}}}'
BROKEN = '{"flags":{"z":{"state":"on","variants":{"x":true}},"k":{"state":"ENABLED","variants":{"x":1}}}}'


def colored(targeting, more=""):
    """A document with a flag of this targeting, and what more its definition has."""
    variants = '"variants":{"red":1,"blue":2},"defaultVariant":"red"'
    return f'{{"flags":{{"color":{{"state":"ENABLED",{variants},"targeting":{targeting}{more}}}}}}}'


NEVER = "has a targeting that never gives a variant (Never)"


def weighed(place):
    """What is told of weights, with the place of the operation and what it weighs."""
    return f"has a fractional that gives no variant to anybody: {place} (Weight)"


def foreign(place):
    """What is told of a result, with its place and what stands there."""
    return f"can result in what is not one of its variants: {place} (Variant)"


def repeated(place):
    """What is told of a member that stands more than once, with its place."""
    return f"has a member that stands more than once, and the last counts: {place} (Repeated)"


# Documents whose flag is good and doubted, with what is told behind its key.
DOUBTS = [
    ('{"flags":{"color":{},"color":{"state":"ENABLED","variants":{"red":1}}}}', ["stands more than once, and its last definition counts (Doubled)"]),
    (r'{"flags":{"color":{},"col\u006fr":{"state":"ENABLED","variants":{"red":1}}}}', ["stands more than once, and its last definition counts (Doubled)"]),
    (colored("{}", ',"defaultvarient":"red"'), ['has a member that is not read: "defaultvarient" (perhaps "defaultVariant" is meant) (Unread)']),
    (colored("{}", ',"colour":1,"x":2'), ['has a member that is not read: "colour" "x" (Unread)']),
    (colored('{"fractional":[["red",2147483648],["blue",1]]}'), ["has a fractional that gives no variant to anybody: targeting.fractional[0][1] is 2147483648, above 2147483647; weights are whole numbers from 0 to 2147483647 (Weight)"]),
    (colored('{"fractional":[{"var":"k"},["red",1],["blue",-1]]}'), ["has a fractional that gives no variant to anybody: targeting.fractional[2][1] is -1, below 0; weights are whole numbers from 0 to 2147483647 (Weight)"]),
    (colored('{"if":[{"==":[{"fractional":[["a",-1]]},"a"]},"red","blue"]}'), ["has a fractional that gives no variant to anybody: targeting.if[0].==[0].fractional[0][1] is -1, below 0; weights are whole numbers from 0 to 2147483647 (Weight)"]),
    (colored('{"fractional":[["red",1],["blu",1]]}'), ['can result in what is not one of its variants: targeting.fractional[1] is "blu" (Variant)']),
    (colored('{"if":[{"var":"a"},"red",{"var":"b"},{"fractional":[{"var":"k"},["blu",1],["red",1]]},"blue"]}'), ['can result in what is not one of its variants: targeting.if[3].fractional[1] is "blu" (Variant)']),
    (colored('{"if":[{"var":"a"},"red",7]}'), ["can result in what is not one of its variants: targeting.if[2] is not a name (Variant)"]),
    (
        colored('{"if":[{"var":"a"},"blu"]}'),
        ['can result in what is not one of its variants: targeting.if[1] is "blu" (Variant)', "has a targeting that never gives a variant (Never)"],
    ),
    (colored('{"if":[{"var":"a"},null]}'), ["has a targeting that never gives a variant (Never)"]),
    (
        colored('{"fractional":[["blu",-1]]}', ',"y":0'),
        [
            'has a member that is not read: "y" (Unread)',
            "has a fractional that gives no variant to anybody: targeting.fractional[0][1] is -1, below 0; weights are whole numbers from 0 to 2147483647 (Weight)",
            'can result in what is not one of its variants: targeting.fractional[0] is "blu" (Variant)',
            "has a targeting that never gives a variant (Never)",
        ],
    ),
    # Literal weights that sum to more than a rule may have, whatever the others are, and to nothing.
    (colored('{"fractional":[["red",2147483647],["blue",1]]}'), [weighed("targeting.fractional weighs more than 2147483647")]),
    (colored('{"fractional":[{"var":"k"},["red",{"var":"n"}],["blue",2147483647],["red",2]]}'), [weighed("targeting.fractional weighs more than 2147483647")]),
    (colored('{"fractional":[["red",0],["blue",0]]}'), [weighed("targeting.fractional weighs 0"), NEVER]),
    (colored('{"fractional":[["blu",0],["",0]]}'), [weighed("targeting.fractional weighs 0"), NEVER]),
    (colored('{"if":[{"var":"a"},"red",{"fractional":[[{"var":"b"},0]]}]}'), [weighed("targeting.if[2].fractional weighs 0")]),
    (colored('{"fractional":[{"fractional":[["k",0]]},["red"],["blue"]]}'), [weighed("targeting.fractional[0].fractional weighs 0")]),
    (colored('{"fractional":[]}'), [weighed("targeting.fractional weighs 0"), NEVER]),
    # Operations that give no name of a variant, whatever their arguments are.
    (colored('{"==":[{"var":"a"},1]}'), [foreign("targeting is true or false"), NEVER]),
    (colored('{"+":[{"var":"a"},1]}'), [foreign("targeting is not a name"), NEVER]),
    (colored('{"map":[{"var":"a"},"red"]}'), [foreign("targeting is not a name"), NEVER]),
    (colored('{"if":[{"var":"a"},"red",{"in":["b",{"var":"c"}]}]}'), [foreign("targeting.if[2] is true or false")]),
    (colored('{"and":[{"!":[{"var":"a"}]},"red"]}'), [foreign("targeting.and[0] is true or false")]),
    (colored('{"fractional":[["red",1],[{"max":[1,2]},1]]}'), [foreign("targeting.fractional[1] is not a name")]),
    # Two operators in one object.
    (
        colored('{"fractional":[["red",1]],"if":[{"var":"a"},"red"]}'),
        [foreign("targeting is an object of 2 members; an operation has one, its operator"), NEVER],
    ),
    (
        colored('{"fractional":[["red","5"]]}'),
        [weighed('targeting.fractional[0][1] is "5", a text: write the number alone, without quotes or sign; weights are whole numbers from 0 to 2147483647')],
    ),
    # Both branches of a test that is no literal; of a literal test the one that it takes.
    (colored('{"if":[{"var":"a"},"red","blu"]}'), [foreign('targeting.if[2] is "blu"')]),
    (colored('{"if":[{"==":[1,1]},"red","blu"]}'), [foreign('targeting.if[2] is "blu"')]),
    (colored('{"if":[true,"blu","red"]}'), [foreign('targeting.if[1] is "blu"'), NEVER]),
    (colored('{"if":[false,"red","blu"]}'), [foreign('targeting.if[2] is "blu"'), NEVER]),
    (colored('{"if":[false,"red"]}'), [NEVER]),
    (colored('{"if":[[],"red",{"var":"a"},"blu","blue"]}'), [foreign('targeting.if[3] is "blu"')]),
    (colored('{"if":[0,"nope",{"var":"a"},"blu","blue"]}'), [foreign('targeting.if[3] is "blu"')]),
    (colored('{"if":[{"var":"a"},"blu","x","red","nope"]}'), [foreign('targeting.if[1] is "blu"')]),
    (colored('{"if":[{"var":"a"},{"if":[true,"red","nope"]},"blu"]}'), [foreign('targeting.if[2] is "blu"')]),
    (colored('{"if":[false,"nope",{"if":[1,{"if":[null,"nope","blu"]},"nope"]}]}'), [foreign('targeting.if[2].if[1].if[2] is "blu"'), NEVER]),
    # `or` results in its first argument that counts as true and `and` in its first that counts as false, else in the last.
    (colored('{"or":["blu","red"]}'), [foreign('targeting.or[0] is "blu"'), NEVER]),
    (colored('{"or":[[0],"red"]}'), [foreign("targeting.or[0] is not a name"), NEVER]),
    (colored('{"or":["",0,""]}'), [foreign('targeting.or[2] is ""'), NEVER]),
    (colored('{"or":["",{"var":"a"},"blu","red"]}'), [foreign('targeting.or[2] is "blu"')]),
    (colored('{"and":["","red"]}'), [foreign('targeting.and[0] is ""'), NEVER]),
    (colored('{"and":["red","blu"]}'), [foreign('targeting.and[1] is "blu"'), NEVER]),
    (colored('{"and":["nope",{"var":"a"},[],"red"]}'), [foreign("targeting.and[2] is not a name")]),
    (colored('{"and":[null,"red"]}'), [NEVER]),
    # A bucket of which the weight is computed, and one without weight.
    (colored('{"fractional":[["red",1],["blu",{"var":"n"}]]}'), [foreign('targeting.fractional[1] is "blu"')]),
    (colored('{"fractional":[["nope",0],["blu",1],["red",0]]}'), [foreign('targeting.fractional[1] is "blu"'), NEVER]),
    # Members that stand more than once in the definition.
    ('{"flags":{"color":{"state":"DISABLED","state":"ENABLED","variants":{"red":1}}}}', [repeated("state")]),
    (r'{"flags":{"color":{"state":"DISABLED","st\u0061te":"ENABLED","variants":{"red":1}}}}', [repeated("state")]),
    (colored("{}", ',"targeting":{}'), [repeated("targeting")]),
    ('{"flags":{"color":{"state":"ENABLED","variants":{"red":1,"blue":2,"red":3}}}}', [repeated("variants.red")]),
    ('{"flags":{"color":{"state":"ENABLED","variants":{"a b":1,"a b":2}}}}', [repeated('variants["a b"]')]),
    ('{"flags":{"color":{"state":"ENABLED","variants":{"red":{"x":[1,{"y":1,"y":2}]}}}}}', [repeated("variants.red.x[1].y")]),
    (colored('{"if":[{"==":[{"var":"a"},1],"==":[{"var":"a"},2]},"red","blue"]}'), [repeated('targeting.if[0]["=="]')]),
    (
        '{"flags":{"color":{},"color":{"state":"ENABLED","state":"ENABLED","variants":{"red":1},"x":0}}}',
        ["stands more than once, and its last definition counts (Doubled)", repeated("state"), 'has a member that is not read: "x" (Unread)'],
    ),
]

# Operations that always give `true` or `false`, those that always give a number or a list, and the others.
TESTS = [
    '{"!":[1]}', '{"!!":[1]}', '{"==":[1,1]}', '{"===":[1,1]}', '{"!=":[1,1]}', '{"!==":[1,1]}', '{"<":[1,2]}', '{"<=":[1,2]}', '{">":[1,2]}',
    '{">=":[1,2]}', '{"all":[[],true]}', '{"none":[[],true]}', '{"some":[[],true]}', '{"in":["a","b"]}', '{"starts_with":["a","b"]}',
    '{"ends_with":["a","b"]}', '{"sem_ver":["1.0.0","=","1.0.0"]}',
]
NUMBERS_AND_LISTS = [
    '{"+":[1]}', '{"-":[1]}', '{"*":[1]}', '{"%":[1,1]}', '{"max":[1]}', '{"min":[1]}', '{"missing":["a"]}', '{"missing_some":[1,["a"]]}',
    '{"map":[[],1]}', '{"filter":[[],1]}', '{"merge":[1]}',
]
COMPUTED = ['{"var":"a"}', '{"reduce":[[],1]}', '{"cat":["r"]}', '{"substr":["r",0]}']

# Documents of which nothing is doubted.
PLAIN = [
    GOOD,
    colored("{}"),
    colored('{"fractional":[["red",2147483647],["blue",0]]}'),
    colored('{"if":[{"var":"a"},"red",null]}'),
    colored('{"var":"name"}'),
    colored('{"fractional":[[{"var":"name"},1]]}'),
    '{"$schema":"s","metadata":{},"$evaluators":{},"flags":{"color":{"state":"ENABLED","variants":{"red":1},"metadata":{}}}}',
    # The names are those that the escapes stand for, and of members of one name the last counts.
    r'{"flags":{"color":{"st\u0061te":"ENABLED","variants":{"red":1}}}}',
    # What weights that are computed sum to, only an evaluation tells.
    colored('{"fractional":[["red",0],["blue",{"var":"n"}]]}'),
    colored('{"fractional":[["red",2147483647],["blue",{"var":"n"}]]}'),
    # What is no result: the other branch of a literal test, an argument that another one goes before, a bucket without weight.
    *[colored('{"if":[%s,"red","nope"]}' % test) for test in ["true", "1", "-1", '"a"', '"0"', "[0]", '[{"var":"a"}]', "{}"]],
    *[colored('{"if":[%s,"nope","red"]}' % test) for test in ["false", "0", "null", '""', "[]"]],
    colored('{"if":[{"var":"a"},"red",true,"blue","nope"]}'),
    colored('{"if":[{"var":"a"},{"if":[false,"nope","red"]},"blue"]}'),
    colored('{"or":["","red"]}'),
    colored('{"or":[null,false,0,"",[],"red"]}'),
    colored('{"or":["red","nope"]}'),
    colored('{"or":[{"var":"a"},0,"red",7]}'),
    colored('{"and":["nope","red"]}'),
    colored('{"and":[true,1,"a",[0],{},"red"]}'),
    colored('{"and":[{"var":"a"},7,null,"nope"]}'),
    colored('{"if":[{"var":"a"},"red",{"and":[null,"nope"]}]}'),
    colored('{"fractional":[["red",1],["nope",0]]}'),
    colored('{"fractional":[["nope",0],["red",{"var":"n"}]]}'),
    # The same names in other objects.
    '{"flags":{"color":{"state":"ENABLED","variants":{"state":1,"color":2},"defaultVariant":"state"},"state":{"state":"DISABLED","variants":{"state":1}}},"$evaluators":{"color":{"var":"flags"}}}',
]

UNREAD = '{"evaluators":{},"flags":{}}'

# Documents in which a member stands more than once beside the definitions of flags, with its place.
REPEATED = [
    ('{"flags":{"a":{"colour":1},"a":{}},"flags":{}}', "flags"),
    ('{"$evaluators":{"v":{"var":"a"}},"flags":{},"$evaluators":{}}', "$evaluators"),
    ('{"$evaluators":{"v":{"var":"a"},"w":1,"v":{"var":"b"}},"flags":{}}', "$evaluators.v"),
    ('{"$evaluators":{"is new":{"==":[{"var":"a","var":"b"},1]}},"flags":{}}', '$evaluators["is new"]["=="][0].var'),
    ('{"metadata":{"x":1,"x":2},"flags":{}}', "metadata.x"),
]


class Documents(ProgramTest):
    def test_checks(self):
        for document, status, report in CHECKS:
            with self.subTest(document=document):
                # A broken flag is told of, though the document is read.
                ran = run(["check", "d"], {"d": document})
                self.assertEqual((ran.status, ran.out), (status, report))
                self.assertEqual(broken_lines(ran.err) == "", "broken" not in report)
                self.assertEqual(ran.err.startswith("error: "), status == 1)

    def test_several_documents(self):
        files = {"one": GOOD, "two": BROKEN, 'th"ree': '{"flags":{}}'}
        ran = run(["check", "one", "two", 'th"ree'], files)
        self.assertEqual(ran.out, 'document "one"\n"a" good\n"b" good\ndocument "two"\n"k" good\n"z" broken\ndocument "th\\"ree"\n')
        self.assertEqual(ran.err, 'note: "two" has broken flags:\nbroken: flags.z.state is "on", neither "ENABLED" nor "DISABLED" (State)\n')
        self.assertEqual((ran.status, ran.files), (0, files))
        self.assertEqual(run(["check", "--strict", "two", "one"], files).status, 1)
        self.assertEqual(run(["check", "--strict", "one", "two"], files).status, 1)
        self.assertEqual(run(["check", "--strict", "one", "one"], files), run(["check", "one", "one"], files))

    def test_a_refused_document_refuses_all(self):
        files = {"one": GOOD, "two": "[]", "three": "{"}
        for words, refused in [
            (["one", "two", "three"], "refused read_flags 2 NoFlags\n"),
            (["three", "two"], "refused read_flags 1 NotJson\n"),
            (["one", "none", "two"], "refused load 1 Unreadable\n"),
        ]:
            with self.subTest(words=words):
                self.assert_ends(["check", *words], files, 1, refused)
                self.assert_ends(["check", "--json", "--strict", *words], files, 1, refused)

    def test_doubts(self):
        for document, doubts in DOUBTS:
            with self.subTest(document=document):
                ran = run(["check", "d"], {"d": document})
                self.assertEqual((ran.status, ran.out), (0, '"color" good\n'))
                self.assertEqual(ran.err, "".join(f'note: "d": flag "color" {doubt}\n' for doubt in doubts))
                self.assertEqual(run(["check", "d", "--strict"], {"d": document}), ran._replace(status=1))
                lists = '{"broken":[],"document":"d","doubted":["color"],"good":["color"]}\n'
                self.assertEqual(run(["check", "d", "--json"], {"d": document}), ran._replace(out=lists))

    def test_nothing_is_doubted(self):
        for document in PLAIN:
            with self.subTest(document=document):
                ran = run(["check", "--strict", "d"], {"d": document})
                self.assertEqual((ran.status, ran.err), (0, ""))

    def test_results_of_operations(self):
        """A test names the variants `true` and `false`, where there is one of them; a number and a list name none."""
        truth = '{"flags":{"color":{"state":"ENABLED","variants":{"%s":1,"off":2},"defaultVariant":"off","targeting":%s}}}'
        for targetings, doubts, others in [
            (TESTS, [foreign("targeting is true or false"), NEVER], []),
            (NUMBERS_AND_LISTS, [foreign("targeting is not a name"), NEVER], [foreign("targeting is not a name"), NEVER]),
            (COMPUTED, [], []),
        ]:
            for targeting in targetings:
                with self.subTest(targeting=targeting):
                    told = "".join(f'note: "d": flag "color" {doubt}\n' for doubt in doubts)
                    self.assertEqual(run(["check", "d"], {"d": colored(targeting)}).err, told)
                    told = "".join(f'note: "d": flag "color" {doubt}\n' for doubt in others)
                    for name in ["true", "false"]:
                        self.assertEqual(run(["check", "d"], {"d": truth % (name, targeting)}).err, told)

    def test_a_member_of_a_document_that_stands_twice(self):
        for document, place in REPEATED:
            with self.subTest(document=document):
                ran = run(["check", "d"], {"d": document})
                self.assertEqual((ran.status, ran.out, ran.err), (0, "", f'note: "d" {repeated(place)}\n'))
                self.assertEqual(run(["check", "--strict", "d"], {"d": document}), ran._replace(status=1))
                lists = '{"broken":[],"document":"d","doubted":[],"good":[]}\n'
                self.assertEqual(run(["check", "--json", "d"], {"d": document}), ran._replace(out=lists))

    def test_a_member_of_a_document_that_is_not_read(self):
        told = 'note: "d" has a member that is not read:\n  "evaluators"; perhaps "$evaluators" is meant\n'
        for words, status, out in [
            (["check", "d"], 0, ""),
            (["check", "--strict", "d"], 1, ""),
            (["check", "--json", "d"], 0, '{"broken":[],"document":"d","doubted":[],"good":[]}\n'),
        ]:
            with self.subTest(words=words):
                ran = run(words, {"d": UNREAD})
                self.assertEqual((ran.status, ran.out, ran.err), (status, out, told))

    def test_lists(self):
        ran = run(["check", "--json", "two", "one"], {"one": GOOD, "two": BROKEN})
        two = '{"broken":["z"],"document":"two","doubted":[],"good":["k"]}\n'
        self.assertEqual((ran.status, ran.out), (0, two + '{"broken":[],"document":"one","doubted":[],"good":["a","b"]}\n'))
        broken = '{"flags":{"a":{"state":"on","x":1},"b":{}}}'
        self.assertEqual(run(["check", "--json", "d"], {"d": broken}).out, '{"broken":["a","b"],"document":"d","doubted":["a"],"good":[]}\n')

    def test_the_words_of_check(self):
        self.assert_mistake(["check"], {}, "DOC")
        self.assert_mistake(["check", "--strictly", "d"], {"d": GOOD}, "--strict")
        self.assertEqual(run(["help", "check"], {}), run(["check", "--help"], {}))

    def test_resolves(self):
        for document, moment, rows in [(DOCUMENT, "0", RESOLUTIONS), (MORE, "9007199254740991", MORE_RESOLUTIONS)]:
            for key, kind, context, report in rows:
                with self.subTest(key=key, kind=kind, context=context):
                    words = ["resolve", "d", key, kind, DEFAULTS[kind], "c", moment]
                    self.assert_ends(words, {"d": document, "c": context}, 0, report)

    def test_refusals(self):
        for default, context, report in REFUSALS:
            with self.subTest(default=default, context=context):
                words = ["resolve", "d", "color", "text", default, "c", "0"]
                self.assert_ends(words, {"d": DOCUMENT, "c": context}, 1, report)

    def test_the_words_of_resolve(self):
        for kind, moment, status in WORDS:
            with self.subTest(kind=kind, moment=moment):
                ran = run(["resolve", "d", "nope", kind, "0", "c", moment], {"d": DOCUMENT, "c": "{}"})
                self.assertEqual((ran.status, ran.out == ""), (status, status == 2))
                self.assertEqual(ran.err.startswith('note: "d" has no flag "nope"'), status == 0)


if __name__ == "__main__":
    unittest.main()
