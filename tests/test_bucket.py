"""The command `bucket`: a rule file that is read, or its first fault."""
import json
import resource
import unittest

from program import ProgramTest, run

HALVES = '[["red",50],["blue",50]]'

# A key, and the hash that is published for it; the last three are made to have the largest hash, and those between which the
# point of 10 changes from 0 to 1.
HASHES = [
    ("", "00000000"),
    ("test", "ba6bd213"),
    ("Hello, world!", "c0363e43"),
    ("The quick brown fox jumps over the lazy dog", "2e4ff723"),
    ("!", "72661cf4"),
    ("!C", "a0f7b07a"),
    ("!Ce", "7e4a8634"),
    ("aaeqfSWP", "ffffffff"),
    ("aabsM92S", "19999999"),
    ("aaaez0Te", "1999999a"),
]

# A total, a key and its point.
POINTS = [
    (10, "aaeqfSWP", 9),
    (2147483647, "aaeqfSWP", 2147483646),
    (10, "aabsM92S", 0),
    (10, "aaaez0Te", 1),
    (1, "aaeqfSWP", 0),
    (10, "", 0),
    (10, "The quick brown fox jumps over the lazy dog", 1),
    (10, "!", 4),
    (10, "!Ce", 4),
    (10, "!C", 6),
    (10, "test", 7),
    (10, "Hello, world!", 7),
    (100, "test", 72),
    (1, "test", 0),
]

# Keys on the points 0 to 4 of 5, and the variants there.
WITHOUT_WEIGHT = '[["a",0],["b",3],["c",0],["d",2]]'
FIVE = [("", 0, "b"), ("a", 1, "b"), ("!", 2, "b"), ("!C", 3, "d"), ("c", 4, "d")]

# A rule file, a key, the status and what is printed.
RULES = [
    (HALVES, "test", 0, 'hash ba6bd213\npoint 72\nvariant "blue"\n'),
    ('[["on"]]', "test", 0, 'hash ba6bd213\npoint 0\nvariant "on"\n'),
    ('[["on"]]', "", 0, 'hash 00000000\npoint 0\nvariant "on"\n'),
    (r'[["a\"b\n",0],["\u00e9\\",1]]', "!", 0, 'hash 72661cf4\npoint 0\nvariant "é\\\\"\n'),
    ('[["a",0],["a",2147483647]]', "test", 0, 'hash ba6bd213\npoint 1563814152\nvariant "a"\n'),
    ("[]", "test", 1, "refused read_rule 1 NoWeight\n"),
    ('[["a",0]]', "test", 1, "refused read_rule 1 NoWeight\n"),
    ('[["a",2147483647],["b",1]]', "test", 1, "refused read_rule 2 TooHeavy\n"),
    ('[["a"],"b"]', "test", 1, "refused read_rule 3 BadRule\n"),
    ('[["a",0],[]]', "test", 1, "refused read_rule 3 BadRule\n"),
    ('[["a",2147483647],["b",1],null]', "test", 1, "refused read_rule 3 BadRule\n"),
    ('[["a",2147483648]]', "test", 1, "refused read_rule 3 BadRule\n"),
    ('[["a",-1]]', "test", 1, "refused read_rule 3 BadRule\n"),
    ('[["a","1"]]', "test", 1, "refused read_rule 3 BadRule\n"),
    ('[["a",1,1]]', "test", 1, "refused read_rule 3 BadRule\n"),
    ("[[1,1]]", "test", 1, "refused read_rule 3 BadRule\n"),
    ('{"a":1}', "test", 1, "refused read_rule 3 BadRule\n"),
    ("{}", "test", 1, "refused read_rule 3 BadRule\n"),
    ('[["a",', "test", 1, "refused read_tree 1 NotJson\n"),
    ("", "test", 1, "refused read_tree 1 NotJson\n"),
    ('[["a",1.5]]', "test", 1, "refused read_tree 2 NotWhole\n"),
    ("[" * 121 + "]" * 121, "test", 1, "refused read_tree 4 TooDeep\n"),
]

# A file that is no rule, and its refusal. The last member of a name counts alone; a text is refused as no JSON first, then as
# too deep, then for a number.
DEEP = "[" * 120 + "]" * 120
NOT_JSON, NOT_WHOLE, TOO_DEEP, BAD = "read_tree 1 NotJson", "read_tree 2 NotWhole", "read_tree 4 TooDeep", "read_rule 3 BadRule"
REFUSED = [
    ("[" * 127 + "]" * 127, TOO_DEEP),
    ("[" * 128 + "]" * 128, NOT_JSON),
    (DEEP, BAD),
    (f"[{DEEP}]", TOO_DEEP),
    (f"[1.5,{DEEP}]", TOO_DEEP),
    (f'{{"a":{DEEP}}}', TOO_DEEP),
    (f'{{"a":{DEEP},"a":1}}', BAD),
    (f'{{"a":1,"a":{DEEP}}}', TOO_DEEP),
    (f'{{"a":{DEEP},"b":1}}', TOO_DEEP),
    (f'{{"a":{DEEP},"a":-0}}', NOT_WHOLE),
    (f'[["a",1],{{"b":{{"c":{DEEP[1:-1]}}}}}]', TOO_DEEP),
    ('{"a":1.5,"a":1}', BAD),
    ('{"a":1,"a":1.5}', NOT_WHOLE),
    ('{"a":1.5,"b":1}', NOT_WHOLE),
    (r'{"a":1.5,"b":2,"\u0061":1}', BAD),
    ('{"a":{"b":1.5},"a":{"c":1}}', BAD),
    ('{"a":{"b":1.5,"b":1}}', BAD),
    ('[{"a":1.5,"a":1},{"b":0.5}]', NOT_WHOLE),
    ('{"a":1e400,"a":1}', NOT_JSON),
    ('[["a",1e400]]', NOT_JSON),
    ('[["a",1.0]]', NOT_WHOLE),
    ('[["a",1e2]]', NOT_WHOLE),
    ('[["a",-0]]', NOT_WHOLE),
    ('[["a",9007199254740992]]', NOT_WHOLE),
    ('[["a",-9007199254740992]]', NOT_WHOLE),
    ('[["a",9007199254740991]]', BAD),
    ('[["a",-9007199254740991]]', BAD),
    ("1.5", NOT_WHOLE),
    ("5", BAD),
    ("null", BAD),
    ("true", BAD),
    ('"a"', BAD),
    ('[["a"],["b",1],[]]', BAD),
    ('[["a",1,"b"]]', BAD),
    ('[["a",["b"]]]', BAD),
    ('[["a",1],{"b":[["c",1]]}]', BAD),
    ('["a",1]', BAD),
    ("[[]]", BAD),
    ("[[[]]]", BAD),
    ('[["a",1]}', NOT_JSON),
    ('[["a",1]', NOT_JSON),
    ('[["a",1]] 1', NOT_JSON),
    ('[["a",1],]', NOT_JSON),
    ('[["a" 1]]', NOT_JSON),
    ('[["a",01]]', NOT_JSON),
    ('[["a",1.5],', NOT_JSON),
    ('{"a":1.5', NOT_JSON),
    ('{"a":1.5,1}', NOT_JSON),
]

# A piece that is repeated to some 60 MB between a beginning and an end, and what the file is refused for.
LARGE = [
    ("[", "[],", "[]]", BAD),
    ("[", "1,", "1]", BAD),
    ("[", "1,", "1.5]", NOT_WHOLE),
    ("[", "{},", "{}", NOT_JSON),
    ('{"a":[', '{"name":[1,{"b":null}]},', "2]}", BAD),
]
MOST = 500_000_000

# One that is nearly all buckets takes more than that: its entries are kept until the item that is none (docs/CHECKS.md).
NEARLY_A_RULE = ("[", '["a",1],', "1]", BAD)
MOST_OF_ENTRIES = 1_000_000_000


def memory_of_entries():
    """No more than this many bytes of addresses."""
    resource.setrlimit(resource.RLIMIT_AS, (MOST_OF_ENTRIES, MOST_OF_ENTRIES))


def least_memory():
    """No more than this many bytes of addresses."""
    resource.setrlimit(resource.RLIMIT_AS, (MOST, MOST))


def members_of(lines):
    """What the three lines of an answer say."""
    said = dict(line.split(" ", 1) for line in lines.splitlines())
    return {"hash": said["hash"], "point": int(said["point"]), "variant": json.loads(said["variant"])}


class Bucket(ProgramTest):
    def test_rules(self):
        for rule, key, status, report in RULES:
            with self.subTest(rule=rule, key=key):
                self.assert_ends(["bucket", "f", key], {"f": rule}, status, report)

    def test_refusals(self):
        for text, refusal in REFUSED:
            with self.subTest(text=text):
                self.assert_ends(["bucket", "f", "test"], {"f": text}, 1, f"refused {refusal}\n")

    def test_a_large_file_is_refused_without_a_tree(self):
        limits = [(row, least_memory) for row in LARGE] + [(NEARLY_A_RULE, memory_of_entries)]
        for (begin, piece, end, refusal), limit in limits:
            with self.subTest(piece=piece):
                text = begin + piece * (60_000_000 // len(piece)) + end
                ran = run(["bucket", "f", "test"], {"f": text}, preexec_fn=limit)
                self.assertEqual((ran.status, ran.out), (1, f"refused {refusal}\n"))
                self.assertIn("error: ", ran.err)

    def test_names_by_the_million(self):
        """The members of an object are told apart, of which the last counts."""
        members = ",".join(f'"{n:06x}":-0' for n in range(1_000_000))
        again = ",".join(f'"{n:06x}":1' for n in range(1_000_000))
        for text, refusal in ((f"{{{members}}}", NOT_WHOLE), (f"{{{members},{again}}}", BAD)):
            with self.subTest(refusal=refusal):
                ran = run(["bucket", "f", "test"], {"f": text}, preexec_fn=least_memory)
                self.assertEqual((ran.status, ran.out), (1, f"refused {refusal}\n"))

    def test_hashes(self):
        for key, digits in HASHES:
            with self.subTest(key=key):
                report = f'hash {digits}\npoint 0\nvariant "on"\n'
                self.assert_ends(["bucket", "f", key], {"f": '[["on"]]'}, 0, report)

    def test_json(self):
        """The members say what the lines say; a refusal stays a line."""
        for rule, key, status, report in RULES:
            with self.subTest(rule=rule, key=key):
                words, files = ["bucket", "--json", "f", key], {"f": rule}
                if status == 0:
                    self.assert_json(words, files, members_of(report))
                else:
                    self.assert_ends(words, files, status, report)

    def test_points(self):
        for total, key, point in POINTS:
            with self.subTest(total=total, key=key):
                ran = run(["bucket", "f", key], {"f": f'[["a",{total}]]'})
                self.assertEqual((ran.status, ran.out.splitlines()[1]), (0, f"point {point}"))

    def test_buckets_without_weight_have_no_point(self):
        for key, point, variant in FIVE:
            with self.subTest(key=key):
                ran = run(["bucket", "f", key], {"f": WITHOUT_WEIGHT})
                self.assertEqual((ran.status, ran.out.splitlines()[1:]), (0, [f"point {point}", f'variant "{variant}"']))

    def test_a_file_that_is_not_there(self):
        self.assert_ends(["bucket", "g", "test"], {"f": HALVES}, 1, "refused load 1 Unreadable\n")

    def test_a_file_is_read_up_to_its_limit(self):
        limit = 67_108_864
        largest = HALVES + " " * (limit - len(HALVES))
        self.assert_ends(["bucket", "f", "test"], {"f": largest}, 0, RULES[0][3])
        self.assert_ends(["bucket", "f", "test"], {"f": largest + " "}, 1, "refused read_tree 3 TooLarge\n")


if __name__ == "__main__":
    unittest.main()
