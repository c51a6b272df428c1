"""The command `price`."""
import json
import unittest

from program import ProgramTest, run

OLD = '[["red",5],["blue",5]]'
RED_3 = '[["red",3],["blue",7]]'
FREE = '{"plan":1,"flag":"color","totals":{"red":3,"blue":7}}'

# On the points 0, 1, 4, 4, 6, 7 and 7 of 10; the last key stands there twice and counts once.
KEYS = '["","The quick brown fox jumps over the lazy dog","!","!Ce","!C","test","Hello, world!","test"]'

# The new rule, a request, the keys, the status and what is printed.
PRICES = [
    (RED_3, FREE, KEYS, 0, 'total "blue" 7\ntotal "red" 3\nforbidden none\ncost 2\n'),
    (
        RED_3,
        '{"plan":1,"flag":"f","totals":{},"forbid":[["red","blue"]]}',
        KEYS,
        0,
        'total "blue" 7\ntotal "red" 3\nforbidden 3\ncost 2\n',
    ),
    (
        '[["red",3],["a",0],["blue",6],["red",1]]',
        '{"plan":1,"flag":"f","totals":{},"price":0,"prices":[["red","blue",20]]}',
        KEYS,
        0,
        'total "a" 0\ntotal "blue" 6\ntotal "red" 4\nforbidden none\ncost 40\n',
    ),
    ('[["red",3],["blue",6]]', FREE, KEYS, 1, "refused price 1 Weight\n"),
    (RED_3, FREE, '["a",1]', 1, "refused price 2 BadKeys\n"),
    (RED_3, FREE, "{}", 1, "refused price 2 BadKeys\n"),
    (
        RED_3,
        '{"plan":1,"flag":"f","totals":{},"price":1000001}',
        KEYS,
        1,
        "refused Request::read 4 PriceRange\n",
    ),
    (RED_3, "[", KEYS, 1, "refused Request::read 1 BadRequest\n"),
    ("[]", "[", KEYS, 1, "refused read_rule 1 NoWeight\n"),
    (OLD, '{"plan":1,"flag":"f","totals":{}}', '["' + "k" * 1025 + '"]', 1, "refused note 2 InputTooLong\n"),
]

# A request, the least forbidden point and the cost of the change to red 3, blue 7.
REQUESTS = [
    ('{"plan":1,"flag":"color","totals":{}}', "none", 2),
    ('{"plan":1,"flag":"color","totals":{},"price":1000000}', "none", 2_000_000),
    ('{"plan":1,"flag":"color","totals":{},"price":0,"prices":[["red","blue",7]]}', "none", 14),
    ('{"plan":1,"flag":"color","totals":{},"prices":[["blue","red",7]]}', "none", 2),
    ('{"plan":1,"flag":"color","totals":{},"forbid":[["blue","red"]]}', "none", 2),
    ('{"plan":1,"flag":"color","totals":{},"forbid":[["red","blue"],["a","b"]]}', "3", 2),
    ('{"plan":1,"flag":"f","totals":{"a":2147483647}}', "none", 2),
    ('{"plan":2,"flag":"f","totals":{"a":[0,5],"b":7}}', "none", 2),
    ('{"plan":3,"plan":1,"flag":"f","totals":{}}', "none", 2),
]

# Texts that are no request, or one with a price or a range that none may have: the first fault in its order.
REFUSED_REQUESTS = [
    ('{"plan":1,"flag":"f","totals":{}', "1 BadRequest"),
    ("[]", "1 BadRequest"),
    ('{"plan":3,"flag":"f","totals":{}}', "1 BadRequest"),
    ('{"flag":"f","totals":{}}', "1 BadRequest"),
    ('{"plan":1,"flag":7,"totals":{}}', "1 BadRequest"),
    ('{"plan":1,"flag":"f"}', "1 BadRequest"),
    ('{"plan":1,"flag":"f","totals":{"a":2147483648}}', "1 BadRequest"),
    ('{"plan":1,"flag":"f","totals":{"a":[0,5]}}', "1 BadRequest"),
    ('{"plan":2,"flag":"f","totals":{"a":[0,5,6]}}', "1 BadRequest"),
    ('{"plan":1,"flag":"f","totals":{},"site":null}', "1 BadRequest"),
    ('{"plan":1,"flag":"f","totals":{},"site":4294967296}', "1 BadRequest"),
    ('{"plan":1,"flag":"f","totals":{},"price":1.5}', "1 BadRequest"),
    ('{"plan":1,"flag":"f","totals":{},"prices":[["a","b"]]}', "1 BadRequest"),
    ('{"plan":1,"flag":"f","totals":{},"forbid":[["a","b"],["c","c"],["a","b"]]}', "1 BadRequest"),
    ('{"plan":1,"flag":"f","totals":{},"prices":[["a","b",1],["b","a",1],["a","b",1]]}', "1 BadRequest"),
    ('{"plan":1,"flag":"f","totals":{},"price":-1,"prices":[["a","a",1]]}', "3 SelfPair"),
    ('{"plan":1,"flag":"f","totals":{},"forbid":[["a","a"]]}', "3 SelfPair"),
    ('{"plan":1,"flag":"f","totals":{},"price":1000001}', "4 PriceRange"),
    ('{"plan":2,"flag":"f","totals":{"a":[4,3]},"prices":[["a","b",-1]]}', "4 PriceRange"),
    ('{"plan":2,"flag":"f","totals":{"a":[4,3]}}', "5 EmptyRange"),
]

# A rule and its totals.
TOTALS = [
    ('[["red",50],["blue",50]]', 'total "blue" 50\ntotal "red" 50\n'),
    ('[["on"]]', 'total "on" 1\n'),
    ('[["a",0],["a",2147483647]]', 'total "a" 2147483647\n'),
    ('[["a",0],["b",3],["c",0],["d",2]]', 'total "a" 0\ntotal "b" 3\ntotal "c" 0\ntotal "d" 2\n'),
    ('[["red",2],["blue",2],["red",1],["blue",5]]', 'total "blue" 7\ntotal "red" 3\n'),
]

# How many of the keys lie on each point of 10.
COUNTS = [1, 1, 0, 0, 2, 0, 1, 2, 0, 0]


def members_of(lines):
    """What the lines of an answer say."""
    *totals, forbidden, cost = [line.split(" ", 1)[1] for line in lines.splitlines()]
    named = [line.rsplit(" ", 1) for line in totals]
    return {
        "cost": int(cost),
        "forbidden": None if forbidden == "none" else int(forbidden),
        "totals": {json.loads(name): int(total) for name, total in named},
    }


class Price(ProgramTest):
    def assert_priced(self, old, new, request, report):
        """The keys are priced so."""
        files = {"old": old, "new": new, "request": request, "keys": KEYS}
        self.assert_ends(["price", "old", "new", "request", "keys"], files, int(report.startswith("refused")), report)

    def test_requests(self):
        for request, point, cost in REQUESTS:
            with self.subTest(request=request):
                report = f'total "blue" 7\ntotal "red" 3\nforbidden {point}\ncost {cost}\n'
                self.assert_priced(OLD, RED_3, request, report)

    def test_requests_that_are_refused(self):
        for request, fault in REFUSED_REQUESTS:
            with self.subTest(request=request):
                self.assert_priced(OLD, RED_3, request, f"refused Request::read {fault}\n")

    def test_a_member_of_a_request_that_is_not_read_is_told(self):
        """What is printed is as without it; a refusal is told alone. So it is of a name that stands more than once."""
        words = ["price", "old", "new", "request", "keys"]
        files = {"old": OLD, "new": RED_3, "request": FREE, "keys": KEYS}
        for member, told in [
            (',"forbidden":[["red","blue"]]', 'has a member that is not read:\n  "forbidden"; perhaps "forbid" is meant\n'),
            (',"flag":"color"', "has a member that stands more than once, and the last counts: flag\n"),
        ]:
            unread = {**files, "request": FREE[:-1] + member + "}"}
            for more in ([], ["--json"]):
                ran = run([*words, *more], unread)
                self.assertEqual((ran.status, ran.out, ran.err), (0, run([*words, *more], files).out, f'note: "request" {told}'))
            refused = self.assert_ends(words, {**unread, "keys": "{}"}, 1, "refused price 2 BadKeys\n")
            self.assertNotIn("note", refused.err)

    def test_totals_of_a_rule_that_stays(self):
        for rule, totals in TOTALS:
            with self.subTest(rule=rule):
                self.assert_priced(rule, rule, FREE, f"{totals}forbidden none\ncost 0\n")

    def test_one_point_changes(self):
        for point, count in enumerate(COUNTS):
            with self.subTest(point=point):
                new = f'[["red",{point}],["blue",1],["red",{9 - point}]]'
                report = f'total "blue" 1\ntotal "red" 9\nforbidden none\ncost {count}\n'
                self.assert_priced('[["red",10]]', new, FREE, report)

    def test_one_price_for_all_changes(self):
        """The last site is as good as any, and a member that is not named is passed over."""
        request = '{"plan":2,"flag":"color","site":4294967295,"totals":{},"price":3,"x":0}'
        self.assert_priced(OLD, OLD, request, 'total "blue" 5\ntotal "red" 5\nforbidden none\ncost 0\n')
        self.assert_priced(OLD, '[["red",10]]', request, 'total "red" 10\nforbidden none\ncost 9\n')

    def test_prices(self):
        for new, request, keys, status, report in PRICES:
            with self.subTest(new=new, request=request, keys=keys):
                files = {"old": OLD, "new": new, "request": request, "keys": keys}
                self.assert_ends(["price", "old", "new", "request", "keys"], files, status, report)

    def test_json(self):
        """The members say what the lines say; a refusal stays a line."""
        for new, request, keys, status, report in PRICES:
            with self.subTest(new=new, request=request, keys=keys):
                words = ["price", "old", "new", "request", "keys", "--json"]
                files = {"old": OLD, "new": new, "request": request, "keys": keys}
                if status == 0:
                    self.assert_json(words, files, members_of(report))
                else:
                    self.assert_ends(words, files, status, report)

    def test_json_of_names_that_are_escaped(self):
        rule = r'[["\"",2],["é",1],["\u0001/",0],["",3]]'
        words = ["price", "rule", "rule", "request", "keys", "--json"]
        files = {"rule": rule, "request": FREE, "keys": KEYS}
        self.assert_json(words, files, {"cost": 0, "forbidden": None, "totals": {'"': 2, "é": 1, "\1/": 0, "": 3}})


if __name__ == "__main__":
    unittest.main()
