"""The scripts of `tools/`: flagd beside `drive`, over a small OFREP server of these tests, and the checker of plans."""
import http.server
import json
import os
import random
import subprocess
import sys
import tempfile
import threading
import unittest

from given import (
    BOOK,
    FINER,
    FINER_PLAN,
    FIVES,
    FREE,
    GROUPS,
    RED_3,
    UNMET,
    UNMET_RANGES,
    document,
    forbid,
    none_of,
    none_under,
    plan_of,
    request,
)
from program import PROGRAM, ROOT, SECONDS, run, text_of
from test_planner import Problem

# The flags of the comparison, and what is asked: a flag for each way to answer.
FLAGS = {
    "off": {"state": "DISABLED", "variants": {"on": True}, "defaultVariant": "on"},
    "open": {"state": "ENABLED", "variants": {"on": True}},
    "plain": {"state": "ENABLED", "variants": {"one": 1, "two": 2}, "defaultVariant": "one"},
    "of parts/é": {"state": "ENABLED", "variants": {"a": {"x": [1, True]}}, "defaultVariant": "a"},
}
DOCUMENT = json.dumps({"flags": FLAGS})

# A key, the kind that is wanted, the default, and flagd's status and reply: they agree.
AGREEING = [
    ("plain", "whole", 9, 200, {"value": 1, "variant": "one", "reason": "STATIC"}),
    ("plain", "whole", 9, 200, {"value": 1.0, "variant": "one", "reason": "STATIC"}),
    ("plain", "text", "d", 200, {"value": 1, "variant": "one", "reason": "STATIC"}),
    ("of parts/é", "object", {}, 200, {"value": {"x": [1, True]}, "variant": "a", "reason": "STATIC"}),
    ("off", "bool", False, 404, {"errorCode": "FLAG_NOT_FOUND"}),
    ("open", "bool", True, 200, {"reason": "DEFAULT"}),
    ("none", "bool", True, 404, {"errorCode": "FLAG_NOT_FOUND"}),
]

# The same, and they differ: in the value, in the variant alone, in the kind, in what an error gives.
DIFFERING = [
    ("plain", "whole", 9, 200, {"value": 2, "variant": "two", "reason": "STATIC"}),
    ("plain", "whole", 9, 200, {"value": 1, "variant": "two", "reason": "STATIC"}),
    ("plain", "whole", 9, 200, {"value": True, "variant": "one", "reason": "STATIC"}),
    ("plain", "whole", 9, 400, {"errorCode": "PARSE_ERROR"}),
    ("of parts/é", "object", {}, 200, {"value": {"x": [1, 1]}, "variant": "a", "reason": "STATIC"}),
    ("open", "bool", True, 200, {"value": False, "variant": "on", "reason": "DEFAULT"}),
]

# Files for the checker beside which `verify` is run: the buckets, a request, a plan and M.
PLANS = [
    (FIVES, RED_3, FREE, []),
    (FIVES, RED_3, FREE, ["1"]),
    (FIVES, RED_3, FREE, ["5"]),
    (FIVES, FINER, FINER_PLAN, []),
    (FIVES, FINER, FINER_PLAN, ["5"]),
    (FIVES, FINER, FINER_PLAN, ["1"]),
    (FIVES, RED_3, plan_of(cost=1), []),
    (FIVES, RED_3, plan_of(rule='[["red",3],["blue",7]]'), []),
    (FIVES, RED_3, plan_of(rule='[["red",2],["blue",2],["red",1],["blue",4],["blue",1]]'), []),
    (FIVES, RED_3, plan_of(rule='[["red",2],["blue",2],["red",1],["pink",5]]'), []),
    (FIVES, RED_3, plan_of(beta='["blue",0],["red",0]'), []),
    (FIVES, RED_3, plan_of(alpha='["red",0,0],["red",1,0],["red",2,0]'), []),
    (FIVES, request('"red":3,"blue":7', forbid(("red", "blue"))), FREE, []),
    (FIVES, request('"red":3,"blue":6'), FREE, []),
    (FIVES, request('"red":3,"blue":6'), none_of("blue", "red"), []),
    (FIVES, request('"red":3,"blue":6,"pink":1', forbid(("red", "pink"), ("blue", "pink"))), none_of("blue", "red"), []),
    (FIVES, RED_3, plan_of(alpha=GROUPS.replace('"blue",0,0', '"blue",0,false')), []),
    (FIVES, RED_3, plan_of(alpha=GROUPS.replace('"blue",0,0', '"blue",0,0.0')), []),
    (FIVES, RED_3, plan_of(alpha=GROUPS + ',["red",9,0]'), []),
    (FIVES, RED_3, plan_of(beta='["blue",0],["green",0],["pink",0],["red",0]'), []),
    (FIVES, RED_3, plan_of(rule='[["red",2],["blue",1],["red",2],["blue",5]]'), []),
    (FIVES, request('"red":3,"blue":7', ',"price":0'), plan_of(rule='[["red",3],["blue",7]]'), []),
    (FIVES, RED_3, plan_of(rule='[["red",2],["green",0],["blue",2],["red",1],["blue",5]]'), []),
    (FIVES, RED_3, plan_of(alpha=GROUPS.replace('"red",0,0', '"red",0,-1')), []),
    (FIVES, UNMET_RANGES, '{"none":["green"],"plan":2}', []),
    ('["red",500001],["blue",500000]', request('"red":1000001', forbid(("blue", "red"))), none_of("blue"), []),
    (FIVES, request('"red":3,"blue":7', ',"site":1'), FREE, []),
    (FIVES, request('"red":3,"blue":7', ',"site":-1'), FREE, []),
    ('["red",500001],["blue",500000]', request('"red":500000,"blue":500001'), FREE, []),
    (FIVES, UNMET, none_of("red"), []),
    (FIVES, UNMET, none_of("blue"), []),
    (FIVES, UNMET, none_of("green", "red"), []),
    (FIVES, UNMET, none_of("pink", "red"), []),
    (FIVES, UNMET, none_of(), []),
    (FIVES, UNMET_RANGES, none_under("green"), []),
    (FIVES, UNMET_RANGES, none_under("blue"), []),
    (FIVES, UNMET_RANGES, none_of("green"), []),
]

# Bucketing expressions, as a document may have them: each character that is escaped, and some that are not; arguments that are
# no list; literals, references, and a bucket without its weight.
BUCKETINGS = [
    None,
    {"var": "k"},
    "".join(map(chr, range(0x20))) + '"\\/\x7fé\u2028😀',
    {"cat": [{"z": {"var": "k"}, "a": {"$ref": "by"}}, {"$ref": "by"}, {"var": ["k", ""]}, {}]},
    {"if": [True, "k", {"fractional": ["q", ["x"], [{"var": "k"}, 2]]}]},
]


# Where OFREP has a flag, and keys that are quoted there.
PATH = "/ofrep/v1/evaluate/flags/"
QUOTED = {"of parts/é": "of%20parts%2F%C3%A9"}


def script(name, words, files):
    """A run of a script of `tools/` over files, by their names: its output and its status."""
    with tempfile.TemporaryDirectory() as folder:
        for place, text in files.items():
            with open(os.path.join(folder, place), "w", encoding="utf-8") as file:
                file.write(text)
        command = [sys.executable, os.path.join(ROOT, "tools", name), *words]
        return subprocess.run(command, cwd=folder, capture_output=True, encoding="utf-8", timeout=SECONDS, check=False)


class Ofrep(http.server.BaseHTTPRequestHandler):
    """Replies to each ask what its context names, where the request is as OFREP has it."""

    protocol_version = "HTTP/1.1"

    def do_POST(self):
        length = int(self.headers["Content-Length"])
        asked = json.loads(self.rfile.read(length))
        context = asked["context"]
        is_right = self.path == context["path"] and self.headers["Content-Type"] == "application/json" and len(asked) == 1
        text = context["reply"].encode()
        self.send_response(context["status"] if is_right else 500)
        self.send_header("Content-Length", str(len(text)))
        self.end_headers()
        self.wfile.write(text)

    def log_message(self, *_):
        pass


class CompareFlagd(unittest.TestCase):
    def setUp(self):
        server = http.server.ThreadingHTTPServer(("127.0.0.1", 0), Ofrep)
        server.daemon_threads = True
        threading.Thread(target=server.serve_forever, daemon=True).start()
        self.addCleanup(server.server_close)
        self.addCleanup(server.shutdown)
        self.url = f"http://127.0.0.1:{server.server_port}"

    def compare(self, rows, *words, url=None):
        """A run over these rows."""
        asks = []
        for key, want, default, status, reply in rows:
            context = {"path": PATH + QUOTED.get(key, key), "status": status, "reply": json.dumps({"key": key, **reply})}
            asks.append({"key": key, "want": want, "default": default, "context": context, "moment": 0})
        words = ["--url", url or self.url, "--program", PROGRAM, *words, "d", "a"]
        return script("compare_flagd.py", words, {"d": DOCUMENT, "a": json.dumps(asks)})

    def assert_told(self, ran, status, last, differing):
        """The run ends so, with this last line, and these asks differ."""
        lines = ran.stdout.splitlines()
        self.assertEqual((ran.returncode, lines[-1:], ran.stderr), (status, [last], ""), ran.stdout)
        self.assertEqual([line for line in lines if line.startswith("  ask ")], [f"  ask {place}" for place in differing])

    def test_answers_that_agree(self):
        ran = self.compare(AGREEING)
        self.assert_told(ran, 0, "7 asks, 0 differ", [])
        self.assertIn('"plain" 3 asks, 0 differ\n', ran.stdout)

    def test_answers_that_differ(self):
        """Each of them, and no other of the same file."""
        for row in DIFFERING:
            with self.subTest(row=row):
                self.assert_told(self.compare([*AGREEING, row]), 1, "8 asks, 1 differ", [7])
        ran = self.compare([DIFFERING[0]])
        shown = '  ask 0\n    flagd   2 "two" "STATIC" null\n    flagops 1 "one" "STATIC" null\n'
        self.assertEqual(ran.stdout, f'"plain" 1 asks, 1 differ\n{shown}1 asks, 1 differ\n')
        self.assert_told(self.compare([DIFFERING[0]] * 5), 1, "5 asks, 5 differ", range(3))
        self.assert_told(self.compare([DIFFERING[0]] * 5, "--show", "5"), 1, "5 asks, 5 differ", range(5))

    def test_reasons(self):
        """They are compared where that is asked for: a disabled flag has another code."""
        self.assert_told(self.compare(AGREEING[:1], "--reasons"), 0, "1 asks, 0 differ", [])
        self.assert_told(self.compare(AGREEING, "--reasons"), 1, "7 asks, 1 differ", [4])

    def test_what_cannot_be_told(self):
        """Nobody listens, flagd fails, its reply is none, the asks are none: nothing counts as agreement."""
        self.assert_failed(self.compare(AGREEING, url="http://127.0.0.1:1"))
        self.assert_failed(self.compare([("plain", "whole", 9, 500, {})]))
        self.assert_failed(self.compare([("plain", "whole", 9, 302, {})]))
        self.assert_failed(self.compare([("plain", "number", 9, 200, {"value": 1})]))
        self.assert_failed(self.compare(AGREEING, url=self.url + "/elsewhere"))
        self.assert_failed(self.compare(AGREEING, url=self.url.removeprefix("http://")))
        self.assert_failed(script("compare_flagd.py", ["--program", PROGRAM, "d", "a"], {"d": DOCUMENT, "a": "["}))

    def assert_failed(self, ran):
        self.assertEqual((ran.returncode, ran.stdout), (2, ""))
        self.assertIn("compare_flagd: ", ran.stderr)


class CheckPlan(unittest.TestCase):
    def assert_agrees(self, files, words):
        """The checker prints what `verify` does of a plan that is valid, and refuses each other one; what it printed."""
        refine = ["--refine", *words] if words else []
        told = run(["verify", *refine, *"drbp"], files)
        ran = script("check_plan.py", [*"drbp", *words], files)
        is_agreed = ran.stdout.startswith("refused: ") if told.status else ran.stdout == told.out
        self.assertEqual((is_agreed, ran.returncode, ran.stderr), (True, told.status, ""), (told.out, ran.stdout, files))
        return ran.stdout

    def test_verdicts(self):
        for buckets, asked, plan, words in PLANS:
            with self.subTest(buckets=buckets, asked=asked, plan=plan, words=words):
                self.assert_agrees({"d": document(buckets), "r": asked, "b": BOOK, "p": plan}, words)

    def test_the_demo(self):
        """A surcharge below 0, once with its plan and once with another rule."""
        demo = {"d": "flags/shop.json", "r": "rollout/request.json", "b": "rollout/book.txt", "p": "rollout/plan.json"}
        files = {name: text_of(os.path.join(ROOT, "demo", path)) for name, path in demo.items()}
        self.assertEqual(self.assert_agrees(files, []), "valid cost 1\n")
        self.assert_agrees({**files, "p": text_of(os.path.join(ROOT, "demo", "rollout", "next.json"))}, [])

    def test_drawn_plans(self):
        """What is planned for drawn problems, and each of its numbers and names changed."""
        draw, valid = random.Random(0), set()
        for _ in range(15):
            problem = Problem(draw)
            files = problem.files()
            words = [str(problem.factor)] if problem.factor > 1 else []
            plan = run(["plan", *(["--refine", *words] if words else []), *"drb"], files).out
            if not plan.startswith("refused "):
                others = changed(plan)
                for text in [plan, *draw.sample(others, min(3, len(others)))]:
                    valid.add(self.assert_agrees({**files, "p": text}, words))
        costs = [told for told in valid if told.startswith("valid cost ")]
        self.assertTrue("valid none\n" in valid and len(costs) > 3, valid)

    def test_pages(self):
        """The page of a site is found however its expression is written; without its escapes it is another page."""
        for by in BUCKETINGS:
            with self.subTest(by=by):
                buckets = [["red", 5], ["blue", 5]] if by is None else [by, ["red", 5], ["blue", 5]]
                flag = {"state": "ENABLED", "variants": {"red": 1, "blue": 2}, "targeting": {"if": [False, 1, {"fractional": buckets}]}}
                files = {"d": json.dumps({"$evaluators": {"by": {"var": "k"}}, "flags": {"color": flag}}), "r": RED_3}
                ask = {"key": "color", "want": "whole", "default": 0, "context": {"targetingKey": "t", "k": "test"}, "moment": 0}
                files["b"] = among_pages(run(["drive", *"da", "1", "b"], {**files, "a": json.dumps([ask])}).files["b"])
                files["p"] = run(["plan", *"drb"], files).out
                groups = {count for _, count, _ in json.loads(files["p"])["alpha"]}
                self.assertEqual((groups, self.assert_agrees(files, [])), ({0, 1}, "valid cost 0\n"))


def among_pages(book):
    """A book of one page, with pages beside it of which each differs in one thing; the user of each lies on point 0 of 10."""
    head, text = book.split("\n")[1:3]
    page = json.loads(head)
    others = [{**page, "flag": "a"}, {**page, "site": 1}, {**page, "by": "!" if page["by"] else '"!"'}]
    pages = [(page, text), *((other, '""') for other in others)]
    pages.sort(key=lambda one: (one[0]["flag"], one[0]["site"], one[0]["by"] or ""))
    return '{"book":1}\n' + "".join(f"{json.dumps(one, ensure_ascii=False)}\n{text}\n" for one, text in pages)


def changed(plan):
    """Plans with a row left out, or a name or a number of one changed; the same names on the other side."""
    whole = json.loads(plan)
    if "none" in whole:
        return [json.dumps({**whole, "none": []}), json.dumps({**whole, "plan": 2, "side": "under"}), none_of(*whole["none"])]
    found = [{**whole, "cost": whole["cost"] + 1}]
    for name in ["alpha", "beta", "rule"]:
        for place, row in enumerate(whole[name]):
            others = [[*row[:column], row[column] + 1, *row[column + 1 :]] for column in range(1, len(row))]
            for rows in [[], [["a", *row[1:]]], *([other] for other in others)]:
                found.append({**whole, name: whole[name][:place] + rows + whole[name][place + 1 :]})
    return [json.dumps(other) for other in found]


if __name__ == "__main__":
    unittest.main()
