"""The commands that draw plans: each picture is parsed as XML, and its numbers are compared with a count of its own."""
import json
import os
import random
import unittest
import xml.etree.ElementTree as tree

from given import BOOK, EMPTY_BOOK, FIVES, KEYED, KEYED_PAGE, UNMET, document, forbid, request
from program import ROOT, ProgramTest, run, text_of

SVG = "{http://www.w3.org/2000/svg}"
ELEMENTS = {"svg", "title", "style", "defs", "pattern", "path", "circle", "rect", "g", "text"}
ATTRIBUTES = {
    "viewBox", "role", "id", "width", "height", "patternUnits", "d", "cx", "cy", "r", "class", "x", "y", "dx", "dy", "fill",
    "style", "transform",
}
HARD_NAMES = ["<script>alert(1)</script>", "\"a\" & 'b'", "x" * 200, "שלום עולם", "&amp;"]


def murmur(key):
    """The hash of a key: MurmurHash3, 32 bits, seed 0."""
    data, h, mask = key.encode(), 0, 0xFFFFFFFF
    for i in range(0, len(data) // 4 * 4, 4):
        h ^= mixed(int.from_bytes(data[i : i + 4], "little"))
        h = ((h << 13 | h >> 19) * 5 + 0xE6546B64) & mask
    h ^= mixed(int.from_bytes(data[len(data) // 4 * 4 :], "little")) ^ len(data)
    for shift, factor in ((16, 0x85EBCA6B), (13, 0xC2B2AE35)):
        h = (h ^ h >> shift) * factor & mask
    return h ^ h >> 16


def mixed(k):
    """A block of a key, mixed."""
    k = k * 0xCC9E2D51 & 0xFFFFFFFF
    return (k << 15 | k >> 17) * 0x1B873593 & 0xFFFFFFFF


def points_of(rule):
    """The name at each point."""
    return [name for name, weight in rule for _ in range(weight)]


def runs_of(names):
    """Where each run of equal names begins and ends."""
    ends = [p for p in range(1, len(names)) if names[p] != names[p - 1]]
    return list(zip([0, *ends], [*ends, len(names)]))


def joined(pieces):
    """Pieces of a bar, with neighbours of one name as one."""
    out = []
    for name, x, width in pieces:
        if out and out[-1][0] == name:
            out[-1] = (name, out[-1][1], out[-1][2] + width)
        else:
            out.append((name, x, width))
    return out


def texts_of(root):
    """The texts of a picture but for those on its bars."""
    return [node.text for node in root.iter(SVG + "text") if node.get("class") != "l"]


def demo(*path):
    """A file of the demo."""
    return text_of(os.path.join(ROOT, "demo", *path))


class PictureTest(ProgramTest):
    """What is drawn is the plan's."""

    def parsed(self, text):
        """A picture, which has no other elements and attributes than those of pictures."""
        root = tree.fromstring(text)
        for node in root.iter():
            self.assertIn(node.tag.removeprefix(SVG), ELEMENTS)
            self.assertLessEqual(set(node.attrib), ATTRIBUTES)
        return root

    def drawn(self, buckets, names, asked, keys):
        """A plan and its picture."""
        entry = {"state": "ENABLED", "variants": {name: name for name in names}, "defaultVariant": names[0]}
        entry["targeting"] = {"fractional": [{"var": "key"}, *buckets]}
        page = json.dumps({"by": '{"var":["key"]}', "flag": "color", "site": 0}, separators=(",", ":")) + "\n"
        book = '{"book":1}\n' + page + "".join(json.dumps(key) + "\n" for key in sorted(keys))
        files = {"doc": json.dumps({"flags": {"color": entry}}), "request": json.dumps(asked), "book": book}
        planned = run(["plan", "doc", "request", "book"], files)
        self.assertIn(planned.status, (0, 3), planned.out + planned.err)
        ran = run(["picture", "doc", "request", "book", "plan"], {**files, "plan": planned.out})
        self.assertEqual(ran.status, 0, ran.out + ran.err)
        beside = run(["plan", "--picture", "svg", "doc", "request", "book"], files)
        self.assertEqual((beside.out, beside.err, beside.status), (planned.out, planned.err, planned.status))
        self.assertEqual(beside.files["svg"], ran.out)
        return json.loads(planned.out), self.parsed(ran.out)

    def check_bars(self, root, old, new, at):
        """Two bars of the rules in proportion, the points on them where they are few, and between them what moves."""
        total = len(old)
        edges = [40 + p * 1120 // total for p in range(total + 1)]
        bars, bands = {184: [], 344: []}, []
        for group in root.iter(SVG + "g"):
            title = group.find(SVG + "title")
            if title is None:
                continue
            rects = [tuple(int(rect.get(key)) for key in ("x", "y", "width", "height")) for rect in group.findall(SVG + "rect")]
            self.assertEqual(rects[0], rects[1])
            x, y, width, height = rects[0]
            if y == 264:
                bands.append((title.text, x, width))
            elif height == 80:
                bars[y].append((title.text, x, width))
        for y, rule in ((184, old), (344, new)):
            self.assertEqual([(rule[a], edges[a], edges[b] - edges[a]) for a, b in runs_of(rule)], joined(bars[y]))
        moves = []
        for a, b in runs_of(list(zip(old, new))):
            if old[a] != new[a]:
                users = sum(1 for p in at if a <= p < b)
                title = f"{old[a]} \u2192 {new[a]}: {b - a} points, {users} users"
                moves.append((title, edges[a], edges[b] - edges[a]))
        self.assertEqual(moves, bands)
        lines = [rect for rect in root.iter(SVG + "rect") if rect.get("class") == "s" and rect.get("width") == "1"]
        self.assertEqual(len(lines), 2 * (total - 1) if total <= 100 else 0)

    def check_change(self, buckets, names, asked, keys):
        """The numbers of a change are those of a count over the keys."""
        plan, root = self.drawn(buckets, names, asked, keys)
        texts = texts_of(root)
        old, new = points_of(buckets), points_of(plan["rule"])
        total = len(old)
        at = [murmur(key) * total >> 32 for key in keys]
        self.check_bars(root, old, new, at)
        self.assertEqual(texts[:2], [f"Cost: {plan['cost']}", "No rule that keeps the limits costs less."])
        self.assertIn(f"Points: {total}", texts)
        place, duals = texts.index("Dual price") + 1, dict(plan["beta"])
        for name in sorted(names, key=str.encode):
            asked_for = asked["totals"].get(name, 0)
            row = [name, *map(str, (old.count(name), new.count(name), asked_for, asked_for))]
            row += [str(duals[name])] if name in duals else []
            self.assertEqual(texts[place : place + len(row)], row)
            place += len(row)
        place = texts.index("Price") + 1
        barred = {tuple(pair) for pair in asked.get("forbid", [])}
        for a in sorted(names, key=str.encode):
            for b in sorted(names, key=str.encode):
                points = sum(1 for p in range(total) if (old[p], new[p]) == (a, b))
                if not points and (a, b) not in barred:
                    continue
                users = sum(1 for p in at if (old[p], new[p]) == (a, b))
                price = "not allowed" if (a, b) in barred else str(0 if a == b else asked.get("price", 1))
                self.assertEqual(texts[place : place + 5], [a, b, str(points), str(users), price])
                place += 5
        self.assertEqual(place, len(texts))

    def test_numbers(self):
        """Users, points, limits, prices and the cost, over random rollouts."""
        chance = random.Random(7)
        for _ in range(12):
            names = [f"v{i}" for i in range(chance.randint(2, 6))]
            buckets = [[name, chance.randint(1, 20)] for name in names]
            total = sum(weight for _, weight in buckets)
            cuts = sorted(chance.randint(0, total) for _ in names[1:])
            sizes = [b - a for a, b in zip([0, *cuts], [*cuts, total])]
            asked = {"plan": 1, "flag": "color", "totals": dict(zip(names, sizes)), "price": chance.randint(0, 3)}
            keys = {f"user-{chance.randint(0, 10**6)}" for _ in range(200)}
            self.check_change(buckets, names, asked, keys)

    def test_names(self):
        """Names add no markup, and stand whole in the lists."""
        buckets = [[name, 20] for name in HARD_NAMES]
        totals = dict(zip(HARD_NAMES, (30, 10, 20, 25, 15)))
        self.check_change(buckets, HARD_NAMES, {"plan": 1, "flag": "color", "totals": totals}, {"ann", "bob", "eve"})

    def test_many_variants(self):
        """64 variants."""
        names = [f"variant-{i:02}" for i in range(64)]
        totals = {name: 2 for name in names}
        totals[names[0]], totals[names[63]] = 3, 1
        self.check_change([[name, 2] for name in names], names, {"plan": 1, "flag": "color", "totals": totals}, {"ann", "bob"})

    def test_none(self):
        """A set that shows that no rule fits."""
        asked = {"plan": 1, "flag": "color", "totals": {"red": 10}, "forbid": [["blue", "red"]]}
        plan, root = self.drawn([["red", 5], ["blue", 5]], ["red", "blue"], asked, {"ann"})
        texts = texts_of(root)
        self.assertEqual(texts[0], "No rule keeps the limits.")
        self.assertIn("Points: 10", texts)
        lists = texts.index("Variant")
        self.assertEqual(texts[lists - len(plan["none"]) : lists], plan["none"])
        place = texts.index("At most") + 1
        self.assertEqual(texts[place:], ["blue", "5", "0", "0", "red", "5", "10", "10"])

    def test_refusals(self):
        """A plan that is not right is not drawn."""
        self.assert_ends(["picture", "none", "none", "none", "none"], {}, 1, "refused load 1 Unreadable\n")
        self.assert_mistake(["picture", "doc"], {}, "REQUEST")
        files = {"doc": document(), "request": request('"red":3,"blue":7'), "book": BOOK}
        planned = run(["plan", "doc", "request", "book"], files)
        wrong = json.dumps(dict(json.loads(planned.out), cost=7))
        words = ["picture", "doc", "request", "book", "plan"]
        self.assert_ends(words, {**files, "plan": wrong}, 1, "refused verify 5 Sum\n")
        self.assert_ends(words, {**files, "plan": "[]"}, 1, "refused read_planned 1 BadPlan\n")

    def test_finer_points(self):
        """A rule that was refined before it was planned."""
        files = {"doc": document(), "request": request('"red":45,"blue":55'), "book": BOOK}
        words = ["--refine", "10", "doc", "request", "book"]
        planned = run(["plan", "--picture", "svg", *words], files)
        self.assertEqual(planned.status, 0, planned.out)
        for more in ([], ["--refine", "10"]):
            ran = run(["picture", *more, "doc", "request", "book", "plan"], {**files, "plan": planned.out})
            self.assertEqual((ran.status, ran.out), (0, planned.files["svg"]))
        self.assertIn("Points: 100", texts_of(self.parsed(ran.out)))

    def test_doubts_and_words(self):
        """Beside a picture the plan is told in words, and refused where it is doubted, as without one."""
        files = {"doc": document(), "request": request('"red":3,"blue":7'), "book": BOOK, "svg": "before"}
        unread = {**files, "request": files["request"].replace('"totals"', '"forbidden":[],"totals"')}
        for more in ([], ["--explain"], ["--strict"], ["--strict", "--explain"]):
            for given in (files, unread):
                with self.subTest(more=more, request=given["request"]):
                    plain = run(["plan", *more, "doc", "request", "book"], given)
                    ran = run(["plan", "--picture", "svg", *more, "doc", "request", "book"], given)
                    self.assertEqual((ran.status, ran.out, ran.err), (plain.status, plain.out, plain.err))
                    self.assertEqual(ran.files["svg"] == "before", ran.status == 1)
        self.assertEqual(ran.out, "refused plan 16 Unread\n")

    def test_the_file_is_replaced_whole_or_not_at_all(self):
        files = {"doc": document(), "request": request('"red":3,"blue":7'), "book": BOOK, "svg": "before"}
        words = ["plan", "--picture", "svg", "doc", "request", "book"]
        ran = run(words, files)
        self.assertEqual(ran.status, 0)
        self.parsed(ran.files["svg"])
        self.assertEqual(set(ran.files), set(files))
        ran = run(words, {**files, "request": "{}"})
        self.assertEqual((ran.status, ran.out, ran.files["svg"]), (1, "refused plan 1 Request 1 BadRequest\n", "before"))
        ran = run(["plan", "--picture", "none/svg", "doc", "request", "book"], files)
        self.assertEqual((ran.status, ran.out), (1, "refused store 1 Unwritable\n"))
        self.assertIn("none/svg", ran.err)
        self.assertEqual(set(ran.files), set(files))
        ran = run(words, {**files, "request": UNMET})
        self.assertEqual(ran.status, 3)
        self.assertEqual(texts_of(self.parsed(ran.files["svg"]))[0], "No rule keeps the limits.")
        self.assert_mistake(["plan", "--picture", "svg", "doc", "request"], {}, "BOOK")

    def check_steps(self, files, count, status=0):
        """The page of a ramp has the picture of each step on the document that the step before left."""
        ramp = run(["ramp", "doc", "steps", "book"], files)
        self.assertEqual(ramp.status, status, ramp.out + ramp.err)
        given = {**files, "ramp": ramp.out}
        ran = run(["picture", "--ramp", "doc", "steps", "book", "ramp"], given)
        self.assertEqual(ran.status, 0, ran.out + ran.err)
        texts = texts_of(self.parsed(ran.out))
        lines = ramp.out.splitlines()
        self.assertEqual(len(lines), count)
        places = [texts.index(f"Step: {n}") for n in range(1, count + 1)] + [len(texts)]
        asked = json.loads(files["steps"])
        steps, before = asked.pop("steps"), files["doc"]
        for n, line in enumerate(lines):
            alone = {"doc": before, "book": files["book"], "request": json.dumps({**asked, "totals": steps[n]})}
            alone["plan"] = json.dumps(json.loads(line)["plan"])
            drawn = run(["picture", "doc", "request", "book", "plan"], alone)
            self.assertEqual(drawn.status, 0, drawn.out + drawn.err)
            self.assertEqual(texts_of(self.parsed(drawn.out)), texts[places[n] + 1 : places[n + 1]])
            flag, site = asked["flag"], str(asked.get("site", 0))
            after = run(["apply", "--step", str(n + 1), "doc", "ramp", flag, site], given)
            if after.status == 0:
                before = after.out
            else:
                self.assertEqual((after.status, after.out), (3, "none\n"))

    def test_ramps(self):
        """From 5 to 100 percent; and a ramp that ends where no rule fits."""
        files = {"doc": demo("flags", "shop.json"), "book": demo("rollout", "book.txt")}
        self.check_steps({**files, "steps": demo("ramp", "steps.json")}, 4)
        self.check_steps({**files, "steps": demo("ramp", "back.json")}, 2, 3)

    def test_refusals_of_ramps(self):
        steps = '{"plan":1,"flag":"color","steps":[{"red":4,"blue":6},{"red":2,"blue":8}]' + forbid(("blue", "red")) + "}"
        files = {"doc": document(FIVES), "steps": steps, "book": BOOK}
        words = ["picture", "--ramp", "doc", "steps", "book", "ramp"]
        ramp = run(["ramp", "doc", "steps", "book"], files).out
        lines = ramp.splitlines(keepends=True)
        self.assert_ends(words, {**files, "ramp": lines[0]}, 1, "refused verify-ramp 14 Lines\n")
        self.assert_ends(words, {**files, "ramp": "x\n"}, 1, "refused read_ramp 1 Line 1\n")
        # The second step answered on the first rule, and not on what the first step left, where all points are blue.
        back = '{"plan":1,"flag":"color","steps":[{"red":0,"blue":10},{"red":5,"blue":5}]}'
        alone = '{"plan":1,"flag":"color","steps":[{"red":5,"blue":5}]}'
        first = run(["ramp", "doc", "steps", "book"], {**files, "steps": alone}).out
        before = run(["ramp", "doc", "steps", "book"], {**files, "steps": back}).out.splitlines(keepends=True)[0]
        swapped = {**files, "steps": back, "ramp": before + first.replace('"step":1', '"step":2')}
        self.assert_ends(words, swapped, 1, "refused verify-ramp 8 Groups\n")
        self.assert_mistake(["picture", "--ramp", "doc", "steps"], {}, "BOOK")

    def test_what_is_doubted_is_told_beside_the_picture(self):
        member, twice = ',"forbidden":[["blue","red"]]', ',"flag":"color"'
        told = {
            member: ' has a member that is not read:\n  "forbidden"; perhaps "forbid" is meant\n',
            twice: " has a member that stands more than once, and the last counts: flag\n",
        }
        plain = {"doc": document(FIVES), "request": request('"red":3,"blue":7')}
        plain["steps"] = plain["request"].replace('"totals":', '"steps":[').replace("}}", "}]}")
        for more, book, names in [(member, BOOK, ["asked"]), (twice, BOOK, ["asked"]), ("", EMPTY_BOOK, ["book"]), (member, EMPTY_BOOK, ["asked", "book"])]:
            plain["book"] = book
            plain["plan"] = run(["plan", "doc", "request", "book"], plain).out
            plain["ramp"] = run(["ramp", "doc", "steps", "book"], plain).out
            for asked, words in [
                ("request", ["picture", "doc", "request", "book", "plan"]),
                ("steps", ["picture", "--ramp", "doc", "steps", "book", "ramp"]),
            ]:
                with self.subTest(words=words, names=names):
                    ran = run(words, {**plain, asked: plain[asked][:-1] + more + "}"})
                    note = f'note: "{asked}"{told[more]}' if "asked" in names else ""
                    note += 'note: "book" has no input on the page of the request' if "book" in names else ""
                    self.assertEqual((ran.status, ran.out), (0, run(words, plain).out))
                    self.assertEqual(ran.err[: len(note)], note)
                    self.assertEqual(ran.err.count("note: "), len(names))
        plain["book"] = BOOK
        plain["plan"] = run(["plan", "doc", "request", "book"], plain).out
        ran = run(["picture", "doc", "request", "book", "plan"], plain)
        self.assertEqual((ran.status, ran.err), (0, ""))

    def test_inputs_of_another_flag_are_told_beside_the_picture(self):
        given = {"doc": KEYED, "request": request('"red":3,"blue":7'), "book": f'{{"book":1}}\n{KEYED_PAGE}\n"ann"\n'}
        given["steps"] = given["request"].replace('"totals":', '"steps":[').replace("}}", "}]}")
        given["plan"] = run(["plan", "doc", "request", "book"], given).out
        given["ramp"] = run(["ramp", "doc", "steps", "book"], given).out
        for words in (["picture", "doc", "request", "book", "plan"], ["picture", "--ramp", "doc", "steps", "book", "ramp"]):
            ran = run(words, given)
            self.assertEqual((ran.status, ran.err.count("note: ")), (0, 1))
            self.assertIn("not of its flag: 1 of 1 do not begin with its key", ran.err)


if __name__ == "__main__":
    unittest.main()
