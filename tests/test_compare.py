"""`compare`: what an edit of a document does to recorded users, beside a plain program of the tests' own on drawn documents and books."""
import json
import os
import random
import unittest
import xml.etree.ElementTree as tree
from collections import Counter
from math import lcm
from typing import NamedTuple

from program import ProgramTest, run
from test_planner import murmur3
from test_records import compact, printed

CASES = int(os.environ.get("COMPARE_CASES", "300"))
SEED = 20_261_128

# What the words of a command that the program does not have end with.
MISTAKE = 2

# Bucketing expressions, with the texts by which pages name them.
EXPRESSIONS = [(None, None), ({"var": "key"}, '{"var":["key"]}'), ({"var": ["email"]}, '{"var":["email"]}')]

KEYS = ["color", "colors", "a b", 'quote"d', "größe"]
NAMES = ["red", "blue", "green", "öl", 'a "b"']

MOST = 2_147_483_647


class Site(NamedTuple):
    """A `fractional` operation: its bucketing expression, and its buckets."""

    expression: tuple
    buckets: list

    def tree(self):
        ahead = [] if self.expression[0] is None else [self.expression[0]]
        return {"fractional": ahead + self.buckets}

    def reason(self):
        """Why its buckets are no rule."""
        if any(not isinstance(name, str) for name, _ in self.buckets):
            return "Computed"
        total = sum(weight for _, weight in self.buckets)
        return "NoWeight" if total == 0 else "TooHeavy" if total > MOST else None


def drawn_site(draw):
    weights = draw.choice([[0, 1, 2, 5], [10, 25, 50], [0], [1_000_000_000, 2_000_000_000], [1, 3, 7]] + [[1, 2, 3, 50]] * 6)
    buckets = [[draw.choice(NAMES), draw.choice(weights)] for _ in range(draw.randint(1, 5))]
    if draw.random() < 0.08:
        buckets[0] = [{"var": "group"}, 1]
    return Site(draw.choice(EXPRESSIONS), buckets)


class Flag(NamedTuple):
    """A flag: the sites of its targeting in preorder, none where it is broken or has no targeting."""

    tree: dict
    sites: list


def drawn_flag(draw, old=None):
    if draw.random() < 0.05:
        return Flag({"state": "ENABLED", "variants": {}}, [])
    good = {"state": draw.choice(["ENABLED", "DISABLED"]), "variants": {name: name for name in NAMES}, "defaultVariant": "red"}
    if draw.random() < 0.05:
        return Flag(good, [])
    if old is not None and old.sites:
        sites = [edited(draw, site) for site in old.sites]
    else:
        sites = [drawn_site(draw) for _ in range(draw.choice([1, 1, 1, 2]))]
    first = sites[0].tree()
    targeting = first if len(sites) == 1 else {"if": [{"==": [{"var": "tier"}, "gold"]}, first, sites[1].tree()]}
    return Flag({**good, "targeting": targeting}, sites)


def edited(draw, site):
    """A site as it was, or another one; mostly with the bucketing expression that it had."""
    if draw.random() < 0.2:
        return site
    other = drawn_site(draw)
    return other if draw.random() < 0.1 else Site(site.expression, other.buckets)


def text_of(flags):
    return json.dumps({"flags": {key: flag.tree for key, flag in flags.items()}}, ensure_ascii=False)


class Page(NamedTuple):
    flag: str
    site: int
    by: str

    def order(self):
        """Pages stand in this order in a book."""
        return self.flag.encode(), self.site, self.by is not None, (self.by or "").encode()


def drawn_inputs(draw):
    return sorted({f"{draw.choice(['user-', 'größe', 'x'])}{draw.randrange(10_000)}" for _ in range(draw.randint(1, 30))}, key=str.encode)


class Edit:
    """Two documents, and what was recorded."""

    def __init__(self, draw):
        self.old = {key: drawn_flag(draw) for key in KEYS if draw.random() < 0.7}
        self.new = {key: drawn_flag(draw, self.old.get(key)) for key in KEYS if draw.random() < 0.9}
        pages = set()
        for flags in [self.old, self.new]:
            for key, flag in flags.items():
                pages |= {Page(key, number, site.expression[1]) for number, site in enumerate(flag.sites) if draw.random() < 0.8}
        if draw.random() < 0.3:
            pages.add(Page(draw.choice(KEYS), draw.randrange(3), draw.choice(EXPRESSIONS)[1]))
        self.pages = {page: drawn_inputs(draw) for page in sorted(pages, key=Page.order)}
        self.flag = draw.choice(KEYS) if draw.random() < 0.2 else None

    def files(self):
        return {"old": text_of(self.old), "new": text_of(self.new), "book": book_of(self.pages)}

    def words(self):
        return ["compare", "old", "new", "book", *(["--flag", self.flag] if self.flag else [])]

    def is_unmatched(self):
        """A flag is asked for that no page is of."""
        return self.flag is not None and all(page.flag != self.flag for page in self.pages)


def book_of(pages):
    lines = [{"book": 1}]
    for page, inputs in pages.items():
        lines += [{"by": page.by, "flag": page.flag, "site": page.site}, *inputs]
    return "".join(compact(line) + "\n" for line in lines)


# ---- what a plain program makes of it


def rule_at(flags, page):
    """The rule of a page's site, or the name of the reason why there is none."""
    if page.flag not in flags:
        return None, "NoFlag"
    sites = flags[page.flag].sites
    if page.site >= len(sites):
        return None, "NoSite"
    site = sites[page.site]
    if site.expression[1] != page.by:
        return None, "OtherExpression"
    return site.buckets, site.reason()


def name_of(rule, text):
    """The name that a rule gives a hash input."""
    point = murmur3(text.encode()) * sum(weight for _, weight in rule) >> 32
    for name, weight in rule:
        if point < weight:
            return name
        point -= weight
    raise ValueError("a point outside the rule")


class Answer(NamedTuple):
    """What `compare` prints, as lines and as JSON texts, and why pages are not compared."""

    lines: str
    texts: list
    left: list


def answer_of(edit):
    lines, texts, left, users, inputs = [], [], [], 0, 0
    for page, texts_on in edit.pages.items():
        if edit.flag not in (None, page.flag):
            continue
        (before, reason), (after, other) = rule_at(edit.old, page), rule_at(edit.new, page)
        if reason or other:
            left.append((page, "old" if reason else "new", reason or other))
            texts.append({"document": left[-1][1], "flag": page.flag, "reason": left[-1][2], "site": page.site})
            continue
        changes = Counter((name_of(before, text), name_of(after, text)) for text in texts_on)
        rows = sorted(((a, b, k) for (a, b), k in changes.items() if a != b), key=lambda row: (row[0].encode(), row[1].encode()))
        switched = sum(k for _, _, k in rows)
        lines.append(f"{compact(page.flag)} {page.site} inputs {len(texts_on)} switch {switched}\n")
        lines += [f"  {compact(a)} {compact(b)} {k}\n" for a, b, k in rows]
        texts.append(
            {
                "flag": page.flag,
                "inputs": len(texts_on),
                "site": page.site,
                "switch": switched,
                "switches": [{"from": a, "inputs": k, "to": b} for a, b, k in rows],
            }
        )
        users, inputs = users + switched, inputs + len(texts_on)
    lines.append(f"switch {users} of {inputs}\n")
    if left:
        lines.append(f"left {len(left)}\n")
    texts.append({"inputs": inputs, "left": len(left), "switch": users})
    return Answer("".join(lines), texts, left)


SVG = "{http://www.w3.org/2000/svg}"

# Where the bars begin, how wide they are, and the heights of the old rule's and the new one's.
LEFT, WIDTH, HEIGHTS = 40, 1120, (184, 320)


def pieces_of(rule):
    """The bar of a rule: for each bucket its name, where it begins and how wide it is."""
    total, point, pieces = sum(weight for _, weight in rule), 0, []
    for name, weight in rule:
        begin, end = (LEFT + WIDTH * it // total for it in (point, point + weight))
        pieces.append((name, begin, end - begin))
        point += weight
    return pieces


def bars_in(picture):
    """The bars of a picture of a page, by their heights."""
    bars = {height: [] for height in HEIGHTS}
    for group in picture.iter(SVG + "g"):
        rects = group.findall(SVG + "rect")
        if group.find(SVG + "title") is None or int(rects[0].get("y")) not in bars or rects[0].get("height") != "80":
            continue
        for rect in rects:
            box = (int(rect.get("x")), int(rect.get("width")))
            assert box == (int(rects[0].get("x")), int(rects[0].get("width")))
        bars[int(rects[0].get("y"))].append((group.find(SVG + "title").text, *box))
    return [bars[height] for height in HEIGHTS]


def texts_in(picture):
    """The texts of a picture but for those on its bars."""
    return [node.text for node in picture.iter(SVG + "text") if node.get("class") != "l"]


def words_of(page, before, after, rows, inputs):
    """What the picture of a page says, in its order."""
    both = Counter(), Counter()
    for total, rule in zip(both, (before, after)):
        for name, weight in rule:
            total[name] += weight
    names = list(dict.fromkeys(name for name, _ in [*before, *after]))
    return [
        *[page.flag, f"Site: {page.site}", f"Inputs: {inputs}", f"Switch: {sum(k for _, _, k in rows)}"],
        *["Before", f"Points: {sum(both[0].values())}", "After", f"Points: {sum(both[1].values())}"],
        *["Variant", "Before", "After", *(str(it) for name in names for it in (name, both[0][name], both[1][name]))],
        *["From", "To", "Inputs", *(str(it) for row in rows for it in row)],
    ]


def takes_compare():
    return run(["compare", "--help"], {}).status == 0


def takes_pictures():
    return "--picture" in run(["compare", "--help"], {}).out


@unittest.skipUnless(takes_compare(), "the program has no compare")
class Compare(ProgramTest):
    def test_as_a_plain_program(self):
        draw = random.Random(SEED)
        seen = Counter()
        for number in range(CASES):
            edit = Edit(draw)
            wanted = answer_of(edit)
            files, words = edit.files(), edit.words()
            with self.subTest(number=number, files=files, words=words):
                ran = run(words, files)
                self.assertEqual((ran.out, ran.status), (wanted.lines, 0), ran.err)
                self.assert_told(ran.err, edit, wanted.left)
                self.assertEqual({name: ran.files[name] for name in files}, files)
                strict = run([*words, "--strict"], files)
                self.assertEqual((strict.out, strict.status, strict.err), (wanted.lines, 1 if wanted.left or edit.is_unmatched() else 0, ran.err))
                objects = run([*words, "--json"], files)
                self.assertEqual((objects.out, objects.err), ("".join(compact(it) + "\n" for it in wanted.texts), ran.err))
                seen.update([reason for _, _, reason in wanted.left] + ["row" for it in wanted.texts if it.get("switches")])
                seen.update(["NoPage"] if edit.is_unmatched() else [])
        self.assertEqual(set(seen), {"NoFlag", "NoSite", "OtherExpression", "Computed", "NoWeight", "TooHeavy", "NoPage", "row"})

    def assert_told(self, told, edit, left):
        """A line for each page that is not compared, with the document and the reason, or the flag that has no page."""
        lines = told.splitlines()
        if edit.is_unmatched():
            self.assertEqual(lines[0], f'note: "book": flag {compact(edit.flag)} is not compared: there is no page of it (NoPage)')
            self.assertEqual(len(lines), 1 if edit.flag in edit.old else 2, told)
            return
        self.assertEqual(len(lines), len(left), told)
        for line, (page, side, reason) in zip(lines, left):
            self.assertTrue(line.startswith(f'note: "{side}": flag {compact(page.flag)} site {page.site} is not compared: '), line)
            self.assertTrue(line.endswith(f" ({reason})"), line)

    def test_tallies_as_books(self):
        draw = random.Random(SEED + 1)
        seen = Counter()
        for number in range(CASES):
            edit = Edit(draw)
            for page, inputs in edit.pages.items():
                (before, reason), (after, other) = rule_at(edit.old, page), rule_at(edit.new, page)
                total = 1000 if reason or other else lcm(*(sum(weight for _, weight in rule) for rule in [before, after]))
                total *= draw.choice([1, 1, 2, 3])
                if total > 1_000_000:
                    continue
                files = {**edit.files(), "book": book_of({page: inputs}), "tally": tally_of(page, inputs, total)}
                with self.subTest(number=number, files=files):
                    on_book, on_tally = (run(["compare", "old", "new", name], files) for name in ["book", "tally"])
                    self.assertEqual(on_tally, on_book)
                    seen["left" if reason or other else "compared"] += 1
                    if not (reason or other):
                        self.assert_other(files, page, inputs, before, after, total)
        self.assertGreater(min(seen["left"], seen["compared"]), 0, seen)

    def assert_other(self, files, page, inputs, before, after, total):
        """A tally of another total is refused, also with `--json`; of another flag's page nothing is asked."""
        totals = [sum(weight for _, weight in rule) for rule in [before, after]]
        if all((total + 1) % it == 0 for it in totals) or total == 1_000_000:
            return
        files = {**files, "tally": tally_of(page, inputs, total + 1)}
        for more in [[], ["--json"], ["--strict"]]:
            ran = run(["compare", "old", "new", "tally", *more], files)
            self.assertEqual((ran.out, ran.status), ("refused compare 1 OtherTally\n", 1))
            self.assertIn('error: "tally": ', ran.err)
        for more, status in [[], 0], [["--strict"], 1]:
            ran = run(["compare", "old", "new", "tally", "--flag", "none of these", *more], files)
            self.assertEqual((ran.out, ran.status), ("switch 0 of 0\n", status))
            self.assertTrue(ran.err.startswith('note: "tally": flag "none of these" is not compared: there is no page of it (NoPage)\n'), ran.err)

    def test_a_flag_without_a_page(self):
        """A misspelled key is told with those that are similar, and is no success with `--strict`."""
        checkout = Flag({"state": "ENABLED", "variants": {"on": True, "off": False}, "defaultVariant": "off"}, [])
        text = text_of({"checkout": checkout, "theme": checkout})
        files = {"old": text, "new": text, "book": book_of({Page("checkout", 0, None): ["checkoutann"]})}
        none = 'note: "book": flag %s is not compared: there is no page of it (NoPage)\n'
        for key, told in [
            ("checkuot", none % '"checkuot"' + '  similar keys: "checkout"\n'),
            ("x", none % '"x"' + '  known flags: "checkout", "theme"\n'),
            ("theme", none % '"theme"'),
        ]:
            for more, status in [[], 0], [["--strict"], 1]:
                with self.subTest(key=key, more=more):
                    ran = run(["compare", "old", "new", "book", "--flag", key, *more], files)
                    self.assertEqual((ran.out, ran.err, ran.status), ("switch 0 of 0\n", told, status))
                    texts = run(["compare", "old", "new", "book", "--flag", key, "--json", *more], files)
                    self.assertEqual((texts.out, texts.err, texts.status), ('{"inputs":0,"left":0,"switch":0}\n', told, status))

    def test_refusals(self):
        """The files are read in their order, and the first that is refused is named."""
        good, none, book = text_of({}), "{}", '{"book":1}\n'
        for files, line, named in [
            ({"old": none, "new": none, "book": ""}, "read_flags 2 NoFlags", "old"),
            ({"old": good, "new": none, "book": ""}, "read_flags 2 NoFlags", "new"),
            ({"old": good, "new": good, "book": ""}, "read_book 1 Header", "book"),
            ({"old": good, "new": good, "book": '{"tally":1}\n'}, "read_tally 2 Page", "book"),
            ({"new": good, "book": book}, "load 1 Unreadable", "old"),
            ({"old": good, "book": book}, "load 1 Unreadable", "new"),
            ({"old": good, "new": good}, "load 1 Unreadable", "book"),
        ]:
            with self.subTest(files=files):
                ran = run(["compare", "old", "new", "book"], files)
                self.assertEqual((ran.out, ran.status), (f"refused {line}\n", 1))
                self.assertIn(f'"{named}"', ran.err.splitlines()[0])
        self.assert_ends(["compare", "old", "new", "book"], {"old": good, "new": good, "book": book}, 0, "switch 0 of 0\n")

    @unittest.skipUnless(takes_pictures(), "compare draws no picture")
    def test_pictures(self):
        """The picture has both rules of each page that is compared, and what is printed; nothing else changes."""
        draw = random.Random(SEED + 2)
        seen = Counter()
        for number in range(CASES):
            edit = Edit(draw)
            wanted = answer_of(edit)
            files, words = {**edit.files(), "old.svg": "before"}, edit.words()
            with self.subTest(number=number, files=files, words=words):
                plain = run(words, files)
                ran = run([*words, "--picture", "old.svg"], files)
                self.assertEqual((ran.out, ran.status, ran.err), (plain.out, plain.status, plain.err))
                self.assertEqual({**ran.files, "old.svg": "before"}, plain.files)
                self.assert_drawn(edit, wanted, ran.files["old.svg"], seen)
                strict = run([*words, "--strict", "--picture", "old.svg"], files)
                is_doubted = bool(wanted.left) or edit.is_unmatched()
                self.assertEqual(strict.status, 1 if is_doubted else 0)
                self.assertEqual(strict.files["old.svg"], "before" if is_doubted else ran.files["old.svg"])
                seen["left" if wanted.left else "whole"] += 1
        self.assertGreater(min(seen[it] for it in ["left", "whole", "page", "row", "none"]), 0, seen)

    def assert_drawn(self, edit, wanted, text, seen):
        """The pictures of the pages that are compared, one below the other."""
        root = tree.fromstring(text)
        self.assertEqual(root.find(SVG + "title").text, "What an edit changes")
        self.assertGreater(int(root.get("viewBox").split()[3]), 0)
        pictures = root.findall(SVG + "g")
        pages = [it for it in wanted.texts if "switches" in it]
        if not pages:
            self.assertEqual([texts_in(it) for it in pictures], [["No page was compared."]])
            seen["none"] += 1
            return
        self.assertEqual(len(pictures), len(pages))
        left = {page for page, _, _ in wanted.left}
        compared = [page for page in edit.pages if edit.flag in (None, page.flag) and page not in left]
        for picture, page, found in zip(pictures, compared, pages):
            before, after = rule_at(edit.old, page)[0], rule_at(edit.new, page)[0]
            rows = [(row["from"], row["to"], row["inputs"]) for row in found["switches"]]
            self.assertEqual(texts_in(picture), words_of(page, before, after, rows, found["inputs"]))
            self.assertEqual(bars_in(picture), [pieces_of(before), pieces_of(after)])
            seen.update(["page", *("row" for _ in rows)])

    @unittest.skipUnless(takes_pictures(), "compare draws no picture")
    def test_pictures_that_are_not_written(self):
        """A refusal changes no file, and the file of the picture is named where it can't be written."""
        good, book = text_of({}), '{"book":1}\n'
        files = {"old": good, "new": good, "book": book}
        ran = run(["compare", "old", "new", "book", "--picture", "none/out.svg"], files)
        self.assertEqual((ran.out, ran.status, ran.files), ("refused store 1 Unwritable\n", 1, files))
        self.assertIn('"none/out.svg"', ran.err.splitlines()[0])
        ran = run(["compare", "old", "new", "book", "--picture", "none/out.svg"], {**files, "new": "{}"})
        self.assertEqual((ran.out, ran.status), ("refused read_flags 2 NoFlags\n", 1))
        self.assertIn('"new"', ran.err.splitlines()[0])
        ran = run(["compare", "old", "new", "book", "--picture", "out.svg"], {**files, "new": "{}"})
        self.assertNotIn("out.svg", ran.files)

    def test_words(self):
        for words in [["compare"], ["compare", "old"], ["compare", "old", "new"], ["compare", "old", "new", "book", "more"]]:
            self.assertEqual(run(words, {}).status, MISTAKE)


def tally_of(page, inputs, total):
    """The file of the tally of inputs on a page."""
    own = sorted((compact([page.flag, page.site, page.by, text]) + "\n" for text in inputs), key=str.encode)
    text = printed(own, total)
    head = json.loads(text.splitlines()[1])
    return text.replace(compact(head), compact({**head, "by": page.by, "flag": page.flag, "site": page.site}), 1)


if __name__ == "__main__":
    unittest.main()
