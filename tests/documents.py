"""Documents of many shapes, made at random, with the place of one site's buckets known by how the text is made.

A value is a scalar as it is written, a `Members` or an `Items`, and the text is made of them with blanks, escapes and members
that stand twice: of those the last counts."""
import json
import random
from typing import NamedTuple, Optional


class Members(NamedTuple):
    """An object: its members in the order in which they are written."""

    members: list


class Items:
    """A list; of the one with the buckets of the site that is asked for, `first` is the place of the first bucket."""

    def __init__(self, items, first=None):
        self.items, self.first, self.spans = items, first, []


class Site(NamedTuple):
    """A `fractional` operation: its list, the names and weights where they are literal, and the evaluator that it stands in."""

    items: Items
    buckets: Optional[list]
    shared: Optional[str]


class Document(NamedTuple):
    """A document's text, the flag and the site that are asked for, and how the text is divided at its buckets."""

    text: str
    key: str
    site: int
    variants: list
    buckets: list
    shared: Optional[str]
    front: str
    old: list
    mark: str
    back: str


NAMES = ["on", "off", "blue", "ü", "a b", 'say "x"', "back\\slash", "\u2028", "😀", "slash/"]
KEYS = ["color", "checkout", "ключ", "a.b", 'q"q', "fractional", "targeting", "flags"]
BLANKS = ["", "", " ", "\n", "\t", "\r\n", "  ", "\n    "]
SCALARS = ["null", "true", "false", "0", "-7", "2.5", "1e3", '""', '"fractional"', '"[[\\"on\\",5]]"']


class Maker:
    """Makes one document from a source of chance."""

    def __init__(self, seed):
        self.chance = random.Random(seed)
        self.evaluators, self.sites = [], []
        self.variants = self.chance.sample(NAMES, self.chance.randint(2, 5))
        self.blank = self.chance.choice([lambda: "", lambda: " ", lambda: self.chance.choice(BLANKS)])
        self.lines, self.escapes = self.chance.random() < 0.4, self.chance.random() < 0.4

    # ---- values

    def any_value(self, depth=2):
        """A value that nothing is made of, with what looks like a site in it."""
        kind = self.chance.randrange(6) if depth else 0
        if kind == 1:
            return Items([self.any_value(depth - 1) for _ in range(self.chance.randrange(3))])
        if kind == 2:
            return Members([(self.chance.choice(NAMES + KEYS), self.any_value(depth - 1)) for _ in range(self.chance.randrange(3))])
        if kind == 3:
            return Members([("fractional", Items([self.bucket_of("on", 5), self.bucket_of("off", 5)]))])
        return self.chance.choice(SCALARS)

    def bucket_of(self, name, weight):
        is_short = weight == 1 and self.chance.random() < 0.5
        return Items([json.dumps(name)] if is_short else [json.dumps(name), str(weight)])

    def members(self, *members, decoys=True):
        """An object of these members, some behind one of the same name that does not count."""
        made = list(members)
        for name, _ in members:
            if decoys and self.chance.random() < 0.12:
                made.insert(0, (name, self.any_value()))
        return Members(made)

    # ---- expressions; `sites` gets each site in preorder

    def scalar(self):
        return self.chance.choice(["null", "true", "3", '"on"', '""'])

    def literal(self):
        """A scalar, or an object of no member or of two, in which nothing is evaluated."""
        if self.chance.random() < 0.6:
            return self.scalar()
        if self.chance.random() < 0.3:
            return Members([])
        decoy = Items([self.bucket_of(name, 2) for name in self.variants[:2]])
        return Members([("fractional", decoy), (self.chance.choice(["other", "if"]), self.scalar())])

    def expression(self, depth, sites, shared=None):
        makers = [self.literal, lambda: self.operation("var", '"key"')]
        if depth:
            deeper = lambda: self.expression(depth - 1, sites, shared)
            makers += [
                lambda: self.fractional(depth - 1, sites, shared),
                lambda: self.fractional(depth - 1, sites, shared),
                lambda: self.operation("if", Items([deeper() for _ in range(self.chance.randrange(1, 5))])),
                lambda: self.operation(self.chance.choice(["and", "or", "merge", "cat"]), Items([deeper() for _ in range(self.chance.randrange(4))])),
                lambda: self.operation(self.chance.choice(["==", "in", "map", "filter", "all"]), Items([deeper(), deeper()])),
                lambda: self.operation("!", deeper_alone(deeper)),
                lambda: Items([deeper() for _ in range(self.chance.randrange(3))]),
            ]
            if self.evaluators:
                makers += [lambda: self.reference(sites, shared)]
        return self.chance.choice(makers)()

    def of_members(self, depth):
        """An expression that is an object, and its sites."""
        while True:
            sites = []
            value = self.expression(depth, sites)
            if isinstance(value, Members):
                return value, sites

    def operation(self, operator, arguments):
        return self.members((operator, arguments))

    def reference(self, sites, shared):
        name, _, its_sites = self.chance.choice(self.evaluators)
        sites += [Site(it.items, it.buckets, shared or name) for it in its_sites]
        return Members([("$ref", json.dumps(name))])

    def fractional(self, depth, sites, shared):
        """A site; most have literal buckets, which may be asked for."""
        place, items = len(sites), Items([])
        sites.append(None)
        if self.chance.random() < 0.6:
            by = self.expression(depth, sites, shared)
            while isinstance(by, Items):
                del sites[place + 1:]
                by = self.expression(depth, sites, shared)
            items.items.append(by)
        first, buckets = len(items.items), []
        for _ in range(self.chance.randint(1, 5)):
            name, weight = self.chance.choice(self.variants), self.chance.choice([0, 1, 1, 2, 5, 10])
            if depth and self.chance.random() < 0.08:
                buckets = None
                items.items.append(Items([self.expression(depth - 1, sites, shared), str(weight)]))
                continue
            items.items.append(self.bucket_of(name, weight))
            if buckets is not None:
                buckets.append((name, weight))
        items.first = first
        sites[place] = Site(items, buckets, shared)
        return self.operation("fractional", items)

    # ---- flags and documents

    def flag(self, targeting=None):
        variants = Members([(name, json.dumps(f"value of {name}")) for name in self.variants])
        members = [("state", '"ENABLED"'), ("variants", variants), ("defaultVariant", json.dumps(self.variants[0]))]
        members += [("targeting", targeting)] if targeting is not None else []
        members += [("metadata", self.any_value())] if self.chance.random() < 0.3 else []
        self.chance.shuffle(members)
        return self.members(*members)

    def floats(self):
        """A flag that is broken here, and well served by flagd."""
        return Members([("state", '"ENABLED"'), ("variants", Members([("low", "0.5"), ("high", "2.5")])), ("defaultVariant", '"low"')])

    def document(self):
        for n in range(self.chance.randrange(3)):
            self.evaluators.append((f"shared{n}", *self.of_members(2)))
        keys = self.chance.sample(KEYS, self.chance.randint(1, 4))
        targeting, self.sites = self.of_members(4)
        flags = [(keys[0], self.flag(targeting))] + [(key, self.chance.choice([self.floats, self.flag])()) for key in keys[1:]]
        self.chance.shuffle(flags)
        members = [("flags", self.members(*flags))]
        if self.evaluators:
            members.append(("$evaluators", Members([(name, value) for name, value, _ in self.evaluators])))
        if self.chance.random() < 0.5:
            members.append(("$schema", '"https://flagd.dev/schema/v0/flags.json"'))
        if self.chance.random() < 0.5:
            members.append(("metadata", self.any_value()))
        self.chance.shuffle(members)
        return keys[0], self.members(*members)

    # ---- the text

    def text_of(self, value, depth, out):
        """Adds a value's text; a list notes where its items begin and end."""
        if isinstance(value, Members):
            self.enclosed("{", "}", depth, out, [lambda m=m: self.member(m, depth + 1, out) for m in value.members])
        elif isinstance(value, Items):
            value.spans = []
            self.enclosed("[", "]", depth, out, [lambda v=v: self.item(value, v, depth + 1, out) for v in value.items])
        else:
            out.append(self.escaped(value) if value.startswith('"') else value)

    def enclosed(self, opening, closing, depth, out, parts):
        is_split = self.lines and depth < 6
        out.append(opening)
        for place, part in enumerate(parts):
            out.append("," if place else "")
            out.append("\n" + "  " * (depth + 1) if is_split else self.blank())
            part()
            out.append("" if is_split else self.blank())
        out.append("\n" + "  " * depth if is_split and parts else self.blank())
        out.append(closing)

    def member(self, member, depth, out):
        out.append(self.escaped(json.dumps(member[0])))
        out += [self.blank(), ":", " " if self.lines else self.blank()]
        self.text_of(member[1], depth, out)

    def item(self, items, value, depth, out):
        begin = len(out)
        self.text_of(value, depth, out)
        items.spans.append((begin, len(out)))

    def escaped(self, text):
        """A text as JSON may write it: characters escaped or not."""
        whole = json.loads(text)
        if not self.escapes:
            return json.dumps(whole, ensure_ascii=self.chance.random() < 0.2)
        return '"' + "".join(self.character(c) for c in whole) + '"'

    def character(self, c):
        if self.chance.random() < 0.2:
            return json.dumps(c)[1:-1] if ord(c) > 0xFFFF else f"\\u{ord(c):04{self.chance.choice('xX')}}"
        return "\\/" if c == "/" and self.chance.random() < 0.5 else json.dumps(c, ensure_ascii=False)[1:-1]


def deeper_alone(deeper):
    """The one argument of an operation, in a list or alone where it is no list."""
    value = deeper()
    return Items([value]) if isinstance(value, Items) else value


def document_at_random(seed):
    """The document of a seed: one in which a site has literal buckets with a weight."""
    while True:
        maker = Maker(seed)
        key, made = maker.document()
        able = [n for n, it in enumerate(maker.sites) if it.buckets and sum(w for _, w in it.buckets)]
        if able:
            break
        seed = f"{seed}+"
    number = maker.chance.choice(able)
    site = maker.sites[number]
    out = []
    maker.text_of(made, 0, out)
    spans = [("".join(out[:a]), "".join(out[a:b]), b) for a, b in site.items.spans[site.items.first:]]
    mark = "".join(out[spans[0][2]:site.items.spans[site.items.first + 1][0]]) if len(spans) > 1 else ","
    return Document(
        "".join(out), key, number, maker.variants, site.buckets, site.shared,
        spans[0][0], [it[1] for it in spans], mark, "".join(out[spans[-1][2]:]),
    )
