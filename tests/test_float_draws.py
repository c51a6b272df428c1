"""Documents and contexts with floats, drawn at random: what `check`, `resolve`, `drive` and `ofrep` answer beside a plain evaluator of
the tests' own, which has the numbers of contexts as decimals and those of variants as they are spelled. FLOAT_CASES is how many
answers each test draws, 300 by default; FLOAT_SEED draws others."""
import json
import os
import random
import unittest
from typing import NamedTuple

from ofrep_server import Evaluation, Fault, bucket, number
from program import ProgramTest, run
from test_service import FLAGS, ServiceTest

CASES = int(os.environ.get("FLOAT_CASES", "300"))
SEED = int(os.environ.get("FLOAT_SEED", "1"))

# How many contexts are drawn for a document, and how many flags a document has.
CONTEXTS, KEYS = 5, ["a", "b", "c", "ключ", 'q"q']

# Numbers as JSON spells them: whole ones, and those that are not, or are not spelled so.
WHOLE = ["0", "1", "-7", "42", "9007199254740991", "-9007199254740991"]
FLOAT = ["0.5", "1.0", "5e0", "-0", "-0.0", "1E+2", "2.50", "1e400", "9007199254740992", "0.1000000000000000055511151231257827", "-1e-7"]
# Those of contexts.
IN_CONTEXTS = [*WHOLE, *FLOAT, "5.0", "0e7", "1e3", "1000.00", "7.5", "0.5e1"]
NAMES = ["on", "off", "true", "ü", "a b"]
USERS = ["ann", "bob", "", "mallory"]

# The default that is given for each kind that is asked for.
DEFAULTS = {"bool": "false", "text": '"d"', "whole": "7", "object": '{"d":1}', "float": "8"}
# flagd's words for kinds, beside which an ask may have those above.
FLAGD = {"bool": "boolean", "text": "string", "whole": "integer"}

KIND_OF_ITEM = {"bool": ["true", "false"], "text": ['"r"', '"0.5"', '"ü"', '""']}


class Flag(NamedTuple):
    """A flag by its text, and what it means: its variants by their texts as they are printed, the kind of its values (None where the
    flag is broken), whether it is on, its default variant and its targeting."""

    text: str
    variants: dict
    kind: str
    is_on: bool
    default: str
    targeting: object


def drawn_number(draw, is_whole):
    return draw.choice(WHOLE if is_whole else WHOLE + FLOAT)


def drawn_object(draw, is_whole, levels=2):
    """An object's text, with blanks and without; its members are in no order."""
    parts = []
    for name in draw.sample(["n", "rate", "ß", 'x"', "z"], draw.randint(0, 3)):
        kind = draw.randrange(4 if levels else 3)
        if kind == 0:
            value = (draw.choice(['"t"', "null", "true", "[]"]),) * 2
        elif kind < 3:
            value = (drawn_number(draw, is_whole),) * 2
        elif draw.randrange(2):
            value = drawn_object(draw, is_whole, levels - 1)
        else:
            items = [drawn_number(draw, is_whole) for _ in range(draw.randrange(3))]
            value = "[ " + " , ".join(items) + "]", "[" + ",".join(items) + "]"
        parts.append((json.dumps(name, ensure_ascii=False), *value))
    return "{ " + ",\n".join(f"{name} : {value}" for name, value, _ in parts) + "}", "{" + ",".join(f"{name}:{value}" for name, _, value in parts) + "}"


def is_float(value):
    """A number of a value is not spelled as a whole one within the range."""
    seen = []

    def keep(text):
        seen.append(text.lstrip("-").isdigit() and text != "-0" and abs(int(text)) < 2**53)

    json.loads(value, parse_int=keep, parse_float=keep)
    return not all(seen)


def sorted_text(value):
    """A value of whole numbers as it is printed: its members by their names."""
    return json.dumps(json.loads(value), ensure_ascii=False, separators=(",", ":"), sort_keys=True)


def drawn_variants(draw):
    """Variants by what is written and what is printed of each, and the kind of their values, None where they are of no one kind."""
    names = draw.sample(NAMES, draw.randint(1, 4))
    kind = draw.choice(["bool", "text", "number", "number", "number", "object", "object"])
    is_whole = draw.randrange(3) == 0
    if kind == "object":
        values = [drawn_object(draw, is_whole) for _ in names]
    elif kind == "number":
        values = [(drawn_number(draw, is_whole),) * 2 for _ in names]
    else:
        values = [(draw.choice(KIND_OF_ITEM[kind]),) * 2 for _ in names]
    has_floats = any(is_float(value) for _, value in values)
    if not has_floats:
        values = [(written, sorted_text(value)) for written, value in values]
    kind = {"number": "float" if has_floats else "whole"}.get(kind, kind)
    if len(names) > 1 and draw.randrange(12) == 0:
        # Values of no one kind; among such a number that is too large for a float makes a text that is refused as no JSON text.
        values, kind = [("null", "null"), *((written.replace("1e400", "1.5"), value) for written, value in values[1:])], None
    return {name: written for name, (written, _) in zip(names, values)}, {name: value for name, (_, value) in zip(names, values)}, kind, has_floats


def drawn_rule(draw, names, levels=2):
    """A targeting, as a value of Python's: what is not drawn as a name is null, or the name of no variant."""
    kind = draw.randrange(5 if levels else 3)
    if kind == 0:
        return draw.choice([*names, *names, None, "nobody", True])
    if kind == 1:
        by = draw.choice([[], [{"var": "email"}], [{"var": "cart"}]])
        return {"fractional": [*by, *([draw.choice(names), draw.randint(1, 40)] for _ in range(draw.randint(2, 4)))]}
    if kind == 2:
        return {"if": [{"var": draw.choice(["cart", "deep.n", "list", "none"])}, draw.choice(names), draw.choice(names)]}
    condition = draw.choice(
        [
            {"==": [{"var": "email"}, draw.choice(USERS)]},
            {"in": [{"var": draw.choice(["cart", "deep.n"])}, [5, 0, 1000]]},
            {"!": [{"var": "none"}]},
            {"or": [{"starts_with": [{"var": "email"}, "b"]}, {"var": "list"}]},
        ]
    )
    return {"if": [condition, drawn_rule(draw, names, levels - 1), drawn_rule(draw, names, levels - 1)]}


def drawn_flag(draw):
    written, variants, kind, _ = drawn_variants(draw)
    targeting = drawn_rule(draw, list(variants)) if draw.randrange(3) else None
    # A targeting that is no object, or an empty one, is none.
    targeting = {"if": [True, targeting]} if targeting is not None and not isinstance(targeting, dict) else targeting
    is_on, default = draw.randrange(8) > 0, draw.choice([*variants, None])
    members = ['"state":"%s"' % ("ENABLED" if is_on else "DISABLED")]
    members.append('"variants":{%s}' % ",".join(f"{json.dumps(name)}:{value}" for name, value in written.items()))
    members += [f'"defaultVariant":{json.dumps(default)}'] if default is not None else []
    if targeting is not None:
        rule = json.dumps(targeting)
        if draw.randrange(15) == 0:
            # A number that is not whole in a targeting breaks the flag, in each reading.
            rule, kind = f'{{"if":[1.5,{rule}]}}', None
        members.append(f'"targeting":{rule}')
    draw.shuffle(members)
    return Flag("{%s}" % ",".join(members), variants, kind, is_on, default, targeting)


def drawn_document(draw):
    """The text of a document, and its flags by their keys."""
    flags = {key: drawn_flag(draw) for key in draw.sample(KEYS, draw.randint(1, len(KEYS)))}
    return '{"flags":{%s}}' % ",\n".join(f"{json.dumps(key, ensure_ascii=False)}:{flag.text}" for key, flag in flags.items()), flags


def drawn_context(draw, numbers):
    """The text of a context."""
    members = []
    for name, values in (("targetingKey", USERS), ("email", USERS)):
        if draw.randrange(4):
            members.append(f'"{name}":{json.dumps(draw.choice(values))}')
    for name, form in (("cart", "%s"), ("deep", '{"n":%s}'), ("list", '[1,{"x":%s}]')):
        if draw.randrange(2):
            members.append(f'"{name}":{form}' % draw.choice(numbers))
    return "{" + ",".join(members) + "}"


class Noting(Evaluation):
    """An evaluation that notes the sites which it reaches: the number of each in the order of the text, its input and its total."""

    def __init__(self, key, context, rule):
        super().__init__(key, context)
        self.sites, self.reached = [], []
        self.number(rule)

    def number(self, rule):
        if isinstance(rule, dict):
            for name, given in rule.items():
                if name == "fractional":
                    self.sites.append(given)
                self.number(given)
        elif isinstance(rule, list):
            for item in rule:
                self.number(item)

    def fractional(self, given):
        site = next(n for n, it in enumerate(self.sites) if it is given)
        entries, text = given, None
        if isinstance(given[0], dict):
            text, entries = self.of(given[0]), given[1:]
        elif isinstance(self.context.get("targetingKey"), str):
            text = self.key + self.context["targetingKey"]
        if not isinstance(text, str):
            return None
        self.reached.append([site, text, sum(weight for _, weight in entries)])
        return bucket(entries, text)


class Answer(NamedTuple):
    """A resolution: `value` is a text as it is printed, None for the caller's default."""

    reason: str
    code: str = None
    value: str = None
    variant: str = None
    reached: tuple = ()


def chosen(flag, key, context):
    """The name of a variant and the reason for it, the sites that were reached, or what went wrong."""
    if flag.targeting is None:
        return flag.default, "STATIC", ()
    evaluation = Noting(key, context, flag.targeting)
    try:
        found = evaluation.of(flag.targeting)
    except Fault:
        return Answer("ERROR", "PARSE_ERROR")
    reached = tuple(map(tuple, evaluation.reached))
    if found is None:
        return flag.default, "DEFAULT", reached
    name = {True: "true", False: "false"}.get(found) if isinstance(found, bool) else found
    if not isinstance(name, str) or name not in flag.variants:
        return Answer("ERROR", "GENERAL", reached=reached)
    return name, "TARGETING_MATCH", reached


def answer(flags, key, context):
    """What a flag resolves to for who takes any kind."""
    flag = flags.get(key)
    if flag is None:
        return Answer("ERROR", "FLAG_NOT_FOUND")
    if flag.kind is None:
        return Answer("ERROR", "PARSE_ERROR")
    if not flag.is_on:
        return Answer("DISABLED")
    found = chosen(flag, key, context)
    if isinstance(found, Answer):
        return found
    name, reason, reached = found
    if name is None:
        return Answer("DEFAULT", reached=reached)
    return Answer(reason, value=flag.variants[name], variant=name, reached=reached)


def for_kind(flags, key, context, kind):
    """What it resolves to for who wants this kind: a whole number is a float, too."""
    found = answer(flags, key, context)
    if found.variant is not None and flags[key].kind != kind and not (kind == "float" and flags[key].kind == "whole"):
        return Answer("ERROR", "TYPE_MISMATCH", reached=found.reached)
    return found


def compact(value):
    return json.dumps(value, ensure_ascii=False, separators=(",", ":"))


def line(found, default):
    """The line of a resolution, as `resolve` and `drive` print it."""
    value = default if found.value is None else found.value
    members = {"code": compact(found.code), "reached": compact(found.reached), "reason": compact(found.reason), "value": value, "variant": compact(found.variant)}
    return "{" + ",".join(f'"{name}":{text}' for name, text in members.items()) + "}\n"


def read_context(text):
    """A context with its numbers as decimals: whole ones, and others, which an evaluation takes as tests alone."""
    return json.loads(text, parse_int=number, parse_float=number)


def draws(count, numbers=WHOLE):
    """Documents with their flags and contexts, as many as make so many pairs of a document and a context."""
    for case in range(-(-count // CONTEXTS)):
        draw = random.Random(f"{SEED} {case}")
        text, flags = drawn_document(draw)
        yield draw, text, flags, [drawn_context(draw, numbers) for _ in range(CONTEXTS)]


class Drawn(ProgramTest):
    """`check`, `resolve` and `drive` with `--floats`."""

    def test_check(self):
        for _, text, flags, _ in draws(CASES):
            wanted = "".join(f"{compact(key)} {'broken' if flags[key].kind is None else 'good'}\n" for key in sorted(flags, key=str.encode))
            self.assertEqual(run(["check", "--floats", "d"], {"d": text}).out, wanted, text)

    def test_resolve(self):
        """Each time by one key and one kind."""
        for draw, text, flags, contexts in draws(CASES):
            for context in contexts:
                key, kind = draw.choice([*flags, "nobody"]), draw.choice(list(DEFAULTS))
                ran = run(["resolve", "--floats", "d", key, draw.choice([kind, FLAGD.get(kind, kind)]), DEFAULTS[kind], "c", "0"], {"d": text, "c": context})
                wanted = line(for_kind(flags, key, read_context(context), kind), DEFAULTS[kind])
                self.assertEqual((ran.out, ran.status), (wanted, 0), (text, key, kind, context))
                noted = '"code":"FLAG_NOT_FOUND"' in wanted and key == "nobody" or '"code":"TYPE_MISMATCH"' in wanted
                self.assertEqual(ran.err.startswith('note: "d"'), noted, (text, key, kind, context))

    def test_drive(self):
        """Each key and each kind at once, by any number of workers."""
        for draw, text, flags, contexts in draws(CASES):
            asks, wanted = [], ""
            for context in contexts:
                for key in [*flags, "nobody"]:
                    for kind, default in DEFAULTS.items():
                        word = draw.choice([kind, FLAGD.get(kind, kind)])
                        asks.append(f'{{"key":{compact(key)},"want":"{word}","default":{default},"context":{context},"moment":0}}')
                        wanted += line(for_kind(flags, key, read_context(context), kind), default)
            ran = run(["drive", "--floats", "d", "a", str(draw.randint(1, 4)), "b"], {"d": text, "a": "[" + ",\n".join(asks) + "]"})
            self.assertEqual(ran.status, 0, ran.out)
            self.assertEqual("".join(ran.out.splitlines(keepends=True)[:-5]), wanted, text)

    def test_without_the_word(self):
        """A flag with floats is broken then, and each other as with it; the rest of the document is read as it was."""
        for _, text, flags, contexts in draws(CASES // 5):
            if "1e400" in text:
                continue
            for key, flag in flags.items():
                has_floats = flag.kind == "float" or flag.kind == "object" and any(map(is_float, flag.variants.values()))
                kind = flag.kind or "text"
                ran = run(["resolve", "d", key, kind, DEFAULTS[kind], "c", "0"], {"d": text, "c": contexts[0]})
                wanted = Answer("ERROR", "PARSE_ERROR") if has_floats else for_kind(flags, key, read_context(contexts[0]), kind)
                self.assertEqual(ran.out, line(wanted, DEFAULTS[kind]), (text, key))


class Served(ServiceTest):
    """`ofrep`, which takes floats always, in contexts, too."""

    def test_answers(self):
        for _, text, flags, contexts in draws(CASES, IN_CONTEXTS):
            self.put("d", text)
            child = self.start("--workers", "1", "--poll", "0", "--broken", "serve")
            for context in contexts:
                status, _, told = self.ask("POST", FLAGS, f'{{"context":{context}}}'.encode())
                read = read_context(context)
                bodies = (self.body(key, answer(flags, key, read)) for key in sorted(flags, key=str.encode))
                wanted = "".join(body for body in bodies if body)
                self.assertEqual((status, self.without_details(told.decode())), (200, wanted), (text, context))
            child.kill()

    def body(self, key, found):
        """What is answered of a flag among all, without the words for a person; nothing where it has no value."""
        if found.code is not None:
            return f"{key} {found.code}\n"
        if found.variant is None:
            return ""
        return f'{key} {found.reason} {found.value} "{found.variant}"\n'

    def without_details(self, text):
        """The same of an answer: each value as it is spelled."""
        out, at = "", text.index("[") + 1
        while text[at] == "{":
            end = self.end_of(text, at)
            part, at = text[at:end], end + (text[end] == ",")
            told = json.loads(part)
            if "errorCode" in told:
                out += f"{told['key']} {told['errorCode']}\n"
            else:
                first, last = part.index('"value":') + len('"value":'), part.rindex(',"variant":')
                out += f"{told['key']} {told['reason']} {part[first:last]} {compact(told['variant'])}\n"
        return out

    def end_of(self, text, at):
        """Where the value that begins there ends."""
        return json.JSONDecoder().raw_decode(text, at)[1]


if __name__ == "__main__":
    unittest.main()
