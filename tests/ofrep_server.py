"""A small OFREP server, written from the protocol and the pages of `docs/` alone: what `ofrep` is compared with. It knows the operators
`var`, `if`, `and`, `or`, `!`, `==` of texts, `in` a list, `starts_with`, `ends_with`, `sem_ver` and `fractional`."""
import decimal
import hashlib
import http.server
import json
import re
import threading
from urllib.parse import unquote_to_bytes

FLAGS = "/ofrep/v1/evaluate/flags"
DEEPEST = 120


def compact(value):
    return json.dumps(value, separators=(",", ":"), sort_keys=True, ensure_ascii=False).encode()


def rotated(number, by):
    return (number << by | number >> 32 - by) & 0xFFFFFFFF


def murmur3(data):
    """MurmurHash3 x86 32-bit with seed 0."""
    mixed = 0
    for at in range(0, len(data), 4):
        block = data[at : at + 4]
        word = rotated(int.from_bytes(block, "little") * 0xCC9E2D51 & 0xFFFFFFFF, 15) * 0x1B873593 & 0xFFFFFFFF
        mixed ^= word
        if len(block) == 4:
            mixed = (rotated(mixed, 13) * 5 + 0xE6546B64) & 0xFFFFFFFF
    mixed ^= len(data)
    mixed = (mixed ^ mixed >> 16) * 0x85EBCA6B & 0xFFFFFFFF
    mixed = (mixed ^ mixed >> 13) * 0xC2B2AE35 & 0xFFFFFFFF
    return mixed ^ mixed >> 16


def bucket(entries, text):
    """The name at the point of a hash input."""
    point = murmur3(text.encode()) * sum(weight for _, weight in entries) >> 32
    for name, weight in entries:
        if point < weight:
            return name
        point -= weight


def version(text):
    """The numbers of a version, and 0 behind them where it has a pre-release, else 1; None for what is no version."""
    found = isinstance(text, str) and re.fullmatch(r"(0|[1-9]\d*)\.(0|[1-9]\d*)\.(0|[1-9]\d*)(-[0-9A-Za-z.-]+)?", text)
    return found and (*map(int, found.groups()[:3]), 0 if found[4] else 1)


class Other:
    """A number of a context that is not whole, or out of range. None of the tests' is beyond the limits of exact numbers."""


class Fault(Exception):
    """An evaluation that can't go on."""


def number(text):
    """The whole number that a JSON number stands for, by its decimal digits."""
    value = decimal.Decimal(text)
    if value == 0:
        return 0
    digits, exponent = value.normalize(decimal.Context(prec=10**6)).as_tuple()[1:]
    if exponent < 0 or len(digits) + exponent > 16 or abs(int(value)) >= 2**53:
        return Other()
    return int(value)


def has_other(value):
    parts = value.values() if isinstance(value, dict) else value if isinstance(value, list) else ()
    return isinstance(value, Other) or any(map(has_other, parts))


class Evaluation:
    """One evaluation of a flag in a context."""

    def __init__(self, key, context):
        self.key, self.context = key, context

    def of(self, rule):
        if not isinstance(rule, dict) or len(rule) != 1:
            return rule
        (name, given), = rule.items()
        given = given if isinstance(given, list) else [given]
        return getattr(self, {"if": "when", "and": "both", "or": "either", "!": "no", "==": "same", "in": "among"}.get(name, name))(given)

    def found(self, given):
        value = self.context
        for part in given[0].split("."):
            value = value.get(part) if isinstance(value, dict) else None
        return value

    def var(self, given):
        value = self.found(given)
        if has_other(value):
            raise Fault
        return value

    def tested(self, rule):
        """The value of a test: `var` may give a number there that is not whole, which counts as true."""
        if isinstance(rule, dict) and list(rule) == ["var"]:
            given = rule["var"]
            value = self.found(given if isinstance(given, list) else [given])
            if isinstance(value, Other):
                return value
        return self.of(rule)

    def when(self, given):
        while len(given) > 1:
            if self.tested(given[0]):
                return self.of(given[1])
            given = given[2:]
        return self.of(given[0]) if given else None

    def both(self, given):
        return all(self.tested(it) for it in given[:-1]) and bool(self.of(given[-1]))

    def either(self, given):
        return any(self.of(it) for it in given)

    def no(self, given):
        return not self.tested(given[0])

    def same(self, given):
        return self.of(given[0]) == self.of(given[1])

    def among(self, given):
        return self.of(given[0]) in given[1]

    def starts_with(self, given):
        text = self.of(given[0])
        return isinstance(text, str) and text.startswith(given[1])

    def ends_with(self, given):
        text = self.of(given[0])
        return isinstance(text, str) and text.endswith(given[1])

    def sem_ver(self, given):
        """Of a version beside a release: one with a pre-release stands before its own release."""
        ours, theirs = (version(it) for it in (self.of(given[0]), given[2]))
        return {">=": ours >= theirs, "<": ours < theirs, "=": ours == theirs}[given[1]] if ours else None

    def fractional(self, given):
        if isinstance(given[0], dict):
            text, given = self.of(given[0]), given[1:]
        else:
            user = self.context.get("targetingKey")
            text = self.key + user if isinstance(user, str) else None
        return bucket(given, text) if isinstance(text, str) else None


def is_broken(flag):
    return not isinstance(flag.get("variants"), dict) or not flag["variants"]


def error(key, status, code):
    return status, {"errorCode": code, "errorDetails": "?", "key": key}


def one(document, key, context):
    """The status and the body for a flag."""
    flag = document["flags"].get(key)
    if flag is None:
        return error(key, 404, "FLAG_NOT_FOUND")
    if is_broken(flag):
        return error(key, 400, "PARSE_ERROR")
    if flag["state"] == "DISABLED":
        return error(key, 404, "FLAG_NOT_FOUND")
    name, reason = flag.get("defaultVariant"), "STATIC"
    if flag.get("targeting"):
        try:
            found = Evaluation(key, context).of(flag["targeting"])
        except Fault:
            return error(key, 400, "PARSE_ERROR")
        found = {True: "true", False: "false"}.get(found, found) if isinstance(found, bool) else found
        if found is None:
            reason = "DEFAULT"
        elif found not in flag["variants"]:
            return error(key, 400, "GENERAL")
        else:
            name, reason = found, "TARGETING_MATCH"
    if name is None:
        return error(key, 404, "FLAG_NOT_FOUND")
    return 200, {"key": key, "metadata": {}, "reason": reason, "value": flag["variants"][name], "variant": name}


class Unread(Exception):
    """A body that is no context, with its code."""


def depth(value):
    parts = value.values() if isinstance(value, dict) else value if isinstance(value, list) else ()
    return 1 + max(map(depth, parts), default=0)


def context_of(body):
    if not body:
        return {}
    try:
        told = json.loads(body, parse_float=number, parse_int=number)
    except (ValueError, RecursionError):
        raise Unread("PARSE_ERROR") from None
    if not isinstance(told, dict) or depth(told) > DEEPEST:
        raise Unread("INVALID_CONTEXT")
    context = told.get("context")
    if context is None:
        return {}
    if not isinstance(context, dict):
        raise Unread("INVALID_CONTEXT")
    return context


def key_of(path):
    """The key that a path names, or None. A % without two hexadecimal digits stands for itself, as in the URL Standard."""
    try:
        return unquote_to_bytes(path).decode()
    except UnicodeDecodeError:
        return None


def answer(document, method, path, tags, body):
    """The status, the body (None: an `errorDetails` alone; bytes: as they are) and the entity tag of a request."""
    if path in ("/healthz", "/readyz", "/metrics"):
        return (200, b"ok", None) if method == "GET" else (405, None, None)
    named = re.fullmatch(FLAGS + "/([^/]*)", path)
    key = key_of(named[1]) if named else None
    if named and not key:
        return *error(named[1], 404, "FLAG_NOT_FOUND"), None
    if path != FLAGS and key is None:
        return 404, None, None
    if method != "POST":
        return 405, None, None
    try:
        context = context_of(body)
    except Unread as why:
        told = {"errorCode": str(why), "errorDetails": "?"}
        return 400, told if key is None else {**told, "key": key}, None
    if key is not None:
        return *one(document, key, context), None
    flags = [one(document, key, context) for key in sorted(document["flags"], key=str.encode)]
    told = {"flags": [flag for status, flag in flags if status != 404]}
    tag = f'"{hashlib.sha256(compact(told)).hexdigest()}"'
    if tags == "*" or tags and tag in re.findall(r'"[^"]*"', tags):
        return 304, b"", tag
    return 200, told, tag


class Handler(http.server.BaseHTTPRequestHandler):
    protocol_version = "HTTP/1.1"

    def handle_one(self):
        body = self.rfile.read(int(self.headers.get("Content-Length", 0)))
        status, told, tag = answer(self.server.document, self.command, self.path, self.headers.get("If-None-Match"), body)
        told = told if isinstance(told, bytes) else compact({"errorDetails": "?"} if told is None else told)
        self.send_response(status)
        if tag:
            self.send_header("ETag", tag)
        if status != 304:
            self.send_header("Content-Length", str(len(told)))
        self.end_headers()
        if status != 304 and self.command != "HEAD":
            self.wfile.write(told)

    do_GET = do_POST = do_PUT = do_DELETE = do_HEAD = handle_one

    def log_message(self, *_):
        pass


class Server(http.server.ThreadingHTTPServer):
    """It answers over a document, on a free port of this host, until it is closed."""

    daemon_threads = True
    request_queue_size = 64

    def __init__(self, document):
        super().__init__(("127.0.0.1", 0), Handler)
        self.document = document
        threading.Thread(target=self.serve_forever, daemon=True).start()
