"""Random requests on 16 connections: each answer of `ofrep` beside that of a small OFREP server of the tests' own over the same
document. OFREP_REQUESTS is how many, 1,600 by default; OFREP_SEED draws others."""
import hashlib
import http.client
import json
import os
import random
import threading
import unittest
from urllib.parse import quote

from ofrep_server import FLAGS, Server, compact
from program import SECONDS
from test_service import ServiceTest

COUNT = int(os.environ.get("OFREP_REQUESTS", "1600"))
SEED = int(os.environ.get("OFREP_SEED", "1"))
CONNECTIONS = 16
KEYS = ["banner", "checkout", "new search", "größe", "a/b", "off", "broken", "none", "size", "palette", "%", "theme"]
TEXTS = ["", "alice", "bob@example.com", "mallory@example.org", "de", "fr", "2.1.0", "1.9.9", "2.1.0-rc.1", "münchen", "\u202eabc"]


# Numbers as applications spell them, and how they stand in a drawn context.
NUMBERS = ["5", "5.0", "0.5e1", "50e-1", "7.5", "-0", "0e7", "1e3", "1000.00", "9007199254740993", "5.0000000000000000001", "1e300"]
SPELLED = "spelled: "


def drawn_condition(draw, levels=2):
    kind = draw.randrange(9 if levels else 6)
    name = {"var": draw.choice(["email", "country", "app.version", "targetingKey"])}
    if kind == 0:
        return {"==": [name, draw.choice(TEXTS)]}
    if kind == 1:
        return {"in": [name, draw.sample(TEXTS, 3)]}
    if kind == 2:
        return {"ends_with": [name, "@example.com"]}
    if kind == 3:
        return {"starts_with": [name, draw.choice(["a", "m", "2."])]}
    if kind == 4:
        return {"sem_ver": [{"var": "app.version"}, draw.choice([">=", "<", "="]), "2.1.0"]}
    if kind == 5:
        return {"in": [{"var": draw.choice(["cart", "basket.sum"])}, [5, 0, 1000]]}
    parts = [drawn_condition(draw, levels - 1) for _ in range(2)]
    return [{"and": parts}, {"or": parts}, {"!": parts[:1]}][kind - 6]


def drawn_rule(draw, names, levels=2):
    kind = draw.randrange(5)
    if kind == 0 and levels:
        return {"if": [drawn_condition(draw), drawn_rule(draw, names, levels - 1), drawn_rule(draw, names, levels - 1)]}
    if kind < 3:
        entries = [[draw.choice(names), draw.randrange(1, 60)] for _ in range(draw.randrange(2, 6))]
        return {"fractional": ([{"var": "email"}] if draw.randrange(3) == 0 else []) + entries}
    return draw.choice([*names, None, "nobody"])


def drawn_document(draw):
    flags = {}
    for key in KEYS:
        values = draw.choice([[True, False], ["r", "b", "grün"], [1, 2, -3], [{"a": [1]}, {"b": None}]])
        names = draw.sample(["on", "off", "blue", "true", "false", "ß"], len(values))
        flag = {"state": "ENABLED", "variants": dict(zip(names, values))}
        if draw.randrange(4):
            flag["defaultVariant"] = draw.choice(names)
        if draw.randrange(4):
            flag["targeting"] = {"if": [drawn_condition(draw), drawn_rule(draw, names), drawn_rule(draw, names)]}
        flags[key] = flag
    flags["off"]["state"] = "DISABLED"
    flags["broken"] = {"state": "ENABLED"}
    return {"flags": flags}


def drawn_context(draw):
    context = {}
    for name in ("targetingKey", "email", "country"):
        if draw.randrange(4):
            context[name] = draw.choice(TEXTS) if draw.randrange(3) else f"user-{draw.randrange(1000)}"
    if draw.randrange(2):
        context["app"] = draw.choice([{"version": draw.choice(TEXTS)}, {"version": 2}, None, "2.1.0", []])
    if draw.randrange(2):
        context["cart"] = SPELLED + draw.choice(NUMBERS)
        context["basket"] = {"sum": SPELLED + draw.choice(NUMBERS), "unread": [SPELLED + draw.choice(NUMBERS)]}
    return context


def with_numbers(body):
    """The body with its numbers in their places."""
    for number in NUMBERS:
        body = body.replace(f'"{SPELLED}{number}"'.encode(), number.encode())
    return body


def drawn_body(draw):
    kind = draw.randrange(12)
    if kind == 0:
        return draw.choice([b"", b"{}", b"null", b'{"context":null}', b"{", b"[]", b"1", b'"', b'{"context":[]}', b"\xff", b'{"context":1}'])
    if kind == 1:
        return draw.choice([b'{"context":{"n":0.5}}', b'{"context":{"n":[1e3]}}', b'{"context":' + b'{"a":' * 125 + b"1" + b"}" * 126])
    return with_numbers(compact({"context": drawn_context(draw), **({"more": "x"} if kind == 2 else {})}))


def drawn_request(draw):
    """The method, the path, `If-None-Match` (TAG stands for the tag of the same request without it) and the body of a request."""
    kind = draw.randrange(20)
    if kind == 0:
        return draw.choice(["GET", "PUT", "DELETE"]), draw.choice([FLAGS, f"{FLAGS}/banner", "/healthz", "/nowhere"]), None, b""
    if kind == 1:
        return "POST", draw.choice(["/", "/ofrep", f"{FLAGS}/", f"{FLAGS}/%", f"{FLAGS}/%FF", f"{FLAGS}/%zz", f"{FLAGS}s"]), None, b""
    if kind == 2:
        return "GET", draw.choice(["/healthz", "/readyz"]), None, b""
    if kind < 7:
        return "POST", FLAGS, draw.choice([None, None, "*", '"x"', "TAG", '"x", W/TAG']), drawn_body(draw)
    return "POST", f"{FLAGS}/{quote(draw.choice([*KEYS, 'nobody']), safe='')}", None, drawn_body(draw)


def asked(connection, request):
    """The status and the body of an answer, without its words for a person; they are not empty."""
    method, path, tags, body = request
    if tags and "TAG" in tags:
        _, tag, _ = once(connection, method, path, None, body)
        tags = tags.replace("TAG", tag or '"none"')
    status, tag, text = once(connection, method, path, tags, body)
    assert tag is None or status == 304 or tag == f'"{hashlib.sha256(text).hexdigest()}"', tag
    if not text.startswith(b"{"):
        return status, text
    value = json.loads(text)
    assert text == compact(value), text
    for part in [value, *value.get("flags", [])]:
        if "errorDetails" in part:
            assert part.pop("errorDetails") != "", text
    return status, value


def once(connection, method, path, tags, body):
    """The status, the tag and the bytes of one answer."""
    headers = {"Content-Type": "application/json"}
    connection.request(method, path, body, headers if tags is None else {**headers, "If-None-Match": tags})
    told = connection.getresponse()
    return told.status, told.getheader("ETag"), told.read()


class Requests(ServiceTest):
    """Both servers are asked the same."""

    def test_random_requests(self):
        for turn in range(4):
            with self.subTest(turn):
                self.compare(SEED * 4 + turn, COUNT // 4)

    def compare(self, seed, count):
        document = drawn_document(random.Random(seed))
        self.put("d", compact(document).decode())
        child = self.start("--log", f"log-{seed}", "--workers", "2", "--poll", "0")
        server, other = Server(document), []
        threads = [threading.Thread(target=self.ask_both, args=(server, seed * 100 + it, count // CONNECTIONS, other)) for it in range(CONNECTIONS)]
        for thread in threads:
            thread.start()
        for thread in threads:
            thread.join()
        server.shutdown()
        server.server_close()
        child.kill()
        self.assertEqual(other, [], document)

    def ask_both(self, server, seed, count, other):
        draw = random.Random(seed)
        ours = http.client.HTTPConnection("127.0.0.1", self.port, timeout=SECONDS)
        theirs = http.client.HTTPConnection("127.0.0.1", server.server_port, timeout=SECONDS)
        try:
            for _ in range(count):
                request = drawn_request(draw)
                told, wanted = asked(ours, request), asked(theirs, request)
                if told != wanted:
                    other.append((request, told, wanted))
                    return
        except Exception as fault:
            other.append((request, repr(fault)))
        finally:
            ours.close()
            theirs.close()


if __name__ == "__main__":
    unittest.main()
