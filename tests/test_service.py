"""The command `ofrep` over the loopback: what it answers over HTTP, and what its logs hold then."""
import concurrent.futures
import hashlib
import http.client
import json
import os
import re
import resource
import select
import shutil
import signal
import stat
import socket
import struct
import subprocess
import tempfile
import threading
import unittest

from program import PROGRAM, SECONDS, free_port, run, wait_until
from test_planner import murmur3

FLAGS = "/ofrep/v1/evaluate/flags"
JSON = "application/json"

# What is told of a document that cannot be read again, or is broken.
KEPT = "the last version that was accepted stays in use"

# A flag for each answer: one variant by a rule, one always, one of another kind, and those that have none.
DOCUMENT = {
    "flags": {
        "broken": {"state": "ENABLED"},
        "color": {
            "state": "ENABLED",
            "variants": {"red": "r", "blue": "b"},
            "defaultVariant": "red",
            "targeting": {"fractional": [["red", 50], ["blue", 50]]},
        },
        "default": {"state": "ENABLED", "variants": {"on": True, "off": False}},
        "off": {"state": "DISABLED", "variants": {"on": True}, "defaultVariant": "on"},
        "size": {"state": "ENABLED", "variants": {"one": 1, "two": 2}, "defaultVariant": "two"},
        "two words/ß": {"state": "ENABLED", "variants": {"on": True}, "defaultVariant": "on"},
    }
}


def compact(value):
    """The text of a value as the service prints it."""
    return json.dumps(value, separators=(",", ":"), sort_keys=True, ensure_ascii=False)


def context(key=None, **more):
    """The body of a request with this targeting key."""
    members = dict(more) if key is None else {"targetingKey": key, **more}
    return compact({"context": members}).encode()


def color_of(key):
    """What the program itself resolves the flag `color` to."""
    files = {"d": compact(DOCUMENT), "c": compact({"targetingKey": key})}
    told = json.loads(run(["resolve", "d", "color", "text", '"x"', "c", "0"], files).out)
    return {"key": "color", "metadata": {}, **{name: told[name] for name in ("reason", "value", "variant")}}


class ServiceTest(unittest.TestCase):
    """A service of its own for each test."""

    def setUp(self):
        folder = tempfile.TemporaryDirectory()
        self.addCleanup(folder.cleanup)
        self.folder = folder.name
        self.put("d", compact(DOCUMENT))

    def put(self, name, text):
        """A file of the folder, which is replaced whole: a service may read it at any moment."""
        path = os.path.join(self.folder, name)
        with open(path + ".new", "w", encoding="utf-8") as file:
            file.write(text)
        os.replace(path + ".new", path)

    def start(self, *words, documents=("d",), **more):
        """A service that listens. `more` goes to `subprocess.Popen`."""
        self.port = free_port(self)
        words = [PROGRAM, "ofrep", "--listen", f"127.0.0.1:{self.port}", *words, *documents]
        how = {"stdout": subprocess.PIPE, "stderr": subprocess.PIPE, "text": True, "cwd": self.folder, **more}
        child = subprocess.Popen(words, **how)
        self.addCleanup(child.communicate)
        self.addCleanup(child.kill)
        self.assertEqual(child.stdout.readline(), f"serving {len(documents)}\n")
        return child

    def connect(self):
        """A connection to the service."""
        return socket.create_connection(("127.0.0.1", self.port), SECONDS)

    def ask(self, method, path, body=b"", headers={}):
        """The status, the headers and the body of one answer."""
        connection = http.client.HTTPConnection("127.0.0.1", self.port, timeout=SECONDS)
        try:
            connection.request(method, path, body, dict(headers))
            answer = connection.getresponse()
            return answer.status, dict(answer.getheaders()), answer.read()
        finally:
            connection.close()

    def flag(self, key, body=b""):
        """The status and the body of the answer for one flag."""
        status, headers, text = self.ask("POST", f"{FLAGS}/{key}", body)
        value = {name.lower(): text for name, text in headers.items()}
        self.assertEqual(value["content-type"], JSON)
        told = json.loads(text)
        self.assertEqual(text.decode(), compact(told))
        return status, told

    def every(self, body):
        """The status and the body of a request for every flag that fails."""
        status, _, told = self.ask("POST", FLAGS, body)
        return status, json.loads(told)

    def told(self, child, part, count=1):
        """Waits until a service has told this in so many lines; all that it has told by then."""
        lines = []
        while sum(part in line for line in lines) < count:
            lines.append(child.stderr.readline())
            self.assertNotEqual(lines[-1], "", lines)
        return "".join(lines)

    def levels(self, told):
        """The level and the text of each line, which begins with its time and a level."""
        lines = [re.fullmatch(r"\d{4}-[01]\d-[0-3]\dT[0-2]\d:[0-5]\d:[0-5]\d\.\d{3}Z (INFO|WARN|ERROR) (.*)", line) for line in told.splitlines()]
        self.assertNotIn(None, lines, told)
        return [line.groups() for line in lines]

    def reopened(self):
        """How often a log was opened anew, by the reasons for which one was."""
        text = self.ask("GET", "/metrics")[2].decode()
        return {reason: int(count) for reason, count in re.findall(r'^ofrep_log_reopened_total{reason="(\w+)"} ([1-9]\d*)$', text, re.MULTILINE)}

    def notes(self, folder="log"):
        """The lines of all logs, which are whole."""
        lines = []
        for name in sorted(os.listdir(os.path.join(self.folder, folder))):
            with open(os.path.join(self.folder, folder, name), encoding="utf-8") as file:
                text = file.read()
            self.assertTrue(text == "" or text.endswith("\n"))
            lines += text.splitlines()
        return lines


class Answers(ServiceTest):
    """What is answered."""

    def setUp(self):
        super().setUp()
        self.child = self.start("--log", "log", "--workers", "2", "--poll", "0")

    def test_one_flag(self):
        for key in ("mallory", "alice", "bob", ""):
            with self.subTest(key):
                self.assertEqual(self.flag("color", context(key)), (200, color_of(key)))
        told = {"key": "size", "metadata": {}, "reason": "STATIC", "value": 2, "variant": "two"}
        self.assertEqual(self.flag("size"), (200, told))
        self.assertEqual(self.flag("size", b'{"context":null}'), (200, told))
        self.assertEqual(self.flag("two%20words%2F%C3%9F")[1]["key"], "two words/ß")

    def test_flags_without_a_variant(self):
        for key in ("nobody", "off", "default"):
            with self.subTest(key):
                status, told = self.flag(key)
                self.assertEqual((status, told["errorCode"], told["key"]), (404, "FLAG_NOT_FOUND", key))
                self.assertNotEqual(told["errorDetails"], "")
                self.assertNotIn("value", told)
        status, told = self.flag("broken")
        self.assertEqual((status, told["errorCode"]), (400, "PARSE_ERROR"))

    def test_a_key_that_is_near(self):
        for key, near in (("colour", "color"), ("Color", "color"), ("colro", "color"), ("size1", "size")):
            with self.subTest(key):
                told = {"errorCode": "FLAG_NOT_FOUND", "errorDetails": f'no flag has this key; perhaps "{near}" is meant', "key": key}
                self.assertEqual(self.flag(key), (404, told))
        for key in ("nobody", "colour" + "r" * 70):
            with self.subTest(key):
                self.assertEqual(self.flag(key)[1]["errorDetails"], "no flag has this key")

    def test_contexts(self):
        bodies = [
            (b"{", "PARSE_ERROR"),
            (b"[]", "INVALID_CONTEXT"),
            (b'{"context":1}', "INVALID_CONTEXT"),
            (b'{"context":{"a":[05]}}', "PARSE_ERROR"),
            (b'{"context":{"a":[5.]}}', "PARSE_ERROR"),
        ]
        for body, code in bodies:
            with self.subTest(body):
                status, told = self.flag("color", body)
                self.assertEqual((status, told["errorCode"], told["key"]), (400, code, "color"))

    def test_numbers_as_they_are_sent(self):
        """A number that is not whole is in nobody's way, however deep it stands; a whole one is whole however it is spelled."""
        deep = b'{"context":{"targetingKey":"anna","a":' + b"[" * 100 + b"0.5" + b"]" * 100 + b"}}"
        bodies = [
            b'{"context":{"targetingKey":"anna","a":{"b":[1,1.5]}}}',
            b'{"context":{"targetingKey":"anna","a":[1e999]}}',
            b'{"x":0.5,"context":{"targetingKey":"anna","b":-0,"a":[[],{"c":9007199254740992}]}}',
            b'{"context":{"targetingKey":"anna","latitude":52.1,"age":5.0}}',
            deep,
        ]
        plain = b'{"context":{"targetingKey":"anna"}}'
        for body in bodies:
            with self.subTest(body):
                self.assertEqual(self.flag("color", body), self.flag("color", plain))
                self.assertEqual(self.every(body), self.every(plain))

    def test_the_way_to_what_nests_too_deep(self):
        rows = [
            ('{"":' * 120 + "{}" + "}" * 120, "context" + "." * 120),
            ('{"x":0.5,"":' * 120 + "[]" + "}" * 120, "context" + "." * 120),
            ('{"a":' * 122 + "1" + "}" * 122, "context" + ".a" * 20 + ".."),
            ('{"a":' + "[1," * 119 + "{}" + "]" * 119 + "}", "context.a" + "[1]" * 53 + ".."),
        ]
        for tree, way in rows:
            body = b'{"context":' + tree.encode() + b"}"
            with self.subTest(body):
                for status, told in (self.flag("color", body), self.every(body)):
                    self.assertEqual((status, told["errorCode"]), (400, "INVALID_CONTEXT"))
                    self.assertEqual(told["errorDetails"], f"`{way}` nests deeper than 120 levels")
        for levels in (128, 5_000, 200_000):
            for body in (b'{"context":' + b"[" * levels + b"]" * levels + b"}", b"[" * levels):
                with self.subTest(levels=levels):
                    for status, told in (self.flag("color", body), self.every(body)):
                        self.assertEqual((status, told["errorCode"]), (400, "INVALID_CONTEXT"))
        texts = b'{"context":{"a":"' + b"[" * 200 + b'\\"' + b"{" * 200 + b'"}}'
        self.assertEqual(self.flag("color", texts)[0], 200)
        self.assertEqual(self.flag("color", b"[" * 127)[1]["errorCode"], "PARSE_ERROR")
        fits = b'{"context":' + b'{"":' * 119 + b"{}" + b"}" * 120
        self.assertEqual(self.flag("color", fits)[0], 200)

    def test_every_flag(self):
        status, headers, body = self.ask("POST", FLAGS, context("mallory"))
        self.assertEqual(status, 200)
        told = json.loads(body)["flags"]
        self.assertEqual([flag["key"] for flag in told], ["broken", "color", "size", "two words/ß"])
        self.assertEqual(told[1], color_of("mallory"))
        for flag in told[1:]:
            self.assertEqual(self.flag(quoted(flag["key"]), context("mallory")), (200, flag))
        tag = {name.lower(): value for name, value in headers.items()}["etag"]
        self.assertEqual(tag, f'"{hashlib.sha256(body).hexdigest()}"')
        for given in (tag, "*", f'"x", W/{tag}', f'"x" , {tag}'):
            with self.subTest(given):
                status, _, rest = self.ask("POST", FLAGS, context("mallory"), {"If-None-Match": given})
                self.assertEqual((status, rest), (304, b""))
        status, _, rest = self.ask("POST", FLAGS, context("mallory"), {"If-None-Match": '"x"'})
        self.assertEqual((status, rest), (200, body))

    def test_other_places(self):
        for path in ("/healthz", "/readyz"):
            status, _, body = self.ask("GET", path)
            self.assertEqual((status, body), (200, b"ok"))
        status, headers, _ = self.ask("GET", f"{FLAGS}/color")
        self.assertEqual((status, headers.get("Allow", headers.get("allow"))), (405, "POST"))
        for path in ("/", "/ofrep/v1/evaluate/flag"):
            with self.subTest(path):
                status, _, body = self.ask("POST", path)
                self.assertEqual(status, 404)
                self.assertIn("errorDetails", json.loads(body))
        for segment in ("", "%FF", "%zz", "a/b", "%FF/"):
            with self.subTest(segment):
                status, told = self.flag(segment)
                self.assertEqual((status, told["errorCode"], told["key"]), (404, "FLAG_NOT_FOUND", segment))
                self.assertTrue(told["errorDetails"])

    def test_head_is_get_without_its_body(self):
        for path in ("/healthz", "/readyz", "/metrics"):
            with self.subTest(path):
                status, _, body = self.ask("GET", path)
                told, headers, rest = self.ask("HEAD", path)
                self.assertEqual((status, told, rest), (200, 200, b""))
                self.assertGreater(int({name.lower(): value for name, value in headers.items()}["content-length"]), 0)
        for method, path, methods in (("POST", "/healthz", "GET, HEAD"), ("PUT", "/metrics", "GET, HEAD"), ("HEAD", f"{FLAGS}/color", "POST")):
            with self.subTest(method, path=path):
                status, headers, _ = self.ask(method, path)
                self.assertEqual((status, {name.lower(): value for name, value in headers.items()}["allow"]), (405, methods))

    def metrics(self):
        """What the service counts, by name."""
        status, _, body = self.ask("GET", "/metrics")
        self.assertEqual(status, 200)
        return dict(line.rsplit(" ", 1) for line in body.decode().splitlines() if line[0] != "#")

    def test_evaluations_are_counted_by_reason(self):
        self.flag("nobody")
        self.ask("POST", FLAGS, context("mallory"))
        self.flag("color", b"{")
        lines = self.metrics()
        reasons = {"STATIC": "2", "TARGETING_MATCH": "1", "DEFAULT": "1", "DISABLED": "1", "ERROR": "2"}
        for reason, count in reasons.items():
            with self.subTest(reason):
                self.assertEqual(lines[f'ofrep_evaluations_total{{reason="{reason}"}}'], count)

    def test_metrics(self):
        self.flag("color", context("mallory"))
        self.flag("nobody")
        lines = self.metrics()
        self.assertEqual(lines['ofrep_requests_total{status="200"}'], "1")
        self.assertEqual(lines['ofrep_requests_total{status="404"}'], "1")
        self.assertEqual((lines["ofrep_notes_total"], lines["ofrep_snapshot"]), ("1", "1"))
        self.assertEqual(lines["ofrep_flags"], str(len(DOCUMENT["flags"])))
        version = subprocess.run([PROGRAM, "--version"], capture_output=True, text=True, check=True).stdout.split()[1]
        self.assertEqual(lines[f'flagops_build_info{{version="{version}"}}'], "1")

    def test_each_family_has_its_kind_and_its_help(self):
        _, _, body = self.ask("GET", "/metrics")
        lines = body.decode().splitlines()
        kinds = {line.split(" ")[2]: line.split(" ")[3] for line in lines if line.startswith("# TYPE ")}
        helps = [line.split(" ")[2] for line in lines if line.startswith("# HELP ") and len(line.split(" ")) > 3]
        self.assertEqual(sorted(kinds), sorted(helps))
        for line in lines:
            if not line.startswith("#"):
                name, value = line.split("{")[0].split(" ")[0], line.rsplit(" ", 1)[1]
                family = name if name in kinds else name.rsplit("_", 1)[0]
                self.assertIn(family, kinds)
                self.assertEqual(kinds[family] == "counter", family.endswith("_total"), family)
                self.assertGreaterEqual(float(value), 0)

    def test_pieces_and_pipelines(self):
        body = context("mallory")
        head = f"POST {FLAGS}/color HTTP/1.1\r\nHost: h\r\nContent-Length: {len(body)}\r\n\r\n".encode()
        with self.connect() as stream:
            for byte in head + body:
                stream.sendall(bytes([byte]))
            first = self.whole_answer(stream)
            stream.sendall((head + body) * 50)
            for _ in range(50):
                self.assertEqual(self.whole_answer(stream), first)
        self.assertEqual(first, compact(color_of("mallory")).encode())

    def test_urgent_data_holds_up_no_request(self):
        """A read ends before urgent data, though more has come."""
        body = context("mallory")
        request = f"POST {FLAGS}/color HTTP/1.1\r\nHost: h\r\nContent-Length: {len(body)}\r\n\r\n".encode() + body
        with self.connect() as stream:
            stream.sendall(request)
            first = self.whole_answer(stream)
            self.child.send_signal(signal.SIGSTOP)
            stream.sendall(request)
            stream.send(b"!", socket.MSG_OOB)
            stream.sendall(request)
            self.child.send_signal(signal.SIGCONT)
            self.assertEqual([self.whole_answer(stream) for _ in range(2)], [first] * 2)

    def whole_answer(self, stream):
        """The body of the next answer on a connection."""
        answer = http.client.HTTPResponse(stream)
        kept, answer.fp = answer.fp, Unbuffered(stream)
        kept.close()
        answer.begin()
        return answer.read()

    def test_bad_heads(self):
        for head in (b"NONSENSE\r\n\r\n", b"GET / HTTP/1.1\r\nbad header\r\n\r\n", b"GET / HTTP/1.1\r\n\r\n"):
            with self.subTest(head), self.connect() as stream:
                stream.sendall(head)
                self.assertTrue(stream.recv(4096).startswith(b"HTTP/1.1 400 "))
        with self.connect() as stream:
            stream.sendall(b"POST / HTTP/1.1\r\nHost: h\r\nContent-Length: 1048577\r\n\r\n")
            self.assertTrue(stream.recv(4096).startswith(b"HTTP/1.1 413 "))

    def test_who_is_still_sending_sees_the_refusal(self):
        with self.connect() as stream:
            stream.sendall(b"POST / HTTP/1.1\r\nHost: h\r\nContent-Length: 1048577\r\n\r\n" + b"x" * 60_000)
            told = b""
            while part := stream.recv(4096):
                told += part
        self.assertTrue(told.startswith(b"HTTP/1.1 413 "), told)

    def test_expect_continue(self):
        body = context("mallory")
        with self.connect() as stream:
            head = f"POST {FLAGS}/color HTTP/1.1\r\nHost: h\r\nExpect: 100-continue\r\nContent-Length: {len(body)}\r\n\r\n"
            stream.sendall(head.encode())
            self.assertTrue(stream.recv(4096).startswith(b"HTTP/1.1 100 "))
            stream.sendall(body)
            self.assertTrue(stream.recv(4096).startswith(b"HTTP/1.1 200 "))


class Browsers(ServiceTest):
    """Requests of web pages (the CORS protocol of the Fetch standard), and bodies that say to be something else than JSON."""

    APP = "https://app.example.com"
    SHARED = {"access-control-allow-origin": APP, "access-control-expose-headers": "ETag", "vary": "Origin"}
    ALLOWED = {"access-control-allow-methods": "POST", "access-control-allow-headers": "content-type, if-none-match, authorization, x-api-key", "access-control-max-age": "600"}

    def of(self, method, path, body=b"", **headers):
        """The status, the headers by their names in lower case, and the body of an answer."""
        status, told, text = self.ask(method, path, body, {name.replace("_", "-"): value for name, value in headers.items()})
        return status, {name.lower(): value for name, value in told.items()}, text

    def begin(self, *words):
        return self.start("--log", "log", "--workers", "1", "--poll", "0", *words)

    def refused(self, origin, method="POST", path=f"{FLAGS}/color"):
        """A request of a page of this origin is forbidden, and its browser keeps the answer from it."""
        with self.subTest(origin, method=method, path=path):
            status, headers, text = self.of(method, path, context("mallory"), Origin=origin)
            self.assertEqual((status, headers["content-type"], list(json.loads(text))), (403, JSON, ["errorDetails"]))
            self.assertFalse({*self.SHARED, *self.ALLOWED} & set(headers), headers)

    def test_no_page_may_ask(self):
        self.begin()
        for origin in (self.APP, "null", "", "http://127.0.0.1"):
            self.refused(origin)
            self.refused(origin, path=FLAGS)
            self.refused(origin, "OPTIONS")
        self.refused(self.APP, "GET", "/healthz")
        self.refused(self.APP, "GET", "/metrics")
        self.assertEqual(self.notes(), [])
        self.assertEqual(self.of("OPTIONS", f"{FLAGS}/color")[0], 405)
        self.assertEqual(self.flag("color", context("mallory")), (200, color_of("mallory")))
        self.assertEqual(len(self.notes()), 1)

    def test_pages_of_listed_origins(self):
        self.begin("--cors", "https://other.example.com", "--cors", self.APP)
        for path, body in ((f"{FLAGS}/color", context("mallory")), (FLAGS, context("mallory")), (f"{FLAGS}/nobody", b""), (f"{FLAGS}/color", b"{")):
            with self.subTest(path, body=body):
                status, headers, text = self.of("POST", path, body)
                self.assertFalse(set(self.SHARED) & set(headers), headers)
                self.assertEqual(self.of("POST", path, body, Origin=self.APP), (status, {**headers, **self.SHARED}, text))
        tag = self.of("POST", FLAGS, context("mallory"))[1]["etag"]
        status, headers, text = self.of("POST", FLAGS, context("mallory"), Origin=self.APP, If_None_Match=tag)
        self.assertEqual((status, headers["etag"], text), (304, tag, b""))
        self.assertEqual({name: headers[name] for name in self.SHARED}, self.SHARED)
        self.assertEqual(self.of("GET", "/healthz", Origin=self.APP)[1].keys() & set(self.SHARED), set())
        for origin in ("https://other.example.com.evil.org", "https://app.example.com/", "http://app.example.com", "HTTPS://APP.EXAMPLE.COM", "null", "*"):
            self.refused(origin)

    def test_what_a_browser_asks_first(self):
        self.begin("--cors", self.APP)
        for path in (FLAGS, f"{FLAGS}/color", f"{FLAGS}/nobody"):
            with self.subTest(path):
                asked = {"Access_Control_Request_Method": "POST", "Access_Control_Request_Headers": "content-type"}
                status, headers, text = self.of("OPTIONS", path, Origin=self.APP, **asked)
                self.assertEqual((status, text), (204, b""))
                for name, value in {**self.SHARED, **self.ALLOWED}.items():
                    self.assertEqual(headers.get(name), value, name)
        self.assertEqual(self.of("OPTIONS", "/metrics", Origin=self.APP)[0], 405)
        self.assertEqual(self.notes(), [])

    def test_origins_that_no_browser_names(self):
        rows = [
            ("1 NoOrigin", ["", "app.example.com", "https:app.example.com", "https://", "//app.example.com", "localhost:3000"]),
            ("2 UpperCase", ["HTTPS://app.example.com", "https://App.example.com"]),
            ("3 Path", ["https://app.example.com/", "https://app.example.com/shop", "https://app.example.com?a", "https://app.example.com#a", "https://app.example.com,https://b.example.com"]),
            ("4 OwnPort", ["https://app.example.com:443", "http://app.example.com:80", "http://[::1]:80"]),
            ("5 BadByte", ["https://*.example.com", "https://me@app.example.com", "https://app.example.com,b.example.com", "https://münchen.example"]),
        ]
        for name, origins in rows:
            for origin in origins:
                with self.subTest(origin):
                    told = run(["ofrep", "--cors", self.APP, "--cors", origin, "--keys", "none", "d"], {"d": compact(DOCUMENT)})
                    self.assertEqual((told.out, told.status), (f"refused cors {name}\n", 1))
                    self.assertIn(f'the origin "{origin}" of --cors', told.err)
        origins = ["null", "http://localhost:3000", "https://app.example.com:8443", "http://[::1]:8080", "http://10.0.0.1", "app-1+x.y://local_host"]
        self.begin(*(word for origin in origins for word in ("--cors", origin)))
        for origin in origins:
            with self.subTest(origin):
                self.assertEqual(self.of("POST", f"{FLAGS}/size", Origin=origin)[0], 200)

    def test_any_origin(self):
        self.begin("--cors", "*")
        for origin in (self.APP, "null", "http://localhost:3000"):
            with self.subTest(origin):
                status, headers, _ = self.of("POST", f"{FLAGS}/size", Origin=origin)
                self.assertEqual((status, headers["access-control-allow-origin"]), (200, origin))

    def test_types_of_bodies(self):
        self.begin("--cors", self.APP)
        body = context("mallory")
        for kind in ("text/plain", "text/plain; application/json", "application/x-www-form-urlencoded", "application/jsonx", "application/json, text/plain", "application", ""):
            with self.subTest(kind):
                status, headers, text = self.of("POST", f"{FLAGS}/color", body, Content_Type=kind)
                self.assertEqual((status, headers["content-type"], list(json.loads(text))), (415, JSON, ["errorDetails"]))
        for coding in ("gzip", "identity"):
            with self.subTest(coding):
                status, headers, _ = self.of("POST", FLAGS, body, Content_Type=JSON, Content_Encoding=coding, Origin=self.APP)
                self.assertEqual((status, headers["access-control-allow-origin"]), (415, self.APP))
        self.assertEqual(self.notes(), [])
        for kind in (JSON, "application/json;charset=utf-8", "Application/JSON ; a=b", "application/json  ", "application/json;"):
            with self.subTest(kind):
                self.assertEqual(self.of("POST", f"{FLAGS}/color", body, Content_Type=kind)[0], 200)
        self.assertEqual(self.of("GET", "/healthz", Content_Type="text/plain")[0], 200)

    def test_they_are_counted(self):
        self.begin("--cors", self.APP)
        self.of("POST", FLAGS, Origin="null")
        self.of("OPTIONS", FLAGS, Origin=self.APP)
        self.of("POST", FLAGS, b"x", Content_Type="text/plain")
        lines = self.of("GET", "/metrics")[2].decode().splitlines()
        for status in (403, 204, 415):
            self.assertIn(f'ofrep_requests_total{{status="{status}"}} 1', lines)


class Keys(ServiceTest):
    """Requests of clients that have to show a key."""

    ONE, OTHER = "0123456789abcdef", "another-key-of-24-bytes!"

    def asked(self, path=f"{FLAGS}/color", method="POST", **headers):
        """The status and the headers, by their names in lower case, of an answer."""
        status, told, _ = self.ask(method, path, context("mallory"), {name.replace("_", "-"): value for name, value in headers.items()})
        return status, {name.lower(): value for name, value in told.items()}

    def test_who_may_ask(self):
        self.put("k", f"{self.ONE}\n{self.OTHER}\n")
        self.start("--log", "log", "--workers", "1", "--poll", "0", "--keys", "k", "--cors", Browsers.APP)
        wrong = [
            {},
            {"Authorization": ""},
            {"Authorization": self.ONE},
            {"Authorization": f"Basic {self.ONE}"},
            {"Authorization": "Bearer "},
            {"Authorization": f"Bearer {self.ONE[:-1]}"},
            {"Authorization": f"Bearer {self.ONE}0"},
            {"Authorization": f"Bearer  {self.ONE}"},
            {"Authorization": f"Bearer {self.ONE}\t{self.OTHER}"},
            {"X-API-Key": ""},
            {"X-API-Key": f"Bearer {self.ONE}"},
            {"X-API-Key": self.OTHER.upper()},
        ]
        for headers in wrong:
            for path in (FLAGS, f"{FLAGS}/color", f"{FLAGS}/nobody"):
                with self.subTest(headers=headers, path=path):
                    status, told, text = self.ask("POST", path, context("mallory"), headers)
                    told = {name.lower(): value for name, value in told.items()}
                    self.assertEqual((status, told["www-authenticate"], told["content-type"], list(json.loads(text))), (401, "Bearer", JSON, ["errorDetails"]))
        self.assertEqual(self.notes(), [])
        right = [{"Authorization": f"Bearer {self.ONE}"}, {"Authorization": f"bEARER {self.OTHER}"}, {"X_API_Key": self.OTHER}, {"Authorization": "Basic YTpi", "X_API_Key": self.ONE}]
        for headers in right:
            with self.subTest(headers=headers):
                self.assertEqual(self.asked(**headers)[0], 200)
        self.assertEqual(len(self.notes()), 1)
        for path in ("/healthz", "/readyz", "/metrics"):
            self.assertEqual(self.asked(path, "GET")[0], 200)
        self.assertEqual(self.asked(Origin=Browsers.APP)[1]["access-control-allow-origin"], Browsers.APP)
        self.assertEqual(self.asked(method="OPTIONS", Origin=Browsers.APP)[0], 204)
        self.assertEqual(self.asked(Origin="null", X_API_Key=self.ONE)[0], 403)
        count = 3 * len(wrong) + 1
        self.assertIn(f'ofrep_requests_total{{status="401"}} {count}', self.ask("GET", "/metrics")[2].decode().splitlines())

    def test_the_file_is_read_again(self):
        self.put("k", self.ONE)
        child = self.start("--poll", "1", "--keys", "k")
        self.assertEqual(self.asked(X_API_Key=self.ONE)[0], 200)
        self.assertEqual(self.asked(X_API_Key=self.OTHER)[0], 401)
        self.put("k", self.OTHER)
        wait_until(lambda: self.asked(X_API_Key=self.OTHER)[0] == 200, "the new key is not taken")
        wait_until(lambda: self.asked(X_API_Key=self.ONE)[0] == 401, "the old key is taken still")
        for text, part in ((f"{self.ONE}\nshort\n", 'error: line 2 of "k" is not a key'), ("", 'error: "k" has no keys')):
            self.put("k", text)
            self.told(child, part)
            self.told(child, "the keys that were read last stay in use")
        self.assertEqual(self.asked(X_API_Key=self.OTHER)[0], 200)
        self.assertEqual([self.asked(X_API_Key=key)[0] for key in (self.ONE, "short")], [401, 401])

    def test_lines_may_end_as_on_other_systems(self):
        """A carriage return before the end of a line is no part of the key."""
        with open(os.path.join(self.folder, "k"), "w", encoding="utf-8", newline="") as file:
            file.write(f"{self.ONE}\r\n{self.OTHER}\r\n")
        self.start("--keys", "k")
        for key in (self.ONE, self.OTHER):
            self.assertEqual(self.asked(X_API_Key=key)[0], 200)

    def test_files_without_keys(self):
        rows = [(None, "1 Unreadable"), ("", "2 NoKey"), ("0" * 65537, "3 TooLarge"), ("0" * 15, "4 BadKey"), (f"{self.ONE}\n\n{self.OTHER}\n", "4 BadKey"), (f"{self.ONE} \n", "4 BadKey"), ("0123456789abcdeß", "4 BadKey")]
        for text, name in rows:
            with self.subTest(text):
                files = {"d": compact(DOCUMENT)} if text is None else {"d": compact(DOCUMENT), "k": text}
                told = run(["ofrep", "--keys", "k", "d"], files)
                self.assertEqual((told.out, told.status), (f"refused keys {name}\n", 1))
                self.assertIn('"k"', told.err)

    def test_the_line_that_is_no_key(self):
        for text, line in ((f"{self.ONE}\n\n{self.OTHER}\n", 2), ("short\n", 1), (f"{self.ONE}\r\n{self.OTHER}\r\n{self.ONE}\r", 3)):
            with self.subTest(text):
                told = run(["ofrep", "--keys", "k", "d"], {"d": compact(DOCUMENT), "k": text.encode()})
                self.assertEqual((told.out, told.status), ("refused keys 4 BadKey\n", 1))
                self.assertIn(f'line {line} of "k" is not a key', told.err)
        told = run(["ofrep", "--keys", "k", "d"], {"d": compact(DOCUMENT), "k": b"0123456789abcde\xff\n"})
        self.assertEqual((told.out, told.status), ("refused keys 4 BadKey\n", 1))
        self.assertIn('"k" is not a text in UTF-8', told.err)


class Operations(ServiceTest):
    """A listener of its own for operations."""

    PATHS = ("/healthz", "/readyz", "/metrics")

    def operated(self, *words):
        """A service with such a listener."""
        self.admin = free_port(self)
        return self.start("--admin", f"127.0.0.1:{self.admin}", "--workers", "1", "--poll", "0", *words)

    def asked(self, method, path, body=b"", **headers):
        """The status, the headers by their names in lower case, and the body of an answer of the listener for operations."""
        port, self.port = self.port, self.admin
        try:
            status, told, text = self.ask(method, path, body, headers)
        finally:
            self.port = port
        return status, {name.lower(): value for name, value in told.items()}, text

    def test_operations_are_served_there_alone(self):
        child = self.operated("--log", "log")
        unknown = self.ask("GET", "/nowhere")
        self.assertEqual(unknown[0], 404)
        for path in self.PATHS:
            with self.subTest(path):
                self.assertEqual(self.asked("GET", path)[0], 200)
                status, _, text = self.ask("GET", path)
                self.assertEqual((status, text), (404, unknown[2]))
        for path in (FLAGS, f"{FLAGS}/color", "/nowhere"):
            with self.subTest(path):
                self.assertEqual(self.asked("POST", path, context("mallory"))[0], 404)
        self.assertEqual(self.notes(), [])
        self.assertEqual(self.flag("color", context("mallory")), (200, color_of("mallory")))
        self.assertEqual(len(self.notes()), 1)
        lines = self.asked("GET", "/metrics")[2].decode().splitlines()
        self.assertIn("ofrep_notes_total 1", lines)
        self.told(child, f"serves /healthz, /readyz and /metrics on 127.0.0.1:{self.admin}")

    def test_without_it_they_stay_where_they_are(self):
        self.start()
        for path in self.PATHS:
            self.assertEqual(self.ask("GET", path)[0], 200)

    def test_who_is_answered_there(self):
        """Whoever names the listener itself; so no page of another host, whatever name its host is given."""
        self.operated("--allow-stop")
        port = self.admin
        for host in (f"127.0.0.1:{port}", f"localhost:{port}", f"LocalHost:{port}"):
            with self.subTest(host):
                self.assertEqual(self.asked("GET", "/healthz", Host=host)[0], 200)
                self.assertEqual(self.asked("GET", "/healthz", Host=host, Origin=f"http://127.0.0.1:{port}")[0], 200)
        for host in ("127.0.0.1", "localhost", f"example.com:{port}", f"127.0.0.2:{port}", f"localhost:{port}0", f"localhost.:{port}", f"127.0.0.1:{self.port}"):
            for path in self.PATHS + ("/stop", FLAGS):
                with self.subTest(host, path=path):
                    status, headers, text = self.asked("POST", path, Host=host)
                    self.assertEqual((status, headers["content-type"], list(json.loads(text))), (403, JSON, ["errorDetails"]))
        for origin in ("http://example.com", "null", "", f"https://127.0.0.1:{port}", "http://127.0.0.1", f"http://127.0.0.1:{self.port}", f"http://localhost:{port}/"):
            for path in self.PATHS + ("/stop",):
                with self.subTest(origin, path=path):
                    self.assertEqual(self.asked("POST", path, Origin=origin)[0], 403)
        self.assertEqual(self.asked("GET", "/readyz")[0], 200)

    def test_on_every_address(self):
        """Where it listens on every address, any of them may be named, and still no other name."""
        self.admin = free_port(self)
        self.start("--admin", f"0.0.0.0:{self.admin}")
        for host, status in ((f"10.1.2.3:{self.admin}", 200), (f"[::1]:{self.admin}", 200), (f"example.com:{self.admin}", 403), (f"10.1.2.example:{self.admin}", 403), ("10.1.2.3", 403)):
            with self.subTest(host):
                self.assertEqual(self.asked("GET", "/healthz", Host=host)[0], status)

    def test_a_log_that_fails_is_told_there(self):
        if not os.path.exists("/dev/full"):
            self.skipTest("no /dev/full")
        os.mkdir(os.path.join(self.folder, "log"))
        os.symlink("/dev/full", os.path.join(self.folder, "log", "worker-1.log"))
        self.operated("--log", "log")
        self.assertEqual(self.flag("color", context("mallory"))[0], 500)
        self.assertEqual(self.asked("GET", "/readyz")[0], 503)

    def test_it_stops_when_it_is_asked_to(self):
        child = self.operated("--log", "log", "--allow-stop")
        self.assertEqual(self.flag("color", context("mallory"))[0], 200)
        status, headers, _ = self.asked("GET", "/stop")
        self.assertEqual((status, headers["allow"]), (405, "POST"))
        self.assertEqual(self.ask("POST", "/stop")[0], 404)
        status, _, text = self.asked("POST", "/stop")
        self.assertEqual((status, text), (200, b'{"stops":true}'))
        self.assertEqual(child.wait(SECONDS), 0)
        self.assertIn("ofrep: stopped", child.stderr.read())
        self.assertEqual(len(self.notes()), 1)

    def test_answers_under_way_are_sent(self):
        child = self.operated("--allow-stop")
        body = context("mallory")
        head = f"POST {FLAGS}/color HTTP/1.1\r\nHost: h\r\nContent-Length: {len(body)}\r\n\r\n".encode()
        with self.connect() as stream:
            stream.sendall(head + body[:5])
            self.flag("size")
            self.assertEqual(self.asked("POST", "/stop")[0], 200)
            self.assertEqual(self.asked("GET", "/readyz")[::2], (503, b"the service is stopping"))
            self.assertEqual(self.asked("GET", "/healthz")[0], 200)
            wait_until(self.refuses, "new connections are refused")
            stream.sendall(body[5:])
            answer = http.client.HTTPResponse(stream)
            answer.begin()
            self.assertEqual(json.loads(answer.read()), color_of("mallory"))
        self.assertEqual(child.wait(SECONDS), 0)

    def refuses(self):
        """Whether no connection to the address of the flags is answered any more."""
        try:
            with self.connect():
                return False
        except ConnectionRefusedError:
            return True

    def test_nobody_may_stop_it(self):
        self.operated()
        for method in ("POST", "GET"):
            self.assertEqual(self.asked(method, "/stop")[0], 404)
        self.assertEqual(self.asked("GET", "/readyz")[0], 200)

    def test_addresses_that_it_cannot_have(self):
        with socket.socket() as taken:
            taken.bind(("127.0.0.1", 0))
            taken.listen()
            port = taken.getsockname()[1]
            for address, why in (
                ("nowhere", "is not ADDRESS:PORT"),
                ("localhost", "is not ADDRESS:PORT"),
                ("127.0.0.1", "is not ADDRESS:PORT"),
                (f"127.0.0.1:{port}", "is in use"),
                (f"localhost:{port}", "is in use"),
            ):
                with self.subTest(address):
                    told = run(["ofrep", "--listen", "127.0.0.1:0", "--admin", address, "d"], {"d": compact(DOCUMENT)})
                    self.assertEqual((told.out, told.status), ("refused bind 1 Unbound\n", 1))
                    self.assertIn(f'error: the address "{address}" of --admin {why}\n', told.err)

    def test_a_line_for_each_request(self):
        child = self.operated("--access-log")
        trace = "4bf92f3577b34da6a3ce929d0e0e4736"
        self.ask("POST", f"{FLAGS}/two%20words%2F%C3%9F?x=1", context("anna"), {"traceparent": f"00-{trace}-00f067aa0ba902b7-01"})
        for wrong in (f"00-{'0' * 32}-00f067aa0ba902b7-01", f"00-{trace.upper()}-00f067aa0ba902b7-01", f"00-{trace}", "", f"00:{trace}-00f067aa0ba902b7-01"):
            self.ask("POST", f"{FLAGS}/nobody", b"", {"traceparent": wrong})
        self.asked("GET", "/healthz")
        lines = [json.loads(line) for line in self.told(child, '"method"', 7).splitlines() if line.startswith("{")]
        for line in lines:
            self.assertRegex(line.pop("time"), r"\A\d{4}-[01]\d-[0-3]\dT[0-2]\d:[0-5]\d:[0-5]\d\.\d{3}Z\Z")
            self.assertGreaterEqual(line.pop("microseconds"), 0)
        self.assertIn({"method": "POST", "path": f"{FLAGS}/two%20words%2F%C3%9F", "status": 200, "trace": trace}, lines)
        self.assertEqual(lines.count({"method": "POST", "path": f"{FLAGS}/nobody", "status": 404}), 5)
        self.assertIn({"method": "GET", "path": "/healthz", "status": 200}, lines)

    def test_each_line_has_its_time_and_level(self):
        """Lines that go on with a report have its level."""
        child = self.operated()
        told, level = self.levels(self.told(child, "answers from snapshot 1")), None
        self.assertEqual({found for found, _ in told}, {"INFO", "WARN"})
        for found, line in told:
            level = {"ofrep": "INFO", "note": "WARN", "error": "ERROR"}.get(line.partition(": ")[0], level)
            self.assertEqual(found, level, line)

    def test_each_line_of_a_refusal_is_an_error(self):
        for words in (["--cors", "nowhere", "d"], ["--wrong", "d"]):
            with self.subTest(words):
                told = self.levels(run(["ofrep", *words], {"d": compact(DOCUMENT)}).err)
                self.assertGreater(len(told), 1)
                self.assertTrue(told[0][1].startswith("error: "), told)
                self.assertEqual({level for level, _ in told}, {"ERROR"})

    def test_no_line_without_it(self):
        child = self.operated()
        self.flag("size")
        child.kill()
        self.assertNotIn('"method"', child.stderr.read())


class Unbuffered:
    """Reads of a socket that take no byte of the next answer."""

    def __init__(self, stream):
        self.stream = stream

    def readline(self, limit=-1):
        line = b""
        while not line.endswith(b"\n") and len(line) != limit:
            line += self.received(1)
        return line

    def read(self, count):
        text = b""
        while len(text) < count:
            text += self.received(count - len(text))
        return text

    def received(self, most):
        part = self.stream.recv(most)
        if not part:
            raise EOFError("the connection was closed within an answer")
        return part

    def close(self):
        pass

    def flush(self):
        pass


def quoted(key):
    """A key as a part of a path."""
    return "".join(c if c.isalnum() and c.isascii() else "".join(f"%{b:02X}" for b in c.encode()) for c in key)


class Stacks(ServiceTest):
    """A worker's stack is its own, whatever the system gives a thread."""

    def test_a_deep_targeting_on_small_stacks(self):
        deep = {"var": "a"}
        for _ in range(46):
            deep = {"!": [deep]}
        flag = {"state": "ENABLED", "variants": {"on": True, "off": False}, "defaultVariant": "off"}
        self.put("d", compact({"flags": {"deep": {**flag, "targeting": {"if": [deep, "on", "off"]}}}}))
        small = lambda: resource.setrlimit(resource.RLIMIT_STACK, (1 << 17, 1 << 17))
        self.start("--workers", "2", "--poll", "0", preexec_fn=small)
        status, told = self.flag("deep", context("k", a=True))
        self.assertEqual((status, told["variant"]), (200, "on"))


class Turns(ServiceTest):
    """Many connections of one worker."""

    def pipeline(self, begun, stop):
        """Asks without a pause on one connection until it is told to stop. `begun` is set once it was answered."""
        requests = b"GET /healthz HTTP/1.1\r\nHost: h\r\n\r\n" * 5_000
        left = requests
        with self.connect() as stream:
            stream.setblocking(False)
            while not stop.is_set():
                readable, writable, _ = select.select([stream], [stream], [], 1)
                if readable and stream.recv(1 << 20):
                    begun.set()
                if writable:
                    left = left[stream.send(left) :] or requests

    def test_who_never_pauses_holds_up_nobody(self):
        self.start("--workers", "1", "--poll", "0")
        begun, stop = [threading.Event() for _ in range(3)], threading.Event()
        with concurrent.futures.ThreadPoolExecutor() as pool:
            busy = [pool.submit(self.pipeline, each, stop) for each in begun]
            try:
                self.assertTrue(all(each.wait(SECONDS) for each in begun))
                for _ in range(20):
                    self.assertEqual(self.flag("size")[1]["value"], 2)
            finally:
                stop.set()
        for each in busy:
            each.result()

    def takers(self, child, burst):
        """How many of 32 connections that wait at once each of four workers takes, by the log that has the note of each."""
        child.send_signal(signal.SIGSTOP)
        streams = [http.client.HTTPConnection("127.0.0.1", self.port, timeout=SECONDS) for _ in range(32)]
        for stream in streams:
            stream.connect()
        child.send_signal(signal.SIGCONT)
        for number, stream in enumerate(streams):
            stream.request("POST", f"{FLAGS}/color", context(f"{burst}-{number}"))
            self.assertEqual(stream.getresponse().status, 200)
            stream.close()
        return [len([line for line in self.notes_of(worker) if f'"color{burst}-' in line]) for worker in range(1, 5)]

    def notes_of(self, worker):
        with open(os.path.join(self.folder, "log", f"worker-{worker}.log"), encoding="utf-8") as file:
            return file.read().splitlines()

    def test_workers_share_the_connections(self):
        """A worker that is woken late, as on a busy machine, finds fewer: one burst of 20 is enough."""
        child = self.start("--log", "log", "--workers", "4", "--poll", "0")
        shares = (self.takers(child, burst) for burst in range(20))
        self.assertTrue(any(min(each) >= 4 and sum(each) == 32 for each in shares))


class Many(ServiceTest):
    """As many connections as a worker has at most."""

    MOST = 1024

    def is_healthy(self, stream):
        """Whether the service says on this connection that it is alive."""
        stream.sendall(b"GET /healthz HTTP/1.1\r\nHost: h\r\n\r\n")
        told = b""
        while not told.endswith(b"ok"):
            more = stream.recv(4096)
            if not more:
                return False
            told += more
        return told.startswith(b"HTTP/1.1 200 ")

    def test_the_one_that_was_idle_for_the_longest_time_makes_room(self):
        soft, hard = resource.getrlimit(resource.RLIMIT_NOFILE)
        wanted = 2 * self.MOST
        if hard < wanted:
            self.skipTest("too few descriptors")
        resource.setrlimit(resource.RLIMIT_NOFILE, (wanted, hard))
        self.addCleanup(resource.setrlimit, resource.RLIMIT_NOFILE, (soft, hard))
        self.start("--workers", "1")
        streams = []
        for _ in range(self.MOST + 1):
            streams.append(self.connect())
            self.addCleanup(streams[-1].close)
            self.assertTrue(self.is_healthy(streams[-1]))
        self.assertEqual(streams[0].recv(1), b"")
        self.assertTrue(self.is_healthy(streams[1]))


class Limits(ServiceTest):
    """How long a connection may be idle, and how large a body may be, where that is said."""

    def test_an_idle_connection_is_closed(self):
        self.start("--workers", "1", "--idle", "1")
        with self.connect() as stream:
            stream.sendall(b"GET /healthz HTTP/1.1\r\nHost: h\r\n\r\n")
            told = b""
            while part := stream.recv(4096):
                told += part
        self.assertTrue(told.startswith(b"HTTP/1.1 200 ") and told.endswith(b"ok"), told)
        self.assertIn('\nofrep_connections_closed_total{reason="idle"} 1\n', self.ask("GET", "/metrics")[2].decode())

    def test_a_body_of_so_many_bytes_is_the_largest(self):
        body = context("mallory")
        self.start("--workers", "1", "--max-body", str(len(body)))
        self.assertEqual(self.flag("color", body), (200, color_of("mallory")))
        status, _, told = self.ask("POST", f"{FLAGS}/color", body + b" ")
        self.assertEqual((status, told), (413, b""))

    def test_the_largest_that_may_be_said(self):
        self.start("--workers", "1", "--max-body", "4194304")
        body = context("mallory")
        self.assertEqual(self.flag("color", body + b" " * (4_194_304 - len(body))), (200, color_of("mallory")))
        with self.connect() as stream:
            stream.sendall(b"POST / HTTP/1.1\r\nHost: h\r\nContent-Length: 4194305\r\n\r\n")
            self.assertTrue(stream.recv(4096).startswith(b"HTTP/1.1 413 "))


class Logs(ServiceTest):
    """What stands in the logs once something is told."""

    def note(self, key):
        return compact(["color", 0, None, f"color{key}"])

    def test_notes_stand_before_answers(self):
        self.start("--log", "log", "--workers", "3")
        for number in range(30):
            status, _ = self.flag("color", context(f"user-{number}"))
            self.assertEqual(status, 200)
            self.assertIn(self.note(f"user-{number}"), self.notes())
        self.flag("size", context("nobody"))
        self.flag("color", b"{")
        self.assertEqual(sorted(set(self.notes())), sorted(self.note(f"user-{n}") for n in range(30)))
        status, _, _ = self.ask("POST", FLAGS, context("late"), {"If-None-Match": "*"})
        self.assertEqual(status, 304)
        self.assertIn(self.note("late"), self.notes())

    def test_inputs_that_are_too_long(self):
        self.start("--log", "log")
        self.assertEqual(self.flag("color", context("x" * 1019))[0], 200)
        self.assertEqual(self.flag("color", context("y" * 1020))[0], 200)
        self.assertEqual(self.notes(), [self.note("x" * 1019)])

    def test_a_last_line_without_its_end_is_cut_off(self):
        os.mkdir(os.path.join(self.folder, "log"))
        whole = self.note("early") + "\n"
        self.put("log/worker-1.log", whole + '["color",0,nu')
        self.put("log/worker-2.log", "torn")
        self.start("--log", "log", "--workers", "2")
        self.assertEqual(self.notes(), [self.note("early")])
        self.flag("color", context("late"))
        self.assertEqual(sorted(self.notes()), sorted([self.note("early"), self.note("late")]))

    def test_nothing_that_was_told_is_lost_by_a_kill(self):
        child = self.start("--log", "log/of/today")
        told = [f"user-{number}" for number in range(20) if self.flag("color", context(f"user-{number}"))[0] == 200]
        child.send_signal(signal.SIGKILL)
        child.wait()
        self.assertEqual(sorted(set(self.notes("log/of/today"))), sorted(self.note(key) for key in told))

    def test_a_log_that_cannot_be_written_tells_no_variant(self):
        if not os.path.exists("/dev/full"):
            self.skipTest("no /dev/full")
        os.mkdir(os.path.join(self.folder, "log"))
        os.symlink("/dev/full", os.path.join(self.folder, "log", "worker-1.log"))
        self.start("--log", "log", "--workers", "1")
        status, told = self.flag("color", context("mallory"))
        self.assertEqual((status, list(told)), (500, ["errorDetails"]))
        self.assertEqual(self.flag("size")[0], 200)
        self.assertEqual(self.ask("POST", FLAGS, context("mallory"), {"If-None-Match": "*"})[0], 500)

    def lost(self, lose, part):
        """A log that is lost in this way once a note is in it, and what all files of its folder have behind the same note and another."""
        child = self.start("--log", "log", "--workers", "1")
        self.assertEqual(self.flag("color", context("early"))[0], 200)
        lose(os.path.join(self.folder, "log", "worker-1.log"))
        self.told(child, part)
        self.assertEqual(self.flag("color", context("early"))[0], 200)
        self.assertEqual(self.flag("color", context("late"))[0], 200)
        return self.notes()

    def test_a_log_that_is_moved_is_opened_anew(self):
        notes = self.lost(lambda path: os.rename(path, path + ".1"), "INFO ofrep: a log was moved; its path is opened anew")
        self.assertEqual(notes, [self.note("early"), self.note("late"), self.note("early")])
        self.assertEqual(self.reopened(), {"missing": 1})

    def test_a_log_that_is_removed_is_opened_anew(self):
        notes = self.lost(os.remove, "WARN note: a log was removed, with the lines that stood in it; its path is opened anew")
        self.assertEqual(notes, [self.note("early"), self.note("late")])
        self.assertEqual(self.reopened(), {"removed": 1})

    def test_a_log_that_is_replaced_is_written_to(self):
        """The file of before has another name."""

        def replace(path):
            os.link(path, os.path.join(self.folder, "kept"))
            self.put("log/worker-1.log", self.note("other") + "\n")

        notes = self.lost(replace, "another file was put in the place of a log")
        self.assertEqual(notes, [self.note("other"), self.note("early"), self.note("late")])
        self.assertEqual(self.reopened(), {"replaced": 1})

    def test_a_log_that_another_file_is_put_over_is_removed(self):
        def replace(path):
            self.put("log/worker-1.log", self.note("other") + "\n")

        notes = self.lost(replace, "a log was removed")
        self.assertEqual(notes, [self.note("other"), self.note("early"), self.note("late")])
        self.assertEqual(self.reopened(), {"removed": 1})

    def test_a_log_that_is_cut_is_written_again(self):
        notes = self.lost(lambda path: os.truncate(path, 0), "WARN note: a log was cut")
        self.assertEqual(notes, [self.note("early"), self.note("late")])
        self.assertEqual(self.reopened(), {"shorter": 1})

    def test_a_folder_that_is_removed_is_made_again(self):
        def remove(path):
            gone = os.path.join(self.folder, "gone")
            os.rename(os.path.dirname(path), gone)
            shutil.rmtree(gone)

        # (the service may look between the two steps)
        notes = self.lost(remove, "; its path is opened anew")
        self.assertEqual(notes, [self.note("early"), self.note("late")])
        self.assertEqual(self.modes("log", "log/worker-1.log"), [0o700, 0o600])

    def modes(self, *paths):
        """Who may read and write what is at these paths."""
        return [stat.S_IMODE(os.stat(os.path.join(self.folder, path)).st_mode) for path in paths]

    def test_what_is_made_is_for_its_owner_alone(self):
        os.mkdir(os.path.join(self.folder, "log"), 0o755)
        self.put("log/worker-1.log", "")
        os.chmod(os.path.join(self.folder, "log/worker-1.log"), 0o644)
        self.start("--log", "log/new/last", "--workers", "1", preexec_fn=lambda: os.umask(0))
        self.assertEqual(self.modes("log", "log/new", "log/new/last", "log/new/last/worker-1.log"), [0o755, 0o700, 0o700, 0o600])
        self.start("--log", "log", "--workers", "2", preexec_fn=lambda: os.umask(0))
        self.assertEqual(self.modes("log", "log/worker-1.log", "log/worker-2.log"), [0o755, 0o644, 0o600])

    def ready(self):
        """The status and the text of the answer to who asks whether the service is ready."""
        status, _, text = self.ask("GET", "/readyz")
        return status, text.decode()

    def metrics(self, *names):
        """What the service counts under these names."""
        _, _, text = self.ask("GET", "/metrics")
        counts = dict(line.rsplit(" ", 1) for line in text.decode().splitlines() if line[0] != "#")
        return [int(counts[name]) for name in names]

    def is_ready(self):
        return self.ready() == (200, "ok")

    def test_a_log_that_cannot_be_written_is_not_ready(self):
        """The service is not ready from the first write that fails until the log is another file, which takes what comes then."""
        if not os.path.exists("/dev/full"):
            self.skipTest("no /dev/full")
        os.mkdir(os.path.join(self.folder, "log"))
        os.symlink("/dev/full", os.path.join(self.folder, "log", "worker-1.log"))
        self.start("--log", "log", "--workers", "1")
        self.assertTrue(self.is_ready())
        self.assertEqual(self.flag("color", context("mallory"))[0], 500)
        self.assertEqual(self.ready(), (503, "a log can't be written"))
        self.assertEqual(self.ask("GET", "/healthz")[0], 200)
        self.assertEqual(self.ask("POST", "/readyz")[0], 405)
        self.assertEqual(self.metrics("ofrep_notes_total", 'ofrep_log_failing{reason="unwritten"}', "ofrep_log_failures_total"), [0, 1, 1])
        os.remove(os.path.join(self.folder, "log", "worker-1.log"))
        wait_until(self.is_ready, "a log of its own")
        self.assertEqual(self.flag("color", context("mallory")), (200, color_of("mallory")))
        self.assertEqual(self.notes(), [self.note("mallory")])
        self.assertEqual(self.metrics("ofrep_notes_total", 'ofrep_log_failing{reason="unwritten"}'), [1, 0])

    def test_a_log_that_takes_a_part_of_a_line(self):
        """The rest of the line follows once the file takes it, without a request, and the line counts then."""
        child = self.start("--log", "log", "--workers", "2", restore_signals=False)
        size = len(self.note("early")) + 1
        _, most = resource.prlimit(child.pid, resource.RLIMIT_FSIZE)
        resource.prlimit(child.pid, resource.RLIMIT_FSIZE, (size - 5, most))
        self.assertEqual(self.flag("color", context("early"))[0], 500)
        self.assertEqual(self.ready(), (503, "a log can't be written"))
        self.assertEqual(self.metrics("ofrep_notes_total"), [0])
        resource.prlimit(child.pid, resource.RLIMIT_FSIZE, (most, most))
        wait_until(self.is_ready, "the rest of a line")
        self.assertEqual(self.notes(), [self.note("early")])
        self.assertEqual(self.metrics("ofrep_notes_total"), [1])

    def test_a_second_service_on_a_folder_is_refused(self):
        self.start("--log", "log")
        self.assertEqual(self.flag("color", context("early"))[0], 200)
        words = [PROGRAM, "ofrep", "--listen", "127.0.0.1:0", "--log", "log", "d"]
        ran = subprocess.run(words, cwd=self.folder, capture_output=True, text=True, timeout=SECONDS)
        self.assertEqual((ran.stdout, ran.returncode), ("refused log 2 InUse\n", 1))
        self.assertNotEqual(ran.stderr, "")
        self.assertEqual(self.notes(), [self.note("early")])

    def failing(self, *words):
        """A service with one worker whose log can't be written."""
        if not os.path.exists("/dev/full"):
            self.skipTest("no /dev/full")
        os.mkdir(os.path.join(self.folder, "log"))
        os.symlink("/dev/full", os.path.join(self.folder, "log", "worker-1.log"))
        return self.start("--log", "log", "--workers", "1", *words)

    def test_answers_without_a_record(self):
        """With `--without-record answer` a log that can't be written keeps no answer back; it is told, and each such answer counts."""
        child = self.failing("--without-record", "answer")
        for key in ("mallory", "alice"):
            self.assertEqual(self.flag("color", context(key)), (200, color_of(key)))
        self.assertEqual(self.ready(), (503, "a log can't be written"))
        self.assertEqual(self.metrics("ofrep_notes_total", "ofrep_unrecorded_total"), [0, 2])
        self.told(child, "is answered all the same")
        os.remove(os.path.join(self.folder, "log", "worker-1.log"))
        wait_until(self.is_ready, "a log of its own")
        self.told(child, "all logs can be written again")
        self.assertEqual(self.flag("color", context("bob")), (200, color_of("bob")))
        self.assertEqual(self.notes(), [self.note("bob")])
        self.assertEqual(self.metrics("ofrep_unrecorded_total"), [2])

    def test_it_is_told_when_a_log_fails_and_when_it_is_written_again(self):
        child = self.failing("--without-record", "refuse")
        self.assertEqual(self.flag("color", context("mallory"))[0], 500)
        told = self.levels(self.told(child, "is answered with status 500"))
        self.assertEqual(told[-2:], [("ERROR", "error: a log cannot be written"), ("ERROR", "  what it should record is answered with status 500")])
        os.remove(os.path.join(self.folder, "log", "worker-1.log"))
        self.told(child, "all logs can be written again")

    def told_again(self, *words):
        """The notes of one worker that is asked for three users in turn, and then for them again, the last one twice."""
        self.start("--log", "log", "--workers", "1", *words)
        for key in ("a", "b", "c", "a", "b", "c", "c"):
            self.assertEqual(self.flag("color", context(key))[0], 200)
        return [json.loads(line)[3].removeprefix("color") for line in self.notes()]

    def test_what_is_remembered_is_not_written_again(self):
        self.assertEqual(self.told_again(), ["a", "b", "c"])

    def test_the_least_recently_used_is_forgotten(self):
        self.assertEqual(self.told_again("--remember", "2"), ["a", "b", "c", "a", "b", "c"])

    def test_nothing_is_remembered(self):
        self.assertEqual(self.told_again("--remember", "0"), ["a", "b", "c", "a", "b", "c", "c"])

    def evaluated(self, *keys):
        """The users of all notes once the flag was evaluated for these."""
        for key in keys:
            self.assertEqual(self.flag("color", context(key))[0], 200)
        return [json.loads(line)[3].removeprefix("color") for line in self.notes()]

    def restarted(self, child, *words):
        """The service after it was killed, with one worker again."""
        child.kill()
        child.communicate()
        return self.start("--log", "log", "--workers", "1", *words)

    def test_a_restart_writes_no_line_again(self):
        """Users of many pieces of a file, and one line that was torn."""
        users = [f"user-{number}" for number in range(4000)]
        os.mkdir(os.path.join(self.folder, "log"))
        self.put("log/worker-1.log", "".join(self.note(user) + "\n" for user in users) + self.note("torn"))
        child = self.start("--log", "log", "--workers", "1")
        self.assertEqual(self.metrics("ofrep_notes_total"), [0])
        self.assertEqual(self.evaluated(*users[::100], "torn", "new"), [*users, "torn", "new"])
        self.assertEqual(self.metrics("ofrep_notes_total"), [2])
        self.restarted(child)
        self.assertEqual(self.evaluated("new", "torn", *users[:3], "late"), [*users, "torn", "new", "late"])

    def test_a_restart_remembers_the_last_lines(self):
        """As many as are remembered, of which those that were used last stay."""
        child = self.start("--log", "log", "--workers", "1")
        self.assertEqual(self.evaluated("a", "b", "c"), ["a", "b", "c"])
        child = self.restarted(child, "--remember", "2")
        self.assertEqual(self.evaluated("c", "b", "a", "b"), ["a", "b", "c", "a"])
        self.restarted(child, "--remember", "0")
        self.assertEqual(self.evaluated("b"), ["a", "b", "c", "a", "b"])

    def test_what_a_restart_has_read_is_forgotten_with_its_file(self):
        child = self.start("--log", "log", "--workers", "1")
        self.evaluated("a", "b")
        child = self.restarted(child)
        log = os.path.join(self.folder, "log", "worker-1.log")
        os.rename(log, os.path.join(self.folder, "rotated"))
        self.told(child, "its path is opened anew")
        self.assertEqual(self.evaluated("a"), ["a"])

    def asked_by_all(self, child, user):
        """Asks for a user on 32 connections that wait at once, so that several workers take some."""
        child.send_signal(signal.SIGSTOP)
        streams = [http.client.HTTPConnection("127.0.0.1", self.port, timeout=SECONDS) for _ in range(32)]
        for stream in streams:
            stream.connect()
        child.send_signal(signal.SIGCONT)
        for stream in streams:
            stream.request("POST", f"{FLAGS}/color", context(user))
            self.assertEqual(stream.getresponse().status, 200)
            stream.close()

    def test_workers_remember_together(self):
        """What one worker has written no other writes, as long as they are not asked for it at the same moment."""
        child = self.start("--log", "log", "--workers", "4")
        for burst in range(20):
            self.asked_by_all(child, f"user-{burst}")
        self.assertEqual(sorted(self.notes()), sorted(self.note(f"user-{burst}") for burst in range(20)))

    def test_a_restart_remembers_the_logs_of_all_workers(self):
        """However the lines are spread over the logs."""
        os.mkdir(os.path.join(self.folder, "log"))
        users = [f"user-{number}" for number in range(40)]
        self.put("log/worker-3.log", "".join(self.note(user) + "\n" for user in users[:38]))
        self.put("log/worker-1.log", "".join(self.note(user) + "\n" for user in users[38:]))
        child = self.start("--log", "log", "--workers", "4", "--remember", "40")
        for user in users:
            self.asked_by_all(child, user)
        self.assertEqual(sorted(self.notes()), sorted(self.note(user) for user in users))

    def test_no_worker_relies_on_a_file_that_is_lost(self):
        """The lines of one log are written again, those of the others are not."""
        child = self.start("--log", "log", "--workers", "4")
        for user in range(20):
            self.asked_by_all(child, f"user-{user}")
        logs = [os.path.join(self.folder, "log", f"worker-{worker}.log") for worker in range(1, 5)]
        lost = max(logs, key=os.path.getsize)
        os.remove(lost)
        self.told(child, "its path is opened anew")
        for user in range(20):
            self.asked_by_all(child, f"user-{user}")
        self.assertEqual(sorted(self.notes()), sorted(self.note(f"user-{user}") for user in range(20)))

    def test_a_restart_forgets_no_kind_of_line(self):
        """Lines of the other kind are no notes of this one."""
        child = self.start("--log", "log", "--workers", "1")
        self.evaluated("a")
        self.restarted(child, "--log-points")
        self.assertEqual(self.flag("color", context("a"))[0], 200)
        self.assertEqual(self.notes(), [self.note("a"), compact(["color", 0, None, murmur3(b"colora")])])

    def test_hashes_in_the_place_of_inputs(self):
        if "--log-points" not in run(["ofrep", "--help"], {}).out:
            self.skipTest("waits for a release that writes hashes")
        child = self.start("--log", "log", "--log-points", "--workers", "1")
        self.told(child, "the hashes of hash inputs")
        keys = [f"user-{number}" for number in range(20)]
        hashes = [compact(["color", 0, None, murmur3(f"color{key}".encode())]) for key in keys]
        for key in [*keys, *keys]:
            self.assertEqual(self.flag("color", context(key)), (200, color_of(key)))
        self.assertEqual(self.notes(), hashes)
        child.kill()
        child.communicate()
        self.start("--log", "log", "--log-points", "--workers", "1", "--remember", "0")
        self.flag("color", context(keys[0]))
        self.assertEqual(self.notes(), [*hashes, hashes[0]])
        with open(os.path.join(self.folder, "log", "worker-1.log"), encoding="utf-8") as file:
            lines = sorted(set(file), key=str.encode)
        ran = run(["tally", "d", "color", "0"], {"d": compact(DOCUMENT)}, input="".join(lines))
        self.assertEqual((json.loads(ran.out.splitlines()[1])["inputs"], ran.status), (len(keys), 0))

    def test_without_a_log(self):
        child = self.start()
        self.assertEqual(self.flag("color", context("mallory")), (200, color_of("mallory")))
        child.kill()
        self.assertIn("records nothing", child.stderr.read())


class Changing(ServiceTest):
    """A service whose document changes."""

    def size(self):
        """The value of the flag `size`."""
        return self.flag("size")[1].get("value")

    def until(self, wanted):
        """Asks until the flag `size` has this value."""
        wait_until(lambda: self.size() == wanted, f"size is not {wanted}")

    def changed(self, variant):
        flags = {**DOCUMENT["flags"], "size": {**DOCUMENT["flags"]["size"], "defaultVariant": variant}}
        return compact({"flags": flags})


class Publishing(Changing):
    """Documents that change while they are answered from."""

    def test_what_changes_is_published(self):
        self.put("over", '{"flags":{}}')
        child = self.start("--poll", "1", documents=("d", "over"))
        self.until(2)
        self.put("d", self.changed("one"))
        self.until(1)
        self.put("over", "{")
        os.remove(os.path.join(self.folder, "d"))
        told = self.told(child, KEPT, 2)
        self.assertEqual(self.size(), 1)
        self.put("d", self.changed("two"))
        self.until(2)
        self.put("over", '{"flags":{"size":{"state":"DISABLED","variants":{"one":1}}}}')
        self.until(None)
        child.kill()
        told += child.stderr.read()
        self.assertEqual(told.count("cannot be read"), 1, told)
        self.assertEqual(told.count(KEPT), 2, told)
        self.assertEqual(re.findall(r"answers from snapshot (\d+)", told), ["1", "2", "3", "4"])

    def test_the_life_of_a_provider(self):
        """It polls every flag with the tag that it was told last, evaluates single ones, and learns of a change within the poll; a
        document that an edit breaks changes nothing."""
        child = self.start("--poll", "1")
        tag, flags = self.polled(None)
        for flag in flags:
            self.assertEqual(self.flag(quoted(flag["key"]), context("mallory"))[1], flag)
        self.assertEqual(self.polled(tag), (tag, None))
        self.put("d", self.changed("one"))
        self.until(1)
        new, flags = self.polled(tag)
        self.assertNotEqual(new, tag)
        self.assertEqual([flag["value"] for flag in flags if flag["key"] == "size"], [1])
        self.put("d", '{"flags":')
        self.told(child, KEPT)
        self.assertEqual(self.polled(new), (new, None))
        self.assertEqual(self.size(), 1)

    def polled(self, tag):
        """The tag of every flag's answer, and the flags where they are others than under the tag."""
        status, headers, body = self.ask("POST", FLAGS, context("mallory"), {"If-None-Match": tag} if tag else {})
        new = {name.lower(): value for name, value in headers.items()}["etag"]
        self.assertEqual(status, 304 if new == tag else 200)
        return new, json.loads(body)["flags"] if body else None


class BadEdits(Changing):
    """Edits that break a flag, or take one away."""

    GOOD = DOCUMENT["flags"]

    def refused(self):
        """Whether the document is refused, by what the service counts."""
        _, _, text = self.ask("GET", "/metrics")
        lines = dict(line.rsplit(" ", 1) for line in text.decode().splitlines() if line[0] != "#")
        return lines['flagops_documents_refused{place="1"}'] == "1"

    def put_flags(self, **flags):
        self.put("d", compact({"flags": {**self.GOOD, **flags}}))

    def edited(self, edit, part):
        """A service whose document is edited so that it is refused, which is told with this; what it has told by then."""
        child = self.start("--poll", "1")
        self.assertFalse(self.refused())
        edit()
        told = self.told(child, KEPT)
        self.assertIn(part, told)
        wait_until(self.refused, "the document is refused")
        for key in ("mallory", "alice"):
            self.assertEqual(self.flag("color", context(key)), (200, color_of(key)))
        self.assertEqual(self.ask("GET", "/readyz")[0], 200)
        return child

    def test_a_flag_that_is_good_is_not_broken(self):
        """Nor is anything else of that text taken; once it is mended all of it is."""
        size = {**self.GOOD["size"], "defaultVariant": "one"}
        wrong = {**self.GOOD["color"], "defaultVariant": "green"}
        child = self.edited(lambda: self.put_flags(color=wrong, size=size), 'it breaks the flag "color"')
        self.assertEqual(self.size(), 2)
        self.put_flags(size=size)
        self.until(1)
        wait_until(lambda: not self.refused(), "the document is accepted")
        self.assertEqual(self.flag("color", context("bob")), (200, color_of("bob")))
        child.kill()
        self.assertIn("answers from snapshot 2", child.stderr.read())

    def test_the_member_and_the_rule_are_told(self):
        wrong = {**self.GOOD["color"], "defaultVariant": "green"}
        self.edited(lambda: self.put_flags(color=wrong), "broken: flags.color.defaultVariant")

    def test_each_line_of_a_refused_edit_is_an_error(self):
        wrong = {**self.GOOD["color"], "defaultVariant": "green"}
        child = self.start("--poll", "1")
        self.told(child, "answers from snapshot 1")
        self.put_flags(color=wrong)
        told = self.levels(self.told(child, KEPT))
        self.assertEqual({level for level, _ in told}, {"ERROR"})
        self.assertTrue(told[0][1].startswith('error: "d" is refused: it breaks the flag "color"'), told)
        self.assertGreater(len(told), 2)

    def test_a_flag_that_the_text_has_still_is_not_lost(self):
        """It moved into its neighbour, where nobody reads it."""
        flags = {key: flag for key, flag in self.GOOD.items() if key != "color"}
        flags["size"] = {**flags["size"], "color": self.GOOD["color"]}
        self.edited(lambda: self.put("d", compact({"flags": flags})), 'it still has "color"')

    def test_a_flag_is_not_lost_behind_a_second_member_of_flags(self):
        first = compact({"flags": self.GOOD})
        text = first[:-1] + "," + compact({"flags": {"size": self.GOOD["size"]}})[1:]
        self.edited(lambda: self.put("d", text), "but no flag of this key")

    def test_the_text_of_before_mends_it(self):
        wrong = {**self.GOOD["color"], "state": "ON"}
        child = self.edited(lambda: self.put_flags(color=wrong), 'it breaks the flag "color"')
        self.put("d", compact(DOCUMENT))
        wait_until(lambda: not self.refused(), "the text of before")
        child.kill()
        self.assertEqual(re.findall(r"answers from snapshot (\d+)", child.stderr.read()), [])

    def test_a_flag_that_is_taken_away_is_gone(self):
        self.start("--poll", "1")
        self.put("d", compact({"flags": {key: flag for key, flag in self.GOOD.items() if key != "color"}}))
        wait_until(lambda: self.flag("color", context("mallory"))[0] == 404, "the flag is gone")
        self.assertFalse(self.refused())

    def test_a_broken_flag_may_stay_or_come(self):
        """One that is broken now, and one that is new, harm nobody."""
        self.start("--poll", "1")
        self.put_flags(size={**self.GOOD["size"], "defaultVariant": "one"}, new={"state": "ENABLED"})
        self.until(1)
        self.assertEqual([self.flag(key)[0] for key in ("broken", "new")], [400, 400])
        self.assertFalse(self.refused())

    def test_what_breaks_is_served_where_that_is_asked_for(self):
        self.start("--poll", "1", "--broken", "serve")
        self.put_flags(color={**self.GOOD["color"], "state": "ON"})
        wait_until(lambda: self.flag("color", context("mallory"))[0] == 400, "the flag is broken")
        self.assertFalse(self.refused())

    def test_broken_flags_are_told_and_counted_at_the_start(self):
        child = self.start()
        self.told(child, "broken: flags.broken.variants")
        _, _, text = self.ask("GET", "/metrics")
        self.assertIn("\nflagops_flags_broken 1\n", text.decode())

    def test_no_start_with_a_broken_flag(self):
        good = {key: flag for key, flag in self.GOOD.items() if key != "broken"}
        words = ["ofrep", "--listen", "127.0.0.1:0", "--broken", "refuse", "d"]
        ran = run(words, {"d": compact(DOCUMENT)})
        self.assertEqual((ran.out, ran.status), ("refused flags 1 Broken\n", 1))
        self.assertNotEqual(ran.err, "")
        self.put("d", compact({"flags": good}))
        self.start("--poll", "1", "--broken", "refuse")
        self.assertEqual(self.flag("color", context("mallory")), (200, color_of("mallory")))

    def test_a_pipe_does_not_stop_the_reading(self):
        """In the place of one document, while another changes."""
        self.put("over", '{"flags":{}}')
        child = self.start("--poll", "1", documents=("d", "over"))
        os.remove(os.path.join(self.folder, "over"))
        os.mkfifo(os.path.join(self.folder, "over"))
        self.told(child, "is not a plain file")
        self.put("d", self.changed("one"))
        self.until(1)


class Streaming(Changing):
    """The stream beside the service."""

    SUBSCRIBERS = 32

    def stream(self, *words):
        """A service that streams, and its port."""
        port = free_port(self)
        return self.start("--poll", "1", "--stream", str(port), *words), port

    def subscriber(self, port):
        """A connection to the stream."""
        stream = socket.create_connection(("127.0.0.1", port), SECONDS)
        self.addCleanup(stream.close)
        return stream

    def frame(self, stream):
        """The number and the document of the next frame."""
        whole = Unbuffered(stream)
        length, number = struct.unpack(">IQ", whole.read(12))
        return number, json.loads(whole.read(length - 8))

    def next_size(self, stream):
        """The number of the next frame, and the variant that its flag `size` has by default."""
        number, told = self.frame(stream)
        return number, told["flags"]["size"]["defaultVariant"]

    def test_a_subscriber_is_sent_each_latest_snapshot(self):
        child, port = self.stream()
        early = self.subscriber(port)
        self.assertEqual(self.next_size(early), (1, "two"))
        early.sendall(b"whatever a subscriber sends is dropped")
        self.put("d", self.changed("one"))
        self.assertEqual(self.next_size(early), (2, "one"))
        late = self.subscriber(port)
        self.assertEqual(self.next_size(late), (2, "one"))
        self.assertEqual(self.flag("size")[1]["value"], 1)
        self.put("d", self.changed("two"))
        self.assertEqual([self.next_size(early), self.next_size(late)], [(3, "two")] * 2)
        followed = run(["follow", str(port), "1"], {})
        self.assertEqual(followed.out, f"snapshot 3 flags {len(DOCUMENT['flags'])}\nstopped Limit\n")
        child.kill()
        self.assertIn(f"127.0.0.1:{port}", child.stderr.read())

    def test_a_seat_is_taken_again_once_its_subscriber_has_left(self):
        _, port = self.stream("--workers", "32")
        seated = [self.subscriber(port) for _ in range(self.SUBSCRIBERS)]
        for stream in seated:
            self.assertEqual(self.next_size(stream), (1, "two"))
        waiting = self.subscriber(port)
        # Nothing comes, however long one waits.
        self.assertEqual(select.select([waiting], [], [], 1)[0], [])
        seated[7].close()
        self.assertEqual(self.next_size(waiting), (1, "two"))

    def test_who_takes_nothing_holds_up_nobody(self):
        _, port = self.stream()
        self.subscriber(port)
        taking = self.subscriber(port)
        self.assertEqual(self.next_size(taking), (1, "two"))
        self.put("d", self.changed("one"))
        self.assertEqual(self.next_size(taking), (2, "one"))
        self.until(1)

    def test_a_port_that_is_taken(self):
        with socket.socket() as taken:
            taken.bind(("127.0.0.1", 0))
            taken.listen()
            port = str(taken.getsockname()[1])
            ran = run(["ofrep", "--listen", "127.0.0.1:0", "--stream", port, "d"], {"d": compact(DOCUMENT)})
        self.assertEqual((ran.out, ran.status), ("refused bind 1 Unbound\n", 1))
        self.assertIn(f"error: the port {port} of --stream is in use\n", ran.err)


class Addresses(ServiceTest):
    """Where it listens."""

    def test_the_port_that_the_system_gave(self):
        for host in ("127.0.0.1", "localhost"):
            with self.subTest(host):
                words = [PROGRAM, "ofrep", "--listen", f"{host}:0", "d"]
                child = subprocess.Popen(words, stdout=subprocess.PIPE, stderr=subprocess.PIPE, text=True, cwd=self.folder)
                self.addCleanup(child.communicate)
                self.addCleanup(child.kill)
                told = self.told(child, "listens on ")
                self.port = int(re.search(r"listens on 127\.0\.0\.1:([1-9]\d*), ", told)[1])
                self.assertEqual(self.flag("color", context("mallory")), (200, color_of("mallory")))


class Refusals(ServiceTest):
    """Runs that answer nobody."""

    def refused(self, *words):
        return run(["ofrep", *words], {"d": compact(DOCUMENT), "bad": "{"})

    def test_documents(self):
        for words, line in [
            (["none"], "refused load 1 Unreadable\n"),
            (["d", "bad"], "refused set 4 Refused 1 NotJson\n"),
            (["d"] * 17, "refused add 2 TooMany\n"),
        ]:
            with self.subTest(words):
                ran = self.refused("--listen", "127.0.0.1:0", *words)
                self.assertEqual((ran.out, ran.status), (line, 1))
                self.assertNotEqual(ran.err, "")
                self.assertEqual("No such file or directory" in ran.err, words == ["none"])

    def test_addresses_and_logs(self):
        for words, line, told in [
            (["--listen", "nowhere", "d"], "bind 1 Unbound", 'the address "nowhere" of --listen is not ADDRESS:PORT'),
            (["--listen", "8016", "d"], "bind 1 Unbound", 'the address "8016" of --listen is not ADDRESS:PORT'),
            (["--listen", ":8016", "d"], "bind 1 Unbound", 'the address ":8016" of --listen is not ADDRESS:PORT'),
            (["--listen", "127.0.0.1:80000", "d"], "bind 1 Unbound", 'the address "127.0.0.1:80000" of --listen is not ADDRESS:PORT'),
            (["--listen", "192.0.2.1:8016", "d"], "bind 1 Unbound", 'the address "192.0.2.1:8016" of --listen is not an address of this machine'),
            (["--listen", "127.0.0.1:0", "--log", "d", "d"], "log 1 Unopened", 'the folder "d" of --log cannot be used: '),
        ]:
            with self.subTest(words):
                ran = self.refused(*words)
                self.assertEqual((ran.out, ran.status), (f"refused {line}\n", 1))
                self.assertIn(f"error: {told}", ran.err)
                self.assertNotEqual(ran.err, "")

    def test_mistakes(self):
        for words in ([], ["--workers", "0", "d"], ["--workers", "33", "d"], ["--poll", "3601", "d"], ["--stream", "0", "d"], ["--stream", "65536", "d"], ["--fast", "d"], ["--log"], ["--remember", "16777217", "d"], ["--broken", "keep", "d"], ["--without-record", "yes", "d"]):
            with self.subTest(words):
                ran = self.refused(*words)
                self.assertEqual((ran.out, ran.status), ("", 2))


if __name__ == "__main__":
    unittest.main()
