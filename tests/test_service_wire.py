"""The service by raw sockets: the bytes of its answers, requests that are none, too large or late, and that each is counted."""
import re
import socket
import unittest

from program import SECONDS
from test_service import FLAGS, ServiceTest, context

# A date as RFC 9110 has it (IMF-fixdate).
DATE = r"(Mon|Tue|Wed|Thu|Fri|Sat|Sun), \d\d (Jan|Feb|Mar|Apr|May|Jun|Jul|Aug|Sep|Oct|Nov|Dec) \d{4} \d\d:\d\d:\d\d GMT"
COLOR = f"POST {FLAGS}/color HTTP/1.1\r\nHost: h\r\n".encode()


class Wire(ServiceTest):
    def answers(self, request, count=1):
        """The heads and bodies of so many answers to these bytes."""
        with self.connect() as stream:
            stream.sendall(request)
            return [self.answer(stream) for _ in range(count)]

    def answer(self, stream):
        """The status, the fields by their names in lower case, and the body of the next answer."""
        head = b""
        while not head.endswith(b"\r\n\r\n"):
            byte = stream.recv(1)
            self.assertNotEqual(byte, b"", head)
            head += byte
        first, *lines = head.decode("ascii")[:-4].split("\r\n")
        told = re.fullmatch(r"HTTP/1\.1 (\d{3}) [ -~]+", first)
        self.assertTrue(told, first)
        fields = dict(re.fullmatch(r"([a-z-]+): ([ -~]*)", line).groups() for line in lines)
        body = b""
        while len(body) < int(fields.get("content-length", 0)):
            body += stream.recv(int(fields["content-length"]) - len(body))
        return int(told[1]), fields, body

    def until_closed(self, stream):
        """All that comes until the service closes the connection."""
        told = b""
        while part := stream.recv(4096):
            told += part
        return told

    def counted(self, series):
        lines = self.ask("GET", "/metrics")[2].decode().splitlines()
        return next(float(line.rsplit(" ", 1)[1]) for line in lines if line.startswith(series + " "))

    def test_each_answer_has_its_date_and_its_length(self):
        self.start("--cors", "https://app.example.com")
        body = context("mallory")
        long = b"Content-Type: application/json\r\nContent-Length: %d\r\n\r\n" % len(body) + body
        rows = [
            (200, COLOR + long),
            (404, COLOR.replace(b"color", b"nobody") + long),
            (404, b"GET /nowhere HTTP/1.1\r\nHost: h\r\n\r\n"),
            (405, b"GET " + FLAGS.encode() + b" HTTP/1.1\r\nHost: h\r\n\r\n"),
            (415, COLOR + b"Content-Type: text/plain\r\nContent-Length: 0\r\n\r\n"),
            (403, COLOR + b"Origin: null\r\nContent-Length: 0\r\n\r\n"),
            (400, COLOR + b"Content-Length: 1\r\n\r\n{"),
            (200, b"GET /healthz HTTP/1.1\r\nHost: h\r\n\r\n"),
            (200, b"GET /readyz HTTP/1.1\r\nHost: h\r\n\r\n"),
            (200, b"GET /metrics HTTP/1.1\r\nHost: h\r\n\r\n"),
        ]
        for status, request in rows:
            with self.subTest(request):
                told, fields, body = self.answers(request)[0]
                self.assertEqual(told, status)
                self.assertRegex(fields["date"], rf"\A{DATE}\Z")
                self.assertEqual(int(fields["content-length"]), len(body))
        status, fields, _ = self.answers(b"OPTIONS " + FLAGS.encode() + b" HTTP/1.1\r\nHost: h\r\nOrigin: https://app.example.com\r\n\r\n")[0]
        self.assertEqual(status, 204)
        self.assertRegex(fields["date"], rf"\A{DATE}\Z")

    def test_head_has_no_body(self):
        """The next answer follows its head at once."""
        self.start()
        request = b"HEAD /healthz HTTP/1.1\r\nHost: h\r\n\r\n"
        with self.connect() as stream:
            stream.sendall(request + b"GET /healthz HTTP/1.1\r\nHost: h\r\nConnection: close\r\n\r\n")
            told = self.until_closed(stream)
        self.assertEqual([part.split(b"\r\n\r\n", 1)[1] for part in re.split(rb"(?=HTTP/1\.1 )", told)[1:]], [b"", b"ok"])

    def test_heads_that_are_too_large(self):
        """64 fields and 16,384 bytes pass, one more does not, and the connection is closed."""
        self.start()
        rows = [
            (200, b"".join(b"X-%d: y\r\n" % number for number in range(62))),
            (431, b"".join(b"X-%d: y\r\n" % number for number in range(63))),
            (200, b"X: " + b"y" * 16_000 + b"\r\n"),
            (431, b"X: " + b"y" * 16_400 + b"\r\n"),
        ]
        for status, more in rows:
            with self.subTest(status=status, length=len(more)), self.connect() as stream:
                stream.sendall(b"GET /healthz HTTP/1.1\r\nHost: h\r\nConnection: close\r\n" + more + b"\r\n")
                self.assertRegex(self.until_closed(stream).decode(), rf"\AHTTP/1\.1 {status} [^\r]*\r\n(.*\r\n)*date: {DATE}\r\n")
        self.assertEqual(self.counted('ofrep_requests_total{status="431"}'), 2)

    def test_what_is_no_request_is_counted(self):
        self.start("--workers", "1")
        rows = [
            (400, b"NONSENSE\r\n\r\n"),
            (400, b"GET / HTTP/1.1\r\nbad header\r\n\r\n"),
            (400, b"GET / HTTP/1.1\r\nHost: h\r\nContent-Length: -1\r\n\r\n"),
            (400, b"GET / HTTP/1.1\r\nHost: h\r\nContent-Length: 1\r\nContent-Length: 2\r\n\r\n"),
            (413, b"POST / HTTP/1.1\r\nHost: h\r\nContent-Length: 1048577\r\n\r\n"),
            (400, b"POST / HTTP/1.1\r\nHost: h\r\nTransfer-Encoding: gzip\r\n\r\n"),
            (501, b"POST / HTTP/1.1\r\nHost: h\r\nTransfer-Encoding: gzip, chunked\r\n\r\n"),
            (414, b"GET /" + b"a" * 17_000 + b" HTTP/1.1\r\nHost: h\r\n\r\n"),
        ]
        counts = {}
        for status, request in rows:
            with self.subTest(request), self.connect() as stream:
                stream.sendall(request)
                self.assertRegex(self.until_closed(stream).decode(), self.refusal(status))
                counts[status] = counts.get(status, 0) + 1
                self.assertEqual(self.counted(f'ofrep_requests_total{{status="{status}"}}'), counts[status])

    def refusal(self, status):
        """The whole of an answer that ends its connection, with its date."""
        return rf"\AHTTP/1\.1 {status} [A-Z][A-Za-z ]*\r\ndate: {DATE}\r\nconnection: close\r\ncontent-length: 0\r\n\r\n\Z"

    def test_what_is_no_request_behind_others(self):
        """They are answered first, however much that is, and the refusal has its date too."""
        self.start("--workers", "1")
        body = context("mallory")
        good = COLOR + b"Content-Type: application/json\r\nContent-Length: %d\r\n\r\n" % len(body) + body
        for count in (1, 40, 400):
            with self.subTest(count), self.connect() as stream:
                stream.sendall(good * count + b"NONSENSE\r\n\r\n")
                told = re.split(r"(?=HTTP/1\.1 )", self.until_closed(stream).decode())[1:]
                self.assertEqual(len(told), count + 1)
                for answer in told[:-1]:
                    self.assertTrue(answer.startswith("HTTP/1.1 200 "), answer)
                self.assertRegex(told[-1], self.refusal(400))

    def test_the_time_to_answer_is_a_histogram(self):
        self.start("--workers", "1")
        for number in range(20):
            self.flag("color", context(f"user-{number}"))
        lines = self.ask("GET", "/metrics")[2].decode().splitlines()
        name = "ofrep_request_duration_seconds"
        buckets = [(found[1], int(found[2])) for found in map(re.compile(rf'{name}_bucket{{le="([^"]+)"}} (\d+)').fullmatch, lines) if found]
        limits = [float(limit.replace("+Inf", "inf")) for limit, _ in buckets]
        counts = [count for _, count in buckets]
        self.assertEqual((limits, counts), (sorted(set(limits)), sorted(counts)))
        self.assertEqual((limits[-1], counts[-1]), (float("inf"), 20))
        self.assertIn(f"{name}_count 20", lines)

    def test_a_request_that_is_late(self):
        """Half a minute after its first byte it is answered, counted, and its connection closed."""
        self.start("--workers", "1")
        with self.connect() as stream:
            stream.sendall(COLOR)
            self.assertRegex(self.until_closed(stream).decode(), self.refusal(408))
        self.assertEqual(self.counted('ofrep_requests_total{status="408"}'), 1)
        self.assertEqual(self.counted('ofrep_connections_closed_total{reason="late"}'), 1)

    def test_connections_are_counted(self):
        self.start("--workers", "1")
        streams = [socket.create_connection(("127.0.0.1", self.port), SECONDS) for _ in range(5)]
        for stream in streams:
            stream.sendall(b"GET /healthz HTTP/1.1\r\nHost: h\r\n\r\n")
            self.assertEqual(self.answer(stream)[0], 200)
        self.assertEqual((self.counted("ofrep_connections"), self.counted("ofrep_connections_total")), (6, 7))
        for stream in streams:
            stream.close()


if __name__ == "__main__":
    unittest.main()
