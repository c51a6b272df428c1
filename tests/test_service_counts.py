"""What `/metrics` of `ofrep` tells: each status that left the service, how large the logs are, and the memory of the process."""
import os
import unittest

from program import wait_until
from test_service import FLAGS, ServiceTest, context

APP = "https://app.example.com"
KEY = "0123456789abcdef"
SHOWN = f"Authorization: Bearer {KEY}\r\n"
NOTHING = "Content-Length: 0\r\n"

# A request and the status of its answer: those of the worker, of the guard before it, and of the reader of requests.
REQUESTS = (
    (f"POST {FLAGS}/color HTTP/1.1\r\nHost: h\r\n{SHOWN}{NOTHING}", 200),
    (f"OPTIONS {FLAGS} HTTP/1.1\r\nHost: h\r\nOrigin: {APP}\r\n", 204),
    (f"POST {FLAGS} HTTP/1.1\r\nHost: h\r\n{SHOWN}If-None-Match: *\r\n{NOTHING}", 304),
    (f"POST {FLAGS}/broken HTTP/1.1\r\nHost: h\r\n{SHOWN}{NOTHING}", 400),
    (f"POST {FLAGS}/color HTTP/1.1\r\nHost: h\r\n{NOTHING}", 401),
    ("GET /healthz HTTP/1.1\r\nHost: h\r\nOrigin: https://other.example.com\r\n", 403),
    ("GET /nothing HTTP/1.1\r\nHost: h\r\n", 404),
    ("PUT /healthz HTTP/1.1\r\nHost: h\r\n", 405),
    (f"POST {FLAGS}/color HTTP/1.1\r\nHost: h\r\n{SHOWN}Content-Type: text/plain\r\n{NOTHING}", 415),
    ("NONSENSE\r\n", 400),
    ("GET /healthz HTTP/1.1\r\n", 400),
    ("GET /healthz HTTP/2.0\r\nHost: h\r\n", 400),
    ("POST /healthz HTTP/1.1\r\nHost: h\r\nContent-Length: x\r\n", 400),
    (f"POST {FLAGS}/color HTTP/1.1\r\nHost: h\r\nContent-Length: 1048577\r\n", 413),
    (f"GET /{'a' * 70_000} HTTP/1.1\r\nHost: h\r\n", 414),
    (f"GET /healthz HTTP/1.1\r\nHost: h\r\nA: {'a' * 20_000}\r\n", 431),
    ("GET /healthz HTTP/1.1\r\nHost: h\r\n" + "A: a\r\n" * 70, 431),
    ("POST /healthz HTTP/1.1\r\nHost: h\r\nTransfer-Encoding: gzip, chunked\r\n", 501),
)


class Statuses(ServiceTest):
    """Each answer is counted by its status, whoever gave it."""

    def setUp(self):
        super().setUp()
        self.put("k", f"{KEY}\n")
        self.start("--workers", "1", "--poll", "0", "--log", "log", "--cors", APP, "--keys", "k")

    def counts(self):
        """How many requests were answered with each status."""
        _, _, body = self.ask("GET", "/metrics")
        lines = [line for line in body.decode().splitlines() if line.startswith("ofrep_requests_total{")]
        return {int(line.split('"')[1]): int(line.rsplit(" ", 1)[1]) for line in lines}

    def sent(self, head):
        """The status of the answer to one request."""
        with self.connect() as stream:
            stream.sendall(f"{head}\r\n".encode())
            return int(stream.recv(4096).split(b" ")[1])

    def test_each_status_is_counted(self):
        for head, status in REQUESTS:
            with self.subTest(head[:80]):
                before = self.counts()
                before[200] += 1
                self.assertEqual(self.sent(head), status)
                before[status] += 1
                self.assertEqual(self.counts(), before)


class Sizes(ServiceTest):
    """How many bytes the logs have, and how much memory the process."""

    def size(self, name):
        """The one number of a family."""
        _, _, body = self.ask("GET", "/metrics")
        lines = body.decode().splitlines()
        self.assertEqual(lines.count(f"# TYPE {name} gauge"), 1)
        return int(next(line for line in lines if line.startswith(f"{name} ")).split(" ")[1])

    def log_bytes(self):
        """How many bytes the logs have."""
        folder = os.path.join(self.folder, "log")
        return sum(os.path.getsize(os.path.join(folder, name)) for name in os.listdir(folder))

    def test_the_bytes_of_the_logs(self):
        self.start("--workers", "3", "--poll", "0", "--log", "log")
        self.assertEqual(self.size("ofrep_log_bytes"), 0)
        for number in range(40):
            self.flag("color", context(f"user-{number}"))
        self.assertGreater(self.log_bytes(), 40 * 30)
        wait_until(lambda: self.size("ofrep_log_bytes") == self.log_bytes(), "the bytes of the logs are not shown")
        os.remove(os.path.join(self.folder, "log", "worker-1.log"))
        wait_until(lambda: self.size("ofrep_log_bytes") == self.log_bytes(), "the bytes of the logs are not shown again")

    def test_no_log_has_no_bytes(self):
        self.start("--workers", "1", "--poll", "0")
        self.assertEqual(self.size("ofrep_log_bytes"), 0)

    def test_resident_memory(self):
        child = self.start("--workers", "1", "--poll", "0")
        wait_until(lambda: self.size("process_resident_memory_bytes") > 0, "no memory is shown")
        with open(f"/proc/{child.pid}/statm", encoding="ascii") as file:
            pages = int(file.read().split()[1])
        ratio = self.size("process_resident_memory_bytes") / (pages * os.sysconf("SC_PAGE_SIZE"))
        self.assertTrue(0.5 < ratio < 2, ratio)


if __name__ == "__main__":
    unittest.main()
