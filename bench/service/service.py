"""A service to try: `Service` starts `ofrep` on a free port of this host, over a document with a rule. The program is that of FLAGOPS,
else the one that was built here, else the shipped one."""
import http.client
import json
import os
import select
import socket
import subprocess
import threading
import time
from typing import NamedTuple

ROOT = os.path.dirname(os.path.dirname(os.path.dirname(os.path.abspath(__file__))))
BUILT = os.path.join(ROOT, "crates", "flagops", "out", "flagops")
SHIPPED = os.path.join(ROOT, "release", "x86_64-linux", "flagops")
PROGRAM = os.environ.get("FLAGOPS") or (BUILT if os.path.exists(BUILT) else SHIPPED)
PATH = "/ofrep/v1/evaluate/flags/color"
DOCUMENT = {
    "flags": {
        "color": {
            "state": "ENABLED",
            "variants": {"red": "r", "blue": "b"},
            "defaultVariant": "red",
            "targeting": {"fractional": [["red", 50], ["blue", 50]]},
        }
    }
}


def body_for(key):
    return json.dumps({"context": {"targetingKey": key}}).encode()


def line_for(key):
    return f'["color",0,null,"color{key}"]'


def free_port():
    with socket.socket() as probe:
        probe.bind(("127.0.0.1", 0))
        return probe.getsockname()[1]


class Service:
    """A service with a log. What it reports goes into the file `err` of its folder, after the reports of others there."""

    def __init__(self, folder, log, *words, document=DOCUMENT):
        self.log, self.err = log, os.path.join(folder, "err")
        path = os.path.join(folder, "flags.json")
        if not os.path.exists(path):
            with open(path, "w", encoding="utf-8") as file:
                json.dump(document, file)
        self.port = free_port()
        words = [PROGRAM, "ofrep", "--listen", f"127.0.0.1:{self.port}", "--log", log, *words, path]
        with open(self.err, "ab") as err:
            self.child = subprocess.Popen(words, stdout=subprocess.PIPE, stderr=err, text=True)
        self.first = self.child.stdout.readline() if select.select([self.child.stdout], [], [], 60)[0] else "nothing"
        self.serves = self.first == "serving 1\n"

    def connect(self):
        assert self.serves, self.first
        return http.client.HTTPConnection("127.0.0.1", self.port, timeout=60)

    def kill(self):
        self.child.kill()
        self.child.wait()
        self.child.stdout.close()

    def reports(self):
        """What it has reported."""
        with open(self.err, encoding="utf-8") as file:
            return file.read()

    def metrics(self):
        """What it counts, by series."""
        connection = self.connect()
        connection.request("GET", "/metrics")
        text = connection.getresponse().read().decode()
        connection.close()
        return {series: float(value) for series, value in (line.rsplit(" ", 1) for line in text.splitlines() if line[0] != "#")}

    def kilobytes(self, name="VmRSS"):
        """The memory that it holds; by the name VmHWM that which it held at most."""
        with open(f"/proc/{self.child.pid}/status", encoding="utf-8") as file:
            return next(int(line.split()[1]) for line in file if line.startswith(f"{name}:"))

    def lines(self):
        """The whole lines of all logs."""
        found = set()
        for name in os.listdir(self.log):
            with open(os.path.join(self.log, name), encoding="utf-8", errors="replace") as file:
                found.update(whole_lines(file.read()))
        return found


def whole_lines(text):
    """The lines of a text, without what follows the last line feed."""
    return text.split("\n")[:-1]


def ask(connection, key):
    """The status of the answer for a key."""
    connection.request("POST", PATH, body_for(key))
    answer = connection.getresponse()
    answer.read()
    return answer.status


class Answered(NamedTuple):
    """A key for which a client got a variant, when it asked, and when it had the answer."""

    key: str
    asked: float
    answered: float


class Load:
    """Clients that ask for one key after another, each on a connection of its own, and keep the keys that were answered with a variant. Where a connection
    is closed, they connect again, to the service that `service` then is."""

    def __init__(self, service, clients):
        self.service, self.answered, self.others, self.is_over = service, [], {}, threading.Event()
        self.threads = [threading.Thread(target=self.ask_on, args=(client,), daemon=True) for client in range(clients)]
        for thread in self.threads:
            thread.start()

    def ask_on(self, client):
        number, connection = 0, None
        while not self.is_over.is_set():
            key, asked = f"{client}-{number}", time.monotonic()
            number += 1
            try:
                connection = connection or self.service.connect()
                status = ask(connection, key)
            except (OSError, http.client.HTTPException):
                connection = None
                time.sleep(0.01)
                continue
            if status == 200:
                self.answered.append(Answered(key, asked, time.monotonic()))
            else:
                self.others[status] = self.others.get(status, 0) + 1

    def end(self):
        self.is_over.set()
        for thread in self.threads:
            thread.join()


def wait_until(is_so, what, seconds=600):
    """Waits until this is so."""
    end = time.monotonic() + seconds
    while not is_so():
        assert time.monotonic() < end, what
        time.sleep(0.005)
