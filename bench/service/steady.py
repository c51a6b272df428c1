"""SECONDS of load on a service that logs: its memory each minute, and whether each answer was 200. The keys begin again after a
million, so that the memory of written notes turns over. Each connection pauses DELAY milliseconds behind an answer.
With SUBSCRIBERS the service serves its stream too: a new document each 5 seconds, to so many that follow all the time and to one
that comes, reads a snapshot and goes, again and again; each that stayed has read the last document at the end.
Usage: steady.py [SECONDS] [CONNECTIONS] [DELAY] [SUBSCRIBERS]"""
import json
import os
import socket
import subprocess
import sys
import tempfile
import threading
import time

from service import DOCUMENT, PROGRAM, Service

SECONDS = int(sys.argv[1]) if len(sys.argv) > 1 else 3600
CONNECTIONS = sys.argv[2] if len(sys.argv) > 2 else "16"
DELAY = int(sys.argv[3]) if len(sys.argv) > 3 else 0
SUBSCRIBERS = int(sys.argv[4]) if len(sys.argv) > 4 else 0
ASK = """
wrk.method = "POST"
wrk.headers["Content-Type"] = "application/json"
local n = 0
request = function()
  n = n + 1
  return wrk.format(nil, nil, nil, string.format('{"context":{"targetingKey":"user-%d"}}', n % 1000000))
end
"""


def resident(pid):
    with open(f"/proc/{pid}/status", encoding="utf-8") as file:
        return next(int(line.split()[1]) for line in file if line.startswith("VmRSS:"))


def free_port():
    with socket.socket() as probe:
        probe.bind(("127.0.0.1", 0))
        return probe.getsockname()[1]


class Stream:
    """The stream's subscribers, and the documents that the service is given for them."""

    def __init__(self, folder, port, is_over):
        self.folder, self.port, self.is_over, self.given, self.visits = folder, port, is_over, 0, 0
        self.last = os.path.join(folder, "last")
        self.followers = []
        for number in range(SUBSCRIBERS):
            with open(f"{self.last}{number}", "wb") as out:
                self.followers.append(subprocess.Popen([PROGRAM, "follow", str(port), "1000000"], stdout=out, stderr=subprocess.DEVNULL))
        self.threads = [threading.Thread(target=self.publish), threading.Thread(target=self.visit)]
        for thread in self.threads:
            thread.start()

    def publish(self):
        """Another document each 5 seconds, put in the place of the old one whole."""
        while not self.is_over.wait(5):
            self.given += 1
            path = os.path.join(self.folder, "flags.json")
            with open(f"{path}.new", "w", encoding="utf-8") as file:
                json.dump({"flags": {**DOCUMENT["flags"], "again": {"state": "DISABLED", "variants": {"n": self.given}}}}, file)
            os.rename(f"{path}.new", path)

    def visit(self):
        """A subscriber that reads one snapshot."""
        while not self.is_over.wait(0.2):
            with socket.create_connection(("127.0.0.1", self.port), 10) as stream:
                length = int.from_bytes(stream.recv(4, socket.MSG_WAITALL), "big")
                assert len(stream.recv(length, socket.MSG_WAITALL)) == length
            self.visits += 1

    def ended(self):
        """Waits for what goes on: how many snapshots each subscriber that stayed has read, and the last line of each."""
        for thread in self.threads:
            thread.join()
        time.sleep(5)
        told = []
        for number, child in enumerate(self.followers):
            assert child.poll() is None
            child.kill()
            child.wait()
            with open(f"{self.last}{number}", encoding="utf-8") as file:
                told.append(file.read().splitlines())
        assert len({lines[-1] for lines in told}) == 1
        return [len(lines) for lines in told], told[0][-1]


with tempfile.TemporaryDirectory() as folder:
    with open(os.path.join(folder, "ask.lua"), "w", encoding="utf-8") as file:
        file.write(ASK + (f"function delay() return {DELAY} end\n" if DELAY else ""))
    is_over, stream_port = threading.Event(), free_port()
    service = Service(folder, f"{folder}/log", "--workers", "4", *(["--stream", str(stream_port)] if SUBSCRIBERS else []))
    stream = Stream(folder, stream_port, is_over) if SUBSCRIBERS else None
    url = f"http://127.0.0.1:{service.port}/ofrep/v1/evaluate/flags/color"
    words = ["wrk", "-t", "1", "-c", CONNECTIONS, "-d", f"{SECONDS}s", "-s", os.path.join(folder, "ask.lua"), url]
    load = subprocess.Popen(words, stdout=subprocess.PIPE, text=True)
    start, seen = time.monotonic(), []
    while load.poll() is None:
        time.sleep(min(60, SECONDS / 10))
        if load.poll() is None:
            seen.append(resident(service.child.pid))
            print(f"{time.monotonic() - start:.0f} s: {seen[-1]} kB", flush=True)
    is_over.set()
    told = load.stdout.read()
    if stream:
        print(f"{stream.given} documents, {stream.visits} visits, snapshots read and the last one: {stream.ended()}")
    print(told)
    assert service.child.poll() is None and "Non-2xx" not in told
    print(f"memory from {min(seen[1:])} to {max(seen[1:])} kB after the first reading, {seen[0]} kB at it")
    service.kill()
