"""Requests a second, the 99th percentile, the time of a processor for each request, and memory of `ofrep` beside a plain server
(`bench/plain`) over the same document in one run, by `wrk`, the two by turns, the best of three: 1 and 4 workers, 1, 4 and 64 connections, with and without a log, a flag with a rule and one without;
then the memory of each beside 4,000 idle connections. On a busy machine only the time of a processor says something. Needs `wrk`, and cargo with Debian's librust-{mio,rayon,serde-json}-dev.
Usage: beside.py [SECONDS]"""
import json
import os
import re
import select
import socket
import subprocess
import sys
import tempfile

from measured import Measured
from service import PROGRAM as PROVED
from service import free_port

HERE = os.path.dirname(os.path.abspath(__file__))
ROOT = os.path.dirname(os.path.dirname(HERE))
SECONDS = int(sys.argv[1]) if len(sys.argv) > 1 else 3
SHOP = os.path.join(ROOT, "demo", "flags", "shop.json")
SIZE = {"state": "ENABLED", "variants": {"small": 1, "large": 2}, "defaultVariant": "small"}
IDLE = 4_000
ASK = """
wrk.method = "POST"
wrk.headers["Content-Type"] = "application/json"
local n, id, threads = 0, 0, 0
function setup(thread) thread:set("id", threads); threads = threads + 1 end
request = function()
  n = n + 1
  return wrk.format(nil, nil, nil, string.format('{"context":{"targetingKey":"user-%d-%d"}}', id, n % 100000))
end
"""


def built(folder):
    """The plain server."""
    target = os.environ.get("CARGO_TARGET_DIR", os.path.join(folder, "target"))
    words = ["cargo", "build", "--quiet", "--release", "--offline"]
    subprocess.run(words, cwd=os.path.join(ROOT, "bench", "plain"), env={**os.environ, "CARGO_TARGET_DIR": target}, check=True)
    return os.path.join(target, "release", "plain")


class Server(Measured):
    """One of the two, listening; ended as it leaves its `with`."""

    def __init__(self, program, document, workers, log):
        self.port = free_port()
        address = f"127.0.0.1:{self.port}"
        if program == PROVED:
            words = ["ofrep", "--listen", address, "--workers", str(workers), *(["--log", log] if log else []), document]
        else:
            words = ["ofrep", address, str(workers), document, *([log] if log else [])]
        self.child = subprocess.Popen([program, *words], stdout=subprocess.PIPE, stderr=subprocess.DEVNULL, text=True)
        assert select.select([self.child.stdout], [], [], 20)[0] and self.child.stdout.readline() == "serving 1\n"


def timed(program, folder, workers, connections, logs, flag):
    """Requests a second and the 99th percentile, as `wrk` gives them, and the microseconds of a processor for each request."""
    with tempfile.TemporaryDirectory(dir=folder) as log, Server(program, os.path.join(folder, "flags.json"), workers, log if logs else None) as server:
        threads = str(min(connections, 2))
        words = ["wrk", "-t", threads, "-c", str(connections), "-d", f"{SECONDS}s", "--latency", "-s", os.path.join(folder, "ask.lua")]
        words.append(f"http://127.0.0.1:{server.port}/ofrep/v1/evaluate/flags/{flag}")
        begun = server.seconds()
        told = subprocess.run(words, capture_output=True, text=True, check=True).stdout
        spent = server.seconds() - begun
        assert "Non-2xx" not in told, told
        answers = int(re.search(r"(\d+) requests in", told)[1])
        return float(re.search(r"Requests/sec:\s+([0-9.]+)", told)[1]), re.search(r"(?m)^ +99% +(\S+)", told)[1], spent / answers * 1e6


def main():
    with tempfile.TemporaryDirectory() as folder:
        plain = built(folder)
        with open(os.path.join(folder, "ask.lua"), "w", encoding="utf-8") as file:
            file.write(ASK)
        with open(SHOP, encoding="utf-8") as shop, open(os.path.join(folder, "flags.json"), "w", encoding="utf-8") as file:
            document = json.load(shop)
            document["flags"]["size"] = SIZE
            json.dump(document, file)
        print("| workers | connections | log | flag | proved, 1/s (p99) | plain, 1/s (p99) | ratio | proved and plain, microseconds | ratio |\n|---|---|---|---|---|---|---|---|---|")
        ratios, spent_ratios = [], []
        for workers in (1, 4):
            for connections in (1, 4, 64):
                for logs in (True, False):
                    for flag in ("checkout", "size"):
                        runs = [[timed(it, folder, workers, connections, logs, flag) for it in (PROVED, plain)] for _ in range(3)]
                        ours, theirs = map(max, zip(*runs))
                        ratios.append(ours[0] / theirs[0])
                        spent = [min(run[2] for run in each) for each in zip(*runs)]
                        spent_ratios.append(spent[1] / spent[0])
                        kind = "with a rule" if flag == "checkout" else "without"
                        rates = " | ".join(f"{rate:,.0f} ({slowest})" for rate, slowest, _ in (ours, theirs))
                        print(f"| {workers} | {connections} | {'yes' if logs else 'no'} | {kind} | {rates} | {ratios[-1]:.2f} | {spent[0]:.1f} and {spent[1]:.1f} | {spent_ratios[-1]:.2f} |", flush=True)
        print(f"lowest ratio {min(ratios):.2f}, by the time of a processor {min(spent_ratios):.2f}")
        for name, program in (("proved", PROVED), ("plain", plain)):
            with Server(program, os.path.join(folder, "flags.json"), 4, None) as server:
                before = server.megabytes()
                idle = [socket.create_connection(("127.0.0.1", server.port)) for _ in range(IDLE)]
                print(f"{name}: {before:.1f} MB, {server.megabytes():.1f} MB beside {IDLE:,} idle connections")
                for connection in idle:
                    connection.close()


main()
