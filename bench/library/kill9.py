"""ROUNDS times: a service in Python, which follows a stream of `ofrep`, resolves in its own process and records before it answers, is
ended by SIGKILL at a random moment under load. Each user that was told a variant stands in its log. At last a rollout is planned on the
log, and no plan moves more users than it says. Usage: kill9.py [ROUNDS] [CLIENTS]; FLAGOPS_LIBRARY and FLAGOPS name others than the
shipped ones."""
import http.client
import json
import os
import random
import socket
import subprocess
import sys
import tempfile
import threading
import time

ROOT = os.path.dirname(os.path.dirname(os.path.dirname(os.path.abspath(__file__))))
PROGRAM = os.environ.get("FLAGOPS", os.path.join(ROOT, "release", "x86_64-linux", "flagops"))
os.environ.setdefault("FLAGOPS_LIBRARY", os.path.join(ROOT, "release", "x86_64-linux", "libflagops.so.0"))
ROUNDS = int(sys.argv[1]) if len(sys.argv) > 1 else 20
CLIENTS = int(sys.argv[2]) if len(sys.argv) > 2 else 4
FLAG = {"state": "ENABLED", "variants": {"on": True, "off": False}, "defaultVariant": "off", "targeting": {"fractional": [["on", 5], ["off", 95]]}}
REQUEST = {"plan": 1, "flag": "checkout", "totals": {"on": 10, "off": 90}, "forbid": [["on", "off"]]}

SERVICE = """
import http.server, sys, flagops
client = flagops.Client(stream=sys.argv[1], log="notes.log", first=0.05)
provider = flagops.FlagopsProvider(client)
assert client.wait(30)

class Handler(http.server.BaseHTTPRequestHandler):
    protocol_version = "HTTP/1.1"

    def do_GET(self):
        details = provider.resolve_boolean_details("checkout", False, {"targetingKey": self.path[1:]})
        body = repr((details.value, details.variant)).encode()
        self.send_response(200)
        self.send_header("Content-Length", str(len(body)))
        self.end_headers()
        self.wfile.write(body)

    def log_message(self, *_):
        pass

server = http.server.ThreadingHTTPServer(("127.0.0.1", 0), Handler)
print(server.server_port, flush=True)
server.serve_forever()
"""


def free_port():
    with socket.socket() as probe:
        probe.bind(("127.0.0.1", 0))
        return probe.getsockname()[1]


def load(port, name, told, stop):
    """Asks for one user after another, until the service is gone."""
    try:
        connection, number = http.client.HTTPConnection("127.0.0.1", port, timeout=10), 0
        while not stop.is_set():
            user = f"{name}-{number}"
            connection.request("GET", f"/{user}")
            if b"'o" in connection.getresponse().read():
                told.append(user)
            number += 1
    except (OSError, http.client.HTTPException):
        pass


def flagops(folder, *words, **how):
    return subprocess.run([PROGRAM, *words], cwd=folder, stdout=subprocess.PIPE, check=True, **how).stdout


with tempfile.TemporaryDirectory() as folder:
    for name, value in (("flags.json", {"flags": {"checkout": FLAG}}), ("request.json", REQUEST)):
        with open(os.path.join(folder, name), "w", encoding="utf-8") as file:
            json.dump(value, file)
    stream, told = free_port(), []
    source = subprocess.Popen([PROGRAM, "ofrep", "--listen", f"127.0.0.1:{free_port()}", "--stream", str(stream), "flags.json"], cwd=folder, stdout=subprocess.PIPE)
    source.stdout.readline()
    for turn in range(ROUNDS):
        env = {**os.environ, "PYTHONPATH": os.path.join(ROOT, "library", "python")}
        service = subprocess.Popen([sys.executable, "-c", SERVICE, f"127.0.0.1:{stream}"], cwd=folder, stdout=subprocess.PIPE, env=env)
        port, stop = int(service.stdout.readline()), threading.Event()
        threads = [threading.Thread(target=load, args=(port, f"{turn}-{client}", told, stop)) for client in range(CLIENTS)]
        for thread in threads:
            thread.start()
        time.sleep(random.uniform(0.05, 0.5))
        service.kill()
        service.wait()
        stop.set()
        for thread in threads:
            thread.join()
        with open(os.path.join(folder, "notes.log"), encoding="utf-8") as file:
            lines = {line for line in file if line.endswith("\n")}
        lost = [user for user in told if f'["checkout",0,null,"checkout{user}"]\n' not in lines]
        assert not lost, lost[:3]
        if turn % 20 == 19:
            print(f"{turn + 1} kills, {len(told)} told, {len(lines)} lines, none lost", flush=True)
    source.kill()
    source.wait()
    with open(os.path.join(folder, "notes.txt"), "wb") as file:
        file.write(subprocess.run(["sort", "-u"], input="".join(lines), encoding="utf-8", stdout=subprocess.PIPE, env={"LC_ALL": "C"}, check=True).stdout.encode())
    with open(os.path.join(folder, "notes.txt"), "rb") as notes, open(os.path.join(folder, "tally.txt"), "wb") as tally:
        tally.write(flagops(folder, "tally", "flags.json", "checkout", "0", stdin=notes))
    plan = flagops(folder, "plan", "flags.json", "request.json", "tally.txt")
    with open(os.path.join(folder, "plan.json"), "wb") as file:
        file.write(plan)
    print(flagops(folder, "verify", "flags.json", "request.json", "tally.txt", "plan.json").decode(), end="")
    print(f"{len(told)} told over {ROUNDS} kills, none lost; the plan of 5 to 10 percent on them costs {json.loads(plan)['cost']}")
