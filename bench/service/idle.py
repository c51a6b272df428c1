"""COUNT idle connections beside one that asks: the memory of the service and the time of 1,000 answers. Usage: idle.py [COUNT]"""
import socket
import sys
import tempfile
import time

from service import Service, ask

COUNT = int(sys.argv[1]) if len(sys.argv) > 1 else 1000


def resident(pid):
    with open(f"/proc/{pid}/status", encoding="utf-8") as file:
        return next(int(line.split()[1]) for line in file if line.startswith("VmRSS:"))


def timed(service, name):
    connection = service.connect()
    start = time.monotonic()
    for number in range(1000):
        assert ask(connection, f"{name}-{number}") == 200
    return time.monotonic() - start


with tempfile.TemporaryDirectory() as folder:
    service = Service(folder, f"{folder}/log", "--workers", "2")
    before, first = resident(service.child.pid), timed(service, "a")
    idle = [socket.create_connection(("127.0.0.1", service.port)) for _ in range(COUNT)]
    after, second = resident(service.child.pid), timed(service, "b")
    print(f"{COUNT} idle: {before} kB before, {after} kB after; 1000 answers in {first:.2f} s before, {second:.2f} s beside")
    service.kill()
