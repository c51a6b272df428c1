"""What a plan over many recorded inputs takes of a service, and of those who are answered beside it: seconds for GET /flags, GET /record and
POST /plan, the most memory held, also what is more by each input, and the 99th percentile of answers before and beside these calls, of
CLIENTS connections that ask one after another. Usage: planning.py [INPUTS ..]   (1,000,000 and 10,000,000)"""
import http.client
import json
import multiprocessing
import os
import socket
import sys
import tempfile
import time

from service import PATH, Service, body_for, free_port

SIZES = [int(word) for word in sys.argv[1:]] or [1_000_000, 10_000_000]
CLIENTS, LOGS, PLANS = 4, 4, 5

# How long answers are timed before the plans, in seconds.
USUAL = 10
REQUEST = json.dumps({"plan": 1, "flag": "color", "site": 0, "totals": {"red": 40, "blue": 60}})


def put_logs(folder, count):
    """Logs of workers with so many inputs, of which each tenth stands in two."""
    os.mkdir(folder)
    for number in range(LOGS):
        with open(os.path.join(folder, f"worker-{number + 1}.log"), "w", encoding="utf-8") as file:
            file.writelines(f'["color",0,null,"coloruser-{it}"]\n' for it in range(count) if it % LOGS == number or (it % 10 == 0 and it % LOGS == (number + 1) % LOGS))


class Asking:
    """CLIENTS connections that ask for one known key after another, a millisecond after each answer: a process each, since threads of
    one would wait for one another."""

    def __init__(self, service):
        self.port, self.is_over, self.told = service.port, multiprocessing.Event(), multiprocessing.Queue()
        self.clients = [multiprocessing.Process(target=self.ask_on, args=(client,), daemon=True) for client in range(CLIENTS)]
        for client in self.clients:
            client.start()

    def ask_on(self, client):
        took, number = [], 0
        with socket.create_connection(("127.0.0.1", self.port), 900) as stream:
            while not self.is_over.is_set():
                body = body_for(f"user-{client}-{number % 1000}")
                request = b"POST %s HTTP/1.1\r\nHost: h\r\nContent-Length: %d\r\n\r\n%s" % (PATH.encode(), len(body), body)
                asked = time.perf_counter()
                stream.sendall(request)
                # (an answer comes in one piece: it is short)
                assert stream.recv(4096).startswith(b"HTTP/1.1 200 ")
                took.append(1000 * (time.perf_counter() - asked))
                number += 1
                time.sleep(0.001)
        self.told.put(took)

    def end(self):
        """The 99th percentile in milliseconds, and how many answers there were."""
        self.is_over.set()
        times = sorted(time for _ in self.clients for time in self.told.get())
        return times[len(times) * 99 // 100], len(times)


def called(port, method, path, body=None):
    """The body of an answer, and how many seconds it took."""
    client = http.client.HTTPConnection("127.0.0.1", port, timeout=900)
    begun = time.perf_counter()
    client.request(method, path, body)
    answer = client.getresponse()
    text = answer.read()
    client.close()
    assert answer.status == 200, text
    return text, time.perf_counter() - begun


def measured(count):
    with tempfile.TemporaryDirectory() as folder:
        logs = os.path.join(folder, "log")
        put_logs(logs, count)
        size = sum(os.path.getsize(os.path.join(logs, name)) for name in os.listdir(logs))
        admin = free_port()
        service = Service(folder, logs, "--admin", f"127.0.0.1:{admin}")
        assert service.serves, service.reports()
        print(f"{count:,} inputs, {size / 2**20:,.0f} MiB of logs", flush=True)
        try:
            # (The first answers write their lines, and what was written of the logs just now goes to the disk.)
            os.sync()
            asking = Asking(service)
            time.sleep(2)
            asking.end()
            asking = Asking(service)
            time.sleep(USUAL)
            usual, before = asking.end()
            # The workers remember the last notes of their logs by now.
            held = service.kilobytes("VmHWM")
            asking = Asking(service)
            _, flags = called(admin, "GET", "/flags")
            _, record = called(admin, "GET", "/record?flag=color&site=0")
            plans = [called(admin, "POST", "/plan", REQUEST) for _ in range(PLANS)]
            beside, among = asking.end()
            most = service.kilobytes("VmHWM")
            inputs = json.loads(plans[-1][0])["inputs"]
            assert count <= inputs <= count + CLIENTS * 1000, inputs
            print(f"  flags {flags:.2f} s; record {record:.2f} s; plan {min(took for _, took in plans):.2f} to {max(took for _, took in plans):.2f} s; most memory {most / 1024:,.0f} MiB, before {held / 1024:,.0f} MiB: {(most - held) * 1024 / count:.0f} bytes more an input")
            print(f"  99th percentile of answers: {usual:.2f} ms before ({before:,}), {beside:.2f} ms beside the calls ({among:,}), {beside / usual:.2f} times", flush=True)
        finally:
            service.kill()


for it in SIZES:
    measured(it)
