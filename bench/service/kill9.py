"""ROUNDS times: a service under load is ended by SIGKILL at a random moment and started again over the same logs. Every key that a
client was told a variant for stands in the logs, whatever was in flight. Usage: kill9.py [ROUNDS] [CLIENTS]"""
import random
import sys
import tempfile
import threading
import time

from service import Service, ask, line_for

ROUNDS = int(sys.argv[1]) if len(sys.argv) > 1 else 20
CLIENTS = int(sys.argv[2]) if len(sys.argv) > 2 else 8


def load(service, name, told, stop):
    number = 0
    while not stop.is_set():
        connection = service.connect()
        try:
            while not stop.is_set():
                key = f"{name}-{number}"
                number += 1
                if ask(connection, key) == 200:
                    told.append(key)
        except OSError:
            pass
        except Exception:
            pass
        finally:
            connection.close()


with tempfile.TemporaryDirectory() as folder:
    told = []
    for turn in range(ROUNDS):
        service = Service(folder, f"{folder}/log", "--workers", "4")
        stop = threading.Event()
        before = len(told)
        threads = [
            threading.Thread(target=load, args=(service, f"{turn}-{client}", told, stop)) for client in range(CLIENTS)
        ]
        for thread in threads:
            thread.start()
        time.sleep(random.uniform(0.05, 1.0))
        service.kill()
        stop.set()
        for thread in threads:
            thread.join()
        lines = service.lines()
        lost = [key for key in told if line_for(key) not in lines]
        print(f"round {turn + 1}: told {len(told) - before}, lines {len(lines)}, lost {len(lost)}", flush=True)
        assert not lost, lost[:3]
    print(f"{len(told)} told over {ROUNDS} kills, none lost")
