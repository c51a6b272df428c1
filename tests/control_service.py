"""The service with the calls of rollouts, over a document and a folder of logs."""
import os
import socket
import subprocess

from program import PROGRAM, SECONDS, free_port, wait_until

# The service looks for documents that have changed this often, in seconds.
POLL = "1"


def is_open(port):
    with socket.socket() as probe:
        return probe.connect_ex(("127.0.0.1", port)) == 0


class Folder:
    """The files of a test, in its `folder`."""

    def path(self, name):
        return os.path.join(self.folder, name)

    def put(self, name, text):
        with open(self.path(name), "w", encoding="utf-8") as file:
            file.write(text)

    def text(self, name):
        with open(self.path(name), encoding="utf-8") as file:
            return file.read()


class Service:
    """A service. What it tells a person goes to the file `told` beside the document."""

    def __init__(self, test, document, logs, allow_apply=False, words=()):
        self.port, admin = free_port(test), free_port(test)
        words = [*(["--log", logs] if logs else []), *(["--allow-apply"] if allow_apply else []), *words, document]
        words = ["ofrep", "--listen", f"127.0.0.1:{self.port}", "--admin", f"127.0.0.1:{admin}", "--poll", POLL, *words]
        self.told = os.path.join(os.path.dirname(document), "told")
        with open(self.told, "ab") as told:
            self.child = subprocess.Popen([PROGRAM, *words], stdout=subprocess.DEVNULL, stderr=told)
        self.origin = f"http://127.0.0.1:{admin}"
        wait_until(lambda: is_open(admin) or self.child.poll() is not None, "the service listens")
        if self.child.poll() is not None:
            with open(self.told, encoding="utf-8") as told:
                raise AssertionError(f"the service ended with {self.child.returncode}: {told.read()}")

    def close(self):
        self.child.kill()
        self.child.wait()
