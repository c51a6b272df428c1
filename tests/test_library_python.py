"""The Python package over the shipped library (`library/python`)."""
import json
import os
import random
import socket
import struct
import subprocess
import sys
import tempfile
import threading
import unittest

from program import PROGRAM, ROOT, SECONDS, free_port, run, wait_until
from test_library import WithLibrary, first_program

PACKAGE = os.path.join(ROOT, "library", "python")
sys.path.insert(0, PACKAGE)

FLAGS = {
    "broken": {"state": "ENABLED"},
    "color": {
        "state": "ENABLED", "variants": {"red": "r", "blue": "b"}, "defaultVariant": "red",
        "targeting": {"fractional": [["red", 50], ["blue", 50]]},
    },
    "default": {"state": "ENABLED", "variants": {"on": True, "off": False}},
    "off": {"state": "DISABLED", "variants": {"on": True}, "defaultVariant": "on"},
    "parts": {"state": "ENABLED", "variants": {"a": {"x": [1, "é"]}}, "defaultVariant": "a"},
    "size": {"state": "ENABLED", "variants": {"one": 1, "two": 2}, "defaultVariant": "two"},
    "yes": {"state": "ENABLED", "variants": {"on": True}, "defaultVariant": "on"},
}
DOCUMENT = json.dumps({"flags": FLAGS})

# A key, a default, and what it resolves to for ann.
ANSWERS = [
    ("yes", False, (True, "on", "STATIC", None)),
    ("size", 7, (2, "two", "STATIC", None)),
    ("parts", {}, ({"x": [1, "é"]}, "a", "STATIC", None)),
    ("size", "seven", ("seven", None, "ERROR", "TYPE_MISMATCH")),
    ("default", True, (True, None, "DEFAULT", None)),
    ("off", False, (False, None, "DISABLED", None)),
    ("broken", False, (False, None, "ERROR", "PARSE_ERROR")),
    ("gone", 5, (5, None, "ERROR", "FLAG_NOT_FOUND")),
]


def valued(value):
    """A document with one flag of this value."""
    return json.dumps({"flags": {"n": {"state": "ENABLED", "variants": {"v": value}, "defaultVariant": "v"}}})


def frame(number, document):
    data = document.encode()
    return struct.pack(">IQ", 8 + len(data), number) + data


def note_of(key):
    return f'["color",0,null,"color{key}"]\n'


class PackageTest(WithLibrary):
    def setUp(self):
        super().setUp()
        os.environ["FLAGOPS_LIBRARY"] = os.path.join(self.folder, "libflagops.so.0")
        import flagops

        self.flagops = flagops
        folder = tempfile.TemporaryDirectory()
        self.addCleanup(folder.cleanup)
        self.here = folder.name

    def path(self, name):
        return os.path.join(self.here, name)

    def put(self, name, text):
        with open(self.path(name + ".new"), "w", encoding="utf-8") as file:
            file.write(text)
        os.replace(self.path(name + ".new"), self.path(name))

    def text(self, name):
        with open(self.path(name), encoding="utf-8") as file:
            return file.read()

    def client(self, **how):
        client = self.flagops.Client(**how)
        self.addCleanup(client.close)
        return client


class RolloutsTest(PackageTest):
    REQUEST = b'{"plan":1,"flag":"color","totals":{"red":40,"blue":60}}'

    def test_the_whole_way(self):
        client, rollouts, document = self.client(most=1 << 20), self.flagops.rollouts, DOCUMENT.encode()
        client.open(DOCUMENT)
        for user in range(300):
            client.resolve("color", "x", {"targetingKey": str(user)})
        lines = b"".join(sorted(set(client.notes().splitlines(keepends=True))))
        counts = rollouts.tally(document, self.REQUEST, lines)
        self.assertIn(b'"inputs":300,', counts)
        plan = rollouts.plan(document, self.REQUEST, counts)
        self.assertTrue(plan.has_rule)
        rollouts.verify(document, self.REQUEST, counts, plan.file)
        changed = json.loads(rollouts.apply(document, self.REQUEST, counts, plan.file))
        totals = {"red": 0, "blue": 0}
        for name, weight in changed["flags"]["color"]["targeting"]["fractional"]:
            totals[name] += weight
        self.assertEqual(totals, {"red": 40, "blue": 60})
        files = {"d": DOCUMENT, "r": self.REQUEST.decode(), "t": counts.decode()}
        self.assertEqual(run(["plan", "d", "r", "t"], files).out.encode(), plan.file)

    def test_no_rule(self):
        rollouts, document = self.flagops.rollouts, DOCUMENT.encode()
        never = b'{"plan":1,"flag":"color","totals":{"red":100},"forbid":[["blue","red"]]}'
        counts = rollouts.tally(document, never, b"")
        plan = rollouts.plan(document, never, counts)
        self.assertFalse(plan.has_rule)
        with self.assertRaises(self.flagops.Refused) as refused:
            rollouts.apply(document, never, counts, plan.file)
        self.assertEqual(refused.exception.number, 9)

    def test_refusals(self):
        rollouts, document = self.flagops.rollouts, DOCUMENT.encode()
        for act, number in (
            (lambda: rollouts.tally(b"{", b"", b""), 11), (lambda: rollouts.tally(document, b"", b""), 51),
            (lambda: rollouts.tally(document, self.REQUEST, b"x\n"), 71), (lambda: rollouts.plan(document, self.REQUEST, b""), 81),
            (lambda: rollouts.verify(document, self.REQUEST, rollouts.tally(document, self.REQUEST, b""), b"x"), 91),
        ):
            with self.assertRaises(self.flagops.Refused) as refused:
                act()
            self.assertEqual(refused.exception.number, number)


class ResolveTest(PackageTest):
    def test_answers(self):
        client = self.client()
        client.open(DOCUMENT)
        for key, default, wanted in ANSWERS:
            self.assertEqual(tuple(client.resolve(key, default, {"targetingKey": "ann"})), wanted, key)
        self.assertEqual(client.keys(), {key: key != "broken" for key in FLAGS})

    def test_without_flags(self):
        client = self.client()
        self.assertFalse(client.wait(0))
        self.assertEqual(tuple(client.resolve("yes", False)), (False, None, "ERROR", "PROVIDER_NOT_READY"))
        self.assertEqual(client.keys(), {})

    def test_as_the_program(self):
        client = self.client()
        client.open(DOCUMENT)
        for user in ("ann", "bob", "é", "x" * 2000):
            told = json.loads(run(["resolve", "d", "color", "text", '"x"', "c", "0"], {"d": DOCUMENT, "c": json.dumps({"targetingKey": user})}).out)
            for _ in range(3):
                found = client.resolve("color", "x", {"targetingKey": user}, moment=0)
                self.assertEqual((found.value, found.variant, found.reason), (told["value"], told["variant"], told["reason"]))

    def test_refusals(self):
        client = self.client()
        for document, number in (("{", 11), ("{}", 12)):
            with self.assertRaises(self.flagops.Refused) as refused:
                client.open(document)
            self.assertEqual(refused.exception.number, number)
        client.open(DOCUMENT)
        for context, number in ((b"{", 31), (b'{"a":' * 124 + b"1" + b"}" * 124, 34)):
            with self.assertRaises(self.flagops.Refused) as refused:
                client.resolve("yes", False, context)
            self.assertEqual(refused.exception.number, number)
        self.assertEqual(client.resolve("yes", False, {"a": 0.5, "b": 5.0}).value, True)
        with self.assertRaises(TypeError):
            client.resolve("yes", None)
        self.assertEqual(client.resolve("yes", None, kind=0).value, True)
        self.assertEqual(client.resolve("yes", False, b"[]").code, "INVALID_CONTEXT")

    def test_more_room_than_at_first(self):
        client = self.client()
        client.open(valued("é" * 100_000))
        self.assertEqual(client.resolve("n", "").value, "é" * 100_000)

    def test_threads_beside_new_flags(self):
        client, stop, wrong = self.client(most=1 << 26), threading.Event(), []
        client.open(DOCUMENT)

        def ask(name):
            number = 0
            while not stop.is_set():
                found = client.resolve("color", "x", {"targetingKey": f"{name}-{number}"})
                if found.reason != "TARGETING_MATCH":
                    wrong.append(found)
                number += 1
            counts[name] = number

        counts = {}
        threads = [threading.Thread(target=ask, args=(name,)) for name in range(4)]
        for thread in threads:
            thread.start()
        lines = b""
        for _ in range(50):
            client.open(DOCUMENT)
            lines += client.notes()
        stop.set()
        for thread in threads:
            thread.join()
        lines += client.notes()
        self.assertEqual(wrong, [])
        self.assertFalse(client.lost)
        self.assertEqual(sorted(lines.decode().splitlines(True)), sorted(note_of(f"{name}-{i}") for name in counts for i in range(counts[name])))

    def test_lost_notes_are_told(self):
        client = self.client(most=40)
        client.open(DOCUMENT)
        for user in ("ann", "bob"):
            client.resolve("color", "x", {"targetingKey": user})
        self.assertEqual((client.notes().decode(), client.lost, client.lost), (note_of("ann"), True, False))


class SourceTest(PackageTest):
    def test_a_watched_file(self):
        self.put("d", valued(1))
        client = self.client(file=self.path("d"), every=0.01)
        self.assertEqual(client.resolve("n", 0).value, 1)
        self.put("d", valued(2))
        wait_until(lambda: client.resolve("n", 0).value == 2, "the file that was replaced")
        with self.assertLogs("flagops", "WARNING") as told:
            self.put("d", "{")
            wait_until(lambda: told.records, "the refusal is told")
        self.assertEqual(client.resolve("n", 0).value, 2)
        self.put("d", valued(3))
        wait_until(lambda: client.resolve("n", 0).value == 3, "a good document again")

    def test_no_file(self):
        with self.assertRaises(FileNotFoundError):
            self.flagops.Client(file=self.path("d"))
        self.put("d", "{")
        with self.assertRaises(self.flagops.Refused):
            self.flagops.Client(file=self.path("d"))

    def test_a_stream_in_pieces_and_again(self):
        listener = socket.create_server(("127.0.0.1", 0))
        self.addCleanup(listener.close)
        client = self.client(stream="127.0.0.1:%d" % listener.getsockname()[1], first=0.01)
        for turn, (frames, last) in enumerate([([(1, 1), (7, 2), (8, 3)], 3), ([(1, 4)], 4), ([(5, 5), (5, 6)], 5), ([(1, 7)], 7)]):
            peer, _ = listener.accept()
            with peer:
                data, draw = b"".join(frame(number, valued(value)) for number, value in frames), random.Random(turn)
                while data:
                    at = draw.randrange(1, 40)
                    try:
                        peer.sendall(data[:at])
                    except ConnectionError:  # a number that is not above the last one ends the stream
                        break
                    data = data[at:]
                wait_until(lambda: client.resolve("n", 0).value == last, f"snapshot {last}")
        self.assertTrue(client.wait(0))

    def test_the_stream_of_the_program(self):
        self.put("d", valued(1))
        port, stream = free_port(self), free_port(self)
        words = [PROGRAM, "ofrep", "--listen", f"127.0.0.1:{port}", "--stream", str(stream), "--poll", "1", "d"]
        service = subprocess.Popen(words, cwd=self.here, stdout=subprocess.DEVNULL, stderr=subprocess.DEVNULL)
        self.addCleanup(service.wait)
        self.addCleanup(service.kill)
        client = self.client(stream=f"127.0.0.1:{stream}", first=0.01)
        self.assertTrue(client.wait(SECONDS))
        self.assertEqual(client.resolve("n", 0).value, 1)
        self.put("d", valued(2))
        wait_until(lambda: client.resolve("n", 0).value == 2, "the new document")


class LogTest(PackageTest):
    def test_before(self):
        with open(self.path("log"), "w", encoding="utf-8") as file:
            file.write(note_of("earlier") + '["col')
        client = self.client(log=self.path("log"))
        client.open(DOCUMENT)
        for user in ("ann", "bob", "ann"):
            client.resolve("color", "x", {"targetingKey": user})
            self.assertIn(note_of(user), self.text("log"))
        self.assertEqual(self.text("log"), "".join(map(note_of, ("earlier", "ann", "bob"))))
        with self.assertRaises(BlockingIOError):
            self.flagops.Client(log=self.path("log"))
        client.close()
        with self.assertRaises(RuntimeError):
            client.resolve("color", "x")
        self.client(log=self.path("log"))

    def test_batches(self):
        client = self.client(log=self.path("log"), record="batches", every=0.01)
        client.open(DOCUMENT)
        thread = threading.Thread(target=client.resolve, args=("color", "x", {"targetingKey": "ann"}))
        thread.start()
        thread.join()
        del thread
        wait_until(lambda: self.text("log") == note_of("ann"), "the batch of a thread that has ended")
        client.resolve("color", "x", {"targetingKey": "bob"})
        client.close()
        self.assertEqual(self.text("log"), note_of("ann") + note_of("bob"))

    def test_a_full_disk(self):
        if not os.path.exists("/dev/full"):
            self.skipTest("no /dev/full is here")
        client = self.client(log=self.path("log"))
        client.open(DOCUMENT)
        client.resolve("color", "x", {"targetingKey": "ann"})
        log, full = client._log, os.open("/dev/full", os.O_WRONLY)
        own, log._file = log._file, full
        with self.assertRaises(self.flagops.NotRecorded):
            client.resolve("color", "x", {"targetingKey": "bob"})
        provider = self.flagops.FlagopsProvider(client)
        details = provider.resolve_string_details("color", "x", {"targetingKey": "bob"})
        self.assertEqual((details.value, details.variant, details.reason), ("x", None, "ERROR"))
        log._file = own
        os.close(full)
        client.resolve("color", "x", {"targetingKey": "bob"})
        self.assertEqual(self.text("log"), note_of("ann") + note_of("bob"))

    def test_killed_it_has_recorded_what_it_told(self):
        self.put("d", DOCUMENT)
        host = (
            "import flagops, os, sys, threading\n"
            "client = flagops.Client(file='d', log='log')\n"
            "def ask(name):\n"
            "    for i in range(10 ** 9):\n"
            "        client.resolve('color', 'x', {'targetingKey': f'{name}-{i}'})\n"
            "        os.write(1, f'{name}-{i}\\n'.encode())\n"
            "for name in sys.argv[1:]: threading.Thread(target=ask, args=(name,)).start()\n"
        )
        told = []
        for turn in range(3):
            words = [sys.executable, "-c", host, f"{turn}a", f"{turn}b"]
            with subprocess.Popen(words, cwd=self.here, stdout=subprocess.PIPE, text=True, env={**os.environ, "PYTHONPATH": PACKAGE}) as process:
                told += [process.stdout.readline() for _ in range(50)]
                process.kill()
                told += process.stdout.readlines()
            log = self.text("log")
            whole = {line for line in told if line.endswith("\n")}
            self.assertEqual([user for user in whole if note_of(user.strip()) not in log], [])
        self.assertGreaterEqual(len(told), 150)


class ProviderTest(PackageTest):
    def test_kinds(self):
        client = self.client()
        client.open(DOCUMENT)
        provider = self.flagops.FlagopsProvider(client)
        self.assertEqual(provider.get_metadata().name, "flagops")
        self.assertEqual(provider.get_provider_hooks(), [])
        for call, key, default, wanted in [
            (provider.resolve_boolean_details, "yes", False, (True, "on", "STATIC")),
            (provider.resolve_integer_details, "size", 7, (2, "two", "STATIC")),
            (provider.resolve_float_details, "size", 0.5, (2.0, "two", "STATIC")),
            (provider.resolve_float_details, "gone", 0.5, (0.5, None, "ERROR")),
            (provider.resolve_object_details, "parts", {}, ({"x": [1, "é"]}, "a", "STATIC")),
            (provider.resolve_object_details, "gone", [1], ([1], None, "ERROR")),
            (provider.resolve_string_details, "gone", "x", ("x", None, "ERROR")),
        ]:
            found = call(key, default, {"targetingKey": "ann"})
            self.assertEqual((found.value, found.variant, found.reason), wanted, key)

    def test_contexts_and_codes(self):
        client = self.client()
        client.open(DOCUMENT)
        provider = self.flagops.FlagopsProvider(client)

        class Context:
            targeting_key, attributes = "ann", {"a": 1}

        def code(found):
            return getattr(found.error_code, "name", found.error_code)

        self.assertEqual(provider.resolve_string_details("color", "x", Context()).reason, "TARGETING_MATCH")
        for context, wanted in ((None, None), ({"a": 0.5}, None), ({"a": object()}, "INVALID_CONTEXT"), (b"[]", "INVALID_CONTEXT")):
            self.assertEqual(code(provider.resolve_boolean_details("yes", False, context)), wanted)
        self.assertEqual(code(provider.resolve_boolean_details("gone", False)), "FLAG_NOT_FOUND")
        provider.shutdown()
        self.assertEqual(code(provider.resolve_boolean_details("yes", False)), "GENERAL")


class PagesTest(PackageTest):
    def test_the_readme(self):
        with open(os.path.join(ROOT, "README.md"), encoding="utf-8") as file:
            code = file.read().split("```python\n")[1].split("```")[0].replace("/tmp/flagops-notes.log", self.path("log"))
        ran = subprocess.run([sys.executable, "-c", code], cwd=ROOT, env={**os.environ, "PYTHONPATH": PACKAGE}, capture_output=True, text=True, check=False)
        self.assertEqual((ran.stdout, ran.stderr), ("mallory True on TARGETING_MATCH\nalice False off TARGETING_MATCH\n#1e1e1e dark\n", ""))
        self.assertEqual(self.text("log"), '["checkout",0,null,"checkoutmallory"]\n["checkout",0,null,"checkoutalice"]\n')

    def test_the_first_program(self):
        self.put("flags.json", json.dumps({"flags": {"hi": FLAGS["yes"]}}))
        words = [sys.executable, "-c", first_program("python")]
        ran = subprocess.run(words, cwd=self.here, env={**os.environ, "PYTHONPATH": PACKAGE}, capture_output=True, text=True, check=False)
        self.assertEqual((ran.stdout, ran.stderr), ("True by the variant on\n", ""))


class InstallTest(PackageTest):
    def test_the_wheel_is_whole(self):
        subprocess.run([sys.executable, os.path.join(PACKAGE, "packing.py"), self.here], check=True, capture_output=True)
        wheel = [name for name in os.listdir(self.here) if name.endswith(".whl")][0]
        words = [sys.executable, "-c", "import flagops; c = flagops.Client(); c.open('{\"flags\":{}}'); print(c.resolve('n', 1).code, flagops.__file__)"]
        import zipfile

        with zipfile.ZipFile(self.path(wheel)) as archive:
            archive.extractall(self.path("site"))
            names = set(archive.namelist())
        self.assertLessEqual({"flagops/py.typed", "flagops/libflagops.so.0", "flagops/client.py"}, names)
        env = {name: value for name, value in os.environ.items() if name != "FLAGOPS_LIBRARY"} | {"PYTHONPATH": self.path("site")}
        ran = subprocess.run(words, cwd=self.here, env=env, capture_output=True, text=True, check=True)
        self.assertEqual(ran.stdout, f"FLAG_NOT_FOUND {self.path('site/flagops/__init__.py')}\n")


if __name__ == "__main__":
    unittest.main()
