"""The commands `serve` and `follow` over the loopback."""
import array
import fcntl
import json
import os
import socket
import struct
import subprocess
import tempfile
import termios
import time
import unittest

from given import document
from program import PROGRAM, SECONDS, free_port, in_time, wait_until


def flags(*keys):
    """A document of good flags under these keys."""
    flag = {"state": "ENABLED", "variants": {"on": True}, "defaultVariant": "on"}
    return json.dumps({"flags": {key: flag for key in keys}})


def large(key):
    """A document of one flag that is printed in more than half of the bytes that a merge may have."""
    flag = {"state": "ENABLED", "variants": {"v": "value" * 420_000}}
    return json.dumps({"flags": {key: flag}})


NONE = '{"flags":{}}'
ONE = flags("color")
TEN = flags("color", *(f"flag-{number}" for number in range(9)))

# A flag with a rule, and ten flags with it among them: some are broken, some refer to an evaluator.
RULED = document()
MIXED = """{"$evaluators":{"vip":{"in":[{"var":"key"},["test"]]}},"flags":{
"bare":{"state":"ENABLED","variants":{"on":1},"targeting":{"if":[false,"on"]}},
"color":{"state":"ENABLED","variants":{"red":"r"},"defaultVariant":"red"},
"half":{"state":"ENABLED","variants":{"a":1.5},"defaultVariant":"a"},
"lost":{"state":"ENABLED","variants":{"on":1},"defaultVariant":"on","targeting":{"if":[true,"no such"]}},
"loop":{"state":"ENABLED","variants":{"on":1},"targeting":{"$ref":"nobody"}},
"off":{"state":"DISABLED","variants":{"on":true},"defaultVariant":"on"},
"plain":{"state":"ENABLED","variants":{"on":true,"off":false},"defaultVariant":"on","targeting":{}},
"te":{"state":"ENABLED","variants":{"red":1,"blue":2},"targeting":{"fractional":[["red",50],["blue",50]]}},
"vip":{"state":"ENABLED","variants":{"on":1},"targeting":{"if":[{"$ref":"vip"},"on",null]}},
"zero":{"state":"ENABLED","variants":{"on":1},"targeting":{"%":[1,0]}}}}"""

# What two of them are printed as: a broken one is empty, and of the other the evaluator stands where it was named.
PRINTED = [
    b'"half":{},',
    b'"vip":{"state":"ENABLED","targeting":{"if":[{"in":[{"var":["key"]},["test"]]},"on",null]},"variants":{"on":1}},',
]

# What a follower can see of ONE, TEN and ONE: each snapshot at most once, and always the last.
SEEN = [
    "snapshot 3 flags 10\nended\n",
    "snapshot 1 flags 1\nsnapshot 3 flags 10\nended\n",
    "snapshot 2 flags 10\nsnapshot 3 flags 10\nended\n",
    "snapshot 1 flags 1\nsnapshot 2 flags 10\nsnapshot 3 flags 10\nended\n",
]


def frame(number, document):
    """The frame of a snapshot."""
    return struct.pack(">IQ", 8 + len(document), number) + document


# The frame of a snapshot without flags and with the number 1.
FRAME = bytes.fromhex("00000014 0000000000000001 7b22666c616773223a7b7d7d")

# The bytes that come, the turns, what is printed and the status.
ENDS = [
    (FRAME + frame(2, NONE.encode())[:8], "1000", "snapshot 1 flags 0\nstopped EndedInside\n", 1),
    (FRAME, "1000", "snapshot 1 flags 0\nended\n", 0),
    (FRAME, "1", "snapshot 1 flags 0\nstopped Limit\n", 0),
    (b"", "1000", "ended\n", 0),
    *((FRAME[:count], "1000", "stopped EndedInside\n", 1) for count in range(1, len(FRAME))),
    (FRAME + FRAME, "1000", "snapshot 1 flags 0\nstopped Frame\n", 1),
    (bytes.fromhex("00400009"), "1000", "stopped Frame\n", 1),
    (bytes.fromhex("00000007"), "1000", "stopped Frame\n", 1),
    (frame(0, b"{")[:12], "1000", "stopped Frame\n", 1),
    (frame(1, b"{"), "1000", "stopped Frame\n", 1),
]


# Words that neither command takes: numbers that are missing or out of their range, and what is one too many.
MISTAKES = [
    "serve",
    "serve 8013",
    "serve 8013 1",
    "serve 0 1 d",
    "serve 65536 1 d",
    "serve x 1 d",
    "serve 8013 0 d",
    "serve 8013 65 d",
    "serve 8013 -1 d",
    "serve 8013 1 d --fast",
    "serve 8013 1 d --wait",
    "serve 8013 1 d --wait -1",
    "serve 8013 1 d --wait 86401",
    "follow",
    "follow 8013",
    "follow 0 1000",
    "follow 65536 1000",
    "follow 8013 0",
    "follow 8013 1000001",
    "follow 8013 many",
    "follow 8013 1000 d",
    "follow 8013 1000 --fast",
    "follow 8013 1000 --wait x",
]


def frames(stream):
    """The frames that come until a stream ends: their numbers and documents."""
    left, found = b"".join(iter(lambda: stream.recv(65536), b"")), []
    while left:
        length, number = struct.unpack_from(">IQ", left)
        found.append((number, left[12 : 4 + length]))
        left = left[4 + length :]
    return found


def waiting_bytes(stream):
    """How many bytes have come on a connection that were not read yet."""
    count = array.array("i", [0])
    fcntl.ioctl(stream, termios.FIONREAD, count)
    return count[0]


def listening():
    """A socket of this host that one may connect to, and its port."""
    listener = socket.socket()
    listener.settimeout(SECONDS)
    listener.bind(("127.0.0.1", 0))
    listener.listen()
    return listener, str(listener.getsockname()[1])


class Streams(unittest.TestCase):
    def setUp(self):
        folder = tempfile.TemporaryDirectory()
        self.addCleanup(folder.cleanup)
        self.folder = folder.name

    def put(self, name, text):
        with open(os.path.join(self.folder, name), "w", encoding="utf-8") as file:
            file.write(text)

    def start(self, *words):
        """A run with these words that goes on."""
        how = {"stdout": subprocess.PIPE, "stderr": subprocess.PIPE, "text": True, "cwd": self.folder}
        child = subprocess.Popen([PROGRAM, *words], **how)
        self.addCleanup(child.communicate)
        self.addCleanup(child.kill)
        return child

    def free_port(self):
        return str(free_port(self))

    def serve(self, subscribers, *documents, wait="0"):
        """A server of these documents, once it listens on the port that it was given, and that port."""
        names = [f"{place}.json" for place in range(1, len(documents) + 1)]
        for name, text in zip(names, documents):
            self.put(name, text)
        port = self.free_port()
        server = self.start("serve", port, str(subscribers), *names, "--wait", wait)
        line = server.stderr.readline()
        # Documents that will be refused are told before.
        while line and "listens on" not in line:
            line = server.stderr.readline()
        self.assertIn(f"127.0.0.1:{port},", line)
        return server, port

    def assert_ends(self, child, printed, status):
        """The run ends so; what it told a person."""
        out, told = child.communicate(timeout=SECONDS)
        self.assertEqual((out, child.returncode), (printed, status), told)
        return told

    def connect(self, port):
        """A subscriber that has come."""
        return socket.create_connection(("127.0.0.1", int(port)), SECONDS)

    def received(self, port, sent=b"", late=0):
        """The frames that a subscriber is sent, which sends something first, and reads nothing until so many bytes wait for it: their
        numbers and documents."""
        with self.connect(port) as stream:
            stream.sendall(sent)
            wait_until(lambda: waiting_bytes(stream) >= late, "bytes of a frame")
            return frames(stream)

    def test_every_subscriber_gets_the_last_snapshot(self):
        """A person is told nothing beside a stream, and of each subscriber beside what was published."""
        for documents in ((ONE, TEN, ONE), (RULED, MIXED, RULED)):
            server, port = self.serve(2, *documents)
            followers = [self.start("follow", port, "1000") for _ in range(2)]
            for follower in followers:
                out, told = follower.communicate(timeout=SECONDS)
                self.assertIn(out, SEEN)
                self.assertEqual((follower.returncode, told), (0, ""))
            told = self.assert_ends(server, "published 3\n", 0)
            self.assertEqual(len(told.splitlines()), 4, told)
            self.assertTrue(all(line.startswith("serve: subscriber ") for line in told.splitlines()), told)

    def test_what_is_published_is_the_merge(self):
        """The last frame has the rule of the last document, and what only the one before has."""
        server, port = self.serve(1, RULED, MIXED, RULED)
        number, last = self.received(port)[-1]
        self.assert_ends(server, "published 3\n", 0)
        self.assertEqual((number, len(json.loads(last)["flags"])), (3, 10))
        for printed in PRINTED:
            self.assertIn(printed, last)
        color = json.loads(last)["flags"]["color"]
        self.assertEqual(color["targeting"], {"fractional": [{"var": ["key"]}, ["red", 5], ["blue", 5]]})

    def test_a_large_document_among_small_ones(self):
        server, port = self.serve(1, ONE, large("large"), ONE)
        number, last = self.received(port)[-1]
        self.assert_ends(server, "published 3\n", 0)
        self.assertEqual((number, sorted(json.loads(last)["flags"])), (3, ["color", "large"]))
        self.assertEqual(json.loads(last)["flags"]["large"]["variants"]["v"], "value" * 420_000)

    def test_one_turn_is_one_read(self):
        server, port = self.serve(1, ONE, TEN)
        follower = self.start("follow", port, "1")
        out, _ = follower.communicate(timeout=SECONDS)
        lines = out.splitlines()
        self.assertEqual((lines[-1], follower.returncode), ("stopped Limit", 0))
        self.assertLessEqual(len(lines), 3)
        ended = (server.communicate(timeout=SECONDS)[0], server.returncode)
        self.assertIn(ended, [("published 2\n", 0), ("refused serve 1 Unserved 1\n", 1)])

    def test_a_line_comes_with_its_snapshot(self):
        """Each line is printed before the next frame is sent."""
        listener, port = listening()
        with listener:
            follower = self.start("follow", port, "1000")
            stream, _ = listener.accept()
            with stream:
                for number in (1, 2):
                    stream.sendall(frame(number, NONE.encode()))
                    self.assertEqual(follower.stdout.readline(), f"snapshot {number} flags 0\n")
            self.assert_ends(follower, "ended\n", 0)

    def test_streams_that_end(self):
        for sent, turns, printed, status in ENDS:
            listener, port = listening()
            with self.subTest(sent=sent, turns=turns), listener:
                follower = self.start("follow", port, turns)
                stream, _ = listener.accept()
                with stream:
                    stream.sendall(sent)
                self.assert_ends(follower, printed, status)

    def test_the_bytes_of_a_frame(self):
        server, port = self.serve(1, NONE)
        with self.connect(port) as stream:
            self.assertEqual(b"".join(iter(lambda: stream.recv(65536), b"")), FRAME)
        self.assert_ends(server, "published 1\n", 0)

    def test_what_a_subscriber_sends_is_dropped(self):
        """It gets each byte of its frames, however much it has sent, and whenever it reads them."""
        for sent in (9_000, 1_000_000):
            with self.subTest(sent=sent):
                server, port = self.serve(1, ONE, large("large"))
                number, last = self.received(port, b"x" * sent, 65_536)[-1]
                self.assert_ends(server, "published 2\n", 0)
                self.assertEqual((number, sorted(json.loads(last)["flags"])), (2, ["color", "large"]))

    def test_a_subscriber_that_is_not_served(self):
        """The status tells of one that was reset, and a line of it; the other gets all."""
        server, port = self.serve(2, ONE, TEN)
        gone = self.connect(port)
        gone.setsockopt(socket.SOL_SOCKET, socket.SO_LINGER, struct.pack("ii", 1, 0))
        gone.close()
        self.assertEqual(self.received(port)[-1][0], 2)
        told = self.assert_ends(server, "refused serve 1 Unserved 1\n", 1)
        self.assertRegex(told, "serve: subscriber 1 has gone after [01] snapshots: it takes no more bytes\n")
        self.assertIn("serve: subscriber 2 has gone after ", told)
        self.assertTrue(told.endswith("error: subscribers that were not sent the last snapshot: 1\n"), told)

    def test_a_subscriber_that_goes_before_it_read(self):
        """One that closes its connection before the first frame is not served."""
        server, port = self.serve(2, ONE)
        self.connect(port).close()
        self.assertEqual(len(self.received(port)), 1)
        self.assert_ends(server, "refused serve 1 Unserved 1\n", 1)

    def test_a_subscriber_that_stays(self):
        """One that keeps its connection open, or reads nothing, keeps `serve` for seconds alone."""
        server, port = self.serve(1, ONE, TEN)
        with self.connect(port):
            self.assert_ends(server, "published 2\n", 0)

    def test_documents_that_are_too_large_together(self):
        """Of two flags they are, of one flag the second hides the first."""
        server, port = self.serve(1, large("a"), large("b"))
        self.assert_ends(self.start("follow", port, "1000"), "snapshot 1 flags 1\nended\n", 0)
        self.assert_ends(server, "refused merged 5 TooLarge\n", 1)
        server, port = self.serve(1, large("a"), large("a"))
        out, _ = self.start("follow", port, "1000").communicate(timeout=SECONDS)
        self.assertTrue(out.endswith("snapshot 2 flags 1\nended\n"), out)
        self.assert_ends(server, "published 2\n", 0)

    def test_a_refused_document_ends_the_streams(self):
        """The subscribers have what was published before it, and a person is told its place and fault."""
        server, port = self.serve(1, TEN, '{"flags":{},\n', ONE)
        follower = self.start("follow", port, "1000")
        self.assert_ends(follower, "snapshot 1 flags 10\nended\n", 0)
        told = self.assert_ends(server, "refused set 4 Refused 1 NotJson\n", 1)
        self.assertIn('error: "2.json" is not valid JSON: ', told)
        self.assertTrue(told.endswith("  the subscribers have what was published before it\n"), told)

    def test_documents_that_will_be_refused_are_told_beforehand(self):
        """Each with what is wrong with it, before anybody is waited for."""
        texts = {"good": ONE, "bad": '{"flags":{},\n', "flagless": "{}"}
        for name, text in texts.items():
            self.put(name, text)
        port = self.free_port()
        server = self.start("serve", port, "1", "good", "bad", "good", "flagless")
        told = []
        while not told or "listens on" not in told[-1]:
            told.append(server.stderr.readline())
        warned = [line for line in told if line.startswith("serve: document ")]
        self.assertEqual(warned, ["serve: document 2 will be refused\n", "serve: document 4 will be refused\n"])
        self.assertIn('error: "bad" is not valid JSON: ', "".join(told))
        self.assertIn('error: "flagless"', "".join(told))
        self.assert_ends(self.start("follow", port, "1000"), "snapshot 1 flags 1\nended\n", 0)
        self.assert_ends(server, "refused set 4 Refused 1 NotJson\n", 1)

    def test_a_first_document_is_refused_before_anybody_is_waited_for(self):
        self.put("d", '{"flags":{},\n')
        told = self.assert_ends(self.start("serve", self.free_port(), "1", "d"), "refused set 4 Refused 1 NotJson\n", 1)
        self.assertTrue(told.startswith('error: "d" is not valid JSON: '), told)

    def test_who_does_not_come_in_time(self):
        """Those who have come are served, and the others are counted; where none has come there is nobody to serve."""
        in_time(self.assert_one_of_three_is_served)
        server, _ = self.serve(2, ONE, wait="1")
        self.assert_ends(server, "refused accept 1 NoConnection\n", 1)

    def assert_one_of_three_is_served(self, deadline):
        server, port = self.serve(3, ONE, wait=str(deadline.seconds))
        with self.connect(port) as stream:
            deadline.met()
            self.assertEqual([number for number, _ in frames(stream)], [1])
        self.assert_ends(server, "refused serve 1 Unserved 2\n", 1)

    def test_who_reads_nothing_in_time(self):
        """Its stream is cut, since 4 MB are more than the system keeps for it, and the others have the last snapshot."""
        in_time(self.assert_one_of_two_is_served)

    def assert_one_of_two_is_served(self, deadline):
        flag = {"state": "ENABLED", "variants": {"v": "value" * 830_000}}
        server, port = self.serve(2, json.dumps({"flags": {"a": flag}}), wait=str(deadline.seconds))
        with self.connect(port):
            received = self.received(port)
            deadline.met()
            self.assertEqual([number for number, _ in received], [1])
            self.assert_ends(server, "refused serve 1 Unserved 1\n", 1)

    def test_a_silent_server(self):
        in_time(self.assert_left_after_a_frame)

    def assert_left_after_a_frame(self, deadline):
        listener, port = listening()
        with listener:
            follower = self.start("follow", port, "1000", "--wait", str(deadline.seconds))
            stream, _ = listener.accept()
            with stream:
                stream.sendall(FRAME)
                deadline.met()
                told = self.assert_ends(follower, "snapshot 1 flags 0\nstopped ReadFault\n", 1)
                self.assertTrue(told.startswith(f"error: nothing came for {deadline.seconds} seconds; "), told)

    def test_a_port_in_use(self):
        self.put("d", ONE)
        listener, port = listening()
        with listener:
            self.assert_ends(self.start("serve", port, "1", "d"), "refused bind 1 Unbound\n", 1)

    def test_nobody_listens(self):
        self.assert_ends(self.start("follow", self.free_port(), "1000"), "refused connect 1 Unreachable\n", 1)

    def test_words_that_ask_for_nothing(self):
        """They are told beside the output, with the status of a mistake."""
        for words in MISTAKES:
            with self.subTest(words=words):
                told = self.assert_ends(self.start(*words.split()), "", 2)
                self.assertTrue(told.startswith("error: "), told)

    def test_a_document_that_cannot_be_read(self):
        """Its path is told, and nobody was listened for."""
        self.put("d", ONE)
        for names in (["none"], ["none", "d"], ["d", "none", "d"], ["d", "d", "none"]):
            told = self.assert_ends(self.start("serve", self.free_port(), "1", *names), "refused load 1 Unreadable\n", 1)
            self.assertTrue(told.startswith("error: "), told)
            self.assertIn('"none" cannot be read: No such file or directory', told)

    def test_no_seventeenth_document(self):
        self.put("d", ONE)
        words = ["serve", self.free_port(), "1", *["d"] * 17]
        self.assert_ends(self.start(*words), "refused add 2 TooMany\n", 1)


if __name__ == "__main__":
    unittest.main()
