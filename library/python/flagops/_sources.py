"""Where flags come from: a file that is watched, or a stream that is followed, each by a thread of its own."""
from __future__ import annotations

import contextlib
import os
import random
import socket
import threading
from typing import Callable

from . import _library
from ._library import Refused, Seat

# A snapshot has been taken into the seat; a fault has been met, and the flags are those of before.
Came = Callable[[], None]
Failed = Callable[[Exception], None]


class Watched:
    """A document that is read again as soon as it is another file or has other times or sizes."""

    def __init__(self, path: str, every: float, seat: Seat, came: Came, failed: Failed) -> None:
        self._path, self._every, self._seat, self._came, self._failed = path, every, seat, came, failed
        self._stop = threading.Event()
        self._state = self._state_of()
        self._read()
        self._thread = threading.Thread(target=self._run, name="flagops file", daemon=True)
        self._thread.start()

    def _state_of(self) -> tuple:
        found = os.stat(self._path)
        return found.st_ino, found.st_dev, found.st_size, found.st_mtime_ns, found.st_ctime_ns

    def _read(self) -> None:
        with open(self._path, "rb") as file:
            self._seat.open(file.read())
        self._came()

    def _run(self) -> None:
        while not self._stop.wait(self._every):
            try:
                state = self._state_of()
                if state != self._state:
                    self._read()
                    self._state = state
            except Refused as fault:
                if fault.number != _library.MEMORY:
                    self._state = state
                self._failed(fault)
            except OSError as fault:
                self._failed(fault)

    def close(self) -> None:
        self._stop.set()
        self._thread.join()


class Followed:
    """The stream of a `flagops serve` or `ofrep --stream`. After each end it connects again: after a second at first, then after twice
    as long each time, up to a minute, with some chance in it."""

    LONGEST = 60.0

    def __init__(self, address: str, first: float, seat: Seat, came: Came, failed: Failed) -> None:
        host, _, port = address.rpartition(":")
        self._address = host.strip("[]"), int(port)
        self._first = self._pause = first
        self._seat, self._came, self._failed = seat, came, failed
        self._stop, self._lock, self._peer = threading.Event(), threading.Lock(), None
        self._thread = threading.Thread(target=self._run, name="flagops stream", daemon=True)
        self._thread.start()

    def _run(self) -> None:
        while not self._stop.is_set():
            try:
                self._follow()
            except (OSError, Refused) as fault:
                if not self._stop.is_set():
                    self._failed(fault)
            self._stop.wait(self._pause * random.uniform(0.5, 1.0))
            self._pause = min(self.LONGEST, 2 * self._pause)

    def _follow(self) -> None:
        """Follows one connection to its end."""
        with socket.create_connection(self._address, timeout=30) as peer:
            with self._lock:
                if self._stop.is_set():
                    return
                self._peer = peer
            try:
                peer.settimeout(None)
                peer.setsockopt(socket.SOL_SOCKET, socket.SO_KEEPALIVE, 1)
                self._seat.connect()
                while piece := peer.recv(262_144):
                    self._take(piece)
            finally:
                with self._lock:
                    self._peer = None

    def _take(self, piece: bytes) -> None:
        """Takes a piece; where memory is short, once there is some."""
        while True:
            try:
                came = self._seat.feed(piece) is not None
                break
            except Refused as fault:
                if fault.number != _library.MEMORY:
                    raise
                self._failed(fault)
                if self._stop.wait(1.0):
                    return
        if came:
            self._pause = self._first
            self._came()

    def close(self) -> None:
        self._stop.set()
        with self._lock:
            if self._peer is not None:
                with contextlib.suppress(OSError):
                    self._peer.shutdown(socket.SHUT_RDWR)
        self._thread.join()
