"""Flags for a whole process: any thread asks, one thread gets new flags, and one writes the log."""
from __future__ import annotations

import datetime
import json
import logging
import threading
import weakref
from collections.abc import Mapping
from time import time
from typing import Any, Callable, NamedTuple

from . import _library
from ._library import BOOL, FLOAT, INTEGER, OBJECT, STRING, Refused, Seat
from ._recording import Log, NotRecorded
from ._sources import Followed, Watched

_LOGGER = logging.getLogger("flagops")

# What the library is given as the default, whose place is taken by the caller's own.
_FALLBACKS = (b"false", b'""', b"0", b"{}", b"0")
_PLAIN = {b"true": True, b"false": False}
_REASONS, _CODES = _library.REASONS, _library.CODES


class Resolution(NamedTuple):
    """What a flag is for somebody. Without a variant the value is the caller's default; the reason and the code are OpenFeature's."""

    value: Any
    variant: str | None
    reason: str
    code: str | None


class Client:
    """Resolves flags in this process. Any thread may call any method.

    The flags come from `file`, a path that is watched; from `stream`, the "host:port" of a `flagops serve` or `ofrep --stream` that is
    followed; or from `open`. Until they come each key resolves to its default, with PROVIDER_NOT_READY.

    With `log`, a path, each input that a resolution reached is appended to that file as a note line, by one thread: with
    record="before" before `resolve` returns, so that a process that is killed has in its log whatever it told; with "batches" every
    `every` seconds. Without a log, `most` above 0 keeps the lines of each thread, up to so many bytes, until `notes` takes them.
    """

    def __init__(
        self,
        *,
        file: str | None = None,
        stream: str | None = None,
        log: str | None = None,
        record: str = "before",
        most: int = 0,
        every: float = 0.5,
        first: float = 1.0,
        library: str | None = None,
    ) -> None:
        if file is not None and stream is not None:
            raise ValueError("the flags come from a file or from a stream, and not from both")
        if record not in ("before", "batches"):
            raise ValueError('record is "before" or "batches"')
        self._library = _library.load(library)
        self._newest, self._changed, self._version = Seat(self._library), threading.Condition(), 0
        self._own, self._places, self._lost = threading.local(), [], False
        self._is_open, self._stop = True, threading.Event()
        self._most = most if log is None else most or 1 << 20
        self._log = None if log is None else Log(log)
        self._records_first = log is not None and record == "before"
        self._source = self._writer = None
        try:
            self._incoming = Seat(self._library)
            if file is not None:
                self._source = Watched(file, every, self._incoming, self._take, self._failed)
            elif stream is not None:
                self._source = Followed(stream, first, self._incoming, self._take, self._failed)
        except BaseException:
            if self._log is not None:
                self._log.close()
            raise
        if log is not None and record == "batches":
            self._writer = threading.Thread(target=self._write_batches, args=(every,), name="flagops batches", daemon=True)
            self._writer.start()

    # -- flags --

    def open(self, document: bytes | str) -> None:
        """The flags of a document, or Refused: the flags are then those of before."""
        self._incoming.open(document.encode() if isinstance(document, str) else bytes(document))
        self._take()

    def wait(self, seconds: float | None = None) -> bool:
        """Waits until there are flags, and says whether there are."""
        with self._changed:
            return self._changed.wait_for(lambda: self._version > 0 or not self._is_open, seconds) and self._version > 0

    def keys(self) -> dict[str, bool]:
        """The keys of the flags, and whether each is good: a broken one resolves to the default, with PARSE_ERROR."""
        with self._changed:
            lines = self._newest.keys().decode().splitlines()
        return {json.loads(key): word == "good" for key, _, word in (line.rpartition(" ") for line in lines)}

    def _take(self) -> None:
        with self._changed, self._incoming.lock, self._newest.lock:
            self._incoming.share_to(self._newest)
            self._version += 1
            self._changed.notify_all()

    def _failed(self, fault: Exception) -> None:
        _LOGGER.warning("the flags are those of before: %s", fault)

    # -- resolutions --

    def resolve(self, key: str, default: Any, context: Mapping[str, Any] | bytes | None = None, *, kind: int | None = None, moment: int | None = None) -> Resolution:
        """What a flag is in a context, whose `targetingKey` says whom you ask for. The kind is that of the default, or one of flagops.h.

        Raises Refused where the key or the context is none, and NotRecorded where the log could not be written."""
        if kind is None:
            kind = _kind_of(default)
        return Resolution(*self._found(key, default, context, kind, moment))

    def _found(self, key: str, default: Any, context: Any, kind: int, moment: int | None) -> tuple[Any, str | None, str, str | None]:
        place = self._place()
        value, variant, reason, code = place.seat.resolve(
            key.encode(), kind, _FALLBACKS[kind], context if type(context) is bytes else _text_of(context), int(time()) if moment is None else moment
        )
        if self._records_first:
            self._record(place)
        if variant is None:
            return default, None, _REASONS[reason], _CODES[code]
        plain = _PLAIN.get(value)
        return json.loads(value) if plain is None else plain, variant.decode(), _REASONS[reason], None

    def _place(self) -> _Place:
        """The seat of this thread, with the newest flags."""
        try:
            place = self._own.place
        except AttributeError:
            place = self._make_place()
        if place.version != self._version:
            with self._changed, self._newest.lock, place.seat.lock:
                self._newest.share_to(place.seat)
                place.version = self._version
        if not self._is_open:
            raise RuntimeError("the client is closed")
        return place

    def _make_place(self) -> _Place:
        place = self._own.place = _Place(self._library)
        if self._most:
            place.seat.record(self._most)
            if not self._records_first:
                with self._changed:
                    self._places.append(place)
        return place

    # -- notes --

    def _record(self, place: _Place) -> None:
        """Has the lines of what this thread reached written."""
        lines, is_full = place.seat.notes()
        if lines:
            self._log.write(lines)
        if is_full:
            raise NotRecorded("a note line has no room")

    def notes(self) -> bytes:
        """The note lines of all threads since the last call, where there is no log. `lost` then says whether one had no room."""
        if self._log is not None:
            raise ValueError("the lines go to the log")
        return self._taken()

    @property
    def lost(self) -> bool:
        """Whether a line was left out since this was last asked, as there was no room for it."""
        lost, self._lost = self._lost, False
        return lost

    def _taken(self) -> bytes:
        """The lines of all threads; seats of threads that have ended are let go."""
        with self._changed:
            places = list(self._places)
        lines = {}
        for place in places:
            has_ended = place.has_ended()
            taken, is_full = place.seat.notes()
            self._lost = self._lost or is_full
            lines.update(dict.fromkeys(taken.splitlines(keepends=True)))
            if has_ended:
                with self._changed:
                    self._places.remove(place)
        return b"".join(lines)

    def _write_batches(self, every: float) -> None:
        left = b""
        while True:
            is_last = self._stop.wait(every)
            left += self._taken()
            if self._lost:
                self._lost = False
                _LOGGER.error("note lines had no room and are lost: write batches more often, or keep more (most)")
            try:
                self._log.write(left)
                left = b""
            except NotRecorded as fault:
                _LOGGER.error("note lines are not written yet: %s", fault)
            if is_last:
                return

    def close(self) -> None:
        """Ends the threads, once what was noted is written. Later resolutions raise RuntimeError."""
        with self._changed:
            if not self._is_open:
                return
            self._is_open = False
            self._changed.notify_all()
        if self._source is not None:
            self._source.close()
        self._stop.set()
        if self._writer is not None:
            self._writer.join()
        if self._log is not None:
            self._log.close()

    def __enter__(self) -> Client:
        return self

    def __exit__(self, *_: object) -> None:
        self.close()


class _Place:
    """The seat of a thread, and which flags it has."""

    def __init__(self, library: Any) -> None:
        self.seat, self.version, self._thread = Seat(library), 0, weakref.ref(threading.current_thread())

    def has_ended(self) -> bool:
        thread = self._thread()
        return thread is None or not thread.is_alive()


def _kind_of(default: Any) -> int:
    for of, kind in ((bool, BOOL), (str, STRING), (int, INTEGER), (float, FLOAT), (Mapping, OBJECT)):
        if isinstance(default, of):
            return kind
    raise TypeError("the default is a bool, a str, an int, a float or a mapping, or `kind` says what is wanted")


def _plain(value: Any) -> Any:
    """What JSON lacks: a time as its text in ISO 8601, a mapping or a sequence of another type."""
    if isinstance(value, (datetime.datetime, datetime.date)):
        return value.isoformat()
    if isinstance(value, Mapping):
        return dict(value)
    raise TypeError(f"a context has no {type(value).__name__}")


def _encoder() -> Callable[[Any], str]:
    """What makes JSON of a value: the encoder in C is made once where there is one, and not for each value."""
    made = json.JSONEncoder(ensure_ascii=False, separators=(",", ":"), default=_plain)
    if json.encoder.c_make_encoder is None:
        return made.encode
    parts = json.encoder.c_make_encoder(None, _plain, json.encoder.encode_basestring, None, ":", ",", False, False, True)
    return lambda value: "".join(parts(value, 0))


_encode = _encoder()


def _text_of(context: Mapping[str, Any] | None) -> bytes:
    return _encode(context).encode() if context else b"{}"
