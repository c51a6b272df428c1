"""The calls of libflagops by ctypes: flagops.h says what each does."""
from __future__ import annotations

import ctypes as c
import os
import threading

OK, MEMORY, EMPTY, ROOM, KEY, KIND, MOMENT, FULL, NO_CONTEXT, NO_RULE = range(10)
DOCUMENT, FALLBACK, CONTEXT, FRAME = 10, 20, 30, 40
ROLLOUT, NOTES, TALLY, PLAN, CHECK, KEEP = 50, 70, 80, 90, 100, 110
BOOL, STRING, INTEGER, OBJECT, FLOAT = range(5)
REASONS = ("STATIC", "DEFAULT", "TARGETING_MATCH", "DISABLED", "ERROR")
CODES = (None, "PROVIDER_NOT_READY", "FLAG_NOT_FOUND", "PARSE_ERROR", "TYPE_MISMATCH", "INVALID_CONTEXT", "GENERAL")

_OF_TEXT = ("no JSON text", "a number that is not whole", "too large", "too deep")
_WHY = {
    MEMORY: "memory ran out", EMPTY: "there is no seat", ROOM: "the answer needs more room", KEY: "the key is no text",
    KIND: "no kind of value has this number", MOMENT: "the moment is too late", FULL: "a note line had no room",
    NO_CONTEXT: "no context was read", NO_RULE: "the plan has no rule, since none fits the request",
    **{DOCUMENT + 1 + i: f"the document: {why}" for i, why in enumerate(("no JSON text", "no object of flags", "too large"))},
    **{FALLBACK + 1 + i: f"the default: {why}" for i, why in enumerate(_OF_TEXT)},
    **{CONTEXT + 1 + i: f"the context: {why}" for i, why in enumerate(_OF_TEXT)},
    **{FRAME + 1 + i: f"the stream: {why}" for i, why in enumerate((
        "a length that no frame has", "a number that is not above the last one", "a document that is refused", "it had a fault before"))},
    **{ROLLOUT + i: f"the rollout: {why}" for i, why in {
        1: "no request", 2: "no such flag", 3: "no such fractional operation", 4: "a bucket is computed", 5: "a name is none of the variants",
        6: "the totals cannot sum to the rule's", 7: "the rule's total is too large", 9: "the weights sum to 0", 10: "the changed document is too large",
        11: "the tally is of another page or total"}.items()},
    **{NOTES + 1 + i: f"the note lines: {why}" for i, why in enumerate(("a line of no note", "a line that is not above the one before it", "too many inputs"))},
    **{TALLY + 1 + i: f"the tally: {why}" for i, why in enumerate((
        "another first line", "another second line", "a line of no point", "a point that is not above the one before it", "inputs that do not add up"))},
    **{PLAN + 1 + i: f"the plan: {why}" for i, why in enumerate(("no plan file", "too large"))},
    **{CHECK + 1 + i: f"the plan is not right: {why}" for i, why in enumerate((
        "another total", "totals out of their limits", "a change that is forbidden", "prices above that of a change", "prices that do not sum to the cost",
        "another cost", "names that show nothing", "prices of other groups or names"))},
    **{KEEP + 1 + i: f"the document: {why}" for i, why in enumerate(("the buckets stand in an evaluator", "too long with the rule", "it would mean other flags"))},
}


class Refused(Exception):
    """A call was refused: `number` is that of flagops.h."""

    def __init__(self, number: int) -> None:
        super().__init__(_WHY.get(number, "refused"))
        self.number = number


class _Fields(c.Structure):
    _fields_ = [("address", c.c_void_p), ("held", c.c_bool)]


class _Details(c.Structure):
    _fields_ = [("reason", c.c_uint32), ("code", c.c_uint32), ("value", c.c_size_t), ("has_variant", c.c_bool)]


_SEAT, _SIZE, _TEXT, _NUMBER = c.POINTER(_Fields), c.c_size_t, c.c_char_p, c.c_uint32
_OUT = [_TEXT, _SIZE, c.POINTER(_SIZE)]
_CALLS = {
    "new": [_SEAT],
    "share": [_SEAT, _SEAT],
    "open": [_SEAT, _TEXT, _SIZE],
    "feed": [_SEAT, _TEXT, _SIZE, c.POINTER(c.c_uint64), c.POINTER(c.c_bool)],
    "connect": [_SEAT],
    "keys": [_SEAT, *_OUT],
    "resolve": [_SEAT, _TEXT, _SIZE, _NUMBER, _TEXT, _SIZE, _TEXT, _SIZE, c.c_uint64, *_OUT, c.POINTER(_Details)],
    "context": [_SEAT, _TEXT, _SIZE],
    "resolve_kept": [_SEAT, _TEXT, _SIZE, _NUMBER, _TEXT, _SIZE, c.c_uint64, *_OUT, c.POINTER(_Details)],
    "record": [_SEAT, _SIZE],
    "notes": [_SEAT, *_OUT],
    "about": _OUT,
    "tally": [_TEXT, _SIZE] * 3 + _OUT,
    "plan": [_TEXT, _SIZE] * 3 + _OUT,
    "verify": [_TEXT, _SIZE] * 4,
    "apply": [_TEXT, _SIZE] * 4 + _OUT,
}


_HERE = os.path.dirname(os.path.abspath(__file__))
_INSIDE = os.path.join(_HERE, "libflagops.so.0")
_SHIPPED = os.path.join(_HERE, "..", "..", "..", "release", "x86_64-linux", "libflagops.so.0")


def load(path: str | None = None) -> c.CDLL:
    """The library at a path, or the one that FLAGOPS_LIBRARY names, or that of the package, which in a checkout is the shipped one."""
    library = c.CDLL(path or os.environ.get("FLAGOPS_LIBRARY") or (_INSIDE if os.path.exists(_INSIDE) else _SHIPPED))
    for name, takes in _CALLS.items():
        call = getattr(library, f"flagops_{name}")
        call.argtypes, call.restype = takes, _NUMBER
    library.flagops_close.argtypes, library.flagops_close.restype = [_SEAT], None
    return library


class Seat:
    """A seat of the library, without flags at first. Its lock is held in each call, since one call at a time has a seat."""

    def __init__(self, library: c.CDLL) -> None:
        self._library, self._fields, self.lock = library, _Fields(None, False), threading.Lock()
        self._at = c.byref(self._fields)
        self._written, self._details = c.c_size_t(0), _Details()
        self._number, self._came = c.c_uint64(0), c.c_bool(False)
        self._make_room(4096)
        self._resolve, self._resolve_kept = library.flagops_resolve, library.flagops_resolve_kept
        self._last = self._kept = None
        _must(library.flagops_new(self._at))

    def _make_room(self, room: int) -> None:
        self._out = c.create_string_buffer(room)
        self._rest = self._out, room, c.byref(self._written)
        self._told = *self._rest, c.byref(self._details)

    def __del__(self) -> None:
        if hasattr(self, "_fields"):
            self._library.flagops_close(self._at)

    def open(self, document: bytes) -> None:
        with self.lock:
            _must(self._library.flagops_open(self._at, document, len(document)))

    def share_to(self, other: Seat) -> None:
        """The other seat has the flags of this one. The caller sees to it that no call has either."""
        _must(self._library.flagops_share(self._at, other._at))

    def feed(self, piece: bytes) -> int | None:
        """The number of the newest snapshot that the piece makes whole, where it makes one whole."""
        with self.lock:
            _must(self._library.flagops_feed(self._at, piece, len(piece), c.byref(self._number), c.byref(self._came)))
            return self._number.value if self._came.value else None

    def connect(self) -> None:
        with self.lock:
            _must(self._library.flagops_connect(self._at))

    def record(self, most: int) -> None:
        with self.lock:
            _must(self._library.flagops_record(self._at, most))

    def _into_room(self, call, *words) -> tuple[int, bytes]:
        """What a call writes, after a second try where it wants more room. FULL is no refusal here."""
        number = call(self._at, *words, *self._rest)
        if number == ROOM:
            self._make_room(2 * self._written.value)
            number = call(self._at, *words, *self._rest)
        if number != FULL:
            _must(number)
        return number, self._out[: self._written.value]

    def keys(self) -> bytes:
        with self.lock:
            return self._into_room(self._library.flagops_keys)[1]

    def notes(self) -> tuple[bytes, bool]:
        """The note lines that were kept, which are taken; and whether one was not kept."""
        with self.lock:
            number, lines = self._into_room(self._library.flagops_notes)
        return lines, number == FULL

    def resolve(self, key: bytes, kind: int, fallback: bytes, context: bytes, moment: int) -> tuple[bytes, bytes | None, int, int]:
        """The value as JSON, the variant's name, and the numbers of the reason and the code. A context that comes again is read once."""
        with self.lock:
            if context != self._kept and context == self._last:
                _must(self._library.flagops_context(self._at, context, len(context)))
                self._kept = context
            self._last = context
            for _ in range(2):
                if context == self._kept:
                    number = self._resolve_kept(self._at, key, len(key), kind, fallback, len(fallback), moment, *self._told)
                else:
                    number = self._resolve(self._at, key, len(key), kind, fallback, len(fallback), context, len(context), moment, *self._told)
                if number != ROOM:
                    break
                self._make_room(2 * self._written.value)
            if number:
                raise Refused(number)
            details = self._details
            value, out = details.value, self._out[: self._written.value]
            return out[:value], out[value:] if details.has_variant else None, details.reason, details.code


def about(library: c.CDLL) -> str:
    """The library's version, and the kit that it is proved with."""
    out, written = c.create_string_buffer(1024), c.c_size_t(0)
    _must(library.flagops_about(out, len(out), c.byref(written)))
    return out[: written.value].decode()


def on_files(call, *files: bytes) -> tuple[int, bytes]:
    """What a call makes of some files, written into as much room as it wants; and OK, or NO_RULE where it says so beside a text."""
    words = [word for data in files for word in (data, len(data))]
    written, room = c.c_size_t(0), 4096
    while True:
        out = c.create_string_buffer(room)
        number = call(*words, out, room, c.byref(written))
        if number != ROOM:
            break
        room = written.value
    if number not in (OK, NO_RULE):
        raise Refused(number)
    return number, out.raw[: written.value]


def _must(number: int) -> None:
    if number:
        raise Refused(number)
