"""A log of note lines, which one thread writes."""
from __future__ import annotations

import fcntl
import os
import threading


class NotRecorded(Exception):
    """Note lines could not be written, so nothing is told. The cause is the system's error."""


class Log:
    """A file to which whole lines are appended, by one thread for all. Nobody else may write to it meanwhile: it is locked.

    A line that was written is remembered, with up to twice so many others, and not written again."""

    REMEMBERED = 65_536

    def __init__(self, path: str) -> None:
        self._file = os.open(path, os.O_RDWR | os.O_APPEND | os.O_CREAT | os.O_CLOEXEC, 0o600)
        try:
            fcntl.flock(self._file, fcntl.LOCK_EX | fcntl.LOCK_NB)
            self._size = _whole_lines(self._file)
            os.ftruncate(self._file, self._size)
        except BaseException:
            os.close(self._file)
            raise
        self._changed = threading.Condition()
        self._waiting: list[_Batch] = []
        self._newer: dict[bytes, None] = {}
        self._older: dict[bytes, None] = {}
        self._is_open = True
        self._thread = threading.Thread(target=self._run, name="flagops log", daemon=True)
        self._thread.start()

    def has(self, line: bytes) -> bool:
        """Whether the line is known to be written."""
        return line in self._newer or line in self._older

    def write(self, lines: bytes) -> None:
        """Returns once the lines are in the file. Raises NotRecorded where they are not."""
        new = [line for line in lines.splitlines(keepends=True) if not self.has(line)]
        if not new:
            return
        batch = _Batch(new)
        with self._changed:
            if not self._is_open:
                raise NotRecorded("the log is closed")
            self._waiting.append(batch)
            self._changed.notify()
        batch.is_done.wait()
        if batch.fault is not None:
            raise NotRecorded(str(batch.fault)) from batch.fault

    def close(self) -> None:
        """Writes what waits, and closes the file."""
        with self._changed:
            self._is_open = False
            self._changed.notify()
        self._thread.join()

    def _run(self) -> None:
        while True:
            with self._changed:
                self._changed.wait_for(lambda: self._waiting or not self._is_open)
                batches, self._waiting = self._waiting, []
            if not batches:
                os.close(self._file)
                return
            fault = self._append({line: None for batch in batches for line in batch.lines if not self.has(line)})
            for batch in batches:
                batch.fault = fault
                batch.is_done.set()

    def _append(self, lines: dict[bytes, None]) -> OSError | None:
        """Writes lines, all or none."""
        try:
            os.ftruncate(self._file, self._size)
            left = memoryview(b"".join(lines))
            while left:
                left = left[os.write(self._file, left) :]
            self._size = os.fstat(self._file).st_size
        except OSError as fault:
            return fault
        if len(self._newer) >= self.REMEMBERED:
            self._older, self._newer = self._newer, {}
        self._newer.update(lines)
        return None


class _Batch:
    """Lines that somebody waits for."""

    def __init__(self, lines: list[bytes]) -> None:
        self.lines, self.is_done, self.fault = lines, threading.Event(), None


def _whole_lines(file: int) -> int:
    """How many bytes of the file are whole lines."""
    end = os.fstat(file).st_size
    while end > 0:
        begin = max(0, end - 65_536)
        at = os.pread(file, end - begin, begin).rfind(b"\n")
        if at >= 0:
            return begin + at + 1
        end = begin
    return 0
