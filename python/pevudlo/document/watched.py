"""A file that is looked at by its name, since editors put new files into the place of old ones."""

from __future__ import annotations

import os
import time
from dataclasses import dataclass
from pathlib import Path

from pevudlo.files import NoFile, check_regular, opened_regular, read_opened, why

PERIOD = 0.02
"""Seconds between two looks at a file that is followed."""

FRESH = 0.1
"""A file that changed within so many seconds is read again, since its time may not tell the next change."""

EMPTY = 0.3
"""A file that is empty for less than so many seconds is being written."""

AWAY = 1.0
"""A file that is away for less than so many seconds is being put in its place."""

CHANGES = "the file changes each time that it is read"

PAGE = 4_096
"""A file that is being written grows by so many bytes, so one of as many, or of a multiple, may be a part."""

Stamp = tuple[int, int, int, int]


def stamp_of(at: os.stat_result) -> Stamp:
    """By what a change of a file is seen: time, size and number."""
    return at.st_mtime_ns, at.st_size, at.st_ino, at.st_dev


@dataclass(frozen=True)
class Glimpse:
    """What was seen at the place of a file. `turn` counts the glimpses that were taken in before it began.

    `missing` says why there is no file to follow, where there is none. `data` is what is in the file, where it may be
    another than the last time, with the file's `stamp`.
    """

    turn: int
    missing: str = ""
    stamp: Stamp | None = None
    data: bytes = b""


class Watched:
    """A file, and its last text. Regular files alone are followed.

    `look` reads the file, and may be called by any thread with no lock held. What it gives is for `take`, of which one
    may run at a time.
    """

    def __init__(self, path: Path) -> None:
        self.path = path
        self._turn = 0
        self._text: str | None = None
        self._seen: Stamp | None = None
        self._empty_from: float | None = None
        self._missing = ""
        self._missing_from: float | None = None
        # What was read last, where it may be a part of what is being written.
        self._half = b""

    def news(self) -> str | None:
        """The text, where it is another than the last one and the file rests; else None."""
        return self.take(self.look())

    def look(self) -> Glimpse:
        """Looks at the file, and keeps nothing. Nothing waits for what isn't a regular file."""
        turn, seen = self._turn, self._seen
        try:
            at = os.stat(self.path)
            check_regular(at.st_mode)
            if stamp_of(at) == seen:
                return Glimpse(turn)
            with opened_regular(self.path) as file:
                stamp = stamp_of(os.fstat(file))
                data = read_opened(file)
                rests = stamp == stamp_of(os.fstat(file)) == stamp_of(os.stat(self.path)) and len(data) == stamp[1]
        except OSError as error:
            return Glimpse(turn, why_missing(error))
        return Glimpse(turn, "", stamp, data) if rests else Glimpse(turn, CHANGES)

    def is_late(self, glimpse: Glimpse) -> bool:
        """Whether another glimpse was taken in, or the file was written, since this one began: it says nothing then."""
        return glimpse.turn != self._turn

    def take(self, glimpse: Glimpse) -> str | None:
        """Takes in what was seen. Gives the text, where it is another than the last one and the file rests."""
        if self.is_late(glimpse):
            return None
        self._turn += 1
        if glimpse.missing:
            self._missing = glimpse.missing
            self._missing_from = self._missing_from or time.monotonic()
            return None
        if glimpse.stamp is not None:
            age = time.time() - glimpse.stamp[0] / 1e9
            self._seen = glimpse.stamp if age > FRESH else None
            if self._may_be_written(glimpse.data):
                self._seen = None
                return None
        self._missing_from = None
        text = self._text if glimpse.stamp is None else glimpse.data.decode("utf-8", "surrogateescape")
        if text == self._text:
            return None
        self._text = text
        return text

    def was_written(self) -> None:
        """The file was written by who follows it. What was seen before says nothing."""
        self._turn += 1

    @property
    def missing(self) -> str:
        """Why there is no file to follow, where it has been so for a while; else nothing."""
        is_told = self._missing_from is not None and time.monotonic() - self._missing_from > AWAY
        return self._missing if is_told else ""

    def _may_be_written(self, data: bytes) -> bool:
        """Whether a file that had a text is empty only for now, or may be longer soon, and is so for the first time."""
        if data or not self._text:
            self._empty_from, half = None, self._half
            self._half = data if len(data) % PAGE == 0 or not data.endswith(b"\n") else b""
            return bool(self._text) and self._half not in (b"", half)
        self._empty_from = self._empty_from or time.monotonic()
        return time.monotonic() - self._empty_from < EMPTY


def why_missing(error: OSError) -> str:
    """Why there is no file to follow, in words."""
    if isinstance(error, NoFile):
        return f"{error.kind} stands in the place of the file"
    if isinstance(error, (FileNotFoundError, NotADirectoryError)):
        return "the file isn't there"
    return f"the file can't be read: {why(error)}"
