"""What a seat may ask for: how often, how long its lines are, and how many rows and values its program has."""

from __future__ import annotations

import time
from collections.abc import Callable, Sequence
from dataclasses import dataclass, field
from functools import lru_cache

from pevudlo.document.pieces import DECLARING, Kind, piece_of
from pevudlo.lang.board import Board

MOST_LINE = 65_536
"""So many bytes a line has at most."""

MOST_CHANGES = 4_200
"""So many lines are changed by one edit at most."""

MOST_LETTERS = 4_000_000
"""So many letters a text has at most."""

MOST_LINES = 8_192
"""So many lines a text has at most."""


class Refused(Exception):
    """What is asked for isn't done. The words are told to who asked."""


@dataclass(frozen=True)
class Limits:
    """The limits of a seat: edits a second and at once, rows, bytes of values, processors of a set, connections.

    `share` is the part of the time that its edits may take.
    """

    rate: float = 5.0
    at_once: float = 20.0
    share: float = 0.05
    rows: int = 512
    value_bytes: int = 64_000_000
    processors: int = 1_024
    connections: int = 4


TEACHING = Limits(
    rate=50.0, at_once=200.0, share=0.5, rows=4_096, value_bytes=1 << 30, processors=65_536, connections=8
)
"""The limits of who teaches."""


MESSAGES = Limits(rate=60.0, at_once=240.0, share=0.2)
"""How often a seat may ask for something, whatever it is, and the part of the time that this may take."""


@dataclass
class Bucket:
    """So many edits a second and so many at once, and so much of the time."""

    limits: Limits
    now: Callable[[], float] = time.monotonic
    what: str = "edits"
    _left: float = field(init=False)
    _seconds: float = field(init=False, default=1.0)
    _at: float = field(init=False)

    def __post_init__(self) -> None:
        self._left, self._at = self.limits.at_once, self.now()

    def take(self) -> None:
        """Takes one edit. Raises Refused where there were too many, or where they took too long."""
        now = self.now()
        passed, self._at = now - self._at, now
        self._left = min(self.limits.at_once, self._left + passed * self.limits.rate)
        self._seconds = min(1.0, self._seconds + passed * self.limits.share)
        if self._left < 1:
            raise Refused(f"{self.limits.rate:g} {self.what} a second are taken: wait a moment")
        if self._seconds < 0:
            raise Refused(f"your {self.what} take the time of all others: wait a moment")
        self._left -= 1

    @property
    def is_empty(self) -> bool:
        """Whether nothing more was taken when it was asked last."""
        return self._left < 1 or self._seconds < 0

    def spend(self, seconds: float) -> None:
        """Notes how long an edit took."""
        self._seconds -= seconds


def check_line(text: str) -> None:
    """Raises Refused for what is no line, or too long for one."""
    if "\n" in text or "\r" in text:
        raise Refused("a line has no line feed")
    try:
        length = len(text.encode("utf-8")) if len(text) <= MOST_LINE else len(text)
    except UnicodeEncodeError:
        raise Refused("a line is text in UTF-8") from None
    if length > MOST_LINE:
        raise Refused(f"a line has {MOST_LINE:,} bytes at most")


def bytes_of(width: int) -> int:
    """How many bytes a number of so many bits takes."""
    return next(size for size in (1, 2, 4, 8, 16) if width <= 8 * size)


@lru_cache(maxsize=256)
def declared(lines: tuple[str, ...]) -> Board:
    """What declarations declare, as far as they are right: a later one of a name counts for none."""
    board = Board()
    for line in lines:
        piece = piece_of(line)
        is_known = piece.name in board.sets or piece.name in board.fields
        if not is_known and (piece.kind is Kind.SET or piece.names <= board.sets.keys()):
            board.note(line, "ok")
    return board


@dataclass(frozen=True)
class Size:
    """How large a program is: rows, bytes of what they leave, processors of its largest set, letters of its text."""

    rows: int
    value_bytes: int
    processors: int
    letters: int = 0


def left_by(board: Board, text: str) -> int:
    """How many bytes a row leaves. Nothing where it isn't a row of what is declared."""
    try:
        keys = board.keys_written(text)
    except (ValueError, KeyError):
        return 0
    total = 0
    for key in keys:
        name, width = board.set_of(key), board.width_of(key)
        total += 0 if name is None or width is None else board.processors(name) * bytes_of(width)
    return total


def size_of(lines: Sequence[str]) -> Size:
    """How large the program of a text is, before it is run."""
    pieces = [piece_of(line) for line in lines]
    board = declared(tuple(piece.line for piece in pieces if piece.kind in DECLARING))
    rows = [piece.text for piece in pieces if piece.kind is Kind.ROW]
    replaced = [piece.text for piece in pieces if piece.kind is Kind.REPLACE]
    largest = max(map(board.processors, board.sets), default=0)
    left = sum(left_by(board, text) for text in [*rows, *replaced])
    return Size(len(rows), left, largest, sum(map(len, lines)))


def resized(size: Size, board: Board, olds: Sequence[str], news: Sequence[str]) -> Size:
    """How large a program is where some lines have others in their place, and none of them declares anything."""
    rows, total, letters = size.rows, size.value_bytes, size.letters
    for sign, line in [*((-1, line) for line in olds), *((1, line) for line in news)]:
        piece = piece_of(line)
        is_row = piece.kind in (Kind.ROW, Kind.REPLACE)
        rows += sign * (piece.kind is Kind.ROW)
        total += sign * left_by(board, piece.text) if is_row else 0
        letters += sign * len(line)
    return Size(rows, total, size.processors, letters)


def check_size(size: Size, lines: int, limits: Limits, given: Size) -> None:
    """Raises Refused where a text of so many lines is too large for a seat. What was `given` to it it may have."""
    if lines > MOST_LINES:
        raise Refused(f"a text has {MOST_LINES:,} lines at most")
    if size.letters > MOST_LETTERS:
        raise Refused(f"a text has {MOST_LETTERS:,} letters at most")
    if size.rows > max(limits.rows, given.rows):
        raise Refused(f"{size.rows:,} rows are too many: {max(limits.rows, given.rows):,} are allowed")
    if size.processors > max(limits.processors, given.processors):
        most = max(limits.processors, given.processors)
        raise Refused(f"a set of {size.processors:,} processors is too large: {most:,} are allowed")
    if size.value_bytes > max(limits.value_bytes, given.value_bytes):
        most = max(limits.value_bytes, given.value_bytes)
        said = f"the rows would leave {size.value_bytes / 1e6:,.0f} MB of values"
        raise Refused(f"{said}, and {most / 1e6:,.0f} MB are allowed")
