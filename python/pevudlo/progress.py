"""A line on standard error that says what is being done and for how long, where that is a terminal.

The program says nothing while it settles, and it has no command that settles a part: `take` and `bring` would count
orders, which later replies show. So behind a `settle` the line has how many rows wait, and the time. Whoever asks for
many small things, as a page does for looks, says how far that is.
"""

from __future__ import annotations

import os
import sys
import threading
import time
from collections.abc import Callable, Iterator
from contextlib import contextmanager
from types import TracebackType
from typing import Protocol, TextIO

DELAY = 0.5
"""Seconds before the first line: what is done sooner has none."""

PERIOD = 0.25
"""Seconds between two lines."""

MOST_SHARE = 0.05
"""Which part of the time may go into asking how many rows wait."""


class Asked(Protocol):
    """What answers lines."""

    def ask(self, line: str) -> list[str]:
        """The lines of the reply to one line."""


def seconds_text(seconds: float) -> str:
    """A time in words, in whole seconds."""
    minutes, rest = divmod(int(seconds), 60)
    return f"{minutes} min {rest:02} s" if minutes else f"{rest} s"


class Progress:
    """Tells nobody. `PROGRESS` is one, for where nothing is to be told."""

    is_told = False

    def at(self, where: str) -> None:
        """Where it is from now on, such as at a line."""

    def say(self, words: str) -> None:
        """What is being done there from now on."""

    def settling(self, line: str, peer: Asked) -> None:
        """Says of a line that settles how many rows wait for it. Other lines have no words."""

    @contextmanager
    def aside(self) -> Iterator[None]:
        """Takes the line away while something else is written to the terminal."""
        yield

    def __enter__(self) -> Progress:
        return self

    def __exit__(self, kind: type[BaseException] | None, error: BaseException | None, at: TracebackType | None) -> None:
        """Takes the line away."""


class ProgressLine(Progress):
    """Draws the line from another thread, so that it goes on while a reply is waited for."""

    is_told = True

    def __init__(self, stream: TextIO) -> None:
        self._stream = stream
        self._where = self._words = ""
        self._drawn = ""
        self._left: Callable[[], int] | None = None
        self._begun = time.monotonic()
        self._asking = 0.0
        self._lock = threading.Lock()
        self._over = threading.Event()
        self._thread = threading.Thread(target=self._go_on, daemon=True)

    def at(self, where: str) -> None:
        self._where, self._words, self._left = where, "", None

    def say(self, words: str) -> None:
        self._words, self._left = words, None

    def settling(self, line: str, peer: Asked) -> None:
        self._words = self._waiting(peer) if line == "settle" else ""
        # A session of the library is asked again and again, between two rows.
        self._left = getattr(peer, "unsettled_count", None) if line == "settle" else None

    @contextmanager
    def aside(self) -> Iterator[None]:
        with self._lock:
            self._clear()
            yield

    def __enter__(self) -> Progress:
        self._thread.start()
        return self

    def __exit__(self, kind: type[BaseException] | None, error: BaseException | None, at: TracebackType | None) -> None:
        self._over.set()
        self._thread.join()
        self._clear()

    def _waiting(self, peer: Asked) -> str:
        """How many rows are unsettled, of all. It is asked where that takes a small part of the time."""
        begun = time.monotonic()
        if self._asking > MOST_SHARE * (begun - self._begun):
            return "settles rows"
        _, *rows = peer.ask("list")
        waiting = sum(row.split(" ", 4)[3] != "settled" for row in rows)
        self._asking += time.monotonic() - begun
        return f"settles {waiting:,} of {len(rows):,} rows"

    def _go_on(self) -> None:
        """Draws the line again and again."""
        if self._over.wait(DELAY):
            return
        while not self._over.is_set():
            with self._lock:
                self._draw()
            self._over.wait(PERIOD)

    def _draw(self) -> None:
        """Draws the line over the last one, in one line of the terminal."""
        time_text = seconds_text(time.monotonic() - self._begun)
        left = self._left() if self._left is not None and self._words else 0
        words = f"{self._words}, {left:,} are left" if left else self._words
        doing = ": ".join(part for part in (self._where, words) if part)
        text = ", ".join(part for part in (doing, time_text) if part)[: self._columns() - 1]
        if text != self._drawn:
            self._write("\r" + text.ljust(len(self._drawn)))
            self._drawn = text

    def _clear(self) -> None:
        """Takes the line away, where one stands."""
        if self._drawn:
            self._write("\r" + " " * len(self._drawn) + "\r")
            self._drawn = ""

    def _columns(self) -> int:
        """How many columns the terminal has."""
        try:
            return os.get_terminal_size(self._stream.fileno()).columns or 80
        except OSError:
            return 80

    def _write(self, text: str) -> None:
        """Writes to the terminal. One that has gone away isn't told any more."""
        try:
            self._stream.write(text)
            self._stream.flush()
        except OSError:
            self._over.set()


class Later(Progress):
    """Hands over what is being done, where that takes longer than a moment, and `""` when it is over.

    It is entered again and again. `tell` is called by a thread of its own, and by who says something.
    """

    is_told = True

    def __init__(self, tell: Callable[[str], None], delay: float = DELAY) -> None:
        self._tell, self._delay = tell, delay
        self._lock = threading.Lock()
        self._timer: threading.Timer | None = None
        self._words, self._is_late = "", False

    def say(self, words: str) -> None:
        with self._lock:
            self._words = words
            if self._is_late:
                self._tell(words)

    def __enter__(self) -> Progress:
        timer = threading.Timer(self._delay, lambda: self._begin(timer))
        timer.daemon = True
        self._words, self._timer = "", timer
        timer.start()
        return self

    def __exit__(self, kind: type[BaseException] | None, error: BaseException | None, at: TracebackType | None) -> None:
        with self._lock:
            if self._timer is not None:
                self._timer.cancel()
            self._timer = None
            if self._is_late:
                self._tell("")
            self._is_late = False

    def _begin(self, timer: threading.Timer) -> None:
        """Hands over the words, where what they are of isn't over."""
        with self._lock:
            if self._timer is timer:
                self._is_late = True
                self._tell(self._words)


PROGRESS = Progress()


def line_of(number: int, count: int | None) -> str:
    """A line of a script, of all where they are counted."""
    return f"line {number:,}" if count is None else f"line {number:,} of {count:,}"


def progress(is_quiet: bool = False) -> Progress:
    """A line on standard error where that is a terminal and nobody wants quiet; else nothing."""
    return PROGRESS if is_quiet or not sys.stderr.isatty() else ProgressLine(sys.stderr)
