"""A line at the foot of the terminal that says how many rows are settled, while rows run by themselves."""

from __future__ import annotations

import os
import threading
from collections.abc import Callable

from pevudlo.lang.replies import Word
from pevudlo.running.background import Background
from pevudlo.running.words import WHY, settled_words

PERIOD = 0.1
"""Seconds between two lines."""


class StatusLine:
    """Draws the line while rows run by themselves. The lines above it scroll without it.

    `background` gives what runs, which may be another after a new beginning. `write` writes to the terminal.
    """

    def __init__(self, background: Callable[[], Background | None], write: Callable[[bytes], object]) -> None:
        self._background, self._write = background, write
        self._over = threading.Event()
        self._drawn, self._size, self._thrown = "", (0, 0), ""
        self._thread = threading.Thread(target=self._go_on, daemon=True)

    def start(self) -> None:
        """Begins to draw."""
        self._thread.start()

    def end(self) -> None:
        """Takes the line away."""
        self._over.set()
        if self._thread.is_alive():
            self._thread.join()
        self._clear()

    def _go_on(self) -> None:
        """Draws again and again."""
        while not self._over.wait(PERIOD):
            background = self._background()
            try:
                if background is not None and background.crew.is_on:
                    self._draw(self._words(background))
                elif self._drawn:
                    self._clear()
            except OSError:
                return

    def _words(self, background: Background) -> str:
        """What is said now."""
        crew = background.crew
        with background.book.lock:
            if not background.book.is_open:
                return ""
            while crew.news:
                news = crew.news.popleft()
                if news.word is not Word.KEPT:
                    self._thrown = f"; a late result of row {news.row} was thrown away: {WHY[news.word]}"
            said = settled_words(background.progress)
            return f"{said}, {crew.running} run now{self._thrown}" if crew.running else f"{said}{self._thrown}"

    def _draw(self, words: str) -> None:
        """Draws the words in the last line of the terminal, and has the others scroll above it."""
        size = os.get_terminal_size()
        text = words[: size.columns - 1]
        if (text, size) == (self._drawn, self._size):
            return
        lines = size.lines
        begin = b"" if self._size == size else b"\n\x1b7\x1b[1;%dr\x1b8\x1b[1A" % (lines - 1)
        self._write(begin + b"\x1b7\x1b[%d;1H\x1b[7m%s\x1b[0m\x1b[K\x1b8" % (lines, text.encode()))
        self._drawn, self._size = text, size

    def _clear(self) -> None:
        """Gives the last line back."""
        if self._drawn:
            lines, self._drawn, self._size = self._size[1], "", (0, 0)
            self._write(b"\x1b7\x1b[r\x1b[%d;1H\x1b[K\x1b8" % lines)
