"""A view of a document on a terminal: its lines, and beside each what it gives. It asks for the visible lines alone."""

from __future__ import annotations

import os
import select
import shutil
import sys
import termios
import tty
from collections.abc import Iterator
from contextlib import contextmanager

from pevudlo.document.answers import mark_of
from pevudlo.document.document import Document
from pevudlo.document.marks import headline
from pevudlo.document.pieces import Kind
from pevudlo.document.states import Mark, State
from pevudlo.document.update import Update
from pevudlo.draw.visible import visible
from pevudlo.progress import Later

FEET = "▶ new values, * other than before, = touched, with the same values, ✗ refused, - taken out; arrows move, q ends"
TONES = {
    State.NEW: "1;33",
    State.SAME: "36",
    State.REFUSED: "31",
    State.FAULT: "35",
    State.GONE: "2",
    State.LOOK: "32",
    State.PASSED: "2",
    State.NOTE: "34",
}
STEPS = {b"\x1b[A": -1, b"k": -1, b"\x1b[B": 1, b"j": 1, b"\x1b[5~": -20, b"b": -20, b"\x1b[6~": 20, b" ": 20}
NUMBER = 5
"""How many columns a line's number takes."""


def cut(text: str, width: int) -> str:
    """A text of at most so many letters."""
    return text if len(text) <= width else text[: max(0, width - 1)] + "…"


class Screen:
    """The part of the lines that fits on the terminal."""

    def __init__(self, document: Document, name: str) -> None:
        self._document, self._name = document, name
        self._top, self._done, self._trouble = 0, Update(), ""
        self._size = shutil.get_terminal_size()

    def show(self, done: Update) -> None:
        """Draws what an update did. Where nothing of it is visible it goes to the first line touched or refused."""
        self._done, self._trouble = done, ""
        height = self._size.lines - 2
        news = [
            at
            for at, shown in enumerate(self._document.shown)
            if shown.refused or (shown.row is not None and shown.row.book in done.touched)
        ]
        if news and not done.fresh and not any(self._top <= at < self._top + height for at in news):
            self._top = max(0, news[0] - 3)
        self._draw()

    def trouble(self, words: str) -> None:
        """Says why there is nothing new."""
        self._trouble = words
        self._draw()

    def progress(self, words: str) -> None:
        """Says what is being done, while an update takes its time."""
        if words:
            head = cut(visible(f" {self._name}: {words} .."), self._size.columns)
            sys.stdout.write(f"\x1b[H\x1b[7m{head.ljust(self._size.columns)}\x1b[0m")
            sys.stdout.flush()

    def rest(self, seconds: float) -> bool:
        """Waits so long, or for keys. False where it is to end."""
        if not select.select([sys.stdin], [], [], seconds)[0]:
            if self._size != shutil.get_terminal_size():
                self._draw()
            return True
        key = os.read(sys.stdin.fileno(), 16)
        if key in (b"q", b""):
            return False
        if key in STEPS:
            self._top += STEPS[key]
            self._draw()
        return True

    def _draw(self) -> None:
        """Draws all of the screen."""
        self._size = columns, height = shutil.get_terminal_size()
        lines = self._document.lines
        self._top = max(0, min(self._top, len(lines) - height + 2))
        seen = range(self._top, min(len(lines), self._top + height - 2))
        left = min(max([20, *(len(visible(lines[at])) for at in seen)]), columns * 45 // 100)
        head = visible(f" {self._name}: {self._trouble or headline(self._document, self._done)}")
        rows = [self._line(at, left, columns) for at in seen]
        foot = f"\x1b[{height};1H\x1b[2m{cut(' ' + FEET, columns)}\x1b[0m"
        top = f"\x1b[H\x1b[7m{cut(head, columns).ljust(columns)}\x1b[0m\r\n"
        sys.stdout.write(top + "".join(f"{row}\x1b[K\r\n" for row in rows) + "\x1b[J" + foot)
        sys.stdout.flush()

    def _line(self, at: int, left: int, columns: int) -> str:
        """A line with its number, its sign, its text and its values."""
        is_known = self._document.is_in_step
        mark = mark_of(self._document, at, self._done) if is_known else Mark(State.NONE, "")
        tone = TONES.get(mark.state, "0")
        pale = "2" if self._document.shown[at].kind in (Kind.NOTHING, Kind.TIME) else "0"
        text = cut(visible(self._document.lines[at]), left).ljust(left)
        said = cut(visible(mark.text), columns - left - NUMBER - 4)
        parts = (("2", f"{at + 1:{NUMBER}}"), (tone, mark.state.value or " "), (pale, text), (tone, said))
        return " ".join(f"\x1b[{shade}m{part}\x1b[0m" for shade, part in parts)


@contextmanager
def drawn(document: Document, name: str) -> Iterator[Screen]:
    """A screen in the place of what stands on the terminal, which comes back at the end."""
    kept = termios.tcgetattr(sys.stdin)
    try:
        tty.setcbreak(sys.stdin)
        sys.stdout.write("\x1b[?1049h\x1b[?25l\x1b[2J")
        screen = Screen(document, name)
        document.told = Later(screen.progress)
        yield screen
    finally:
        sys.stdout.write("\x1b[?25h\x1b[?1049l")
        sys.stdout.flush()
        termios.tcsetattr(sys.stdin, termios.TCSADRAIN, kept)
