"""What a session of the library has beside its lines: workers, news, and edits that are taken back."""

from __future__ import annotations

import weakref
from collections.abc import Callable, Iterator
from contextlib import contextmanager
from dataclasses import dataclass
from threading import get_ident

from pevudlo.interrupts import undisturbed
from pevudlo.lang.board import Board
from pevudlo.running.crew import SMALL, Crew, News, Progress
from pevudlo.running.history import MOST_STEPS, History, Step
from pevudlo.wire.book import Book


@dataclass
class Touched:
    """The rows that edits unsettle, by their ids in program order: those that are unsettled behind them alone."""

    rows: tuple[int, ...] = ()


class Background:
    """The workers of a book and its steps. `board` gives what is declared, without holding who made this.

    Threads begin at the first `start`. Where nobody holds this any more they end.
    """

    def __init__(
        self,
        book: Book,
        board: Callable[[], Board],
        workers: int,
        steps: int = MOST_STEPS,
        most_bytes: int | None = None,
    ) -> None:
        """`steps` and `most_bytes` are how many edits are kept to be taken back, and how many bytes they may take."""
        self.book, self.workers, self.steps = book, workers, steps
        self.history = History(book, board, steps, most_bytes if steps else 0)
        self._board = board
        if steps:
            book.keep, book.see_run = self.history.keep, self.history.look_and_trim
        self.crew = Crew(book, workers, lambda: is_small(board()))
        book.settler = self.crew.settle
        self._leave = weakref.finalize(self, Crew.leave, self.crew)
        self._leave.atexit = False

    @property
    def progress(self) -> Progress:
        """How many rows are settled, of how many."""
        try:
            self.book.waiting.add(get_ident())
            with self.book.lock:
                count = len(self._board().texts)
                return Progress(count - self.book.unsettled_count(), count)
        finally:
            self.book.waiting.discard(get_ident())

    def settle(self) -> int:
        """Settles all rows, and gives how many ran."""
        return self.crew.settle()

    def news(self, timeout: float | None = None) -> Iterator[News]:
        """The results as they come, until all rows are settled, nothing runs any more, or none comes in so many
        seconds."""
        while (news := self.crew.next_news(timeout)) is not None:
            yield news

    @contextmanager
    def touching(self) -> Iterator[Touched]:
        """Finds which rows the edits within unsettle. No result is brought meanwhile."""
        touched = Touched()
        with self.book.lock:
            before = frozenset(self.book.unsettled())
            yield touched
            touched.rows = tuple(row for row in self.book.unsettled() if row not in before)

    @contextmanager
    def without_steps(self) -> Iterator[None]:
        """Edits within are no steps, and no snapshots are made for them. Behind it there is nothing to take back."""
        keep, self.book.keep = self.book.keep, None
        try:
            yield
        finally:
            with self.book.lock:
                self.book.keep = keep
                if self.book.is_open:
                    self.history.begin()

    def undo(self) -> str:
        """Takes the last edit back, and gives its line."""
        return self._step(self.history.undo)

    def redo(self) -> str:
        """Makes the edit again that was taken back last, and gives its line."""
        return self._step(self.history.redo)

    def _step(self, go: Callable[[], Step]) -> str:
        """Goes one step of the history, as a whole before Ctrl-C, and gives the line of the edit."""
        try:
            self.book.waiting.add(get_ident())
            with self.book.lock, undisturbed():
                return go().line
        finally:
            self.book.waiting.discard(get_ident())

    def close(self) -> int:
        """Ends the session, and the workers, each behind its row. Who waits for rows is told that it is over."""
        if self.book.is_elsewhere:
            return self.book.close()
        with self.book.lock:
            self.crew.leave()
            self.history.clear()
            status = self.book.close()
        self.crew.end()
        return status


def is_small(board: Board) -> bool:
    """Whether no set has so many processors that a row of it takes long."""
    return all(board.processors(name) <= SMALL for name in board.sets)
