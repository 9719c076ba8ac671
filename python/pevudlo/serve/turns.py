"""Workers that run the ready rows of many books: one order of each book in turn, or a moment of small rows."""

from __future__ import annotations

import threading
from collections import deque
from collections.abc import Callable

from pevudlo.wire.book import Book, Slot
from pevudlo.wire.pipe import PipeError

SMALL = 1_024
"""Where no set has more processors, several rows are run in one hold of the lock."""

AT_ONCE = 32
"""So many small rows are run in one hold of the lock at most."""


class Patient(Book):
    """A book whose rows workers run: a settle is answered at once, and runs none."""

    largest = 0
    """How many processors its largest set has."""

    is_given_up = False
    """Whether a row couldn't be run, for want of memory."""

    by = 0
    """The number of who edits."""

    def ask(self, line: str) -> list[str]:
        """The lines of the reply to one line."""
        if line == "settle":
            return ["settled 0"]
        self.note_set(line)
        return super().ask(line)

    def note_set(self, line: str) -> None:
        """Notes how large a set is, where a line declares one."""
        if line.startswith("set "):
            self.largest = max(self.largest, processors_in(line))

    def see(self) -> None:
        """What is seen from now on is the book as it is: here it is so in any case."""

    def replies(self) -> list[str] | None:
        """The replies to edits since they were asked for last. None where no journal keeps them, as here."""
        return None


def processors_in(line: str) -> int:
    """How many processors the line of a set says, as far as it is right."""
    count = 1
    for word in line.split(" ")[-1].split("x"):
        count *= int(word) if word.isascii() and word.isdigit() and len(word) < 7 else 0
    return count


class Turns:
    """The workers. `told` is called, in a worker's thread, of each book in which rows have run."""

    def __init__(self, workers: int, told: Callable[[Patient], None]) -> None:
        self._told = told
        self._ready: deque[Patient] = deque()
        self._waiting = set[int]()
        self._news = threading.Condition()
        self._is_over = False
        self.ran = 0
        self._threads = [threading.Thread(target=self._work, daemon=True) for _ in range(workers)]
        for thread in self._threads:
            thread.start()

    def wake(self, book: Patient) -> None:
        """Says that a book may have ready rows."""
        with self._news:
            if id(book) not in self._waiting:
                self._waiting.add(id(book))
                self._ready.append(book)
                self._news.notify()

    def close(self) -> None:
        """Ends the workers, each behind the row that it runs."""
        with self._news:
            self._is_over = True
            self._news.notify_all()
        for thread in self._threads:
            thread.join()

    def _next(self) -> Patient | None:
        """The book whose turn it is. None at the end."""
        with self._news:
            while not self._is_over and not self._ready:
                self._news.wait()
            if self._is_over:
                return None
            book = self._ready.popleft()
            self._waiting.discard(id(book))
            return book

    def _work(self) -> None:
        """Gives turns, until the end."""
        slot = None
        while (book := self._next()) is not None:
            slot = slot or book.slot()
            if ran := self._tried(book, slot):
                self.ran += ran
                self.wake(book)
                self._told(book)

    def _tried(self, book: Patient, slot: Slot) -> int:
        """A turn of a book, which may be closed meanwhile, and gives how many rows ran."""
        try:
            return self._turn(book, slot)
        except PipeError:
            return 0
        except MemoryError:
            book.is_given_up = True
            book.drop(slot)
            return 0

    def _turn(self, book: Patient, slot: Slot) -> int:
        """Runs an order of a book, or some small rows, and gives how many ran."""
        if book.largest <= SMALL:
            return book.run(AT_ONCE)
        with book.lock:
            if not book.is_open or not book.take(slot):
                return 0
        # (another worker may take the next one meanwhile)
        self.wake(book)
        book.execute(slot)
        with book.lock:
            if book.is_open:
                book.bring(slot)
                return 1
            book.drop(slot)
            return 0
