"""A session of the library whose rows several threads may run: orders, results, snapshots, and who waits for news.

`Book` has one lock, and one condition of it. An order is taken and brought with the lock held, and executed without it.
"""

from __future__ import annotations

import ctypes
import threading
from collections.abc import Callable, Iterator, Sequence
from contextlib import contextmanager
from ctypes import c_bool, c_uint8, c_uint32, c_uint64
from threading import get_ident
from typing import Optional

from pevudlo.lang.replies import Word
from pevudlo.values.shaped import Pending
from pevudlo.values.stretches import STRETCH_WORDS, Stretch, stretches_of
from pevudlo.values.words import Words, room_of
from pevudlo.wire.library import SOME_ROWS, Calls, Held, Library, check_line
from pevudlo.wire.library_calls import Outcome, trouble

EDITS = ("set ", "field ", "input ", "insert ", "delete ", "replace ")
LOOKS = ("show ", "list", "faults")
KEPT = [Word.KEPT.value]
WORDS = {1: Word.KEPT, 2: Word.REPEATED, 3: Word.STALE, 4: Word.GONE, 5: Word.FOREIGN}

Keep = Callable[[str], Optional[Callable[[str], None]]]
"""Is told an edit before it is made. What it gives is called with the reply once the edit is accepted."""


class Slot:
    """A place for one order, and what is told of it."""

    def __init__(self, calls: Calls) -> None:
        self._held = Held(calls["paris_order_close"])
        self._row, self._edition, self._is_run = c_uint64(), c_uint64(), c_bool()
        self.verdict, self.now = c_uint32(), c_uint64()
        self.at = self._held.at
        self.told = (ctypes.addressof(self._row), ctypes.addressof(self._edition), ctypes.addressof(self._is_run))
        self.verdict_at, self.now_at = ctypes.addressof(self.verdict), ctypes.addressof(self.now)

    @property
    def row(self) -> int:
        """The row of the order."""
        return self._row.value

    @property
    def edition(self) -> int:
        """The edition that the row had when the order was taken."""
        return self._edition.value


class Book(Library):
    """A session with a condition of its lock, `news`: told of edits, of results that are brought, and of the end."""

    keep: Keep | None = None
    settler: Callable[[], int] | None = None
    """Who settles in the place of the thread that calls."""

    see_run: Callable[[], None] | None = None
    """Is called behind rows that ran, with the lock held."""

    is_copy = False
    """Whether it began as a snapshot of another one, so that rows may have had results before."""

    def _begin(self, calls: Calls, held: Held) -> None:
        super()._begin(calls, held)
        self.news = threading.Condition(self._lock)
        # How often something was told that may make a row ready, and how many results of rows were kept.
        self.changes = self.ran = 0
        self._ids = room_of(SOME_ROWS)
        # The threads for which workers begin no row.
        self.first_come = set[int]()

    @contextmanager
    def first(self) -> Iterator[None]:
        """What is done within comes before rows: no worker begins one until it is over. The lock isn't held by this."""
        try:
            self.first_come.add(get_ident())
            yield
        finally:
            self.first_come.discard(get_ident())
            with self.lock:
                self.news.notify_all()

    def tell(self) -> None:
        """Wakes who waits for news: something has changed. The lock is held."""
        self.changes += 1
        self.news.notify_all()

    def _end(self, what: str) -> None:
        """Closes the handle, once, and wakes who waits for news."""
        super()._end(what)
        self.news.notify_all()

    def ask(self, line: str) -> list[str]:
        """The lines of the reply to one line, as `Library.ask`. Who waits for news is told of all but looks."""
        if line == "settle" or line.startswith(LOOKS):
            return super().ask(line)
        check_line(line)
        me = get_ident()
        try:
            self.waiting.add(me)
            with self.lock:
                kept = None if self.keep is None else self._kept(line)
                lines = self._turn(line)
                if kept is not None and not lines[0].startswith("refused"):
                    kept(lines[0])
                if lines == KEPT:
                    self._has_run(1)
                self.tell()
                return lines
        finally:
            self.waiting.discard(me)

    def ask_all(self, lines: Sequence[str]) -> list[list[str]]:
        """The replies to many lines, of each of which is told what `ask` tells."""
        with self.lock:
            return [self.ask(line) for line in lines]

    def settle(self, goes_on: Callable[[], bool] = lambda: True) -> int:
        """Settles all rows, and gives how many ran."""
        return super().settle(goes_on) if self.settler is None else self.settler()

    def _has_run(self, count: int) -> None:
        self.ran += count
        if self.see_run is not None:
            self.see_run()

    def _kept(self, line: str) -> Callable[[str], None] | None:
        """What is to be called once an edit is accepted."""
        return self.keep(line) if self.keep is not None and line.startswith(EDITS) else None

    def _given(self, call: str, key: str, first: int, words: Words, count: int) -> bool:
        try:
            self.waiting.add(get_ident())
            with self.lock:
                kept = self._kept(f"input {key} {first} ..")
                is_given = super()._given(call, key, first, words, count)
                if kept is not None and is_given:
                    kept("ok")
                self.tell()
                return is_given
        finally:
            self.waiting.discard(get_ident())

    # Orders. The lock is held but for `execute`.

    def take(self, slot: Slot) -> bool:
        """Takes an order for the first ready row. Whether there is one. Raises MemoryError."""
        outcome, _ = self._call("paris_take", slot.at)
        if outcome == Outcome.NOTHING:
            return False
        self._check(outcome)
        self._check(self._calls["paris_order_row"](slot.at, *slot.told))
        return True

    def execute(self, slot: Slot) -> None:
        """Executes an order, with no lock, and with Python's own lock free meanwhile. Raises MemoryError."""
        self._check(self._calls["paris_execute"](slot.at))

    def bring(self, slot: Slot) -> Word:
        """Brings the result of an order, and drops it."""
        try:
            self._check(*self._call("paris_bring", slot.at, slot.verdict_at, slot.now_at))
            word = WORDS[slot.verdict.value]
            if word is Word.KEPT:
                self._has_run(1)
            return word
        finally:
            self.drop(slot)

    def drop(self, slot: Slot) -> None:
        """Drops an order. Its row stays out until `release`."""
        self._calls["paris_order_close"](slot.at)

    def release(self) -> None:
        """Gives up all orders that are out."""
        with self.lock:
            self._check(*self._call("paris_release"))
            self.tell()

    # What stands on what.

    def unsettled_count(self) -> int:
        """How many rows are unsettled."""
        return self._check(*self._call("paris_unsettled", self._told_at, 0, self._told_at))

    def unsettled(self) -> tuple[int, ...]:
        """The ids of the rows that are unsettled, in program order."""
        return tuple(memoryview(self.unsettled_words()).cast("Q"))

    def unsettled_words(self) -> bytes:
        """The same as words in memory, which takes little time however many they are."""
        with self.lock:
            while (count := self._list_unsettled()) > len(self._ids):
                self._ids = room_of(2 * count)
            return ctypes.string_at(self._ids.address, 8 * count)

    def _list_unsettled(self) -> int:
        """Puts the ids of the unsettled rows into their room, as far as they fit, and gives how many they are."""
        room = self._ids
        return self._check(*self._call("paris_unsettled", room.address, len(room), self._told_at))

    def settle_for(self, key: str, place: int) -> list[int] | None:
        """Runs the rows that a value stands on, and gives the ids of those that ran. None where the look is refused."""
        name = key.encode("utf-8", "surrogateescape")
        with self.lock:
            # (there is room for all that are unsettled, so for all that run)
            count = self._list_unsettled()
            if count > len(self._ids):
                self._ids = room_of(2 * count)
            outcome, ran = self._call(
                "paris_settle_for_ids", name, len(name), place, self._ids.address, count, self._told_at
            )
            if outcome in (Outcome.OK, Outcome.PARTLY):
                self._has_run(ran)
            ids = (
                memoryview(ctypes.string_at(self._ids.address, 8 * min(ran, count))).cast("Q").tolist()
                if outcome == Outcome.OK
                else None
            )
            self.tell()
        if outcome in (Outcome.NO_MEMORY, Outcome.PARTLY):
            raise trouble(outcome)
        return ids

    # What a value comes to. None where the look is refused.

    def count(self, key: str, place: int) -> int | Pending | None:
        """Of how many processors the number that a key holds at a place is other than 0."""
        name = key.encode("utf-8", "surrogateescape")
        outcome, told = self._call("paris_count", name, len(name), place, self._told_at)
        return told if outcome == Outcome.OK else unseen(outcome, told)

    def summary(self, key: str, parts: int, place: int) -> list[Stretch] | Pending | None:
        """What the numbers that a key holds at a place come to in so many stretches of the processors.

        Of n processors stretch i is of those from i * n // parts on, up to before (i + 1) * n // parts.
        Raises ValueError where there are fewer processors than parts, or no part.
        """
        room = (c_uint64 * (STRETCH_WORDS * max(parts, 0)))()
        name = key.encode("utf-8", "surrogateescape")
        at = ctypes.addressof(room)
        outcome, told = self._call("paris_summary", name, len(name), place, at, max(parts, 0), self._told_at)
        if outcome != Outcome.OK:
            return unseen(outcome, told, parts)
        return stretches_of(memoryview(room).cast("B").cast("Q").tolist())

    def differs(self, other: Book, key: str, parts: int, place: int) -> list[bool] | Pending | None:
        """In which of so many stretches what a key holds at a place differs from what it holds there in another book.

        The stretches are those of `summary`. Raises ValueError as that, and where the values have not the same width
        and as many processors.
        """
        if other._at == self._at:
            return self.differs(self.still(), key, parts, place)
        room = (c_uint8 * max(parts, 0))()
        name = key.encode("utf-8", "surrogateescape")
        at = ctypes.addressof(room)
        first, second = sorted((self, other), key=id)
        with first.lock, second.lock:
            other._check_open()
            words = name, len(name), place, at, max(parts, 0), self._told_at
            outcome, told = self._call("paris_differs", other._at, *words)
        return [flag != 0 for flag in room] if outcome == Outcome.OK else unseen(outcome, told, parts)

    # Snapshots.

    def snapshot(self) -> Held:
        """A session in the same state."""
        into = Held(self._calls["paris_close"])
        self._check(*self._call("paris_snapshot", into.at))
        return into

    def still(self) -> Book:
        """A snapshot to look at: what is done here leaves it as it is."""
        book = Book.over(self._calls, self.snapshot())
        assert isinstance(book, Book)
        book.is_copy = True
        return book

    def beside(self, held: Held) -> Book:
        """Another session of this library to look at, which who has it keeps."""
        book = Book.over(self._calls, held)
        assert isinstance(book, Book)
        book.is_copy = True
        return book

    def copy(self) -> Book:
        """A book in the same state. No order is out there."""
        book = self.still()
        book.release()
        return book

    def exchange(self, other: Held) -> None:
        """Puts another session in the place of this one, and this one in its place. No order is out there then."""
        with self.lock:
            mine, its = self._held.handle, other.handle
            mine.at, its.at = its.at, mine.at
            self.release()

    def slot(self) -> Slot:
        """A place for an order of this library."""
        return Slot(self._calls)

    @staticmethod
    def _check(outcome: int, told: int = 0) -> int:
        """What a call told. Raises what an outcome other than OK means."""
        if outcome != Outcome.OK:
            raise trouble(outcome)
        return told


def unseen(outcome: int, told: int, parts: int = 0) -> Pending | None:
    """The row that is pending, where a look at so many stretches is not answered, or None where it is refused.

    Raises ValueError where the processors, of which it told how many, can't be cut so, or two values are not alike.
    """
    match outcome:
        case Outcome.PENDING:
            return Pending(told)
        case Outcome.WRONG_ROOM:
            raise ValueError(f"{told:,} processors can't be cut into {parts:,} stretches")
        case Outcome.UNLIKE:
            raise ValueError("the two values differ in width or in the number of their processors")
    return None
