"""A desk of the library: a book that seats call, and the history of who called it.

`OpenDesk` has one lock, and one condition of it. `OpenSeat` answers lines as a `Library` does, with the lock held, and
shows what it looked at without it.
"""

from __future__ import annotations

import ctypes
import os
import threading
from ctypes import c_bool, c_size_t, c_uint32, c_uint64
from dataclasses import dataclass
from enum import Enum
from itertools import count
from threading import get_ident

from pevudlo.lang.replies import Verdict, Word
from pevudlo.values.words import WIDE, Words, room_of
from pevudlo.wire.book import WORDS, Book, Slot
from pevudlo.wire.library import SHORT_REPLY, Held, Library, check_line
from pevudlo.wire.library_calls import Outcome, trouble
from pevudlo.wire.pipe import Ended, is_comment

NAMES = count(1)
"""Each desk of the process has a name of its own, so that none takes another one's seats for its own."""

LOOKS = ("show ", "list")


class HistoryFull(Exception):
    """The history of a desk has as many entries as it may have. `cut` begins a new chapter."""


class Kind(Enum):
    """What an entry of a history is of."""

    EDIT = "edit"
    TAKE = "take"
    BRING = "bring"
    RELEASE = "release"
    SHOW = "show"
    LIST = "list"


KINDS = dict(enumerate(Kind, 1))
"""The kinds by the numbers of the library."""


@dataclass(frozen=True)
class Told:
    """An entry as the library tells it: the seat's number, the kind, and the reply's text."""

    seat: int
    kind: Kind
    text: str


@dataclass(frozen=True)
class Looked:
    """What becomes of a look: its outcome, the number that is told with it, and the room with the numbers."""

    outcome: int
    told: int
    room: Words


class OpenDesk:
    """A desk whose history begins at the state of a session. Calls wait for `lock`, and one is made at a time.

    Who waits for its condition `news` is told of each entry but looks, of a new chapter, and of the end. `changes`
    counts what may make a row ready, and `chapters` the new chapters. Raises MemoryError.
    """

    def __init__(self, library: Library, limit: int) -> None:
        self.calls, self._held = library.desk(next(NAMES), limit)
        self._process = os.getpid()
        self._lock = threading.RLock()
        self.news = threading.Condition(self._lock)
        # The threads that want a call, or are in one: workers let them in.
        self.waiting = set[int]()
        self.changes = self.chapters = 0
        self.is_open, self._is_in_call = True, False

    @property
    def lock(self) -> threading.RLock:
        """The lock of the calls. Raises RuntimeError in a child of the process: a thread may hold it there for ever."""
        if self.is_elsewhere:
            raise RuntimeError("a desk of the library stays in the process that opened it")
        return self._lock

    @property
    def is_elsewhere(self) -> bool:
        """Whether this is a child of the process that opened it, in which no call is made."""
        return os.getpid() != self._process

    def tell(self) -> None:
        """Wakes who waits for news: something has changed. The lock is held."""
        self.changes += 1
        self.news.notify_all()

    def check_open(self) -> None:
        """Raises RuntimeError within a call, as in a handler of signals, and Ended where the desk is closed."""
        if self._is_in_call:
            raise RuntimeError("a desk of the library is in one call at a time")
        if not self.is_open:
            raise Ended("the desk is closed", 0, "")

    def call(self, name: str, *words: object) -> int:
        """Makes a call of the desk, and gives its outcome. The lock is held. Raises as `check_open`."""
        self.check_open()
        try:
            self._is_in_call = True
            return self.calls[name](self._held.at, *words)
        finally:
            self._is_in_call = False

    def entry(self, number: int) -> Told | None:
        """The entry of this number. None where the present chapter has none. Raises MemoryError."""
        with self.lock:
            size, told = self._entry(number, SHORT_REPLY)
            if told is not None and size > SHORT_REPLY:
                _, told = self._entry(number, size)
            return told

    def _entry(self, number: int, size: int) -> tuple[int, Told | None]:
        """How many bytes the text of an entry's reply has, and the entry with so many of them at most."""
        seat, kind, length, room = c_uint64(), c_uint32(), c_size_t(), ctypes.create_string_buffer(size)
        seat_at, kind_at, length_at = map(ctypes.addressof, (seat, kind, length))
        outcome = self.call("paris_desk_entry", number, seat_at, kind_at, ctypes.addressof(room), size, length_at)
        if outcome == Outcome.NO_ENTRY:
            return 0, None
        check(outcome)
        return length.value, Told(seat.value, KINDS[kind.value], text_in(room, min(size, length.value)))

    def audit(self) -> bool:
        """Makes all events of the chapter again, and gives whether the replies are the same. Raises MemoryError."""
        agrees = c_bool()
        with self.lock:
            check(self.call("paris_desk_audit", ctypes.addressof(agrees)))
        return agrees.value

    def cut(self) -> int:
        """Begins a new chapter, and gives how many entries the last one had. Raises MemoryError."""
        entries = c_uint64()
        with self.lock:
            check(self.call("paris_desk_cut", ctypes.addressof(entries)))
            self.chapters += 1
            self.tell()
        return entries.value

    def snapshot(self) -> Book:
        """A session with the desk's book, where no order is out. Raises MemoryError."""
        into = Held(self.calls["paris_close"])
        with self.lock:
            check(self.call("paris_desk_snapshot", into.at))
        book = self.copied(into)
        book.release()
        return book

    def copied(self, into: Held) -> Book:
        """The session that a call has opened with a book that was there before."""
        book = Book.over(self.calls, into)
        assert isinstance(book, Book)
        book.is_copy = True
        return book

    def slot(self) -> Slot:
        """A place for an order of this library."""
        return Slot(self.calls)

    def execute(self, slot: Slot) -> None:
        """Executes an order, with no lock, and with Python's own lock free meanwhile. Raises MemoryError.

        Raises RuntimeError in a child of the process.
        """
        if self.is_elsewhere:
            raise RuntimeError("an order of the library stays in the process that took it")
        check(self.calls["paris_execute"](slot.at))

    def close(self) -> None:
        """Closes the desk, once, and wakes who waits for news. What seats look at stays."""
        with self.lock:
            if self.is_open:
                self.check_open()
                self.is_open = False
                self._held.close()
                self.news.notify_all()


class OpenSeat:
    """The next seat of a desk. Calls at the desk hold its lock and the seat's own; others hold the seat's alone.

    A look has a number, its turn. Once the seat has looked again, a call with it is a RuntimeError.
    """

    def __init__(self, desk: OpenDesk) -> None:
        self.desk, self.waiting = desk, desk.waiting
        self._held = Held(desk.calls["paris_seat_close"])
        self._own, self._is_open, self._is_in_call = threading.RLock(), True, False
        self._turn_of_look, self._status = 0, 0
        number = c_uint64()
        with desk.lock:
            check(desk.call("paris_desk_sit", self._held.at, ctypes.addressof(number)))
        self.number = number.value

    @property
    def lock(self) -> threading.RLock:
        """The lock of the desk's calls."""
        return self.desk.lock

    @property
    def own(self) -> threading.RLock:
        """The seat's own lock. Raises RuntimeError in a child of the process."""
        if self.desk.is_elsewhere:
            raise RuntimeError("a seat of the library stays in the process that opened it")
        return self._own

    def ask(self, line: str) -> list[str]:
        """The lines of the reply to one line; none for an empty line or a comment, which are no events.

        Bytes that are not UTF-8 stand in the text as surrogates (`errors="surrogateescape"`).
        Raises ValueError for a line that is no event of a desk, HistoryFull, Ended and MemoryError.
        """
        check_line(line)
        if is_comment(line):
            return []
        with self.lock, self.own:
            self._check_open()
            try:
                self._is_in_call = True
                text = self._turn(line.encode("utf-8", "surrogateescape"))
            finally:
                self._is_in_call = False
            if not line.startswith(LOOKS):
                self.desk.tell()
            return self._lines(text)

    def give(self, key: str, first: int, words: Words, is_wide: bool) -> list[str]:
        """Gives a declared key numbers of one word or of two from a processor on. The lines of the reply.

        Raises HistoryFull, Ended and MemoryError.
        """
        call, count = ("paris_desk_set_wide", len(words) // WIDE) if is_wide else ("paris_desk_set", len(words))
        name, length, entry = key.encode("ascii"), c_size_t(), c_uint64()
        told = ctypes.addressof(length), ctypes.addressof(entry)
        with self.lock, self.own:
            check(self._at_desk(call, name, len(name), first, words.address, count, *told))
            self.desk.tell()
            return self._lines(self._reply(length.value))

    def _lines(self, text: str) -> list[str]:
        """The lines of a reply. One that is refused is noted."""
        if text.startswith("refused"):
            self._status = 1
        return text.split("\n")[:-1]

    def _turn(self, line: bytes) -> str:
        """The text of the reply to a line, in a call of the seat."""
        length, entry = c_size_t(), c_uint64()
        words = self._held.at, line, len(line), ctypes.addressof(length), ctypes.addressof(entry)
        outcome = self.desk.call("paris_desk_answer", *words)
        if outcome == Outcome.NO_EVENT:
            word = line.split(b" ")[0].decode("utf-8", "surrogateescape")
            raise ValueError(f"`{word}` is no line of a desk: it takes edits, `release`, `show` and `list`")
        check(outcome)
        return self._reply(length.value)

    def _reply(self, size: int) -> str:
        """The text of the kept reply, of so many bytes. The seat's lock is held."""
        room = ctypes.create_string_buffer(max(size, 1))
        check(self.desk.calls["paris_seat_reply"](self._held.at, ctypes.addressof(room), size))
        return text_in(room, size)

    def take(self, slot: Slot) -> bool:
        """Takes an order for the first ready row. Whether there is one. Raises HistoryFull and MemoryError."""
        entry = c_uint64()
        with self.lock, self.own:
            return self._is_ordered(self._at_desk("paris_desk_take", slot.at, ctypes.addressof(entry)), slot)

    def bring(self, slot: Slot) -> Verdict:
        """Brings the result of an order, and leaves the order as it is. Raises HistoryFull and MemoryError."""
        entry = c_uint64()
        with self.lock, self.own:
            words = slot.at, slot.verdict_at, slot.now_at, ctypes.addressof(entry)
            check(self._at_desk("paris_desk_bring", *words))
            self.desk.tell()
            word = WORDS[slot.verdict.value]
            return Verdict(word, slot.now.value if word is Word.STALE else None)

    def look(self) -> tuple[int, int]:
        """Looks at the book as it is. Gives the look's turn, and the number of the last entry."""
        try:
            self.waiting.add(get_ident())
            with self.lock, self.own:
                check(self._at_desk("paris_desk_look"))
                self._turn_of_look += 1
                return self._turn_of_look, self.front()
        finally:
            self.waiting.discard(get_ident())

    # What the seat looks at, with the desk's lock free.

    def get(self, turn: int, key: str, place: int, processors: int) -> Looked:
        """What a key of so many processors holds at a place. Raises MemoryError."""
        name, room, told = key.encode("utf-8", "surrogateescape"), room_of(processors), c_uint64()
        with self.own:
            words = name, len(name), place, room.address, processors, ctypes.addressof(told)
            self._check_turn(turn)
            outcome = self._alone("paris_seat_get", *words)
        if outcome == Outcome.NO_MEMORY:
            raise trouble(outcome)
        return Looked(outcome, told.value, room)

    def order_for(self, turn: int, key: str, place: int, slot: Slot) -> int:
        """Opens an order for the first ready row that a value stands on. What becomes of it. Raises MemoryError."""
        name = key.encode("utf-8", "surrogateescape")
        with self.own:
            self._check_turn(turn)
            outcome = self._alone("paris_seat_order_for", name, len(name), place, slot.at)
            if outcome in (Outcome.OK, Outcome.NO_MEMORY):
                self._is_ordered(outcome, slot)
            return outcome

    def snapshot(self, turn: int) -> Book:
        """A session with the book that is looked at. Raises MemoryError."""
        into = Held(self.desk.calls["paris_close"])
        self.snapshot_into(turn, into.at)
        return self.desk.copied(into)

    def snapshot_into(self, turn: int, at: int) -> None:
        """Closes the session of a handle, and opens there one with the book that is looked at. Raises MemoryError."""
        with self.own:
            self._check_turn(turn)
            check(self._alone("paris_seat_snapshot", at))

    def check_look(self, turn: int) -> None:
        """Raises RuntimeError where the seat has looked since, and Ended where it is closed."""
        with self.own:
            self._check_turn(turn)
            self._check_open()

    def front(self) -> int:
        """The number of the last entry that the seat knows."""
        front = c_uint64()
        with self.own:
            check(self._alone("paris_seat_front", ctypes.addressof(front)))
        return front.value

    def close(self) -> int:
        """Closes the seat, once, and gives 1 where a line was refused, else 0. The history keeps its entries."""
        with self.own:
            if self._is_open:
                self._check_open()
                self._is_open = False
                self._held.close()
        return self._status

    def _check_turn(self, turn: int) -> None:
        """Raises RuntimeError where the seat has looked since."""
        if turn != self._turn_of_look:
            raise RuntimeError(f"seat {self.number} has looked again, and shows this look no more")

    def _is_ordered(self, outcome: int, slot: Slot) -> bool:
        """Whether a call has opened an order. What is told of it is read then."""
        if outcome == Outcome.NOTHING:
            return False
        check(outcome)
        check(self.desk.calls["paris_order_row"](slot.at, *slot.told))
        return True

    def _at_desk(self, name: str, *words: object) -> int:
        """Makes a call of the desk with the seat, with both locks held."""
        self._check_open()
        try:
            self._is_in_call = True
            return self.desk.call(name, self._held.at, *words)
        finally:
            self._is_in_call = False

    def _alone(self, name: str, *words: object) -> int:
        """Makes a call of the seat alone, with its lock held."""
        self._check_open()
        try:
            self._is_in_call = True
            return self.desk.calls[name](self._held.at, *words)
        finally:
            self._is_in_call = False

    def _check_open(self) -> None:
        """Raises RuntimeError within a call, as in a handler of signals, and Ended where the seat is closed."""
        if self._is_in_call:
            raise RuntimeError("a seat of the library is in one call at a time")
        if not self._is_open:
            raise Ended("the seat is closed", 0, "")


def text_in(room: ctypes.Array[ctypes.c_char], size: int) -> str:
    """The text of so many bytes in a room."""
    return ctypes.string_at(room, size).decode("utf-8", "surrogateescape")


def check(outcome: int) -> None:
    """Raises what an outcome other than OK means."""
    if outcome == Outcome.FULL:
        raise HistoryFull("the history has as many entries as it may have: `cut` begins a new chapter")
    if outcome != Outcome.OK:
        raise trouble(outcome)
