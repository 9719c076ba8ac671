"""A session of the library libparis.so, in this process: it answers lines as a running program does, and takes arrays.

`Library` stands in the place of a `Pipe`, behind the same calls. Any thread may call it, one at a time. In a child that
a process begets by `fork` no call is made.
"""

from __future__ import annotations

import ctypes
import os
import threading
import time
import weakref
from collections.abc import Callable, Sequence
from ctypes import c_size_t, c_uint64
from pathlib import Path
from threading import get_ident
from types import TracebackType

from pevudlo.values.words import WIDE, Words, room_of, wide_numbers
from pevudlo.wire.library_calls import END_NUMBER, Handle, Outcome, loaded, trouble
from pevudlo.wire.pipe import Ended

Calls = dict[str, Callable[..., int]]

SHORT, LONG = 0.01, 0.04
"""Seconds: of a part of a settle that takes less the next is greater, and of one that takes more it is smaller."""

SHORT_REPLY = 4_096
"""A reply of so many bytes at most is put into a room that is there."""

SOME_ROWS = 64
"""For the ids of so many rows there is room at first."""

MOST_AT_ONCE = 4_096
"""So many rows are run in one call at most, behind which Ctrl-C ends a settle."""


def check_line(line: str) -> None:
    """Raises ValueError where a text has a line feed."""
    if "\n" in line:
        raise ValueError("one line is asked at a time")


def drop(close: Callable[..., int], handle: Handle, process: int) -> None:
    """Closes a handle that nobody holds any more. In a child of the process that opened it nothing is done."""
    if os.getpid() == process:
        close(ctypes.addressof(handle))


class Held:
    """The handle of a session, an order, a desk or a seat: closed by `close`, or where nobody holds it any more."""

    def __init__(self, close: Callable[..., int]) -> None:
        self.handle = Handle()
        self.at = ctypes.addressof(self.handle)
        self.close = weakref.finalize(self, drop, close, self.handle, os.getpid())
        # At the end of the process workers may be in a call, and the memory goes with it.
        self.close.atexit = False


class Library:
    """A session of the library at a path. Threads may share it: calls wait for `lock`, and one is made at a time.

    It is in the profile of this number, which no line changes. Where none is said it is in profile 1, and its first
    command may choose another.

    Where there is no memory left, a call raises MemoryError and has changed nothing, or of `settle` has run some rows.
    """

    def __init__(self, path: Path, profile: int | None = None) -> None:
        calls = loaded(path)
        held = Held(calls["paris_close"])
        self._begin(calls, held)
        outcome = calls["paris_open"](held.at) if profile is None else calls["paris_open_profile"](held.at, profile)
        if outcome != Outcome.OK:
            raise trouble(outcome)

    @classmethod
    def over(cls, calls: Calls, held: Held) -> Library:
        """A session whose handle is open."""
        library = cls.__new__(cls)
        library._begin(calls, held)
        return library

    def _begin(self, calls: Calls, held: Held) -> None:
        """Takes a handle."""
        self._calls, self._held = calls, held
        self._answer, self._reply = calls["paris_answer"], calls["paris_reply"]
        self._lock = threading.RLock()
        # The threads that want a call, or are in one: a worker that holds the lock again and again lets them in.
        self.waiting = set[int]()
        self._is_in_call = False
        self._process = os.getpid()
        self._status = 0
        self._over: tuple[str, int] | None = None
        self._length, self._told = c_size_t(), c_uint64()
        # A room for short replies. The addresses hold as long as the objects do.
        self._room = ctypes.create_string_buffer(SHORT_REPLY)
        self._at, self._length_at = held.at, ctypes.addressof(self._length)
        self._room_at = ctypes.addressof(self._room)
        self._told_at = ctypes.addressof(self._told)
        self._touched, self._edits = room_of(SOME_ROWS), c_uint64()

    @property
    def lock(self) -> threading.RLock:
        """The lock of the calls. Raises RuntimeError in a child of the process: a thread may hold it there for ever."""
        if self.is_elsewhere:
            raise RuntimeError("a session of the library stays in the process that opened it")
        return self._lock

    @property
    def is_elsewhere(self) -> bool:
        """Whether this is a child of the process that opened it, in which no call is made."""
        return os.getpid() != self._process

    @property
    def is_open(self) -> bool:
        """Whether it isn't closed."""
        return self._over is None

    def settle(self, goes_on: Callable[[], bool] = lambda: True) -> int:
        """Settles all rows, part by part, and gives how many ran. `goes_on` is asked before each part.

        Ctrl-C ends it behind a part: what is settled stays so. Orders that are out are given up.
        """
        self._call("paris_release")
        ran, most = 0, 1
        while goes_on():
            begun = time.monotonic()
            count = self.run(most)
            ran += count
            if count < most:
                break
            took = time.monotonic() - begun
            most = min(2 * most, MOST_AT_ONCE) if took < SHORT else max(1, most // 2) if took > LONG else most
        return ran

    def run(self, most: int) -> int:
        """Runs so many rows at most that are ready, and gives how many ran."""
        try:
            self.waiting.add(get_ident())
            with self.lock:
                outcome, count = self._call("paris_run", most, self._told_at)
                if outcome in (Outcome.OK, Outcome.PARTLY):
                    self._has_run(count)
        finally:
            self.waiting.discard(get_ident())
        if outcome != Outcome.OK:
            raise trouble(outcome)
        return count

    def _has_run(self, count: int) -> None:
        """Is told how many rows ran, with the lock held."""

    def ask(self, line: str) -> list[str]:
        """The lines of the reply to one line; none for an empty line or a comment, which have no reply.

        Bytes that are not UTF-8 stand in the text as surrogates (`errors="surrogateescape"`).
        Raises ValueError where the text has a line feed, and Ended where the session is over.
        """
        check_line(line)
        if line == "settle":
            return [f"settled {self.settle()}"]
        try:
            self.waiting.add(get_ident())
            with self.lock:
                return self._turn(line)
        finally:
            self.waiting.discard(get_ident())

    def ask_all(self, lines: Sequence[str]) -> list[list[str]]:
        """The replies to many lines, as by `ask` of one after another."""
        if any("\n" in line for line in lines):
            raise ValueError("each line is one line")
        try:
            self.waiting.add(get_ident())
            with self.lock:
                return [self.ask(line) if line == "settle" else self._turn(line) for line in lines]
        finally:
            self.waiting.discard(get_ident())

    def edit_all(self, lines: Sequence[str]) -> int:
        """Makes edits one after another, of which nobody reads the replies, and gives how many were accepted.

        Nobody who waits for news is told. Raises what a call raises: edits before it are made then.
        """
        try:
            self.waiting.add(get_ident())
            with self.lock:
                before = self._edit_count()
                try:
                    self._is_in_call = True
                    for line in lines:
                        data = line.encode("ascii")
                        outcome = self._answer(self._at, data, len(data), self._length_at)
                        if outcome != Outcome.OK:
                            raise trouble(outcome)
                finally:
                    self._is_in_call = False
                return self._edit_count() - before
        finally:
            self.waiting.discard(get_ident())

    def _edit_count(self) -> int:
        """How many edits were accepted."""
        self._list_touched(END_NUMBER)
        return self._edits.value

    def set(self, key: str, first: int, words: Words) -> bool:
        """Gives a key these numbers from a processor on, as one edit. False where that is refused, and nothing done."""
        return self._given("paris_set", key, first, words, len(words))

    def set_wide(self, key: str, first: int, words: Words) -> bool:
        """The same with numbers of two words each."""
        return self._given("paris_set_wide", key, first, words, len(words) // WIDE)

    def get(self, key: str, place: int, count: int) -> Words | int | None:
        """The numbers that a key of so many processors holds at a place, or the id of the row that has to be settled.

        None where the look is refused. Places are START_NUMBER, END_NUMBER and just after the row of another id.
        """
        return self.get_into(room_of(count), key, place)

    def get_into(self, room: Words, key: str, place: int) -> Words | int | None:
        """The same, put into a room for the numbers."""
        return self._looked("paris_get", key, place, room, len(room))

    def get_wide(self, key: str, place: int, count: int) -> tuple[int, ...] | int | None:
        """The same of a key whose numbers have two words each."""
        told = self._looked("paris_get_wide", key, place, room_of(WIDE * count), count)
        return wide_numbers(told) if isinstance(told, Words) else told

    def origin(self, key: str, place: int) -> int | None:
        """The row that gives a key its value at a place, 0 for the start. None where the look is refused."""
        name = key.encode("utf-8", "surrogateescape")
        outcome, row = self._call("paris_origin", name, len(name), place, self._told_at)
        return row if outcome == Outcome.OK else None

    def touched(self, since: int) -> tuple[list[int], int]:
        """The ids of the rows that an edit behind the first so many touched, in program order, and the count of edits.

        These are the rows that were put in or replaced, and those that got other inputs, settled by now or not.
        """
        with self.lock:
            while (count := self._list_touched(since)) > len(self._touched):
                self._touched = room_of(2 * count)
            words = ctypes.string_at(self._touched.address, 8 * count)
            return memoryview(words).cast("Q").tolist(), self._edits.value

    def _list_touched(self, since: int) -> int:
        """Puts the ids of touched rows into their room, as far as they fit, and gives how many they are."""
        room, edits = self._touched, ctypes.addressof(self._edits)
        outcome, count = self._call("paris_touched", since, room.address, len(room), self._told_at, edits)
        if outcome != Outcome.OK:
            raise trouble(outcome)
        return count

    def desk(self, name: int, limit: int) -> tuple[Calls, Held]:
        """A desk of a name whose history begins at the present state, with so many entries at most, and its calls."""
        held = Held(self._calls["paris_desk_close"])
        with self.lock:
            self._check_open()
            try:
                self._is_in_call = True
                outcome = self._calls["paris_desk_open"](held.at, self._at, name, limit)
            finally:
                self._is_in_call = False
        if outcome != Outcome.OK:
            raise trouble(outcome)
        return self._calls, held

    def close(self) -> int:
        """Ends the session, and gives 1 where a line was refused, else 0, as the program's exit status does."""
        if self.is_elsewhere:
            return self._status
        with self.lock:
            self._end("the session is closed")
        assert self._over is not None
        return self._over[1]

    def __enter__(self) -> Library:
        return self

    def __exit__(self, kind: type[BaseException] | None, error: BaseException | None, at: TracebackType | None) -> None:
        self.close()

    def _call(self, name: str, *words: object) -> tuple[int, int]:
        """Makes a call with the handle. Gives what becomes of it, and the number that it told.

        Raises RuntimeError within a call and in a child of the process, and Ended. No generator stands between the lock
        and the call, so that Ctrl-C at any place leaves the lock free.
        """
        try:
            self.waiting.add(get_ident())
            with self.lock:
                self._check_open()
                try:
                    self._is_in_call = True
                    outcome = self._calls[name](self._at, *words)
                    return outcome, self._told.value
                finally:
                    self._is_in_call = False
        finally:
            self.waiting.discard(get_ident())

    def _check_open(self) -> None:
        """Raises RuntimeError within a call, as in a handler of signals, and Ended where the session is over."""
        if self._is_in_call:
            raise RuntimeError("a session of the library is in one call at a time")
        if self._over is not None:
            raise Ended(*self._over, "")

    def look(self, key: str, place: int, count: int, is_wide: bool) -> Sequence[int] | int | None:
        """The same of a key of one word or of two a number, without the words' address."""
        told = self.get_wide(key, place, count) if is_wide else self.get(key, place, count)
        return told.numbers if isinstance(told, Words) else told

    def _given(self, call: str, key: str, first: int, words: Words, count: int) -> bool:
        """Whether a call has given a key so many numbers."""
        name = key.encode("ascii")
        outcome, _ = self._call(call, name, len(name), first, words.address, count)
        if outcome == Outcome.NO_MEMORY:
            raise trouble(outcome)
        return outcome == Outcome.OK

    def _looked(self, call: str, key: str, place: int, room: Words, count: int) -> Words | int | None:
        """The room with what a call has put there, or a row's id, or None where the call is refused."""
        name = key.encode("ascii")
        outcome, told = self._call(call, name, len(name), place, room.address, count, self._told_at)
        if outcome == Outcome.PENDING:
            return told
        if outcome == Outcome.NO_MEMORY:
            raise trouble(outcome)
        return room if outcome == Outcome.OK else None

    def _turn(self, line: str) -> list[str]:
        """The lines of the reply to a line, in a turn. The lock is held."""
        self._check_open()
        data = line.encode("utf-8", "surrogateescape")
        try:
            self._is_in_call = True
            outcome = self._answer(self._at, data, len(data), self._length_at)
            text = self._replied() if outcome == Outcome.OK else b""
        except BaseException:
            self._end("the session was stopped")
            raise
        finally:
            self._is_in_call = False
        if outcome != Outcome.OK:
            raise trouble(outcome)
        if text.startswith(b"refused"):
            self._status = 1
        return text.decode("utf-8", "surrogateescape").split("\n")[:-1]

    def _replied(self) -> bytes:
        """The bytes of the kept reply."""
        count = self._length.value
        room, at = self._room, self._room_at
        if count > SHORT_REPLY:
            room = ctypes.create_string_buffer(count)
            at = ctypes.addressof(room)
        outcome = self._reply(self._at, at, count)
        if outcome != Outcome.OK:
            raise trouble(outcome)
        return ctypes.string_at(at, count)

    def _end(self, what: str) -> None:
        """Closes the handle, once."""
        if self._over is None:
            self._over = (what, self._status)
            self._held.close()
