"""A program's book at a desk: each edit of a person, each order of a worker and each result is an entry of one history.

What is seen comes from looks of a seat of its own. An edit, an order and a result wait for the desk's lock, and a look
at a value doesn't.
"""

from __future__ import annotations

import time
from collections.abc import Callable, Mapping, Sequence
from contextlib import suppress
from dataclasses import dataclass, field
from pathlib import Path
from threading import get_ident

from pevudlo.lang.board import Board
from pevudlo.lang.replies import Word
from pevudlo.running.crew import MOST_PAUSE, PAUSE
from pevudlo.serve.limits import bytes_of, left_by
from pevudlo.serve.turns import AT_ONCE, SMALL, Patient, Turns
from pevudlo.wire.book import EDITS, Slot
from pevudlo.wire.desk import OpenDesk, OpenSeat
from pevudlo.wire.library import check_line
from pevudlo.wire.library_calls import Outcome

MOST_ENTRIES = 10_000
"""A chapter of the history has so many entries at most."""

MOST_BYTES = 256_000_000
"""A new chapter begins where the entries have so many bytes.

An edit has those of its line. An order has those of the fields that its row names, and a result those of what its row
writes. Values that entries share are counted in each of them, so a chapter has no more.
"""

NO_LIMIT = 2**64 - 1

SYNTAX = "refused 20 "
"""What a line that isn't in the grammar is answered by: it is no entry."""

Value = tuple[str, int]
"""A key, and the number of a place."""


@dataclass
class Waiting:
    """Somebody who waits for values, since a time or since the last turn."""

    since: float
    values: list[Value] = field(default_factory=list)


class SeatedBook(Patient):
    """A book whose lines are told to a desk. Edits are those of the person whose number is `by`.

    `said` has the first lines of replies to edits. `chapters` counts the new chapters of the history, and `entries` and
    `bytes` are those of the present one. Calls but those of workers are made in one thread.
    """

    def __init__(self, library: Path) -> None:
        super().__init__(library)
        self.said = list[str]()
        self.chapters = self.entries = self.bytes = 0
        # Whose a seat of the desk is, by its number: a person's. Workers have none.
        self.people: dict[int, int] = {}
        self._board, self._sizes = Board(), dict[tuple[str, bool], int]()
        self._history: OpenDesk | None = None
        self._eye: OpenSeat | None = None
        self._is_behind = False
        self._seats, self._workers = dict[int, OpenSeat](), dict[int, OpenSeat]()
        self._waiting: dict[int, Waiting] = {}
        # The rows, with their editions, that workers have out.
        self._out = set[tuple[int, int]]()

    @property
    def history(self) -> OpenDesk:
        """The desk. It opens at the first edit, behind the line that chooses the profile."""
        if self._history is None:
            self._history = OpenDesk(self, NO_LIMIT)
            self._eye = OpenSeat(self._history)
        return self._history

    def close(self) -> int:
        """Ends the desk and the session. Workers throw away what they run."""
        if self._history is not None:
            self._history.close()
        return super().close()

    # Edits.

    def ask(self, line: str) -> list[str]:
        """The lines of the reply to one line. An edit is told to the desk, and all else to what is seen."""
        if not line.startswith(EDITS):
            return super().ask(line)
        check_line(line)
        self.note_set(line)
        desk = self.history
        try:
            desk.waiting.add(get_ident())
            with desk.lock:
                lines = self._seat().ask(line)
                self._board.note(line, lines[0])
                self._is_behind = True
                if not lines[0].startswith(SYNTAX):
                    self._count(len(line))
        finally:
            desk.waiting.discard(get_ident())
        self.said.append(lines[0])
        return lines

    def _seat(self) -> OpenSeat:
        """The seat of who edits."""
        if self.by not in self._seats:
            seat = self._seats[self.by] = OpenSeat(self.history)
            self.people[seat.number] = self.by
        return self._seats[self.by]

    def replies(self) -> list[str]:
        """The replies to edits since they were asked for last."""
        said, self.said = self.said, []
        return said

    # The history.

    def audit(self) -> tuple[bool, int]:
        """Makes the events of the chapter again. Whether the replies are the same, and how many there are."""
        with self.history.lock:
            return self.history.audit(), self.entries

    def _count(self, size: int) -> None:
        """Counts an entry. Behind the last one of a chapter another one begins. The desk's lock is held."""
        self.entries, self.bytes = self.entries + 1, self.bytes + size
        if self.entries >= MOST_ENTRIES or self.bytes >= MOST_BYTES:
            self.history.cut()
            self.entries, self.bytes, self.chapters = 0, 0, self.chapters + 1

    def _size(self, row: int, is_result: bool) -> int:
        """How many bytes an order or a result of a row has. Nothing where the row is gone."""
        text = self._board.texts.get(row, "")
        if (text, is_result) not in self._sizes:
            found = left_by(self._board, text) if is_result else named_by(self._board, text)
            self._sizes[text, is_result] = found
        return self._sizes[text, is_result]

    # What is seen.

    def see(self) -> None:
        """What is seen from now on is the book as it is."""
        if self._eye is not None:
            with self.lock:
                self._is_behind = False
                turn, _ = self._eye.look()
                self._eye.snapshot_into(turn, self._at)

    def _call(self, name: str, *words: object) -> tuple[int, int]:
        if self._is_behind:
            self.see()
        return super()._call(name, *words)

    def _turn(self, line: str) -> list[str]:
        if self._is_behind:
            self.see()
        return super()._turn(line)

    # Rows. These are calls of workers, but for the first.

    def want(self, wanted: Mapping[int, Sequence[Value]]) -> None:
        """Says who waits for which values. Who waited before has waited since then."""
        now, before = time.monotonic(), self._waiting
        self._waiting = {
            who: Waiting(before[who].since if who in before else now, list(values)) for who, values in wanted.items()
        }

    def run_row(self, slot: Slot, begun: Callable[[], None]) -> bool:
        """Runs a ready row, first of all one that somebody waits for. Whether there was one. Raises MemoryError.

        `begun` is called once the row is out.
        """
        desk, me = self._history, get_ident()
        if desk is None:
            return False
        if me not in self._workers:
            self._workers[me] = OpenSeat(desk)
        seat = self._workers[me]
        if not self._is_looked_for(desk, seat, slot) and not self._is_taken(desk, seat, slot):
            return False
        try:
            begun()
            desk.execute(slot)
            with desk.lock:
                self.ran += seat.bring(slot).word is Word.KEPT
                self._count(self._size(slot.row, is_result=True))
        finally:
            self._out.discard((slot.row, slot.edition))
        let_others(desk)
        return True

    def _is_looked_for(self, desk: OpenDesk, seat: OpenSeat, slot: Slot) -> bool:
        """Opens an order for the first ready row of a value of who waited longest. Whether there is one."""
        everybody = sorted(self._waiting.values(), key=lambda each: each.since)
        turn = seat.look()[0] if everybody else 0
        for each in everybody:
            # (another worker may take some away meanwhile)
            for value in list(each.values):
                outcome = seat.order_for(turn, *value, slot)
                if outcome == Outcome.OK and self._is_free(desk, slot):
                    each.since = time.monotonic()
                    return True
                # It is there, or gone, or another worker is at it.
                with suppress(ValueError):
                    each.values.remove(value)
        return False

    def _is_taken(self, desk: OpenDesk, seat: OpenSeat, slot: Slot) -> bool:
        """Takes an order for the first ready row that no worker has out. Whether there is one."""
        with desk.lock:
            while seat.take(slot):
                self._count(self._size(slot.row, is_result=False))
                if self._is_free(desk, slot):
                    return True
        return False

    def _is_free(self, desk: OpenDesk, slot: Slot) -> bool:
        """Whether no worker has the row of an order out. It is out then."""
        out = slot.row, slot.edition
        with desk.lock:
            is_free = out not in self._out
            self._out.add(out)
        return is_free


class SeatedTurns(Turns):
    """Workers that run rows by seats of a desk."""

    def _turn(self, book: Patient, slot: Slot) -> int:
        """Runs a row, or some small ones, and gives how many ran."""
        assert isinstance(book, SeatedBook)
        is_small, ran = book.largest <= SMALL, 0
        begun = (lambda: None) if is_small else (lambda: self.wake(book))
        while ran < (AT_ONCE if is_small else 1) and book.run_row(slot, begun):
            ran += 1
        return ran


def named_by(board: Board, text: str) -> int:
    """How many bytes the fields have that a row names."""
    fields = [board.fields[word] for word in text.split(" ") if word in board.fields]
    return sum(board.processors(each.set) * bytes_of(each.width) for each in fields)


def let_others(desk: OpenDesk) -> None:
    """Lets others have the desk, where some wait for it."""
    until = time.monotonic() + MOST_PAUSE
    while desk.waiting and time.monotonic() < until:
        time.sleep(PAUSE)
