"""One program of several people: who did what, own undo, locked lines, and going back to a point."""

from __future__ import annotations

import json
import time
from collections.abc import Sequence, Set
from pathlib import Path

from pevudlo.draw.visible import visible
from pevudlo.serve import asked as reading
from pevudlo.serve.guests import Guest
from pevudlo.serve.hall import Asked, Hall, Told, seat_meant, to_each
from pevudlo.serve.journal import Entry, Journal, Kept
from pevudlo.serve.limits import MOST_LINES, Refused
from pevudlo.serve.lines import Op
from pevudlo.serve.room import Room, Value
from pevudlo.serve.seated import SeatedBook, SeatedTurns
from pevudlo.serve.seats import Seat, Seats
from pevudlo.serve.turns import Patient, Turns

MOST_ENTRIES = 100
"""So many entries are told at once."""

CLOCK = "%H:%M:%S"


class Shared(Hall):
    """One program. What is done goes into the journal before it is answered."""

    mode = "shared"

    def __init__(
        self,
        title: str,
        seats: Seats,
        library: Path,
        workers: int,
        texts: Sequence[str],
        journal: Journal,
        kept: Kept | None,
        has_history: bool = False,
    ) -> None:
        self._has_history = has_history
        super().__init__(title, seats, library, workers, journal)
        wake, keep, book = self.turns.wake, journal.add, SeatedBook if has_history else Patient
        self.room = Room(title, texts, library, wake, keep=keep, kept=kept, begin_book=book)
        self.rooms.append(self.room)

    def begin_turns(self, workers: int) -> Turns:
        return SeatedTurns(workers, self._ran) if self._has_history else super().begin_turns(workers)

    @property
    def book(self) -> SeatedBook:
        """The running book, which is a desk's. Raises Refused where there is no history."""
        if not isinstance(self.room.book, SeatedBook):
            raise Refused("this program is served without a history")
        return self.room.book

    def see_waiting(self, room: Room, waiting: Set[int]) -> None:
        """The rows of these lines are run first, in turns of who looks at them, where there is a history."""
        if not self._has_history:
            return
        values = {number: room.values_of(number) for number in waiting}
        wanted: dict[int, list[Value]] = {}
        for guest in self.in_room(room) if values else ():
            for number in guest.looks:
                wanted.setdefault(guest.seat.number, []).extend(values.get(number, ()))
        self.book.want({who: found for who, found in wanted.items() if found})

    def hello(self, seat: Seat) -> Told:
        seats = [[each.number, each.name] for each in self.seats]
        return {**super().hello(seat), "seats": seats, "history": self._has_history}

    def welcome(self, guest: Guest, asked: Asked) -> None:
        guest.enter(self.room)
        for seat, told in self._carets.items():
            if seat is not guest.seat:
                guest.state(f"caret{seat.number}", told)
        self._tell_locks()
        self.wake()

    def check_change(self, guest: Guest, asked: Asked) -> None:
        """Raises Refused where an edit changes a line that is locked."""
        locked = self.room.locked
        if locked and not guest.seat.teaches:
            wanted = reading.changes(asked)
            if any(change.op is not Op.INSERT and change.id in locked for change in wanted):
                raise Refused("this line is locked by who teaches")

    def edit(self, guest: Guest, asked: Asked) -> Told:
        self.check_change(guest, asked)
        return super().edit(guest, asked)

    def more(self, guest: Guest, word: str, asked: Asked) -> Told | None:
        if word == "entries":
            return {"entries": self.entries(reading.number(asked, "id"))}
        if not guest.seat.teaches:
            raise Refused("who teaches may do this alone")
        if word == "lock":
            self.lock(reading.numbers(asked, "ids", MOST_LINES))
        elif word == "unlock":
            self.unlock(reading.numbers(asked, "ids", MOST_LINES))
        elif word == "back":
            self.go_back(reading.number(asked, "n"), guest.seat)
        elif word == "audit":
            agrees, entries = self.book.audit()
            return {"agrees": agrees, "entries": entries, "chapters": self.book.chapters}
        elif word in ("close", "renew"):
            return self.seat_word(word, seat_meant(asked, self.seats, "there is no such seat"))
        else:
            raise Refused("nothing is done by this word")
        return {}

    # Who did what.

    def entries(self, line: int) -> list[Told]:
        """What was done last, the last first: to one line, or to any where 0 is said."""
        found: list[Told] = []
        for entry in reversed(self.room.kept.entries):
            if not line or any(done.id == line for done in entry.done):
                found.append(self.told_of(entry))
            if len(found) == MOST_ENTRIES:
                break
        return found

    def told_of(self, entry: Entry) -> Told:
        """What is told of an entry: its number, its time, whose it is, and each line with what it was and is."""
        ops = [[done.op.value, done.id, done.text, done.was] for done in entry.done[:MOST_ENTRIES]]
        at = time.strftime(CLOCK, time.localtime(entry.time))
        first = self.room.lines.at(entry.done[0].id)
        reply = "gone since" if first is None else self.reply(first)
        told: Told = {"n": entry.number, "time": at, "by": entry.by, "name": self.name_of(entry.by), "ops": ops}
        return {**told, "undo": entry.is_undo, "reply": reply}

    def reply(self, at: int) -> str:
        """What the program answers to a line now: why it is refused, else that it stands."""
        if self.room.trouble:
            return visible(self.room.trouble)
        refused = self.room.document.shown[at].refused
        return refused or "ok"

    # What who teaches does.

    def lock(self, ids: Sequence[int]) -> None:
        """Locks lines: who teaches may change them alone."""
        self.room.locked.update(number for number in ids if self.room.lines.at(number) is not None)
        self._tell_locks()

    def unlock(self, ids: Sequence[int]) -> None:
        """Lets all change lines again."""
        self.room.locked.difference_update(ids)
        self._tell_locks()

    def _tell_locks(self) -> None:
        """Tells which lines are locked."""
        to_each(self.guests, "locks", json.dumps(sorted(self.room.locked)))

    def go_back(self, number: int, seat: Seat) -> None:
        """Begins a new chapter with the text behind an edit. Raises Refused where that is of an earlier one."""
        first = self.room.kept.entries[0].number - 1 if self.room.kept.entries else self.room.number
        if not first <= number <= self.room.number:
            raise Refused("this chapter has no such edit")
        texts = self.room.kept.after(number)
        try:
            self.room.begin(texts, f"back to edit {number}", seat.number)
        except OSError as error:
            raise Refused("the journal can't be written") from error
        for guest in self.in_room(self.room):
            guest.enter(self.room)
        self._tell_locks()
        self.wake()
