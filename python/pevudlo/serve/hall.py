"""Who is there, and what each is told: the part that a class and one program of several people share."""

from __future__ import annotations

import asyncio
import json
import sys
import time
from collections.abc import Iterable, Mapping, Set
from pathlib import Path

from pevudlo.draw.visible import visible
from pevudlo.serve import asked as reading
from pevudlo.serve.guests import Guest, TooSlow, op_text
from pevudlo.serve.journal import Journal
from pevudlo.serve.limits import Refused
from pevudlo.serve.lines import Clash
from pevudlo.serve.room import WAITS, Edit, Room
from pevudlo.serve.seats import Kind, Seat, Seats
from pevudlo.serve.turns import Patient, Turns

TICK = 0.05
"""Seconds between two looks at what is settled."""

EDITING = ("edit", "undo", "back", "hand-out", "hand-in")
"""What is asked for that changes a text, or is as seldom."""

SYNC = 1.0
"""Seconds behind which the disk has what was done."""

Asked = Mapping[str, object]
Told = dict[str, object]


class Hall:
    """The seats and rooms of a server. All calls are made in the loop's thread but for `_ran`."""

    mode = ""

    def __init__(self, title: str, seats: Seats, library: Path, workers: int, journal: Journal) -> None:
        self.title, self.seats, self.journal = title, seats, journal
        self.guests = set[Guest]()
        self.rooms: list[Room] = []
        self._library, self._loop = library, asyncio.get_running_loop()
        self._turn, self._is_told = asyncio.Event(), False
        self.turns = self.begin_turns(workers)
        self._carets: dict[Seat, str] = {}

    def begin_turns(self, workers: int) -> Turns:
        """So many workers."""
        return Turns(workers, self._ran)

    def close(self) -> None:
        """Ends the workers and the books."""
        self.turns.close()
        for room in self.rooms:
            room.close()
        self.journal.close()

    # Who comes and goes.

    def check_free(self, seat: Seat) -> None:
        """Raises Refused where a seat has as many connections as it may."""
        count = sum(guest.seat is seat for guest in self.guests)
        if count >= seat.limits.connections:
            raise Refused(f"this seat is open in {count} windows already: close one")

    def come(self, seat: Seat, asked: Asked) -> Guest:
        """Another connection of a seat. Raises Refused where it has too many."""
        self.check_free(seat)
        guest = Guest(seat)
        joined = {"token": seat.token} if asked["do"] == "join" else {}
        guest.answer({"hello": {**self.hello(seat), **joined}})
        self.guests.add(guest)
        seat.is_taken = True
        self.welcome(guest, asked)
        self.people_changed()
        return guest

    def go(self, guest: Guest) -> None:
        """A connection is gone."""
        guest.is_gone = True
        self.guests.discard(guest)
        if self._carets.pop(guest.seat, None) is not None:
            self._tell_caret(guest, "null")
        self.people_changed()

    def hello(self, seat: Seat) -> Told:
        """What stays, for who comes."""
        return {"title": self.title, "mode": self.mode, "seat": seat.number, "name": seat.name, "kind": seat.kind.value}

    def welcome(self, guest: Guest, asked: Asked) -> None:
        """Shows a guest what it sees first."""
        raise NotImplementedError

    def people_changed(self) -> None:
        """Tells who is there."""
        here = {guest.seat for guest in self.guests}
        told = json.dumps([[seat.number, seat.name, seat.kind.value] for seat in self.seats if seat in here])
        to_each(self.guests, "people", told)

    def in_room(self, room: Room) -> list[Guest]:
        """Those who see a program."""
        return [guest for guest in self.guests if guest.room is room]

    # What is asked.

    def act(self, guest: Guest, asked: Asked) -> None:
        """Does what a guest asks, and answers. Raises NoMessage, and TooSlow."""
        begun, mark, seat = time.perf_counter(), asked.get("mark", 0), guest.seat
        try:
            seat.messages.take()
            told = self.do(guest, str(asked["do"]), asked)
        except Refused as error:
            told = {"refused": str(error)}
        except (reading.NoMessage, TooSlow):
            raise
        except Exception as error:
            told = {"refused": f"the server failed: {failed(error)}"}
        took = time.perf_counter() - begun
        seat.messages.spend(took)
        if asked["do"] in EDITING:
            seat.bucket.spend(took)
        if told is not None:
            guest.answer({**told, "mark": mark if isinstance(mark, int) else 0})

    def do(self, guest: Guest, word: str, asked: Asked) -> Told | None:
        """Does one thing. None where nothing is answered. Raises Refused and NoMessage."""
        if word == "edit":
            return self.edit(guest, asked)
        if word == "undo":
            return self.undo(guest)
        if word == "look":
            self.look(guest, reading.looks(asked))
            return None
        if word == "caret":
            self.caret(guest, asked)
            return None
        if word == "numbers":
            room = self._room_of(guest)
            return room.whole(reading.number(asked, "id"), reading.words(asked, "key"))
        if word == "text":
            guest.enter(self._room_of(guest))
            self.wake()
            return {}
        return self.more(guest, word, asked)

    def undo(self, guest: Guest) -> Told:
        """Takes the last own edit of the program that a guest sees back."""
        room, seat = self._room_of(guest), guest.seat
        self.check_editing(guest, room)
        seat.bucket.take()
        edit = room.undo(seat.number, self.name_of)
        self.edited(room, seat, edit)
        return {"n": edit.number}

    def name_of(self, number: int) -> str:
        """The name of a seat."""
        return next((seat.name for seat in self.seats if seat.number == number), "somebody")

    def send_away(self, seat: Seat, said: str) -> None:
        """Ends the connections of a seat."""
        for guest in [guest for guest in self.guests if guest.seat is seat]:
            guest.leave(said)

    def seat_word(self, word: str, seat: Seat) -> Told:
        """Closes a seat, or gives it another address."""
        if seat.teaches:
            raise Refused("the teacher's seat stays open")
        if word == "close":
            self.seats.close(seat)
            self.send_away(seat, "this seat was closed by who teaches")
            return {}
        self.seats.renew(seat)
        self.send_away(seat, "this seat has a new address now")
        return {"token": seat.token}

    def more(self, guest: Guest, word: str, asked: Asked) -> Told | None:
        """What only this kind of hall does. Raises Refused."""
        raise Refused("nothing is done by this word")

    def _room_of(self, guest: Guest) -> Room:
        """The program that a guest sees. Raises Refused where it sees none."""
        if guest.room is None:
            raise Refused("there is no program here")
        return guest.room

    def check_editing(self, guest: Guest, room: Room) -> None:
        """Raises Refused where a guest may not edit a program."""
        if not guest.seat.may_edit:
            raise Refused("this seat looks, and edits nothing")

    def edit(self, guest: Guest, asked: Asked) -> Told:
        """An edit of the program that a guest sees."""
        room, seat = self._room_of(guest), guest.seat
        self.check_editing(guest, room)
        seat.bucket.take()
        edit = room.edit(reading.changes(asked), seat.number, seat.name, seat.limits)
        self.edited(room, seat, edit)
        told: Told = {"n": edit.number, "put": list(edit.put)}
        if edit.clashes:
            told["clashes"] = [self.clash(room, clash) for clash in edit.clashes]
        return told

    def clash(self, room: Room, clash: Clash) -> Told:
        """What is told to who came second."""
        by = self.name_of(room.lines.by.get(clash.id, -1))
        return {"id": clash.id, "theirs": clash.theirs, "mine": clash.mine, "by": by}

    def edited(self, room: Room, seat: Seat, edit: Edit) -> None:
        """Tells all who see a program what was done to its lines."""
        ops = [op_text(edit.number, seat.number, done) for done in edit.done]
        for guest in self.in_room(room):
            guest.tell(ops)
        self.wake()

    def look(self, guest: Guest, ids: tuple[int, ...]) -> None:
        """A guest shows these lines of its program from now on."""
        for number in ids:
            if number not in guest.looks:
                guest.forget(f"v{number}")
        guest.looks = ids
        self.wake()

    def caret(self, guest: Guest, asked: Asked) -> None:
        """A guest's caret is in another place."""
        at, text = reading.number(asked, "id"), reading.words(asked, "text")[:200]
        told = json.dumps([at, reading.number(asked, "column"), guest.seat.name, text])
        self._carets[guest.seat] = told
        self._tell_caret(guest, told)

    def _tell_caret(self, guest: Guest, told: str) -> None:
        """Tells the others in a program where a caret is."""
        for other in self.guests:
            if other.room is guest.room and other.seat is not guest.seat:
                other.state(f"caret{guest.seat.number}", told)

    # What is told as time goes.

    def _ran(self, book: Patient) -> None:
        """Rows of a book have run. It is called in a worker's thread."""
        if not self._is_told:
            self._is_told = True
            self._loop.call_soon_threadsafe(self.wake)

    def wake(self) -> None:
        """There is something to see."""
        self._is_told = False
        self._turn.set()

    async def sync(self) -> None:
        """Has the disk keep the journal, each second. Raises OSError."""
        while True:
            await asyncio.sleep(SYNC)
            await asyncio.to_thread(self.journal.sync)

    async def watch(self) -> None:
        """Tells what else there is to be told, again and again."""
        await asyncio.Event().wait()

    async def tick(self) -> None:
        """Tells what is settled and what lines give, again and again."""
        while True:
            await self._turn.wait()
            self._turn.clear()
            begun = time.perf_counter()
            self.tell()
            await asyncio.sleep(max(0.005, TICK - (time.perf_counter() - begun)))

    def tell(self) -> None:
        """Tells each guest what its lines give now."""
        for room in {guest.room for guest in self.guests if guest.room is not None}:
            self._try_to_tell(room)

    def _try_to_tell(self, room: Room) -> None:
        """Tells what a program gives. Where that fails it is that program's trouble alone."""
        try:
            self.tell_of(room)
        except Exception as error:
            room.trouble = failed(error)
            to_each(self.in_room(room), "rows", rows_of(room))

    def tell_of(self, room: Room) -> None:
        """Tells those who see a program what its lines give now."""
        room.look()
        guests = self.in_room(room)
        to_each(guests, "rows", rows_of(room))
        given = room.gives({number for guest in guests for number in guest.looks})
        for guest in guests:
            tell_lines(guest, given)
        self.see_waiting(room, {number for number, told in given.items() if told == WAITS})

    def see_waiting(self, room: Room, waiting: Set[int]) -> None:
        """Of the lines that are looked at in a program these wait for rows."""


def rows_of(room: Room) -> str:
    """How many rows are unsettled behind the last edit, in JSON."""
    return json.dumps({"at": room.number, "left": room.left, "trouble": room.trouble})


def failed(error: Exception) -> str:
    """What failed where nothing should, which is said on standard error too."""
    said = f"{type(error).__name__}: {error}"
    print(f"paris serve: {visible(said)}", file=sys.stderr, flush=True)
    return said


def tell_lines(guest: Guest, given: Mapping[int, str]) -> None:
    """Tells a guest what the lines give that it shows."""
    for number in guest.looks:
        if number in given:
            guest.state(f"v{number}", given[number])


def to_each(guests: Iterable[Guest], name: str, told: str) -> None:
    """A state for each of some guests."""
    for guest in guests:
        guest.state(name, told)


def seat_meant(asked: Asked, seats: Iterable[Seat], why: str) -> Seat:
    """The seat of these that a message means. Raises Refused, with why, where it is none of them."""
    number = reading.number(asked, "seat")
    found = next((seat for seat in seats if seat.number == number), None)
    if found is None:
        raise Refused(why)
    return found


def may_look(seat: Seat) -> bool:
    """Whether a seat sees all programs."""
    return seat.kind in (Kind.TEACHER, Kind.LOOKING)
