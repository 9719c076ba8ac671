"""A class: a program for each student from the same start, a board, texts handed out and in, and what all are shown."""

from __future__ import annotations

import asyncio
import csv
import io
import json
import re
import time
import unicodedata
from collections.abc import Mapping, Sequence
from pathlib import Path

from pevudlo.exercise.looks import Outcome, Verdict
from pevudlo.exercise.solution import Solution
from pevudlo.exercise.words import difference
from pevudlo.files import put_text, why
from pevudlo.serve import asked as reading
from pevudlo.serve.checking import Checking
from pevudlo.serve.guests import Guest
from pevudlo.serve.hall import Asked, Hall, Told, failed, may_look, seat_meant, to_each
from pevudlo.serve.journal import Journal, Kept
from pevudlo.serve.limits import Refused
from pevudlo.serve.room import Edit, Room
from pevudlo.serve.seats import Kind, Seat, Seats

BOARD_TICK = 0.25
"""Seconds between two looks at the board."""

MOST_CHAPTERS = 20
"""So many texts of a student are kept to go back to."""

TABLE = "board.csv"


class Classroom(Hall):
    """A class. The teacher's own program is what is handed out; the others have one each, by the seats' numbers."""

    mode = "class"

    def __init__(
        self,
        title: str,
        seats: Seats,
        library: Path,
        workers: int,
        exercise: Sequence[str],
        solution: Solution | None,
        folder: Path,
        journal: Journal,
        kept: Mapping[int, Kept],
    ) -> None:
        """`kept` is what a journal says of the programs, by their seats' numbers."""
        super().__init__(title, seats, library, workers, journal)
        self.folder = folder
        self.exercise = list(exercise)
        loop = asyncio.get_running_loop()
        self.checking = Checking(exercise, solution, lambda: _in_loop(loop, self.see_board))
        self.own: dict[Seat, Room] = {}
        self.handed: dict[Seat, float] = {}
        self.followed: Seat | None = None
        self._board = asyncio.Event()
        for seat in [seats.teacher, *seats.students]:
            self.own[seat] = self._room(seat, kept.get(seat.number))

    def _room(self, seat: Seat, kept: Kept | None) -> Room:
        """The program of a seat."""
        at, keep, wake = seat.number, self.journal.add, self.turns.wake
        room = Room(seat.name, self.exercise, self._library, wake, at=at, keep=keep, kept=kept)
        self.rooms.append(room)
        file = self.folder / file_of(seat)
        if kept is not None and file.is_file():
            self.handed[seat] = file.stat().st_mtime
        return room

    def close(self) -> None:
        super().close()
        self.checking.close()

    # Who sees what.

    def hello(self, seat: Seat) -> Told:
        told = super().hello(seat)
        if may_look(seat):
            told["checks"] = [check.name for check in self.checking.checks]
            told["seats"] = [[each.number, each.name] for each in self.seats.students]
        return told

    def welcome(self, guest: Guest, asked: Asked) -> None:
        """A student sees the own program, the wall what the class is shown, and who teaches what is handed out."""
        seat = guest.seat
        guest.follows = seat.kind is Kind.LOOKING
        room = self.own.get(seat) if not guest.follows else None
        if seat.kind is Kind.STUDENT and room is not None:
            room.name = seat.name
        self._show(guest, room if room is not None else self._shown_to_all())
        self._tell_following(guest)
        self.see_board()

    def _show(self, guest: Guest, room: Room) -> None:
        """Shows a guest a program, and the carets that are in it."""
        guest.enter(room)
        for other in self.guests:
            if other.room is room and other.seat in self._carets and other.seat is not guest.seat:
                guest.state(f"caret{other.seat.number}", self._carets[other.seat])
        self.wake()

    def _shown_to_all(self) -> Room:
        """The program that the class is shown: the followed seat's, else the teacher's."""
        return self.own[self.followed or self.seats.teacher]

    def check_editing(self, guest: Guest, room: Room) -> None:
        super().check_editing(guest, room)
        if guest.follows:
            raise Refused("the wall shows, and edits nothing")
        if not guest.seat.teaches and room is not self.own.get(guest.seat):
            raise Refused("this program is somebody else's")

    def edited(self, room: Room, seat: Seat, edit: Edit) -> None:
        super().edited(room, seat, edit)
        self.see_board()

    # What is asked.

    def more(self, guest: Guest, word: str, asked: Asked) -> Told | None:
        seat = guest.seat
        if word == "hand-in" and seat.kind is Kind.STUDENT:
            return self.hand_in(seat)
        if word == "chapters":
            return {"chapters": [[each.name, each.time] for each in self._room_of(guest).chapters]}
        if word == "back":
            return self.go_back(guest, reading.number(asked, "chapter"))
        if not seat.teaches:
            raise Refused("who teaches may do this alone")
        return self._teach(guest, word, asked)

    def _teach(self, guest: Guest, word: str, asked: Asked) -> Told:
        """What the teacher asks for."""
        if word == "open":
            self._show(guest, self.own[self._seat(asked)])
        elif word == "hand-out":
            return {"handed": self.hand_out(self._seats(asked))}
        elif word == "follow":
            self.follow(self._seat(asked))
        elif word == "save":
            return {"saved": self.save()}
        elif word in ("close", "renew"):
            return self.seat_word(word, self._seat(asked))
        elif word == "tokens":
            return {
                "tokens": [[seat.number, seat.token, seat.is_closed] for seat in self.seats if seat is not guest.seat]
            }
        else:
            raise Refused("nothing is done by this word")
        return {}

    def _seat(self, asked: Asked) -> Seat:
        """The seat that is meant. Raises Refused where it has no program."""
        return seat_meant(asked, self.own, "there is no program at this seat")

    def _seats(self, asked: Asked) -> list[Seat]:
        """The students that are meant, all where none are named."""
        if asked.get("seats") is None:
            return self.seats.students
        wanted = reading.numbers(asked, "seats", len(self.seats.all))
        return [seat for seat in self.seats.students if seat.number in wanted]

    def hand_out(self, seats: Sequence[Seat]) -> int:
        """Gives students the teacher's present text, as a new chapter. To how many."""
        texts = list(self.own[self.seats.teacher].lines.texts)
        for seat in seats:
            self._begin(self.own[seat], texts, "handed out")
        return len(seats)

    def go_back(self, guest: Guest, chapter: int) -> Told:
        """Gives a program the text of an earlier chapter, as a new one."""
        room = self._room_of(guest)
        self.check_editing(guest, room)
        if not 0 <= chapter < len(room.chapters):
            raise Refused("there is no such text")
        guest.seat.bucket.take()
        old = room.chapters[chapter]
        self._begin(room, list(old.texts), f"back to {old.name}")
        return {}

    def _begin(self, room: Room, texts: list[str], name: str) -> None:
        """A new chapter of a program, which all who see it are shown."""
        try:
            room.begin(texts, name)
        except OSError as error:
            raise Refused(f"the journal can't be written: {why(error)}") from error
        if len(room.chapters) > MOST_CHAPTERS:
            del room.chapters[1]
        for guest in self.in_room(room):
            guest.enter(room)
        self.wake()
        self.see_board()

    def hand_in(self, seat: Seat) -> Told:
        """Keeps a copy of a student's text with its time, and writes it."""
        seat.bucket.take()
        try:
            self._write(seat)
        except OSError as error:
            raise Refused(f"it can't be written: {why(error)}") from error
        self.handed[seat] = time.time()
        self.see_board()
        return {"handed": self.handed[seat]}

    def _write(self, seat: Seat) -> None:
        """Writes what is handed in: what was before stays beside it. Raises OSError."""
        self.folder.mkdir(parents=True, exist_ok=True)
        text = "".join(f"{line}\n" for line in self.own[seat].lines.texts)
        put_text(self.folder / file_of(seat), text, is_kept=True)

    def save(self) -> str:
        """Writes all students' present texts and the board as files. Where they are. Raises Refused."""
        try:
            (self.folder / "all").mkdir(parents=True, exist_ok=True)
            for seat in self.seats.students:
                text = "".join(f"{line}\n" for line in self.own[seat].lines.texts)
                put_text(self.folder / "all" / file_of(seat), text)
            put_text(self.folder / TABLE, self.table())
        except OSError as error:
            raise Refused(f"it can't be written: {why(error)}") from error
        return str(self.folder)

    def table(self) -> str:
        """The board as a table of commas."""
        out = io.StringIO()
        writer = csv.writer(out, lineterminator="\n")
        names = [check.name for check in self.checking.checks]
        writer.writerow(["name", *names, "lines refused", "rows refused", "last edit", "handed in"])
        for seat in self.seats.students:
            room = self.own[seat]
            signs = [each.outcome.value for each in self.checking.of(room)]
            times = [stamp(room.edited), stamp(self.handed.get(seat, 0.0))]
            writer.writerow([as_text(seat.name), *signs, room.refused, room.faults, *times])
        return out.getvalue()

    def follow(self, seat: Seat) -> None:
        """Shows the class a seat's program from now on, on the wall."""
        self.followed = seat
        for guest in self.guests:
            if guest.follows:
                self._show(guest, self.own[seat])
            self._tell_following(guest)

    def _tell_following(self, guest: Guest) -> None:
        """Tells whose program the class is shown."""
        seat = self.followed or self.seats.teacher
        guest.state("followed", json.dumps([seat.number, seat.name]))

    # The board.

    def see_board(self) -> None:
        """The board may be another one."""
        self._board.set()

    async def watch(self) -> None:
        """Tells the board as it changes."""
        while True:
            await self._board.wait()
            self._board.clear()
            self.tell_board()
            await asyncio.sleep(BOARD_TICK)

    def tell(self) -> None:
        super().tell()
        self.see_board()

    def tell_board(self) -> None:
        """Tells who teaches each student's row as far as it is another one."""
        teaching = [guest for guest in self.guests if guest.seat.teaches]
        here = {guest.seat for guest in self.guests}
        for seat in self.seats.students:
            to_each(teaching, f"board{seat.number}", self._tried_row(seat, seat in here))

    def _tried_row(self, seat: Seat, is_here: bool) -> str:
        """A student's row in JSON. Where that fails it is that program's trouble alone."""
        try:
            told = self.row(seat, is_here)
        except Exception as error:
            self.own[seat].trouble = failed(error)
            checks = [[Outcome.PENDING.value, "the server failed"] for _ in self.checking.checks]
            told = {
                "n": self.own[seat].number,
                "name": seat.name,
                "here": is_here,
                "closed": seat.is_closed,
                "checks": checks,
            }
            told |= {"refused": 0, "faults": 0, "left": 0, "edited": 0, "handed": 0}
        return json.dumps(told, separators=(",", ":"))

    def row(self, seat: Seat, is_here: bool) -> Told:
        """A student's row of the board."""
        room = self.own[seat]
        room.look()
        return {
            "n": room.number,
            "name": seat.name,
            "here": is_here,
            "closed": seat.is_closed,
            "checks": [cell(each) for each in self.checking.of(room)],
            "refused": room.refused,
            "faults": room.faults,
            "left": room.left,
            "edited": round(room.edited),
            "handed": round(self.handed.get(seat, 0.0)),
        }


def _in_loop(loop: asyncio.AbstractEventLoop, call: object) -> None:
    """Calls something in the loop's thread, as long as that goes."""
    assert callable(call)
    try:
        loop.call_soon_threadsafe(call)
    except RuntimeError:
        # (the loop has ended)
        pass


def cell(verdict: Verdict) -> list[str]:
    """A check on the board: its sign, and the first other number."""
    return [verdict.outcome.value, difference(verdict)]


def stamp(at: float) -> str:
    """A time as it stands in the table, or nothing."""
    return time.strftime("%Y-%m-%d %H:%M:%S", time.localtime(at)) if at else ""


def as_text(name: str) -> str:
    """A name that a table's program takes for no formula."""
    return f"'{name}" if name[:1] in "=+-@" else name


def file_of(seat: Seat) -> str:
    """The name of a seat's file: letters, digits and hyphens, with the seat's number."""
    plain = unicodedata.normalize("NFKD", seat.name).encode("ascii", "ignore").decode("ascii")
    return f"{seat.number:02}-{re.sub(r'[^A-Za-z0-9]+', '-', plain).strip('-') or 'seat'}.paris"
