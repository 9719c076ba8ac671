"""A desk: a book of the library that people and workers call from threads, with the history of who called it.

Each person has a `Seat`, whose edits and looks are entries of the history. A `Look` shows what a seat has looked at,
and needs no lock.
"""

from __future__ import annotations

import threading
import weakref
from collections.abc import Iterator, Mapping
from dataclasses import dataclass
from itertools import count
from pathlib import Path
from threading import get_ident
from types import MappingProxyType, TracebackType
from typing import SupportsIndex, overload

from pevudlo.data import SeatData
from pevudlo.draw.grids import Grid
from pevudlo.editing import Editing
from pevudlo.hints.explanation import SYNTAX, Explanation, Refusal, explained
from pevudlo.lang.board import Board, Declared
from pevudlo.lang.faults import FAULTS
from pevudlo.lang.places import END, Place, spelled
from pevudlo.lang.replies import Refused, RowFault, Rows, Verdict, parse
from pevudlo.machine import Machine, RowList, machine_over, session_of
from pevudlo.running.seated import SeatedCrew
from pevudlo.talk import Talk, of_kind
from pevudlo.values.indices import Index, check_key, shown_part, split
from pevudlo.values.shaped import Pending, Shown, shaped
from pevudlo.wire.book import Book, Slot
from pevudlo.wire.desk import Kind, OpenDesk, OpenSeat
from pevudlo.wire.library_calls import Outcome, place_number

MOST_ENTRIES = 2**64 - 1
MOST_WORKERS = 16

NO_ROW = 2**64 - 2
"""No row has this id: an id is at most the count of edits, which stays below `2^63`."""

KEY_COLUMN = len("show ") + 1


@dataclass(frozen=True)
class Entry:
    """An entry of a history: its number, the seat's number and name, what it is of, and the text of the reply.

    An order has the number 1 in the text.
    """

    number: int
    seat: int
    name: str
    kind: Kind
    reply: str


class Order:
    """What a row computes, with all that it reads. It is executed with no lock of the desk, in any thread.

    `row` is the id of the row that it is for, and `edition` the edition that the row had.
    """

    def __init__(self, desk: OpenDesk, slot: Slot) -> None:
        self.row, self.edition = slot.row, slot.edition
        self._desk, self._slot = desk, slot
        self._lock = threading.RLock()

    def __repr__(self) -> str:
        return f"<Order: row {self.row}, edition {self.edition}>"

    def execute(self) -> None:
        """Executes it, where it isn't executed yet. Raises MemoryError, behind which it can be executed again."""
        with self._lock:
            self._desk.execute(self._slot)

    def _bring(self, seat: OpenSeat) -> Verdict:
        """Executes it, and has a seat bring the result."""
        with self._lock:
            self._desk.execute(self._slot)
            return seat.bring(self._slot)


class Look:
    """The book as it was when a seat looked: what others do meanwhile changes nothing of what it shows.

    It needs no lock of the desk, and is no entry. Where the seat has looked again or is closed, each call is a
    RuntimeError or Ended. `front` is the number of the last entry that the book has. Raises MemoryError.
    """

    def __init__(self, seat: OpenSeat, board: Board, library: Path | None) -> None:
        self._seat, self._board, self._library = seat, board, library
        self._machine: Machine | None = None
        try:
            seat.waiting.add(get_ident())
            with seat.lock:
                self._turn, self.front = seat.look()
                # (a desk's book loses none)
                self._sets, self._fields = len(board.sets), len(board.fields)
        finally:
            seat.waiting.discard(get_ident())

    @overload
    def __getitem__(self, index: str) -> Shown | Pending:
        ...

    @overload
    def __getitem__(self, index: tuple[str, SupportsIndex]) -> int | Pending:
        ...

    @overload
    def __getitem__(self, index: tuple[str, slice]) -> Shown | list[int] | Pending:
        ...

    def __getitem__(self, index: Index) -> int | Shown | list[int] | Pending:
        """The numbers of a key at the end of the program, as `Machine.__getitem__` gives them and raises."""
        key, part = split(index)
        grid = self._grid(key, END)
        if grid is None:
            return self._inside()[index]
        if isinstance(grid, Pending):
            return grid
        return shaped(grid) if part is None else shown_part(grid, part)

    def show(self, key: str, at: Place = END) -> Shown | Pending:
        """The numbers of a key at a place, in the shape of its set, or the row that has to be settled first.

        Raises Refusal as the command does, which is no entry here.
        """
        grid = self._grid(key, at)
        if grid is None:
            return self._inside().show(key, at)
        return grid if isinstance(grid, Pending) else shaped(grid)

    def rows(self) -> RowList:
        """The rows in program order, with their states."""
        return self._inside().rows()

    def unsettled(self) -> tuple[int, ...]:
        """The ids of the rows that are unsettled, in program order."""
        return self._inside().unsettled()

    def faults(self) -> tuple[RowFault, ...]:
        """The settled rows that were refused for their data when they ran, in program order."""
        return self._inside().faults()

    def causes(self) -> dict[int, str]:
        """Why the rows of `faults` are refused for their data, as `Machine.causes` says."""
        return self._inside().causes()

    def origin(self, key: str, at: Place = END) -> int | None:
        """The row that gives a key its value at a place, or None where that is the start. Raises Refusal."""
        return self._inside().origin(key, at)

    def snapshot(self) -> Machine:
        """A machine over the library with the book that is shown, and with no order out. The look stays as it is."""
        return self._inside().copy()

    def order_for(self, key: str, at: Place = END) -> Order | None:
        """An order for the first ready row of those that a value stands on. None where no such row is ready.

        It is no entry: the row waits as before, and is settled by the first result that is brought while it is as it
        was. Raises Refusal as `show` does, and MemoryError.
        """
        check_key(key)
        slot = self._seat.desk.slot()
        outcome = self._seat.order_for(self._turn, key, place_of(at), slot)
        if outcome not in (Outcome.OK, Outcome.NOTHING):
            raise Refusal(self._explained(f"show {key} {at.text}", outcome))
        return Order(self._seat.desk, slot) if outcome == Outcome.OK else None

    def _inside(self) -> Machine:
        """The machine that shows what needs more than numbers of 64 bits. It is made once, where it is wanted first."""
        self._seat.check_look(self._turn)
        with self._seat.own:
            if self._machine is None:
                book = self._seat.snapshot(self._turn)
                self._machine = machine_over(self._library, book, self._board_of(book))
            return self._machine

    def _board_of(self, book: Book) -> Board:
        """What was declared when the seat looked, with the rows of the book."""
        sets, fields = list(self._board.sets.items()), list(self._board.fields.items())
        board = Board(dict(sets[: self._sets]), dict(fields[: self._fields]))
        board.profile, board.is_begun = self._board.profile, True
        for row in of_kind(parse(book.ask("list")), Rows).rows:
            board.order.put_last(row.row)
            board.texts[row.row] = row.text
        return board

    def _grid(self, key: str, at: Place) -> Grid | Pending | None:
        """The numbers of a key at a place, as a grid. None for a key of more than 64 bits."""
        check_key(key)
        board = self._board
        name, axes, width = board.set_of(key), board.axes_of(key), board.width_of(key)
        looked = self._seat.get(self._turn, key, place_of(at), 0 if name is None else board.processors(name))
        if looked.outcome == Outcome.PENDING:
            return Pending(looked.told)
        if looked.outcome == Outcome.TOO_WIDE:
            return None
        if looked.outcome != Outcome.OK or axes is None or width is None:
            raise Refusal(self._explained(f"show {key} {at.text}", looked.outcome))
        return Grid(key, axes, width, looked.room.numbers, place=at.text)

    def _explained(self, line: str, outcome: int) -> Explanation:
        """Why a look is refused that this line would make."""
        if outcome == Outcome.NO_KEY:
            return explained(line, Refused(SYNTAX, KEY_COLUMN), self._board)
        fault = FAULTS[outcome]
        hint = f"this look is of the program after entry {self.front}"
        return Explanation(outcome, fault.name, fault.words(), line, None, None, hint)


class Seat(Editing):
    """A seat of a desk, for one thread: calls of another thread wait for their turn.

    Its edits, `show`, `release`, `take` and `bring` are entries of the desk's history, also where they are refused.
    `name` is that of its person, and `number` is the one by which entries have it. Calls raise HistoryFull where the
    history has as many entries as it may have, and Ended where the desk or the seat is closed. Raises MemoryError.
    """

    def __init__(self, desk: OpenDesk, name: str, board: Board, library: Path | None) -> None:
        self._seat, self._library = OpenSeat(desk), library
        self.name, self.number = name, self._seat.number
        self._talk = Talk(self._seat)
        self._talk.board = board
        self._data = SeatData(self._talk, self._seat)

    def __repr__(self) -> str:
        return f"<Seat {self.number}: {self.name}>"

    @property
    def front(self) -> int:
        """The number of the last entry that the seat knows: that of its last call or, where it looked since, of the
        last entry then. A new chapter leaves it.
        """
        return self._seat.front()

    def take(self) -> Order | None:
        """Takes an order for the first ready row, as an entry. None, and no entry, where no waiting row is ready."""
        slot = self._seat.desk.slot()
        return Order(self._seat.desk, slot) if self._seat.take(slot) else None

    def bring(self, order: Order) -> Verdict:
        """Executes an order, whoever took it, where it isn't executed yet, and brings its result, as an entry."""
        return order._bring(self._seat)

    def look(self) -> Look:
        """Looks at the book as it is. It is no entry, and copies no value. The look before shows no more."""
        return Look(self._seat, self._board, self._library)

    def close(self) -> None:
        """Closes the seat. The history keeps its entries."""
        self._seat.close()


class Desk:
    """A book of the library that threads share by seats, with one history of all their calls.

    It begins, with no entry, at the present state of a machine over the library, which stays as it was. The history has
    at most `limit` entries, where one is given. At the end of a `with`, or by `close`, it is closed. Raises TypeError
    for a machine over a program, ValueError for another limit than 0 to `2^64 - 1`, and MemoryError.
    """

    def __init__(self, machine: Machine, limit: int = MOST_ENTRIES) -> None:
        if not 0 <= limit <= MOST_ENTRIES:
            raise ValueError(f"a history has 0 to 2^64 - 1 entries, and not {limit}")
        book, board = session_of(machine, "Desk")
        with book.lock:
            self._desk = OpenDesk(book, limit)
            self._board = board.copy()
        # Orders that lines took stay with the session, and the profile is chosen.
        self._board.orders, self._board.ordered, self._board.is_begun = 0, {}, True
        self._library = machine.library
        self._names: dict[int, str] = {}
        self._workers = 0
        self._crew = SeatedCrew(self._desk)
        self._leave = weakref.finalize(self, SeatedCrew.leave, self._crew)
        self._leave.atexit = False

    def __enter__(self) -> Desk:
        return self

    def __exit__(self, kind: type[BaseException] | None, error: BaseException | None, at: TracebackType | None) -> None:
        self.close()

    def __repr__(self) -> str:
        closed = "" if self._desk.is_open else ", closed"
        return f"<Desk: {len(self._names)} seat{'s' * (len(self._names) != 1)}{closed}>"

    @property
    def sets(self) -> Mapping[str, tuple[int, ...]]:
        """The declared sets, each with the lengths of its axes, axis 0 first."""
        return MappingProxyType(self._board.sets)

    @property
    def fields(self) -> Mapping[str, Declared]:
        """The declared fields, each with its set and its width."""
        return MappingProxyType(self._board.fields)

    def seat(self, name: str = "") -> Seat:
        """The next seat, of a person of this name. It looks at the book as it is."""
        with self._desk.lock:
            seat = Seat(self._desk, name, self._board, self._library)
            self._names[seat.number] = name
        return seat

    def work(self, workers: int = 1) -> None:
        """Begins so many workers more, 1 to 16: threads that run ready rows from now on, each with a seat of its own.

        Where the history is full they wait for a new chapter. Where there is no memory for a row they end, and `wait`
        raises MemoryError; `work` begins others.
        """
        if workers not in range(1, MOST_WORKERS + 1):
            raise ValueError(f"workers are 1 to {MOST_WORKERS}, and not {workers!r}")
        with self._desk.lock:
            for _ in range(workers):
                self._workers += 1
                name = f"worker {self._workers}"
                seat = OpenSeat(self._desk)
                self._names[seat.number] = name
                self._crew.work(seat, name)

    def wait(self, timeout: float | None = None) -> bool:
        """Waits until no row is ready, and no worker runs one. False where so many seconds are over, or nobody works.

        Then all rows are settled, but for those of orders that seats have out, and those that stand behind them.
        Raises HistoryFull, MemoryError where there was none for a row, and Ended where the desk is closed meanwhile.
        """
        return self._crew.wait(timeout)

    def entries(self, first: int = 1) -> Iterator[Entry]:
        """The entries of the present chapter from a number on, one after another.

        Calls may be made meanwhile: what they add is told too. Raises MemoryError.
        """
        for number in count(first):
            told = self._desk.entry(number)
            if told is None:
                return
            name = self._names.get(told.seat, "")
            yield Entry(number, told.seat, name, told.kind, told.text.removesuffix("\n"))

    def audit(self) -> bool:
        """Makes all events of the present chapter again, from the state at which it begins, and compares the replies.

        It is true: the call checks what no proof says, as that memory holds what was written. Raises MemoryError.
        """
        return self._desk.audit()

    def cut(self) -> int:
        """Begins a new chapter at the present state, with no entry, and says how many the last one had. Seats stay."""
        return self._desk.cut()

    def snapshot(self) -> Machine:
        """A machine over the library with the desk's book, and with no order out. Either leaves the other as it is."""
        with self._desk.lock:
            return machine_over(self._library, self._desk.snapshot(), self._board.copy())

    def close(self) -> None:
        """Closes the desk. Rows that workers run are waited for, and thrown away. What seats look at stays."""
        if self._desk.is_elsewhere:
            return
        self._crew.leave()
        self._desk.close()
        self._crew.end()


def place_of(at: Place) -> int:
    """The number by which the library knows a place; that of no row where it knows none."""
    number = place_number(spelled(at))
    return NO_ROW if number is None else number
