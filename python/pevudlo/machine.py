"""A machine: one session, with its commands as calls. No number comes from anywhere but its replies."""

from __future__ import annotations

import os
import warnings
from collections.abc import Iterator, Mapping, Sequence
from contextlib import AbstractContextManager
from pathlib import Path
from threading import get_ident
from types import MappingProxyType, TracebackType
from typing import SupportsIndex, overload

from pevudlo.data import data_of
from pevudlo.editing import Editing
from pevudlo.lang.board import Board, Declared
from pevudlo.lang.causes import MOST_WARNED, RefusedRows, causes
from pevudlo.lang.places import END, Place, spelled
from pevudlo.lang.profiles import USUAL, check_profile
from pevudlo.lang.replies import (
    Nothing,
    Ok,
    OrderTaken,
    Row,
    RowFault,
    Rows,
    Status,
    Verdict,
)
from pevudlo.running.background import Background, Touched
from pevudlo.running.crew import News, Progress
from pevudlo.running.history import MOST_STEPS
from pevudlo.summary import summary
from pevudlo.talk import Talk, of_kind
from pevudlo.values.indices import Index, shown_part, split
from pevudlo.values.notebook import rows_html
from pevudlo.values.shaped import Pending, Shown, shaped
from pevudlo.wire.book import Book
from pevudlo.wire.library_calls import place_number
from pevudlo.wire.library_places import find_library
from pevudlo.wire.pipe import Pipe, PipeError
from pevudlo.wire.program import find


A_MOMENT = 0.1
"""Seconds that a machine's text waits at most for a call that is under way."""

MOST_LISTED = 4_096
"""Of so many rows at most a program is asked which are unsettled, for a machine's text."""


class RowList(tuple[Row, ...]):
    """Rows in program order. `refused` has the ids of those that are refused for their data."""

    refused: frozenset[int] = frozenset()

    def _repr_html_(self) -> str:
        """A table of the rows with their states."""
        return rows_html(self, self.refused)


class Machine(Editing):
    """One run of the program. Every call is a command of scripts, and raises Refusal where the command is refused.

    The program is found by `find`, which raises NotFound. It settles rows in 1 to 16 workers, 2 where nothing is said;
    other counts are ValueErrors. Calls raise Ended and OutOfTurn where the program is gone. At the end of a `with`, or
    by `close`, the program ends.

    With `library=True`, or a library's path, it is a session of the library in this process, found by `find_library`.
    Numbers go in and out as arrays, and threads may share it. Rows run in the background where `start` was called, in
    1 to 16 `workers`, 1 where nothing is said. `steps` says how many edits can be taken back: 100 where `workers` are
    given, else none. `undo_bytes` is how many bytes they may take, about: a quarter of the machine's memory where
    nothing is said.

    With `profile=2` fields have up to 128 bits, else up to 64. Any other profile than 1 and 2 is a ValueError.
    """

    def __init__(
        self,
        program: str | os.PathLike[str] | None = None,
        workers: int | None = None,
        library: bool | str | os.PathLike[str] = False,
        profile: int = USUAL,
        steps: int | None = None,
        undo_bytes: int | None = None,
    ) -> None:
        self.program: Path | None = None
        self.library: Path | None = None
        self._background: Background | None = None
        check_profile(profile)
        if workers is not None and workers not in range(1, 17):
            raise ValueError(f"workers are 1 to 16, and not {workers!r}")
        if library is False:
            self._start(program, 2 if workers is None else workers)
        elif program is not None:
            raise ValueError("a machine is over a program or over the library, and not over both")
        else:
            kept = (0 if workers is None else MOST_STEPS) if steps is None else steps
            self._open(None if library is True else library, profile, workers or 1, kept, undo_bytes)
        if library is False and profile != USUAL:
            self._talk.ask(f"paris {profile}", Ok)

    def _start(self, program: str | os.PathLike[str] | None, workers: int) -> None:
        """Starts a program."""
        self.program = find(program)
        self._talk = Talk(Pipe(self.program, workers))
        self._data = data_of(self._talk)

    def _open(
        self, path: str | os.PathLike[str] | None, profile: int, workers: int, steps: int, undo_bytes: int | None
    ) -> None:
        """Opens a session of the library in a profile. In another one than the usual no line of it chooses one."""
        self.library = find_library(path)
        is_chosen = profile != USUAL
        book = Book(self.library, profile if is_chosen else None)
        self._hold(book, Board(profile=profile, is_begun=is_chosen), workers, steps, undo_bytes)

    def _hold(self, book: Book, board: Board, workers: int, steps: int, undo_bytes: int | None) -> None:
        """Takes a session of the library, of which this board is."""
        talk = self._talk = Talk(book)
        talk.board = board
        self._data = data_of(talk)
        self._background = Background(book, lambda: talk.board, workers, steps, undo_bytes)

    def __enter__(self) -> Machine:
        return self

    def __exit__(self, kind: type[BaseException] | None, error: BaseException | None, at: TracebackType | None) -> None:
        self.close()

    def __repr__(self) -> str:
        """Its sets, fields and rows, and which rows are unsettled where no call is under way. It raises nothing."""
        try:
            state, unsettled = self._state()
            where = "the library" if self.program is None else "a program"
            return summary(f"{where}{state}", self._board, unsettled)
        except Exception:
            # It couldn't be made: the names that are asked for aren't there.
            return "<Machine>"

    def _state(self) -> tuple[str, tuple[int, ...] | None]:
        """What keeps the machine from an answer, or nothing, and which rows are unsettled where that is known."""
        peer = self._talk.peer
        if not isinstance(peer, (Pipe, Book)) or peer.is_elsewhere:
            return ", of another process", None
        try:
            self._talk.waiting.add(get_ident())
            is_free = peer.is_open and peer.lock.acquire(timeout=A_MOMENT)
        finally:
            self._talk.waiting.discard(get_ident())
        try:
            unsettled = self._unsettled_of(peer) if is_free else None
        except (PipeError, RuntimeError, MemoryError):
            unsettled = None
        finally:
            if is_free:
                peer.lock.release()
        return "" if peer.is_open else ", closed", unsettled

    def _unsettled_of(self, peer: Pipe | Book) -> tuple[int, ...] | None:
        """The ids of the unsettled rows. None where a program would be long about it."""
        if isinstance(peer, Book):
            return peer.unsettled()
        if peer.is_owed or len(self._board.texts) > MOST_LISTED:
            return None
        rows = self._talk.ask("list", Rows).rows
        return tuple(row.row for row in rows if row.status is not Status.SETTLED)

    def close(self) -> int:
        """Ends the session, and gives its exit status: 1 where a command was refused, else 0.

        Rows that run in the background are waited for.
        """
        return self._talk.peer.close() if self._background is None else self._background.close()

    @property
    def sets(self) -> Mapping[str, tuple[int, ...]]:
        """The declared sets, each with the lengths of its axes, axis 0 first."""
        return MappingProxyType(self._board.sets)

    @property
    def fields(self) -> Mapping[str, Declared]:
        """The declared fields, each with its set and its width."""
        return MappingProxyType(self._board.fields)

    @property
    def profile(self) -> int:
        """The profile: 1, or 2, where it was made in that, or where its first command was `paris 2`."""
        return self._board.profile

    @property
    def process(self) -> int:
        """The child's process id. Raises AttributeError over the library, which has no child."""
        if not isinstance(self._talk.peer, Pipe):
            raise AttributeError("a machine over the library has no child process")
        return self._talk.peer.process

    def settle(self) -> int:
        """Settles all rows, and says how many of them ran: rows that would compute the same again aren't run.

        Where rows ran and some are refused for their data, a warning RefusedRows names them, once for the settle.
        Ctrl-C leaves what is settled. Over the library no further row begins then; a program settles on, and the next
        call waits for its end. Where another thread calls `stop`, it says how many ran until then.
        """
        count = self._talk.settle() if self._background is None else self._background.settle()
        faults = self.faults() if count else ()
        if faults:
            words = causes(faults[:MOST_WARNED], self._board, self._look)
            warnings.warn(RefusedRows(faults, words), stacklevel=2)
        return count

    def take(self) -> OrderTaken | None:
        """Takes an order for the first ready row. None where no waiting row is ready."""
        reply = self._talk.command("take")
        return None if isinstance(reply, Nothing) else of_kind(reply, OrderTaken)

    def bring(self, order: int | OrderTaken) -> Verdict:
        """Executes an order, and brings its result: the verdict says what became of it.

        It warns of nothing. Where it is kept and the row is refused for its data, `faults` has the row.
        """
        return self._talk.ask(f"bring {order.order if isinstance(order, OrderTaken) else order}", Verdict)

    def rows(self) -> RowList:
        """The rows in program order."""
        with self._talk.lock:
            rows = RowList(self._talk.ask("list", Rows).rows)
            rows.refused = frozenset(fault.row for fault in self.faults())
        return rows

    def faults(self) -> tuple[RowFault, ...]:
        """The settled rows that were refused for their data when they ran, in program order. Each stores nothing."""
        return self._talk.faults()

    def causes(self) -> dict[int, str]:
        """Why the rows of `faults` are refused for their data, in words, by their ids in program order.

        The bad addresses of the first twelve are looked at; of others the processor alone is named.
        """
        return causes(self.faults(), self._board, self._look)

    @overload
    def __getitem__(self, index: str) -> Shown | Pending:
        ...

    @overload
    def __getitem__(self, index: tuple[str, SupportsIndex]) -> int | Pending:
        ...

    @overload
    def __getitem__(self, index: tuple[str, slice]) -> Shown | list[int] | Pending:
        ...

    def __getitem__(self, index: Index) -> int | Shown | list[int] | Pending:
        """The numbers of a key at the end of the program.

        `machine["a"]` are all of them, `machine["a", 3:]` those from a processor on, one after another, and
        `machine["a", 3]` is one. Raises IndexError where the set has no such processor, ValueError for a step, and
        TypeError for another index.
        """
        key, part = split(index)
        grid = self._grid(key, END)
        if isinstance(grid, Pending):
            return grid
        return shaped(grid) if part is None else shown_part(grid, part)

    # While rows run. These are of machines over the library alone.

    def start(self) -> None:
        """Ready rows run from now on, in the machine's workers. Every call may be made meanwhile."""
        self._inside("start").crew.start()

    def stop(self) -> None:
        """No further row begins, for a settle neither. The rows that run are waited for, and kept where they are of the
        present program.
        """
        self._inside("stop").crew.stop()

    def wait(self, timeout: float | None = None) -> bool:
        """Waits until every row is settled. False where so many seconds are over, or where no result may come any more:
        nothing runs, or all that is left was taken by hand.

        Ctrl-C ends the wait alone. Raises MemoryError where there was none for a row; `start` tries it again. Raises
        Ended where the machine is closed meanwhile.
        """
        return self._inside("wait").crew.wait(timeout)

    @property
    def progress(self) -> Progress:
        """How many rows are settled, of how many."""
        return self._inside("progress").progress

    def news(self, timeout: float | None = None) -> Iterator[News]:
        """The results that came in the background, one after another: what isn't kept is thrown away, and `word` says
        why.

        It ends where all rows are settled, where no result may come any more, or where none comes in so many seconds.
        It raises as `wait` does. Of sets of at most 1,024 processors many rows are run at once, of which there are no
        news.
        """
        return self._inside("news").news(timeout)

    def undo(self) -> str:
        """Takes the last edit back, with the results that were there before it, and gives its line.

        Raises IndexError where there is none.
        """
        return self._inside("undo").undo()

    def redo(self) -> str:
        """Makes the edit again that was taken back last, and gives its line. Raises IndexError where there is none."""
        return self._inside("redo").redo()

    def copy(self) -> Machine:
        """Another machine in the same state, with no orders out and no steps. They share values in memory."""
        inside = self._inside("copy")
        with self._talk.lock:
            book, board, most_bytes = inside.book.copy(), self._board.copy(), inside.history.most_bytes
            return machine_over(self.library, book, board, inside.workers, inside.steps, most_bytes)

    def unsettled(self) -> tuple[int, ...]:
        """The ids of the rows that are unsettled, in program order."""
        return self._inside("unsettled").book.unsettled()

    def touching(self) -> AbstractContextManager[Touched]:
        """Within a `with`, notes which rows the edits there unsettle: they are its `rows` behind it.

        No result of a row comes meanwhile.
        """
        return self._inside("touching").touching()

    def origin(self, key: str, at: Place = END) -> int | None:
        """The row that gives a key its value at a place, or None where that is the start."""
        number = place_number(spelled(at))
        row = None if number is None else self._inside("origin").book.origin(key, number)
        if row is None:
            self._talk.command(f"show {key} {spelled(at)}")
        return row or None

    def settle_for(self, key: str, at: Place = END) -> int:
        """Runs the unsettled rows that the value of a key at a place stands on and no others, and says how many ran.

        It runs them in this thread, and other calls wait.
        """
        return len(self.run_for(key, at))

    def run_for(self, key: str, at: Place = END) -> tuple[int, ...]:
        """Runs rows as `settle_for` does, and gives the ids of those that ran, in program order.

        The others were cut off.
        """
        number = place_number(spelled(at))
        ran = None if number is None else self._inside("run_for").book.settle_for(key, number)
        if ran is None:
            self._talk.command(f"show {key} {spelled(at)}")
        return tuple(ran or ())

    def _inside(self, call: str) -> Background:
        """The workers and steps of a machine over the library. Raises TypeError over a program."""
        if self._background is None:
            raise TypeError(f"`{call}` is of machines over the library alone: Machine(library=True)")
        return self._background

    def _look(self, key: str, place: str) -> Sequence[int] | None:
        """The numbers of a key at a place as they come, or None where it is pending."""
        numbers = self._data.look(key, place)
        return None if isinstance(numbers, Pending) else numbers


def machine_over(
    library: Path | None, book: Book, board: Board, workers: int = 1, steps: int = 0, undo_bytes: int | None = None
) -> Machine:
    """A machine over a session of the library at a path, of which this board is."""
    machine = Machine.__new__(Machine)
    machine.program, machine.library = None, library
    machine._hold(book, board, workers, steps, undo_bytes)
    return machine


def session_of(machine: Machine, call: str) -> tuple[Book, Board]:
    """The session of a machine over the library, and its board, for a call. Raises TypeError over a program."""
    return machine._inside(call).book, machine._board
