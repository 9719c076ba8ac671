"""The program behind the prompt: what it is told, which commands it accepted, and how it is started again."""

from __future__ import annotations

import time
from collections.abc import Callable, Iterator, Sequence
from contextlib import nullcontext
from pathlib import Path
from typing import TypeVar

from pevudlo.hints.meanings import Where
from pevudlo.lang.board import Board
from pevudlo.lang.replies import (
    NoReply,
    Ok,
    OrderTaken,
    PendingReply,
    Reply,
    RowAdded,
    RowFault,
    Settled,
    Verdict,
    Word,
)
from pevudlo.progress import PROGRESS, Progress, line_of
from pevudlo.running.background import Background
from pevudlo.talk import EDITS, Answer, Peer, Talk
from pevudlo.wire.book import Book
from pevudlo.wire.pipe import Pipe, PipeError

Kind = TypeVar("Kind")


MOST_PATIENCE = 0.3
"""So many seconds a look waits for a row that runs by itself."""


class Stopped(Exception):
    """No program runs. The text says what became of it."""


class OverProgram(Exception):
    """What is wanted is of the library, and a program answers lines."""


def changes(reply: Reply) -> bool:
    """Whether a command of this reply changed the state: a script without the others gives the same one."""
    if isinstance(reply, Verdict):
        return reply.word is Word.KEPT
    return isinstance(reply, (Ok, RowAdded, OrderTaken, Settled))


class Session:
    """A program that is told line by line. `accepted` has the commands that changed its state, and the comments.

    After the program has ended, each call raises Stopped until `start` has been called. `accepted` stays.
    """

    def __init__(self, program: Path | None, workers: int = 2, library: Path | None = None) -> None:
        """`library` is that in which lines are answered; without one it is the program."""
        self.program = program
        self.library = library
        self.workers = workers
        self.background: Background | None = None
        self.accepted: list[str] = []
        self.saved: list[str] = []
        self._board = Board()
        self._talk: Talk | None = None
        # How many commands were accepted before each edit, and what was accepted behind those that were taken back.
        self._marks: list[int] = []
        self._undone: list[list[str]] = []
        self._end = "it was not started"

    @property
    def board(self) -> Board:
        """What is declared, as it was when the program ran last."""
        return self._board

    @property
    def is_running(self) -> bool:
        """Whether a program is there to be told something."""
        return self._talk is not None

    @property
    def is_saved(self) -> bool:
        """Whether a file has all that was accepted."""
        return self.accepted == self.saved

    @property
    def commands(self) -> int:
        """How many commands were accepted and changed the state."""
        return sum(bool(line) and not line.startswith("#") for line in self.accepted)

    def start(self, told: Progress = PROGRESS) -> None:
        """Starts a program, after the end of the one that runs, and tells it all that was accepted.

        Raises Stopped where it can't be started, or ends too.
        """
        self.close()
        try:
            self._talk = Talk(self._peer(), Where.PROMPT)
        except OSError as error:
            self._stop(f"it can't be started: {error.strerror}")
            raise Stopped(self._end) from error
        self._board = board = self._talk.board
        if isinstance(self._talk.peer, Book):
            self.background = Background(self._talk.peer, lambda: board, self.workers)
        self._marks, self._undone = [], []
        with nullcontext() if self.background is None else self.background.without_steps():
            for number, line in enumerate(self.accepted, 1):
                told.at(line_of(number, len(self.accepted)))
                self._retell(line, told)

    def begin(self) -> None:
        """Starts a program to which nothing was told, and forgets the rest. Raises Stopped where none starts."""
        accepted, self.accepted = self.accepted, []
        try:
            self.start()
        except Stopped:
            self.accepted = accepted
            raise
        self.saved = []

    def _peer(self) -> Peer:
        """Who answers lines."""
        if self.library is not None:
            return Book(self.library)
        assert self.program is not None
        return Pipe(self.program, self.workers)

    def interrupt(self) -> None:
        """Ends the program: what it was told last may not be in `accepted`. In the library no further row begins."""
        if self.background is None:
            self._stop("it was interrupted")
        else:
            self.background.crew.stop()

    def undo(self) -> str:
        """Takes the last edit back, and gives its line. Raises IndexError where there is none."""
        line = self._running().undo()
        mark = self._marks.pop()
        self._undone.append(self.accepted[mark:])
        del self.accepted[mark:]
        return line

    def redo(self) -> str:
        """Makes the edit again that was taken back last, and gives its line. Raises IndexError where there is none."""
        line = self._running().redo()
        self._marks.append(len(self.accepted))
        self.accepted += self._undone.pop()
        return line

    def go_on(self) -> None:
        """Rows run by themselves from now on."""
        self._running().crew.start()

    def stop(self) -> None:
        """Rows run by themselves no more."""
        self._running().crew.stop()

    def _running(self) -> Background:
        """What runs rows by themselves. Raises OverProgram where a program answers lines."""
        if self._talk is None:
            raise Stopped(self._end)
        if self.background is None:
            raise OverProgram
        return self.background

    def tell(self, line: str, told: Progress = PROGRESS) -> Answer | None:
        """Tells one line, and keeps it where it was accepted. None for a comment and for an empty line.

        Raises Stopped where no program runs, or where it ends before its reply; the line isn't accepted then.
        """
        self._say_settling(line, told)
        answer = self._asked(lambda talk: talk.tell_causes(line))
        if answer is not None and isinstance(answer.reply, PendingReply) and self._waits_for(answer.reply.row):
            answer = self._asked(lambda talk: talk.tell_causes(line))
        if answer is not None and changes(answer.reply) or line.startswith("#"):
            if answer is not None and line.split(" ")[0] in EDITS:
                self._marks.append(len(self.accepted))
                self._undone.clear()
            self.accepted.append(line)
        return answer

    def _waits_for(self, row: int) -> bool:
        """Waits a moment for a row that runs by itself, and says whether it is settled."""
        background = self.background
        if background is None or not background.crew.is_on:
            return False
        until = time.monotonic() + MOST_PATIENCE
        with background.book.lock:
            while row in background.book.unsettled():
                left = until - time.monotonic()
                if left <= 0:
                    return False
                background.book.news.wait(left)
        return True

    def complete(self) -> None:
        """Notes a `settle` behind rows that ran by themselves, where all are settled: so a script gives the same."""
        background = self.background
        if background is not None and background.crew.ran and self.accepted and self.accepted[-1] != "settle":
            if not background.book.unsettled_count() and self.board.texts:
                self.accepted.append("settle")

    def tell_all(self, lines: Sequence[str], told: Progress = PROGRESS) -> Iterator[tuple[int, Answer]]:
        """Tells the lines of a script, and gives the answers with the lines' numbers. Empty lines are kept too."""
        for number, line in enumerate(lines, 1):
            if not line:
                self.accepted.append(line)
                continue
            told.at(line_of(number, len(lines)))
            answer = self.tell(line, told)
            if answer is not None:
                yield number, answer

    def faults(self) -> tuple[RowFault, ...]:
        """The settled rows that were refused for their data. None where no program runs."""
        return () if self._talk is None else self._asked(Talk.faults)

    def close(self) -> None:
        """Ends the program where one runs."""
        if self._talk is not None:
            self._stop("it was ended")

    def _retell(self, line: str, told: Progress) -> None:
        """Tells a line that was accepted before."""
        self._say_settling(line, told)
        self._asked(lambda talk: talk.tell(line))

    def _say_settling(self, line: str, told: Progress) -> None:
        """Says of a line that settles how many rows wait for it."""
        self._asked(lambda talk: told.settling(line, talk.peer))

    def _asked(self, ask: Callable[[Talk], Kind]) -> Kind:
        """What the program answers. Raises Stopped where none runs, or where it ends before its reply."""
        if self._talk is None:
            raise Stopped(self._end)
        try:
            return ask(self._talk)
        except PipeError as error:
            self._stop(str(error))
            raise Stopped(self._end) from error
        except NoReply as error:
            self._stop(f"it was stopped, since it gave {error}")
            raise Stopped(self._end) from error
        except KeyboardInterrupt:
            if self.background is not None:
                raise
            # The pipe ends its program when a reply is cut short.
            self._stop("it was interrupted")
            raise Stopped(self._end) from None

    def _stop(self, what: str) -> None:
        """Ends the program, and keeps what became of it."""
        talk, self._talk, self._end = self._talk, None, what
        background, self.background = self.background, None
        if background is not None:
            background.close()
        elif talk is not None:
            talk.peer.close()
