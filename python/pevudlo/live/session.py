"""A program that is edited on a page: its rows as tabs know them, the commands that it took, and who waits for news.

All tabs see one session. Every call is safe from any thread: one edit is made at a time, and what a tab is told is of
one moment.
"""

from __future__ import annotations

import threading
import time
from collections import deque
from collections.abc import Iterator, Sequence
from contextlib import contextmanager
from dataclasses import dataclass
from math import prod
from pathlib import Path

from pevudlo.hints.explanation import Explanation
from pevudlo.hints.meanings import Where
from pevudlo.lang.board import Board
from pevudlo.lang.causes import causes
from pevudlo.lang.keys import axes_of, width_of
from pevudlo.lang.profiles import WORD
from pevudlo.lang.replies import Faults, Refused, Reply, Row, parse
from pevudlo.client import pieces
from pevudlo.client.ledger import Ledger
from pevudlo.client.news import News, said, shortened
from pevudlo.progress import Progress, progress
from pevudlo.record.looks import Looker
from pevudlo.running.background import Background
from pevudlo.running.history import MOST_STEPS
from pevudlo.talk import Talk
from pevudlo.values.shaped import Pending
from pevudlo.wire.book import Book
from pevudlo.wire.pipe import is_comment

KEPT_STEPS = 60
"""How many commands are shown with their replies."""

MOST_LOOKS = 512
"""So many values are given at once."""

Given = tuple[Sequence[int], int, bool, Sequence[int] | None]
"""Numbers of a value, their width, whether they are wanted in stretches, and what they were before the last edit."""

CHANGING = ("paris", "set", "field", "input", "insert", "delete", "replace", "take", "bring", "release", "settle")


class OtherRow(Exception):
    """A row isn't what it was when its edit began. `text` is its present instruction, None where the row is gone.

    `mine` is the instruction that it was to get.
    """

    def __init__(self, row: int, text: str | None, mine: str = "") -> None:
        super().__init__(row, text)
        self.row = row
        self.text = text
        self.mine = mine


class Stopped(Exception):
    """The program has ended. It can be started again."""


@dataclass(frozen=True)
class Step:
    """A command, the lines of its reply, the reply that they are, and why it was refused where it was.

    `number` is that of its line, where it is of a script.
    """

    text: str
    lines: tuple[str, ...]
    reply: Reply
    explanation: Explanation | None = None
    number: int = 0

    @property
    def word(self) -> str:
        """The first word of the command."""
        return self.text.split(" ")[0]

    @property
    def is_refused(self) -> bool:
        """Whether the reply is a refusal."""
        return isinstance(self.reply, Refused)


@dataclass(frozen=True)
class Look:
    """A value that a tab wants: what a row left of a key, row 0 being the start. `is_strip` has it summed up.

    `which` is NOW, BEFORE for what it was before the last edit, or COMPARED for what it is now with what has changed.
    """

    key: str
    row: int
    is_strip: bool
    which: int


NOW, BEFORE, COMPARED = range(3)


class Session:
    """One program and what is known of it. `version` rises with each change, and `edits` with each edit.

    `number` counts the texts of a file that is followed, and is 0 without one. `line` is the last edit. `book` is the
    session of the library whose rows these are, and `before` the program before the last edit, where it is kept.
    """

    kept_edits = MOST_STEPS
    """How many edits are kept to be taken back."""

    def __init__(self, library: Path, workers: int = 2, is_quiet: bool = True) -> None:
        """`is_quiet` says that a terminal isn't told how far a command is."""
        self.lock = threading.RLock()
        self.version = 1
        self.number = self.edits = 0
        self.trouble = self.line = ""
        self.taken: list[str] = []
        self.steps: deque[tuple[int, Step]] = deque(maxlen=KEPT_STEPS)
        self.told = 0
        self.ledger = Ledger()
        self._library, self._workers, self._is_quiet = library, workers, is_quiet
        self._news = threading.Condition()
        self._closed, self._faults_seen = False, 0
        self.before: Book | None = None
        self._begin()

    @property
    def rows(self) -> tuple[Row, ...]:
        """The rows as the program lists them."""
        self._lister.changed()
        return self._lister.rows()

    @property
    def board(self) -> Board:
        """What is declared."""
        return self._talk.board

    # What is done.

    def run(self, line: str, was: str | None = None) -> Step:
        """Hands one command to the library. `was` is the instruction that its row had for who wrote the command.

        Raises ValueError for no command, Stopped where the program has ended, and OtherRow where the row is another.
        """
        raise NotImplementedError

    def _check_row(self, line: str, was: str | None) -> None:
        """Raises OtherRow where the row of a command isn't what it was for who wrote it."""
        row = line.split(" ")[1] if was is not None and " " in line else ""
        if row.isascii() and row.isdigit() and len(row) < 20 and int(row):
            text = self.board.texts.get(int(row))
            if text != was:
                mine = line.split(" ", 2)[2] if line.startswith("replace ") and line.count(" ") > 1 else ""
                raise OtherRow(int(row), text, mine)

    @property
    def commands(self) -> int:
        """How many commands the program took."""
        return sum(not is_comment(line) for line in self.taken)

    def script(self) -> str:
        """The accepted commands as a script."""
        with self.lock:
            return "".join(f"{line}\n" for line in self.taken)

    def restart(self) -> None:
        """Starts the program again. Raises ValueError where there is none that could end."""
        raise NotImplementedError

    # What tabs are told.

    def changed(self) -> None:
        """Tells all who wait that there is something new."""
        with self._news:
            self.version += 1
            self._news.notify_all()

    def wait(self, seen: int, seconds: float) -> int:
        """Waits until the version isn't the one that was seen, or until the time is over. Gives the version."""
        until = time.monotonic() + seconds
        with self._news:
            while self.version == seen and not self._closed:
                left = until - time.monotonic()
                if left <= 0:
                    break
                self._news.wait(left)
            return self.version

    def refresh(self) -> bool:
        """Sees which rows are settled by now. Whether some others were before. The lock is held."""
        return False

    def wait_for_small(self) -> None:
        """Gives rows that are done at once their time, so that what they left is told with the edit."""

    def extra(self) -> dict[str, object]:
        """What is told of this kind of session beside its rows."""
        return {}

    def see_rows(self) -> None:
        """Lists the rows, for who is told of them. The lock is held, and `changed` is called behind it."""
        self.ledger.see(self.rows, self.version + 1)
        self.see_faults()

    def see_faults(self) -> bool:
        """Sees which rows are refused for their data. Whether they were others before."""
        reply = parse(self.book.ask("faults"))
        found = reply.faults if isinstance(reply, Faults) else ()
        known, ledger = set(self.ledger.faults), self.ledger
        others = tuple(fault for fault in found if fault not in known or self._is_touched(fault.row))
        self._faults_seen = self.version + 1
        if not others and len(found) == len(known):
            return False
        words = ledger.causes | causes(others, self.board, self._talk.look)
        return ledger.refuse(found, {fault.row: words[fault.row] for fault in found}, self.version + 1)

    def _is_touched(self, row: int) -> bool:
        """Whether a row was touched since faults were looked at last."""
        known = self.ledger.rows.get(row)
        return known is None or known.touched > self._faults_seen

    def looks(self, wanted: Sequence[Look], seen: int, edits: int) -> Iterator[bytes]:
        """Values, for a tab that has seen a version behind so many edits. Edits come between two of them."""
        for look in wanted[:MOST_LOOKS]:
            with self.lock:
                found = self._look(look, seen, edits)
            yield pieces.packed(*found) if isinstance(found, tuple) else found

    def _look(self, look: Look, seen: int, edits: int) -> Given | bytes:
        """One value, or why there is none. The lock is held."""
        if self.board.axes_of(look.key) is None or (look.row and look.row not in self.ledger.rows):
            return pieces.empty(pieces.Kind.NONE)
        before = self.before if edits == self.edits else None
        if look.which == BEFORE:
            return pieces.empty(pieces.Kind.NONE) if before is None else self._value(before, look, None)
        if not self.ledger.is_current(look.key, look.row, seen):
            return pieces.empty(pieces.Kind.OTHER)
        return self._value(self.book, look, before if look.which == COMPARED else None)

    def _value(self, book: Book, look: Look, before: Book | None) -> Given | bytes:
        """What a row left of a key, beside what it was before, or why there is nothing. A large value is summed up."""
        count, width = prod(axes_of(self.board, look.key)), width_of(self.board, look.key)
        if look.is_strip and count > pieces.STRETCHES:
            return self._strip(book, look, before)
        now = self._numbers(book, look)
        if now is None or isinstance(now, int):
            return pieces.empty(pieces.Kind.NONE if now is None else pieces.Kind.PENDING)
        was = None if before is None else self._numbers(before, look)
        return now, width, look.is_strip, None if isinstance(was, int) else was

    def _strip(self, book: Book, look: Look, before: Book | None) -> bytes:
        """A large value in stretches, by the library, or why there is nothing."""
        count, width = prod(axes_of(self.board, look.key)), width_of(self.board, look.key)
        found = book.summary(look.key, pieces.STRETCHES, look.row)
        if found is None or isinstance(found, Pending):
            return pieces.empty(pieces.Kind.NONE if found is None else pieces.Kind.PENDING)
        return pieces.summed(found, width, count, None if before is None else differing(book, before, look))

    def _numbers(self, book: Book, look: Look) -> Sequence[int] | int | None:
        """What a row left of a key, the row that it waits for, or None where there is nothing."""
        count, is_wide = prod(axes_of(self.board, look.key)), width_of(self.board, look.key) > WORD
        return book.look(look.key, look.row, count, is_wide)

    def state(self, seen: int) -> News:
        """What a tab that has seen a version wants to know: 0 is none."""
        with self.lock:
            if not self.trouble:
                self.refresh()
            news: News = {"since": seen, "version": self.version, "edits": self.edits, "line": shortened(self.line)}
            news |= self.ledger.since(seen) | self.extra()
            if self.ledger.declared > seen or not seen:
                board = self.board
                news["sets"] = {name: list(axes) for name, axes in board.sets.items()}
                news["fields"] = [[name, field.set, field.width] for name, field in board.fields.items()]
            news["log"] = [
                said(step.number, step.text, step.lines, step.explanation)
                for version, step in self.steps
                if version > seen
            ]
            return news | {"trouble": self.trouble, "text": self.number}

    def note(self, step: Step) -> None:
        """Notes a command for the log of the page. The lock is held, and `changed` is called behind it."""
        self.told += 1
        self.steps.append((self.version + 1, step))
        if step.word in ("set", "field", "paris"):
            self.ledger.declared = self.version + 1

    @property
    def is_closed(self) -> bool:
        """Whether the session is over."""
        return self._closed

    def close(self) -> None:
        """Ends the work, and wakes all who wait."""
        self._closed = True
        with self._news:
            self._news.notify_all()
        self._end()

    @contextmanager
    def _telling(self, where: str) -> Iterator[Progress]:
        """Says on a terminal what is being done, while it is done."""
        with progress(self._is_quiet) as told:
            told.at(where)
            yield told

    # What runs the rows.

    def _begin(self) -> None:
        """Begins a program with nothing declared, whose rows run in the workers."""
        self.book = Book(self._library)
        talk = self._talk = Talk(self.book, Where.LIVE)
        self._lister = Looker(self.book, talk.board)
        self.background = Background(self.book, lambda: talk.board, self._workers, self.kept_edits)

    def _end(self) -> None:
        """Ends what runs the rows."""
        self.background.close()


def differing(book: Book, before: Book, look: Look) -> list[bool] | None:
    """In which stretches a value is other than in an earlier book. None where it was none there, or another kind."""
    try:
        found = book.differs(before, look.key, pieces.STRETCHES, look.row)
    except ValueError:
        return None
    return found if isinstance(found, list) else None
