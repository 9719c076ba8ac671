"""A talk with the program in which each reply is read, and each refusal is explained by what was declared before."""

from __future__ import annotations

import threading
from collections.abc import Callable, Iterable, Mapping, Sequence
from contextlib import nullcontext
from dataclasses import dataclass, field, replace
from typing import Protocol, TypeVar

from pevudlo.hints.explanation import Explanation, Refusal, explained
from pevudlo.hints.meanings import Where
from pevudlo.interrupts import undisturbed
from pevudlo.lang.board import Board
from pevudlo.lang.causes import causes
from pevudlo.lang.replies import (
    Faults,
    NoReply,
    Ok,
    Refused,
    Reply,
    RowAdded,
    RowFault,
    Settled,
    Values,
    Verdict,
    Word,
    parse,
)

Kind = TypeVar("Kind", bound=Reply)
Told = TypeVar("Told")
KEPT = Verdict(Word.KEPT)

LOOKS = ("show", "list", "faults")
"""The commands that change no row."""

EDITS = ("set", "field", "input", "insert", "delete", "replace")
"""The commands that are edits: each that is accepted counts one."""

MOST_LISTED = 1_000_000
"""Of how many rows it is looked whether they were run."""


@dataclass(frozen=True)
class Answer:
    """A line, the lines of its reply as they came, the reply that they are, and why it is refused where it is.

    `faults` are the rows that are refused for their data, behind a line that ran rows, and behind `faults`; `causes`
    says why, by row. `same` is how many rows the line settled that weren't run, since they would compute again what
    they computed last, and `same_rows` are these in program order, where the program's lists tell which they are.
    """

    line: str
    lines: tuple[str, ...]
    reply: Reply
    explanation: Explanation | None = None
    faults: tuple[RowFault, ...] = ()
    causes: Mapping[int, str] = field(default_factory=dict)
    same: int = 0
    same_rows: tuple[int, ...] = ()


class Peer(Protocol):
    """What a talk is with, and answers lines: a program behind a `Pipe`, or a `Library`."""

    def ask(self, line: str) -> list[str]:
        """The lines of the reply to one line."""

    def close(self) -> int:
        """Ends the talk, and gives its status."""


class Talk:
    """A peer, and the board of what its accepted commands declare. Hints are of where its lines are given."""

    def __init__(self, peer: Peer, where: Where = Where.SCRIPT) -> None:
        self.peer = peer
        self.where = where
        self.board = Board()
        self._lock = threading.RLock()
        self.waiting: set[int] = getattr(peer, "waiting", set())
        self._is_inside = hasattr(peer, "waiting")
        self._edits, self._is_settled, self._listed_left = 0, False, MOST_LISTED

    @property
    def lock(self) -> threading.RLock:
        """What one thread at a time holds: the lock of the peer, where it has one."""
        lock: threading.RLock = getattr(self.peer, "lock", self._lock)
        return lock

    def tell(self, line: str) -> Answer | None:
        """Asks one line. None for an empty line or a comment. Raises as its `ask` does, and NoReply.

        One is asked and noted at a time of all threads, and over the library as a whole before Ctrl-C. A `settle` is no
        edit, and holds nobody up.
        """
        return self._in_turn(line, self._answer)

    def tell_lines(self, line: str) -> list[str]:
        """The lines of the reply to a line, which is told as by `tell`. None for an empty line or a comment."""
        return self._in_turn(line, self._lines)

    def _in_turn(self, line: str, ask: Callable[[str], Told]) -> Told:
        """What comes of asking a line, in a turn."""
        if line == "settle":
            return ask(line)
        me = threading.get_ident()
        try:
            self.waiting.add(me)
            with self.lock:
                if not self._is_inside:
                    return ask(line)
                with undisturbed():
                    return ask(line)
        finally:
            self.waiting.discard(me)

    def tell_edits(self, lines: Iterable[str]) -> list[Reply]:
        """The replies to lines that declare or edit, one after another, as a whole before Ctrl-C.

        Raises ValueError, with nothing told, where another line is among them, and Refusal at the first that is
        refused: those before it are told, and none behind.
        """
        lines = list(lines)
        wrong = next((line for line in lines if line.split(" ")[0] not in EDITS), None)
        if wrong is not None:
            raise ValueError(f"lines that declare or edit are wanted, and {wrong!r} isn't one")
        try:
            self.waiting.add(threading.get_ident())
            with self.lock, undisturbed() if self._is_inside else nullcontext():
                return [self.command(line) for line in lines]
        finally:
            self.waiting.discard(threading.get_ident())

    def settle(self) -> int:
        """Settles all rows, and gives how many ran. Ctrl-C ends the wait, and no more."""
        self._is_settled = True
        ask = getattr(self.peer, "settle_line", None)
        return of_kind(parse(ask() if ask is not None else self.peer.ask("settle")), Settled).count

    def _lines(self, line: str) -> list[str]:
        """Asks one line, and notes its reply."""
        lines = self.peer.ask(line)
        if lines:
            self._note(line, lines, parse(lines))
        return lines

    def _answer(self, line: str) -> Answer | None:
        """As `_lines`, and reads the reply."""
        lines = self.peer.ask(line)
        if not lines:
            return None
        reply = parse(lines)
        explanation = explained(line, reply, self.board, self.where) if isinstance(reply, Refused) else None
        self._note(line, lines, reply)
        return Answer(line, tuple(lines), reply, explanation)

    def tell_causes(self, line: str) -> Answer | None:
        """As `tell`, and looks which rows are refused for their data behind a line that ran some, and why.

        It looks too which rows the line settled and didn't run, as long as the program's lists aren't too many.
        """
        before = self._unsettled() if line.split(" ")[0] in ("settle", "bring") else None
        answer = self.tell(line)
        if answer is None:
            return None
        same, rows = self._same_behind(answer, before)
        answer = replace(answer, same=same, same_rows=rows)
        faults = self._faults_behind(answer)
        return replace(answer, faults=faults, causes=causes(faults, self.board, self.look)) if faults else answer

    def faults(self) -> tuple[RowFault, ...]:
        """The settled rows that were refused for their data, in program order."""
        return of_kind(parse(self.peer.ask("faults")), Faults).faults

    def look(self, key: str, place: str) -> Sequence[int] | None:
        """The numbers of a key at a place, by processor. None where it is pending, or isn't there."""
        reply = parse(self.peer.ask(f"show {key} {place}"))
        return reply.numbers if isinstance(reply, Values) else None

    def command(self, line: str) -> Reply:
        """The reply to a command. Raises Refusal, and ValueError for a line that is none."""
        answer = self.tell(line)
        if answer is None:
            raise ValueError("a command is wanted")
        if answer.explanation is not None:
            raise Refusal(answer.explanation)
        return answer.reply

    def _note(self, line: str, lines: list[str], reply: Reply) -> None:
        """Notes a reply, and on the board what it declares."""
        self.board.note(line, lines[0])
        if isinstance(reply, (Ok, RowAdded)):
            self._edits += line.split(" ", 1)[0] in EDITS
        elif not self._is_settled:
            self._is_settled = isinstance(reply, Settled) or reply == KEPT

    def ask(self, line: str, kind: type[Kind]) -> Kind:
        """The reply to a command, which is of this kind."""
        return of_kind(self.command(line), kind)

    def _rows(self) -> list[str] | None:
        """The rows as `list` has them. None where none was settled so far, or where too many were listed."""
        if not self._is_settled or self._listed_left <= 0:
            return None
        first, *rows = self.peer.ask("list")
        if first != f"rows {len(rows)}":
            raise NoReply(f"no list: {first[:80]!r}")
        self._listed_left -= len(rows)
        return rows

    def _unsettled(self) -> tuple[int, ...] | None:
        """The rows that are unsettled, where they are listed."""
        rows = self._rows()
        return None if rows is None else ids_of(row for row in rows if row.split(" ", 4)[3] != "settled")

    def _same_behind(self, answer: Answer, before: tuple[int, ...] | None) -> tuple[int, tuple[int, ...]]:
        """How many rows a line settled without a run, and which, where that is known. `before` were unsettled then.

        Behind an edit these are settled rows of its edition. Behind a `settle` they are all that it didn't run.
        """
        word, *words = answer.line.split(" ")
        if word in EDITS and isinstance(answer.reply, (Ok, RowAdded)):
            mark = f"edition {self._edits} settled "
            same = ids_of(row for row in self._rows() or () if row.partition(" ")[2].startswith(mark))
            return len(same), same
        if before is None:
            return 0, ()
        if isinstance(answer.reply, Settled):
            return len(before) - answer.reply.count, () if answer.reply.count else before
        if answer.reply == KEPT:
            after = self._unsettled()
            ran = self.board.ordered[int(words[0])]
            same = tuple(row for row in before if after is not None and row not in (ran, *after))
            return len(same), same
        return 0, ()

    def _faults_behind(self, answer: Answer) -> tuple[RowFault, ...]:
        """The rows that are refused for their data behind a line that ran rows. After `bring` it is the one it ran."""
        if isinstance(answer.reply, Faults):
            return answer.reply.faults
        if isinstance(answer.reply, Settled):
            return self.faults()
        if answer.reply == KEPT:
            row = self.board.ordered[int(answer.line.split(" ")[1])]
            return tuple(fault for fault in self.faults() if fault.row == row)
        return ()


def ids_of(rows: Iterable[str]) -> tuple[int, ...]:
    """The ids of rows as `list` has them."""
    return tuple(int(row.partition(" ")[0]) for row in rows)


def of_kind(reply: Reply, kind: type[Kind]) -> Kind:
    """The reply, which is of this kind. Raises NoReply where it isn't."""
    if not isinstance(reply, kind):
        raise NoReply(f"a reply of another kind: {reply}")
    return reply
