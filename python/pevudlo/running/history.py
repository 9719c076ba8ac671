"""Edits of a book that are taken back and made again, by snapshots of what was before them.

Steps are as many as are wanted, and take as many bytes as they may, about: what a snapshot alone holds isn't told by
the library. So it is added up what the rows hold that ran between two edits, by the widths and the processors of the
keys that they write. A row that was run while it had been unsettled for longer than the last edit counts with what it
names, too: its last result may have kept numbers that nobody else has any more.
"""

from __future__ import annotations

from collections.abc import Callable, Iterable
from dataclasses import dataclass
from heapq import nlargest

from pevudlo.lang.board import Board, Replaced
from pevudlo.running.held import Sizes, bytes_text, usual_bytes
from pevudlo.wire.book import Book
from pevudlo.wire.library import Held

MOST_STEPS = 100

STEP, STEP_ROW = 12_000, 192
"""The bytes of a snapshot, and of what it keeps of each row beside its result."""

DECLARING = ("set ", "field ")

PARTS = 64
"""Where rows that ran may hold more than one of so many parts of what steps may take, it is looked which they are."""


@dataclass
class Step:
    """An edit: its line, its reply, what it took away, and the session before it; once it is taken back, behind it.

    `behind` are the bytes that the session before it holds alone, about, and `ahead` those of the one behind it.
    """

    line: str
    reply: str
    replaced: Replaced
    held: Held
    orders: int
    is_begun: bool
    behind: int = 0
    ahead: int = 0

    @property
    def most(self) -> int:
        """The greater one of both."""
        return max(self.behind, self.ahead)


class NothingThere(IndexError):
    """There is no edit to take back, or to make again."""


class History:
    """The steps of a book, the last one last. `board` says what is declared, and goes with them.

    `most_bytes` is how many bytes they take at most. `has_dropped` says that some went since they took more.
    """

    def __init__(
        self, book: Book, board: Callable[[], Board], most: int = MOST_STEPS, most_bytes: int | None = None
    ) -> None:
        self._book, self._board, self._most = book, board, most
        self.most_bytes = usual_bytes() if most_bytes is None else most_bytes
        self.done: list[Step] = []
        self.undone: list[Step] = []
        self.has_dropped = False
        self._sizes = Sizes(board)
        # No fewer bytes than steps take, whether they are taken back or made again.
        self._at_most = 0
        # How many rows had run when it was looked last, which were unsettled then, and which before the last edit.
        self._ran = 0
        self._unsettled = self._waited = b""
        # Rows of which it is known that they have had no result.
        self._new = set[int]()

    @property
    def bytes(self) -> int:
        """How many bytes the steps take, about."""
        return sum([step.behind for step in self.done]) + sum([step.ahead for step in self.undone])

    def keep(self, line: str) -> Callable[[str], None] | None:
        """Keeps the session before an edit; what it gives makes a step of it. None where there is no memory for one."""
        self.look()
        held, board = self._snapshot(), self._board()
        if held is None:
            self.clear()
            return None
        step = Step(line, "", board.replaced_by(line), held, board.orders, board.is_begun)
        step.behind = step.ahead = STEP + STEP_ROW * len(board.texts) + len(line) + self._taken_away(step)

        def made(reply: str) -> None:
            step.reply = reply
            self.undone.clear()
            self.done.append(step)
            del self.done[: -self._most]
            self._at_most += step.behind
            self._see(step)
            self.trim()

        return made

    def begin(self) -> None:
        """Forgets all steps: what is there now can't be taken back."""
        self.clear()
        self._sizes.forget()
        self._ran = self._book.ran
        self._waited = self._unsettled = self._book.unsettled_words()
        has_results = self._book.is_copy or self._ran
        self._new = set() if has_results else set(ids_in(self._unsettled))

    def _taken_away(self, step: Step) -> int:
        """The bytes of what an edit itself gives anew, or takes out."""
        if step.line.startswith("input "):
            return self._sizes.key(step.line.split(" ", 2)[1])
        text = step.replaced.text
        return self._sizes.written(text) + self._sizes.named(text) if text else 0

    def _see(self, step: Step) -> None:
        """Sees which rows an edit has left unsettled, and which has no result."""
        if step.line.startswith(DECLARING):
            self._sizes.forget()
        elif step.line.startswith("insert "):
            self._new.add(int(step.reply.split(" ")[1]))
        elif step.line.startswith("replace "):
            self._new.add(int(step.line.split(" ")[1]))
        self._waited, self._unsettled = self._unsettled, self._book.unsettled_words()

    def look(self) -> None:
        """Looks which rows ran since it was looked last, for the steps at both sides of the present program."""
        count = self._book.ran - self._ran
        if not count:
            return
        before, self._unsettled = self._unsettled, self._book.unsettled_words()
        self._ran = self._book.ran
        settled = set(ids_in(before)).difference(ids_in(self._unsettled))
        again, texts = settled - self._new, self._board().texts
        waited = {row: self._sizes.named(texts[row]) for row in again.intersection(ids_in(self._waited)) & texts.keys()}
        behind = greatest(count, (self._result(row) + waited.get(row, 0) for row in again))
        ahead = greatest(count, map(self._result, settled))
        if self.done:
            self.done[-1].behind += behind
            self.done[-1].ahead += ahead
        if self.undone:
            self.undone[-1].ahead += behind
        self._at_most += 2 * behind + ahead
        self._new -= settled

    def _result(self, row: int) -> int:
        """The bytes of a row's result."""
        text = self._board().texts.get(row)
        return self._sizes.greatest if text is None else self._sizes.written(text)

    def look_and_trim(self) -> None:
        """Behind rows that ran: where they may hold much, steps go that take too much."""
        if (self._book.ran - self._ran) * self._sizes.greatest > self.most_bytes // PARTS:
            self.look()
            self.trim()

    def trim(self) -> None:
        """Drops the oldest steps while all take too much, then those that would be made again last."""
        if self._at_most <= self.most_bytes:
            return
        while self.bytes > self.most_bytes and (self.done or self.undone):
            del (self.done or self.undone)[0]
            self.has_dropped = True
        self._at_most = sum([step.most for step in self.done + self.undone])

    def undo(self) -> Step:
        """Takes the last edit back, with the results that were there before it. Raises NothingThere."""
        with self._book.lock:
            step = self._last(self.done, "undo")
            board = self._board()
            self._go(step, board)
            board.take_back(step.line, step.reply, step.replaced)
            self.undone.append(self.done.pop())
            self._come(step)
            return step

    def redo(self) -> Step:
        """Makes the edit again that was taken back last. Raises NothingThere."""
        with self._book.lock:
            step = self._last(self.undone, "redo")
            board = self._board()
            self._go(step, board)
            board.note(step.line, step.reply)
            self.done.append(self.undone.pop())
            self._come(step)
            return step

    def clear(self) -> None:
        """Forgets all steps."""
        self.done.clear()
        self.undone.clear()
        self.has_dropped, self._at_most = False, 0

    def _go(self, step: Step, board: Board) -> None:
        """Puts the session of a step in the place of the present one."""
        self.look()
        self._book.exchange(step.held)
        board.orders, step.orders = step.orders, board.orders
        board.is_begun, step.is_begun = step.is_begun, board.is_begun

    def _come(self, step: Step) -> None:
        """Sees what is unsettled in the session of a step, which has come in the place of another."""
        if step.line.startswith(DECLARING):
            self._sizes.forget()
        elif step.line.startswith("replace "):
            # (the instruction that is there again may have a result)
            self._new.discard(int(step.line.split(" ")[1]))
        self._waited = self._unsettled = self._book.unsettled_words()

    def _snapshot(self) -> Held | None:
        """A snapshot. Where there is no memory for it, the oldest steps are dropped."""
        while True:
            try:
                return self._book.snapshot()
            except MemoryError:
                if not self.done:
                    return None
                del self.done[0]

    def _last(self, steps: list[Step], what: str) -> Step:
        """The last step. Raises NothingThere."""
        if not steps:
            more = f": older steps took more than {bytes_text(self.most_bytes)} of memory" if self.has_dropped else ""
            raise NothingThere(f"there is nothing to {what}{more}")
        return steps[-1]


def ids_in(words: bytes) -> list[int]:
    """The ids of rows that words in memory are."""
    return memoryview(words).cast("Q").tolist()


def greatest(count: int, sizes: Iterable[int]) -> int:
    """The sum of so many of the greatest sizes."""
    listed = list(sizes)
    return sum(listed if len(listed) <= count else nlargest(count, listed))
