"""A live session whose rows run by themselves while it is edited, and whose edits are taken back.

Edits hold `lock`, and are short. Rows run with no lock held.
"""

from __future__ import annotations

import threading
import time
from collections import deque
from collections.abc import Sequence
from pathlib import Path

from pevudlo.lang.replies import Ok, Word
from pevudlo.client.news import News, shortened
from pevudlo.live.session import CHANGING, Session, Step
from pevudlo.progress import line_of
from pevudlo.running.background import Background
from pevudlo.running.crew import News as Result
from pevudlo.running.held import bytes_text
from pevudlo.running.history import Step as Kept
from pevudlo.running.words import WHY
from pevudlo.talk import EDITS, Answer
from pevudlo.wire.pipe import is_comment

EVERY = 0.04
"""Seconds between two news of results, at least."""

AT_ONCE = 0.004
"""Seconds that rows have behind an edit, so that what they left is told with it."""

MOST_THROWN = 5
"""So many late results are shown."""

MOVING = ("insert", "delete")
NO_EDIT = 2**64 - 1
"""No edit is behind so many."""

BY_HAND = ("take", "bring", "release")
BY_THEMSELVES = "rows run by themselves here"


class OtherTab(Exception):
    """Another tab edits."""


class RunningSession(Session):
    """A session whose ready rows run beside the edits.

    `edit_lines` has the edits by their numbers, which are the editions of the rows that they touch. Where it isn't
    shared `editor` is the tab that edits, and the others look.
    """

    def __init__(self, library: Path, workers: int = 2, is_quiet: bool = True, is_shared: bool = False) -> None:
        self.is_shared, self.editor = is_shared, ""
        self.edit_lines: dict[int, str] = {}
        self.thrown: deque[Result] = deque(maxlen=MOST_THROWN)
        self._number = 0
        self._marks: list[int] = []
        self._undone: list[list[str]] = []
        self._editions = 0
        self._seen: tuple[int, int, int, bool] | None = None
        super().__init__(library, workers, is_quiet)

    def _begin(self) -> None:
        """Begins a program, and starts a thread that tells the tabs of results."""
        super()._begin()
        threading.Thread(target=self._gather, args=(self.background,), daemon=True).start()

    # Edits.

    def check_tab(self, tab: str) -> None:
        """Raises OtherTab where another tab edits. The first one that edits is the one that does."""
        with self.lock:
            if not self.is_shared:
                self.editor = self.editor or tab
                if self.editor != tab:
                    raise OtherTab

    def take_pen(self, tab: str) -> None:
        """This tab edits from now on."""
        with self.lock:
            self.editor = tab
            self.changed()

    def run(self, line: str, was: str | None = None) -> Step:
        if is_comment(line) or "\n" in line:
            raise ValueError("one command is wanted")
        if line == "settle":
            self.go_on()
            return Step(line, ("ok",), Ok())
        with self.book.first(), self.lock:
            self._check_row(line, was)
            with self.book.lock:
                step = self._tell(line)
                if is_edit(step):
                    self._made(step)
            self.note(step)
            if not step.is_refused and step.word in CHANGING:
                self.taken.append(step.text)
            self.changed()
            return step

    def _tell(self, line: str, number: int = 0) -> Step:
        """Asks one line."""
        try:
            answer = self._talk.tell(line)
        except MemoryError as error:
            raise ValueError(str(error)) from error
        assert answer is not None
        return step_of(answer, number)

    def _made(self, step: Step) -> None:
        """Notes an edit, and what it touches. No result is brought meanwhile."""
        self._marks.append(len(self.taken))
        self._undone.clear()
        self._number += 1
        self.edit_lines[self._number] = step.text
        if step.word == "input":
            self.ledger.give([step.text.split(" ")[1]], self.version + 1)
        self._turned(step.text, self.background.history.done)
        self._see_edit(step.word in MOVING)

    def _turned(self, line: str, steps: Sequence[Kept]) -> None:
        """The program is another, and what was there before stays to be compared with."""
        self.edits, self.line = self.edits + 1, line
        self.before = self.book.beside(steps[-1].held) if steps else None

    def _see_edit(self, is_moved: bool) -> None:
        """Sees which rows an edit touched, and the order where it `is_moved`. No list of all rows is made."""
        touched, self._editions = self.book.touched(self._editions)
        order = self.board.rows if is_moved else None
        self.ledger.touch(touched, self._editions, self.board.texts, order, self.version + 1)
        self.ledger.turn(self.book.unsettled(), self.version + 1)
        self.see_faults()
        self._seen = state_of(self.background)

    def see_rows(self) -> None:
        with self.book.lock:
            super().see_rows()
            _, self._editions = self.book.touched(NO_EDIT)
            self._seen = state_of(self.background)

    def load(self, lines: Sequence[str]) -> list[Step]:
        """Hands over a whole script. Gives the steps that were refused. Its edits can't be taken back.

        Rows run by themselves behind it, so a `settle` isn't waited for, where no order is taken by hand.
        """
        refused = list[Step]()
        is_by_hand = any(line.split(" ")[0] in BY_HAND for line in lines)
        with self.lock, self._telling("") as told:
            with self.background.without_steps():
                for number, line in enumerate(lines, 1):
                    told.at(line_of(number, len(lines)))
                    if is_comment(line) or (line == "settle" and not is_by_hand):
                        self.taken.append(line)
                    elif (step := self._load(line, number)).is_refused:
                        refused.append(step)
            self._marks.clear()
            self.see_rows()
            self.go_on()
        return refused

    def _load(self, line: str, number: int) -> Step:
        """Hands over a line of a script."""
        step = self._tell(line, number)
        if is_edit(step):
            self._number += 1
            self.edit_lines[self._number] = line
            if step.word == "input":
                self.ledger.give([line.split(" ")[1]], self.version + 1)
        if step.is_refused:
            self.note(step)
        elif step.word in CHANGING:
            self.taken.append(line)
        return step

    # Work, and its history.

    def go_on(self) -> None:
        """Rows run by themselves from now on."""
        self.background.crew.start()
        self.changed()

    def stop(self) -> None:
        """No further row begins."""
        self.background.crew.halt()
        self.changed()

    def undo(self) -> None:
        """Takes the last edit back. Raises ValueError where there is none."""
        with self.book.first(), self.lock, self.book.lock:
            self._moved("undo", self._go(True))

    def redo(self) -> None:
        """Makes the edit again that was taken back last. Raises ValueError where there is none."""
        with self.book.first(), self.lock, self.book.lock:
            self._moved("redo", self._go(False))

    def go_to(self, place: int) -> None:
        """Takes back or makes again as many edits as lead to a place of the history: so many edits from its start."""
        with self.book.first(), self.lock, self.book.lock:
            # (no step is dropped meanwhile)
            history = self.background.history
            if place > len(history.done) + len(history.undone):
                raise ValueError("the history has no such place")
            while len(history.done) != place:
                is_back = len(history.done) > place
                self._moved("undo" if is_back else "redo", self._go(is_back))

    def _go(self, is_back: bool) -> str:
        """One step of the history. Gives the edit's line."""
        try:
            line = self.background.undo() if is_back else self.background.redo()
        except IndexError as error:
            raise ValueError(str(error)) from error
        self._number += -1 if is_back else 1
        if is_back:
            mark = self._marks.pop()
            self._undone.append(self.taken[mark:])
            del self.taken[mark:]
        else:
            self._marks.append(len(self.taken))
            self.taken += self._undone.pop()
            self.edit_lines[self._number] = line
        return line

    def _moved(self, word: str, line: str) -> None:
        """Another session has come in the place of the present one. Each one on the way is listed, since editions come
        again: rows that are listed as before are the same only in two that follow each other."""
        history = self.background.history
        if line.startswith("input "):
            self.ledger.keep_given(given_in(self.taken), {line.split(" ", 2)[1]}, self.version + 1)
        elif line.startswith(("set ", "field ")):
            self.ledger.declared = self.version + 1
        self._turned(f"{word}: {line}", history.undone if word == "undo" else history.done)
        self.see_rows()
        self.changed()

    # What tabs are told.

    def _gather(self, background: Background) -> None:
        """Tells the tabs of results, some times a second."""
        book, seen = background.book, (0, 0, 0, False)
        while not self._closed and book.is_open:
            with book.lock:
                while (now := state_of(background)) == seen and not self._closed and book.is_open:
                    book.news.wait(1.0)
                seen = now
                came = [background.crew.news.popleft() for _ in range(len(background.crew.news))]
            with self.lock:
                self.thrown.extend(each for each in came if each.word is not Word.KEPT)
                if book.is_open and not self.refresh():
                    self.changed()
            time.sleep(EVERY)

    def refresh(self) -> bool:
        with self.book.lock:
            if not self.book.is_open or (now := state_of(self.background)) == self._seen:
                return False
            self._seen = now
            is_other = self.ledger.turn(self.book.unsettled(), self.version + 1)
            is_other = self.see_faults() or is_other
        if is_other:
            self.changed()
        return is_other

    def wait_for_small(self) -> None:
        until, crew = time.monotonic() + AT_ONCE, self.background.crew
        with self.book.lock:
            while self.book.is_open and crew.is_on and 0 < self.book.unsettled_count() <= crew.most_at_once:
                left = until - time.monotonic()
                if left <= 0:
                    break
                self.book.news.wait(left)

    def extra(self) -> News:
        crew, history = self.background.crew, self.background.history
        done, undone = history.done, history.undone
        thrown = [f"A late result of row {each.row} was thrown away: {WHY[each.word]}." for each in self.thrown]
        return {
            "on": crew.is_on,
            "out": crew.running,
            "failure": "" if crew.trouble is None else str(crew.trouble),
            "undo": shortened(done[-1].line) if done else "",
            "redo": shortened(undone[-1].line) if undone else "",
            "at": len(done),
            "of": len(done) + len(undone),
            "dropped": bytes_text(history.most_bytes) if history.has_dropped else "",
            "thrown": thrown[::-1],
            "editor": "" if self.is_shared else self.editor,
        }

    def since(self, row: int) -> str:
        """The edit that touched a row last."""
        with self.lock:
            known = self.ledger.rows.get(row)
            return "" if known is None else self.edit_lines.get(known.edition, "")

    def restart(self) -> None:
        raise ValueError(BY_THEMSELVES)


def step_of(answer: Answer, number: int = 0) -> Step:
    """A command with its reply."""
    return Step(answer.line, answer.lines, answer.reply, answer.explanation, number)


def is_edit(step: Step) -> bool:
    """Whether a command is an edit, and was accepted."""
    return step.word in EDITS and not step.is_refused


def given_in(lines: Sequence[str]) -> list[str]:
    """The keys whose input data accepted lines give, each once."""
    return list(dict.fromkeys(line.split(" ", 2)[1] for line in lines if line.startswith("input ")))


def state_of(background: Background) -> tuple[int, int, int, bool]:
    """What tabs are told of where it changes. The lock is held."""
    crew, book = background.crew, background.book
    count = book.unsettled_count() if book.is_open else 0
    return sum(crew.words.values()), crew.running, count, crew.is_on
