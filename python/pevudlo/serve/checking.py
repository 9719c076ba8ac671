"""What came of the checks of each student's program: by comments of the exercise, or by a solution, in a thread."""

from __future__ import annotations

import threading
import time
from collections.abc import Callable, Sequence
from dataclasses import dataclass

from pevudlo.exercise.looks import Check, Outcome, Verdict, compared, places
from pevudlo.exercise.solution import Solution, Wanted, later, said_checks
from pevudlo.lang.replies import NoReply
from pevudlo.serve.room import Room
from pevudlo.wire.pipe import PipeError

Numbers = Sequence[int]

PAUSE = 10
"""Whose check took long isn't checked again for so many times as long: the others come first."""

MOST_PAUSE = 30.0


@dataclass(frozen=True)
class Job:
    """A text that is to be judged, with what its looks see."""

    room: Room
    number: int
    texts: list[str]
    got: list[Numbers | None]


class Checking:
    """The checks of an exercise. `verdicts` are those of each program, with the edit behind which they were made.

    `told` is called in another thread where there are new ones.
    """

    def __init__(self, exercise: Sequence[str], solution: Solution | None, told: Callable[[], None]) -> None:
        self._wanted = Wanted(solution) if solution is not None else None
        self.checks: list[Check] = said_checks(exercise) if self._wanted is None else self._wanted.checks
        self.verdicts: dict[Room, tuple[int, list[Verdict]]] = {}
        self._told = told
        self._jobs: dict[Room, Job] = {}
        self._not_before: dict[Room, float] = {}
        self._asked: dict[Room, int] = {}
        self._news = threading.Condition()
        self._is_over = False
        self._thread = threading.Thread(target=self._work, daemon=True)
        self._thread.start()

    def close(self) -> None:
        """Ends the thread, behind the check that it makes."""
        with self._news:
            self._is_over = True
            self._news.notify()
        self._thread.join()
        if self._wanted is not None:
            self._wanted.close()

    def of(self, room: Room) -> list[Verdict]:
        """What came of the checks of a program, as far as it is known. It asks for what isn't."""
        if not room.is_settled:
            return self._pending(room)
        number, verdicts = self.verdicts.get(room, (-1, []))
        if number == room.number:
            return verdicts
        if self._wanted is None:
            got = self._seen(room)
            verdicts = [compared(one, check.said) for one, check in zip(got, self.checks, strict=True)]
            self.verdicts[room] = room.number, verdicts
            return verdicts
        if self._asked.get(room) != room.number:
            self._asked[room] = room.number
            with self._news:
                self._jobs[room] = Job(room, room.number, list(room.lines.texts), self._seen(room))
                self._news.notify()
        return self._pending(room)

    def _seen(self, room: Room) -> list[Numbers | None]:
        """What the looks of a program see."""
        return [room.seen(at) for at in places(room.lines.texts, self.checks)]

    def _pending(self, room: Room) -> list[Verdict]:
        """The checks of a program of which nothing is known yet."""
        at_lines = places(room.lines.texts, self.checks)
        return [Verdict(Outcome.NOTHING if at is None else Outcome.PENDING) for at in at_lines]

    # In the thread.

    def _work(self) -> None:
        """Judges one text after another, until the end."""
        while (job := self._next()) is not None:
            begun = time.monotonic()
            verdicts = self._judged(job)
            pause = min(MOST_PAUSE, PAUSE * (time.monotonic() - begun))
            self._not_before[job.room] = time.monotonic() + pause
            self.verdicts[job.room] = job.number, verdicts
            self._told()

    def _next(self) -> Job | None:
        """The next text of who may be checked again. None at the end."""
        with self._news:
            while not self._is_over:
                now = time.monotonic()
                ready = [room for room in self._jobs if self._not_before.get(room, 0.0) <= now]
                if ready:
                    return self._jobs.pop(ready[0])
                until = min((self._not_before[room] for room in self._jobs), default=None)
                self._news.wait(None if until is None else max(0.001, until - now))
            return None

    def _judged(self, job: Job) -> list[Verdict]:
        """The verdicts of a text: with its own input data, and where that is right with each further block."""
        assert self._wanted is not None
        try:
            verdicts = self._wanted.own(job.texts, job.got)
            for block in range(1, len(self._wanted.solution.blocks) + 1):
                if any(each.outcome is Outcome.RIGHT for each in verdicts):
                    verdicts = later(verdicts, self._wanted.further(job.texts, block))
            return verdicts
        except (PipeError, NoReply, MemoryError):
            return [Verdict(Outcome.PENDING) for _ in self.checks]
