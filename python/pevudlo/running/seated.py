"""Workers of a desk: threads with seats of their own, which run the ready rows while others edit."""

from __future__ import annotations

import atexit
import threading
import time
import weakref
from collections.abc import Callable
from typing import ClassVar, TypeVar

from pevudlo.running.crew import MOST_PAUSE, PAUSE, deadline
from pevudlo.wire.book import Slot
from pevudlo.wire.desk import HistoryFull, OpenDesk, OpenSeat, check
from pevudlo.wire.library_calls import Outcome

Given = TypeVar("Given")


class SeatedCrew:
    """The workers of a desk. They hold the desk, and not who began them: so that one's end can be theirs.

    `running` counts the orders that are out here. What a worker couldn't do is in `trouble`, and all of them end then.
    Where the history is full they wait for a new chapter. Each order that is taken, and each result that is brought, is
    an entry.
    """

    _all: ClassVar[weakref.WeakSet[SeatedCrew]] = weakref.WeakSet()

    def __init__(self, desk: OpenDesk) -> None:
        self.desk = desk
        self.is_over, self.running = False, 0
        self.trouble: Exception | None = None
        # The threads that were begun, and those of them that work.
        self._threads, self._at_work = list[threading.Thread](), set[threading.Thread]()
        # The change behind which a worker found no row that is ready, and the last chapter that one found full.
        self._looked_at = self._full_chapter = -1

    def work(self, seat: OpenSeat, name: str) -> None:
        """Begins a worker of this seat, whatever one couldn't do before."""
        with self.desk.lock:
            self.desk.check_open()
            self.trouble, self._looked_at = None, -1
            SeatedCrew._all.add(self)
            thread = threading.Thread(target=self._work, args=(seat,), name=name, daemon=True)
            thread.start()
            self._threads.append(thread)
            self._at_work.add(thread)

    def wait(self, timeout: float | None = None) -> bool:
        """Waits until no row is ready, and no worker runs one. False where the time is over, or where nobody works.

        Raises Ended where the desk is closed meanwhile, HistoryFull, and what a worker couldn't do.
        """
        until = deadline(timeout)
        with self.desk.lock:
            while self._at_work:
                self._check()
                if not self.running and self._looked_at == self.desk.changes:
                    return True
                left = threading.TIMEOUT_MAX if until is None else until - time.monotonic()
                if left <= 0:
                    return False
                self.desk.news.wait(min(left, threading.TIMEOUT_MAX))
            self._check()
        return False

    def _check(self) -> None:
        """Raises Ended where the desk is closed, and what keeps the workers."""
        self.desk.check_open()
        if self.trouble is not None:
            raise self.trouble
        if self._full_chapter == self.desk.chapters:
            check(Outcome.FULL)

    def leave(self) -> None:
        """The workers end, each behind its row. Nobody waits for them."""
        if not self.desk.is_elsewhere:
            with self.desk.lock:
                self.is_over = True
                self.desk.news.notify_all()

    def end(self) -> None:
        """Ends the workers, and waits for them. The lock may be held: they get it."""
        self.leave()
        if self.desk.is_elsewhere:
            return
        mine = threading.current_thread()
        with self.desk.lock:
            while self._at_work - {mine}:
                self.desk.news.wait()
        for thread in self._threads:
            if thread is not mine:
                thread.join()

    @classmethod
    def end_all(cls) -> None:
        """Ends all workers at the end of the process."""
        for crew in list(cls._all):
            crew.end()

    @property
    def _is_on(self) -> bool:
        """Whether workers go on."""
        return self.desk.is_open and not self.is_over

    def _work(self, seat: OpenSeat) -> None:
        """Takes, executes and brings, until the end."""
        with self.desk.lock:
            try:
                slot = self.desk.slot()
                while self._is_on and self.trouble is None:
                    if not self._do(seat, slot):
                        self.desk.news.wait()
            except Exception as error:
                self.trouble = error
            finally:
                self._at_work.discard(threading.current_thread())
                self.desk.news.notify_all()

    def _do(self, seat: OpenSeat, slot: Slot) -> bool:
        """Runs a row. Whether there was one. The lock is held before and behind it."""
        if self._looked_at == self.desk.changes:
            return False
        if not self._again(lambda: seat.take(slot)):
            self._looked_at = self.desk.changes
            self.desk.news.notify_all()
            return False
        self.running += 1
        try:
            self._execute(slot)
            self._again(lambda: seat.bring(slot))
        except Exception:
            # (its row would stay out)
            self._again(lambda: seat.ask("release"))
            raise
        finally:
            self.running -= 1
        return True

    def _again(self, call: Callable[[], Given]) -> Given | None:
        """What a call gives, which is made again in a new chapter where the history is full. None at the end."""
        while self._is_on:
            try:
                return call()
            except HistoryFull:
                self._wait_for_chapter()
        return None

    def _wait_for_chapter(self) -> None:
        """Waits for a new chapter, and tells who waits for rows that the present one is full."""
        chapter = self._full_chapter = self.desk.chapters
        self.desk.news.notify_all()
        while self._is_on and self.desk.chapters == chapter:
            self.desk.news.wait()

    def _execute(self, slot: Slot) -> None:
        """Executes an order without the lock."""
        self.desk.lock.release()
        try:
            self.desk.execute(slot)
            self._let_others()
        finally:
            self.desk.lock.acquire()

    def _let_others(self) -> None:
        """Lets others have the lock, where some wait for it."""
        until = time.monotonic() + MOST_PAUSE
        while self.desk.waiting and time.monotonic() < until:
            time.sleep(PAUSE)


atexit.register(SeatedCrew.end_all)
