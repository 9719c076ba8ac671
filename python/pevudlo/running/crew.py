"""Threads that run the ready rows of a book, while edits go on."""

from __future__ import annotations

import atexit
import threading
import time
import weakref
from collections import deque
from collections.abc import Callable
from dataclasses import dataclass
from typing import ClassVar

from pevudlo.lang.replies import Word
from pevudlo.wire.book import Book, Slot
from pevudlo.wire.library import Library

MOST_NEWS = 10_000
"""So many news are kept until they are asked for. Where more come, the oldest are dropped."""

SMALL = 1_024
"""Where no set has more processors, rows are so small that a worker runs many of them in one hold of the lock."""

AT_ONCE = 256
HOLD = 0.002
"""Seconds that many small rows may take in one hold of the lock; of a longer hold the next is of fewer rows."""

PAUSE, MOST_PAUSE = 0.00005, 0.1
"""Seconds that a worker sleeps again and again between two holds while others wait for the lock, and at most."""

TELL = 0.02
"""Seconds between two news of small rows."""


@dataclass(frozen=True)
class Progress:
    """How many rows are settled, of how many."""

    settled: int
    rows: int


@dataclass(frozen=True)
class News:
    """A result came: of this row, and of the edition that its order was for. What isn't kept is thrown away."""

    row: int
    edition: int
    word: Word


def deadline(timeout: float | None) -> float | None:
    """The time at which so many seconds are over. None where no time is."""
    return None if timeout is None else time.monotonic() + timeout


class Crew:
    """The workers of a book. They hold the book, and not who began them: so that one's end can be theirs.

    `is_small` says whether rows are so small that many are run at once. `running` counts the orders that are out here,
    `ran` the results that were kept, `words` the results by their verdicts. What a worker couldn't do is in `trouble`.

    Every wait ends: who waits is woken by each change of the book, by its end, and where the work stops or finds no
    row. Then it looks at what it waits for, and at whether a result may still come.
    """

    _all: ClassVar[weakref.WeakSet[Crew]] = weakref.WeakSet()

    def __init__(self, book: Book, workers: int, is_small: Callable[[], bool]) -> None:
        self.book = book
        self.is_over = self._is_started = False
        self.running = self.ran = 0
        self.words = dict.fromkeys(Word, 0)
        self.news: deque[News] = deque(maxlen=MOST_NEWS)
        self.trouble: BaseException | None = None
        self._is_small, self._most = is_small, AT_ONCE
        self._workers, self._is_dropped, self._is_at_small = workers, False, False
        # The threads that were begun, and those of them that work.
        self._threads, self._at_work = set[threading.Thread](), set[threading.Thread]()
        # Of each settle under way that no stop has ended, the thread that runs its rows itself, or None.
        self._settles: dict[object, int | None] = {}
        # The change behind which a worker found no row that is ready, and how many threads want to know that.
        self._looked_at, self._waiting = -1, 0

    @property
    def is_on(self) -> bool:
        """Whether the workers take rows: behind `start`, or for a settle."""
        return self.trouble is None and (self._is_started or None in self._settles.values())

    @property
    def most_at_once(self) -> int:
        """How many rows are done at once, about: many small ones, or one a worker."""
        return AT_ONCE if self._is_small() else self._workers

    def start(self) -> None:
        """Ready rows run from now on."""
        with self.book.lock:
            self._begin()
            self._is_started = True

    def _begin(self) -> None:
        """Has the workers look for rows, whatever one of them couldn't do before. Threads that are missing begin."""
        self.trouble, self._looked_at = None, -1
        self._release_dropped()
        Crew._all.add(self)
        self._threads &= self._at_work
        while len(self._threads) < self._workers and not self.is_over:
            name = f"paris worker {len(self._threads) + 1}"
            thread = threading.Thread(target=self._work, name=name, daemon=True)
            thread.start()
            self._threads.add(thread)
            self._at_work.add(thread)
        self.book.news.notify_all()

    def halt(self) -> None:
        """No further row begins, for a settle neither."""
        with self.book.lock:
            self._is_started = False
            self._settles.clear()
            self.book.news.notify_all()

    def stop(self) -> None:
        """No further row begins. The rows that run are waited for, and kept where they are of the present program."""
        with self.book.lock:
            self.halt()
            while self.running:
                self.book.news.wait()

    def wait(self, timeout: float | None = None) -> bool:
        """Waits until every row is settled. False where the time is over, or where no result may come any more."""
        until = deadline(timeout)
        with self.book.lock:
            while self.book.unsettled_count():
                self._check()
                if not self._may_come() or not self.wait_until(until):
                    return False
            return True

    def next_news(self, timeout: float | None = None) -> News | None:
        """The next result, waited for so many seconds. None where there is none, or none may come any more."""
        until = deadline(timeout)
        with self.book.lock:
            while not self.news:
                if not self.book.unsettled_count():
                    return None
                self._check()
                if not self._may_come() or not self.wait_until(until):
                    return None
            return self.news.popleft()

    def wait_until(self, until: float | None) -> bool:
        """Waits for a change, whose lock is held. False where the time is over before."""
        left = threading.TIMEOUT_MAX if until is None else until - time.monotonic()
        if left <= 0:
            return False
        self._waiting += 1
        try:
            self.book.news.wait(min(left, threading.TIMEOUT_MAX))
        finally:
            self._waiting -= 1
        return True

    def _may_come(self) -> bool:
        """Whether a result may come with no further call: a row runs, or a worker hasn't looked for one yet.

        None comes where all that is left was taken by hand, or stands behind such rows. The lock is held.
        """
        others = set(self._settles.values()) - {None, threading.get_ident()}
        is_new = self._looked_at != self.book.changes
        return bool(self.running or others) or (self.is_on and not self.is_over and is_new)

    def settle(self) -> int:
        """Runs until every row is settled, and gives how many ran. Orders that others have out are given up.

        Ctrl-C begins no further row, waits for those that run, and keeps what is settled. So does a stop, behind which
        it gives how many ran until then. One worker that isn't at work leaves it to the thread that calls.
        """
        mine = object()
        try:
            with self.book.lock:
                is_here = self.is_over or (self._workers == 1 and not self.is_on)
                self._settles[mine] = threading.get_ident() if is_here else None
                if not is_here:
                    return self._settle_by_workers(mine)
            return self._settle_here(mine)
        finally:
            with self.book.lock:
                self._settles.pop(mine, None)
                self.book.tell()

    def _settle_here(self, mine: object) -> int:
        """Runs rows in the thread that calls. Where others took orders meanwhile it gives them up, and goes on."""
        ran = 0
        while mine in self._settles:
            ran += Library.settle(self.book, lambda: mine in self._settles)
            if not self.book.unsettled_count():
                break
        return ran

    def _settle_by_workers(self, mine: object) -> int:
        """Waits for the workers, and gives up orders that others have out where no row runs. The lock is held."""
        before = self.ran
        try:
            self._begin()
            while mine in self._settles and self.book.unsettled_count():
                self._check()
                if not self.running:
                    self.book.release()
                self.book.news.wait()
        finally:
            self._settles.pop(mine, None)
            while self.running and not self.is_on:
                self.book.news.wait()
        return self.ran - before

    def leave(self) -> None:
        """The workers end, each behind its row. Nobody waits for them."""
        if self.book.is_elsewhere:
            return
        with self.book.lock:
            self.is_over = True
            self.book.news.notify_all()

    def end(self) -> None:
        """Ends the workers, and waits for them. The lock may be held: they get it."""
        self.leave()
        if self.book.is_elsewhere:
            return
        mine = {threading.current_thread()}
        with self.book.lock:
            while self._at_work - mine:
                self.book.news.wait()
        for thread in self._threads - mine:
            thread.join()

    @classmethod
    def end_all(cls) -> None:
        """Ends all workers at the end of the process."""
        for crew in list(cls._all):
            crew.end()

    def _check(self) -> None:
        """Raises what a worker couldn't do."""
        if self.trouble is not None:
            raise self.trouble

    def _work(self) -> None:
        """Takes, executes and brings, until the end."""
        with self.book.lock:
            try:
                slot = self.book.slot()
                while not self.is_over and self.book.is_open:
                    self._look(slot)
            except Exception as error:
                self._failed(error)
            finally:
                self._at_work.discard(threading.current_thread())
                self.book.news.notify_all()

    def _look(self, slot: Slot) -> None:
        """Runs what is ready, or waits for a change where nothing is."""
        try:
            if not self._do(slot):
                self.book.news.wait()
        except Exception as error:
            self._failed(error)

    def _do(self, slot: Slot) -> bool:
        """Runs a row, or many small ones. Whether there was one. The lock is held before and behind it."""
        if not self.is_on or self.book.first_come:
            return False
        if self._is_small():
            return self._run_small()
        if not self.book.take(slot):
            self._found_none()
            return False
        self._execute(slot)
        if self.is_over or not self.book.is_open:
            self.book.drop(slot)
            return True
        word = self.book.bring(slot)
        self.words[word] += 1
        self.ran += word is Word.KEPT
        self.news.append(News(slot.row, slot.edition, word))
        self._release_dropped()
        self.book.tell()
        return True

    def _found_none(self) -> None:
        """Notes that no row is ready until something changes, and tells who waits for one."""
        is_new, self._looked_at = self._looked_at != self.book.changes, self.book.changes
        if is_new and self._waiting:
            self.book.news.notify_all()

    def _run_small(self) -> bool:
        """Runs small rows while there are some, many in one hold of the lock, by one worker. Whether some ran."""
        if self._is_at_small:
            return False
        self._is_at_small, told, before = True, time.monotonic(), self.ran
        try:
            while self.is_on and not self.is_over and not self.book.first_come and self._run_many():
                if time.monotonic() - told > TELL:
                    told = time.monotonic()
                    self.book.news.notify_all()
                self._let_others()
        finally:
            self._is_at_small = False
        if self.ran > before:
            self.book.news.notify_all()
        return self.ran > before

    def _run_many(self) -> int:
        """Runs many rows in one hold of the lock, and gives how many ran."""
        begun = time.monotonic()
        count = self.book.run(self._most)
        took = time.monotonic() - begun
        self.ran += count
        self.words[Word.KEPT] += count
        if count < self._most:
            self._found_none()
        if count == self._most:
            self._most = max(1, self._most // 2) if took > HOLD else min(AT_ONCE, self._most * 2)
        return count

    def _let_others(self) -> None:
        """Lets others have the lock, where some wait for it."""
        until = time.monotonic() + MOST_PAUSE
        self.book.lock.release()
        try:
            while self.book.waiting and time.monotonic() < until:
                time.sleep(PAUSE)
        finally:
            self.book.lock.acquire()

    def _execute(self, slot: Slot) -> None:
        """Executes an order without the lock. Where that can't be done the order is dropped."""
        self.running += 1
        self.book.lock.release()
        try:
            self.book.execute(slot)
        except BaseException:
            self.book.drop(slot)
            self._is_dropped = True
            raise
        finally:
            self.book.lock.acquire()
            self.running -= 1

    def _failed(self, error: Exception) -> None:
        """Stops the work for what couldn't be done. The row of the order that was dropped waits again."""
        self._is_started, self.trouble = False, error
        self._release_dropped()
        self.book.news.notify_all()

    def _release_dropped(self) -> None:
        """Has the rows of orders that were dropped wait again, once no other order is out here."""
        if self._is_dropped and not self.running and self.book.is_open:
            self._is_dropped = False
            self.book.release()


atexit.register(Crew.end_all)
