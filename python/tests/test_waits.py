"""Every wait ends: the table of docs/PYTHON.md, cell by cell, each from another thread and with a limit of time."""

from __future__ import annotations

import random
import threading
import time
from collections.abc import Callable
from pathlib import Path
from typing import Any

import pytest
from test_running import numbers, run, slow, small
from waits import LIMIT, Told, status_of_child, within

from pevudlo import Ended, Machine, Progress, Refusal, Word, paris
from pevudlo.running.background import Background
from pevudlo.wire.book import Book, Slot
from pevudlo.wire.library import Library
from pevudlo.wire.library_calls import Outcome
from pevudlo.wire.program import ROOT

ROWS = 4
TABLE = [
    [cell.strip(" `") for cell in line.strip("| \n").split("|")]
    for line in (ROOT / "docs/PYTHON.md").read_text().split("| call | all is settled |")[1].split("\n\n")[0].split("\n")
]
ENDS = ["call", "all is settled", *TABLE[0]]
CELLS = [
    pytest.param(row[0], end, cell, id=f"{row[0]}-{end.replace(' ', '-')}")
    for row in TABLE[2:]
    for end, cell in zip(ENDS[1:], row[1:])
    if cell
]


def background_of(machine: Machine) -> Background:
    """The workers and steps of a machine."""
    assert machine._background is not None
    return machine._background


CALLS: dict[str, Callable[[Machine, float | None], Any]] = {
    "wait": lambda machine, seconds: machine.wait(seconds),
    "news": lambda machine, seconds: [each.word for each in machine.news(seconds)],
    "settle": lambda machine, seconds: machine.settle(),
    "settle_for": lambda machine, seconds: machine.settle_for("c0"),
    "stop": lambda machine, seconds: machine.stop(),
    "close": lambda machine, seconds: machine.close(),
}


class Case:
    """A machine with rows under way that end when `free` is set, and a call that waits for them in another thread."""

    def __init__(self, name: str, patch: pytest.MonkeyPatch, workers: int) -> None:
        self.name, self.patch = name, patch
        self.free, self.is_refused = threading.Event(), False
        self.machine, self.ids = slow(ROWS, workers)
        self.book, self.crew = background_of(self.machine).book, background_of(self.machine).crew
        self._hold()

    def _hold(self) -> None:
        """Has each row wait for `free` before it ends, and lack memory then where that is refused."""
        execute, run = Book.execute, Library.run
        settle_for = self.book._calls["paris_settle_for_ids"]

        def executed(book: Book, slot: Slot) -> None:
            assert self.free.wait(LIMIT)
            if self.is_refused:
                raise MemoryError("no memory for a row")
            execute(book, slot)

        def ran(library: Library, most: int) -> int:
            self.begun.set()
            assert self.free.wait(LIMIT)
            if self.is_refused:
                raise MemoryError("no memory for a row")
            return run(library, most)

        def settled_for(*words: Any) -> int:
            self.begun.set()
            assert self.free.wait(LIMIT)
            return Outcome.PARTLY if self.is_refused else settle_for(*words)

        self.begun = threading.Event()
        self.patch.setattr(Book, "execute", executed)
        self.patch.setattr(Library, "run", ran)
        call: Callable[..., int] = settled_for
        self.patch.setitem(self.book._calls, "paris_settle_for_ids", call)

    def begin(self, seconds: float | None = None) -> Told:
        """Makes the call, and waits until it is under way."""
        if self.name not in ("settle", "settle_for"):
            self.machine.start()
            assert within(LIMIT, lambda: self.crew.running > 0)
        told = Told(lambda: CALLS[self.name](self.machine, seconds))
        if self.name in ("settle", "settle_for"):
            assert within(LIMIT, lambda: self.crew.running > 0 or self.begun.is_set())
        time.sleep(0.05)
        assert seconds is not None or not told.is_over
        return told


@pytest.fixture(params=[1, 2], ids=["one-worker", "two-workers"])
def workers(request: pytest.FixtureRequest, libparis: Path) -> int:
    """How many workers there are. Where it is one, `settle` runs rows in the thread that calls."""
    assert libparis
    return int(request.param)


def check(cell: str, told: Told, case: Case, at_most: int) -> None:
    """A call has given what a cell says; of rows, so many at most."""
    told.wait()
    expected = {"Ended": Ended, "MemoryError": MemoryError}.get(cell)
    if expected is not None:
        assert type(told.error) is expected, told
        return
    assert told.error is None, told
    if cell == "the count":
        assert isinstance(told.value, int) and 0 <= told.value <= at_most
    elif cell == "the status":
        assert told.value == 0
    elif cell == "ends":
        assert len(told.value) <= at_most and set(told.value) <= {Word.KEPT}
    else:
        assert repr(told.value) == cell


@pytest.mark.parametrize(("name", "end", "cell"), CELLS)
def test_each_cell_of_the_table(name: str, end: str, cell: str, workers: int, monkeypatch: pytest.MonkeyPatch) -> None:
    case = Case(name, monkeypatch, workers)
    try:
        BY_END[end](case, cell)
    finally:
        case.free.set()
        Told(case.machine.close).wait()


def all_is_settled(case: Case, cell: str) -> None:
    told = case.begin()
    case.free.set()
    check(cell, told, case, ROWS)
    if case.name in ("settle", "settle_for"):
        assert told.value == (ROWS if case.name == "settle" else 1)
    elif case.name not in ("stop", "close"):
        assert case.machine.unsettled() == ()
    if case.name == "news":
        assert told.value == [Word.KEPT] * ROWS


def the_time_is_over(case: Case, cell: str) -> None:
    told = case.begin(0.1)
    check(cell, told, case, 0)
    assert len(case.machine.unsettled()) == ROWS


def stop(case: Case, cell: str) -> None:
    told = case.begin()
    stopped = Told(case.machine.stop)
    assert within(LIMIT, lambda: not case.crew.is_on)
    time.sleep(0.05)
    case.free.set()
    check(cell, told, case, ROWS)
    stopped.wait()
    if case.name == "settle":
        left = case.machine.unsettled()
        assert left and told.value == ROWS - len(left) > 0


def close(case: Case, cell: str) -> None:
    told = case.begin()
    closed = Told(case.machine.close)
    if case.name in ("wait", "news"):
        check(cell, told, case, 0)
        assert not closed.is_over, "close waits for the rows that run"
    time.sleep(0.05)
    case.free.set()
    check(cell, told, case, ROWS)
    assert closed.wait().value == 0
    again = Told(lambda: CALLS[case.name](case.machine, None)).wait()
    assert again.error is None if case.name in ("stop", "close") else isinstance(again.error, Ended)


def fork(case: Case, cell: str) -> None:
    assert cell == "waits on"
    told = case.begin()
    status = status_of_child(lambda: CALLS[case.name](case.machine, None))
    assert status == ("0" if case.name == "close" else "RuntimeError")
    assert not told.is_over
    case.free.set()
    assert told.wait().error is None


def no_memory(case: Case, cell: str) -> None:
    case.is_refused = True
    told = case.begin()
    case.free.set()
    check(cell, told, case, 0)
    assert within(LIMIT, lambda: not case.crew.running)
    case.is_refused = False
    if case.name == "close":
        return
    assert len(case.machine.unsettled()) == ROWS
    if case.name == "stop":
        with pytest.raises(MemoryError, match="no memory for a row"):
            case.machine.wait(LIMIT)
    case.machine.start()
    assert case.machine.wait(LIMIT) and case.machine.progress == Progress(ROWS, ROWS)


def by_hand(case: Case, cell: str) -> None:
    case.free.set()
    for row in case.ids[1:]:
        case.machine.replace(row, paris.u_add("c0", "c0", "a", 64))
    order = case.machine.take()
    assert order is not None
    if case.name not in ("settle", "settle_for"):
        case.machine.start()
    told = Told(lambda: CALLS[case.name](case.machine, None))
    check(cell, told, case, ROWS)
    if case.name in ("settle", "settle_for"):
        assert told.value == ROWS
        assert case.machine.bring(order).word is Word.REPEATED
    elif case.name != "close":
        assert len(case.machine.unsettled()) == ROWS
        assert case.machine.bring(order).word is Word.KEPT


BY_END: dict[str, Callable[[Case, str], None]] = {
    "all is settled": all_is_settled,
    "the time is over": the_time_is_over,
    "stop": stop,
    "close": close,
    "fork": fork,
    "no memory for a row": no_memory,
    "the rest is out by hand": by_hand,
}


# Other ends, and other waits


def test_news_gives_what_came_before_the_end(libparis: Path) -> None:
    machine, ids = slow(ROWS)
    machine.start()
    assert machine.wait(LIMIT)
    machine.close()
    news = machine.news()
    assert {next(news).row for _ in ids} == set(ids)
    with pytest.raises(Ended):
        next(news)


def test_edits_do_not_lengthen_the_time_of_news(libparis: Path, monkeypatch: pytest.MonkeyPatch) -> None:
    case = Case("news", monkeypatch, 2)
    told, until = case.begin(0.3), time.monotonic() + LIMIT
    while not told.is_over and time.monotonic() < until:
        case.machine["n", 0] = 1
        time.sleep(0.01)
    case.free.set()
    assert told.wait().value == []
    case.machine.close()


def test_a_row_that_comes_back_goes_on(libparis: Path) -> None:
    """What is out by hand may still be brought: then the work goes on, and a wait sees the end of it."""
    with small() as machine:
        machine.insert(paris.u_add("b", "a", "a", 8))
        machine.insert(paris.u_add("c", "b", "a", 8))
        order = machine.take()
        assert order is not None
        machine.start()
        assert machine.wait(LIMIT) is False
        assert machine.bring(order).word is Word.KEPT
        assert machine.wait(LIMIT) is True
        assert numbers(machine, "c") == [3, 6, 9, 12]


def test_a_release_behind_a_stopped_settle_is_seen(libparis: Path, monkeypatch: pytest.MonkeyPatch) -> None:
    """A worker that found nothing before looks again: what it found is of another state."""
    case = Case("settle", monkeypatch, 1)
    machine = case.machine
    for row in case.ids[1:]:
        machine.replace(row, paris.u_add("c0", "c0", "a", 64))
    assert machine.take() is not None
    machine.start()
    assert machine.wait(LIMIT) is False
    machine.stop()
    told = case.begin()
    machine.stop()
    case.free.set()
    assert told.wait().value < ROWS
    machine.start()
    assert machine.wait(LIMIT) is True
    machine.close()


def test_settle_in_two_threads_ends_in_both(workers: int) -> None:
    """The first one that ends leaves the workers to the other, whose rows an edit unsettles again."""
    for _ in range(20):
        with small(workers) as machine:
            for name in "bcd":
                machine.insert(paris.u_add(name, "a", "a", 8))
            told = [Told(machine.settle) for _ in range(2)]
            machine["a", 0] = 9
            for each in told:
                assert each.wait().error is None
            machine.settle()
            assert numbers(machine, "d")[0] == 18


def test_a_settle_counts_each_row_that_runs_for_it(libparis: Path) -> None:
    """Workers that an edit has just woken take no row before it counts."""
    machine, ids = slow(2)
    with machine:
        assert machine.settle() == 2
        for name in ("u_move", "lognot") * 50:
            machine.replace(ids[0], getattr(paris, name)("c0", "a", 64))
            assert machine.settle() == 1


def test_wait_sees_a_settle_of_another_thread(libparis: Path, monkeypatch: pytest.MonkeyPatch) -> None:
    case = Case("settle", monkeypatch, 1)
    settled = case.begin()
    told = Told(lambda: case.machine.wait(LIMIT))
    time.sleep(0.05)
    assert not told.is_over
    case.free.set()
    assert told.wait().value is True and settled.wait().value == ROWS
    case.machine.close()


def test_close_while_the_lock_is_held(libparis: Path) -> None:
    """The workers get the lock that this thread holds, where they are waited for."""
    machine, _ = slow(ROWS)
    machine.start()

    def close() -> int:
        with machine._talk.lock:
            return machine.close()

    assert Told(close).wait().value == 0


def test_a_worker_that_cannot_begin(libparis: Path, monkeypatch: pytest.MonkeyPatch) -> None:
    """Where the system gives no thread the call says so, and nothing waits for one."""
    start = threading.Thread.start

    def refused(thread: threading.Thread) -> None:
        if thread.name.startswith("paris worker"):
            raise RuntimeError("can't start new thread")
        start(thread)

    machine, _ = slow(ROWS)
    monkeypatch.setattr(threading.Thread, "start", refused)
    for call in (machine.start, machine.settle):
        assert isinstance(Told(call).wait().error, RuntimeError)
    assert Told(machine.wait).wait().value is False
    monkeypatch.setattr(threading.Thread, "start", start)
    machine.start()
    assert Told(machine.wait).wait().value is True
    machine.close()


def test_a_long_time_is_a_time(libparis: Path) -> None:
    with small() as machine:
        machine.insert(paris.u_add("b", "a", "a", 8))
        machine.start()
        assert machine.wait(float("inf")) is True and list(machine.news(float("inf"))) == []


@pytest.mark.parametrize("seed", range(6))
def test_random_ends(seed: int, workers: int, libparis: Path) -> None:
    """Threads wait in every way, while others edit, take by hand, stop and close: all come back."""
    chance = random.Random(seed)
    for _ in range(10):
        machine = small(workers)
        rows = [machine.insert(paris.u_add(name, "a", "a", 8)) for name in "bcdbcd"]
        calls: list[Callable[[], object]] = [
            machine.wait,
            machine.settle,
            lambda: list(machine.news()),
            lambda: machine.settle_for("b"),
            machine.start,
            machine.stop,
            machine.take,
            machine.undo,
            lambda: machine.replace(chance.choice(rows), paris.u_move("b", "a", 8)),
        ]
        told = [Told(chance.choice(calls)) for _ in range(8)]
        time.sleep(chance.random() * 0.01)
        told.append(Told(machine.close))
        for each in told:
            assert isinstance(each.wait().error, (Ended, Refusal, IndexError, type(None))), each


def test_no_memory_for_small_rows(workers: int, monkeypatch: pytest.MonkeyPatch) -> None:
    """Many of them run in one call, which is refused then."""
    with small(workers) as machine:
        calls = background_of(machine).book._calls
        run = calls["paris_run"]
        for name in "bcd":
            machine.insert(paris.u_add(name, "a", "a", 8))
        refused: Callable[..., int] = lambda *words: Outcome.PARTLY  # noqa: E731
        monkeypatch.setitem(calls, "paris_run", refused)
        assert isinstance(Told(machine.settle).wait().error, MemoryError)
        machine.start()
        waits: list[Callable[[], object]] = [machine.wait, lambda: list(machine.news()), machine.wait]
        for call in waits:
            assert isinstance(Told(call).wait().error, MemoryError)
        assert Told(machine.stop).wait().error is None
        monkeypatch.setitem(calls, "paris_run", run)
        machine.start()
        assert Told(machine.wait).wait().value is True
        assert numbers(machine, "d") == [2, 4, 6, 8]


IN_EACH_WAIT = """
execute, free = Book.execute, threading.Event()
def held(book, slot):
    free.wait(60)
    execute(book, slot)
Book.execute = held
machine, ids = slow(4)
machine.start()
while not machine._background.crew.running:
    time.sleep(0.001)
threading.Timer(0.3, lambda: os.kill(os.getpid(), signal.SIGINT)).start()
begun = time.monotonic()
try:
    {call}
except KeyboardInterrupt:
    print(time.monotonic() - begun < 20)
free.set()
{behind}
print(machine.close())
"""


@pytest.mark.parametrize("call", ["wait()", "settle()", "stop()", "close()", "news().__next__()"])
def test_ctrl_c_ends_each_wait(libparis: Path, call: str) -> None:
    """Rows are under way that don't end. Behind it they do, and the machine can be used on, where it isn't closed."""
    behind = "" if call == "close()" else "machine.start()\nprint(machine.wait(60))"
    script = IN_EACH_WAIT.format(call=f"machine.{call}", behind=behind)
    ran = run("from pevudlo.wire.book import Book\n" + script)
    assert ran.stdout == ("True\n0\n" if call == "close()" else "True\nTrue\n0\n"), ran.stderr
