"""Rows that run in the background of edits, over the library: workers, news, undo, Ctrl-C, threads and the end."""

from __future__ import annotations

import gc
import os
import random
import subprocess
import sys
import threading
import time
import weakref
from collections.abc import Callable
from concurrent.futures import ThreadPoolExecutor
from pathlib import Path

import pytest

from pevudlo import END, START, Ended, Machine, News, Pending, Progress, RefusedRows, Refusal, Word, after, paris
from pevudlo.running.crew import Crew
from pevudlo.wire.book import Book, Slot
from pevudlo.wire.library import Held
from pevudlo.wire.program import ROOT

pytestmark = pytest.mark.usefixtures("libparis")
PATIENCE = 60.0
PROGRAMS = int(os.environ.get("PEVUDLO_RUNNING", "200"))


def small(workers: int = 2, steps: int | None = None) -> Machine:
    """A machine with a small set and some fields."""
    machine = Machine(library=True, workers=workers, steps=steps)
    machine.set("S", 4)
    for name in ("a", "b", "c", "d"):
        machine.field(name, "S", 8)
    machine["a"] = [1, 2, 3, 4]
    return machine


def slow(rows: int, workers: int = 2) -> tuple[Machine, list[int]]:
    """A machine whose rows take their time. Each adds to a field of its own, and the 61st to that of the first."""
    machine = Machine(library=True, workers=workers)
    machine.set("S", 256, 256)
    written = [f"c{number % 60}" for number in range(rows)]
    for name in dict.fromkeys(("a", "to", "n", *written)):
        machine.field(name, "S", 64)
    machine["a"] = [number * 0x9E3779B97F4A7C15 % 2**64 for number in range(65536)]
    machine["to"] = [(number * 7919 + 13) % 65536 for number in range(65536)]
    return machine, [machine.insert(paris.send_with_u_add(name, "to", "a", 64)) for name in written]


@pytest.fixture
def free(monkeypatch: pytest.MonkeyPatch) -> threading.Event:
    """An event before which no row ends that a worker has begun."""
    execute, event = Book.execute, threading.Event()

    def held(book: Book, slot: Slot) -> None:
        event.wait(PATIENCE)
        execute(book, slot)

    monkeypatch.setattr(Book, "execute", held)
    return event


def numbers(machine: Machine, key: str) -> list[int]:
    """The numbers of a key at the end."""
    values = machine[key, 0:]
    assert not isinstance(values, Pending)
    return list(map(int, values))


# Rows run beside edits


def test_rows_run_from_start_on_and_edits_go_on() -> None:
    with small() as machine:
        machine.start()
        row = machine.insert(paris.u_add("b", "a", "a", 8))
        assert machine.wait(PATIENCE)
        assert numbers(machine, "b") == [2, 4, 6, 8]
        machine.replace(row, paris.u_multiply("b", "a", "a", 8))
        machine["a", 0] = 7
        assert machine.wait(PATIENCE)
        assert numbers(machine, "b") == [49, 4, 9, 16]
        assert machine.progress == Progress(1, 1)


def test_an_edit_does_not_wait_for_the_rows_that_run() -> None:
    machine, ids = slow(40)
    with machine:
        machine.start()
        begun = time.monotonic()
        while not machine.progress.settled:
            machine["n", 5] = 1
        edited = machine.progress
        assert edited.settled < 40, time.monotonic() - begun
        assert machine.wait(PATIENCE)
        assert machine.progress == Progress(40, 40)


@pytest.mark.parametrize("is_small", [False, True])
def test_workers_begin_no_row_while_something_comes_first(is_small: bool) -> None:
    machine, ids = (small(), list[int]()) if is_small else slow(4)
    with machine:
        with machine._inside("first").book.first():
            ids = ids or [machine.insert(paris.u_add("b", "a", "a", 8)) for _ in range(4)]
            machine.start()
            time.sleep(0.1)
            assert machine.unsettled() == tuple(ids) and machine.progress == Progress(0, 4)
        assert machine.wait(PATIENCE)
        assert machine.progress == Progress(4, 4)


def test_nothing_runs_before_start_and_after_stop() -> None:
    with small() as machine:
        machine.insert(paris.u_add("b", "a", "a", 8))
        assert not machine.wait(0.05) and machine.unsettled() == (1,)
        machine.start()
        assert machine.wait(PATIENCE)
        machine.stop()
        machine["a", 1] = 9
        assert not machine.wait(0.05)
        assert machine["b"] == Pending(1) and machine.unsettled() == (1,)
        assert machine.wait(0) is False


def test_stop_waits_for_what_runs_and_keeps_it() -> None:
    machine, ids = slow(100)
    with machine:
        machine.start()
        next(machine.news())
        machine.stop()
        settled = machine.progress.settled
        time.sleep(0.1)
        assert 0 < settled == machine.progress.settled < 100


def test_news_tells_what_is_kept_and_what_is_thrown_away(free: threading.Event) -> None:
    machine, ids = slow(1, workers=1)
    with machine:
        machine.start()
        background = machine._background
        assert background is not None
        while not background.crew.running:
            time.sleep(0.001)
        machine.replace(ids[0], paris.u_move("c0", "a", 64))
        free.set()
        news = list(machine.news())
        assert [(each.row, each.word) for each in news] == [(ids[0], Word.STALE), (ids[0], Word.KEPT)]
        assert news[0].edition < news[1].edition
        assert numbers(machine, "c0") == numbers(machine, "a")


def test_news_ends_where_nothing_runs() -> None:
    with small() as machine:
        machine.insert(paris.u_add("b", "a", "a", 8))
        assert list(machine.news()) == []
        machine.start()
        assert machine.wait(PATIENCE)
        assert all(isinstance(each, News) for each in machine.news(0.01))


def test_settle_in_workers_gives_the_count_of_settle_in_one_thread() -> None:
    machine, ids = slow(6)
    with machine, Machine(library=True) as other:
        assert machine.settle() == 6
        assert machine.settle() == 0
        machine.replace(ids[2], paris.u_move("c2", "a", 64))
        assert machine.settle() == 1
        other.set("S", 4)
        assert other.settle() == 0


def test_settle_gives_up_orders_that_are_out() -> None:
    with small() as machine:
        machine.insert(paris.u_add("b", "a", "a", 8))
        order = machine.take()
        assert order is not None
        assert machine.settle() == 1
        assert machine.bring(order).word is Word.REPEATED


def test_settle_warns_of_rows_that_are_refused_for_their_data() -> None:
    with small() as machine:
        machine["b"] = [1, 1, 2, 3]
        machine.insert(paris.send("a", "b", "a", 8))
        with pytest.warns(RefusedRows, match="two messages meet at processor 1"):
            assert machine.settle() == 1


# What stands on what


def test_which_rows_an_edit_unsettles() -> None:
    with small() as machine:
        first = machine.insert(paris.u_move("b", "a", 8))
        second = machine.insert(paris.u_move("c", "b", 8))
        third = machine.insert(paris.u_move("a", "a", 8))
        machine.start()
        assert machine.wait(PATIENCE)
        with machine.touching() as touched:
            machine.replace(first, paris.u_move_constant("b", 9, 8))
        assert touched.rows == (first, second)
        assert machine.wait(PATIENCE)
        with machine.touching() as touched:
            machine["d"] = [0, 0, 0, 1]
        assert touched.rows == ()
        machine.stop()
        with machine.touching() as touched:
            fourth = machine.insert(paris.u_move("d", "a", 8), at=START)
        assert touched.rows == (fourth,)
        assert third not in machine.unsettled()


def test_where_a_value_comes_from() -> None:
    with small() as machine:
        first = machine.insert(paris.u_add("b", "a", "a", 8))
        second = machine.insert(paris.u_add("b", "b", "a", 8))
        assert machine.origin("b") == second
        assert machine.origin("b", after(first)) == first
        assert machine.origin("b", START) is machine.origin("a") is None
        for key, at in (("z", END), ("b", after(9))):
            with pytest.raises(Refusal):
                machine.origin(key, at)
            with pytest.raises(Refusal):
                machine.settle_for(key, at)


def test_settling_one_value_runs_what_it_stands_on_alone() -> None:
    with small() as machine:
        first = machine.insert(paris.u_move("b", "a", 8))
        second = machine.insert(paris.u_move("c", "a", 8))
        third = machine.insert(paris.logxor("b", "b", "a", 8))
        assert machine.settle_for("b", after(first)) == 1
        assert machine.unsettled() == (second, third)
        assert machine.settle_for("b") == 1 and machine.settle_for("b") == 0
        assert machine.unsettled() == (second,)
        assert numbers(machine, "b") == [0] * 4


def test_rows_that_run_for_one_value_are_named() -> None:
    with small() as machine:
        first = machine.insert(paris.u_move("b", "a", 8))
        second = machine.insert(paris.logxor("c", "b", "b", 8))
        third = machine.insert(paris.u_add("d", "c", "a", 8))
        assert machine.run_for("d") == (first, second, third)
        machine["a"] = [1, 1, 1, 1]
        # (the second row computes the same zeros, and the third reads a)
        assert machine.run_for("c") == (first, second)
        assert machine.run_for("d") == (third,) and machine.run_for("d") == ()
        machine.replace(first, paris.u_move("b", "a", 8))
        assert machine.run_for("d") == ()
        with pytest.raises(Refusal):
            machine.run_for("z")


# Undo


def test_undo_gives_values_back_settled() -> None:
    with small() as machine:
        row = machine.insert(paris.u_add("b", "a", "a", 8))
        machine.settle()
        machine.replace(row, paris.u_multiply("b", "a", "a", 8))
        machine.settle()
        assert machine.undo() == f"replace {row} {paris.u_multiply('b', 'a', 'a', 8)}"
        assert machine.progress == Progress(1, 1)
        assert numbers(machine, "b") == [2, 4, 6, 8]
        machine.redo()
        assert numbers(machine, "b") == [1, 4, 9, 16]


def test_all_can_be_undone_and_done_again() -> None:
    with small() as machine:
        first = machine.insert(paris.u_add("b", "a", "a", 8))
        second = machine.insert(paris.u_add("b", "b", "a", 8))
        machine.delete(first)
        machine.insert(paris.u_move("c", "b", 8), at=after(second))
        machine.settle()
        rows, sets, fields, values = machine.rows(), dict(machine.sets), dict(machine.fields), numbers(machine, "c")
        count = 0
        while True:
            try:
                machine.undo()
                count += 1
                assert [row.row for row in machine.rows()] == machine._board.rows
                assert {row.row: row.text for row in machine.rows()} == machine._board.texts
            except IndexError:
                break
        assert count == 10 and not machine.sets and not machine.fields and not machine.rows()
        for _ in range(count):
            machine.redo()
        with pytest.raises(IndexError, match="nothing to redo"):
            machine.redo()
        assert (machine.rows(), dict(machine.sets), dict(machine.fields)) == (rows, sets, fields)
        assert numbers(machine, "c") == values


def test_a_new_edit_clears_what_was_undone() -> None:
    with small() as machine:
        machine["a", 0] = 5
        machine.undo()
        machine["a", 0] = 6
        with pytest.raises(IndexError):
            machine.redo()
        assert machine.undo() == "input a 0 .."
        assert numbers(machine, "a") == [1, 2, 3, 4]


def test_a_refused_edit_is_no_step() -> None:
    with small() as machine:
        machine["a", 0] = 5
        for line in ("insert end u-add-3-1L z b b 8", "set S 4", "delete 9"):
            assert machine.raw(line)[0].startswith("refused")
        with pytest.raises(Refusal):
            machine["a", 0] = 256
        machine.undo()
        assert numbers(machine, "a") == [1, 2, 3, 4]


def test_a_name_that_is_declared_otherwise_after_undo() -> None:
    with small() as machine:
        machine.set("T", 2)
        machine.field("x", "S", 8)
        row = machine.insert("u-move-constant-1L x 1 8")
        assert "S.carry" in machine._board.keys_written(machine.rows()[0].text) or machine._board.keys_written(
            machine.rows()[0].text
        ) == ("x",)
        machine.undo()
        machine.undo()
        machine.field("x", "T", 8)
        machine.insert("u-move-constant-1L x 1 8")
        machine.settle()
        assert numbers(machine, "x") == [1, 1] and row
        assert all(not key.startswith("S.") for key in machine._board.keys_written("u-move-constant-1L x 1 8"))


def test_as_many_steps_as_are_wanted() -> None:
    with small(steps=2) as machine:
        for number in range(5):
            machine["a", 0] = number + 10
        machine.undo()
        machine.undo()
        assert numbers(machine, "a") == [12, 2, 3, 4]
        with pytest.raises(IndexError):
            machine.undo()
    with Machine(library=True) as machine:
        machine.set("S", 4)
        with pytest.raises(IndexError):
            machine.undo()


def test_want_of_memory_drops_the_oldest_steps(monkeypatch: pytest.MonkeyPatch) -> None:
    with small() as machine:
        for number in range(3):
            machine["a", 0] = number + 10
        background = machine._background
        assert background is not None
        snapshot, wanted = Book.snapshot, iter([True, True, True, False])

        def refused(book: Book) -> Held:
            if next(wanted):
                raise MemoryError
            return snapshot(book)

        before = len(background.history.done)
        monkeypatch.setattr(Book, "snapshot", refused)
        machine["a", 0] = 20
        assert len(background.history.done) == before - 3 + 1
        monkeypatch.setattr(Book, "snapshot", lambda book: next(iter(())))

        def never(book: Book) -> Held:
            raise MemoryError

        monkeypatch.setattr(Book, "snapshot", never)
        machine["a", 0] = 21
        assert numbers(machine, "a")[0] == 21
        with pytest.raises(IndexError):
            machine.undo()


def test_a_copy_stands_apart() -> None:
    with small() as machine:
        row = machine.insert(paris.u_add("b", "a", "a", 8))
        order = machine.take()
        assert order is not None
        with machine.copy() as other:
            other["a"] = [9, 9, 9, 9]
            other.insert(paris.u_add("c", "b", "b", 8))
            assert other.settle() == 2
            assert numbers(other, "c") == [36] * 4
            with pytest.raises(IndexError):
                for _ in range(3):
                    other.undo()
        assert [each.row for each in machine.rows()] == [row]
        assert machine.bring(order).word is Word.KEPT
        assert numbers(machine, "b") == [2, 4, 6, 8]


def test_a_result_of_an_edit_that_was_undone_is_thrown_away(free: threading.Event) -> None:
    machine, ids = slow(1, workers=1)
    with machine:
        machine.settle()
        right = numbers(machine, "c0")
        background = machine._background
        assert background is not None
        machine.start()
        machine["a", 3] = 77
        while not background.crew.running:
            time.sleep(0.001)
        machine.undo()
        assert machine.progress == Progress(1, 1)
        free.set()
        machine.stop()
        assert background.crew.words[Word.KEPT] == 0 and sum(background.crew.words.values()) == 1
        assert numbers(machine, "c0") == right


# Random programs


class Editor:
    """Edits a small machine by chance while its rows run."""

    def __init__(self, machine: Machine, seed: int) -> None:
        self.machine, self.random = machine, random.Random(seed)
        machine.set("S", 4)
        for name in "abci":
            machine.field(name, "S", 8)

    def instruction(self) -> str:
        """An instruction of the fields."""
        x, y, z = self.random.choices("abc", k=3)
        return self.random.choice(
            [
                paris.u_add(x, y, z, 8),
                paris.u_multiply(x, y, z, 8),
                paris.send(x, "i", y, 8),
                paris.u_lt(x, y, 8),
                "logand-context-with-test S",
                "set-context S",
            ]
        )

    def edit(self) -> None:
        """One edit, or something else that may be done meanwhile."""
        machine, ids = self.machine, self.machine._board.rows
        what = self.random.randrange(11)
        if what == 0:
            machine[self.random.choice("abci")] = [self.random.randrange(4) for _ in range(4)]
        elif what == 1 and ids:
            machine.delete(self.random.choice(ids))
        elif what == 2 and ids:
            machine.replace(self.random.choice(ids), self.instruction())
        elif what == 3:
            machine.insert(self.instruction(), at=after(self.random.choice(ids)) if ids else START)
        elif what in (4, 5):
            self.go(what == 4)
        elif what == 6:
            machine.stop() if self.random.random() < 0.3 else machine.start()
        elif what == 7:
            time.sleep(self.random.random() * 2e-4)
        elif what == 8:
            machine.wait(1e-4)
        elif what == 9:
            machine.settle_for(self.random.choice("abc"))
        else:
            self.see()

    def go(self, is_back: bool) -> None:
        """Takes an edit back or makes it again, while the fields stay."""
        background = self.machine._background
        assert background is not None
        if is_back and len(background.history.done) <= 5:
            return
        try:
            self.machine.undo() if is_back else self.machine.redo()
        except IndexError:
            pass

    def see(self) -> None:
        """What is settled is what a fresh machine gives, and the board has the rows."""
        machine = self.machine
        with machine._talk.lock:
            rows, values = machine.rows(), {key: machine[key] for key in machine._board.keys()}
            starts = {key: machine.show(key, START) for key in machine._board.keys()}
        assert [row.row for row in rows] == machine._board.rows
        assert {row.row: row.text for row in rows} == machine._board.texts
        with Machine(library=True) as fresh:
            fresh.set("S", 4)
            for name in "abci":
                fresh.field(name, "S", 8)
            for key in starts:
                fresh[key] = starts[key]
            for row in rows:
                fresh.insert(row.text)
            fresh.raw("settle")
            for key, value in values.items():
                assert isinstance(value, Pending) or list(value) == list(fresh[key]), key  # type: ignore[arg-type]


@pytest.mark.parametrize("part", range(4))
@pytest.mark.parametrize("is_single", [False, True], ids=["many-at-once", "one-by-one"])
def test_random_programs_are_as_fresh_ones(part: int, is_single: bool, monkeypatch: pytest.MonkeyPatch) -> None:
    if is_single:
        monkeypatch.setattr("pevudlo.running.background.SMALL", 0)
    for seed in range(part, PROGRAMS // 2, 4):
        with Machine(library=True, workers=2) as machine:
            editor = Editor(machine, seed + is_single * PROGRAMS)
            for _ in range(6):
                machine.insert(editor.instruction())
            machine.start()
            for _ in range(editor.random.randrange(5, 30)):
                editor.edit()
            machine.start()
            assert machine.wait(PATIENCE), seed
            editor.see()


# Ctrl-C, threads, the end


def run(script: str) -> subprocess.CompletedProcess[str]:
    """A script in a Python of its own, with `slow` in it."""
    paths = [str(ROOT / "python"), str(Path(__file__).parent)]
    begin = f"import os, signal, sys, threading, time\nsys.path[:0] = {paths!r}\n"
    words = [sys.executable, "-c", begin + "from pevudlo import paris\nfrom test_running import slow, small\n" + script]
    return subprocess.run(words, capture_output=True, text=True, timeout=PATIENCE)


@pytest.mark.parametrize("workers", [1, 2])
def test_ctrl_c_in_settle_keeps_what_is_settled(workers: int) -> None:
    ran = run(
        f"""
machine, ids = slow(240, {workers})
def interrupt():
    while not machine.progress.settled:
        time.sleep(0.001)
    os.kill(os.getpid(), signal.SIGINT)
threading.Thread(target=interrupt).start()
try:
    machine.settle()
except KeyboardInterrupt:
    kept = machine.progress.settled
    print(0 < kept < 240, machine.settle() == 240 - kept, machine.progress, machine.close())
"""
    )
    assert ran.stdout == "True True Progress(settled=240, rows=240) 0\n", ran.stderr


def test_ctrl_c_in_wait_ends_the_wait_alone() -> None:
    ran = run(
        """
machine, ids = slow(240)
def interrupt():
    while not machine.progress.settled:
        time.sleep(0.001)
    os.kill(os.getpid(), signal.SIGINT)
threading.Thread(target=interrupt).start()
try:
    machine.start()
    machine.wait()
except KeyboardInterrupt:
    print(machine.progress.settled < 240, machine.wait(), machine.progress)
"""
    )
    assert ran.stdout == "True True Progress(settled=240, rows=240)\n", ran.stderr


def test_ctrl_c_between_edits_leaves_the_board_right() -> None:
    """Signals come all the time while rows are put in and taken back: what is declared stays what the session has."""
    ran = run(
        """
machine = small()
machine.start()
is_wanted = False
def raised(number, frame):
    # (once an edit, so that none comes while one is told)
    global is_wanted
    if is_wanted:
        is_wanted = False
        raise KeyboardInterrupt
signal.signal(signal.SIGINT, raised)
def interrupt():
    while time.monotonic() < until:
        time.sleep(0.0007)
        os.kill(os.getpid(), signal.SIGINT)
count = edits = 0
until = time.monotonic() + 3
thread = threading.Thread(target=interrupt)
thread.start()
while time.monotonic() < until and edits < 4000:
    try:
        is_wanted = True
        edits += 1
        machine.insert("u-add-3-1L b a a 8")
        if edits % 3 == 0:
            machine.undo()
        if edits % 7 == 0:
            machine.redo()
        is_wanted = False
    except KeyboardInterrupt:
        count += 1
    except IndexError:
        is_wanted = False
thread.join()
rows = machine.rows()
print(count > 0, [row.row for row in rows] == machine._board.rows, machine.wait(), machine.close())
"""
    )
    assert ran.stdout == "True True True 0\n", ran.stderr


def test_a_machine_that_nobody_holds_ends_its_workers() -> None:
    machine, ids = slow(6)
    machine.start()
    threads = [thread for thread in threading.enumerate() if thread.name.startswith("paris worker")]
    background = machine._background
    assert background is not None and len(threads) == 2
    book = weakref.ref(background.book)
    del machine, background
    gc.collect()
    for thread in threads:
        thread.join(PATIENCE)
        assert not thread.is_alive()
    gc.collect()
    assert book() is None


def test_close_while_rows_run() -> None:
    machine, ids = slow(6)
    machine.start()
    time.sleep(0.02)
    assert machine.close() == 0
    assert not any(thread.name.startswith("paris worker") for thread in threading.enumerate())
    with pytest.raises(Ended):
        machine.rows()
    assert machine.close() == 0


def test_the_end_of_the_process_while_rows_run() -> None:
    ran = run("machine, ids = slow(12)\nmachine.start()\ntime.sleep(0.05)\nprint('ended')")
    assert (ran.stdout, ran.stderr, ran.returncode) == ("ended\n", "", 0)


def test_a_child_of_the_process_makes_no_call() -> None:
    ran = run(
        """
machine, ids = slow(6)
machine.start()
time.sleep(0.03)
child = os.fork()
if not child:
    try:
        machine.rows()
    except RuntimeError as error:
        print(error, flush=True)
    machine.close()
    del machine
    sys.exit(3)
print(os.waitstatus_to_exitcode(os.waitpid(child, 0)[1]), machine.wait(), machine.progress, machine.close())
"""
    )
    told = "a session of the library stays in the process that opened it"
    assert ran.stdout == f"{told}\n3 True Progress(settled=6, rows=6) 0\n", ran.stderr


def test_a_child_makes_no_call_where_a_thread_was_in_one() -> None:
    ran = run(
        """
machine = small()
for name in "bcd":
    machine.insert(paris.u_add(name, "a", "a", 8))
held, free = threading.Event(), threading.Event()

def hold():
    with machine._talk.lock:
        held.set()
        free.wait()

thread = threading.Thread(target=hold)
thread.start()
held.wait()
child = os.fork()
if not child:
    looks = lambda: machine.progress, lambda: machine["a"], lambda: next(machine.news())
    calls = machine.settle, machine.start, machine.stop, machine.wait, machine.undo, machine.copy
    for call in (*looks, machine.rows, machine.unsettled, *calls):
        try:
            call()
        except RuntimeError as error:
            print(error, flush=True)
    os._exit(machine.close() + 3)
print(os.waitstatus_to_exitcode(os.waitpid(child, 0)[1]))
free.set()
thread.join()
print(machine.settle(), machine.close())
"""
    )
    told = "a session of the library stays in the process that opened it\n"
    assert ran.stdout == f"{told * 11}3\n3 0\n", ran.stderr


def test_threads_edit_at_once() -> None:
    with small() as machine, ThreadPoolExecutor(4) as threads:
        machine.start()

        def work(name: int) -> None:
            for number in range(50):
                row = machine.insert(paris.u_add("b", "a", "a", 8))
                machine["a", name] = number
                if number % 5 == 0:
                    machine.delete(row)
                machine["b"]
                machine.progress

        for each in [threads.submit(work, name) for name in range(4)]:
            each.result(timeout=PATIENCE)
        assert machine.wait(PATIENCE)
        assert [row.row for row in machine.rows()] == machine._board.rows
        assert numbers(machine, "b") == [98] * 4


def test_want_of_memory_in_a_worker(monkeypatch: pytest.MonkeyPatch) -> None:
    machine, ids = slow(4)
    with machine:
        execute, refused = Book.execute, iter([True])

        def once(book: Book, slot: Slot) -> None:
            if next(refused, False):
                raise MemoryError("no memory for a row")
            execute(book, slot)

        monkeypatch.setattr(Book, "execute", once)
        machine.start()
        with pytest.raises(MemoryError, match="no memory for a row"):
            machine.wait(PATIENCE)
        machine.start()
        assert machine.wait(PATIENCE)
        assert machine.progress == Progress(4, 4)


def test_over_a_program_nothing_runs_in_the_background() -> None:
    with Machine() as machine:
        calls: list[Callable[[], object]] = [machine.start, machine.stop, machine.undo, machine.copy, machine.news]
        for call in calls:
            with pytest.raises(TypeError, match="is of machines over the library alone"):
                call()


def test_the_workers_that_are_left_are_those_of_open_machines() -> None:
    gc.collect()
    assert all(not crew.running for crew in Crew._all)
