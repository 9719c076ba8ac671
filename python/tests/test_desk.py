"""Desks: what each call of a seat adds to the history, what looks show, orders, workers, and seats in threads."""

from __future__ import annotations

import gc
import re
import threading
from collections.abc import Callable, Iterator
from dataclasses import dataclass, field
from pathlib import Path
from random import Random
from typing import Any

import numpy
import pytest
from waits import LIMIT, Told, status_of_child, within

from pevudlo import (
    END,
    START,
    Desk,
    Ended,
    Entry,
    HistoryFull,
    Kind,
    Machine,
    Order,
    Pending,
    Refusal,
    RefusedRows,
    Seat,
    Status,
    Verdict,
    Word,
    WrongShape,
    after,
    paris,
)
from pevudlo.editing import Editing
from pevudlo.wire.desk import KINDS
from pevudlo.wire.library_calls import Outcome
from pevudlo.wire.program import ROOT

HEADER = ROOT / "bindings/c/paris.h"
DECLARED = ("set s 4", "field a s 8", "field b s 8", "field c s 8", "input a 0 1 2 3 4", "input b 0 10 20 30 40")


@pytest.fixture
def machine(libparis: Path) -> Iterator[Machine]:
    """A machine with the row c = a + b."""
    with Machine(library=True) as machine:
        machine.tell(DECLARED)
        assert machine.insert(paris.u_add("c", "a", "b", 8)) == 1
        yield machine


@pytest.fixture
def desk(machine: Machine) -> Iterator[Desk]:
    """A desk that begins there."""
    with Desk(machine) as desk:
        yield desk


def told(desk: Desk) -> list[tuple[int, Kind, str]]:
    """The entries of a desk: each one's seat, kind and reply."""
    return [(entry.seat, entry.kind, entry.reply) for entry in desk.entries()]


def taken(seat: Seat) -> Order:
    """An order for the first ready row."""
    order = seat.take()
    assert order is not None
    return order


def numbers(values: Any) -> Any:
    """The numbers of a look, or what stands in their place."""
    return values.tolist() if isinstance(values, numpy.ndarray) else values


# What an entry is


def test_the_kinds_are_those_of_the_header() -> None:
    kinds = HEADER.read_text().partition("enum paris_kind {")[2].partition("};")[0]
    listed = {int(number): name for name, number in re.findall(r"^  PARIS_([A-Z]+) = (\d)", kinds, re.M)}
    assert {number: kind.name for number, kind in KINDS.items()} == listed
    assert all(kind.value == kind.name.lower() for kind in Kind)


def test_each_call_of_a_seat_is_an_entry(desk: Desk) -> None:
    ann, bob = desk.seat("Ann"), desk.seat("Bob")
    with pytest.raises(Refusal) as refused:
        ann.set("s", 4)
    assert (refused.value.number, ann.front) == (3, 1)
    bob["a", 0] = 9
    order = taken(ann)
    assert order.row == 1 and bob.take() is None
    assert bob.bring(order) == Verdict(Word.KEPT)
    assert numbers(ann.show("c")) == [19, 22, 33, 44]
    ann.release()
    rows = bob.raw("list")
    assert told(desk) == [
        (0, Kind.EDIT, "refused 3"),
        (1, Kind.EDIT, "ok"),
        (0, Kind.TAKE, f"order 1 row 1 edition {order.edition}"),
        (1, Kind.BRING, "kept"),
        (0, Kind.SHOW, "values 19 22 33 44"),
        (0, Kind.RELEASE, "ok"),
        (1, Kind.LIST, "\n".join(rows)),
    ]
    assert rows[1].endswith(" settled u-add-3-1L c a b 8")
    assert next(desk.entries(2)) == Entry(2, 1, "Bob", Kind.EDIT, "ok")
    assert desk.audit()


def test_long_replies_are_told_whole(libparis: Path) -> None:
    with Machine(library=True) as machine:
        machine.tell(["set s 1024", "field a s 64"])
        machine["a"] = 2**64 - 1
        with Desk(machine) as desk:
            desk.seat().raw("show a end")
            assert told(desk) == [(0, Kind.SHOW, f"values{f' {2**64 - 1}' * 1024}")]


@pytest.mark.parametrize("line", ["settle", "take", "bring 1", "faults"])
def test_other_lines_are_no_entries(desk: Desk, line: str) -> None:
    seat = desk.seat()
    with pytest.raises(ValueError, match=f"`{line.split()[0]}` is no line of a desk"):
        seat.raw(line)
    assert (told(desk), seat.front) == ([], 0)


def test_remarks_and_what_is_no_command_are_no_entries(desk: Desk) -> None:
    seat = desk.seat()
    assert seat.raw("") == seat.raw("# a remark") == []
    assert seat.raw("shw a end") == ["refused 20 1"]
    with pytest.raises(Refusal, match="did you mean `u-add-3-1L`"):
        seat.insert("u-add a a a 8")
    with pytest.raises(ValueError, match="one line"):
        seat.raw("list\nlist")
    assert told(desk) == []


# Edits and looks, beside those of a machine


def edits(of: Editing) -> list[int | None]:
    """Edits by each call that makes one, and what they gave."""
    of.set("grid", 4, 2)
    of.field("x", "grid", 16)
    of.field("w", "grid", 128)
    of["x"] = numpy.arange(8).reshape(2, 4)
    of["x", 6:] = [600, 700]
    of["x", 0] = 5
    of["grid.context"] = [1, 1, 1, 1, 1, 1, 1, 0]
    of["w"] = 2**100
    of["w", 2] = 2**128 - 1
    rows: list[int | None] = [of.insert(paris.u_add("x", "x", "x", 16)), of.insert(paris.set_test("grid"), START)]
    rows += of.tell(["insert end my-send-address-1L x 8", "input x 1 77"])
    of.replace(1, paris.u_multiply("x", "x", "x", 16))
    of.delete(3)
    return rows


def test_edits_are_those_of_a_machine(libparis: Path) -> None:
    with Machine(profile=2) as other, Machine(library=True, profile=2) as machine, Desk(machine) as desk:
        seat = desk.seat("Ann")
        assert edits(seat) == edits(other)
        copy = desk.snapshot()
        assert (copy.rows(), copy.sets, copy.fields) == (other.rows(), other.sets, other.fields)
        assert (desk.sets, desk.fields) == (other.sets, other.fields)
        for key in ("x", "w", "grid.context", "grid.test"):
            assert numbers(seat.show(key)) == numbers(other.show(key))
        assert all(entry.reply[:7] != "refused" for entry in desk.entries())
        assert copy.settle() == other.settle()
        assert all(numbers(copy[key]) == numbers(other[key]) for key in ("x", "w", "grid.test"))


WRONG: tuple[Callable[[Editing], object], ...] = (
    lambda of: of.__setitem__("a", [1, 2, 3]),
    lambda of: of.__setitem__("a", [1, 2, 3, 256]),
    lambda of: of.__setitem__(("a", 3), 300),
    lambda of: of.__setitem__(("a", 4), 3),
    lambda of: of.__setitem__(("a", -5), 3),
    lambda of: of.__setitem__(("a", slice(4, None)), 3),
    lambda of: of.__setitem__("zz", [1]),
    lambda of: of.__setitem__("a", [-1, 0, 0, 0]),
    lambda of: of.insert("u-add-3-1L c a zz 8"),
    lambda of: of.field("a", "s", 8),
    lambda of: of.delete(7),
    lambda of: of.replace(7, "u-move-1L a b 8"),
    lambda of: of.show("zz"),
    lambda of: of.show("a", after(7)),
    lambda of: of.show("1"),
)


@pytest.mark.parametrize("call", WRONG)
def test_wrong_calls_raise_what_those_of_a_machine_raise(
    desk: Desk, machine: Machine, call: Callable[[Editing], object]
) -> None:
    raised = list[BaseException]()
    for of in (machine, desk.seat()):
        with pytest.raises((Refusal, WrongShape, IndexError, ValueError)) as found:
            call(of)
        raised.append(found.value)
    assert (type(raised[0]), str(raised[0])) == (type(raised[1]), str(raised[1]))


def test_many_numbers_are_one_entry_and_are_refused_as_a_whole(libparis: Path) -> None:
    with Machine(library=True, profile=2) as machine:
        machine.tell(["set s 65536", "field a s 32", "field w s 128"])
        with Desk(machine) as desk:
            seat = desk.seat()
            given = numpy.arange(65536, dtype=numpy.uint64) * 65537 % 2**32
            seat["a"] = given
            seat["w"] = wide = [2**127 + number for number in range(65536)]
            assert told(desk) == [(0, Kind.EDIT, "ok")] * 2
            wrong = given + 1
            wrong[60000] = 2**32
            raised = list[Refusal]()
            for of in (machine, seat):
                with pytest.raises(Refusal) as refused:
                    of["a"] = wrong
                raised.append(refused.value)
            assert raised[0].explanation == raised[1].explanation and len(raised[1].line) < 100
            assert told(desk)[2:] == [(0, Kind.EDIT, "refused 9 60000")]
            look = seat.look()
            assert numpy.array_equal(look["a"], given) and numbers(look["w"]) == wide
            assert desk.audit()


def test_a_look_stays_as_it_was(desk: Desk) -> None:
    ann, bob = desk.seat(), desk.seat()
    look = ann.look()
    assert (look["c"], look["c", 0], look.front) == (Pending(1), Pending(1), 0)
    bob["a"] = [100, 0, 0, 0]
    order = taken(bob)
    bob.bring(order)
    assert numbers(look["a"]) == [1, 2, 3, 4] and look["c"] == Pending(1)
    later = ann.look()
    assert numbers(later["c"]) == [110, 20, 30, 40] and (later.front, ann.front) == (3, 3)
    assert (later["c", 1], later["c", -1], numbers(later["c", 2:])) == (20, 40, [30, 40])
    assert numbers(later.show("c", START)) == [0] * 4 and numbers(later.show("c", after(1))) == [110, 20, 30, 40]
    with pytest.raises(RuntimeError, match="has looked again"):
        look["a"]
    with pytest.raises(RuntimeError, match="has looked again"):
        look.order_for("c")
    assert len(told(desk)) == 3
    desk.close()
    assert later["c", 0] == 110
    ann.close()
    ann.close()
    with pytest.raises(Ended, match="the seat is closed"):
        later["c"]


def test_looks_are_refused_as_those_of_a_machine(machine: Machine, desk: Desk) -> None:
    look = desk.seat().look()
    for key, at in (("zz", START), ("s.zz", START), ("1", START), ("a", after(9)), ("a", after(2**64 - 1))):
        with pytest.raises(Refusal) as wanted:
            machine.show(key, at)
        with pytest.raises(Refusal) as found:
            look.show(key, at)
        assert (found.value.number, found.value.line, found.value.column) == (
            wanted.value.number,
            wanted.value.line,
            wanted.value.column,
        )
    for index in (3, ("a", 1.0), ("a", True), ("a", 4), ("a", slice(0, 2, 2))):
        with pytest.raises((TypeError, IndexError, ValueError)) as raised:
            machine[index]  # type: ignore[call-overload]
        with pytest.raises(type(raised.value), match=re.escape(str(raised.value))):
            look[index]  # type: ignore[call-overload]
    assert told(desk) == []


def test_a_key_that_came_later_isnt_in_a_look(desk: Desk) -> None:
    ann = desk.seat()
    look = ann.look()
    ann.field("d", "s", 8)
    row = ann.insert(paris.u_move("d", "a", 8))
    with pytest.raises(Refusal, match="after entry 0") as refused:
        look["d"]
    assert refused.value.number == 7
    with pytest.raises(Refusal, match="after entry 0") as refused:
        look.show("a", after(row))
    assert refused.value.number == 10


def test_a_look_shows_wide_keys(libparis: Path) -> None:
    with Machine(library=True, profile=2) as machine:
        machine.tell(["set s 2x2", "field w s 65", f"input w 0 {2**65 - 1} 7 8 9", "insert end u-move-1L w w 65"])
        with Desk(machine) as desk:
            seat, other = desk.seat(), desk.seat()
            look = seat.look()
            other["w"] = [1, 2, 3, 4]
            assert look["w"] == Pending(1) and look["w", 0] == Pending(1)
            assert numbers(look.show("w", START)) == [[2**65 - 1, 7], [8, 9]]
            for at in (after(9), after(2**64 - 1)):
                with pytest.raises(Refusal) as refused:
                    look.show("w", at)
                assert refused.value.number == 10
            other.bring(taken(other))
            entries = len(told(desk))
            later = seat.look()
            shown = later["w", 3], numbers(later["w", 1:]), numbers(later["w"])
            assert shown == (4, [2, 3, 4], [[1, 2], [3, 4]])
            assert len(told(desk)) == entries
            with pytest.raises(RuntimeError, match="has looked again"):
                look.show("w", START)
            seat.close()
            with pytest.raises(Ended, match="the seat is closed"):
                later["w"]


def test_a_look_tells_what_a_machine_tells(machine: Machine) -> None:
    machine.tell(["field d s 8", "insert end send-1L d a b 8 none", "insert end u-move-1L c d 8"])
    with pytest.warns(RefusedRows):
        machine.settle()
    machine.insert("u-move-1L d c 8")
    with Desk(machine) as desk:
        ann, bob = desk.seat("Ann"), desk.seat("Bob")
        look = ann.look()
        bob.field("e", "s", 8)
        bob.delete(2)
        bob["a", 0] = 99
        assert look.rows() == machine.rows() and look.rows().refused == {2}
        assert look.faults() == machine.faults() and look.causes() == machine.causes() and len(look.causes()) == 1
        assert look.unsettled() == machine.unsettled() == (4,)
        assert [look.origin(key) for key in "abcd"] == [None, None, 3, 4]
        with pytest.raises(Refusal, match="refused 7"):
            look.origin("e")
        copy = look.snapshot()
        assert (copy.fields, copy.sets) == (machine.fields, machine.sets)
        copy["a"] = [0, 1, 2, 3]
        copy.delete(4)
        assert copy.settle() == 3 and numbers(copy["c"]) == [10, 20, 30, 40]
        assert look.rows() == machine.rows() and look["a", 0] == 1
        assert len(told(desk)) == 3
        order = taken(bob)
        later = ann.look()
        assert [row.status for row in later.rows() if row.row == order.row] == [Status.OUT]
        assert later.snapshot().settle() > 0
        calls: tuple[Callable[[], object], ...] = (
            look.rows,
            look.unsettled,
            look.faults,
            look.causes,
            look.snapshot,
            lambda: look.origin("a"),
        )
        for call in calls:
            with pytest.raises(RuntimeError, match="has looked again"):
                call()


# Orders


def test_an_order_is_executed_in_any_thread_and_brought_by_any_seat(desk: Desk) -> None:
    ann, bob = desk.seat(), desk.seat()
    order = taken(ann)
    assert repr(order) == f"<Order: row 1, edition {order.edition}>"
    executing = [Told(order.execute) for _ in range(4)]
    ann["a", 0] = 200
    assert all(each.wait().error is None for each in executing)
    verdict = bob.bring(order)
    assert verdict == Verdict(Word.STALE, order.edition + 1)
    again = taken(bob)
    assert [ann.bring(again).word, bob.bring(again).word] == [Word.KEPT, Word.REPEATED]
    ann.delete(1)
    assert ann.bring(again) == Verdict(Word.GONE)
    assert [reply for _, kind, reply in told(desk) if kind is Kind.BRING] == [
        f"stale {order.edition + 1}",
        "kept",
        "repeated",
        "gone",
    ]


def test_orders_for_a_value_are_looks(desk: Desk) -> None:
    ann = desk.seat()
    ann.field("d", "s", 8)
    row = ann.insert(paris.u_move("d", "a", 8))
    entries = len(told(desk))
    look = ann.look()
    first, second = look.order_for("d"), look.order_for("d")
    assert first is not None and second is not None and first.row == second.row == row
    assert look.order_for("d", START) is None
    for key, at in (("zz", END), ("s.zz", END), ("1", END), ("d", after(9))):
        with pytest.raises(Refusal) as wanted:
            look.show(key, at)
        with pytest.raises(Refusal) as found:
            look.order_for(key, at)
        assert found.value.explanation == wanted.value.explanation
    with pytest.raises(TypeError):
        look.order_for(1)  # type: ignore[arg-type]
    assert len(told(desk)) == entries
    assert [ann.bring(first).word, ann.bring(second).word] == [Word.KEPT, Word.REPEATED]
    look = ann.look()
    assert numbers(look["d"]) == [1, 2, 3, 4] and look["c"] == Pending(1) and look.order_for("d") is None


# The desk


def test_a_full_history_refuses_until_it_is_cut(machine: Machine) -> None:
    with Desk(machine, limit=2) as desk:
        seat = desk.seat()
        seat["a", 0] = 5
        order = taken(seat)
        calls: tuple[Callable[[], object], ...] = (
            lambda: seat.raw("list"),
            lambda: seat.bring(order),
            lambda: seat.insert("set-test s"),
        )
        for call in calls:
            with pytest.raises(HistoryFull):
                call()
        assert seat.take() is None and desk.audit()
        assert desk.cut() == 2
        assert seat.bring(order).word is Word.KEPT and told(desk) == [(0, Kind.BRING, "kept")]
        assert numbers(seat.look()["c"]) == [15, 22, 33, 44] and desk.audit()


def test_a_desk_stands_apart_from_its_machines(desk: Desk, machine: Machine) -> None:
    seat = desk.seat()
    machine["a", 0] = 200
    seat["b", 0] = 100
    assert seat.take() is not None
    copy = desk.snapshot()
    seat["b", 0] = 7
    assert (copy.settle(), copy["c", 0]) == (1, 101)
    assert (machine.settle(), machine["c", 0]) == (1, 210)
    copy.insert(paris.u_move("b", "a", 8))
    assert desk.snapshot().raw("list")[0] == "rows 1"
    machine.close()
    order = taken(desk.seat())
    assert seat.bring(order).word is Word.KEPT and seat.look()["c", 0] == 8
    copy.close()


def test_a_line_of_a_snapshot_counts_its_orders_anew(machine: Machine) -> None:
    machine.raw("take")
    with Desk(machine) as desk, desk.snapshot() as copy:
        order = copy.take()
        assert order is not None and (order.order, order.row) == (1, 1)


def test_what_a_desk_is_made_of(machine: Machine) -> None:
    with Machine() as other, pytest.raises(TypeError, match="`Desk` is of machines over the library alone"):
        Desk(other)
    for limit in (-1, 2**64):
        with pytest.raises(ValueError, match="a history has"):
            Desk(machine, limit)
    with Desk(machine) as desk:
        assert repr(desk) == "<Desk: 0 seats>"
        assert repr(desk.seat("Ann")) == "<Seat 0: Ann>" and repr(desk) == "<Desk: 1 seat>"
        for workers in (0, 17, 1.5):
            with pytest.raises(ValueError, match="workers are 1 to 16"):
                desk.work(workers)  # type: ignore[arg-type]
    assert repr(desk) == "<Desk: 1 seat, closed>"
    machine.close()
    with pytest.raises(Ended):
        Desk(machine)


def test_a_closed_desk_takes_no_call(desk: Desk) -> None:
    seat = desk.seat()
    desk.close()
    desk.close()
    calls: tuple[Callable[[], object], ...] = (
        lambda: seat.raw("list"),
        seat.take,
        seat.look,
        desk.seat,
        desk.work,
        desk.wait,
        desk.audit,
        desk.cut,
        desk.snapshot,
        lambda: list(desk.entries()),
    )
    for call in calls:
        with pytest.raises(Ended, match="the desk is closed"):
            call()


def test_a_call_within_a_call_is_refused(desk: Desk) -> None:
    seat = desk.seat()
    look = seat.look()
    calls: tuple[Callable[[], object], ...] = (lambda: seat.raw("list"), seat.take, seat.look)
    alone: tuple[Callable[[], object], ...] = (lambda: look["a"], lambda: seat.front, seat.close)
    of_desk: tuple[Callable[[], object], ...] = (*calls, desk.seat, desk.cut, desk.close)
    inners: tuple[Any, Any] = (seat._seat, desk._desk)
    for inner, refused in zip(inners, ((*calls, *alone), of_desk)):
        inner._is_in_call = True
        for call in refused:
            with pytest.raises(RuntimeError, match="in one call at a time"):
                call()
        inner._is_in_call = False
    assert numbers(look["a"]) == [1, 2, 3, 4] and seat.raw("show a end") == ["values 1 2 3 4"]
    assert told(desk) == [(0, Kind.SHOW, "values 1 2 3 4")]


def test_a_child_of_the_process_makes_no_call(desk: Desk) -> None:
    seat = desk.seat()
    look, order = seat.look(), taken(seat)
    desk.work()
    calls: tuple[Callable[[], object], ...] = (
        lambda: seat.raw("list"),
        lambda: look["a"],
        seat.look,
        seat.take,
        seat.close,
        order.execute,
        desk.audit,
        desk.wait,
    )
    for call in calls:
        assert status_of_child(call).startswith("RuntimeError"), call
    assert status_of_child(desk.close) == "None"
    assert numbers(look["a"]) == [1, 2, 3, 4]


# Workers


def test_workers_run_the_rows_while_seats_edit(libparis: Path) -> None:
    random = Random(5)
    with Machine() as alone, Machine(library=True) as machine:
        for of in (alone, machine):
            of.tell(DECLARED)
        with Desk(machine) as desk:
            seat = desk.seat("Ann")
            desk.work(2)
            writers: tuple[Editing, ...] = (alone, seat)
            for _ in range(60):
                line = f"insert end u-max-3-1L {' '.join(random.choices('abc', k=3))} 8"
                given = f"input {random.choice('ab')} {random.randrange(4)} {random.randrange(256)}"
                for writer in writers:
                    writer.tell([line, given])
            assert desk.wait(LIMIT)
            alone.settle()
            look = seat.look()
            assert all(numbers(look[key]) == numbers(alone[key]) for key in "abc")
            entries = list(desk.entries())
            kept = [entry for entry in entries if (entry.kind, entry.reply) == (Kind.BRING, "kept")]
            assert len(kept) > 0 and {entry.name for entry in entries if entry.kind is Kind.TAKE} <= {
                "worker 1",
                "worker 2",
            }
            assert desk.audit()


def test_a_wait_ends(desk: Desk) -> None:
    seat = desk.seat()
    assert desk.wait(LIMIT) is False, "nobody works"
    taken(seat)
    desk.work()
    assert desk.wait(LIMIT) is True, "what is left is out by hand"
    assert seat.look()["c"] == Pending(1)
    seat.release()
    assert desk.wait(LIMIT) is True and numbers(seat.look()["c"]) == [11, 22, 33, 44]


def test_a_wait_is_over_in_time_and_where_the_desk_is_closed(desk: Desk) -> None:
    hold, is_held = threading.Event(), threading.Event()
    execute = desk._desk.calls["paris_execute"]

    def held(at: int) -> int:
        is_held.set()
        hold.wait(LIMIT)
        return execute(at)

    desk._desk.calls["paris_execute"] = held
    desk.work()
    assert is_held.wait(LIMIT)
    assert desk.wait(0.01) is False
    waiting = Told(desk.wait)
    closing = Told(desk.close)
    assert isinstance(waiting.wait().error, Ended) and not closing.is_over
    hold.set()
    assert closing.wait().error is None


def test_workers_wait_for_a_chapter_where_the_history_is_full(machine: Machine) -> None:
    for _ in range(5):
        machine.insert(paris.u_add("c", "c", "b", 8))
    with Desk(machine, limit=3) as desk:
        seat = desk.seat()
        desk.work(2)
        cuts = 0
        while True:
            try:
                assert desk.wait(LIMIT)
                break
            except HistoryFull:
                assert desk.cut() == 3
                cuts += 1
        assert cuts > 2 and numbers(seat.look()["c"]) == [61, 122, 183, 244]


def test_a_row_without_memory_ends_the_workers_and_waits_again(desk: Desk) -> None:
    seat = desk.seat()
    execute = desk._desk.calls["paris_execute"]
    desk._desk.calls["paris_execute"] = lambda at: Outcome.NO_MEMORY
    desk.work(2)
    with pytest.raises(MemoryError):
        desk.wait(LIMIT)
    assert within(LIMIT, lambda: not desk._crew._at_work)
    assert " waiting " in seat.raw("list")[1]
    desk._desk.calls["paris_execute"] = execute
    desk.work()
    assert desk.wait(LIMIT) and numbers(seat.look()["c"]) == [11, 22, 33, 44]


def test_workers_end_where_nobody_holds_the_desk(machine: Machine) -> None:
    desk = Desk(machine)
    seat = desk.seat()
    desk.work(2)
    threads = list(desk._crew._threads)
    del desk
    gc.collect()
    for thread in threads:
        thread.join(LIMIT)
    assert not any(thread.is_alive() for thread in threads)
    seat["a", 0] = 9
    assert seat.look()["a", 0] == 9


# Threads


@dataclass
class Person:
    """A seat in a thread, and what it kept: of each entry its number, its kind and the reply."""

    seat: Seat
    kept: list[tuple[int, Kind, str]] = field(default_factory=list)

    def say(self, kind: Kind, line: str) -> None:
        reply = "\n".join(self.seat.raw(line))
        self.kept.append((self.seat.front, kind, reply))

    def work(self) -> None:
        order = self.seat.take()
        if order is None:
            return
        self.kept.append((self.seat.front, Kind.TAKE, f"order 1 row {order.row} edition {order.edition}"))
        verdict = self.seat.bring(order)
        edition = "" if verdict.edition is None else f" {verdict.edition}"
        self.kept.append((self.seat.front, Kind.BRING, f"{verdict.word.value}{edition}"))

    def look(self) -> None:
        """A look is told twice the same, whoever edits meanwhile."""
        look = self.seat.look()
        first = numbers(look.show("a", START))
        assert numbers(look.show("a", START)) == first

    def play(self, turns: int) -> None:
        random = Random(self.seat.number)
        for turn in range(turns):
            self.say(Kind.EDIT, f"input {random.choice('ab')} {random.randrange(4)} {random.randrange(300)}")
            if random.randrange(8) == 0:
                self.say(Kind.SHOW, "show c end")
            elif random.randrange(2):
                self.work()
            else:
                self.look()


def test_threads_make_one_history(desk: Desk) -> None:
    people = [Person(desk.seat(f"person {number}")) for number in range(6)]
    calls = [Told(lambda person=person: person.play(150)) for person in people]  # type: ignore[misc]
    assert all(call.wait().error is None for call in calls)
    kept = sorted((number, person.seat.number, kind, reply) for person in people for number, kind, reply in person.kept)
    assert len(kept) > 6 * 150
    assert [(entry.number, entry.seat, entry.kind, entry.reply) for entry in desk.entries()] == kept
    assert desk.audit() and desk.cut() == len(kept)


def test_threads_that_share_a_seat_wait_for_their_turn(desk: Desk) -> None:
    seat = desk.seat()

    def call() -> None:
        for number in range(100):
            seat["a", number % 4] = number
            try:
                assert len(numbers(seat.look()["a"])) == 4
            except RuntimeError as error:
                assert "has looked again" in str(error)

    calls = [Told(call) for _ in range(4)]
    assert all(each.wait().error is None for each in calls)
    assert [reply for _, _, reply in told(desk)] == ["ok"] * 400 and desk.audit()
