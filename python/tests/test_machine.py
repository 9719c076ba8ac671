"""Machine: values come and go in their set's shape, what is refused is raised, and a child that ends is said."""

from __future__ import annotations

import os
import signal
import subprocess
import sys
import warnings
from pathlib import Path
from typing import Any, Callable, Iterator

import numpy
import pytest

from pevudlo import (
    START,
    Ended,
    Machine,
    Pending,
    RefusedRows,
    Refusal,
    Row,
    Status,
    WrongShape,
    after,
    signed,
    unsigned,
)
from pevudlo.draw.grids import Grid
from pevudlo.lang.replies import Cause, OrderTaken, RowFault, Verdict, Word
from pevudlo.values.arrays import ValueArray
from pevudlo.values.shaped import input_lines

REPOSITORY = Path(__file__).resolve().parents[2]


@pytest.fixture
def machine(library: bool) -> Iterator[Machine]:
    with Machine(library=library) as made:
        made.set("S", 4)
        made.field("a", "S", 8)
        made.field("b", "S", 8)
        made.field("c", "S", 8)
        yield made


def numbers(values: object) -> list[int]:
    assert isinstance(values, ValueArray)
    return [int(number) for number in values.ravel().tolist()]


def test_values_in_the_shape_of_the_axes(library: bool) -> None:
    with Machine(library=library) as machine:
        machine.set("G", 4, 2, 2)
        machine.field("x", "G", 8)
        machine.field("at", "G", 8)
        for axis in range(3):
            machine.insert(f"my-news-coordinate-1L at {axis} 8")
            machine.settle()
            at = machine["at"]
            assert isinstance(at, ValueArray) and at.shape == (2, 2, 4) and at.dtype == numpy.uint64
            assert all(at[place] == place[2 - axis] for place in numpy.ndindex(2, 2, 4))
        whole = numpy.arange(16).reshape(2, 2, 4)
        for values in (
            range(16),
            list(range(16)),
            whole,
            whole.tolist(),
            whole.astype(numpy.int8),
            whole.astype(">u4"),
            numpy.asfortranarray(whole),
            numpy.repeat(whole, 2, axis=1)[:, ::2],
            whole[:, :, ::-1][:, :, ::-1],
        ):
            machine["x"] = [0] * 16
            machine["x"] = values
            assert numpy.array_equal(numpy.asarray(machine["x"]), whole)
        machine["x"] = whole.T.copy().T
        assert numbers(machine["x"]) == list(range(16))
        machine["G.context"] = whole % 2 == 0
        assert numbers(machine["G.context"]) == [1, 0] * 8


def test_values_from_a_processor_on(machine: Machine) -> None:
    machine["a"] = [1, 2, 3, 4]
    machine["a", 2:] = [7]
    assert numbers(machine["a"]) == [1, 2, 7, 4]
    machine["a", -2:] = numpy.array([8, 9])
    machine["a", 0] = 5
    assert numbers(machine["a"]) == [5, 2, 8, 9]
    machine["a", 1:3] = (10, 11)
    assert numbers(machine["a"]) == [5, 10, 11, 9]
    before = numbers(machine["a"])
    for index in (slice(0, 2), slice(0, None, 2), slice(0, 0)):
        with pytest.raises(ValueError):
            machine["a", index] = [1]
    with pytest.raises(IndexError):
        machine["a", -5] = 1
    with pytest.raises(Refusal) as refusal:
        machine["a", 3:] = [1, 2]
    assert refusal.value.number == 8
    assert numbers(machine["a"]) == before


def test_numbers_of_numpy_are_processors_and_values(machine: Machine) -> None:
    machine["a"] = [1, 2, 3, 4]
    machine["a", numpy.int64(1)] = 4
    machine["a", numpy.array(2)] = numpy.uint8(5)
    machine["a", 3] = numpy.array(6)
    assert numbers(machine["a"]) == [1, 4, 5, 6]
    machine["a", slice(numpy.int8(2), None)] = [8, 9]
    assert numbers(machine["a"]) == [1, 4, 8, 9]
    machine["S.context"] = [numpy.bool_(True), False, numpy.array(True), numpy.array(0)]
    machine["S.context", 3] = numpy.bool_(True)
    assert numbers(machine["S.context"]) == [1, 0, 1, 1]


@pytest.mark.parametrize("where", [True, False, 1.0, "1", None, numpy.bool_(True), numpy.float64(1), numpy.arange(2)])
def test_indices_that_are_no_processors(machine: Machine, where: Any) -> None:
    machine["a"] = [1, 2, 3, 4]
    ends = () if where is None else (slice(where, None), slice(0, where), slice(0, 1, where))
    for index in (where, *ends):
        with pytest.raises(TypeError, match="a processor is a whole number, and not "):
            machine["a", index] = [7]
        with pytest.raises(TypeError, match="a processor is a whole number, and not "):
            machine["a", index]
    assert numbers(machine["a"]) == [1, 2, 3, 4] and machine.close() == 0


@pytest.mark.parametrize("value", [[5], (5, 6), numpy.array([5]), 1.0, None, "5", numpy.float64(5)])
def test_one_processor_takes_one_whole_number(machine: Machine, value: Any) -> None:
    with pytest.raises(TypeError, match="values are whole numbers, and not "):
        machine["a", 1] = value
    assert numbers(machine["a"]) == [0] * 4


def test_a_part_reads_as_it_writes(library: bool) -> None:
    with Machine(library=library) as machine:
        machine.set("G", 4, 2)
        machine.field("x", "G", 8)
        machine["x"] = [[1, 2, 3, 4], [5, 6, 7, 8]]
        for first in (2, -3):
            machine["x", first:] = range(10, 10 - first if first < 0 else 18 - first)
            assert numbers(machine["x", first:]) == list(range(10, 10 - first if first < 0 else 18 - first))
        machine["x"] = range(1, 9)
        wanted: list[tuple[Any, int]] = [(0, 1), (5, 6), (-1, 8), (numpy.int64(2), 3)]
        for place, number in wanted:
            assert machine["x", place] == number and type(machine["x", place]) is int
            machine["x", place] = number + 100
            assert machine["x", place] == number + 100
        machine["x"] = range(1, 9)
        assert numbers(machine["x", 2:4]) == [3, 4] and numbers(machine["x", -6:-4]) == [3, 4]
        assert numbers(machine["x", :]) == list(range(1, 9))
        beyond: list[Any] = [8, -9, slice(8, None), slice(0, 9), slice(-9, None)]
        for index in beyond:
            with pytest.raises(IndexError, match="x has no processor"):
                machine["x", index]
        with pytest.raises(ValueError, match="no step"):
            machine["x", ::2]
        with pytest.raises(Refusal):
            machine["zz", 1]


def test_arrays_that_lie_oddly_in_memory(machine: Machine) -> None:
    packed = numpy.zeros(4, dtype=[("byte", "u1"), ("word", "u8")])
    packed["word"] = [1, 2, 3, 4]
    shifted = numpy.frombuffer(b"x" + numpy.array([4, 3, 2, 1], dtype=numpy.uint64).tobytes(), numpy.uint8)[1:]
    for values, wanted in ((packed["word"], [1, 2, 3, 4]), (shifted.view(numpy.uint64), [4, 3, 2, 1])):
        assert not values.flags.aligned
        machine["a"] = values
        assert numbers(machine["a"]) == wanted
    with pytest.raises(TypeError, match="values are whole numbers"):
        machine["a"] = packed


def test_masked_values_are_no_numbers(machine: Machine) -> None:
    masked_array: Any = numpy.ma.masked_array
    values = masked_array([1, 2, 3, 4], mask=[0, 0, 0, 0])
    machine["a"] = values
    assert numbers(machine["a"]) == [1, 2, 3, 4]
    values[2] = numpy.ma.masked
    objects = masked_array([5, 6, 7, 8], mask=[1, 0, 0, 0], dtype=object)
    for masked in (values, objects, [values[:2], values[2:]]):
        with pytest.raises(ValueError, match="masked values are no numbers: values.filled.number. gives each of them"):
            machine["a"] = masked
    with pytest.raises(TypeError, match="values are whole numbers, and not "):
        machine["a"] = [1, 2, numpy.ma.masked, 4]
    with pytest.raises(TypeError, match="values are whole numbers, and not "):
        machine["a", 1] = numpy.ma.masked
    assert numbers(machine["a"]) == [1, 2, 3, 4]
    machine["a"] = values.filled(9)
    assert numbers(machine["a"]) == [1, 2, 9, 4]


@pytest.mark.parametrize(
    "values, error",
    [
        ([1, 2, 3], WrongShape),
        ([1, 2, 3, 4, 5], WrongShape),
        ([[1, 2], [3, 4]], WrongShape),
        ([[1, 2], [3]], WrongShape),
        ([1, [2], 3, 4], WrongShape),
        (numpy.zeros((4, 1), dtype=int), WrongShape),
        ([1, 2, 3, -4], ValueError),
        (numpy.array([1, 2, 3, -4]), ValueError),
        ([], ValueError),
        ([1, 2, 3, 4.0], TypeError),
        (numpy.zeros(4), TypeError),
        ([1, 2, None, 4], TypeError),
        ("1234", TypeError),
        ({1, 2, 3, 4}, TypeError),
        (7.0, TypeError),
    ],
)
def test_values_that_are_none(machine: Machine, values: Any, error: type[Exception]) -> None:
    machine["a"] = [9, 9, 9, 9]
    with pytest.raises(error):
        machine["a"] = values
    assert numbers(machine["a"]) == [9, 9, 9, 9]


def test_a_negative_number_is_named(machine: Machine) -> None:
    for values in ([1, 2, 3, -4], numpy.array([1, 2, 3, -4]), [numpy.array([1, 2]), numpy.array([3, -4])]):
        with pytest.raises(ValueError, match="-4 is negative"):
            machine["a"] = values


def test_values_that_are_pending_are_no_numbers(machine: Machine) -> None:
    row = machine.insert("u-add-3-1L c a b 8")
    assert machine["c"] == Pending(row) != Pending(row + 1)
    assert machine["c", 1] == machine["c", 1:] == Pending(row)
    assert isinstance(machine["a"], ValueArray)
    pending: Any = machine["c"]
    ones = numpy.ones(4, dtype=numpy.uint64)
    with_words: list[Callable[[], object]] = [
        lambda: numpy.sum(pending),
        lambda: numpy.array_equal(pending, ones),
        lambda: numpy.asarray(pending),
        lambda: numpy.array([1, pending]),
        lambda: pending == ones,
        lambda: ones == pending,
        lambda: machine["a"] == pending,
        lambda: ones != pending,
        lambda: pending == 0,
        lambda: pending != [0, 0, 0, 0],
        lambda: 0 in [pending],
    ]
    for work in with_words:
        with pytest.raises(TypeError, match=f"pending: row {row} writes it last"):
            work()
    others: list[Callable[[], object]] = [
        lambda: ones + pending,
        lambda: pending + 1,
        lambda: numpy.add(ones, pending),
        lambda: ones < pending,
        lambda: sum(pending),
        lambda: machine.__setitem__("a", pending),
    ]
    for work in others:
        with pytest.raises(TypeError):
            work()
    with pytest.raises(TypeError):
        signed(machine["c"], 8)
    with pytest.raises(TypeError):
        int(machine["c"])  # type: ignore[arg-type]
    with pytest.raises(TypeError, match=f"pending: row {row} "):
        bool(machine["c"])
    assert machine.settle() == 1
    assert numbers(machine["c"]) == [0, 0, 0, 0]
    assert numbers(machine.show("c", START)) == numbers(machine.show("c", after(row))) == [0] * 4


def test_keys_and_places_of_other_types_ask_nothing(machine: Machine) -> None:
    for key in (("a",), ("a", 1, 2), (1, "a"), 0, None):
        with pytest.raises(TypeError, match="a key is a name"):
            machine[key]  # type: ignore[call-overload]
        with pytest.raises(TypeError, match="a key is a name"):
            machine[key] = [1]  # type: ignore[index]
    with pytest.raises(TypeError, match="a key is a name"):
        assert "a" in machine  # type: ignore[operator]
    row = machine.insert("u-add-3-1L c a b 8")
    with pytest.raises(TypeError, match=r"a place is START, END or after\(row\), and not 1"):
        machine.insert("set-context S", row)  # type: ignore[arg-type]
    with pytest.raises(TypeError, match="a place is START"):
        machine.show("c", "end")  # type: ignore[arg-type]
    assert machine.close() == 0


def test_workers_are_1_to_16() -> None:
    for workers in (0, 17, -1):
        with pytest.raises(ValueError, match="workers are 1 to 16"):
            Machine(workers=workers)


def test_rows_orders_and_verdicts(machine: Machine) -> None:
    first = machine.insert("u-add-3-1L c a b 8")
    second = machine.insert("u-move-constant-1L b 5 8", START)
    third = machine.insert("set-test S", after(second))
    assert (first, second, third) == (1, 2, 3)
    assert [row.row for row in machine.rows()] == [2, 3, 1]
    order = machine.take()
    assert order == OrderTaken(1, 2, 6)
    machine.replace(third, "clear-test S")
    assert machine.rows()[:2] == (
        Row(2, 6, Status.OUT, "u-move-constant-1L b 5 8"),
        Row(3, 8, Status.WAITING, "clear-test S"),
    )
    assert order is not None and machine.bring(order) == Verdict(Word.KEPT)
    assert machine.bring(1) == Verdict(Word.REPEATED)
    machine.delete(second)
    assert machine.bring(1) == Verdict(Word.GONE)
    machine.release()
    assert machine.settle() == 2
    assert machine.take() is None
    with pytest.raises(Refusal) as refusal:
        machine.bring(9)
    assert (refusal.value.number, refusal.value.name) == (22, "NoOrder")


def test_many_lines_are_told_at_once(machine: Machine) -> None:
    """Each put-in row's id is given. Behind a refused line none is told, and where a line is no edit none at all."""
    ids = machine.tell(
        iter(["field d S 8", "insert end u-move-1L b a 8", "input a 0 1 2 3 4", "insert start set-context S"])
    )
    assert ids == [None, 1, None, 2] and [row.row for row in machine.rows()] == [2, 1]
    with pytest.raises(Refusal) as refusal:
        machine.tell(["insert end u-move-1L c a 8", "insert end u-move-1L e a 8", "insert end u-move-1L d a 8"])
    assert refusal.value.line == "insert end u-move-1L e a 8" and [row.row for row in machine.rows()] == [2, 1, 3]
    for line in ("settle", "take", "show a end", "# a remark", "", "no command"):
        with pytest.raises(ValueError, match="isn't one"):
            machine.tell(["delete 1", line])
    assert [row.row for row in machine.rows()] == [2, 1, 3] and machine.tell([]) == []
    assert machine.settle() == 3 and numbers(machine["c"]) == [1, 2, 3, 4]


def test_rows_of_a_bare_line(machine: Machine) -> None:
    """Rows that another holder of the session put in: they are taken out, replaced, and are places."""
    peer = machine._talk.peer
    assert machine.insert("set-test S") == 1
    for row in (2, 3):
        assert peer.ask("insert start clear-test S") == [f"row {row}"]
    assert machine.raw("insert start set-context S") == ["row 4"]
    machine.insert("clear-test S", after(3))
    machine.replace(2, "set-test S")
    machine.delete(3)
    machine.delete(4)
    machine.delete(2)
    assert [row.row for row in machine.rows()] == [5, 1]
    with pytest.raises(Refusal) as refusal:
        machine.delete(2)
    assert refusal.value.number == 10 and "rows are 1 and 5" in refusal.value.hint
    machine["a"] = [0, 1, 2, 9]
    assert peer.ask("insert end get-1L c a b 8") == ["row 6"]
    assert peer.ask("insert end send-1L c b b 8 none") == ["row 7"]
    with pytest.warns(RefusedRows, match="2 rows are refused for their data: rows 6, 7"):
        machine.settle()
    assert machine.causes() == {
        6: "processor 3 holds an address outside its set",
        7: "two messages meet at processor 0: `send-with-u-add-1L` combines them",
    }


def test_faults(machine: Machine) -> None:
    machine["a"] = [0, 0, 1, 9]
    row = machine.insert("send-1L c a b 8 none")
    machine["S.context", 3] = 0
    with pytest.warns(RefusedRows):
        machine.settle()
    assert machine.faults() == (RowFault(row, Cause.COLLISION, 0),)
    assert machine.rows().refused == {row}
    assert machine.rows()._repr_html_().count("refused for its data") == 1
    assert machine.causes() == {row: "two messages meet at processor 0: `send-with-u-add-1L` combines them"}
    machine["S.context", 3] = 1
    with pytest.warns(RefusedRows):
        machine.settle()
    assert machine.faults() == (RowFault(row, Cause.BAD_ADDRESS, 3),)
    assert machine.causes() == {
        row: "processor 3 holds the address 9 in `a`: `S` has 4 processors, of addresses 0 to 3"
    }


def test_a_settle_warns_of_rows_that_are_refused_for_their_data(machine: Machine) -> None:
    """Once for the settle, with the rows, and at the line that called; not where nothing ran or nothing is refused."""
    machine["a"] = [0, 0, 1, 9]
    rows = [machine.insert("get-1L c a b 8"), machine.insert("send-1L c b a 8 none")]
    with warnings.catch_warnings(record=True) as caught:
        warnings.simplefilter("always")
        machine.settle()
    (said,) = caught
    assert isinstance(said.message, RefusedRows) and said.filename == __file__
    assert said.message.faults == (RowFault(rows[0], Cause.BAD_ADDRESS, 3), RowFault(rows[1], Cause.COLLISION, 0))
    assert str(said.message) == (
        "2 rows are refused for their data: rows 1, 2\n"
        "    row 1 stores nothing, since processor 3 holds the address 9 in `a`: "
        "`S` has 4 processors, of addresses 0 to 3\n"
        "    row 2 stores nothing, since two messages meet at processor 0: `send-with-u-add-1L` combines them"
    )
    with warnings.catch_warnings():
        warnings.simplefilter("error")
        assert machine.settle() == 0
        machine["a"], machine["b"] = [0, 1, 2, 3], [3, 2, 1, 0]
        assert machine.settle() == 2 and machine.faults() == () and machine.causes() == {}


def test_a_refusal_says_all_of_it(machine: Machine) -> None:
    with pytest.raises(Refusal) as error:
        machine.insert("u-add-3-1L c a x 8")
    refusal = error.value
    assert (refusal.number, refusal.name, refusal.column) == (7, "NoField", None)
    assert refusal.text == "no field has this name, or no set has the name before the dot"
    assert refusal.line == "insert end u-add-3-1L c a x 8"
    assert "`x` isn't declared" in refusal.hint and "`a`, `b` and `c`" in refusal.hint
    with pytest.raises(Refusal) as error:
        machine.insert("u-add c a b 8")
    assert (error.value.number, error.value.column) == (20, 12)
    for line in ("show a\nlist", ""):
        with pytest.raises(ValueError):
            machine.insert(line) if line else machine._talk.command(line)


def test_large_inputs_are_cut_into_lines(library: bool) -> None:
    values = [(v * 0x9E3779B97F4A7C15) % 2**64 for v in range(65_536)]
    lines = input_lines("abcdefghijklmnop", 0, values)
    assert len(lines) > 1 and all(len(line) < 65_536 for line in lines)
    assert [int(word) for line in lines for word in line.split(" ")[3:]] == values
    firsts = [int(line.split(" ")[2]) for line in lines]
    assert firsts == [sum(len(line.split(" ")) - 3 for line in lines[:at]) for at in range(len(lines))]
    with Machine(library=library) as machine:
        machine.set("S", 256, 256)
        machine.field("abcdefghijklmnop", "S", 64)
        machine["abcdefghijklmnop"] = numpy.array(values, dtype=numpy.uint64).reshape(256, 256)
        assert numbers(machine["abcdefghijklmnop"]) == values


@pytest.mark.parametrize("count, wide, number", [(65_536, 65_530, 9), (65_537, None, 8), (65_537, 3, 8)])
def test_a_large_input_that_is_refused_changes_nothing(
    library: bool, count: int, wide: int | None, number: int
) -> None:
    with Machine(library=library) as machine:
        machine.set("S", 65_536)
        machine.field("a", "S", 32)
        machine.insert("u-move-1L a a 32")
        machine.settle()
        values = [4_000_000_000] * count
        if wide is not None:
            values[wide] = 2**32
        with pytest.raises(Refusal) as error:
            machine["a", 0:] = values
        assert error.value.number == number
        assert number == 8 or error.value.explanation.detail == wide
        assert set(numbers(machine.show("a", START))) == {0}
        assert machine.rows()[0].status is Status.SETTLED


def test_arrays_are_looks_and_what_is_computed_is_plain(machine: Machine) -> None:
    machine["a"] = [1, 2, 3, 250]
    values = machine["a"]
    assert isinstance(values, ValueArray)
    with pytest.raises(ValueError):
        values[0] = 7
    assert type(values + 1) is numpy.ndarray and (values + 1).tolist() == [2, 3, 4, 251]
    assert int(values.sum()) == 256 and type(values.max()) is not ValueArray
    assert repr(values) == "array([  1,   2,   3, 250], dtype=uint64)"
    html = values._repr_html_()
    assert html is not None and "<table" in html and ">250<" in html
    part = values[1:]
    assert isinstance(part, ValueArray) and part._repr_html_() is None


WIDTHS = (64, 65, 100, 127, 128)


def edges(width: int) -> list[int]:
    """Numbers of a width: the least, the greatest, and those beside the ends of words and of signs."""
    return [
        0,
        1,
        2**64 - 1,
        2 ** (width - 1),
        2 ** (width - 1) - 1,
        2**width - 1,
        2**width // 3,
        2**width - 2**63,
    ]


@pytest.mark.parametrize("width", WIDTHS)
def test_wide_numbers_go_both_ways(library: bool, width: int) -> None:
    values = edges(width)
    with Machine(library=library, profile=2) as machine:
        machine.set("S", 4, 2)
        machine.field("w", "S", width)
        machine.field("v", "S", width)
        machine.insert(f"u-move-1L v w {width}")
        for given in (values, tuple(values), numpy.array(values, dtype=object).reshape(2, 4), [values[:4], values[4:]]):
            machine["w"] = [5] * 8
            machine["w"] = given
            machine.settle()
            shown = machine["v"]
            assert isinstance(shown, ValueArray) and shown.shape == (2, 4)
            assert shown.dtype == (numpy.uint64 if width <= 64 else object)
            assert numbers(shown) == values and all(type(number) is int for number in shown.ravel().tolist())
        machine["w"] = numpy.arange(8, dtype=numpy.uint64)
        machine["w", 6:] = values[5:7]
        machine["w", 5] = values[3]
        assert numbers(machine["w"]) == [0, 1, 2, 3, 4, values[3], *values[5:7]]
        assert machine["w", 6] == values[5] and numbers(machine["w", 5:7]) == [values[3], values[5]]
        assert signed(machine["w"], width).ravel().tolist()[5:7] == [-(2 ** (width - 1)), -1]
        machine["w"] = unsigned([-1, -2, 3, 4, 5, 6, 7, -(2 ** (width - 1))], width)
        assert numbers(machine["w"])[:2] == [2**width - 1, 2**width - 2]


@pytest.mark.parametrize("width", WIDTHS)
def test_wide_numbers_that_are_refused_change_nothing(library: bool, width: int) -> None:
    with Machine(library=library, profile=2) as machine:
        machine.set("S", 4)
        machine.field("w", "S", width)
        machine["w"] = [9] * 4
        with pytest.raises(Refusal) as error:
            machine["w", 0:] = [1, 2, 2**width, 4] if width < 128 else [1, 2, 3, 4, 5]
        assert (error.value.number, error.value.explanation.detail) == ((9, 2) if width < 128 else (8, None))
        with pytest.raises(Refusal) as error:
            machine["w"] = [1, 2**128, 3, 4]
        assert (error.value.number, error.value.column) == (20, 13)
        with pytest.raises(ValueError):
            machine["w"] = [1, 2, 3, -1]
        assert numbers(machine["w"]) == [9] * 4


def test_many_wide_numbers_go_in_several_lines(library: bool) -> None:
    values = [(v * 0x9E3779B97F4A7C15F39CC0605CEDC835) % 2**128 for v in range(4_096)]
    assert len(input_lines("w", 0, values)) > 1
    with Machine(library=library, profile=2) as machine:
        machine.set("S", 64, 64)
        machine.field("w", "S", 128)
        machine.field("n", "S", 127)
        machine["w"] = values
        machine["S.context", 0] = 0
        machine.insert("u-multiply-3-1L w w w 128")
        machine.settle()
        assert numbers(machine["w"]) == [values[0], *(value * value % 2**128 for value in values[1:])]
        with pytest.raises(Refusal) as error:
            machine["n"] = [1] * 4_000 + [2**127] + [1] * 95
        assert error.value.explanation.detail == 4_000 and set(numbers(machine["n"])) == {0}


def test_the_profiles_of_machines(library: bool) -> None:
    for profile in (0, 3, 128):
        with pytest.raises(ValueError, match="a profile is 1 or 2"):
            Machine(library=library, profile=profile)
    for profile, widest in ((1, 64), (2, 128)):
        with Machine(library=library, profile=profile) as machine:
            assert machine.profile == profile
            machine.set("S", 2)
            machine.field("w", "S", widest)
            with pytest.raises(Refusal, match=f"a field has 1 to {widest} bits") as error:
                machine.field("v", "S", widest + 1)
            assert error.value.number == 6
            assert machine.raw("paris 2") == ["refused 20 1"] and machine.profile == profile
    with Machine(library=library) as machine:
        assert machine.raw("# wide") == [] and machine.raw("paris 2") == ["ok"] and machine.profile == 2
        machine.set("S", 2)
        machine.field("w", "S", 128)
    with Machine(library=library) as machine:
        assert machine.raw("paris 3") == ["refused 20 7"] and machine.raw("paris 2") == ["refused 20 1"]
    with Machine(library=library, profile=2) as machine:
        assert machine.raw("paris 2") == ["refused 20 1"]


def test_numbers_beyond_64_bits_are_those_of_python() -> None:
    values = ValueArray.of(Grid("w", (2,), 100, (2**99, 1)))
    assert values.dtype == object and values.tolist() == [2**99, 1]
    assert ValueArray.of(Grid("w", (2,), 64, (2**64 - 1, 1))).dtype == numpy.uint64


def test_rows_as_html(machine: Machine) -> None:
    machine.insert("u-add-3-1L c a b 8")
    machine.settle()
    machine.insert("set-test S")
    html = machine.rows()._repr_html_()
    assert "2 rows" in html and "<code>u-add-3-1L c a b 8</code>" in html
    assert html.index("settled") < html.index("waiting")


def test_signed_and_unsigned() -> None:
    assert signed(200, 8) == -56 and unsigned(-56, 8) == 200
    assert signed([[0, 127], [128, 255]], 8) == [[0, 127], [-128, -1]]
    array = numpy.array([0, 2**63 - 1, 2**63, 2**64 - 1], dtype=numpy.uint64)
    assert signed(array, 64).dtype == numpy.int64
    assert signed(array, 64).tolist() == [0, 2**63 - 1, -(2**63), -1]
    assert unsigned(numpy.array([-1, 1, -(2**63)]), 64).tolist() == [2**64 - 1, 1, 2**63]
    assert signed([2**100 - 1], 100) == [-1] and unsigned([-1], 100) == [2**100 - 1]
    assert signed(1, 1) == -1
    for wrong in (256, -1):
        with pytest.raises(ValueError):
            signed(wrong, 8)
    for wrong in (256, -129):
        with pytest.raises(ValueError):
            unsigned(wrong, 8)


def test_a_killed_child() -> None:
    with Machine() as machine:
        machine.set("S", 4)
        os.kill(machine.process, signal.SIGKILL)
        with pytest.raises(Ended) as error:
            machine.rows()
        assert error.value.status == -signal.SIGKILL
        with pytest.raises(Ended):
            machine.settle()


def test_without_numpy_values_are_lists(library: bool) -> None:
    script = """
import sys
sys.path.insert(0, sys.argv[1])
class Without:
    def find_spec(self, name, path=None, target=None):
        if name.split(".")[0] == "numpy":
            raise ModuleNotFoundError(name)
sys.meta_path.insert(0, Without())
import pevudlo, pevudlo.values.shaped
pevudlo.values.shaped.find_spec = lambda name: None
with pevudlo.Machine(library=sys.argv[2] == "True") as machine:
    machine.set("S", 2, 2)
    machine.field("a", "S", 8)
    machine["a"] = [[1, 2], [3, 200]]
    assert machine["a"] == machine["a"].tolist() == [[1, 2], [3, 200]], machine["a"]
    assert pevudlo.signed(machine["a"], 8) == [[1, 2], [3, -56]]
    assert ">200<" in machine["a"]._repr_html_()
    try:
        machine["a"] = [[1, 2], [2**64, 3]]
    except pevudlo.Refusal as refusal:
        assert refusal.explanation.detail == 2
    machine["a"] = range(4)
    assert (machine["a", 3], machine["a", 1:]) == (3, [1, 2, 3])
    print(machine["a"])
assert "numpy" not in sys.modules
"""
    words = [sys.executable, "-c", script, str(REPOSITORY / "python"), str(library)]
    ran = subprocess.run(words, capture_output=True, text=True, timeout=60)
    assert (ran.stdout, ran.stderr) == ("[[0, 1], [2, 3]]\n", "")
