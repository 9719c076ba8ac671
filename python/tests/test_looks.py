"""Looks that are changed in place, one number for every processor, and a machine's own text."""

from __future__ import annotations

import operator
import os
import signal
import subprocess
import sys
import threading
import time
from collections.abc import Callable, Iterator
from typing import Any

import numpy
import pytest
from test_running import slow
from waits import LIMIT, Told, status_of_child, within

from pevudlo import Machine, Refusal, Status, paris
from pevudlo.values.arrays import ValueArray
from pevudlo.wire.program import ROOT

IN_PLACE = {
    "iadd": "+",
    "isub": "-",
    "imul": "*",
    "itruediv": "//",
    "ifloordiv": "//",
    "imod": "%",
    "iand": "&",
    "ior": "|",
    "ixor": "^",
    "ilshift": "<<",
    "irshift": ">>",
    "imatmul": "@",
    "ipow": "**",
}
VALUES = [1, 2, 3, 4]


@pytest.fixture
def machine(library: bool) -> Iterator[Machine]:
    with Machine(library=library) as made:
        made.set("S", 4)
        made.field("a", "S", 8)
        made["a"] = VALUES
        yield made


def look(machine: Machine) -> ValueArray:
    """The values of the field."""
    values = machine["a"]
    assert isinstance(values, ValueArray)
    return values


# In place


@pytest.mark.parametrize("name", IN_PLACE)
def test_an_operator_in_place_says_what_to_write(machine: Machine, name: str) -> None:
    """It changes neither the look nor the machine, and the text that it says is one that can be written."""
    values = look(machine)
    with pytest.raises(ValueError) as error:
        getattr(operator, name)(values, 3)
    written = f'machine["a"] = machine["a"] {IN_PLACE[name]} ..'
    assert written in str(error.value) and 'machine["a"].copy()' in str(error.value)
    assert values.tolist() == look(machine).tolist() == VALUES


def test_what_is_said_can_be_written(machine: Machine) -> None:
    untyped: Any = machine
    with pytest.raises(ValueError, match="can't be written to"):
        untyped["a"] += 1
    with pytest.raises(ValueError, match=r"machine\[key, first:\] = machine\[key, first:\] \+ \.\."):
        untyped["a", 1:] += 1
    untyped["a"] = untyped["a"] + 1
    assert look(machine).tolist() == [2, 3, 4, 5]
    untyped["a", 2] += 1
    assert look(machine).tolist() == [2, 3, 5, 5]


def test_a_copy_is_changed_in_place(machine: Machine) -> None:
    for name in ("iadd", "imul", "ifloordiv", "ipow", "ilshift"):
        mine: Any = look(machine).copy()
        changed = getattr(operator, name)(mine, 2)
        assert changed is mine
        assert mine.tolist() == [getattr(operator, name)(value, 2) for value in VALUES]
    mine[0] = 9
    assert mine[0] == 9 and look(machine).tolist() == VALUES


@pytest.mark.parametrize(
    "call",
    [
        lambda a: numpy.add(a, 1, out=a),
        lambda a: numpy.add(numpy.ones(4, dtype="u8"), 1, out=(a,)),
        lambda a: numpy.divmod(a, 2, out=(numpy.zeros(4, dtype="u8"), a)),
        lambda a: numpy.square(a, out=a),
        lambda a: numpy.add.accumulate(a, out=a),
        lambda a: numpy.add.at(a, [0], 1),
        lambda a: a.cumsum(out=a),
        lambda a: a.clip(0, 1, out=a),
        lambda a: a.__setitem__(0, 1),
        lambda a: a.fill(3),
        lambda a: a.sort(),
        lambda a: numpy.copyto(a, 1),
        lambda a: numpy.put(a, [0], [1]),
    ],
)
def test_results_are_not_put_into_a_look(machine: Machine, call: Callable[[ValueArray], object]) -> None:
    values = look(machine)
    with pytest.raises(ValueError, match="can't be written to|read-only"):
        call(values)
    assert values.tolist() == look(machine).tolist() == VALUES


def test_results_are_put_into_arrays_and_copies(machine: Machine) -> None:
    values, room = look(machine), numpy.zeros(4, dtype="u8")
    assert numpy.add(values, 1, out=room) is room and room.tolist() == [2, 3, 4, 5]
    room += values
    assert type(room) is numpy.ndarray and room.tolist() == [3, 5, 7, 9]
    mine = values.copy()
    assert numpy.add(values, 1, out=mine) is mine and mine.tolist() == [2, 3, 4, 5]
    numpy.add.at(mine, [0, 0], 1)
    assert mine.tolist() == [4, 3, 4, 5] and numpy.add.reduce(values) == 10
    assert [part.tolist() for part in numpy.divmod(values, 2)] == [[0, 1, 1, 2], [1, 0, 1, 0]]


def test_lists_in_lists_are_not_changed_in_place(library: bool) -> None:
    """Where numpy isn't there `*=` would repeat a list, and `+=` would make it longer."""
    script = """
import sys
sys.path.insert(0, sys.argv[1])
import pevudlo, pevudlo.values.shaped
pevudlo.values.shaped.find_spec = lambda name: None
with pevudlo.Machine(library=sys.argv[2] == "True") as machine:
    machine.set("S", 2, 2)
    machine.field("a", "S", 8)
    machine["a"] = 7
    machine["a", 1:3] = 8
    values = machine["a"]
    def item(): values[0] = [1, 2]
    def add(): machine["a"] += [1]
    def times(): machine["a"] *= 2
    for change in (item, add, times):
        try:
            change()
        except ValueError as error:
            print(error)
    mine = values.copy()
    mine *= 2
    print(values, machine["a"], len(mine))
    machine["a"] = [number * 2 for number in machine["a", 0:]]
    print(machine["a"])
assert "numpy" not in sys.modules
"""
    words = [sys.executable, "-c", script, str(ROOT / "python"), str(library)]
    ran = subprocess.run(words, capture_output=True, text=True, timeout=LIMIT)
    item, add, times, *values = ran.stdout.split("\n")
    assert all("values of a are a look, and can't be written to" in line for line in (item, add, times)), ran.stderr
    assert 'machine["a"] = [number + .. for number in machine["a", 0:]]' in add
    assert 'machine["a"] = [number * .. for number in machine["a", 0:]]' in times
    assert values == ["[[7, 8], [8, 7]] [[7, 8], [8, 7]] 4", "[[14, 16], [16, 14]]", ""]


# One number for every processor


@pytest.mark.parametrize(
    ("number", "value"),
    [(3, 3), (True, 1), (False, 0), (255, 255), (numpy.uint8(200), 200), (numpy.int64(5), 5), (numpy.bool_(True), 1)]
    + [(numpy.array(9), 9), (numpy.array(True), 1), (Status.SETTLED.value.count("t"), 2)],
)
def test_one_number_is_given_to_every_processor(machine: Machine, number: Any, value: int) -> None:
    machine["a"] = number
    assert look(machine).tolist() == [value] * 4
    machine["a"] = VALUES
    machine["a", 2:] = number
    assert look(machine).tolist() == [1, 2, value, value]
    machine["a"] = VALUES
    machine["a", 1:3] = number
    assert look(machine).tolist() == [1, value, value, 4]
    machine["a"] = VALUES
    machine["a", -3:-1] = number
    assert look(machine).tolist() == [1, value, value, 4]


def test_one_number_for_flags_and_for_sets_of_axes(library: bool) -> None:
    with Machine(library=library, profile=2) as machine:
        machine.set("G", 4, 2)
        machine.field("w", "G", 128)
        machine["w"] = 2**128 - 1
        values = machine["w"]
        assert isinstance(values, ValueArray) and values.tolist() == [[2**128 - 1] * 4] * 2
        for flag in ("G.context", "G.test", "G.carry", "G.overflow"):
            machine[flag] = 1
            assert machine[flag].tolist() == [[1] * 4] * 2  # type: ignore[union-attr]
            machine[flag, 3:] = False
            assert machine[flag].tolist() == [[1, 1, 1, 0], [0] * 4]  # type: ignore[union-attr]


def test_one_number_for_many_processors(library: bool) -> None:
    with Machine(library=library) as machine:
        machine.set("S", 65536)
        machine.field("a", "S", 64)
        machine["a"] = 2**64 - 1
        assert set(look(machine).tolist()) == {2**64 - 1}
        with pytest.raises(Refusal):
            machine["a"] = 2**64
        assert set(look(machine).tolist()) == {2**64 - 1}


def test_one_number_is_one_edit_over_the_library(libparis: object) -> None:
    with Machine(library=True, workers=2) as machine:
        machine.set("S", 65536)
        machine.field("a", "S", 64)
        machine["a"] = 5
        assert machine.undo() == "input a 0 .."
        assert set(look(machine).tolist()) == {0}


@pytest.mark.parametrize(
    ("number", "error"),
    [(7.0, TypeError), (numpy.float64(7), TypeError), (numpy.array(7.0), TypeError), (None, TypeError), (1j, TypeError)]
    + [("7", TypeError), (int, TypeError), (-1, ValueError), (numpy.int8(-1), ValueError), (256, Refusal)],
)
def test_what_is_no_number_for_every_processor(machine: Machine, number: Any, error: type[Exception]) -> None:
    for index in ("a", ("a", slice(1, None)), ("a", slice(1, 3))):
        with pytest.raises(error):
            machine[index] = number  # type: ignore[index]
    assert look(machine).tolist() == VALUES


@pytest.mark.parametrize(
    ("part", "error"),
    [(slice(4, None), Refusal), (slice(2, 5), Refusal), (slice(9, 12), Refusal), (slice(0, 10**12), Refusal)]
    + [(slice(10**15, None), Refusal), (slice(2, 2), ValueError), (slice(3, 1), ValueError)]
    + [(slice(0, 4, 2), ValueError), (slice(None, None, -1), ValueError), (slice(-5, None), IndexError)],
)
def test_parts_to_which_no_number_can_be_given(machine: Machine, part: slice, error: type[Exception]) -> None:
    with pytest.raises(error):
        machine["a", part] = 7
    assert look(machine).tolist() == VALUES


def test_one_number_for_a_key_that_is_not_there(machine: Machine) -> None:
    for index in ("z", ("z", slice(1, None)), ("z", slice(1, 3))):
        with pytest.raises(Refusal) as refusal:
            machine[index] = 7  # type: ignore[index]
        assert refusal.value.name == "NoField"


# A machine's text


def test_a_machine_says_what_it_has(library: bool) -> None:
    with Machine(library=library) as machine:
        head = "<Machine over the library" if library else "<Machine over a program"
        assert repr(machine) == f"{head}: nothing is declared; no rows>"
        machine.set("S", 4)
        machine.set("G", 4, 2)
        machine.field("a", "S", 8)
        machine.field("x", "G", 16)
        machine.field("b", "S", 9)
        declared = "sets S 4, G 4x2; fields a 8, b 9 of S; field x 16 of G"
        assert repr(machine) == f"{head}: {declared}; no rows>"
        machine.insert(paris.u_add("a", "a", "a", 8))
        machine.insert(paris.u_move("x", "x", 8))
        assert repr(machine) == str(machine) == f"{head}: {declared}; 2 rows, 2 unsettled: 1, 2>"
        machine.settle()
        assert repr(machine) == f"{head}: {declared}; 2 rows, settled>"
        machine["x"] = 7
        assert repr(machine) == f"{head}: {declared}; 2 rows, 1 unsettled: 2>"
    assert repr(machine) == f"{head}, closed: {declared}; 2 rows>"


def test_a_large_machine_says_it_in_one_line(library: bool) -> None:
    with Machine(library=library, profile=2) as machine:
        for name in "ABCDEFGH":
            machine.set(name, 1)
            for number in range(12 if name == "A" else 7):
                machine.field(f"{name}{number}", name, 8)
        for _ in range(3_000):
            machine.insert("set-test A")
        text = repr(machine)
        assert "\n" not in text and len(text) < 1_000
        assert ", profile 2: sets A 1, B 1," in text and "A7 8, .. (12) of A" in text
        assert text.endswith("3,000 rows, 3,000 unsettled: 1, 2, 3, 4, 5, 6, 7, 8, .. (3,000)>")


def test_a_text_waits_for_no_call(library: bool) -> None:
    """Another thread settles, or holds the lock: the text has what is known without it."""
    with Machine(library=library) as machine:
        machine.set("S", 65536)
        machine.field("a", "S", 64)
        for _ in range(300):
            machine.insert("u-truncate-3-1L a a a 64")
        told, texts = Told(machine.settle), []
        while not told.is_over:
            begun = time.monotonic()
            texts.append(repr(machine))
            assert time.monotonic() - begun < 2
        assert all("set S 65536; field a 64 of S; 300 rows" in text for text in texts)
        held, free = threading.Event(), threading.Event()

        def hold() -> None:
            with machine._talk.lock:
                held.set()
                free.wait(LIMIT)

        holder = Told(hold)
        held.wait(LIMIT)
        assert Told(lambda: repr(machine)).wait().value.endswith("; 300 rows>")
        free.set()
        holder.wait()
        assert repr(machine).endswith("; 300 rows, settled>")


def test_a_text_does_not_wait_for_a_settle_that_goes_on() -> None:
    """Ctrl-C ended its wait, and the next call waits for it."""
    with Machine() as machine:
        machine.set("S", 65536)
        machine.field("a", "S", 64)
        for _ in range(4_000):
            machine.insert("u-truncate-3-1L a a a 64")
        threading.Timer(0.05, lambda: os.kill(os.getpid(), signal.SIGINT)).start()
        with pytest.raises(KeyboardInterrupt):
            machine.settle()
            time.sleep(LIMIT)
        begun = time.monotonic()
        assert repr(machine).endswith("; 4,000 rows>") and time.monotonic() - begun < 0.5


def test_a_text_while_rows_run(libparis: object) -> None:
    machine, ids = slow(40)
    with machine:
        machine.start()
        texts = set[str]()
        while machine.progress.settled < 40:
            texts.add(repr(machine).rpartition("; ")[2])
        assert any("unsettled: " in text for text in texts) or within(LIMIT, lambda: not machine.unsettled())
        assert repr(machine).endswith("; 40 rows, settled>")


def test_a_text_raises_nothing(library: bool) -> None:
    with Machine(library=library) as machine:
        machine.set("S", 4)
        machine.insert("set-test S")
        assert ", of another process: set S 4; 1 row>" in status_of_child(lambda: machine)
        if not library:
            os.kill(machine.process, signal.SIGKILL)
            assert within(LIMIT, lambda: ", closed: set S 4; 1 row>" in repr(machine))
    assert repr(Machine.__new__(Machine)) == "<Machine>"
