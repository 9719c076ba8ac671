"""Undo by bytes: what steps are said to take beside what the C library's memory says, and which steps go."""

from __future__ import annotations

import ctypes
import gc
import os
import subprocess
import sys
from collections.abc import Callable
from pathlib import Path
from random import Random
from typing import Any

import pytest

from pevudlo import Machine, after
from pevudlo.live.running import RunningSession
from pevudlo.running import held
from pevudlo.running.held import LIMITS, VARIABLE, WrongVariable, bytes_text, limit_in, memory, usual_bytes
from pevudlo.running.history import History

FIELDS = "abcdef"
NO_BOUND = 1 << 60
PYTHON = Path(__file__).resolve().parents[1]
LARGE = 65_536
PLANES = 34
"""A sum of 32 bits has so many planes: its own, and two flags."""


class Told(ctypes.Structure):
    """What the C library tells of its memory."""

    _fields_ = [
        (name, ctypes.c_size_t)
        for name in "arena ordblks smblks hblks hblkhd usmblks fsmblks uordblks fordblks keepcost".split(" ")
    ]


@pytest.fixture(scope="module")
def used() -> Callable[[], int]:
    """How many bytes are asked for and not given back."""
    ask: Any = getattr(ctypes.CDLL(None), "mallinfo2", None)
    if ask is None:
        pytest.skip("the C library doesn't tell of its memory")
    ask.restype = Told

    def count() -> int:
        gc.collect()
        told = ask()
        return int(told.uordblks + told.hblkhd)

    return count


def history_of(machine: Machine) -> History:
    """The steps of a machine."""
    background = machine._background
    assert background is not None
    return background.history


def truth_of(history: History, used: Callable[[], int]) -> int:
    """What the steps hold alone: so much is given back when they go."""
    before = used()
    history.clear()
    return before - used()


class Editor:
    """Edits a machine at random, and runs some of its rows. Its results are large beside all else that a step keeps."""

    def __init__(self, seed: int) -> None:
        self.dice = Random(seed)
        self.machine = Machine(library=True, workers=1, undo_bytes=NO_BOUND)
        self.machine.set("S", 16_384)
        for name in FIELDS:
            self.machine.field(name, "S", 64)
        for _ in range(self.dice.randrange(3, 9)):
            self.machine.insert(self.instruction())
        self.machine.raw("settle")
        history_of(self.machine).begin()

    def instruction(self) -> str:
        """An instruction whose result is another one where what it reads is."""
        to, one, other = self.dice.sample(FIELDS, 3)
        return f"{self.dice.choice(['u-add', 'u-subtract', 'logxor'])}-3-1L {to} {one} {other} 64"

    def act(self) -> None:
        """An edit, rows that run, or a step of the history."""
        machine, ids = self.machine, self.machine._board.rows
        history = history_of(machine)
        match self.dice.randrange(14):
            case 0 | 1:
                machine[self.dice.choice(FIELDS)] = self.dice.randrange(1 << 64)
            case 2:
                machine.insert(self.instruction(), *([after(self.dice.choice(ids))] if ids else []))
            case 3:
                machine.replace(self.dice.choice(ids), self.instruction())
            case 4 if len(ids) > 3:
                machine.delete(self.dice.choice(ids))
            case 5 | 6 | 7:
                history._book.run(self.dice.randrange(1, 4))
            case 8:
                machine.settle_for(self.dice.choice(FIELDS))
            case 9 | 10 if history.done:
                machine.undo()
            case 11 if history.undone:
                machine.redo()
            case 12:
                machine.raw("settle")


def test_steps_hold_no_more_than_they_are_said_to(used: Callable[[], int], libparis: Path) -> None:
    for seed in range(80):
        editor = Editor(seed)
        for _ in range(editor.dice.randrange(2, 40)):
            editor.act()
        with editor.machine as machine:
            history = history_of(machine)
            history.look()
            # As the oldest steps go, and as an edit forgets those that were taken back.
            del history.done[: editor.dice.choice([0, 1, len(history.done) // 2])]
            if editor.dice.random() < 0.3:
                history.undone.clear()
            said = history.bytes
            assert said >= 0.9 * truth_of(history, used), seed


def fill(machine: Machine, names: str, width: int, processors: int) -> None:
    """Gives fields numbers whose bits are mixed: a plane that is one bit throughout takes no words."""
    dice = Random(width)
    for name in names:
        machine[name] = [dice.getrandbits(width) for _ in range(processors)]


def chain() -> tuple[Machine, History]:
    """A machine with two settled rows, of which the second reads what the first writes, and its steps."""
    machine = Machine(library=True, workers=1, undo_bytes=NO_BOUND)
    machine.set("S", LARGE)
    for name in FIELDS:
        machine.field(name, "S", 64)
    fill(machine, FIELDS, 64, LARGE)
    machine.insert("logxor-3-1L b a e 64")
    machine.insert("logxor-3-1L c b e 64")
    machine.settle()
    history_of(machine).begin()
    return machine, history_of(machine)


def run_one(machine: Machine) -> None:
    """Runs the first row that is ready."""
    assert history_of(machine)._book.run(1) == 1


def holds_no_more_than_is_said(history: History, values: int, used: Callable[[], int]) -> bool:
    """Whether steps hold no more than is said, where so many values of 64 bits are what they hold."""
    history.look()
    said, value = history.bytes, 64 * LARGE // 8
    truth = truth_of(history, used)
    assert values * value <= truth < (values + 0.5) * value
    return 0.9 * truth <= said


def test_what_a_row_read_last_is_held_until_it_runs(used: Callable[[], int], libparis: Path) -> None:
    machine, history = chain()
    with machine:
        machine["a", 0] = 1
        run_one(machine)
        machine["f", 0] = 2
        machine["f", 0] = 3
        run_one(machine)
        del history.done[0]
        # Two values of f, what the second row wrote, and what it read.
        assert holds_no_more_than_is_said(history, 4, used)


def test_what_is_taken_back_is_held_too(used: Callable[[], int], libparis: Path) -> None:
    machine, history = chain()
    with machine:
        machine["a", 0] = 1
        machine.settle()
        machine.undo()
        assert holds_no_more_than_is_said(history, 3, used)
    machine, history = chain()
    with machine:
        machine.insert("logxor-3-1L d c e 64")
        machine.settle()
        machine.undo()
        assert holds_no_more_than_is_said(history, 1, used)


def test_what_is_replaced_between_two_edits_is_held_on_both_sides(used: Callable[[], int], libparis: Path) -> None:
    machine, history = chain()
    with machine:
        machine["a", 0] = 1
        machine["f", 0] = 2
        machine.undo()
        machine.settle()
        history.done.clear()
        # The value of f, and what the two rows wrote and read before.
        assert holds_no_more_than_is_said(history, 4, used)


def test_a_row_that_is_replaced_and_put_back_has_its_result(used: Callable[[], int], libparis: Path) -> None:
    machine, history = chain()
    with machine:
        row = machine._board.rows[1]
        machine.replace(row, "logxor-3-1L c b a 64")
        machine.undo()
        machine["a", 0] = 1
        machine.settle()
        assert holds_no_more_than_is_said(history, 3, used)


def sums(rows: int, processors: int, undo_bytes: int = NO_BOUND) -> Machine:
    """A machine with sums of 32 bits, each of the one before it and of `a`, which are settled."""
    machine = Machine(library=True, workers=1, undo_bytes=undo_bytes)
    machine.set("S", processors)
    for name in "abcd":
        machine.field(name, "S", 32)
    fill(machine, "abcd", 32, processors)
    for row in range(rows):
        machine.insert(f"u-add-3-1L {'bcd'[row % 3]} {'dbc'[row % 3]} a 32")
    machine.settle()
    return machine


@pytest.mark.parametrize("processors", [64, 1_024, LARGE])
def test_what_runs_again_is_said_nearly_as_it_is(processors: int, used: Callable[[], int], libparis: Path) -> None:
    with sums(20, processors) as machine:
        history = history_of(machine)
        history.begin()
        for turn in range(10):
            machine["a", 0] = turn + 1
            machine.settle()
        history.look()
        said = history.bytes
        truth = truth_of(history, used)
        assert 10 * 20 * PLANES * processors // 8 < truth
        assert 0.9 * truth <= said <= 1.15 * truth + 10 * 20_000


def test_rows_that_are_cut_off_and_rows_that_never_ran_count_little(used: Callable[[], int], libparis: Path) -> None:
    with Machine(library=True, workers=1, undo_bytes=NO_BOUND) as machine:
        machine.set("S", LARGE)
        for name in "abc":
            machine.field(name, "S", 32)
        machine.insert("u-move-1L b a 1")
        for _ in range(30):
            machine.insert("logxor-3-1L c c b 32")
        machine.settle()
        history = history_of(machine)
        history.look()
        assert history.bytes < 2_000_000, "what ran for the first time has replaced nothing"
        machine["a", 0] = 2
        assert machine.settle() == 1
        history.look()
        assert history.bytes < 2_000_000, "thirty rows would be eight megabytes"
        said = history.bytes
        assert said >= 0.9 * truth_of(history, used)


def test_the_oldest_steps_go_where_they_take_too_much(libparis: Path) -> None:
    each = 20 * PLANES * LARGE // 8
    with sums(20, LARGE, undo_bytes=4 * each) as machine:
        for turn in range(8):
            machine["a", 0] = turn + 1
            machine.settle()
        machine["b", 0] = 5
        history = history_of(machine)
        assert history.bytes <= 4 * each
        assert len(history.done) == 4 and history.done[0].line.startswith("input a")
        for _ in range(4):
            machine.undo()
        # The last three of eight were kept, and what the fourth of them gave is there.
        assert machine["a", 0] == 5
        with pytest.raises(IndexError, match=r"nothing to undo: older steps took more than \d+ MB of memory"):
            machine.undo()
        for _ in range(3):
            machine.redo()
        assert machine["a", 0] == 8


def test_steps_go_while_rows_run(libparis: Path) -> None:
    each = 20 * PLANES * LARGE // 8
    with sums(20, LARGE, undo_bytes=each // 2) as machine:
        machine["a", 0] = 1
        history = history_of(machine)
        assert history.done
        machine.settle()
        assert not history.done, "twenty rows hold twice as much"
        assert machine["a", 0] == 1


def test_nothing_is_kept_where_no_byte_may_be(libparis: Path) -> None:
    with sums(2, 4, undo_bytes=0) as machine, machine.copy() as other:
        for each in (machine, other):
            each["a", 0] = 1
            with pytest.raises(IndexError):
                each.undo()
            assert each["a", 0] == 1


def test_a_page_says_that_older_edits_are_gone(libparis: Path, monkeypatch: pytest.MonkeyPatch) -> None:
    monkeypatch.setenv(VARIABLE, "30")
    session = RunningSession(libparis, 1)
    session.load([f"set S {LARGE}", "field a S 64", "field b S 64", *["insert end u-add-3-1L b a b 64"] * 20])
    assert session.background.crew.wait(60)
    for turn in range(6):
        session.run(f"input a 0 {turn + 1}")
        assert session.background.crew.wait(60)
    state = session.state(0)
    count = len(session.background.history.done)
    assert count < 6 and (state["at"], state["of"], state["dropped"]) == (count, count, "30 MB")
    session.close()


def test_the_bound_is_a_part_of_the_memory_or_what_the_variable_says(
    monkeypatch: pytest.MonkeyPatch, tmp_path: Path
) -> None:
    monkeypatch.delenv(VARIABLE, raising=False)
    whole = os.sysconf("SC_PAGE_SIZE") * os.sysconf("SC_PHYS_PAGES")
    assert usual_bytes() == min(whole, *map(limit_in, LIMITS)) // 4
    limit = tmp_path / "memory.max"
    monkeypatch.setattr(held, "LIMITS", (limit, tmp_path / "none"))
    for text, wanted in (("max\n", whole), ("8000000\n", 8_000_000), (f"{2 * whole}\n", whole)):
        limit.write_text(text)
        assert memory() == wanted
    monkeypatch.setenv(VARIABLE, "250")
    assert usual_bytes() == 250_000_000
    monkeypatch.setenv(VARIABLE, "a few")
    with pytest.raises(WrongVariable, match="is `a few`, and a number of megabytes is wanted"):
        usual_bytes()


@pytest.mark.parametrize("module", ["live", "prompt"])
def test_a_command_says_that_the_variable_is_wrong(module: str, libparis: Path) -> None:
    words = [sys.executable, "-m", "pevudlo", module]
    environment = {**os.environ, VARIABLE: "-1", "PARIS_LIBRARY": str(libparis)}
    ran = subprocess.run(words, env=environment, cwd=PYTHON, input="", capture_output=True, text=True, timeout=60)
    said = f"paris {module}: {VARIABLE} is `-1`, and a number of megabytes is wanted\n"
    assert (ran.returncode, ran.stdout, ran.stderr) == (2, "", said)


@pytest.mark.parametrize(
    ("count", "text"), [(0, "0 MB"), (30_000_000, "30 MB"), (999_400_000, "999 MB"), (4_000_000_000, "4.0 GB")]
)
def test_bytes_in_words(count: int, text: str) -> None:
    assert bytes_text(count) == text
