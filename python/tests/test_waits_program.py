"""Every wait for a program ends: by its reply, its end, a close of another thread, a fork, a signal."""

from __future__ import annotations

import os
import signal
import subprocess
import sys
import threading
import time
from collections.abc import Callable, Iterator
from pathlib import Path

import pytest
from waits import LIMIT, Told, status_of_child

from pevudlo import Ended, Machine, Pipe
from pevudlo.wire.program import ROOT


def fake(folder: Path, body: str) -> Path:
    """A program in Python that takes the place of paris_front."""
    path = folder / "fake"
    path.write_text(f"#!{sys.executable}\nimport os, subprocess, sys, time\n{body}\n")
    path.chmod(0o755)
    return path


SILENT = "sys.stdin.readline(); print('x', file=sys.stderr, flush=True); time.sleep(600)"


@pytest.fixture(params=["ask", "settle_line", "ask_all", "a-long-line"])
def asked(request: pytest.FixtureRequest, tmp_path: Path) -> Iterator[tuple[Pipe, Told]]:
    """A program that never answers, and a call that waits for it in another thread."""
    body = "time.sleep(600)" if request.param == "a-long-line" else SILENT
    pipe = Pipe(fake(tmp_path, body))
    calls: dict[str, Callable[[], object]] = {
        "ask": lambda: pipe.ask("list"),
        "settle_line": pipe.settle_line,
        "ask_all": lambda: pipe.ask_all(["list"] * 3),
        "a-long-line": lambda: pipe.ask("x" * 2_000_000),
    }
    told = Told(calls[request.param])
    time.sleep(0.3)
    assert not told.is_over
    yield pipe, told
    Told(pipe.close).wait()


def test_close_ends_a_call_that_waits_for_a_reply(asked: tuple[Pipe, Told]) -> None:
    pipe, told = asked
    assert Told(pipe.close).wait().value == -signal.SIGKILL
    assert isinstance(told.wait().error, Ended) and "the program is closed" in str(told.error)
    assert isinstance(Told(lambda: pipe.ask("list")).wait().error, Ended)


def test_a_child_of_the_process_makes_no_call_of_a_program(asked: tuple[Pipe, Told]) -> None:
    """Another thread holds the lock there for ever, and what the child wrote would stand between the parent's lines."""
    pipe, told = asked
    for call in (lambda: pipe.ask("list"), pipe.settle_line, lambda: pipe.ask_all([])):
        assert status_of_child(call) == "RuntimeError"
    assert status_of_child(pipe.close) == "0"
    assert not told.is_over and pipe._child.poll() is None


def test_a_child_leaves_the_program_to_its_parent() -> None:
    with Machine() as machine:
        machine.set("S", 4)
        assert status_of_child(machine.rows) == status_of_child(lambda: machine.set("T", 4)) == "RuntimeError"
        assert status_of_child(machine.close) == "0"
        machine.set("T", 4)
        assert dict(machine.sets) == {"S": (4,), "T": (4,)}


def test_close_ends_what_the_program_has_started(tmp_path: Path) -> None:
    """A program behind a script that starts it: the reply is waited for from the one below."""
    below = "subprocess.run([sys.executable, '-c', 'import time; time.sleep(600)'])"
    pipe = Pipe(fake(tmp_path, below))
    told = Told(lambda: pipe.ask("list"))
    time.sleep(0.5)
    Told(pipe.close).wait()
    assert isinstance(told.wait().error, Ended)


IN_A_HANDLER = """
import signal, sys
from pathlib import Path
sys.path.insert(0, sys.argv[1])
from pevudlo import Ended, Pipe
pipe = Pipe(Path(sys.argv[2]))
def handle(number, frame):
    try:
        print(pipe.close() if sys.argv[3] == "close" else pipe.ask("list"))
    except RuntimeError as error:
        print(error)
signal.signal(signal.SIGALRM, handle)
signal.setitimer(signal.ITIMER_REAL, 0.2)
try:
    print(pipe.ask("release"))
except Ended as ended:
    print(ended.args[0])
pipe.close()
"""


@pytest.mark.parametrize(
    ("name", "said"),
    [
        ("ask", "a talk with the program is in one call at a time\n['ok']\n"),
        ("close", "-9\nthe program is closed (killed by signal 9)\n"),
    ],
)
def test_a_call_in_a_handler_of_signals(tmp_path: Path, name: str, said: str) -> None:
    """It comes into another call of the same thread, which can't come back before it does."""
    program = fake(tmp_path, "for line in sys.stdin: time.sleep(0.5); print('ok', flush=True)")
    words = [sys.executable, "-c", IN_A_HANDLER, str(ROOT / "python"), str(program), name]
    ran = subprocess.run(words, capture_output=True, text=True, timeout=LIMIT)
    assert ran.stdout == said, ran.stderr


IN_A_SETTLE = """
import os, signal, sys, threading, time
from pathlib import Path
sys.path.insert(0, sys.argv[1])
from pevudlo import Pipe
pipe = Pipe(Path(sys.argv[2]))
threading.Timer(0.5, lambda: os.kill(os.getpid(), signal.SIGINT)).start()
try:
    pipe.settle_line()
except KeyboardInterrupt:
    print("interrupted", pipe.close())
"""


@pytest.mark.parametrize("begun", ["", "settl", "rows 5\\n"])
def test_ctrl_c_in_a_settle_of_which_a_part_is_answered(tmp_path: Path, begun: str) -> None:
    """The program doesn't say the rest of its reply. Nothing waits for that with Ctrl-C put off."""
    program = fake(tmp_path, f"sys.stdin.readline(); os.write(1, b'{begun}'); time.sleep(600)")
    words = [sys.executable, "-c", IN_A_SETTLE, str(ROOT / "python"), str(program)]
    ran = subprocess.run(words, capture_output=True, text=True, timeout=LIMIT)
    assert ran.stdout == f"interrupted {-signal.SIGKILL}\n", ran.stderr


def test_close_while_calls_are_under_way(library: bool) -> None:
    """Threads make calls of all kinds when the machine is closed: each comes back, by its answer or by Ended."""
    for _ in range(15):
        machine = Machine(library=library)
        machine.set("S", 4096)
        machine.field("a", "S", 32)
        for _ in range(40):
            machine.insert("u-truncate-3-1L a a a 32")

        def edit(machine: Machine = machine) -> None:
            while True:
                machine["a"] = range(4096)
                machine.rows()
                machine["a"]

        told = [Told(edit), Told(edit), Told(machine.settle)]
        time.sleep(0.02)
        assert isinstance(Told(machine.close).wait().value, int)
        for each in told[:2]:
            assert isinstance(each.wait().error, Ended), each
        assert isinstance(told[2].wait().error, (Ended, type(None)))


def test_ctrl_c_while_calls_are_under_way(library: bool) -> None:
    """Ctrl-C ends this thread's call, and another thread closes the machine: nothing hangs."""
    for _ in range(10):
        machine = Machine(library=library)
        machine.set("S", 65536)
        machine.field("a", "S", 64)
        for _ in range(60):
            machine.insert("u-truncate-3-1L a a a 64")
        threading.Timer(0.02, lambda: os.kill(os.getpid(), signal.SIGINT)).start()
        with pytest.raises(KeyboardInterrupt):
            machine.settle()
            time.sleep(LIMIT)
        told = Told(machine.rows)
        assert isinstance(Told(machine.close).wait().value, int)
        assert isinstance(told.wait().error, (Ended, type(None)))
