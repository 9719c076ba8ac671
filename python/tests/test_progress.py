"""The line of progress: on a terminal alone, gone at the end, and no reply is another for it."""

from __future__ import annotations

import io
import os
import pty
import signal
import subprocess
import sys
import threading
import time
from collections.abc import Iterator
from contextlib import contextmanager
from pathlib import Path

import pytest
from terminals import Terminal
from test_explain import said_of

from pevudlo import progress
from pevudlo.live import session
from pevudlo.live.running import RunningSession
from pevudlo.page.page import page_of
from pevudlo.progress import Later, Progress, ProgressLine, line_of, seconds_text
from pevudlo.wire.pipe import Pipe
from pevudlo.wire.program import ROOT, find

# A program that settles for more than a second, with three rows of which two wait.
SLOW = """#!/bin/sh
while read -r line; do
    case "$line" in
        settle) sleep 1.4; echo settled 2 ;;
        list) printf '%s\\n' 'rows 3' '1 edition 4 settled set-test S' '2 edition 5 waiting a' '3 edition 6 out b' ;;
        faults) echo faults 0 ;;
        insert*) row=$((row + 1)); echo row $row ;;
        *) echo ok ;;
    esac
done
"""
# The program, which gets a line that settles a second late.
LATE = """#!/bin/sh
while IFS= read -r line; do
    [ "$line" = settle ] && sleep 1.4
    printf '%s\\n' "$line"
done | {} "$@"
"""
SCRIPT = "set S 4\n" + "insert end set-test S\n" * 3 + "settle\nset T 4\n"
WAITING = "line 5 of 6: settles 2 of 3 rows, "


def ran(*words: str | Path, program: Path | None = None, stdin: int = subprocess.DEVNULL) -> tuple[int, str, str]:
    """The exit status of a command, what it writes, and what stands on standard error, which is a terminal."""
    environment = {**os.environ, "PARIS_FRONT": str(program or find()), "PYTHONPATH": str(ROOT / "python")}
    ours, theirs = pty.openpty()
    seen: list[bytes] = []

    def look() -> None:
        """Takes what comes until the other end is closed."""
        try:
            while data := os.read(ours, 1 << 16):
                seen.append(data)
        except OSError:
            # That is how the end of a pseudo-terminal is told.
            pass

    command = [sys.executable, "-P", "-m", "pevudlo", *map(str, words)]
    with subprocess.Popen(command, stdin=stdin, stdout=subprocess.PIPE, stderr=theirs, env=environment) as child:
        os.close(theirs)
        looks = threading.Thread(target=look)
        looks.start()
        written, _ = child.communicate(timeout=120)
        looks.join()
    os.close(ours)
    return child.returncode, written.decode(), b"".join(seen).decode()


def left(seen: str) -> str:
    """What stands on a terminal's last line after all: each return begins the line anew."""
    line = ""
    for part in seen.split("\r"):
        line = part + line[len(part) :]
    return line.rstrip()


@pytest.fixture
def slow(tmp_path: Path) -> Path:
    program = tmp_path / "slow"
    program.write_text(SLOW)
    program.chmod(0o755)
    (tmp_path / "slow.paris").write_text(SCRIPT)
    return program


def test_explain_says_how_many_rows_wait_and_for_how_long(slow: Path, tmp_path: Path) -> None:
    status, written, seen = ran("explain", tmp_path / "slow.paris", program=slow)
    assert WAITING + "0 s" in seen and WAITING + "1 s" in seen
    assert left(seen) == "" and "\n" not in seen and "\x1b" not in seen
    environment = {**os.environ, "PARIS_FRONT": str(slow), "PYTHONPATH": str(ROOT / "python")}
    words = [sys.executable, "-P", "-m", "pevudlo", "explain", str(tmp_path / "slow.paris")]
    plain = subprocess.run(words, capture_output=True, text=True, timeout=60, env=environment)
    assert (plain.returncode, plain.stdout, plain.stderr) == (status, written, "")


def test_quiet_turns_it_off(slow: Path, tmp_path: Path) -> None:
    assert ran("explain", "--quiet", tmp_path / "slow.paris", program=slow) == (0, "", "")


def test_a_page_and_its_orders_are_the_same(tmp_path: Path) -> None:
    """The program's own replies, where it takes a second to settle."""
    late = tmp_path / "late"
    late.write_text(LATE.format(find()))
    late.chmod(0o755)
    script = tmp_path / "turns.paris"
    rows = "insert end u-add-3-1L a a b 8\n" * 3
    script.write_text(f"set S 4\nfield a S 8\nfield b S 8\n{rows}settle\ntake\nreplace 1 set-test S\ntake\n")
    commands: tuple[list[str | Path], ...] = (["page", script, "-o", "-"], ["explain", script])
    for words in commands:
        told, plain = ran(*words, program=late), ran(*words)
        assert told[:2] == plain[:2] and plain[2] == ""
        assert "line 7 of 10: settles 3 of 3 rows, 1 s" in told[2] and left(told[2]) == ""
    assert [line.split("  ")[-1] for line in told[1].split("\n")[7:9]] == ["settled 3", "nothing"]
    assert "  order 1 row 1 edition " in told[1].split("\n")[10]


class Heard(Progress):
    """Keeps what it is told."""

    def __init__(self) -> None:
        self.words: list[str] = []

    def at(self, where: str) -> None:
        self.words.append(where)

    def say(self, words: str) -> None:
        self.words.append(words)


def test_a_page_says_at_which_row_it_looks() -> None:
    heard = Heard()
    with Pipe(find()) as pipe:
        page_of("three", ["set S 4", *["insert end set-test S"] * 3, "settle"], pipe, heard)
    looks = [f"looks at row {row} of 3" for row in (1, 2, 3)]
    at = heard.words.index("line 5 of 5")
    assert heard.words[at + 1 :] == looks


def test_the_prompt_says_it_while_it_waits(slow: Path, tmp_path: Path) -> None:
    with Terminal(tmp_path, program=slow, is_quiet=False) as terminal:
        terminal.press("settle\n")
        terminal.until("settles 2 of 3 rows, 1 s")
        terminal.until("settled 2\n")
        terminal.until("paris> ")
        terminal.press(f"load {tmp_path}/slow.paris\n")
        terminal.until(WAITING + "1 s")
        terminal.until(f"{tmp_path}/slow.paris: 6 commands, none refused\n")
    with Terminal(tmp_path, program=slow) as terminal:
        assert terminal.answer("settle") == ["settled 2"]


def test_lines_that_are_typed_are_not_waited_for_with_words(tmp_path: Path) -> None:
    ours, theirs = pty.openpty()
    os.write(ours, b"set S 4\n")
    ends = threading.Timer(1.5, os.write, (ours, b"\x04"))
    ends.start()
    assert ran("explain", "-", stdin=theirs) == (0, f"-\n{said_of('set S 4', 'ok', 1)}\n1 command, none refused\n", "")
    for end in (ours, theirs):
        os.close(end)


class Peer:
    """Answers `list` with one row that waits, and counts how often it is asked."""

    def __init__(self, seconds: float) -> None:
        self.seconds = seconds
        self.asked = 0

    def ask(self, line: str) -> list[str]:
        assert line == "list"
        self.asked += 1
        time.sleep(self.seconds)
        return ["rows 1", "1 edition 3 waiting set-test S"]


def test_rows_are_asked_for_where_that_takes_a_small_part_of_the_time() -> None:
    line, peer = ProgressLine(io.StringIO()), Peer(0.05)
    for _ in range(20):
        line.settling("settle", peer)
    assert peer.asked == 1
    line.settling("list", peer)
    assert peer.asked == 1


def test_a_line_is_drawn_over_the_last_one_and_taken_away(monkeypatch: pytest.MonkeyPatch) -> None:
    monkeypatch.setattr(progress, "DELAY", 0.01)
    monkeypatch.setattr(progress, "PERIOD", 0.01)
    stream = io.StringIO()
    with ProgressLine(stream) as line:
        line.at("line 1 of 2")
        line.say("x" * 100)
        time.sleep(0.2)
        with line.aside():
            assert left(stream.getvalue()) == ""
        line.at("line 2 of 2")
        time.sleep(0.2)
        assert left(stream.getvalue()) == "line 2 of 2, 0 s"
    assert left(stream.getvalue()) == "" and "\n" not in stream.getvalue()
    assert max(map(len, stream.getvalue().split("\r"))) == 79


class Gone(io.StringIO):
    """A terminal that has gone away."""

    def write(self, text: str) -> int:
        raise OSError("Input/output error")


def test_a_terminal_that_is_gone_ends_nothing(monkeypatch: pytest.MonkeyPatch) -> None:
    monkeypatch.setattr(progress, "DELAY", 0.01)
    with ProgressLine(Gone()) as line:
        line.say("works on")
        time.sleep(0.1)


def test_nothing_is_told_where_there_is_no_terminal() -> None:
    with progress.progress() as line:
        assert type(line) is Progress and not line.is_told
        line.settling("settle", Peer(0))


def test_what_takes_longer_than_a_moment_is_handed_over() -> None:
    told: list[str] = []
    with (later := Later(told.append, 0.02)):
        later.say("settles rows")
        time.sleep(0.2)
        assert told == ["settles rows"]
        later.say("draws")
    assert told == ["settles rows", "draws", ""]
    with (later := Later(told.append, 60.0)):
        later.say("is done at once")
    with pytest.raises(KeyError), later:
        raise KeyError
    assert len(told) == 3


def test_watch_says_what_it_waits_for(tmp_path: Path) -> None:
    late = tmp_path / "late"
    late.write_text(LATE.format(find()).replace("1.4", "0.9"))
    late.chmod(0o755)
    path = tmp_path / "sum.paris"
    path.write_text("set S 4\nfield a S 8\nu-move-constant-1L a 7 8\n")
    words = ("--workers", "1", str(path))
    with Terminal(tmp_path, *words, command="watch", is_quiet=False, program=late) as terminal:
        assert " sum.paris: settles 1 row .." in terminal.until("q ends")
        terminal.press("q")
        assert terminal.wait() == 0


def test_words_for_time_and_lines() -> None:
    assert [seconds_text(seconds) for seconds in (0.9, 59.9, 60, 125)] == ["0 s", "59 s", "1 min 00 s", "2 min 05 s"]
    assert (line_of(1200, 4500), line_of(7, None)) == ("line 1,200 of 4,500", "line 7")


def test_live_says_how_far_its_script_is(libparis: Path, monkeypatch: pytest.MonkeyPatch) -> None:
    heard = Heard()

    @contextmanager
    def hears(is_quiet: bool) -> Iterator[Heard]:
        assert not is_quiet
        yield heard

    monkeypatch.setattr(session, "progress", hears)
    live = RunningSession(libparis, 1, is_quiet=False)
    live.load(["set S 4", *["insert end set-test S"] * 3, "settle"])
    live.close()
    assert heard.words == ["", *(f"line {line} of 5" for line in range(1, 6))]


def test_the_address_of_a_live_page_stands_on_standard_output_alone(tmp_path: Path, libparis: Path) -> None:
    (tmp_path / "one.paris").write_text("set S 4\ninsert end set-test S\n")
    environment = {**os.environ, "PARIS_LIBRARY": str(libparis), "PYTHONPATH": str(ROOT / "python")}
    words = [sys.executable, "-P", "-m", "pevudlo", "live", str(tmp_path / "one.paris")]
    with subprocess.Popen(words, stdout=subprocess.PIPE, stderr=subprocess.PIPE, text=True, env=environment) as child:
        assert child.stdout is not None and child.stdout.readline().startswith("Open http://127.0.0.1:")
        child.send_signal(signal.SIGINT)
        assert child.wait(20) == 0
        assert child.stderr is not None and child.stderr.read() == ""
