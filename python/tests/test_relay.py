"""The relay: what a program writes and its exit status, with a line of progress beside them."""

from __future__ import annotations

import os
import signal
import subprocess
import sys
import time
from pathlib import Path

import pytest
from test_explain import REPOSITORY, SCRIPTS
from test_progress import left

from pevudlo.relay import Replies, commands_in
from pevudlo.wire.program import ROOT, find

RELAY = [sys.executable, "-P", "-m", "pevudlo.relay"]
ENVIRONMENT = {**os.environ, "PYTHONPATH": str(ROOT / "python")}


def relayed(script: Path, *words: str, program: Path | None = None) -> subprocess.CompletedProcess[bytes]:
    """Runs the program behind the relay on a script."""
    with script.open("rb") as lines:
        command = [*RELAY, str(program or find()), *words]
        return subprocess.run(command, stdin=lines, capture_output=True, timeout=60, env=ENVIRONMENT)


@pytest.mark.parametrize("path", SCRIPTS[::4], ids=lambda path: str(path.relative_to(REPOSITORY)))
def test_replies_and_status_are_the_program_s(path: Path) -> None:
    with path.open("rb") as lines:
        plain = subprocess.run([find()], stdin=lines, capture_output=True, timeout=60)
    ran = relayed(path, "--workers", "3")
    assert (ran.returncode, ran.stdout, ran.stderr) == (plain.returncode, plain.stdout, b"")


@pytest.mark.parametrize("path", SCRIPTS, ids=lambda path: str(path.relative_to(REPOSITORY)))
def test_commands_and_replies_are_counted(path: Path) -> None:
    """A script has as many commands as its transcript has replies, however the transcript comes in pieces."""
    replies, data = Replies(), path.with_suffix(".expected").read_bytes()
    for at in range(0, len(data), 7):
        replies.feed(data[at : at + 7])
    with path.open("rb") as lines:
        assert commands_in(lines.fileno()) == replies.count
        assert lines.read() == path.read_bytes()


def test_what_is_no_file_has_no_count() -> None:
    ours, theirs = os.pipe()
    assert commands_in(ours) is None
    os.close(ours)
    os.close(theirs)


def test_it_says_how_far_it_is_on_a_terminal(tmp_path: Path) -> None:
    program, script = tmp_path / "late", tmp_path / "late.paris"
    program.write_text('#!/bin/sh\necho ok\necho ok\nsleep 1.4\necho "settled 0"\nexit 1\n')
    program.chmod(0o755)
    script.write_text("set S 4\n# a comment\n\nset T 4\nsettle\n")
    ours, theirs = os.openpty()
    with script.open("rb") as lines:
        words = [*RELAY, str(program)]
        ran = subprocess.run(words, stdin=lines, stdout=subprocess.PIPE, stderr=theirs, env=ENVIRONMENT, timeout=60)
    seen = os.read(ours, 1 << 16).decode()
    os.close(ours)
    os.close(theirs)
    assert (ran.returncode, ran.stdout) == (1, b"ok\nok\nsettled 0\n")
    assert "2 of 3 commands answered, 1 s" in seen and left(seen) == ""


def test_ctrl_c_ends_the_program_too(tmp_path: Path) -> None:
    script = tmp_path / "long.paris"
    rows = "insert end u-truncate-3-1L a a a 64\n" * 4_000
    script.write_text(f"set S 65536\nfield a S 64\n{rows}settle\n")
    with script.open("rb") as lines:
        words = [*RELAY, str(find())]
        ran = subprocess.Popen(words, stdin=lines, stdout=subprocess.PIPE, env=ENVIRONMENT, start_new_session=True)
    assert ran.stdout is not None
    for line in ran.stdout:
        if line == b"row 4000\n":
            break
    children = Path(f"/proc/{ran.pid}/task/{ran.pid}/children").read_text().split()
    time.sleep(0.2)
    os.killpg(ran.pid, signal.SIGINT)
    assert ran.wait(20) == 130 and len(children) == 1
    assert not Path(f"/proc/{children[0]}").exists()
    ran.stdout.close()


def status_unread(words: list[str], script: Path) -> int:
    """The exit status of a command of whose output one line is read."""
    with script.open("rb") as lines:
        ran = subprocess.Popen(words, stdin=lines, stdout=subprocess.PIPE, stderr=subprocess.DEVNULL, env=ENVIRONMENT)
    assert ran.stdout is not None and ran.stdout.readline() == b"ok\n"
    ran.stdout.close()
    return ran.wait(30)


def test_who_stops_reading(tmp_path: Path) -> None:
    script = tmp_path / "much.paris"
    script.write_text("set S 65536\nfield a S 64\n" + "show a end\n" * 200)
    plain = status_unread([str(find())], script)
    assert plain != 0
    assert status_unread([*RELAY, str(find())], script) == (plain if plain > 0 else 128 - plain)
