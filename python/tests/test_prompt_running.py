"""The prompt over the library: rows that run while lines are typed, undo, and Ctrl-C that loses nothing."""

from __future__ import annotations

import re
import time
from collections.abc import Iterator
from pathlib import Path

import pytest
from terminals import PROMPT, Terminal

from pevudlo.prompt.prompt import Prompt
from pevudlo.prompt.session import Session

DECLARED = ["set S 4", "field a S 8", "field b S 8", "input a 0 1 2 3 4"]
SLOW = ["set L 256x256", "field x L 64", "field to L 64", *[f"field y{number} L 64" for number in range(16)]]


@pytest.fixture
def shown() -> list[str]:
    """What is answered."""
    return []


@pytest.fixture
def prompt(libparis: Path, shown: list[str]) -> Iterator[Prompt]:
    """A prompt of this process."""
    session = Session(None, 2, libparis)
    session.begin()
    yield Prompt(session, shown.append, False)
    session.close()


def told(prompt: Prompt, shown: list[str], *lines: str) -> list[str]:
    """What is answered to lines."""
    shown.clear()
    for line in lines:
        assert prompt.handle(line)
    return list(shown)


def until_settled(prompt: Prompt) -> None:
    """Waits until the workers have nothing to do."""
    assert prompt.session.background is not None and prompt.session.background.crew.wait(20.0)


def test_rows_run_by_themselves_from_start_on(prompt: Prompt, shown: list[str]) -> None:
    told(prompt, shown, *DECLARED, "insert end u-add-3-1L b a a 8")
    assert told(prompt, shown, "line b") == ["pending 1: row 1 writes it last, and is unsettled"]
    assert told(prompt, shown, "start") == ["rows run by themselves from now on"]
    until_settled(prompt)
    assert told(prompt, shown, "line b") == ["values 2 4 6 8"]
    assert told(prompt, shown, "input a 0 9") == ["ok"]
    until_settled(prompt)
    assert told(prompt, shown, "line b") == ["values 18 4 6 8"]
    assert told(prompt, shown, "stop") == ["all rows are settled"]
    assert told(prompt, shown, "input a 0 8", "line b")[-1].startswith("pending 1")


def test_edits_are_taken_back_and_made_again(prompt: Prompt, shown: list[str], tmp_path: Path) -> None:
    told(
        prompt,
        shown,
        *DECLARED,
        "insert end u-add-3-1L b a a 8",
        "settle",
        "replace 1 u-multiply-3-1L b a a 8",
        "settle",
    )
    assert told(prompt, shown, "line b") == ["values 1 4 9 16"]
    assert told(prompt, shown, "undo", "line b") == ["taken back: replace 1 u-multiply-3-1L b a a 8", "values 2 4 6 8"]
    assert prompt.session.accepted[-1] == "settle" and len(prompt.session.accepted) == 6
    assert told(prompt, shown, "redo", "line b")[-1] == "values 1 4 9 16"
    assert told(prompt, shown, "redo") == ["there is nothing to redo"]
    told(prompt, shown, *["undo"] * 6)
    assert prompt.session.accepted == [] and told(prompt, shown, "undo") == ["there is nothing to undo"]
    told(prompt, shown, *["redo"] * 6)
    assert told(prompt, shown, f"save {tmp_path / 'all.paris'}", "list")[-1].endswith("settled u-multiply-3-1L b a a 8")
    assert told(prompt, shown, "input a 0 7", "undo", "input a 1 7", "redo")[-1] == "there is nothing to redo"


def test_what_is_told_again_is_no_step(prompt: Prompt, shown: list[str]) -> None:
    told(prompt, shown, *DECLARED, "insert end u-add-3-1L b a a 8")
    assert told(prompt, shown, "again") == ["the program is started again, and 5 accepted commands are told"]
    assert told(prompt, shown, "undo") == ["there is nothing to undo"]
    assert told(prompt, shown, "input a 0 9", "undo")[-1] == "taken back: input a 0 9"
    assert told(prompt, shown, "undo") == ["there is nothing to undo"]
    assert told(prompt, shown, "settle", "line b")[-1] == "values 2 4 6 8"


def test_what_ran_by_itself_is_saved_settled(prompt: Prompt, shown: list[str], tmp_path: Path) -> None:
    told(prompt, shown, *DECLARED, "start", "insert end u-add-3-1L b a a 8")
    until_settled(prompt)
    file = tmp_path / "double.paris"
    assert told(prompt, shown, f"save {file}") == [f"{file}: 6 accepted commands are saved"]
    assert file.read_text().endswith("settle\n")


def test_over_a_program_there_is_no_undo(shown: list[str]) -> None:
    from pevudlo import find

    session = Session(find())
    session.begin()
    try:
        assert told(Prompt(session, shown.append, False), shown, "undo") == [
            "`undo` is of the library, and a program answers here"
        ]
    finally:
        session.close()


def test_results_come_while_one_types(libparis: Path, tmp_path: Path) -> None:
    with Terminal(tmp_path, is_program=False, columns=100) as terminal:
        for line in (*SLOW, "input to 0 5 6 7"):
            assert terminal.answer(line) == ["ok"]
        assert terminal.answer("start") == ["rows run by themselves from now on"]
        seen = ""
        for number in range(16):
            # (the status line is drawn while letters are echoed)
            terminal.press(f"insert end send-with-u-max-1L y{number} to x 64 none\n")
            seen += terminal.until(f"row {number + 1}\n") + terminal.until(PROMPT)
        terminal.press("show x")
        # What is told already isn't told again.
        if re.findall(r"\w+ rows are settled", seen)[-1:] != ["all rows are settled"]:
            terminal.until("all rows are settled")
        terminal.press(" end\n")
        terminal.until(PROMPT)
        terminal.press("\x04\x04")
        assert terminal.wait() == 0


def test_ctrl_c_in_a_settle_stops_the_work_and_loses_nothing(libparis: Path, tmp_path: Path) -> None:
    with Terminal(tmp_path, "--workers", "1", is_program=False) as terminal:
        for line in (*SLOW, *[f"insert end u-multiply-3-1L y{n % 16} x x 64" for n in range(1200)]):
            terminal.answer(line)
        terminal.press("settle\n")
        terminal.until("settle\n")
        time.sleep(0.2)
        terminal.press("\x03")
        said = terminal.until(PROMPT)
        assert "stopped: " in said and "of 1,200 rows are settled" in said
        rows = terminal.answer("list")
        count = sum(" settled " in row for row in rows)
        assert 0 < count < 1200 and f"stopped: {count:,} of 1,200" in said
        assert terminal.answer("delete 600") == ["ok"]
        assert terminal.answer("undo") == ["taken back: delete 600"]
