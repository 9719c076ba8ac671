"""The prompt as a user meets it, in a pseudo-terminal: keys, completion, help, files, and what ends it."""

from __future__ import annotations

import os
import re
import signal
import time
from collections.abc import Iterator
from pathlib import Path

import pytest
from terminals import PROMPT, Terminal, children_of

from pevudlo.prompt.help import OWN_WORDS
from pevudlo.prompt.lines import tidy
from pevudlo.reference.table import ENTRIES
from pevudlo.reference.text import help_lines
from pevudlo.wire.pipe import Pipe
from pevudlo.wire.program import ROOT, find

TAB, UP, CTRL_C, CTRL_D, CTRL_U = "\t", "\x1b[A", "\x03", "\x04", "\x15"
DECLARED = ("set S 4", "field alpha S 8", "field beta S 8", "field bit S 1", "set G 4x2", "field other G 16")
WAITS = """#!/bin/sh
while read -r line; do
    case "$line" in
        settle) sleep 600 ;;
        *) echo ok ;;
    esac
done
"""


@pytest.fixture
def terminal(tmp_path: Path) -> Iterator[Terminal]:
    with Terminal(tmp_path) as made:
        yield made


def declare(terminal: Terminal) -> None:
    for line in DECLARED:
        assert terminal.answer(line) == ["ok"]


def completed(terminal: Terminal, typed: str, wanted: str) -> None:
    """Types a text with Tab in it, sees the line that it becomes, and clears the line."""
    terminal.press(typed)
    terminal.until(wanted)
    terminal.press(CTRL_U)


def interrupt(terminal: Terminal) -> str:
    """Presses Ctrl-C once the prompt waits for something, and gives what is seen up to the next prompt."""
    time.sleep(0.3)
    terminal.press(CTRL_C)
    return terminal.until(PROMPT)


def test_tab_completes_commands_instructions_names_and_keys(terminal: Terminal) -> None:
    declare(terminal)
    completed(terminal, f"ins{TAB}e{TAB}lognot{TAB}al{TAB}be{TAB}{TAB}", "insert end lognot-2-1L alpha beta 8")
    completed(terminal, f"show al{TAB}e{TAB}", "show alpha end")
    completed(terminal, f"show S.ca{TAB}st{TAB}", "show S.carry start")
    completed(terminal, f"insert end store-test {TAB}", "store-test bit")
    completed(terminal, f"insert end scan-with-u-max-1L ot{TAB}{TAB}", "scan-with-u-max-1L other other")
    completed(terminal, f"help RowsF{TAB}", "help RowsFull")


def test_tab_twice_lists_what_may_stand_there(terminal: Terminal) -> None:
    declare(terminal)
    terminal.press(f"insert end scan-with-{TAB}{TAB}")
    shown = terminal.until("scan-with-u-min-1L")
    assert [shown.count(f"scan-with-{name}-1L") for name in ("copy", "logand", "logior", "logxor", "u-add")] == [1] * 5
    terminal.press(f"{CTRL_U}show {TAB}{TAB}")
    shown = terminal.until("other")
    for key in ("alpha", "beta", "bit", "S.context", "S.test", "S.carry", "S.overflow", "G.overflow"):
        assert key in shown


def test_help_of_every_word_has_its_example(terminal: Terminal) -> None:
    names = [entry.name for entry in ENTRIES]
    assert len(names) == 14 + 77 + 23
    for entry in ENTRIES:
        assert terminal.answer(f"help {entry.name}") == help_lines(entry)
    for word in OWN_WORDS:
        assert terminal.answer(f"help {word.name}")[0] == word.spelling
    overview = " ".join(terminal.answer("help"))
    assert all(f" {name} " in f" {overview} " for name in [*names, *(word.name for word in OWN_WORDS)])


def test_lines_fit_a_terminal_of_eighty_columns(tmp_path: Path) -> None:
    with Terminal(tmp_path, columns=80) as terminal:
        declare(terminal)
        for line in ("help", "help send-1L", "insert end shift a b 8", "zzzz", "set L 32", "field l L 8", "show l end"):
            said = terminal.answer(line)
            assert said and max(map(len, said)) <= 80
        assert len(terminal.answer("hex l")) == 1 + 2


def test_what_is_saved_gives_the_same_state(tmp_path: Path) -> None:
    file = tmp_path / "saved.paris"
    radix = ROOT / "examples" / "radix-sort.paris"
    told = [line for line in radix.read_text().split("\n") if line and line[0] != "#"]
    count = sum(line.split(" ")[0] not in ("show", "faults") for line in told) + 6
    edits = ["input key 0 1 2", "delete 9", "replace 3 u-eq-1L masked zero 4"]
    turns = ["take", "take", "bring 1", "bring 1", "take"]
    looks = ["list", "faults", "show key end", "show key start", "show place after 13", "take"]
    with Terminal(tmp_path, str(radix)) as first:
        assert [first.answer(line) for line in edits] == [["ok"]] * 3
        words = [first.answer(line)[0].replace(":", "").split(" ")[0] for line in turns]
        assert words == ["order", "nothing", "kept", "repeated", "order"]
        assert first.answer(f"save {file}") == [f"{file}: {count} accepted commands are saved"]
        wanted = [first.answer(line) for line in looks]
        assert wanted[0][0] == "rows 59" and wanted[2][0].startswith("pending ")
    with Terminal(tmp_path, str(file)) as second:
        assert [second.answer(line) for line in looks] == wanted
    with Terminal(tmp_path) as third:
        assert third.answer(f"load {file}") == [f"{file}: {count} commands, none refused"]
        assert [third.answer(line) for line in looks] == wanted


def test_ctrl_c_drops_the_line_and_nothing_else(terminal: Terminal) -> None:
    declare(terminal)
    terminal.press("set T 8")
    terminal.until("set T 8")
    interrupt(terminal)
    assert terminal.answer("field q T 8")[0].startswith("refused 4")
    assert terminal.answer("field q S 8") == ["ok"]


def test_ctrl_c_stops_a_program_that_works_and_it_can_be_started_again(tmp_path: Path) -> None:
    program = tmp_path / "waits"
    program.write_text(WAITS)
    program.chmod(0o755)
    with Terminal(tmp_path, program=program) as terminal:
        assert terminal.answer("set S 4") == ["ok"]
        (child,) = children_of(terminal.process)
        terminal.press("settle\n")
        terminal.until("settle\n")
        assert "no program runs: it was interrupted" in interrupt(terminal)
        assert not Path(f"/proc/{child}").exists()
        assert terminal.answer("set T 4")[0] == "no program runs: it was interrupted"
        assert terminal.answer("again") == ["the program is started again, and 1 accepted command is told"]
        assert terminal.answer("set T 4") == ["ok"]


def test_a_program_that_is_killed_is_said_and_started_again_with_what_it_accepted(terminal: Terminal) -> None:
    declare(terminal)
    terminal.answer("input alpha 0 1 2 3 4")
    terminal.answer("insert end u-add-3-1L beta alpha alpha 8")
    assert terminal.answer("settle") == ["settled 1"]
    (child,) = children_of(terminal.process)
    os.kill(child, signal.SIGKILL)
    said = terminal.answer("show beta end")
    assert said[0].startswith("no program runs: ") and "killed by signal 9" in said[0]
    assert said[1].startswith("9 accepted commands are kept")
    assert terminal.answer("again") == ["the program is started again, and 9 accepted commands are told"]
    assert terminal.answer("line beta") == ["values 2 4 6 8"]
    assert terminal.answer("list") == ["rows 1", "  1 edition 8 settled u-add-3-1L beta alpha alpha 8"]


def test_ctrl_d_ends_with_all_children(terminal: Terminal) -> None:
    (child,) = children_of(terminal.process)
    terminal.press(CTRL_D)
    assert terminal.wait() == 0
    assert not Path(f"/proc/{child}").exists()


@pytest.mark.parametrize("key", [CTRL_D, "quit\n", "exit\n"], ids=["ctrl-d", "quit", "exit"])
def test_the_end_is_asked_for_twice_where_commands_are_not_saved(terminal: Terminal, key: str, tmp_path: Path) -> None:
    assert terminal.answer("set S 4") == ["ok"]
    terminal.press(key)
    assert "1 accepted command is not saved: `save FILE` saves them" in terminal.until(PROMPT)
    # Another line comes between, so the next one is the first again.
    assert terminal.answer("field a S 8") == ["ok"]
    terminal.press(key)
    assert "2 accepted commands are not saved" in terminal.until(PROMPT)
    terminal.press(key)
    assert terminal.wait() == 0


def test_the_end_comes_at_once_where_all_is_saved(terminal: Terminal, tmp_path: Path) -> None:
    assert terminal.answer("set S 4") == ["ok"]
    assert terminal.answer("show S.test end")[1] == "  0 0 0 0"
    assert terminal.answer(f"save {tmp_path / 'one.paris'}")[0].endswith("1 accepted command is saved")
    terminal.press("quit\n")
    assert terminal.wait() == 0


def test_the_lesson_begins_anew_behind_commands_that_are_not_saved(terminal: Terminal) -> None:
    declare(terminal)
    assert terminal.answer("insert end set-context S") == ["row 1"]
    lesson = (ROOT / "docs/LESSON.md").read_text(encoding="utf-8")
    (block,) = re.findall(r"^```text\n(new\n.*?)^```$", lesson, re.M | re.S)
    seen = {line: terminal.answer(line.replace(" examples/", f" {ROOT}/examples/")) for line in block.splitlines()}
    look = "cell after 17"
    with Pipe(find()) as pipe:
        for line in (ROOT / "examples/life.paris").read_text(encoding="utf-8").splitlines():
            pipe.ask(line)
        values = pipe.ask(f"show {look}")[0]
    assert " ".join(seen[f"grid {look}"][1:]).split() == values.split(" ")[1:]


def test_new_is_asked_for_twice_where_commands_are_not_saved(terminal: Terminal) -> None:
    declare(terminal)
    assert terminal.answer("new")[0].startswith("6 accepted commands are not saved")
    assert terminal.answer("set S 4") == [
        "refused 3: a set or a field has this name",
        "  set S 4",
        *terminal.answer("set S 4")[2:],
    ]
    assert terminal.answer("new")[0].startswith("6 accepted commands are not saved")
    assert terminal.answer("new") == ["nothing is declared"]
    assert terminal.answer("set S 4") == ["ok"]


def test_lines_come_back_by_the_arrow_also_in_the_next_prompt(tmp_path: Path) -> None:
    with Terminal(tmp_path) as first:
        first.answer("set First 4")
        first.press(UP)
        first.until("set First 4")
        first.press("\n")
        assert "refused 3" in first.until(PROMPT)
        first.press(f"{CTRL_D}{CTRL_D}")
        assert first.wait() == 0
    with Terminal(tmp_path) as second:
        second.press(f"{UP}")
        second.until("set First 4")
        second.press("\n")
        assert second.until(PROMPT).split("\n")[-2] == "ok"


def test_a_prompt_that_is_killed_leaves_its_history_and_no_program(tmp_path: Path) -> None:
    with Terminal(tmp_path) as killed:
        assert killed.answer("set Killed 4") == ["ok"]
        assert killed.answer("") == killed.answer("") == []
        (child,) = children_of(killed.process)
        os.kill(killed.process, signal.SIGKILL)
        assert killed.wait() == -signal.SIGKILL
    until = time.monotonic() + 10
    while Path(f"/proc/{child}/exe").exists() and time.monotonic() < until:
        time.sleep(0.02)
    assert not Path(f"/proc/{child}/exe").exists()
    history = tmp_path / "pevudlo" / "history"
    assert history.read_text() == "set Killed 4\n" and history.stat().st_mode & 0o777 == 0o600


@pytest.mark.parametrize("inputrc", ["", "set enable-bracketed-paste on\n"], ids=["plain", "bracketed"])
def test_an_example_can_be_pasted(tmp_path: Path, inputrc: str) -> None:
    lines = ["set S 4", "field a S 8", "# a comment", "", "input a 0 1 2 3 4", "line a", " show  a end "]
    text = "\n".join(lines) + "\n"
    with Terminal(tmp_path, inputrc=inputrc) as terminal:
        terminal.press(f"\x1b[200~{text}\x1b[201~\n" if inputrc else text)
        shown = terminal.until("a at the end (S 4, 8 bits)") if not inputrc else terminal.until("values 1 2 3 4")
        assert "refused" not in shown
        assert "refused" not in terminal.until(PROMPT)


def test_a_line_that_is_typed_is_tidied() -> None:
    assert tidy("  insert end  set-test S ") == "insert end set-test S"
    assert tidy("# two  spaces ") == "# two  spaces"
    assert tidy("save two  spaces ") == "save two  spaces"
    assert tidy("   ") == ""
    assert tidy("set\tS 4") == "set\tS 4"


def test_a_space_behind_a_word_that_tab_completed_does_no_harm(terminal: Terminal) -> None:
    declare(terminal)
    terminal.press(f"sh{TAB} al{TAB} e{TAB}")
    terminal.until("alpha  end")
    terminal.press("\n")
    assert "alpha at the end (S 4, 8 bits)" in terminal.until(PROMPT)


def test_a_wrong_line_is_explained_and_nothing_is_lost(terminal: Terminal) -> None:
    declare(terminal)
    before = terminal.answer("list")
    said = terminal.answer("insert end u-add-3-1L alpha beta other 8")
    assert said[0] == "refused 13: fields of two sets are named"
    said = terminal.answer("insert end u-add-3-1L alpha beta 8")
    assert said[0].startswith("refused 20 34: ") and said[2].index("^") == 2 + 33
    assert terminal.answer("list") == before == ["rows 0"]
    assert terminal.answer("insert end u-add-3-1L alpha beta beta 8") == ["row 1"]
