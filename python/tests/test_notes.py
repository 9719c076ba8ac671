"""Input data with as many numbers as there are processors: accepted, and told of, since the first one is no value."""

from __future__ import annotations

import json
import os
import subprocess
import sys
from pathlib import Path

import pytest
from editors import Editor

from pevudlo.document.document import Document
from pevudlo.document.answers import mark_of
from pevudlo.document.plain import Plain
from pevudlo.document.states import Mark, State
from pevudlo.document.update import Update
from pevudlo.hints.notes import note_of
from pevudlo.lang.board import Board
from pevudlo.wire.pipe import Pipe
from pevudlo.wire.program import ROOT, find

HEAD = ["set S 8", "set G 4x2", "set P 2", "field a S 8", "field g G 8", "field p P 8"]
SHIFTED = "input a 1 2 3 4 5 6 7 8"
NOTE = (
    "1 is the first processor here, and 7 values go from there on: `input a 0 1 2 3 4 5 6 7 8` gives each processor "
    "of `S` one"
)
TEXT = "".join(f"{line}\n" for line in [*HEAD, SHIFTED, "show a end"])


@pytest.fixture
def board() -> Board:
    """A board of three sets."""
    board = Board()
    for line in HEAD:
        board.note(line, "ok")
    return board


@pytest.mark.parametrize(
    "line, said",
    [
        (SHIFTED, NOTE),
        ("input g 0 1 2 3 4 5 6 7", "`input g 0 0 1 2 3 4 5 6 7` gives each processor of `G` one"),
        ("input S.context 1 1 0 0 1 1 0 0", "1 is the first processor here, and 7 values go from there on"),
        ("input a 0 1 2 3 4 5 6 7 8", ""),
        ("input a 1 2 3 4 5 6 7", ""),
        ("input a 1 2", ""),
        # One value for one processor is what it seems to be.
        ("input p 1 5", ""),
        ("input x 1 2 3 4 5 6 7 8", ""),
        ("insert end u-move-1L a a 8", ""),
        ("settle", ""),
        ("", ""),
    ],
)
def test_a_note_is_on_a_line_with_a_number_for_each_processor_alone(board: Board, line: str, said: str) -> None:
    note = note_of(line, board)
    assert bool(note) == bool(said) and said in note


def test_of_a_long_line_the_first_number_is_enough(board: Board) -> None:
    board.note("set L 64", "ok")
    board.note("field l L 64", "ok")
    note = note_of("input l 7 " + " ".join(["123456789"] * 63), board)
    assert note.startswith("7 is the first processor here, and 63 values go") and "`input l 0 7 ..`" in note


def test_the_program_takes_such_a_line_and_values_go_where_the_note_says() -> None:
    with Pipe(find()) as pipe:
        assert [pipe.ask(line) for line in [*HEAD, SHIFTED]] == [["ok"]] * 7
        assert pipe.ask("show a end") == ["values 0 2 3 4 5 6 7 8"]


def ran(words: list[str], text: str, path: Path) -> list[str]:
    """The lines that a command for people writes of a text."""
    script = path / "notes.paris"
    script.write_text(text)
    environment = {**os.environ, "PARIS_FRONT": str(find()), "PYTHONPATH": str(ROOT / "python")}
    command = [sys.executable, "-P", "-m", "pevudlo", *words]
    said = subprocess.run(
        command, input=text, capture_output=True, text=True, timeout=60, cwd=path, env=environment, check=True
    )
    return said.stdout.split("\n")


def test_explain_has_the_note_below_the_line(tmp_path: Path) -> None:
    said = ran(["explain", "notes.paris"], TEXT, tmp_path)
    assert said[7].endswith("  ok") and said[8] == f"      note: {NOTE}"
    assert not any("note: " in line for line in ran(["explain", "--quiet", "notes.paris"], TEXT, tmp_path))
    objects = [json.loads(line) for line in ran(["explain", "--json", "notes.paris"], TEXT, tmp_path) if line]
    assert [each.get("note") for each in objects] == [None] * 6 + [NOTE, None, None]


def test_the_prompt_has_the_note_where_the_line_is_typed_and_where_a_file_has_it(tmp_path: Path) -> None:
    said = ran(["prompt", "--quiet"], TEXT, tmp_path)
    assert said[6:8] == ["ok", f"  note: {NOTE}"]
    (tmp_path / "loaded.paris").write_text(TEXT)
    said = ran(["prompt", "--quiet"], "load loaded.paris\n", tmp_path)
    assert said[:2] == ["loaded.paris:7: ok", f"  note: {NOTE}"]


def test_watch_tells_of_it_once() -> None:
    said: list[str] = []
    document = Document(lambda: Pipe(find()), begin_second=lambda: Pipe(find(), 1))
    view = Plain(document, said.append)
    for text in (TEXT, f"{TEXT}# A comment.\n", TEXT):
        view.show(document.update(text))
    assert mark_of(document, 6, Update()) == Mark(State.NOTE, NOTE)
    document.close()
    assert said.count(f"  7: {SHIFTED}: {NOTE}") == 1


def test_an_editor_is_given_it_as_information() -> None:
    with Editor() as editor:
        editor.open(TEXT)
        (told,) = editor.wrong()
    assert (told["severity"], told["message"], told["range"]["start"]["line"]) == (3, NOTE, 6)
