"""The row that a value comes from: the one that the program names where no row is settled. The library tells it too."""

from __future__ import annotations

import pytest
from random_editor import RandomEditor, run, told

from pevudlo.document.answers import place_read
from pevudlo.document.document import Document
from pevudlo.document.meaning import FileRow
from pevudlo.document.origins import input_lines, lines_of_rows, row_above, row_before, writer
from pevudlo.lang.instructions import FLAGS
from pevudlo.wire.library import Library
from pevudlo.wire.peers import Peer
from pevudlo.wire.pipe import Pipe, is_comment
from pevudlo.wire.program import find

TIME = ("settle", "take", "bring", "release", "list", "faults", "show")


@pytest.mark.parametrize("seed", range(6))
def test_the_program_names_the_same_row(seed: int, library: bool, request: pytest.FixtureRequest) -> None:
    """Of each key behind each row. Where all rows wait, a look is pending for the row that writes the key last."""
    editor = RandomEditor(seed)
    for _ in range(4):
        editor.edit()
    lines = [line for line in editor.lines if not is_comment(line) and line.split(" ")[0] not in TIME]
    path = request.getfixturevalue("libparis") if library else find()

    def begin() -> Peer:
        if library:
            return Library(path)
        return Pipe(path, 1)

    with Document(begin) as document:
        document.update_lines(lines)
        board = document.book.board
        keys = [*board.fields, *(f"{name}.{flag}" for name in board.sets for flag in FLAGS)]
        listed = [reply for reply in run([*map(told, lines), "list"])][-1][1:]
        ids = [row.split(" ")[0] for row in listed]
        asked = [f"show {key} after {row}" for row in ids for key in keys]
        replies = [reply[0] for reply in run([*map(told, lines), *asked])][len(lines) :]
        found: list[FileRow | None] = [writer(document, key, row) for row in document.rows for key in keys]
        rows = {row: number for number, row in zip(ids, document.rows)}
        assert len(rows) == len(ids)
        wanted = [f"pending {rows[row]}" if row is not None else "values" for row in found]
        assert [reply if reply.startswith("pending") else reply.split(" ")[0] for reply in replies] == wanted
        assert all(writer(document, key, None) is None for key in keys)


def test_places_of_rows() -> None:
    text = "set S 4\nfield a S 8\ninput a 0 1\nu-move-constant-1L a 1 8\n# One.\nu-move-constant-1L a 2 8\n"
    text += "input a 2 3\ninput a 9 3\nshow a end\nshow a start\n"
    with Document(lambda: Pipe(find(), 1)) as document:
        document.update(text)
        one, two = document.rows
        assert lines_of_rows(document) == {one: 3, two: 5} and input_lines(document, "a") == [2, 6]
        assert (row_before(document, one), row_before(document, two)) == (None, one)
        assert [row_above(document, at) for at in (3, 4, 6)] == [None, one, two]
        assert [place_read(document, at) for at in (2, 3, 4, 5, 6, 8, 9)] == [
            None,
            None,
            one,
            one,
            None,
            two,
            None,
        ]
        assert writer(document, "a", two) is two
