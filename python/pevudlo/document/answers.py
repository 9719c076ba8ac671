"""What people are told of a line, whatever it is: each view of a text asks here, and shows what it has room for.

There is an answer for each kind of line: what stands beside it, what is said where the cursor is, where the keys that
it names are read, what it gives, and from which lines a value comes.
"""

from __future__ import annotations

from collections.abc import Callable, Mapping
from typing import assert_never

from pevudlo.document.document import Document
from pevudlo.document.lines import (
    Comment,
    Declaration,
    FormerRow,
    InputData,
    Line,
    LivingRow,
    Look,
    PassedOver,
    RefusedLine,
    RowTaker,
    line_at,
)
from pevudlo.document.marks import MOST, kept_mark, note_on, refusal_text, row_mark, short
from pevudlo.document.meaning import FileRow
from pevudlo.document.origins import input_lines, lines_of_rows, row_above, row_before, writer
from pevudlo.document.states import Mark, State
from pevudlo.document.update import Update
from pevudlo.lang.keys import width_of
from pevudlo.record.numbers import Numbers

BY_THEMSELVES = "rows run by themselves here"

Naming = Callable[[int], str]
"""How a line is named by its index: views that cut a text into parts name it another way."""


def line_name(number: int) -> str:
    """The line of an index, as it is named in a text that is one file."""
    return f"line {number + 1}"


def mark_of(document: Document, number: int, done: Update, most: int = MOST, named: Naming = line_name) -> Mark:
    """What stands beside the line of an index behind an update. Rows are looked at again that it touched."""
    kept = kept_mark(document, number, done, most)
    if kept is not None:
        return kept
    line = line_at(document, number)
    match line:
        case RefusedLine():
            return Mark(State.REFUSED, refusal_text(document, number))
        case LivingRow(row):
            return row_mark(document, row, done, most)
        case FormerRow() | RowTaker():
            return Mark(State.GONE, words_of(line, named))
        case Look(key, anchor):
            width = width_of(document.book.board, key)
            return Mark(State.LOOK, f"{key} {short(document.book.look(key, anchor), None, width, most)}")
        case PassedOver():
            return Mark(State.PASSED, words_of(line, named))
        case InputData():
            note = note_on(document, number)
            return Mark(State.NOTE if note else State.NONE, note)
        case Declaration() | Comment():
            return Mark(State.NONE, "")
    assert_never(line)


def words_at(document: Document, number: int) -> str:
    """What is said first of the line of an index where the cursor is in it, or nothing."""
    told = document.explanation(number)
    if told is not None:
        return ". ".join(part for part in (told.text, told.hint) if part)
    return words_of(line_at(document, number), line_name)


def words_of(line: Line, named: Naming) -> str:
    """What is said of a line but for its values, and for why it is refused."""
    match line:
        case FormerRow(change, by):
            return f"{change.value} by {named(by)}"
        case RowTaker(of):
            return f"takes out the row of {named(of)}"
        case PassedOver():
            return BY_THEMSELVES
        case RefusedLine() | LivingRow() | Look() | InputData() | Declaration() | Comment():
            return ""
    assert_never(line)


def place_read(document: Document, number: int) -> FileRow | None:
    """The row behind which the keys are read that the line of an index names, None for the start.

    A refused line reads what stands above it.
    """
    line = line_at(document, number)
    match line:
        case LivingRow(row) | RefusedLine(FileRow() as row):
            return row_before(document, row)
        case FormerRow(anchor=anchor) | Look(anchor=anchor):
            return anchor
        case InputData() | Declaration():
            return None
        case RefusedLine() | RowTaker() | PassedOver() | Comment():
            return row_above(document, number)
    assert_never(line)


def row_at(document: Document, number: int) -> FileRow | None:
    """The row that leaves values behind the line of an index; None where no row of the program is its own."""
    line = line_at(document, number)
    match line:
        case LivingRow(row):
            return row
        case RefusedLine(held):
            return held
        case FormerRow() | RowTaker() | Look() | InputData() | Declaration() | PassedOver() | Comment():
            return None
    assert_never(line)


def instruction_at(document: Document, number: int) -> str:
    """The instruction that the line of an index says, whatever became of it; nothing where it says none."""
    row, shown = row_at(document, number), document.shown[number]
    return row.text if row is not None else "" if shown.refused else shown.piece.text


def values_at(document: Document, number: int) -> Mapping[str, Numbers]:
    """The numbers that the line of an index gives, by their keys: what its row leaves, or what a look sees."""
    line = line_at(document, number)
    match line:
        case LivingRow(row) | RefusedLine(FileRow() as row):
            return {} if row.book in document.book.faults else document.written(row)
        case Look(key, anchor):
            return {key: document.book.look(key, anchor)}
        case RefusedLine() | FormerRow() | RowTaker() | InputData() | Declaration() | PassedOver() | Comment():
            return {}
    assert_never(line)


def sources_of(document: Document, number: int, key: str) -> list[int]:
    """The lines from which the value of a key comes that the line of an index reads: a row's line, or input data.

    There is none where the key is as it was declared.
    """
    row = writer(document, key, place_read(document, number))
    if row is not None:
        return [lines_of_rows(document)[row]]
    return input_lines(document, key)
