"""Where the value of a key comes from: the row that writes it last before a place, or input data."""

from __future__ import annotations

from pevudlo.document.document import Document
from pevudlo.document.meaning import FileRow
from pevudlo.document.pieces import Kind


def lines_of_rows(document: Document) -> dict[FileRow, int]:
    """The line of each row: the one that says its instruction."""
    return {shown.row: number for number, shown in enumerate(document.shown) if shown.row is not None}


def row_before(document: Document, row: FileRow) -> FileRow | None:
    """The row before another one in program order."""
    at = document.rows.index(row)
    return document.rows[at - 1] if at else None


def row_above(document: Document, number: int) -> FileRow | None:
    """The row of the last line above one that has a row."""
    return next((shown.row for shown in reversed(document.shown[:number]) if shown.row is not None), None)


def writer(document: Document, key: str, last: FileRow | None) -> FileRow | None:
    """The row that writes a key last, up to a row and with it; None where that is input data."""
    if last is None:
        return None
    number = document.book.origin(key, last)
    if number is not None:
        return next((row for row in document.rows if row.book == number), None)
    board = document.book.board
    for row in reversed(document.rows[: document.rows.index(last) + 1]):
        if key in board.keys_written(row.text):
            return row
    return None


def input_lines(document: Document, key: str) -> list[int]:
    """The lines that give a key input data."""
    return [
        number
        for number, shown in enumerate(document.shown)
        if shown.kind is Kind.INPUT and shown.key == key and not shown.refused
    ]
