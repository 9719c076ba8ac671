"""Commands on rows and input data as edits of a text: what stands in it when they are done there."""

from __future__ import annotations

from pevudlo.document.document import Document
from pevudlo.document.meaning import FileRow
from pevudlo.document.origins import input_lines, lines_of_rows
from pevudlo.document.pieces import DECLARING, piece_of

Edited = tuple[list[str], int]
"""The lines of a text, and which of them an edit made; where it took one out, the one behind it."""

NAMES_ROWS = "the text names rows by their ids, and an edit shifts those: change the text itself"


def edited(document: Document, command: str) -> Edited:
    """The lines behind an edit: `set`, `field`, `input`, `insert`, `delete` or `replace`, in the grammar.

    `paris` is one of a text without a command.

    Raises ValueError where the text can't say it.
    """
    word, first, *rest = command.split(" ")
    lines = document.lines.copy()
    match word:
        case "paris":
            return put(lines, len(lines), command)
        case "set" | "field":
            return put(lines, document.meaning.head, command)
        case "input":
            return given(document, lines, command)
    if not document.meaning.is_straight:
        raise ValueError(NAMES_ROWS)
    if word == "insert" and first != "after":
        at = end_of_rows(document) if first == "end" else start_of_rows(document)
        return put(lines, at, " ".join(rest))
    row = row_of(document, int(rest[0] if word == "insert" else first))
    at = lines_of_rows(document)[row]
    if word == "insert":
        return put(lines, at + 1, " ".join(rest[1:]))
    if word == "delete":
        del lines[at]
        return lines, at
    begin = lines[at].removesuffix(row.text) if lines[at].endswith(row.text) else ""
    lines[at] = begin + " ".join(rest)
    return lines, at


def put(lines: list[str], at: int, line: str) -> Edited:
    """Puts a line in before another one."""
    lines.insert(at, line)
    return lines, at


def row_of(document: Document, number: int) -> FileRow:
    """The row of an id of the book. Raises ValueError where there is none."""
    for row in document.rows:
        if row.book == number:
            return row
    raise ValueError(f"there is no row {number} any more")


def start_of_rows(document: Document) -> int:
    """The line of the first row; the end where there is none."""
    rows = document.meaning.row_lines
    return rows[0] if rows else len(document.lines)


def end_of_rows(document: Document) -> int:
    """The line behind the last row; the end where there is none."""
    rows = document.meaning.row_lines
    return rows[-1] + 1 if rows else len(document.lines)


def given(document: Document, lines: list[str], command: str) -> Edited:
    """Input data: one number goes into the place of the one that counts there now, others get a line of their own."""
    _, key, first, *numbers = command.split(" ")
    theirs = input_lines(document, key)
    for at in reversed(theirs):
        words = lines[at].split(" ")
        place = 3 + int(first) - int(words[2])
        if len(numbers) == 1 and 3 <= place < len(words):
            words[place] = numbers[0]
            lines[at] = " ".join(words)
            return lines, at
    return put(lines, (theirs[-1] if theirs else declared_at(document, key)) + 1, command)


def declared_at(document: Document, key: str) -> int:
    """The line that declares the field or the set of a key; the last one that declares something, where none does."""
    name = key.partition(".")[0]
    for at, shown in enumerate(document.shown):
        if shown.kind in DECLARING and not shown.refused and piece_of(document.lines[at]).name == name:
            return at
    return document.meaning.head - 1
