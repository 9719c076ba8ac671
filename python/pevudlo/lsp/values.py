"""What lines give: short values behind them, and whole ones where the cursor is."""

from __future__ import annotations

from collections.abc import Iterator
from typing import Any, NamedTuple

from pevudlo.document.answers import mark_of, place_read, row_at, words_at
from pevudlo.document.document import Document
from pevudlo.document.meaning import FileRow
from pevudlo.document.origins import input_lines, lines_of_rows, row_before, writer
from pevudlo.document.pieces import Kind
from pevudlo.document.states import State
from pevudlo.draw.arrays import differing
from pevudlo.draw.grids import Grid, shape_text, text_of
from pevudlo.lang.instructions import INSTRUCTIONS, read
from pevudlo.lang.keys import axes_of, context_of, width_of
from pevudlo.lsp.opened import Given, Opened
from pevudlo.lsp.spots import Place, name_at, place_of
from pevudlo.record.numbers import Numbers
from pevudlo.reference.entry import Entry
from pevudlo.reference.table import find
from pevudlo.reference.text import help_lines

MOST_LINES = 400
"""So many lines have values where more are asked for, as for a whole file."""

COLUMNS = 96
SIGNS = {State.NEW: "▶ ", State.SAME: "= ", State.KEPT: "", State.GONE: "- ", State.LOOK: ""}
"""What stands before short values. Lines in other states have none."""

STORES_NOTHING = "! it stores nothing"


def hints(file: Opened, params: dict[str, Any]) -> list[dict[str, Any]]:
    """The short values of the lines of a range."""
    found, lines = list[dict[str, Any]](), file.range_of(params["range"])
    if file.given is not None:
        file.given.look(lines)
    for number in lines:
        text = hint(file, number) if len(found) < MOST_LINES else ""
        if text:
            place = file.position(number, len(file.document.lines[number]))
            found.append({"position": place, "label": text, "paddingLeft": True})
    return found


def hint(file: Opened, number: int) -> str:
    """The short values of a line, or what became of its row. Why a line is refused is told elsewhere."""
    shown = file.document.shown[number]
    if file.given is not None:
        return file.given.label(number)
    if shown.refused:
        return ""
    if shown.row is not None and shown.row.book in file.document.book.faults:
        return STORES_NOTHING
    mark = mark_of(file.document, number, file.done)
    return SIGNS[mark.state] + mark.text if mark.state in SIGNS else ""


class Part(NamedTuple):
    """Words, and lines below them."""

    words: str
    block: str = ""


def hover(file: Opened, params: dict[str, Any], is_marked: bool) -> dict[str, Any] | None:
    """What is known of the word under the cursor, in Markdown or plain."""
    place = place_of(file, params)
    told = parts_of(file.document, place) if file.given is None else parts_given(file.given, place)
    parts = list(told) if place.number < len(file.document.lines) else []
    if not parts:
        return None
    texts = [marked(part) if is_marked else f"{part.words}\n{part.block}".rstrip() for part in parts]
    contents = {"kind": "markdown" if is_marked else "plaintext", "value": "\n\n".join(texts)}
    return {"contents": contents, "range": file.span(place.number, place.start, place.end)}


def marked(part: Part) -> str:
    """A part in Markdown."""
    return f"{part.words}\n```text\n{part.block}\n```" if part.block else part.words


def parts_given(given: Given, place: Place) -> Iterator[Part]:
    """What is said of a word of a file whose values come from elsewhere."""
    said = given.whole(place.number)
    if said and place.word:
        yield Part("", said)
    if place.word in INSTRUCTIONS or (place.start == 0 and place.word):
        yield from (of_reference(entry) for entry in find(place.word))


def parts_of(document: Document, place: Place) -> Iterator[Part]:
    """What is said of a word."""
    board, row = document.book.board, row_at(document, place.number)
    said = words_at(document, place.number)
    if said and place.word:
        yield Part(said)
    is_first = place.start == 0
    if place.word in INSTRUCTIONS or (is_first and place.word):
        yield from (of_reference(entry) for entry in find(place.word))
    name = name_at(place)
    if name and board.set_of(place.word) is not None:
        yield from of_key(document, place.number, place.word)
    elif name in board.sets:
        yield Part(f"set `{name}`: {shape_text(board.sets[name])}")
        if row is not None:
            yield from behind(document, row)
    elif place.word in INSTRUCTIONS and row is not None:
        yield from behind(document, row)


def of_reference(entry: Entry) -> Part:
    """An entry without its example."""
    head, *lines = help_lines(entry, COLUMNS)
    end = next((at for at, line in enumerate(lines) if "example to paste" in line), len(lines))
    return Part(f"`{head}`", "\n".join(line.removeprefix("  ") for line in lines[:end]))


def of_key(document: Document, number: int, key: str) -> Iterator[Part]:
    """The values of a key at a line: what is read there, where it comes from, and what the row leaves."""
    board, row = document.book.board, row_at(document, number)
    head = f"`{key}`: {bits_text(width_of(board, key))} in `{board.set_of(key)}`"
    last = place_read(document, number)
    is_start = document.shown[number].kind in (Kind.FIELD, Kind.INPUT)
    origin = "at the start" if is_start else came_from(document, key, last)
    yield Part(f"{head}, {origin}", grid(document, key, document.book.look(key, last)))
    if row is not None and key in board.keys_written(row.text):
        yield from behind(document, row, key)


def came_from(document: Document, key: str, last: FileRow | None) -> str:
    """Where a value comes from, in words."""
    row = writer(document, key, last)
    if row is not None:
        return f"from the row `{row.text}` in line {lines_of_rows(document)[row] + 1}"
    given = [str(number + 1) for number in input_lines(document, key)]
    if not given:
        return "as it was declared"
    shown = ", ".join(given[:8]) + (", .." if len(given) > 8 else "")
    return f"input data of line{'s' if len(given) > 1 else ''} {shown}"


def behind(document: Document, row: FileRow, only: str = "") -> Iterator[Part]:
    """What a row leaves in the keys that it writes, with what it changed and which processors aren't selected."""
    if row.book in document.book.faults:
        yield Part(f"the row stores nothing, since {document.book.cause(row)}")
        return
    board, above = document.book.board, row_before(document, row)
    context = context_of(board, row.text)
    unselected = frozenset[int]()
    if read(row.text)[0].is_conditional:
        unselected = frozenset(at for at, bit in enumerate(document.book.look(context, above)) if not bit)
    for key, numbers in document.written(row).items():
        if only in ("", key):
            changed = differing(numbers, document.book.look(key, above))
            drawn = Grid(key, axes_of(board, key), width_of(board, key), numbers, changed, unselected=unselected)
            signs = ", `*` where it changed" * bool(changed) + ", `( )` where not selected" * bool(unselected)
            yield Part(f"`{key}` behind this row{signs}", text_of(drawn, columns=COLUMNS))


def grid(document: Document, key: str, numbers: Numbers) -> str:
    """Numbers in the shape of their set."""
    board = document.book.board
    return text_of(Grid(key, axes_of(board, key), width_of(board, key), numbers), columns=COLUMNS)


def bits_text(width: int) -> str:
    """A width in words."""
    return "1 bit" if width == 1 else f"{width} bits"
