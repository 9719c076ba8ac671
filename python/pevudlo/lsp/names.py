"""Names in a file: where a value comes from, where a name is declared, where it stands, and another name for it."""

from __future__ import annotations

from typing import Any

from pevudlo.document.answers import instruction_at, sources_of
from pevudlo.document.lines import RowTaker, line_at
from pevudlo.lang.grammar import is_name
from pevudlo.lsp.failures import INVALID_PARAMS, Failed
from pevudlo.lsp.opened import Opened
from pevudlo.lsp.spots import all_spots, declaration_of, name_at, place_of

Location = dict[str, Any]
TEXT, READ, WRITE = 1, 2, 3


def location(file: Opened, number: int, start: int = 0, end: int | None = None) -> Location:
    """A part of a line of the file."""
    return {"uri": file.uri, "range": file.span(number, start, end)}


def declaration(file: Opened, params: dict[str, Any]) -> list[Location]:
    """Where the name under the cursor is declared."""
    found = declaration_of(file.document, name_at(place_of(file, params)))
    return [] if found is None else [location(file, found[0], found[1].start, found[1].end)]


def definition(file: Opened, params: dict[str, Any]) -> list[Location]:
    """The row that the value under the cursor comes from; at the start its input data, or its declaration. Of a line
    that takes out a row it is that row's line.
    """
    place, document = place_of(file, params), file.document
    if place.number >= len(document.lines):
        return []
    line = line_at(document, place.number)
    if isinstance(line, RowTaker):
        return [location(file, line.of)]
    if not name_at(place) or document.book.board.set_of(place.word) is None:
        return declaration(file, params)
    found = [location(file, each) for each in sources_of(document, place.number, place.word) if each != place.number]
    return found or declaration(file, params)


def references(file: Opened, params: dict[str, Any]) -> list[Location]:
    """Where the name under the cursor stands."""
    name = name_at(place_of(file, params))
    has_declaration = params.get("context", {}).get("includeDeclaration", True)
    return [
        location(file, number, spot.start, spot.end)
        for number, spot in all_spots(file.document)
        if spot.name == name and (has_declaration or not spot.is_declared_here)
    ]


def highlights(file: Opened, params: dict[str, Any]) -> list[dict[str, Any]]:
    """The same within the file: where it is declared, and where it is read or written."""
    name, board = name_at(place_of(file, params)), file.document.book.board
    found = []
    for number, spot in all_spots(file.document):
        if spot.name == name:
            text = instruction_at(file.document, number)
            is_written = spot.is_declared_here or (text and name in board.keys_written(text))
            where = file.span(number, spot.start, spot.end)
            found.append({"range": where, "kind": WRITE if is_written else READ})
    return found


def prepare_rename(file: Opened, params: dict[str, Any]) -> dict[str, Any] | None:
    """The part that is to be another name, where a declared name stands under the cursor."""
    place = place_of(file, params)
    name = name_at(place)
    if declaration_of(file.document, name) is None:
        return None
    return {"range": file.span(place.number, place.start, place.start + len(name)), "placeholder": name}


def rename(file: Opened, params: dict[str, Any]) -> dict[str, Any]:
    """The edits that give a name another one. Raises Failed where it can't have it."""
    old, new = name_at(place_of(file, params)), params["newName"]
    board = file.document.book.board
    if declaration_of(file.document, old) is None:
        raise Failed(INVALID_PARAMS, "no declared name stands here")
    if not is_name(new):
        raise Failed(INVALID_PARAMS, f"`{new}` is no name: 1 to 16 letters, digits, `-` and `_`, a letter first")
    if new != old and (new in board.fields or new in board.sets):
        raise Failed(INVALID_PARAMS, f"`{new}` is declared already")
    edits = [
        {"range": file.span(number, spot.start, spot.end), "newText": new}
        for number, spot in all_spots(file.document)
        if spot.name == old
    ]
    return {"changes": {file.uri: edits}}
