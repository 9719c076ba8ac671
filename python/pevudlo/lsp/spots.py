"""Where words and names stand in lines."""

from __future__ import annotations

import re
from collections.abc import Iterator
from functools import lru_cache
from itertools import islice
from typing import Any, NamedTuple

from pevudlo.document.document import Document
from pevudlo.document.pieces import DECLARING, Kind, Piece, piece_of
from pevudlo.lang.instructions import FIELDS, INSTRUCTIONS, NONE, Operand
from pevudlo.lsp.opened import Opened

WORD = re.compile(r"[^ ]+")
MOST_WORDS = 16
"""No line has more words up to its last name."""

NAMED = {
    Kind.SET: ((1, True),),
    Kind.FIELD: ((1, False), (2, True)),
    Kind.INPUT: ((1, False),),
    Kind.SHOW: ((1, False),),
}
"""Which words of a line are names, and which of them are sets' names whatever they are."""


class Spot(NamedTuple):
    """A part of a line, by its letters, and the name of a set or a field that stands there."""

    start: int
    end: int
    name: str
    is_set: bool
    is_declared_here: bool


class Place(NamedTuple):
    """A word under the cursor: the line's number and text, and where the word begins and ends."""

    number: int
    line: str
    start: int
    end: int

    @property
    def word(self) -> str:
        """The word."""
        return self.line[self.start : self.end]


def place_of(file: Opened, params: dict[str, Any]) -> Place:
    """The word that a request is about; an empty one where the cursor is at none."""
    number, at = file.place(params["position"])
    line = file.line(number)
    for word in WORD.finditer(line):
        if word.start() <= at <= word.end():
            return Place(number, line, word.start(), word.end())
    return Place(number, line, at, at)


def name_at(place: Place) -> str:
    """The set or the field that is named under the cursor, or nothing."""
    return next((spot.name for spot in spots(place.line) if spot.start == place.start), "")


@lru_cache(maxsize=65_536)
def spots(line: str) -> tuple[Spot, ...]:
    """The names of sets and fields in a line."""
    piece, words = piece_of(line), list(islice(WORD.finditer(line), MOST_WORDS))
    found: list[Spot] = []
    for at, is_set in named_words(piece, len(words)):
        start = words[at].start()
        name, dot, _ = words[at].group().partition(".")
        if name != NONE:
            is_declared_here = piece.kind in DECLARING and at == 1
            found.append(Spot(start, start + len(name), name, is_set or bool(dot), is_declared_here))
    return tuple(found)


def named_words(piece: Piece, count: int) -> Iterator[tuple[int, bool]]:
    """Which words of a line of so many are names, and whether of sets."""
    yield from NAMED.get(piece.kind, ())
    if piece.kind in (Kind.ROW, Kind.REPLACE):
        instruction = INSTRUCTIONS[piece.text.split(" ", 1)[0]]
        first = count - len(instruction.operands)
        for at, operand in enumerate(instruction.operands):
            if operand in FIELDS or operand is Operand.SET:
                yield first + at, operand is Operand.SET


def all_spots(document: Document) -> Iterator[tuple[int, Spot]]:
    """The names in all lines, with the lines' numbers."""
    for number, line in enumerate(document.lines):
        for spot in spots(line):
            yield number, spot


def declaration_of(document: Document, name: str) -> tuple[int, Spot] | None:
    """Where a name is declared."""
    for number, shown in enumerate(document.shown[: document.meaning.head]):
        if shown.kind in DECLARING and not shown.refused and shown.piece.name == name:
            return number, spots(document.lines[number])[0]
    return None
