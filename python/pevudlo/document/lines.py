"""What a line of a text is in the present program: one of a few kinds, which is told of by each view."""

from __future__ import annotations

from dataclasses import dataclass
from typing import Union, assert_never

from pevudlo.document.document import Document
from pevudlo.document.meaning import Change, FileRow, Shown
from pevudlo.document.pieces import Kind


@dataclass(frozen=True)
class RefusedLine:
    """A line that is refused. While it is typed it keeps the row `held`, where it was one."""

    held: FileRow | None


@dataclass(frozen=True)
class LivingRow:
    """A row of the program: the line says its instruction."""

    row: FileRow


@dataclass(frozen=True)
class FormerRow:
    """A row that isn't in the program as the line says it, since the line `by` took it out or replaced it.

    `anchor` is the row behind which it stood, None for the start.
    """

    change: Change
    by: int
    anchor: FileRow | None


@dataclass(frozen=True)
class RowTaker:
    """A line that takes out the row of another one."""

    of: int


@dataclass(frozen=True)
class Look:
    """A look at a key behind a row, None for the start."""

    key: str
    anchor: FileRow | None


@dataclass(frozen=True)
class InputData:
    """Input data of a key."""

    key: str


@dataclass(frozen=True)
class Declaration:
    """A set, a field, or the profile."""


@dataclass(frozen=True)
class PassedOver:
    """A command that says when rows run, or asks for all of them."""


@dataclass(frozen=True)
class Comment:
    """A comment, or an empty line."""


Line = Union[RefusedLine, LivingRow, FormerRow, RowTaker, Look, InputData, Declaration, PassedOver, Comment]


def line_at(document: Document, number: int) -> Line:
    """What the line of an index is."""
    shown = document.shown[number]
    return RefusedLine(shown.row) if shown.refused else accepted(shown)


def accepted(shown: Shown) -> Line:
    """What a line is that isn't refused."""
    match shown.kind:
        case Kind.ROW | Kind.REPLACE:
            return row_of(shown)
        case Kind.DELETE:
            assert shown.taken is not None
            return RowTaker(shown.taken)
        case Kind.SHOW:
            return Look(shown.key, shown.anchor)
        case Kind.INPUT:
            return InputData(shown.key)
        case Kind.SET | Kind.FIELD | Kind.PROFILE:
            return Declaration()
        case Kind.TIME:
            return PassedOver()
        case Kind.NOTHING | Kind.WRONG:
            # The program refuses each line that is wrong.
            return Comment()
    assert_never(shown.kind)


def row_of(shown: Shown) -> Line:
    """A row that lives, or one that was taken out or replaced."""
    if shown.former is not None:
        return FormerRow(shown.former.change, shown.former.by, shown.anchor)
    assert shown.row is not None
    return LivingRow(shown.row)
