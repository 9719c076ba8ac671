"""How the prompt shows replies: values as a grid or in a line, unsigned, signed, in hex or as bits."""

from __future__ import annotations

from dataclasses import dataclass, replace

from pevudlo.draw.grids import Grid, text_of
from pevudlo.draw.units import Unit, spelled
from pevudlo.explain.words import told
from pevudlo.hints.explanation import MOST_SHOWN
from pevudlo.hints.notes import note_of
from pevudlo.lang.board import Board
from pevudlo.lang.keys import axes_of, width_of
from pevudlo.lang.replies import Ok, Values
from pevudlo.talk import Answer

UNITS = {unit.value: unit for unit in Unit}
LAYOUTS = ("grid", "line")
WAYS = (*LAYOUTS, *UNITS)


@dataclass(frozen=True)
class View:
    """How values are shown. `is_grid`: in the shape of their set; else in the line of the reply."""

    is_grid: bool = True
    unit: Unit = Unit.UNSIGNED

    def by(self, way: str) -> View:
        """The view with one of `WAYS` in it."""
        if way in LAYOUTS:
            return replace(self, is_grid=way == "grid")
        return replace(self, unit=UNITS[way])

    def words(self) -> str:
        """What it is called."""
        return f"values are shown as a {'grid' if self.is_grid else 'line'}, {unit_words(self.unit)}"


def unit_words(unit: Unit) -> str:
    """How numbers are spelled."""
    return {Unit.HEX: "in hex", Unit.BITS: "as bits"}.get(unit, unit.value)


def values_lines(line: str, values: Values, board: Board, view: View, columns: int | None) -> list[str]:
    """Values that a `show` has answered. A grid fits so many columns, where they are said."""
    _, key, *place = line.split(" ")
    axes, width = axes_of(board, key), width_of(board, key)
    where = f"after row {place[1]}" if len(place) == 2 else f"at the {place[0]}"
    if not view.is_grid:
        return [" ".join(["values", *(spelled(number, width, view.unit) for number in values.numbers)])]
    bits = "1 bit" if width == 1 else f"{width} bits"
    spelling = "" if view.unit is Unit.UNSIGNED else f", {unit_words(view.unit)}"
    head = f"{key} {where} ({board.set_of(key)} {'x'.join(map(str, axes))}, {bits}{spelling})"
    room = None if columns is None else columns - 2
    grid = text_of(Grid(key, axes, width, values.numbers), view.unit, room)
    return [head, *(f"  {text}" for text in grid.split("\n"))]


def answer_lines(answer: Answer, board: Board, view: View, columns: int | None = None) -> list[str]:
    """What is shown for an answer. Where columns are said, grids and lines with carets fit them."""
    if isinstance(answer.reply, Values):
        return values_lines(answer.line, answer.reply, board, view, columns)
    head, more = told(answer, board, MOST_SHOWN if columns is None else min(MOST_SHOWN, columns - 8))
    return [head, *(f"  {text}".rstrip() for text in more)]


def is_told(answer: Answer, board: Board) -> bool:
    """Whether an answer is worth a line where a whole file is told: all but those that say that a line was accepted.

    Where rows are refused for their data it is, and where there is a note on the line.
    """
    word = answer.lines[0].split(" ")[0]
    if answer.faults or (isinstance(answer.reply, Ok) and note_of(answer.line, board)):
        return True
    return not (isinstance(answer.reply, Ok) or word in ("row", "settled", "order", "kept"))
