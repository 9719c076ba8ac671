"""The magics of IPython: `%%paris NAME` makes of a cell a piece of a program, and `%paris` says what there is."""

from __future__ import annotations

import importlib
from collections.abc import Mapping
from math import prod
from typing import Any

from pevudlo.draw.grids import Grid
from pevudlo.lang.keys import axes_of, width_of
from pevudlo.lang.replies import NoReply
from pevudlo.notebook.drawn import Drawn
from pevudlo.notebook.pieces import NoPiece, Pieces
from pevudlo.values.shaped import check_shape, flat, input_lines, is_array, is_number, shaped, unsigned, whole
from pevudlo.wire.pipe import PipeError
from pevudlo.wire.program import NotFound

CELL = "%%paris NAME, %%paris NAME after OTHER, or %%paris NAME before OTHER: the cell is the piece of this name"
LINE = "%paris, %paris drop NAME, %paris script, %paris values KEY, or %paris input KEY = ARRAY"


def lines_of_input(key: str, axes: tuple[int, ...], width: int, values: Any) -> list[str]:
    """The lines that give a key of these axes numbers: one for each processor, signed ones too, or one for all.

    Raises TypeError for what is no whole number, WrongShape, and ValueError for a number that has no room.
    """
    if is_number(values):
        return input_lines(key, 0, [unsigned(whole(values), width)] * prod(axes))
    if is_array(values) and values.dtype.kind not in "iubO":
        raise TypeError(f"values are whole numbers, and not {values.dtype}")
    numbers, shape = flat(unsigned(values, width))
    check_shape(shape, key, axes)
    return input_lines(key, 0, numbers)


class Magic:
    """The magics of a shell, over its pieces."""

    def __init__(self, shell: Any, pieces: Pieces | None = None) -> None:
        self.pieces = pieces or Pieces()
        self._shell = shell
        self._shown: dict[str, Any] = {}
        self._display = importlib.import_module("IPython.display").display
        self._wrong = importlib.import_module("IPython.core.error").UsageError

    def register(self) -> None:
        """Tells the shell of them. They end with it."""
        self._shell.register_magic_function(self.cell, "cell", "paris")
        self._shell.register_magic_function(self.line, "line", "paris")
        importlib.import_module("atexit").register(self.pieces.close)

    def cell(self, words: str, text: str) -> None:
        """%%paris NAME [after|before OTHER]: the cell is the piece of this name, in its place or beside another one."""
        match words.split():
            case [name]:
                self._draw(name, lambda: self.pieces.put(name, text))
            case [name, "after" | "before" as side, other]:
                self._draw(name, lambda: self.pieces.put(name, text, other, side == "after"))
            case _:
                raise self._wrong(CELL)

    def line(self, words: str) -> Any:
        """%paris says which pieces there are; %paris drop, script, values and input do what their words say."""
        match words.split():
            case []:
                return self.pieces.names
            case ["drop", *parts] if parts:
                name = " ".join(parts)
                self._draw("", lambda: self.pieces.drop(name))
                self._shown.pop(name, None)
                return None
            case ["script"]:
                print(self.pieces.script(), end="")
                return None
            case ["values", key]:
                return self._values(key)
            case ["input", key, "=", *_]:
                self._input(key, words.partition("=")[2])
                return None
        raise self._wrong(LINE)

    def _input(self, key: str, text: str) -> None:
        """The piece of the name `input KEY` gives a key the numbers of an array: what an expression of Python's is."""
        board = self.pieces.document.book.board if self.pieces.document.is_in_step else None
        axes = board.axes_of(key) if board is not None else None
        if board is None or axes is None:
            raise self._wrong(f"there is no key {key}: a cell declares it before it has input data")
        value = self._shell.ev(text)
        try:
            lines = lines_of_input(key, axes, width_of(board, key), value)
        except (TypeError, ValueError) as error:
            raise self._wrong(str(error)) from error
        name = f"input {key}"
        self._draw(name, lambda: self.pieces.put(name, "\n".join(lines)))

    def _draw(self, name: str, renew: Any) -> None:
        """Shows the piece of a name here, and others that give something else anew where they stand."""
        try:
            drawn: Mapping[str, Drawn] = renew()
        except NoPiece as error:
            raise self._wrong(f"there is no piece {error}: {', '.join(self.pieces.names) or 'none yet'}") from error
        except (PipeError, NotFound, NoReply) as error:
            raise self._wrong(str(error)) from error
        for each, piece in drawn.items():
            if each == name or each not in self._shown:
                self._shown[each] = self._display(piece, display_id=True)
            else:
                self._shown[each].update(piece)

    def _values(self, key: str) -> Any:
        """The values of a key at the end of the program, in the shape of its set."""
        document = self.pieces.document
        if not document.is_in_step or document.book.board.set_of(key) is None:
            raise self._wrong(f"there is no key {key}")
        board, rows = document.book.board, document.rows
        numbers = list(document.book.look(key, rows[-1] if rows else None))
        return shaped(Grid(key, axes_of(board, key), width_of(board, key), numbers))
