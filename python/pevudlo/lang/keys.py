"""What is known of a key and of a row's set, by the board: for words that the program has accepted."""

from __future__ import annotations

from pevudlo.lang.board import Board
from pevudlo.lang.instructions import FIELDS, NONE, Operand, read


def axes_of(board: Board, key: str) -> tuple[int, ...]:
    """The lengths of the axes of a key's set. Raises KeyError where it is no key."""
    axes = board.axes_of(key)
    if axes is None:
        raise KeyError(key)
    return axes


def width_of(board: Board, key: str) -> int:
    """The width of a key in bits. Raises KeyError where it is no key."""
    width = board.width_of(key)
    if width is None:
        raise KeyError(key)
    return width


def context_of(board: Board, text: str) -> str:
    """The context flag of the set that an instruction works on. Raises ValueError where the text is no instruction."""
    _, named = read(text)
    if Operand.SET in named:
        return f"{named[Operand.SET]}.context"
    field = next(name for operand, name in named.items() if operand in FIELDS and name != NONE)
    return f"{board.fields[field].set}.context"
