"""Rows that are refused for their data, in words: how many, which, why, and what mends them.

It asks nothing and prints nothing: who has a program hands in what `faults` and `show` answered.
"""

from __future__ import annotations

from collections.abc import Callable, Mapping, Sequence
from itertools import starmap
from typing import Optional

from pevudlo.lang.board import Board
from pevudlo.lang.instructions import Operand, read
from pevudlo.lang.replies import Cause, RowFault

MOST_NAMED = 12
"""How many rows are named where not all are asked for, and of how many the bad address is looked at."""

MOST_WARNED = 4
"""Of how many rows a warning says why they are refused."""

Look = Callable[[str, str], Optional[Sequence[int]]]
"""The numbers of a key by processor at a place that is spelled as in a script, or None where they aren't to be had."""


def address_place(fault: RowFault, text: str) -> tuple[str, str] | None:
    """The key and the place at which a bad address stands. None for a collision.

    The place is that just after the row. The row stores nothing, so its addresses stand there as it met them.
    """
    if fault.cause is not Cause.BAD_ADDRESS:
        return None
    _, named = read(text)
    return named[Operand.B], f"after {fault.row}"


def cause_words(fault: RowFault, text: str, board: Board, address: int | None = None) -> str:
    """Why a row of this instruction stores nothing, and what mends it. `address` is the bad one, where it is known.

    Words of scripts stand between backticks. Without a text, where the row is known by its id alone, less is said.
    """
    if fault.cause is Cause.COLLISION:
        return f"two messages meet at processor {fault.processor}: `send-with-u-add-1L` combines them"
    if not text:
        return f"processor {fault.processor} holds an address outside its set"
    _, named = read(text)
    of = board.fields[named[Operand.B]].set
    count = board.processors(of)
    room = "1 processor, of address 0" if count == 1 else f"{count:,} processors, of addresses 0 to {count - 1:,}"
    held = "an address outside its set" if address is None else f"the address {address:,}"
    return f"processor {fault.processor} holds {held} in `{named[Operand.B]}`: `{of}` has {room}"


def causes(faults: Sequence[RowFault], board: Board, look: Look, most: int = MOST_NAMED) -> dict[int, str]:
    """The causes in words, by row. Of the first `most` rows that hold a bad address, `look` is asked which one."""
    words: dict[int, str] = {}
    for fault in faults:
        text = board.texts.get(fault.row, "")
        place = address_place(fault, text) if text and len(words) < most else None
        numbers = None if place is None else look(*place)
        words[fault.row] = cause_words(fault, text, board, None if numbers is None else numbers[fault.processor])
    return words


def row_words(row: int, words: str) -> str:
    """A row that was refused for its data, with its cause in words."""
    return f"row {row} stores nothing, since {words}"


def count_words(faults: Sequence[RowFault], most: int = MOST_NAMED) -> str:
    """How many rows are refused for their data, and which: the first `most` of them by their ids."""
    count = len(faults)
    if not count:
        return "no row is refused for its data"
    rows = ", ".join(str(fault.row) for fault in faults[:most]) + (", .." if count > most else "")
    return (
        f"1 row is refused for its data: row {rows}"
        if count == 1
        else (f"{count:,} rows are refused for their data: rows {rows}")
    )


class RefusedRows(UserWarning):
    """Rows that ran are refused for their data: they are settled, and store nothing. `faults` are all such rows."""

    def __init__(self, faults: Sequence[RowFault], causes: Mapping[int, str]) -> None:
        self.faults = tuple(faults)
        super().__init__("\n    ".join([count_words(faults), *starmap(row_words, causes.items())]))
