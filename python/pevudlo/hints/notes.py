"""Notes on lines that are accepted, and perhaps say something else than was meant."""

from __future__ import annotations

from pevudlo.lang.board import Board

MOST_SHOWN = 60
"""A longer line isn't written once more."""


def note_of(line: str, board: Board) -> str:
    """What is told of a line that was accepted, or nothing.

    It is told of input data with as many numbers as the set has processors, where the first of them is no value.
    """
    command, _, rest = line.partition(" ")
    key, _, numbers = rest.partition(" ")
    name = board.set_of(key) if command == "input" else None
    spaces = numbers.count(" ")
    # One value for one processor is what it seems to be.
    if name is None or spaces < 2 or board.processors(name) != spaces + 1:
        return ""
    first = numbers.partition(" ")[0]
    whole = f"input {key} 0 {numbers}" if len(line) <= MOST_SHOWN else f"input {key} 0 {first} .."
    return (
        f"{first} is the first processor here, and {spaces} values go from there on: "
        f"`{whole}` gives each processor of `{name}` one"
    )
