"""Places in the program: its start, its end, and just after a row."""

from __future__ import annotations

from dataclasses import dataclass


@dataclass(frozen=True)
class Place:
    """A place in the program, as commands spell it."""

    text: str


START = Place("start")
END = Place("end")


def after(row: int) -> Place:
    """The place just after the row of this id."""
    return Place(f"after {row}")


def spelled(at: Place) -> str:
    """The place as commands spell it. Raises TypeError for what is none, such as the id of a row."""
    if not isinstance(at, Place):
        raise TypeError(f"a place is START, END or after(row), and not {at!r}")
    return at.text
