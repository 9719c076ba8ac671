"""Positions as editors count them: lines from 0, and in a line units of UTF-16."""

from __future__ import annotations

from bisect import bisect_right
from collections.abc import Sequence
from itertools import accumulate
from typing import Any

Position = dict[str, int]
Range = dict[str, Position]
Letter = tuple[int, int]
"""A line of a script, and a letter in it."""

PAIR = 0xFFFF
"""A letter above it takes two units."""


def units(text: str) -> int:
    """How many units of UTF-16 a text has."""
    return len(text) if text.isascii() else len(text) + sum(ord(letter) > PAIR for letter in text)


def letter_at(text: str, character: int) -> int:
    """The letter of a line at a position; its end where the line is shorter."""
    if text.isascii():
        return max(0, min(character, len(text)))
    count = 0
    for at, letter in enumerate(text):
        if count >= character:
            return at
        count += 2 if ord(letter) > PAIR else 1
    return len(text)


def paired(text: str) -> str:
    """The text in which halves of pairs of UTF-16 are pairs, and one that is alone is a sign for that."""
    return text.encode("utf-16-le", "surrogatepass").decode("utf-16-le", "replace")


class Layout:
    """The lines of a script, with the positions in them that the protocol counts.

    A line of a script ends at a line feed alone. One of the protocol ends at a carriage return too, and at both
    together. `may_return` says whether some line may have a carriage return. `kept` are how many lines at the start and
    at the end are those of the text before the change that led here.
    """

    def __init__(self, lines: Sequence[str], may_return: bool = True, kept: tuple[int, int] = (0, 0)) -> None:
        self.lines, self.may_return, self.kept = lines, may_return, kept
        counts = [len(self.parts(at)) for at in range(len(lines))] if may_return else []
        # How many lines of the protocol stand above each line, where they aren't as many as those of the script.
        self._above = list(accumulate(counts, initial=0)) if sum(counts) > len(lines) else None

    def parts(self, number: int) -> list[str]:
        """The lines of the protocol in a line of the script."""
        line = self.lines[number]
        if "\r" not in line:
            return [line]
        is_ended = number < len(self.lines) - 1
        return (line.removesuffix("\r") if is_ended else line).split("\r")

    def first(self, number: int) -> int:
        """The first line of the protocol in a line of the script."""
        return number if self._above is None else self._above[number]

    def position(self, number: int, letter: int) -> Position:
        """The position of a letter of a line. That of the carriage return before a line feed is the line's end."""
        row, (part, *rest) = self.first(number), self.parts(number)
        for other in rest:
            if letter <= len(part):
                break
            row, letter, part = row + 1, letter - len(part) - 1, other
        return {"line": row, "character": units(part[:letter])}

    def span(self, number: int, start: int = 0, end: int | None = None) -> Range:
        """A part of a line, by its letters; without them all of it."""
        stop = len(self.lines[number]) if end is None else end
        return {"start": self.position(number, start), "end": self.position(number, stop)}

    def place(self, position: Position) -> Letter:
        """The letter at a position. One behind its line is at the line's end, and one behind the text at its end."""
        row = position["line"]
        number = row if self._above is None else bisect_right(self._above, row) - 1
        parts = self.parts(number) if number < len(self.lines) else []
        at = row - self.first(number) if parts else 0
        if at >= len(parts):
            return len(self.lines) - 1, len(self.lines[-1])
        return number, sum(len(part) + 1 for part in parts[:at]) + letter_at(parts[at], position["character"])

    def edited(self, change: dict[str, Any]) -> Layout:
        """The lines behind a change: of a range of the text, or of all. A range may be said from its end."""
        put = paired(change["text"])
        may_return = "\r" in put
        if "range" not in change:
            return Layout(put.split("\n"), may_return)
        start, end = sorted(self.place(change["range"][side]) for side in ("start", "end"))
        text = self.lines[start[0]][: start[1]] + put + self.lines[end[0]][end[1] :]
        rest = self.lines[end[0] + 1 :]
        lines = [*self.lines[: start[0]], *text.split("\n"), *rest]
        return Layout(lines, may_return or self.may_return, (start[0], len(rest)))


def laid_out(text: str) -> Layout:
    """The lines of a whole text."""
    return Layout(paired(text).split("\n"), "\r" in text)
