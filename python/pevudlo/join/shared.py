"""The lines that all share, as a server tells them."""

from __future__ import annotations

from collections.abc import Mapping
from typing import Any

from pevudlo.join.merging import Line
from pevudlo.serve.lines import START, Op

NOBODY = -1
"""Who wrote a line of which it isn't known."""


class Strange(Exception):
    """What a server tells doesn't fit the lines: the whole text is wanted."""


class Shared:
    """The lines, by their ids their texts, and who wrote each last; the number of the last edit."""

    def __init__(self) -> None:
        self.lines: list[Line] = []
        self.text: dict[int, str] = {}
        self.by: dict[int, int] = {}
        self.number = 0

    def take_text(self, told: Mapping[str, Any]) -> None:
        """Takes the whole text. Of lines of seat 0 it isn't known whether anybody wrote them. Raises Strange."""
        try:
            lines = [(int(number), str(text), int(by)) for number, text, by in told["lines"]]
            self.number = int(told["n"])
        except (KeyError, TypeError, ValueError) as error:
            raise Strange("a text has another shape") from error
        self.lines = [Line(number, text) for number, text, _ in lines]
        self.text = {line.id: line.text for line in self.lines}
        self.by = {number: by or NOBODY for number, _, by in lines}

    def take_op(self, told: Mapping[str, Any]) -> None:
        """Does what was done to a line. Raises Strange where there is no such line."""
        try:
            op, number, by = Op(told["op"]), int(told["id"]), int(told["by"])
            self.number = int(told["n"])
            if op is Op.INSERT:
                after = int(told["after"])
                self.lines.insert(0 if after == START else self.place(after) + 1, Line(number, str(told["text"])))
            elif op is Op.REPLACE:
                self.lines[self.place(number)] = Line(number, str(told["text"]))
            else:
                del self.lines[self.place(number)], self.text[number]
        except (KeyError, TypeError, ValueError) as error:
            raise Strange("what was done has another shape") from error
        self.by[number] = by
        if op is not Op.DELETE:
            self.text[number] = str(told["text"])

    def place(self, number: int) -> int:
        """Where a line stands. Raises Strange where there is none of this id."""
        found = next((at for at, line in enumerate(self.lines) if line.id == number), None)
        if found is None:
            raise Strange(f"there is no line {number}")
        return found

    @property
    def texts(self) -> list[str]:
        """The texts of the lines."""
        return [line.text for line in self.lines]
