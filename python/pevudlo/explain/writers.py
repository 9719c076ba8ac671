"""Writes what came of each line of a script: in words beside the line, or in one object of JSON a line."""

from __future__ import annotations

import json
from abc import ABC, abstractmethod
from collections.abc import Sequence
from dataclasses import dataclass, field

from pevudlo.draw.visible import visible
from pevudlo.explain.objects import object_of
from pevudlo.explain.words import ending, matters, told
from pevudlo.hints.explanation import MOST_SHOWN
from pevudlo.lang.board import Board
from pevudlo.lang.replies import RowFault
from pevudlo.talk import Answer

INDENT = " " * 6
WIDE = 48
"""The reply stands beside the line from this letter on, or behind a longer line."""


@dataclass
class Tally:
    """How many commands there were, which lines were refused, and whether that ended it."""

    commands: int = 0
    refused: list[int] = field(default_factory=list)
    stopped: bool = False

    def count(self, number: int, answer: Answer, stop: bool) -> None:
        """Counts a line. With `stop`, one that is refused ends it."""
        self.commands += 1
        if answer.explanation is not None:
            self.refused.append(number)
            self.stopped = stop


class Writer(ABC):
    """Writes to standard output. A quiet one writes refusals and values alone, and no end."""

    def __init__(self, name: str, is_quiet: bool) -> None:
        self.name = name
        self.is_quiet = is_quiet

    def write(self, number: int, answer: Answer, board: Board) -> None:
        """A line that was answered."""
        if matters(answer) or not self.is_quiet:
            self._write(number, answer, board)

    def comment(self, number: int, line: str) -> None:
        """A line that has no answer."""

    def end(self, tally: Tally, faults: Sequence[RowFault]) -> None:
        """The end of the script, and the rows that are refused for their data then."""
        if not self.is_quiet:
            self._end(tally, faults)

    @abstractmethod
    def _write(self, number: int, answer: Answer, board: Board) -> None:
        ...

    @abstractmethod
    def _end(self, tally: Tally, faults: Sequence[RowFault]) -> None:
        ...


class InWords(Writer):
    """Words for people: the file's name once, and below it each line with its number and what came of it."""

    is_begun = False

    def comment(self, number: int, line: str) -> None:
        if not self.is_quiet and line:
            self._say(f"{number:>4}  {visible(line)}")

    def _write(self, number: int, answer: Answer, board: Board) -> None:
        head, more = told(answer, board)
        line = shown(answer.line)
        if answer.explanation is not None:
            # (the line is cut round the place of its caret)
            line, *more = more
        self._say(f"{number:>4}  {line:<{WIDE}}  {head}", *(f"{INDENT}{text}".rstrip() for text in more))

    def _end(self, tally: Tally, faults: Sequence[RowFault]) -> None:
        self._say(ending(tally.commands, tally.refused, faults, tally.stopped))

    def _say(self, *lines: str) -> None:
        """Writes lines, below the file's name."""
        print("\n".join(lines if self.is_begun else [self.name, *lines]))
        self.is_begun = True


def shown(line: str) -> str:
    """A line, or its beginning where it is long."""
    return visible(line if len(line) <= MOST_SHOWN else f"{line[: MOST_SHOWN - 3]}...")


class InJson(Writer):
    """One object a line, in ASCII."""

    def _write(self, number: int, answer: Answer, board: Board) -> None:
        print(json.dumps({"file": self.name, **object_of(number, answer, board)}))

    def _end(self, tally: Tally, faults: Sequence[RowFault]) -> None:
        rows = [fault.row for fault in faults]
        end = {"kind": "end", "commands": tally.commands, "refused": tally.refused, "faults": rows}
        print(json.dumps({"file": self.name, **end, "stopped": tally.stopped}))
