"""What a followed function can't do, each with a sentence that says what serves, and the line of Python."""

from __future__ import annotations

import os
import sys
from collections import Counter
from collections.abc import Iterable, Sequence
from functools import lru_cache
from typing import NamedTuple, NoReturn

import numpy

INSIDE = (
    os.path.dirname(os.path.abspath(__file__)) + os.sep,
    os.path.dirname(os.path.abspath(numpy.__file__)) + os.sep,
    "<__array_function__",
)
"""The files whose lines aren't those of who wrote the function."""


class Line(NamedTuple):
    """A line of Python."""

    file: str
    number: int

    def __str__(self) -> str:
        name = self.file if self.file.startswith("<") else os.path.basename(self.file)
        return f"line {self.number} of {name}"


class Overflow(NamedTuple):
    """An operation whose numbers had no room, by its line, and in how many processors."""

    line: Line
    operation: str
    processors: int

    def __str__(self) -> str:
        count = "1 processor" if self.processors == 1 else f"{self.processors:,} processors"
        return f"{self.operation} in {self.line} has no room for its numbers in {count}"


class NotTraced(TypeError):
    """A function asks something of its arrays that rows can't do, or that is known only once they have run."""


class TooMuch(ValueError):
    """A function wants more fields, rows or processors than a program has. What was there before is still there."""


class RowRefused(ArithmeticError):
    """A value stands on a row that was refused for its data."""


class OverflowWarning(UserWarning):
    """Numbers had no room in what a value stands on. `overflows` has the operations."""

    def __init__(self, overflows: Sequence[Overflow]) -> None:
        self.overflows = tuple(overflows)
        super().__init__("\n    ".join(map(str, overflows)))


@lru_cache(maxsize=1_024)
def is_inside(file: str) -> bool:
    """Whether a file is one of this package or of numpy."""
    return file.startswith(INSIDE)


def present_line() -> Line:
    """The line of Python that is run now: that of the first frame outside of this package and of numpy."""
    frame = sys._getframe(1)
    while is_inside(frame.f_code.co_filename) and frame.f_back is not None:
        frame = frame.f_back
    return Line(frame.f_code.co_filename, frame.f_lineno)


def refuse(sentence: str) -> NoReturn:
    """Raises NotTraced with a sentence and the line of Python."""
    raise NotTraced(f"{sentence} ({present_line()})")


def most_of(lines: Iterable[Line]) -> tuple[Line, int]:
    """The line that stands there most often, and how often."""
    return Counter(lines).most_common(1)[0]


def unknown(what: str) -> NoReturn:
    """Raises NotTraced for what is known only once the rows have run."""
    refuse(
        f"{what} is known once the program has run, and not while its function is traced: numpy.where chooses by values"
    )
