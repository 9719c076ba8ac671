"""A session of the library that holds the rows of a function: numbers in and out, and rows that run for a look."""

from __future__ import annotations

from collections.abc import Iterator, Sequence
from functools import lru_cache
from math import prod
from typing import Any

import numpy

from pevudlo.follow.expressions import WORD
from pevudlo.follow.rows import SET
from pevudlo.lang.instructions import read
from pevudlo.values.words import Words
from pevudlo.wire.book import Book
from pevudlo.wire.library import Library
from pevudlo.wire.library_places import find_library

PROFILE = 2
"""The profile of all sessions: fields have up to 128 bits."""

OVERFLOW = f"{SET}.overflow"

Numbers = numpy.ndarray[Any, numpy.dtype[Any]]


@lru_cache(maxsize=16_384)
def keys_written(text: str) -> tuple[str, ...]:
    """The keys that a row writes."""
    instruction, _ = read(text)
    return (*instruction.fields_written(text.split(" ")), *(f"{SET}.{flag}" for flag in instruction.flags))


class Session:
    """A book with one set of a shape."""

    def __init__(self, shape: tuple[int, ...]) -> None:
        self.shape, self.size = shape, prod(shape)
        self.book = Book(find_library(), PROFILE)
        self._numbers = numpy.empty(self.size, dtype=numpy.uint64)
        self._room = Words(self._numbers.ctypes.data, self._numbers.data)
        self.tell([set_line(shape)])

    def tell(self, lines: Sequence[str]) -> None:
        """Tells edits, of which each must be accepted. So rows that are put in have the ids that follow one another."""
        accepted = self.book.edit_all(lines) if lines else 0
        if accepted != len(lines):
            raise RuntimeError(f"{len(lines) - accepted} of {len(lines)} edits are refused")

    def give(self, field: str, first: int, words: Numbers) -> None:
        """Gives a field numbers from a processor on."""
        if not self.book.set(field, first, Words(words.ctypes.data, words.data)):
            raise RuntimeError(f"{field} takes no {len(words)} numbers from {first} on")

    def settle(self, key: str, place: int) -> tuple[int, ...]:
        """Runs the rows that the value of a key at a place waits for, and gives the ids of those that ran."""
        ran = self.book.settle_for(key, place)
        if ran is None:
            raise RuntimeError(f"there is no value of {key} at place {place}")
        return tuple(ran)

    def numbers(self, key: str, row: int, width: int) -> Numbers | None:
        """The numbers of a key behind a row, or at the start, until the next look. None where it is unsettled."""
        is_wide = width > WORD
        told = self.book.get_wide(key, row, self.size) if is_wide else self.book.get_into(self._room, key, row)
        if isinstance(told, int):
            return None
        if told is None:
            raise RuntimeError(f"there are no numbers of {key} behind row {row}")
        return self._numbers if isinstance(told, Words) else numpy.asarray(told, dtype=object)

    def faults(self) -> Iterator[tuple[int, str, int]]:
        """The rows that are refused for their data: each with its cause and a processor."""
        for line in Library.ask(self.book, "faults")[1:]:
            row, cause, processor = line.split(" ")
            yield int(row), cause, int(processor)

    def close(self) -> None:
        """Ends the session."""
        self.book.close()


def set_line(shape: tuple[int, ...]) -> str:
    """The line that declares the set: axis 0 of the program is the last one of arrays."""
    return f"set {SET} {'x'.join(map(str, reversed(shape or (1,))))}"
