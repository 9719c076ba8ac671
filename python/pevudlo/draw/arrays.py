"""What pictures want to know of many numbers: by numpy where it is there, else one by one, with the same results."""

from __future__ import annotations

import operator
from array import array
from collections.abc import Sequence, Set
from functools import cache, lru_cache
from typing import Any

from pevudlo.draw.marks import Marks, bits_of

FEWEST = 1024
"""Fewer numbers are looked at one by one, and numpy isn't imported for them."""

STEPS = 120
"""How many brightnesses there are."""


@cache
def numpy_here() -> Any:
    """Numpy, or None where it isn't there."""
    try:
        import numpy
    except ImportError:
        return None
    return numpy


def array_of(values: Sequence[int]) -> Any:
    """Numpy's view of many numbers that lie in memory, or None where they don't, are few, or numpy isn't there."""
    lie_in_memory = isinstance(values, (bytes, bytearray, array, memoryview))
    numpy = numpy_here() if lie_in_memory and len(values) >= FEWEST else None
    return None if numpy is None else numpy.asarray(memoryview(values))  # type: ignore[arg-type]


def numbers_in(text: str) -> Any:
    """Numpy's array of many numbers with a space between each two, each below 2^64. None where they are few."""
    numpy = numpy_here() if len(text) >= 2 * FEWEST else None
    if numpy is None or not text.isascii() or not text.replace(" ", "").isdigit():
        return None
    numbers = numpy.fromstring(text, dtype=numpy.uint64, sep=" ")
    return numbers if len(numbers) == text.count(" ") + 1 else None


def highest(values: Sequence[int], lines: Sequence[range], down: int, across: int) -> list[list[int]]:
    """The greatest number of each block of so many lines and columns, line by line. The lines follow each other."""
    numbers, wide = array_of(values), len(lines[0])
    if numbers is None or len(lines) % down or wide % across:
        return [
            [max(values[place] for line in block for place in line[at : at + across]) for at in range(0, wide, across)]
            for block in (lines[start : start + down] for start in range(0, len(lines), down))
        ]
    sheet = numbers[lines[0].start : lines[-1].stop].reshape(len(lines) // down, down, wide // across, across)
    tops: list[list[int]] = sheet.max(axis=(1, 3)).tolist()
    return tops


def extent(values: Sequence[int]) -> tuple[int, int]:
    """The least and the greatest of some numbers."""
    numbers = array_of(values)
    if numbers is None:
        return min(values), max(values)
    return int(numbers.min()), int(numbers.max())


def differing(now: Sequence[int], before: Sequence[int]) -> Marks:
    """The processors whose numbers aren't the same."""
    one, two = array_of(now), array_of(before)
    if one is None or two is None:
        return Marks(bytes(map(operator.ne, now, before)))
    is_other = one != two
    return Marks(is_other.tobytes(), int(is_other.sum()))


def levels_of(values: Sequence[int], unselected: Set[int]) -> bytes:
    """A brightness for each value, `STEPS` more where a processor is unselected.

    The least value has 0 and the greatest `STEPS - 1`. Where all are the same, zeros are dark and others bright.
    """
    least, greatest = extent(values)
    scale = greatest - least
    if not scale:
        levels = bytes([STEPS * 5 // 8 if least else 0]) * len(values)
    elif isinstance(values, (bytes, bytearray)):
        levels = values.translate(table_of(least, scale))
    else:
        levels = scaled(values, least, scale)
    return shifted(levels, bits_of(unselected, len(values))) if unselected else bytes(levels)


@lru_cache(256)
def table_of(least: int, scale: int) -> bytes:
    """The brightness of each byte."""
    return bytes(max(0, min(STEPS - 1, (value - least) * (STEPS - 1) // scale)) for value in range(256))


def scaled(values: Sequence[int], least: int, scale: int) -> bytes:
    """The brightness of each value."""
    numbers = array_of(values) if scale * STEPS < 1 << 64 else None
    if numbers is None:
        return bytes([(value - least) * (STEPS - 1) // scale for value in values])
    numpy = numpy_here()
    above = numbers.astype(numpy.uint64) - numpy.uint64(least)
    levels = above * numpy.uint64(STEPS - 1) // numpy.uint64(scale)
    return bytes(levels.astype(numpy.uint8).tobytes())


def shifted(levels: bytes, unselected: bytes) -> bytes:
    """The levels, with those of unselected processors `STEPS` higher."""
    some, marks = array_of(levels), array_of(unselected)
    if some is None or marks is None:
        return bytes(level + STEPS if mark else level for level, mark in zip(levels, unselected))
    return bytes((some + marks * numpy_here().uint8(STEPS)).tobytes())
