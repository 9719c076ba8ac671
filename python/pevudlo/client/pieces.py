"""Values for a tab as bytes: a head of 16 bytes, and the numbers behind it in as few bytes as their width has.

A large one is summed up: in each of 256 stretches of its processors the greatest number, the least, their mean, and
whether the last edit changed something there.
"""

from __future__ import annotations

import struct
from array import array
from collections.abc import Iterator, Sequence
from enum import Enum

from pevudlo.draw.arrays import array_of
from pevudlo.lang.profiles import WORD
from pevudlo.values.stretches import Stretch

STRETCHES = 256
HEAD = struct.Struct("<BBHIII")
ENDS = struct.Struct("<QQQQII")
LOW = (1 << WORD) - 1
CODES = {1: "B", 2: "H", 4: "I", 8: "Q"}
MOST_SUMMED = 48
"""Numbers of so many bits have a sum of one word in each stretch, which numpy gives."""


class Kind(Enum):
    """What a piece is."""

    NUMBERS = 0
    PENDING = 1
    NONE = 2
    STRIP = 3
    OTHER = 4


def size_of(width: int) -> int:
    """How many bytes a number of a width has."""
    return 1 if width <= 8 else 2 if width <= 16 else 4 if width <= 32 else 8 if width <= WORD else 16


def empty(kind: Kind) -> bytes:
    """A piece without numbers."""
    return HEAD.pack(kind.value, 0, 0, 0, 0, 0)


def whole(numbers: Sequence[int], width: int) -> bytes:
    """All numbers of a value."""
    size = size_of(width)
    if size == 16:
        data = array("Q", [part for number in numbers for part in (number & LOW, number >> WORD)]).tobytes()
    else:
        data = array(CODES[size], numbers).tobytes()
    return HEAD.pack(Kind.NUMBERS.value, size, 0, len(numbers), len(numbers), 0) + data + bytes(-len(data) % 8)


def strip(numbers: Sequence[int], width: int, before: Sequence[int] | None) -> bytes:
    """A value of many numbers in stretches. `before` are the numbers before the last edit, where they are known."""
    return strip_of(ends_of(numbers, width), width, len(numbers), differing(numbers, before))


def summed(found: Sequence[Stretch], width: int, count: int, differs: Sequence[bool] | None) -> bytes:
    """A value of so many numbers by what its stretches come to, and in which of them the last edit changed some."""
    ends = [each.greatest for each in found], [each.least for each in found], [each.sum for each in found]
    return strip_of(ends, width, count, bytes(differs or STRETCHES))


def strip_of(ends: tuple[list[int], list[int], list[int]], width: int, count: int, flags: bytes) -> bytes:
    """A value in stretches: `ends` are of each the greatest number, the least and the sum. Flags are counted."""
    most, least, sums = ends
    low, high = min(least), max(most)
    shades = [scaled(numbers, low, high) for numbers in (most, least)]
    room, sizes = max(1, high - low), [stop - start for start, stop in stretches(count)]
    means = bytes((whole - low * size) * 255 // (room * size) for whole, size in zip(sums, sizes))
    words = low & LOW, low >> WORD, high & LOW, high >> WORD
    head = HEAD.pack(Kind.STRIP.value, size_of(width), 0, STRETCHES, count, 0)
    return head + ENDS.pack(*words, sum(sums) if width == 1 else 0, sum(flags)) + b"".join(shades) + means + flags


def ends_of(numbers: Sequence[int], width: int) -> tuple[list[int], list[int], list[int]]:
    """Of each stretch the greatest number, the least, and the sum."""
    words = array_of(numbers) if len(numbers) % STRETCHES == 0 else None
    if words is not None:
        parts = words.reshape(STRETCHES, -1)
        sums = (
            parts.sum(axis=1, dtype="u8").tolist() if width <= MOST_SUMMED else [sum(part) for part in parts.tolist()]
        )
        return parts.max(axis=1).tolist(), parts.min(axis=1).tolist(), sums
    if width == 1:
        return ends_of_bits(numbers)
    lists = list(parts_of(listed(numbers)))
    return [max(part) for part in lists], [min(part) for part in lists], [sum(part) for part in lists]


def ends_of_bits(numbers: Sequence[int]) -> tuple[list[int], list[int], list[int]]:
    """The same of bits, which are counted."""
    data, parts = bytes(listed(numbers)), list(stretches(len(numbers)))
    sums = [data.count(1, start, stop) for start, stop in parts]
    least = [int(ones == stop - start) for ones, (start, stop) in zip(sums, parts)]
    return [int(ones > 0) for ones in sums], least, sums


def listed(numbers: Sequence[int]) -> list[int]:
    """The numbers as a list, which is gone through faster than memory is."""
    return numbers.tolist() if isinstance(numbers, (array, memoryview)) else list(numbers)


def stretches(count: int) -> Iterator[tuple[int, int]]:
    """Where the stretches of so many processors begin and end."""
    for place in range(STRETCHES):
        yield place * count // STRETCHES, (place + 1) * count // STRETCHES


def parts_of(numbers: list[int]) -> Iterator[list[int]]:
    """The stretches of a value's processors."""
    for start, stop in stretches(len(numbers)):
        yield numbers[start:stop]


def scaled(numbers: Sequence[int], low: int, high: int) -> bytes:
    """Numbers from the least to the greatest as bytes."""
    return bytes((number - low) * 255 // max(1, high - low) for number in numbers)


def differing(numbers: Sequence[int], before: Sequence[int] | None) -> bytes:
    """In which stretches numbers are other than before."""
    if before is None or is_same(numbers, before):
        return bytes(STRETCHES)
    one, two = array_of(numbers), array_of(before)
    if one is not None and two is not None and len(numbers) % STRETCHES == 0:
        return bytes((one != two).reshape(STRETCHES, -1).any(axis=1).tolist())
    return bytes(part != other for part, other in zip(parts_of(listed(numbers)), parts_of(listed(before))))


def is_same(numbers: Sequence[int], before: Sequence[int]) -> bool:
    """Whether two values in memory have the same bytes."""
    words = array, memoryview
    return isinstance(numbers, words) and isinstance(before, words) and numbers.tobytes() == before.tobytes()


def packed(numbers: Sequence[int], width: int, is_strip: bool, before: Sequence[int] | None = None) -> bytes:
    """A value as it was asked for. One of few numbers is never summed up."""
    if is_strip and len(numbers) > STRETCHES:
        return strip(numbers, width, before)
    return whole(numbers, width)
