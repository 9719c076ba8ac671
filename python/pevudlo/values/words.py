"""Numbers as words of 64 bits in memory, which the library reads and writes: numpy's arrays, or else Python's.

A number of a key that is wider than a word has two words: its low one, and behind it its high one.
"""

from __future__ import annotations

from array import array
from collections.abc import Sequence
from dataclasses import dataclass

from pevudlo.lang.profiles import WORD
from pevudlo.values.shaped import has_numpy

LOW = (1 << WORD) - 1
WIDE = 2
"""How many words a number of a wide key has."""


@dataclass(frozen=True)
class Words:
    """Words in memory: the address of the first, and the same as Python's numbers, which keep the memory."""

    address: int
    numbers: Sequence[int]

    def __len__(self) -> int:
        return len(self.numbers)


def words_of(numbers: Sequence[int]) -> Words | None:
    """Unsigned numbers as words. None where one of them has more than 64 bits."""
    if isinstance(numbers, memoryview):
        from pevudlo.values.arrays import address_of

        return Words(address_of(numbers), numbers)
    try:
        return words_of_array(array("Q", numbers))
    except OverflowError:
        return None


def wide_words_of(numbers: Sequence[int]) -> Words | None:
    """Unsigned numbers as two words each. None where one of them has more than 128 bits."""
    try:
        return words_of_array(array("Q", [part for number in numbers for part in (number & LOW, number >> WORD)]))
    except OverflowError:
        return None


def wide_numbers(words: Words) -> tuple[int, ...]:
    """The numbers that have two words each."""
    return tuple(low | high << WORD for low, high in zip(words.numbers[::WIDE], words.numbers[1::WIDE]))


def room_of(count: int) -> Words:
    """Room for so many words."""
    if has_numpy():
        from pevudlo.values.arrays import address_of, empty

        room = empty(count)
        return Words(address_of(room), room)
    return words_of_array(array("Q", bytes(8 * count)))


def words_of_array(numbers: array[int]) -> Words:
    """The words of an array of Python's."""
    return Words(numbers.buffer_info()[0], numbers)
