"""Processors that carry a mark, such as those whose number changed."""

from __future__ import annotations

from collections.abc import Iterator, Set

IS_ZERO = b"\1" + bytes(255)
"""A table for `translate`: 1 for the byte 0, and 0 for all others."""


class Marks(Set[int]):
    """A set of processors, kept as a byte for each: 1 where it is marked, else 0."""

    def __init__(self, bits: bytes, count: int | None = None) -> None:
        """`count` says how many are marked, where that is known."""
        self.bits = bits
        self._count = len(bits) - bits.count(0) if count is None else count

    def __contains__(self, place: object) -> bool:
        return isinstance(place, int) and 0 <= place < len(self.bits) and self.bits[place] != 0

    def __iter__(self) -> Iterator[int]:
        return (place for place, bit in enumerate(self.bits) if bit)

    def __len__(self) -> int:
        return self._count


def bits_of(marked: Set[int], count: int) -> bytes:
    """A byte for each of so many processors: 1 where it is in a set, else 0."""
    if isinstance(marked, Marks):
        return marked.bits
    bits = bytearray(count)
    for place in marked:
        bits[place] = 1
    return bytes(bits)
