"""The numbers of a key in little room."""

from __future__ import annotations

from array import array
from typing import Union

from pevudlo.lang.profiles import WORD

Numbers = Union[bytes, "array[int]", "tuple[int, ...]"]
"""The numbers of a key by processor: Python's own where the key is wider than a word."""

WIDE_BYTES = 16
"""So many bytes hold a number of a key that is wider than a word."""


def code_of(width: int) -> str:
    """The code of an array of numbers of so many bits, a word's at most."""
    return "B" if width <= 8 else "H" if width <= 16 else "I" if width <= 32 else "Q"


def unpacked(data: bytes, width: int) -> Numbers:
    """The numbers that lie in these bytes."""
    if width > WORD:
        parts = (data[at : at + WIDE_BYTES] for at in range(0, len(data), WIDE_BYTES))
        return tuple(int.from_bytes(part, "little") for part in parts)
    return data if width <= 8 else array(code_of(width), data)
