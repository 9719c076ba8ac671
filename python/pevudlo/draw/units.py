"""How a number of a key is spelled: unsigned as the program has it, signed, in hex, or as bits."""

from __future__ import annotations

from enum import Enum


class Unit(Enum):
    """A way to spell numbers. The program itself answers unsigned ones."""

    UNSIGNED = "unsigned"
    SIGNED = "signed"
    HEX = "hex"
    BITS = "bits"


def signed_of(value: int, width: int) -> int:
    """The number that has the bits of `value` in two's complement of `width` bits."""
    return value - (1 << width) if value >> (width - 1) else value


def spelled(value: int, width: int, unit: Unit = Unit.UNSIGNED) -> str:
    """A number below `2^width` as text. Hex and bits have all their digits: `0f` and `00001111` at 8 bits."""
    if unit is Unit.SIGNED and width > 1:
        return str(signed_of(value, width))
    if unit is Unit.HEX:
        return format(value, f"0{(width + 3) // 4}x")
    if unit is Unit.BITS:
        return format(value, f"0{width}b")
    return str(value)
