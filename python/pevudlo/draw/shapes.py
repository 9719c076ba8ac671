"""How the processors of a set are laid out on paper: axis 0 across, axis 1 down, further axes as sheets."""

from __future__ import annotations

from dataclasses import dataclass
from functools import lru_cache
from math import isqrt

LONGEST_LINE = 32
"""The processors of a set of one axis stand in lines of at most so many."""


@dataclass(frozen=True)
class Sheet:
    """One table of processors. `lines` has a range of processors for each line, all of one length."""

    title: str
    across: tuple[str, ...]
    down: tuple[str, ...]
    lines: tuple[range, ...]


def processors_of(axes: tuple[int, ...]) -> int:
    """How many processors a set of these axes has."""
    count = 1
    for length in axes:
        count *= length
    return count


def folded_width(axes: tuple[int, ...], longest: int | None = None) -> int:
    """How many processors stand in one line: the length of axis 0, or less where it is the only axis and long.

    Where `longest` is said, a power of two, lines of a set of one axis have at most so many.
    """
    if len(axes) == 1 and longest is not None:
        return min(folded_width(axes), longest)
    if len(axes) > 1 or axes[0] <= LONGEST_LINE:
        return axes[0]
    if axes[0] <= LONGEST_LINE * LONGEST_LINE:
        return LONGEST_LINE
    width = 1
    while width * width < axes[0]:
        width *= 2
    return width


@lru_cache(64)
def sheets_of(axes: tuple[int, ...], longest: int | None = None) -> tuple[Sheet, ...]:
    """The sheets of a set, those of axis 2 first. A set of one axis has one sheet, of one line or more.

    `longest` is that of `folded_width`.
    """
    width = folded_width(axes, longest)
    if len(axes) == 1:
        folded = width < axes[0]
        across = tuple(f"+{place}" if folded else str(place) for place in range(width))
        starts = range(0, axes[0], width)
        lines = tuple(range(start, start + width) for start in starts)
        return (Sheet("", across, tuple(map(str, starts)) if folded else ("",), lines),)
    area = width * axes[1]
    sheets = []
    for number in range(processors_of(axes) // area):
        lines = tuple(
            range(number * area + line * width, number * area + (line + 1) * width) for line in range(axes[1])
        )
        heads = tuple(map(str, range(width))), tuple(map(str, range(axes[1])))
        sheets.append(Sheet(_title_of(axes, number), heads[0], heads[1], lines))
    return tuple(sheets)


def _title_of(axes: tuple[int, ...], number: int) -> str:
    """Says which sheet it is: `axis 2 at 1, axis 3 at 0`."""
    parts = []
    for axis in range(2, len(axes)):
        parts.append(f"axis {axis} at {number % axes[axis]}")
        number //= axes[axis]
    return ", ".join(parts)


def near_square(count: int) -> int:
    """How many of `count` things stand side by side, so that lines and columns are about as many."""
    return isqrt(count - 1) + 1 if count > 1 else 1
