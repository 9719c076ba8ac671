"""What stands behind a key: `machine["a", 3]` is the number of a processor, `machine["a", 3:]` those from it on."""

from __future__ import annotations

import operator
from typing import TYPE_CHECKING, Any, SupportsIndex, Union

from pevudlo.draw.grids import Grid
from pevudlo.values.shaped import Shown, ValueList, is_boolean, shaped

if TYPE_CHECKING:
    from pevudlo.values.arrays import ValueArray

Index = Union[str, "tuple[str, SupportsIndex]", "tuple[str, slice]"]
Part = Union[int, slice, None]


def split(index: object) -> tuple[str, Part]:
    """A key, and the processor or the slice behind it, None where the key stands alone. Raises TypeError for others."""
    if isinstance(index, str):
        return index, None
    if isinstance(index, tuple) and len(index) == 2 and isinstance(index[0], str):
        return index[0], part_of(index[1])
    raise TypeError(
        f"a key is a name, alone or with a processor or a slice behind it, and not {type(index).__name__}: "
        "machine['a'], machine['a', 0], machine['a', 1:]"
    )


def check_key(key: object) -> None:
    """Raises TypeError for what is no name."""
    if not isinstance(key, str):
        raise TypeError(f"a key is a name, and not {type(key).__name__}: machine['a'][0] is a number of a")


def part_of(where: object) -> Part:
    """A processor or a slice whose ends are Python's numbers."""
    if isinstance(where, slice):
        return slice(*(None if end is None else whole_index(end) for end in (where.start, where.stop, where.step)))
    return whole_index(where)


def whole_index(number: Any) -> int:
    """A whole number of Python's. Raises TypeError for what is none, such as 1.0 and True."""
    try:
        if not is_boolean(number):
            return operator.index(number)
    except TypeError:
        pass
    raise TypeError(f"a processor is a whole number, and not {number!r}")


def first_of(key: str, part: int | slice, count: int, processors: int) -> int:
    """The first processor to which so many values are given.

    Raises IndexError for one below 0, and ValueError for a slice of another length or with a step.
    """
    first = part if isinstance(part, int) else part.start or 0
    first += processors if first < 0 else 0
    if first < 0:
        raise IndexError(f"{key} has no processor {first - processors}")
    if isinstance(part, slice):
        stop = first + count if part.stop is None else part.stop + (processors if part.stop < 0 else 0)
        if part.step not in (None, 1) or stop != first + count:
            raise ValueError(f"{count} values don't fill {key}[{first}:{stop}]: give a first processor, and no step")
    return first


def places_of(key: str, part: slice | None, processors: int) -> range:
    """The processors of a set of so many to which one number is given: all of them, or those of a slice.

    A slice that reaches behind the last one has one more at most, for which the program refuses the whole.
    Raises IndexError for one below 0, and ValueError for a slice with a step, or with no processor in it.
    """
    if part is None:
        return range(max(1, processors))
    first = first_of(key, part.start or 0, 1, processors)
    stop = None if part.stop is None else part.stop + (processors if part.stop < 0 else 0)
    if part.step not in (None, 1) or (stop is not None and stop <= first):
        raise ValueError(f"{key}[{first}:{stop}] has no processors: give a first and a greater last one, and no step")
    most = processors if stop is None else min(stop, processors + 1)
    return range(first, max(first + 1, most))


def shown_part(grid: Grid, part: int | slice) -> int | Shown | list[int]:
    """The number of a processor, or the numbers of processors that follow each other, one after another.

    Raises IndexError where the set has no such processors, and ValueError for a step.
    """
    count = len(grid.values)
    if isinstance(part, int):
        return int(grid.values[reached(grid.key, part, count)])
    if part.step not in (None, 1):
        raise ValueError(f"a slice of {grid.key} has no step")
    first = reached(grid.key, part.start or 0, count)
    last = reached(grid.key, (count if part.stop is None else part.stop) - 1, count)
    shown = shaped(grid)
    if isinstance(shown, ValueList):
        return list(grid.values[first : last + 1])
    part_of_line: ValueArray = shown.reshape(-1)[first : last + 1].view(type(shown))
    return part_of_line


def reached(key: str, number: int, count: int) -> int:
    """A processor of a set of so many; negative numbers count from the end."""
    if not -count <= number < count:
        raise IndexError(f"{key} has no processor {number}")
    return number % count
