"""Values between Python and the program: numbers in the shape of a set's axes, and lines of input.

Axis 0 is the fastest, so it is the last axis of an array: a set of axes 4x2 has arrays of shape (2, 4), and the number
of the processor at coordinates x, y is `array[y, x]`.
"""

from __future__ import annotations

import operator
import sys
from collections.abc import Iterable, Mapping, Sequence, Set
from dataclasses import dataclass
from functools import cache
from importlib.util import find_spec
from typing import TYPE_CHECKING, Any, NoReturn, Union

from pevudlo.draw.grids import Grid

if TYPE_CHECKING:
    from pevudlo.values.arrays import ValueArray

# A line of the program's has at most 65,536 bytes.
LINE_BYTES = 65_000


@dataclass(frozen=True)
class Pending:
    """A value that isn't there: this row writes the key last, and is unsettled. It is no number, true or false.

    What computes or compares with it raises TypeError: it would pass unnoticed. Only two of them may be compared.
    """

    row: int

    __array_ufunc__ = None
    """Says to numpy that its arrays have no arithmetic with it, and leave `==` to it."""

    def __bool__(self) -> bool:
        """Raises TypeError."""
        raise self._trouble()

    def __eq__(self, other: object) -> bool:
        """Whether both wait for one row. Raises TypeError where the other one is a value."""
        if isinstance(other, Pending):
            return self.row == other.row
        raise self._trouble()

    def __array__(self, *words: Any, **named: Any) -> Any:
        """Raises TypeError, where numpy would make an array of it."""
        raise self._trouble()

    def __array_function__(self, *words: Any, **named: Any) -> Any:
        """Raises TypeError, in functions of numpy's such as `sum` and `array_equal`."""
        raise self._trouble()

    def _trouble(self) -> TypeError:
        """Says which row has to be settled first."""
        return TypeError(f"the value is pending: row {self.row} writes it last, and is unsettled")


class ReadOnly(ValueError):
    """A look at a key is changed in place, which would change nothing of the machine."""

    def __init__(self, key: str | None, computed: str) -> None:
        """`computed` is what may be written for the new values, with `{}` in the place of the look."""
        look = "machine[key, first:]" if key is None else f'machine["{key}"]'
        of = "values" if key is None else f"values of {key}"
        super().__init__(
            f"{of} are a look, and can't be written to: {look} = {computed.format(look)} gives the machine others, "
            f"and {look}.copy() is yours to change"
        )


class ValueList(list[Any]):
    """Values as lists in lists, axis 0 innermost, where numpy isn't there. It isn't changed in place."""

    def __init__(self, values: Iterable[Any], grid: Grid) -> None:
        super().__init__(values)
        self.grid = grid

    def __iadd__(self, other: object) -> NoReturn:  # type: ignore[misc]
        """Raises ReadOnly."""
        raise self._trouble("+")

    def __imul__(self, other: object) -> NoReturn:
        """Raises ReadOnly."""
        raise self._trouble("*")

    def __setitem__(self, index: object, value: object) -> NoReturn:
        """Raises ReadOnly."""
        raise ReadOnly(self.grid.key, "values")

    def _trouble(self, sign: str) -> ReadOnly:
        """What is raised for an operator in place."""
        part = f'machine["{self.grid.key}", 0:]'
        return ReadOnly(self.grid.key, f"[number {sign} .. for number in {part}]")

    def tolist(self) -> list[Any]:
        """The same lists, as an array gives them."""
        return list(self)

    def _repr_html_(self) -> str:
        """A grid in the set's shape."""
        from pevudlo.values.notebook import grid_html

        return grid_html(self.grid)


Shown = Union["ValueArray", ValueList]


class WrongShape(ValueError):
    """The values are not in a shape of the set: neither that of its axes nor one number after another."""


def shape_of(axes: Sequence[int]) -> tuple[int, ...]:
    """The shape of an array of a set: the lengths of its axes, axis 0 last."""
    return tuple(reversed(axes))


@cache
def has_numpy() -> bool:
    """Whether numpy is there. It is imported once it is needed."""
    return find_spec("numpy") is not None


def is_array(values: object) -> bool:
    """Whether this is an array of numpy's."""
    numpy = sys.modules.get("numpy")
    return numpy is not None and isinstance(values, numpy.ndarray)


def is_boolean(value: object) -> bool:
    """Whether this is a boolean of Python's or of numpy's."""
    numpy = sys.modules.get("numpy")
    return isinstance(value, bool) or (numpy is not None and isinstance(value, numpy.bool_))


def is_number(values: object) -> bool:
    """Whether this is one whole number or boolean, of Python's or of numpy's."""
    if is_array(values):
        return bool(getattr(values, "ndim") == 0)
    return is_boolean(values) or hasattr(values, "__index__")


def flat(values: object) -> tuple[Sequence[int], tuple[int, ...]]:
    """The numbers of lists, ranges, other iterables or an array, the last axis fastest, and their shape.

    The numbers of an array of up to 64 bits are a view of it. Raises TypeError for what is no whole number, ValueError
    for a negative one and where there are none, and WrongShape for ragged lists.
    """
    if is_array(values):
        numbers, shape = flat_array(values)
    elif isinstance(values, (str, bytes, Mapping, Set)) or not isinstance(values, Iterable):
        raise TypeError(f"values are whole numbers, one or in lists, ranges or arrays, and not {type(values).__name__}")
    else:
        numbers, shape = flat_items(list(values))
    if not numbers:
        raise ValueError("there are no values")
    if isinstance(numbers, list) and min(numbers) < 0:
        raise negative(next(number for number in numbers if number < 0))
    return numbers, shape


def negative(number: int) -> ValueError:
    """What is raised for a number below 0."""
    return ValueError(f"{number} is negative: unsigned(values, bits) gives two's complement")


def flat_array(values: Any) -> tuple[Sequence[int], tuple[int, ...]]:
    """The numbers and the shape of an array of whole numbers or of booleans."""
    from pevudlo.values.arrays import is_masked, words_in

    if values.dtype.kind not in "iubO":
        raise TypeError(f"values are whole numbers, and not {values.dtype}")
    if is_masked(values):
        raise ValueError("masked values are no numbers: values.filled(number) gives each of them one")
    if values.dtype.kind == "O":
        return list(map(whole, values.ravel(order="C").tolist())), tuple(values.shape)
    return words_in(values), tuple(values.shape)


def whole(value: Any) -> int:
    """A whole number or a boolean, of Python's or of numpy's, as Python's number. Raises TypeError for what is none."""
    if is_array(value) and value.ndim == 0:
        return int(flat_array(value)[0][0])
    try:
        return operator.index(bool(value) if is_boolean(value) else value)
    except TypeError:
        raise TypeError(f"values are whole numbers, and not {type(value).__name__}") from None


def flat_items(items: list[Any]) -> tuple[list[int], tuple[int, ...]]:
    """The numbers and the shape of a list, whose items may be lists or arrays of one shape."""
    if set(map(type, items)) == {int}:
        return items, (len(items),)
    nested = [isinstance(item, (list, tuple, range)) or (is_array(item) and item.ndim > 0) for item in items]
    if not any(nested):
        return list(map(whole, items)), (len(items),)
    if not all(nested):
        raise WrongShape("numbers and lists stand side by side")
    parts = [flat_array(item) if is_array(item) else flat_items(list(item)) for item in items]
    if any(shape != parts[0][1] for _, shape in parts):
        raise WrongShape("lists side by side have several lengths")
    return [number for numbers, _ in parts for number in numbers], (len(items), *parts[0][1])


def check_shape(shape: tuple[int, ...], key: str, axes: tuple[int, ...]) -> None:
    """Raises WrongShape where values of a shape aren't one for each processor of a set of these axes."""
    count = 1
    for length in axes:
        count *= length
    if shape not in ((count,), shape_of(axes)):
        either = f"{shape_of(axes)}" if len(axes) == 1 else f"{shape_of(axes)} or {(count,)}"
        raise WrongShape(f"{key} wants values of shape {either}, and these are of {shape}")


def input_lines(key: str, first: int, numbers: Sequence[int]) -> list[str]:
    """The lines that give a key these numbers, from a processor on, each line below the program's limit of bytes."""
    digits = len(str(max(numbers, default=0)))
    count = max(1, (LINE_BYTES - len(key) - 32) // (digits + 1))
    starts = range(0, max(1, len(numbers)), count)
    return [f"input {key} {first + at} {' '.join(map(str, numbers[at : at + count]))}" for at in starts]


def nested(numbers: Sequence[int], shape: tuple[int, ...]) -> list[Any]:
    """The numbers as lists in lists of a shape."""
    if len(shape) == 1:
        return list(numbers)
    size = len(numbers) // shape[0]
    return [nested(numbers[at : at + size], shape[1:]) for at in range(0, len(numbers), size)]


def shaped(grid: Grid) -> Shown:
    """The numbers of a grid in the shape of its set: an array where numpy is there, else lists."""
    if has_numpy():
        from pevudlo.values.arrays import ValueArray

        return ValueArray.of(grid)
    return ValueList(nested(grid.values, shape_of(grid.axes)), grid)


def each_number(values: Any, change: Any) -> Any:
    """The values with each number changed: a number, lists in lists, or an array of Python's numbers."""
    if is_array(values):
        from pevudlo.values.arrays import change_each

        return change_each(values, change)
    if isinstance(values, (list, tuple, range)):
        return [each_number(value, change) for value in values]
    return change(operator.index(values))


def signed(values: Any, bits: int) -> Any:
    """Unsigned numbers of so many bits read in two's complement: a number, lists, or an array (`int64` up to 64 bits).

    Raises TypeError for what is no number (a Pending is none), and ValueError for a number that has more bits.
    """
    top = 1 << bits

    def change(number: int) -> int:
        if not 0 <= number < top:
            raise ValueError(f"{number} is no unsigned number of {bits} bits")
        return number - top if number >= top >> 1 else number

    return as_integers(each_number(values, change), bits, "int64")


def unsigned(values: Any, bits: int) -> Any:
    """Numbers as the unsigned ones of so many bits that have their two's complement: the other way round of `signed`.

    Raises TypeError for what is no number, and ValueError for a number outside of `-2^(bits-1)` to `2^bits - 1`.
    """
    top = 1 << bits

    def change(number: int) -> int:
        if not -(top >> 1) <= number < top:
            raise ValueError(f"{number} has no two's complement of {bits} bits")
        return number % top

    return as_integers(each_number(values, change), bits, "uint64")


def as_integers(values: Any, bits: int, kind: str) -> Any:
    """An array of Python's numbers as one of numpy's kind, where they fit; all else as it is."""
    return values.astype(kind) if is_array(values) and bits <= 64 else values
