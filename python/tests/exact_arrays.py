"""Arrays of Python's whole numbers that compute as docs/ARRAYS.md says, and note where numbers had no room.

Nothing here knows of rows: a function that is followed is called with these too, and gives what it has to give.
"""

from __future__ import annotations

import sys
from collections.abc import Callable, Sequence
from typing import Any

import numpy
from numpy.lib.mixins import NDArrayOperatorsMixin

NUMPY_BITS = (8, 16, 32, 64)
WIDTHS = (1, 8, 16, 32, 64, 128)

Numbers = numpy.ndarray[Any, numpy.dtype[Any]]
Kind = tuple[int, bool, bool]


def each(change: Callable[..., Any], *arrays: Any) -> Numbers:
    """A function of numbers, of each of arrays."""
    return numpy.asarray(numpy.frompyfunc(change, len(arrays), 1)(*arrays), dtype=object)


def limits(bits: int, signed: bool) -> tuple[int, int]:
    """The least and the greatest number."""
    return (-(1 << bits - 1), (1 << bits - 1) - 1) if signed else (0, (1 << bits) - 1)


def wrapped(number: int, bits: int, signed: bool) -> int:
    """A number modulo 2^bits."""
    low = number % (1 << bits)
    return low - (1 << bits) if signed and low >> bits - 1 else low


def present_line() -> int:
    """The line that is run now, of the first file that is neither this one nor one of numpy's."""
    frame: Any = sys._getframe(1)
    while frame.f_code.co_filename == __file__ or "numpy" in frame.f_code.co_filename:
        frame = frame.f_back
    return int(frame.f_lineno)


class World:
    """The shape of all, and by line of Python and operation in how many processors numbers had no room."""

    def __init__(self, shape: tuple[int, ...]) -> None:
        self.shape, self.size = shape, int(numpy.prod(shape))
        self.lost = set[tuple[int, str, int]]()

    def note(self, operation: str, is_lost: Any) -> None:
        """Notes an operation where some of these are true."""
        count = int(numpy.count_nonzero(numpy.broadcast_to(numpy.asarray(is_lost, dtype=bool), self.shape)))
        if count:
            self.lost.add((present_line(), operation, count))


def div(one: int, other: int) -> int:
    """A quotient, 0 where the divisor is."""
    return one // other if other else 0


def mod(one: int, other: int) -> int:
    """A remainder, 0 where the divisor is."""
    return one % other if other else 0


ARITHMETIC: dict[str, Callable[..., Any]] = {
    "add": lambda x, y: x + y,
    "subtract": lambda x, y: x - y,
    "multiply": lambda x, y: x * y,
    "floor_divide": div,
    "remainder": mod,
    "maximum": max,
    "minimum": min,
    "bitwise_and": lambda x, y: x & y,
    "bitwise_or": lambda x, y: x | y,
    "bitwise_xor": lambda x, y: x ^ y,
    "invert": lambda x: ~x,
    "negative": lambda x: -x,
}
RELATIONS: dict[str, Callable[[int, int], bool]] = {
    "equal": lambda x, y: x == y,
    "not_equal": lambda x, y: x != y,
    "less": lambda x, y: x < y,
    "less_equal": lambda x, y: x <= y,
    "greater": lambda x, y: x > y,
    "greater_equal": lambda x, y: x >= y,
}
COMBINE: dict[str, Callable[[int, int], int]] = {
    "add": lambda x, y: x + y,
    "or": lambda x, y: x | y,
    "and": lambda x, y: x & y,
    "xor": lambda x, y: x ^ y,
    "max": max,
    "min": min,
}
OF_BOOLEANS = {"add": "bitwise_or", "multiply": "bitwise_and", "maximum": "bitwise_or", "minimum": "bitwise_and"}
LOSING = ("add", "subtract", "multiply", "negative")


class Refused(TypeError):
    """What the arrays of a traced function refuse too."""


class Exact(NDArrayOperatorsMixin):
    """Whole numbers of a kind."""

    def __init__(self, world: World, numbers: Any, kind: Kind) -> None:
        self.world, self.numbers, self.kind = world, numpy.asarray(numbers, dtype=object), kind

    @classmethod
    def of(cls, world: World, array: Numbers) -> Exact:
        """The numbers of an array of numpy's."""
        boolean = array.dtype.kind == "b"
        kind = (1 if boolean else array.dtype.itemsize * 8, array.dtype.kind == "i", boolean)
        return cls(world, each(int, array), kind)

    @property
    def bits(self) -> int:
        """How many bits the numbers have."""
        return self.kind[0]

    @property
    def shape(self) -> tuple[int, ...]:
        """The shape of the array."""
        return self.numbers.shape

    @property
    def ndim(self) -> int:
        """How many axes the array has."""
        return self.numbers.ndim

    @property
    def size(self) -> int:
        """How many numbers the array has."""
        return self.numbers.size

    def made(self, numbers: Any, kind: Kind | None = None) -> Exact:
        """Numbers of a kind, wrapped."""
        bits, signed, boolean = kind = self.kind if kind is None else kind
        return Exact(self.world, each(lambda number: wrapped(int(number), bits, signed), numbers), kind)

    def like(self, value: Any, weak: bool = True) -> Exact:
        """A value beside this one."""
        if isinstance(value, Exact):
            return value
        if isinstance(value, (bool, numpy.bool_)):
            return Exact(self.world, int(value), (1, False, True))
        kind = self.kind if weak and not self.kind[2] else (64, True, False)
        least, most = limits(*kind[:2])
        if not least <= int(value) <= most:
            raise Refused(f"{value} has no room")
        return Exact(self.world, int(value), kind)

    def __array_ufunc__(self, ufunc: Any, method: str, *inputs: Any, **named: Any) -> Any:
        name = ufunc.__name__
        assert method == "__call__"
        like = next(value for value in inputs if isinstance(value, Exact))
        if name in ("left_shift", "right_shift"):
            return like.shifted(name, int(inputs[1]))
        if name == "absolute":
            return where(like < 0, -like, like) if like.kind[1] else like
        arrays = fitted([like.like(value) for value in inputs])
        if name in RELATIONS:
            return like.made(each(RELATIONS[name], *[array.numbers for array in arrays]), (1, False, True))
        return arrays[0].arithmetic(name, arrays)

    def arithmetic(self, name: str, arrays: Sequence[Exact]) -> Exact:
        """An operation on numbers of this kind."""
        if self.kind[2]:
            name = OF_BOOLEANS.get(name, name)
            if not name.startswith("bitwise") and name != "invert":
                raise Refused(name)
        numbers = [array.numbers for array in arrays]
        exact = each(ARITHMETIC[name], *numbers)
        least, most = limits(*self.kind[:2])
        if name in LOSING:
            told = "subtract" if name == "negative" and not self.kind[1] else name
            self.world.note(told, each(lambda number: not least <= number <= most, exact))
        if name in ("floor_divide", "remainder"):
            self.world.note(name, each(lambda _, other: other == 0, *numbers))
        return self.made(exact)

    def shifted(self, name: str, count: int) -> Exact:
        """Shifted bits."""
        if self.kind[2]:
            raise Refused(name)
        return self.made(each(lambda x: x << count if name == "left_shift" else x >> count, self.numbers))

    def __array_function__(self, function: Any, types: Any, args: Any, named: Any) -> Any:
        found: Callable[..., Any] = FUNCTIONS[function.__name__]
        return found(*args, **named)

    def astype(self, kind: Any, signed: bool | None = None) -> Exact:
        """The numbers as another kind."""
        if kind is bool:
            booleans: Exact = self if self.kind[2] else self != 0
            return booleans
        bits, signed = kind, self.kind[1] if signed is None else signed
        least, most = limits(bits, signed)
        if signed == self.kind[1] and bits != self.bits:
            self.world.note("astype", each(lambda number: not least <= number <= most, self.numbers))
        return self.made(self.numbers, (bits, signed, False))

    def along(self, axis: int) -> int:
        """The length of an axis. Raises Refused where there is none."""
        if not -self.ndim <= axis < self.ndim:
            raise Refused("no such axis")
        return self.shape[axis]

    def summed(self, how: str, count: int) -> Exact:
        """The numbers with room for their sum."""
        if how != "add":
            return self
        bits = min(64 if self.bits <= 64 else 128, self.bits + (count - 1).bit_length())
        return (
            self if (bits, False) == (self.bits, self.kind[2]) else self.made(self.numbers, (bits, self.kind[1], False))
        )

    def reduced(self, how: str, axis: Any = None, keepdims: bool = False) -> Exact:
        """What numbers combine to."""
        axes = tuple(range(self.ndim)) if axis is None else axis if isinstance(axis, tuple) else (axis,)
        count = int(numpy.prod([self.along(axis) for axis in axes], dtype=object)) if axes else 1
        wide = self.summed(how, count)
        result = wide.numbers
        for each_axis in sorted({axis % self.ndim for axis in axes}, reverse=True):
            result = numpy.frompyfunc(COMBINE[how], 2, 1).reduce(result, axis=each_axis, keepdims=keepdims)
        if how == "add" and not wide.kind[1]:
            top = 1 << wide.bits
            lost = each(lambda number: number >= top, result)
            if not keepdims:
                lost = numpy.expand_dims(lost, tuple(axis % self.ndim for axis in axes))
            wide.world.note("sum", lost)
        return wide.made(result)

    def sum(self, axis: Any = None, keepdims: bool = False) -> Exact:
        """Sums."""
        return self.reduced("add", axis, keepdims)

    def max(self, axis: Any = None, keepdims: bool = False) -> Exact:
        """The greatest."""
        return self.reduced("max", axis, keepdims)

    def min(self, axis: Any = None, keepdims: bool = False) -> Exact:
        """The least."""
        return self.reduced("min", axis, keepdims)

    def any(self, axis: Any = None, keepdims: bool = False) -> Exact:
        """Whether one is true."""
        return self.astype(bool).reduced("or", axis, keepdims)

    def all(self, axis: Any = None, keepdims: bool = False) -> Exact:
        """Whether all are."""
        return self.astype(bool).reduced("and", axis, keepdims)

    def scan(
        self, how: str, axis: int = 0, inclusive: bool = True, down: bool = False, segments: Exact | None = None
    ) -> Exact:
        """What the numbers up to each one combine to."""
        wide = self.summed(how, self.along(axis))
        begins = numpy.zeros(self.shape, dtype=bool) if segments is None else segments.astype(bool).numbers.astype(bool)
        lines, cuts = (numpy.moveaxis(numpy.broadcast_to(x, self.shape), axis, -1) for x in (wide.numbers, begins))
        if down:
            lines, cuts = lines[..., ::-1], cuts[..., ::-1]
        out = numpy.empty(lines.shape, dtype=object)
        for place in numpy.ndindex(*lines.shape[:-1]):
            out[place] = scanned(lines[place], cuts[place], how, inclusive, wide.unit(how))
        if down:
            out = out[..., ::-1]
        out = numpy.moveaxis(out, -1, axis)
        if how == "add" and not wide.kind[1]:
            wide.world.note("scan", each(lambda number: number >= 1 << wide.bits, out))
        return wide.made(out)

    def unit(self, how: str) -> int:
        """What a combiner begins with."""
        least, most = limits(*self.kind[:2])
        return {"max": least, "min": most, "and": -1}.get(how, 0)

    def cumsum(self, axis: int | None = None) -> Exact:
        """Sums up to each number."""
        return self.scan("add", 0 if axis is None else axis)

    def addresses(self) -> Exact:
        """Places in `ravel()`."""
        return Exact(self.world, each(int, numpy.arange(self.world.size)).reshape(self.world.shape), (16, False, False))

    def coordinates(self, axis: int = 0) -> Exact:
        """Places along an axis."""
        length = self.along(axis)
        shape = [length if at == axis % self.ndim else 1 for at in range(self.ndim)]
        return Exact(self.world, each(int, numpy.arange(length)).reshape(shape), (16, False, False))

    def check_whole(self) -> None:
        """Raises Refused where this isn't of the shape of all."""
        if self.shape != self.world.shape:
            raise Refused("whole arrays have places")

    def take(self, index: Exact) -> Exact:
        """The numbers at places."""
        self.check_whole()
        flat = self.numbers.reshape(-1)
        return self.made(each(lambda place: flat[place], index.numbers))

    def scatter(self, index: Exact, values: Any, how: str = "") -> Exact:
        """This with values put to places."""
        out = list(numpy.broadcast_to(self.numbers, self.world.shape).reshape(-1))
        values = self.like(values)
        values = values if values.kind == self.kind else values.made(values.numbers, self.kind)
        places = numpy.broadcast_to(index.numbers, self.world.shape).reshape(-1)
        given = numpy.broadcast_to(values.numbers, self.world.shape).reshape(-1)
        for place, number in zip(places, given):
            out[place] = COMBINE[how](out[place], number) if how else number
        return self.made(numpy.array(out, dtype=object).reshape(self.world.shape))


def scanned(line: Any, cuts: Any, how: str, inclusive: bool, unit: int) -> Numbers:
    """A scan of one line."""
    out, sofar, is_first = numpy.empty(len(line), dtype=object), unit, True
    for at, number in enumerate(line):
        if cuts[at]:
            sofar, is_first = unit, True
        if how == "copy":
            sofar, before = (number if is_first else sofar), number
        else:
            before, sofar = sofar, number if is_first else COMBINE[how](sofar, number)
        is_first = False
        out[at] = sofar if inclusive or how == "copy" else before
    return out


def fitted(arrays: Sequence[Exact]) -> list[Exact]:
    """Arrays of one kind."""
    kinds = {array.kind for array in arrays}
    if len(kinds) == 1:
        return list(arrays)
    kinds = {kind for kind in kinds if not kind[2]}
    signed = any(kind[1] for kind in kinds)
    bits = max(kind[0] + (signed and not kind[1]) for kind in kinds)
    if all(kind[0] in NUMPY_BITS for kind in kinds):
        bits = next(width for width in WIDTHS if bits <= width)
    if bits > 128:
        raise Refused("no common kind")
    return [
        array if array.kind == (bits, signed, False) else array.made(array.numbers, (bits, signed, False))
        for array in arrays
    ]


def where(condition: Any, one: Any, other: Any) -> Exact:
    """As numpy's."""
    like = next(value for value in (condition, one, other) if isinstance(value, Exact))
    if not isinstance(one, Exact) and not isinstance(other, Exact):
        one = like.like(one, weak=False)
    beside = one if isinstance(one, Exact) else other
    chosen = like.like(condition).astype(bool)
    left, right = fitted([beside.like(one), beside.like(other)])
    return left.made(each(lambda c, x, y: x if c else y, chosen.numbers, left.numbers, right.numbers))


def arg(how: str) -> Callable[..., Exact]:
    """Where the greatest or the least number is."""

    def place(array: Exact, axis: int | None = None) -> Exact:
        array.check_whole()
        found = (numpy.argmax if how == "max" else numpy.argmin)(array.numbers, axis=axis)
        return array.made(each(int, found), (16, False, False))

    return place


FUNCTIONS: dict[str, Callable[..., Any]] = {
    "where": where,
    "roll": lambda array, shift, axis=None: array.made(numpy.roll(array.numbers, shift, axis)),
    "flip": lambda array, axis=None: array.made(numpy.flip(array.numbers, axis)),
    "cumsum": lambda array, axis=None: array.cumsum(axis),
    "clip": lambda array, least, most: numpy.minimum(numpy.maximum(array, least), most),
    "count_nonzero": lambda array, axis=None: array.astype(bool).sum(axis),
    "sort": lambda array: array.made(numpy.sort(array.numbers)),
    "argsort": lambda array: array.made(numpy.argsort(array.numbers, kind="stable"), (16, False, False)),
    "expand_dims": lambda array, axis: array.made(numpy.expand_dims(array.numbers, axis)),
    "argmax": arg("max"),
    "argmin": arg("min"),
}
