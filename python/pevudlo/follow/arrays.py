"""The arrays that a function has while it is traced: what they are is known, and their numbers aren't."""

from __future__ import annotations

import operator
from collections.abc import Callable, Iterator
from typing import Any, NoReturn, Optional

import numpy
from numpy.lib.mixins import NDArrayOperatorsMixin

from pevudlo.follow.expressions import BOOLEAN, WIDEST, Kind, Node, Trace
from pevudlo.follow.refusals import refuse, unknown

Axes = tuple[Optional[int], ...]
"""The axis of the set that each axis of an array is, numbered as numpy does, or None of one of length 1."""

UFUNCS: dict[str, Callable[..., Any]] = {}
"""What numpy's elementwise functions do here, by their names."""

FUNCTIONS: dict[str, Callable[..., Any]] = {}
"""What numpy's other functions do here."""

REDUCED = {
    "add": "add",
    "maximum": "max",
    "minimum": "min",
    "bitwise_or": "or",
    "bitwise_and": "and",
    "bitwise_xor": "xor",
    "logical_or": "any",
    "logical_and": "all",
}
"""What combines along lines, by the names of numpy's elementwise functions."""

SERVES = {
    "true_divide": "`/` gives floats, which a program doesn't have: `//` gives whole numbers",
    "divide": "`/` gives floats, which a program doesn't have: `//` gives whole numbers",
    "power": "there are no powers: `a * a` is a square, and `take` of a table gives others",
    "mean": "a mean is a float: `a.sum() // a.size` is a whole number",
    "average": "a mean is a float: `a.sum() // a.size` is a whole number",
    "nonzero": "how many there are is known once the program has run: `algorithms.pack` puts them at the front",
    "compress": "how many there are is known once the program has run: `algorithms.pack` puts them at the front",
    "extract": "how many there are is known once the program has run: `algorithms.pack` puts them at the front",
    "diff": "`a - numpy.roll(a, 1)` has the differences, and as many numbers as the array",
    ".at": "`a.scatter(places, values, how)` gives an array in which values are combined at places",
    ".reduceat": "`a.scan(how, segments=begins)` combines within segments: the last number of each has all of it",
    ".outer": "an outer product wants arrays of one more axis: `a[:, None]` and `a[None, :]` of a set of two",
    "unique": "how many there are is known once the program has run: `algorithms.distinct` puts them at the front",
    "prod": "no row multiplies along lines: multiply arrays, or scan logarithms",
    "cumprod": "no row multiplies along lines: multiply arrays, or scan logarithms",
}
"""What serves in the place of functions that aren't here, and in that of methods of numpy's elementwise functions."""

OTHER_SHAPE = {
    "reshape",
    "ravel",
    "concatenate",
    "stack",
    "hstack",
    "vstack",
    "split",
    "repeat",
    "tile",
    "pad",
    "append",
}
"""Functions whose results have another shape."""


class Array(NDArrayOperatorsMixin):
    """An array of a function that is traced: numpy's operators and functions make rows of it.

    `a.kind` says what its numbers are, and `a.shape`, `a.ndim`, `a.size`, `a.bits` are known as well.
    """

    __slots__ = ("trace", "node", "axes")

    def __init__(self, trace: Trace, node: Node, axes: Axes) -> None:
        self.trace, self.node, self.axes = trace, node, axes

    @property
    def kind(self) -> Kind:
        """Its numbers' bits, whether they are signed, and whether they are booleans."""
        return self.node.kind

    @property
    def bits(self) -> int:
        """How many bits its numbers have."""
        return self.node.kind.bits

    @property
    def ndim(self) -> int:
        """How many axes it has."""
        return len(self.axes)

    @property
    def shape(self) -> tuple[int, ...]:
        """The lengths of its axes."""
        return tuple(1 if axis is None else self.trace.shape[axis] for axis in self.axes)

    @property
    def size(self) -> int:
        """How many numbers it has."""
        size = 1
        for length in self.shape:
            size *= length
        return size

    @property
    def dtype(self) -> numpy.dtype[Any]:
        """The type of numpy's that has room for its numbers."""
        return dtype_of(self.kind)

    def __repr__(self) -> str:
        return f"<array of shape {self.shape}, {self.kind}, which are known once the program has run>"

    def __len__(self) -> int:
        if not self.axes:
            raise TypeError("len() of an array of no axes")
        return self.shape[0]

    # What asks for numbers.

    def __bool__(self) -> bool:
        unknown("whether an array is true")

    def __int__(self) -> int:
        unknown("a number of an array")

    def __float__(self) -> float:
        unknown("a number of an array")

    def __format__(self, words: str) -> str:
        if words:
            unknown("a number of an array")
        return repr(self)

    def __index__(self) -> int:
        unknown("a number of an array")

    def __iter__(self) -> Iterator[Any]:
        refuse("a loop over an array would make a row for each of its numbers: an operation on all of it makes one")

    def __array__(self, *_: Any, **__: Any) -> NoReturn:
        unknown("numpy's array of an array")

    def tolist(self) -> NoReturn:
        """Raises NotTraced."""
        unknown("the list of an array's numbers")

    def item(self, *_: int) -> NoReturn:
        """Raises NotTraced."""
        unknown("a number of an array")

    def __setitem__(self, index: object, value: object) -> NoReturn:
        refuse(
            "arrays of a function aren't changed in place: `a.scatter(places, values)` and `numpy.where` give others"
        )

    # numpy's protocols.

    def __array_ufunc__(self, ufunc: Any, method: str, *inputs: Any, **named: Any) -> Any:
        """What an operator or an elementwise function of numpy's makes, or what it combines along lines."""
        name = ufunc.__name__
        named.pop("out", None)
        if method == "__call__" and name in UFUNCS and not named:
            return UFUNCS[name](*inputs)
        if method == "reduce" and name in REDUCED:
            return inputs[0]._reduced(REDUCED[name], named.get("axis", 0), named.get("keepdims", False))
        if method == "accumulate" and name in REDUCED:
            return inputs[0].scan(REDUCED[name], named.get("axis", 0))
        return refuse_name(name if method == "__call__" else f"{name}.{method}")

    def __array_function__(self, function: Any, types: Any, args: tuple[Any, ...], named: dict[str, Any]) -> Any:
        """What another function of numpy's makes."""
        name = function.__name__.removeprefix("a") if function.__name__ in ("amax", "amin") else function.__name__
        found = FUNCTIONS.get(name)
        return refuse_name(name) if found is None else found(*args, **named)

    def __getattr__(self, name: str) -> Any:
        """Refuses methods of numpy's arrays that aren't here, with what serves."""
        if hasattr(numpy.ndarray, name) and not name.startswith("_"):
            refuse_name(name)
        raise AttributeError(f"an array of a traced function has no {name!r}")

    # Numbers of another kind.

    def astype(self, kind: Any, signed: bool | None = None) -> Array:
        """The numbers as another type of numpy's, or in so many bits, 1 to 128: `a.astype(13)`."""
        if isinstance(kind, Kind):
            return self._as(kind)
        if kind is bool or (not isinstance(kind, int) and numpy.dtype(kind).kind == "b"):
            booleans: Array = self if self.kind.boolean else FUNCTIONS["not_zero"](self)
            return booleans
        if isinstance(kind, int):
            if not 1 <= kind <= WIDEST:
                refuse(f"numbers have 1 to {WIDEST} bits, and not {kind}")
            return self._as(Kind(kind, self.kind.signed if signed is None else signed))
        kind = numpy.dtype(kind)
        if kind.kind not in "iu":
            refuse(f"whole numbers and booleans are what a program has, and not {kind}")
        return self._as(Kind(kind.itemsize * 8, kind.kind == "i"))

    def _as(self, kind: Kind, quiet: bool = False) -> Array:
        """The numbers as another kind."""
        old = self.kind
        if old == kind:
            return self
        if old.bits == kind.bits:
            return self._of("copy", (), (self.node,), kind, quiet)
        # (the flag of a move to another length is of numbers that are signed on both sides, or on neither)
        return self._of("cast", (old.bits, old.signed), (self.node,), kind, quiet or old.signed != kind.signed)

    def _of(
        self, operation: str, detail: tuple[object, ...], operands: tuple[Node, ...], kind: Kind, quiet: bool = False
    ) -> Array:
        """The result of an operation, along the same axes."""
        return Array(self.trace, self.trace.node(operation, detail, operands, kind, quiet), self.axes)

    def like(self, number: int, kind: Kind | None = None) -> Array:
        """A constant in the shape of this array."""
        kind = self.kind if kind is None else kind
        return Array(self.trace, self.trace.constant(int(number), kind), self.axes)

    # Along lines.

    def machine_axis(self, axis: int) -> tuple[int, Optional[int]]:
        """An axis as one of the set, numbered as numpy does. None where its length is 1."""
        if not -self.ndim <= axis < self.ndim:
            refuse(f"an array of {self.ndim} axes has no axis {axis}")
        axis = range(self.ndim)[axis]
        return axis, self.axes[axis]

    def scan(
        self, how: str, axis: int = 0, inclusive: bool = True, down: bool = False, segments: Array | None = None
    ) -> Array:
        """What the numbers up to each one combine to: `how` is add, or, and, xor, max, min or copy.

        `segments` are booleans: a segment begins where they are true. `down` goes from the last number to the first.
        """
        made: Array = FUNCTIONS["scan"](self, how, axis, inclusive, down, segments)
        return made

    def _reduced(self, how: str, axis: Any = None, keepdims: bool = False) -> Array:
        made: Array = FUNCTIONS["reduced"](self, how, axis, keepdims)
        return made

    def sum(self, axis: Any = None, keepdims: bool = False) -> Array:
        """The sums along an axis, or of all, with room for them up to 64 bits."""
        return self._reduced("add", axis, keepdims)

    def max(self, axis: Any = None, keepdims: bool = False) -> Array:
        """The greatest numbers along an axis, or of all."""
        return self._reduced("max", axis, keepdims)

    def min(self, axis: Any = None, keepdims: bool = False) -> Array:
        """The least numbers along an axis, or of all."""
        return self._reduced("min", axis, keepdims)

    def any(self, axis: Any = None, keepdims: bool = False) -> Array:
        """Whether one is true, along an axis or of all."""
        return self._reduced("any", axis, keepdims)

    def all(self, axis: Any = None, keepdims: bool = False) -> Array:
        """Whether all are true, along an axis or of all."""
        return self._reduced("all", axis, keepdims)

    def cumsum(self, axis: int | None = None) -> Array:
        """The sums up to each number, with room for them up to 64 bits."""
        made: Array = FUNCTIONS["cumsum"](self, axis)
        return made

    # Between processors.

    def addresses(self) -> Array:
        """The place of each number of the set in `ravel()`, in 16 bits."""
        return Array(self.trace, self.trace.node("address", (), (), Kind(16)), self.trace.axes)

    def coordinates(self, axis: int = 0) -> Array:
        """The place of each number along an axis of this array, in 16 bits."""
        axis, of = self.machine_axis(axis)
        if of is None:
            return self.like(0, Kind(16))
        node = self.trace.node("coordinate", (len(self.trace.shape) - 1 - of,), (), Kind(16))
        return Array(self.trace, node, tuple(each if each == of else None for each in self.axes))

    def take(self, index: Any, axis: int | None = None) -> Array:
        """The numbers at these places of `ravel()`."""
        made: Array = FUNCTIONS["take"](self, index, axis)
        return made

    def scatter(self, index: Any, values: Any, how: str = "") -> Array:
        """This array with values put to these places of `ravel()`.

        Where two are put to one place the row is refused, but where `how` says that they combine with each other and
        with what is there: add, or, and, xor, max or min.
        """
        made: Array = FUNCTIONS["scatter"](self, index, values, how)
        return made

    def __getitem__(self, index: Any) -> Array:
        made: Array = FUNCTIONS["indexed"](self, index)
        return made

    # By numpy's functions of the same names.

    def argsort(self, axis: int = -1) -> Array:
        """The order of the numbers, least first. Equal ones stay in their order."""
        made: Array = FUNCTIONS["argsort"](self, axis)
        return made

    def argmax(self, axis: int | None = None) -> Array:
        """Where the greatest number is, the first one of equal ones."""
        made: Array = FUNCTIONS["argmax"](self, axis)
        return made

    def argmin(self, axis: int | None = None) -> Array:
        """Where the least number is, the first one of equal ones."""
        made: Array = FUNCTIONS["argmin"](self, axis)
        return made

    def clip(self, least: Any = None, most: Any = None) -> Array:
        """The numbers, with those below the least and above the most ones replaced by these."""
        made: Array = FUNCTIONS["clip"](self, least, most)
        return made

    @property
    def T(self) -> Array:
        """The array with its two axes exchanged."""
        made: Array = FUNCTIONS["transpose"](self)
        return made


def refuse_name(name: str) -> NoReturn:
    """Raises NotTraced for a function of numpy's that isn't here."""
    if name in OTHER_SHAPE:
        refuse(f"numpy.{name} gives another shape, and a program has one: `take` and `scatter` move numbers within it")
    serves = SERVES.get(name) or SERVES.get(name[name.find(".") :])
    refuse(serves or f"numpy.{name} isn't among what becomes rows: docs/ARRAYS.md lists what is")


def dtype_of(kind: Kind) -> numpy.dtype[Any]:
    """The type of numpy's that has room for numbers of a kind. Beyond 64 bits these are Python's numbers."""
    if kind.boolean:
        return numpy.dtype(bool)
    if kind.bits > 64:
        return numpy.dtype(object)
    return numpy.dtype(f"{'i' if kind.signed else 'u'}{next(size for size in (1, 2, 4, 8) if kind.bits <= 8 * size)}")


def as_array(value: Any, like: Array, weak: bool = True) -> Array:
    """A value as an array of the same trace. A whole number takes the kind of the array beside it, as in numpy."""
    if isinstance(value, Array):
        if value.trace is not like.trace:
            refuse("an array of another call is among these: what a function computes with are its own arguments")
        return value
    trace = like.trace
    if isinstance(value, (bool, numpy.bool_)):
        return Array(trace, trace.constant(int(value), BOOLEAN), ())
    if isinstance(value, (float, complex, numpy.inexact)):
        refuse(f"{value} is a float, which a program doesn't have: scale numbers, as by 256, and divide by `//`")
    try:
        number = operator.index(value)
    except TypeError:
        refuse(
            "numbers of another array, or of a list: as an array of numpy's that is an argument of the function they "
            "are input data, and `a.addresses()` are the numbers from 0 on"
        )
    kind = like.kind if weak and not like.kind.boolean else Kind(64, True)
    least, most = kind.limits
    if not least <= number <= most:
        refuse(f"{number} has no room in {kind}: `astype` gives more")
    return Array(trace, trace.constant(number, kind), ())
