"""Values as numpy arrays. This module is imported where numpy is there."""

from __future__ import annotations

from typing import Any, Callable

import numpy

from pevudlo.draw.grids import Grid
from pevudlo.values.shaped import ReadOnly, negative

SIGNS = {
    "add": "+",
    "subtract": "-",
    "multiply": "*",
    "matmul": "@",
    "divide": "//",
    "true_divide": "//",
    "floor_divide": "//",
    "remainder": "%",
    "power": "**",
    "bitwise_and": "&",
    "bitwise_or": "|",
    "bitwise_xor": "^",
    "left_shift": "<<",
    "right_shift": ">>",
}
"""The operators that give whole numbers, by the functions of numpy that an operator in place calls."""


def words_in(values: Any) -> memoryview:
    """An array's whole numbers, the last axis fastest, as words of 64 bits. Raises ValueError for a negative one.

    They are a view of the array where its words lie in memory as the library reads them, else a copy.
    """
    if values.dtype.kind == "i" and values.size and values.min() < 0:
        raise negative(int(values[values < 0][0]))
    words: memoryview = numpy.require(values, numpy.uint64, ["C", "ALIGNED", "ENSUREARRAY"]).reshape(-1).data
    return words


def is_masked(values: Any) -> bool:
    """Whether some of an array's values are masked."""
    answers: Callable[[Any], bool] = numpy.ma.is_masked
    return answers(values)


def empty(count: int) -> memoryview:
    """Room for so many words of 64 bits."""
    return numpy.empty(count, dtype=numpy.uint64).data


def address_of(words: memoryview) -> int:
    """Where words begin in memory."""
    return int(numpy.asarray(words).ctypes.data)


def change_each(values: Any, change: Callable[[int], int]) -> Any:
    """An array of Python's numbers: each of an array's, changed."""
    return numpy.frompyfunc(change, 1, 1)(numpy.asarray(values, dtype=object))


def computed_by(ufunc: Any) -> str:
    """How a function of numpy's is written whose result is a new array, with `{}` in the place of its first values."""
    name = ufunc.__name__
    if name in SIGNS:
        return f"{{}} {SIGNS[name]} .."
    return f"numpy.{name}({{}}{', ..' * (ufunc.nin > 1)})"


def plain(values: Any) -> Any:
    """A look as an array of numpy's alone, and all else as it is."""
    return values.view(numpy.ndarray) if isinstance(values, ValueArray) else values


class ValueArray(numpy.ndarray[Any, numpy.dtype[Any]]):
    """The values of a key as the program answered them, in the shape of the set's axes, axis 0 last.

    It can't be written to. `uint64` up to 64 bits, Python's numbers beyond. What is computed from it is a plain array.
    """

    grid: Grid | None

    @classmethod
    def of(cls, grid: Grid) -> ValueArray:
        """The array of a grid's numbers."""
        kind = numpy.uint64 if grid.width <= 64 else object
        array = numpy.asarray(grid.values, dtype=kind).reshape(tuple(reversed(grid.axes))).view(cls)
        array.grid = grid
        array.flags.writeable = False
        return array

    def __array_finalize__(self, other: Any) -> None:
        """A view or a copy is no look at a key any more."""
        self.grid = None

    def __array_ufunc__(self, ufunc: Any, method: str, *inputs: Any, **words: Any) -> Any:
        """What is computed from it is a plain array. Raises ReadOnly where a result is to be put into it.

        A copy may be written to, and takes results.
        """
        given = words.get("out", ())
        if method == "at" and isinstance(inputs[0], ValueArray):
            given = inputs[:1]
        for array in given:
            if isinstance(array, ValueArray) and not array.flags.writeable:
                raise array._read_only(computed_by(ufunc))
        if "out" in words:
            words["out"] = tuple(map(plain, given))
        result = getattr(ufunc, method)(*map(plain, inputs), **words)
        return given[0] if len(given) == 1 and method != "at" else result

    def __imatmul__(self, other: object) -> Any:  # type: ignore[misc]
        """As other operators in place."""
        return numpy.matmul(self, other, out=self)  # type: ignore[call-overload]

    def __setitem__(self, index: Any, value: Any) -> None:
        """Raises ReadOnly, but of a copy."""
        if not self.flags.writeable:
            raise self._read_only("values")
        super().__setitem__(index, value)  # type: ignore[no-untyped-call]

    def _read_only(self, computed: str) -> ReadOnly:
        """What is raised where it is to be changed. `computed` is what may be written for the new values."""
        return ReadOnly(None if self.grid is None else self.grid.key, computed)

    def __repr__(self) -> str:
        """As a plain array."""
        return repr(numpy.asarray(self))

    def _repr_html_(self) -> str | None:
        """A grid in the set's shape. None, so that the plain text is shown, where it is a part or a copy."""
        from pevudlo.values.notebook import grid_html

        return None if self.grid is None else grid_html(self.grid)
