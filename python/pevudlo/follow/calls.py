"""A call of a followed function: which of its arguments are arrays, and what else decides about its rows."""

from __future__ import annotations

import inspect
from collections.abc import Callable, Iterator, Mapping
from functools import lru_cache
from typing import Any, NamedTuple

import numpy

from pevudlo.follow.expressions import BOOLEAN, Kind
from pevudlo.follow.refusals import NotTraced, TooMuch

Numbers = numpy.ndarray[Any, numpy.dtype[Any]]

MOST_PROCESSORS, MOST_AXES = 65_536, 4


class Argument(NamedTuple):
    """What is known of an array that is given: its kind and its shape."""

    kind: Kind
    shape: tuple[int, ...]


def kind_of(name: str, array: Numbers) -> Kind:
    """What the numbers of an array are. Raises NotTraced for other than whole numbers."""
    if array.dtype.kind == "b":
        return BOOLEAN
    if array.dtype.kind not in "iu":
        raise NotTraced(
            f"{name} is an array of {array.dtype}, and a program has whole numbers and booleans: scale it, as by 256, "
            "and give it as int64"
        )
    return Kind(array.dtype.itemsize * 8, array.dtype.kind == "i")


@lru_cache(maxsize=256)
def signature_of(function: Callable[..., Any]) -> inspect.Signature:
    """The arguments of a function."""
    return inspect.signature(function)


class Call:
    """The arguments of a call: arrays by name, and constants, which may be anything else."""

    def __init__(self, function: Callable[..., Any], args: tuple[Any, ...], named: Mapping[str, Any]) -> None:
        self.signature = signature_of(function)
        bound = self.signature.bind(*args, **named)
        bound.apply_defaults()
        self.arguments = bound.arguments
        self.arrays = dict[str, Numbers]()
        self.constants = dict[str, Any]()
        for name, value in self.named_values():
            if isinstance(value, numpy.ndarray) and value.ndim:
                self.arrays[name] = value
            else:
                self.constants[name] = value
        self.known = {name: Argument(kind_of(name, array), array.shape) for name, array in self.arrays.items()}

    def named_values(self) -> Iterator[tuple[str, Any]]:
        """All values, also those of `*args` and `**named`, with names."""
        for name, value in self.arguments.items():
            kind = self.signature.parameters[name].kind
            if kind is inspect.Parameter.VAR_POSITIONAL:
                yield from ((f"{name}{at}", each) for at, each in enumerate(value))
            elif kind is inspect.Parameter.VAR_KEYWORD:
                yield from value.items()
            else:
                yield name, value

    def traced(self, function: Callable[..., Any], given: Mapping[str, Any]) -> Any:
        """What the function gives where arrays are these others."""
        bound = self.bound(given)
        return function(*bound.args, **bound.kwargs)

    def bound(self, others: Mapping[str, Any]) -> inspect.BoundArguments:
        """The arguments, with others in the place of those of these names."""
        arguments = dict(self.arguments)
        for name, value in self.arguments.items():
            kind = self.signature.parameters[name].kind
            if kind is inspect.Parameter.VAR_POSITIONAL:
                arguments[name] = tuple(others.get(f"{name}{at}", each) for at, each in enumerate(value))
            elif kind is inspect.Parameter.VAR_KEYWORD:
                arguments[name] = {key: others.get(key, each) for key, each in value.items()}
            else:
                arguments[name] = others.get(name, value)
        return inspect.BoundArguments(self.signature, arguments)  # type: ignore[arg-type]

    def constant(self, name: str) -> int:
        """The whole number that an argument is. Raises TypeError where there is no such argument, or it is another."""
        value = self.constants.get(name)
        if not isinstance(value, (int, numpy.integer)) or isinstance(value, bool):
            numbers = [each for each, number in self.constants.items() if isinstance(number, int)]
            raise TypeError(
                f"whole numbers of the last call are {', '.join(numbers) or 'none'}, and {name} is none of them"
            )
        return int(value)

    def again(self, function: Callable[..., Any], others: Mapping[str, Any]) -> Call:
        """The same call with some others of its arguments. Raises TypeError where it has none of such a name."""
        names = [name for name, _ in self.named_values()]
        for name in others:
            if name not in names:
                raise TypeError(f"the last call has {', '.join(names) or 'no arguments'}, and no {name}")
        bound = self.bound(others)
        return Call(function, bound.args, bound.kwargs)

    def shape(self, wanted: tuple[int, ...] | None) -> tuple[int, ...]:
        """The shape of the set. Raises TooMuch and NotTraced."""
        if wanted is None and not self.arrays:
            raise NotTraced("no argument is an array: give one, or the shape, as follow(f, shape=1024)")
        try:
            shape = numpy.broadcast_shapes(*[array.shape for array in self.arrays.values()], wanted or ())
        except ValueError:
            shapes = ", ".join(f"{name} {array.shape}" for name, array in self.arrays.items())
            raise NotTraced(f"arrays of one call have one shape, or broadcast to it: {shapes}") from None
        check_shape(shape)
        return shape


def check_shape(shape: tuple[int, ...]) -> None:
    """Raises NotTraced or TooMuch where a set of this shape can't be."""
    for length in shape:
        if length < 1 or length & (length - 1):
            filled = 1 << max(0, length - 1).bit_length()
            raise NotTraced(
                f"an axis of {length} is no power of two: fill arrays up to {filled}, and keep which numbers count as "
                "an array of booleans"
            )
    if len(shape) > MOST_AXES:
        raise TooMuch(f"arrays have {MOST_AXES} axes at most, and not {len(shape)}")
    if numpy.prod(shape, dtype=object) > MOST_PROCESSORS:
        raise TooMuch(f"a program has {MOST_PROCESSORS:,} processors, and a shape of {shape} wants more: take parts")


def axes_of(shape: tuple[int, ...], of: tuple[int, ...]) -> tuple[int | None, ...]:
    """The axes of a set that an array lies along, from the last one on. None for one of length 1."""
    first = len(of) - len(shape)
    return tuple(first + at if length > 1 else None for at, length in enumerate(shape))
