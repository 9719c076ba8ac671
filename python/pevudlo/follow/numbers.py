"""Arrays of numpy's as the words that a session has, and back."""

from __future__ import annotations

from typing import Any, Optional

import numpy

from pevudlo.follow.arrays import Axes, dtype_of
from pevudlo.follow.expressions import Kind

Numbers = numpy.ndarray[Any, numpy.dtype[Any]]


def words(array: Numbers, kind: Kind) -> Numbers:
    """The numbers one after another as unsigned words, negative ones in two's complement."""
    flat = numpy.ascontiguousarray(array).reshape(-1)
    if kind.signed:
        flat = flat.astype(numpy.int64).view(numpy.uint64)
        return flat & numpy.uint64((1 << kind.bits) - 1) if kind.bits < 64 else flat
    return flat.astype(numpy.uint64)


def whole(array: Numbers, shape: tuple[int, ...]) -> Numbers:
    """An array in the shape of the set, along the axes that it doesn't have the same."""
    return numpy.broadcast_to(array, shape)


def difference(before: Optional[Numbers], now: Numbers) -> Optional[range]:
    """The places from the first to the last number that is another one, or None. Without numbers before it is all."""
    if before is None or before.shape != now.shape or before.dtype != now.dtype:
        return range(now.size)
    is_other = before != now
    if not is_other.any():
        return None
    changed = numpy.flatnonzero(is_other)
    return range(int(changed[0]), int(changed[-1]) + 1)


def typed(raw: Numbers, kind: Kind) -> Numbers:
    """Words as numbers of a kind, of the type of numpy's that has room for them."""
    if raw.dtype == object:
        low = raw & ((1 << kind.bits) - 1)
        top = 1 << kind.bits - 1
        return numpy.asarray((low ^ top) - top if kind.signed else low, dtype=object)
    if kind.bits in (8, 16, 32, 64):
        return raw.astype(dtype_of(kind))
    if kind.bits < 64:
        raw = raw & numpy.uint64((1 << kind.bits) - 1)
    if kind.signed:
        up = numpy.uint64(64 - kind.bits)
        return numpy.asarray(((raw << up).view(numpy.int64) >> up.astype(numpy.int64)).astype(dtype_of(kind)))
    return numpy.asarray(raw.astype(dtype_of(kind)))


def laid(numbers: Numbers, set_shape: tuple[int, ...], axes: Axes) -> Numbers:
    """The numbers of all processors as an array along some axes of the set."""
    numbers = numbers.reshape(set_shape)
    there = [axis for axis in axes if axis is not None]
    others = [axis for axis in range(len(set_shape)) if axis not in there]
    index: Any = tuple(slice(None) if axis in there else slice(1) for axis in range(len(set_shape)))
    part = numpy.asarray(numbers[index]).transpose([*there, *others])
    return part.reshape([1 if axis is None else set_shape[axis] for axis in axes])
