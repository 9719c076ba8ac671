"""Ten instructions as numpy says them, beside Machine, on random data: fields, flags and context.

The model is over arrays of Python's numbers, in the shape of the set: axis 0 is the last one.
"""

from __future__ import annotations

from dataclasses import dataclass
from random import Random
from typing import Any, Callable

import numpy
import pytest

from pevudlo import Machine, paris

Array = numpy.ndarray[Any, numpy.dtype[Any]]
FIELDS = {"a": 64, "b": 64, "d": 64, "f": 1, "g": 1, "ad": 6}
KEYS = [*FIELDS, "S.context", "S.test", "S.carry", "S.overflow"]


@dataclass
class World:
    """The arrays of all keys, and the context, 1 where a processor is selected."""

    arrays: dict[str, Array]
    axes: tuple[int, ...]

    def low(self, key: str, length: int) -> Array:
        """The low bits of a field."""
        low: Array = self.arrays[key] % 2**length
        return low

    def store(self, key: str, length: int, values: Array, where: Array | None = None) -> None:
        """Stores values in the low bits, where the context is 1 and a mask has it."""
        chosen = self.arrays["S.context"] == 1
        if where is not None:
            chosen = chosen & where
        old = self.arrays[key]
        self.arrays[key] = numpy.where(chosen, old - old % 2**length + values % 2**length, old)

    def flag(self, name: str, values: Array, where: Array | None = None) -> None:
        """Stores a flag."""
        self.store(f"S.{name}", 1, values.astype(int).astype(object), where)


def read_signed(values: Array, length: int) -> Array:
    return numpy.where(values >= 2 ** (length - 1), values - 2**length, values)


def u_add(world: World, length: int) -> str:
    total = world.low("a", length) + world.low("b", length)
    world.store("d", length, total)
    world.flag("carry", total >= 2**length)
    world.flag("overflow", total >= 2**length)
    return paris.u_add("d", "a", "b", length)


def s_subtract(world: World, length: int) -> str:
    x, y = world.low("a", length), world.low("b", length)
    exact = read_signed(x, length) - read_signed(y, length)
    world.store("d", length, x - y)
    world.flag("carry", x < y)
    world.flag("overflow", (exact < -(2 ** (length - 1))) | (exact >= 2 ** (length - 1)))
    return paris.s_subtract("d", "a", "b", length)


def u_multiply(world: World, length: int) -> str:
    product = world.low("a", length) * world.low("b", length)
    world.store("d", length, product)
    world.flag("overflow", product >= 2**length)
    return paris.u_multiply("d", "a", "b", length)


def u_truncate(world: World, length: int) -> str:
    x, y = world.low("a", length), world.low("b", length)
    world.store("d", length, x // numpy.maximum(y, 1), y != 0)
    world.flag("overflow", y == 0)
    return paris.u_truncate("d", "a", "b", length)


def s_lt(world: World, length: int) -> str:
    x, y = read_signed(world.low("a", length), length), read_signed(world.low("b", length), length)
    world.flag("test", x < y)
    return paris.s_lt("a", "b", length)


def logand_context(world: World, length: int) -> str:
    world.arrays["S.context"] = world.arrays["S.context"] & world.arrays["f"]
    return paris.logand_context("f")


def get_from_news(world: World, length: int) -> str:
    """The neighbour upward on axis 1 is one further along the axis of arrays before the last."""
    world.store("d", length, numpy.roll(world.low("a", length), -1, axis=-2))
    return paris.get_from_news("d", "a", 1, "upward", length)


def scan_with_u_add(world: World, length: int) -> str:
    """Sums along axis 0 of the selected, from the start of the segment on: the sum, less that before the start."""
    chosen = world.arrays["S.context"] == 1
    sums = numpy.cumsum(numpy.where(chosen, world.low("a", length), 0), axis=-1)
    places = numpy.arange(world.axes[0])
    starts = numpy.maximum.accumulate(numpy.where(world.arrays["g"] == 1, places, 0).astype(int), axis=-1)
    before = numpy.where(starts > 0, numpy.take_along_axis(sums, numpy.maximum(starts - 1, 0), axis=-1), 0)
    total = sums - before
    world.store("d", length, total)
    world.flag("overflow", total >= 2**length)
    return paris.scan_with_u_add("d", "a", 0, length, "upward", "inclusive", "g")


def spread_with_u_max(world: World, length: int) -> str:
    chosen = world.arrays["S.context"] == 1
    greatest = numpy.where(chosen, world.low("a", length), 0).max(axis=-2, keepdims=True)
    world.store("d", length, numpy.broadcast_to(greatest, chosen.shape))
    return paris.spread_with_u_max("d", "a", 1, length)


def send_with_u_add(world: World, length: int) -> str:
    """Messages of the selected processors are added where they arrive, whatever the context there."""
    chosen = (world.arrays["S.context"] == 1).ravel()
    addresses = world.arrays["ad"].ravel().astype(int)[chosen]
    sums, counts = world.low("d", length).ravel().copy(), numpy.zeros(chosen.size, dtype=int)
    numpy.add.at(sums, addresses, world.low("a", length).ravel()[chosen])
    numpy.add.at(counts, addresses, 1)
    old, shape = world.arrays["d"].ravel(), world.arrays["d"].shape
    arrived = numpy.where(counts > 0, old - old % 2**length + sums % 2**length, old)
    world.arrays["d"] = arrived.reshape(shape)
    world.arrays["f"] = (counts > 0).astype(int).astype(object).reshape(shape)
    return paris.send_with_u_add("d", "ad", "a", length, "f")


MODELS: list[Callable[[World, int], str]] = [
    u_add,
    s_subtract,
    u_multiply,
    u_truncate,
    s_lt,
    logand_context,
    get_from_news,
    scan_with_u_add,
    spread_with_u_max,
    send_with_u_add,
]


def random_world(random: Random, axes: tuple[int, ...]) -> World:
    """Random numbers at each key: small ones and such of all bits, some of them equal and 0."""
    count = int(numpy.prod(axes))
    arrays = {}
    for key in KEYS:
        width = FIELDS.get(key, 1)
        some = [random.choice((0, 1, 2**width - 1, random.getrandbits(width))) for _ in range(count)]
        array = numpy.array([number % count if key == "ad" else number for number in some], dtype=object)
        arrays[key] = array.reshape(tuple(reversed(axes)))
    return World(arrays, axes)


@pytest.mark.parametrize("axes", [(8, 4), (4, 2, 2), (1, 16)])
@pytest.mark.parametrize("model", MODELS, ids=[model.__name__ for model in MODELS])
def test_numpy_and_the_program_agree(library: bool, model: Callable[[World, int], str], axes: tuple[int, ...]) -> None:
    random = Random(f"{model.__name__} {axes}")
    with Machine(library=library) as machine:
        machine.set("S", *axes)
        for name, width in FIELDS.items():
            machine.field(name, "S", width)
        row = machine.insert("set-test S")
        for _ in range(25):
            world = random_world(random, axes)
            for key in KEYS:
                machine[key] = world.arrays[key]
            length = random.choice((1, 2, 7, 8, 31, 32, 33, 63, 64))
            before = dict(world.arrays)
            machine.replace(row, model(world, length))
            assert machine.settle() == 1 and machine.faults() == ()
            for key in KEYS:
                said = numpy.asarray(machine[key])
                assert numpy.array_equal(said, world.arrays[key]), (key, length, before, said)
