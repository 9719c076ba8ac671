"""Each operation of functions that are followed beside Python's whole numbers, in 1 to 128 bits, with overflow."""

from __future__ import annotations

import random
from itertools import product
from pathlib import Path
from typing import Any

import pytest
from exact_arrays import Exact, World, limits

numpy = pytest.importorskip("numpy")
follow = pytest.importorskip("pevudlo").follow

SIZE = 16
ALL = range(1, 129)


def wide(high: Any, low: Any, bits: int, signed: bool) -> Any:
    """Numbers of so many bits, of two words."""
    if bits <= 64:
        return low.astype(bits, signed)
    return ((high.astype(128) << 64) | low.astype(128)).astype(bits, signed)


def arithmetic(ah: Any, al: Any, bh: Any, bl: Any, bits: int, signed: bool, shift: int, other: int) -> dict[str, Any]:
    """What each processor does by itself, each operation in a line of its own."""
    a, b = wide(ah, al, bits, signed), wide(bh, bl, bits, signed)
    found = {"a": a, "b": b}
    found["add"] = a + b
    found["subtract"] = a - b
    found["multiply"] = a * b
    found["quotient"] = a // b
    found["remainder"] = a % b
    found["negative"] = -a
    found["absolute"] = abs(b)
    found["and"] = a & b
    found["or"] = a | b
    found["xor"] = a ^ b
    found["invert"] = ~a
    found["max"] = numpy.maximum(a, b)
    found["min"] = numpy.minimum(a, b)
    found["left"] = a << shift
    found["right"] = a >> shift
    found["less"], found["most"] = a < b, a <= b
    found["equal"], found["other"] = a == b, a != b
    found["greater"], found["least"] = a > b, a >= b
    found["where"] = numpy.where(a < b, a, b)
    found["same sign"] = a.astype(other)
    found["other sign"] = b.astype(other, not signed)
    found["is"] = a.astype(bool) | (b == a)
    found["clip"] = numpy.clip(a, numpy.minimum(b, a), b)
    return found


def between(ah: Any, al: Any, bh: Any, bl: Any, bits: int, signed: bool, shift: int, other: int) -> dict[str, Any]:
    """What goes between processors."""
    a, b = wide(ah, al, bits, signed), wide(bh, bl, bits, signed)
    found = {"roll": numpy.roll(a, other % 5 - 2), "flip": numpy.flip(b), "far": numpy.roll(a, 9)}
    begins, places = b > a, al & 15
    for how in ("add", "or", "and", "xor", "max", "min"):
        found[f"scan {how}"] = a.scan(how)
        found[f"scan {how} down"] = a.scan(how, inclusive=False, down=True)
        found[f"scan {how} segments"] = a.scan(how, inclusive=bool(shift % 2), segments=begins)
        found[f"scatter {how}"] = a.scatter(places.astype(16), b, how)
    found["copy"] = a.scan("copy", segments=begins, down=bool(other % 2))
    found["sum"], found["greatest"], found["least"] = a.sum(), a.max(), a.min(keepdims=True)
    found["any"], found["all"], found["count"] = a.any(), b.all(), numpy.count_nonzero(a)
    found["take"] = a.take(places)
    found["put"] = a.scatter(a.addresses() ^ 5, b)
    found["argmax"], found["argmin"] = numpy.argmax(a), numpy.argmin(b)
    if bits in (1, 2, 3, 8, 16) and shift % 3 == 0:
        found["sort"], found["order"] = numpy.sort(a), numpy.argsort(b)
    return found


def numbers(dice: random.Random, bits: int, signed: bool) -> tuple[Any, Any]:
    """Numbers of so many bits as words, extreme ones among them."""
    least, most = limits(bits, signed)
    chosen = [
        dice.choice([least, most, 0, 1, -1, 2, dice.randint(least, most), dice.randint(least, most)])
        for _ in range(SIZE)
    ]
    high, low = ([each >> up & 2**64 - 1 for each in chosen] for up in (64, 0))
    return numpy.array(high, dtype=numpy.uint64), numpy.array(low, dtype=numpy.uint64)


@pytest.mark.parametrize(("function", "widths"), [(arithmetic, ALL), (between, ALL)])
def test_operations_are_those_of_whole_numbers(libparis: Path, function: Any, widths: Any) -> None:
    dice, held = random.Random(63), follow(function)
    for bits, signed in product(widths, (False, True)):
        given = [*numbers(dice, bits, signed), *numbers(dice, bits, signed)]
        constants = bits, signed, dice.randint(0, bits + 1), dice.randint(1, 128)
        world = World((SIZE,))
        wanted = function(*[Exact.of(world, array) for array in given], *constants)
        p = held(*given, *constants)
        for name, exact in wanted.items():
            got = p[name]
            assert got.tolist() == exact.numbers.tolist(), (bits, signed, constants, name)
            assert got.shape == exact.shape and (got.dtype == object) == (exact.bits > 64)
        lost = {(each.line.number, each.operation, each.processors) for each in p.overflows()}
        assert lost == world.lost, (bits, signed, constants)
    held.close()
