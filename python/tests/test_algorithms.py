"""Each of `pevudlo.algorithms` beside a serial one, at 256, 1,024 and 16,384 processors, before and behind an edit."""

from __future__ import annotations

from collections.abc import Callable
from pathlib import Path
from typing import Any

import pytest

numpy = pytest.importorskip("numpy")
from pevudlo import algorithms, follow  # noqa: E402
from pevudlo.follow.followed import Followed  # noqa: E402

Given = dict[str, Any]
SIZES = (256, 1_024, 16_384)


def keys(dice: Any, size: int) -> Any:
    """Random keys of 8 bits."""
    return dice.integers(0, 256, size).astype(numpy.uint8)


def flags(dice: Any, size: int, part: float = 0.5) -> Any:
    """Random flags."""
    return dice.random(size) < part


def places(dice: Any, size: int) -> Any:
    """Random places."""
    return dice.integers(0, size, size).astype(numpy.uint16)


def linked(dice: Any, size: int) -> Any:
    """Two linked lists through all places, by the next place of each. The last one links to itself."""
    order = dice.permutation(size)
    link = numpy.empty(size, numpy.uint16)
    for part in (order[: size // 3], order[size // 3 :]):
        link[part[:-1]], link[part[-1]] = part[1:], part[-1]
    return link


def given(name: str, dice: Any, size: int) -> Given:
    """Random data for an algorithm."""
    brackets = flags(dice, size)
    found: dict[str, Callable[[], Given]] = {
        "split": lambda: {"flags": flags(dice, size), "array": keys(dice, size)},
        "pack": lambda: {"flags": flags(dice, size, 0.3), "array": keys(dice, size)},
        "sort": lambda: {"key": keys(dice, size).astype(numpy.int8), "other": places(dice, size)},
        "distinct": lambda: {"key": keys(dice, size) & 0xEE},
        "histogram": lambda: {"array": keys(dice, size)},
        "sparse_times": lambda: {
            "row": places(dice, size),
            "column": places(dice, size),
            "value": keys(dice, size).astype(numpy.int16) - 90,
            "vector": keys(dice, size).astype(numpy.int16) - 70,
        },
        "segmented_sum": lambda: {"values": keys(dice, size), "begins": flags(dice, size, 0.1)},
        "bracket_depth": lambda: {"opens": brackets, "closes": ~brackets},
        "list_ranking": lambda: {"link": linked(dice, size)},
        "components": lambda: {"one": places(dice, size) // 2, "other": places(dice, size) // 2},
        "line_of_sight": lambda: {"height": dice.integers(0, 2_000, size).astype(numpy.uint16)},
        "sieve": lambda: {"like": keys(dice, size)},
    }
    return found[name]()


# The serial ones. What they give is compared as far as it goes: lists of a length that is data stand at the front.


def sparse(row: Any, column: Any, value: Any, vector: Any) -> list[Any]:
    """A sparse matrix by a vector."""
    sums = [0] * len(row)
    for at, place in enumerate(row.tolist()):
        sums[place] += int(value[at]) * int(vector[column[at]])
    return [sums]


def segmented(values: Any, begins: Any) -> list[Any]:
    """Segmented sums."""
    out = list[int]()
    for value, begin in zip(values.tolist(), begins.tolist()):
        out.append(value if begin or not out else out[-1] + value)
    return [out]


def depth(opens: Any, closes: Any) -> list[Any]:
    """The depth of brackets."""
    out, now = list[int](), 0
    for opening, closing in zip(opens.tolist(), closes.tolist()):
        now += opening
        out.append(now)
        now -= closing
    return [out]


def ranks(link: Any) -> list[Any]:
    """The distance of each place from the end of its list."""
    known = {at: 0 for at, to in enumerate(link.tolist()) if at == to}
    for start in range(len(link)):
        path = list[int]()
        at = start
        while at not in known:
            path.append(at)
            at = int(link[at])
        for steps, each in enumerate(reversed(path), known[at] + 1):
            known[each] = steps
    return [[known[at] for at in range(len(link))]]


def labels(one: Any, other: Any) -> list[Any]:
    """The least vertex of each component."""
    up = list(range(len(one)))

    def root(at: int) -> int:
        while up[at] != at:
            up[at] = up[up[at]]
            at = up[at]
        return at

    for left, right in zip(one.tolist(), other.tolist()):
        left, right = sorted((root(left), root(right)))
        up[right] = left
    return [[root(at) for at in range(len(one))], True]


def sight(height: Any) -> list[Any]:
    """What is seen from the first place."""
    out, best = [True], 0
    for distance, tall in enumerate(height.tolist()):
        if distance:
            slope = (tall << 8) // distance
            out.append(slope > best)
            best = max(best, slope)
    return [out]


def counted(key: Any) -> list[Any]:
    """The distinct keys with their counts."""
    values, counts = numpy.unique(key, return_counts=True)
    return [values.tolist(), counts.tolist(), len(values)]


SERIAL: dict[str, Callable[..., list[Any]]] = {
    "split": lambda flags, array: [[*array[~flags].tolist(), *array[flags].tolist()]],
    "pack": lambda flags, array: [array[flags].tolist(), int(flags.sum())],
    "sort": lambda key, other: [sorted(key.tolist()), other[numpy.argsort(key, kind="stable")].tolist()],
    "distinct": counted,
    "histogram": lambda array: [numpy.bincount(array).tolist()],
    "sparse_times": sparse,
    "segmented_sum": segmented,
    "bracket_depth": depth,
    "list_ranking": ranks,
    "components": labels,
    "line_of_sight": sight,
    "sieve": lambda like: [
        [at > 1 and all(at % each for each in range(2, int(at**0.5) + 1)) for at in range(len(like))]
    ],
}


def check(held: Followed, data: Given, wanted: list[Any]) -> None:
    """Compares what a call gives."""
    p = held(*data.values())
    for at, exact in enumerate(wanted):
        name = "result" if p.names == ("result",) else at
        got = p[name].tolist()
        assert (got[: len(exact)] if isinstance(exact, list) else got) == exact


@pytest.mark.parametrize("name", SERIAL)
def test_algorithms_give_what_serial_ones_give(libparis: Path, name: str) -> None:
    dice = numpy.random.default_rng(5)
    for size in SIZES:
        held, data = follow(getattr(algorithms, name)), given(name, dice, size)
        check(held, data, SERIAL[name](**data))
        first = next(iter(data))
        other = data[first].copy()
        other[3] = ~other[3] if other.dtype == bool else 7 if name != "list_ranking" else other[7]
        check(held, {**data, first: other}, SERIAL[name](**{**data, first: other}))
        assert held.traces == 1
        held.close()


def test_what_is_sorted_stays_in_order_and_twelve_rounds_may_be_too_few(libparis: Path) -> None:
    key = numpy.array([3, 1, 3, 0, 1, 3, 0, 2], dtype=numpy.uint8)
    p = follow(lambda key: algorithms.sort(key, key.addresses()))(key)
    assert p[1].tolist() == [3, 6, 1, 4, 7, 0, 2, 5]
    size = 64
    one = numpy.arange(size, dtype=numpy.uint8)
    other = numpy.maximum(one.astype(int) - 1, 0).astype(numpy.uint8)
    turned = (size - 1 - numpy.arange(size)).astype(numpy.uint8)
    q = follow(algorithms.components)
    assert not q(one, other, rounds=1)[1]
    assert q(one, other, rounds=8)[1] and set(q[0].tolist()) == {0}
    assert q(turned, one, rounds=8)[0].tolist() == [min(at, size - 1 - at) for at in range(size)]


def test_each_algorithm_is_named_in_the_page() -> None:
    text = (Path(__file__).resolve().parents[2] / "docs/ARRAYS.md").read_text(encoding="utf-8")
    assert all(f"`{name}" in text for name in algorithms.__all__)
