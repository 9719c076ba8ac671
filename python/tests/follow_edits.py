"""Random functions of arrays that are edited at random, each look beside Python's whole numbers.

`play(seed, calls)` plays one function. `python follow_edits.py FIRST COUNT CALLS` plays many, runs the last text of
each by the program, and says how many calls and looks there were, and how many functions were wrong.
"""

from __future__ import annotations

import inspect
import random
import subprocess
import sys
from collections.abc import Callable
from dataclasses import dataclass
from typing import Any

import numpy
from exact_arrays import Exact, Refused, World
from follow_model import Model

from pevudlo import find
from pevudlo.follow import layout
from pevudlo.follow.arrays import Array
from pevudlo.follow.followed import Followed
from pevudlo.follow.numbers import laid, typed
from pevudlo.follow.refusals import NotTraced, TooMuch

NAMES = "abcd"
SHAPES = [(8,), (16,), (4, 8), (2, 2, 4), (64,), (4, 4, 2, 2), (1, 8)]
HOWS = ("add", "or", "and", "xor", "max", "min")
WIDTHS = (1, 3, 8, 13, 16, 32, 64, 70, 128)

Step = tuple[int, int, int, int]


def is_whole(array: Any) -> bool:
    """Whether an array is of the shape of all."""
    return bool(array.shape == (array.trace if isinstance(array, Array) else array.world).shape)


STEPS: list[Callable[[Any, Any, int], Any]] = [
    lambda x, y, k: x + y,
    lambda x, y, k: x - y,
    lambda x, y, k: x * y,
    lambda x, y, k: x ^ y,
    lambda x, y, k: numpy.maximum(x, y),
    lambda x, y, k: numpy.where(x < y, x, y),
    lambda x, y, k: numpy.where(y == x, k % 100, x),
    lambda x, y, k: numpy.roll(x, k % 23 - 11, k % x.ndim),
    lambda x, y, k: numpy.cumsum(x, k % x.ndim).astype(8),
    lambda x, y, k: x.sum(axis=k % x.ndim, keepdims=True),
    lambda x, y, k: x + k % 100,
    lambda x, y, k: x // y if k % 3 else x % y,
    lambda x, y, k: x.astype(WIDTHS[k % len(WIDTHS)], bool(k % 2)),
    lambda x, y, k: x > k % 50,
    lambda x, y, k: x.take((x.addresses() + k % 7) & (x.addresses().size - 1)),
    lambda x, y, k: x.scatter(x.addresses() ^ (k % x.addresses().size), y),
    lambda x, y, k: x.scatter((x.addresses() + k) & (x.addresses().size // 2 - 1), y, HOWS[k % 6]),
    lambda x, y, k: ~x & y,
    lambda x, y, k: x.max(axis=k % x.ndim, keepdims=True) if k % 2 else x.min(axis=k % x.ndim, keepdims=True),
    lambda x, y, k: x.scan(HOWS[k % 6], axis=k % x.ndim, inclusive=k % 5 > 1, down=k % 7 > 3, segments=y > x),
    lambda x, y, k: numpy.flip(x, k % x.ndim),
    lambda x, y, k: x << k % 9 if k % 2 else x >> k % 9,
    lambda x, y, k: abs(-x),
    lambda x, y, k: numpy.expand_dims(numpy.argmax(x, axis=k % x.ndim), k % x.ndim) if k % 2 else numpy.argmin(x),
    lambda x, y, k: x.any() | y.all(axis=k % y.ndim, keepdims=True),
    lambda x, y, k: numpy.clip(x, k % 9, 40 + k % 60),
]
WHOLE = {7, 14, 15, 16, 19, 20, 23}
"""The steps that are for arrays of the whole shape."""


def step(which: int, x: Any, y: Any, k: int) -> Any:
    """One step of a recipe: where it can't be, its first operand."""
    if x.ndim == 0 or y.ndim == 0 or (which in WHOLE and not (is_whole(x) and (which != 19 or is_whole(y)))):
        return x
    try:
        return STEPS[which](x, y, k)
    except (NotTraced, Refused):
        return x


def function_of(recipe: list[Step], outputs: list[int]) -> Callable[..., Any]:
    """A function that makes what a recipe says."""

    def made(**given: Any) -> dict[str, Any]:
        values = list(given.values())
        for which, one, other, k in recipe:
            values.append(step(which, values[one % len(values)], values[other % len(values)], k))
        return {f"r{each}": values[each % len(values)] for each in outputs}

    named = inspect.Parameter.KEYWORD_ONLY
    signature = inspect.Signature([inspect.Parameter(name, named) for name in NAMES])
    setattr(made, "__signature__", signature)
    return made


@dataclass
class Count:
    """How much was played."""

    calls: int = 0
    looks: int = 0
    refused: int = 0
    runs: int = 0
    rows: int = 0


TOLD = {
    "calls": "calls",
    "looks": "looks",
    "rows": "rows ran",
    "runs": "texts run by the program",
    "refused": "calls refused for a limit",
}
"""What is counted, and how it is told."""


class Play:
    """One function with its edits."""

    def __init__(self, seed: int) -> None:
        self.dice = random.Random(seed)
        self.seed, self.count = seed, Count()
        self.shape = self.dice.choice(SHAPES)
        self.given = dict(zip(NAMES, map(self.numbers, ("i1", "u1", "i4", "?"))))
        self.recipe = [self.new() for _ in range(self.dice.choice([5, 12, 30]))]
        self.outputs = [0, 7, 11]
        self.held = Followed(function_of(self.recipe, self.outputs), self.shape, None, 16)
        self.told: dict[str, Any] = {}
        self.model = Model()

    def numbers(self, kind: str) -> Any:
        """Random numbers of a type."""
        size = int(numpy.prod(self.shape))
        least, most = (0, 1) if kind == "?" else (0, 255) if kind == "u1" else (-100, 100)
        return numpy.array([self.dice.randint(least, most) for _ in range(size)], dtype=kind).reshape(self.shape)

    def new(self) -> Step:
        """A random step."""
        dice = self.dice
        return dice.randrange(len(STEPS)), dice.randrange(99), dice.randrange(99), dice.randrange(999)

    def edit(self) -> None:
        """One random edit: of numbers, of a step, or of what is returned."""
        dice, turn = self.dice, self.dice.random()
        if turn < 0.35:
            name = dice.choice(NAMES)
            array = self.given[name].copy()
            for _ in range(dice.choice([1, 1, 2])):
                array.reshape(-1)[dice.randrange(array.size)] = dice.randint(0, 1 if name == "d" else 100)
            self.given = {**self.given, name: array}
        elif turn < 0.6:
            at = dice.randrange(len(self.recipe))
            self.recipe[at] = (*self.recipe[at][:3], dice.randrange(999)) if dice.random() < 0.5 else self.new()
        elif turn < 0.75:
            self.recipe.insert(dice.randrange(len(self.recipe) + 1), self.new())
        elif turn < 0.9 and len(self.recipe) > 3:
            self.recipe.pop(dice.randrange(len(self.recipe)))
        else:
            self.outputs = [dice.randrange(99) for _ in range(dice.randint(1, 5))]
        if len(self.recipe) > 40:
            del self.recipe[20:]

    def turn(self) -> None:
        """An edit, a call, and looks at some of what it returns."""
        self.edit()
        function = self.held.followed_function = function_of(list(self.recipe), list(self.outputs))
        before = self.held._state
        self.model.call(before)
        try:
            self.held(**self.given)
        except TooMuch:
            self.count.refused += 1
            assert self.held._state is before
            self.look(self.told)
            return
        self.count.calls += 1
        self.model.called(self.held._state)
        world = World(self.shape)
        self.told = function(**{name: Exact.of(world, array) for name, array in self.given.items()})
        self.look(self.told)
        if self.dice.random() < 0.1 and len(self.held._steps):
            self.take_back()

    def take_back(self) -> None:
        """The last call is taken back, and made again."""
        state = self.held._state
        self.held.undo()
        assert self.held._state is not state and self.held._state is not None
        self.model.undo(self.held._state)
        for name in self.held.names[:1]:
            self.held[name]
        self.held(**self.given)
        self.model.called(self.held._state)
        self.look(self.told)

    def look(self, wanted: dict[str, Any]) -> None:
        """Looks at some results, each beside whole numbers, and at what ran for it."""
        for name in self.dice.sample(list(wanted), self.dice.randint(min(1, len(wanted)), len(wanted))):
            state, array = self.held._named(name)
            at, rows = state.place(array.node)
            touched = self.model.look(state, at, len(rows))
            got, exact = self.held[name], wanted[name]
            self.count.looks += 1
            assert got.shape == exact.shape, (self.seed, name, got.shape, exact.shape)
            assert got.tolist() == exact.numbers.tolist(), (self.seed, name, got, exact.numbers)
            self.count.rows += len(self.held.ran)
            assert set(self.held.ran) <= touched, (self.seed, name)

    def run_afresh(self) -> None:
        """Runs the text by the program, and compares what it shows."""
        front, text = find(), self.held.text()
        ran = subprocess.run([str(front)], input=text, capture_output=True, text=True, timeout=60)
        shown = [line.split(" ")[1:] for line in ran.stdout.splitlines() if line.startswith("values")]
        state = self.held._state
        assert state is not None and len(shown) == len(state.results), (self.seed, ran.stdout[-300:])
        for (name, array), numbers in zip(state.results.items(), shown):
            raw = numpy.array([int(number) for number in numbers], dtype=object)
            shown_there = laid(typed(raw, array.node.kind), self.shape, array.axes)
            assert self.held[name].tolist() == shown_there.tolist(), (self.seed, name)
        self.count.runs += 1


def play(seed: int, calls: int, with_run: bool = False) -> Count:
    """Plays one function."""
    one = Play(seed)
    most, layout.MOST_FIELDS = layout.MOST_FIELDS, one.dice.choice([16, 24, 40, 64])
    try:
        for _ in range(calls):
            one.turn()
        if with_run and one.held._state is not None:
            one.run_afresh()
    except AssertionError:
        raise
    except Exception as error:
        raise AssertionError(f"seed {seed}") from error
    finally:
        layout.MOST_FIELDS = most
        one.held.close()
    return one.count


def main() -> int:
    """Plays many. The exit status is 1 where one is wrong."""
    first, count, calls = map(int, sys.argv[1:4])
    total, wrong = Count(), 0
    for played, seed in enumerate(range(first, first + count), 1):
        try:
            one = play(seed, calls, True)
            for name in TOLD:
                setattr(total, name, getattr(total, name) + getattr(one, name))
        except AssertionError as error:
            wrong += 1
            print(f"seed {seed}: {error!r} {error.__cause__ or ''}", flush=True)
        if played % 250 == 0 or played == count:
            told = ", ".join(f"{getattr(total, name):,} {words}" for name, words in TOLD.items())
            print(f"{played:,} functions, {told}, {wrong} wrong", flush=True)
    return int(wrong > 0)


if __name__ == "__main__":
    sys.exit(main())
