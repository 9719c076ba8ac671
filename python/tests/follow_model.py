"""Which rows a look at a followed function may run, by the model of docs/MACHINE.md of what rows read and write.

A row runs again where it stands on something else than when it was last settled, or was replaced since: other rows,
other input data, or another text of its own, also one that was taken back.
"""

from __future__ import annotations

from functools import cache
from typing import Any

from paris_model import Board
from paris_model_book import keys_of

Recipes = dict[tuple[object, int], int]


@cache
def keys(text: str, widths: tuple[tuple[str, int], ...]) -> tuple[tuple[str, ...], tuple[str, ...]]:
    """The keys that an instruction on fields of these widths reads and that it writes."""
    board = Board({"S": [2]}, {name: ("S", width) for name, width in widths})
    reads, writes = keys_of(board, text)
    return tuple(sorted(reads)), tuple(sorted(writes))


class Model:
    """What each row was last settled with. A recipe has a number, and two of one number are one."""

    def __init__(self) -> None:
        self.settled: Recipes = {}
        self.texts: dict[tuple[object, int], str] = {}
        self._numbers: dict[tuple[Any, ...], int] = {}
        self._before: list[tuple[object, Recipes, dict[tuple[object, int], str]]] = []

    def call(self, state: object) -> None:
        """A call follows on a state, which it may be taken back to."""
        self._before = [*self._before[-40:], (state, dict(self.settled), self.texts)]

    def called(self, state: Any) -> None:
        """A call has led to a state: rows that it replaced aren't settled."""
        texts = {(state.session, row): text for row, text in state.rows}
        for row, text in texts.items():
            if self.texts.get(row, text) != text:
                self.settled.pop(row, None)
        self.texts = texts

    def undo(self, state: object) -> None:
        """The last call is taken back, to a state."""
        _, settled, self.texts = next(each for each in reversed(self._before) if each[0] is state)
        self.settled = dict(settled)

    def look(self, state: Any, key: str, count: int) -> set[int]:
        """The rows that may run for a key's value behind so many rows. They are settled then."""
        recipes = {name: self._given(state.given.get(name)) for name in state.layout.widths}
        made_of: dict[str, set[tuple[int, int]]] = {}
        for row, text in state.rows[:count]:
            words = text.split(" ")[1:]
            named = tuple((word, state.layout.widths[word]) for word in words if word in state.layout.widths)
            reads, writes = keys(text, named)
            recipe = self._number((text, *((read, recipes.get(read, -1)) for read in reads)))
            standing = {(row, recipe)}.union(*(made_of.get(read, set()) for read in reads))
            for write in writes:
                recipes[write], made_of[write] = recipe, standing
        found = set()
        for row, recipe in made_of.get(key, set()):
            if self.settled.get((state.session, row)) != recipe:
                found.add(row)
            self.settled[state.session, row] = recipe
        return found

    def _given(self, array: Any) -> int:
        """The number of a field's input data."""
        return -1 if array is None else self._number((array.dtype.str, array.shape, array.tobytes()))

    def _number(self, recipe: tuple[Any, ...]) -> int:
        """The number of a recipe."""
        return self._numbers.setdefault(recipe, len(self._numbers))
