"""Random functions with random edits beside whole numbers. Wrong edits of what keeps rows in step are found by them."""

from __future__ import annotations

import os
import sys
from collections.abc import Iterator
from contextlib import contextmanager
from pathlib import Path
from types import ModuleType

import pytest

pytest.importorskip("numpy")
import follow_edits  # noqa: E402

FUNCTIONS, CALLS = int(os.environ.get("PEVUDLO_FUNCTIONS", "240")), 20
MOST_TRIED = 150

MUTANTS = {
    "a field is free while its value is still read": (
        "layout",
        "max(at, self.last.get(node.number, -1))",
        "at",
    ),
    "a field is free at its last reader": ("layout", "self.ending.pop(at - 1, ())", "self.ending.pop(at, ())"),
    "replaced rows keep their text": (
        "edits",
        'lines += [f"replace {ids[other]} {put[other]}" for _, other in becomes]',
        "",
    ),
    "rows that are gone stay": ("edits", "for row, _ in gone if row not in kept", "for row, _ in gone if not row"),
    "new rows go to the start": ("edits", "f'after {before}' if before else 'start'", "'start'"),
    "looks are at the end of the program": ("state", "return name, self.rows[:count]", "return name, self.rows"),
    "equal expressions without their kind": ("expressions", "operands]), kind, quiet)", "operands]), quiet)"),
    "equal expressions without their details": (
        "expressions",
        "key = (operation, detail, tuple(",
        "key = (operation, detail if operation in ('argument', 'compare') else (), tuple(",
    ),
    "a part of input data begins one late": (
        "numbers",
        "range(int(changed[0]), int(changed[-1]) + 1)",
        "range(int(changed[0]) + (len(changed) > 1), int(changed[-1]) + 1)",
    ),
    "a part of input data ends one early": (
        "numbers",
        "range(int(changed[0]), int(changed[-1]) + 1)",
        "range(int(changed[0]), int(changed[-1]) + (len(changed) == 1))",
    ),
    "input data that is given again isn't compared": (
        "numbers",
        "is_other = before != now",
        "is_other = before != before",
    ),
    "nothing is traced again": ("state", "self.function is other.function", "True or self.function is other.function"),
    "the old value isn't kept to be looked at": (
        "rows",
        '"u-move-always-1L", to, at[2]',
        '"u-move-always-1L", to, at[1]',
    ),
}


def test_random_functions_give_whole_numbers_behind_each_edit(libparis: Path) -> None:
    played = [follow_edits.play(seed, CALLS, seed % 10 == 0) for seed in range(FUNCTIONS)]
    assert sum(each.looks for each in played) > 15 * FUNCTIONS and sum(each.runs for each in played) == FUNCTIONS // 10
    assert sum(each.refused for each in played) > 0


@contextmanager
def mutated(name: str, old: str, new: str) -> Iterator[None]:
    """A module of the package with another text, also where others have its names."""
    modules = {key: module for key, module in sys.modules.items() if key.startswith("pevudlo.follow.")}
    modules["follow_edits"] = follow_edits
    before = {key: dict(vars(module)) for key, module in modules.items()}
    module = modules[f"pevudlo.follow.{name}"]
    assert module.__file__ is not None
    text = Path(module.__file__).read_text(encoding="utf-8")
    assert text.count(old) == 1, (name, old, text.count(old))
    try:
        exec(compile(text.replace(old, new), module.__file__, "exec"), vars(module))
        carry(modules, before[module.__name__], module)
        yield
    finally:
        for key, each in modules.items():
            vars(each).clear()
            vars(each).update(before[key])


def carry(modules: dict[str, ModuleType], before: dict[str, object], module: ModuleType) -> None:
    """Puts a module's new objects where other modules have the old ones."""
    for other in modules.values():
        for name, value in list(vars(other).items()):
            if not name.startswith("__") and other is not module and before.get(name) is value and callable(value):
                setattr(other, name, getattr(module, name))


@pytest.mark.parametrize("what", MUTANTS)
def test_wrong_edits_are_found(libparis: Path, what: str) -> None:
    with mutated(*MUTANTS[what]), pytest.raises(AssertionError):
        for seed in range(MOST_TRIED):
            follow_edits.play(seed, CALLS)


def test_what_was_put_back_plays(libparis: Path) -> None:
    follow_edits.play(3, CALLS)
