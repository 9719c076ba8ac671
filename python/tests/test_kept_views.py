"""What a live page, an editor and a terminal renew by what they are told is other is what they show when begun anew.

Behind each of random edits, of moves in their history, of runs, and of results that come late, a tab's rows and values
are compared with the program's, and those of texts with what is seen of the same text alone. See `kept_views.py`.

The variable PEVUDLO_VIEWS says how many walks are made, each of 20 moves of a page and 20 of a text.
"""

from __future__ import annotations

import os
from collections import Counter
from collections.abc import Callable
from pathlib import Path

import pytest
from kept_views import SIZE, walk

from pevudlo.wire.book import Book
from pevudlo.wire.library import Library

WALKS = int(os.environ.get("PEVUDLO_VIEWS", "12"))
STEPS = 20

KINDS = (
    *("insert taken", "delete taken", "replace taken", "input taken", "delete refused", "release taken"),
    *("undo", "redo", "history", "run", "run for", "rows that ran for a value", "order"),
    *("brought KEPT", "brought STALE", "brought REPEATED", "text", "text of before", "text as it is typed"),
    *("touched", "kept"),
)
"""What has to come in the walks."""

pytestmark = pytest.mark.usefixtures("libparis")


@pytest.fixture(autouse=True)
def terminal(monkeypatch: pytest.MonkeyPatch) -> None:
    """A terminal with room for all lines."""
    for name, value in SIZE.items():
        monkeypatch.setenv(name, value)


def test_views_that_are_kept_are_those_that_are_made_anew(tmp_path: Path) -> None:
    met = sum((walk(seed, STEPS, tmp_path) for seed in range(WALKS)), Counter[str]())
    assert [kind for kind in KINDS if not met[kind]] == []


def without_last(library: Library, since: int) -> tuple[list[int], int]:
    """What edits touched, but for the last of several rows."""
    rows, edits = touched(library, since)
    return rows[: max(1, len(rows) - 1)], edits


def without_first(book: Book, key: str, place: int) -> list[int] | None:
    """Which rows ran for a value, but for one."""
    rows = settle_for(book, key, place)
    return rows and rows[1:]


touched, settle_for = Library.touched, Book.settle_for


@pytest.mark.parametrize(
    ("kind", "name", "wrong"), [(Library, "touched", without_last), (Book, "settle_for", without_first)]
)
def test_a_row_that_is_not_told_is_found(
    kind: type[Library], name: str, wrong: Callable[..., object], tmp_path: Path, monkeypatch: pytest.MonkeyPatch
) -> None:
    monkeypatch.setattr(kind, name, wrong)
    with pytest.raises((AssertionError, KeyError)):
        for seed in range(WALKS):
            walk(seed, STEPS, tmp_path)
