"""A machine in one line: its sets, its fields, its rows, and which of them are unsettled."""

from __future__ import annotations

from collections.abc import Sequence

from pevudlo.lang.board import Board
from pevudlo.lang.profiles import USUAL

MOST_NAMED = 8
"""So many sets, fields of a set, and rows are named at most."""


def named(words: Sequence[str]) -> str:
    """The first of some words, and how many they are where that isn't all."""
    shown = ", ".join(words[:MOST_NAMED])
    return shown if len(words) <= MOST_NAMED else f"{shown}, .. ({len(words):,})"


def some(word: str, words: Sequence[str]) -> str:
    """A word for what is named, and the names."""
    return f"{word}{'s' * (len(words) > 1)} {named(words)}"


def declared(board: Board) -> list[str]:
    """The sets with the lengths of their axes, and the fields of each with their widths."""
    sets, fields = dict(board.sets), dict(board.fields)
    if not sets:
        return ["nothing is declared"]
    parts = [some("set", [f"{name} {lengths(axes)}" for name, axes in sets.items()])]
    of_sets = [[f"{name} {field.width}" for name, field in fields.items() if field.set == of] for of in sets]
    parts += [f"{some('field', words)} of {of}" for of, words in zip(sets, of_sets[:MOST_NAMED]) if words]
    return parts


def lengths(axes: Sequence[int]) -> str:
    """The lengths of axes as a command spells them."""
    return "x".join(map(str, axes))


def rows_text(count: int, unsettled: Sequence[int] | None) -> str:
    """How many rows there are, and which are unsettled where that is known."""
    if not count:
        return "no rows"
    rows = f"{count:,} row{'s' * (count > 1)}"
    if unsettled is None:
        return rows
    if not unsettled:
        return f"{rows}, settled"
    return f"{rows}, {len(unsettled):,} unsettled: {named(list(map(str, unsettled)))}"


def summary(where: str, board: Board, unsettled: Sequence[int] | None) -> str:
    """A machine in one line. `where` says what answers it, and `unsettled` are None where that isn't known."""
    profile = "" if board.profile == USUAL else f", profile {board.profile}"
    parts = [*declared(board), rows_text(len(board.texts), unsettled)]
    return f"<Machine over {where}{profile}: {'; '.join(parts)}>"
