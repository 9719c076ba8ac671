"""The edits that make the rows of one text those of another: rows in common stay, and others become each other."""

from __future__ import annotations

from collections.abc import Sequence

from pevudlo.document.differences import aligned, ends, matched

Row = tuple[int, str]
"""A row: its id and its text."""


def replaced_rows(gone: Sequence[Row], put: Sequence[str], stays: Sequence[tuple[int, int]]) -> list[tuple[int, int]]:
    """Which of the rows that go become which that come, by their places: those between the same rows that stay."""
    found = list[tuple[int, int]]()
    start = to = 0
    for stop, end in [*stays, (len(gone), len(put))]:
        old, new = [text for _, text in gone[start:stop]], put[to:end]
        if old and new:
            found += [(start + one, to + other) for one, other in aligned(old, new)]
        start, to = stop + 1, end + 1
    return found


def row_edits(rows: Sequence[Row], texts: Sequence[str], next_row: int) -> tuple[list[str], list[Row], int]:
    """The edits, the rows behind them, and the next id. Ids rise by one with each row that is put in."""
    old = [text for _, text in rows]
    low, high = ends(old, texts)
    gone, put = rows[low : len(old) - high], texts[low : len(texts) - high]
    stays = matched([text for _, text in gone], put)
    becomes = replaced_rows(gone, put, stays)
    ids = [0] * len(put)
    for one, other in (*stays, *becomes):
        ids[other] = gone[one][0]
    kept = set(ids)
    lines = [f"delete {row}" for row, _ in gone if row not in kept]
    lines += [f"replace {ids[other]} {put[other]}" for _, other in becomes]
    before = rows[low - 1][0] if low else 0
    for at, text in enumerate(put):
        if not ids[at]:
            lines.append(f"insert {f'after {before}' if before else 'start'} {text}")
            ids[at], next_row = next_row, next_row + 1
        before = ids[at]
    return lines, [*rows[:low], *zip(ids, put), *rows[len(old) - high :]], next_row
