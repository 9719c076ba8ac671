"""The ids of rows in program order, where a row is put in and taken out in the same time however many there are."""

from __future__ import annotations

from collections.abc import Iterator

_ENDS = 0
"""No row has this id: before the first row and behind the last one it stands in the place of a neighbour."""


class RowOrder:
    """Ids of rows in program order. Each row knows its two neighbours."""

    def __init__(self) -> None:
        self._following = {_ENDS: _ENDS}
        self._preceding = {_ENDS: _ENDS}

    def __iter__(self) -> Iterator[int]:
        """The ids from the first row to the last."""
        row = self._following[_ENDS]
        while row != _ENDS:
            yield row
            row = self._following[row]

    def __len__(self) -> int:
        return len(self._following) - 1

    @property
    def last(self) -> int | None:
        """The last row, or None where there is none."""
        return self._preceding[_ENDS] or None

    def before(self, row: int) -> int | None:
        """The row before another one, or None where that is the first, or isn't known here."""
        return self._preceding.get(row, _ENDS) or None

    def copy(self) -> RowOrder:
        """The same order, apart from this one."""
        order = RowOrder()
        order._following, order._preceding = dict(self._following), dict(self._preceding)
        return order

    def put_first(self, row: int) -> None:
        """Puts a row before all others."""
        self._put(row, _ENDS)

    def put_last(self, row: int) -> None:
        """Puts a row behind all others."""
        self._put(row, self._preceding[_ENDS])

    def put_after(self, other: int, row: int) -> None:
        """Puts a row just behind another one; behind all, where the other one isn't known here."""
        self._put(row, other if other in self._following else self._preceding[_ENDS])

    def take_out(self, row: int) -> None:
        """Takes a row out, where it is known here."""
        if row not in self._following:
            return
        before, behind = self._preceding.pop(row), self._following.pop(row)
        self._following[before], self._preceding[behind] = behind, before

    def _put(self, row: int, before: int) -> None:
        """Puts a row just behind another one, or behind `_ENDS` to be the first."""
        behind = self._following[before]
        self._following[row], self._preceding[row] = behind, before
        self._following[before] = self._preceding[behind] = row
