"""The rows of a session as tabs know them: what each is, and at which version it became that.

A list of all rows is compared with the one before, and what is other has its version. Behind an edit no list is wanted:
the library tells which rows it touched. Which rows were other at the last versions is noted, so that a tab is told of
these alone.
"""

from __future__ import annotations

from collections import deque
from collections.abc import Collection, Iterable, Mapping, Sequence
from dataclasses import dataclass

from pevudlo.lang.replies import Row, RowFault, Status


MOST_NOTED = 20_000
"""So many ids of rows that were other are noted. Who has seen less than they say is told by a walk over all rows."""


@dataclass(slots=True)
class Known:
    """A row. `written` is the version at which its text became what it is, `touched` that of the last edit that touched
    it, and `turned` that at which it became settled, or unsettled."""

    text: str
    edition: int
    is_open: bool
    written: int
    touched: int
    turned: int


class Ledger:
    """The rows by id in program order, the input data that was given, and the rows that are refused for their data.

    `given` has the version at which a key was given last, by key, in the order in which keys were given first.
    """

    def __init__(self) -> None:
        self.rows: dict[int, Known] = {}
        self.open: set[int] = set()
        self.given: dict[str, int] = {}
        self.faults: tuple[RowFault, ...] = ()
        self.causes: dict[int, str] = {}
        self.ordered = self.keyed = self.faulted = self.declared = self.began = 0
        self._is_anew = False
        # The rows that were other at a version, how many they are, and the version behind which all are noted.
        self._noted: deque[tuple[int, Collection[int]]] = deque()
        self._count = self._noted_from = 0

    def forget(self) -> None:
        """Another program comes: no row of it is one of these, whatever its id and its edition are."""
        self._is_anew = True
        self.given = {}

    def see(self, rows: Sequence[Row], version: int) -> None:
        """Takes in the rows as they are behind an edit."""
        before, now = self.rows, dict[int, Known]()
        for row in rows:
            known, is_open = before.get(row.row), row.status is not Status.SETTLED
            if known is None:
                known = Known(row.text, row.edition, is_open, version, version, version)
            else:
                self._note(known, row, is_open, version)
            now[row.row] = known
        if list(now) != list(before):
            self.ordered = version
        if self._is_anew:
            self.began = self.declared = self.keyed = version
        self.rows, self._is_anew = now, False
        self.open = {row for row, known in now.items() if known.is_open}
        self._noted.clear()
        self._count, self._noted_from = 0, version

    def touch(
        self, rows: Sequence[int], edition: int, texts: Mapping[int, str], order: Iterable[int] | None, version: int
    ) -> None:
        """Takes in an edit: the rows that it touched, and the order where it is another. `turn` follows."""
        for row in rows:
            known, text = self.rows.get(row), texts[row]
            if known is None:
                self.rows[row] = Known(text, edition, False, version, version, version)
                continue
            known.edition, known.touched = edition, version
            if known.text != text:
                known.text, known.written = text, version
        if order is not None:
            self.rows = {row: self.rows[row] for row in order}
            self.open &= self.rows.keys()
            self.ordered = version
        self._note_others(rows, version)

    def _note_others(self, rows: Collection[int], version: int) -> None:
        """Notes which rows are other at a version."""
        self._noted.append((version, rows))
        self._count += len(rows)
        while self._count > MOST_NOTED:
            self._noted_from, gone = self._noted.popleft()
            self._count -= len(gone)

    def _others(self, seen: int) -> list[tuple[int, Known]]:
        """The rows that may be other for who has seen a version."""
        if seen < self._noted_from:
            return list(self.rows.items())
        found = set[int]()
        for version, rows in reversed(self._noted):
            if version <= seen:
                break
            found.update(rows)
        return [(row, self.rows[row]) for row in sorted(found) if row in self.rows]

    def _note(self, known: Known, row: Row, is_open: bool, version: int) -> None:
        """Notes what is other of a row."""
        if self._is_anew or known.edition != row.edition or known.text != row.text:
            known.edition, known.touched = row.edition, version
        if known.text != row.text:
            known.text, known.written = row.text, version
        if known.is_open != is_open:
            known.is_open, known.turned = is_open, version

    def turn(self, unsettled: Collection[int], version: int) -> bool:
        """Takes in which rows are unsettled now, where no edit came. Whether some others were before."""
        now = set(unsettled)
        others = now ^ self.open
        for row in others & self.rows.keys():
            self.rows[row].is_open, self.rows[row].turned = row in now, version
        self.open = now
        if others:
            self._note_others(others, version)
        return bool(others)

    def give(self, keys: Iterable[str], version: int) -> None:
        """Notes input data that was given anew."""
        for key in keys:
            if key not in self.given:
                self.keyed = version
            self.given[key] = version

    def keep_given(self, keys: Iterable[str], anew: Collection[str], version: int) -> None:
        """These keys alone are given now, and the numbers of those in `anew` may be others."""
        now = {key: version if key in anew else self.given.get(key, version) for key in keys}
        if list(now) != list(self.given):
            self.keyed = version
        self.given = now

    def refuse(self, faults: tuple[RowFault, ...], causes: dict[int, str], version: int) -> bool:
        """Takes in which rows are refused for their data, and why. Whether they were others before."""
        if faults == self.faults and causes == self.causes:
            return False
        self.faults, self.causes, self.faulted = faults, causes, version
        return True

    def is_current(self, key: str, row: int, seen: int) -> bool:
        """Whether what a row left is, for who has seen a version, what it leaves now. Row 0 is the start."""
        if row == 0:
            return max(self.given.get(key, 0), self.began) <= seen
        known = self.rows.get(row)
        return known is not None and not known.is_open and known.touched <= seen

    def since(self, seen: int) -> dict[str, object]:
        """What is other of the rows for who has seen a version."""
        rows = self._others(seen)
        news: dict[str, object] = {}
        if self.ordered > seen or not seen:
            news["order"] = ranges_of(self.rows)
        if written := [row for row, known in rows if known.written > seen]:
            news["texts"] = texts_of(written, [self.rows[row].text for row in written])
        touched = ranges_of(row for row, known in rows if known.touched > seen) if seen else []
        turned = [(row, known.is_open) for row, known in rows if known.turned > seen]
        news["touched"] = touched
        news["un"] = ranges_of(row for row, is_open in turned if is_open)
        news["done"] = ranges_of(row for row, is_open in turned if not is_open) if seen else []
        if self.keyed > seen or not seen:
            news["given"] = list(self.given)
        news["began"] = self.began > seen
        news["anew"] = [key for key, version in self.given.items() if version > seen] if seen else []
        if self.faulted > seen or not seen:
            news["faults"] = [
                [fault.row, fault.cause.value, fault.processor, self.causes.get(fault.row, "")] for fault in self.faults
            ]
        return news


def ranges_of(ids: Iterable[int]) -> list[int]:
    """Ids in their order as ranges: the first and the last of neighbours that follow each other by one."""
    ranges: list[int] = []
    for row in ids:
        if ranges and ranges[-1] + 1 == row:
            ranges[-1] = row
        else:
            ranges += (row, row)
    return ranges


def texts_of(ids: Iterable[int], texts: Iterable[str]) -> dict[str, object]:
    """Rows with their texts, each distinct one once."""
    numbers: dict[str, int] = {}
    of = [numbers.setdefault(text, len(numbers)) for text in texts]
    return {"ids": ranges_of(ids), "texts": list(numbers), "of": of}
