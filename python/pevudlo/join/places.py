"""Which shared line each line of an editor's text is."""

from __future__ import annotations

from collections.abc import Mapping, Sequence
from dataclasses import dataclass

from pevudlo.join.merging import NO_LINE, Line, side_by_side
from pevudlo.serve.lines import START


@dataclass(frozen=True)
class Places:
    """The ids of the lines of a text, START for one that isn't shared yet, and the lines of ids."""

    ids: Sequence[int]
    lines: Mapping[int, int]

    def near(self, at: int) -> int:
        """The id of a line, or of the one above it that is shared; START where there is none."""
        return next((number for number in reversed(self.ids[: at + 1]) if number != START), START)


def places_of(base: Sequence[Line], texts: Sequence[str]) -> Places:
    """Which line of a text is which, by the base of the text."""
    ids = [START] * len(texts)
    for both in side_by_side(base, texts):
        if both.base is not None and both.at is not None and START < base[both.base].id < NO_LINE:
            ids[both.at] = base[both.base].id
    return Places(ids, {number: at for at, number in enumerate(ids) if number != START})
