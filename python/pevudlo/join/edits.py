"""What makes one text of another: parts whose lines become others."""

from __future__ import annotations

from collections.abc import Collection, Sequence
from dataclasses import dataclass

from pevudlo.document.differences import matched


@dataclass(frozen=True)
class Hunk:
    """The lines from `start` on and before `end`, which become `lines`."""

    start: int
    end: int
    lines: list[str]


def hunks(old: Sequence[str], new: Sequence[str]) -> list[Hunk]:
    """The parts in which a text becomes another one, in their order."""
    found: list[Hunk] = []
    at = to = 0
    for one, other in [*matched(old, new), (len(old), len(new))]:
        if one > at or other > to:
            found.append(Hunk(at, one, list(new[to:other])))
        at, to = one + 1, other + 1
    return found


def is_made_in_part(old: list[str], new: list[str], texts: list[str]) -> bool:
    """Whether a text has some of the parts in which an old one becomes a new one, but not all, and is the old one else.

    An editor may tell of an edit part by part, so such a text is one on the way.
    """
    at, ends = 0, {0}
    for hunk in hunks(old, new):
        ends = behind(texts, ends, old[at : hunk.start])
        ends = behind(texts, ends, old[hunk.start : hunk.end]) | behind(texts, ends, hunk.lines)
        at = hunk.end
    return len(texts) in behind(texts, ends, old[at:]) and texts not in (old, new)


def behind(texts: list[str], starts: Collection[int], part: list[str]) -> set[int]:
    """Where a text goes on behind a part, which stands at some of these places."""
    return {start + len(part) for start in starts if texts[start : start + len(part)] == part}
