"""What two lists of texts have in common, and where two lists of numbers differ."""

from __future__ import annotations

from bisect import bisect_left
from collections.abc import Sequence
from difflib import SequenceMatcher

PART = 256
"""So many lines, or numbers, are compared at once."""

CLOSE = 16
"""Ranges with fewer numbers between them are one."""

MOST_DEEP = 40
MOST_EDITS = 256
"""How many lines may go and come where the fewest are looked for."""

MOST_COMPARED = 250_000
"""How many pairs of lines difflib may have to look at."""

Pair = tuple[int, int]


def ends(old: Sequence[str], new: Sequence[str], known: Pair = (0, 0)) -> Pair:
    """How many lines two texts have in common at the start, and how many behind those at the end.

    So many as are `known` to be the same at both sides aren't compared.
    """
    shorter = min(len(old), len(new))
    low = min(known[0], shorter)
    while low + PART <= shorter and old[low : low + PART] == new[low : low + PART]:
        low += PART
    while low < shorter and old[low] == new[low]:
        low += 1
    left, one, other = shorter - low, len(old), len(new)
    high = min(known[1], left)
    while high + PART <= left and old[one - high - PART : one - high] == new[other - high - PART : other - high]:
        high += PART
    while high < left and old[one - 1 - high] == new[other - 1 - high]:
        high += 1
    return low, high


def differing_ranges(before: Sequence[int], after: Sequence[int]) -> list[range]:
    """The ranges where two lists of a length differ, those close together as one."""
    ranges: list[range] = []
    for part in range(0, len(after), PART):
        if before[part : part + PART] == after[part : part + PART]:
            continue
        for at in range(part, min(part + PART, len(after))):
            if before[at] != after[at]:
                is_close = bool(ranges) and at - ranges[-1].stop < CLOSE
                start = ranges.pop().start if is_close else at
                ranges.append(range(start, at + 1))
    return ranges


def matched(old: Sequence[str], new: Sequence[str]) -> list[Pair]:
    """Which lines of two texts are the same line, in their order: first by lines that stand once in both."""
    found: list[Pair] = []
    match_between(old, range(len(old)), new, range(len(new)), found, 0)
    return found


def match_between(
    old: Sequence[str], ours: range, new: Sequence[str], theirs: range, found: list[Pair], deep: int
) -> None:
    """Matches a part of one text with a part of another."""
    low, high = ends(old[ours.start : ours.stop], new[theirs.start : theirs.stop])
    found += zip(range(ours.start, ours.start + low), range(theirs.start, theirs.start + low))
    tail = list(zip(range(ours.stop - high, ours.stop), range(theirs.stop - high, theirs.stop)))
    ours, theirs = range(ours.start + low, ours.stop - high), range(theirs.start + low, theirs.stop - high)
    spine = rising(once_in_both(old, ours, new, theirs)) if ours and theirs else []
    if spine and deep < MOST_DEEP:
        at, to = ours.start, theirs.start
        for one, other in spine:
            match_between(old, range(at, one), new, range(to, other), found, deep + 1)
            found.append((one, other))
            at, to = one + 1, other + 1
        match_between(old, range(at, ours.stop), new, range(to, theirs.stop), found, deep + 1)
    elif ours and theirs:
        pairs = alike(old[ours.start : ours.stop], new[theirs.start : theirs.stop])
        found += ((ours.start + one, theirs.start + other) for one, other in pairs)
    found += tail


def alike(old: Sequence[str], new: Sequence[str]) -> list[Pair]:
    """Which lines of two texts are the same: by the fewest edits where they are few, else by difflib."""
    found = by_few_edits(old, new)
    if found is not None or len(old) * len(new) > MOST_COMPARED:
        return found or []
    blocks = SequenceMatcher(None, old, new, False).get_matching_blocks()
    return [(block.a + at, block.b + at) for block in blocks for at in range(block.size)]


def by_few_edits(old: Sequence[str], new: Sequence[str]) -> list[Pair] | None:
    """Which lines stay where the fewest go and come, by Myers' greedy search. None where these aren't few."""
    furthest, trail = {1: 0}, list[dict[int, int]]()
    for edits in range(MOST_EDITS + 1):
        trail.append(dict(furthest))
        for line in range(-edits, edits + 1, 2):
            comes = line == -edits or (line != edits and furthest[line - 1] < furthest[line + 1])
            at = furthest[line + 1] if comes else furthest[line - 1] + 1
            while at < len(old) and 0 <= at - line < len(new) and old[at] == new[at - line]:
                at += 1
            furthest[line] = at
            if at >= len(old) and at - line >= len(new):
                return walked_back(trail, len(old), len(new))
    return None


def walked_back(trail: Sequence[dict[int, int]], at: int, to: int) -> list[Pair]:
    """The lines that stay, by how far each number of edits came before its last step."""
    found: list[Pair] = []
    for edits in range(len(trail) - 1, -1, -1):
        furthest, line = trail[edits], at - to
        comes = line == -edits or (line != edits and furthest[line - 1] < furthest[line + 1])
        before = line + 1 if comes else line - 1
        start = furthest[before]
        while at > start and to > start - before:
            at, to = at - 1, to - 1
            found.append((at, to))
        at, to = start, start - before
    return found[::-1]


def once_in_both(old: Sequence[str], ours: range, new: Sequence[str], theirs: range) -> list[Pair]:
    """The lines that stand once in each of two parts, in the order of the second."""
    here, there = places_of(old, ours), places_of(new, theirs)
    return [(here[text], at) for text, at in there.items() if at >= 0 and here.get(text, -1) >= 0]


def places_of(lines: Sequence[str], part: range) -> dict[str, int]:
    """The place of each line of a part, -1 of one that stands there more than once."""
    places: dict[str, int] = {}
    for at in part:
        places[lines[at]] = -1 if lines[at] in places else at
    return places


def rising(pairs: Sequence[Pair]) -> list[Pair]:
    """The longest part of pairs, which are in the order of their second numbers, whose first numbers rise."""
    tails: list[int] = []
    last: list[int] = []
    back: list[int] = []
    for at, (first, _) in enumerate(pairs):
        place = bisect_left(tails, first)
        tails[place : place + 1] = [first]
        last[place : place + 1] = [at]
        back.append(last[place - 1] if place else -1)
    spine: list[Pair] = []
    at = last[-1] if last else -1
    while at >= 0:
        spine.append(pairs[at])
        at = back[at]
    return spine[::-1]


def aligned(old: Sequence[str], new: Sequence[str]) -> list[Pair]:
    """Which instructions of two lists become each other: of one name and destination first, then in their order."""
    blocks = [(len(old), len(new), 0)]
    if len(old) != len(new) and len(old) * len(new) <= MOST_COMPARED:
        one, other = ([" ".join(text.split(" ", 2)[:2]) for text in texts] for texts in (old, new))
        matches = SequenceMatcher(None, one, other, False).get_matching_blocks()
        blocks = [(match.a, match.b, match.size) for match in matches]
    found: list[Pair] = []
    at = to = 0
    for start, place, size in blocks:
        found += zip(range(at, start), range(to, place))
        found += zip(range(start, start + size), range(place, place + size))
        at, to = start + size, place + size
    return found
