"""What two sides did to the same lines, each since both had them: the editor's text, and the lines that all share.

A text is known by its lines alone. What an editor has of the shared lines is said by a base: lines with their ids, in
the order in which they stand in its text, each with the text that it had when it came there.
"""

from __future__ import annotations

from collections import Counter
from collections.abc import Collection, Iterator, Sequence
from dataclasses import dataclass, field
from itertools import zip_longest

from pevudlo.document.differences import matched
from pevudlo.serve.lines import LAST, START, Change, Op

FIRST_PUT = -2
"""The id of the first line that an edit puts, until its own is known; those behind it count downwards."""

NO_LINE = 1 << 52
"""Ids from here on are of lines that an editor had before it joined, and that aren't shared."""


@dataclass(frozen=True)
class Line:
    """A shared line: its id, and its text."""

    id: int
    text: str


@dataclass(frozen=True)
class Slot:
    """A line of a base, of what it is to become, or of both: `old` and `new` are its texts there.

    One that `is_moved` stands elsewhere in what the base is to become, and has a slot at either place.
    """

    id: int
    old: str | None
    new: str | None
    is_moved: bool = False


@dataclass(frozen=True)
class Both:
    """A line of a base and one of a text, by their indices: None where the other one has no such line."""

    base: int | None
    at: int | None


def slots(base: Sequence[Line], target: Sequence[Line]) -> list[Slot]:
    """The lines of a base and of what it is to become, in one order."""
    found: list[Slot] = []
    ours, theirs = {line.id for line in base}, {line.id for line in target}
    at = to = 0
    for one, other in [*matched(ids_of(base), ids_of(target)), (len(base), len(target))]:
        found += [Slot(line.id, line.text, None, line.id in theirs) for line in base[at:one]]
        found += [Slot(line.id, None, line.text, line.id in ours) for line in target[to:other]]
        both = zip(base[one : one + 1], target[other : other + 1])
        found += [Slot(line.id, line.text, to_be.text) for line, to_be in both]
        at, to = one + 1, other + 1
    return found


def ids_of(lines: Sequence[Line]) -> list[str]:
    """The ids of lines, as texts that can be compared."""
    return [str(line.id) for line in lines]


def texts_of(lines: Sequence[Line]) -> list[str]:
    """The texts of lines."""
    return [line.text for line in lines]


def begun(shared: Sequence[Line], texts: Sequence[str]) -> list[Line]:
    """The base of a text that somebody joins with. Lines of it that aren't shared are as if others took them out."""
    known = {at: shared[one].id for one, at in matched(texts_of(shared), texts)}
    return [Line(known.get(at, NO_LINE + at), text) for at, text in enumerate(texts)]


def seen(base: Sequence[Line], target: Sequence[Line], texts: Sequence[str], is_likely: bool) -> list[Line]:
    """The base of a text of which it isn't known whether what leads to `target` was put into it.

    `is_likely` says whether it was put, as far as that can be seen. Each line is judged by itself. One that isn't found
    as it was to be counts as not put there, so that it is put again, and nobody is said to have taken it out.
    """
    first, second = (target, base) if is_likely else (base, target)
    found = matched(texts_of(first), texts)
    taken = {at for _, at in found}
    one = {first[at].id for at, _ in found}
    left = [(at, to) for at, to in matched(texts_of(second), texts) if to not in taken]
    other = {second[at].id for at, _ in left}
    olds, news = (other, one) if is_likely else (one, other)
    news |= elsewhere(target, texts, taken | {to for _, to in left})
    kept: list[Line] = []
    for slot in slots(base, target):
        is_old, is_new = slot.id in olds, slot.id in news
        is_new = is_likely and (is_new or slot.is_moved and not is_old) or is_new and not is_old
        if slot.new is not None and (is_new or slot.new == slot.old):
            kept.append(Line(slot.id, slot.new))
        elif slot.old is not None and (slot.new is not None or is_old or slot.is_moved):
            kept += [] if slot.is_moved and is_new else [Line(slot.id, slot.old)]
    return kept


def elsewhere(lines: Sequence[Line], texts: Sequence[str], taken: Collection[int]) -> set[int]:
    """The lines whose texts stand once in them, and once in a text, at an index that isn't taken: they were moved."""
    ours, theirs = Counter(texts_of(lines)), Counter(texts)
    free = {text for at, text in enumerate(texts) if at not in taken and theirs[text] == 1}
    return {line.id for line in lines if line.text in free and ours[line.text] == 1}


def distance(one: Sequence[str], other: Sequence[str]) -> int:
    """How many lines of two texts aren't in both."""
    return len(one) + len(other) - 2 * len(matched(one, other))


def side_by_side(base: Sequence[Line], texts: Sequence[str]) -> Iterator[Both]:
    """The lines of a base and of a text, in one order. Between lines that are the same, others are the same in turn."""
    at = to = 0
    for one, other in [*matched(texts_of(base), texts), (len(base), len(texts))]:
        yield from (Both(*both) for both in zip_longest(range(at, one), range(to, other)))
        if one < len(base):
            yield Both(one, other)
        at, to = one + 1, other + 1


@dataclass(frozen=True)
class Merged:
    """A text with what others did, and its base once it is the editor's."""

    texts: list[str]
    base: list[Line]


def merged(base: Sequence[Line], target: Sequence[Line], texts: Sequence[str], typed: int | None) -> Merged:
    """Does to a text what leads from a base to `target`, but for lines that are other than in the base.

    These stay, and so does the line of the index `typed`: what others did to them is left for later.
    """
    both = [each for each in side_by_side(base, texts) if each.base is not None and each.at is not None]
    places = {base[each.base].id: each.at for each in both if each.base is not None}
    still = {line.id for line in base if line.text == text_at(texts, places.get(line.id), typed)}
    out, kept, done = list[str](), list[Line](), 0
    for slot in slots(base, target):
        at = places.get(slot.id) if slot.old is not None else None
        put, line = away(slot, still) if at is None else met(slot, texts[at], slot.id in still)
        out += texts[done:at] if at is not None else []
        out += [] if put is None else [put]
        kept += [] if line is None else [line]
        done = done if at is None else at + 1
    return Merged([*out, *texts[done:]], kept)


Met = tuple[str | None, Line | None]
"""What stands in the text for a line, and the line in its base."""


def text_at(texts: Sequence[str], at: int | None, typed: int | None) -> str | None:
    """The text at an index; None where it is being typed, or there is none."""
    return None if at is None or at == typed else texts[at]


def away(slot: Slot, still: Collection[int]) -> Met:
    """What becomes of a line that isn't in the text: others put it, or it was taken out there.

    One that others moved goes to its place if it is `still` as it was, and else stays where it was.
    """
    if slot.old is None and slot.new is not None:
        return (slot.new, Line(slot.id, slot.new)) if not slot.is_moved or slot.id in still else (None, None)
    is_everywhere = slot.old is not None and (slot.new is not None or slot.is_moved)
    return None, Line(slot.id, slot.old or "") if is_everywhere else None


def met(slot: Slot, text: str, is_still: bool) -> Met:
    """What becomes of a line that is in the text, as it was there still or as another one."""
    if text == slot.new:
        return text, Line(slot.id, text)
    if not is_still:
        return text, Line(slot.id, slot.old or "")
    return (None, None) if slot.new is None else (slot.new, Line(slot.id, slot.new))


# What the editor did.


@dataclass(frozen=True)
class Wanted:
    """What was done in an editor, as changes of the shared lines, and the base of its text once that is done to them.

    Lines that are to be put have ids below -1 in it, from -2 downwards in the order of the changes.
    """

    changes: list[Change]
    base: list[Line]


@dataclass
class Collected:
    """Collects what was done in an editor. So many changes, and so many letters of them, are taken."""

    most: int
    letters: int
    changes: list[Change] = field(default_factory=list)
    base: list[Line] = field(default_factory=list)
    put: int = 0

    def take(self, change: Change) -> bool:
        """Takes a change. False where it is one too many."""
        size = len(change.text) + len(change.was)
        if self.changes and (len(self.changes) >= self.most or size > self.letters):
            self.most = 0
            return False
        self.letters -= size
        self.changes.append(change)
        return True

    def replace(self, line: Line, text: str) -> None:
        """A line has another text."""
        is_taken = text == line.text or self.take(Change(Op.REPLACE, line.id, line.text, text))
        self.base.append(Line(line.id, text) if is_taken else line)

    def delete(self, line: Line) -> None:
        """A line is gone."""
        if not self.take(Change(Op.DELETE, line.id, line.text)):
            self.base.append(line)

    def insert(self, text: str) -> None:
        """There is a new line behind the last one."""
        before = self.base[-1].id if self.base else START
        if self.take(Change(Op.INSERT, LAST if before < LAST else before, text=text)):
            self.base.append(Line(FIRST_PUT - self.put, text))
            self.put += 1


def wanted(base: Sequence[Line], texts: Sequence[str], kept_back: Collection[int], most: int, letters: int) -> Wanted:
    """What was done in an editor: its text is another one than the base. The lines of the indices are kept back."""
    found = Collected(most, letters)
    for both in side_by_side(base, texts):
        line = None if both.base is None else base[both.base]
        if both.at is None and line is not None:
            found.delete(line)
        elif both.at in kept_back or both.at is None:
            found.base += [] if line is None else [line]
        elif line is None:
            found.insert(texts[both.at])
        else:
            found.replace(line, texts[both.at])
    return Wanted(found.changes, found.base)
