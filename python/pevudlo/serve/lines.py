"""A text that several people edit: its unit is the line, each has an id for ever, and an edit says what it saw."""

from __future__ import annotations

from collections.abc import Iterable, Sequence
from dataclasses import dataclass, replace
from enum import Enum

START = 0
"""The id behind which a line is put at the start of the text."""

LAST = -1
"""The id that stands for the line which the same edit put in last."""

MOST_NAMED = 40
"""So many letters of a name stand in a line that came second."""


class Op(Enum):
    """What is done to a line."""

    REPLACE = "replace"
    INSERT = "insert"
    DELETE = "delete"


@dataclass(frozen=True)
class Change:
    """What somebody wants: a line gets another text, a line comes behind another one, or a line goes.

    `was` is the line's text as it was seen.
    """

    op: Op
    id: int
    was: str = ""
    text: str = ""


@dataclass(frozen=True)
class Done:
    """What was done to a line: all who see the text do the same. `after` is the line behind which one was put.

    `was` is the text that it had, which is told to nobody.
    """

    op: Op
    id: int
    text: str = ""
    after: int = START
    was: str = ""


@dataclass(frozen=True)
class Clash:
    """Another one was first: the line's present text, None where it is gone, and the one that it was to get."""

    id: int
    theirs: str | None
    mine: str


class Lines:
    """The lines with their ids. `by` says who wrote a line last."""

    def __init__(self) -> None:
        self.texts: list[str] = []
        self.ids: list[int] = []
        self.by: dict[int, int] = {}
        self.next = 1
        # Of a line that is gone the one behind which it stood.
        self._before: dict[int, int] = {}

    @classmethod
    def of(cls, texts: Sequence[str], first: int, by: int) -> Lines:
        """Lines whose ids go from `first` on."""
        lines = cls()
        lines.texts, lines.ids = list(texts), list(range(first, first + len(texts)))
        lines.by, lines.next = dict.fromkeys(lines.ids, by), first + len(texts)
        return lines

    def at(self, number: int) -> int | None:
        """Where a line stands, or None where there is none of this id."""
        return self.ids.index(number) if number in self.by else None

    def take(self, change: Change, who: int, name: str) -> tuple[list[Done], Clash | None]:
        """Does what somebody wants as far as it goes, and says what was done.

        Where the line isn't what it was when it was seen, it stays, and a new text is put below it as a comment.
        """
        if change.op is Op.INSERT:
            return [self._put(change.id, change.text, who)], None
        at = self.at(change.id)
        present = None if at is None else self.texts[at]
        if at is not None and present == change.was:
            return [self._change(at, change, who)], None
        if change.op is Op.DELETE:
            return [], None if present is None else Clash(change.id, present, "")
        if present == change.text:
            return [], None
        kept = self._put(change.id, f"#? {name[:MOST_NAMED]}: {change.text}", who)
        return [kept], Clash(change.id, present, change.text)

    def repeat(self, done: Done, who: int) -> Done:
        """Does again what was done once to the same lines, or to be undone. A line comes back under its id.

        Gives what was done, as others are told it: a line that comes back may stand behind another one than it did.
        """
        at = self.at(done.id)
        if done.op is Op.INSERT:
            return self._put(done.after, done.text, who, done.id)
        return done if at is None else self._change(at, Change(done.op, done.id, text=done.text), who)

    def repeat_all(self, all_done: Iterable[Done], who: int) -> list[Done]:
        """Does again what was done, one after the other. Gives what was done."""
        return [self.repeat(done, who) for done in all_done]

    def take_all(self, changes: Sequence[Change], who: int, name: str) -> tuple[list[Done], list[Clash], list[int]]:
        """Does several changes of one edit. What was done, where another one was first, and the ids of new lines."""
        done, clashes, put, last = list[Done](), list[Clash](), list[int](), START
        for change in changes:
            wanted = replace(change, id=last) if change.id == LAST else change
            made, clash = self.take(wanted, who, name)
            done += made
            clashes += [] if clash is None else [clash]
            put += [made[0].id] if change.op is Op.INSERT else []
            last = made[-1].id if made else last
        return done, clashes, put

    def _change(self, at: int, change: Change, who: int) -> Done:
        """Gives a line another text, or takes it out."""
        was = self.texts[at]
        if change.op is Op.REPLACE:
            self.texts[at], self.by[change.id] = change.text, who
            return Done(Op.REPLACE, change.id, change.text, was=was)
        before = self.ids[at - 1] if at else START
        self._before[change.id] = before
        del self.texts[at], self.ids[at], self.by[change.id]
        return Done(Op.DELETE, change.id, after=before, was=was)

    def _put(self, after: int, text: str, who: int, number: int = 0) -> Done:
        """Puts a line in behind another one, or where that was. It has the next id where none is said."""
        while after != START and after not in self.by:
            after = self._before.get(after, START)
        at = 0 if after == START else self.ids.index(after) + 1
        number = number or self.next
        self.next = max(self.next, number + 1)
        self.ids.insert(at, number)
        self.texts.insert(at, text)
        self.by[number] = who
        return Done(Op.INSERT, number, text, after)
