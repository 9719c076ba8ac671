"""An editor and a server that are kept in step: what came from either, and what is to be sent next. It sends nothing.

One thing is on its way at a time: an edit to the server, or one to the editor. What the editor's text is, is known from
what it tells of its changes alone. So what is put into it counts once a text came that has it, whatever the editor
answered, and in whatever order its answer and its changes came.

An editor may tell of an edit part by part, as Neovim does. A text that has some of its parts, and nothing else that is
new, is one on the way: the others come, and are nobody's typing.
"""

from __future__ import annotations

from collections.abc import Mapping, Sequence
from dataclasses import dataclass, field, replace
from typing import Any, Union

from pevudlo.document.differences import matched
from pevudlo.join.edits import is_made_in_part
from pevudlo.join.merging import FIRST_PUT, Line, begun, distance, merged, seen, texts_of, wanted
from pevudlo.join.shared import Shared
from pevudlo.serve.lines import Change, Op

STILL = 0.3
"""Seconds behind which a line that isn't changed any more is sent."""

MOST_HELD = 2.0
"""Seconds for which others' edits wait at most while a line is being typed."""

PACE = 0.2
"""Seconds between two edits that are sent."""

FIRST_WAIT, MOST_WAIT = 0.5, 8.0
"""Seconds behind which what was refused is sent again: twice as many each time."""

UNTOLD = 1.0
"""Seconds for which a change is waited for that an editor says it made, where it told another one first."""

REST = 10.0
"""Seconds for which the other parts of an edit are waited for, of which an editor told some."""

GIVEN_UP = 60.0
"""Seconds behind which an edit that was put to the editor isn't waited for any more."""

MOST_CHANGES, MOST_LETTERS = 1_000, 100_000
"""So much is sent as one edit."""

NEVER = float("inf")


@dataclass(frozen=True)
class Send:
    """An edit for the server."""

    changes: Sequence[Change]


@dataclass(frozen=True)
class Put:
    """An edit for the editor: what its text of a version is to become."""

    version: int
    old: Sequence[str]
    new: Sequence[str]


Step = Union[Send, Put]


@dataclass
class Sent:
    """An edit on its way to the server. `before` is the base without it."""

    changes: Sequence[Change]
    before: list[Line]


@dataclass
class OnItsWay:
    """An edit on its way to the editor, since a time. It makes the text `new` of `old`, and its base is `target` then.

    `told` is when another text came last, and `is_part`: that one has some of its parts. `answered` is when the editor
    said that it made it.
    """

    old: list[str]
    new: list[str]
    target: list[Line]
    begun: float
    told: float = NEVER
    is_part: bool = False
    answered: float = NEVER

    @property
    def end(self) -> float:
        """When it isn't waited for any more."""
        return min(self.begun + GIVEN_UP, max(self.told, self.answered) + (REST if self.is_part else UNTOLD))


@dataclass
class Typed:
    """The line of an index that is being typed. It was changed at a time."""

    at: int
    changed: float


@dataclass
class State:
    """What is known of both. `base` is what the editor's text has of the shared lines.

    `may_edit`: the server takes edits, and `takes_edits`: the editor does. `is_there`: the server is connected.
    `kept_back` are texts that it didn't take: they are sent once the file is saved.
    """

    texts: list[str]
    version: int
    pace: float = PACE
    may_edit: bool = True
    takes_edits: bool = True
    shared: Shared = field(default_factory=Shared)
    base: list[Line] = field(default_factory=list)
    is_joined: bool = False
    is_there: bool = False
    sent: Sent | None = None
    put: OnItsWay | None = None
    typed: Typed | None = None
    kept_back: set[str] = field(default_factory=set)
    _is_unsure: bool = False
    _until: int = 0
    _held: float = NEVER
    _not_before: float = 0.0
    _wait: float = FIRST_WAIT
    _most: int = MOST_CHANGES

    # What came from the editor.

    def changed(self, texts: Sequence[str], version: int, typed: int | None, now: float) -> None:
        """The editor's text is another one, perhaps with what was put to it. `typed` is the line that was changed."""
        before, self.texts, self.version = self.texts, list(texts), version
        is_put = self.put is not None and self._see(self.put, before, now)
        if not is_put:
            self.typed = None if typed is None else Typed(typed, now)
        elif self.typed is not None:
            at = dict(matched(before, self.texts)).get(self.typed.at)
            self.typed = None if at is None else replace(self.typed, at=at)

    def _see(self, put: OnItsWay, before: Sequence[str], now: float) -> bool:
        """Sees what the text has of what was put to it, where it was another one before. Whether that is all it has."""
        is_likely = distance(put.new, self.texts) < distance(before, self.texts)
        self.base, put.told = seen(self.base, put.target, self.texts, is_likely), now
        put.is_part = is_made_in_part(put.old, put.new, self.texts)
        if put.answered != NEVER and not put.is_part:
            self.put = None
        return self.texts != before and (put.is_part or self.texts == put.new)

    def put_answered(self, is_made: bool, now: float) -> None:
        """The editor says whether it made the edit that was put to it. One that wasn't made is put again."""
        if self.put is not None:
            self.put.answered = now
            if not is_made or (self.put.told != NEVER and not self.put.is_part and self.base == self.put.target):
                self.put = None

    def left(self, line: int | None) -> None:
        """The caret is in another line: what was typed is sent."""
        if self.typed is not None and self.typed.at != line:
            self.typed = None

    def saved(self) -> None:
        """The text is as it is meant: all of it is sent, also what the server didn't take."""
        self.typed = None
        self.kept_back.clear()

    # What came from the server.

    def told_text(self, told: Mapping[str, Any]) -> None:
        """The server told the whole text. Raises Strange."""
        self.shared.take_text(told)
        lines = self.shared.lines
        if not self.is_joined:
            self.is_joined, self.base = True, begun(lines, self.texts)
        elif self.base and not {line.id for line in self.base} & {line.id for line in lines}:
            self._rename()
        elif self._is_unsure:
            self.base = seen(self.base, lines, self.texts, False)
        self.is_there, self._is_unsure, self._until = True, False, 0

    def _rename(self) -> None:
        """The lines of a new chapter have other ids: those with the same texts are the same lines."""
        names = same_lines(self.base if self.put is None else self.put.target, self.shared.lines)
        self.base = renamed(self.base, names)
        if self.put is not None:
            self.put.target = renamed(self.put.target, names)
        if self.sent is not None:
            self.sent.before = renamed(self.sent.before, same_lines(self.sent.before, self.shared.lines))

    def told_op(self, told: Mapping[str, Any]) -> None:
        """The server told what was done to a line. Raises Strange."""
        self.shared.take_op(told)

    def accepted(self, number: int, put: Sequence[int]) -> None:
        """The server did what was sent: the edit's number, and the ids of the lines that it put."""
        if self.sent is not None:
            self.base = renamed(self.base, {FIRST_PUT - at: number for at, number in enumerate(put)})
            self.sent, self._until = None, number
            self._wait, self._most = FIRST_WAIT, MOST_CHANGES

    def refused(self, is_busy: bool, now: float) -> None:
        """The server did nothing of what was sent: since it `is_busy`, or since that isn't allowed.

        What isn't allowed is found by sending less. Such a text is kept back, and a line that may not go comes back.
        """
        if self.sent is None:
            return
        changes, self.base, self.sent = self.sent.changes, self.sent.before, None
        self._not_before, self._wait = now + self._wait, min(2 * self._wait, MOST_WAIT)
        if not is_busy:
            self._most, self._wait = max(1, len(changes) // 2), FIRST_WAIT
        if not is_busy and len(changes) == 1:
            self._keep_back(changes[0])

    def _keep_back(self, change: Change) -> None:
        """Keeps a change back that isn't allowed."""
        if change.op is Op.DELETE:
            self.base = [line for line in self.base if line.id != change.id]
        else:
            self.kept_back.add(change.text)

    def parted(self) -> None:
        """The server is gone: whether what was sent was done is seen in the text that it tells next."""
        self.is_there = False
        if self.sent is not None:
            self.base, self.sent, self._is_unsure = self.sent.before, None, True

    # What is next.

    def next(self, now: float) -> Step | None:
        """What is to be sent now, if anything is: it is on its way then."""
        if self.put is not None and now >= self.put.end:
            self.put = None
        if self.typed is not None and now >= self.typed.changed + STILL:
            self.typed = None
        is_busy = self.sent is not None or self.put is not None or self.shared.number < self._until
        if is_busy or not self.is_there:
            return None
        return self._next_put(now) or self._next_send(now)

    def _next_put(self, now: float) -> Put | None:
        """What others did since, for the editor."""
        if not self.takes_edits or self.base == self.shared.lines:
            self._held = NEVER
            return None
        self._held = min(self._held, now)
        if self.typed is not None and now < self._held + MOST_HELD:
            return None
        typed = None if self.typed is None else self.typed.at
        made = merged(self.base, self.shared.lines, self.texts, typed)
        if made.texts == self.texts:
            self.base = made.base
            return None
        self._held = NEVER
        self.put = OnItsWay(self.texts, made.texts, made.base, now)
        return Put(self.version, self.texts, made.texts)

    def _next_send(self, now: float) -> Send | None:
        """What was done in the editor, for the server."""
        if not self.may_edit or now < self._not_before:
            return None
        kept = {at for at, text in enumerate(self.texts) if text in self.kept_back} if self.kept_back else set[int]()
        kept |= {self.typed.at} if self.typed is not None else set()
        found = wanted(self.base, self.texts, kept, self._most, MOST_LETTERS)
        if not found.changes:
            return None
        self.sent, self.base = Sent(found.changes, self.base), found.base
        self._not_before = now + self.pace
        return Send(found.changes)

    def rest(self, now: float) -> float | None:
        """Seconds behind which something may be next though nothing came; None where nothing may."""
        times = [self._not_before, self._held + MOST_HELD]
        times += [self.typed.changed + STILL] if self.typed is not None else []
        times += [self.put.end] if self.put is not None else []
        later = [at - now for at in times if now < at < NEVER]
        return min(later) if later else None

    @property
    def has_typed(self) -> bool:
        """Whether something was done in the editor that the server hasn't done yet."""
        found = wanted(self.base, self.texts, (), 1, MOST_LETTERS)
        return self.sent is not None or (self.may_edit and bool(found.changes))

    @property
    def is_at_rest(self) -> bool:
        """Whether the editor has what the server told, and the server what the editor did."""
        is_busy = self.sent is not None or self.put is not None or not self.is_there
        return not is_busy and self.base == self.shared.lines and self.texts == self.shared.texts


def renamed(lines: Sequence[Line], names: Mapping[int, int]) -> list[Line]:
    """Lines with other ids, where they have one."""
    return [replace(line, id=names.get(line.id, line.id)) for line in lines]


def same_lines(lines: Sequence[Line], others: Sequence[Line]) -> dict[int, int]:
    """The ids of other lines that have the same texts, by the ids of these."""
    return {lines[one].id: others[other].id for one, other in matched(texts_of(lines), texts_of(others))}
