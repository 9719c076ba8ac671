"""A connection of a seat, and what waits to be sent to it: what happened each once and in order, of states the last."""

from __future__ import annotations

import asyncio
import json
from collections.abc import Sequence
from dataclasses import dataclass, field

from pevudlo.serve.lines import Done, Op
from pevudlo.serve.room import Room
from pevudlo.serve.seats import Seat

MOST_WAITING = 256
"""So many operations wait at most: who is told none for so long is told that they are lost, and asks for the text."""

MOST_LETTERS = 1_000_000
"""So many letters of them wait at most."""

MOST_ANSWERS = 512
"""So many answers wait at most."""

MOST_LOOKS = 64
"""So many lines are looked at, at once."""


class TooSlow(Exception):
    """More answers wait for a guest than are kept."""


def op_text(number: int, by: int, done: Done) -> str:
    """An operation as it is told, in JSON."""
    told: dict[str, object] = {"n": number, "by": by, "op": done.op.value, "id": done.id}
    if done.op is not Op.DELETE:
        told["text"] = done.text
    if done.op is Op.INSERT:
        told["after"] = done.after
    return json.dumps(told, separators=(",", ":"))


@dataclass(eq=False)
class Guest:
    """A connection of a seat. `room` is the program that it sees, and `looks` the lines of it that it shows.

    `follows` says that it sees what the class is shown. `bye` is why it is sent away.
    """

    seat: Seat
    room: Room | None = None
    looks: tuple[int, ...] = ()
    follows: bool = False
    is_gone: bool = False
    bye: str = ""
    _answers: list[str] = field(default_factory=list)
    _ops: list[str] = field(default_factory=list)
    _letters: int = 0
    _text: str | None = None
    _is_lost: bool = False
    _is_told_lost: bool = False
    _states: dict[str, str] = field(default_factory=dict)
    _seen: dict[str, str] = field(default_factory=dict)
    _ready: asyncio.Event = field(default_factory=asyncio.Event)

    def answer(self, told: dict[str, object]) -> None:
        """What is answered to what it asked. Raises TooSlow where it takes no answers."""
        if len(self._answers) >= MOST_ANSWERS:
            raise TooSlow
        self._answers.append(json.dumps(told, separators=(",", ":")))
        self._ready.set()

    def enter(self, room: Room) -> None:
        """Shows a program from its whole text on."""
        self.room, self.looks = room, ()
        self._ops.clear()
        self._letters = 0
        self._is_lost = self._is_told_lost = False
        self._seen = {name: told for name, told in self._seen.items() if not name.startswith(("v", "rows", "caret"))}
        self._states = {name: told for name, told in self._states.items() if name in self._seen}
        self._text = json.dumps(room.text(), separators=(",", ":"))
        self._ready.set()

    def tell(self, ops: Sequence[str]) -> None:
        """Operations that happened in its program."""
        if self._is_lost:
            return
        self._letters += sum(map(len, ops))
        if len(self._ops) + len(ops) > MOST_WAITING or self._letters > MOST_LETTERS:
            self._ops.clear()
            self._is_lost = True
        else:
            self._ops += ops
        self._ready.set()

    def state(self, name: str, told: str) -> None:
        """A state by its name. Where it is as it was told last, nothing is told."""
        if self._seen.get(name) != told:
            self._seen[name] = self._states[name] = told
            self._ready.set()

    def forget(self, name: str) -> None:
        """Forgets what it was told of a state, so that it is told again."""
        self._seen.pop(name, None)

    def leave(self, said: str) -> None:
        """Sends it away, with words."""
        self.bye = said
        self._ready.set()

    async def next(self) -> str:
        """The next message, once there is something to tell."""
        while not (parts := self._parts()) and not self.bye:
            self._ready.clear()
            await self._ready.wait()
        parts += [f'"bye":{json.dumps(self.bye)}'] if self.bye else []
        return "{" + ",".join(parts) + "}"

    def _parts(self) -> list[str]:
        """All that waits, as parts of a message. A whole text stands before the operations that come after it."""
        parts = [f'"answers":[{",".join(self._answers)}]'] if self._answers else []
        parts += [f'"text":{self._text}'] if self._text is not None else []
        parts += ['"lost":true'] if self._is_lost and not self._is_told_lost else []
        parts += [f'"ops":[{",".join(self._ops)}]'] if self._ops else []
        if self._states:
            states = ",".join(f"{json.dumps(name)}:{told}" for name, told in self._states.items())
            parts.append(f'"states":{{{states}}}')
        self._answers, self._ops, self._text, self._states = [], [], None, {}
        self._letters = 0
        self._is_told_lost = self._is_lost
        return parts
