"""A check of a journal: what it says is done again from its start at a fresh desk, and each reply is compared."""

from __future__ import annotations

import json
from collections.abc import Iterator, Sequence
from dataclasses import dataclass
from pathlib import Path

from pevudlo.draw.visible import visible
from pevudlo.serve.journal import NAME, Entry, Kept, entry_in, number_in, sum_in, summed, without_sum
from pevudlo.serve.limits import Refused
from pevudlo.serve.room import Room
from pevudlo.serve.seated import SeatedBook
from pevudlo.serve.turns import Patient

MOST_SAID = 200
"""So many letters of a reply are told."""


@dataclass
class Checked:
    """How many edits were done again, how many replies are the same, and what isn't as it was written, or nothing."""

    edits: int = 0
    replies: int = 0
    wrong: str = ""

    def words(self) -> str:
        """What was found, in a sentence."""
        if self.wrong:
            return f"{NAME} isn't what was written: {self.wrong}"
        return (
            f"The journal holds: {self.edits:,} edits were done again, and all {self.replies:,} replies are the same."
        )


class Wrong(Exception):
    """Something of a journal isn't what was written."""


class Replay:
    """A program that does again what a journal says, line by line."""

    def __init__(self, library: Path) -> None:
        self.checked = Checked()
        self._library = library
        self._room: Room | None = None
        self._given: list[object] = []

    def close(self) -> None:
        """Ends the program."""
        if self._room is not None:
            self._room.close()

    @property
    def room(self) -> Room:
        """The program. Raises Wrong before its beginning."""
        if self._room is None:
            raise Wrong("it has no beginning")
        return self._room

    def take(self, told: dict[str, object]) -> None:
        """Does what a line says, or compares the replies that it has. Raises Wrong, and what a line of none raises."""
        if "said" in told:
            self._compare(told)
            return
        if self._given:
            raise Wrong(f"the replies to edit {self.room.number} are gone")
        if "begin" in told:
            self._begin(told)
        else:
            self._repeat(entry_in(told))

    def _begin(self, told: dict[str, object]) -> None:
        """Begins a chapter."""
        name, texts = str(told["begin"]), told["texts"]
        assert isinstance(texts, list)
        if self._room is None:
            self._room = self._opened(texts, None)
        else:
            self._room.begin(texts, name, number_in(told, "by"))
        if self._room.number != number_in(told, "n"):
            raise Wrong(f"the chapter `{visible(name[:MOST_SAID])}` has another number")

    def _repeat(self, entry: Entry) -> None:
        """Does an edit again."""
        if entry.number != self.room.number + 1:
            raise Wrong(f"edit {entry.number} stands behind edit {self.room.number}")
        self.room.repeat(entry)
        self.checked.edits += 1

    def _opened(self, texts: Sequence[str], kept: Kept | None) -> Room:
        """A program from its beginning on, or from what is kept of one."""
        return Room("", texts, self._library, nobody, keep=self._note, kept=kept, begin_book=SeatedBook)

    def _note(self, line: str) -> None:
        """Notes the replies that the program gives now."""
        self._given = json.loads(line).get("said", [])

    def _compare(self, told: dict[str, object]) -> None:
        """Compares replies with those that are given now. Where the server began again, so does the program."""
        if "again" in told:
            kept = self.room.kept
            self.close()
            self._given = []
            self._room = self._opened([], kept)
        said, edit = told["said"], number_in(told, "n")
        assert isinstance(said, list)
        for at, (was, now) in enumerate(zip(said, self._given), 1):
            if was != now:
                raise Wrong(f"reply {at} to edit {edit} was {shown(was)}, and is {shown(now)}")
        if len(said) != len(self._given):
            raise Wrong(f"edit {edit} had {len(said)} replies, and has {len(self._given)}")
        self.checked.replies += len(said)
        self._given = []


def nobody(book: Patient) -> None:
    """Is told that rows are ready, and runs none."""


def shown(reply: object) -> str:
    """A reply, as it is told."""
    return f"`{visible(str(reply)[:MOST_SAID])}`"


def told_lines(lines: Sequence[str]) -> Iterator[dict[str, object]]:
    """What the lines of a journal tell. Raises Wrong where one isn't what was written, and ValueError."""
    *whole, torn = lines
    before = ""
    for at, line in enumerate(whole, 1):
        if (before or sum_in(line)) and summed(without_sum(line), before) != line:
            raise Wrong(f"line {at} isn't as it was written, or one before it is gone")
        before = sum_in(line)
        told = json.loads(line)
        if not isinstance(told, dict):
            raise ValueError
        yield told
    if torn:
        raise Wrong("its last line isn't whole")


def check_journal(folder: Path, library: Path) -> Checked:
    """Checks the journal of a folder's program. Raises OSError where it can't be read."""
    with open(folder / NAME, encoding="utf-8", errors="surrogateescape", newline="\n") as file:
        lines = file.read().split("\n")
    replay, at = Replay(library), 0
    try:
        for at, told in enumerate(told_lines(lines), 1):
            replay.take(told)
    except (Wrong, Refused) as error:
        replay.checked.wrong = str(error)
    except (KeyError, TypeError, ValueError, AssertionError):
        replay.checked.wrong = f"line {at} is none of a journal"
    finally:
        replay.close()
    return replay.checked
