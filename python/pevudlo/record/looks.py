"""Looks at a running program that change nothing. Each number comes from a reply of the program to `show`."""

from __future__ import annotations

from array import array
from collections.abc import Sequence
from dataclasses import dataclass

from pevudlo.draw.arrays import array_of, numbers_in
from pevudlo.draw.shapes import processors_of
from pevudlo.lang.board import Board
from pevudlo.lang.keys import axes_of, width_of
from pevudlo.lang.profiles import WORD
from pevudlo.lang.replies import NoReply, PendingReply, Reply, Row, Values, parse, parse_row
from pevudlo.record.numbers import Numbers, code_of, unpacked
from pevudlo.wire.library import Library
from pevudlo.wire.library_calls import place_number
from pevudlo.wire.peers import Peer


@dataclass(frozen=True)
class Look:
    """A key at a place, which is written as in a script: `start`, `after 3`, `end`.

    `numbers` are by processor. Where the key is pending there are none, and `pending` is the row that has to run.
    """

    key: str
    place: str
    numbers: Numbers | None
    pending: int | None


def packed(numbers: Sequence[int], width: int) -> Numbers:
    """Numbers below `2^width` in little room: those of a key are always packed in the same way, and can be compared."""
    if width > WORD:
        return tuple(numbers)
    words = array_of(numbers)
    if words is not None:
        return unpacked(words.astype(code_of(width)).tobytes(), width)
    return bytes(iter(numbers)) if width <= 8 else array(code_of(width), numbers)


class Looker:
    """Asks a peer for looks. What it asks changes nothing in the program."""

    def __init__(self, peer: Peer, board: Board) -> None:
        self.peer = peer
        self.board = board
        self._read: dict[str, Row] = {}
        self._listed: tuple[Row, ...] | None = None

    def reply(self, line: str) -> Reply:
        """The reply to a line that has one."""
        return parse(self.peer.ask(line))

    def look(self, key: str, place: str) -> Look:
        """A key at a place that both exist."""
        if isinstance(self.peer, Library):
            told = self._told(self.peer, key, place)
            if told is not None:
                return told
        (line,) = self.peer.ask(f"show {key} {place}")
        width = width_of(self.board, key)
        is_read = line.startswith("values ") and width <= WORD
        numbers = numbers_in(line.removeprefix("values ")) if is_read else None
        if numbers is None:
            return self.looked(key, place, parse([line]))
        return Look(key, place, packed(numbers.data, width), None)

    def looked(self, key: str, place: str, reply: Reply) -> Look:
        """The look that a reply to `show` is."""
        if isinstance(reply, PendingReply):
            return Look(key, place, None, reply.row)
        assert isinstance(reply, Values), reply
        return Look(key, place, packed(reply.numbers, width_of(self.board, key)), None)

    def rows(self) -> tuple[Row, ...]:
        """The rows in program order. They are asked for once, until `changed` is called."""
        if self._listed is None:
            self._listed = self._list()
        return self._listed

    def changed(self) -> None:
        """Notes that the rows may be others now."""
        self._listed = None

    def _list(self) -> tuple[Row, ...]:
        """Asks for the rows. Lines that stood in the list before are known."""
        first, *lines = self.peer.ask("list")
        if first != f"rows {len(lines)}":
            raise NoReply(f"no list: {first[:80]!r}")
        known = self._read
        rows = tuple(known.get(line) or parse_row(line) for line in lines)
        self._read = dict(zip(lines, rows))
        return rows

    def _told(self, library: Library, key: str, place: str) -> Look | None:
        """The look that the library gives without text, or none where a line has to be asked."""
        number, width = place_number(place), width_of(self.board, key)
        count = processors_of(axes_of(self.board, key))
        told = None if number is None else library.look(key, number, count, width > WORD)
        if told is None or isinstance(told, int):
            return None if told is None else Look(key, place, None, told)
        return Look(key, place, packed(told, width), None)
