"""Which lines are refused where they stand, by a second book with the same declarations and no rows."""

from __future__ import annotations

from collections.abc import Set

from pevudlo.document.pieces import BARE, Kind, Piece
from pevudlo.lang.board import Board
from pevudlo.wire.peers import Peer

NO_ROW = "refused 10"
ROWS_FULL = "refused 11"
"""The faults that a line may have by the rows that there are. All others it has by what is declared above it."""

JUDGED = (Kind.ROW, Kind.REPLACE, Kind.INPUT, Kind.SHOW, Kind.WRONG)
"""The kinds of lines that have a verdict by their text. Declarations are judged by a fresh run alone."""

MOST_KEPT = 100_000
"""How many refusals are kept: a day of typing has many."""

NOTHING: frozenset[str] = frozenset()


class NewBook(Exception):
    """A new book is wanted, for the reason that it says."""


def refusal_in(reply: str) -> str:
    """A refusal, or nothing where the first line of a reply is none."""
    return reply if reply.startswith("refused") else ""


def asked_of(piece: Piece) -> str:
    """The part of a line by which it is refused or not: of a row its instruction, wherever it is put."""
    if piece.kind is Kind.SHOW:
        return f"show {piece.key} end"
    return piece.text or piece.line


class Verdicts:
    """Refusals, kept by what was asked and by which of its names were declared only further down.

    `peer` is the second book, and `board` has what both books declare.
    """

    def __init__(self, peer: Peer, board: Board) -> None:
        self.peer, self._board = peer, board
        self._kept: dict[tuple[str, frozenset[str]], str] = {}

    def of(self, piece: Piece, above: Set[str]) -> str:
        """The refusal of a line below these names, or nothing. Raises NewBook where only a fresh run can say it."""
        if piece.kind not in JUDGED:
            return ""
        early = self._early(piece, above)
        if piece.kind is Kind.SHOW and not early and self._board.set_of(piece.key) is not None:
            return ""
        asked = asked_of(piece)
        known = self._kept.get((asked, early))
        if known is None:
            if early:
                raise NewBook(f"`{min(early)}` is declared below a line that names it")
            known = self._kept[asked, early] = self._ask(piece, asked)
            if len(self._kept) > MOST_KEPT:
                # Those of names further down only a fresh run can give.
                self._kept = {key: refused for key, refused in self._kept.items() if key[1]}
        return known

    def note(self, piece: Piece, above: Set[str], reply: str) -> None:
        """Keeps what a fresh run replied to a line below these names."""
        refused = refusal_in(reply)
        if piece.kind in JUDGED and refused not in (NO_ROW, ROWS_FULL):
            self._kept[asked_of(piece), self._early(piece, above)] = refused

    def forget_names(self) -> None:
        """Drops the refusals that a new declaration may lift: all but those of lines that aren't in the grammar."""
        self._kept = {
            key: refused for key, refused in self._kept.items() if not refused or refused.startswith("refused 20")
        }

    def _early(self, piece: Piece, above: Set[str]) -> frozenset[str]:
        """The names in a line that are declared, but not above it."""
        if piece.names <= above:
            return NOTHING
        known = self._board
        return frozenset(name for name in piece.names - above if name in known.fields or name in known.sets)

    def _ask(self, piece: Piece, asked: str) -> str:
        """Asks the second book. A row is put in and taken out again."""
        if not piece.text:
            return refusal_in(self.peer.ask(asked)[0])
        reply = self.peer.ask(f"{BARE}{asked}")[0]
        if reply.startswith("row "):
            self.peer.ask(f"delete {reply[4:]}")
        return refusal_in(reply)
