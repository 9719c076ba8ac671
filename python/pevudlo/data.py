"""Input data and looks at keys, by lines of text or by arrays of the library."""

from __future__ import annotations

from collections.abc import Sequence

from pevudlo.hints.explanation import Refusal, explained
from pevudlo.interrupts import undisturbed
from pevudlo.lang.profiles import WORD
from pevudlo.lang.replies import Ok, PendingReply, Refused, Values, parse
from pevudlo.talk import Talk, of_kind
from pevudlo.values.shaped import Pending, input_lines
from pevudlo.values.words import Words, wide_words_of, words_of
from pevudlo.wire.desk import OpenSeat
from pevudlo.wire.library import Library
from pevudlo.wire.library_calls import END_NUMBER, place_number


class LineData:
    """Numbers in and out by lines of a talk."""

    def __init__(self, talk: Talk) -> None:
        self.talk = talk

    def give(self, key: str, first: int, numbers: Sequence[int]) -> None:
        """Gives a key numbers from a processor on, in lines, first of all one that would be refused."""
        numbers = list(numbers)
        lines = input_lines(key, first, numbers)
        wrong = self._wrong_line(key, first, numbers, lines) if len(lines) > 1 else None
        if wrong is not None:
            self.talk.ask(wrong, Ok)
        for line in lines:
            self.talk.ask(line, Ok)

    def _wrong_line(self, key: str, first: int, numbers: Sequence[int], lines: Sequence[str]) -> str | None:
        """Of lines that give a declared key numbers one that is refused, or None where all of them are right."""
        board = self.talk.board
        name, width = board.set_of(key), board.width_of(key)
        if name is None or width is None:
            return None
        if first + len(numbers) > board.processors(name):
            return lines[-1]
        at = next((at for at, number in enumerate(numbers) if number >> width), None)
        return None if at is None else input_lines(key, first + at, numbers[at : at + 1])[0]

    def look(self, key: str, place: str) -> Sequence[int] | Pending:
        """The numbers of a key at a place, or the row that has to be settled first."""
        reply = self.talk.command(f"show {key} {place}")
        if isinstance(reply, PendingReply):
            return Pending(reply.row)
        return of_kind(reply, Values).numbers


class ArrayData(LineData):
    """Numbers in and out by arrays. What the library refuses changes nothing, and is asked in lines for its words."""

    def __init__(self, talk: Talk, library: Library) -> None:
        super().__init__(talk)
        self.library = library

    def give(self, key: str, first: int, numbers: Sequence[int]) -> None:
        """Gives a key numbers from a processor on, as one edit."""
        width = self.talk.board.width_of(key)
        if width is None or first > END_NUMBER or not self._is_given(key, first, numbers, width > WORD):
            super().give(key, first, numbers)

    def _is_given(self, key: str, first: int, numbers: Sequence[int], is_wide: bool) -> bool:
        """Gives a key numbers of one word or of two. Whether the library has taken them."""
        words = words_for(numbers, is_wide)
        if words is None:
            return False
        return self.library.set_wide(key, first, words) if is_wide else self.library.set(key, first, words)

    def look(self, key: str, place: str) -> Sequence[int] | Pending:
        """The numbers of a key at a place, or the row that has to be settled first."""
        board, number = self.talk.board, place_number(place)
        name, width = board.set_of(key), board.width_of(key)
        if name is None or width is None or number is None:
            return super().look(key, place)
        told = self.library.look(key, number, board.processors(name), width > WORD)
        if told is None:
            return super().look(key, place)
        return Pending(told) if isinstance(told, int) else told


class SeatData(LineData):
    """Numbers in by arrays of a seat, and out by lines: each call is one entry of the desk's history."""

    def __init__(self, talk: Talk, seat: OpenSeat) -> None:
        super().__init__(talk)
        self.seat = seat

    def give(self, key: str, first: int, numbers: Sequence[int]) -> None:
        """Gives a key numbers from a processor on, as one entry, also where it is refused.

        What no array says is said in lines: numbers of no key, none, and some that are wider than any number.
        """
        width = self.talk.board.width_of(key)
        is_wide = width is not None and width > WORD
        words = words_for(numbers, is_wide) if width is not None and len(numbers) and first <= END_NUMBER else None
        if words is None:
            super().give(key, first, numbers)
            return
        with undisturbed():
            reply = parse(self.seat.give(key, first, words, is_wide))
        if isinstance(reply, Refused):
            line = self._refused_line(key, first, list(numbers))
            raise Refusal(explained(line, reply, self.talk.board, self.talk.where))

    def _refused_line(self, key: str, first: int, numbers: Sequence[int]) -> str:
        """The line that stands for numbers that are refused, of many numbers a part."""
        lines = input_lines(key, first, numbers)
        return (self._wrong_line(key, first, numbers, lines) if len(lines) > 1 else None) or lines[0]


def words_for(numbers: Sequence[int], is_wide: bool) -> Words | None:
    """Numbers as one word each, or as two. None where one of them has more bits."""
    return wide_words_of(numbers) if is_wide else words_of(numbers)


def data_of(talk: Talk) -> LineData:
    """Numbers in and out of what a talk is with: by arrays where that is the library."""
    return ArrayData(talk, talk.peer) if isinstance(talk.peer, Library) else LineData(talk)
