"""Pieces of a program by name. In their order they are one text, which is held in step with a running book."""

from __future__ import annotations

from collections.abc import Callable

from pevudlo.document.answers import mark_of, values_at
from pevudlo.document.document import Document, library_or_program
from pevudlo.document.pieces import BARE
from pevudlo.document.states import State
from pevudlo.document.update import Update
from pevudlo.files import lines_of_text
from pevudlo.notebook.drawn import Drawn, Line
from pevudlo.wire.peers import Peer

Known = tuple[object, ...]
"""What is known of a line, by which it is seen whether it gives something else."""


class NoPiece(ValueError):
    """No piece has this name."""


class Pieces:
    """The pieces by their names, in their order. `done` is what the last update did."""

    def __init__(self, begin: Callable[[], Peer] = library_or_program) -> None:
        self.document = Document(begin)
        self.done = Update()
        self._pieces: dict[str, list[str]] = {}
        self._known: dict[str, list[Known]] = {}

    @property
    def names(self) -> list[str]:
        """The names in their order."""
        return list(self._pieces)

    def put(self, name: str, text: str, other: str | None = None, is_after: bool = True) -> dict[str, Drawn]:
        """Puts a piece in the place of the one of its name, or behind all, or beside another one where that is said.

        Gives what is to be drawn, by name: the piece itself, and those that give something else than they gave.
        Raises NoPiece, and what an update raises.
        """
        pieces = {**self._pieces, name: lines_of_text(text)}
        if other is not None:
            if other not in self._pieces or other == name:
                raise NoPiece(other)
            names = [each for each in pieces if each != name]
            names.insert(names.index(other) + is_after, name)
            pieces = {each: pieces[each] for each in names}
        return self._renew(pieces, name)

    def drop(self, name: str) -> dict[str, Drawn]:
        """Takes a piece out. Gives what is to be drawn. Raises NoPiece, and what an update raises."""
        if name not in self._pieces:
            raise NoPiece(name)
        return self._renew({each: lines for each, lines in self._pieces.items() if each != name}, "")

    def script(self) -> str:
        """The pieces as one script, which the program takes."""
        lines = [line for piece in self._pieces.values() for line in piece]
        told = [shown.piece.line for shown in self.document.shown]
        return "".join(f"{each if each.startswith(BARE) else line}\n" for line, each in zip(lines, told))

    def close(self) -> None:
        """Ends the books."""
        self.document.close()

    def _renew(self, pieces: dict[str, list[str]], asked: str) -> dict[str, Drawn]:
        """Brings the program in step with these pieces, and draws what is other than it was."""
        self.done = self.document.update_lines([line for piece in pieces.values() for line in piece])
        before, self._pieces, self._known = self._known, pieces, {}
        drawn: dict[str, Drawn] = {}
        at = 0
        for name, lines in pieces.items():
            told = [self._line(number, name) for number in range(at, at + len(lines))]
            at += len(lines)
            self._known[name] = [known_of(line) for line in told]
            is_other = self._known[name] != before.get(name) or any(line.mark.state is State.NEW for line in told)
            if name == asked or is_other:
                drawn[name] = Drawn(name, name == asked, told, self.document, self.done)
        return drawn

    def _line(self, number: int, name: str) -> Line:
        """A line of the piece of a name, to be drawn."""
        document = self.document
        mark = mark_of(document, number, self.done, named=lambda other: self._name_of(other, name))
        key = document.shown[number].key
        return Line(document.lines[number], mark, key, values_at(document, number).get(key) if key else None)

    def _name_of(self, number: int, here: str) -> str:
        """A line of all of them, as it is named in the piece of a name: by its place in its own piece."""
        for name, lines in self._pieces.items():
            if number < len(lines):
                return f"line {number + 1}" + (f" of {name}" if name != here else "")
            number -= len(lines)
        raise IndexError(number)


def known_of(line: Line) -> Known:
    """What a line is and gives, but for the rows that ran."""
    has_values = line.mark.state in (State.NEW, State.SAME, State.KEPT, State.LOOK)
    return line.text, "" if has_values else line.mark.text, line.numbers
