"""The calls that declare, edit and show, of whatever answers commands: of a machine, or of a seat of a desk."""

from __future__ import annotations

from collections.abc import Iterable, Sequence
from threading import get_ident

from pevudlo.data import LineData
from pevudlo.draw.grids import Grid
from pevudlo.lang.board import Board
from pevudlo.lang.places import END, Place, spelled
from pevudlo.lang.replies import NoReply, Ok, RowAdded
from pevudlo.talk import Talk
from pevudlo.values.indices import Index, check_key, first_of, places_of, split
from pevudlo.values.shaped import Pending, Shown, check_shape, flat, is_number, shaped, whole


class Editing:
    """Commands as calls. Each raises Refusal where the command is refused."""

    _talk: Talk
    _data: LineData

    def set(self, name: str, *axes: int) -> None:
        """Declares a set with axes of these lengths, axis 0 first: powers of two, 65,536 processors at most."""
        self._talk.ask(f"set {name} {'x'.join(map(str, axes))}", Ok)

    def field(self, name: str, of: str, width: int) -> None:
        """Declares a field of a set, of a width in bits from 1 to 64, or to 128 in profile 2."""
        self._talk.ask(f"field {name} {of} {width}", Ok)

    def insert(self, text: str, at: Place = END) -> int:
        """Puts a row with this instruction in a place, and gives its id."""
        return self._talk.ask(f"insert {spelled(at)} {text}", RowAdded).row

    def delete(self, row: int) -> None:
        """Takes the row of this id out."""
        self._talk.ask(f"delete {row}", Ok)

    def replace(self, row: int, text: str) -> None:
        """Gives the row of this id another instruction."""
        self._talk.ask(f"replace {row} {text}", Ok)

    def release(self) -> None:
        """Gives up all orders that are out: their rows wait again."""
        self._talk.ask("release", Ok)

    def show(self, key: str, at: Place = END) -> Shown | Pending:
        """The numbers of a key at a place, in the shape of its set, or the row that has to be settled first."""
        grid = self._grid(key, at)
        return grid if isinstance(grid, Pending) else shaped(grid)

    def raw(self, line: str) -> list[str]:
        """The lines of the reply to a line of a script, as they come; a refusal is a reply here. None for a comment."""
        return self._talk.tell_lines(line)

    def tell(self, lines: Iterable[str]) -> list[int | None]:
        """Tells lines that declare or edit, one by one. Gives the id of the row that each put in, and None of others.

        Ctrl-C comes behind all of them. Raises ValueError, with nothing told, where another line is among them, and
        Refusal at the first that is refused: those before it are told, and none behind.
        """
        return [reply.row if isinstance(reply, RowAdded) else None for reply in self._talk.tell_edits(lines)]

    def __setitem__(self, index: Index, values: object) -> None:
        """Gives a key its input data.

        `machine["a"] = values` gives a number for each processor, `machine["a", 3:] = values` gives them from a
        processor on, and `machine["a", 3] = value` gives one. One number in the place of values is given to every
        processor, or to each of the slice. Over the library they are one edit. Over a program many numbers go in
        several lines, each of them an edit. Where one of the lines would be refused, it is asked first, so that a
        refusal changes nothing.
        Raises WrongShape where whole values don't fit the set, IndexError for a processor below 0, TypeError for
        another index, and what `flat` raises.
        """
        key, part = split(index)
        is_each = is_number(values) and not isinstance(part, int)
        numbers, shape = flat([whole(values)] if is_each or isinstance(part, int) else values)
        try:
            self._talk.waiting.add(get_ident())
            with self._talk.lock:
                self._give(key, part, numbers, None if is_each else shape)
        finally:
            self._talk.waiting.discard(get_ident())

    def _give(self, key: str, part: int | slice | None, numbers: Sequence[int], shape: tuple[int, ...] | None) -> None:
        """Gives a key numbers, or a part of them, by what is declared. Without a shape it is one number for each."""
        name, axes = self._board.set_of(key), self._board.axes_of(key)
        processors = 0 if name is None else self._board.processors(name)
        first = 0
        if shape is None and not isinstance(part, int):
            places = places_of(key, part, processors)
            first, numbers = places.start, [*numbers] * len(places)
        elif part is not None:
            first = first_of(key, part, len(numbers), processors)
        elif axes is not None and shape is not None:
            check_shape(shape, key, axes)
        self._data.give(key, first, numbers)

    def _grid(self, key: str, at: Place) -> Grid | Pending:
        """The numbers of a key at a place, as a grid."""
        check_key(key)
        try:
            self._talk.waiting.add(get_ident())
            with self._talk.lock:
                numbers = self._data.look(key, spelled(at))
                axes, width = self._board.axes_of(key), self._board.width_of(key)
        finally:
            self._talk.waiting.discard(get_ident())
        if isinstance(numbers, Pending):
            return numbers
        if axes is None or width is None:
            raise NoReply(f"numbers of {key}, which isn't declared")
        return Grid(key, axes, width, numbers, place=at.text)

    @property
    def _board(self) -> Board:
        return self._talk.board
