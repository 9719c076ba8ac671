"""What a run has declared, as its accepted commands say: sets, fields, rows and orders."""

from __future__ import annotations

from dataclasses import dataclass, field
from math import prod

from pevudlo.lang.instructions import FIELDS, FLAGS, Operand, read
from pevudlo.lang.order import RowOrder
from pevudlo.lang.profiles import PROFILES, USUAL


@dataclass(frozen=True)
class Declared:
    """A field: its set's name and its width in bits."""

    set: str
    width: int


@dataclass(frozen=True)
class Replaced:
    """What an edit of a row takes away: the row's text, and the row before it."""

    text: str = ""
    before: int | None = None


@dataclass
class Board:
    """The sets with the lengths of their axes, the fields, the rows' ids in program order, their texts, how many orders
    were taken, and the row of each. Rows that were put in by who doesn't tell the board aren't known to it.

    `profile` is that of the run, and `is_begun` says that it has had its first command, which alone may choose it.
    """

    sets: dict[str, tuple[int, ...]] = field(default_factory=dict)
    fields: dict[str, Declared] = field(default_factory=dict)
    order: RowOrder = field(default_factory=RowOrder)
    texts: dict[int, str] = field(default_factory=dict)
    orders: int = 0
    ordered: dict[int, int] = field(default_factory=dict)
    profile: int = USUAL
    is_begun: bool = False
    _written: dict[str, tuple[str, ...]] = field(default_factory=dict)

    def note(self, line: str, reply: str) -> None:
        """Takes in a command and the first line of its reply. A command that was refused declares nothing."""
        command = line.split(" ", 1)[0]
        self.is_begun = True
        if reply.startswith("refused"):
            return
        if command == "paris":
            self.profile = int(line.split(" ")[1])
        elif command == "set":
            _, name, axes = line.split(" ")
            self.sets[name] = tuple(map(int, axes.split("x")))
        elif command == "field":
            _, name, of, width = line.split(" ")
            self.fields[name] = Declared(of, int(width))
        elif command == "insert":
            self._insert(line, int(reply.split(" ")[1]))
        elif command == "replace":
            _, row, text = line.split(" ", 2)
            self.texts[int(row)] = text
        elif command == "delete":
            gone = int(line.split(" ")[1])
            self.order.take_out(gone)
            self.texts.pop(gone, None)
        elif command == "take" and reply != "nothing":
            _, order, _, row, _, _ = reply.split(" ")
            self.orders = int(order)
            self.ordered[self.orders] = int(row)

    def replaced_by(self, line: str) -> Replaced:
        """What an edit is about to take away."""
        command, _, rest = line.partition(" ")
        word = rest.split(" ", 1)[0]
        if command not in ("delete", "replace") or not (word.isascii() and word.isdigit() and len(word) < 20):
            return Replaced()
        row = int(word)
        return Replaced(self.texts.get(row, ""), self.order.before(row))

    def take_back(self, line: str, reply: str, replaced: Replaced) -> None:
        """Takes an accepted edit out again: the last that was noted, and wasn't taken out."""
        command, _, rest = line.partition(" ")
        word = rest.split(" ", 1)[0]
        if command == "set":
            del self.sets[word]
        elif command == "field":
            del self.fields[word]
        elif command == "insert":
            row = int(reply.split(" ")[1])
            self.order.take_out(row)
            self.texts.pop(row, None)
        elif command == "replace":
            self.texts[int(word)] = replaced.text
        elif command == "delete":
            self._put_back(int(word), replaced)
        if command in ("set", "field"):
            # An instruction of a name that is declared anew may write other keys.
            self._written.clear()

    def _put_back(self, row: int, replaced: Replaced) -> None:
        """Puts a row that was deleted into its place."""
        if replaced.before is None:
            self.order.put_first(row)
        else:
            self.order.put_after(replaced.before, row)
        self.texts[row] = replaced.text

    def copy(self) -> Board:
        """The same board, apart from this one."""
        return Board(
            dict(self.sets),
            dict(self.fields),
            self.order.copy(),
            dict(self.texts),
            self.orders,
            dict(self.ordered),
            self.profile,
            self.is_begun,
        )

    def _insert(self, line: str, row: int) -> None:
        """Puts a new row in its place."""
        _, place, rest = line.split(" ", 2)
        if place == "after":
            other, rest = rest.split(" ", 1)
            self.order.put_after(int(other), row)
        elif place == "start":
            self.order.put_first(row)
        else:
            self.order.put_last(row)
        self.texts[row] = rest

    @property
    def widest(self) -> int:
        """The greatest width that a field may have, in bits."""
        return PROFILES[self.profile]

    @property
    def rows(self) -> list[int]:
        """The ids of the rows in program order."""
        return list(self.order)

    def keys(self) -> list[str]:
        """All keys: the fields, then the flags of each set."""
        return [*self.fields, *(f"{name}.{flag}" for name in self.sets for flag in FLAGS)]

    def set_of(self, key: str) -> str | None:
        """The name of the set that a key belongs to, or None where it is no key."""
        name, dot, flag = key.partition(".")
        if dot:
            return name if name in self.sets and flag in FLAGS else None
        return self.fields[name].set if name in self.fields else None

    def axes_of(self, key: str) -> tuple[int, ...] | None:
        """The lengths of the axes of a key's set, axis 0 first, or None where it is no key."""
        name = self.set_of(key)
        return None if name is None else self.sets[name]

    def width_of(self, key: str) -> int | None:
        """The width of a key in bits, or None where it is no key. A flag has one bit."""
        if self.set_of(key) is None:
            return None
        return 1 if "." in key else self.fields[key].width

    def processors(self, name: str) -> int:
        """How many processors a declared set has."""
        return prod(self.sets[name])

    def keys_written(self, text: str) -> tuple[str, ...]:
        """The keys that an accepted instruction writes: fields, then flags. Raises ValueError for another text."""
        if text not in self._written:
            self._written[text] = self._read_keys(text)
        return self._written[text]

    def _read_keys(self, text: str) -> tuple[str, ...]:
        """The keys that an instruction writes, by its words."""
        instruction, named = read(text)
        fields = instruction.fields_written(text.split(" "))
        known = (operand for operand in (Operand.SET, *FIELDS) if operand in named)
        name = named[next(known)]
        of = name if name in self.sets else self.fields[name].set
        return fields + tuple(f"{of}.{flag}" for flag in instruction.flags)
