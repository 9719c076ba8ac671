"""Expressions that a traced function makes. Equal ones are one, and have one number from a trace to the next."""

from __future__ import annotations

from collections.abc import Mapping
from math import prod
from typing import NamedTuple, Optional

from pevudlo.follow.refusals import present_line

WIDTHS = (1, 8, 16, 32, 64, 128)
"""The widths of fields: few, since a field that is declared stays."""

WIDEST = WIDTHS[-1]
WORD = 64

Detail = tuple[object, ...]
Key = tuple[object, ...]


class Kind(NamedTuple):
    """What numbers are: their bits, whether they are signed, and whether they are booleans."""

    bits: int
    signed: bool = False
    boolean: bool = False

    @property
    def limits(self) -> tuple[int, int]:
        """The least and the greatest number."""
        return (-(1 << self.bits - 1), (1 << self.bits - 1) - 1) if self.signed else (0, (1 << self.bits) - 1)

    def __str__(self) -> str:
        if self.boolean:
            return "booleans"
        return f"{'signed' if self.signed else 'unsigned'} numbers of {self.bits} bit{'s' * (self.bits > 1)}"


BOOLEAN = Kind(1, False, True)


ROOMS = tuple(next(width for width in WIDTHS if bits <= width) for bits in range(WIDEST + 1))


def room(bits: int) -> int:
    """The width of the field for numbers of so many bits."""
    return ROOMS[bits]


class Node:
    """An expression: an operation with its details and operands. `inputs` are the bits of the arguments it stands on.

    A quiet one is of an operation's inside: that its numbers have no room isn't told.
    """

    __slots__ = ("number", "operation", "detail", "operands", "kind", "quiet", "line", "inputs")

    def __init__(
        self, number: int, operation: str, detail: Detail, operands: tuple[Node, ...], kind: Kind, quiet: bool
    ) -> None:
        self.number, self.operation, self.detail, self.operands = number, operation, detail, operands
        self.kind, self.quiet, self.line = kind, quiet, present_line()
        self.inputs: int = 0
        for operand in operands:
            self.inputs |= operand.inputs

    def __repr__(self) -> str:
        return f"<{self.operation} of {self.line}>"


class Trace:
    """The expressions of one call of a function. `numbers` are those of the trace before, by what they are made of."""

    def __init__(self, shape: tuple[int, ...], numbers: Optional[Mapping[Key, int]] = None, first: int = 0) -> None:
        self.shape, self.size = shape, prod(shape)
        # All axes of the set, as arrays have them. One of length 1 is none.
        self.axes = tuple([axis if length > 1 else None for axis, length in enumerate(shape)])
        self.nodes: dict[Key, Node] = {}
        self.numbers: dict[Key, int] = {}
        self._before = {} if numbers is None else numbers
        self.next = first

    def node(self, operation: str, detail: Detail, operands: tuple[Node, ...], kind: Kind, quiet: bool = False) -> Node:
        """The expression of this operation, which may be there already."""
        key = (operation, detail, tuple([operand.number for operand in operands]), kind, quiet)
        found = self.nodes.get(key)
        if found is not None:
            return found
        number = self._before.get(key)
        if number is None:
            number, self.next = self.next, self.next + 1
        self.numbers[key] = number
        made = self.nodes[key] = Node(number, operation, detail, operands, kind, quiet)
        return made

    def constant(self, number: int, kind: Kind) -> Node:
        """A constant, by its bits."""
        return self.node("constant", (number & (1 << kind.bits) - 1,), (), kind)

    def argument(self, name: str, kind: Kind, axes: tuple[Optional[int], ...], place: int) -> Node:
        """An argument of the function, the numbers of which are input data."""
        made = self.node("argument", (name, axes), (), kind)
        made.inputs = 1 << place
        return made
