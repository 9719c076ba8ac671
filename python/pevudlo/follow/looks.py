"""What is told of a followed function beside its values: why they are what they are, its script, and its messages."""

from __future__ import annotations

import linecache
from collections.abc import Iterable
from dataclasses import dataclass

from pevudlo.follow.expressions import Node
from pevudlo.follow.layout import in_order
from pevudlo.follow.numbers import Numbers, whole, words
from pevudlo.follow.refusals import Line
from pevudlo.follow.session import PROFILE, set_line
from pevudlo.follow.state import State
from pevudlo.lang.instructions import Operand, read
from pevudlo.lang.profiles import WORD
from pevudlo.values.shaped import input_lines

TOLD = {"cast": "astype", "spread": "sum", "scan": "scan"}
"""What operations are called in Python."""


def told_operation(node: Node) -> str:
    """What an operation is called in Python."""
    return TOLD.get(node.operation, node.operation)


def settled(state: State, key: str, row: int) -> Numbers:
    """The numbers of a field behind a row that is settled."""
    numbers = state.session.numbers(key, row, state.layout.widths[key])
    assert numbers is not None
    return numbers


def source_of(line: Line) -> str:
    """The text of a line of Python, or nothing where it isn't to be had."""
    return linecache.getline(line.file, line.number).strip()


def refused_words(state: State, row: int, text: str, node: Node, cause: str, processor: int) -> str:
    """Why a row stores nothing: its line of Python, the cause, and the processor."""
    if cause == "collision":
        reason = f"two numbers go to place {processor}: scatter(.., how='add') combines them"
    else:
        _, named = read(text)
        at = named[Operand.B]
        address = settled(state, at, row)[processor]
        reason = f"processor {processor} holds the place {address}, and there are {state.session.size:,} from 0 on"
    return f"{told_operation(node)} in {node.line} is refused: {reason}"


# Why.


@dataclass(frozen=True)
class Reason:
    """A line of Python that a value stands on: its text, the ids of its rows, and of those that ran."""

    line: Line
    source: str
    rows: tuple[int, ...]
    ran: tuple[int, ...]

    def __str__(self) -> str:
        count = "1 row" if len(self.rows) == 1 else f"{len(self.rows)} rows"
        return f"{self.line}: {count}, {len(self.ran)} ran" + (f"    {self.source}" if self.source else "")


class Why(tuple[Reason, ...]):
    """The lines that a value stands on, in the order of their rows."""

    def __repr__(self) -> str:
        return "\n".join(map(str, self))

    __str__ = __repr__


def why(state: State, node: Node, ran: set[int]) -> Why:
    """The lines that an expression stands on."""
    below = {each.number for each in in_order([node])}
    by_line = dict[Line, list[int]]()
    for (row, _), each in state.pairs():
        if each.number in below:
            by_line.setdefault(each.line, []).append(row)
    reasons = (
        Reason(line, source_of(line), tuple(rows), tuple(row for row in rows if row in ran))
        for line, rows in by_line.items()
    )
    return Why(reasons)


# The script.


def declared(state: State) -> Iterable[str]:
    """The lines that declare all, with the input data."""
    if any(width > WORD for width in state.layout.widths.values()):
        yield f"paris {PROFILE}"
    yield set_line(state.made.shape)
    for name, width in state.layout.widths.items():
        yield f"field {name} S {width}"
    for (name, _), at in state.layout.arguments.items():
        array = state.given.get(at)
        if array is None or name not in state.made.arguments:
            continue
        kind = state.made.arguments[name].kind
        yield f"# the argument {name}, {kind}"
        yield from input_lines(at, 0, words(whole(array, state.made.shape), kind).tolist())


def script(state: State) -> str:
    """The script of a state."""
    lines = list(declared(state))
    last: Line | None = None
    for (_, text), node in state.pairs():
        if node.line != last:
            lines.append(f"# {node.line}: {source_of(node.line)}".rstrip(": "))
            last = node.line
        lines.append(f"insert end {text}")
    lines.append("settle")
    for name, array in state.results.items():
        at, count = state.layout.places[array.node.number]
        lines += [f"# {name}, {array.kind}", f"show {at} {f'after {count}' if count else 'start'}"]
    return "\n".join(lines) + "\n"
