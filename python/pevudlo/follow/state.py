"""What a followed function has in its session: the layout, the rows, the numbers that were given, and results."""

from __future__ import annotations

from collections.abc import Callable, Iterator, Mapping
from dataclasses import dataclass, field, replace
from typing import Any, NamedTuple

import numpy

from pevudlo.follow import lines as _lines  # noqa: F401 (fills the tables of numpy's functions)
from pevudlo.follow.arrays import Array
from pevudlo.follow.calls import Argument, Call, axes_of
from pevudlo.follow.edits import Row, row_edits
from pevudlo.follow.expressions import Key, Node, Trace, room
from pevudlo.follow.layout import Layout, laid_out
from pevudlo.follow.numbers import Numbers, difference, whole, words
from pevudlo.follow.outside import Outside, are_same, kept, outside
from pevudlo.follow.refusals import NotTraced
from pevudlo.follow.session import Session

Name = str | int


@dataclass(frozen=True)
class Made:
    """What a trace was made of. Where all of it is the same again, nothing is traced."""

    function: Callable[..., Any]
    shape: tuple[int, ...]
    arguments: Mapping[str, Argument]
    constants: Mapping[str, Any]
    outside: Outside

    def is_same(self, other: Made) -> bool:
        """Whether the other one gives the same rows."""
        return (
            self.function is other.function
            and self.shape == other.shape
            and self.arguments == other.arguments
            and are_same(self.constants, other.constants)
            and are_same(self.outside, other.outside)
        )

    def kept(self) -> Made:
        """The same, as it is now: what holds others is copied, so that a later change of it is seen."""
        constants = {name: kept(value) for name, value in self.constants.items()}
        return replace(self, constants=constants, outside={name: kept(value) for name, value in self.outside.items()})


@dataclass(frozen=True)
class State:
    """A trace as rows of a session. It isn't changed: the next call makes another."""

    made: Made
    session: Session
    layout: Layout
    rows: list[Row]
    next_row: int
    call: Call
    results: Mapping[str, Array]
    numbers: Mapping[Key, int]
    next_number: int
    given: Mapping[str, Numbers] = field(default_factory=dict)

    def place(self, node: Node) -> tuple[str, list[Row]]:
        """The field of an expression, and the rows up to its value."""
        name, count = self.layout.places[node.number]
        return name, self.rows[:count]

    def pairs(self) -> Iterator[tuple[Row, Node]]:
        """The rows with their expressions."""
        return zip(self.rows, self.layout.nodes)


def results_of(returned: Any) -> dict[str, Array]:
    """The arrays that a function returns, by name: one is `result`, and several are `0`, `1` and so on."""
    if isinstance(returned, Array):
        named: dict[str, Any] = {"result": returned}
    elif isinstance(returned, Mapping):
        named = {str(name): value for name, value in returned.items()}
    elif isinstance(returned, (tuple, list)):
        names = getattr(returned, "_fields", range(len(returned)))
        named = {str(name): value for name, value in zip(names, returned)}
    else:
        named = {"result": returned}
    for name, value in named.items():
        if not isinstance(value, Array):
            raise NotTraced(
                f"a followed function returns arrays, one or several by name, and {name} is {type(value).__name__}"
            )
    if not named:
        raise NotTraced("a followed function returns arrays, one or several by name, and this one returns none")
    return named


def made_of(function: Callable[..., Any], call: Call, shape: tuple[int, ...] | None) -> Made:
    """What a call's trace would be made of."""
    return Made(function, call.shape(shape), call.known, call.constants, outside(function))


class Edits(NamedTuple):
    """Lines that lead from a state to another: those that declare fields, and those of rows.

    Input data goes in between them: where no row stands yet, no row is touched by it.
    """

    fields: list[str]
    rows: list[str]


NO_EDITS = Edits([], [])


def traced(made: Made, call: Call, before: State | None) -> tuple[State, Edits]:
    """The state behind a trace, and the edits that lead there. Nothing is told yet: what is refused changes nothing."""
    is_same_set = before is not None and before.made.shape == made.shape
    trace = Trace(made.shape, before.numbers if before else None, before.next_number if before else 0)
    given = dict[str, Array]()
    for place, (name, argument) in enumerate(made.arguments.items()):
        axes = axes_of(argument.shape, made.shape)
        given[name] = Array(trace, trace.argument(name, argument.kind, axes, place), axes)
    made = made.kept()
    results = results_of(call.traced(made.function, given))
    layout, goes_on = laid_out(
        before.layout if before and is_same_set else Layout(), [a.node for a in results.values()]
    )
    if before is None or not is_same_set or not goes_on:
        session, declared, rows, next_row, told = Session(made.shape), {}, [], 1, {}
    else:
        session, declared, rows, next_row = before.session, before.layout.widths, before.rows, before.next_row
        told = dict(before.given)
    fields = [f"field {name} S {width}" for name, width in layout.widths.items() if name not in declared]
    row_lines, rows, next_row = row_edits(rows, layout.texts, next_row)
    state = State(made, session, layout, rows, next_row, call, results, trace.numbers, trace.next, told)
    return state, Edits(fields, row_lines)


@dataclass(frozen=True)
class Data:
    """Numbers for a field, from a processor on, and the whole array that they are of."""

    field: str
    first: int
    words: Numbers
    array: Numbers


def changed_data(state: State, call: Call, is_kept: Callable[[str], bool]) -> list[Data]:
    """The parts of the arrays of a call that are other numbers than the session has, of those that rows read.

    Those that are kept are the same as before, and are compared with nothing.
    """
    found = list[Data]()
    for name, array in call.arrays.items():
        kind = state.made.arguments[name].kind
        at = state.layout.arguments.get((name, room(kind.bits)))
        if at is None or (at in state.given and is_kept(name)):
            continue
        part = difference(state.given.get(at), array)
        if part is None:
            continue
        if array.shape == state.made.shape:
            numbers = words(numpy.ascontiguousarray(array).reshape(-1)[part.start : part.stop], kind)
            found.append(Data(at, part.start, numbers, array.copy()))
        else:
            found.append(Data(at, 0, words(whole(array, state.made.shape), kind), array.copy()))
    return found
