"""A followed function: calls that become edits of a session, and looks at what they return."""

from __future__ import annotations

import warnings
import weakref
from collections import deque
from collections.abc import Callable, Iterable, Sequence
from dataclasses import replace
from threading import RLock
from typing import Any

import numpy

from pevudlo.follow.arrays import Array
from pevudlo.follow.calls import Call, check_shape
from pevudlo.follow.edits import Row
from pevudlo.follow.expressions import Node
from pevudlo.follow.layout import in_order
from pevudlo.follow.looks import Why, refused_words, script, told_operation, why
from pevudlo.follow.numbers import Numbers, laid, typed
from pevudlo.follow.refusals import Overflow, OverflowWarning, RowRefused
from pevudlo.follow.session import OVERFLOW, keys_written
from pevudlo.follow.shown import Refusals, Shown, Untold, Value, Watch, slider_of
from pevudlo.follow.state import NO_EDITS, Data, Edits, State, changed_data, made_of, traced
from pevudlo.follow.traffic import Traffics, traffic_of
from pevudlo.interrupts import undisturbed
from pevudlo.wire.library import Held
from pevudlo.wire.library_calls import START_NUMBER

MODES = (None, "warn", "raise")


class Followed:
    """A function of arrays that is held as rows of a program. A call brings them in step, and gives this object.

    `p = f(a, b)`, and then `p["name"]` is an array that the function returned under that name: just the rows run that
    it stands on and that the call has changed. `p.result` is that of a function that returns one array.
    """

    def __init__(
        self, function: Callable[..., Any], shape: tuple[int, ...] | None, overflow: str | None, steps: int
    ) -> None:
        self.followed_function = function
        self.__doc__ = function.__doc__ or self.__doc__
        self.traces = 0
        self._ran: tuple[int, ...] = ()
        self._shape, self._overflow = shape, overflow
        self._state: State | None = None
        self._steps = deque[tuple[State, Held | None]](maxlen=steps)
        self._counts = dict[int, int]()
        self._watched = dict[str, Watch]()
        self._lock = RLock()

    def __repr__(self) -> str:
        name = getattr(self.followed_function, "__name__", "function")
        state = self._state
        if state is None:
            return f"<followed {name}, not called yet>"
        return f"<followed {name}: {', '.join(state.results)}; {len(state.rows)} rows>"

    # Calls.

    def __call__(self, *args: Any, **named: Any) -> Any:
        """Brings the rows in step with a call, and gives this object. What is refused leaves all as it was.

        Where an argument is an array of another function that is traced, the call is a part of that one.
        """
        if any(isinstance(value, Array) for value in (*args, *named.values())):
            return self.followed_function(*args, **named)
        with self._lock:
            self._follow(Call(self.followed_function, args, named), lambda _: False)
        return self

    def again(self, **named: Any) -> Followed:
        """The last call again, with some others of its arguments, by name.

        Arrays that aren't named are taken as they were: one that was written into is named too.
        """
        with self._lock:
            call = self._present().call.again(self.followed_function, named)
            self._follow(call, lambda name: name not in named)
        return self

    def _follow(self, call: Call, is_kept: Callable[[str], bool]) -> None:
        """Brings the rows in step with a call, of which some arrays are as they were."""
        made, state = made_of(self.followed_function, call, self._shape), self._state
        edits = NO_EDITS
        if state is None or not state.made.is_same(made):
            self.traces += 1
            state, edits = traced(made, call, state)
        self._bring(replace(state, call=call), edits, changed_data(state, call, is_kept))
        self._renew()

    def _bring(self, state: State, edits: Edits, data: Sequence[Data]) -> None:
        """Makes a state the present one, with its edits and its input data told, as one step."""
        before, session = self._state, state.session
        if before is not None and not any(edits) and not data:
            self._state = state
            return
        is_same = before is not None and before.session is session
        # (one edit alone is its own way back: it is made, or nothing is)
        is_one = self._steps.maxlen == 0 and sum(map(len, (*edits, data))) == 1
        held = session.book.snapshot() if is_same and not is_one else None
        given = dict(state.given)
        try:
            with undisturbed():
                session.tell(edits.fields)
                for each in data:
                    session.give(each.field, each.first, each.words)
                    given[each.field] = each.array
                session.tell(edits.rows)
                self._state = replace(state, given=given)
        except BaseException:
            if held is not None:
                session.book.exchange(held)
            raise
        if before is not None:
            self._steps.append((before, held))
        if not is_same:
            self._counts.clear()

    def undo(self) -> Followed:
        """Takes the last call back that changed something, with the results that were there before it.

        Raises IndexError where there is none: the first call isn't taken back.
        """
        with self._lock:
            if not self._steps:
                raise IndexError("there is no call to take back")
            before, held = self._steps.pop()
            if held is not None:
                before.session.book.exchange(held)
            self._state, self._ran = before, ()
            self._counts.clear()
            self._renew()
        return self

    def close(self) -> None:
        """Ends the session. The next call begins another."""
        with self._lock:
            for state in [*(step for step, _ in self._steps), *([self._state] if self._state else [])]:
                state.session.close()
            self._steps.clear()
            self._counts.clear()
            self._watched.clear()
            self._state, self._ran = None, ()

    # Looks.

    @property
    def names(self) -> tuple[str, ...]:
        """The names of what the function returns."""
        return tuple(self._present().results)

    @property
    def rows(self) -> tuple[int, ...]:
        """The ids of the rows, in the order of the program."""
        return tuple(row for row, _ in self._present().rows)

    @property
    def result(self) -> Numbers:
        """What a function returns that returns one array."""
        return self["result"]

    @property
    def ran(self) -> tuple[int, ...]:
        """The ids of the rows that ran for the last look."""
        with self._lock:
            return self._ran

    def __getitem__(self, name: str | int) -> Numbers:
        """What the function returned under a name, as an array of numpy's. Unsettled rows that it stands on run.

        Raises KeyError, RowRefused where it stands on a row that is refused for its data, and where `overflow` is
        "raise" OverflowError.
        """
        with self._lock:
            state, array = self._named(name)
            at, rows = state.place(array.node)
            self._ran, raw = self._settled(at, rows, state.layout.widths[at])
            numbers = laid(typed(raw, array.node.kind), state.made.shape, array.axes)
            self._check_refused(state, array.node)
            if self._overflow is not None:
                self._tell_overflows(self._overflows(state, [array.node]))
            return numbers

    def _present(self) -> State:
        """The present state. Raises IndexError before the first call."""
        if self._state is None:
            raise IndexError("the function was not called yet: its rows are those of a call")
        return self._state

    def _named(self, name: str | int) -> tuple[State, Array]:
        """The present state, and what it returns under a name. Raises KeyError."""
        state = self._present()
        array = state.results.get(str(name))
        if array is None:
            raise KeyError(f"the function returns {', '.join(state.results)}, and no {name}")
        return state, array

    def _settled(self, key: str, rows: Sequence[Row], width: int) -> tuple[tuple[int, ...], Numbers]:
        """The ids of the rows that ran for the numbers of a key behind these rows, and the numbers."""
        session, row = self._present().session, rows[-1][0] if rows else START_NUMBER
        raw = session.numbers(key, row, width)
        if raw is not None:
            return (), raw
        ran = session.settle(key, row)
        for each in ran:
            self._counts.pop(each, None)
        raw = session.numbers(key, row, width)
        assert raw is not None
        return ran, raw

    def _check_refused(self, state: State, node: Node) -> None:
        """Raises RowRefused where a row that an expression stands on is refused for its data."""
        faults = {row: (cause, processor) for row, cause, processor in state.session.faults()}
        if not faults:
            return
        below = {each.number for each in in_order([node])}
        for (row, text), each in state.pairs():
            if row in faults and each.number in below:
                raise RowRefused(refused_words(state, row, text, each, *faults[row]))

    def overflows(self) -> list[Overflow]:
        """Where numbers had no room, by lines of Python: of all rows, which run where they are unsettled."""
        with self._lock:
            state = self._present()
            return self._overflows(state, [array.node for array in state.results.values()])

    def _overflows(self, state: State, roots: Iterable[Node]) -> list[Overflow]:
        """Where numbers had no room in what expressions stand on."""
        wanted, counts = {node.number for node in in_order(roots)}, dict[int, tuple[Node, int]]()
        for place, ((row, text), node) in enumerate(state.pairs(), 1):
            if node.quiet or node.number not in wanted or OVERFLOW not in keys_written(text):
                continue
            if row not in self._counts:
                _, raw = self._settled(OVERFLOW, state.rows[:place], 1)
                self._counts[row] = int(numpy.count_nonzero(raw))
            if self._counts[row]:
                counts[node.number] = node, max(self._counts[row], counts.get(node.number, (node, 0))[1])
        return [Overflow(node.line, told_operation(node), count) for node, count in counts.values()]

    def _tell_overflows(self, overflows: Sequence[Overflow]) -> None:
        """Warns, or raises OverflowError, where numbers had no room."""
        if overflows and self._overflow == "raise":
            raise OverflowError("; ".join(map(str, overflows)))
        if overflows:
            warnings.warn(OverflowWarning(overflows), stacklevel=3)

    def why(self, name: str | int) -> Why:
        """The lines of Python that a value stands on, each with its rows, and which of them ran at the last look."""
        with self._lock:
            state, array = self._named(name)
            return why(state, array.node, set(self.ran))

    def text(self) -> str:
        """The present program as a script for `./paris`, with the lines of Python as comments, and looks at its end."""
        with self._lock:
            return script(self._present())

    def traffic(self) -> Traffics:
        """What goes between processors, by lines of Python: what has most messages first. All rows run for it.

        A notebook shows it with a picture for each line by address, and `p.traffic().page()` is that as a page of HTML.
        """
        with self._lock:
            state = self._present()
            for node in in_order(array.node for array in state.results.values()):
                at, rows = state.place(node)
                self._settled(at, rows, state.layout.widths[at])
            return traffic_of(state)

    # Notebooks.

    def watch(self, name: str | int) -> None:
        """Shows a result in a notebook, and draws it anew there whenever a call makes it another one.

        Raises KeyError, and ImportError without IPython.
        """
        with self._lock:
            self._named(name)
            found = self._watched.get(str(name))
            if found is not None:
                found.display()
            else:
                self._watched[str(name)] = Watch(lambda before: self._shown(str(name), before))

    def slider(self, name: str, least: int, most: int, step: int = 1) -> Any:
        """A slider of ipywidgets that calls again with another number for an argument, as `again` does.

        Raises TypeError where the last call has no such argument, and ImportError without ipywidgets.
        """
        with self._lock:
            value = self._present().call.constant(name)
        return slider_of(name, value, least, most, step, lambda number: self.again(**{name: number}))

    def _shown(self, name: str, before: Numbers | None) -> Shown:
        """A result as a notebook shows it."""
        try:
            array = self[name]
            return Value(name, self._named(name)[1].kind, array, len(self.ran), before)
        except Refusals as error:
            return Untold(name, error)

    def _renew(self) -> None:
        """Draws anew what is watched and is another one."""
        for watch in self._watched.values():
            watch.renew()


NAMED = weakref.WeakValueDictionary[str, Followed]()
"""The followed functions of an interactive session by their names."""


def followed(function: Callable[..., Any], shape: Any, overflow: str | None, steps: int) -> Followed:
    """A followed function. In an interactive session one that is defined anew goes on with what was of its name."""
    if overflow not in MODES:
        raise ValueError(f'overflow is "warn" or "raise", and not {overflow!r}')
    if not callable(function):
        raise TypeError(f"a function is followed, and not {type(function).__name__}")
    shape = None if shape is None else (shape,) if isinstance(shape, int) else tuple(shape)
    if shape is not None:
        check_shape(shape)
    name = getattr(function, "__qualname__", "<")
    found = NAMED.get(name) if getattr(function, "__module__", "") == "__main__" and "<" not in name else None
    if found is not None and found._shape == shape:
        found.followed_function, found._overflow = function, overflow
        return found
    made = Followed(function, shape, overflow, steps)
    if getattr(function, "__module__", "") == "__main__" and "<" not in name:
        NAMED[name] = made
    return made
