"""Results of a followed function as a notebook shows them, drawn anew where they are others, and sliders of arguments.

IPython draws, and ipywidgets has the sliders. Neither is imported before it is wanted.
"""

from __future__ import annotations

import importlib
from collections.abc import Callable, Set
from html import escape
from typing import Any, Optional

import numpy

from pevudlo.draw.grids import Grid, html_of, style, text_of
from pevudlo.draw.units import Unit
from pevudlo.follow.expressions import Kind
from pevudlo.follow.numbers import Numbers

Refusals = (TypeError, ValueError, ArithmeticError, LookupError)
"""What calls and looks raise where they are refused."""


class Value:
    """A result as it is shown: its name, its kind, how many rows ran for it, and its numbers as a grid."""

    def __init__(self, name: str, kind: Kind, array: Numbers, ran: int, before: Optional[Numbers]) -> None:
        rows = "1 row" if ran == 1 else f"{ran} rows"
        self.head = f"{name}, {kind}: {rows} ran"
        self.array = array
        numbers = [int(number) & (1 << kind.bits) - 1 for number in array.reshape(-1).tolist()]
        axes = tuple(reversed(array.shape)) or (1,)
        self._grid = Grid(name, axes, kind.bits, numbers, changed_places(before, array))
        self._unit = Unit.SIGNED if kind.signed else Unit.UNSIGNED

    def __repr__(self) -> str:
        """The result in text. A number that was another one when it was last drawn has a star."""
        return f"{self.head}\n{text_of(self._grid, self._unit)}"

    def _repr_html_(self) -> str:
        """The result as a table, or a large one as a picture."""
        return f"<style>{style()}</style><p>{escape(self.head)}</p>{html_of(self._grid, self._unit)}"


class Untold:
    """What stands in the place of a result whose look is refused."""

    array: Optional[Numbers] = None

    def __init__(self, name: str, error: Exception) -> None:
        self.head = f"{name}: {error.args[0] if error.args else error}"

    def __repr__(self) -> str:
        """The sentence."""
        return self.head

    def _repr_html_(self) -> str:
        """The sentence."""
        return f"<p>{escape(self.head)}</p>"


Shown = Value | Untold


def changed_places(before: Optional[Numbers], now: Numbers) -> Set[int]:
    """The places of numbers that were others, where there are numbers before."""
    if before is None or before.shape != now.shape:
        return frozenset()
    return frozenset(numpy.flatnonzero(before.reshape(-1) != now.reshape(-1)).tolist())


class Watch:
    """A result that is shown in a notebook. It is drawn anew, in each place where it stands, once it is another one."""

    def __init__(self, look: Callable[[Optional[Numbers]], Shown]) -> None:
        try:
            display = importlib.import_module("IPython.display").display
        except ImportError as error:
            raise ImportError(
                "results are watched in a notebook, which IPython draws: here p[name] gives one"
            ) from error
        self._look = look
        self._shown = look(None)
        self._handle = display(self._shown, display_id=True)

    def display(self) -> None:
        """Shows it in another place too."""
        self._handle.display(self._shown)

    def renew(self) -> None:
        """Draws it anew where it is another one."""
        before, now = self._shown, self._look(self._shown.array)
        if is_same(before, now):
            return
        self._shown = now
        self._handle.update(now)


def is_same(one: Shown, other: Shown) -> bool:
    """Whether two are of the same numbers, or of the same sentence."""
    if one.array is None or other.array is None:
        return one.head == other.head
    return one.array.dtype == other.array.dtype and numpy.array_equal(one.array, other.array)


def slider_of(name: str, value: int, least: int, most: int, step: int, call: Callable[[int], object]) -> Any:
    """A slider of an argument, with a place beside it for the sentence of a call that is refused."""
    try:
        widgets = importlib.import_module("ipywidgets")
    except ImportError as error:
        raise ImportError(
            f"a slider wants ipywidgets: `pip install ipywidgets`. p.again({name}={least}) calls as it would"
        ) from error
    slider = widgets.IntSlider(value=value, min=least, max=most, step=step, description=name)
    said = widgets.Label(value="")

    def moved(change: Any) -> None:
        try:
            call(change["new"])
            said.value = ""
        except Refusals as error:
            said.value = str(error)

    slider.observe(moved, "value")
    return widgets.HBox([slider, said])
