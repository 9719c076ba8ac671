"""Talks with paris_front, the front end for Paris programs, and shows no number that isn't one of its replies."""

from __future__ import annotations

from importlib import import_module
from types import ModuleType
from typing import TYPE_CHECKING

from pevudlo.desk import Desk, Entry, Look, Order, Seat
from pevudlo.follow import follow
from pevudlo.hints.explanation import Explanation, Refusal
from pevudlo.lang.causes import RefusedRows
from pevudlo.lang.places import END, START, Place, after
from pevudlo.lang.replies import Cause, OrderTaken, Row, RowFault, Status, Verdict, Word
from pevudlo.machine import Machine, RowList
from pevudlo.running.crew import News, Progress
from pevudlo.values.shaped import Pending, ValueList, WrongShape, signed, unsigned
from pevudlo.version import release
from pevudlo.wire.desk import HistoryFull, Kind
from pevudlo.wire.library import Library
from pevudlo.wire.library_places import find_library
from pevudlo.wire.pipe import Ended, OutOfTurn, Pipe, PipeError
from pevudlo.wire.program import NotFound, find

if TYPE_CHECKING:
    from pevudlo import algorithms, paris

__version__ = release()

__all__ = [
    "END",
    "START",
    "Cause",
    "Desk",
    "Ended",
    "Entry",
    "Explanation",
    "HistoryFull",
    "Kind",
    "Library",
    "Look",
    "Machine",
    "News",
    "NotFound",
    "Order",
    "OrderTaken",
    "OutOfTurn",
    "Pending",
    "Pipe",
    "PipeError",
    "Place",
    "Progress",
    "Refusal",
    "RefusedRows",
    "Row",
    "RowFault",
    "RowList",
    "Seat",
    "Status",
    "ValueList",
    "Verdict",
    "Word",
    "WrongShape",
    "__version__",
    "after",
    "algorithms",
    "find",
    "find_library",
    "follow",
    "paris",
    "signed",
    "unsigned",
]

# Checkers of types find a name that isn't there themselves.
if not TYPE_CHECKING:

    def __getattr__(name: str) -> ModuleType:
        """Loads `paris` once it is asked for, with the reference that its functions are told by, and `algorithms`."""
        if name in ("algorithms", "paris"):
            return import_module(f"pevudlo.{name}")
        raise AttributeError(f"module 'pevudlo' has no attribute {name!r}")

    def __dir__() -> list[str]:
        """What is here, and what is loaded once it is asked for."""
        return sorted({*globals(), *__all__})
