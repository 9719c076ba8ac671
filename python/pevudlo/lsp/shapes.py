"""Shapes of what comes in messages: what a value has to be, and where it is something else."""

from __future__ import annotations

from collections.abc import Mapping
from dataclasses import dataclass, field
from typing import Any, Union, assert_never

GREATEST = (1 << 31) - 1
"""The greatest whole number of the protocol."""


@dataclass(frozen=True)
class Anything:
    """Any value."""


@dataclass(frozen=True)
class Text:
    """A text."""


@dataclass(frozen=True)
class Flag:
    """True or false."""


@dataclass(frozen=True)
class Number:
    """A whole number from `least` on."""

    least: int = 0


@dataclass(frozen=True)
class Nothing:
    """Null."""


@dataclass(frozen=True)
class ListOf:
    """A list of values of one shape."""

    each: Shape


@dataclass(frozen=True)
class Record:
    """An object with these parts, and with these others where they are there. Further ones say nothing."""

    parts: Mapping[str, Shape] = field(default_factory=dict)
    others: Mapping[str, Shape] = field(default_factory=dict)


@dataclass(frozen=True)
class Either:
    """A value of one of some shapes."""

    shapes: tuple[Shape, ...]


Shape = Union[Anything, Text, Flag, Number, Nothing, ListOf, Record, Either]


def misfit(value: Any, shape: Shape, where: str) -> str:
    """Which part of a value has another shape, and what is wanted there; nothing where all of it has its shape."""
    if isinstance(shape, ListOf) and isinstance(value, list):
        found = (misfit(each, shape.each, f"{where}[{at}]") for at, each in enumerate(value))
        return next(filter(None, found), "")
    if isinstance(shape, Record) and isinstance(value, dict):
        missing = next((name for name in shape.parts if name not in value), None)
        if missing is not None:
            return f"{where}.{missing} is missing"
        parts = {**shape.parts, **shape.others}
        found = (misfit(value[name], part, f"{where}.{name}") for name, part in parts.items() if name in value)
        return next(filter(None, found), "")
    return "" if is_plain(value, shape) else f"{where} is not {words_of(shape)}"


def is_plain(value: Any, shape: Shape) -> bool:
    """Whether a value has a shape without parts, or one of some shapes."""
    match shape:
        case Anything():
            return True
        case Text():
            return isinstance(value, str)
        case Flag():
            return isinstance(value, bool)
        case Number(least):
            return isinstance(value, int) and not isinstance(value, bool) and least <= value <= GREATEST
        case Nothing():
            return value is None
        case ListOf() | Record():
            return False
        case Either(shapes):
            return any(not misfit(value, each, "") for each in shapes)
    assert_never(shape)


def words_of(shape: Shape) -> str:
    """What a value of a shape is."""
    match shape:
        case Anything():
            return "a value"
        case Text():
            return "a text"
        case Flag():
            return "true or false"
        case Number(least):
            return f"a whole number from {least} to {GREATEST}"
        case Nothing():
            return "null"
        case ListOf():
            return "a list"
        case Record():
            return "an object"
        case Either(shapes):
            return " or ".join(map(words_of, shapes))
    assert_never(shape)
