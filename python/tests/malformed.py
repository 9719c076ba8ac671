"""Messages of a language server that are wrong in one part, made from the table of its methods."""

from __future__ import annotations

from collections.abc import Iterator
from typing import Any

from editors import URI

from pevudlo.lsp.shapes import Anything, Either, Flag, ListOf, Nothing, Number, Record, Shape, Text

SAMPLES: list[Any] = [None, True, 7, -1, 1 << 31, 10**30, 1.5, "x", "\ud800", [], [7], [[[]]], {}, {"x": 1}]
"""Values of all types. None of them is a right one of a list or an object with parts."""

TEXTS = {"uri": URI, "text": "set S 2\n", "newName": "x9", "languageId": "paris"}
"""Right texts by the names of the parts that they are."""


def is_of(sample: Any, shape: Shape) -> bool:
    """Whether one of the samples has a shape, as the protocol says it."""
    match shape:
        case Anything():
            return True
        case Text():
            return type(sample) is str
        case Flag():
            return type(sample) is bool
        case Number(least):
            return type(sample) is int and least <= sample <= 2_147_483_647
        case Nothing():
            return sample is None
        case ListOf():
            return bool(sample == [])
        case Record(parts):
            return type(sample) is dict and not parts
        case Either(shapes):
            return any(is_of(sample, each) for each in shapes)


def right(shape: Shape, name: str = "") -> Any:
    """A value of a shape, with all its parts."""
    match shape:
        case Text():
            return TEXTS[name]
        case Flag():
            return True
        case Number():
            return 5
        case ListOf(each):
            return [right(each, name)]
        case Record(parts, others):
            return {each: right(part, each) for each, part in {**parts, **others}.items()}
        case Either(shapes):
            return right(shapes[0], name)
    return None


def wrong(shape: Shape, value: Any) -> Iterator[Any]:
    """Values that haven't a shape: a right one in which a part is missing, null, or of another type, however deep."""
    yield from (sample for sample in SAMPLES if not is_of(sample, shape))
    match shape:
        case ListOf(each):
            for other in wrong(each, value[0]):
                yield [other]
                yield [value[0], other]
        case Record(parts, others):
            for name in parts:
                yield {each: part for each, part in value.items() if each != name}
            for name, part in {**parts, **others}.items():
                yield from ({**value, name: other} for other in wrong(part, value[name]))
