"""What a function reads beside its arguments: globals and outer variables, by name, also where it calls others."""

from __future__ import annotations

import copy
from collections.abc import Callable, Iterator
from types import CodeType, FunctionType
from typing import Any

import numpy

NOT_READ = ("pevudlo", "numpy")
"""Packages whose functions aren't looked into."""

Outside = dict[tuple[int, str], Any]

PLAIN = (int, float, complex, str, bytes, type(None))
HOLDING = (list, dict, set, tuple, frozenset)


def outside(function: Callable[..., Any]) -> Outside:
    """The values of the names that a function reads, and of those that the functions read which it calls by name.

    These are the objects themselves: `kept` copies what holds others.
    """
    found: Outside = {}
    stack, seen = [function], set[int]()
    while stack:
        each = stack.pop()
        if not isinstance(each, FunctionType) or id(each) in seen:
            continue
        seen.add(id(each))
        place = len(seen)
        told: Any = each.__code__, each.__defaults__, each.__kwdefaults__
        found[place, ""] = told
        for name, value in values_read(each):
            inner: Any = getattr(value, "followed_function", value)
            if isinstance(inner, FunctionType):
                if not (inner.__module__ or "").startswith(NOT_READ):
                    stack.append(inner)
                found[place, name] = inner.__code__
            else:
                found[place, name] = value
    return found


def values_read(function: FunctionType) -> Iterator[tuple[str, Any]]:
    """The names that a function reads outside of it, with their values."""
    for name in names_in(function.__code__):
        if name in function.__globals__:
            yield name, function.__globals__[name]
    for name, cell in zip(function.__code__.co_freevars, function.__closure__ or ()):
        try:
            yield name, cell.cell_contents
        except ValueError:
            continue


def names_in(code: CodeType) -> set[str]:
    """The names of a function's body, with those of the functions within it."""
    names = set(code.co_names)
    for constant in code.co_consts:
        if isinstance(constant, CodeType):
            names |= names_in(constant)
    return names


def kept(value: Any) -> Any:
    """A value as it is now: what holds others is copied, so that a later change of it is seen."""
    if isinstance(value, numpy.ndarray):
        return value.copy()
    if isinstance(value, HOLDING) and not isinstance(value, PLAIN):
        try:
            return copy.deepcopy(value)
        except Exception:
            return value
    return value


def are_same(one: Any, other: Any) -> bool:
    """Whether two values are of one type and equal. Of what can't be compared, whether they are one object."""
    if one is other:
        return True
    if type(one) is not type(other):
        return False
    if isinstance(one, numpy.ndarray):
        return one.dtype == other.dtype and one.shape == other.shape and bool((one == other).all())
    if isinstance(one, dict):
        return list(one) == list(other) and all(are_same(each, other[key]) for key, each in one.items())
    if isinstance(one, (list, tuple)):
        return len(one) == len(other) and all(map(are_same, one, other))
    try:
        return bool(one == other)
    except Exception:
        return False
