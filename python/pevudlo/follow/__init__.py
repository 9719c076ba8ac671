"""Python functions of whole-number arrays that become rows of a program, and stay in step with them.

`follow` is what users call. It wants numpy, which is imported with the first call.
"""

from __future__ import annotations

from collections.abc import Callable
from typing import TYPE_CHECKING, Any, Union, overload

if TYPE_CHECKING:
    from pevudlo.follow.followed import Followed

Shape = Union[int, tuple[int, ...], None]


@overload
def follow(
    function: Callable[..., Any], *, shape: Shape = None, overflow: str | None = None, steps: int = 16
) -> Followed:
    ...


@overload
def follow(
    function: None = None, *, shape: Shape = None, overflow: str | None = None, steps: int = 16
) -> Callable[[Callable[..., Any]], Followed]:
    ...


def follow(
    function: Callable[..., Any] | None = None,
    *,
    shape: Shape = None,
    overflow: str | None = None,
    steps: int = 16,
) -> Followed | Callable[[Callable[..., Any]], Followed]:
    """A function of arrays, held as rows of a program: `follow(f)`, or `@follow` above its definition.

    `shape` is that of all its arrays, which is else found from those that are given. `overflow` is "warn" or "raise":
    what looks do where numbers had no room. `steps` calls can be taken back. Raises ImportError without numpy.
    """
    if function is None:
        return lambda given: follow(given, shape=shape, overflow=overflow, steps=steps)
    try:
        import numpy as _  # noqa: F401
    except ImportError as error:
        raise ImportError(
            "pevudlo.follow traces numpy's arrays: `pip install numpy`, or pip's pevudlo[numpy]"
        ) from error
    from pevudlo.follow.followed import followed

    return followed(function, shape, overflow, steps)


__all__ = ["follow"]
