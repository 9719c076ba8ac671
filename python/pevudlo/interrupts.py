"""Ctrl-C that is put off until what is begun is done as a whole."""

from __future__ import annotations

import threading

# (those of `signal` make enums of numbers at each call, and take many times as long)
from _signal import SIGINT, getsignal, signal  # type: ignore[import]
from collections.abc import Callable, Iterator
from contextlib import contextmanager
from types import FrameType

Handler = Callable[[int, FrameType | None], object]


class Later:
    """A handler that notes what comes. Once it is over, what still comes here goes to the handler before it."""

    def __init__(self, before: Handler) -> None:
        self.came: list[tuple[int, FrameType | None]] = []
        self.is_over = False
        self.before = before

    def __call__(self, number: int, frame: FrameType | None) -> None:
        if self.is_over:
            self.before(number, frame)
        else:
            self.came.append((number, frame))


@contextmanager
def undisturbed() -> Iterator[None]:
    """Puts Ctrl-C off until the end of what stands within. It is the main thread's alone; elsewhere nothing is done.

    A handler that is set meanwhile stays. What came goes to the handler that was there at the beginning.
    """
    before = present_handler() if threading.get_ident() == threading.main_thread().ident else None
    if before is None or isinstance(before, Later):
        yield
        return
    later = Later(before)
    try:
        signal(SIGINT, later)
        yield
    finally:
        try:
            if getsignal(SIGINT) is later:
                signal(SIGINT, before)
        finally:
            # (the error of another signal's handler may come above)
            later.is_over = True
        if later.came:
            before(*later.came[0])


def present_handler() -> Handler | None:
    """What Ctrl-C calls. None where that is nothing of Python."""
    handler: object = getsignal(SIGINT)
    while isinstance(handler, Later) and handler.is_over:
        handler = handler.before
    return handler if callable(handler) else None
