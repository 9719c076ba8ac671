"""Calls that other threads and other processes make, each with a limit of time: what hangs fails a test and ends it."""

from __future__ import annotations

import os
import signal
import threading
import time
from collections.abc import Callable
from dataclasses import dataclass, field
from typing import Any

LIMIT = 30.0
"""Seconds behind which a call that hasn't come back hangs."""


def within(limit: float, is_so: Callable[[], bool]) -> bool:
    """Whether something is so within a limit of time."""
    until = time.monotonic() + limit
    while not is_so() and time.monotonic() < until:
        time.sleep(0.002)
    return is_so()


@dataclass
class Told:
    """What a call gave that another thread makes, or what it raised."""

    call: Callable[[], Any]
    value: Any = None
    error: BaseException | None = None
    thread: threading.Thread = field(init=False)

    def __post_init__(self) -> None:
        self.thread = threading.Thread(target=self._go, daemon=True)
        self.thread.start()

    def _go(self) -> None:
        try:
            self.value = self.call()
        except BaseException as error:
            self.error = error

    @property
    def is_over(self) -> bool:
        """Whether the call has come back."""
        return not self.thread.is_alive()

    def wait(self) -> Told:
        """Waits for the call. One that hangs fails the test."""
        self.thread.join(LIMIT)
        assert self.is_over, "the call hangs"
        return self


def status_of_child(call: Callable[[], object]) -> str:
    """What a call gives, or raises, in a child that this process begets. A child that hangs is killed."""
    read, write = os.pipe()
    child = os.fork()
    if not child:
        try:
            said = repr(call())
        except BaseException as error:
            said = type(error).__name__
        os.write(write, said.encode())
        os._exit(0)
    os.close(write)
    is_over = within(LIMIT, lambda: os.waitid(os.P_PID, child, os.WEXITED | os.WNOHANG | os.WNOWAIT) is not None)
    if not is_over:
        os.kill(child, signal.SIGKILL)
    os.waitpid(child, 0)
    with os.fdopen(read) as said_by_child:
        return said_by_child.read() if is_over else "hangs"
