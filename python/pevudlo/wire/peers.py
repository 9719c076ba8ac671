"""What answers lines: a running program, or a session of the library in this process."""

from __future__ import annotations

from collections.abc import Sequence
from typing import Protocol

from pevudlo.wire.library import Library
from pevudlo.wire.library_places import find_library
from pevudlo.wire.pipe import Pipe
from pevudlo.wire.program import NotFound, find


class Peer(Protocol):
    """What answers lines: a `Pipe`, a `Library`, or who hands lines on to one."""

    def ask(self, line: str) -> list[str]:
        """The lines of the reply to one line."""

    def ask_all(self, lines: Sequence[str]) -> list[list[str]]:
        """The replies to many lines."""

    def close(self) -> int:
        """Ends the talk, and gives its status."""


def inner_of(peer: Peer) -> Peer:
    """Whom looks may be asked of at once: the peer, or the one to whom it hands lines on."""
    inner: Peer = getattr(peer, "inner", peer)
    return inner


USUAL_WORKERS = 2
"""In how many threads a program settles rows where nothing is said."""


def peer_of(workers: int | None, is_large: bool) -> Pipe | Library:
    """A peer with nothing declared.

    For large sets it is the library where that is there, since its numbers come as arrays. It settles rows in one
    thread, so where workers are wanted it is the program. Raises NotFound where there is neither.
    """
    if is_large and workers is None:
        try:
            return Library(find_library())
        except NotFound:
            pass
    return Pipe(find(), USUAL_WORKERS if workers is None else workers)
