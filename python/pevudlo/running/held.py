"""How many bytes the results of rows take in the library, about, and how many steps of undo may take."""

from __future__ import annotations

import os
from collections.abc import Callable
from pathlib import Path

from pevudlo.lang.board import Board
from pevudlo.lang.instructions import FLAGS

VARIABLE = "PARIS_UNDO_MEGABYTES"
MEGABYTE = 1_000_000

SHARE = 4
"""Steps of undo take at most this part of the machine's memory, where nothing else is said."""

PLANE, PLANE_APART = 48, 16
SHORT = 128
"""A plane of bits takes so many bytes, and one of more processors than these has its words apart. One that is the same
bit throughout has none. Which are can't be told from here, so it counts as the others do."""

RESULT = 512
"""Bytes of a result beside its planes."""

LIMITS = (Path("/sys/fs/cgroup/memory.max"), Path("/sys/fs/cgroup/memory/memory.limit_in_bytes"))
"""Where the system says how much memory a group of processes may take."""


class WrongVariable(ValueError):
    """The variable for the bytes that steps may take is no number."""


def memory() -> int:
    """The bytes of the machine's memory, or those that this process may have, where these are fewer."""
    return min([os.sysconf("SC_PAGE_SIZE") * os.sysconf("SC_PHYS_PAGES"), *map(limit_in, LIMITS)])


def limit_in(file: Path) -> int:
    """The bytes that a file of the system allows."""
    try:
        return int(file.read_text())
    except (OSError, ValueError):
        return 1 << 62


def usual_bytes() -> int:
    """How many bytes steps take at most: as the variable says, else a part of the memory. Raises WrongVariable."""
    said = os.environ.get(VARIABLE, "")
    if not said:
        return memory() // SHARE
    if not (said.isascii() and said.isdigit() and len(said) < 10):
        raise WrongVariable(f"{VARIABLE} is `{said}`, and a number of megabytes is wanted")
    return int(said) * MEGABYTE


def bytes_text(count: int) -> str:
    """So many bytes in words."""
    return f"{count / 1_000_000_000:.1f} GB" if count >= 1_000_000_000 else f"{count / MEGABYTE:,.0f} MB"


class Sizes:
    """How many bytes values and results take, by what is declared. Flags have one bit."""

    def __init__(self, board: Callable[[], Board]) -> None:
        self._board = board
        self._keys, self._written, self._named = dict[str, int](), dict[str, int](), dict[str, int]()
        self._greatest: int | None = None

    def forget(self) -> None:
        """Something else is declared now."""
        self._keys.clear()
        self._written.clear()
        self._named.clear()
        self._greatest = None

    def key(self, key: str) -> int:
        """The bytes of a key's value, 0 where it is no key."""
        if key not in self._keys:
            board = self._board()
            name, width = board.set_of(key), board.width_of(key)
            self._keys[key] = 0 if name is None or width is None else width * plane(board.processors(name))
        return self._keys[key]

    def written(self, text: str) -> int:
        """The bytes of what a row of this instruction writes."""
        if text not in self._written:
            self._written[text] = RESULT + sum(map(self.key, self._board().keys_written(text)))
        return self._written[text]

    def named(self, text: str) -> int:
        """The bytes of all that a row of this instruction may read: the fields that it names, and flags."""
        if text not in self._named:
            fields = {word for word in text.split(" ") if word in self._board().fields}
            self._named[text] = sum(map(self.key, fields)) + self._flags()
        return self._named[text]

    @property
    def greatest(self) -> int:
        """At most so many bytes has what a row writes."""
        if self._greatest is None:
            self._greatest = RESULT + 2 * max(map(self.key, self._board().fields), default=0) + self._flags()
        return self._greatest

    def _flags(self) -> int:
        """The bytes of the flags of the largest set."""
        board = self._board()
        return len(FLAGS) * plane(max(map(board.processors, board.sets), default=0))


def plane(processors: int) -> int:
    """The bytes of one plane of bits."""
    return PLANE if processors <= SHORT else PLANE + PLANE_APART + processors // 8
