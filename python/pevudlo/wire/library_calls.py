"""The calls of the library libparis.so, as Python makes them, and what becomes of them.

bindings/c/paris.h says what each call does, and what its caller keeps.
"""

from __future__ import annotations

import ctypes
import os
from collections.abc import Callable
from ctypes import c_bool, c_char_p, c_size_t, c_uint32, c_uint64, c_void_p
from enum import IntEnum
from functools import lru_cache
from pathlib import Path
from typing import Any

from pevudlo.wire.library_places import LIBRARY
from pevudlo.wire.program import NotFound

START_NUMBER = 0
END_NUMBER = 2**64 - 1


class Outcome(IntEnum):
    """What becomes of a call of the library. 1 to 23 are the faults' numbers."""

    OK = 0
    FULL = 18
    NO_MEMORY = 19
    NO_ENTRY = 23
    CLOSED = 101
    NO_KEY = 102
    PENDING = 103
    WRONG_ROOM = 104
    TOO_MANY = 105
    TOO_WIDE = 106
    PARTLY = 107
    NO_PROFILE = 108
    NOTHING = 109
    NOT_RUN = 110
    UNLIKE = 111
    NO_EVENT = 112
    STRANGE = 113


class Handle(ctypes.Structure):
    """What the library keeps of a session, an order, a desk or a seat with its caller. All zeros is a closed one."""

    _fields_ = [("at", c_void_p), ("is_open", c_bool)]


# What each call takes. Pointers to numbers and to rooms are passed as addresses.
CALLS: dict[str, tuple[Any, ...]] = {
    "paris_open": (c_void_p,),
    "paris_open_profile": (c_void_p, c_uint32),
    "paris_close": (c_void_p,),
    "paris_answer": (c_void_p, c_char_p, c_size_t, c_void_p),
    "paris_reply": (c_void_p, c_void_p, c_size_t),
    "paris_set": (c_void_p, c_char_p, c_size_t, c_uint64, c_void_p, c_size_t),
    "paris_set_wide": (c_void_p, c_char_p, c_size_t, c_uint64, c_void_p, c_size_t),
    "paris_get": (c_void_p, c_char_p, c_size_t, c_uint64, c_void_p, c_size_t, c_void_p),
    "paris_get_wide": (c_void_p, c_char_p, c_size_t, c_uint64, c_void_p, c_size_t, c_void_p),
    "paris_count": (c_void_p, c_char_p, c_size_t, c_uint64, c_void_p),
    "paris_summary": (c_void_p, c_char_p, c_size_t, c_uint64, c_void_p, c_size_t, c_void_p),
    "paris_differs": (c_void_p, c_void_p, c_char_p, c_size_t, c_uint64, c_void_p, c_size_t, c_void_p),
    "paris_take": (c_void_p, c_void_p),
    "paris_execute": (c_void_p,),
    "paris_bring": (c_void_p, c_void_p, c_void_p, c_void_p),
    "paris_order_row": (c_void_p, c_void_p, c_void_p, c_void_p),
    "paris_order_close": (c_void_p,),
    "paris_release": (c_void_p,),
    "paris_snapshot": (c_void_p, c_void_p),
    "paris_run": (c_void_p, c_uint64, c_void_p),
    "paris_unsettled": (c_void_p, c_void_p, c_size_t, c_void_p),
    "paris_touched": (c_void_p, c_uint64, c_void_p, c_size_t, c_void_p, c_void_p),
    "paris_origin": (c_void_p, c_char_p, c_size_t, c_uint64, c_void_p),
    "paris_settle_for_ids": (c_void_p, c_char_p, c_size_t, c_uint64, c_void_p, c_size_t, c_void_p),
    "paris_desk_open": (c_void_p, c_void_p, c_uint64, c_uint64),
    "paris_desk_sit": (c_void_p, c_void_p, c_void_p),
    "paris_desk_answer": (c_void_p, c_void_p, c_char_p, c_size_t, c_void_p, c_void_p),
    "paris_desk_set": (c_void_p, c_void_p, c_char_p, c_size_t, c_uint64, c_void_p, c_size_t, c_void_p, c_void_p),
    "paris_desk_set_wide": (c_void_p, c_void_p, c_char_p, c_size_t, c_uint64, c_void_p, c_size_t, c_void_p, c_void_p),
    "paris_desk_take": (c_void_p, c_void_p, c_void_p, c_void_p),
    "paris_desk_bring": (c_void_p, c_void_p, c_void_p, c_void_p, c_void_p, c_void_p),
    "paris_desk_look": (c_void_p, c_void_p),
    "paris_desk_entry": (c_void_p, c_uint64, c_void_p, c_void_p, c_void_p, c_size_t, c_void_p),
    "paris_desk_audit": (c_void_p, c_void_p),
    "paris_desk_cut": (c_void_p, c_void_p),
    "paris_desk_snapshot": (c_void_p, c_void_p),
    "paris_desk_close": (c_void_p,),
    "paris_seat_reply": (c_void_p, c_void_p, c_size_t),
    "paris_seat_get": (c_void_p, c_char_p, c_size_t, c_uint64, c_void_p, c_size_t, c_void_p),
    "paris_seat_order_for": (c_void_p, c_char_p, c_size_t, c_uint64, c_void_p),
    "paris_seat_snapshot": (c_void_p, c_void_p),
    "paris_seat_front": (c_void_p, c_void_p),
    "paris_seat_close": (c_void_p,),
}


def loaded(path: Path) -> dict[str, Callable[..., int]]:
    """The calls of the library at a path. Raises NotFound where it is none."""
    try:
        # A name without a folder is looked for elsewhere.
        file = os.fspath(path.absolute())
        told = os.stat(file)
        return dict(calls_of(file, told.st_ino, told.st_mtime_ns))
    except (OSError, AttributeError) as error:
        raise NotFound([f"{path} can't be loaded: {error}"], LIBRARY) from error


@lru_cache(maxsize=16)
def calls_of(file: str, inode: int, time: int) -> dict[str, Callable[..., int]]:
    """The calls of a file, as it is now. Raises OSError and AttributeError."""
    library = ctypes.CDLL(file)
    calls = {name: getattr(library, name) for name in CALLS}
    for name, call in calls.items():
        call.argtypes, call.restype = CALLS[name], c_uint32
    return calls


def place_number(text: str) -> int | None:
    """The number by which the library knows a place as commands spell it; None where a line alone can say it."""
    if text in ("start", "end"):
        return START_NUMBER if text == "start" else END_NUMBER
    row = text.removeprefix("after ")
    is_number = row != text and row.isascii() and row.isdigit() and not row.startswith("0")
    return int(row) if is_number and int(row) < END_NUMBER else None


def trouble(outcome: int) -> Exception:
    """What is raised where a call isn't answered."""
    match outcome:
        case Outcome.NO_MEMORY:
            return MemoryError("there is no memory left, and nothing has changed")
        case Outcome.PARTLY:
            return MemoryError("there is no memory left: the rows that ran are settled, and orders may be given up")
    return RuntimeError(f"the library answered {outcome}")
