"""What a page asks, read from its messages."""

from __future__ import annotations

import json
from collections.abc import Mapping

from pevudlo.serve.guests import MOST_LOOKS
from pevudlo.serve.limits import MOST_CHANGES, Refused
from pevudlo.serve.lines import LAST, START, Change, Op

OPS = {op.value: op for op in Op}
MOST_ID = 1 << 53


class NoMessage(ValueError):
    """What came is no message of a page."""


def read(text: str) -> Mapping[str, object]:
    """A message. Raises NoMessage."""
    try:
        asked = json.loads(text)
    except (ValueError, RecursionError) as error:
        raise NoMessage("a message is JSON") from error
    if not isinstance(asked, dict) or not isinstance(asked.get("do"), str):
        raise NoMessage("a message says what is to be done")
    return asked


def number(asked: Mapping[str, object], name: str) -> int:
    """A number of a message. Raises NoMessage where it has none."""
    value = asked.get(name)
    if not isinstance(value, int) or isinstance(value, bool) or not LAST <= value < MOST_ID:
        raise NoMessage(f"{name} is a number")
    return value


def words(asked: Mapping[str, object], name: str) -> str:
    """A text of a message, nothing where it has none. Raises NoMessage for something else."""
    value = asked.get(name, "")
    if not isinstance(value, str):
        raise NoMessage(f"{name} is a text")
    return value


def numbers(asked: Mapping[str, object], name: str, most: int) -> tuple[int, ...]:
    """Numbers of a message. Raises NoMessage where they are others, or too many."""
    values = asked.get(name)
    if not isinstance(values, list) or len(values) > most:
        raise NoMessage(f"{name} are at most {most} numbers")
    return tuple(number({"one": value}, "one") for value in values)


def looks(asked: Mapping[str, object]) -> tuple[int, ...]:
    """The lines that a page shows."""
    return numbers(asked, "ids", MOST_LOOKS)


def changes(asked: Mapping[str, object]) -> list[Change]:
    """The changes of an edit. Raises NoMessage, and Refused where they are too many."""
    wanted = asked.get("changes")
    if not isinstance(wanted, list) or not wanted:
        raise NoMessage("an edit has changes")
    if len(wanted) > MOST_CHANGES:
        raise Refused(f"an edit changes {MOST_CHANGES:,} lines at most")
    return [change(each) for each in wanted]


def change(wanted: object) -> Change:
    """A change of a message. Raises NoMessage."""
    if not isinstance(wanted, dict) or wanted.get("op") not in OPS:
        raise NoMessage("a change replaces, inserts or deletes")
    op, at = OPS[wanted["op"]], number(wanted, "id")
    if at in (LAST, START) and op is not Op.INSERT:
        raise NoMessage("a line has an id")
    return Change(op, at, words(wanted, "was"), words(wanted, "text"))
