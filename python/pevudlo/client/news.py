"""What tabs are told beside rows and values: the table of instructions, commands with their replies, and refusals."""

from __future__ import annotations

from collections.abc import Iterable
from functools import cache

from pevudlo.draw.visible import visible
from pevudlo.hints.explanation import Explanation
from pevudlo.lang.instructions import FLAGS_READ, INSTRUCTIONS

MOST_SHOWN = 200
"""Of a longer line the beginning is told."""

News = dict[str, object]


@cache
def grammar() -> tuple[tuple[object, ...], ...]:
    """Each instruction with its operands, the flags that it writes, whether the context rules it, whether its F is
    written, and the flag that it reads."""
    return tuple(
        (
            each.name,
            " ".join(operand.value for operand in each.operands),
            " ".join(each.flags),
            int(each.is_conditional),
            int(each.stores_bit),
            FLAGS_READ.get(each.name, ""),
        )
        for each in INSTRUCTIONS.values()
    )


def shortened(line: str) -> str:
    """The beginning of a line, as text that any page may have."""
    return visible(line if len(line) <= MOST_SHOWN else line[: MOST_SHOWN - 3] + "...")


def refusal(explanation: Explanation, reply: str) -> News:
    """Why a command was refused. `at` is how many letters stand before its first wrong one, where that is known."""
    column, at = explanation.column, None
    if column is not None:
        before = explanation.line.encode("utf-8", "surrogateescape")[: column - 1]
        at = min(len(before.decode("utf-8", "surrogateescape")), len(explanation.line))
    return {"text": explanation.text, "hint": explanation.hint, "at": at, "reply": reply}


def trouble(text: str, hint: str = "") -> News:
    """Why nothing was done, where it isn't for what the line says."""
    return {"text": text, "hint": hint, "at": None, "reply": ""}


def other_row(row: int, text: str | None, mine: str) -> News:
    """That a row is another than it was when its edit began."""
    yours = f" Yours was `{shortened(mine)}`." if mine else ""
    if text is None:
        return trouble(f"Row {row} was deleted meanwhile.{yours} Nothing was changed.")
    now = f"Row {row} was changed meanwhile, and is now `{shortened(text)}`.{yours} Nothing was changed."
    return trouble(now, "Enter once more replaces it.")


def said(number: int, line: str, replies: Iterable[str], explanation: Explanation | None) -> News:
    """A command and the first line of its reply, or why it was refused."""
    reply = next(iter(replies), "")
    refused = None if explanation is None else refusal(explanation, reply)
    return {"number": number, "line": shortened(line), "reply": shortened(reply), "refused": refused}
