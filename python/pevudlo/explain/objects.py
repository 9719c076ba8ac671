"""What came of a line, as an object of JSON: the reply in its parts, with what it means."""

from __future__ import annotations

from collections.abc import Mapping
from typing import Any

from pevudlo.hints.notes import note_of
from pevudlo.lang.board import Board
from pevudlo.lang.keys import axes_of, width_of
from pevudlo.lang.replies import (
    Faults,
    Nothing,
    Ok,
    OrderTaken,
    PendingReply,
    Refused,
    Reply,
    Row,
    RowAdded,
    RowFault,
    Rows,
    Settled,
    Values,
    Verdict,
)
from pevudlo.talk import Answer

KINDS: dict[type[Reply], str] = {
    Ok: "ok",
    RowAdded: "row",
    OrderTaken: "order",
    Nothing: "nothing",
    Verdict: "verdict",
    Values: "values",
    PendingReply: "pending",
    Rows: "rows",
    Faults: "faults",
    Settled: "settled",
    Refused: "refused",
}


def readable(text: str) -> str:
    """The text, with bytes that aren't UTF-8 as escapes such as `\\xff`."""
    return text.encode("utf-8", "surrogateescape").decode("utf-8", "backslashreplace")


def row_object(row: Row) -> dict[str, Any]:
    """A row of `list`."""
    return {"row": row.row, "edition": row.edition, "status": row.status.value, "instruction": row.text}


def fault_object(fault: RowFault, causes: Mapping[int, str]) -> dict[str, Any]:
    """A row that is refused for its data, and why."""
    return {
        "row": fault.row,
        "cause": fault.cause.value,
        "processor": fault.processor,
        "words": causes.get(fault.row, ""),
    }


def values_object(line: str, board: Board) -> dict[str, Any]:
    """The key that a `show` names, its place, and its shape: axis 0 first."""
    _, key, place = line.split(" ", 2)
    return {
        "key": key,
        "place": place,
        "set": board.set_of(key),
        "axes": axes_of(board, key),
        "bits": width_of(board, key),
    }


def refusal_object(answer: Answer) -> dict[str, Any]:
    """Why a line is refused."""
    said = answer.explanation
    assert said is not None
    return {
        "number": said.number,
        "name": said.name,
        "text": said.text,
        "detail": said.detail,
        "column": said.column,
        "hint": readable(said.hint),
    }


def parts_of(answer: Answer, board: Board) -> dict[str, Any]:
    """The parts of a reply, by its kind."""
    reply = answer.reply
    match reply:
        case RowAdded():
            return {"row": reply.row}
        case OrderTaken():
            row = board.texts[reply.row]
            return {"order": reply.order, "row": reply.row, "edition": reply.edition, "instruction": row}
        case Verdict():
            return {"verdict": reply.word.value, "edition": reply.edition}
        case Values():
            return {**values_object(answer.line, board), "values": reply.numbers}
        case PendingReply():
            return {**values_object(answer.line, board), "pending": reply.row}
        case Rows():
            return {"rows": [row_object(row) for row in reply.rows]}
        case Settled():
            return {"settled": reply.count}
        case Refused():
            return {"fault": refusal_object(answer)}
        case Ok() if note := note_of(answer.line, board):
            return {"note": note}
    return {}


def object_of(number: int, answer: Answer, board: Board) -> dict[str, Any]:
    """A line with its number, the kind and the parts of its reply, rows that weren't run, and rows that are refused."""
    told = {"line": number, "command": readable(answer.line), "kind": KINDS[type(answer.reply)]}
    told |= parts_of(answer, board)
    if answer.same:
        told |= {"same": answer.same, "same_rows": list(answer.same_rows) or None}
    if answer.faults or isinstance(answer.reply, Faults):
        told["faults"] = [fault_object(fault, answer.causes) for fault in answer.faults]
    return told
