"""Replies: the examples of the documents, and lines that are none."""

from __future__ import annotations

from pathlib import Path

import pytest

from pevudlo.lang import replies
from pevudlo.lang.replies import Cause, RowFault, Status, Word

REPOSITORY = Path(__file__).resolve().parents[2]


@pytest.mark.parametrize(
    "lines, reply",
    [
        (["ok"], replies.Ok()),
        (["row 1"], replies.RowAdded(1)),
        (["order 1 row 2 edition 7"], replies.OrderTaken(1, 2, 7)),
        (["nothing"], replies.Nothing()),
        (["kept"], replies.Verdict(Word.KEPT)),
        (["stale 8"], replies.Verdict(Word.STALE, 8)),
        (["values 11 22 18446744073709551615"], replies.Values((11, 22, 2**64 - 1))),
        (["pending 12"], replies.PendingReply(12)),
        (["rows 0"], replies.Rows(())),
        (
            ["rows 1", "1 edition 7 out u-add-3-1L c a b 8"],
            replies.Rows((replies.Row(1, 7, Status.OUT, "u-add-3-1L c a b 8"),)),
        ),
        (["faults 1", "3 bad-address 5"], replies.Faults((RowFault(3, Cause.BAD_ADDRESS, 5),))),
        (["settled 4"], replies.Settled(4)),
        (["refused 12"], replies.Refused(12)),
        (["refused 20 7"], replies.Refused(20, 7)),
    ],
)
def test_a_reply_of_each_form(lines: list[str], reply: replies.Reply) -> None:
    assert replies.parse(lines) == reply


@pytest.mark.parametrize(
    "lines",
    [
        [],
        [""],
        ["OK"],
        ["ok "],
        ["ok", "ok"],
        ["row 01"],
        ["row"],
        ["values"],
        ["values 1  2"],
        ["values -1"],
        ["rows 2", "1 edition 7 out x"],
        ["rows 1", "1 edition 7 lost x"],
        ["refused 12 3"],
        ["stale"],
    ],
)
def test_what_is_no_reply(lines: list[str]) -> None:
    with pytest.raises(replies.NoReply):
        replies.parse(lines)


def test_every_transcript_is_made_of_replies() -> None:
    count = 0
    for path in sorted(REPOSITORY.glob("examples/*.expected")) + sorted(REPOSITORY.glob("checks/rows/*/*.expected")):
        lines = path.read_text().splitlines()
        while lines:
            word, _, number = lines[0].partition(" ")
            size = 1 + (int(number) if word in ("rows", "faults") else 0)
            replies.parse(lines[:size])
            lines = lines[size:]
            count += 1
    assert count > 500
