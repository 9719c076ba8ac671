"""Checks of pages that tests share: all that a page's data says, against answers of the program in other runs."""

from __future__ import annotations

import base64
import json
import re
from collections import Counter
from collections.abc import Sequence
from functools import cache
from typing import Any

from live_tabs import numbers_in, unrolled
from pages import answers, script_of

from pevudlo.client.pieces import Kind
from pevudlo.lang.board import Board
from pevudlo.page.page import page_of
from pevudlo.wire.pipe import Pipe
from pevudlo.wire.program import find

DATA = re.compile(r'<script type="application/json" id="data">(.*?)</script>', re.S)


class Data:
    """The data of a page. Values are those of a moment, or of those before it where they are the same."""

    def __init__(self, html: str) -> None:
        (text,) = DATA.findall(html)
        self.told: dict[str, Any] = json.loads(text)
        self.moments: list[dict[str, Any]] = self.told["moments"]
        self.block = base64.b64decode(self.told["block"])

    def values(self, moment: int) -> dict[tuple[str, int], bytes]:
        """The pieces of a moment by key and row: 0 is the start, and a look has the number of its line, below 0."""
        places: dict[str, int] = {}
        for each in self.moments[: moment + 1]:
            places |= each["values"]
        return {(key, int(row)): self.block[at:] for (key, _, row), at in split(places)}

    def notes(self, kind: str) -> list[dict[str, Any]]:
        """The lines of a kind that stand between rows, in all moments."""
        return [note for moment in self.moments for note in moment["notes"] if note["kind"] == kind]


def split(places: dict[str, int]) -> list[tuple[tuple[str, str, str], int]]:
    return [(name.rpartition("@"), at) for name, at in places.items()]


def page_with(lines: Sequence[str], title: str = "a script") -> str:
    with Pipe(find()) as pipe:
        return page_of(title, lines, pipe).html()


@cache
def data_for(name: str) -> Data:
    """The data of the page of a gallery program, or of a worked row."""
    return Data(page_with(script_of(name), name))


def written(lines: Sequence[str], rows: dict[int, str]) -> dict[int, tuple[str, ...]]:
    """The keys that rows write."""
    board = Board()
    for line, reply in zip(lines, answers(lines)):
        if reply:
            board.note(line, reply[0])
    return {row: board.keys_written(text) for row, text in rows.items()}


def check_moment(data: Data, moment: int, lines: Sequence[str]) -> Counter[str]:
    """Rows, states, values, faults and input data of a moment are the program's behind so many lines."""
    told, count = data.moments[moment], Counter[str]()
    begun = list(lines[: told["until"]])
    listed = [row.split(" ", 4) for row in answers([*begun, "list"])[-1][1:]]
    texts = told["texts"]
    assert unrolled(told["order"]) == unrolled(texts["ids"]) == [int(row[0]) for row in listed]
    assert [texts["texts"][of] for of in texts["of"]] == [row[4] for row in listed]
    assert unrolled(told["un"]) == [int(row[0]) for row in listed if row[3] != "settled"]
    faults = [" ".join(map(str, fault[:3])) for fault in told["faults"]]
    assert faults == answers([*begun, "faults"])[-1][1:]
    settled = {int(row[0]): row[4] for row in listed if row[3] == "settled"}
    keys = written(begun, settled)
    names = [(key, row) for row in settled for key in keys[row]] + [(key, 0) for key in told["given"]]
    values = data.values(moment)
    looks = [f"show {key} {f'after {row}' if row else 'start'}" for key, row in names]
    for name, reply in zip(names, answers([*begun, *looks])[-len(looks) :] if looks else []):
        assert numbers_in(values[name]) == list(map(int, reply[0].split(" ")[1:])), name
        count["values"] += 1
    for row in unrolled(told["un"]):
        assert not any(each == row for _, each in told_rows(told))
    return count


def told_rows(told: dict[str, Any]) -> list[tuple[str, int]]:
    """The names of the values that come with a moment."""
    return [(key, int(row)) for (key, _, row), _ in split(told["values"])]


def check_lines(data: Data, lines: Sequence[str], transcript: dict[int, list[str]]) -> Counter[str]:
    """Each look is the transcript's, and so is each refusal. None is left out."""
    count, looks = Counter[str](), data.notes("look")
    for moment, told in enumerate(data.moments):
        for note in told["notes"]:
            if note["kind"] == "look":
                word, *numbers = transcript[note["number"]][0].split(" ")
                if word == "pending":
                    assert note["pending"] == int(numbers[0])
                else:
                    piece = data.values(moment)[note["key"], -note["number"]]
                    assert note["pending"] == 0 and numbers_in(piece) == list(map(int, numbers))
                count["looks"] += 1
            if note["kind"] == "wrong":
                assert note["refused"]["reply"] == transcript[note["number"]][0]
                count["refused"] += 1
    shows = [number for number, line in enumerate(lines, 1) if line.startswith("show ")]
    accepted = [number for number in shows if not transcript[number][0].startswith("refused")]
    assert [note["number"] for note in looks] == accepted
    refused = [number for number, reply in transcript.items() if reply[0].startswith("refused")]
    assert [note["number"] for note in data.notes("wrong")] == refused
    return count


def check_page(data: Data, lines: Sequence[str], transcript: dict[int, list[str]] | None = None) -> Counter[str]:
    """All that a page's data says. Gives how many values, looks and refusals there are."""
    replies = transcript or {number: reply for number, reply in enumerate(answers(lines), 1) if reply}
    count = check_lines(data, lines, replies)
    for moment in range(len(data.moments)):
        count += check_moment(data, moment, lines)
    assert data.moments[-1]["until"] == len(lines) or not count
    return count


def kind_of(piece: bytes) -> Kind:
    """What a piece is."""
    return Kind(piece[0])
