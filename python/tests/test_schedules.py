"""Schedules that look random: the program beside the model, line by line, and at a desk by its last values.

A schedule is a script of so many moves: edits of all kinds, inputs that are undone, lines that are refused, rows that
are deleted while their orders are out, takes, releases, and results that come late, twice, never, or of orders that
weren't given. After each move it looks at each key at the start, after each row and at the end, at the rows and at
the faults. Each line that the program writes is compared with what the model answers: editions, orders, verdicts,
what is pending and for which row, and all values.

At a desk sessions edit what is their own, take orders, bring some and give some up, while workers run what is ready.
What depends on how the threads fall has to be a reply that there is. The edits are counted, the audit is `yes`, and
each key at the start, after each row that was there at first, and at the end has the value of the model, which was
told of one session after the other. So have the rows their texts, and the faults their causes.

The variable PEVUDLO_SCHEDULES says how many schedules there are. There are three times as many scripts in parts.
"""

from __future__ import annotations

import os
import re
import subprocess
from collections import Counter
from collections.abc import Callable
from itertools import islice

import pytest
from random_schedules import Parts, Schedule

from pevudlo.wire.program import find

SCHEDULES = int(os.environ.get("PEVUDLO_SCHEDULES", "32"))
MOVES = 128

KINDS = (
    *("take order", "take nothing", "bring kept", "bring stale", "bring gone", "bring repeated", "bring lost", "lose"),
    *("set ok", "field ok", "input ok", "back ok", "insert row"),
    *("replace ok", "delete ok", "delete-out ok", "refused refused"),
    *("release ok", "settle settled", "list rows", "faults faults", "show values", "show pending"),
)
"""What has to come in the schedules."""

REPLIES = {
    "take": r"nothing|order \d+ row \d+ edition \d+",
    "bring": r"gone|stale \d+|repeated|kept|refused 22",
    "release": "ok",
    "show": r"pending \d+|values( \d+)+",
    "list": r"rows \d+",
    "insert": r"row \d+",
    "row": r"\d+ edition \d+ (waiting|out|settled) \S.*",
}
"""What a session may be answered, by the first word of the line. An edit that puts no row in is answered by `ok`."""


def written(script: list[str], *words: str) -> list[str]:
    """What the program writes for a script."""
    data = "\n".join([*script, ""]).encode()
    ran = subprocess.run([find(), *words], input=data, stdout=subprocess.PIPE, timeout=60, check=False)
    assert ran.returncode in (0, 1)
    return ran.stdout.decode().split("\n")[:-1]


def played(seed: int) -> Counter[str]:
    """Plays a schedule by the program, which has to write what the model answers. Gives how often each kind came."""
    schedule = Schedule(seed, MOVES)
    found = written(schedule.lines)
    assert len(found) == len(schedule.replies)
    for place, (reply, wanted) in enumerate(zip(found, schedule.replies)):
        assert reply == wanted, f"schedule {seed}, reply {place}"
    return schedule.met


def test_the_program_plays_schedules_as_the_model_does() -> None:
    met = sum((played(seed) for seed in range(SCHEDULES)), Counter[str]())
    assert [kind for kind in KINDS if not met[kind]] == []


class Reader:
    """Reads what was written for a script in parts."""

    def __init__(self, lines: list[str]) -> None:
        self.lines = iter(lines)

    def next(self, count: int) -> list[str]:
        return list(islice(self.lines, count))

    def session(self, number: int, lines: list[str], met: Counter[str]) -> None:
        """The replies to the lines of a session."""
        assert self.next(1) == [f"session {number}"]
        for line in lines:
            self.answer(line, met)

    def answer(self, line: str, met: Counter[str]) -> None:
        """The reply to a line of a session."""
        (said,) = self.next(1)
        word = line.split(" ")[0]
        assert re.fullmatch(REPLIES.get(word, "ok"), said), (line, said)
        met[f"{word} {said.split(' ')[0]}"] += 1
        rows = self.next(int(said.split(" ")[1])) if word == "list" else []
        assert all(re.fullmatch(REPLIES["row"], row) for row in rows)


def played_in_parts(seed: int) -> Counter[str]:
    """Plays a script in parts at a desk, whose last values have to be the model's. Gives how often each kind came."""
    parts, met = Parts(seed, sessions=2 + seed % 2, length=30), Counter[str]()
    cut = [line for session in parts.sessions for line in ("session", *session)]
    script = [*parts.begin, *cut, "session", *parts.last, "list", "faults", "settle"]
    read = Reader(written(script, "--desk", "--workers", "2"))
    assert read.next(len(parts.replies)) == parts.replies
    for number, session in enumerate(parts.sessions, 1):
        read.session(number, session, met)
    assert read.next(3) == ["close", f"edits {parts.edits}", "audit yes"]
    assert read.next(len(parts.last)) == list(parts.last.values())
    assert read.next(1) == [f"rows {len(parts.texts)}"]
    rows = [row.split(" ", 4) for row in read.next(len(parts.texts))]
    assert [(status, text) for _, _, _, status, text in rows] == [("settled", text) for text in parts.texts]
    faults = parts.book.answer("faults")
    assert [it.partition(" ")[2] for it in read.next(len(faults))] == [it.partition(" ")[2] for it in faults]
    assert list(read.lines) == ["settled 0"]
    return met


def test_at_a_desk_the_last_values_are_those_of_the_model() -> None:
    met = sum((played_in_parts(seed) for seed in range(3 * SCHEDULES)), Counter[str]())
    assert [
        kind
        for kind in ("take order", "bring kept", "input ok", "insert row", "replace ok", "delete ok")
        if not met[kind]
    ] == []


@pytest.mark.parametrize(
    ("play", "part"),
    [
        (played, "values"),
        (played, "kept"),
        (played, "edition"),
        (played_in_parts, "values"),
        (played_in_parts, "audit"),
    ],
    ids=["value", "verdict", "edition", "last value", "audit"],
)
def test_another_reply_is_found(play: Callable[[int], object], part: str, monkeypatch: pytest.MonkeyPatch) -> None:
    """Where the last reply of a kind is another one, the schedule fails."""
    whole = written

    def wrong(script: list[str], *words: str) -> list[str]:
        found = whole(script, *words)
        at = max(place for place, reply in enumerate(found) if part in reply)
        return [*found[:at], found[at] + "1", *found[at + 1 :]]

    monkeypatch.setattr("test_schedules.written", wrong)
    with pytest.raises(AssertionError):
        play(0)
