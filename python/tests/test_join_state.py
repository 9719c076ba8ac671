"""Editors and a server that are kept in step: the part that sends nothing, in any order of what is on its way."""

from __future__ import annotations

import os

import pytest
from join_model import MANNERS, Manner, Play

from pevudlo.join.edits import Hunk, hunks, is_made_in_part
from pevudlo.join.joined import lines_of
from pevudlo.join.merging import Line, begun, merged, seen, wanted
from pevudlo.join.state import Put, Send, State
from pevudlo.lsp.opened import Opened
from pevudlo.serve.lines import LAST, Change, Op

SEEDS, STEPS = 300 if "PEVUDLO_JOINED" in os.environ else 12, 1_500
BASE = [Line(1, "a"), Line(2, "b"), Line(3, "c")]


@pytest.mark.parametrize("manner", MANNERS, ids=[manner.name for manner in MANNERS])
def test_two_of_one_manner_lose_nothing_and_have_nothing_twice(manner: Manner) -> None:
    for seed in range(SEEDS):
        play = Play(seed, (manner, manner))
        play.run(STEPS)
        play.settle()
        play.check()


def test_four_of_several_manners_lose_nothing_and_have_nothing_twice() -> None:
    for seed in range(SEEDS):
        play = Play(seed, MANNERS[:4])
        play.run(STEPS)
        play.settle()
        play.check()


def joined(*lines: Line) -> State:
    """A state of an editor that has the lines of a server."""
    state = State([line.text for line in lines], 1)
    state.told_text({"n": 1, "lines": [[line.id, line.text, 1] for line in lines]})
    return state


def op(number: int, op: str, line: int, text: str = "", after: int = 0) -> dict[str, object]:
    """What was done to a line, as a server tells it."""
    return {"n": number, "by": 2, "op": op, "id": line, "text": text, "after": after}


def test_what_an_editor_says_that_it_did_counts_once_its_text_has_it() -> None:
    """The editor says that it made an edit, and didn't: what others did isn't taken for taken out."""
    state = joined(*BASE)
    state.told_op(op(2, "insert", 4, "x", 1))
    assert state.next(0.0) == Put(1, ["a", "b", "c"], ["a", "x", "b", "c"])
    state.put_answered(True, 0.0)
    state.changed(["a", "b", "c", "d"], 2, 3, 0.0)
    assert state.base == BASE and state.next(1.0) == Put(2, ["a", "b", "c", "d"], ["a", "x", "b", "c", "d"])


def test_what_was_typed_behind_an_edit_is_told_from_it() -> None:
    state = joined(*BASE)
    state.told_op(op(2, "insert", 4, "x", 1))
    assert isinstance(state.next(0.0), Put)
    state.put_answered(True, 0.0)
    state.changed(["a", "x", "b", "mine", "c"], 2, 3, 0.0)
    assert state.next(1.0) == Send([Change(Op.INSERT, 2, text="mine")])


def told_in_part() -> State:
    """A state of an editor that tells of an edit of two parts in two texts, of which one came, and that answered."""
    state = joined(*BASE)
    state.told_op(op(2, "insert", 4, "x", 0))
    state.told_op(op(2, "insert", 5, "y", 2))
    assert state.next(0.0) == Put(1, ["a", "b", "c"], ["x", "a", "b", "y", "c"])
    state.put_answered(True, 0.0)
    state.changed(["a", "b", "y", "c"], 2, 2, 0.0)
    return state


def test_an_edit_that_is_told_part_by_part_is_not_taken_for_typed() -> None:
    state = told_in_part()
    assert state.next(5.0) is None
    state.changed(["x", "a", "b", "y", "c"], 3, 0, 5.0)
    assert state.next(5.0) is None and state.is_at_rest and not state.has_typed


def test_what_was_typed_behind_a_part_of_an_edit_is_told_from_its_other_parts() -> None:
    state = told_in_part()
    state.changed(["x", "a", "mine", "b", "y", "c"], 3, 3, 0.0)
    assert state.next(1.0) == Send([Change(Op.INSERT, 1, text="mine")])


def test_a_part_of_an_edit_that_does_not_come_is_put_again() -> None:
    state = told_in_part()
    assert state.next(9.9) is None
    assert state.next(10.1) == Put(2, ["a", "b", "y", "c"], ["x", "a", "b", "y", "c"])


def test_a_line_that_is_being_typed_is_held_and_not_touched() -> None:
    state = joined(*BASE)
    state.changed(["a", "mine", "c"], 2, 1, 10.0)
    state.told_op(op(2, "replace", 2, "theirs"))
    state.told_op(op(2, "replace", 3, "d"))
    assert state.next(10.1) is None
    state.left(0)
    assert state.next(10.1) == Put(2, ["a", "mine", "c"], ["a", "mine", "d"])
    state.changed(["a", "mine", "d"], 3, None, 10.1)
    state.put_answered(True, 10.1)
    assert state.next(10.2) == Send([Change(Op.REPLACE, 2, "b", "mine")])


@pytest.mark.parametrize(("seconds", "is_sent"), [(0.29, False), (0.31, True)])
def test_a_line_that_is_still_is_sent(seconds: float, is_sent: bool) -> None:
    state = joined(*BASE)
    state.changed(["a", "mine", "c"], 2, 1, 10.0)
    assert isinstance(state.next(10.0 + seconds), Send) == is_sent


def test_others_edits_wait_for_two_seconds_at_most_while_somebody_types() -> None:
    state = joined(*BASE)
    state.told_op(op(2, "replace", 3, "d"))
    for tenth in range(19):
        state.changed(["a", f"mine {tenth}", "c"], 2 + tenth, 1, tenth / 10)
        assert state.next(tenth / 10) is None
    state.changed(["a", "mine", "c"], 30, 1, 2.05)
    assert state.next(2.05) == Put(30, ["a", "mine", "c"], ["a", "mine", "d"])


def test_what_is_not_allowed_is_found_and_the_rest_is_sent() -> None:
    state = joined(*BASE)
    state.changed(["no", "b", "yes"], 2, None, 0.0)
    now = 0.0
    sent: list[list[Change]] = []
    while (step := state.next(now)) is not None:
        assert isinstance(step, Send)
        sent.append(list(step.changes))
        if any(change.text == "no" for change in step.changes):
            state.refused(False, now)
        else:
            state.accepted(2, [])
        now += 10.0
    assert [[change.text for change in changes] for changes in sent] == [["no", "yes"], ["no"], ["yes"]]
    state.told_op(op(2, "replace", 3, "yes"))
    assert state.next(now) is None and state.texts == ["no", "b", "yes"]


def test_lines_that_are_put_one_below_another_follow_each_other() -> None:
    found = wanted(BASE, ["a", "x", "y", "b", "c", "z"], (), 9, 99)
    assert found.changes == [
        Change(Op.INSERT, 1, text="x"),
        Change(Op.INSERT, LAST, text="y"),
        Change(Op.INSERT, 3, text="z"),
    ]
    assert [line.id for line in found.base] == [1, -2, -3, 2, 3, -4]


def test_a_text_that_joins_becomes_what_is_shared() -> None:
    base = begun(BASE, ["old", "b", "older"])
    assert merged(base, BASE, ["old", "b", "older"], None).texts == ["a", "b", "c"]


@pytest.mark.parametrize("is_likely", [False, True])
@pytest.mark.parametrize("texts", [["a", "b", "c"], ["a", "", "b", "c"], ["", "a", "b", "c"]])
def test_an_empty_line_of_ones_own_is_not_taken_for_two(texts: list[str], is_likely: bool) -> None:
    """Another one's empty line is put beside one that is there: however many are there, none counts twice."""
    base = [Line(1, "a"), Line(5, ""), *BASE[1:]]
    target = [Line(1, "a"), Line(5, ""), Line(6, ""), *BASE[1:]]
    found = seen(base, target, texts, is_likely)
    assert sum(line.id == 6 for line in found) <= texts.count("")


@pytest.mark.parametrize("end", ["\n", "\r\n"])
@pytest.mark.parametrize("last", ["", "b", "b\n", "\n"])
def test_lines_are_the_same_with_either_end(end: str, last: str) -> None:
    file = Opened("file:///text.paris", f"a\n{last}".replace("\n", end), 1, lambda: pytest.fail("no peer is wanted"))
    assert lines_of(file) == f"a\n{last}".splitlines()


def test_parts_of_an_edit() -> None:
    assert hunks(["a", "b", "c"], ["x", "a", "c", "d"]) == [Hunk(0, 0, ["x"]), Hunk(1, 2, []), Hunk(3, 3, ["d"])]


@pytest.mark.parametrize(
    ("texts", "is_in_part"),
    [
        ("abc", False),
        ("xabc", True),
        ("abcd", True),
        ("xac", True),
        ("acd", True),
        ("xacd", False),
        ("xab", False),
        ("xabcz", False),
        ("abbc", False),
    ],
)
def test_a_text_on_the_way_has_some_parts_of_an_edit_and_nothing_else(texts: str, is_in_part: bool) -> None:
    assert is_made_in_part([*"abc"], [*"xacd"], [*texts]) == is_in_part


@pytest.mark.parametrize("texts", ["aba", "aab"])
def test_a_part_that_puts_the_same_line_as_another_one_may_be_there_alone(texts: str) -> None:
    assert is_made_in_part([*"ab"], [*"aaba"], [*texts])
