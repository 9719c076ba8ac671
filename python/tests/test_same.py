"""What is said of rows that are cut off, on pages, by `explain` and the prompt. The book is the model."""

from __future__ import annotations

import re
from collections.abc import Sequence
from paris_model_book import Book
from random_scripts import RandomScript
from test_explain import said_of

from pevudlo.document.answers import mark_of
from pevudlo.document.document import Document
from pevudlo.document.marks import headline
from pevudlo.explain.objects import object_of
from pevudlo.explain.words import told
from pevudlo.page.page import page_of
from pevudlo.talk import Talk
from pevudlo.wire.program import ROOT

COMMANDS = 60
SCRIPTS = 30
LEAST_KNOWN = 20
SUMS = """set S 4
field a S 8
field b S 8
field c S 8
field d S 8
field e S 8
input a 0 1 2 3 4
insert end u-add-3-1L c a b 8
insert end u-add-3-1L d b b 8
insert end u-max-3-1L e a b 8
settle""".split(
    "\n"
)


class ModelPeer:
    """The model in the place of a program: it answers accepted lines alone."""

    def __init__(self) -> None:
        self.book = Book()

    def ask(self, line: str) -> list[str]:
        return self.book.answer(line)

    def ask_all(self, lines: Sequence[str]) -> list[list[str]]:
        return [self.ask(line) for line in lines]

    def close(self) -> int:
        return 0


def explained(lines: list[str], first: list[str] = SUMS) -> list[str]:
    """What is said of each line behind the first ones, which make the sums."""
    talk = Talk(ModelPeer())
    heads = []
    for line in [*first, *lines]:
        answer = talk.tell_causes(line)
        assert answer is not None
        heads.append(told(answer, talk.board)[0])
    return heads[len(first) :]


def test_a_line_says_which_rows_compute_the_same_again() -> None:
    verdict = "kept: the result is the present row's, and settles it"
    assert explained(["input a 0 1", "replace 3 u-min-3-1L e a b 8", "replace 3 u-max-3-1L e a b 8"]) == [
        "ok: rows 1, 2, 3 compute the same again, not run",
        "ok",
        "ok: row 3 computes the same again, not run",
    ]
    assert explained(["input a 0 9", "take", "bring 1", "settle", "settle"])[2:] == [
        f"{verdict}; row 2 computes the same again, not run",
        "settled 1",
        "settled 0",
    ]
    assert explained(["input a 0 9", "settle"]) == ["ok", "settled 2: 1 row computes the same again, not run"]
    assert explained(["delete 3", "insert start u-max-3-1L e a b 8", "settle"]) == ["ok", "row 4", "settled 1"]
    assert explained(["field f S 1", "input a 0 9", "release"]) == ["ok", "ok", "ok"]


def test_the_document_shows_what_is_said() -> None:
    text = (ROOT / "docs/PEOPLE.md").read_text(encoding="utf-8").split("Of the script `same.paris`")[1]
    script, written = re.findall(r"```\n(.*?)```", text, re.S)[:2]
    lines, shown = script.split("\n")[:-1], written.split("\n")[:-1]
    said = explained(lines, [])
    assert shown == [
        *(said_of(lines[at - 1], said[at - 1], at) for at in range(9, len(lines) + 1)),
        f"{len(lines)} commands, none refused",
    ]


def test_objects_have_the_rows_or_their_count() -> None:
    talk = Talk(ModelPeer())
    objects = []
    for line in [*SUMS, "input a 0 1", "input a 0 9", "settle"]:
        answer = talk.tell_causes(line)
        assert answer is not None
        objects.append(object_of(1, answer, talk.board))
    first, second, third = objects[-3:]
    assert (first["same"], first["same_rows"]) == (3, [1, 2, 3]) and "same" not in second
    assert (third["settled"], third["same"], third["same_rows"]) == (2, 1, None)


def said_on_page(lines: list[str], numbers: int = 10_000) -> str:
    """What the page of a script says of its last run."""
    moments = page_of("sums", lines, ModelPeer(), numbers=numbers).moments.moments
    return str(moments[-1]["said"])


def test_a_page_says_how_many_rows_compute_the_same_again() -> None:
    said = said_on_page([*SUMS, "input a 0 1", "input a 0 9", "settle"])
    assert said == "3 compute the same again, not run, 2 rows ran, 1 computes the same again, not run"
    # (no numbers are looked at)
    assert said_on_page([*SUMS, "input a 0 9", "settle"], 0) == "2 rows ran, 1 computes the same again, not run"


def test_a_row_that_leaves_what_it_left_before_is_said_to_have_run() -> None:
    """Row 4 reads a, and leaves what it left before."""
    lines = [*SUMS, "insert end u-min-3-1L b a b 8", "settle", "input a 0 9", "settle"]
    assert said_on_page(lines) == "3 rows ran, 1 computes the same again, not run"


def test_what_follows_a_file_says_how_many_rows_ran() -> None:
    text = "\n".join(line for line in SUMS if line != "settle")
    with Document(ModelPeer) as document:
        heads, states = [], []
        for number in ("1", "9", "9", "1"):
            done = document.update(text.replace("input a 0 1", f"input a 0 {number}"))
            heads.append(headline(document, done))
            states.append("".join(mark_of(document, at, done).state.value for at in range(7, 10)))
    again = "2 of 3 rows ran again, 1 computes the same again, not run"
    assert heads == ["a new book (the first text): 3 of 3 rows ran", again, "0 of 3 rows ran again", again]
    assert states == ["▶▶▶", "▶=▶", "   ", "▶=▶"]


def check_script(seed: int) -> int:
    """Fails where a row of a random script is said to be cut off that ran. Gives how many are known to be."""
    peer, known = ModelPeer(), 0
    talk = Talk(peer)
    for line in RandomScript(seed, COMMANDS).lines:
        before = len(peer.book.cut)
        answer = talk.tell_causes(line)
        cut = {each.row for each in peer.book.cut[before:]}
        assert answer is not None and answer.same == len(cut) and set(answer.same_rows) <= cut
        assert answer.same_rows or not cut or line == "settle"
        known += len(answer.same_rows)
    return known


def test_no_row_is_said_to_be_cut_off_that_ran() -> None:
    assert sum(check_script(seed) for seed in range(SCRIPTS)) >= LEAST_KNOWN
