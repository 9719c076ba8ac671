"""Scripts in profile two where people see them: pages, explanations, the prompt, live pages, files that are followed.

Each number is what the definitions give.
"""

from __future__ import annotations

import json
from pathlib import Path
from random import Random

import pytest
from live_tabs import numbers_in, rest
from page_checks import Data, check_page, page_with
from pages import answers
from paris_model_book import Book
from random_editor import compare
from test_explain import run as explained
from test_explain import said_of
from test_prompt import answers as prompted

from pevudlo.document.document import Document
from pevudlo.draw.grids import Grid, html_of, text_of
from pevudlo.live.followed import BY_THEMSELVES, FollowedSession
from pevudlo.live.running import RunningSession
from pevudlo.live.session import NOW, Look
from pevudlo.prompt.session import Session as PromptSession
from pevudlo.record.looks import packed
from pevudlo.wire.pipe import Pipe
from pevudlo.wire.program import find

WIDE = ["set S 4", "field w S 128", "field v S 100", f"input w 0 {2**127} {2**64} 1 {2**128 - 1}", "input v 0 7 0 3"]
ROWS = ["insert end u-multiply-3-1L w w w 128", "insert end u-move-2L v w 100 128"]
EDITS = ["settle", "show w end", f"input w 1 {2**65}", "settle", "show v end", f"input w 1 {2**65 + 1}", "settle"]
SCRIPT = ["# Squares.", "", "paris 2", *WIDE, *ROWS, *EDITS, "show w end", "show v start"]
REFUSED = ["paris 1", "field x S 129"]


def by_model(lines: list[str]) -> dict[int, list[str]]:
    """The model's reply to each line, by its number."""
    book = Book()
    return {number: book.answer(line) for number, line in enumerate(lines, 1) if line and not line.startswith("#")}


def test_a_page_has_the_profile_and_the_numbers() -> None:
    lines = [*SCRIPT, *REFUSED]
    data = Data(page_with(lines))
    assert [note["text"] for note in data.notes("said")] == ["Profile 2: fields of up to 128 bits"]
    assert check_page(data, lines, by_model(lines))["values"] > 10
    assert {number: reply for number, reply in enumerate(answers(lines), 1) if reply} == by_model(lines)


def test_a_page_of_the_profile_alone() -> None:
    (note,) = Data(page_with(["paris 1"])).notes("said")
    assert note["text"] == "Profile 1: fields of up to 64 bits"


def test_an_explanation_has_the_numbers(tmp_path: Path) -> None:
    path = tmp_path / "wide.paris"
    path.write_text("\n".join([*SCRIPT, *REFUSED, ""]))
    words = explained(path).stdout
    assert said_of(SCRIPT[3], "ok", 4) in words.split("\n") and "values of w at the end (S 4, 128 bits)" in words
    assert f"{2**66 + 1}" in words and "a field has 1 to 128 bits" in words and "the first command or none" in words
    told = [json.loads(line) for line in explained("--json", path).stdout.split("\n")[:-1]]
    model = by_model([*SCRIPT, *REFUSED])
    for each in told[:-1]:
        if each["kind"] == "values":
            assert ["values", *map(str, each["values"])] == model[each["line"]][0].split(" ")
            assert each["bits"] == (128 if each["key"] == "w" else 100)
    assert told[0]["kind"] == "ok" and told[-1]["refused"] == [len(SCRIPT) + 1, len(SCRIPT) + 2]


def test_the_prompt_keeps_the_profile(tmp_path: Path) -> None:
    saved = tmp_path / "wide.paris"
    told = prompted([f"save {saved}", "again", "show w end", "paris 2", "new", "paris 2"], ["paris 2", *WIDE])
    assert saved.read_text().split("\n")[:-1] == ["paris 2", *WIDE]
    numbers = WIDE[3].split(" ")[3:]
    assert f"  {' '.join(number.rjust(39) for number in numbers)}" in told
    assert any(line.startswith("refused 20 1") for line in told) and told[-1] == "ok"
    session = PromptSession(find())
    session.begin()
    try:
        for line in ("# wide", "paris 2", "set S 2"):
            session.tell(line)
        assert session.board.profile == 2
        session.start()
        assert session.board.profile == 2 and session.accepted == ["# wide", "paris 2", "set S 2"]
        session.begin()
        assert session.board.profile == 1 and not session.board.is_begun
    finally:
        session.close()


def test_numbers_are_shown_in_hex_and_signed() -> None:
    numbers = (2**127, 2**128 - 1)
    told = prompted(
        ["hex w", "signed w", "bits w"], ["paris 2", "set S 2", "field w S 128", f"input w 0 {2**127} {2**128 - 1}"]
    )
    assert told[1] == f"  {numbers[0]:032x} {numbers[1]:032x}" and told[3].split() == [str(-(2**127)), "-1"]
    assert told[5].split() == [f"{number:0128b}" for number in numbers]


def test_a_live_session_shows_wide_numbers(libparis: Path) -> None:
    session = RunningSession(libparis)
    try:
        assert not session.run("paris 2").is_refused
        assert session.load([*WIDE, *ROWS, "settle"]) == []
        assert session.run("paris 2").lines == ("refused 20 1",)
        rest(session)
        wanted = [int(number) for number in by_model(SCRIPT)[12][0].split(" ")[1:]]
        row = max(row for row, text in session.board.texts.items() if "w" in session.board.keys_written(text))
        (piece,) = session.looks([Look("w", row, False, NOW)], session.version, session.edits)
        assert numbers_in(piece) == wanted and session.script().startswith("paris 2\nset S 4\n")
    finally:
        session.close()


def test_a_profile_is_put_into_an_empty_file(tmp_path: Path, libparis: Path) -> None:
    path = tmp_path / "wide.paris"
    path.write_text("# Wide.\n")
    session = FollowedSession(path, libparis, 1)
    try:
        session.look()
        assert session.run("paris 3").is_refused and session.text == "# Wide.\n"
        assert session.run("paris 2").lines == ("ok",) and path.read_text() == "# Wide.\nparis 2\n"
        for line in WIDE:
            assert not session.run(line).is_refused, line
        session.run(ROWS[0])
        text = path.read_text().split("\n")[:-1]
        assert text[:2] == ["# Wide.", "paris 2"] and text[-1] == ROWS[0].removeprefix("insert end ")
        assert sorted(text[2:-1]) == sorted(WIDE)
        assert session.run("paris 1").lines == ("refused 20 1",)
        with pytest.raises(ValueError, match=BY_THEMSELVES):
            session.run("settle")
        compare(session.document, session.document.lines)
    finally:
        session.close()


FIRST = ("paris 2", "paris 1", "paris 3", "paris", "# paris 2", "", "settle", "list", "set S 4", "zzz")


@pytest.mark.parametrize("seed", range(4))
def test_random_first_lines_of_a_file(seed: int) -> None:
    """A file whose first lines are put in, changed and taken out is what a fresh run of its text says."""
    chance, rest = Random(seed), [*WIDE, *ROWS, "show w end"]
    above: list[str] = []
    with Document(lambda: Pipe(find(), 1)) as document:
        for _ in range(12):
            at = chance.randrange(len(above) + 1)
            above[at : at + chance.randrange(2)] = [chance.choice(FIRST)] * chance.randrange(2)
            lines = [*above, *rest]
            if chance.random() < 0.3:
                document.update_lines(list(lines), hold=True)
            document.update_lines(lines)
            compare(document, lines)
            rest = [*rest, chance.choice(["u-add-3-1L w w v 100", "input v 0 9", f"input w 2 {2**100}"])]


def test_pictures_of_wide_numbers() -> None:
    numbers = [2**128 - 1 - place * 2**110 for place in range(2_048)]
    grid = Grid("w", (2_048,), 128, packed(numbers, 128))
    assert "greatest 340282366920938463463374607431768211455" in text_of(grid)
    assert "data:image/png" in html_of(grid)
