"""Pages of scripts: each number equals the transcript's, or a look of the program's own."""

from __future__ import annotations

import os
import random
import subprocess

import pytest
from page_checks import Data, check_page, data_for, page_with
from pages import GALLERY, ROWS, script_of, transcript_of

from pevudlo.wire.program import ROOT

SUMS = ["set S 4", "field a S 8", "field b S 8", "field c S 8", "input a 0 1 2 3 4", "insert end u-add-3-1L b a a 8"]


@pytest.mark.parametrize("name", GALLERY + ROWS)
def test_each_number_is_what_the_program_shows(name: str) -> None:
    count = check_page(data_for(name), script_of(name), transcript_of(name))
    assert count["values"] or name not in GALLERY


def random_script(seed: int) -> list[str]:
    """Edits, orders, late results and looks in no order, on two sets."""
    dice = random.Random(seed)
    lines = ["set S 4", "set T 2x2"] + [f"field {name} S 8" for name in "abc"] + ["field f S 1", "field t T 3"]
    texts = ["u-add-3-1L c a b 8", "u-subtract-3-1L a c b 8", "u-lt-1L a b 8", "store-test f", "load-context f"]
    texts += ["set-context S", "get-1L c a b 8", "send-1L b a c 8 f", "invert-context S", "my-news-coordinate-1L t 1 3"]
    texts += ["scan-with-u-add-1L b c 0 8 upward inclusive none", "u-move-always-1L a b 8", "u-add-3-1L t t t 3"]
    rows = orders = 0
    for _ in range(120):
        kind = dice.choice("iiirdptbbsskwvx")
        row, text = dice.randint(1, rows + 1), dice.choice(texts)
        if kind == "i":
            lines.append(f"insert {dice.choice(['start', 'end', f'after {row}'])} {text}")
            rows += 1
        elif kind == "b":
            lines += ["take", f"bring {dice.randint(1, orders + 1)}"]
            orders += 1
        elif kind == "p":
            lines.append(f"input {dice.choice(['a', 'b', 'S.context', 't'])} {dice.randint(0, 3)} {dice.randint(0, 3)}")
        else:
            place = dice.choice(["start", "end", f"after {row}"])
            key = dice.choice(["a", "b", "c", "f", "t", "S.test", "S.context", "T.carry"])
            lines.append(
                {"r": f"replace {row} {text}", "d": f"delete {row}", "t": "take", "k": "release"}.get(kind, "settle")
            )
            lines.append(f"show {key} {place}")
    return lines


@pytest.mark.parametrize("seed", range(12))
def test_pages_of_random_scripts(seed: int) -> None:
    lines = random_script(seed)
    data = Data(page_with(lines))
    count = check_page(data, lines)
    assert count["values"] > 100 and count["looks"] and count["refused"] and len(data.moments) > 3


def test_a_moment_is_of_each_part_that_runs_rows() -> None:
    lines = [
        *SUMS,
        "settle",
        "input a 0 9",
        "input a 1 8",
        "show b end",
        "settle",
        "show b end",
        "replace 1 set-test S",
    ]
    data = Data(page_with(lines))
    assert [moment["title"] for moment in data.moments] == ["the program", "input a 1 8", "replace 1 set-test S"]
    assert [moment["until"] for moment in data.moments] == [7, 12, 13]
    assert [moment["said"] for moment in data.moments] == ["1 row ran", "1 row ran", ""]
    assert [moment["touched"] for moment in data.moments] == [[1, 1], [1, 1], []]
    assert data.moments[1]["anew"] == ["a"] and data.moments[2]["un"] == [1, 1]
    (pending, shown) = data.moments[1]["notes"]
    assert (pending["pending"], shown["pending"]) == (1, 0)


def test_rows_that_compute_the_same_again_are_said() -> None:
    lines = [*SUMS, "insert end u-min-3-1L c b a 8", "settle", "input a 0 9", "input a 0 1", "settle"]
    data = Data(page_with(lines))
    assert "compute the same again, not run" in data.moments[1]["said"]
    assert data.moments[1]["touched"] == [] and data.moments[1]["values"] == {}


def test_comments_stand_above_their_rows() -> None:
    lines = [
        "# What it is.",
        "# More.",
        "set S 4",
        "# The field.",
        "field a S 8",
        "# Twice.",
        SUMS[-1].replace("b a", "a a"),
    ]
    lines += ["settle", "# A look.", "show a end", "# The end."]
    data = Data(page_with(lines))
    assert data.told["intro"] == ["What it is.", "More."]
    (moment,) = data.moments
    assert moment["comments"] == {"1": ["The field.", "Twice."]}
    assert [(note["kind"], note["after"]) for note in moment["notes"]] == [
        ("comment", -1),
        ("look", -1),
        ("comment", -1),
    ]


def test_values_that_are_the_same_stand_once() -> None:
    rows = [SUMS[-1]] * 30
    first, second = (len(Data(page_with([*SUMS, *more, "settle"])).block) for more in (rows[:1], rows))
    assert first == second


@pytest.mark.parametrize("name", ["first-sum", "life"])
def test_a_page_is_the_same_each_time(name: str) -> None:
    """Whatever the order in which Python goes through a set."""
    words = [str(ROOT / "paris"), "page", str(ROOT / "examples" / f"{name}.paris"), "-o", "-"]
    made = {subprocess.check_output(words, env={**os.environ, "PYTHONHASHSEED": seed}) for seed in ("1", "2", "5")}
    assert len(made) == 1
