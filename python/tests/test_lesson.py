"""docs/LESSON.md: each script in it is run, by the program and by the model, and gives what the lesson says."""

from __future__ import annotations

import os
import re
import subprocess
import sys

import pytest
from lessons import Block, compare, parts, scripts
from paris_model_book import Book
from pevudlo.wire.pipe import Pipe
from pevudlo.wire.program import ROOT, find

SCRIPTS = list(scripts())
NAMES = [f"{block.part.split('.')[0]}-{block.lines[0].replace(' ', '-')}-{at}" for at, (block, _) in enumerate(SCRIPTS)]


@pytest.mark.parametrize(("block", "before"), SCRIPTS, ids=NAMES)
def test_the_program_answers_what_the_lesson_says(block: Block, before: list[str]) -> None:
    with Pipe(find()) as pipe:
        assert compare(block, before, pipe.ask) > 0


@pytest.mark.parametrize(("block", "before"), SCRIPTS, ids=NAMES)
def test_the_definitions_give_what_the_lesson_says(block: Block, before: list[str]) -> None:
    assert compare(block, before, Book().answer) > 0


def test_the_numbers_in_the_prose_are_those_of_the_scripts() -> None:
    """What stands in the prose as `7` or `1 2 3` is in a script or a reply of the same part."""
    for part in parts():
        lines = [line for block in part.blocks for line in block.lines]
        lines += [f" {each} " for name in re.findall(r"examples/([\w-]+)\.paris", part.prose) for each in facts(name)]
        text = " " + " \n ".join(lines) + " "
        for number in re.findall(r"`(\d+(?: \d+)*)`", part.prose):
            assert f" {number} " in text, (part.heading, number)


def facts(name: str) -> list[str]:
    """How many rows an example has, and how many a pass or a generation of it has, where it goes by such."""
    lines = (ROOT / "examples" / f"{name}.paris").read_text().split("\n")
    rows = sum(line.startswith("insert ") for line in lines)
    heads = [line for line in lines if re.match(r"# (Pass|Generation) \d", line)]
    if not heads:
        return [str(rows)]
    last = len(lines) - 1 - lines[::-1].index(heads[-1])
    return [str(rows), str(sum(line.startswith("insert ") for line in lines[last:]))]


def test_the_words_for_the_prompt_show_the_generations_of_life() -> None:
    text = (ROOT / "docs" / "LESSON.md").read_text()
    (words,) = re.findall(r"^```text\n(new\n.*?)^```$", text, re.M | re.S)
    environment = {**os.environ, "PARIS_FRONT": str(find()), "PYTHONPATH": str(ROOT / "python")}
    ran = subprocess.run(
        [sys.executable, "-P", "-m", "pevudlo", "prompt"],
        input=words,
        capture_output=True,
        text=True,
        timeout=60,
        cwd=ROOT,
        env=environment,
    )
    assert (ran.returncode, ran.stderr) == (0, "") and "refused" not in ran.stdout.replace("none refused", "")
    shown = ran.stdout.split("examples/life.paris: ")[1].split("\n")
    heads = [line for line in shown if line.startswith("cell ")]
    assert heads == [f"cell {place} (G 8x8, 1 bit)" for place in ("at the start", "after row 17", "at the end")]
    drawn = re.findall(r"^# ([.O](?: [.O]){7})$", (ROOT / "examples" / "life.paris").read_text(), re.M)
    lines = [line.replace(".", "0").replace("O", "1") for line in drawn]
    empty = ["0 0 0 0 0 0 0 0"]
    for head, glider in ((heads[0], lines[:3]), (heads[2], lines[3:])):
        at = shown.index(head) + 1
        assert [line.strip() for line in shown[at : at + 8]] == glider + empty * (8 - len(glider))


def test_each_picture_is_there_with_words_and_is_small() -> None:
    text = (ROOT / "docs" / "LESSON.md").read_text()
    pictures = re.findall(r"!\[(.*?)\]\((.*?)\)", text)
    assert [name for _, name in pictures] == ["pictures/scan.png", "pictures/life.png", "pictures/sort.png"]
    for words, name in pictures:
        data = (ROOT / "docs" / name).read_bytes()
        assert data.startswith(b"\x89PNG\r\n\x1a\n") and len(data) <= 100_000 and len(words) > 40


def test_each_exercise_has_an_answer() -> None:
    *lesson, answers = parts()
    exercises = [int(number) for part in lesson for number in re.findall(r"\*\*Exercise (\d+)\.\*\*", part.prose)]
    assert exercises == list(range(1, 14))
    assert [int(number) for number in re.findall(r"^\*\*(\d+)\.\*\*", answers.prose, re.M)] == exercises


def test_the_table_has_each_part_and_an_hour() -> None:
    text = (ROOT / "docs" / "LESSON.md").read_text()
    rows = re.findall(r"^\| \[(\d)\]\(#([\w-]+)\) \| (\d+) \|", text, re.M)
    headings = [part.heading for part in parts()][:-1]
    assert [(number, anchor) for number, anchor, _ in rows] == [
        (heading[0], re.sub(r"[^\w -]", "", heading.lower()).replace(" ", "-")) for heading in headings
    ]
    assert sum(int(minutes) for _, _, minutes in rows) == 60
