"""`paris check`: what files give beside their comments and beside a solution, and the exercises of the lesson."""

from __future__ import annotations

import re
import subprocess
from pathlib import Path

import pytest
from lessons import parts
from paris_model_book import Book
from usages import is_usage_of

from pevudlo.exercise.looks import Check, Outcome, Verdict, checks_in, compared, places, said_in, stretches
from pevudlo.exercise.solution import Wanted, inputs_in, later, read_solution
from pevudlo.exercise.words import counted, difference
from pevudlo.wire.program import ROOT

LESSON = ROOT / "examples/lesson"
EXERCISES = sorted(LESSON.glob("*.paris"))
ANSWERS = {"1-one-instruction": 2, "2-who-takes-part": 3, "5-neighbours": 8, "6-letters": 10, "7-sorting": 12}
"""Which exercise of the lesson a file is, where it is one."""

HEAD = ["set S 4", "field a S 8", "field c S 8", "input a 0 1 2 3 4"]
TWICE = ["insert end u-add-3-1L c a a 8"]
LOOK = ["settle", "show c end"]


def check(*words: str | Path) -> tuple[int, str, str]:
    """The exit status of a check, what it writes, and what it says of its words."""
    ran = subprocess.run([ROOT / "paris", "check", *words], capture_output=True, text=True, timeout=60)
    return ran.returncode, ran.stdout, ran.stderr


def put(folder: Path, name: str, *lines: str) -> Path:
    """A file with these lines."""
    file = folder / name
    file.write_text("".join(f"{line}\n" for line in lines))
    return file


# The exercises of the lesson.


def test_each_exercise_has_a_solution() -> None:
    assert [file.name for file in EXERCISES] == sorted(file.name for file in (LESSON / "solutions").iterdir())
    assert len(EXERCISES) == 6


@pytest.mark.parametrize("file", EXERCISES, ids=[file.stem for file in EXERCISES])
def test_a_solution_gives_what_its_comments_say_by_the_definitions(file: Path) -> None:
    book, said, lines = Book(), 0, (LESSON / "solutions" / file.name).read_text().splitlines()
    for line, below in zip(lines, [*lines[1:], ""]):
        reply = book.answer(line) if line and not line.startswith("#") else ["ok"]
        assert not reply[0].startswith("refused"), line
        if line.startswith("show "):
            assert [f"# {reply[0]}"] == [below], line
            said += 1
    assert said >= 3


@pytest.mark.parametrize("file", EXERCISES, ids=[file.stem for file in EXERCISES])
def test_an_exercise_wants_what_its_solution_gives_and_is_not_done_yet(file: Path) -> None:
    solution = LESSON / "solutions" / file.name
    exercise = file.read_text().splitlines()
    wanted = checks_in(read_solution(solution.read_text().splitlines()).lines)
    assert checks_in(exercise) == wanted and all(each.said for each in wanted)
    assert check(solution)[0] == check(solution, solution)[0] == 0
    for words in ([file], [file, solution]):
        status, written, said = check(*words)
        assert status == 1 and said == "" and "refused" not in written and written.count("\n") == 1 + len(wanted)


@pytest.mark.parametrize(("name", "number"), ANSWERS.items())
def test_what_is_wanted_is_the_answer_of_the_lesson(name: str, number: int) -> None:
    *_, answers = parts()
    block = next(each for each in answers.blocks if f"**{number}.**" in each.above)
    values = [line for line in block.lines if line.startswith("# values")]
    said = [line for line in (LESSON / f"{name}.paris").read_text().splitlines() if line.startswith("# values")]
    assert said[0] == values[0]


def test_an_answer_that_holds_for_one_input_alone_is_found() -> None:
    text = (LESSON / "2-who-takes-part.paris").read_text().splitlines()
    at = text.index("")
    learnt = [*text[:at], "input bit 0 0 1 0 25", *["insert end u-subtract-3-1L a a bit 8"] * 2, *text[at:]]
    solution = LESSON / "solutions/2-who-takes-part.paris"
    wanted = Wanted(read_solution(solution.read_text().splitlines()))
    try:
        (verdict,) = wanted.judged(learnt)
    finally:
        wanted.close()
    # 4 - 2 * 1 and 100 - 2 * 25 are right; of the first further block 1 - 2 * 1 isn't.
    assert verdict == Verdict(Outcome.WRONG, 1, 255, 1, 3, 1)


# What is compared.


def test_comments_that_say_values() -> None:
    assert said_in("# values 1 22 0") == (1, 22, 0)
    for comment in (
        "# values",
        "# values ",
        "# values 1  2",
        "# values 1 x",
        "#values 1",
        "# pending 1",
        "# values -1",
    ):
        assert said_in(comment) is None


def test_looks_are_found_by_their_line_and_how_many_stand_above() -> None:
    lines = ["show c end", "# values 1", "show c start", "show c end", "shows", "show c", "show c end", "# x"]
    found = checks_in(lines)
    assert found == [
        Check("show c end", 0, (1,)),
        Check("show c start"),
        Check("show c end", 1),
        Check("show c end", 2),
    ]
    assert places(lines, found) == [0, 2, 3, 6]
    assert places(lines[:4], found) == [0, 2, 3, None]


def test_verdicts() -> None:
    assert compared([1, 2, 3], [1, 2, 3]) == Verdict(Outcome.RIGHT)
    assert compared([1, 9, 9], [1, 2, 3]) == Verdict(Outcome.WRONG, 1, 9, 2, 2)
    assert compared([1, 2], [1, 2, 3]) == Verdict(Outcome.WRONG, -1, 2, 3)
    assert compared(None, [1]) == compared([1], None) == Verdict(Outcome.NOTHING)
    wrong, right = Verdict(Outcome.WRONG, 1, 2, 3, 1), Verdict(Outcome.RIGHT)
    assert later([right, wrong, right], [Verdict(Outcome.WRONG, block=1), right, Verdict(Outcome.RIGHT, block=1)]) == [
        Verdict(Outcome.WRONG, block=1),
        wrong,
        Verdict(Outcome.RIGHT, block=1),
    ]


def test_a_script_is_told_up_to_its_looks() -> None:
    lines = [
        "set S 4",
        "field a S 8",
        "show a end",
        "# values 0 0 0 0",
        "settle",
        "show a start",
        "input a 0 1",
        "show a end",
    ]
    assert list(stretches(lines)) == [6, 8]
    assert list(stretches(lines[:2])) == [] and list(stretches([])) == []


def test_words_of_a_difference() -> None:
    assert difference(Verdict(Outcome.WRONG, 1, 9, 2, 1)) == "processor 1 has 9 where 2 is wanted"
    assert difference(Verdict(Outcome.WRONG, 0, 9, 2, 2)).endswith(", and so is one more")
    assert difference(Verdict(Outcome.WRONG, 0, 9, 2, 1000)).endswith(", and so are 999 more")
    assert difference(Verdict(Outcome.WRONG, -1, 1, 8)) == "it has 1 processor, and 8 are wanted"
    said = [counted(*each) for each in ((1, 1), (2, 2), (3, 3), (0, 1), (1, 3))]
    assert [words.removesuffix(" what is wanted") for words in said] == [
        "the look gives",
        "both looks give",
        "all 3 looks give",
        "0 of 1 looks give",
        "1 of 3 looks gives",
    ]


def test_a_solution_is_its_program_and_blocks() -> None:
    lines = [
        *HEAD,
        *TWICE,
        *LOOK,
        "input a 0 5",
        "# more",
        "input a 1 6",
        "settle",
        "show c end",
        "input a 0 7",
        "settle",
    ]
    solution = read_solution(lines)
    assert solution.lines == (*HEAD, *TWICE, *LOOK) and solution.blocks == (
        ("input a 0 5", "input a 1 6"),
        ("input a 0 7",),
    )
    assert solution.given(2) == ("input a 0 5", "input a 1 6", "input a 0 7") and solution.given(0) == ()
    with pytest.raises(ValueError, match="line 9: behind further input data"):
        read_solution([*HEAD, *TWICE, *LOOK, "input a 0 5", *TWICE])
    assert inputs_in([*lines, "input", "# input a 0 1"]) == (
        "input a 0 1 2 3 4",
        "input a 0 5",
        "input a 1 6",
        "input a 0 7",
    )


# The command.


def test_a_file_beside_its_comments(tmp_path: Path) -> None:
    told = [*HEAD, *TWICE, *LOOK, "# values 2 4 6 8", "show a end"]
    assert check(put(tmp_path, "a.paris", *told)) == (0, "a.paris: the look gives what is wanted\n", "")
    wrong = put(tmp_path, "b.paris", *HEAD, *LOOK, "# values 2 4 6 8")
    said = (
        "b.paris: 0 of 1 looks give what is wanted\n"
        "  line 6: show c end gives 0 0 0 0, and 2 4 6 8 is wanted: "
        "processor 0 has 0 where 2 is wanted, and so are 3 more\n"
    )
    assert check(wrong) == (1, said, "")
    assert check(put(tmp_path, "c.paris", *HEAD, "show c end")) == (
        1,
        "c.paris: no look has a comment `# values ..` below it\n",
        "",
    )


def test_a_script_is_read_from_above_to_below(tmp_path: Path) -> None:
    lines = [*HEAD, *TWICE, "show c end", "# values 2 4 6 8", "input a 0 7", "show c end", "# values 14 4 6 8"]
    lines += ["delete 1", "show c end", "# values 0 0 0 0"]
    assert check(put(tmp_path, "a.paris", *lines))[0] == 0
    assert check(put(tmp_path, "b.paris", *[line.replace("14", "15") for line in lines]))[1].count("\n") == 2


def test_a_file_beside_a_solution(tmp_path: Path) -> None:
    solution = put(tmp_path, "solution", *HEAD, *TWICE, *LOOK, "input a 0 100 200", "settle", "show c end")
    other = [line.replace("1 2 3 4", "9 9 9 9") for line in HEAD]
    assert check(put(tmp_path, "a.paris", *other, "u-add-3-1L c a a 8", *LOOK), solution)[0] == 0
    constant = put(tmp_path, "b.paris", *HEAD, "input c 0 2 4 6 8", *LOOK)
    assert check(constant, solution) == (
        1,
        "b.paris: 0 of 1 looks give what is wanted\n  line 7: show c end isn't as it is wanted with block 1 of further "
        "input data: processor 0 has 2 where 200 is wanted, and so is one more\n",
        "",
    )
    lacking = check(put(tmp_path, "c.paris", *HEAD, "u-ad c a a 8"), solution)[1]
    assert "  show c end is wanted, and there is no such line\n" in lacking and "  line 5 is refused: " in lacking


def test_lines_and_rows_that_are_refused_are_told(tmp_path: Path) -> None:
    send = ["insert end send-1L c c a 8 none", "show c end", "# values 0 0 0 0"]
    status, written, _ = check(put(tmp_path, "a.paris", *HEAD, *send))
    assert status == 0 and re.search(r"^  line 5 stores nothing, since two messages meet", written, re.M)


def test_the_page_shows_what_is_written(tmp_path: Path) -> None:
    part = (ROOT / "docs/PEOPLE.md").read_text().split("\n## check\n")[1].split("\n## ")[0]
    text, written = re.findall(r"^```\n(.*?)^```$", part, re.M | re.S)[:2]
    (tmp_path / "double.paris").write_text(text)
    assert check(tmp_path / "double.paris") == (1, written, "")


def test_a_folder_of_files(tmp_path: Path) -> None:
    programs: dict[str, list[str]] = {"Ann": TWICE, "Bob": []}
    for name, row in programs.items():
        put(tmp_path, f"{name}.paris", *HEAD, *row, *LOOK, "# values 2 4 6 8")
    put(tmp_path, "notes.txt", "nothing")
    status, written, _ = check(tmp_path)
    heads = [line for line in written.splitlines() if not line.startswith(" ")]
    assert status == 1 and heads == [
        "Ann.paris: the look gives what is wanted",
        "Bob.paris: 0 of 1 looks give what is wanted",
        "1 of 2 files are as they are wanted",
    ]


def test_what_cannot_be_checked(tmp_path: Path) -> None:
    (tmp_path / "empty").mkdir()
    file = put(tmp_path, "a.paris", *HEAD)
    wrong: list[tuple[list[str | Path], str]] = [
        (["/nope"], "can't read /nope: No such file or directory"),
        (
            [tmp_path / "empty"],
            f"can't read {tmp_path / 'empty'}: it is a folder with no file whose name ends in .paris",
        ),
        ([file, "/nope"], "can't read /nope: No such file or directory"),
        ([file, file], "the solution has no look, so nothing is wanted"),
    ]
    for words, said in wrong:
        assert check(*words) == (2, "", f"paris check: {said}\n")
    status, written, usage = check()
    assert (status, written) == (2, "") and is_usage_of("check", usage)
