"""Hints go by what a word means: instructions, directions, flags, names, and words of the prompt and the live page."""

from __future__ import annotations

import re
from pathlib import Path

import numpy
import pytest
from test_hints import DECLARED, PROGRAM, board_of

from pevudlo import Machine
from pevudlo.hints.explanation import explained
from pevudlo.hints.meanings import Where, meaning_of
from pevudlo.hints.terms import MEANT
from pevudlo.lang.instructions import INSTRUCTIONS, read
from pevudlo.lang.replies import Refused, parse
from pevudlo.live.running import RunningSession
from pevudlo.prompt.session import Session as PromptSession
from pevudlo.wire.pipe import Pipe
from pevudlo.wire.program import find

# A word, and the instructions that are meant, or that serve.
MEANINGS = {
    "mul": ["u-multiply-3-1L", "s-multiply-3-1L"],
    "divide": ["u-truncate-3-1L"],
    "mod": ["u-rem-3-1L"],
    "add": ["u-add-3-1L", "s-add-3-1L"],
    "and": ["logand-3-1L"],
    "or": ["logior-3-1L"],
    "xor": ["logxor-3-1L"],
    "not": ["lognot-2-1L", "invert-context"],
    "eq": ["u-eq-1L"],
    "less": ["u-lt-1L", "s-lt-1L"],
    "shift": ["u-multiply-3-1L", "u-truncate-3-1L", "get-from-news-1L"],
    "scan-with-mul": ["get-from-news-1L"],
    "left": ["get-from-news-1L", "send-to-news-1L"],
    "right": ["get-from-news-1L", "send-to-news-1L"],
    "news": ["get-from-news-1L", "send-to-news-1L"],
}


def hint(line: str, where: Where = Where.SCRIPT) -> str:
    """The hint for a line that the program refuses."""
    with Pipe(find()) as pipe:
        board = board_of(pipe, DECLARED + PROGRAM)
        refused = parse(pipe.ask(line))
        assert isinstance(refused, Refused), line
        return explained(line, refused, board, where).hint


def named(text: str) -> list[str]:
    """The instructions that a text names between backticks."""
    return [word for word in re.findall(r"`([^ `]+)[^`]*`", text) if word in INSTRUCTIONS]


@pytest.mark.parametrize("word", MEANINGS)
def test_an_instruction_goes_by_its_meaning(word: str) -> None:
    for written in (word, word.upper()):
        assert named(hint(f"insert end {written} a b a 8")) == MEANINGS[word]
    first = hint(f"{word} a b a 8")
    assert named(first) == MEANINGS[word] and first.endswith(
        "an instruction becomes a row by insert: `insert end INSTR`"
    )
    assert "say where" in hint(f"insert {word} a b a 8")
    assert ("there is none" in first) == (word in ("shift", "scan-with-mul"))


def test_instructions_in_hints_are_spelled_as_they_are() -> None:
    for word in (*MEANT, "send-with-mul", "spread-with-divide", "reduce-with-s-max"):
        said = meaning_of(word)
        assert said is not None
        for text in re.findall("`([^`]+)`", said):
            if text.split(" ")[0] in INSTRUCTIONS:
                read(text)


def test_a_name_that_combines_goes_by_its_meaning() -> None:
    for word, name in (("scan-with-sum", "scan-with-u-add-1L"), ("send-with-or", "send-with-logior-1L")):
        assert f"did you mean `{name}`?" in hint(f"insert end {word} a b 0 8")
        assert f"`insert end {name} a b 0 8`" in hint(f"{word} a b 0 8")


@pytest.mark.parametrize(
    "flag, serves",
    [
        ("test", "`store-test F` makes a field of it"),
        ("context", "`store-context F` makes a field of it"),
        ("carry", "`u-add-carry-3-1L D A B L` of fields of zeros makes a field of it"),
        ("overflow", "no instruction reads it, and `show` shows it"),
    ],
)
def test_a_flag_is_no_operand(flag: str, serves: str) -> None:
    for line in (f"insert end load-context S.{flag}", f"insert end get-1L a S.{flag} b 8"):
        assert hint(line).startswith(f"a flag is no operand; {serves}; here could stand ")
    for line in (f"insert end send-1L a b a 8 S.{flag}", f"replace 1 u-move-1L a S.{flag} 8"):
        assert f"a flag is no operand; {serves}" in hint(line)
    assert "a flag is no operand: a set is named alone, `S`" in hint(f"insert end set-test S.{flag}")


def test_carry_becomes_a_field_as_the_hint_says() -> None:
    with Machine() as machine:
        machine.set("S", 4)
        for name in ("a", "zero", "c"):
            machine.field(name, "S", 8)
        machine["a"] = [1, 128, 255, 127]
        for text in ("u-add-3-1L a a a 8", "u-add-carry-3-1L c zero zero 8"):
            machine.insert(text)
        machine.settle()
        assert numpy.asarray(machine["c"]).tolist() == [0, 1, 1, 0]


@pytest.mark.parametrize(
    "line", ["field a.b S 8", "field c S.test 8", "set a.b 4", "insert end u-move-1L a a.b 8", "set S.test 4"]
)
def test_a_name_has_no_dot(line: str) -> None:
    assert hint(line).startswith("a name has no dot; here could stand ")


def test_a_bare_instruction_with_a_wrong_letter_is_offered_instructions() -> None:
    for line, name in (
        ("u-ad-3-1L a a b 8", "u-add-3-1L"),
        ("set-tst S", "set-test"),
        ("lognt-2-1L a b 8", "lognot-2-1L"),
    ):
        row = " ".join([name, *line.split(" ")[1:]])
        wanted = f"did you mean `{name}`? An instruction becomes a row by insert: `insert end {row}`"
        assert hint(line) == wanted
    assert hint("settel") == "did you mean `settle`?"


WAYS = "here could stand the direction: upward to greater coordinates, or downward to lesser ones"


@pytest.mark.parametrize(
    "word, axis, way, step",
    [
        ("right", 0, "upward", (0, 1)),
        ("left", 0, "downward", (0, -1)),
        ("down", 1, "upward", (1, 0)),
        ("up", 1, "downward", (-1, 0)),
    ],
)
def test_directions_say_which_is_which(word: str, axis: int, way: str, step: tuple[int, int]) -> None:
    """Grids are drawn with axis 0 across and axis 1 down, as arrays are printed."""
    said = f"{word} is `{way}` on axis {axis}, as grids are drawn"
    assert hint(f"insert end get-from-news-1L a b {axis} {word} 8") == f"{said}; {WAYS}"
    other = hint(f"insert end scan-with-u-add-1L a b {1 - axis} 8 {word} inclusive none")
    assert other == f"{said}, and this line names axis {1 - axis}; {WAYS}"
    with Machine() as machine:
        machine.set("S", 4, 4)
        machine.field("v", "S", 8)
        machine.field("d", "S", 8)
        machine["v"] = list(range(16))
        machine.insert(f"get-from-news-1L d v {axis} {way} 8")
        machine.settle()
        there = numpy.roll(numpy.arange(16).reshape(4, 4), (-step[0], -step[1]), axis=(0, 1))
        assert numpy.asarray(machine["d"]).tolist() == there.tolist()


def test_another_word_for_a_direction_is_told_both() -> None:
    assert WAYS in hint("insert end get-from-news-1L a b 0 x 8")
    assert "did you mean `upward`? " + WAYS.capitalize() in hint("insert end get-from-news-1L a b 0 upwards 8")


def test_words_of_the_prompt_and_of_the_live_page() -> None:
    undo = "there is no undo: `delete ROW` takes a row out, `replace ROW INSTR` and `input` give what was there before"
    assert hint("undo") == undo
    assert hint("undo", Where.PROMPT) == f"{undo}. What `save FILE` saved before, `new` and then `load FILE` give back"
    assert hint("undo", Where.LIVE) == "Ctrl-Z and the button Undo take the last edit back"
    assert "the link below the line for commands gives the accepted commands" in hint("save", Where.LIVE)
    assert "in `./paris prompt` `save FILE` saves" in hint("save")
    for where in (Where.SCRIPT, Where.LIVE):
        assert "the commands are set, field, input, insert" in hint("help", where)
    assert "Enter edits a row or a number" in hint("help", Where.LIVE)


def test_the_prompt_and_the_live_page_give_their_hints(libparis: Path) -> None:
    prompt = PromptSession(find())
    prompt.begin()
    answer = prompt.tell("undo")
    prompt.close()
    assert answer is not None and answer.explanation is not None
    assert answer.explanation.hint == hint("undo", Where.PROMPT)
    live = RunningSession(libparis)
    step = live.run("undo")
    live.close()
    assert step.explanation is not None and step.explanation.hint == hint("undo", Where.LIVE)
