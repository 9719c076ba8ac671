"""Refusals in words: for each mistake of a new user the hint says what is wrong and what there is."""

from __future__ import annotations

import pytest

from pevudlo.hints.explanation import Explanation, Refusal, explained
from pevudlo.hints.meanings import Where
from pevudlo.lang.board import Board
from pevudlo.lang.faults import FAULTS
from pevudlo.lang.replies import Refused, parse
from pevudlo.wire.pipe import Pipe
from pevudlo.wire.program import find

DECLARED = [
    "set S 4x4",
    "set T 8",
    "field a S 8",
    "field b S 8",
    "field f S 1",
    "field t T 8",
    "field g T 1",
]
PROGRAM = ["insert end u-move-1L a b 8", "insert end set-context S"]

# A line, its fault, and what its hint says.
MISTAKES: list[tuple[str, int, list[str]]] = [
    ("help", 20, ["set, field, input, insert"]),
    ("Set S 4", 20, ["did you mean `set`"]),
    ("sho a end", 20, ["did you mean `show`"]),
    ("print a", 20, ["`show KEY end`"]),
    ("run", 20, ["`settle`"]),
    ("zzzz", 20, ["begins with one of `set`, `field`"]),
    ("u-add-3-1L a a b 8", 20, ["`insert end u-add-3-1L a a b 8`"]),
    ("insert u-add-3-1L a a b 8", 20, ["`insert end u-add-3-1L a a b 8`", "`start`, `after` or `end`"]),
    ("insert end u-add a a b 8", 20, ["did you mean `u-add-3-1L`"]),
    ("insert end scan-with-add-1L a b 0 8 upward inclusive none", 20, ["did you mean `scan-with-u-add-1L`"]),
    ("insert end scan-with-u-add-1L a b 0 8 upwards inclusive none", 20, ["did you mean `upward`"]),
    ("insert after 1 get-1L a b f", 20, ["ends too soon", "the length", "`get-1L D B A L`"]),
    ("insert end logand-3-1L a b a -1", 20, ["no sign", "the length in bits", "`logand-3-1L D A B L`"]),
    ("insert end set-test S 8", 20, ["nothing more belongs there", "`set-test S`"]),
    ("insert end u-add-3-1L a a b", 20, ["ends too soon", "length", "`u-add-3-1L D A B L`"]),
    ("insert end u-add-3-1L a", 20, ["ends too soon", "and 2 more"]),
    ("set S 4 4", 20, ["`set S 4x4`"]),
    ("set U 4,4", 20, ["between two lengths stands x"]),
    ("set U 4x4 # a grid", 20, ["a comment has a line of its own"]),
    ("field c S 8 ", 20, ["an empty word"]),
    ("field  c S 8", 20, ["an empty word"]),
    ("field c S", 20, ["ends too soon", "its width"]),
    ("field A-very-long-name-of-a-field S 8", 20, ["at most 16 letters, and this one has 27"]),
    ("field 2nd S 8", 20, ["begins with a letter"]),
    ("field none S 8", 20, ["`none` is no name"]),
    ("input a 0 1,2,3", 20, ["is a space, and no comma"]),
    ("input a 0 -1", 20, ["no sign"]),
    ("input a 0 007", 20, ["no leading zeros"]),
    ("input a 0 0xff", 20, ["numbers are decimal"]),
    ("input a 0 1.5", 20, ["whole"]),
    (f"input a 0 {2**128}", 20, ["below 2^128"]),
    (f"delete {2**64}", 20, ["below 2^64"]),
    ("input S.contxt 0 1", 20, ["did you mean `S.context`"]),
    ("settle\r", 20, ["a carriage return"]),
    ("\x7fELF\r\x02", 20, ["ASCII"]),
    ("insert 1 set-test S", 20, ["`insert after 1 INSTR`", "`after`"]),
    ("show\ta end", 20, ["a tab stands here"]),
    ("show a", 20, ["`start`, `after` or `end`"]),
    ("show a end now", 20, ["nothing more belongs there"]),
    ("show ä end", 20, ["ASCII"]),
    ("set U 6", 2, ["6 is no power of two"]),
    ("set U 3x5x2", 2, ["3 and 5 are no powers of two"]),
    ("set U 2x2x2x2x2", 2, ["at most 4 axes, and here are 5"]),
    ("set U 1024x1024", 2, ["65,536 processors"]),
    ("set a 4", 3, ["`a` is a field of `S` of 8 bits"]),
    ("field S S 8", 3, ["`S` is a set of axes 4x4"]),
    ("field c U 8", 4, ["`U` isn't declared", "`S` and `T`"]),
    ("field c s 8", 4, ["did you mean `S`"]),
    ("insert end set-context a", 4, ["`a` is a field", "its set is `S`"]),
    ("field c S 65", 6, ["65", "1 to 64 bits", "where `paris 2` is the first command, it has up to 128"]),
    ("field c S 129", 6, ["the width is 129, and a field has 1 to 64 bits"]),
    ("paris 2", 20, ["`paris` is the first command or none"]),
    ("pariss 2", 20, ["begins with one of `set`, `field`"]),
    ("input c 0 1", 7, ["`c` isn't declared", "`a`, `b`, `f`, `t` and `g`"]),
    ("show S end", 7, ["`S` is a set, and a field is wanted here"]),
    ("show U.context end", 7, ["`U` isn't declared", "sets are `S` and `T`"]),
    ("insert end u-add-3-1L a x y 8", 7, ["`x` isn't declared", "`y` isn't declared"]),
    ("input a 14 1 2 3", 8, ["16 processors", "From processor 14 on is room for 2", "here are 3 values"]),
    ("input a 16 1", 8, ["From processor 16 on is room for 0", "here is 1 value."]),
    ("input a 2 1 256 300", 9, ["256 needs more than the 8 bits of `a`", "greatest value is 255"]),
    ("insert after 7 set-context S", 10, ["no row has the id 7", "rows are 1 and 2"]),
    ("delete 9", 10, ["rows are 1 and 2"]),
    ("replace 9 set-test S", 10, ["rows are 1 and 2"]),
    ("show a after 9", 10, ["rows are 1 and 2"]),
    ("insert end u-add-3-1L a a f 8", 12, ["`f` has 1 bit, and the length L is 8"]),
    ("insert end u-add-3-1L a a b 0", 12, ["the length L is 0"]),
    (
        "insert end u-move-2L f a 2 9",
        12,
        ["`f` has 1 bit, and the length L is 2", "`a` has 8 bits, and the length M is 9"],
    ),
    ("insert end u-move-1L a t 8", 13, ["`a` belongs to `S`", "`t` belongs to `T`"]),
    ("insert end my-news-coordinate-1L a 2 8", 14, ["no axis 2", "`S` has 2 axes, numbers 0 to 1"]),
    ("insert end my-news-coordinate-1L t 1 8", 14, ["`T` has one axis, number 0"]),
    ("insert end u-move-constant-1L a 300 8", 15, ["300 has more than 8 bits", "255"]),
    ("insert end load-context a", 15, ["`a` has 8 bits", "a field of one bit is wanted here, as `f`"]),
    ("insert end spread-with-copy-1L a b 1 8 4", 15, ["axis 1 has the coordinates 0 to 3, and not 4"]),
    ("replace 1 scan-with-copy-1L a b 0 8 upward b", 15, ["`b` has 8 bits", "as `f`"]),
    ("insert end send-1L f a b 1 f", 16, ["`f` is the destination too"]),
    ("bring 3", 22, ["no order was taken yet"]),
]


def board_of(pipe: Pipe, lines: list[str]) -> Board:
    """The board after lines that are accepted."""
    board = Board()
    for line in lines:
        (reply,) = pipe.ask(line)
        assert not reply.startswith("refused"), line
        board.note(line, reply)
    return board


def explanation_of(pipe: Pipe, board: Board, line: str) -> Explanation:
    refused = parse(pipe.ask(line))
    assert isinstance(refused, Refused), line
    return explained(line, refused, board)


def test_each_mistake_is_explained() -> None:
    with Pipe(find()) as pipe:
        board = board_of(pipe, DECLARED + PROGRAM)
        for line, number, phrases in MISTAKES:
            said = explanation_of(pipe, board, line)
            assert (said.number, said.name, said.line) == (number, FAULTS[number].name, line)
            assert (said.column is not None) == (number == 20)
            for phrase in phrases:
                assert phrase in said.hint, (line, said.hint)


@pytest.mark.parametrize(
    "line, hint",
    [
        ("insert end u-add-3-1L a a f 8", "`f` has 1 bit, and the length L is 8"),
        ("insert end u-move-2L f a 1 9", "`a` has 8 bits, and the length M is 9"),
        ("insert end get-1L f a b 8", "`f` has 1 bit, and the length L is 8"),
        (
            "insert end get-1L a f t 9",
            "`a` and `f` belong to `S`, `t` belongs to `T`: an instruction's operands are of one set",
        ),
        ("insert end get-1L b f a 9", "`b` has 8 bits, and the length L is 9; `a` has 8 bits, and the length L is 9"),
        ("insert end send-1L a b b 8 a", "`a` has 8 bits, and a field of one bit is wanted here, as `f`"),
        ("insert end u-move-constant-1L a 256 8", "256 has more than 8 bits: the greatest constant is 255"),
        ("insert end reduce-with-u-add-1L a b 1 8 4", "axis 1 has the coordinates 0 to 3, and not 4"),
        ("set U 2x6x4", "6 is no power of two: lengths are 1, 2, 4, 8 and so on"),
        ("input f 14 1 2", "2 needs more than the 1 bit of `f`: the greatest value is 1"),
        ("insert end u-add-3-1L a b x 8", "`x` isn't declared: fields are `a`, `b`, `f`, `t` and `g`"),
    ],
)
def test_a_hint_says_what_is_wrong_and_no_more(line: str, hint: str) -> None:
    with Pipe(find()) as pipe:
        assert explanation_of(pipe, board_of(pipe, DECLARED), line).hint == hint


# First commands, and what their hints say; then a field, and what the hint says of it.
PROFILES = {
    "paris 3": "here could stand the profile, 1 or 2",
    "paris": "the line ends too soon: here comes the profile, 1 or 2",
    "paris 2 S": "the line could end before it: nothing more belongs there",
    "paris two": "here could stand the profile, 1 or 2",
    "pariss 2": "did you mean `paris`?",
    "Paris 2": "did you mean `paris`?",
}


@pytest.mark.parametrize("line", PROFILES)
def test_a_first_command_that_is_no_profile_is_explained(line: str) -> None:
    with Pipe(find()) as pipe:
        assert explanation_of(pipe, Board(), line).hint == PROFILES[line]


def test_a_hint_knows_the_widths_of_the_profile() -> None:
    with Pipe(find()) as pipe:
        board = board_of(pipe, ["paris 2", "set S 4", "field a S 128"])
        assert explanation_of(pipe, board, "field b S 129").hint == "the width is 129, and a field has 1 to 128 bits"
        hint = f"{2**128 - 1} needs more than the 127 bits of `b`: the greatest value is {2**127 - 1}"
        board.note("field b S 127", pipe.ask("field b S 127")[0])
        assert explanation_of(pipe, board, f"input b 0 {2**128 - 1}").hint == hint


def test_the_prompt_says_how_a_profile_is_chosen_later() -> None:
    with Pipe(find()) as pipe:
        board = board_of(pipe, DECLARED)
        refused = parse(pipe.ask("paris 2"))
        assert isinstance(refused, Refused)
        assert explained("paris 2", refused, board, Where.PROMPT).hint.endswith("`new` begins anew")


def test_the_mistakes_meet_each_fault_that_a_short_script_can_meet() -> None:
    met = {number for _, number, _ in MISTAKES}
    # 1, 5 and 11 want a full board, 17 a spent counter; 18, 19, 21 and 23 are no replies.
    assert met == set(range(1, 24)) - {1, 5, 11, 17, 18, 19, 21, 23}


def test_full_boards() -> None:
    with Pipe(find()) as pipe:
        board = board_of(pipe, [f"set S{number} 1" for number in range(8)])
        assert "at most 8 sets: `S0`, `S1`" in explanation_of(pipe, board, "set T 1").hint
        for number in range(64):
            pipe.ask(f"field f{number} S0 1")
        assert "at most 64 fields" in explanation_of(pipe, board, "field g S0 1").hint
        for number in range(4096):
            pipe.ask("insert end set-test S0")
        assert "at most 4,096 rows" in explanation_of(pipe, board, "insert end set-test S0").hint


def test_the_caret_stands_below_the_column() -> None:
    with Pipe(find()) as pipe:
        board = board_of(pipe, DECLARED)
        for line, shown, at in [
            ("show a endd", "show a endd", 7),
            ("input a 0 \t1", "input a 0 \\t1", 10),
            ("insert end \x1b[31m a", "insert end \\x1b[31m a", 11),
            ("show \udcff end", "show \\xff end", 5),
            ("show a 日本 x", "show a 日本 x", 7),
        ]:
            first, caret = explanation_of(pipe, board, line).lines()[:2]
            assert (first, caret) == (shown, " " * at + "^")


def test_a_long_line_is_cut_round_the_column() -> None:
    line = "input a 0 " + "1 " * 30_000 + "x 1"
    with Pipe(find()) as pipe:
        said = explanation_of(pipe, board_of(pipe, DECLARED), line)
    first, caret, *_ = said.lines()
    assert said.column == len(line) - 2
    assert len(first) < 120 and first[len(caret) - 1] == "x"
    with Pipe(find()) as pipe:
        said = explanation_of(pipe, board_of(pipe, DECLARED), "input a 0" + " 1" * 40_000)
    assert said.column == 65_537 and "at most 65,536 bytes" in said.hint


def test_a_refusal_as_an_exception() -> None:
    with Pipe(find()) as pipe:
        said = explanation_of(pipe, board_of(pipe, DECLARED), "show a edn")
    with pytest.raises(Refusal) as error:
        raise Refusal(said)
    assert error.value.number == 20 and error.value.column == 8 and error.value.name == "Syntax"
    lines = str(error.value).split("\n")
    assert lines[0] == "refused 20, Syntax: the line is not in the grammar, from column 8 on"
    assert lines[1:3] == ["    show a edn", "    " + " " * 7 + "^"]
    assert "did you mean `end`" in lines[3]
