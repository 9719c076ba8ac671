"""The grammar: a line leaves it where the program says, and what may come next is what the program takes."""

from __future__ import annotations

from pathlib import Path

from pevudlo.lang.board import Board, Declared
from pevudlo.lang.grammar import COMMANDS, Kind, may_end, next_slots, words_before, wrong_column
from pevudlo.lang.instructions import INSTRUCTIONS
from pevudlo.wire.pipe import Pipe
from pevudlo.wire.program import find

REPOSITORY = Path(__file__).resolve().parents[2]


def column_of(reply: str) -> int | None:
    words = reply.split(" ")
    return int(words[2]) if words[:2] == ["refused", "20"] else None


def scripts() -> list[Path]:
    return sorted(REPOSITORY.glob("examples/*.paris")) + sorted(REPOSITORY.glob("checks/rows/*/*.paris"))


def test_lines_of_all_scripts_leave_the_grammar_where_the_program_says() -> None:
    count = 0
    for path in scripts():
        with Pipe(find()) as pipe:
            is_first = True
            for line in path.read_text().split("\n"):
                reply = pipe.ask(line)
                if reply:
                    assert wrong_column(line, is_first) == column_of(reply[0]), line
                    count, is_first = count + 1, False
    assert count > 800


def test_each_prefix_and_each_changed_word() -> None:
    """A line of each command and instruction, cut at each byte and with each word changed, has the program's column."""
    lines = ["set S 4x4", "field a S 8", "input a 0 1 2 3", "delete 7", "take", "bring 7", "release", "show a start"]
    lines += ["show S.context after 7", "list", "faults", "settle", "insert after 7 set-test S", "replace 7 set-test S"]
    words = {"DIR": "upward", "INCL": "exclusive", "G": "none", "N": "n", **dict.fromkeys("XLMCK", "9")}
    for each in INSTRUCTIONS.values():
        operands = [words.get(operand.value, "a") for operand in each.operands]
        lines.append(" ".join(["insert start", each.name, *operands]))
    with Pipe(find()) as pipe:
        for line in lines:
            tried = [line[:end] for end in range(1, len(line) + 1)] + [line + " ", line + " x", line.upper()]
            for at in range(len(line.split(" "))):
                for other in ("none", "0", "", "x", "18446744073709551616", "a.test"):
                    changed = line.split(" ")
                    changed[at] = other
                    tried.append(" ".join(changed))
            for text in filter(None, tried):
                assert wrong_column(text) == column_of(pipe.ask(text)[0]), text


def test_the_first_command_may_choose_the_profile_and_no_other() -> None:
    """Each prefix of `paris 2`, and odd words behind it, have the program's column in the first place and later."""
    whole = "paris 2"
    tried = [whole[:end] for end in range(1, len(whole) + 1)]
    tried += ["paris 1", "paris 3", "paris 0", "paris 02", "paris two", "paris 2 ", "paris  2", "paris 2 2", "Paris 2"]
    for text in [*tried, "paris\t2", " paris 2", "paris 18446744073709551617", "set S 4", "list"]:
        with Pipe(find()) as pipe:
            assert wrong_column(text, is_first=True) == column_of(pipe.ask(text)[0]), text
            assert wrong_column(text) == column_of(pipe.ask(text)[0]), text
    assert {slot.word for slot in next_slots([], is_first=True)} == set(COMMANDS)
    assert [slot.kind for slot in next_slots(["paris"], is_first=True)] == [Kind.PROFILE]
    assert next_slots(["paris"]) == () and next_slots(["paris", "2"], is_first=True) == ()
    assert may_end(["paris", "2"], is_first=True) and not may_end(["paris", "2"])


def test_what_may_come_next() -> None:
    assert {slot.word for slot in next_slots([])} == set(COMMANDS) - {"paris"}
    assert [slot.word for slot in next_slots(["show", "a"])] == ["start", "after", "end"]
    assert [slot.kind for slot in next_slots(["insert", "end"])] == [Kind.INSTRUCTION]
    assert [slot.role for slot in next_slots(["insert", "end", "get-1L", "d"])] == ["the addresses, a field"]
    assert next_slots(["insert", "end", "set-test", "S"]) == ()
    assert next_slots(["shw"]) == ()
    assert may_end(["input", "a", "0", "1", "2"]) and not may_end(["input", "a", "0"])
    assert [slot.kind for slot in next_slots(["input", "a", "0", "1", "2"])] == [Kind.VAL]


def test_words_before_a_column() -> None:
    assert words_before("show a endd", 8) == (["show", "a"], "endd")
    assert words_before("show a", 7) == (["show", "a"], None)
    assert words_before("show a ", 8) == (["show", "a"], "")
    assert words_before("show  a", 6) == (["show"], "")
    assert words_before("ä b", 4) == (["ä"], "b")


def test_the_board_of_accepted_commands() -> None:
    board = Board()
    for line, reply in [
        ("set S 4x2", "ok"),
        ("set T 3", "refused 2"),
        ("field a S 8", "ok"),
        ("field upward S 8", "ok"),
        ("insert end u-add-3-1L a a a 8", "row 1"),
        ("insert start scan-with-u-add-1L a a 0 8 upward inclusive none", "row 2"),
        ("insert after 2 set-test S", "row 3"),
        ("replace 3 send-1L a a a 8 upward", "ok"),
        ("delete 1", "ok"),
        ("take", "order 1 row 2 edition 5"),
        ("take", "nothing"),
    ]:
        board.note(line, reply)
    assert board.sets == {"S": (4, 2)} and board.fields["a"] == Declared("S", 8)
    assert board.rows == [2, 3] and board.texts[3] == "send-1L a a a 8 upward"
    assert board.orders == 1
    assert board.axes_of("S.test") == (4, 2) and board.width_of("S.test") == 1 and board.width_of("a") == 8
    assert board.axes_of("T.test") is None and board.width_of("x") is None
    assert board.keys() == ["a", "upward", "S.context", "S.test", "S.carry", "S.overflow"]
    assert board.keys_written(board.texts[2]) == ("a", "S.overflow")
    assert board.keys_written(board.texts[3]) == ("a", "upward")
