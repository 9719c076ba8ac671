"""Rows that are refused for their data: the words for them."""

from __future__ import annotations

from collections.abc import Sequence

from pevudlo.lang.board import Board
from pevudlo.lang.causes import address_place, cause_words, causes, count_words
from pevudlo.lang.replies import Cause, RowFault


def board_of() -> Board:
    """A set of four processors with addresses, and a plain send and a get over them."""
    board = Board()
    lines = ("set S 4", "field to S 4", "field v S 8", "field d S 8")
    rows = (("insert end send-1L d to v 8 none", "row 1"), ("insert end get-1L d to v 8", "row 2"))
    for line, reply in (*((line, "ok") for line in lines), *rows):
        board.note(line, reply)
    return board


def test_a_collision_names_the_processor_and_the_instruction_that_combines() -> None:
    """The words are those that were asked for."""
    board, fault = board_of(), RowFault(1, Cause.COLLISION, 0)
    said = cause_words(fault, board.texts[1], board)
    assert said == "two messages meet at processor 0: `send-with-u-add-1L` combines them"
    assert address_place(fault, board.texts[1]) is None


def test_a_bad_address_is_told_with_the_size_of_its_set() -> None:
    """The address itself is told where it is known."""
    board, fault = board_of(), RowFault(2, Cause.BAD_ADDRESS, 3)
    assert address_place(fault, board.texts[2]) == ("to", "after 2")
    assert cause_words(fault, board.texts[2], board, 9) == (
        "processor 3 holds the address 9 in `to`: `S` has 4 processors, of addresses 0 to 3"
    )
    assert cause_words(fault, board.texts[2], board) == (
        "processor 3 holds an address outside its set in `to`: `S` has 4 processors, of addresses 0 to 3"
    )


def test_causes_ask_for_addresses_of_the_first_rows_alone() -> None:
    """Each row has its words, and looks are counted."""
    board, asked = board_of(), list[tuple[str, str]]()

    def look(key: str, place: str) -> Sequence[int] | None:
        asked.append((key, place))
        return (0, 1, 2, 9)

    faults = [RowFault(1, Cause.BAD_ADDRESS, 3), RowFault(2, Cause.BAD_ADDRESS, 3)]
    words = causes(faults, board, look, most=1)
    assert asked == [("to", "after 1")]
    assert "the address 9 in `to`" in words[1] and "an address outside its set" in words[2]


def test_rows_are_counted_and_named() -> None:
    """One, several, and more than are named."""
    faults = [RowFault(row, Cause.COLLISION, 0) for row in range(1, 15)]
    assert count_words([]) == "no row is refused for its data"
    assert count_words(faults[:1]) == "1 row is refused for its data: row 1"
    assert count_words(faults[:2]) == "2 rows are refused for their data: rows 1, 2"
    assert count_words(faults) == "14 rows are refused for their data: rows 1, 2, 3, 4, 5, 6, 7, 8, 9, 10, 11, 12, .."
