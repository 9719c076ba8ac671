"""What Tab offers at the prompt."""

from __future__ import annotations

from pathlib import Path

import pytest
from random_lines import RandomLines

from pevudlo.lang.board import Board, Declared
from pevudlo.lang.grammar import COMMANDS, next_slots, wrong_column
from pevudlo.prompt.complete import offers
from pevudlo.prompt.help import OWN
from pevudlo.reference.table import ENTRIES


def board() -> Board:
    made = Board()
    made.sets = {"S": (4,), "G": (4, 2)}
    made.fields = {"a": Declared("S", 8), "ab": Declared("S", 4), "f": Declared("S", 1), "g": Declared("G", 16)}
    made.orders, made.is_begun = 2, True
    for row in (1, 3):
        made.order.put_first(row)
    return made


@pytest.mark.parametrize(
    ("line", "wanted"),
    [
        ("se", ["set ", "settle"]),
        ("ta", ["take"]),
        ("lo", ["load "]),
        ("q", ["quit"]),
        ("insert ", ["insert start ", "insert after ", "insert end "]),
        ("insert after ", ["insert after 3 ", "insert after 1 "]),
        ("delete ", ["delete 3", "delete 1"]),
        ("bring ", ["bring 1", "bring 2"]),
        ("set ", []),
        ("field x ", ["field x S ", "field x G "]),
        ("insert end send-with-l", [f"insert end send-with-{name}-1L " for name in ("logior", "logand", "logxor")]),
        ("insert end u-add-3-1L a", ["insert end u-add-3-1L a ", "insert end u-add-3-1L ab "]),
        ("insert end u-add-3-1L g ", ["insert end u-add-3-1L g g "]),
        ("insert end u-add-3-1L a ab a ", ["insert end u-add-3-1L a ab a 4"]),
        ("insert end load-test ", ["insert end load-test f"]),
        ("insert end set-test ", ["insert end set-test S", "insert end set-test G"]),
        ("insert end get-from-news-1L g g ", [f"insert end get-from-news-1L g g {axis} " for axis in (0, 1)]),
        ("insert end get-from-news-1L g g 0 u", ["insert end get-from-news-1L g g 0 upward "]),
        ("insert end send-1L a a a 8 ", ["insert end send-1L a a a 8 f", "insert end send-1L a a a 8 none"]),
        ("show G.c", ["show G.context ", "show G.carry "]),
        ("show a ", ["show a start", "show a after ", "show a end"]),
        ("hex G.t", ["hex G.test"]),
        ("signed ab a", ["signed ab after "]),
        ("help rows", []),
        ("help Rows", ["help RowsFull"]),
        ("help sa", ["help save"]),
        ("nonsense a", []),
        ("insert end nonsense ", []),
        ("settle ", []),
    ],
)
def test_tab_offers_what_may_stand_there(line: str, wanted: list[str]) -> None:
    begin = line.rpartition(" ")[0]
    assert [f"{begin} {offer}".lstrip(" ") for offer in offers(line, board())] == wanted


def test_tab_offers_a_profile_as_the_first_command_alone() -> None:
    assert offers("pa", Board()) == ["paris "] and offers("paris ", Board()) == ["1", "2"]
    assert offers("pa", board()) == [] and offers("paris ", board()) == []


def test_tab_offers_every_name_to_help_and_every_instruction_to_insert() -> None:
    assert set(offers("help ", board())) == {*OWN, *(entry.name for entry in ENTRIES)}
    assert len(offers("insert end ", board())) == 77


def test_a_field_that_is_named_as_a_command_is_no_operand_of_it() -> None:
    named = board()
    named.fields["insert"] = Declared("G", 8)
    named.fields["end"] = Declared("G", 8)
    assert offers("insert end u-add-3-1L a", named) == ["a ", "ab "]
    assert offers("insert end u-add-3-1L e", named) == ["end "]


def test_each_offer_leads_on_to_a_command() -> None:
    offered = 0
    for line in RandomLines(5).lines(150):
        for end in range(len(line) + 1):
            begin = line[:end]
            words = begin.split(" ")[:-1]
            for offer in offers(begin, board()):
                if (words or [offer.rstrip()])[0] not in COMMANDS:
                    continue
                whole = " ".join([*words, offer.rstrip(" ")])
                column = wrong_column(whole)
                assert offer.startswith(begin.split(" ")[-1])
                assert column is None and not offer.endswith(" ") or may_go_on(whole, column), (begin, offer)
                offered += 1
    assert offered > 1000


def may_go_on(whole: str, column: int | None) -> bool:
    """Whether a line is right up to its end, and more words may follow."""
    return (column is None or column == len(whole) + 1) and next_slots(whole.split(" ")) != ()


def test_tab_offers_files(tmp_path: Path) -> None:
    (tmp_path / "one.paris").write_text("")
    (tmp_path / "folder").mkdir()
    assert offers(f"load {tmp_path}/", board()) == [f"{tmp_path}/folder/", f"{tmp_path}/one.paris"]
    assert offers(f"save {tmp_path}/o", board()) == [f"{tmp_path}/one.paris"]
    assert offers(f"load {tmp_path}/[", board()) == []
