"""Early cut-off: the program gives what the model gives on random scripts, in which rows are cut off often."""

from __future__ import annotations

from collections import Counter
from copy import deepcopy

import pytest
from paris_model_book import Book
from random_scripts import SCRIPTS, WORKERS, RandomScript, by_program, first_difference

EACH = 50
COMMANDS = 60
COUNTED = 100
OFTEN = 15


@pytest.mark.parametrize("part", range(-(-SCRIPTS // EACH)))
def test_the_program_gives_what_the_model_gives(part: int) -> None:
    for seed in range(part * EACH, (part + 1) * EACH):
        script = RandomScript(seed, COMMANDS)
        assert not first_difference(script, by_program(script, WORKERS[seed % len(WORKERS)])), f"seed {seed}"


def kinds_of(script: RandomScript) -> Counter[str]:
    """How many rows were cut off behind each command; which of them were out before, and which are refused."""
    book, kinds = Book(), Counter[str]()
    for line in script.lines:
        out, seen = {row.id for row in book.rows if row.status == "out"}, len(book.cut)
        book.answer(line)
        cut = book.cut[seen:]
        refused = {row.id for row in book.rows if row.status == "settled" and row.id in book.ran().causes}
        kinds.update(each.command for each in cut)
        kinds["out"] += sum(each.row in out for each in cut if each.command != "settle")
        kinds["refused"] += sum(each.row in refused for each in cut)
    return kinds


def test_rows_of_the_random_scripts_are_cut_off_often() -> None:
    all_kinds = [kinds_of(RandomScript(seed, COMMANDS)) for seed in range(COUNTED)]
    kinds = sum(all_kinds, Counter[str]())
    for kind in ("input", "replace", "delete", "bring", "settle", "out", "refused"):
        assert kinds[kind] >= OFTEN, (kind, kinds)
    assert sum(any(each.values()) for each in all_kinds) >= COUNTED - OFTEN, "scripts in which a row is cut off"


class Watched(Book):
    """A book whose settles are compared with takes and brings, and whose passes have to leave nothing to be cut off."""

    settles = 0

    def do_settle(self, words: list[str]) -> str:
        one_by_one, self.settles = deepcopy(self), self.settles + 1
        ran = 0
        one_by_one.answer("release")
        while one_by_one.answer("take") != ["nothing"]:
            ran += 1
            assert one_by_one.answer(f"bring {len(one_by_one.orders)}") == ["kept"]
        reply = super().do_settle(words)
        assert reply == f"settled {ran}"
        assert one_by_one.do_list([]) == self.do_list([]) and one_by_one.do_faults([]) == self.do_faults([])
        assert [row.last for row in one_by_one.rows] == [row.last for row in self.rows]
        return reply

    def cut_off(self, command: str) -> None:
        super().cut_off(command)
        count = len(self.cut)
        super().cut_off("once more")
        assert len(self.cut) == count, command


def test_a_settle_is_takes_and_brings_and_one_pass_is_enough() -> None:
    book = Watched()
    for seed in range(EACH):
        book = Watched()
        script = RandomScript(seed, COMMANDS)
        assert [reply for line in script.lines for reply in book.answer(line)] == script.replies
        assert book.settles >= 2
