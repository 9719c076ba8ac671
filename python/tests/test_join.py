"""`paris lsp --join`: editors at one served program, over the language server and a real server."""

from __future__ import annotations

import asyncio
import os
from collections.abc import Callable
from contextlib import ExitStack
from pathlib import Path

import pytest
from join_model import MANNERS, Manner, core
from joining import Joining, typed_by, until
from serving import Client, People, Server, served, with_people

from pevudlo.join.address import Address

TEXT = ["set S 4", "field a S 8", "field b S 8", "input a 0 1 2 3 4", "u-add-3-1L b a a 8", "show b end"]
ROW, LOOK = 4, 5
FIRST, BEHIND, *_ = MANNERS

pytestmark = pytest.mark.usefixtures("libparis")
LONG = "PEVUDLO_JOINED" in os.environ
"""Whether editors type for long against each other."""


@pytest.fixture
def file(tmp_path: Path) -> Path:
    """A program of one row."""
    path = tmp_path / "double.paris"
    path.write_text("".join(f"{line}\n" for line in TEXT))
    return path


def joining(server: Server, name: str) -> Address:
    """The address at which somebody joins by a name."""
    return Address(server.base, server.token("All others"), name)


def play(file: Path, part: Callable[[list[Joining], Client], None], *manners: Manner, text: str = "\n") -> None:
    """Has editors join a program, and plays something with them, and with a seat that looks."""

    async def with_looker(people: People) -> None:
        looker = await people.sit(people.server.token("Who looks"))
        with ExitStack() as stack:
            names = ("Ann", "Bob", "Carla")
            editors = [Joining(joining(people.server, name), manner, text) for name, manner in zip(names, manners)]
            for editor in editors:
                stack.enter_context(editor)
            await asyncio.to_thread(part, editors, looker)

    with served(file, "--folder", file.parent / "kept", "--rate", "100", cwd=file.parent) as server:
        asyncio.run(with_people(server, with_looker))


def at_rest(editors: list[Joining], looker: Client) -> None:
    """Waits until all have one text."""
    until(lambda: all(each.is_at_rest and each.lines == looker.text for each in editors), *editors)


def test_an_editor_gets_the_program_and_others_its_edits(file: Path) -> None:
    def part(editors: list[Joining], looker: Client) -> None:
        at_rest(editors, looker)
        ann, bob = editors
        assert ann.lines == TEXT
        ann.put(ROW, ROW + 1, "u-multiply-3-1L b a a 8")
        until(lambda: bob.lines[ROW] == "u-multiply-3-1L b a a 8", ann, bob)
        bob.put(6, 6, "# from Bob")
        until(lambda: ann.lines[6:] == ["# from Bob"], ann, bob)
        at_rest(editors, looker)

    play(file, part, FIRST, BEHIND)


@pytest.mark.parametrize("seed", range(20 if LONG else 1))
@pytest.mark.parametrize("manner", MANNERS, ids=[manner.name for manner in MANNERS])
def test_two_who_type_lose_nothing_and_have_nothing_twice(file: Path, manner: Manner, seed: int) -> None:
    def part(editors: list[Joining], looker: Client) -> None:
        at_rest(editors, looker)
        words = typed_by(editors, 500 if LONG else 40, seed)
        at_rest(editors, looker)
        found = [core(text) for text in looker.text]
        for word in words.made:
            assert found.count(word) == 1 or (word in words.dropped and word not in found), word

    play(file, part, manner, manner)
