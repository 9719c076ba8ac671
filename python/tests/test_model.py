"""The model of the instructions: it gives the transcripts, and on random data what the program gives."""

from __future__ import annotations

from pathlib import Path

import pytest
from paris_model import RefusedAtRun
from paris_model_book import Book, keys_of
from paris_model_run import run
from random_instructions import Maker

from pevudlo.lang.instructions import INSTRUCTIONS
from pevudlo.wire.pipe import Pipe
from pevudlo.wire.program import ROOT, find

GEOMETRIES = ([8], [4, 2], [2, 4, 2], [1])
ROUNDS = 6


def transcripts() -> list[Path]:
    found = sorted([*(ROOT / "examples").glob("*.paris"), *(ROOT / "checks/rows").glob("*/*.paris")])
    return [path for path in found if "refused" not in path.with_suffix(".expected").read_text()]


def stem_of(path: Path) -> str:
    return path.stem


@pytest.mark.parametrize("path", transcripts(), ids=stem_of)
def test_the_model_gives_the_transcripts(path: Path) -> None:
    book = Book()
    lines = [line for line in path.read_text().split("\n") if line and not line.startswith("#")]
    replies = [reply for line in lines for reply in book.answer(line)]
    assert replies == path.with_suffix(".expected").read_text().split("\n")[:-1]


def each_instruction(maker: Maker, pipe: Pipe, rounds: int) -> int:
    """Fails where the program doesn't give what the model gives. Says how many rows were refused for their data."""
    refused = 0
    pipe.ask("set S " + "x".join(map(str, maker.board.axes["S"])))
    for name, width in maker.widths.items():
        assert pipe.ask(f"field {name} S {width}") == ["ok"]
    for instruction in [each for each in INSTRUCTIONS.values() for _ in range(rounds)]:
        text, world = maker.instruction(instruction), maker.world()
        for key, numbers in world.items():
            assert pipe.ask(f"input {key} 0 {' '.join(map(str, numbers))}") == ["ok"]
        (said,) = pipe.ask(f"insert end {text}")
        assert said.startswith("row "), text
        row = said.removeprefix("row ")
        assert pipe.ask("settle") == ["settled 1"], text
        try:
            wanted, causes = run(maker.board, world, text), []
        except RefusedAtRun as cause:
            wanted, causes = world, [f"{row} {cause}"]
            refused += 1
        assert pipe.ask("faults")[1:] == causes, text
        for key in keys_of(maker.board, text)[1]:
            assert pipe.ask(f"show {key} end") == [" ".join(["values", *map(str, wanted[key])])], (text, world)
        pipe.ask(f"delete {row}")
    return refused


@pytest.mark.parametrize("axes", GEOMETRIES, ids=str)
def test_the_program_gives_what_the_model_gives_on_random_data(axes: list[int]) -> None:
    with Pipe(find()) as pipe:
        refused = each_instruction(Maker(axes, seed=len(axes)), pipe, ROUNDS)
    assert refused > 0 or axes == [1]
