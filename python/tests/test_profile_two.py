"""Profile two: the first command chooses it, and the program gives what the model gives on random scripts in it."""

from __future__ import annotations

import subprocess
from collections import Counter

import pytest
from paris_model_book import Book
from random_instructions import WIDE, Maker
from random_scripts import SCRIPTS, WORKERS, WideScript, by_program, first_difference
from test_model import ROUNDS, each_instruction

from pevudlo.wire.pipe import Pipe
from pevudlo.wire.program import find

EACH = 50
COMMANDS = 60
COUNTED = 100
OFTEN = 10

LONG = "field a S " + "1" * 70_000

# A script, and the replies to its first commands.
FIRST = {
    "two": ("paris 2/set S 2/field a S 128/field b S 129", "ok/ok/ok/refused 6"),
    "one": ("paris 1/set S 2/field a S 64/field b S 65", "ok/ok/ok/refused 6"),
    "none": ("set S 2/field a S 64/field b S 65", "ok/ok/refused 6"),
    "behind comments": ("# wide//#/paris 2/set S 2/field a S 100", "ok/ok/ok"),
    "three": ("paris 3/paris 2/set S 2/field a S 65", "refused 20 7/refused 20 1/ok/refused 6"),
    "alone": ("paris/paris 2/set S 2/field a S 65", "refused 20 6/refused 20 1/ok/refused 6"),
    "more": ("paris 2 2/paris 2/set S 2/field a S 65", "refused 20 9/refused 20 1/ok/refused 6"),
    "two spaces": ("paris  2/paris 2", "refused 20 7/refused 20 1"),
    "zero": ("paris 02", "refused 20 7"),
    "twice": ("paris 2/paris 1/set S 2/field a S 128", "ok/refused 20 1/ok/ok"),
    "behind a set": ("set S 2/paris 2/field a S 65", "ok/refused 20 1/refused 6"),
    "behind a refusal": ("nonsense/paris 2", "refused 20 1/refused 20 1"),
    "behind a look": ("list/paris 2", "rows 0/refused 20 1"),
    "behind a long line": (f"{LONG}/paris 2", "refused 20 65537/refused 20 1"),
}


@pytest.mark.parametrize("case", FIRST)
def test_the_first_command_chooses(case: str) -> None:
    script, replies = FIRST[case]
    text = script.replace("/", "\n") + "\n"
    ran = subprocess.run([find()], input=text, capture_output=True, text=True, check=False)
    assert ran.stdout.split("\n")[:-1] == replies.split("/")
    assert ran.returncode == int("refused" in replies)


def test_the_model_reads_the_first_command_so_too() -> None:
    for script, replies in FIRST.values():
        lines = [line for line in script.split("/") if line and not line.startswith("#")]
        if not script.startswith(("nonsense", "field")):
            book = Book()
            assert [reply for line in lines for reply in book.answer(line)] == replies.split("/"), script


@pytest.mark.parametrize("part", range(-(-SCRIPTS // EACH)))
def test_the_program_gives_what_the_model_gives(part: int) -> None:
    for seed in range(part * EACH, min(SCRIPTS, (part + 1) * EACH)):
        script = WideScript(seed, COMMANDS)
        assert not first_difference(script, by_program(script, WORKERS[seed % len(WORKERS)])), f"seed {seed}"


def kinds_of(script: WideScript) -> Counter[str]:
    """How many products and quotients there are at each length, and how many looks with numbers above 64 bits."""
    kinds, book = Counter[str](), Book()
    for line in script.lines:
        words, reply = line.split(" "), book.answer(line)[0]
        if words[0] in ("insert", "replace"):
            kinds.update(f"{word} {words[-1]}" for word in words if "-multiply-" in word or "-truncate-" in word)
        if reply.startswith("values"):
            kinds["wide"] += any(int(number) >> 64 for number in reply.split(" ")[1:])
    return kinds


def test_wide_products_and_quotients_are_frequent() -> None:
    kinds = sum((kinds_of(WideScript(seed, COMMANDS)) for seed in range(COUNTED)), Counter[str]())
    for name in ("u-multiply-3-1L", "s-multiply-3-1L", "u-truncate-3-1L"):
        for length in (65, 100, 127, 128):
            assert kinds[f"{name} {length}"] >= OFTEN, (name, length, kinds)
    assert kinds["wide"] >= COUNTED * 3, kinds["wide"]


@pytest.mark.parametrize("axes", ([8], [2, 4, 2]), ids=str)
def test_each_instruction_on_wide_fields(axes: list[int]) -> None:
    """Each instruction on random data beside the model, with operands of 65 to 128 bits."""
    with Pipe(find()) as pipe:
        assert pipe.ask("paris 2") == ["ok"]
        assert each_instruction(Maker(axes, seed=len(axes), widths=WIDE), pipe, ROUNDS)
