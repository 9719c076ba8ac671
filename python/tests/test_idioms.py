"""docs/IDIOMS.md: each script in it gives what the page says, by the program and by the model."""

from __future__ import annotations

import os
import re
import subprocess
import sys
from collections.abc import Callable, Iterator
from pathlib import Path
from random import Random

import pytest
from lessons import Block, compare, expected, parts, scripts
from paris_model_book import Book

from pevudlo.prompt.help import help_for
from pevudlo.reference import idioms
from pevudlo.reference.idioms import Idiom, find, page, sections
from pevudlo.wire.pipe import Pipe
from pevudlo.wire.program import ROOT, find as find_program

PAGE = "IDIOMS.md"
BLOCKS = [block for block, _ in scripts(PAGE)]
IDS = [f"{block.part}-{at}" for at, block in enumerate(BLOCKS)]


@pytest.mark.parametrize("block", BLOCKS, ids=IDS)
def test_the_program_answers_what_the_page_says(block: Block) -> None:
    assert block.begins_anew
    with Pipe(find_program()) as pipe:
        assert compare(block, [], pipe.ask) > 0


@pytest.mark.parametrize("block", BLOCKS, ids=IDS)
def test_the_definitions_give_what_the_page_says(block: Block) -> None:
    assert compare(block, [], Book().answer) > 0


def test_each_idiom_has_a_section_of_prose_and_scripts() -> None:
    found = parts(PAGE)
    assert [part.heading for part in found] == [idiom.value for idiom in Idiom]
    for part in found:
        assert part.blocks and all(any(line.startswith("# ") for line in block.lines) for block in part.blocks)
        assert len(re.findall(r"[.:](?:\s|$)", part.prose.split("```")[0])) >= 2


def test_the_table_names_each_idiom() -> None:
    rows = re.findall(r"^\| .* \| \[(.*)\]\(#(.*)\) \|$", (ROOT / "docs" / PAGE).read_text(), re.M)
    titles = [idiom.value for idiom in Idiom]
    assert rows == [(title, re.sub(r"[^\w -]", "", title.lower()).replace(" ", "-")) for title in titles]


# What the idioms are for, as definitions in Python. They are of the input data by name, in numbers of 8 bits.
Numbers = list[int]


def signed(number: int) -> int:
    return number - 256 if number > 127 else number


def quotient(a: int, b: int) -> int:
    """Rounded towards 0."""
    amount = abs(signed(a)) // abs(signed(b))
    return (-amount if (signed(a) < 0) != (signed(b) < 0) else amount) % 256


def remainder(a: int, b: int) -> int:
    """That of a division which is rounded towards 0: it has the sign of a."""
    return (signed(a) - signed(quotient(a, b)) * signed(b)) % 256


DEFINITIONS: dict[tuple[Idiom, int], Callable[[dict[str, Numbers]], Numbers]] = {
    (Idiom.CONSTANT, 0): lambda data: [(a + 5) % 256 for a in data["a"]],
    (Idiom.BRANCHES, 0): lambda data: [a // 2 if a >= 10 else 2 * a for a in data["a"]],
    (Idiom.SHIFT, 0): lambda data: data["a"][3:] + data["a"][:3],
    (Idiom.BITS, 0): lambda data: [a >> 2 for a in data["a"]],
    (Idiom.REVERSE, 0): lambda data: data["a"][::-1],
    (Idiom.SWAP, 0): lambda data: data["a"],
    (Idiom.SWAP, 1): lambda data: data["a"],
    (Idiom.BROADCAST, 0): lambda data: [data["a"][6]] * 8,
    (Idiom.COUNT, 0): lambda data: [sum(data["a"]) % 256] * 8,
    (Idiom.GREATEST, 0): lambda data: [data["a"].index(max(data["a"]))] * 8,
    (Idiom.GREATER, 0): lambda data: [
        of_b if b > a else of_a for a, b, of_a, of_b in zip(data["a"], data["b"], data["of-a"], data["of-b"])
    ],
    (Idiom.PACK, 0): lambda data: ([a for a in data["a"] if a >= 4] + [0] * 8)[:8],
    (Idiom.RANK, 0): lambda data: sorted(data["a"]) + [0] * 12,
    (Idiom.QUOTIENT, 0): lambda data: [quotient(a, b) for a, b in zip(data["a"], data["b"])],
    (Idiom.QUOTIENT, 1): lambda data: [remainder(a, b) for a, b in zip(data["a"], data["b"])],
}


@pytest.mark.parametrize(("idiom", "at"), DEFINITIONS, ids=lambda part: getattr(part, "name", str(part)))
def test_an_idiom_does_what_it_is_for_with_other_numbers(idiom: Idiom, at: int) -> None:
    """The last look of a script, with random input data in the place of those of the page."""
    block = [block for block in BLOCKS if block.part == idiom.value][at]
    dice = Random(idiom.value)
    for _ in range(20):
        data: dict[str, Numbers] = {}
        shown: list[str] = []
        with Pipe(find_program()) as pipe:
            for line, _ in expected(block):
                if line.startswith("input "):
                    _, key, _, *numbers = line.split(" ")
                    least = 1 if (idiom, key) == (Idiom.QUOTIENT, "b") else 0
                    data[key] = [dice.choice((dice.randint(least, 12), dice.randint(least, 255))) for _ in numbers]
                    line = " ".join(["input", key, "0", *map(str, data[key])])
                shown = pipe.ask(line)
        assert shown == ["values " + " ".join(map(str, DEFINITIONS[idiom, at](data)))]


def test_the_loop_in_python_writes_what_the_page_says() -> None:
    text = sections()[Idiom.LOOP.value]
    (program,) = re.findall(r"^```python\n(.*?)^```$", text, re.M | re.S)
    (written,) = re.findall(r"^```text\n(.*?)^```$", text, re.M | re.S)
    environment = {**os.environ, "PARIS_FRONT": str(find_program()), "PYTHONPATH": str(ROOT / "python")}
    words = [sys.executable, "-c", program]
    ran = subprocess.run(words, capture_output=True, text=True, timeout=60, env=environment)
    assert (ran.stdout, ran.stderr, ran.returncode) == (written, "", 0)


@pytest.fixture
def places(monkeypatch: pytest.MonkeyPatch, tmp_path: Path) -> Iterator[list[Path]]:
    """Two folders in the place of those in which the page may stand."""
    places = [tmp_path / "installed", tmp_path / "repository"]
    monkeypatch.setattr(idioms, "PLACES", tuple(places))
    sections.cache_clear()
    yield places
    sections.cache_clear()


def test_the_page_is_that_of_the_first_place_that_has_it(places: list[Path]) -> None:
    for place, said in zip(reversed(places), ("far", "near")):
        place.mkdir()
        (place / PAGE).write_text(f"# Idioms\n\n## Reverse\n\nIt is {said}.\n")
        sections.cache_clear()
        assert sections() == {"Reverse": f"It is {said}."}
        assert help_for("Reverse")[-2:] == ["Reverse", f"  It is {said}."]


def test_help_says_what_is_meant_where_the_page_is_not_at_hand(places: list[Path]) -> None:
    assert page() is None and sections() == {}
    said = help_for("reverse")
    assert said[0].startswith("reverse: there is none: `get-1L D B A L`") and said[-1] == "Reverse"
    assert help_for("if and else") == ["If and else"]


def test_sections_are_found_by_their_titles() -> None:
    assert list(sections()) == [idiom.value for idiom in Idiom]
    assert find("reverse") == find("Reverse") == "Reverse" and find("if and") == "If and else"
    assert find("shift") is None and find("") is None and find("xyzzy") is None
    text = page()
    assert text is not None and all(section in text for section in sections().values())
