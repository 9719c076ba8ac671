"""The scripts of docs/LESSON.md and docs/IDIOMS.md: their parts and blocks, and what is run before each block."""

from __future__ import annotations

import re
from collections.abc import Callable, Iterator
from dataclasses import dataclass, field

from pevudlo.wire.program import ROOT

TOLD = ("show", "list", "faults", "take", "bring", "settle")
"""The commands after which a comment says what is answered."""


@dataclass
class Block:
    """A block of commands: the paragraph above it, and the lines."""

    part: str
    above: str
    lines: list[str]

    @property
    def begins_anew(self) -> bool:
        """Whether it declares a set first, so it is a script of its own."""
        return self.lines[0].startswith("set ")


@dataclass
class Part:
    """A part of a page: its heading, all of its prose, and its blocks."""

    heading: str
    prose: str = ""
    blocks: list[Block] = field(default_factory=list)


def parts(page: str = "LESSON.md") -> list[Part]:
    """The parts of a page. Blocks of a named kind, as `text`, are none of scripts, and are left out."""
    text = (ROOT / "docs" / page).read_text()
    found = []
    for section in re.split(r"^## ", text, flags=re.M)[1:]:
        heading, rest = section.split("\n", 1)
        part = Part(heading)
        pieces = re.split(r"^```(\w*)\n(.*?)^```$", rest, flags=re.M | re.S)
        for prose, kind, block in zip(pieces[::3], pieces[1::3], pieces[2::3]):
            if kind == "":
                above = prose.rstrip("\n").split("\n\n")[-1]
                part.blocks.append(Block(heading, above, block.rstrip("\n").split("\n")))
        part.prose = "\n".join(pieces[::3])
        found.append(part)
    return found


def commands_of(name: str) -> list[str]:
    """The commands of an example."""
    lines = (ROOT / "examples" / f"{name}.paris").read_text().split("\n")
    return [line for line in lines if line and not line.startswith("#")]


def before(block: Block, earlier: list[Block], all_parts: list[Part]) -> list[str]:
    """The commands that a block comes after: an example, the blocks of a part, or those of its own script so far."""
    if block.begins_anew:
        return []
    if example := re.search(r"after `examples/([\w-]+)\.paris`", block.above, re.I):
        return commands_of(example[1])
    if part := re.search(r"after part (\d)", block.above, re.I):
        (named,) = (each for each in all_parts if each.heading.startswith(f"{part[1]}."))
        return [line for each in named.blocks for line in each.lines if not line.startswith("#")]
    lines = before(earlier[-1], earlier[:-1], all_parts)
    return lines + [line for line in earlier[-1].lines if not line.startswith("#")]


def expected(block: Block) -> Iterator[tuple[str, list[str] | None]]:
    """Each command of a block with the reply that its comments say, or None where they say nothing."""
    at = 0
    while at < len(block.lines):
        line = block.lines[at]
        end = at + 1
        while end < len(block.lines) and block.lines[end].startswith("# "):
            end += 1
        said = [each.removeprefix("# ") for each in block.lines[at + 1 : end]]
        assert not said or line.split(" ")[0] in TOLD, line
        yield line, said or None
        at = end


def compare(block: Block, before: list[str], ask: Callable[[str], list[str]]) -> int:
    """Asks all lines, compares the replies with what the page says, and gives how many it says."""
    for line in before:
        assert not ask(line)[0].startswith("refused"), line
    said = 0
    for line, wanted in expected(block):
        reply = ask(line)
        if wanted is None:
            assert re.fullmatch(r"ok|row \d+|settled \d+", reply[0]), (line, reply)
        else:
            assert reply == wanted, line
            said += 1
    return said


def scripts(page: str = "LESSON.md") -> Iterator[tuple[Block, list[str]]]:
    """Each block of a page with the commands that come before it."""
    all_parts = parts(page)
    for part in all_parts:
        for number, block in enumerate(part.blocks):
            yield block, before(block, part.blocks[:number], all_parts)
