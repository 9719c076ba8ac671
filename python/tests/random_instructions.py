"""Random instructions and data for the fields of one set."""

from __future__ import annotations

from random import Random

from paris_model import Board, World
from paris_model_book import FLAGS

from pevudlo.lang.instructions import Instruction, Operand

WIDTHS = {"b1": 1, "b2": 1, "b3": 1, "n4": 4, "n8": 8, "m8": 8, "n13": 13, "n64": 64, "m64": 64, "ad": 5}
WIDE = {"b1": 1, "b2": 1, "b3": 1, "n4": 4, "n64": 64, "n65": 65, "n100": 100, "n127": 127, "n128": 128, "m128": 128}
WIDE["ad"] = 128


class Maker:
    """Random instructions and data on one geometry."""

    def __init__(self, axes: list[int], seed: int, widths: dict[str, int] = WIDTHS) -> None:
        self.dice, self.widths = Random(seed), widths
        self.board = Board({"S": axes}, {name: ("S", width) for name, width in widths.items()})
        self.count = self.board.count("S")

    def instruction(self, instruction: Instruction) -> str:
        """A text of an instruction, with operands that it may have."""
        bits = [name for name, width in self.widths.items() if width == 1]
        to, a, b = (self.dice.choice(list(self.widths)) for _ in range(3))
        by_address = instruction.is_by_address
        narrowest = min(self.widths[name] for name in ((to, a) if by_address else (to, a, b)))
        length = self.dice.randint(1, self.widths[to] if "-2L" in instruction.name else narrowest)
        axis = self.dice.randrange(len(self.board.axes["S"]))
        words = {
            Operand.DESTINATION: to,
            Operand.A: a,
            Operand.B: self.dice.choice(["ad", "b1", "n4"]) if by_address else b,
            Operand.SET: "S",
            Operand.BIT: self.dice.choice(bits),
            Operand.AXIS: str(axis),
            Operand.LENGTH: str(length),
            Operand.SOURCE_LENGTH: str(self.dice.randint(1, self.widths[a])),
            Operand.COORDINATE: str(self.dice.randrange(self.board.axes["S"][axis])),
            Operand.CONSTANT: str(self.dice.randrange(1 << length)),
            Operand.DIRECTION: self.dice.choice(["upward", "downward"]),
            Operand.INCLUSION: self.dice.choice(["inclusive", "exclusive"]),
            Operand.SEGMENTS: self.dice.choice([*bits, "none"]),
            Operand.NOTIFY: self.dice.choice([bit for bit in bits if bit != to] + ["none"]),
        }
        return " ".join([instruction.name, *(words[operand] for operand in instruction.operands)])

    def world(self) -> World:
        """Random numbers for each key. Addresses are outside the set now and then, numbers are often extreme."""
        made = {}
        for name, width in self.widths.items():
            edges = [0, 1, (1 << width) - 1, 1 << width - 1, (1 << width - 1) - 1]
            made[name] = [
                self.dice.choice([*edges, self.dice.randrange(1 << width)]) % (1 << width) for _ in range(self.count)
            ]
        outside = self.dice.random() < 0.3
        made["ad"] = [self.dice.randrange(self.count + outside) for _ in range(self.count)]
        if self.dice.random() < 0.5:
            made["ad"] = self.dice.sample(range(self.count), self.count)
        made |= {f"S.{flag}": [int(self.dice.random() < 0.7) for _ in range(self.count)] for flag in FLAGS}
        return made
