"""Random lines for tests: commands of the grammar, most of them accepted, and such as are damaged in one place."""

from __future__ import annotations

from random import Random

from pevudlo.lang.instructions import FLAGS, INSTRUCTIONS, Operand

SETS = ("S", "T", "Grid")
FIELDS = ("a", "b", "c", "t", "u", "f", "g", "n")
DAMAGED = (
    "",
    "none",
    "0",
    "x",
    "-1",
    "08",
    "1,2",
    "\t",
    "end",
    "u-add",
    "18446744073709551616",
    "ü",
    "\udcff",
    "#",
    "a.b",
)


class RandomLines:
    """Makes lines, all of them determined by a seed."""

    def __init__(self, seed: int) -> None:
        self.random = Random(seed)

    def number(self) -> str:
        return str(self.random.choice((0, 1, 1, 2, 3, 4, 7, 8, 8, 8, 16, self.random.randrange(300))))

    def new_name(self) -> str:
        return f"n{self.random.randrange(1000)}"

    def key(self) -> str:
        if self.random.random() < 0.3:
            return f"{self.random.choice(SETS)}.{self.random.choice(FLAGS)}"
        return self.random.choice(FIELDS)

    def operand(self, operand: Operand) -> str:
        choose = self.random.choice
        match operand:
            case Operand.SET:
                return choose(SETS)
            case Operand.AXIS | Operand.COORDINATE:
                return choose("0001239")
            case Operand.LENGTH | Operand.SOURCE_LENGTH:
                return choose(("1", "4", "8", "8", "8", "9", "0"))
            case Operand.CONSTANT:
                return choose(("0", "7", "255", "256"))
            case Operand.DIRECTION:
                return choose(("upward", "downward"))
            case Operand.INCLUSION:
                return choose(("inclusive", "exclusive"))
            case Operand.SEGMENTS | Operand.NOTIFY:
                return choose(("none", "none", "f", "g", "a"))
            case Operand.BIT:
                return choose(("f", "g", "a"))
        return choose("abcabcabctf")

    def instruction(self) -> str:
        instruction = self.random.choice(list(INSTRUCTIONS.values()))
        return " ".join([instruction.name, *map(self.operand, instruction.operands)])

    def place(self) -> str:
        return self.random.choice(("start", "end", "end", f"after {self.number()}"))

    def command(self) -> str:
        choose = self.random.choice
        match choose("sfiiiiirrrrrrrrdpptttbbbelhhhhhwwwww"):
            case "s":
                axes = choose(("4", "2x2", "2x4", "3", "2x2x2", "1", "8x4", "2x2x2x2x2"))
                return f"set {choose(SETS + ('V', 'W', self.new_name()))} {axes}"
            case "f":
                width = choose(("8", "8", "1", "0", "64", "65"))
                return f"field {choose(FIELDS + (self.new_name(),))} {choose(SETS)} {width}"
            case "i":
                values = " ".join(self.number() for _ in range(self.random.randrange(1, 6)))
                return f"input {self.key()} {choose('000012')} {values}"
            case "r":
                return f"insert {self.place()} {self.instruction()}"
            case "d":
                return f"delete {self.number()}"
            case "p":
                return f"replace {self.number()} {self.instruction()}"
            case "t":
                return "take"
            case "b":
                return f"bring {self.number()}"
            case "e":
                return choose(("release", "settle", "settle", "list", "faults"))
            case "l":
                return choose(("", "# a comment", "list", "faults"))
            case "h":
                return f"show {self.key()} {self.place()}"
        return self.damaged(self.command())

    def damaged(self, line: str) -> str:
        """The line with one word changed, lost, doubled, or with random letters in it."""
        words = line.split(" ")
        at = self.random.randrange(len(words))
        match self.random.randrange(5):
            case 0:
                words[at] = self.random.choice(DAMAGED)
            case 1:
                del words[at]
            case 2:
                words.insert(at, words[at])
            case 3:
                words = words[:at]
            case _:
                place = self.random.randrange(len(line) + 1)
                letters = "".join(chr(self.random.randrange(1, 256)) for _ in range(self.random.randrange(1, 4)))
                return (line[:place] + letters + line[place:]).replace("\n", " ")
        return " ".join(words)

    def lines(self, count: int) -> list[str]:
        """So many lines: first the declarations that most lines need, and some orders whose numbers are known."""
        first = ["set S 2x4", "set T 4"] + [f"field {name} S 8" for name in "abc"]
        first += ["field f S 1", "field g S 1", "field t T 8"]
        for order in range(1, 31):
            first += ["insert end u-add-3-1L c a b 8", "take", f"bring {order}"]
        return first + [self.command() for _ in range(count - len(first))]
