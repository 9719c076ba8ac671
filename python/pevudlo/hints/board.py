"""Hints for a command that the program refuses for what is declared: which name, which operand, and what there is."""

from __future__ import annotations

from typing import Callable

from pevudlo.hints.words import listed, nearest
from pevudlo.lang.board import Board
from pevudlo.lang.instructions import FIELDS, NONE, OPTIONAL, Instruction, Operand, read
from pevudlo.lang.profiles import WIDEST

MOST_PROCESSORS = 65_536
MOST_ROWS_NAMED = 12


def ticked(names: list[str]) -> str:
    """Names as a list."""
    return listed([f"`{name}`" for name in names], "and")


def bits(width: int) -> str:
    """A width in words."""
    return "1 bit" if width == 1 else f"{width} bits"


def axes_text(axes: tuple[int, ...]) -> str:
    """Axes as a script has them."""
    return "x".join(map(str, axes))


def declared(kind: str, names: list[str], word: str) -> str:
    """Which names of a kind there are, the nearest to a word first said."""
    if not names:
        return f"no {kind} is declared yet"
    near = nearest(word, names)
    said = f"{kind}s are {ticked(names)}" if len(names) > 1 else f"the one {kind} is `{names[0]}`"
    return f"did you mean `{near}`? {said[0].upper()}{said[1:]}" if near else said


def no_set(name: str, board: Board) -> str:
    """Which set isn't declared, and which are."""
    if name in board.fields:
        return f"`{name}` is a field, and a set is wanted here: its set is `{board.fields[name].set}`"
    return f"`{name}` isn't declared: {declared('set', list(board.sets), name)}"


def no_field(name: str, board: Board) -> str:
    """Which field isn't declared, and which are."""
    base, dot, _ = name.partition(".")
    if dot:
        return no_set(base, board)
    if name in board.sets:
        return f"`{name}` is a set, and a field is wanted here: {declared('field', list(board.fields), name)}"
    return f"`{name}` isn't declared: {declared('field', list(board.fields), name)}"


def set_hint(number: int, words: list[str], board: Board) -> str:
    """Why a set is refused."""
    if number == 1:
        return f"a run has at most 8 sets: {ticked(list(board.sets))}"
    if number == 3:
        given = f"; `input {words[1]} FROM VALUE ..` gives a field its values" if words[1] in board.fields else ""
        return name_taken(words[1], board) + given
    axes = [int(word) for word in words[2].split("x")]
    odd = [length for length in axes if length < 1 or length & (length - 1)]
    if len(axes) > 4:
        return f"a set has at most 4 axes, and here are {len(axes)}"
    if odd:
        lengths = listed([str(length) for length in odd], "and")
        return (
            f"{lengths} {'is no power' if len(odd) == 1 else 'are no powers'} of two: lengths are 1, 2, 4, 8 and so on"
        )
    return f"a set has at most {MOST_PROCESSORS:,} processors, and these lengths multiply to more"


def name_taken(name: str, board: Board) -> str:
    """What has the name already."""
    if name in board.sets:
        return f"`{name}` is a set of axes {axes_text(board.sets[name])}: sets and fields share their names"
    of = board.fields[name]
    return f"`{name}` is a field of `{of.set}` of {bits(of.width)}: sets and fields share their names"


def field_hint(number: int, words: list[str], board: Board) -> str:
    """Why a field is refused."""
    if number == 3:
        return name_taken(words[1], board)
    if number == 4:
        return no_set(words[2], board)
    if number == 5:
        return "a run has at most 64 fields, over all sets"
    said = f"the width is {words[3]}, and a field has 1 to {board.widest} bits"
    if board.widest < int(words[3]) <= WIDEST:
        said += f": where `paris 2` is the first command, it has up to {WIDEST}"
    return said


def input_hint(number: int, detail: int | None, words: list[str], board: Board) -> str:
    """Why input data are refused."""
    key, first = words[1], int(words[2])
    name = board.set_of(key)
    if number == 7 or name is None:
        return no_field(key, board)
    count, processors = len(words) - 3, board.processors(name)
    if number == 8:
        room = max(0, processors - first)
        values = "is 1 value" if count == 1 else f"are {count} values"
        there = "1 processor, number 0" if processors == 1 else f"{processors} processors, counted from 0"
        return (
            f"`{name}` has {there}. From processor {first} on is room for {room}, "
            f"and here {values}. The number behind the key is the first processor"
        )
    width = board.width_of(key) or 0
    value = words[3 + detail - first] if detail is not None else ""
    return f"{value} needs more than the {bits(width)} of `{key}`: the greatest value is {2**width - 1}"


def no_row(row: str, board: Board) -> str:
    """Which rows there are."""
    if not board.rows:
        return "there is no row yet: `insert` puts one in and says its id"
    shown = [str(each) for each in board.rows[:MOST_ROWS_NAMED]]
    if len(board.rows) > len(shown):
        return f"there are {len(board.rows)} rows, with ids from {min(board.rows)} to {max(board.rows)}: see `list`"
    return f"no row has the id {row}: " + (
        f"the one row is {shown[0]}" if len(shown) == 1 else f"rows are {listed(shown, 'and')}"
    )


def fields_of(named: dict[Operand, str]) -> list[tuple[Operand, str]]:
    """The operands that name fields, in the order of the table of operands."""
    return [
        (operand, name)
        for operand, name in named.items()
        if operand in FIELDS and not (operand in OPTIONAL and name == NONE)
    ]


def wrong_set_hint(named: dict[Operand, str], board: Board) -> str:
    """Which fields belong to which set."""
    of: dict[str, list[str]] = {}
    for _, name in fields_of(named):
        names = of.setdefault(board.fields[name].set, [])
        if name not in names:
            names.append(name)
    parts = [f"{ticked(names)} {'belong' if len(names) > 1 else 'belongs'} to `{name}`" for name, names in of.items()]
    return ", ".join(parts) + ": an instruction's operands are of one set"


def axis_hint(named: dict[Operand, str], board: Board) -> str:
    """How many axes the set has."""
    name = board.fields[fields_of(named)[0][1]].set
    axes = board.sets[name]
    there = "one axis, number 0" if len(axes) == 1 else f"{len(axes)} axes, numbers 0 to {len(axes) - 1}"
    return f"there is no axis {named[Operand.AXIS]}: `{name}` has {there}"


def lengths_of(instruction: Instruction, named: dict[Operand, str]) -> list[tuple[str, int, list[Operand]]]:
    """The letter and the value of each length, with the operands that are of it."""
    length = [Operand.DESTINATION, Operand.A] + [Operand.B] * (not instruction.is_by_address)
    lengths = [(Operand.LENGTH, length)]
    if Operand.SOURCE_LENGTH in named:
        lengths = [(Operand.LENGTH, [Operand.DESTINATION]), (Operand.SOURCE_LENGTH, [Operand.A])]
    return [(letter.value, int(named[letter]), of) for letter, of in lengths if letter in named]


def length_hint(instruction: Instruction, named: dict[Operand, str], board: Board) -> str:
    """Which operand is too narrow for its length, and how wide it is."""
    parts: list[str] = []
    for letter, length, operands in lengths_of(instruction, named):
        if length == 0:
            parts.append(f"the length {letter} is 0, and has to be 1 at least")
        for name in dict.fromkeys(named[operand] for operand in operands if operand in named):
            if board.fields[name].width < length:
                parts.append(f"`{name}` has {bits(board.fields[name].width)}, and the length {letter} is {length}")
    return "; ".join(parts)


def operand_hint(named: dict[Operand, str], board: Board) -> str:
    """Which operand is wider than one bit, or which constant or coordinate is too great."""
    parts: list[str] = []
    for operand in (Operand.BIT, Operand.SEGMENTS, Operand.NOTIFY):
        name = named.get(operand, NONE)
        if name != NONE and board.fields[name].width > 1:
            narrow = [each for each, of in board.fields.items() if of == type(of)(board.fields[name].set, 1)]
            there = f", as {listed([f'`{each}`' for each in narrow])}" if narrow else ", and none is declared"
            parts.append(f"`{name}` has {bits(board.fields[name].width)}, and a field of one bit is wanted here{there}")
    if Operand.CONSTANT in named and int(named[Operand.CONSTANT]) >= 1 << int(named[Operand.LENGTH]):
        length = int(named[Operand.LENGTH])
        parts.append(
            f"{named[Operand.CONSTANT]} has more than {bits(length)}: the greatest constant is {2**length - 1}"
        )
    if Operand.COORDINATE in named:
        length = board.sets[board.fields[fields_of(named)[0][1]].set][int(named[Operand.AXIS])]
        if int(named[Operand.COORDINATE]) >= length:
            parts.append(
                f"axis {named[Operand.AXIS]} has the coordinates 0 to {length - 1}, and not {named[Operand.COORDINATE]}"
            )
    return "; ".join(parts)


def instruction_hint(number: int, text: str, board: Board) -> str:
    """Why an instruction is refused."""
    instruction, named = read(text)
    if number == 4:
        return no_set(named[Operand.SET], board)
    if number == 7:
        missing = [name for _, name in fields_of(named) if name not in board.fields]
        return "; ".join(no_field(name, board) for name in dict.fromkeys(missing))
    if number == 16:
        return f"`{named[Operand.NOTIFY]}` is the destination too: what is notified is a field of its own, or none"
    of_operands: dict[int, Callable[[], str]] = {
        12: lambda: length_hint(instruction, named, board),
        13: lambda: wrong_set_hint(named, board),
        14: lambda: axis_hint(named, board),
        15: lambda: operand_hint(named, board),
    }
    return of_operands[number]()


def row_hint(number: int, words: list[str], board: Board) -> str:
    """Why an `insert` or a `replace` is refused."""
    has_row = words[0] == "replace" or words[1] == "after"
    if number == 10:
        return no_row(words[1] if words[0] == "replace" else words[2], board)
    if number == 11:
        return "a program has at most 4,096 rows"
    at = (2 if words[0] == "replace" else 3) if has_row else 2
    return instruction_hint(number, " ".join(words[at:]), board)


def board_hint(number: int, detail: int | None, line: str, board: Board) -> str:
    """Why the program refuses a line that is a command, by what its board has. Empty where nothing is to be said."""
    words = line.split(" ")
    if number == 17:
        return "no edit can be counted any more: begin another run"
    match words[0]:
        case "set":
            return set_hint(number, words, board)
        case "field":
            return field_hint(number, words, board)
        case "input":
            return input_hint(number, detail, words, board)
        case "insert" | "replace":
            return row_hint(number, words, board)
        case "delete":
            return no_row(words[1], board)
        case "show":
            return no_field(words[1], board) if number == 7 else no_row(words[3], board)
        case "bring" if board.orders == 0:
            return "no order was taken yet: `take` takes one"
        case "bring":
            return "order 1 was taken" if board.orders == 1 else f"orders 1 to {board.orders} were taken"
    return ""
