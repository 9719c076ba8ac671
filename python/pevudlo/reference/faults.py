"""The reference: the faults by which a command is refused. Their texts are those of the program's sources."""

from __future__ import annotations

from pevudlo.lang.faults import FAULTS
from pevudlo.reference.entry import Entry, Example, Kind, Step, example

DETAILS = {9: "V", 20: "C"}
"""The letters of the numbers that the replies of two faults have."""

BASE = """
set S 4
field a S 8
field f S 1
"""


def fault(number: int, where: str, shown: Example | str | None) -> Entry:
    """The entry of a fault: its text, and where it is due. The last line of the example is the one that is refused."""
    made = FAULTS[number]
    text = made.text.replace("{0}", DETAILS.get(number, "N")).replace("{1}", "M")
    reply = " ".join(["refused", str(number), *([DETAILS[number]] if number in DETAILS else [])])
    shown = example(BASE + shown) if isinstance(shown, str) else shown
    return Entry(Kind.FAULT, made.name, reply, f"{text[0].upper()}{text[1:]}. {where}", example=shown, number=number)


NINE_SETS = example("\n".join([*(f"set {name} 4" for name in "ABCDEFGH"), "set I 4 => refused 1"]))

MANY_FIELDS = Example(
    (Step("set S 4", ("ok",)), Step("field f{n} S 1", ("ok",), 64), Step("field g S 1", ("refused 5",)))
)

MANY_ROWS = Example(
    (
        Step("set S 1", ("ok",)),
        Step("insert end set-test S", ("row {n}",), 4096),
        Step("insert end set-test S", ("refused 11",)),
    )
)

ENTRIES: tuple[Entry, ...] = (
    fault(1, "A program has at most 8 sets.", NINE_SETS),
    fault(
        2,
        "There are more than four axes, a length is no power of two, or there are more than 65,536 processors.",
        example("set S 3 => refused 2"),
    ),
    fault(3, "Sets and fields share one space of names.", example("set S 4\nset S 4 => refused 3")),
    fault(4, "Sets are declared by `set NAME AXES`, before what names them.", "field q U 8 => refused 4"),
    fault(5, "All sets together have at most 64 fields.", MANY_FIELDS),
    fault(
        6,
        "A field has 1 to 64 bits, or to 128 where the first command is `paris 2`.",
        "field q S 65 => refused 6",
    ),
    fault(
        7,
        "Fields are declared by `field NAME NAME NUM`, before what names them. A flag is named with its set: "
        "`S.carry`.",
        "input zz 0 1 => refused 7",
    ),
    fault(8, "The values reach above the last processor of the set.", "input a 3 1 2 => refused 8"),
    fault(
        9,
        "V is the least processor whose value is at least 2^width.",
        "input a 0 1 300 => refused 9 1",
    ),
    fault(10, "Ids are those that `insert` answered. `list` has those that there are.", "delete 9 => refused 10"),
    fault(11, "A program has at most 4,096 rows.", MANY_ROWS),
    fault(
        12,
        "The operands of an instruction have at least the width that its length says, and a length is 1 at least.",
        "insert end u-move-1L a a 9 => refused 12",
    ),
    fault(
        13,
        "All operands of an instruction belong to one set.",
        "set T 4\nfield t T 8\ninsert end u-move-1L a t 8 => refused 13",
    ),
    fault(
        14,
        "Axes are counted from 0: a set of one axis has axis 0 alone.",
        "insert end my-news-coordinate-1L a 1 8 => refused 14",
    ),
    fault(
        15,
        "An F, G or N has a width of one bit, a K is below 2^L, and a C is below the length of its axis.",
        "insert end u-move-constant-1L a 256 8 => refused 15",
    ),
    fault(
        16,
        "A send notifies a field of its own, or `none`.",
        "field n S 1\ninsert end send-1L n a a 1 n => refused 16",
    ),
    fault(17, "It stands at 2^63 - 1 then. No script lives to see that.", None),
    fault(18, "No command answers it.", None),
    fault(19, "It has no reply: it ends the run, with exit status 4.", None),
    fault(
        20,
        "C is the column of the first word, counted in bytes from 1, with which no command goes on so. Where words are "
        "missing it is the line's length plus 1. Where `paris` isn't the first command, it is 1.",
        "shw a end => refused 20 1",
    ),
    fault(21, "No command answers it.", None),
    fault(
        22,
        "Orders are counted from 1 in the order in which `take` gave them.",
        "bring 7 => refused 22",
    ),
    fault(23, "No command answers it.", None),
)
