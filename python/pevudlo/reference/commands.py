"""The reference: the commands of a script."""

from __future__ import annotations

from pevudlo.reference.entry import Entry, Kind, example

FIRST = """
set S 4
field a S 8
field b S 8
field c S 8
input a 0 10 20 30 250
input b 0 1 2 3 10
insert end u-add-3-1L c a b 8 => row 1
"""


def command(name: str, spelling: str, does: str, text: str) -> Entry:
    """The entry of a command."""
    return Entry(Kind.COMMAND, name, spelling, does, example=example(text))


DECLARING = (
    command(
        "paris",
        "paris 1, paris 2",
        "Chooses the profile, as the first command of a script: above it stand empty lines and comments alone. In "
        "profile 2 fields and lengths have up to 128 bits. In profile 1, which is that of every other script, they "
        "have up to 64. It is no edit.",
        """
paris 2
set S 4
field a S 128
input a 0 18446744073709551616 1
insert end u-multiply-3-1L a a a 128 => row 1
settle => settled 1
show a end => values 0 1 0 0
show S.overflow end => values 1 0 0 0
""",
    ),
    command(
        "set",
        "set NAME AXES",
        "Declares a set of virtual processors. AXES are one to four lengths, each a power of two, with an x between "
        "each two: `4`, `4x2`. Processors are counted from 0, axis 0 fastest. All are selected: the context begins as "
        "1.",
        """
set S 4
set G 4x2
show G.context start => values 1 1 1 1 1 1 1 1
show G.carry start => values 0 0 0 0 0 0 0 0
""",
    ),
    command(
        "field",
        "field NAME NAME NUM",
        "Declares a field by its name, its set, and its width of 1 to 64 bits, or to 128 in profile 2. It begins as 0.",
        """
set S 4
field a S 8
show a start => values 0 0 0 0
""",
    ),
    command(
        "input",
        "input KEY NUM VAL ..",
        "Gives a key one value or more at the start of the program, from the processor NUM on. Rows that are made of "
        "the key become unsettled, but for those that would compute the same again.",
        """
set S 4
field a S 8
input a 0 10 20 30 40
input a 2 33
show a start => values 10 20 33 40
input S.context 1 0 0
show S.context start => values 1 0 0 1
""",
    ),
)

EDITING = (
    command(
        "insert",
        "insert start INSTR, insert after NUM INSTR, insert end INSTR",
        "Puts a row with an instruction before all others, just after the row of the id NUM, or after all others. The "
        "reply says its id. Later rows that read what it writes become unsettled.",
        """
set S 4
field a S 8
insert end u-move-constant-1L a 5 8 => row 1
insert end u-add-3-1L a a a 8 => row 2
insert after 1 lognot-2-1L a a 8 => row 3
settle => settled 3
show a after 1 => values 5 5 5 5
show a after 3 => values 250 250 250 250
show a end => values 244 244 244 244
""",
    ),
    command(
        "delete",
        "delete NUM",
        "Takes the row of the id NUM out. Its id isn't used again. Later rows that read what it wrote become "
        "unsettled.",
        """
set S 4
field a S 8
insert end u-move-constant-1L a 5 8 => row 1
insert end u-add-3-1L a a a 8 => row 2
settle => settled 2
show a end => values 10 10 10 10
delete 1
show a end => pending 2
settle => settled 1
show a end => values 0 0 0 0
""",
    ),
    command(
        "replace",
        "replace NUM INSTR",
        "Gives the row of the id NUM another instruction. It keeps its id and its place, and becomes unsettled, with "
        "the later rows that read what it wrote or writes.",
        FIRST
        + """
settle => settled 1
show c end => values 11 22 33 4
replace 1 u-subtract-3-1L c a b 8
show c end => pending 1
settle => settled 1
show c end => values 9 18 27 240
""".lstrip(),
    ),
)

RUNNING = (
    command(
        "take",
        "take",
        "Takes an order for the first row that is ready: it waits, and all that it reads is settled. The row is out "
        "then. The reply has the order's number, or is `nothing` where no row is ready.",
        FIRST
        + """
take => order 1 row 1 edition 7
take => nothing
list => rows 1 / 1 edition 7 out u-add-3-1L c a b 8
""".lstrip(),
    ),
    command(
        "bring",
        "bring NUM",
        "Executes a copy of the order of this number, and brings the result. It is `kept` where it is the present "
        "row's, else `repeated`, `stale` with the row's edition now, `gone`, or `foreign`.",
        FIRST
        + """
take => order 1 row 1 edition 7
bring 1 => kept
bring 1 => repeated
show c end => values 11 22 33 4
input a 3 251
bring 1 => stale 8
delete 1
bring 1 => gone
""".lstrip(),
    ),
    command(
        "release",
        "release",
        "Gives up all orders that are out: their rows wait again. Such an order can still be brought.",
        FIRST
        + """
take => order 1 row 1 edition 7
release
list => rows 1 / 1 edition 7 waiting u-add-3-1L c a b 8
bring 1 => kept
""".lstrip(),
    ),
    command(
        "settle",
        "settle",
        "Releases, and then settles the rows that are unsettled, until none is. The reply says how many were executed. "
        "A row whose instruction and inputs are those of its last result keeps that and isn't executed.",
        FIRST
        + """
settle => settled 1
settle => settled 0
input b 0 5
settle => settled 1
show c end => values 15 22 33 4
input b 0 5
settle => settled 0
""".lstrip(),
    ),
)

LOOKING = (
    command(
        "show",
        "show KEY start, show KEY after NUM, show KEY end",
        "Shows a key before the first row, just after the row of the id NUM, or after the last: a number for each "
        "processor, or `pending` with the row that has to be settled first.",
        FIRST
        + """
show c start => values 0 0 0 0
show c end => pending 1
settle => settled 1
show c after 1 => values 11 22 33 4
show S.carry end => values 0 0 0 1
""".lstrip(),
    ),
    command(
        "list",
        "list",
        "Lists the rows in program order. Each has its id, its edition, which is the number of the edit that last "
        "touched it, its status (`waiting`, `out` or `settled`), and its instruction.",
        FIRST
        + """
insert start u-move-constant-1L a 5 8 => row 2
take => order 1 row 2 edition 8
bring 1 => kept
list => rows 2 / 2 edition 8 settled u-move-constant-1L a 5 8 / 1 edition 8 waiting u-add-3-1L c a b 8
""".lstrip(),
    ),
    command(
        "faults",
        "faults",
        "Lists the settled rows that were refused for their data when they ran: a `collision` with the processor "
        "where two messages meet, or a `bad-address` with the processor that holds it. Such a row changes nothing.",
        """
set S 4
field ad S 8
field d S 8
input ad 0 2 0 2 1
insert end send-1L d ad ad 8 none => row 1
insert end get-1L d ad ad 8 => row 2
settle => settled 2
faults => faults 1 / 1 collision 2
input ad 3 9
settle => settled 2
faults => faults 2 / 1 bad-address 3 / 2 bad-address 3
""",
    ),
)

ENTRIES: tuple[Entry, ...] = DECLARING + EDITING + RUNNING + LOOKING
