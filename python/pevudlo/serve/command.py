"""`paris serve FILE`: one program in the browsers of several people; with `--class` an exercise for each of many."""

from __future__ import annotations

import asyncio
import re
import signal
import sys
from argparse import ArgumentTypeError, Namespace
from collections.abc import Coroutine
from dataclasses import replace
from pathlib import Path
from typing import TYPE_CHECKING, Any

from pevudlo.arguments import Arguments, file_name
from pevudlo.draw.visible import visible
from pevudlo.exercise.solution import Solution, read_solution
from pevudlo.files import lines_in, path_of, put_text, read_regular, why
from pevudlo.serve.limits import TEACHING, Limits, Refused, check_line, check_size, size_of
from pevudlo.serve.seats import Seats
from pevudlo.wire.library_places import find_library
from pevudlo.wire.program import NotFound

if TYPE_CHECKING:
    from pevudlo.serve.hall import Hall
    from pevudlo.serve.site import Site

DOES = (
    "Serves a program to the browsers of several people, who edit it together. With --class it gives an exercise to a "
    "class: a program for each seat, all from the same start, and a board for who teaches. It is for browsers on this "
    "machine, or for those of a proxy that --origin names. Ctrl-C ends it."
)
MISSING = (
    "serve takes aiohttp, which this Python hasn't: install Debian's package python3-aiohttp, or "
    "`pip install 'pevudlo[serve]'`"
)
MOST_SEATS = 100
ORIGIN = re.compile(r"https?://[a-z0-9.-]+(:[0-9]{1,5})?")
SWITCH = 0.001
"""Seconds behind which a thread of Python lets another one run: the loop waits for none longer."""

ADDRESSES, SEATS, JOURNAL = "addresses.txt", "seats.json", "journal.jsonl"


def number(least: int, most: int) -> type[int]:
    """A reader of numbers in their one spelling."""

    def read(word: str) -> int:
        if not (word.isascii() and word.isdigit() and len(word) < 10) or not least <= int(word) <= most:
            raise ArgumentTypeError(f"`{word}` is no number from {least} to {most:,}")
        return int(word)

    return read  # type: ignore[return-value]


def origin(word: str) -> str:
    """What a proxy is called."""
    if not ORIGIN.fullmatch(word):
        raise ArgumentTypeError(f"`{word}` is no origin, such as https://paris.school.example")
    return word


def arguments() -> Arguments:
    """The reader of the command's words."""
    parser = Arguments("serve", DOES, usual_workers=1)
    parser.add_argument("file", type=file_name, metavar="FILE", help="a script that all begin with")
    said = "how many students there are, each with a program"
    parser.add_argument("--class", dest="students", type=number(1, MOST_SEATS), metavar="N", help=said)
    said = "how many people edit one program, without --class (default: %(default)s)"
    parser.add_argument("--seats", type=number(1, MOST_SEATS), default=6, metavar="N", help=said)
    said = "a script that gives what is wanted, with further input data behind its looks"
    parser.add_argument("--check", type=file_name, metavar="SOLUTION", help=said)
    said = "a file with a name in each line: each has an address of its own then"
    parser.add_argument("--names", type=file_name, metavar="FILE", help=said)
    parser.add_argument("--looking", type=number(1, MOST_SEATS), default=1, metavar="N", help="seats that look alone")
    said = "the port; 0 is any that is free (default: %(default)s)"
    parser.add_argument("--port", type=number(0, 65535), default=0, metavar="0-65535", help=said)
    said = "what the proxy before it is called, such as https://paris.school.example"
    parser.add_argument("--origin", type=origin, metavar="ORIGIN", help=said)
    said = "where addresses, the journal, and what is handed in are (default: FILE's name with `-served` behind it)"
    parser.add_argument("--folder", type=file_name, metavar="FOLDER", help=said)
    said = "begin again where the folder's journal ends, with the same addresses"
    parser.add_argument("--again", action="store_true", help=said)
    said = "do again what the folder's journal says, and compare each reply, instead of serving"
    parser.add_argument("--audit", action="store_true", help=said)
    said = "keep a history of one program, which can be checked, and run the rows first whose values are waited for"
    parser.add_argument("--history", action="store_true", help=said)
    said = "edits a second that a student may make (default: %(default)s)"
    parser.add_argument("--rate", type=number(1, 100), default=5, metavar="N", help=said)
    said = "processors of a set that a student may declare (default: %(default)s)"
    parser.add_argument("--most-processors", type=number(1, 65536), default=1024, metavar="N", help=said)
    return parser


def read(name: str) -> list[str]:
    """The lines of a file. Raises OSError with its name."""
    try:
        return lines_in(read_regular(path_of(name)))
    except (OSError, ValueError) as error:
        raise OSError(f"can't read {visible(name)}: {why(error)}") from error


def exercise_of(name: str) -> list[str]:
    """The lines of an exercise. Raises OSError, and Refused where it is too large."""
    lines = [line.encode("utf-8", "surrogateescape").decode("utf-8", "replace") for line in read(name)]
    for line in lines:
        check_line(line)
    check_size(size_of(lines), len(lines), TEACHING, size_of([]))
    return lines


def solution_of(name: str | None) -> Solution | None:
    """The solution of a file, where one is said. Raises OSError and ValueError."""
    return read_solution(read(name)) if name is not None else None


def addresses(site: Site, seats: Seats, is_named: bool) -> str:
    """The addresses of the seats that people are given, a line each."""
    wanted = [seat for seat in seats if not seat.teaches and (is_named or seat not in seats.students)]
    told = [f"{seat.name}: {site.address}/#{seat.token}\n" for seat in wanted]
    return "".join(told)


def told(site: Site, seats: Seats, folder: Path, is_named: bool) -> str:
    """What is written when it serves."""
    is_class = site.hall.mode == "class"
    looks, joins = ("The wall opens ", "The class opens ") if is_class else ("Who looks opens", "All others open ")
    lines = [
        f"Who teaches opens  {site.address}/#{seats.teacher.token}",
        f"{looks}    {site.address}/#{seats.lookers[0].token}",
    ]
    if not is_named:
        lines.append(f"{joins}   {site.address}/#join:{seats.join}  and each writes a name")
    lines.append(f"Addresses and the journal are in {visible(str(folder))}. Ctrl-C ends it.")
    return "\n".join(lines)


def folder_of(said: Namespace) -> Path:
    """The folder of a server. Raises OSError where it has a journal, and nobody said to begin again, or has none."""
    folder = path_of(said.folder) if said.folder else Path(f"{path_of(said.file).stem}-served")
    has_journal = (folder / JOURNAL).is_file()
    if has_journal and not said.again:
        raise OSError(f"{visible(str(folder))} has a journal: begin again by --again, or say another --folder")
    if said.again and not has_journal:
        raise OSError(f"{visible(str(folder))} has no journal")
    return folder


def put_privately(path: Path, text: str) -> None:
    """Writes a file that nobody else may read. Raises OSError."""
    path.touch(mode=0o600)
    put_text(path, text)


def seats_of(said: Namespace, folder: Path, names: list[str]) -> Seats:
    """The seats, with the names and tokens that they had where it begins again. Raises OSError and ValueError."""
    is_class = said.students is not None
    limits = Limits(rate=float(said.rate), processors=said.most_processors)
    limits = limits if is_class else replace(limits, rows=TEACHING.rows, value_bytes=TEACHING.value_bytes)
    seats = Seats(said.students if is_class else said.seats, said.looking, limits, names)
    if said.again:
        seats.take_back((folder / SEATS).read_text())
    return seats


def hall_of(said: Namespace, seats: Seats, folder: Path, exercise: list[str], solution: Solution | None) -> Hall:
    """What is served. It is made within a loop. Raises OSError and ValueError."""
    from pevudlo.serve.classroom import Classroom
    from pevudlo.serve.journal import Journal, read_journal
    from pevudlo.serve.shared import Shared

    kept = read_journal(folder) if said.again else {}
    title, library, journal = path_of(said.file).name, find_library(), Journal(folder)
    if said.students is None:
        return Shared(title, seats, library, said.workers, exercise, journal, kept.get(0), said.history)
    return Classroom(title, seats, library, said.workers, exercise, solution, folder, journal, kept)


async def serve(said: Namespace, exercise: list[str], solution: Solution | None, names: list[str]) -> None:
    """Serves until it is ended. Raises OSError where the port can't be had, and ValueError."""
    from pevudlo.serve.site import Site

    sys.setswitchinterval(SWITCH)
    folder = folder_of(said)
    seats = seats_of(said, folder, names)
    hall = hall_of(said, seats, folder, exercise, solution)
    site = Site(hall, said.port, said.origin or "")
    try:
        await site.open()
        put_privately(folder / ADDRESSES, addresses(site, seats, bool(names)))
        seats.changed = lambda: put_privately(folder / SEATS, seats.kept())
        seats.changed()
        print(told(site, seats, folder, bool(names)), flush=True)
        await until_over(hall.tick(), hall.sync(), hall.watch())
    finally:
        await site.close()
        hall.close()


async def until_over(*works: Coroutine[Any, Any, None]) -> None:
    """Works until a signal ends it. Raises what ends a work before."""
    over = asyncio.Event()
    asyncio.get_running_loop().add_signal_handler(signal.SIGINT, over.set)
    asyncio.get_running_loop().add_signal_handler(signal.SIGTERM, over.set)
    tasks = [asyncio.create_task(each) for each in (*works, wait_for(over))]
    await asyncio.wait(tasks, return_when=asyncio.FIRST_COMPLETED)
    for task in tasks:
        if task.done():
            task.result()
        task.cancel()


async def wait_for(over: asyncio.Event) -> None:
    """Waits for the end."""
    await over.wait()


def audit(said: Namespace) -> int:
    """Checks the folder's journal. The exit status is 1 where it isn't what was written. Raises OSError."""
    from pevudlo.serve.replay import check_journal

    said.again = True
    checked = check_journal(folder_of(said), find_library())
    print(checked.words())
    return int(bool(checked.wrong))


def main(words: list[str]) -> int:
    """Serves. The exit status is 0 after Ctrl-C, and 2 where the words are wrong or nothing can be served.

    With --audit it is 1 where the journal isn't what was written.
    """
    parser = arguments()
    said = parser.parse_args(words)
    try:
        import aiohttp  # noqa: F401
    except ImportError:
        print(f"paris serve: {MISSING}", file=sys.stderr)
        return 2
    try:
        if said.students is not None and (said.audit or said.history):
            parser.error(f"{'--audit' if said.audit else '--history'} is of one program, and not of a class")
        if said.audit:
            return audit(said)
        names = [name for name in read(said.names) if name.strip()] if said.names else []
        count = said.seats if said.students is None else said.students
        if len(names) > count:
            parser.error(f"there are {len(names)} names for {count} seats")
        if said.check and said.students is None:
            parser.error("--check is of a class: say --class N")
        asyncio.run(serve(said, exercise_of(said.file), solution_of(said.check), names))
    except (OSError, ValueError, Refused, NotFound) as error:
        print(f"paris serve: {error}", file=sys.stderr)
        return 2
    return 0
