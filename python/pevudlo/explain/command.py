"""`paris explain FILE [--stop] [--quiet] [--json]`: runs a script, and tells of each line what came of it."""

from __future__ import annotations

import sys
from contextlib import nullcontext
from typing import BinaryIO, ContextManager, Iterator

from pevudlo.arguments import Arguments, add_quiet
from pevudlo.draw.visible import visible
from pevudlo.explain.writers import InJson, InWords, Tally, Writer
from pevudlo.progress import PROGRESS, Progress, line_of, progress
from pevudlo.talk import Talk
from pevudlo.wire.pipe import Pipe, PipeError
from pevudlo.wire.program import NotFound, find

DOES = (
    "Runs a script, and shows each line with what came of it: values as grids, and refusals in words with what there "
    "is instead. The exit status is the program's."
)


def lines_of(script: BinaryIO) -> Iterator[str]:
    """The lines of a script without their line feeds. Bytes that aren't UTF-8 are surrogates."""
    for raw in script:
        yield raw.removesuffix(b"\n").decode("utf-8", "surrogateescape")


def count_of(script: BinaryIO) -> int | None:
    """How many lines a script has from here on. None where they can't be counted without being taken."""
    if not script.seekable():
        return None
    here = script.tell()
    count = sum(1 for _ in script)
    script.seek(here)
    return count


def explain(script: BinaryIO, talk: Talk, writer: Writer, stop: bool = False, told: Progress = PROGRESS) -> None:
    """Tells what comes of each line of a script, with `stop` up to the first that is refused."""
    tally = Tally()
    count = count_of(script) if told.is_told else None
    for number, line in enumerate(lines_of(script), start=1):
        told.at(line_of(number, count))
        told.settling(line, talk.peer)
        answer = talk.tell_causes(line)
        if answer is None:
            with told.aside():
                writer.comment(number, line)
            continue
        tally.count(number, answer, stop)
        with told.aside():
            writer.write(number, answer, talk.board)
        if tally.stopped:
            break
    faults = talk.faults()
    with told.aside():
        writer.end(tally, faults)


def arguments() -> Arguments:
    """The reader of the command's words."""
    parser = Arguments("explain", DOES)
    parser.add_argument("file", metavar="FILE", help="a script, or `-` for standard input")
    parser.add_argument("--stop", action="count", default=0, help="end at the first refusal")
    add_quiet(parser, "write refusals and values alone")
    parser.add_argument("--json", action="store_true", help="write one JSON object a line")
    return parser


def opened(name: str) -> ContextManager[BinaryIO]:
    """A script by its file's name, `-` for standard input. Raises OSError where it can't be read."""
    if name == "-":
        return nullcontext(sys.stdin.buffer)
    return open(name, "rb")


def main(words: list[str]) -> int:
    """Runs the command. The exit status is the program's, or 2 where the words are wrong or the file can't be read."""
    parser = arguments()
    said = parser.parse_args(words)
    if said.stop > 1:
        parser.error("--stop is said twice")
    name = visible(said.file)
    writer = (InJson if said.json else InWords)(name, said.quiet)
    try:
        with opened(said.file) as script, Pipe(find(), said.workers) as pipe:
            # Who types lines is told nothing between them.
            with progress(said.quiet or script.isatty()) as told:
                explain(script, Talk(pipe), writer, said.stop == 1, told)
            return pipe.close()
    except BrokenPipeError:
        raise
    except OSError as error:
        return ends_badly(f"can't read {name}: {error.strerror}")
    except NotFound as error:
        return ends_badly(str(error))
    except PipeError as error:
        return ends_badly(str(error), error.status if error.status > 0 else 128 - error.status)


def ends_badly(said: str, status: int = 2) -> int:
    """Says what ended it, and gives the exit status."""
    print(f"paris explain: {said}", file=sys.stderr)
    return status
