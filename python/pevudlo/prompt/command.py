"""`paris prompt [FILE]`: lines are told to a program one by one, with history, completion and help."""

from __future__ import annotations

import os
import sys
from argparse import RawDescriptionHelpFormatter

from pevudlo.arguments import Arguments, add_program, add_quiet, file_name
from pevudlo.draw.visible import visible
from pevudlo.files import path_of, read_lines, why
from pevudlo.prompt.columns import terminal_columns
from pevudlo.prompt.help import OWN_WORDS
from pevudlo.prompt.lines import Piped, Reader, Terminal, is_terminal
from pevudlo.prompt.prompt import Prompt, talk
from pevudlo.prompt.session import Session, Stopped
from pevudlo.prompt.status import StatusLine
from pevudlo.running.held import WrongVariable
from pevudlo.wire.library_places import find_library_or_none
from pevudlo.wire.program import NotFound, find

DOES = "Takes commands one by one, with history, completion and help."


def arguments() -> Arguments:
    """The reader of the command's words."""
    own = "\n".join(f"  {word.spelling}: {word.does}" for word in OWN_WORDS)
    parser = Arguments("prompt", DOES, f"words of the prompt's own:\n{own}", RawDescriptionHelpFormatter)
    add_quiet(parser)
    add_program(parser)
    parser.add_argument("file", nargs="?", type=file_name, metavar="FILE", help="a script that is told first")
    return parser


def run(session: Session, file: str | None, is_quiet: bool) -> None:
    """The prompt, from the file's lines on where one is named. Raises Stopped where no program can be started."""
    reader: Reader = Terminal(lambda: session.board) if is_terminal() else Piped()
    prompt = Prompt(session, lambda line: print(line, flush=True), is_terminal(), terminal_columns, is_quiet)
    status = StatusLine(lambda: session.background, lambda data: os.write(1, data)) if is_terminal() else None
    try:
        session.begin()
        if status is not None:
            status.start()
        prompt.say(*reader.welcome())
        if file is not None:
            try:
                prompt.load(path_of(file))
            except Stopped as stopped:
                prompt.say(f"no program runs: {stopped}", prompt.kept_words())
        talk(prompt, reader)
    finally:
        if status is not None:
            status.end()
        session.close()


def begun(workers: int, is_program: bool) -> Session:
    """A session over the library, or over the program where that is wanted, or where there is no library.

    Raises NotFound where there is neither.
    """
    library = None if is_program else find_library_or_none()
    return Session(find() if library is None else None, workers, library)


def main(words: list[str]) -> int:
    """Runs the command. The exit status is 2 where the words are wrong, the file can't be read, or no program runs."""
    said = arguments().parse_args(words)
    try:
        if said.file is not None:
            read_lines(path_of(said.file))
    except (OSError, ValueError) as error:
        return ends_badly(f"can't read {visible(said.file)}: {why(error)}")
    try:
        run(begun(said.workers, said.program), said.file, said.quiet)
    except (NotFound, WrongVariable) as error:
        return ends_badly(str(error))
    except Stopped as stopped:
        return ends_badly(f"no program runs: {stopped}")
    return 0


def ends_badly(said: str) -> int:
    """Says why there is no prompt, and gives the exit status."""
    print(f"paris prompt: {said}", file=sys.stderr)
    return 2
