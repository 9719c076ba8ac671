"""`paris live [FILE]`: a program that is edited in a browser, and run as it is edited."""

from __future__ import annotations

import signal
import sys
import threading
from argparse import ArgumentTypeError, Namespace
from pathlib import Path
from types import FrameType

from pevudlo.arguments import Arguments, add_quiet, file_name
from pevudlo.draw.visible import visible
from pevudlo.files import lines_in, read_lines, read_regular, why
from pevudlo.live.followed import FollowedSession
from pevudlo.live.running import RunningSession
from pevudlo.live.server import Server
from pevudlo.live.session import Session, Stopped
from pevudlo.running.held import WrongVariable
from pevudlo.wire.library_places import find_library
from pevudlo.wire.pipe import PipeError
from pevudlo.wire.program import NotFound

DOES = (
    "Serves a page on which a program is edited while its rows run by themselves. It is for browsers on this machine "
    "alone, at the address that is written first. Ctrl-C ends it."
)


def port(word: str) -> int:
    """A port's number, 0 for any that is free."""
    if not (word.isascii() and word.isdigit()) or len(word) > 5 or int(word) > 65535:
        raise ArgumentTypeError(f"`{word}` is no number from 0 to 65535")
    return int(word)


def arguments() -> Arguments:
    """The reader of the command's words."""
    parser = Arguments("live", DOES)
    parser.add_argument("file", nargs="?", type=file_name, metavar="FILE", help="a script that the program begins with")
    add_quiet(parser)
    said = "several tabs edit at once; without it one does, and the others look"
    parser.add_argument("--shared", action="store_true", help=said)
    said = "hold the page in step with FILE while it is edited, on the page as a text too, which is written into FILE"
    parser.add_argument("--follow", action="store_true", help=said)
    said = "the port; 0 is any that is free (default: %(default)s)"
    parser.add_argument("--port", type=port, default=0, metavar="0-65535", help=said)
    return parser


def interrupt(number: int, frame: FrameType | None) -> None:
    """Makes of a wish to end what Ctrl-C is."""
    raise KeyboardInterrupt


def serve(session: Session, title: str, port: int) -> None:
    """Serves until Ctrl-C. Raises OSError where the port can't be had."""
    try:
        server = Server(session, title, port)
    except OSError as error:
        raise OSError(f"can't listen at port {port}: {why(error)}") from error
    with server:
        print(f"Open {server.address} in a browser on this machine. Ctrl-C ends it.", flush=True)
        server.serve_forever(poll_interval=0.2)


def lines_of(path: Path, is_followed: bool) -> list[str]:
    """The lines of a script. Where it is followed it has to be a regular file. Raises OSError and ValueError."""
    return lines_in(read_regular(path)) if is_followed else read_lines(path)


def begun(said: Namespace, lines: list[str]) -> Session:
    """A session of a script, or of a file that is followed. Raises NotFound, Stopped and PipeError."""
    library = find_library()
    if said.follow:
        followed = FollowedSession(Path(said.file), library, said.workers, said.quiet)
        followed.look()
        threading.Thread(target=followed.follow, daemon=True).start()
        return followed
    session = RunningSession(library, said.workers, said.quiet, said.shared)
    try:
        refused = session.load(lines)
    except BaseException:
        session.close()
        raise
    if refused:
        print(f"paris live: {len(refused)} of the script's lines were refused; the page says why", file=sys.stderr)
    return session


def main(words: list[str]) -> int:
    """Serves a page. The exit status is 0 after Ctrl-C, and 2 where the words are wrong or nothing can be served."""
    parser = arguments()
    said = parser.parse_args(words)
    if said.follow and said.file is None:
        parser.error("--follow wants a FILE")
    path = Path(said.file) if said.file is not None else None
    signal.signal(signal.SIGTERM, interrupt)
    session = None
    try:
        lines = lines_of(path, said.follow) if path is not None else []
    except (OSError, ValueError) as error:
        print(f"paris live: can't read {visible(str(path))}: {why(error)}", file=sys.stderr)
        return 2
    try:
        session = begun(said, lines)
        serve(session, path.name if path is not None else "a new program", said.port)
    except KeyboardInterrupt:
        print()
    except (OSError, NotFound, PipeError, Stopped, WrongVariable) as error:
        print(f"paris live: {error}", file=sys.stderr)
        return 2
    finally:
        if session is not None:
            session.close()
    return 0
