"""`paris lsp`: a language server over standard input and output, which an editor starts."""

from __future__ import annotations

import os
import signal
import sys
from collections.abc import Callable

from pevudlo.arguments import Arguments
from pevudlo.lsp.frames import NoFrame
from pevudlo.lsp.server import Server
from pevudlo.wire.peers import Peer, peer_of

DOES = (
    "A language server, which an editor starts and talks with over standard input and output. It says beside each line "
    "of a script what it gives, while it is typed, and what is wrong with it."
)

MISSING = (
    "--join takes aiohttp, which this Python hasn't: install Debian's package python3-aiohttp, or "
    "`pip install 'pevudlo[serve]'`"
)
Make = Callable[[int, Callable[[bytes], object], Callable[[], Peer]], Server]
"""What makes a server of a descriptor to read from, of what writes, and of what starts a peer."""


def arguments() -> Arguments:
    """The reader of the command's words."""
    parser = Arguments("lsp", DOES, usual_workers=None)
    said = "over standard input and output, which some editors say, and which is so anyway"
    parser.add_argument("--stdio", action="store_true", help=said)
    said = "the first file that is opened is the program that `paris serve` has at this address, and others edit it too"
    parser.add_argument("--join", metavar="ADDRESS", help=said)
    said = "by which name an address joins at which people write one (default: that of who is logged in)"
    parser.add_argument("--name", metavar="NAME", help=said)
    return parser


def joining(address: str | None, name: str | None) -> Make:
    """What makes the server: one that joins where an address is said. Raises ValueError where it can't."""
    if address is None:
        return Server
    try:
        from pevudlo.join.address import read_address
        from pevudlo.join.server import JoinedServer
    except ImportError as error:
        raise ValueError(MISSING) from error
    at = read_address(address, name)
    return lambda source, send, begin: JoinedServer(source, send, begin, at)


def send(data: bytes) -> None:
    """Writes to standard output, all of it."""
    while data:
        data = data[os.write(sys.stdout.fileno(), data) :]


def main(words: list[str]) -> int:
    """Serves until the editor ends it.

    The exit status is 0 where it was shut down before, 1 where not, and 2 where words are wrong or no frame comes.
    """
    parser = arguments()
    said = parser.parse_args(words)
    try:
        join = joining(said.join, said.name)
    except ValueError as error:
        parser.error(str(error))
    signal.signal(signal.SIGTERM, signal.default_int_handler)
    if sys.stdin.isatty():
        print("paris lsp: an editor starts it, and talks with it here; Ctrl-C ends it", file=sys.stderr)
    try:
        with join(sys.stdin.fileno(), send, lambda: peer_of(said.workers, is_large=True)) as server:
            return server.serve()
    except (KeyboardInterrupt, BrokenPipeError):
        return 1
    except NoFrame as error:
        print(f"paris lsp: {error}; an editor starts it, and talks with it", file=sys.stderr)
        return 2
