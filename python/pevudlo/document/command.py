"""`paris watch FILE [--plain]`: a file is held in step with a running book while it is edited elsewhere."""

from __future__ import annotations

import signal
import sys
from contextlib import nullcontext
from typing import ContextManager, Union

from pevudlo.arguments import Arguments, file_name
from pevudlo.document.document import Document
from pevudlo.document.plain import Plain
from pevudlo.document.screen import Screen, drawn
from pevudlo.document.watched import PERIOD, Watched
from pevudlo.draw.visible import visible
from pevudlo.files import path_of, read_regular, why
from pevudlo.wire.peers import peer_of
from pevudlo.wire.pipe import PipeError
from pevudlo.wire.program import NotFound

DOES = (
    "Holds a script in step with a running program while it is edited elsewhere. Where its text changes, only the rows "
    "that this touches run again, and beside each line stands what it gives. Ctrl-C ends it."
)

View = Union[Plain, Screen]


def arguments() -> Arguments:
    """The reader of the command's words."""
    parser = Arguments("watch", DOES, usual_workers=None)
    parser.add_argument("file", type=file_name, metavar="FILE", help="a script; instructions may stand alone in it")
    said = "write what changed line by line, for logs and screen readers; so it does where there is no terminal"
    parser.add_argument("--plain", action="store_true", help=said)
    return parser


def view_of(document: Document, name: str, is_plain: bool) -> ContextManager[View]:
    """A view on the terminal, or in lines."""
    if is_plain or not (sys.stdin.isatty() and sys.stdout.isatty()):
        return nullcontext(Plain(document, lambda line: print(line, flush=True)))
    return drawn(document, name)


def watch(file: Watched, document: Document, view: View) -> None:
    """Follows the file until the view ends it. Raises NotFound and NoReply."""
    is_going, missing = True, ""
    while is_going:
        text = file.news()
        try:
            if text is not None:
                view.show(document.update(text))
        except (PipeError, MemoryError) as error:
            view.trouble(f"{error}; the next text begins anew")
        if file.missing != missing:
            missing = file.missing
            if missing:
                view.trouble(f"{missing}; what was told last is of its last text")
            elif text is None:
                view.trouble("the file is there again, as it was")
        is_going = view.rest(PERIOD)


def main(words: list[str]) -> int:
    """Runs the command. The exit status is 0, or 2 where the words are wrong, or there is no file or no program."""
    said = arguments().parse_args(words)
    path = path_of(said.file)
    name = visible(path.name)
    signal.signal(signal.SIGTERM, signal.default_int_handler)
    try:
        read_regular(path)
    except (OSError, ValueError) as error:
        return ends_badly(f"can't read {visible(said.file)}: {why(error)}")
    try:
        with Document(lambda: peer_of(said.workers, is_large=True)) as document:
            with view_of(document, name, said.plain) as view:
                watch(Watched(path), document, view)
    except KeyboardInterrupt:
        pass
    except (NotFound, ValueError) as error:
        return ends_badly(str(error))
    return 0


def ends_badly(said: str) -> int:
    """Says why nothing is watched, and gives the exit status."""
    print(f"paris watch: {said}", file=sys.stderr)
    return 2
