"""`paris page FILE [-o OUT.html]`: writes a page of a script."""

from __future__ import annotations

import re
import sys
from argparse import ArgumentTypeError
from math import prod
from pathlib import Path

from pevudlo.arguments import Arguments, add_quiet, output_name
from pevudlo.draw.grids import MOST_CELLS
from pevudlo.draw.visible import visible
from pevudlo.files import lines_in, read_lines, why
from pevudlo.page.moments import MOST_NUMBERS, PICTURE_COUNTS
from pevudlo.page.page import page_of
from pevudlo.progress import progress
from pevudlo.wire.peers import peer_of
from pevudlo.wire.pipe import PipeError
from pevudlo.wire.program import NotFound

DOES = "Makes a page of a script, one HTML file that needs no network. The exit status is the program's."
OUT = (
    "where the page goes: `-` is standard output (default: NAME.html in the folder where you are, for a script "
    "NAME.paris; standard output for standard input)"
)
DRAW = (
    f"how many numbers the page draws at most, of which a picture of a large set counts as {PICTURE_COUNTS} "
    "(default: %(default)s)"
)
MOST_DRAWN = 10**9


def numbers(word: str) -> int:
    """How many numbers a page draws."""
    if not (word.isascii() and word.isdigit()) or len(word) > 10 or int(word) > MOST_DRAWN:
        raise ArgumentTypeError(f"`{visible(word)}` is no number from 0 to {MOST_DRAWN}")
    return int(word)


def is_large(lines: list[str]) -> bool:
    """Whether a script declares a set whose keys are drawn as pictures."""
    axes = (match[1].split("x") for line in lines if (match := re.fullmatch(r"set \S+ (\d{1,6}(?:x\d{1,6})*)", line)))
    return any(prod(map(int, lengths)) > MOST_CELLS for lengths in axes)


def arguments() -> Arguments:
    """The reader of the command's words."""
    parser = Arguments("page", DOES, usual_workers=None)
    parser.add_argument("file", metavar="FILE", help="a script, or `-` for standard input")
    add_quiet(parser)
    parser.add_argument("--draw", type=numbers, default=MOST_NUMBERS, metavar="N", help=DRAW)
    parser.add_argument("-o", dest="out", type=output_name, metavar="OUT.html", help=OUT)
    return parser


def lines_of(path: Path) -> list[str]:
    """The lines of a script; `-` is standard input."""
    return lines_in(sys.stdin.buffer.read()) if str(path) == "-" else read_lines(path)


def main(words: list[str]) -> int:
    """Makes a page. The exit status is the program's, or 2 where the words are wrong or a file can't be had."""
    said = arguments().parse_args(words)
    path = Path(said.file)
    out = said.out or ("-" if said.file == "-" else path.stem + ".html")
    try:
        lines = lines_of(path)
    except (OSError, ValueError) as error:
        return ends_badly(f"can't read {visible(str(path))}: {why(error)}")
    if is_same_file(path, out):
        return ends_badly(f"the page would stand in the place of its script: -o says another than {visible(out)}")
    try:
        with peer_of(said.workers, is_large(lines)) as peer, progress(said.quiet) as told:
            title = "standard input" if str(path) == "-" else path.name
            html = page_of(title, lines, peer, told, said.draw).html()
            status = peer.close()
    except MemoryError as error:
        return ends_badly(str(error) or "there is no memory left", 4)
    except (OSError, NotFound) as error:
        return ends_badly(str(error))
    except PipeError as error:
        return ends_badly(str(error), error.status if error.status > 0 else 128 - error.status)
    return write(html, out, status)


def write(html: str, out: str, status: int) -> int:
    """Writes the page, and gives the exit status: the program's, or 2 where the file can't be had."""
    try:
        if out == "-":
            sys.stdout.write(html)
            sys.stdout.flush()
        else:
            Path(out).write_text(html, encoding="utf-8")
            print(visible(out))
    except BrokenPipeError:
        raise
    except (OSError, ValueError) as error:
        return ends_badly(f"can't write {visible(out)}: {why(error)}")
    return status


def is_same_file(script: Path, out: str) -> bool:
    """Whether the page would be written over the script."""
    try:
        return out != "-" and str(script) != "-" and script.is_file() and script.samefile(out)
    except (OSError, ValueError):
        return False


def ends_badly(said: str, status: int = 2) -> int:
    """Says why there is no page, and gives the exit status."""
    print(f"paris page: {said}", file=sys.stderr)
    return status
