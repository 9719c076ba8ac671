"""The words of the commands for people: what their readers share."""

from __future__ import annotations

import argparse
from typing import NoReturn

from pevudlo.draw.visible import visible

MOST_WORKERS = 16
USUAL_WORKERS = 2


class Arguments(argparse.ArgumentParser):
    """Reads the words of `paris COMMAND`. Of wrong ones it says why, with each sign shown, and ends with status 2."""

    def __init__(
        self,
        command: str,
        does: str,
        more: str | None = None,
        formatter: type[argparse.HelpFormatter] = argparse.HelpFormatter,
        usual_workers: int | None = USUAL_WORKERS,
    ) -> None:
        super().__init__(
            prog=f"paris {command}", description=does, epilog=more, formatter_class=formatter, allow_abbrev=False
        )
        said = f"how many threads settle rows (default: {usual_workers or USUAL_WORKERS})"
        self.add_argument("--workers", type=workers, default=usual_workers, metavar=f"1-{MOST_WORKERS}", help=said)

    def error(self, message: str) -> NoReturn:
        """Says what is wrong, below the usage."""
        super().error(visible(message))


def add_quiet(parser: argparse.ArgumentParser, also: str = "") -> None:
    """Adds the word that turns the line of progress off, and what it does also."""
    said = "say nothing of how far it is, on a terminal" + (f", and {also}" if also else "")
    parser.add_argument("--quiet", action="store_true", help=said)


def add_program(parser: argparse.ArgumentParser) -> None:
    """Adds the word by which a program of its own runs the rows."""
    said = "have rows run in a program of its own, where else the library runs them if it is there"
    parser.add_argument("--program", action="store_true", help=said)


def workers(word: str) -> int:
    """A number of workers, in its one spelling."""
    if word not in map(str, range(1, MOST_WORKERS + 1)):
        raise argparse.ArgumentTypeError(f"`{word}` is no number from 1 to {MOST_WORKERS}")
    return int(word)


def file_name(word: str) -> str:
    """The name of a file, which is no standard input."""
    if word == "-":
        raise argparse.ArgumentTypeError("`-` is no file here")
    return word


def output_name(word: str) -> str:
    """The name of a file that is written, or `-`."""
    if not word:
        raise argparse.ArgumentTypeError("it has no name")
    return word
