"""`python3 -m pevudlo`, or `pevudlo` and `paris` where the package is installed: a script, or a command for people.

Each command is a module, which is imported when it is called.
"""

from __future__ import annotations

import argparse
import importlib
import os
import sys
from pathlib import Path
from typing import Any

from pevudlo.draw.visible import visible
from pevudlo.hints.words import nearest
from pevudlo.script import add_words, run_script
from pevudlo.version import build, release

COMMANDS = {
    "explain": "pevudlo.explain.command",
    "prompt": "pevudlo.prompt.command",
    "page": "pevudlo.page.command",
    "live": "pevudlo.live.command",
    "watch": "pevudlo.document.command",
    "lsp": "pevudlo.editor",
    "serve": "pevudlo.serve.command",
    "check": "pevudlo.exercise.command",
    "help": "pevudlo.help.command",
}
# The names under which the package is installed.
NAMES = ("pevudlo", "paris")


class Version(argparse.Action):
    """Says the release, and which build runs here."""

    def __call__(self, parser: argparse.ArgumentParser, *_: Any) -> None:
        try:
            found = build()
        except ValueError as error:
            parser.exit(2, f"{parser.prog}: {error}\n")
        print(f"{parser.prog} {release()}" + (f" ({found.value})" if found else ""))
        parser.exit()


def arguments() -> argparse.ArgumentParser:
    """The reader of the words that aren't a command's."""
    called = Path(sys.argv[0]).name
    name = called if called in NAMES else NAMES[0]
    parser = argparse.ArgumentParser(
        prog=name,
        usage=f"{name} [-h] [--version] [--workers 1-16] [--desk] [FILE]\n       {name} COMMAND ...",
        description=f"Runs a script, FILE or standard input; or a command for people: {', '.join(COMMANDS)}.",
        epilog=f"`{name} COMMAND --help` says what it does and takes. A script of such a name is run as ./explain.",
        allow_abbrev=False,
    )
    parser.add_argument("--version", action=Version, nargs=0, help="say the release and the build that runs here")
    add_words(parser)
    parser.add_argument("files", nargs="*", metavar="FILE", help="a script")
    return parser


def main(words: list[str]) -> int:
    """Runs the script or the command that the words name, and gives the exit status.

    Wrong words raise SystemExit with status 2.
    """
    if words and words[0] in COMMANDS:
        command = importlib.import_module(COMMANDS[words[0]])
        return int(command.main(words[1:]))
    parser = arguments()
    said = parser.parse_args(words)
    name = next(iter(said.files), None)
    if name in COMMANDS:
        parser.error(f"the words of {name} stand behind it")
    if name is not None and not os.path.isfile(name):
        near = nearest(name, [*COMMANDS])
        parser.error(f"can't read `{visible(name)}`" + (f": did you mean `{near}`?" if near else ""))
    if len(said.files) > 1:
        parser.error("one FILE is wanted")
    return run_script(name, said.workers, said.desk)


def run() -> int:
    """The exit status: as a shell says it where the run was ended by Ctrl-C, or where nobody reads what it writes."""
    try:
        try:
            return main(sys.argv[1:])
        finally:
            sys.stdout.flush()
    except KeyboardInterrupt:
        return 130
    except BrokenPipeError:
        os.dup2(os.open(os.devnull, os.O_WRONLY), sys.stdout.fileno())
        return 141
