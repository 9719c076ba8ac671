"""`paris [--workers 1-16] [--desk] [FILE]` of an installed package: the program runs a script, or standard input."""

from __future__ import annotations

import argparse
import os
import sys

from pevudlo.arguments import MOST_WORKERS, workers
from pevudlo.draw.visible import visible
from pevudlo.files import why
from pevudlo.wire.program import NotFound, find

# Results of large sets are long lists, which the system gives faster in huge pages. Those of short sets are many short
# lists, of which the C library keeps more at hand once they are freed. What the user says of it stands.
TUNABLES, OF_LISTS = "GLIBC_TUNABLES", "glibc.malloc.hugetlb=1:glibc.malloc.tcache_count=127"


def add_words(parser: argparse.ArgumentParser) -> None:
    """Adds the words that the program takes."""
    said = "how many threads settle rows (default: 2)"
    parser.add_argument("--workers", type=workers, metavar=f"1-{MOST_WORKERS}", help=said)
    parser.add_argument("--desk", action="store_true", help="the script is in parts, whose sessions share a desk")


def run_script(name: str | None, count: int | None, has_desk: bool) -> int:
    """Becomes the program, with a script as its standard input. Where there is no program or no script it returns 2."""
    asked = [*(["--workers", str(count)] if count else []), *(["--desk"] if has_desk else [])]
    try:
        program = str(find())
        if name is not None:
            with open(name, "rb") as script:
                os.dup2(script.fileno(), sys.stdin.fileno())
        os.environ.setdefault(TUNABLES, OF_LISTS)
        os.execv(program, [program, *asked])
    except NotFound as error:
        print(f"paris: {error}", file=sys.stderr)
    except (OSError, ValueError) as error:
        print(f"paris: can't read {visible(name or 'standard input')}: {why(error)}", file=sys.stderr)
    return 2
