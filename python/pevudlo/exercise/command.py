"""`paris check FILE [SOLUTION]`: compares what the looks of a file give with what is wanted."""

from __future__ import annotations

import sys
from collections.abc import Iterator, Sequence
from pathlib import Path

from pevudlo.arguments import Arguments, file_name
from pevudlo.document.document import Document
from pevudlo.draw.visible import visible
from pevudlo.exercise.looks import Outcome, Verdict, compared, places, seen, stretches
from pevudlo.exercise.solution import Solution, Wanted, read_solution, said_checks
from pevudlo.exercise.words import counted, difference, listed
from pevudlo.files import lines_in, path_of, read_regular, why
from pevudlo.wire.peers import Peer, peer_of
from pevudlo.wire.pipe import PipeError
from pevudlo.wire.program import NotFound

DOES = (
    "Runs a file, and compares what its looks give with the comments `# values ..` below them. With a SOLUTION it "
    "compares them with what that one gives with the same input data, and with further ones that it has. Of a folder "
    "it checks each file whose name ends in .paris. The exit status is 1 where something isn't as it is wanted."
)

ENDING = ".paris"


class Checker:
    """Checks files. `begin` starts what runs them."""

    def __init__(self, solution: Solution | None, workers: int | None) -> None:
        def begin() -> Peer:
            return peer_of(workers, is_large=True)

        self._document = Document(begin)
        self._wanted = Wanted(solution, begin) if solution is not None else None

    def close(self) -> None:
        """Ends what runs."""
        self._document.close()
        if self._wanted is not None:
            self._wanted.close()

    def check(self, name: str, lines: list[str]) -> bool:
        """Says what comes of a file's checks. Whether all is as it is wanted."""
        verdicts, told = self._by_comments(lines) if self._wanted is None else self._by_solution(self._wanted, lines)
        right = sum(each.outcome is Outcome.RIGHT for each in verdicts)
        said = counted(right, len(verdicts)) if verdicts else "no look has a comment `# values ..` below it"
        print(f"{name}: {said}")
        for words in [*told, *self._refused()]:
            print(f"  {visible(words)}")
        return 0 < right == len(verdicts)

    def _by_comments(self, lines: list[str]) -> tuple[list[Verdict], list[str]]:
        """What comes of the looks as a script has them, beside the comments below them."""
        checks = said_checks(lines)
        at_lines = [at for at in places(lines, checks) if at is not None]
        verdicts, told, done = list[Verdict](), list[str](), 0
        for end in stretches(lines):
            self._document.update_lines(lines[:end])
            here = [(at, check.said) for at, check in zip(at_lines, checks) if done <= at < end]
            verdicts += [self._told(at, lines, wanted, told) for at, wanted in here]
            done = end
        self._document.update_lines(lines)
        return verdicts, told

    def _told(self, at: int, lines: list[str], wanted: tuple[int, ...] | None, told: list[str]) -> Verdict:
        """What comes of one look, in words too where it isn't right."""
        got = seen(self._document, at)
        verdict = compared(got, wanted)
        if got is not None and wanted is not None and verdict.outcome is Outcome.WRONG:
            said = f"gives {listed(got)}, and {listed(wanted)} is wanted: {difference(verdict)}"
            told.append(f"line {at + 1}: {lines[at]} {said}")
        return verdict

    def _by_solution(self, wanted: Wanted, lines: list[str]) -> tuple[list[Verdict], list[str]]:
        """What comes of the checks of a solution."""
        verdicts = wanted.judged(lines)
        self._document.update_lines(lines)
        at_lines = places(lines, wanted.checks)
        told = []
        for check, verdict, at in zip(wanted.checks, verdicts, at_lines, strict=True):
            named = check.line if at is None else f"line {at + 1}: {check.line}"
            block = f" with block {verdict.block} of further input data" if verdict.block else ""
            if verdict.outcome is Outcome.WRONG:
                told.append(f"{named} isn't as it is wanted{block}: {difference(verdict)}")
            elif at is None:
                told.append(f"{named} is wanted, and there is no such line")
        return verdicts, told

    def _refused(self) -> Iterator[str]:
        """The lines of the file that are refused, and the rows that are refused for their data."""
        document = self._document
        for at, shown in enumerate(document.shown):
            told = document.explanation(at)
            if told is not None:
                yield f"line {at + 1} is refused: {told.in_one_line()}"
            elif shown.row is not None and shown.row.book in document.book.faults:
                yield f"line {at + 1} stores nothing, since {document.book.cause(shown.row)}"


def arguments() -> Arguments:
    """The reader of the command's words."""
    parser = Arguments("check", DOES, usual_workers=None)
    parser.add_argument("file", type=file_name, metavar="FILE", help="a script, or a folder of scripts")
    said = "a script that gives what is wanted, with further input data behind its looks"
    parser.add_argument("solution", nargs="?", type=file_name, metavar="SOLUTION", help=said)
    return parser


def files_of(path: Path) -> list[Path]:
    """A file, or the scripts of a folder. Raises OSError where the folder has none."""
    if not path.is_dir():
        return [path]
    found = sorted(each for each in path.iterdir() if each.suffix == ENDING and each.is_file())
    if not found:
        raise OSError(f"can't read {visible(str(path))}: it is a folder with no file whose name ends in {ENDING}")
    return found


def read(path: Path) -> list[str]:
    """The lines of a file. Raises OSError, also where no file can have such a name."""
    try:
        return lines_in(read_regular(path))
    except (OSError, ValueError) as error:
        raise OSError(f"can't read {visible(str(path))}: {why(error)}") from error


def check_all(paths: Sequence[Path], texts: Sequence[list[str]], checker: Checker) -> int:
    """Checks files, and gives the exit status."""
    wrong = [path for path, lines in zip(paths, texts) if not checker.check(visible(path.name), lines)]
    if len(paths) > 1:
        print(f"{len(paths) - len(wrong)} of {len(paths)} files are as they are wanted")
    return int(bool(wrong))


def main(words: list[str]) -> int:
    """Checks. The exit status is 1 where something isn't as it is wanted, and 2 where nothing can be checked."""
    said = arguments().parse_args(words)
    checker = None
    try:
        paths = files_of(path_of(said.file))
        texts = [read(path) for path in paths]
        solution = read_solution(read(path_of(said.solution))) if said.solution is not None else None
        checker = Checker(solution, said.workers)
        if solution is not None and not any(map(has_look, solution.lines)):
            raise ValueError("the solution has no look, so nothing is wanted")
        return check_all(paths, texts, checker)
    except BrokenPipeError:
        raise
    except (OSError, ValueError, NotFound, PipeError) as error:
        print(f"paris check: {error}", file=sys.stderr)
        return 2
    finally:
        if checker is not None:
            checker.close()


def has_look(line: str) -> bool:
    """Whether a line of a solution is a look."""
    return line.startswith("show ")
