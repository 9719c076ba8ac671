"""Finds the program paris_front."""

from __future__ import annotations

import os
import shutil
import subprocess
from collections.abc import Callable, Iterable
from dataclasses import dataclass
from functools import cache
from pathlib import Path
from typing import Optional

from pevudlo.wire.builds import BUILD_VARIABLE, allowed

VARIABLE = "PARIS_FRONT"
NAME = "paris_front"
PACKAGE = Path(__file__).resolve().parents[1]
# The top of the repository, where this package stands in it.
ROOT = PACKAGE.parents[1]
# The programs and the libraries of a package that was installed with them.
NATIVE = PACKAGE / "native"

WHEEL = (
    "a wheel has the program and the library: at the top of the repository, `make wheel` and then "
    "`pip install out/pevudlo-*.whl`"
)

Place = Callable[[list[str]], Optional[Path]]
"""Where something may be: gives it, or notes why it isn't there."""


class NotFound(Exception):
    """The program, or the library, isn't there. `looked` says of each place why it gave none."""

    def __init__(self, looked: Iterable[str], name: str = NAME, advice: str = "") -> None:
        self.looked = tuple(looked)
        super().__init__(f"{name} was not found: " + "; ".join(self.looked) + (f". {advice}" if advice else ""))


def is_program(path: Path) -> bool:
    """Whether a file is there that may be executed."""
    return path.is_file() and os.access(path, os.X_OK)


def files_of_builds(folder: Path, name: str) -> list[Path]:
    """Where a folder has this file in each build that may run here, the better one first.

    Raises NotFound where PEVUDLO_CPU is wrong.
    """
    try:
        return [build.below(folder) / name for build in allowed()]
    except ValueError as error:
        raise NotFound([str(error)], name) from None


@dataclass(frozen=True)
class Sought:
    """A file that is looked for: its name, what it is, the variable that may name it, and whether a path is one."""

    name: str
    words: str
    variable: str
    is_one: Callable[[Path], bool]

    def named(self, path: str | os.PathLike[str], said: str) -> Path:
        """The file of a path that was `said`. Raises NotFound where it is none."""
        if not self.is_one(Path(path)):
            raise NotFound([f"{said} is no {self.words}"], self.name)
        return Path(path).absolute()

    def by_variable(self, looked: list[str]) -> Path | None:
        """The file that the variable names. A variable that is wrong is an error and not passed over."""
        path = os.environ.get(self.variable, "")
        if path:
            return self.named(path, f"{self.variable} names {path}, which")
        looked.append(f"the variable {self.variable} isn't set")
        return None

    def by_package(self, looked: list[str]) -> Path | None:
        """The file that was installed with this package."""
        found = next(filter(self.is_one, files_of_builds(NATIVE, self.name)), None)
        if found is None:
            looked.append("this package was installed without one")
        return found

    def found(self, path: str | os.PathLike[str] | None, *places: Place) -> Path:
        """The file of a path, or of the first of some places that has it. Raises NotFound where there is none."""
        if path is not None:
            return self.named(path, os.fspath(path))
        looked: list[str] = []
        for place in (self.by_variable, self.by_package, *places):
            found = place(looked)
            if found is not None:
                return found
        raise NotFound(looked, self.name, WHEEL)


PROGRAM = Sought(NAME, "program", VARIABLE, is_program)


def by_repository(looked: list[str], root: Path = ROOT) -> Path | None:
    """The repository's program, as `./paris --where` says. Where it has to be built, that takes its time."""
    front = root / "paris"
    if not (is_program(front) and (root / "dist" / "sums").is_file()):
        looked.append(f"{root} is no repository of it")
        return None
    program = said_by(front, os.environ.get(BUILD_VARIABLE, ""))
    if program is None:
        looked.append(f"{front} --where names no program")
    return program


@cache
def said_by(front: Path, build: str) -> Path | None:
    """What `--where` answers for a build: asked once, since it reads all sources."""
    environment = {**os.environ, BUILD_VARIABLE: build}
    ran = subprocess.run(
        [front, "--where"], stdout=subprocess.PIPE, stdin=subprocess.DEVNULL, text=True, env=environment
    )
    program = Path(ran.stdout.strip())
    return program if ran.returncode == 0 and is_program(program) else None


def by_path(looked: list[str]) -> Path | None:
    """The program of this name on the PATH."""
    found = shutil.which(NAME)
    if found is None:
        looked.append("the PATH has none of that name")
        return None
    return Path(found).absolute()


def find(program: str | os.PathLike[str] | None = None) -> Path:
    """The program that is named, or of the variable PARIS_FRONT, of this package, of the repository, or of the PATH.

    A path without a folder, or from the present folder on, is that of a file there: it isn't looked for on the PATH.
    Raises NotFound where none of these is there, or where the one that is named isn't.
    """
    return PROGRAM.found(program, by_repository, by_path)
