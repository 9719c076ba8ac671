"""Finding the program: by argument, by the variable, in the repository, on the PATH; else it says where it looked."""

from __future__ import annotations

import subprocess
import tomllib
from pathlib import Path

import pytest

from pevudlo import Machine, Pipe, find_library
from pevudlo.wire import library_places, program
from pevudlo.wire.library_places import LIBRARY_VARIABLE
from pevudlo.wire.program import NotFound, find

REPOSITORY = Path(__file__).resolve().parents[2]


def made(path: Path) -> Path:
    path.parent.mkdir(parents=True, exist_ok=True)
    path.write_text("#!/bin/sh\n")
    path.chmod(0o755)
    return path


@pytest.fixture
def lost(tmp_path: Path, monkeypatch: pytest.MonkeyPatch) -> Path:
    """No variable, an empty PATH, and no repository."""
    monkeypatch.delenv(program.VARIABLE, raising=False)
    monkeypatch.setenv("PATH", str(tmp_path / "bin"))
    monkeypatch.setattr(program, "by_repository", lambda looked: looked.append("no repository"))
    return tmp_path


def test_by_argument(lost: Path) -> None:
    one = made(lost / "one")
    assert find(one) == one and find(str(one)) == one
    with pytest.raises(NotFound, match="two is no program"):
        find(lost / "two")


def test_by_variable(lost: Path, monkeypatch: pytest.MonkeyPatch) -> None:
    made(lost / "bin/paris_front")
    monkeypatch.setenv(program.VARIABLE, str(made(lost / "one")))
    assert find() == lost / "one"
    monkeypatch.setenv(program.VARIABLE, str(lost / "two"))
    with pytest.raises(NotFound, match="PARIS_FRONT names .*two"):
        find()


@pytest.mark.parametrize("named", ["./front", "front", "below/../front", "below/front"])
def test_a_path_from_the_present_folder_on(tmp_path: Path, monkeypatch: pytest.MonkeyPatch, named: str) -> None:
    """It is a file there: it isn't looked for on the PATH, and it stays the same where the folder is another then."""
    (tmp_path / "below").mkdir()
    for place in ("front", "below/front"):
        (tmp_path / place).symlink_to(find())
    monkeypatch.chdir(tmp_path)
    with Machine(named) as machine:
        machine.set("S", 4)
        assert machine.program is not None and machine.program.is_absolute()
    with Pipe(Path(named)) as pipe:
        assert pipe.ask("set S 4") == ["ok"]
    monkeypatch.setenv(program.VARIABLE, named)
    found = find()
    monkeypatch.chdir("/")
    with Pipe(found) as pipe:
        assert pipe.ask("set S 4") == ["ok"]


@pytest.mark.parametrize("named", ["./lib.so", "lib.so"])
def test_a_library_from_the_present_folder_on(
    tmp_path: Path, monkeypatch: pytest.MonkeyPatch, libparis: Path, named: str
) -> None:
    (tmp_path / "lib.so").symlink_to(libparis)
    monkeypatch.chdir(tmp_path)
    with Machine(library=named) as machine:
        machine.set("S", 4)
    monkeypatch.setenv(LIBRARY_VARIABLE, named)
    found = find_library()
    monkeypatch.chdir("/")
    with Machine(library=found) as machine:
        machine.set("S", 4)
        assert machine.library == tmp_path / "lib.so"


def test_by_the_path(lost: Path) -> None:
    path = made(lost / "bin/paris_front")
    assert find() == path


def test_nowhere(lost: Path) -> None:
    with pytest.raises(NotFound) as error:
        find()
    assert len(error.value.looked) == 4
    for place in ("PARIS_FRONT", "installed without one", "no repository", "PATH", "`make wheel`"):
        assert place in str(error.value)


def test_no_library_anywhere(lost: Path, monkeypatch: pytest.MonkeyPatch) -> None:
    monkeypatch.delenv(LIBRARY_VARIABLE, raising=False)
    monkeypatch.setattr(library_places, "ROOT", lost)
    with pytest.raises(NotFound) as error:
        Machine(library=True)
    assert len(error.value.looked) == 3
    for word in ("PARIS_LIBRARY", "installed without one", "no repository", "`make wheel`", "`pip install out/"):
        assert word in str(error.value)


def test_in_the_repository(monkeypatch: pytest.MonkeyPatch) -> None:
    monkeypatch.delenv(program.VARIABLE, raising=False)
    said = subprocess.run([REPOSITORY / "paris", "--where"], capture_output=True, text=True, timeout=60).stdout.strip()
    assert find() == Path(said)


def test_a_folder_that_is_no_repository(tmp_path: Path) -> None:
    looked: list[str] = []
    assert program.by_repository(looked, tmp_path) is None
    assert looked == [f"{tmp_path} is no repository of it"]


def test_all_that_lies_in_the_package_is_installed() -> None:
    """Each folder with modules is named as a package, and each other file is named as data of one."""
    setuptools = tomllib.loads((REPOSITORY / "python/pyproject.toml").read_text())["tool"]["setuptools"]
    root = REPOSITORY / "python/pevudlo"
    folders = {path.parent.relative_to(root.parent) for path in root.rglob("*.py")}
    assert set(setuptools["packages"]) == {".".join(folder.parts) for folder in folders}
    data = {path for pattern in setuptools["package-data"]["pevudlo"] for path in root.glob(pattern)}
    others = {path for path in root.rglob("*") if path.is_file() and path.suffix not in (".py", ".pyc")}
    assert others and others <= data
