"""dist/check and dist/lib/compare: both builds have to be of the sources here, whole, and what was built of these."""

from __future__ import annotations

import gzip
import hashlib
import shutil
import subprocess
from collections.abc import Callable
from pathlib import Path

import pytest
from front_tree import BUILDS, REPOSITORY, write_programs

# What the sums of both are made of, and the scripts.
PARTS = ("crates", "crates.txt", "VERSION", "dist", "bindings/c")
SOURCE = "crates/paris_names/src/lib.rt"
LIBRARIES = ("libparis.a", "libparis.so")
# Where the second build stands, in dist/, in dist/lib and in bindings/c/out.
SECOND = BUILDS[1]
# (no toolchain is on this PATH, so that no other one is met)
ENVIRONMENT = {"PATH": "/usr/bin:/bin"}


def run(copy: Path, *words: str) -> subprocess.CompletedProcess[str]:
    return subprocess.run(words, cwd=copy, capture_output=True, text=True, timeout=60, env=ENVIRONMENT)


def sum_of(data: bytes) -> str:
    return hashlib.sha256(data).hexdigest()


def with_last_line(text: str) -> str:
    """The lines of a SUMS with the sum of them behind."""
    return f"{text}lines {sum_of(text.encode())}\n"


def write_second_libraries(copy: Path) -> None:
    """Libraries of other bytes, as they would be built and kept for the other processor."""
    kept, made = copy / "dist/lib" / SECOND, copy / "bindings/c/out" / SECOND
    kept.mkdir()
    made.mkdir()
    kit, sources = (copy / "dist/lib/SUMS").read_text().splitlines(keepends=True)[:2]
    text = kit + sources
    for name in LIBRARIES:
        data = (copy / "bindings/c/out" / name).read_bytes() + b"another build"
        (made / name).write_bytes(data)
        (kept / f"{name}.gz").write_bytes(gzip.compress(data))
        text += f"{name} {sum_of(data)}\n"
    (kept / "SUMS").write_text(with_last_line(text))


@pytest.fixture(scope="module")
def whole(tmp_path_factory: pytest.TempPathFactory) -> Path:
    """A copy of what both look at, with the programs and the libraries as they were built."""
    root = tmp_path_factory.mktemp("whole")
    for part in PARTS:
        place = root / part
        place.parent.mkdir(parents=True, exist_ok=True)
        if (REPOSITORY / part).is_dir():
            shutil.copytree(REPOSITORY / part, place, ignore=shutil.ignore_patterns("out", "must-fail", SECOND))
        else:
            shutil.copy(REPOSITORY / part, place)
    write_programs(root)
    assert run(root, "dist/refresh", "first", "second").returncode == 0
    made = root / "bindings/c/out"
    made.mkdir()
    for name in LIBRARIES:
        (made / name).write_bytes(gzip.decompress((REPOSITORY / f"dist/lib/{name}.gz").read_bytes()))
    write_second_libraries(root)
    return root


@pytest.fixture
def copy(whole: Path, tmp_path: Path) -> Path:
    """The same for a test that changes it."""
    shutil.copytree(whole, tmp_path / "copy")
    return tmp_path / "copy"


def checked(copy: Path) -> list[tuple[int, str]]:
    """The status of each, and what it says."""
    found = []
    for words in (["dist/check", "first", "second"], ["dist/lib/compare"]):
        ran = run(copy, *words)
        assert ran.stdout == "" and ran.stderr.count(f"{words[0]}: ") == len(BUILDS)
        found.append((ran.returncode, ran.stderr))
    return found


def test_what_was_built_of_these_sources_passes(copy: Path) -> None:
    assert [(status, said.count("byte for byte\n")) for status, said in checked(copy)] == [(0, 2), (0, 2)]


@pytest.mark.parametrize("source", [SOURCE, "crates.txt"])
def test_other_sources_fail(copy: Path, source: str) -> None:
    with (copy / source).open("a") as file:
        file.write("\n")
    assert [(status, said.count("of other sources")) for status, said in checked(copy)] == [(1, 2), (1, 2)]


def test_one_build_of_other_sources_fails(copy: Path) -> None:
    for folder in (copy / "dist" / SECOND, copy / "dist/lib" / SECOND):
        lines = (folder / "SUMS").read_text().splitlines(keepends=True)[:-1]
        lines[1] = f"sources {sum_of(b'others')}\n"
        (folder / "SUMS").write_text(with_last_line("".join(lines)))
    assert [(status, said.count("of other sources")) for status, said in checked(copy)] == [(1, 1), (1, 1)]


def change_byte(file: Path) -> None:
    data = bytearray(file.read_bytes())
    data[len(data) // 2] ^= 1
    file.write_bytes(bytes(data))


@pytest.mark.parametrize("change", [change_byte, Path.unlink])
@pytest.mark.parametrize("names", [("paris_front.gz", "libparis.so.gz"), ("SUMS", "SUMS")])
@pytest.mark.parametrize("build", ["", SECOND])
def test_what_is_gone_or_changed_fails(
    copy: Path, build: str, names: tuple[str, str], change: Callable[[Path], None]
) -> None:
    for folder, name in zip(("dist", "dist/lib"), names):
        change(copy / folder / build / name)
    assert [(status, said.count("isn't what") + said.count("aren't what")) for status, said in checked(copy)] == [
        (1, 1),
        (1, 1),
    ]


@pytest.mark.parametrize("build", ["", SECOND])
def test_an_empty_folder_fails(copy: Path, build: str) -> None:
    for folder, names in (
        ("dist", ["paris_front.gz", "SUMS"]),
        ("dist/lib", ["SUMS", *(f"{it}.gz" for it in LIBRARIES)]),
    ):
        for name in names:
            (copy / folder / build / name).unlink()
    (first, said), (second, also) = checked(copy)
    assert (first, second) == (1, 1) and "dist/refresh makes it" in said and "dist/lib/refresh makes them" in also


@pytest.mark.parametrize(("program", "build"), [("first", ""), ("second", SECOND)])
def test_another_program_fails(copy: Path, program: str, build: str) -> None:
    shutil.copy("/bin/true", copy / program)
    change_byte(copy / "bindings/c/out" / build / "libparis.a")
    (first, said), (second, also) = checked(copy)
    assert (first, second) == (1, 1)
    assert said.count("is another program than") == also.count("has other libraries than") == 1


def test_programs_that_changed_places_fail(copy: Path) -> None:
    assert run(copy, "dist/check", "second", "first").stderr.count("is another program than") == 2


@pytest.mark.parametrize("words", [(), ("first",), ("first", "none"), ("first", "second", "first")])
def test_words_that_are_wrong_are_told(copy: Path, words: tuple[str, ...]) -> None:
    ran = run(copy, "dist/check", *words)
    assert ran.returncode == 2 and "usage: dist/check PROGRAM PROGRAM" in ran.stderr


# What writes them


def kept(copy: Path) -> dict[str, bytes]:
    names = ("paris_front.gz", "SUMS", f"{SECOND}/paris_front.gz", f"{SECOND}/SUMS")
    return {name: (copy / "dist" / name).read_bytes() for name in names}


def test_programs_are_written_as_they_were(copy: Path) -> None:
    before = kept(copy)
    assert run(copy, "dist/refresh", "second", "first").returncode == 0
    assert kept(copy) != before
    assert run(copy, "dist/refresh", "first", "second").returncode == 0
    assert kept(copy) == before


@pytest.mark.parametrize(
    ("words", "status"),
    [(("first",), 2), (("first", "second", "first"), 2), (("first", "first"), 1), (("none", "first"), 1)],
)
def test_wrong_programs_leave_all_as_it_was(copy: Path, words: tuple[str, ...], status: int) -> None:
    before = kept(copy)
    assert run(copy, "dist/refresh", *words).returncode == status
    assert kept(copy) == before


# What unpacks them


def files_of(folder: Path, *names: str) -> dict[str, bytes]:
    """The files of these names in a folder and in the one of the second build, where they are there."""
    places = [f"{build}{name}" for build in ("", f"{SECOND}/") for name in names]
    return {place: (folder / place).read_bytes() for place in places if (folder / place).exists()}


def test_libraries_are_unpacked(copy: Path) -> None:
    made = copy / "bindings/c/out"
    wanted = files_of(made, *LIBRARIES)
    assert len(wanted) == 4
    shutil.rmtree(made)
    for _ in range(2):
        assert run(copy, "bindings/c/unpack").returncode == 0
        assert files_of(made, *LIBRARIES) == wanted
        assert all((made / build / "libparis.so").is_symlink() for build in ("", SECOND))
        assert (made / "paris.pc").is_file()
        # What has changed since is unpacked anew.
        change_byte(made / "libparis.a")
        change_byte(made / SECOND / "libparis.so.0")
        (made / "paris.pc").unlink()


def test_libraries_that_dist_no_longer_has_are_removed(copy: Path) -> None:
    made = copy / "bindings/c/out"
    shutil.rmtree(copy / "dist/lib" / SECOND)
    assert run(copy, "bindings/c/unpack").returncode == 0
    assert set(files_of(made, *LIBRARIES)) == set(LIBRARIES)


@pytest.mark.parametrize("build", ["", SECOND])
def test_libraries_that_changed_are_not_unpacked(copy: Path, build: str) -> None:
    shutil.rmtree(copy / "bindings/c/out")
    change_byte(copy / "dist/lib" / build / "libparis.a.gz")
    ran = run(copy, "bindings/c/unpack")
    assert ran.returncode == 1 and "isn't what dist/lib/refresh wrote" in ran.stderr
    assert files_of(copy / "bindings/c/out", *LIBRARIES) == {}


def test_programs_are_unpacked(copy: Path) -> None:
    assert run(copy, "dist/unpack", "here").returncode == 0
    found = files_of(copy / "here", "paris_front", "SUMS")
    assert len(found) == 4 and found["paris_front"] != found[f"{SECOND}/paris_front"]
    for place in ("", f"{SECOND}/"):
        kept = (copy / "dist" / f"{place}paris_front.gz").read_bytes()
        assert found[f"{place}paris_front"] == gzip.decompress(kept)
        assert found[f"{place}SUMS"] == (copy / "dist" / f"{place}SUMS").read_bytes()
    shutil.rmtree(copy / "here")
    shutil.rmtree(copy / "dist" / SECOND)
    assert run(copy, "dist/unpack", "here").returncode == 0
    assert set(files_of(copy / "here", "paris_front", "SUMS")) == {"paris_front", "SUMS"}


@pytest.mark.parametrize("name", ["paris_front.gz", "SUMS", f"{SECOND}/paris_front.gz", f"{SECOND}/SUMS"])
def test_programs_that_changed_are_not_unpacked(copy: Path, name: str) -> None:
    change_byte(copy / "dist" / name)
    ran = run(copy, "dist/unpack", "here")
    assert ran.returncode == 1 and "aren't what dist/refresh wrote" in ran.stderr


def test_programs_of_other_sources_are_not_unpacked(copy: Path) -> None:
    with (copy / SOURCE).open("a") as file:
        file.write("\n")
    ran = run(copy, "dist/unpack", "here")
    assert ran.returncode == 1 and "of other sources" in ran.stderr and not (copy / "here").exists()
