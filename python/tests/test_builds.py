"""Which build of the program and of the library the package takes: by what /proc/cpuinfo says, or by PEVUDLO_CPU."""

from __future__ import annotations

import os
import shutil
import subprocess
import sys
from collections.abc import Callable
from pathlib import Path

import pytest
from front_tree import ADDED, FLAGS, REPOSITORY, cpuinfo

from pevudlo import NotFound, find, find_library, version
from pevudlo.wire import library_places, program
from pevudlo.wire.builds import BUILD_VARIABLE, Build, allowed

BOTH = (Build.V3, Build.V2)
TEXTS = ["", "flags", "flags\t\t:\n", "Features\t: fp asimd avx2\n", "processor\t: 0\nmodel name\t: one with avx2\n"]
Says = Callable[[str], object]


@pytest.fixture
def says(tmp_path: Path, monkeypatch: pytest.MonkeyPatch) -> Says:
    """Sets what /proc/cpuinfo says, and no variable."""
    monkeypatch.delenv(BUILD_VARIABLE, raising=False)
    monkeypatch.setenv("PEVUDLO_CPUINFO", str(tmp_path / "cpuinfo"))
    return (tmp_path / "cpuinfo").write_text


def test_a_processor_that_has_all_may_run_both(says: Says) -> None:
    says(cpuinfo(FLAGS))
    assert allowed() == BOTH


@pytest.mark.parametrize("flag", ADDED)
def test_one_that_lacks_a_part_may_run_one(says: Says, flag: str) -> None:
    says(cpuinfo(" ".join(word for word in FLAGS.split() if word != flag)))
    assert allowed() == (Build.V2,)


@pytest.mark.parametrize("text", TEXTS)
def test_where_nothing_is_said_one_may_run(says: Says, text: str) -> None:
    assert allowed() == (Build.V2,)
    says(text)
    assert allowed() == (Build.V2,)


def test_the_variable_says_which(says: Says, monkeypatch: pytest.MonkeyPatch) -> None:
    monkeypatch.setenv(BUILD_VARIABLE, "x86-64-v2")
    assert allowed() == (Build.V2,)
    says(cpuinfo(FLAGS))
    for value, wanted in (("x86-64-v2", (Build.V2,)), ("x86-64-v3", (Build.V3,)), ("", BOTH)):
        monkeypatch.setenv(BUILD_VARIABLE, value)
        assert allowed() == wanted


def test_what_the_variable_can_t_be_is_refused(says: Says, monkeypatch: pytest.MonkeyPatch) -> None:
    says(cpuinfo(FLAGS.replace(" bmi2", "").replace(" fma", "")))
    monkeypatch.delenv(program.VARIABLE, raising=False)
    monkeypatch.delenv(library_places.LIBRARY_VARIABLE, raising=False)
    for value, why in (
        ("v3", "PEVUDLO_CPU may be x86-64-v2 or x86-64-v3, and is 'v3'"),
        ("x86-64-v3", "PEVUDLO_CPU=x86-64-v3 takes a processor with bmi2 fma, which .*cpuinfo doesn't name"),
    ):
        monkeypatch.setenv(BUILD_VARIABLE, value)
        with pytest.raises(NotFound, match=f"paris_front was not found: {why}"):
            find()
        with pytest.raises(NotFound, match=f"libparis.so was not found: {why}"):
            find_library()
        words = [sys.executable, "-m", "pevudlo", "--version"]
        environment = {**os.environ, "PYTHONPATH": str(REPOSITORY / "python")}
        said = subprocess.run(words, capture_output=True, text=True, timeout=60, env=environment)
        assert (said.returncode, said.stdout, said.stderr.count("\n")) == (2, "", 1)


def test_it_is_what_the_system_s_loader_says() -> None:
    """The C library's own look at this processor, for libraries in folders of these names."""
    said = subprocess.run(["/lib64/ld-linux-x86-64.so.2", "--help"], capture_output=True, text=True).stdout
    if "x86-64-v" not in said:
        pytest.skip("this loader doesn't say what it looks for")
    names = ("PEVUDLO_CPU", "PEVUDLO_CPUINFO")
    assert not any(os.environ.get(name) for name in names), "the tests want these variables unset"
    assert (Build.V3 in allowed()) == ("x86-64-v3 (supported" in said)


# What an installed package has


@pytest.fixture
def native(tmp_path: Path, monkeypatch: pytest.MonkeyPatch, says: Says) -> Path:
    """A package with both builds, on a processor that may run both."""
    says(cpuinfo(FLAGS))
    folder = tmp_path / "native"
    for build in Build:
        build.below(folder).mkdir()
        for name in (program.NAME, library_places.LIBRARY):
            (build.below(folder) / name).touch(mode=0o755)
    for module in (program, version):
        monkeypatch.setattr(module, "NATIVE", folder)
    for place in (program, library_places, version):
        monkeypatch.setattr(place, "ROOT", tmp_path / "none")
    for variable in (program.VARIABLE, library_places.LIBRARY_VARIABLE):
        monkeypatch.delenv(variable, raising=False)
    monkeypatch.setattr(program, "by_repository", lambda looked: None)
    monkeypatch.setenv("PATH", str(tmp_path))
    return folder


def test_a_package_takes_its_better_build(native: Path, says: Says, monkeypatch: pytest.MonkeyPatch) -> None:
    names = (program.NAME, library_places.LIBRARY)
    assert (find(), find_library()) == tuple(native / "x86-64-v3" / name for name in names)
    assert version.build() is Build.V3
    monkeypatch.setenv(BUILD_VARIABLE, "x86-64-v2")
    assert (find(), find_library()) == tuple(native / name for name in names)
    assert version.build() is Build.V2
    monkeypatch.delenv(BUILD_VARIABLE)
    says("")
    assert (find(), find_library()) == tuple(native / name for name in names)
    assert version.build() is Build.V2


def test_one_with_one_build_takes_that(native: Path, monkeypatch: pytest.MonkeyPatch) -> None:
    shutil.rmtree(native / "x86-64-v3")
    assert (find(), find_library()) == (native / program.NAME, native / library_places.LIBRARY)
    assert version.build() is Build.V2
    monkeypatch.setenv(BUILD_VARIABLE, "x86-64-v3")
    assert version.build() is None
    for finds in (find, find_library):
        with pytest.raises(NotFound, match="installed without one"):
            finds()


# What the repository has


def test_the_repository_s_library_is_of_the_build(tmp_path: Path, says: Says, monkeypatch: pytest.MonkeyPatch) -> None:
    says(cpuinfo(FLAGS))
    made = tmp_path / "bindings/c/out"
    (made / "x86-64-v3").mkdir(parents=True)
    monkeypatch.setattr(library_places, "ROOT", tmp_path)
    monkeypatch.delenv(library_places.LIBRARY_VARIABLE, raising=False)
    (made / "libparis.so").touch()
    assert find_library() == made / "libparis.so"
    (made / "x86-64-v3/libparis.so").touch()
    assert find_library() == made / "x86-64-v3/libparis.so"
    monkeypatch.setenv(BUILD_VARIABLE, "x86-64-v2")
    assert find_library() == made / "libparis.so"


def test_the_launcher_is_asked_for_each_build(tmp_path: Path, says: Says, monkeypatch: pytest.MonkeyPatch) -> None:
    says(cpuinfo(FLAGS))
    (tmp_path / "dist").mkdir()
    (tmp_path / "dist/sums").touch()
    for name in ("any", "x86-64-v2"):
        (tmp_path / name).touch(mode=0o755)
    (tmp_path / "paris").write_text('#!/bin/sh\necho "$(dirname "$0")/${PEVUDLO_CPU:-any}"\n')
    (tmp_path / "paris").chmod(0o755)
    assert program.by_repository([], tmp_path) == tmp_path / "any"
    monkeypatch.setenv(BUILD_VARIABLE, "x86-64-v2")
    assert program.by_repository([], tmp_path) == tmp_path / "x86-64-v2"
