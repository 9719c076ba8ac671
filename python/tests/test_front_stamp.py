"""./paris reads all of the program and its sources only where a size or a time differs from its stamp."""

from __future__ import annotations

import time
from pathlib import Path

import pytest
from front_tree import REPOSITORY, Tree

FIRST = REPOSITORY / "examples/first-sum.paris"
TRANSCRIPT = (REPOSITORY / "examples/first-sum.expected").read_text()
SOURCE = "crates/paris_alu/src/lib.rt"


@pytest.fixture()
def tree(tmp_path: Path) -> Tree:
    """A copy that has its stamp: one is written where nothing has changed for a second."""
    found = Tree(tmp_path / "a tree")
    assert found.run("--where").returncode == 0
    assert not found.stamp.exists()
    time.sleep(2.1)
    assert found.run("--where").returncode == 0
    assert found.stamp.exists()
    return found


def is_whole_run(tree: Tree) -> bool:
    ran = tree.run(FIRST)
    return (ran.returncode, ran.stdout, ran.stderr) == (0, TRANSCRIPT, "")


def test_a_stamp_is_kept_and_believed(tree: Tree) -> None:
    before = tree.stamp.stat().st_mtime_ns
    assert is_whole_run(tree) and tree.stamp.stat().st_mtime_ns == before
    # What it names is run, with no further look.
    (tree.root / "dist/sums").write_text((tree.root / "dist/sums").read_text() + "\nis_whole() { refuse looked; }\n")
    assert is_whole_run(tree)


@pytest.mark.parametrize("name", ["dist/paris_front.gz", "dist/SUMS"])
def test_a_changed_program_is_refused(tree: Tree, name: str) -> None:
    tree.turn_a_byte(name)
    ran = tree.run(FIRST)
    assert (ran.returncode, ran.stdout) == (2, "") and "aren't what dist/refresh wrote" in ran.stderr


def test_an_unpacked_program_that_changed_is_unpacked_anew(tree: Tree) -> None:
    program = tree.run("--where").stdout.strip()
    tree.turn_a_byte(program)
    assert is_whole_run(tree)


@pytest.mark.parametrize("change", ["turned", "new", "gone", "crates"])
def test_a_changed_source_is_seen(tree: Tree, change: str) -> None:
    source = tree.root / SOURCE
    match change:
        case "turned":
            tree.turn_a_byte(SOURCE)
        case "new":
            source.with_name("new.rt").write_text("")
        case "gone":
            source.unlink()
        case "crates":
            tree.turn_a_byte("crates.txt")
    ran = tree.run(FIRST)
    assert (ran.returncode, ran.stdout) == (2, "") and "proving and building" in ran.stderr


@pytest.mark.parametrize("left", ["", "x86_64", "x86_64 /bin/false\ncrates.txt\n"])
def test_a_part_of_a_stamp_is_not_believed(tree: Tree, left: str) -> None:
    tree.stamp.write_text(left)
    assert is_whole_run(tree)
