"""Which of both builds ./paris runs: by what /proc/cpuinfo says of the processor, or by PEVUDLO_CPU."""

from __future__ import annotations

import shutil
import time
from pathlib import Path

import pytest
from front_tree import ADDED, BUILDS, FLAGS, REPOSITORY, Tree, cpuinfo

FIRST = REPOSITORY / "examples/first-sum.paris"
TRANSCRIPT = (REPOSITORY / "examples/first-sum.expected").read_text()
V2, V3 = BUILDS


@pytest.fixture(scope="module")
def shared(tmp_path_factory: pytest.TempPathFactory) -> Tree:
    """A copy with both builds, which no test changes."""
    found = Tree(tmp_path_factory.mktemp("both") / "a tree")
    found.add_second_build()
    return found


@pytest.fixture
def tree(tmp_path: Path) -> Tree:
    """The same for a test that changes it."""
    found = Tree(tmp_path / "a tree")
    found.add_second_build()
    return found


def flags_of(folder: Path, flags: str) -> Path:
    file = folder / "cpuinfo"
    file.write_text(cpuinfo(flags))
    return file


def build_of(tree: Tree, cpu: str = "", flags: Path | None = None) -> str:
    """The build that `--version` tells, and that `--where` names the program of."""
    said, where = (tree.run(word, cpu=cpu, flags=flags) for word in ("--version", "--where"))
    assert (said.returncode, said.stderr, where.returncode, where.stderr) == (0, "", 0, "")
    program = Path(where.stdout.strip())
    sums = dict(line.split(" ", 1) for line in (tree.root / "dist" / "SUMS").read_text().splitlines())
    others = dict(line.split(" ", 1) for line in (tree.root / "dist" / V3 / "SUMS").read_text().splitlines())
    found = {sums["paris_front"]: V2, others["paris_front"]: V3}[program.name.removeprefix("paris_front-")]
    assert said.stdout.endswith(f", {found})\n")
    return found


def test_a_processor_that_has_all_takes_the_better_build(shared: Tree, tmp_path: Path) -> None:
    assert build_of(shared, flags=flags_of(tmp_path, FLAGS)) == V3


@pytest.mark.parametrize("flag", ADDED)
def test_one_that_lacks_a_part_takes_the_other(shared: Tree, tmp_path: Path, flag: str) -> None:
    fewer = " ".join(word for word in FLAGS.split() if word != flag)
    assert build_of(shared, flags=flags_of(tmp_path, fewer)) == V2


@pytest.mark.parametrize("text", ["", "Features\t: fp asimd avx2\n", "flags", "processor\t: 0\n"])
def test_where_nothing_is_said_of_the_processor_the_other_is_taken(shared: Tree, tmp_path: Path, text: str) -> None:
    file = tmp_path / "cpuinfo"
    file.write_text(text)
    assert build_of(shared, flags=file) == V2
    assert build_of(shared, flags=tmp_path / "none") == V2


def test_the_variable_says_which(shared: Tree, tmp_path: Path) -> None:
    file = flags_of(tmp_path, FLAGS)
    assert [build_of(shared, cpu, file) for cpu in (V2, V3, V2, "")] == [V2, V3, V2, V3]
    assert build_of(shared, V2, tmp_path / "none") == V2


@pytest.mark.parametrize("cpu", ["x86-64-v4", "any", "x86-64-v3 ", "v3"])
def test_another_value_is_refused(shared: Tree, cpu: str) -> None:
    for word in ("--version", "--where", str(FIRST)):
        ran = shared.run(word, cpu=cpu)
        assert (ran.returncode, ran.stdout) == (2, "") and ran.stderr.count("\n") == 1
        assert ran.stderr.startswith("paris: PEVUDLO_CPU may be x86-64-v2 or x86-64-v3, and is ")


def test_what_the_processor_lacks_is_refused(shared: Tree, tmp_path: Path) -> None:
    file = flags_of(tmp_path, FLAGS.replace(" bmi2", "").replace(" fma", ""))
    for word in ("--version", "--where", str(FIRST)):
        ran = shared.run(word, cpu=V3, flags=file)
        wanted = f"paris: PEVUDLO_CPU=x86-64-v3 takes a processor with bmi2 fma, which {file} doesn't name\n"
        assert (ran.returncode, ran.stdout, ran.stderr) == (2, "", wanted)


def test_a_choice_has_a_stamp_of_its_own(tree: Tree, tmp_path: Path) -> None:
    file = flags_of(tmp_path, FLAGS)
    assert [build_of(tree, cpu, file) for cpu in ("", V2, V3)] == [V3, V2, V3]
    time.sleep(2.1)
    assert [build_of(tree, cpu, file) for cpu in ("", V2, V3)] == [V3, V2, V3]
    assert len(list((tree.root / "dist/out").glob("stamp-*"))) == 3
    # What a stamp names is run, with no further look.
    (tree.root / "dist/sums").write_text((tree.root / "dist/sums").read_text() + "\nis_whole() { refuse looked; }\n")
    assert [build_of(tree, cpu, file) for cpu in ("", V2, V3, "")] == [V3, V2, V3, V3]
    assert build_of(tree, V2, tmp_path / "none") == V2
    (tree.root / "dist" / V3 / "SUMS").touch()
    assert "looked" in tree.run("--where", cpu=V2).stderr


@pytest.mark.parametrize("name", ["paris_front.gz", "SUMS"])
def test_a_build_that_changed_is_refused(tree: Tree, tmp_path: Path, name: str) -> None:
    tree.turn_a_byte(f"dist/{V3}/{name}")
    ran = tree.run(FIRST, cpu="", flags=flags_of(tmp_path, FLAGS))
    assert (ran.returncode, ran.stdout) == (2, "") and "aren't what dist/refresh wrote" in ran.stderr
    assert tree.run(FIRST, cpu=V2).stdout == TRANSCRIPT


def test_without_the_better_build_the_other_is_taken(tree: Tree, tmp_path: Path) -> None:
    file = flags_of(tmp_path, FLAGS)
    shutil.rmtree(tree.root / "dist" / V3)
    ran = tree.run("--where", cpu="", flags=file)
    assert ran.stdout == tree.run("--where", cpu=V2).stdout
    assert tree.run("--version", cpu="", flags=file).stdout.endswith(f", {V2})\n")
    asked = tree.run("--version", cpu=V3, flags=file)
    assert (asked.returncode, asked.stderr) == (2, "paris: there is no program for x86-64-v3 in dist/\n")


def install(tree: Tree, place: Path) -> None:
    """Puts the launcher and both programs where packaging/install puts them."""
    for folder, cpu in ((place / "lib/pevudlo", V2), (place / "lib/pevudlo" / V3, V3)):
        folder.mkdir(parents=True)
        program = tree.run("--where", cpu=cpu, flags=flags_of(place, FLAGS)).stdout.strip()
        shutil.copy2(program, folder / "paris_front")
        shutil.copy2(tree.root / "dist" / folder.name.replace("pevudlo", "") / "SUMS", folder)
    shutil.copy2(tree.root / "VERSION", place / "lib/pevudlo")
    (place / "bin").mkdir()
    shutil.copy2(tree.root / "paris", place / "bin")


def test_an_installed_launcher_chooses_too(shared: Tree, tmp_path: Path) -> None:
    place = tmp_path / "a place"
    place.mkdir()
    install(shared, place)
    installed, here = Tree.__new__(Tree), place / "lib/pevudlo"
    installed.root = place / "bin"
    file, programs = flags_of(tmp_path, FLAGS), {V2: here / "paris_front", V3: here / V3 / "paris_front"}
    for cpu, flags, build in (("", file, V3), ("", tmp_path / "none", V2), (V2, file, V2), (V3, file, V3)):
        assert installed.run("--where", cpu=cpu, flags=flags).stdout == f"{programs[build]}\n"
        assert installed.run("--version", cpu=cpu, flags=flags).stdout.endswith(f", {build})\n")
        assert installed.run(FIRST, cpu=cpu, flags=flags).stdout == TRANSCRIPT
    shutil.rmtree(here / V3)
    assert installed.run("--where", cpu="", flags=file).stdout == f"{programs[V2]}\n"
    asked = installed.run("--where", cpu=V3, flags=file)
    assert (asked.returncode, asked.stderr) == (2, f"paris: {programs[V3]} isn't there\n")
