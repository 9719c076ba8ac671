"""The number of the release stands in one file, and what can't read it says the same."""

from __future__ import annotations

import json
import os
import re
import subprocess
import sys
from pathlib import Path

import pevudlo
import pytest
from pevudlo import version

REPOSITORY = Path(__file__).resolve().parents[2]
VERSION = (REPOSITORY / "VERSION").read_text()
NUMBER = VERSION.strip()


def test_the_number_is_one() -> None:
    assert re.fullmatch(r"\d+\.\d+\.\d+\n", VERSION)
    assert pevudlo.__version__ == NUMBER
    assert f'\nversion = "{NUMBER}"\n' in (REPOSITORY / "bindings/rust/Cargo.toml").read_text()
    assert f'name = "paris"\nversion = "{NUMBER}"\n' in (REPOSITORY / "bindings/rust/Cargo.lock").read_text()
    assert f"\n## {NUMBER}\n" in (REPOSITORY / "CHANGES.md").read_text()


def build() -> str:
    """The build that runs here."""
    found = version.build()
    assert found
    return found.value


def test_the_launcher_says_it_with_the_toolchain_and_the_build() -> None:
    kit = (REPOSITORY / "dist/SUMS").read_text().splitlines()[0].removeprefix("kit ")
    for word in ("--version", "-V"):
        said = subprocess.run([REPOSITORY / "paris", word], capture_output=True, text=True, timeout=60)
        assert (said.returncode, said.stdout, said.stderr) == (0, f"paris {NUMBER} ({kit}, {build()})\n", "")


@pytest.mark.parametrize("shell", ["paris.bash", "_paris", "paris.fish"])
def test_completions_know_the_words_of_the_usage(shell: str) -> None:
    said = subprocess.run([REPOSITORY / "paris", "--help"], capture_output=True, text=True, timeout=60).stdout
    usage = said.split("\n\n")[0]
    words = set(re.findall(r"--([a-z]+)|paris ([a-z]+)", usage))
    text = (REPOSITORY / "packaging/completions" / shell).read_text()
    known = set(re.findall(r"[a-z]+", text))
    assert {word for pair in words for word in pair if word} <= known
    # Each option of a command is in the line of that command. A usage may go on in a second line.
    for line in re.sub(r"\n +\[", " [", usage).splitlines() if shell == "paris.bash" else ():
        command, options = re.search(r"paris ([a-z]*)", line), set(re.findall(r"--[a-z-]+", line))
        own = re.search(rf"^ *{command[1] if command and command[1] else '[*]'}\) echo '(.*)'", text, re.M)
        assert own and options <= set(own[1].split())


def test_the_page_of_the_manual_has_the_launcher_s_options() -> None:
    said = subprocess.run([REPOSITORY / "paris", "--help"], capture_output=True, text=True, timeout=60).stdout
    own = {
        word
        for line in said.splitlines()
        if re.match(r"(usage:)? *paris [\[-]", line)
        for word in re.findall(r"--[a-z]+", line)
    }
    page = (REPOSITORY / "packaging/paris.1").read_text().replace("\\-", "-")
    assert own and own <= set(re.findall(r"--[a-z]+", page))


def test_the_package_says_it() -> None:
    environment = {**os.environ, "PYTHONPATH": str(REPOSITORY / "python")}
    words = [sys.executable, "-m", "pevudlo", "--version"]
    said = subprocess.run(words, capture_output=True, text=True, timeout=60, env=environment)
    assert (said.returncode, said.stdout, said.stderr) == (0, f"pevudlo {NUMBER} ({build()})\n", "")


def test_a_package_that_stands_alone_has_no_number(tmp_path: Path) -> None:
    (tmp_path / "VERSION").write_text("9.9.9\n")
    folder = tmp_path / "lib" / "python"
    folder.mkdir(parents=True)
    subprocess.run(["cp", "-r", REPOSITORY / "python/pevudlo", folder], check=True)
    words = ["/usr/bin/python3", "-c", "import pevudlo; print(pevudlo.__version__)"]
    environment = {**os.environ, "PYTHONPATH": str(folder)}
    said = subprocess.run(words, capture_output=True, text=True, timeout=60, env=environment, cwd=tmp_path)
    assert said.stdout == "unknown\n"


def foreign_of_shipped_crates() -> set[str]:
    """The crates of the toolchain that crates.txt names for those that aren't tests or measures."""
    lines = [line.partition("#")[0].partition(":") for line in (REPOSITORY / "crates.txt").read_text().splitlines()]
    uses = {name.strip(): words.replace(",", " ").split() for name, colon, words in lines if colon}
    shipped = [name for name in uses if not name.endswith(("_tests", "_bench"))]
    return {word for name in shipped for word in uses[name]} - set(uses)


def test_the_list_of_parts() -> None:
    said = [subprocess.run([REPOSITORY / "packaging/sbom"], capture_output=True, check=True).stdout for _ in range(2)]
    assert said[0] == said[1]
    parts = json.loads(said[0])
    assert (parts["bomFormat"], parts["specVersion"]) == ("CycloneDX", "1.5")
    assert parts["metadata"]["component"]["version"] == NUMBER
    found = {it["bom-ref"]: it for it in parts["components"]}
    sums = dict(line.split(" ", 1) for line in (REPOSITORY / "dist/SUMS").read_text().splitlines())
    assert found["paris_front"]["hashes"] == [{"alg": "SHA-256", "content": sums["paris_front"]}]
    assert foreign_of_shipped_crates() <= set(found)
    assert all(it["ref"] in {*found, "pevudlo"} and set(it["dependsOn"]) <= set(found) for it in parts["dependencies"])
