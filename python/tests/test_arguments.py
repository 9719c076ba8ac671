"""The words of `python3 -m pevudlo`, and what the readers of commands share."""

from __future__ import annotations

import os
import subprocess
import sys
import tomllib

import pytest

from pevudlo import cli
from pevudlo.arguments import Arguments
from pevudlo.wire.program import ROOT


def run(*words: str, said: str = "") -> subprocess.CompletedProcess[str]:
    """Runs `python3 -m pevudlo` on words, with a text as its standard input."""
    line = [sys.executable, "-m", "pevudlo", *words]
    return subprocess.run(line, input=said, capture_output=True, text=True, timeout=60, cwd=ROOT / "python")


FIRST = ROOT / "examples/first-sum.paris"


@pytest.mark.parametrize(
    ("words", "said"),
    [
        (["nope"], "can't read `nope`"),
        (["--nope"], "unrecognized arguments"),
        (["--nope", "explain"], "unrecognized arguments"),
        (["explian", "x"], "can't read `explian`: did you mean `explain`?"),
        (["expl"], "did you mean `explain`?"),
        (["--workers", "2", "explain", "x"], "the words of explain stand behind it"),
        (["--workers", "17"], "no number from 1 to 16"),
        ([str(FIRST), str(FIRST)], "one FILE is wanted"),
        ([str(ROOT)], "can't read"),
    ],
)
def test_wrong_words(words: list[str], said: str) -> None:
    ran = run(*words)
    assert (ran.returncode, ran.stdout) == (2, "")
    assert ran.stderr.startswith("usage: pevudlo ") and said in ran.stderr.rpartition("\npevudlo: error: ")[2]


@pytest.mark.parametrize("words", [[], ["--workers", "4"], ["--workers=1"]])
def test_a_script_is_run(words: list[str]) -> None:
    expected = FIRST.with_suffix(".expected").read_text()
    ran = run(*words, str(FIRST))
    assert (ran.returncode, ran.stdout, ran.stderr) == (0, expected, "")
    ran = run(*words, said=FIRST.read_text())
    assert (ran.returncode, ran.stdout, ran.stderr) == (0, expected, "")


def test_a_script_in_parts_and_one_that_is_refused() -> None:
    assert run("--desk", said="session\n").returncode == 2
    assert run(said="delete 9\n").returncode == 1


def test_help_names_each_command() -> None:
    ran = run("--help")
    assert (ran.returncode, ran.stderr) == (0, "") and ran.stdout == run("-h").stdout
    assert all(
        command in ran.stdout
        for command in ("explain", "prompt", "page", "live", "watch", "lsp", "check", "serve", "help")
    )


@pytest.mark.parametrize("command", cli.COMMANDS)
def test_words_behind_a_command_are_its_own(command: str) -> None:
    ran = run(command, "--help")
    assert (ran.returncode, ran.stderr) == (0, "") and ran.stdout.startswith(f"usage: paris {command} [-h] ")
    assert ("[--workers 1-16]" in ran.stdout) == (command != "help")


def test_help_that_nobody_reads() -> None:
    ours, theirs = os.pipe()
    os.close(ours)
    words = [sys.executable, "-m", "pevudlo", "prompt", "--help"]
    ran = subprocess.run(words, stdout=theirs, stderr=subprocess.PIPE, timeout=60, cwd=ROOT / "python")
    os.close(theirs)
    assert (ran.returncode, ran.stderr) == (141, b"")


def test_the_installed_command_is_the_same() -> None:
    scripts = tomllib.loads((ROOT / "python/pyproject.toml").read_text())["project"]["scripts"]
    assert scripts == dict.fromkeys(cli.NAMES, "pevudlo.cli:run") and callable(cli.run)


def test_numbers_of_workers() -> None:
    arguments = Arguments("try", "Tries it.")
    assert arguments.parse_args([]).workers == 2
    for number in range(1, 17):
        assert arguments.parse_args([f"--workers={number}"]).workers == number
    assert arguments.parse_args(["--workers", "3", "--workers", "4"]).workers == 4


@pytest.mark.parametrize("word", ["", "0", "17", "02", "+2", " 2", "1_6", "-1", "x", "\u0662"])
def test_what_is_no_number_of_workers(word: str, capsys: pytest.CaptureFixture[str]) -> None:
    with pytest.raises(SystemExit) as ended:
        Arguments("try", "Tries it.").parse_args([f"--workers={word}"])
    assert ended.value.code == 2 and "argument --workers: " in capsys.readouterr().err


def test_an_option_has_one_spelling() -> None:
    with pytest.raises(SystemExit):
        Arguments("try", "Tries it.").parse_args(["--work", "3"])


def test_each_sign_of_a_wrong_word_is_shown(capsys: pytest.CaptureFixture[str]) -> None:
    with pytest.raises(SystemExit):
        Arguments("try", "Tries it.").parse_args(["a\x1b[2Jb"])
    assert "\x1b" not in capsys.readouterr().err
