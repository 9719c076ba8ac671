"""./paris: scripts as before, words that are wrong, and the programs for people."""

from __future__ import annotations

import os
import pty
import subprocess
from pathlib import Path

import pytest
from usages import is_usage_of

REPOSITORY = Path(__file__).resolve().parents[2]
PARIS = REPOSITORY / "paris"
FIRST = REPOSITORY / "examples/first-sum.paris"
TRANSCRIPT = (REPOSITORY / "examples/first-sum.expected").read_text()


def paris(*words: str | Path, stdin: str = "", **variables: str) -> subprocess.CompletedProcess[str]:
    environment = {name: value for name, value in os.environ.items() if name != "PARIS_FRONT"} | variables
    return subprocess.run(
        [PARIS, *words], input=stdin, capture_output=True, text=True, timeout=60, env=environment, cwd="/"
    )


def test_scripts() -> None:
    for words in ("", "--workers 3", "--workers=1"):
        ran = paris(*words.split(), FIRST)
        assert (ran.returncode, ran.stdout, ran.stderr) == (0, TRANSCRIPT, "")
    ran = paris(stdin=FIRST.read_text())
    assert (ran.returncode, ran.stdout) == (0, TRANSCRIPT)
    assert paris(stdin="delete 9\n").returncode == 1


@pytest.mark.parametrize(
    "word, command",
    [
        ("explian", "explain"),
        ("EXPLAIN", "explain"),
        ("xplain", "explain"),
        ("explains", "explain"),
        ("promt", "prompt"),
        ("porpmt", "prompt"),
        ("pgae", "page"),
        ("lve", "live"),
        ("wacth", "watch"),
        ("lps", "lsp"),
        ("chekc", "check"),
    ],
)
def test_a_word_that_is_nearly_a_command_gets_that_one_s_usage(word: str, command: str) -> None:
    for more in ("", f"{FIRST}", f"{FIRST} --quiet"):
        ran = paris(word, *more.split())
        *usage, error = ran.stderr.removesuffix("\n").split("\n")
        assert (ran.returncode, ran.stdout) == (2, "") and 1 <= len(usage) <= 2
        assert usage[0].startswith(f"usage: paris {command} [")
        assert error == f"paris: error: there is no file and no command {word}: did you mean `{command}`?"


@pytest.mark.parametrize("word", ["examples", "x", "explanation", "lively", "lisp.paris", "watches.paris", ""])
def test_another_word_gets_what_wrong_words_get(word: str) -> None:
    """Of two words the first is no FILE, and of one word it is said that it can't be read."""
    ran = paris(word, "b")
    assert ran.returncode == 2 and "did you mean" not in ran.stderr
    assert ran.stderr.endswith("paris: error: one FILE is wanted\n") and "paris --where" in ran.stderr
    assert paris(word).stderr == f"paris: can't read {word}\n"


def test_a_script_of_nearly_a_command_s_name_is_run(tmp_path: Path) -> None:
    (tmp_path / "explian").write_text(FIRST.read_text())
    for name in ("explian", "./explian"):
        ran = subprocess.run([PARIS, name], capture_output=True, text=True, timeout=60, cwd=tmp_path)
        assert (ran.returncode, ran.stdout, ran.stderr) == (0, TRANSCRIPT, "")


@pytest.mark.parametrize("given", [None, "", "glibc.malloc.check=0"])
def test_the_program_gets_settings_of_memory_where_the_user_says_nothing(given: str | None) -> None:
    environment = {name: value for name, value in os.environ.items() if name != "GLIBC_TUNABLES"}
    if given is not None:
        environment["GLIBC_TUNABLES"] = given
    pipe = subprocess.PIPE
    with subprocess.Popen([PARIS], env=environment, stdin=pipe, stdout=pipe, text=True) as child:
        assert child.stdin and child.stdout
        child.stdin.write("list\n")
        child.stdin.flush()
        assert child.stdout.readline() == "rows 0\n"
        # (the C library puts an end behind each setting that it has read)
        found = Path(f"/proc/{child.pid}/environ").read_text().replace("\0", ":")
    wanted = "glibc.malloc.hugetlb=1:glibc.malloc.tcache_count=127" if given is None else given
    assert f":GLIBC_TUNABLES={wanted}:" in f":{found}"


def test_a_terminal_is_told_what_is_waited_for() -> None:
    ours, theirs = pty.openpty()
    with subprocess.Popen([PARIS], stdin=theirs, stdout=subprocess.PIPE, stderr=theirs, text=True) as child:
        os.close(theirs)
        told = os.read(ours, 1000).decode()
        os.write(ours, b"list\n\x04")
        written, _ = child.communicate(timeout=60)
    os.close(ours)
    assert "Ctrl-D ends it" in told and "./paris prompt" in told
    assert (written, child.returncode) == ("rows 0\n", 0)


@pytest.mark.parametrize(
    "words",
    ["--nope", "a b", "--workers", "--workers 2 explain x", "--where explain x"],
)
def test_wrong_words(words: str) -> None:
    ran = paris(*words.split())
    assert (ran.returncode, ran.stdout) == (2, "")
    *usage, error = ran.stderr.splitlines()
    assert usage == usage_lines(paris("--help").stdout) and error.startswith("paris: error: ")


@pytest.mark.parametrize("number", ["99", "0", "17", "-1", "x", "", "1 2", "\x1b[2J"])
def test_the_launcher_and_its_commands_say_one_thing_of_workers(number: str) -> None:
    said = paris("--workers", number)
    assert (said.returncode, said.stdout) == (2, "")
    assert said.stderr == paris(f"--workers={number}").stderr and "\x1b" not in said.stderr
    assert said.stderr.startswith("usage: paris [--workers 1-16] ")
    if number.isalnum():
        error = f"error: argument --workers: `{number}` is no number from 1 to 16"
        assert said.stderr.splitlines()[-1] == f"paris: {error}"
        for command in WITH_WORKERS:
            ran = paris(command, "--workers", number, FIRST)
            assert ran.stderr.splitlines()[-1] == f"paris {command}: {error}"


def test_the_launcher_s_usage_has_that_of_each_command() -> None:
    said = paris("--help").stdout
    assert max(map(len, said.splitlines())) <= 80
    usages = " ".join(" ".join(usage_lines(said)).split())
    for command in COMMANDS:
        own = " ".join(usage_lines(paris(command, "--help").stdout)).replace("usage: ", "").replace(" [-h]", "")
        assert f" {' '.join(own.split())} paris " in f"{usages} paris "
    assert "--workers 1-16  how many threads settle rows (default: 2)" in said


def usage_lines(said: str) -> list[str]:
    """The lines of a usage, up to the first empty one."""
    return said.split("\n\n")[0].splitlines()


OF_FILES = ("explain", "prompt", "page", "live", "watch", "check")
WITH_WORKERS = (*OF_FILES, "lsp", "serve")
COMMANDS = (*WITH_WORKERS, "help")


@pytest.mark.parametrize(
    "words", ["explain --nope x", "explain", "prompt a b", "page", "live --port", "watch", "lsp x", "help --nope"]
)
def test_wrong_words_behind_a_command(words: str) -> None:
    ran = paris(*words.split())
    assert (ran.returncode, ran.stdout) == (2, "") and is_usage_of(words.split()[0], ran.stderr)


def test_help_and_where() -> None:
    ran = paris("--help")
    assert ran.returncode == 0 and ran.stdout.startswith("usage: paris ")
    usages = [line for line in usage_lines(ran.stdout) if line.removeprefix("usage:").lstrip().startswith("paris ")]
    assert len(usages) == len(COMMANDS) + 2 and "--where" in usages[-1]
    ran = paris("--where")
    assert ran.returncode == 0 and os.access(ran.stdout.strip(), os.X_OK)


def on_a_terminal(*words: str | Path) -> tuple[int, bytes, bytes]:
    """The exit status, what is written, and what is said where standard error is a terminal."""
    ours, theirs = pty.openpty()
    with subprocess.Popen([PARIS, *words], stdout=subprocess.PIPE, stderr=theirs, stdin=subprocess.DEVNULL) as child:
        os.close(theirs)
        written, _ = child.communicate(timeout=60)
    os.set_blocking(ours, False)
    try:
        said = os.read(ours, 100_000)
    except OSError:
        said = b""
    os.close(ours)
    return child.returncode, written, said


def test_a_long_script_is_told_of_on_a_terminal(tmp_path: Path) -> None:
    script = tmp_path / "sort.paris"
    sort = subprocess.run(
        [REPOSITORY / "examples/large/radix-sort", "script"], capture_output=True, text=True, check=True
    )
    script.write_text(sort.stdout + "input key 0 5\nsettle\ninput key 0 6\nsettle\n" * 60)
    told, quiet = on_a_terminal(script), on_a_terminal("--quiet", script)
    assert told[:2] == quiet[:2] == (0, quiet[1]) and quiet[1].count(b"settled") == 122
    assert b" commands answered" in told[2] and quiet[2] == b""
    # A short one is run as it is.
    assert on_a_terminal(FIRST) == (0, TRANSCRIPT.encode(), b"")


def test_a_file_that_cannot_be_read() -> None:
    commands: list[list[str]] = [[], *([command] for command in OF_FILES)]
    for words in [[*command, name] for command in commands for name in ("/nope", "/")]:
        ran = paris(*words)
        assert (ran.returncode, ran.stdout) == (2, "")
        assert ran.stderr.startswith("paris") and f"can't read {words[-1]}" in ran.stderr


def test_a_page_that_cannot_be_written(tmp_path: Path) -> None:
    ran = paris("page", FIRST, "-o", str(tmp_path))
    assert (ran.returncode, ran.stdout, ran.stderr) == (2, "", f"paris page: can't write {tmp_path}: Is a directory\n")


def test_a_page_is_not_written_over_its_script(tmp_path: Path) -> None:
    script = tmp_path / "sum.html"
    script.write_text("set S 4\n")
    (tmp_path / "link.html").symlink_to(script)
    for words in (["sum.html"], ["sum.html", "-o", "./sum.html"], ["sum.html", "-o", "link.html"]):
        ran = subprocess.run([PARIS, "page", *words], capture_output=True, text=True, timeout=60, cwd=tmp_path)
        assert (ran.returncode, ran.stdout) == (2, "") and "in the place of its script" in ran.stderr
    assert script.read_text() == "set S 4\n"
    words = ["sum.html", "-o", "page.html"]
    ran = subprocess.run([PARIS, "page", *words], capture_output=True, text=True, timeout=60, cwd=tmp_path)
    assert ran.returncode == 0 and (tmp_path / "page.html").exists()


def test_a_short_word_for_help() -> None:
    for command in ("", *COMMANDS):
        words = [command] if command else []
        ran = paris(*words, "-h")
        assert (ran.returncode, ran.stderr) == (0, "") and ran.stdout == paris(*words, "--help").stdout


def test_explain_has_the_programs_status_and_program() -> None:
    ran = paris("explain", FIRST)
    assert (ran.returncode, ran.stderr) == (0, "")
    assert ran.stdout.split("\n")[-2] == "11 commands, none refused"
    ran = paris("explain", "-", stdin="show a end\n")
    assert ran.returncode == 1 and "refused 7: no field has this name" in ran.stdout.split("\n")[1]
    # The program is the repository's, whatever the variable says.
    assert paris("explain", FIRST, PARIS_FRONT="/bin/false").returncode == 0


def test_files_of_the_current_folder_are_no_modules(tmp_path: Path) -> None:
    (tmp_path / "html.py").write_text("raise SystemExit(9)")
    (tmp_path / "pevudlo.py").write_text("raise SystemExit(9)")
    ran = subprocess.run([PARIS, "explain", FIRST], capture_output=True, text=True, timeout=60, cwd=tmp_path)
    assert ran.returncode == 0


@pytest.mark.parametrize("has_numpy", [True, False])
def test_a_python_with_numpy_comes_first(tmp_path: Path, has_numpy: bool) -> None:
    """The python3 on the PATH has none here, so it runs the package only where the system's has none either."""
    if has_numpy and subprocess.run(["/usr/bin/python3", "-c", "import numpy"], capture_output=True).returncode:
        pytest.skip("the system's Python has no numpy")
    first, ran = tmp_path / "python3", tmp_path / "ran"
    first.write_text(f'#!/bin/sh\n[ "$3" != pevudlo ] || touch {ran}\nexec /usr/bin/python3 -S "$@"\n')
    front = PARIS.read_text() if has_numpy else PARIS.read_text().replace(" /usr/bin/python3;", ";")
    copy = tmp_path / "paris"
    copy.write_text(front.replace('root=$(cd "${here%/*}/" && pwd)', f"root={REPOSITORY}"))
    for script in (first, copy):
        script.chmod(0o755)
    environment = {**os.environ, "PATH": f"{tmp_path}:{os.environ['PATH']}"}
    said = subprocess.run([copy, "explain", FIRST], capture_output=True, text=True, timeout=60, env=environment)
    assert said.stdout.endswith("\n11 commands, none refused\n") and ran.exists() != has_numpy


def test_without_a_python_from_3_11_on(tmp_path: Path) -> None:
    """Scripts run without Python; explain says what it wants."""
    (tmp_path / "python3").write_text("#!/bin/sh\nexit 1\n")
    (tmp_path / "python3").chmod(0o755)
    front = PARIS.read_text().replace("/usr/bin/python3", str(tmp_path / "python3"))
    copy = tmp_path / "paris"
    copy.write_text(front.replace('root=$(cd "${here%/*}/" && pwd)', f"root={REPOSITORY}"))
    copy.chmod(0o755)
    environment = {**os.environ, "PATH": f"{tmp_path}:{os.environ['PATH']}"}
    ran = subprocess.run([copy, FIRST], capture_output=True, text=True, timeout=60, env=environment)
    assert (ran.returncode, ran.stdout) == (0, TRANSCRIPT)
    ran = subprocess.run([copy, "explain", FIRST], capture_output=True, text=True, timeout=60, env=environment)
    assert ran.returncode == 2 and "Python from 3.11 on" in ran.stderr
