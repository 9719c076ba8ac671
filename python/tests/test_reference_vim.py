"""The syntax file for Vim: it is made from the tables, and Vim colours scripts by it."""

from __future__ import annotations

import shutil
import subprocess
from pathlib import Path

import pytest
from reference_vim import COLOURS, files

from pevudlo.lang.instructions import INSTRUCTIONS
from pevudlo.reference.entry import Kind
from pevudlo.reference.table import ENTRIES, of_kind
from pevudlo.wire.program import ROOT

LETTERS = {"Error": "E", "Comment": "#", "Command": "C", "Place": "P", "Instruction": "I", "Flag": "F", "Word": "W"}
LETTERS["Number"] = "N"
DUMP = """
let names = {names}
let out = []
for l in range(1, line('$'))
  let signs = ''
  for c in range(1, len(getline(l)))
    let signs .= get(names, synIDattr(synID(l, c, 1), 'name'), '.')
  endfor
  call add(out, signs)
endfor
call writefile(out, '{out}')
"""
LINES = [
    ("# a comment  with set S 4 ", "##########################"),
    ("set S 4x2", "CCC...NNN"),
    ("input S.context 0 1 1", "CCCCC.FFFFFFFFF.N.N.N"),
    ("insert end u-add-3-1L a b c 8", "CCCCCC.PPP.IIIIIIIIII.......N"),
    ("insert after 12 scan-with-copy-1L d v 0 8 upward none", "CCCCCC.PPPPP.NN.IIIIIIIIIIIIIIIII.....N.N.WWWWWW.WWWW"),
    ("replace 3 set-test S", "CCCCCCC.N.IIIIIIII.."),
    ("show end end", "CCCC.....PPP"),
    ("show S.carry after 12", "CCCC.FFFFFFF.PPPPP.NN"),
    ("insert end u-add a b c 8", "CCCCCC.PPP.EEEEE.......N"),
    ("shw a end", "EEEEEEEEE"),
    ("Set S 4", "EEEEEEE"),
    ("show  a end", "CCCCEE....."),
    ("take ", "CCCCE"),
    ("take\t", "EEEEE"),
]


def signs(lines: list[str], folder: Path) -> list[str]:
    """A letter for each byte of each line: the group that Vim puts it in, or a dot."""
    vim = shutil.which("vim")
    assert vim is not None, "apt-get install vim"
    script, out, dump = folder / "script.paris", folder / "out", folder / "dump.vim"
    script.write_text("".join(f"{line}\n" for line in lines))
    names = {f"paris{group}": letter for group, letter in LETTERS.items()}
    dump.write_text(DUMP.format(names=names, out=out))
    words = ["-es", "-u", "NONE", "-i", "NONE", "-N", "--cmd", f"set runtimepath^={ROOT}/editors/vim"]
    words += ["--cmd", "filetype on | syntax on", str(script), "-c", f"source {dump}", "-c", "qa!"]
    subprocess.run([vim, *words], stdin=subprocess.DEVNULL, capture_output=True, timeout=60, check=True)
    return out.read_text().split("\n")[:-1]


@pytest.mark.parametrize("name", sorted(files()))
def test_a_file_is_what_the_tables_say(name: str) -> None:
    assert (ROOT / name).read_text() == files()[name], "run python/tools/make-docs"


def test_vim_colours_lines_by_their_words(tmp_path: Path) -> None:
    assert set(LETTERS) == set(COLOURS)
    assert signs([line for line, _ in LINES], tmp_path) == [wanted for _, wanted in LINES]


@pytest.mark.parametrize("above", [[], ["# wide"], ["# two  spaces", "", "#", "# set S 4"]])
def test_vim_colours_a_profile_as_the_first_command_alone(tmp_path: Path, above: list[str]) -> None:
    lines = [*above, "paris 2", "set S 4", "paris 2", "paris"]
    wanted = [*("#" * len(line) for line in above), "CCCCC.N", "CCC...N", "EEEEEEE", "EEEEE"]
    assert signs(lines, tmp_path) == wanted
    assert signs(["set S 4", *lines], tmp_path)[len(above) + 1] == "EEEEEEE"
    assert signs([*above, "paris  2"], tmp_path)[-1] == "CCCCCEEN"


def test_vim_knows_each_instruction_and_no_error_in_any_example(tmp_path: Path) -> None:
    instructions = [f"insert end {entry.spelling}" for entry in of_kind(Kind.INSTRUCTION)]
    coloured = signs(instructions, tmp_path)
    names = [text.split(" ")[2] for text in instructions]
    assert len(names) == len(INSTRUCTIONS) == 77
    assert [line[11 : 11 + len(name)] for line, name in zip(coloured, names)] == ["I" * len(name) for name in names]
    lines = [
        line for entry in ENTRIES if entry.kind is not Kind.FAULT and entry.example for line, _ in entry.example.asked()
    ]
    assert len(lines) > 500
    assert not any("E" in line for line in signs(lines, tmp_path))
