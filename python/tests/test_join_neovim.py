"""Two Neovims at one served program, by the plugin and a real server. It takes minutes, so it is asked for."""

from __future__ import annotations

import asyncio
import json
import os
import shutil
import subprocess
import time
from pathlib import Path

import pytest
from join_model import core
from serving import People, served, with_people

from pevudlo.wire.program import ROOT

EDITORS = ROOT / "editors"
NAMES = ("Ann", "Bob")
LINES, PAUSE, PATIENCE = 500, 40, 600
TEXT = "set S 4\nfield a S 8\ninput a 0 1 2 3 4\nu-max-3-1L a a a 8\n"

# Types lines at random places, and changes some; then it waits until `DONE` is there, and keeps the text.
TYPING = """
math.randomseed(SEED)
local count = 0
local function of_mine(line)
  return line and line:find("^# " .. NAME .. " ")
end
local function type_line()
  local lines = vim.api.nvim_buf_get_lines(0, 0, -1, false)
  local at, made = math.random(0, #lines), {}
  count = count + 1
  local word = "# " .. NAME .. " " .. count
  if of_mine(lines[at + 1]) and math.random() < 0.3 then
    vim.fn.writefile({ lines[at + 1] }, OUT .. ".dropped", "a")
    vim.api.nvim_buf_set_lines(0, at, at + 1, false, { word })
  else
    vim.api.nvim_buf_set_lines(0, at, at, false, { word })
  end
end
vim.wait(20000, function() return vim.api.nvim_buf_line_count(0) > 3 end, 50)
while count < LINES do
  type_line()
  vim.wait(PAUSE, function() return false end, 10)
end
vim.fn.writefile({}, OUT .. ".typed")
vim.wait(PATIENCE * 1000, function() return vim.fn.filereadable(DONE) == 1 end, 50)
vim.fn.writefile(vim.api.nvim_buf_get_lines(0, 0, -1, false), OUT)
vim.cmd("qa!")
"""

pytestmark = [
    pytest.mark.usefixtures("libparis"),
    pytest.mark.skipif("PEVUDLO_JOINED" not in os.environ, reason="it takes minutes"),
]


def begun(folder: Path, name: str, address: str, text: str, seed: int) -> subprocess.Popen[bytes]:
    """Begins a Neovim whose file, which has a text before, is the program."""
    play, script = folder / f"{name}.lua", folder / f"{name}.paris"
    script.write_text(text, newline="")
    known = {"NAME": name, "OUT": str(folder / name), "DONE": str(folder / "done"), "LINES": LINES, "PAUSE": PAUSE}
    known |= {"SEED": len(NAMES) * seed + NAMES.index(name), "PATIENCE": PATIENCE}
    play.write_text("".join(f"local {key} = {json.dumps(value)}\n" for key, value in known.items()) + TYPING)
    joined = json.dumps([str(ROOT / "paris"), "lsp", "--join", address, "--name", name])
    nvim = shutil.which("nvim")
    assert nvim is not None, "apt-get install neovim"
    words = [nvim, "--headless", "-u", "NONE", "-i", "NONE", "--cmd", f"let g:paris_command = {joined}"]
    words += ["--cmd", f"set noswapfile runtimepath^={EDITORS}/vim,{EDITORS}/neovim | runtime plugin/paris.lua"]
    words += ["--cmd", "filetype plugin on", str(script), "-c", f"luafile {play}"]
    return subprocess.Popen(words, stdin=subprocess.DEVNULL, stdout=subprocess.DEVNULL, stderr=subprocess.DEVNULL)


def texts(folder: Path) -> list[list[str]]:
    """What each has in its file."""
    return [(folder / name).read_text().split("\n")[:-1] for name in NAMES]


def dropped(folder: Path) -> set[str]:
    """The lines that somebody took the place of."""
    files = [folder / f"{name}.dropped" for name in NAMES]
    return {line for file in files if file.is_file() for line in file.read_text().split("\n")}


async def still(people: People, folder: Path) -> list[str]:
    """The server's text, once both have typed all and it was still for a while."""
    looker = await people.sit(people.server.token("Who looks"))
    end, before, since = time.monotonic() + PATIENCE, list[str](), time.monotonic()
    while not all((folder / f"{name}.typed").is_file() for name in NAMES) or time.monotonic() < since + 20:
        assert time.monotonic() < end, before
        await asyncio.sleep(0.2)
        if looker.text != before:
            before, since = list(looker.text), time.monotonic()
    return before


@pytest.mark.parametrize(("seed", "text"), enumerate(["", "# old\r\n", "# old"]))
def test_two_neovims_that_type_lose_nothing_and_have_nothing_twice(tmp_path: Path, seed: int, text: str) -> None:
    file, found = tmp_path / "shared.paris", list[list[str]]()
    file.write_text(TEXT)

    async def type_both(people: People) -> None:
        base = people.server.base
        address = f"{base}/#{people.server.token('All others')}"
        editors = [begun(tmp_path, name, address, text, seed) for name in NAMES]
        found.append(await still(people, tmp_path))
        (tmp_path / "done").write_text("")
        for editor in editors:
            await asyncio.to_thread(editor.wait, 60)

    with served(file, "--folder", tmp_path / "kept", "--rate", "100", cwd=tmp_path) as server:
        asyncio.run(with_people(server, type_both))
    (shared,) = found
    assert texts(tmp_path) == [shared, shared]
    words, gone = [core(line) for line in shared], dropped(tmp_path)
    for name in NAMES:
        for number in range(1, LINES + 1):
            word = f"# {name} {number}"
            assert words.count(word) == (word not in gone), word
