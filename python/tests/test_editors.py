"""Editors over the language server, with the settings in editors/: Neovim, and the extension for VS Code."""

from __future__ import annotations

import json
import re
import shutil
import subprocess
import sys
import tomllib
import zipfile
from pathlib import Path
from typing import Any
from xml.etree import ElementTree

import pytest
from random_editor import Fresh, numbers_of

from pevudlo.lang.grammar import COMMANDS
from pevudlo.lang.instructions import INSTRUCTIONS
from pevudlo.wire.program import ROOT

EDITORS = ROOT / "editors"
HEAD = "set S 4\nfield a S 8\nfield b S 8\nfield c S 8\ninput a 0 1 2 3 4\n"
ADD, TWICE = "u-add-3-1L b a a 8\n", "u-add-3-1L c b b 8\n"
TEXT = HEAD + ADD + TWICE + "show c end\n"
WRONG = TEXT + "u-ad-3-1L a a a 8\n"
CHANGED = TEXT.replace("3 4", "3 5")
# What Neovim draws behind lines, once it has drawn the value that is wanted, and what is wrong.
LUA = """
local function drawn()
  local space, found = vim.api.nvim_create_namespace("paris"), {}
  for _, mark in ipairs(vim.api.nvim_buf_get_extmarks(0, space, 0, -1, { details = true })) do
    found[tostring(mark[2])] = mark[4].virt_text[1][1]
  end
  return found
end
local function until_drawn(wanted)
  vim.wait(20000, function() return (drawn()["7"] or ""):find(wanted, 1, true) ~= nil end, 20)
  local wrong = vim.tbl_map(function(each) return each.lnum end, vim.diagnostic.get(0))
  return { values = drawn(), said = vim.b.paris_ran, wrong = wrong }
end
local first = until_drawn(FIRST)
vim.api.nvim_buf_set_text(0, 4, 16, 4, 17, { "5" })
vim.fn.writefile({ vim.json.encode({ first, until_drawn(SECOND) }) }, OUT)
"""


def ends(text: str) -> str:
    """What a fresh run of a text shows at its end, as it stands behind the look."""
    (reply,) = Fresh(text.split("\n")[:-1]).answers(["show c end"])
    return "c " + " ".join(map(str, numbers_of(reply)))


def command(name: str) -> str:
    """A command that is there."""
    path = shutil.which(name)
    assert path is not None, f"apt-get install {name}"
    return path


def test_neovim_draws_values_and_says_what_is_wrong(tmp_path: Path) -> None:
    script, out, play = tmp_path / "sum.paris", tmp_path / "out", tmp_path / "play.lua"
    script.write_text(WRONG)
    names = {"FIRST": ends(TEXT), "SECOND": ends(CHANGED), "OUT": str(out)}
    play.write_text("".join(f"local {name} = {json.dumps(value)}\n" for name, value in names.items()) + LUA)
    served = json.dumps([str(ROOT / "paris"), "lsp"])
    words = [command("nvim"), "--headless", "-u", "NONE", "-i", "NONE", "--cmd", f"let g:paris_command = {served}"]
    words += ["--cmd", f"set noswapfile runtimepath^={EDITORS}/vim,{EDITORS}/neovim | runtime plugin/paris.lua"]
    words += ["--cmd", "filetype plugin on", str(script), "-c", f"luafile {play}", "-c", "qa!"]
    ran = subprocess.run(words, stdin=subprocess.DEVNULL, capture_output=True, text=True, timeout=60)
    assert out.is_file(), ran.stderr
    first, second = json.loads(out.read_text())
    assert first["values"]["5"] == "  ▶ b 2 4 6 8  carry 0000  overflow 0000" and set(first["values"]) == set("567")
    assert first["wrong"] == [8] and first["said"] == "a new book (the first text): 2 of 2 rows ran; 1 line is refused"
    assert second["values"]["5"] == "  ▶ b 2 4 6 10*  carry 0000  overflow 0000"
    assert second["said"] == "2 of 2 rows ran again; 1 line is refused"


@pytest.fixture(scope="module")
def played() -> dict[str, Any]:
    """What the extension showed of a script that was opened and changed."""
    words = [command("node"), str(Path(__file__).with_name("vscode.js")), str(EDITORS / "vscode/extension.js"), WRONG]
    ran = subprocess.run([*words, str(ROOT / "paris"), "lsp"], capture_output=True, text=True, timeout=60)
    assert (ran.returncode, ran.stderr) == (0, "")
    found: dict[str, Any] = json.loads(ran.stdout)
    return found


def lines_of(found: list[dict[str, Any]]) -> list[int]:
    """The lines of locations and marks."""
    parts = [each["parts"] for each in found]
    ranges = [part[0] if isinstance(part[0], dict) and "start" in part[0] else part[1] for part in parts]
    return [each["start"]["line"] for each in ranges]


def test_the_extension_shows_values(played: dict[str, Any]) -> None:
    hints = [(hint["parts"][0]["line"], hint["parts"][1]) for hint in played["hints"]]
    assert hints[0] == (5, "▶ b 2 4 6 8  carry 0000  overflow 0000") and hints[2] == (7, ends(TEXT))
    assert played["again"][0] == "▶ b 2 4 6 10*  carry 0000  overflow 0000" and played["again"][2] == ends(CHANGED)
    assert played["hover"]["parts"][0]["parts"][0].startswith("`b`: 8 bits in `S`, as it was declared\n")
    assert played["status"] == "2 of 2 rows ran again"


def test_the_extension_shows_what_is_wrong_and_mends_it(played: dict[str, Any]) -> None:
    (wrong,) = played["wrong"]
    assert (wrong["severity"], wrong["code"], wrong["source"]) == (0, 20, "paris")
    assert wrong["message"].startswith("did you mean `u-add-3-1L`?\n")
    (action,) = played["actions"]
    assert action["parts"] == ["Write `u-add-3-1L`", "quickfix"] and action["diagnostics"] == [wrong]
    (part,) = action["edit"]["parts"]
    assert part["text"] == "u-add-3-1L" and part["range"] == wrong["range"]
    assert played["mended"] == []


def test_the_extension_knows_names(played: dict[str, Any]) -> None:
    assert lines_of(played["definition"]) == [5] and lines_of(played["declaration"]) == [2]
    assert lines_of(played["references"]) == [5, 6, 6] and lines_of(played["highlights"]) == [2, 5, 6, 6]
    assert played["named"]["placeholder"] == "b" and played["refused"].startswith("`1` is no name")
    assert [part["range"]["start"]["line"] for part in played["renamed"]] == [2, 5, 6, 6]
    assert [each["parts"][0] for each in played["items"]] == ["a", "b", "c"]
    assert [each["parts"][0] for each in played["symbols"]] == ["S", "a", "b", "c"]
    assert [each["parts"] for each in played["folds"]] == [[0, 8]] and played["tokens"] % 5 == 0 < played["tokens"]


def test_the_extension_begins_again_and_ends(played: dict[str, Any]) -> None:
    assert (played["restarted"], played["closed"], played["errors"]) == (1, None, [])


def test_an_extension_without_a_server_says_so() -> None:
    words = [command("node"), str(Path(__file__).with_name("vscode.js")), str(EDITORS / "vscode/extension.js"), TEXT]
    ran = subprocess.run([*words, "/nope"], capture_output=True, text=True, timeout=60)
    assert ran.returncode == 1 and "/nope: spawn /nope ENOENT" in ran.stderr


def test_the_extension_is_packed(tmp_path: Path) -> None:
    for name in ("one.vsix", "two.vsix"):
        subprocess.run([sys.executable, EDITORS / "vscode/pack", tmp_path / name], check=True, capture_output=True)
    assert (tmp_path / "one.vsix").read_bytes() == (tmp_path / "two.vsix").read_bytes()
    with zipfile.ZipFile(tmp_path / "one.vsix") as package:
        names = set(package.namelist())
        said = json.loads(package.read("extension/package.json"))
        manifest = ElementTree.fromstring(package.read("extension.vsixmanifest"))
        ElementTree.fromstring(package.read("[Content_Types].xml"))
        assert package.read("extension/client.js") == (EDITORS / "vscode/client.js").read_bytes()
    assert f"extension/{said['main'].removeprefix('./')}" in names
    assert said["version"] == (ROOT / "VERSION").read_text().strip()
    identity = next(each for each in manifest.iter() if each.tag.endswith("Identity"))
    assert (identity.get("Id"), identity.get("Version")) == (said["name"], said["version"])
    assert said["contributes"]["configuration"]["properties"]["paris.command"]["default"] == ["paris", "lsp"]


def test_settings_of_other_editors_start_the_server() -> None:
    helix = tomllib.loads((EDITORS / "helix/languages.toml").read_text())
    (language,) = helix["language"]
    assert helix["language-server"][language["language-servers"][0]] == {"command": "paris", "args": ["lsp"]}
    assert language["file-types"] == ["paris"]
    kate = json.loads((EDITORS / "kate/settings.json").read_text())["servers"]["paris"]
    mode = ElementTree.parse(EDITORS / "kate/paris.xml").getroot()
    assert kate["command"] == ["paris", "lsp"] and kate["highlightingModeRegex"] == f"^{mode.get('name')}$"
    emacs = (EDITORS / "emacs/paris-mode.el").read_text()
    assert '\'("paris" "lsp")' in emacs and all(f'"{name}"' in emacs for name in COMMANDS)


@pytest.mark.skipif(shutil.which("emacs") is None, reason="there is no Emacs")
def test_emacs_without_eglot_says_what_to_install(tmp_path: Path) -> None:
    (tmp_path / "x.paris").write_text("set S 4\n")
    hook = "(add-hook 'paris-mode-hook #'paris-mode-ensure)"
    said = '(princ (format "%s, eglot: %s" major-mode (featurep \'eglot)))'
    has_eglot = '(lambda (it) (locate-file "eglot" (list it) \'(".el" ".elc" ".el.gz")))'
    empty = f"(setq load-path (cl-remove-if {has_eglot} load-path))"
    words = ["emacs", "-Q", "--batch", "-L", str(EDITORS / "emacs"), "--eval", "(require 'paris-mode)"]
    words += ["--eval", empty, "--eval", hook, "--visit", str(tmp_path / "x.paris"), "--eval", said]
    ran = subprocess.run(words, capture_output=True, text=True, timeout=60)
    assert (ran.returncode, ran.stdout) == (0, "paris-mode, eglot: nil")
    assert "want eglot, which isn't installed" in ran.stderr and "elpa-eglot" in ran.stderr


def test_what_the_document_says_of_neovim_is_seen(tmp_path: Path) -> None:
    """The picture's script and the document's are the same, and its values are those of a fresh run."""
    text = (ROOT / "docs/EDITORS.md").read_text()
    (script,) = re.findall(r"cat >squares\.paris <<'END'\n(.*?)END\n", text, re.S)
    assert f'SCRIPT = """{script}"""' in (ROOT / "docs/pictures/make").read_text()
    before, after = ends(script), ends(script.replace(" 2 3", " 7 3"))
    assert f"two lines below it `{before}`" in text and "become `49*`" in text and " 49 " in after
    names = set(re.findall(r"(editors/[\w./-]+)", text)) - {"editors/vscode/out/paris.vsix"}
    assert names and all((ROOT / name).exists() for name in names)


def test_colours_of_other_editors_know_each_instruction() -> None:
    """Kate's patterns, and those of Emacs in another spelling, find each instruction in its place, and no command."""
    patterns = [each.get("String", "") for each in ElementTree.parse(EDITORS / "kate/paris.xml").iter("RegExpr")]
    kate = [re.compile(each) for each in patterns if "context" in each or "L\\b" in each]
    emacs = re.findall(r'\("(\\\\_<.*)" \. font-lock-function', (EDITORS / "emacs/paris-mode.el").read_text())
    there = [re.compile(spelled(each)) for each in emacs]
    for found in (kate, there):
        assert len(found) == 2
        for name in INSTRUCTIONS:
            assert name in [match.group() for each in found if (match := each.search(f"insert end {name} a b"))]
        assert not any(each.search(name) for each in found for name in COMMANDS)


def spelled(pattern: str) -> str:
    """A pattern of Emacs as Python spells it."""
    pattern = pattern.replace(r"\\_<", r"(?<![\w-])").replace(r"\\_>", r"(?![\w-])").replace(r"\\(?:", "(?:")
    return pattern.replace(r"\\|", "|").replace(r"\\)", ")")
