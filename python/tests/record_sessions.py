"""Records what editors say to the language server and what it answers, while `sessions/play.*` is done in them.

Usage: PYTHONPATH=python /usr/bin/python3 python/tests/record_sessions.py [neovim | emacs]. It wants Debian's neovim,
and emacs-nox with elpa-eglot. With no word it records both, into `sessions/neovim.jsonl` and `sessions/emacs.jsonl`. A
line is a message, and says who sent it. The folder of the file is written as HOME, and no process is named.
"""

from __future__ import annotations

import json
import os
import select
import subprocess
import sys
import tempfile
from collections.abc import Callable
from pathlib import Path

from editors import write_all
from pevudlo.lsp.frames import Frames
from pevudlo.wire.program import ROOT

SESSIONS = Path(__file__).resolve().parent / "sessions"
EDITORS = ROOT / "editors"
HOME = "/home/user"
PATIENCE = 120.0
TEXT = """# The double of a number, and twice that.
set S 4
field a S 8
field b S 8
field c S 8
input a 0 1 2 3 4
u-add-3-1L b a a 8
u-add-3-1L c b b 8
show c end
u-ad-3-1L a a a 8
"""
EDITOR, SERVER = "editor", "server"
RELAY = "relay"


def relay(record: Path, words: list[str]) -> int:
    """Stands between an editor at standard input and output and the server that it starts, and writes down all."""
    with subprocess.Popen(words, stdin=subprocess.PIPE, stdout=subprocess.PIPE, bufsize=0) as server:
        assert server.stdin is not None and server.stdout is not None
        ways = {0: (EDITOR, server.stdin.fileno()), server.stdout.fileno(): (SERVER, 1)}
        frames = {source: Frames() for source in ways}
        while ways:
            for source in select.select(list(ways), [], [])[0]:
                name, sink = ways[source]
                data = os.read(source, 1 << 16)
                if not data:
                    del ways[source]
                    if name == EDITOR:
                        server.stdin.close()
                    continue
                frames[source].feed(data)
                write_down(record, name, frames[source])
                write_all(sink, data)
    return server.returncode


def write_down(record: Path, name: str, frames: Frames) -> None:
    """Writes down the messages that have come whole."""
    with record.open("a", encoding="utf-8") as file:
        while (body := frames.body()) is not None:
            file.write(json.dumps({name: json.loads(body)}, ensure_ascii=False) + "\n")


def neovim(server: list[str], file: Path) -> list[str]:
    """The words that start Neovim, which plays, and ends."""
    words = ["nvim", "--headless", "-u", "NONE", "-i", "NONE", "--cmd", f"let g:paris_command = {json.dumps(server)}"]
    words += ["--cmd", f"set noswapfile runtimepath^={EDITORS}/vim,{EDITORS}/neovim | runtime plugin/paris.lua"]
    return [*words, "--cmd", "filetype plugin on", str(file), "-c", f"luafile {SESSIONS}/play.lua", "-c", "qa!"]


def emacs(server: list[str], file: Path) -> list[str]:
    """The same of Emacs."""
    command = " ".join(json.dumps(word) for word in server)
    words = ["emacs", "--batch", "-q", "--eval", "(package-initialize)", "-L", str(EDITORS / "emacs")]
    return [
        *words,
        "--eval",
        f"(setq paris-mode-server '({command}))",
        "-l",
        f"{SESSIONS}/play.el",
        "-f",
        "play",
        str(file),
    ]


PLAYERS: dict[str, Callable[[list[str], Path], list[str]]] = {"neovim": neovim, "emacs": emacs}


def recorded(name: str) -> str:
    """The record of an editor in which it is played."""
    with tempfile.TemporaryDirectory() as folder:
        record, file = Path(folder) / "record", Path(folder) / "home" / "sum.paris"
        file.parent.mkdir()
        file.write_text(TEXT)
        server = [sys.executable, str(Path(__file__).resolve()), RELAY, str(record), str(ROOT / "paris"), "lsp"]
        words = PLAYERS[name](server, file)
        environment = {**os.environ, "PYTHONPATH": str(ROOT / "python"), "HOME": folder}
        subprocess.run(words, cwd=file.parent, env=environment, stdin=subprocess.DEVNULL, check=True, timeout=PATIENCE)
        lines = record.read_text(encoding="utf-8").replace(str(file.parent), HOME).splitlines()
    return "".join(f"{without_process(line)}\n" for line in lines)


def without_process(line: str) -> str:
    """A line of a record in which no process is named."""
    message = json.loads(line)
    params = message.get(EDITOR, {}).get("params")
    if isinstance(params, dict) and "processId" in params:
        params["processId"] = None
    return json.dumps(message, ensure_ascii=False, sort_keys=True)


def main(words: list[str]) -> int:
    """Records the editors that are named, or both; or is the relay of one."""
    if words[:1] == [RELAY]:
        return relay(Path(words[1]), words[2:])
    for name in words or PLAYERS:
        text = recorded(name)
        (SESSIONS / f"{name}.jsonl").write_text(text, encoding="utf-8")
        print(f"{name}: {len(text.splitlines())} messages")
    return 0


if __name__ == "__main__":
    sys.exit(main(sys.argv[1:]))
