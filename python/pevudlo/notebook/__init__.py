"""Cells of a notebook as pieces of one program: `%load_ext pevudlo.notebook`, and then `%%paris NAME`."""

from __future__ import annotations

from typing import Any


def load_ipython_extension(shell: Any) -> None:
    """Adds the magics to a shell of IPython, which calls this."""
    from pevudlo.notebook.magic import Magic

    Magic(shell).register()
