"""Syntax files for the editor Vim, which python/tools/make-docs writes from the tables of commands and instructions."""

from __future__ import annotations

from collections.abc import Iterable

from pevudlo.lang.grammar import PROFILE_COMMAND, commands
from pevudlo.lang.instructions import FLAGS, INSTRUCTIONS

NOTE = "\" Made by python/tools/make-docs: don't edit."

FTDETECT = f"""{NOTE}
autocmd BufRead,BufNewFile *.paris setfiletype paris
"""

COLOURS = {
    "Error": "Error",
    "Comment": "Comment",
    "Command": "Statement",
    "Place": "Keyword",
    "Instruction": "Function",
    "Flag": "Identifier",
    "Word": "Constant",
    "Number": "Number",
}
"""The groups of words, each with the group of Vim that gives it its colour."""

IN_ROW = r"\%(^insert start \|^insert end \|^insert after \d\+ \|^replace \d\+ \)\@<="
"""Just behind the place of a row, where an instruction begins."""

WORD_ENDS = r"\%( \|$\)\@="

HEAD = r"\%^\%(\%(#.*\)\=\n\)*" + PROFILE_COMMAND + r"\%( .*\)\=$"
"""The lines up to the first command, where it is the one that no other line may be."""

MOST_ABOVE = 200
"""So many lines above those that are drawn Vim looks at, to see whether it is among these."""


def alternatives(words: Iterable[str]) -> str:
    """A choice of words for a pattern of Vim, the longer ones first."""
    return r"\%(" + r"\|".join(sorted(words, key=lambda word: (-len(word), word))) + r"\)"


def patterns() -> list[tuple[str, str]]:
    """Each group with a pattern. Where two begin at the same place, the later one counts."""
    words = ("upward", "downward", "inclusive", "exclusive", "none")
    return [
        # What is no command, and no instruction where one has to stand.
        ("Error", r"^.\+$"),
        ("Error", IN_ROW + r"[^ ]\+"),
        ("Comment", r"^#.*$"),
        ("Command", "^" + alternatives(commands(is_first=False)) + WORD_ENDS),
        ("Place", r"\%(^insert \)\@<=\%(start\|after\|end\) \@="),
        ("Place", r"\%(^show [^ ]\+ \)\@<=\%(start$\|after \@=\|end$\)"),
        ("Instruction", IN_ROW + alternatives(INSTRUCTIONS) + WORD_ENDS),
        ("Flag", r" \@<=\a[0-9A-Za-z_-]*\." + alternatives(FLAGS) + WORD_ENDS),
        ("Word", r" \@<=" + alternatives(words) + WORD_ENDS),
        ("Number", r" \@<=\d\+\%(x\d\+\)*" + WORD_ENDS),
        # Two spaces, a space at the end, tabs and carriage returns.
        ("Error", r"  \+\| $\|[\t\r]"),
    ]


def syntax() -> str:
    """The syntax file."""
    lines = [
        '" Scripts of Paris instructions: lines of commands and comments.',
        NOTE,
        'if exists("b:current_syntax")',
        "  finish",
        "endif",
        "syntax case match",
        "",
        *(f"syntax match paris{group} /{pattern}/" for group, pattern in patterns()),
        f"syntax match parisCommand /^{PROFILE_COMMAND}{WORD_ENDS}/ contained",
        f"syntax match parisHead /{HEAD}/ contains=parisError,parisComment,parisCommand,parisNumber",
        f"syntax sync minlines={MOST_ABOVE}",
        "",
        *(f"highlight default link paris{group} {colour}" for group, colour in COLOURS.items()),
        "",
        'let b:current_syntax = "paris"',
    ]
    return "".join(f"{line}\n" for line in lines)


def files() -> dict[str, str]:
    """Each file's path below the top of the repository, with its text."""
    return {"editors/vim/syntax/paris.vim": syntax(), "editors/vim/ftdetect/paris.vim": FTDETECT}
