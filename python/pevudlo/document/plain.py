"""What changed behind each update, in lines: for logs and screen readers."""

from __future__ import annotations

import time
from collections import Counter
from collections.abc import Callable, Iterator

from pevudlo.document.answers import mark_of
from pevudlo.document.document import Document
from pevudlo.document.marks import headline, note_on
from pevudlo.document.meaning import Shown
from pevudlo.document.pieces import Kind
from pevudlo.document.states import State
from pevudlo.document.update import Update
from pevudlo.draw.visible import visible

MOST_TOLD = 200
"""Of how many lines it is told behind one update."""


class Plain:
    """Tells of each row that was touched, each line that is refused newly or whose row is gone newly, or looks at other
    values than before.
    """

    def __init__(self, document: Document, say: Callable[[str], None]) -> None:
        self._document, self._say = document, say
        self._fates = Counter[tuple[str, str]]()
        self._noted: set[str] = set()
        self._looks: dict[tuple[str, int], str] = {}

    def show(self, done: Update) -> None:
        """Tells of an update."""
        document = self._document
        self._say(visible(headline(document, done)))
        told = 0
        for number, words in self._news(done):
            told += 1
            if told > MOST_TOLD:
                self._say(f"  lines from {number + 1} on aren't told of, since they are too many")
                break
            self._say(f"  {number + 1}: {visible(document.lines[number])}: {visible(words)}")
        fates = ((line, fate_of(shown)) for line, shown in zip(document.lines, document.shown))
        self._fates = Counter(each for each in fates if each[1])

    def trouble(self, words: str) -> None:
        """Tells why there is nothing new."""
        self._say(visible(words))

    def rest(self, seconds: float) -> bool:
        """Waits so long. Nobody ends it here."""
        time.sleep(seconds)
        return True

    def _news(self, done: Update) -> Iterator[tuple[int, str]]:
        """The lines with something new to tell, and the words. Looks are asked for as far as they are told."""
        document = self._document
        looks, self._looks = self._looks, {}
        noted, self._noted = self._noted, set()
        known = Counter() if done.fresh else self._fates.copy()
        for number, shown in enumerate(document.shown):
            if fate := fate_of(shown):
                at_all = document.lines[number], fate
                known[at_all] -= 1
                if known[at_all] < 0:
                    yield number, mark_of(document, number, done).text
            elif shown.row is not None and shown.row.book in done.touched:
                mark = mark_of(document, number, done)
                same = ", the same as before" if mark.state is State.SAME else ""
                yield number, mark.text + same
            elif note := note_on(document, number):
                self._noted.add(document.lines[number])
                if document.lines[number] not in noted or done.fresh:
                    yield number, note
            elif shown.kind is Kind.SHOW and len(self._looks) < MOST_TOLD:
                at = shown.key, shown.anchor.book if shown.anchor is not None else 0
                self._looks[at] = words = mark_of(document, number, done).text
                if looks.get(at) != words or done.fresh:
                    yield number, words


def fate_of(shown: Shown) -> str:
    """Why a line isn't in the program as it stands: its refusal, or what became of its row. Else nothing."""
    return shown.refused or (shown.former.change.value if shown.former is not None else "")
