"""What the prompt answers to a line."""

from __future__ import annotations

from collections.abc import Callable, Sequence
from pathlib import Path

from pevudlo.draw.visible import visible
from pevudlo.explain.words import ending
from pevudlo.explain.writers import Tally
from pevudlo.files import path_of, read_lines, why, write_lines
from pevudlo.progress import Progress, progress
from pevudlo.prompt.columns import fitting
from pevudlo.prompt.help import OWN, help_for, own_word_for
from pevudlo.prompt.lines import Reader
from pevudlo.prompt.session import OverProgram, Session, Stopped
from pevudlo.prompt.show import WAYS, View, answer_lines, is_told
from pevudlo.reference.text import WIDTH
from pevudlo.running.words import settled_words

BACKGROUND = ("undo", "redo", "start", "stop")


def shortened(line: str) -> str:
    """A line, or its beginning where it is long."""
    return visible(line if len(line) <= 100 else line[:97] + "...")


class Prompt:
    """Answers lines. `show` gets each line of text that is answered.

    `columns` says how wide the terminal is now, which lines have to fit; None is no terminal. One that isn't quiet says
    how far it is, on standard error.
    """

    def __init__(
        self,
        session: Session,
        show: Callable[[str], None],
        may_warn: bool,
        columns: Callable[[], int | None] = lambda: None,
        is_quiet: bool = True,
    ) -> None:
        self.session = session
        self.view = View()
        self._show = show
        self._columns = columns
        self._is_quiet = is_quiet
        self._may_warn = may_warn
        self._asked = ""

    def say(self, *lines: str) -> None:
        """Shows lines of text, each in as many lines as it wants."""
        columns = self._columns()
        for line in lines:
            for part in [line] if columns is None else fitting(line, columns):
                self._show(part)

    def handle(self, line: str) -> bool:
        """Answers one line. Whether the prompt goes on."""
        word, _, rest = line.partition(" ")
        if line in ("quit", "exit"):
            return not self.may_drop("ends the prompt")
        if line != "new":
            self._asked = ""
        try:
            if word in WAYS:
                self.show_by(word, rest)
            elif word in BACKGROUND and not rest:
                self.run_by_itself(word)
            elif word in OWN:
                self.own(word, rest)
            else:
                self.tell(line)
        except Stopped as stopped:
            self.say(f"no program runs: {stopped}", self.kept_words())
        except MemoryError as error:
            self.say(str(error))
        return True

    def run_by_itself(self, word: str) -> None:
        """Takes edits back, or has rows run by themselves."""
        session = self.session
        try:
            if word in ("undo", "redo"):
                line = session.undo() if word == "undo" else session.redo()
                self.say(f"{'taken back' if word == 'undo' else 'made again'}: {shortened(line)}")
            elif word == "start":
                session.go_on()
                self.say("rows run by themselves from now on")
            else:
                session.stop()
                self.say(self.progress_words())
        except IndexError as error:
            self.say(str(error))
        except OverProgram:
            self.say(f"`{word}` is of the library, and a program answers here")

    def progress_words(self) -> str:
        """How many rows are settled."""
        background = self.session.background
        return "" if background is None else settled_words(background.progress)

    def interrupted(self) -> None:
        """Says what Ctrl-C has left."""
        self.session.interrupt()
        if self.session.background is None:
            self.say("", "no program runs: it was interrupted", self.kept_words())
        else:
            self.say("", f"stopped: {self.progress_words()}")

    def may_drop(self, what: str) -> bool:
        """Whether the accepted commands may be dropped: at once where all are saved, else when it is asked twice."""
        if self.session.is_saved or self._asked == what or not self._may_warn:
            return True
        self._asked = what
        self.say(f"{self.count_words()} not saved: `save FILE` saves them, and the same once more {what}")
        return False

    def count_words(self) -> str:
        """How many commands were accepted."""
        count = self.session.commands
        return "1 accepted command is" if count == 1 else f"{count} accepted commands are"

    def kept_words(self) -> str:
        """What can be done after the program has ended."""
        return f"{self.count_words()} kept: `again` starts the program with them, `save FILE` saves them"

    def own(self, word: str, rest: str) -> None:
        """Answers a word of the prompt's own, but for ways to show and `quit`."""
        if word == "help":
            columns = self._columns()
            self.say(*help_for(rest.strip(), WIDTH if columns is None else min(WIDTH, columns - 2)))
        elif word in ("load", "save") and rest:
            (self.load if word == "load" else self.save)(path_of(rest))
        elif word == "again" and not rest:
            with progress(self._is_quiet) as told:
                self.session.start(told)
            self.say(f"the program is started again, and {self.count_words()} told")
        elif word == "new" and not rest:
            if self.may_drop("begins anew"):
                self._asked = ""
                self.session.begin()
                self.say("nothing is declared")
        else:
            self.say(f"it is written `{OWN[word].spelling}`")

    def tell(self, line: str) -> None:
        """Tells the program a line, and shows its reply."""
        with progress(self._is_quiet) as told:
            answer = self.session.tell(line, told)
        if answer is None:
            return
        self.say(*answer_lines(answer, self.session.board, self.view, self._columns()))
        near = own_word_for(line.split(" ")[0])
        if answer.explanation is not None and answer.explanation.column == 1 and near is not None:
            self.say(f"  did you mean the prompt's own word `{near}`? It is written `{OWN[near].spelling}`")

    def show_by(self, way: str, rest: str) -> None:
        """Shows values in a way from now on, or one key once."""
        view = self.view.by(way)
        if not rest:
            self.view = view
            self.say(view.words())
            return
        line = f"show {rest}" if " " in rest else f"show {rest} end"
        answer = self.session.tell(line)
        if answer is not None:
            self.say(*answer_lines(answer, self.session.board, view, self._columns()))

    def load(self, path: Path) -> None:
        """Tells the lines of a file. Says what was refused, and what the file shows."""
        name = visible(str(path))
        try:
            lines = read_lines(path)
        except (OSError, ValueError) as error:
            self.say(f"can't read {name}: {why(error)}")
            return
        was_empty = not self.session.accepted
        tally = Tally()
        try:
            with progress(self._is_quiet) as told:
                self._tell_all(name, lines, tally, told)
        finally:
            self.say(f"{name}: {ending(tally.commands, tally.refused, self.session.faults(), False)}")
        if was_empty:
            self.session.saved = list(self.session.accepted)

    def _tell_all(self, name: str, lines: Sequence[str], tally: Tally, told: Progress) -> None:
        """Tells the lines of a file of this name, counts them, and says what is worth a line."""
        for number, answer in self.session.tell_all(lines, told):
            tally.count(number, answer, False)
            if is_told(answer, self.session.board):
                head, *more = answer_lines(answer, self.session.board, self.view, self._columns())
                with told.aside():
                    self.say(f"{name}:{number}: {head}", *more)

    def save(self, path: Path) -> None:
        """Saves the accepted commands."""
        self.session.complete()
        try:
            write_lines(path, self.session.accepted)
        except (OSError, ValueError) as error:
            self.say(f"can't write {visible(str(path))}: {why(error)}")
            return
        self.session.saved = list(self.session.accepted)
        self.say(f"{visible(str(path))}: {self.count_words()} saved")


def talk(prompt: Prompt, reader: Reader) -> None:
    """Reads lines and answers them until their end, or until `quit`."""
    goes_on = True
    while goes_on:
        try:
            line = reader.read()
        except KeyboardInterrupt:
            # The line is dropped, and a new one begins.
            prompt.say("")
            continue
        try:
            goes_on = prompt.handle("quit" if line is None else line)
        except KeyboardInterrupt:
            prompt.interrupted()
        if not prompt.session.is_running:
            reader.drop()
