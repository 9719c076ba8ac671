"""Seats: who may come, and by which token."""

from __future__ import annotations

import json
import secrets
import unicodedata
from collections.abc import Callable, Iterator
from dataclasses import dataclass, field
from enum import Enum

from pevudlo.serve.limits import MESSAGES, TEACHING, Bucket, Limits, Refused

TOKEN_BYTES = 24
MOST_LETTERS = 40
"""So many letters a name has at most."""


class Kind(Enum):
    """What a seat may do."""

    STUDENT = "student"
    LOOKING = "looking"
    TEACHER = "teacher"


@dataclass(eq=False)
class Seat:
    """A place for one person. One that is closed lets nobody in. `is_taken` says that somebody has joined there.

    Edits are taken from its `bucket`, and all that is asked from its `messages`.
    """

    number: int
    name: str
    kind: Kind
    limits: Limits = field(default_factory=Limits)
    token: str = field(default_factory=lambda: secrets.token_urlsafe(TOKEN_BYTES))
    is_closed: bool = False
    is_taken: bool = False
    bucket: Bucket = field(init=False)
    messages: Bucket = field(init=False)

    def __post_init__(self) -> None:
        self.bucket = Bucket(self.limits)
        self.messages = Bucket(MESSAGES, what="messages")

    @property
    def may_edit(self) -> bool:
        """Whether it may change a program."""
        return self.kind is not Kind.LOOKING

    @property
    def teaches(self) -> bool:
        """Whether it is the seat of who teaches."""
        return self.kind is Kind.TEACHER


def cleaned(name: str) -> str:
    """A name that people wrote, of letters that can be seen. Raises Refused where nothing is left."""
    seen = "".join(letter if letter.isprintable() else " " for letter in unicodedata.normalize("NFC", name))
    words = " ".join("".join(letter for letter in seen if unicodedata.category(letter) != "Cf").split())
    if not words:
        raise Refused("a name has letters")
    return words[:MOST_LETTERS].strip()


class Seats:
    """All seats: who teaches has number 0, and the others are numbered from 1 on.

    `join` is the token of the address at which people write a name. `looking` seats stand behind the students'.
    `changed` is called where a seat is another one now.
    """

    def __init__(self, count: int, looking: int, limits: Limits, names: list[str]) -> None:
        teacher = Seat(0, "Teacher", Kind.TEACHER, TEACHING)
        named = [cleaned(name) for name in names]
        students = [Seat(at, f"Seat {at}", Kind.STUDENT, limits) for at in range(1, count + 1)]
        lookers = [Seat(count + at, f"Looking {at}", Kind.LOOKING, limits) for at in range(1, looking + 1)]
        for seat, name in zip(students, named):
            seat.name, seat.is_taken = name, True
        self.all = [teacher, *students, *lookers]
        self.join = secrets.token_urlsafe(TOKEN_BYTES)
        self.changed: Callable[[], None] = lambda: None

    def __iter__(self) -> Iterator[Seat]:
        return iter(self.all)

    @property
    def teacher(self) -> Seat:
        """The seat of who teaches."""
        return self.all[0]

    @property
    def students(self) -> list[Seat]:
        """The seats that have a program to work on."""
        return [seat for seat in self.all if seat.kind is Kind.STUDENT]

    @property
    def lookers(self) -> list[Seat]:
        """The seats that look alone."""
        return [seat for seat in self.all if seat.kind is Kind.LOOKING]

    def of(self, token: str) -> Seat:
        """The seat of a token. Raises Refused where there is none, or where it is closed."""
        found = None
        for seat in self.all:
            if secrets.compare_digest(seat.token.encode(), token.encode("utf-8", "surrogatepass")):
                found = seat
        if found is None:
            raise Refused("this address is of no seat here: ask for a new one")
        if found.is_closed:
            raise Refused("this seat was closed by who teaches")
        return found

    def sit(self, token: str, name: str) -> Seat:
        """A free seat for who writes a name. Raises Refused for another address, and where all are taken."""
        if not secrets.compare_digest(self.join.encode(), token.encode("utf-8", "surrogatepass")):
            raise Refused("this address is of no class here: ask for a new one")
        wanted = cleaned(name)
        if any(seat.name.casefold() == wanted.casefold() for seat in self.all):
            raise Refused(f"there is a {wanted} already: write another name")
        free = next((seat for seat in self.students if not seat.is_taken and not seat.is_closed), None)
        if free is None:
            raise Refused(f"all {len(self.students)} seats are taken: ask who teaches for one")
        free.name, free.is_taken = wanted, True
        self.changed()
        return free

    def renew(self, seat: Seat) -> None:
        """Gives a seat another token: who came by the old one comes no more."""
        seat.token, seat.is_closed = secrets.token_urlsafe(TOKEN_BYTES), False
        self.changed()

    def close(self, seat: Seat) -> None:
        """Lets nobody in at a seat."""
        seat.is_closed = True
        self.changed()

    def kept(self) -> str:
        """The seats as they are kept, in JSON."""
        told = [[seat.number, seat.name, seat.token, seat.is_closed, seat.is_taken] for seat in self.all]
        return json.dumps({"join": self.join, "seats": told})

    def take_back(self, kept: str) -> None:
        """Gives the seats the names and tokens that they had. Raises ValueError where that is none of theirs."""
        try:
            told = json.loads(kept)
            join, seats = str(told["join"]), {int(number): rest for number, *rest in told["seats"]}
            for seat in self.all:
                if seat.number in seats:
                    name, token, is_closed, is_taken = seats[seat.number]
                    seat.name, seat.token = str(name), str(token)
                    seat.is_closed, seat.is_taken = bool(is_closed), bool(is_taken)
            self.join = join
        except (KeyError, TypeError, ValueError) as error:
            raise ValueError("what is kept of the seats is none of a server's") from error
