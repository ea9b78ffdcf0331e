"""What is sent to be entered at most once: events of a reporter, or a mend.

An id tells that it was sent before. After a new start nobody knows ids any more, and the events
that stand tell: the one at the expected number, by the same reporter, is the one that was sent.
"""

import secrets
from collections.abc import Sequence
from dataclasses import dataclass, field
from enum import Enum

from ucl_hall.engine.answers import Accepted, Answer, Line, Match, Reply
from ucl_hall.engine.history import Event
from ucl_hall.engine.live import Live
from ucl_hall.engine.trial import Changed, Trial
from ucl_hall.faults import Dropped
from ucl_hall.record.log import Entry, Key
from ucl_hall.rows import Row


@dataclass(frozen=True, slots=True)
class Entered:
    """An event that came in: its row, and its match as it stood then."""

    row: Line
    match: Match


# What comes of a row: it came in, it has stood since before, or what else is answered to it.
Outcome = Entered | Event | Answer


def outcome_of(reply: Reply) -> Outcome:
    """What came of a row, by the reply to it."""
    answer, screen = reply.answer, reply.screen
    if isinstance(answer, Accepted) and screen is not None:
        return Entered(answer.row, screen.match(answer.event.match))
    return answer


def new_id() -> str:
    """An id that nobody has used."""
    return secrets.token_hex(16)


class Way(Enum):
    """Sent first, or again; or asked about, after which it is not entered any more."""

    FIRST, AGAIN, ASKED = range(3)


@dataclass(frozen=True, slots=True)
class Events:
    """Events of a reporter, as the board of this edition was seen."""

    reporter: int
    rows: Sequence[Row]
    edition: int
    way: Way = Way.FIRST
    id: str = field(default_factory=new_id)

    @property
    def key(self) -> Key:
        """The id among those of its reporter: no other can ask by it, or use it up."""
        return self.reporter, self.id

    @property
    def entries(self) -> list[Entry]:
        """The rows as the record has them; a mark where it is only asked about."""
        if self.way is Way.ASKED:
            return [Entry(b"", self.key)]
        return [Entry(row.line(self.reporter), self.key) for row in self.rows]

    @property
    def is_alone(self) -> bool:
        """Whether what is sent beside it is appended before or after it."""
        return self.way is not Way.FIRST

    async def look(self, live: Live) -> Sequence[Outcome]:
        """What comes of it, or nothing where it is to be appended. Raises Dropped."""
        stands = self._standing(live) if self.way is not Way.FIRST else []
        if self.edition != live.moment.edition and not (stands and self.way is Way.AGAIN):
            raise Dropped(live.moment.edition)
        return stands

    def _standing(self, live: Live) -> Sequence[Event]:
        """The events that stand where these rows enter them, if all of them do."""
        found = [live.history.found(self.reporter, row) for row in self.rows]
        stands = [event for event in found if event is not None]
        return stands if len(stands) == len(found) else []


@dataclass(frozen=True, slots=True)
class Mend:
    """A change, and what it was agreed upon to do."""

    agreed: Trial
    id: str = field(default_factory=new_id)
    is_alone: bool = True

    @property
    def key(self) -> Key:
        """The id among those of mends."""
        return 0, self.id

    @property
    def entries(self) -> list[Entry]:
        """Its row."""
        return [Entry(self.agreed.row, self.key)]

    async def look(self, live: Live) -> Sequence[Outcome]:
        """Raises Changed where it would do something else by now, MendRefused, and Over."""
        if live.moment.age != self.agreed.before.age:
            now = await live.trial(self.agreed.change)
            if not now.is_as(self.agreed):
                raise Changed(now)
        return []


Sending = Events | Mend
