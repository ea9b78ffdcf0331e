"""A board, as terminals and servers use it, wherever its record is."""

import asyncio
from collections.abc import Callable, Sequence
from typing import Protocol

from ucl_hall.engine.answers import Moment, Reply
from ucl_hall.engine.history import Event
from ucl_hall.engine.trial import Change, Trial
from ucl_hall.record.sending import Outcome, Sending


class Board(Protocol):
    """A board that is followed."""

    @property
    def moment(self) -> Moment:
        """The moment that stands, as far as is known here."""

    @property
    def over(self) -> asyncio.Future[None]:
        """It gets the fault by which the board can be followed no more, and never a result."""

    def listen(self, listener: Callable[[Reply], None]) -> None:
        """Has a listener called with each reply from now on."""

    def events(self, match: int) -> Sequence[Event]:
        """The events of a match that stand, oldest first."""

    async def ready(self) -> None:
        """Waits until the events that stand are known. Raises Over."""

    async def enter(self, sending: Sending) -> Sequence[Outcome]:
        """Enters it, or says what became of it: for one id always the same.

        Raises Dropped where another edition has begun, Lost where it was asked about and is not
        in, Changed and MendRefused of a mend that would do something else than was agreed upon,
        NotEntered where nothing of it is in, MaybeEntered where nobody can tell, and Over.
        """

    async def trial(self, change: Change) -> Trial:
        """What a change would do. Raises MendRefused, NotEntered where this is no place for it,
        and Over."""

    async def close(self) -> None:
        """Ends following it."""
