"""A group that is shown, wherever its board is: on this machine, or behind another server."""

import abc
import asyncio
from collections.abc import Sequence

from aiohttp import web

from ucl_hall.engine.answers import Moment
from ucl_hall.engine.follow import Follow
from ucl_hall.program import text_of
from ucl_hall.record.record import Record
from ucl_hall.text import warn


# After how many seconds without a word of a board its operator is told; and what is told.
GONE = 5
NOTHING = "nothing is heard of its board"


class Shown(abc.ABC):
    """A group that is shown to whoever looks on. `fault` says why its board can be followed no more;
    it is empty where it can."""

    def __init__(self, letter: str, board: Record | Follow) -> None:
        self.letter, self.fault, self._board = letter, "", board
        self._is_gone = False
        board.over.add_done_callback(self._end)

    @property
    def moment(self) -> Moment:
        """The newest moment that is here."""
        return self._board.moment

    @property
    @abc.abstractmethod
    def silence(self) -> int:
        """For how many seconds nothing is known of its board; 0 while it is there."""

    @abc.abstractmethod
    def tonight(self) -> list[int] | None:
        """The matches of the evening, where somebody has named them."""

    @abc.abstractmethod
    def more(self) -> dict[str, object]:
        """What whoever watches it is told besides."""

    def health(self) -> dict[str, object]:
        """What whoever watches it is told."""
        age = {"edition": self.moment.edition, "version": self.moment.version}
        silence = self.silence
        fault = self.fault or (NOTHING if silence else "")
        return {**age, "is_there": not silence, **self.more(), "fault": fault}

    def look(self) -> None:
        """Tells the operator that nothing is heard of the board, and that it is there again."""
        is_gone = self.silence > GONE
        if is_gone != self._is_gone and not self.fault:
            self._is_gone = is_gone
            warn(f"ucl_serve: group {self.letter}: {NOTHING if is_gone else 'it is there again'}")

    def _end(self, over: asyncio.Future[None]) -> None:
        if not over.cancelled():
            self.fault = text_of(over.exception())
            warn(f"ucl_serve: group {self.letter}: {self.fault}")


def asked(request: web.Request, groups: Sequence[Shown]) -> list[Shown]:
    """The groups that a request asks for by `?group=`, or all.

    Raises that there is no such group.
    """
    letter = request.query.get("group")
    found = [group for group in groups if letter in (None, group.letter)]
    if letter is not None and not found:
        letters = ", ".join(sorted(group.letter for group in groups)) or "none yet"
        raise web.HTTPNotFound(text=f"there is no such group here: {letters}\n")
    return found
