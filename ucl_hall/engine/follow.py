"""The program `ucl_follow` as a supervised child: lines of a group go in, as they come, and ever
newer moments come out, whatever became of the lines on their way.

A run that begins anew is given what was last shown, and the last lines; what was shown before is
not handed on again.
"""

import asyncio
from collections import deque
from collections.abc import Callable

from ucl_hall.engine.answers import Moment, Reply
from ucl_hall.engine.json_lines import NoAnswer, answer_of
from ucl_hall.engine.process import Child
from ucl_hall.faults import UnknownShown

# How many lines are kept for a run that begins anew: more than wait anywhere to be read.
MOST_KEPT = 400


class Follow:
    """A `ucl_follow` of one group."""

    def __init__(self, program: str, letter: str) -> None:
        words = program, "--format", "json", "--group", letter
        self._child = Child(words, self._begin, self._take)
        self._listeners: list[Callable[[Reply], None]] = []
        self._kept = deque[bytes](maxlen=MOST_KEPT)
        self._shown: Moment | None = None

    async def start(self) -> None:
        """Starts the child. Raises NotStarted."""
        await self._child.start()

    @property
    def over(self) -> asyncio.Future[None]:
        """Gets the fault by which the child can go on no more."""
        return self._child.over

    @property
    def moment(self) -> Moment:
        """The newest moment that was shown; it is asked for once there is one."""
        assert self._shown is not None
        return self._shown

    @property
    def has_shown(self) -> bool:
        """Whether there is a moment."""
        return self._shown is not None

    def listen(self, listener: Callable[[Reply], None]) -> None:
        """Has a listener called with each newer moment from now on."""
        self._listeners.append(listener)

    async def feed(self, line: bytes) -> None:
        """Hands a line to the child, once that has read most of those before it."""
        await self._child.room()
        if self.over.done():
            return
        self._kept.append(line)
        self._child.write(line + b"\n")

    async def end(self) -> None:
        """Ends the child."""
        await self._child.end()

    def _begin(self) -> bytes:
        known = [] if self._shown is None else [self._shown.line]
        return b"".join(line + b"\n" for line in [*known, *self._kept])

    def _take(self, line: bytes) -> bool:
        """Takes a line that was shown."""
        try:
            moment = answer_of(line)
        except NoAnswer as error:
            raise UnknownShown(line[:80]) from error
        if not isinstance(moment, Moment):
            raise UnknownShown(line[:80])
        if self._shown is not None and moment.age <= self._shown.age:
            return False
        self._shown = moment
        for listener in self._listeners:
            listener(Reply(moment, moment))
        return True
