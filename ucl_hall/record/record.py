"""A record: a log of rows, and the `ucl_live` that answers each of them. It is a `Board`."""

import asyncio
from collections.abc import Callable, Sequence

from ucl_hall.engine.answers import Moment, Reply
from ucl_hall.engine.history import Event
from ucl_hall.engine.live import Live
from ucl_hall.engine.trial import Change, Trial
from ucl_hall.faults import NoBoard, Over
from ucl_hall.record import places
from ucl_hall.record.log import Log
from ucl_hall.record.sending import Outcome, Sending
from ucl_hall.record.writer import Writer


class Record:
    """A record that is followed: `open` or `of` makes one, and `close` ends it."""

    def __init__(self, log: Log, program: str) -> None:
        self._log, self._live = log, Live(program)
        self._writer = Writer(log, self._live)
        self._writing: asyncio.Task[None] | None = None

    @classmethod
    async def open(
        cls, path: str, program: str, *, is_read_only: bool = False, is_durable: bool = False
    ) -> "Record":
        """Opens a file, or a log in etcd, reads it, and follows it from then on.

        A last line in which a write was cut off gets its end, unless it is only read.
        With `is_durable` nothing is told of a row before the disk has it, whoever appended it.
        Raises OSError where the file can not be opened, and Over where it is no record or is on a
        share.
        """
        log = await places.opened(path, is_read_only=is_read_only, is_durable=is_durable)
        return await cls.of(log, program)

    @classmethod
    async def of(cls, log: Log, program: str) -> "Record":
        """Follows a log, which it closes at its end. Raises Over where its rows are no record."""
        record = cls(log, program)
        try:
            await record._begin()
        except BaseException:
            await record.close()
            raise
        return record

    async def _begin(self) -> None:
        await self._writer.read()
        try:
            await self._live.start()
        except Over as fault:
            raise NoBoard(self._log.name, fault) from fault
        await self._writer.settle()
        self._writing = asyncio.create_task(self._writer.run())

    async def close(self) -> None:
        """Ends following the record. What is being written is written whole first."""
        if self._writing is not None:
            self._writing.cancel()
            await asyncio.gather(self._writing, return_exceptions=True)
        else:
            await self._log.close()
        await self._live.child.end()

    @property
    def moment(self) -> Moment:
        return self._live.moment

    @property
    def is_there(self) -> bool:
        """Whether it is followed, and the moment is all that there was a second ago."""
        return self._log.is_there and not self.over.done()

    @property
    def keeps_keys(self) -> bool:
        """Whether all who follow it know what was sent."""
        return self._log.keeps_keys

    @property
    def over(self) -> asyncio.Future[None]:
        return self._live.over

    def listen(self, listener: Callable[[Reply], None]) -> None:
        self._live.listen(listener)

    def events(self, match: int) -> Sequence[Event]:
        return self._live.history.of(match)

    async def ready(self) -> None:
        await self._live.ready()

    async def enter(self, sending: Sending) -> Sequence[Outcome]:
        return await self._writer.enter(sending)

    async def trial(self, change: Change) -> Trial:
        return await self._live.trial(change)
