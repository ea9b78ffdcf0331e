"""The one task that reads a log and appends to it. Who has something to enter puts it into the
queue; all that waits is looked at, appended together, and answered each for itself.

At most once stands here: a key that is in the log, or on its way, is not appended again, and who
sends it again gets its answer.
"""

import asyncio
import contextlib
from collections import defaultdict, deque
from collections.abc import Sequence

from ucl_hall.engine.answers import Reply
from ucl_hall.engine.live import Live
from ucl_hall.faults import Fault, Lost, MaybeEntered, NotEntered
from ucl_hall.record.log import Entry, Key, Log
from ucl_hall.record.sending import Outcome, Sending, outcome_of

# The most rows of one append, and the most answers that are kept of a sender.
MOST_ROWS, MOST_ANSWERS = 50, 1_000
# How often a log is looked at, in seconds. A watch by inotify would tell sooner, but nothing of
# what another machine writes, and there are only so many: so there would be this look beside it.
LOOK = 0.2


class Result:
    """What comes of so many rows as are `wanted`, once they are in the log."""

    def __init__(self) -> None:
        self.wanted, self._outcomes = 0, list[Outcome]()
        self.future: asyncio.Future[Sequence[Outcome]] = asyncio.get_running_loop().create_future()

    def add(self, *outcomes: Outcome) -> None:
        """Notes what has come of some of them."""
        self._outcomes += outcomes
        if len(self._outcomes) >= self.wanted and not self.future.done():
            self.future.set_result(self._outcomes)

    def fail(self, fault: BaseException) -> None:
        """Notes why nothing comes of them."""
        if not self.future.done():
            self.future.set_exception(fault)
            self.future.exception()  # whoever waits for it may have gone


class Writer:
    """What waits to be appended to a log, and what is in it and waits for the child."""

    def __init__(self, log: Log, live: Live) -> None:
        self._log, self._live = log, live
        self._queue, self._woken = deque[Sending](), asyncio.Event()
        # By their keys, of each sender apart, and by the number of a row.
        self._results = defaultdict[int, dict[Key, Result]](dict)
        self._rows: dict[int, Result] = {}
        live.listen(self._heard)
        live.over.add_done_callback(lambda _: self._woken.set())
        self._is_settled = False

    async def enter(self, sending: Sending) -> Sequence[Outcome]:
        """What comes of it, once it is in and answered: for one key always the same."""
        if self._live.over.done():
            self._live.over.result()
        if sending.key not in self._results[sending.key[0]]:
            self._queue.append(sending)
            self._woken.set()
        future = self._result(sending.key).future
        # Who is cancelled leaves it to others who ask.
        await asyncio.wait([future])
        return future.result()

    async def read(self) -> None:
        """Hands what has come to the child."""
        self._take(await self._log.read())

    async def settle(self) -> None:
        """Ends a last line that was cut off, where it can be ended now.

        A row that lacks its end alone is there, so it is known before the same row comes again.
        """
        self._is_settled = True
        await self._append([])
        self._log.watch(self._woken.set)

    async def run(self) -> None:
        """Reads and appends, until the log or the child can be followed no more; then closes the
        log, whose lock it may hold."""
        over: BaseException = asyncio.CancelledError()
        try:
            while True:
                with contextlib.suppress(TimeoutError):
                    async with asyncio.timeout(LOOK):
                        await self._woken.wait()
                self._woken.clear()
                if self._live.over.done():
                    self._live.over.result()
                await self.read()
                while self._queue:
                    await self._append(self._batch())
        except Exception as fault:  # whatever it is, who uses the record has to know
            over = fault
            self._live.child.fail(fault)
        finally:
            for result in [it for own in self._results.values() for it in own.values()]:
                result.fail(over)
            await self._log.close()

    def _result(self, key: Key) -> Result:
        """The answer to what has this key; the oldest of a sender are forgotten."""
        own = self._results[key[0]]
        if key not in own:
            oldest = next(iter(own), key)
            if len(own) >= MOST_ANSWERS and own[oldest].future.done():
                del own[oldest]
            own[key] = Result()
        return own[key]

    def _batch(self) -> list[Sending]:
        """All that waits, up to what is appended alone."""
        batch = [self._queue.popleft()]
        rows = len(batch[0].entries)
        while self._queue and not (batch[-1].is_alone or self._queue[0].is_alone):
            rows += len(self._queue[0].entries)
            if rows > MOST_ROWS:
                break
            batch.append(self._queue.popleft())
        return batch

    async def _append(self, batch: list[Sending]) -> None:
        """Appends what holds, until each is in the log or has its answer."""
        try:
            while True:
                batch = await self._left(batch)
                came = await self._log.append([it for each in batch for it in each.entries])
                # If others were first it is looked again, at the board behind their rows.
                self._take(came)
                if not came:
                    return
        except (NotEntered, MaybeEntered) as fault:
            for sending in batch:
                self._result(sending.key).fail(fault)

    async def _left(self, batch: list[Sending]) -> list[Sending]:
        """What of it is not in the log, and holds on the board once all rows are answered."""
        left = []
        for sending in batch:
            result = self._result(sending.key)
            if result.wanted or result.future.done():
                continue
            await self._live.ready()
            try:
                outcomes = await self._known(sending) or await sending.look(self._live)
            except Fault as fault:
                result.fail(fault)
                continue
            if outcomes or not sending.entries:
                result.add(*outcomes)
            else:
                left.append(sending)
        return left

    async def _known(self, sending: Sending) -> Sequence[Outcome]:
        """What came of it before this program began to follow the log, if it is in. Raises Lost."""
        rows = self._log.rows_of(sending.key)
        if rows is None:
            return []
        if not rows:
            raise Lost
        return await self._live.came_of(rows)

    def _take(self, entries: Sequence[Entry]) -> None:
        """Hands rows to the child, whose replies answer what they were sent by."""
        for entry in entries:
            number = self._live.feed(entry.row) if entry.row else 0
            if entry.key is None or not self._is_settled:
                continue
            result = self._result(entry.key)
            if number:
                self._rows[number] = result
                result.wanted += 1
            else:
                result.fail(Lost())

    def _heard(self, reply: Reply) -> None:
        if reply.row in self._rows:
            self._rows.pop(reply.row).add(outcome_of(reply))
