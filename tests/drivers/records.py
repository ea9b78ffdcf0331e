"""Records that are opened at whatever place, and what is sent to them."""

import asyncio
import contextlib
from collections.abc import Awaitable, Callable
from typing import Any

import model

from ucl_hall.engine.history import Event
from ucl_hall.record.begin import begin
from ucl_hall.record.record import Record
from ucl_hall.record.sending import Entered, Events, Way
from ucl_hall.rows import Row

BEGUN = "group,B,uefa,0\n" + model.CLUBS
STARTED = BEGUN + "1,1,0,kickoff\n"


def worked(place: str, live: str, work: Callable[..., Awaitable[Any]], count: int = 2) -> Any:
    """Begins a record with a kick-off, opens it so often, as so many servers, and does work with
    them; nothing runs on then."""

    async def all_of_it() -> Any:
        assert await begin(place, live, STARTED.encode())
        async with contextlib.AsyncExitStack() as stack:
            records = []
            for _ in range(count):
                records.append(await Record.open(place, live))
                stack.push_async_callback(records[-1].close)
                await records[-1].ready()
            found = await work(*records)
        for _ in range(200):
            # A connection that was cut off ends in a task of its own.
            if len(asyncio.all_tasks()) > 1:
                await asyncio.sleep(0.01)
        assert len(asyncio.all_tasks()) == 1
        return found

    return asyncio.run(all_of_it())


def tap(number: int, way: Way = Way.FIRST, match: int = 1, reporter: int = 1) -> Events:
    """An event with this number in its match."""
    row = Row(match, number, "yellow-home" if number else "kickoff")
    return Events(reporter, (row,), 0, way)


async def row_of(record: Record, sending: Events) -> int:
    """The row at which it is in."""
    (outcome,) = await record.enter(sending)
    assert isinstance(outcome, Entered | Event), outcome
    return outcome.row
