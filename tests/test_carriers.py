"""What a record promises wherever its log is, in a file and in etcd."""

import asyncio
import contextlib
import os
import pathlib
import random
from dataclasses import replace

import pytest
from drivers.records import BEGUN, STARTED, row_of, tap, worked

from ucl_hall.engine.answers import Refused
from ucl_hall.engine.history import Event
from ucl_hall.faults import Dropped, Held, Lost, Over
from ucl_hall.record import places
from ucl_hall.record.begin import begin
from ucl_hall.record.log import Entry, Log
from ucl_hall.record.record import Record
from ucl_hall.record.sending import Entered, Events, Way
from ucl_hall.rows import Row

IN_FILE = pytest.param("file", marks=pytest.mark.quick)
IN_ETCD = pytest.param("etcd", marks=[pytest.mark.limit(200), pytest.mark.xdist_group("etcd")])


@pytest.fixture(params=[IN_FILE, IN_ETCD])
def where(request: pytest.FixtureRequest, tmp_path: pathlib.Path) -> str:
    """Where a record may begin."""
    if request.param == "file":
        return str(tmp_path / "evening.csv")
    found: str = request.getfixturevalue("nodes").place(os.urandom(8).hex())
    return found


async def opened(where: str) -> Log:
    """Its log."""
    return await places.opened(where, is_read_only=False, is_durable=False)


async def text_of(where: str) -> str:
    """Its rows, as a file has them."""
    log = await opened(where)
    rows = b"".join(entry.row for entry in await log.read())
    await log.close()
    return rows.decode()


def kept(log: Log, entries: list[Entry]) -> list[Entry]:
    """What a log has of entries: without keys it has no marks either."""
    return entries if log.keeps_keys else [Entry(it.row) for it in entries if it.row]


# ---- the log


def test_rows_go_in_behind_what_was_read(where: str, live: str) -> None:
    """Who was second is told what came, and then goes in; a mark is no row. Who keeps keys knows the
    rows of each."""

    async def work() -> None:
        assert await begin(where, live, BEGUN.encode())
        first, second = await opened(where), await opened(where)
        begun = [Entry(line) for line in BEGUN.encode().splitlines(True)]
        assert await first.read() == await second.read() == begun
        rows = [Entry(b"1,1,0,kickoff\n", (1, "a")), Entry(b"\xff\0 x,\r\n", (1, "b"))]
        late, mark, last = (
            [Entry(row, (2, key))] for row, key in ((b"late\n", "c"), (b"", "d"), (b"last\n", "e"))
        )
        assert await first.append(rows) == rows
        assert await second.append(late) == kept(second, rows)
        assert await second.append(late) == late and await second.append([]) == []
        assert await second.append(mark) == mark and await second.append(last) == last
        assert await first.read() == kept(first, [*late, *mark, *last])
        assert await first.read() == []
        third = await opened(where)
        for log in first, second, third:
            await log.read()
            keys = (1, "b"), (2, "c"), (2, "d"), (2, "e"), (3, "a")
            known = [[7], [8], [], [9], None] if log.keeps_keys else [None] * 5
            assert [log.rows_of(key) for key in keys] == known
            await log.close()

    asyncio.run(work())


def test_many_who_append_at_once(where: str, live: str) -> None:
    """Each row is in once, whole, and rows of one append are together."""

    async def one(number: int) -> list[list[Entry]]:
        log, own, chance = await opened(where), [], random.Random(number)
        for at in range(12):
            wanted = [
                Entry(f"{number},{at},{part}\n".encode(), (number, str(at)))
                for part in range(chance.choice([1, 3, 127]))
            ]
            is_in = False
            while not is_in:
                with contextlib.suppress(Held):
                    is_in = wanted[0] in await log.append(wanted)
            own.append(wanted)
        await log.close()
        return own

    async def work() -> None:
        assert await begin(where, live, BEGUN.encode())
        wanted = [it for own in await asyncio.gather(*map(one, range(5))) for it in own]
        log = await opened(where)
        entries = (await log.read())[5:]
        assert len(entries) == sum(map(len, wanted))
        for own in wanted:
            at = entries.index(kept(log, own)[0])
            assert entries[at : at + len(own)] == kept(log, own)
        await log.close()

    asyncio.run(work())


# ---- how it begins


def test_of_several_who_begin_one_does(where: str, live: str, tmp_path: pathlib.Path) -> None:
    """Whole, however long it is; the others are told so, and nothing of theirs stays. Rows that are
    no record begin none."""
    rows = "".join(f"1,1,{at},{'yellow-home' if at else 'kickoff'}\n" for at in range(400))
    texts = [BEGUN.replace("Alpha", it) + rows for it in ("One", "Two", "Three")]

    async def work() -> None:
        with pytest.raises(Over, match="input refused 21: slot 1"):
            await begin(where, live, BEGUN.replace("Alpha", "").encode())
        assert not await asyncio.to_thread(places.exists, where) and not [*tmp_path.iterdir()]
        made = await asyncio.gather(*(begin(where, live, text.encode()) for text in texts))
        assert sorted(made) == [False, False, True]
        assert not await begin(where, live, BEGUN.encode())
        assert await text_of(where) == texts[made.index(True)]
        assert [*map(str, tmp_path.iterdir())] == [where] * os.path.exists(where)

    asyncio.run(work())


# ---- at most once


def test_one_id_is_entered_once(where: str, live: str) -> None:
    """At once and later, also if who sent it first has gone, and by whichever server if ids are in
    the log. Another reporter's id is another's."""

    async def work(here: Record, there: Record) -> None:
        other = there if here.keeps_keys else here
        one = tap(1)
        gone = asyncio.create_task(here.enter(one))
        await asyncio.sleep(0)
        gone.cancel()
        first, second = await asyncio.gather(here.enter(one), here.enter(one))
        assert first == second == await here.enter(replace(tap(2), id=one.id))
        assert isinstance(first[0], Entered)
        assert await row_of(here, one) == await row_of(other, one) == 7
        for number in range(25):
            both = tap(number, match=3, reporter=3)
            found = await asyncio.gather(row_of(here, both), row_of(other, both))
            assert {*found} == {8 + number}
        for sending in replace(one, reporter=2), tap(7):
            (refused,) = await here.enter(sending)
            assert isinstance(refused, Refused) and [refused] == await other.enter(sending)
        assert (await text_of(where)).count("\n") == 6 + 1 + 25 + 2

    worked(where, live, work)


def test_what_is_asked_about(where: str, live: str) -> None:
    """It is not entered from then on; what stands is told, also after a new start."""
    kickoff = Events(1, (Row(1, 0, "kickoff"),), 0)

    async def work(record: Record) -> None:
        one, other = tap(1), tap(1, Way.AGAIN)
        for way in Way.ASKED, Way.FIRST, Way.ASKED:
            with pytest.raises(Lost):
                await record.enter(replace(one, way=way))
        for way, id in (Way.ASKED, "a"), (Way.AGAIN, "b"):
            stands = await record.enter(replace(kickoff, way=way, id=id))
            assert stands == [Event(6, 1, 1, "kickoff")]
        with pytest.raises(Dropped):
            await record.enter(replace(kickoff, way=Way.ASKED, id="c", edition=1))
        with pytest.raises(Lost):
            await record.enter(replace(kickoff, way=Way.ASKED, reporter=2))
        assert isinstance((await record.enter(other))[0], Entered)
        assert await record.enter(replace(other, id="d")) == [Event(7, 1, 1, "yellow-home")]
        assert await text_of(where) == STARTED + "1,1,1,yellow-home\n"

    worked(where, live, work, 1)
