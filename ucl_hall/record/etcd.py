"""A log in etcd: a row is a key, and rows are appended by one transaction, where the next key is not
there yet. So rows are on the disks of a majority of nodes before anybody is told of them, and the
order of the keys is the only lock.

Of the record NAME the keys are

    /ucl/NAME/rows/0000000017   a row, or a mark, by its place from 1, in ten digits
    /ucl/NAME/layout            the version of what stands here; it is there once a record has begun

The value of a row is the key that it was sent by, as 2.ID of reporter 2, or `-` where it has none; a
blank; and the row without its line end. A mark has no row: what was sent by its key is never
entered. After an answer that was lost what stands there is read, and the same is asked again: of
transactions at one place at most one is done.
"""

import asyncio
import contextlib
import re
import time
from base64 import b64decode, b64encode
from collections.abc import Awaitable, Callable, Mapping, Sequence
from typing import Self

from ucl_hall.faults import (
    ChangedRow,
    Gap,
    HalfBegun,
    LongLine,
    MaybeDone,
    NoRecord,
    NotDone,
    OtherLayout,
    Over,
    StrangeKey,
    TooLong,
    TooMany,
    Unprotected,
    Unreached,
)
from ucl_hall.record.cluster import PAUSE, Address, Cluster, Said
from ucl_hall.record.log import Entry, Key
from ucl_hall.text import warn

LAYOUT = b"1"
# The most rows of a transaction, of an answer, and the most bytes of a value.
MOST, PAGE, LONGEST = 127, 500, 4_096
# For how long what was read counts as what there is, in seconds.
FRESH = 1.2
Call = Callable[[str, Mapping[str, object]], Awaitable[Said]]
_VALUE = re.compile(rb"(?:-|([0-9]{1,3})\.([!-~]{1,64})) (.*)", re.DOTALL)


class EtcdLog:
    """A log that is open. `EtcdLog.open` makes one."""

    def __init__(self, place: str) -> None:
        address = Address.of(place)
        self.name, self._prefix = str(address), f"/ucl/{address.name}/"
        self.cluster = Cluster(address)
        # The place of the last row or mark that is known, the revision by which it came, and the
        # numbers of the rows of each key.
        self._place, self._revision, self._count = 0, 0, 0
        self._rows: dict[Key, list[int]] = {}
        # What was read and not taken.
        self._came: list[Entry] = []
        # What was done to rows that were read before.
        self._fault: Over | None = None
        self._read_at = -FRESH
        self._watching: asyncio.Task[None] | None = None

    @classmethod
    async def open(cls, place: str) -> Self:
        """Reads a log. Raises Over where no node answers, or there is no record of this layout."""
        log = cls(place)
        if log.cluster.is_unprotected:
            warn(str(Unprotected(log.name)))
        try:
            if not await log.has_begun():
                await log._read(log.cluster.opening)
                raise (HalfBegun if log._came else NoRecord)(log._prefix)
            await log._read(log.cluster.opening)
        except BaseException:
            await log.close()
            raise
        return log

    @property
    def keeps_keys(self) -> bool:
        return True

    @property
    def is_there(self) -> bool:
        return time.monotonic() - self._read_at < FRESH

    def rows_of(self, key: Key) -> Sequence[int] | None:
        return self._rows.get(key)

    def watch(self, changed: Callable[[], None]) -> None:
        async def work() -> None:
            async for change in self.cluster.changes(self._first(), self._end()):
                self._look(change)
                changed()

        self._watching = asyncio.create_task(work())

    async def read(self) -> list[Entry]:
        """Nothing where no majority of the nodes is reached: `is_there` tells."""
        with contextlib.suppress(Unreached, NotDone):
            await self._read()
        return self._taken()

    async def append(self, entries: Sequence[Entry]) -> list[Entry]:
        """Goes on until a majority of the nodes says what stands there."""
        if len(entries) > MOST:
            raise TooMany(len(entries), MOST)
        is_known = True
        while entries:
            try:
                if await self._put(entries, self._has_layout(LAYOUT)):
                    return [*entries]
            except Unreached:
                is_known = False
            except NotDone as fault:
                raise fault if is_known else MaybeDone(fault) from fault
            # Others were first, or nobody knows: so what stands there tells. While nothing does,
            # the same is asked again.
            with contextlib.suppress(Unreached, NotDone):
                await self._read()
                await self.has_begun()
            if came := self._taken():
                return came
            await asyncio.sleep(PAUSE)
        return []

    async def close(self) -> None:
        if self._watching is not None:
            self._watching.cancel()
            await asyncio.gather(self._watching, return_exceptions=True)
        await self.cluster.close()

    async def has_begun(self) -> bool:
        """Whether there is a record. Raises OtherLayout, Unreached, and NotDone."""
        wanted = {"key": text64(f"{self._prefix}layout")}
        found = (await self.cluster.opening("kv/range", wanted)).get("kvs", [])
        layout = b64decode(found[0].get("value", "")) if found else LAYOUT
        if layout != LAYOUT:
            raise OtherLayout(f"{self._prefix}layout", layout[:20])
        return bool(found)

    async def begin(self, entries: Sequence[Entry]) -> bool:
        """Begins a record of these rows, or goes on where somebody began it with the same. False
        where it has others."""
        while not await self.has_begun():
            rest = entries[self._place :]
            part, is_last = rest[: MOST - 1], len(rest) < MOST
            layout = [put_of(f"{self._prefix}layout", LAYOUT)] if is_last else []
            with contextlib.suppress(Unreached):
                if await self._put(part, self._has_layout(None), layout):
                    continue
            place = self._place
            with contextlib.suppress(Unreached):
                await self._read()
            came = self._taken()
            if [it.row for it in came] != [it.row for it in entries[place : self._place]]:
                return False
        return self._place == len(entries)

    def _has_layout(self, layout: bytes | None) -> Said:
        """Asks that there is this layout, or none."""
        key = {"key": text64(f"{self._prefix}layout")}
        if layout is None:
            return {**key, "target": "CREATE", "create_revision": "0"}
        return {**key, "target": "VALUE", "value": bytes64(layout)}

    async def _put(self, entries: Sequence[Entry], layout: Said, more: Sequence[Said] = ()) -> bool:
        """Asks once for these, behind what is known and nothing else, and where this holds too."""
        compare = [layout, {"key": self._key(1), "target": "CREATE", "create_revision": "0"}]
        if self._place:
            known = str(self._revision)
            compare += [{"key": self._key(), "target": "MOD", "mod_revision": known}]
        puts = [put_of(self._named(at), value_of(entry)) for at, entry in enumerate(entries, 1)]
        wanted = {"compare": compare, "success": [*puts, *more]}
        begun = time.monotonic()
        said = await self.cluster.call("kv/txn", wanted)
        if not said.get("succeeded"):
            return False
        self._read_at = begun
        for entry in entries:
            self._note(entry, int(said["header"]["revision"]))
        return True

    def _taken(self) -> list[Entry]:
        """What was read and not taken yet."""
        came, self._came = self._came, []
        return came

    async def _read(self, call: Call | None = None) -> None:
        """Reads what is behind the last that is known, which has to be there still. Pages that were
        read stay so where the next is not reached."""
        call = call or self.cluster.call
        if self._fault is not None:
            raise self._fault
        while True:
            begun = time.monotonic()
            wanted = {"key": self._key(), "range_end": self._end(), "limit": PAGE}
            said = await call("kv/range", wanted)
            found = said.get("kvs", [])
            if self._place:
                if not found or found[0]["key"] != self._key():
                    raise Gap(self._named())
                if found[0]["mod_revision"] != str(self._revision):
                    raise ChangedRow(self._named())
                found = found[1:]
            for it in found:
                self._came.append(self._entry(it))
            if not said.get("more"):
                self._read_at = begun
                return

    def _look(self, change: Said) -> None:
        """Notes what nobody here does: of keys alone that come next reading tells."""
        found = change.get("kv", {})
        named = b64decode(found.get("key", ""))
        if change.get("type") == "DELETE":
            self._fault = Gap(named)
        elif change and not self._is_place(named):
            self._fault = StrangeKey(named)
        elif change and found["version"] != "1":
            self._fault = ChangedRow(named)

    def _is_place(self, named: bytes) -> bool:
        place = named.removeprefix(f"{self._prefix}rows/".encode())
        return re.fullmatch(b"[0-9]{10}", place) is not None

    def _entry(self, found: Said) -> Entry:
        """What is the next, of this key and value."""
        named, revision = b64decode(found["key"]), int(found["mod_revision"])
        if not self._is_place(named):
            raise StrangeKey(named)
        if found["key"] != self._key(1):
            raise Gap(self._named(1))
        if found["version"] != "1" or revision < self._revision:
            raise ChangedRow(self._named(1))
        entry = entry_of(named, b64decode(found.get("value", "")))
        self._note(entry, revision)
        return entry

    def _note(self, entry: Entry, revision: int) -> None:
        self._place, self._revision = self._place + 1, revision
        self._count += bool(entry.row)
        if entry.key is not None:
            self._rows.setdefault(entry.key, []).extend([self._count] * bool(entry.row))

    def _named(self, more: int = 0) -> str:
        """The key of the last place that is known, or so many behind it."""
        return f"{self._prefix}rows/{self._place + more:010}"

    def _key(self, more: int = 0) -> str:
        """The same in the interface; at first what is before all of them."""
        return text64(self._named(more)) if self._place + more else self._first()

    def _first(self) -> str:
        return text64(f"{self._prefix}rows/")

    def _end(self) -> str:
        return text64(f"{self._prefix}rows0")


async def exists(place: str) -> bool:
    """Whether there is a record. Raises Over."""
    log = EtcdLog(place)
    try:
        return await log.has_begun()
    finally:
        await log.close()


async def begin(place: str, rows: bytes) -> bool:
    """Begins a record of these rows, whole, on a majority of disks. False where another has begun
    it with others, which stay. Raises Over."""
    log = EtcdLog(place)
    try:
        lines = rows.removesuffix(b"\n").split(b"\n")
        for number, line in enumerate(lines, 1):
            if len(line) > LONGEST - len("- "):
                raise LongLine(number, LONGEST)
        return await log.begin([Entry(line + b"\n") for line in lines])
    finally:
        await log.close()


def value_of(entry: Entry) -> bytes:
    """A row or a mark as it stands in etcd. Raises TooLong."""
    key = "-" if entry.key is None else f"{entry.key[0]}.{entry.key[1]}"
    value = f"{key} ".encode() + entry.row.removesuffix(b"\n")
    if len(value) > LONGEST:
        raise TooLong(value[:40], LONGEST)
    return value


def entry_of(named: bytes, value: bytes) -> Entry:
    """What stands in etcd under this key. Raises TooLong, and StrangeKey where it is no row."""
    if len(value) > LONGEST:
        raise TooLong(named, LONGEST)
    found = _VALUE.fullmatch(value)
    if found is None or b"\n" in value:
        raise StrangeKey(named)
    key = None if found[1] is None else (int(found[1]), found[2].decode())
    return Entry(found[3] + b"\n" if found[3] or key is None else b"", key)


def text64(text: str) -> str:
    """A text in the interface."""
    return bytes64(text.encode())


def bytes64(data: bytes) -> str:
    """Bytes in the interface."""
    return b64encode(data).decode()


def put_of(key: str, value: bytes) -> Said:
    """Writes a key, as a part of a transaction."""
    return {"request_put": {"key": text64(key), "value": bytes64(value)}}
