"""Keys of reporters, wherever they are: in a file beside the record, or beside the log in etcd.

There /ucl/NAME/keys/017 is the key of reporter 17. They are the same at each server, and where one
ends a key the link that all have given ends.
"""

import asyncio
import contextlib
import re
import secrets
from base64 import b64decode
from collections.abc import AsyncIterator, Callable, Collection, Mapping

from ucl_hall.faults import NotDone, Unreached
from ucl_hall.record.cluster import Address, Cluster
from ucl_hall.record.etcd import put_of, text64
from ucl_hall.record.places import is_in_etcd
from ucl_hall.web import keys

# How often they are looked at, in seconds.
LOOK = 1.0
_KEY = re.compile(rb".*/([0-9]{3})")
_VALUE = re.compile("[0-9a-f]{32}")
Take = Callable[[Mapping[int, str]], None]


class SharedKeys:
    """Keys in etcd."""

    def __init__(self, place: str) -> None:
        address = Address.of(place)
        self._cluster, self._prefix = Cluster(address), f"/ucl/{address.name}/keys/"
        self._numbers: list[int] = []
        self._following: asyncio.Task[None] | None = None

    async def read(self) -> dict[int, str]:
        """Those that are there. Raises Unreached, NotDone and Over."""
        said = await self._cluster.opening("kv/range", self._range())
        pairs = [
            (_KEY.fullmatch(b64decode(it["key"])), b64decode(it.get("value", "")).decode("latin-1"))
            for it in said.get("kvs", [])
        ]
        return {int(key[1]): text for key, text in pairs if key and _VALUE.fullmatch(text)}

    async def of(
        self, numbers: Collection[int], revoked: Collection[int], *, all_new: bool
    ) -> dict[int, str]:
        """The keys of these reporters, which are made where they have none.

        Those of `revoked` end before, or all that there are. Raises Unreached, NotDone and Over.
        """
        self._numbers = [*numbers]
        single = [{"key": text64(self._named(number))} for number in sorted(revoked)]
        for ended in [self._range()] if all_new else single:
            await self._cluster.opening("kv/deleterange", ended)
        return await self._made()

    def follow(self, take: Take) -> None:
        """Hands on what they have become, if another server ends them."""

        async def work() -> None:
            while True:
                await asyncio.sleep(LOOK)
                with contextlib.suppress(Unreached, NotDone):
                    take(await self._made())

        self._following = asyncio.create_task(work())

    async def aclose(self) -> None:
        """Asks no more."""
        if self._following is not None:
            self._following.cancel()
            await asyncio.gather(self._following, return_exceptions=True)
        await self._cluster.close()

    async def _made(self) -> dict[int, str]:
        """The keys of the reporters, made for those that have none."""
        known = await self.read()
        missing = [number for number in self._numbers if number not in known]
        for number in missing:
            key = self._named(number)
            absent = {"key": text64(key), "target": "CREATE", "create_revision": "0"}
            made = put_of(key, secrets.token_hex(16).encode())
            await self._cluster.opening("kv/txn", {"compare": [absent], "success": [made]})
        known = await self.read() if missing else known
        return {number: known.get(number, secrets.token_hex(16)) for number in self._numbers}

    def _named(self, number: int) -> str:
        return f"{self._prefix}{number:03}"

    def _range(self) -> dict[str, str]:
        return {"key": text64(self._prefix), "range_end": text64(f"{self._prefix[:-1]}0")}


# Keys of a record that is served, by the numbers of reporters.
Keys = keys.Keys | SharedKeys


@contextlib.asynccontextmanager
async def keys_held(place: str) -> AsyncIterator[Keys]:
    """Holds the keys of a record that is served, until the block ends.

    Raises Over, and OSError of a file.
    """
    if is_in_etcd(place):
        async with contextlib.aclosing(SharedKeys(place)) as shared:
            yield shared
    else:
        with keys.held(place) as own:
            yield own


def keys_of(place: str) -> dict[int, str]:
    """The keys that a record has by now. Raises Over, and OSError of a file."""

    async def read() -> dict[int, str]:
        async with contextlib.aclosing(SharedKeys(place)) as shared:
            return await shared.read()

    return asyncio.run(read()) if is_in_etcd(place) else keys.keys_of(place)
