"""Where a record is: in a file, by its path, or in etcd, by its address."""

import asyncio
import os
from types import ModuleType

from ucl_hall.faults import NotInstalled
from ucl_hall.record import disk
from ucl_hall.record.file import FileLog
from ucl_hall.record.log import Log

SCHEME = "etcd://"


def is_in_etcd(place: str) -> bool:
    """Whether it is an address."""
    return place.startswith(SCHEME)


def exists(place: str) -> bool:
    """Whether there is a record. Raises Over where nobody can tell."""
    if is_in_etcd(place):
        return bool(asyncio.run(_etcd().exists(place)))
    return os.path.exists(place)


async def begin(place: str, rows: bytes) -> bool:
    """Begins a record of these rows, whole, on the disk; False where there is one, which stays.

    Raises OSError where it can not be made, and Over.
    """
    if is_in_etcd(place):
        return bool(await _etcd().begin(place, rows))
    return await asyncio.to_thread(disk.begin, place, rows)


async def opened(place: str, *, is_read_only: bool, is_durable: bool) -> Log:
    """Opens its log. Raises OSError and Over."""
    if is_in_etcd(place):
        log: Log = await _etcd().EtcdLog.open(place)
        return log
    return await FileLog.open(place, is_read_only=is_read_only, is_durable=is_durable)


def _etcd() -> ModuleType:
    """What needs a library that a file does not need. Raises NotInstalled."""
    try:
        from ucl_hall.record import etcd
    except ModuleNotFoundError as error:
        raise NotInstalled(error.name, "python3-aiohttp") from error
    return etcd
