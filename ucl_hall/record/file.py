"""A log in a file of rows: it only grows, and whoever likes may read it or append to it.

Who appends holds the lock of the file (`flock`) from before it looks until the rows are on the
disk. Rows of programs that take no lock may come between. All calls that may block are made in one
thread of its own, one after the other.
"""

import asyncio
import fcntl
import os
from collections.abc import Callable, Sequence
from concurrent.futures import ThreadPoolExecutor
from typing import Any, TypeVar

from ucl_hall.faults import FULL, CutOff, DiskFails, NotWritten, OnShare, Replaced
from ucl_hall.record import disk
from ucl_hall.record.log import Entry, Key

Value = TypeVar("Value")
# How long a lock is waited for, in seconds; how many bytes before the end stay as they were.
LOCK, TAIL = 2.0, 256


class FileLog:
    """An open file of rows. `FileLog.open` makes one."""

    def __init__(self, path: str, *, is_read_only: bool, is_durable: bool) -> None:
        self.name, self._is_read_only, self._is_durable = path, is_read_only, is_durable
        self._thread = ThreadPoolExecutor(1, "record")
        self._file = -1
        # How many bytes are read, the last of them, those after the last line end, and what the
        # disk is known to have.
        self._size, self._tail, self._rest, self._synced = 0, b"", b"", 0
        self._is_held = False

    @classmethod
    async def open(
        cls, path: str, *, is_read_only: bool = False, is_durable: bool = False
    ) -> "FileLog":
        """Opens a file. With `is_durable` no row is told before the disk has it, whoever appended
        it. Raises OnShare unless it is only read, and OSError."""
        log = cls(path, is_read_only=is_read_only, is_durable=is_durable)
        try:
            await log._in_thread(log._open)
        except BaseException:
            log._thread.shutdown(wait=False)
            raise
        return log

    @property
    def keeps_keys(self) -> bool:
        return False

    @property
    def is_there(self) -> bool:
        return True

    def rows_of(self, key: Key) -> Sequence[int] | None:
        return None

    def watch(self, changed: Callable[[], None]) -> None:
        """Nobody tells."""

    async def read(self) -> list[Entry]:
        return await self._in_thread(self._read)

    async def append(self, entries: Sequence[Entry]) -> list[Entry]:
        """Where others' rows came first the lock is kept until the next call, which appends."""
        if any(not entry.row for entry in entries):
            # The file has no marks, so one binds this program alone.
            return [*entries]
        return await self._in_thread(self._append, entries)

    async def close(self) -> None:
        await self._in_thread(os.close, self._file)
        self._thread.shutdown(wait=False)

    async def _in_thread(self, work: Callable[..., Value], *words: Any) -> Value:
        return await asyncio.get_running_loop().run_in_executor(self._thread, work, *words)

    def _open(self) -> None:
        if not self._is_read_only and disk.is_on_share(self.name):
            raise OnShare(self.name)
        flags = os.O_RDONLY if self._is_read_only else os.O_RDWR | os.O_APPEND
        self._file = os.open(self.name, flags | os.O_CLOEXEC)

    def _read(self) -> list[Entry]:
        """Takes what was appended since."""
        here, kept = os.fstat(self._file), len(self._tail)
        try:
            is_same = os.path.samestat(here, os.stat(self.name))
        except FileNotFoundError:
            is_same = False
        read = b""
        if here.st_size >= self._size:
            read = os.pread(self._file, here.st_size - self._size + kept, self._size - kept)
        if not is_same or here.st_size < self._size or not read.startswith(self._tail):
            raise Replaced(self.name)
        if self._is_durable and self._synced < here.st_size:
            os.fsync(self._file)
            self._synced = here.st_size
        return self._taken(read[kept:])

    def _taken(self, read: bytes) -> list[Entry]:
        """The lines of what was read that are whole by now."""
        self._size += len(read)
        self._tail = (self._tail + read)[-TAIL:]
        *lines, self._rest = (self._rest + read).split(b"\n")
        return [Entry(line + b"\n") for line in lines]

    def _append(self, entries: Sequence[Entry]) -> list[Entry]:
        was_held = self._is_held
        if not (was_held or entries or (self._rest and not self._is_read_only)):
            return []
        if not was_held:
            disk.lock(self._file, LOCK, self.name)
        self._is_held = False
        try:
            came = [] if was_held else self._read()
            if not came and self._rest:
                # A write was cut off there, or goes on without the lock.
                came = self._written([Entry(b"\n")])
            self._is_held = bool(came)
            return came or (self._written(entries) if entries else [])
        finally:
            if not self._is_held:
                fcntl.flock(self._file, fcntl.LOCK_UN)

    def _written(self, entries: Sequence[Entry]) -> list[Entry]:
        """Appends by one write, forces it to the disk, and takes all up to its end."""
        data = b"".join(entry.row for entry in entries)
        try:
            disk.reserve(self._file, len(data))
        except OSError as error:
            raise NotWritten(error) from error
        try:
            written = os.write(self._file, data)
        except OSError as error:
            raise (NotWritten if error.errno in FULL else DiskFails)(error) from error
        if written < len(data):
            raise CutOff
        try:
            os.fsync(self._file)
        except OSError as error:
            raise DiskFails(error) from error
        self._synced = end = os.lseek(self._file, 0, os.SEEK_CUR)
        came = self._taken(os.pread(self._file, end - self._size, self._size))
        # Whoever takes no lock may have come between; these are the last.
        others = len(came) - len(entries)
        own = [Entry(it.row, entry.key) for it, entry in zip(came[others:], entries)]
        return came[:others] + own
