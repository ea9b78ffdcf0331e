"""How a record begins: the row of its group and its four clubs."""

import asyncio
import pathlib

from ucl_hall.engine.process import ask
from ucl_hall.faults import OnShare
from ucl_hall.record import disk, places
from ucl_hall.rows import SCREEN, group_row


async def begin(path: str, program: str, rows: bytes) -> bool:
    """Makes a record of these rows, whole from its first moment on, forced to the disk.

    False where another has made one meanwhile, which stays. Raises Over where `ucl_live` does not
    take the rows, and OSError where the file can not be made.
    """
    folder = pathlib.Path(path).parent
    if not places.is_in_etcd(path) and await asyncio.to_thread(disk.is_on_share, str(folder)):
        raise OnShare(str(folder))
    await ask(program, rows + SCREEN)
    return await places.begin(path, rows)


def all_rows(path: str) -> bytes:
    """All rows of a file, the last with its end. Raises OSError where it can not be read."""
    rows = pathlib.Path(path).read_bytes()
    return rows if rows.endswith(b"\n") else rows + b"\n"


def rows_of_file(path: str, group: str, order: str) -> bytes:
    """The row of a group, and the first four rows of a file, which are the clubs.

    Raises OSError where it can not be read.
    """
    lines = pathlib.Path(path).read_bytes().splitlines()
    return group_row(group, order) + b"".join(line + b"\n" for line in lines[:4])
