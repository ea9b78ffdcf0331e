"""The log of a record: rows in one order that nobody changes, whoever appends them."""

from collections.abc import Callable, Sequence
from dataclasses import dataclass
from typing import Protocol


# Whose id it is, a reporter's or by 0 that of a mend, and the id.
Key = tuple[int, str]


@dataclass(frozen=True, slots=True)
class Entry:
    """A row, with its line end, and the key of what it was sent by, if that is known here. Without
    a row it is a mark: what was sent by its key is never entered."""

    row: bytes
    key: Key | None = None


class Log(Protocol):
    """The rows of a record. One task alone reads it and appends to it."""

    @property
    def name(self) -> str:
        """What faults call it."""

    @property
    def keeps_keys(self) -> bool:
        """Whether the keys of rows are in it, so that all who follow it know them."""

    @property
    def is_there(self) -> bool:
        """Whether what was read of it is all that there was a second ago."""

    def rows_of(self, key: Key) -> Sequence[int] | None:
        """The numbers of the rows that were sent by a key, none of a mark; None where the log has
        no such key."""

    def watch(self, changed: Callable[[], None]) -> None:
        """Has this called when something may have come, if anybody tells."""

    async def read(self) -> list[Entry]:
        """What has come since the last call. Raises Over where it is another log, and OSError."""

    async def append(self, entries: Sequence[Entry]) -> list[Entry]:
        """Appends all of these, forced to disks, if nothing came before them, and gives them with
        their keys; else appends none, and gives what came. Without any it ends what was begun.

        Raises NotEntered where nothing is in, MaybeEntered where nobody can tell, and as `read`.
        """

    async def close(self) -> None:
        """Ends it. What is being written is written whole first."""
