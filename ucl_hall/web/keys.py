"""The keys of a record's reporters, in RECORD.keys, which nobody but its owner may read.

A line is a reporter's number, a blank, and a key: 32 hexadecimal digits of 128 random bits. Of two
lines of one number the later counts. A change is a whole new file in place of the old one, so a key
that has ended is nowhere. Who serves the record holds the lock of this file (`flock`): a record is
served once.
"""

import contextlib
import fcntl
import hmac
import os
import re
import secrets
import stat
from collections.abc import Callable, Collection, Iterator, Mapping

from ucl_hall.faults import Over

_LINE = re.compile(r"^([0-9]{1,3}) ([0-9a-f]{32})$", re.MULTILINE)
# The most bytes of such a file; records of other versions have keys that have ended too.
_LONGEST = 1 << 20


class Keys:
    """The keys of a record that is served by this program alone."""

    def __init__(self, path: str, number: int, stack: contextlib.ExitStack) -> None:
        self._path, self._stack, self._known = path, stack, _read(path, number)

    async def of(
        self, numbers: Collection[int], revoked: Collection[int], *, all_new: bool
    ) -> dict[int, str]:
        """The keys of these reporters, which are made where they have none.

        Those of `revoked` end before, or all that there are. Raises OSError where the file can not
        be written; then nothing has changed.
        """
        kept = {} if all_new else {it: key for it, key in self._known.items() if it not in revoked}
        keys = {**{it: secrets.token_hex(16) for it in sorted(numbers)}, **kept}
        if keys != self._known:
            self._write("".join(f"{number} {key}\n" for number, key in sorted(keys.items())))
            self._known = keys
        return {number: keys[number] for number in numbers}

    def follow(self, take: Callable[[Mapping[int, str]], None]) -> None:
        """Nobody else ends them."""

    def _write(self, text: str) -> None:
        """Puts a new file in place of the old one. It is locked before it has the name."""
        beside = f"{self._path.removesuffix('.keys')}.new.keys"
        with contextlib.suppress(FileNotFoundError):
            os.unlink(beside)
        file = self._stack.enter_context(open(beside, "xb", opener=_opener))
        fcntl.flock(file, fcntl.LOCK_EX | fcntl.LOCK_NB)
        file.write(text.encode())
        file.flush()
        os.fsync(file.fileno())
        os.rename(beside, self._path)
        folder = os.open(os.path.dirname(os.path.abspath(self._path)), os.O_RDONLY)
        try:
            os.fsync(folder)
        finally:
            os.close(folder)


@contextlib.contextmanager
def held(record: str) -> Iterator[Keys]:
    """Holds the keys of a record that is served, until the block ends.

    Raises Over where another program serves the record, or others can read the file, and OSError
    where it can not be opened.
    """
    path = f"{record}.keys"
    with contextlib.ExitStack() as stack:
        file = stack.enter_context(open(path, "a+b", buffering=0, opener=_opener))
        try:
            fcntl.flock(file, fcntl.LOCK_EX | fcntl.LOCK_NB)
        except BlockingIOError as error:
            raise Over(f"{record} is served already") from error
        if not os.path.samestat(os.fstat(file.fileno()), os.stat(path)):
            raise Over(f"{record} is served already")
        yield Keys(path, file.fileno(), stack)


def keys_of(record: str) -> dict[int, str]:
    """The keys that a record has, by the numbers of its reporters; none where it was not served.

    Raises Over where others can read the file, and OSError where it can not be read.
    """
    try:
        with open(f"{record}.keys", "rb", buffering=0, opener=_opener) as file:
            return _read(f"{record}.keys", file.fileno())
    except FileNotFoundError:
        return {}


def is_key(text: str, key: str) -> bool:
    """Whether a text is this key; how long that takes tells nothing of the key."""
    return hmac.compare_digest(text.encode(errors="replace"), key.encode())


def _opener(path: str, flags: int) -> int:
    # Nobody is waited for who would write into a pipe of this name.
    return os.open(path, flags | os.O_NOFOLLOW | os.O_NONBLOCK, 0o600)


def _read(path: str, number: int) -> dict[int, str]:
    about = os.fstat(number)
    if not stat.S_ISREG(about.st_mode) or about.st_size > _LONGEST:
        raise Over(f"{path} is no file of keys")
    if stat.S_IMODE(about.st_mode) & 0o077:
        raise Over(f"others can read {path}, which has keys: chmod 600 {path}, and give --new-keys")
    text = os.pread(number, _LONGEST, 0).decode(errors="replace")
    # A line counts with its end alone: a key that was cut off is none.
    whole = text[: text.rfind("\n") + 1]
    return {int(number): key for number, key in _LINE.findall(whole)}
