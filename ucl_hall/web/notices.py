"""What an operator is told of those who connect: a line a minute at most, on standard error."""

import time
from collections import Counter

from ucl_hall.text import warn

# Seconds between two lines.
MINUTE = 60.0


class Notices:
    """What has come up since the last line."""

    def __init__(self) -> None:
        # How many connections were cut off in all.
        self.all_cut_off = 0
        self._cut_off: Counter[str] = Counter()
        self._phones: dict[str, int] = {}
        self._more: dict[str, int] = {}
        self._told_at = -MINUTE

    def cut_off(self, address: str) -> None:
        """Notes that a connection of an address was cut off."""
        self.all_cut_off += 1
        self._cut_off[address] += 1

    def has_phones(self, reporter: str, count: int) -> None:
        """Notes how many phones a reporter has."""
        if count > max(1, self._phones.get(reporter, 0)):
            self._more[reporter] = count
        self._phones[reporter] = count

    def tell(self) -> None:
        """Tells what has come up, if the last line was a minute ago."""
        now = time.monotonic()
        if now - self._told_at < MINUTE or not (self._more or self._cut_off):
            return
        told = [f"{reporter} has {count} phones" for reporter, count in self._more.items()]
        if self._cut_off:
            (address, _), *others = self._cut_off.most_common()
            count, part = self._cut_off.total(), "most" if others else "all"
            told.append(f"cut off {count} connections, {part} of {address}")
        warn(f"ucl_serve: {'; '.join(told)}")
        self._told_at = now
        self._more.clear()
        self._cut_off.clear()
