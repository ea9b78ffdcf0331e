"""A group that is served: its record, its reporters, and what is sent of it."""

import contextlib
import operator
import time
from collections.abc import Iterable, Iterator, Mapping, Sequence

from ucl_hall.engine.answers import LeftOut, Mended, Reply
from ucl_hall.engine.json_lines import line_of
from ucl_hall.record.record import Record
from ucl_hall.rows import MATCHES
from ucl_hall.web.connections import Screen, Screens
from ucl_hall.web.keys import is_key
from ucl_hall.web.phones import Reporter, events_told
from ucl_hall.web.shown import Shown

# How many events a phone lists.
RECENT = 10


class Group(Shown):
    """The board of a record, with those who look on. Screens may be of several groups."""

    def __init__(
        self,
        record: Record,
        keys: Mapping[int, str],
        reporters: Mapping[int, Iterable[int]],
        screens: Screens,
        evening: Sequence[int] | None = None,
        at: Sequence[str] = (),
    ) -> None:
        super().__init__(record.moment.title.group, record)
        self.record, self.keys, self.phones = record, keys, Screens()
        # The addresses of all who serve it.
        self._at = at
        self._screens, self._evening = screens, evening
        self._first = record.moment.matches
        self.reporters = {
            number: Reporter(record, number, sorted(matches))
            for number, matches in reporters.items()
        }
        self._known_at = time.monotonic()
        record.listen(self._tell)

    @property
    def silence(self) -> int:
        """For how many seconds nothing is known of the record; 0 while it is there. Who serves it
        asks each second."""
        if self.record.is_there:
            self._known_at = time.monotonic()
            return 0
        return 1 + int(time.monotonic() - self._known_at)

    def reporter_of(self, key: str) -> Reporter | None:
        """Whose key this is. Each key is compared, so the time tells nothing."""
        found = None
        for number, reporter in self.reporters.items():
            if is_key(key, self.keys[number]):
                found = reporter
        return found

    def rekey(self, keys: Mapping[int, str]) -> None:
        """Takes other keys; phones have to show theirs again."""
        if keys != self.keys:
            self.keys = keys
            self.phones.abort()

    def tonight(self) -> list[int] | None:
        """The matches of the evening: those that are named; or, if each reporter has only some,
        these and each that is in play or has changed since the start; else the pages see to it."""
        if self._evening is not None:
            return [*self._evening]
        if any(len(reporter.matches) == len(MATCHES) for reporter in self.reporters.values()):
            return None
        of_reporters = {it for reporter in self.reporters.values() for it in reporter.matches}
        pairs = zip(self._first, self.record.moment.matches, strict=True)
        others = {now.match for first, now in pairs if now.state == "IN PLAY" or now != first}
        return sorted(of_reporters | others)

    @contextlib.contextmanager
    def having(self, phone: Screen, reporter: Reporter, title: str) -> Iterator[None]:
        """Sends a phone whose link it is, what there is, and what changes until the block ends."""
        whose = {"number": reporter.number, "group": self.letter, "matches": reporter.matches}
        more = {"at": self._at, "resends": True} if self.record.keeps_keys else {}
        named = line_of("reporter", title=title, **whose, **more)
        lines = named, self.record.moment.line, self.recent()
        with self.phones.having(phone, *lines), reporter.phones.having(phone):
            yield

    def recent(self) -> bytes:
        """The line of the last events, the newest first."""
        told = [it for match in MATCHES for it in events_told(self.record, match, RECENT)]
        told.sort(key=operator.itemgetter("row"), reverse=True)
        return line_of("recent", events=told[:RECENT])

    def more(self) -> dict[str, object]:
        phones = {number: len(it.phones) for number, it in self.reporters.items()}
        return {"rows": self.moment.row, "phones": phones}

    def _tell(self, reply: Reply) -> None:
        """Sends what a row has changed."""
        if reply.screen is None:
            return
        self._screens.send(self.letter, reply.screen.line)
        if len(self.phones):
            for answer in (*reply.left_out, reply.answer):
                if isinstance(answer, LeftOut | Mended):
                    self.phones.send(str(answer.row), answer.line)
            self.phones.send("screen", reply.screen.line)
            self.phones.send("recent", self.recent())
