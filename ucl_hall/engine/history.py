"""The events that stand on a board, by the answers to its record."""

from collections import defaultdict
from dataclasses import dataclass
from typing import Annotated

from ucl_hall.engine.answers import Accepted, LeftOut, Line, Mended, Reporter
from ucl_hall.engine.json_lines import NoAnswer, answer_of
from ucl_hall.rows import EVENTS, Row


@dataclass(frozen=True, slots=True)
class Event:
    """An event that stands: on which line of the record it is, and who entered it."""

    row: Line
    reporter: Reporter
    match: Annotated[int, range(1, 13)]
    event: Annotated[str, EVENTS]


class History:
    """The events that stand, in the order of their matches.

    A full record has 49,140 events, and most users never ask for one: so lines are noted as they
    come, and read when somebody asks.
    """

    def __init__(self) -> None:
        self._noted: list[bytes] = []
        self._matches: dict[int, list[Event]] = defaultdict(list)

    def note(self, line: bytes) -> None:
        """Notes an answer of any kind, in the order of the answers."""
        self._noted.append(line)

    def of(self, match: int) -> list[Event]:
        """The events of a match, oldest first: the event at place N had N events before it."""
        self._read()
        return self._matches[match]

    def found(self, reporter: int, row: Row) -> Event | None:
        """The event of this reporter that this row enters, if the board has just that."""
        for event in self.of(row.match)[row.expected : row.expected + 1]:
            if (event.reporter, event.event) == (reporter, row.event):
                return event
        return None

    def _read(self) -> None:
        noted, self._noted = self._noted, []
        for line in noted:
            try:
                answer = answer_of(line)
            except NoAnswer:
                continue
            if isinstance(answer, Accepted):
                row = answer.event
                event = Event(answer.row, answer.reporter, row.match, row.event)
                self._matches[row.match].append(event)
            elif isinstance(answer, LeftOut):
                self._leave_out(answer.row)
            elif isinstance(answer, Mended) and answer.without is not None:
                self._leave_out(answer.without)

    def _leave_out(self, row: int) -> None:
        for match, events in self._matches.items():
            self._matches[match] = [event for event in events if event.row != row]
