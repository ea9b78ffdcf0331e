"""Rows of a reporter that do not stand on the screen yet, and what is seen meanwhile."""

from dataclasses import dataclass, field

from ucl_hall.engine.answers import Moment
from ucl_hall.rows import Row


@dataclass(frozen=True, slots=True)
class Seen:
    """What somebody sees who begins to type: a moment, and the matches of own rows on their way."""

    moment: Moment
    waiting: tuple[int, ...]


@dataclass(eq=False, slots=True)
class Sent:
    """A line that was sent: its rows, and the event number of the match after each accepted one.

    It is kept until what is drawn has all of its events.
    """

    text: str
    rows: list[Row]
    numbers: dict[Row, int] = field(default_factory=dict)
    is_done: bool = False


class Pending:
    """The lines whose rows are on their way: sent and not answered, or not drawn yet."""

    def __init__(self, drawn: Moment) -> None:
        self._drawn = drawn
        self._lines: list[Sent] = []

    def add(self, line: Sent) -> None:
        """Takes a line that was sent."""
        self._lines.append(line)

    def done(self, line: Sent) -> None:
        """Notes that a line has its answers, or will have none."""
        line.is_done = True
        self._forget()

    def look(self) -> Seen:
        """What stands on the screen, and which own rows do not yet."""
        on_its_way, lines = self._is_on_its_way, self._lines
        waiting = [row.match for it in lines for row in it.rows if on_its_way(it, row)]
        return Seen(self._drawn, tuple(waiting))

    def is_drawn(self, moment: Moment) -> None:
        """Notes that this moment stands on the screen by now."""
        if moment.edition != self._drawn.edition:
            for line in self._lines:
                line.numbers.clear()
        self._drawn = moment
        self._forget()

    def has(self, row: Row) -> bool:
        """Whether a row is on its way."""
        return any(row in line.rows for line in self._lines)

    @property
    def unanswered(self) -> list[Sent]:
        """The lines that wait for an answer."""
        return [line for line in self._lines if not line.is_done]

    def _is_on_its_way(self, line: Sent, row: Row) -> bool:
        number = line.numbers.get(row)
        if number is None:
            return not line.is_done
        return self._drawn.match(row.match).number < number

    def _forget(self) -> None:
        """Forgets the lines of which nothing is on its way."""
        on_its_way = self._is_on_its_way
        self._lines = [it for it in self._lines if any(on_its_way(it, row) for row in it.rows)]
