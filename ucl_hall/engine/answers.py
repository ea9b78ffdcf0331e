"""Answers of `ucl_live`: each kind of line, and what each of its members may be.

`json_lines` makes them of lines, and nothing else does. A member that is annotated by a range is a
whole number in it, one by a pattern or by texts is such a text, and one by a count has so many
parts; what may be None may be missing. So all that is here may be relied on, wherever the line came
from. `line` is the line itself, with no line end.
"""

import re
from dataclasses import dataclass
from typing import Annotated

from ucl_hall.rows import EVENTS, GROUPS, LAST_EDITION, LAST_ROW, NAME, ORDERS, Club, Row

# No member of JSON text can look like these: a quote within a text has a backslash before it.
_KIND = re.compile(rb'"reply":"([a-z-]{1,20})"')
_ROW = re.compile(rb'"row":(\d{1,20})')
# A name of a refusal, which need not be a known one; a match as a word.
_NAME, _WORD = re.compile("[a-z-]{1,40}"), re.compile("[0-9a-f]{16}")

Pair = Annotated[tuple[int, int], 2, range(64)]
Line = Annotated[int, range(1, LAST_ROW + 1)]
Reporter = Annotated[int, range(1, 256)]
Number = Annotated[int, range(4_096)]
Version = Annotated[int, range(49_141)]
Edition = Annotated[int, range(LAST_EDITION + 1)]
Games = Annotated[int, range(7)]
Goals = Annotated[int, range(379)]


@dataclass(frozen=True, slots=True)
class Match:
    """A match as it stands: the slots that play it, and pairs of the home and the visiting side.
    Reporter 0 is nobody."""

    match: Annotated[int, range(1, 13)]
    home: Annotated[int, range(1, 5)]
    away: Annotated[int, range(1, 5)]
    number: Number
    reporter: Annotated[int, range(256)]
    state: Annotated[str, ("SCHEDULED", "IN PLAY", "FINISHED")]
    score: Pair
    yellows: Pair
    expulsions: Pair


@dataclass(frozen=True, slots=True)
class Place:
    """A line of the table: its numbers are of matches in play and finished."""

    place: Annotated[int, range(1, 5)]
    mark: Annotated[str, ("", "+", "-")]
    club: Annotated[str, NAME]
    played: Games
    won: Games
    drawn: Games
    lost: Games
    goals_for: Goals
    goals_against: Goals
    goal_difference: Annotated[int, range(-378, 379)]
    points: Annotated[int, range(19)]


@dataclass(frozen=True, slots=True)
class Title:
    """What a board is: group, order, edition, and the clubs by their slots."""

    group: Annotated[str, tuple(GROUPS)]
    order: Annotated[str, ORDERS]
    edition: Edition
    clubs: Annotated[tuple[Club, ...], 4]


@dataclass(frozen=True, slots=True)
class Moment:
    """A screen: the whole board after line `row` of its record."""

    row: Line
    title: Title
    version: Version
    in_play: Annotated[int, range(13)]
    words: Annotated[tuple[str, ...], 12, _WORD]
    matches: Annotated[tuple[Match, ...], 12]
    table: Annotated[tuple[Place, ...], 4]
    line: bytes

    @property
    def edition(self) -> int:
        """The edition."""
        return self.title.edition

    @property
    def age(self) -> Pair:
        """Edition and version: no screen of a record has a smaller one than the screen before."""
        return self.title.edition, self.version

    def match(self, number: int) -> Match:
        """The match with this number, 1 to 12."""
        return self.matches[number - 1]


@dataclass(frozen=True, slots=True)
class Accepted:
    """An event that is on the board. `number` is the match's event number after it."""

    row: Line
    reporter: Reporter
    event: Row
    number: Annotated[int, range(1, 4_096)]
    edition: Edition
    version: Version
    line: bytes


@dataclass(frozen=True, slots=True)
class Refused:
    """A row that has changed nothing.

    A bad row and a mend have no reporter and no event; `number` is the event number of the match
    where the row was stale.
    """

    row: Line
    code: Annotated[int, range(1, 1_000)]
    name: Annotated[str, _NAME]
    reporter: Annotated[int | None, range(1, 256)]
    event: Row | None
    number: Annotated[int | None, range(4_096)]
    line: bytes


@dataclass(frozen=True, slots=True)
class LeftOut:
    """An event that a mend leaves out beside the one that it names. `row` is the event's own; that
    of an event past the last line that a number of ten digits names is 0."""

    row: Annotated[int, range(LAST_ROW + 1)]
    reporter: Reporter
    match: Annotated[int, range(1, 13)]
    event: Annotated[str, EVENTS]
    code: Annotated[int, range(1, 1_000)]
    name: Annotated[str, _NAME]
    line: bytes


@dataclass(frozen=True, slots=True)
class Mended:
    """A mend or a club that was taken: a new edition. `without` is the row that it names."""

    row: Line
    edition: Edition
    version: Version
    left_out: Version
    without: Annotated[int | None, range(1, LAST_ROW + 1)]
    line: bytes


@dataclass(frozen=True, slots=True)
class Other:
    """An answer that says nothing new: of `words,,,` or `matches,,,`."""

    row: Line
    line: bytes


Answer = Moment | Accepted | Refused | LeftOut | Mended | Other
KINDS: dict[str, type[Answer]] = {
    **{"screen": Moment, "ok": Accepted, "refused": Refused, "left-out": LeftOut},
    **{"mended": Mended, "words": Other, "matches": Other},
}


@dataclass(frozen=True, slots=True)
class Reply:
    """All that is answered to one row.

    `screen` follows an accepted event and a mend, and is the answer itself where a row asked for
    it; it is None with a refusal. `left_out` is of a mend.
    """

    answer: Moment | Accepted | Refused | Mended | Other
    screen: Moment | None = None
    left_out: tuple[LeftOut, ...] = ()

    @property
    def row(self) -> int:
        """The line of the record that is answered, from 1."""
        return self.answer.row


def kind_in(line: bytes) -> str:
    """What kind of reply a line says that it is, without reading the rest; empty for none."""
    found = _KIND.search(line)
    return found[1].decode() if found else ""


def row_in(line: bytes) -> int:
    """The line of the record that a line says that it answers, without reading the rest; or 0."""
    found = _ROW.search(line)
    return int(found[1]) if found else 0
