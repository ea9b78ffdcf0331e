"""Rows of a record: events, clubs, mends, and the names of events.

No rule of events stands here: what a row changes, and whether it is taken, `ucl_live` says.
"""

import re
from dataclasses import dataclass
from typing import Annotated

SIDES = ("home", "away")
KINDS = ("goal", "disallow", "yellow", "second-yellow", "red")
EVENTS = (
    "kickoff",
    "fulltime",
    "reopen",
    *(f"{kind}-{side}" for kind in KINDS for side in SIDES),
)
GROUPS = "ABCDEFGH"
ORDERS = ("uefa", "away-in-tie")
MATCHES = range(1, 13)
SLOTS = range(1, 5)
REPORTERS = range(1, 256)
LAST_EDITION = 65_535
LAST_NUMBER = 65_535
LAST_ROW = 4_294_967_295
NAME = re.compile("[ -~]{1,20}")
LAST_COEFFICIENT = 999_999
# The row that asks for the screen.
SCREEN = b"screen,,,\n"


@dataclass(frozen=True, slots=True)
class Row:
    """An event of a match, and the event number that its reporter had seen."""

    match: Annotated[int, range(1, 13)]
    expected: Annotated[int, range(LAST_NUMBER + 1)]
    event: Annotated[str, EVENTS]

    @property
    def side(self) -> str:
        """`home` or `away`; empty for an event of no side."""
        return self.event.rpartition("-")[2] if "-" in self.event else ""

    def line(self, reporter: int) -> bytes:
        """The row as a record has it, with its line end."""
        return f"{reporter},{self.match},{self.expected},{self.event}\n".encode()


@dataclass(frozen=True, slots=True)
class Club:
    """A club: its name, and its coefficient in thousandths."""

    club: Annotated[str, NAME]
    coefficient: Annotated[int, range(LAST_COEFFICIENT + 1)]

    def __str__(self) -> str:
        return f"{self.club} {self.coefficient}"


def number_in(text: str, low: int, high: int) -> int | None:
    """The whole number that a text says by ASCII digits alone; None unless it is in the range."""
    if not (text.isascii() and text.isdecimal() and len(text) <= 10):
        return None
    number = int(text)
    return number if low <= number <= high else None


def event_row(text: str) -> tuple[int, Row] | None:
    """The reporter and the row of `1,7,0,kickoff`; None of another text."""
    fields = text.split(",")
    if len(fields) != 4 or fields[3] not in EVENTS:
        return None
    reporter = number_in(fields[0], 1, 255)
    match = number_in(fields[1], 1, 12)
    expected = number_in(fields[2], 0, LAST_NUMBER)
    if reporter is None or match is None or expected is None:
        return None
    return reporter, Row(match, expected, fields[3])


def has_answer(row: bytes) -> bool:
    """Whether a row of an open board has an answer: each has one, but for an empty line.

    Until a board is open, which is with its fourth club, none has.
    """
    return bool(row.strip(b"\r\n"))


def group_row(group: str, order: str) -> bytes:
    """The row with which a record begins."""
    return f"group,{group},{order},0\n".encode()


def club_row(slot: int, club: Club) -> bytes:
    """The row of a club at the beginning of a record."""
    return f"club,{slot},{_quoted(club.club)},{club.coefficient}\n".encode()


def club_mend(slot: int, club: Club) -> bytes:
    """The row of a club on an open board. By its quotes no cut of it is a row that is taken."""
    return f'club,{slot},{_quoted(club.club)},"{club.coefficient}"\n'.encode()


def event_mend(number: int) -> bytes:
    """The row that leaves out the event of this row."""
    return f"mend,{number},,\n".encode()


def edition_mend(edition: int) -> bytes:
    """The row that keeps all events, as of this edition."""
    return f"mend,,{edition},\n".encode()


def result_events(
    goals: tuple[int, int], yellows: tuple[int, int], reds: tuple[int, int]
) -> list[str]:
    """The events of a match that ended so, by the fewest."""
    counts = {"goal": goals, "yellow": yellows, "red": reds}
    events = ["kickoff"]
    for kind, (home, away) in counts.items():
        events += [f"{kind}-home"] * home + [f"{kind}-away"] * away
    return [*events, "fulltime"]


def _quoted(name: str) -> str:
    """A field, in quotes where it needs them."""
    if "," in name or '"' in name:
        return '"' + name.replace('"', '""') + '"'
    return name
