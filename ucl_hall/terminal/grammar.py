"""Lines that a person types: an event, a result, a mend, a club, a match, a row with its number."""

import difflib
import re
from dataclasses import dataclass

from ucl_hall.engine.trial import Change, ClubChange, LeaveOut, NewEdition
from ucl_hall.faults import NotEntered
from ucl_hall.rows import EVENTS, LAST_COEFFICIENT, LAST_ROW, NAME, SIDES, Row, event_row
from ucl_hall.rows import number_in, result_events

COMMANDS = ("mend", "club", "coefficient", "help")
_RESULT = re.compile(
    r"(\d{1,2})-(\d{1,2})(?: yellows (\d{1,2})-(\d{1,2}))?(?: reds (\d{1,2})-(\d{1,2}))?"
)
_MOST_GOALS, _MOST_YELLOWS, _MOST_REDS = 63, 63, 31
# What `help` shows.
LINES = """A line is a match and an event; Ctrl-D ends:

    1 kickoff    1 goal home    1 disallow home    1 yellow away    1 second-yellow away
    1 red away   1 fulltime     1 reopen
    1            shows the events of match 1, each with its row
    1 result 2-1 yellows 0-1 reds 0-0    enters a match that was played before; without the cards
                                         it had none

An event goes with the event number that stood on the screen when its first letter was there: of two
reporters who type one goal the second is refused. What is refused is not entered: look at the
match, and type it again if it still holds. Tab completes a line, and the arrow keys bring back what
was typed before.

These put a mistake right. Each shows the table before and after, says what else is left out, and
asks; then the next edition of the board begins:

    mend 17                 without the event of row 17, and without what needs it
    club 2 Real Madrid      with another name in slot 2
    coefficient 1 61000     with another coefficient in slot 1
    mend                    as it is: after a machine went down"""


@dataclass(frozen=True, slots=True)
class Help:
    """`help`."""


@dataclass(frozen=True, slots=True)
class MatchAsked:
    """A match alone: its events are shown."""

    match: int


@dataclass(frozen=True, slots=True)
class NewEvents:
    """Events of a match, to be entered one after the other; of a result several."""

    match: int
    events: tuple[str, ...]
    is_result: bool


@dataclass(frozen=True, slots=True)
class Numbered:
    """A row with its reporter and its number."""

    reporter: int
    row: Row


# What a line says; a change is `mend 17`, `mend`, `club 2 Real Madrid` or `coefficient 1 61000`.
Typed = Help | MatchAsked | NewEvents | Numbered | Change


def typed(text: str) -> Typed | None:
    """What a line says; None of an empty one.

    Raises NotEntered where it says nothing, with the nearest that does.
    """
    words = text.split()
    if not words:
        return None
    first = words[0].lower()
    if first == "help" and len(words) == 1:
        return Help()
    if first == "mend":
        return _mend(words[1:])
    if first in ("club", "coefficient"):
        return _club(first, text)
    if "," in first:
        found = event_row(first)
        if found is None or len(words) > 1:
            raise NotEntered("this is no row of an event; help shows them all")
        return Numbered(*found)
    if not (first.isascii() and first.isdecimal()):
        raise NotEntered(no_line(words))
    match = number_in(first, 1, 12)
    if match is None:
        raise NotEntered("there is no such match: they are 1 to 12")
    if len(words) == 1:
        return MatchAsked(match)
    rest = [word.lower() for word in words[1:]]
    if rest[0] == "result":
        return NewEvents(match, tuple(result_of(" ".join(rest[1:]))), True)
    event = "-".join(rest)
    if event not in EVENTS:
        raise NotEntered(no_line(words))
    return NewEvents(match, (event,), False)


def result_of(text: str) -> list[str]:
    """The events of `2-1 yellows 0-1 reds 0-0`.

    Raises NotEntered where the text is no result.
    """
    found = _RESULT.fullmatch(text)
    if found is not None:
        home, away, *cards = (int(number or 0) for number in found.groups())
        most = (_MOST_YELLOWS, _MOST_YELLOWS, _MOST_REDS, _MOST_REDS)
        is_small = all(card <= limit for card, limit in zip(cards, most))
        if is_small and home <= _MOST_GOALS and away <= _MOST_GOALS:
            return result_events((home, away), (cards[0], cards[1]), (cards[2], cards[3]))
    raise NotEntered(
        "a result is 1 result 2-1, or with standing yellows and expulsions "
        "1 result 2-1 yellows 0-1 reds 0-0"
    )


def checked_name(text: str) -> str:
    """A name of a club.

    Raises NotEntered where it is none.
    """
    if NAME.fullmatch(text):
        return text
    raise NotEntered(
        "a name has 1 to 20 letters without accents, digits, spaces and punctuation: "
        "Atletico for Atlético"
    )


def checked_coefficient(text: str) -> int:
    """A coefficient in thousandths, of `35500` or `35.500`.

    Raises NotEntered where it is none.
    """
    whole, dot, thousandths = text.partition(".")
    if not dot or len(thousandths) == 3:
        number = number_in(whole + thousandths, 0, LAST_COEFFICIENT)
        if number is not None and whole:
            return number
    raise NotEntered(
        "a coefficient is a whole number of thousandths, at most 999999: 35.500 is 35500"
    )


def no_line(words: list[str]) -> str:
    """Why words are no line, with the nearest that are one."""
    first, *rest = [word.lower() for word in words]
    is_event = first.isascii() and first.isdecimal()
    known = [*EVENTS, "result"] if is_event else [*COMMANDS]
    near = difflib.get_close_matches("-".join(rest)[:40] if is_event else first[:40], known, 1, 0.5)
    if not near:
        return "this is no event and no command; help shows them all"
    kind, _, last = near[0].rpartition("-")
    guesses = [near[0].replace("-", " ")]
    if kind:
        named = [word for word in rest if word in SIDES][:1]
        guesses = [f"{kind.replace('-', ' ')} {side}" for side in named or SIDES]
    before = f"{first} " if is_event else ""
    told = " or ".join(f"{before}{guess}" for guess in guesses)
    return f"this is no event and no command; {told}?"


def _mend(words: list[str]) -> LeaveOut | NewEdition:
    if not words:
        return NewEdition()
    row = number_in(words[0], 1, LAST_ROW)
    if row is None or len(words) > 1:
        raise NotEntered("type mend 17 with the row of an event, or mend alone")
    return LeaveOut(row)


def _club(first: str, text: str) -> ClubChange:
    found = re.fullmatch(r"\s*\S+\s+([1-4])\s+(.*?)\s*", text)
    if found is None:
        raise NotEntered("type club 2 Real Madrid, or coefficient 1 61000, with a slot from 1 to 4")
    if first == "club":
        return ClubChange(int(found[1]), name=checked_name(found[2]))
    return ClubChange(int(found[1]), coefficient=checked_coefficient(found[2]))
