"""What a phone sends, and what a reporter's phones are answered.

From a phone, at most 1 KiB each:
    {"tap":ID,"edition":0,"match":1,"expected":4,"event":"goal-home"}   enter this, if the match has
        event number 4 still, and the board is of that edition; ID is 32 random hexadecimal digits
    {"ask":ID,..}   the same tap, whose answer did not come: what became of it? It enters nothing
From a terminal also:
    {"again":ID,..}   the same tap, whose answer did not come: enter it, if it is not there
    {"tap":ID,..,"events":["kickoff","goal-home"]}   in place of one event several, one behind the
        other
    {"events":ID}   which events stand?
To a phone, each a line of JSON:
    {"reply":"reporter","number":1,"group":"A","matches":[1,2],"title":""}   first: whose link it is;
        of a record in etcd also "at":[URL,..],"resends":true: all servers that have it, and that a
        tap without an answer may be sent again
    {"reply":"screen",..}, {"reply":"mended",..}, {"reply":"left-out",..}    lines of `ucl_live`
    {"reply":"recent","events":[{"row":17,"reporter":2,"match":1,"event":"goal-home","number":3},
        ..]}   after a screen: its last ten events, the newest first
    {"reply":"phones","count":2}   how many phones have this link, whenever that changes
    {"reply":"pulse","groups":"A"}   twice a second, with the groups whose board is there
    {"reply":"answer","id":ID,"name":"entered","told":"Entered, 1-0","edition":0,"outcomes":[..]}
        to the phone that sent it; or the name of a refusal, with a sentence. Of each event it has
        the match as it stood then, with the row; or the event that stands; or the refusal of
        `ucl_live`; where there is none of these, `fault` says why
    {"reply":"events","id":ID,"events":[..]}   all that stand of this reporter's matches, as above
It asks for the WebSocket `taps` beside its page, with `?page=` and any text of its own: a page that
connects anew under the same text has its old connection ended.
To a screen: {"reply":"hall","title":"","groups":"AB","tonight":{"A":[1,2]}}, with "at" where others
serve the same, screens, and each second a pulse.
"""

import json
import re
from collections.abc import Sequence
from dataclasses import asdict, dataclass, replace

from ucl_hall.engine.answers import Refused
from ucl_hall.engine.history import Event
from ucl_hall.engine.json_lines import line_of
from ucl_hall.faults import Dropped, Fault, Lost, MaybeEntered, NotEntered
from ucl_hall.program import text_of
from ucl_hall.record.board import Board
from ucl_hall.record.sending import Entered, Events, Outcome, Way
from ucl_hall.refusals import ADVICE
from ucl_hall.rows import EVENTS, LAST_EDITION, LAST_NUMBER, Row
from ucl_hall.text import members_of
from ucl_hall.web.connections import Screens
from ucl_hall.web.visitors import A_SECOND, AT_ONCE, Allowance, Visitor

# How many messages the phones of a link send in a second, each of an event; one may have several,
# of which there are so many at once.
MOST_MESSAGES, MOST_EVENTS = 20, 100
_ID = re.compile("[0-9a-f]{32}")
# How a tap is sent, by the name of its id.
WAYS = {"tap": Way.FIRST, "again": Way.AGAIN, "ask": Way.ASKED}


@dataclass(frozen=True, slots=True)
class Asked:
    """It is asked which events stand."""

    id: str


@dataclass(frozen=True, slots=True)
class Answer:
    """What became of a tap: `entered` or the name of what it was refused by, and a sentence; in
    full what came of each event, or the fault by which nothing did."""

    name: str
    told: str
    outcomes: Sequence[Outcome] = ()
    fault: str = ""


def message_of(text: str, matches: Sequence[int]) -> Events | Asked:
    """What a phone sent, of a reporter of these matches; events as those of reporter 0, since a
    message does not say whose it is.

    Raises ValueError where it is nothing.
    """
    said = members_of(text)
    if isinstance(said.get("events"), str):
        return Asked(_id(said["events"]))
    ways = [way for way in WAYS if way in said]
    if len(ways) != 1:
        raise ValueError("it is no tap")
    edition = _whole(said.get("edition"), 0, LAST_EDITION)
    match = _whole(said.get("match"), 1, 12)
    expected = _whole(said.get("expected"), 0, LAST_NUMBER)
    if match not in matches:
        raise ValueError("the match is another reporter's")
    events = said["events"] if "events" in said else [said.get("event")]
    if not isinstance(events, list) or not events or any(it not in EVENTS for it in events):
        raise ValueError("it has no event")
    if expected + len(events) > LAST_NUMBER:
        raise ValueError("a match has no such number")
    rows = tuple(Row(match, expected + place, it) for place, it in enumerate(events))
    return Events(0, rows, edition, WAYS[ways[0]], _id(said[ways[0]]))


class Reporter:
    """A reporter of a board, with one phone or several."""

    def __init__(self, board: Board, number: int, matches: Sequence[int]) -> None:
        self.number, self.matches = number, tuple(matches)
        self.phones = Screens()
        # The connections of its pages, by what each page calls itself, and what they may send.
        self.pages: dict[object, Visitor] = {}
        self.bytes = Allowance(AT_ONCE, A_SECOND)
        self.messages = Allowance(MOST_MESSAGES, MOST_MESSAGES)
        self.events = Allowance(MOST_EVENTS, MOST_MESSAGES)
        self._board = board

    def may(self, message: Events | Asked) -> bool:
        """Whether its phones may send this now. Who asks for all events is sent many."""
        cost = MOST_MESSAGES if isinstance(message, Asked) else len(message.rows)
        return self.events.takes(cost)

    async def reply(self, message: Events | Asked) -> bytes:
        """The line that a phone is sent for what it sent."""
        if isinstance(message, Asked):
            await self._board.ready()
            told = [it for match in self.matches for it in events_told(self._board, match)]
            return line_of("events", id=message.id, events=told)
        answer, edition = await self._answer(message), self._board.moment.edition
        return line_of(
            "answer",
            id=message.id,
            name=answer.name,
            told=answer.told,
            fault=answer.fault,
            edition=edition,
            outcomes=[_members_of(it) for it in answer.outcomes],
        )

    async def _answer(self, tap: Events) -> Answer:
        """Enters a tap, or says what became of it; the same to its id from then on. One that has
        not come by the time that it is asked about is never entered."""
        try:
            outcomes = await self._board.enter(replace(tap, reporter=self.number))
        except Dropped:
            return _refusal("dropped")
        except Lost:
            return _refusal("lost")
        except NotEntered as fault:
            return Answer("not-entered", _sentence(str(fault)), fault=str(fault))
        except (MaybeEntered, OSError) as fault:
            told = "It may be entered: look at the match before you tap again"
            return Answer("maybe", told, fault=text_of(fault))
        except Fault as fault:
            told = f"{_sentence(str(fault))[:40]}: it may be entered, so look"
            return Answer("maybe", told, fault=str(fault))
        return _answer_of(outcomes)


def events_told(board: Board, match: int, most: int = LAST_NUMBER) -> list[dict[str, object]]:
    """The last events of a match that stand, with the event number that each has given it."""
    events = board.events(match)
    first = max(0, len(events) - most)
    return [_told(it) | {"number": place} for place, it in enumerate(events[first:], first + 1)]


def _told(event: Event) -> dict[str, object]:
    members = {"row": event.row, "reporter": event.reporter}
    return {**members, "match": event.match, "event": event.event}


def _answer_of(outcomes: Sequence[Outcome]) -> Answer:
    """The answer to a tap by what came of its events: the first refusal, or else the last."""
    refused = [it for it in outcomes if not isinstance(it, Event | Entered)]
    if refused:
        name = refused[0].name if isinstance(refused[0], Refused) else "bad-row"
        return replace(_refusal(name), outcomes=outcomes)
    last = outcomes[-1]
    if isinstance(last, Entered):
        home, away = last.match.score
        return Answer("entered", f"Entered, {home}\N{EN DASH}{away}", outcomes)
    return Answer("entered", "Entered", outcomes)


def _members_of(outcome: Outcome) -> dict[str, object]:
    if isinstance(outcome, Entered):
        return {**asdict(outcome.match), "row": outcome.row}
    if isinstance(outcome, Event):
        return _told(outcome)
    said: dict[str, object] = json.loads(outcome.line)
    return said


def _refusal(name: str) -> Answer:
    told = ADVICE[name].tapped if name in ADVICE else name
    return Answer(name, f"Not entered: {told}")


def _sentence(text: str) -> str:
    return text[:1].upper() + text[1:]


def _id(value: object) -> str:
    if not isinstance(value, str) or not _ID.fullmatch(value):
        raise ValueError("it has no id")
    return value


def _whole(value: object, low: int, high: int) -> int:
    if type(value) is not int or not low <= value <= high:
        raise ValueError(f"it has no number from {low} to {high}")
    return value
