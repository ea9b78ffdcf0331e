"""A board behind a server, by the link of a reporter: a terminal connects as a phone does."""

import asyncio
from collections import defaultdict
from collections.abc import Callable, Sequence

from ucl_hall.engine.answers import Accepted, LeftOut, Mended, Moment, Reply
from ucl_hall.engine.history import Event
from ucl_hall.engine.json_lines import NoAnswer, answer_of, line_of, part_of, reply_of
from ucl_hall.engine.trial import Change, Trial
from ucl_hall.faults import Dropped, Lost, MaybeEntered, NotEntered, kind_of
from ucl_hall.remote.link import LONGEST, Link, Said, text_of
from ucl_hall.record.sending import Entered, Events, Outcome, Sending, Way, new_id
from ucl_hall.rows import MATCHES, REPORTERS, Row
from ucl_hall.text import printable, warn

# The most characters of a fault of the server that are told.
LONGEST_FAULT = 400
# By what name of its id a message is sent.
NAMES = {Way.FIRST: "tap", Way.AGAIN: "again", Way.ASKED: "ask"}

AtDesk = kind_of(NotEntered, "a mend is entered at the desk, on the machine that has the record")
TooLong = kind_of(
    NotEntered, "these are too many events for one line from here: enter fewer at a time"
)
# A match is another reporter's by now, and was so when it was typed, or not when it was sent.
NotYours = kind_of(NotEntered, "match {} is not yours")
NoMoreYours = kind_of(
    MaybeEntered, "match {} is not yours any more; " + MaybeEntered.text.partition(": ")[2]
)
# The server says why nobody knows whether it is in.
Told = kind_of(MaybeEntered, "{}")


class Remote:
    """A board that is followed by a link. `Remote.open` makes one, and `close` ends it.

    `number` and `matches` are the reporter's. `tell` is called where the connection is lost, with
    what that means, and with an empty text once it is there again.
    """

    def __init__(self, url: str) -> None:
        self.number, self.matches = 0, list[int]()
        self.tell = _warn
        self._link = Link(url, self._heard, lambda notice: self.tell(notice))
        self._moment: Moment | None = None
        self._listeners: list[Callable[[Reply], None]] = []
        # What came of a mend before its screen, and the last event that was told.
        self._begun: list[LeftOut | Mended] = []
        self._row, self._grown = 0, asyncio.Event()
        self._events = defaultdict[int, list[Event]](list)
        loop = asyncio.get_running_loop()
        # Whose link it is, and what stands, is known; and it can be followed no more.
        self._known: asyncio.Future[None] = loop.create_future()
        self.over: asyncio.Future[None] = loop.create_future()
        self._task = asyncio.create_task(self._run())

    @classmethod
    async def open(cls, url: str) -> "Remote":
        """Follows a board from now on, as soon as its server is there.

        Raises Over where it knows no such link.
        """
        remote = cls(url)
        try:
            either = [remote._known, remote.over]
            await asyncio.wait(either, return_when=asyncio.FIRST_COMPLETED)
            if remote.over.done():
                remote.over.result()
        except BaseException:
            await remote.close()
            raise
        return remote

    async def close(self) -> None:
        """Ends following it."""
        self._task.cancel()
        await asyncio.gather(self._task, return_exceptions=True)

    @property
    def moment(self) -> Moment:
        assert self._moment is not None
        return self._moment

    def listen(self, listener: Callable[[Reply], None]) -> None:
        self._listeners.append(listener)

    def events(self, match: int) -> Sequence[Event]:
        return self._events[match]

    async def ready(self) -> None:
        id = new_id()
        asked = {"events": id}
        said = await self._link.ask(id, asked, asked)
        self._events.clear()
        for event in _list(said, "events"):
            known = part_of(Event, event)
            self._events[known.match].append(known)

    async def enter(self, sending: Sending) -> Sequence[Outcome]:
        if not isinstance(sending, Events):
            raise AtDesk
        first = _message(sending)
        if first["match"] not in self.matches:
            raise NotYours(first["match"])
        if len(text_of(first)) > LONGEST:
            raise TooLong
        again = _message(sending, "again" if sending.way is Way.FIRST else NAMES[sending.way])
        said = await self._link.ask(sending.id, first, again, len(sending.rows))
        outcomes = _outcomes(said, len(sending.rows))
        entered = [
            row for row, it in zip(sending.rows, outcomes) if isinstance(it, Entered | Event)
        ]
        await self._reach(entered, sending.edition)
        if sending.way is not Way.FIRST:
            return outcomes
        # What was sent again, and stands, came in when it was sent first.
        return [self._came(it) if isinstance(it, Event) else it for it in outcomes]

    async def trial(self, change: Change) -> Trial:
        raise AtDesk

    async def _reach(self, rows: Sequence[Row], edition: int) -> None:
        """Waits for a moment that has these events: on a slow line an answer may overtake it."""
        while self.moment.edition == edition and not self.over.done():
            if all(self.moment.match(row.match).number > row.expected for row in rows):
                return
            self._grown.clear()
            await self._grown.wait()

    def _came(self, event: Event) -> Entered:
        return Entered(event.row, self.moment.match(event.match))

    async def _run(self) -> None:
        try:
            await self._link.run()
        except Exception as fault:  # whatever it is, who waits has to know
            self.over.set_exception(fault)
            self.over.exception()
            for sent in self._link.waiting:
                sent.answer.set_exception(fault)
            self._grown.set()

    def _heard(self, said: Said, line: bytes) -> None:
        """Takes a line: one that is none of a server's changes nothing."""
        try:
            match said.get("reply"):
                case "reporter":
                    self._name(said)
                case "left-out" | "mended" | "screen":
                    self._take(line)
                case "recent" if self._moment is not None:
                    self._take_events([_numbered(it) for it in _list(said, "events")])
        except NoAnswer:
            return

    def _name(self, said: Said) -> None:
        number, matches = said.get("number"), _list(said, "matches")
        if type(number) is not int or number not in REPORTERS:
            raise NoAnswer("it names no reporter")
        if not matches or any(it not in MATCHES for it in matches):
            raise NoAnswer("it names no matches")
        self.number, self.matches = number, [it for it in MATCHES if it in matches]
        # The server may have been started anew, with other matches of this reporter.
        for sent in self._link.waiting:
            match = sent.first.get("match", self.matches[0])
            if match not in self.matches:
                fault = NoMoreYours(match) if sent.is_sent else NotYours(match)
                sent.answer.set_exception(fault)

    def _take(self, line: bytes) -> None:
        answer = answer_of(line)
        if isinstance(answer, LeftOut | Mended):
            self._begun.append(answer)
        elif isinstance(answer, Moment):
            begun, self._begun, self._moment = self._begun, [], answer
            self._grown.set()
            # On a slow line screens are left out, and a mend with them.
            of_one = {it.row for it in begun if isinstance(it, Mended)} == {answer.row}
            self._hand_on(reply_of([*begun, answer] if of_one else [answer]))

    def _take_events(self, events: list[tuple[Event, int]]) -> None:
        """Takes the last events: those that are new are told, but for those of the beginning."""
        row, moment = self._row, self.moment
        self._row = max([row, *(event.row for event, _ in events)])
        for event, number in reversed(events):
            if event.row > row and self._known.done():
                told = Row(event.match, number - 1, event.event)
                age = moment.edition, moment.version
                answer = Accepted(event.row, event.reporter, told, number, *age, b"")
                self._hand_on(Reply(answer, moment))
        if self.number and not self._known.done():
            self._known.set_result(None)

    def _hand_on(self, reply: Reply) -> None:
        for listener in self._listeners:
            listener(reply)


def _warn(notice: str) -> None:
    warn(f"ucl_reporter: {notice or 'connected again'}")


def _message(events: Events, name: str = "") -> Said:
    """A message, as it is sent under this name."""
    first = events.rows[0]
    whose = {name or NAMES[events.way]: events.id, "edition": events.edition}
    rows = {"match": first.match, "expected": first.expected}
    return {**whose, **rows, "events": [row.event for row in events.rows]}


def _outcomes(said: Said, count: int) -> list[Outcome]:
    """What came of so many events, by the answer to them.

    Raises what the board has raised there.
    """
    outcomes, why = said.get("outcomes"), printable(str(said.get("fault")), LONGEST_FAULT)
    if isinstance(outcomes, list) and len(outcomes) == count:
        try:
            return [_outcome(it) for it in outcomes]
        except NoAnswer as error:
            raise MaybeEntered("the server is of another version") from error
    edition = said.get("edition")
    if said.get("name") == "dropped" and isinstance(edition, int):
        raise Dropped(edition)
    if said.get("name") == "lost":
        raise Lost
    if said.get("name") == "not-entered":
        raise NotEntered(why)
    raise Told(why)


def _outcome(said: object) -> Outcome:
    if not isinstance(said, dict):
        raise NoAnswer("it is no object")
    if "reply" in said:
        members = {name: value for name, value in said.items() if name != "reply"}
        return answer_of(line_of(str(said["reply"]), **members))
    return part_of(Entered, said) if "state" in said else part_of(Event, said)


def _numbered(said: object) -> tuple[Event, int]:
    """An event, and the event number that it has given its match."""
    event = part_of(Event, said)
    number = said.get("number") if isinstance(said, dict) else None
    if type(number) is not int or not 0 < number < 4_096:
        raise NoAnswer("it has no number")
    return event, number


def _list(said: Said, name: str) -> list[object]:
    value = said.get(name)
    if not isinstance(value, list):
        raise NoAnswer(f"{name} is no list")
    return value
