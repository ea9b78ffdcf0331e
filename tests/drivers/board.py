"""A board of its own, as terminals and servers use one: what it answers is given by the test."""

import asyncio
from collections.abc import Callable, Sequence
from typing import TypeVar

import model

from ucl_hall.engine.answers import Moment, Reply
from ucl_hall.engine.history import Event
from ucl_hall.engine.json_lines import answer_of
from ucl_hall.engine.trial import Change, Trial
from ucl_hall.record.sending import Outcome, Sending

Given = TypeVar("Given")


class Board:
    """A board without a record. It answers what is sent by what was put into `answers`: what came
    of it, or a fault; and a change by the next of `trials`. Of its events those in `stand` stand.
    """

    def __init__(self, moment: Moment) -> None:
        self.moment = moment
        self.over: asyncio.Future[None] = asyncio.get_running_loop().create_future()
        self.answers: list[Sequence[Outcome] | Exception] = []
        self.trials: list[Trial | Exception] = []
        self.stand: list[Event] = []
        self.sent: list[Sending] = []
        self._listeners: list[Callable[[Reply], None]] = []

    def listen(self, listener: Callable[[Reply], None]) -> None:
        """Has a listener called with each reply."""
        self._listeners.append(listener)

    def tell(self, reply: Reply) -> None:
        """Tells a reply, whose moment stands from now on."""
        self.moment = reply.screen or self.moment
        for listener in self._listeners:
            listener(reply)

    def events(self, match: int) -> Sequence[Event]:
        """Those of a match."""
        return [it for it in self.stand if it.match == match]

    async def ready(self) -> None:
        """It is."""

    async def enter(self, sending: Sending) -> Sequence[Outcome]:
        """Answers as it was told to."""
        self.sent.append(sending)
        return given(self.answers.pop(0))

    async def trial(self, change: Change) -> Trial:
        """Answers as it was told to."""
        return given(self.trials.pop(0))

    async def close(self) -> None:
        """Ends nothing."""


def given(answer: Given | Exception) -> Given:
    """What a board answers, or its fault, which is raised."""
    if isinstance(answer, Exception):
        raise answer
    return answer


def lines_to(rows: str) -> list[bytes]:
    """The answers to these rows in JSON, with screens, by the rules."""
    output: str = model.Session(["--format", "json", "--screens"]).of(rows)[1]
    return [line.encode() for line in output.splitlines()]


def moment_of(rows: str) -> Moment:
    """The moment behind these rows, by the rules."""
    return [it for it in map(answer_of, lines_to(rows)) if isinstance(it, Moment)][-1]
