"""A reporter's session: what is typed goes to a board with what was seen, and what comes of it is
told.

All is of one event loop, and there is no lock. A line is worked out in the very turn of the loop in
which Enter was pressed; a task of its own waits for its answers.
"""

import asyncio
from collections.abc import Coroutine, Sequence
from dataclasses import dataclass
from typing import Protocol

from ucl_hall.engine.answers import Accepted, Mended, Refused, Reply
from ucl_hall.engine.history import Event
from ucl_hall.engine.trial import Change, Changed, MendRefused, Trial
from ucl_hall.faults import Fault, NotEntered
from ucl_hall.program import text_of
from ucl_hall.record.board import Board
from ucl_hall.record.sending import Entered, Events, Mend, Outcome, Way
from ucl_hall.rows import Row
from ucl_hall.terminal import words
from ucl_hall.terminal.grammar import LINES, Help, MatchAsked, NewEvents, Numbered, Typed, typed
from ucl_hall.terminal.pending import Pending, Seen, Sent
from ucl_hall.text import printable

# The column behind what was typed, where what comes of it is told.
WIDTH = 23


class Display(Protocol):
    """Where a session is shown."""

    def show(self, *lines: str) -> None:
        """Prints lines."""

    def refresh(self) -> None:
        """Draws what has changed beside them."""


class Printed:
    """A display of lines alone."""

    def show(self, *lines: str) -> None:
        for line in lines:
            print(printable(line), flush=True)

    def refresh(self) -> None:
        """Nothing stands beside lines."""


@dataclass(frozen=True, slots=True)
class Question:
    """A change that is asked about: what was typed, and what it would do."""

    text: str
    trial: Trial


class Session:
    """The lines of a reporter."""

    def __init__(self, board: Board, own: int, matches: Sequence[int], display: Display) -> None:
        self.board, self.own, self.matches = board, own, list(matches)
        self.question: Question | None = None
        self.pending = Pending(board.moment)
        self._display, self._edition = display, board.moment.edition
        self._tasks: set[asyncio.Task[None]] = set()

    async def idle(self, seconds: float) -> None:
        """Waits until nothing waits for an answer any more, or so long at most."""
        if self._tasks:
            await asyncio.wait(self._tasks, timeout=seconds)

    def enter(self, text: str, seen: Seen) -> None:
        """Takes a line that was typed when this was seen, and has shown what comes of it."""
        try:
            line = typed(text)
            if line is not None:
                self._start(text, self.take(text, line, seen))
        except Fault as fault:
            self._tell(text, str(fault))

    def answer(self, text: str) -> None:
        """Takes the answer to the question."""
        question, self.question = self.question, None
        if question is None:
            return
        if words.is_yes(text):
            self._start(question.text, self.mend(question))
        else:
            self._display.show("Nothing is appended")
        self._display.refresh()

    def take(self, text: str, line: Typed, seen: Seen) -> Coroutine[None, None, None]:
        """Takes a line that was typed when this was seen: its rows are on their way from this call
        on. Awaited, it tells what comes of them, and raises what the board raises.

        Raises NotEntered where it is not for this reporter to enter, or waits already.
        """
        text = " ".join(text.split())
        if isinstance(line, Help):
            return self._shown(*LINES.splitlines())
        if isinstance(line, MatchAsked):
            self._check_own(line.match)
            return self._show_match(line.match)
        if isinstance(line, Change):
            return self.propose(text, line)
        rows = self._rows_of(line, seen)
        if any(row in it.rows for it in self.pending.unanswered for row in rows):
            raise NotEntered("this row waits for its answer")
        sent = Sent(text, rows)
        self.pending.add(sent)
        self._display.refresh()
        # A row with its number may have been given before.
        way = Way.AGAIN if isinstance(line, Numbered) else Way.FIRST
        return self._enter(sent, Events(self.own, tuple(rows), seen.moment.edition, way))

    def _rows_of(self, line: NewEvents | Numbered, seen: Seen) -> list[Row]:
        if isinstance(line, Numbered):
            self._check_own(line.row.match)
            if line.reporter != self.own:
                raise NotEntered(f"no event of reporter {self.own}; --help has them all")
            return [line.row]
        self._check_own(line.match)
        number = seen.moment.match(line.match).number + seen.waiting.count(line.match)
        if line.is_result and number:
            raise NotEntered(
                f"match {line.match} has events: a result is for a match without any; enter what "
                "is missing by itself"
            )
        return [Row(line.match, number + place, it) for place, it in enumerate(line.events)]

    async def _shown(self, *lines: str) -> None:
        self._display.show(*lines)

    async def _show_match(self, match: int) -> None:
        """Shows a match and its events, each with its row."""
        await self.board.ready()
        self._display.show(*words.matches(self.board.moment, [match]))
        for it in self.board.events(match):
            self._display.show(f"   {words.event(it.row, match, it.event, it.reporter)}")

    async def propose(self, text: str, change: Change) -> None:
        """Shows what a change would do, and asks.

        Raises NotEntered where it is refused.
        """
        try:
            self._ask(Question(text, await self.board.trial(change)))
        except MendRefused as fault:
            raise NotEntered(words.refused(fault.answer)) from fault

    def _ask(self, question: Question) -> None:
        self.question = question
        self._display.show(*words.proposal(question.text, question.trial))
        self._display.refresh()

    async def mend(self, question: Question) -> None:
        """Enters what was asked about, and shows what came of it.

        Raises NotEntered; if it would do something else by now the question is asked anew.
        """
        try:
            (outcome,) = await self.board.enter(Mend(question.trial))
        except MendRefused as fault:
            raise NotEntered(words.refused(fault.answer)) from fault
        except Changed as changed:
            self._display.show(str(changed))
            self._ask(Question(question.text, changed.trial))
        else:
            self._tell(question.text, f"entered, row {outcome.row}")

    async def _enter(self, sent: Sent, events: Events) -> None:
        """Has the rows of a line entered, and tells what came of them."""
        try:
            outcomes = await self.board.enter(events)
            for row, outcome in zip(sent.rows, outcomes):
                if isinstance(outcome, Entered):
                    sent.numbers[row] = outcome.match.number
        finally:
            self.pending.done(sent)
            self._display.refresh()
        for row, outcome in zip(sent.rows, outcomes):
            if isinstance(outcome, Refused):
                raise NotEntered(words.refused(outcome, row))
        self._tell(sent.text, self._told_of(outcomes[-1]))

    def _told_of(self, outcome: Outcome) -> str:
        if isinstance(outcome, Event):
            return "passed over: the board has it"
        entered = f"entered, row {outcome.row}"
        if isinstance(outcome, Entered):
            return f"{entered}: {words.match(self.board.moment.title, outcome.match)}"
        return entered

    def _start(self, text: str, work: Coroutine[None, None, None]) -> None:
        """Starts work for what was typed, and has its fault told."""

        async def told_of() -> None:
            try:
                await work
            except (Fault, OSError) as fault:
                self._tell(text, text_of(fault))

        task = asyncio.create_task(told_of())
        self._tasks.add(task)
        task.add_done_callback(self._tasks.discard)

    def heard(self, reply: Reply) -> None:
        """Shows what others enter: a listener of the board."""
        answer, moment = reply.answer, reply.screen or self.board.moment
        if self._edition != self.board.moment.edition:
            self._edition = self.board.moment.edition
            self._display.show(f"Edition {self._edition} has begun: look at the matches")
        if isinstance(answer, Mended) and reply.left_out:
            self._display.show(*words.again(reply.left_out))
        elif isinstance(answer, Accepted) and not self._is_own(answer):
            row = answer.event
            told = words.event(answer.row, row.match, row.event, answer.reporter)
            self._display.show(f"{told}: {words.match(moment.title, moment.match(row.match))}")
        self._display.refresh()

    def _is_own(self, answer: Accepted) -> bool:
        return answer.reporter == self.own and self.pending.has(answer.event)

    def _check_own(self, match: int) -> None:
        if match not in self.matches:
            raise NotEntered(f"match {match} is not yours")

    def _tell(self, text: str, what: str) -> None:
        self._display.show(f"{' '.join(text.split()):{WIDTH}} {what}")
