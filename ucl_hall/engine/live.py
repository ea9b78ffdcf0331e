"""The program `ucl_live` as a child that follows a record, and answers each of its rows.

It keeps the newest moment and the events that stand, and hands each new reply to its listeners.
Where the child is killed it is fed the record from its first row; what was handed on before is not
handed on again. All is of one event loop; there is no lock.
"""

import asyncio
from collections.abc import Callable, Sequence

from ucl_hall.engine.answers import Answer, Mended, Moment, Refused, Reply, kind_in, row_in
from ucl_hall.engine.history import Event, History
from ucl_hall.engine.json_lines import NoAnswer, answer_of, reply_of
from ucl_hall.engine.process import Child, ask, last_screen
from ucl_hall.engine.trial import Change, Trial, tried
from ucl_hall.faults import Late, Unknown
from ucl_hall.rows import event_row, has_answer

Listener = Callable[[Reply], None]
# How long a whole reading may take, in seconds.
READING = 60.0


class Live:
    """A `ucl_live` that follows a record. `count` rows were fed to it."""

    def __init__(self, program: str) -> None:
        self._program, self._rows, self.count = program, bytearray(), 0
        words = program, "--format", "json", "--screens"
        self.child = Child(words, self._begun, self._take)
        self.over, self.history = self.child.over, History()
        self.over.add_done_callback(lambda _: self._grown.set())
        self.moment: Moment
        self._listeners: list[Listener] = []
        # The lines of a row that is not answered whole yet.
        self._lines: list[bytes] = []
        self._grown = asyncio.Event()
        # Up to which row all is answered, the last that has an answer, and up to which nothing is
        # handed on.
        self._row = self._wanted = self._quiet = 0

    async def start(self) -> None:
        """Starts the child on the rows that were fed by now, of which it tells nobody.

        Raises Over where they are no record, or the program can not be started.
        """
        # A run of its own tells the moment that stands: it takes a tenth of the time that the
        # child needs, which tells a screen after each event.
        self.moment, is_answered = await last_screen(self._program, bytes(self._rows))
        self._wanted = self._wanted if is_answered else 0
        self._quiet = self.count
        await self.child.start()

    def feed(self, row: bytes) -> int:
        """Hands a row to the child, and gives its number."""
        self._rows += row
        self.count += 1
        if has_answer(row):
            self._wanted = self.count
        self.child.write(row)
        return self.count

    def listen(self, listener: Listener) -> None:
        """Has a listener called with each reply from now on."""
        self._listeners.append(listener)

    async def ready(self) -> None:
        """Waits until all that was fed by now is answered.

        Raises Over where that takes longer than a minute, or the child can go on no more.
        """
        row = self._wanted
        try:
            async with asyncio.timeout(READING):
                while self._row < row:
                    if self.over.done():
                        self.over.result()
                    self._grown.clear()
                    await self._grown.wait()
        except TimeoutError as error:
            raise Late(READING) from error

    async def trial(self, change: Change) -> Trial:
        """What a change would do to the board that stands once all that was fed is answered.

        Raises MendRefused, and Over.
        """
        await self.ready()
        return await tried(self._program, bytes(self._rows), self.moment, change)

    async def came_of(self, rows: Sequence[int]) -> list[Answer | Event]:
        """What came of events and mends that were fed, by the numbers of their rows. Raises Over."""
        answers = {
            it.row: it
            for it in await ask(self._program, bytes(self._rows))
            if isinstance(it, Refused | Mended)
        }
        lines = bytes(self._rows).split(b"\n")
        return [answers.get(row) or _event_of(row, lines[row - 1]) for row in rows]

    def _begun(self) -> bytes:
        self._lines = []
        return bytes(self._rows)

    def _take(self, line: bytes) -> bool:
        """Takes a line: a row's answers are whole with its screen, or where none follows."""
        self._lines.append(line)
        if kind_in(line) in ("ok", "mended", "left-out"):
            return False
        lines, self._lines = self._lines, []
        row = row_in(line)
        if row <= self._row:
            return False
        self._row = row
        for noted in lines[:-1]:
            self.history.note(noted)
        if row > self._quiet:
            self._hand_on(lines)
        self._grown.set()
        return True

    def _hand_on(self, lines: list[bytes]) -> None:
        try:
            reply = reply_of([answer_of(line) for line in lines])
        except NoAnswer as error:
            raise Unknown(lines[-1][:80]) from error
        if reply.screen is not None:
            self.moment = reply.screen
        for listener in self._listeners:
            listener(reply)


def _event_of(number: int, line: bytes) -> Event:
    """The event that an accepted row has entered."""
    found = event_row(line.decode())
    assert found is not None
    return Event(number, found[0], found[1].match, found[1].event)
