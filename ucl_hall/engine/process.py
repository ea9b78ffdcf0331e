"""Programs as children: what a run over some rows answers, and a child that is started again
wherever it is killed."""

import asyncio
import contextlib
from collections.abc import Callable
from dataclasses import replace

from ucl_hall.engine.answers import Answer, Moment, kind_in
from ucl_hall.engine.json_lines import NoAnswer, answer_of
from ucl_hall.faults import Ended, Failed, Killed, NotStarted, Unknown
from ucl_hall.rows import SCREEN
from ucl_hall.text import printable

# How much of the output is read at once, in bytes.
PIECE = 1 << 20
# How often a run is repeated that was killed; how often a child may end with nothing new before it
# is given up, and how long to wait until it is started again, in seconds.
MOST_RUNS, MOST_STARTS, PAUSE = 3, 20, 0.05


async def ask(program: str, rows: bytes) -> list[Answer]:
    """What one run of `ucl_live` answers to these rows, but for accepted events.

    Raises Over where it refuses the rows as a record, or fails.
    """
    lines = (await _output(program, rows)).split(b"\n")
    # Of an accepted event nothing is asked here, and a full record has 49,140 of them.
    return [_known(line) for line in lines if line and kind_in(line) != "ok"]


async def last_screen(program: str, rows: bytes) -> tuple[Moment, bool]:
    """The moment after these rows, with the number of the last of them; and whether one of them
    has an answer.

    Raises Over where they are no record, or the program fails.
    """
    output = await _output(program, rows + SCREEN)
    *before, screen = output.rstrip(b"\n").rsplit(b"\n", 2)[-2:]
    moment = _known(screen)
    if not isinstance(moment, Moment):
        raise Unknown(screen[:80])
    return replace(moment, row=rows.count(b"\n")), bool(before)


class Child:
    """A program that is fed, whose lines are taken as they come.

    `begun` gives all that one which is started has to know. `take` says of a line whether it is
    more than was taken before.
    """

    def __init__(
        self,
        words: tuple[str, ...],
        begun: Callable[[], bytes],
        take: Callable[[bytes], bool],
    ) -> None:
        self._words, self._begun, self._take = words, begun, take
        self.process: asyncio.subprocess.Process | None = None
        self._task: asyncio.Task[None] | None = None
        # Is set while it runs, and once it will run no more.
        self._is_up = asyncio.Event()
        # Gets the fault by which the child can go on no more.
        self.over: asyncio.Future[None] = asyncio.get_running_loop().create_future()

    async def start(self) -> None:
        """Starts it. Raises NotStarted."""
        await self._launch()
        self._task = asyncio.create_task(self._run())

    def write(self, data: bytes) -> None:
        """Feeds it; nothing where it does not run, as what `begun` gives has this too."""
        if self.process is not None and self.process.stdin is not None:
            if not self.process.stdin.is_closing():
                self.process.stdin.write(data)

    async def room(self) -> None:
        """Waits until it runs, and has read most of what it was fed, or can go on no more."""
        await self._is_up.wait()
        if self.process is not None and self.process.stdin is not None:
            with contextlib.suppress(ConnectionError, RuntimeError):
                await self.process.stdin.drain()
        await self._is_up.wait()

    def fail(self, fault: Exception) -> None:
        """Notes that it can go on no more, and why."""
        if not self.over.done():
            self.over.set_exception(fault)
            self.over.exception()
        self._is_up.set()

    async def end(self) -> None:
        """Ends it."""
        try:
            if self._task is not None:
                self._task.cancel()
                await asyncio.gather(self._task, return_exceptions=True)
        finally:
            if self.process is not None:
                with contextlib.suppress(ProcessLookupError):
                    self.process.kill()
                await self.process.wait()
                await _let_go(self.process)

    async def _launch(self) -> None:
        if self.process is not None:
            await _let_go(self.process)
        self.process = await _started(*self._words)
        self.write(self._begun())
        self._is_up.set()

    async def _run(self) -> None:
        starts = 0
        try:
            while True:
                assert self.process is not None
                said = asyncio.create_task(_last(self.process.stderr))
                starts = 0 if await self._read() else starts + 1
                self._is_up.clear()
                status, errors = await self.process.wait(), printable((await said).strip())
                if status >= 0:
                    raise Ended(self._words[0], Failed(errors, status))
                if starts >= MOST_STARTS:
                    raise Killed(self._words[0], -status)
                await asyncio.sleep(PAUSE)
                await self._launch()
        except Exception as fault:  # whatever it is, who waits has to know
            self.fail(fault)

    async def _read(self) -> bool:
        """Takes all lines, to the end of the output, and says whether one was more."""
        assert self.process is not None and self.process.stdout is not None
        rest, is_more = b"", False
        while piece := await self.process.stdout.read(PIECE):
            *lines, rest = (rest + piece).split(b"\n")
            for line in lines:
                is_more |= self._take(line)
        return is_more


async def _started(*words: str) -> asyncio.subprocess.Process:
    pipe = asyncio.subprocess.PIPE
    try:
        return await asyncio.create_subprocess_exec(
            *words, stdin=pipe, stdout=pipe, stderr=pipe, start_new_session=True, limit=PIECE
        )
    except OSError as error:
        raise NotStarted(words[0], error.strerror) from error


async def _let_go(process: asyncio.subprocess.Process) -> None:
    """Asks what became of what was written to a program that has ended: else it would be logged
    that it has not read all of it."""
    if process.stdin is not None:
        with contextlib.suppress(ConnectionError):
            await process.stdin.wait_closed()


async def _output(program: str, rows: bytes) -> bytes:
    """All that a run writes, a line at least; one that is killed is repeated."""
    for _ in range(MOST_RUNS):
        process = await _started(program, "--format", "json")
        try:
            output, errors = await process.communicate(rows)
        finally:
            with contextlib.suppress(ProcessLookupError):
                process.kill()
            # If nobody waits for it, its end may come once the loop is closed, which is logged.
            await process.wait()
            await _let_go(process)
        if process.returncode == 0 and output:
            return output
        if (process.returncode or 0) >= 0:
            break
    raise Failed(printable(errors.strip()), process.returncode)


def _known(line: bytes) -> Answer:
    try:
        return answer_of(line)
    except NoAnswer as error:
        raise Unknown(line[:80]) from error


async def _last(stream: asyncio.StreamReader | None) -> bytes:
    """The last that a stream has, at most 4 KiB; all is read, so that nobody waits for it."""
    kept = b""
    while stream is not None and (piece := await stream.read(4_096)):
        kept = (kept + piece)[-4_096:]
    return kept
