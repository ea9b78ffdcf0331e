"""A reporter whose input is no terminal, and a screen whose output is none."""

import asyncio

from ucl_hall.engine.trial import Change
from ucl_hall.faults import MaybeEntered, NotEntered
from ucl_hall.program import read_input
from ucl_hall.record.board import Board
from ucl_hall.terminal import words
from ucl_hall.terminal.grammar import Help, Numbered, typed
from ucl_hall.terminal.pending import Seen
from ucl_hall.terminal.session import Printed, Session

# The longest line that is taken, in bytes.
LONGEST = 4_096


async def enter_lines(session: Session, edition: int) -> int:
    """Enters the lines of the input, each once the one before it is answered.

    Raises NotEntered at the first that is refused, and the fault by which the board ends.
    """
    # Not by `sys.stdin`, whose lock would be held at the program's end.
    readline = open(0, "rb", closefd=False).readline
    await session.board.ready()
    async for line in read_input(lambda: readline(LONGEST)):
        await _enter(session, line.decode(errors="replace").strip(), edition)
    return 0


async def watch_lines(board: Board, matches: list[int]) -> int:
    """Prints the table and the matches, now and at each event, until the board ends."""
    changed, display = asyncio.Event(), Printed()
    board.listen(lambda reply: changed.set())
    board.over.add_done_callback(lambda _: changed.set())
    shown = None
    while not board.over.done():
        changed.clear()
        if board.moment is not shown:
            shown = board.moment
            display.show(*words.table(shown), *words.matches(shown, matches))
        await changed.wait()
    board.over.result()
    return 0


async def _enter(session: Session, text: str, edition: int) -> None:
    try:
        line, moment = typed(text), session.board.moment
        if isinstance(line, Help | Change):
            raise NotEntered("this is typed at a terminal; without one it is --mend WHAT --yes")
        if isinstance(line, Numbered) and moment.edition != edition:
            raise NotEntered(
                f"this is of edition {edition}, and the board of edition {moment.edition}: "
                "look at the matches"
            )
        if line is not None:
            await session.take(text, line, Seen(moment, ()))
    except (NotEntered, MaybeEntered) as fault:
        raise NotEntered(f"{text[:200]}: {fault}") from fault
