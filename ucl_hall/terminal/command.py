"""The command line of `ucl_reporter`."""

import argparse
import asyncio
import functools
import io
import re
import sys
import time
from collections.abc import Coroutine
from typing import TYPE_CHECKING, Any

from ucl_hall.engine.trial import Change
from ucl_hall.faults import NotEntered, Over
from ucl_hall.program import ending, program_named
from ucl_hall.record.begin import begin
from ucl_hall.record.places import exists, opened
from ucl_hall.record.record import Record
from ucl_hall.rows import LAST_EDITION, MATCHES, REPORTERS, number_in
from ucl_hall.terminal import words
from ucl_hall.terminal.batch import enter_lines, watch_lines
from ucl_hall.terminal.grammar import LINES, typed
from ucl_hall.terminal.session import Display, Printed, Session
from ucl_hall.terminal.setup import rows_by_questions

if TYPE_CHECKING:
    from ucl_hall.remote.board import Remote

LINK = re.compile(r"https?://[^/\s]+/report/[^/\s]+/?")
USAGE = """ucl_reporter RECORD [--number N] [--matches LIST] [--edition N]
       ucl_reporter RECORD --watch [--matches LIST]
       ucl_reporter RECORD --mend [WHAT] [--yes]
       ucl_reporter RECORD --sheet
       ucl_reporter RECORD --rows
       ucl_reporter LINK [--matches LIST] [--edition N]"""
HELP = f"""\
Enters the events of a group at a terminal, and keeps them in a record, a file of rows that only
grows.

Where RECORD is not there yet, it asks for the group and the clubs. After a crash type the same line
again, and on the next matchday with its matches. N is the reporter's own number, 1 to 255, and 1
without it. With --matches 1,2 no other match is taken. --watch shows table and matches, and takes no input.
{LINES}

Where the input is no terminal, a line is taken once the one before it is answered, and the first
that is refused ends the run with status 1. A line may be a row with its number, `1,7,0,kickoff`;
what the board has is passed over, so you may give the same rows again after a crash. Such a row is
refused unless the board is of edition 0, or of that which --edition names. --mend takes what stands
above, as 17 or "club 2 Real Madrid"; with --yes it does not ask. --sheet prints the board as a
sheet, as ucl_night show takes it. --rows prints the rows.

In place of a file RECORD may be in etcd, on many machines: etcd://HOST:PORT,HOST:PORT/NAME, with
?access=FILE behind it where not everyone may ask. docs/MACHINES.md has the rest.

LINK is that of a reporter, as ucl_serve prints it, http://HOST:PORT/report/KEY: so you type on
another machine, on the matches of that reporter. What you enter is sent again until it has an
answer, and is in the record at most once. A mend is entered at the desk.
"""


def options_of(arguments: list[str]) -> argparse.Namespace:
    """What the command line says; ends the program where it has none of the forms of the usage.

    `number` and `matches` are None where it leaves them out.
    """
    parser = argparse.ArgumentParser(
        prog="ucl_reporter",
        usage=USAGE,
        description=HELP,
        formatter_class=argparse.RawDescriptionHelpFormatter,
        allow_abbrev=False,
    )
    known: dict[str, dict[str, Any]] = {
        "record": {},
        "--number": {"type": functools.partial(_within, REPORTERS)},
        "--matches": {"type": _matches},
        "--edition": {"type": functools.partial(_within, range(LAST_EDITION + 1))},
        **{name: {"action": "store_true"} for name in ("--watch", "--sheet", "--rows", "--yes")},
        "--mend": {"nargs": "?", "const": ""},
    }
    for name, how in known.items():
        parser.add_argument(name, help=argparse.SUPPRESS, **how)
    it = parser.parse_args(arguments)
    given = {name for name, value in vars(it).items() if value is not None and value is not False}
    allowed = {"record", "number", "matches", "edition"}
    if it.watch:
        allowed = {"record", "watch", "matches"}
    elif it.sheet or it.rows:
        allowed = {"record", "sheet" if it.sheet else "rows"}
    elif it.mend is not None:
        allowed = {"record", "mend", "yes"}
    wrong = sorted(given - allowed)
    if wrong:
        parser.error(f"--{wrong[0]} does not go with the rest: --help has the forms")
    if _is_link(it.record) and not LINK.fullmatch(it.record):
        parser.error("a link of a reporter is http://HOST:PORT/report/KEY")
    if _is_link(it.record) and it.number is not None:
        parser.error("--number does not go with a link, which says whose it is")
    return it


def main() -> None:
    """Runs the command."""
    for stream in (sys.stdout, sys.stderr):
        if isinstance(stream, io.TextIOWrapper):
            stream.reconfigure(errors="replace")
    options = options_of(sys.argv[1:])
    with ending("ucl_reporter"):
        if options.rows:
            sys.exit(asyncio.run(_print_rows(options.record)))
        if _is_link(options.record):
            sys.exit(asyncio.run(_run(options, _linked(options))))
        first = _first_rows(options)
        sys.exit(asyncio.run(_run(options, _opened(options, first))))


async def _run(options: argparse.Namespace, opening: "Coroutine[Any, Any, Record | Remote]") -> int:
    board = await opening
    try:
        return await _done(options, board)
    finally:
        await board.close()


async def _done(options: argparse.Namespace, board: "Record | Remote") -> int:
    """Does what the command line says, and gives the status."""
    own, matches, display = options.number or 1, options.matches or [*MATCHES], Printed()
    if options.sheet:
        display.show(*words.sheet(board.moment))
        return 0
    if options.mend is not None:
        return await _mend(Session(board, own, matches, display), options, display)
    if sys.stdin.isatty() and sys.stdout.isatty():
        from ucl_hall.terminal.screen import Screen

        screen = Screen(board, own, matches, is_watching=options.watch)
        if not isinstance(board, Record):
            board.tell = screen.tell
        return await screen.run()
    if options.watch:
        return await watch_lines(board, matches)
    return await enter_lines(Session(board, own, matches, display), options.edition or 0)


async def _opened(options: argparse.Namespace, first: bytes | None) -> Record:
    """Opens the record, which begins with the first rows if there are any."""
    path, program = options.record, program_named("ucl_live")
    if first is not None and not await begin(path, program, first):
        print(f"Another has begun {path} meanwhile: it stays as it is, and is used")
    return await Record.open(path, program, is_read_only=options.watch or options.sheet)


async def _linked(options: argparse.Namespace) -> "Remote":
    """Opens the board of a link, which says whose it is."""
    try:
        from ucl_hall.remote.board import Remote
    except ModuleNotFoundError as error:
        raise Over(f"{error.name} is not installed; Debian has it in python3-aiohttp") from error
    remote = await Remote.open(options.record)
    options.number, options.matches = remote.number, options.matches or remote.matches
    if not {*options.matches} <= {*remote.matches}:
        await remote.close()
        raise Over(f"--matches: those of this link are {', '.join(map(str, remote.matches))}")
    return remote


def _is_link(record: str) -> bool:
    return record.startswith(("http://", "https://"))


async def _print_rows(place: str) -> int:
    """Prints the rows of a record, as a file has them."""
    log = await opened(place, is_read_only=True, is_durable=False)
    try:
        for entry in await log.read():
            sys.stdout.buffer.write(entry.row)
    finally:
        await log.close()
    return 0


def _first_rows(options: argparse.Namespace) -> bytes | None:
    """The rows that a record begins with, where there is none yet: by questions at a terminal."""
    path = options.record
    while options.watch and not exists(path):
        time.sleep(0.1)
    if exists(path):
        return None
    if not sys.stdin.isatty() or options.mend is not None or options.sheet:
        raise Over(f"there is no {path}; type ./ucl_reporter {path} at a terminal to begin it")
    program_named("ucl_live")  # before anything is asked
    return rows_by_questions()


async def _mend(session: Session, options: argparse.Namespace, display: Display) -> int:
    """Mends once, without a prompt."""
    text = f"mend {options.mend}" if options.mend.isdecimal() or not options.mend else options.mend
    change = typed(text)
    if not isinstance(change, Change):
        raise NotEntered('--mend takes 17, "club 2 Real Madrid", "coefficient 1 61000" or ""')
    await session.propose(text, change)
    while session.question is not None:
        question, session.question = session.question, None
        display.show(*words.tables(question.trial))
        if not options.yes and not _is_agreed():
            raise NotEntered("nothing is appended; with --yes it is, without a question")
        await session.mend(question)
    display.show(words.title(session.board.moment))
    return 0


def _is_agreed() -> bool:
    return sys.stdin.isatty() and words.is_yes(input(words.QUESTION))


def _matches(text: str) -> list[int]:
    return sorted({_within(MATCHES, part) for part in text.split(",")})


def _within(known: range, text: str) -> int:
    number = number_in(text, known[0], known[-1])
    if number is None:
        raise argparse.ArgumentTypeError(f"{text[:40]!r} is not {known[0]} to {known[-1]}")
    return number
