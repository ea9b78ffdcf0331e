"""What a terminal and a phone send to a board, and what people are told there of what comes of it:
over a board that answers whatever the test gives. What a record does about its faults is in
test_record, and what a real terminal does about keys and signals in test_reporter."""

import asyncio
import errno
import json
import os
import sys
from collections.abc import AsyncIterator
from types import SimpleNamespace
from typing import Any
from unittest.mock import AsyncMock

import model
import pytest
from drivers.board import Board, lines_to, moment_of
from pytest import MonkeyPatch

from ucl_hall.engine.answers import Refused, Reply
from ucl_hall.engine.history import Event
from ucl_hall.engine.json_lines import answer_of, reply_of
from ucl_hall.engine.trial import Change, Changed, ClubChange, LeaveOut, MendRefused
from ucl_hall.engine.trial import NewEdition, Trial
from ucl_hall.faults import CutOff, DiskFails, Dropped, Held, Lost, NotEntered, NotWritten, Replaced
from ucl_hall.record.board import Board as AnyBoard
from ucl_hall.record.record import Record
from ucl_hall.record.sending import Entered, Events, Mend, Outcome, Way
from ucl_hall.rows import Row
from ucl_hall.terminal import batch, command, words
from ucl_hall.terminal.grammar import LINES
from ucl_hall.terminal.pending import Pending, Seen, Sent
from ucl_hall.terminal.session import Session
from ucl_hall.web.notices import Notices
from ucl_hall.web.phones import WAYS, Reporter, events_told, message_of
from ucl_hall.web.shown import Shown

pytestmark = pytest.mark.quick
STARTED: str = f"group,B,uefa,0\n{model.CLUBS}1,1,0,kickoff\n1,1,1,goal-home\n1,1,2,goal-away\n"
GOAL = STARTED + "1,1,3,goal-home\n"
ID = "ab" * 16


class Desk(Session):
    """Reporter 1 at a terminal, for matches 1 to 3, with all lines that it has shown."""

    def __init__(self, board: AnyBoard) -> None:
        super().__init__(board, 1, [1, 2, 3], self)
        self.lines: list[str] = []
        board.listen(self.heard)

    def show(self, *lines: str) -> None:
        self.lines += lines

    def refresh(self) -> None:
        pass

    async def types(self, line: str) -> None:
        """Types a line, or the answer to a question, and waits for what comes of it."""
        if self.question is None:
            self.enter(line, Seen(self.board.moment, ()))
        else:
            self.answer(line)
        await self.idle(5)


@pytest.fixture
def board(loop: asyncio.Runner) -> Board:
    """A board on which a match has begun."""

    async def made() -> Board:
        return Board(moment_of(STARTED))

    return loop.run(made())


@pytest.fixture
def desk(board: Board) -> Desk:
    """A terminal over the board."""
    return Desk(board)


def refusal(rows: str) -> Refused:
    """How the last of these rows is refused behind those above, by the rules."""
    answer = answer_of(lines_to(STARTED + rows)[-1])
    assert isinstance(answer, Refused)
    return answer


# ---- what came of an event


# What came of an event; what a phone is told, by name and sentence; and what a terminal is told.
CASES: dict[str, tuple[list[Outcome] | Exception, str, str, str]] = {
    "entered": (
        [Entered(9, moment_of(GOAL).match(1))],
        *("entered", "Entered, 2\N{EN DASH}1"),
        "entered, row 9: Bravo 2-1 Charlie, in play, event 4 by 1",
    ),
    "it has stood since before": (
        [Event(9, 1, 1, "goal-home")],
        *("entered", "Entered", "passed over: the board has it"),
    ),
    "stale": (
        [refusal("2,1,3,goal-away\n1,1,3,goal-home\n")],
        *("stale", "Not entered: another event came first. Look, then tap if yours is missing"),
        "refused: match 1 has event number 4 by now, and you had seen 3: look at it, and type "
        "yours again if it is not there",
    ),
    "another edition": (
        Dropped(1),
        *("dropped", "Not entered: the board was corrected. Look, then tap if it still holds"),
        "dropped: edition 1 has begun; look at the match, and type it again if it still holds",
    ),
    "it was asked about": (
        Lost(),
        *("lost", "Not entered: it did not arrive. Look, then tap if yours is missing"),
        "it did not arrive",
    ),
    "a full disk": (
        NotWritten(OSError(errno.ENOSPC, "No space left on device")),
        *("not-entered", "The disk is full: nothing was entered"),
        "the disk is full: nothing was entered",
    ),
    "a lock that another holds": (
        Held("a.csv"),
        *("not-entered", "Another program holds the lock of a.csv: nothing was entered"),
        "another program holds the lock of a.csv: nothing was entered",
    ),
    "a row that was cut off": (
        CutOff(),
        *("maybe", "It may be entered: look at the match before you tap again"),
        "the disk is full, and the row was cut off: it may be in the record: look at the match "
        "before you type again",
    ),
    "a disk that fails": (
        DiskFails(OSError(errno.EIO, "Input/output error")),
        *("maybe", "It may be entered: look at the match before you tap again"),
        "the disk fails: Input/output error: it may be in the record: look at the match before "
        "you type again",
    ),
    "a record that is replaced": (
        Replaced("a.csv"),
        *("maybe", "A.csv has become another file, or shorte: it may be entered, so look"),
        "a.csv has become another file, or shorter; a record only grows, so look what was done to "
        "it, and start again",
    ),
    "a fault of the system": (
        OSError(errno.EIO, "Input/output error", "a.csv"),
        *("maybe", "It may be entered: look at the match before you tap again"),
        "a.csv: Input/output error",
    ),
}
TAP = {"edition": 0, "match": 1, "expected": 3, "event": "goal-home"}


async def at_phone(board: Board, outcome: list[Outcome] | Exception, way: str = "tap") -> list[str]:
    """The name and the sentence that a phone is told of a tap that comes to this, which the board
    was sent as it was tapped."""
    board.answers.append(outcome)
    message = message_of(json.dumps({way: ID, **TAP}), [1])
    answer = json.loads(await Reporter(board, 1, [1]).reply(message))
    assert board.sent == [Events(1, (Row(1, 3, "goal-home"),), 0, WAYS[way], ID)]
    assert answer["id"] == ID
    return [answer["name"], answer["told"]]


@pytest.mark.parametrize("way", WAYS)
@pytest.mark.parametrize("name", CASES)
async def test_what_a_phone_is_told(board: Board, name: str, way: str) -> None:
    outcome, *wanted, _ = CASES[name]
    assert await at_phone(board, outcome, way) == wanted


@pytest.mark.parametrize("name", CASES)
async def test_what_a_terminal_tells(board: Board, desk: Desk, name: str) -> None:
    outcome, *_, told = CASES[name]
    board.answers.append(outcome)
    await desk.types("1 goal home")
    assert desk.lines == [f"{'1 goal home':23} {told}"]
    assert isinstance(outcome, list) or desk.pending.look().waiting == ()


REDS = "".join(f"1,1,{number},red-away\n" for number in range(3, 35))
AWAY = "the away side of match 1"
# By the name of a refusal the rows of which the last is refused so, and what is told at a terminal.
REFUSALS = {
    "not-started": ("1,2,0,goal-home\n", "match 2 has not kicked off; type 2 kickoff first"),
    "already-started": ("1,1,3,kickoff\n", "match 1 has kicked off already"),
    "not-finished": ("1,1,3,reopen\n", "match 1 is not over"),
    "no-goal": ("1,2,0,kickoff\n1,2,1,disallow-home\n", "the home side of match 2 has no goal"),
    "no-caution": (
        "1,1,3,second-yellow-away\n",
        f"{AWAY} has no yellow; type 1 yellow away before",
    ),
    "finished": (
        "1,1,3,fulltime\n1,1,4,red-away\n",
        "match 1 is over; if it goes on, type 1 reopen",
    ),
    "limit-reached": (REDS, f"{AWAY} has as many as a board counts"),
}


@pytest.mark.parametrize("name", REFUSALS)
async def test_refusals(board: Board, desk: Desk, name: str) -> None:
    """Each by its name, in a sentence that a button has room for; and by what to type."""
    rows, advice = REFUSALS[name]
    got, told = await at_phone(board, [refusal(rows)])
    assert got == name and told.startswith("Not entered: ") and len(told) < 80
    board.answers.append([refusal(rows)])
    await desk.types("1 goal home")
    assert desk.lines[0].startswith(f"{'1 goal home':23} refused: {advice}")


# ---- at a phone


NO_TAPS: list[dict[str, object]] = [
    *({"tap": it} for it in ("", "AB" * 16, "ab" * 17, 7, None, [ID])),
    *({"match": it} for it in (0, 2, 13, "1", 1.0, True, None, 1 << 80)),
    *({"edition": it} for it in (-1, 65_536, "0")),
    *({"expected": it} for it in (-1, 65_536, [])),
    *({"event": it} for it in ("", "goal", "mend", 5, {}, "kickoff\n")),
    *({"events": it} for it in ([], ["kickoff", "x"], "kickoff", {"kickoff": 1})),
    *({"ask": ID}, {"again": ID, "events": ["kickoff"]}),
    {"expected": 65_535, "events": ["kickoff", "fulltime"]},
]


@pytest.mark.parametrize(
    "text",
    [
        *(json.dumps({"tap": ID, **TAP, **it}) for it in NO_TAPS),
        *(json.dumps(TAP), "", "x", "null", "[]", "{}", "[" * 1_000, '{"tap":', "\0", "1" * 900),
    ],
    ids=lambda text: f"{text}"[-40:],
)
def test_messages_that_are_no_taps(text: str) -> None:
    """Of a reporter of match 1. A server closes the connection by which one comes."""
    with pytest.raises(ValueError):
        message_of(text, [1])


async def test_the_last_events_have_the_numbers_that_they_gave_their_match(board: Board) -> None:
    """Of twelve that stand the last ten, and those of all; no other match has any."""
    board.stand += [Event(row, 1, 1, "goal-home") for row in range(6, 18)]
    for most, first in (10, 3), (12, 1), (99, 1):
        told = [(it["row"], it["number"]) for it in events_told(board, 1, most)]
        assert told == [(number + 5, number) for number in range(first, 13)]
    assert events_told(board, 2, 10) == []


# ---- at a terminal: what is sent, and what others do


@pytest.mark.parametrize(
    "line, told",
    [
        *((it, "match 4 is not yours") for it in ("4 kickoff", "4", "1,4,0,kickoff")),
        ("7,1,3,goal-home", "no event of reporter 1; --help has them all"),
        ("1 gaol home", "this is no event and no command; 1 goal home?"),
        (
            "1 result 1-0",
            "match 1 has events: a result is for a match without any; enter what is missing by "
            "itself",
        ),
    ],
)
async def test_lines_that_send_nothing(board: Board, desk: Desk, line: str, told: str) -> None:
    await desk.types(line)
    assert desk.lines == [f"{line:23} {told}"] and board.sent == []


async def test_what_is_asked_at_a_terminal(board: Board, desk: Desk) -> None:
    """What may be typed, and which events of a match stand, with their rows."""
    board.stand += [Event(6, 1, 1, "kickoff"), Event(9, 2, 1, "second-yellow-away")]
    await desk.types("help")
    assert desk.lines == LINES.splitlines()
    await desk.types(" 1 ")
    assert desk.lines[-3:] == [
        " 1 Bravo 1-1 Charlie, in play, event 3 by 1",
        "   row 6: 1 kickoff by reporter 1",
        "   row 9: 1 second yellow away by reporter 2",
    ]


async def test_a_result(board: Board, desk: Desk) -> None:
    """The fewest events are sent at once, and what stands behind the last is told."""
    events = "kickoff goal-home goal-home goal-away yellow-away red-home fulltime".split()
    rows = [Row(3, number, event) for number, event in enumerate(events)]
    lines = [row.line(1).decode() for row in rows]
    moments = [moment_of(STARTED + "".join(lines[:count])) for count in range(1, 8)]
    board.answers.append([Entered(at, it.match(3)) for at, it in enumerate(moments, 9)])
    await desk.types("3 result 2-1  yellows 0-1 reds 1-0")
    (sent,) = board.sent
    assert isinstance(sent, Events) and (*sent.rows,) == (*rows,) and sent.way is Way.FIRST
    told = "entered, row 15: Alpha 2-1 Bravo, finished, event 7 by 1, Y 0-1, E 1-0"
    assert desk.lines == [f"3 result 2-1 yellows 0-1 reds 1-0 {told}"]


async def test_a_line_goes_with_what_was_seen(board: Board, desk: Desk) -> None:
    """That is an edition that is over by now, and own rows that are on their way."""
    seen = Seen(board.moment, (1, 2, 1))
    board.moment = moment_of(GOAL + "mend,7,,\n")
    board.answers.append(Dropped(1))
    desk.enter("1 goal home", seen)
    await desk.idle(5)
    (sent,) = board.sent
    assert isinstance(sent, Events)
    assert (*sent.rows,) == (Row(1, 5, "goal-home"),) and sent.edition == 0


async def test_what_waits_is_taken_before_a_newer_moment_is_drawn(
    board: Board, monkeypatch: MonkeyPatch
) -> None:
    """Keys that wait were typed at what stands there; who only looks types nothing."""
    pytest.importorskip("prompt_toolkit", reason="not installed: python3-prompt-toolkit")
    from ucl_hall.terminal.screen import Screen

    master, slave = os.openpty()
    with open(slave) as stdin, open(master, "wb", buffering=0) as keys:
        monkeypatch.setattr(sys, "stdin", stdin)
        screen, watch = [Screen(board, 1, [1], is_watching=it) for it in (False, True)]
        keys.write(b"1 goal home\n")
        board.moment = moment_of(GOAL)
        for it in screen, watch:
            it._before_render(None)
        assert (screen._drawing.version, watch._drawing.version) == (3, 4)
        stdin.readline()
        screen._before_render(None)
        assert screen._drawing.version == 4


async def test_what_others_enter_is_told(board: Board, desk: Desk) -> None:
    """With its row, and its match as it stands; what is one's own is not, nor what is refused. What
    the same reporter enters elsewhere is."""
    came = GOAL + "2,1,4,goal-home\n1,1,5,goal-away\n"
    answers = [answer_of(line) for line in lines_to(came)]
    desk.pending.add(Sent("1 goal home", [Row(1, 3, "goal-home")]))
    board.tell(reply_of(answers[-6:-4]))
    assert desk.lines == []
    board.tell(reply_of(answers[-4:-2]))
    board.tell(Reply(refusal("1,1,2,goal-home\n")))
    board.tell(reply_of(answers[-2:]))
    assert desk.lines == [
        "row 10: 1 goal home by reporter 2: Bravo 3-1 Charlie, in play, event 5 by 2",
        "row 11: 1 goal away by reporter 1: Bravo 3-2 Charlie, in play, event 6 by 1",
    ]


def test_own_rows_of_an_edition_that_is_over_wait_no_more() -> None:
    """Who types next sees the numbers of the board as it is drawn."""
    row = Row(1, 3, "goal-home")
    pending, line = Pending(moment_of(STARTED)), Sent("1 goal home", [row])
    pending.add(line)
    line.numbers[row] = 4
    pending.done(line)
    assert pending.look().waiting == (1,)
    mended = moment_of(STARTED + "mend,7,,\n")
    pending.is_drawn(mended)
    assert pending.look() == Seen(mended, ())


# ---- mends


def trial_of(rows: str, *left_out: Any) -> Trial:
    """That a mend leaves out row 7 and these events."""
    after = moment_of(rows + "mend,7,,\n")
    return Trial(LeaveOut(7), b"mend,7,,\n", moment_of(rows), after, left_out)


# What came while a mend was asked about; what the mend leaves out too by then, and the reply to it.
CAME = STARTED + "2,1,3,disallow-home\n"
LEFT_OUT, MENDED, SCREEN = [answer_of(line) for line in lines_to(CAME + "mend,7,,\n")][-3:]
ASKED = "mend 7: edition 1 would begin"


async def test_a_mend_that_would_do_something_else_by_now(board: Board, desk: Desk) -> None:
    """It is shown anew and asked again; what it left out is told as lines that bring it back."""
    board.trials.append(trial_of(STARTED))
    board.answers += [Changed(trial_of(CAME, LEFT_OUT)), [MENDED]]
    await desk.types("mend 7")
    assert desk.lines == [ASKED] and desk.question
    await desk.types("y")
    anew = "nothing is appended: rows have come since, so look at it again"
    also = "left out too, no-goal: row 9: 1 disallow home by reporter 2"
    assert desk.lines[1:] == [anew, ASKED, also]
    await desk.types("YES ")
    assert desk.lines[4:] == [f"{'mend 7':23} entered, row 10"] and not desk.question
    agreed = [it.agreed.left_out for it in board.sent if isinstance(it, Mend)]
    assert agreed == [(), (LEFT_OUT,)]
    board.tell(reply_of([LEFT_OUT, MENDED, SCREEN]))
    back = "To have back what was left out too, if it holds, type:"
    assert desk.lines[5:] == ["Edition 1 has begun: look at the matches", back, "1 disallow home"]


@pytest.mark.parametrize("answer", ["n", "", "no", "yy", "1"])
async def test_nothing_but_yes_is_yes(board: Board, desk: Desk, answer: str) -> None:
    board.trials.append(trial_of(STARTED))
    await desk.types("mend 7")
    await desk.types(answer)
    assert desk.lines[1:] == ["Nothing is appended"] and board.sent == []


@pytest.mark.parametrize("is_asked", [False, True])
async def test_a_mend_that_the_rules_refuse(board: Board, desk: Desk, is_asked: bool) -> None:
    """At once, or by the time that somebody agrees: what to do about it is told."""
    refused = MendRefused(refusal("mend,99,,\n"))
    board.trials.append(trial_of(STARTED) if is_asked else refused)
    board.answers.append(refused)
    await desk.types("mend 7")
    if is_asked:
        await desk.types("y")
    told = "it is no event that stands; a match alone, as 1, shows its events with their rows"
    assert desk.lines[is_asked:] == [f"{'mend 7':23} refused: {told}"] and not desk.question


@pytest.mark.parametrize(
    "option, answers, count",
    [("--yes", "", 2), ("", "yy", 2), ("", "yn", 1), ("", "n", 0), ("", "", 0)],
)
async def test_a_mend_by_the_command_line(
    board: Board,
    desk: Desk,
    monkeypatch: MonkeyPatch,
    option: str,
    answers: str,
    count: int,
) -> None:
    """It is asked about at a terminal alone, and once more where it would do something else by
    then; with --yes it is not asked about."""
    left = [*answers]
    monkeypatch.setattr(sys, "stdin", SimpleNamespace(isatty=lambda: answers != ""))
    monkeypatch.setattr("builtins.input", lambda _: left.pop(0))
    board.trials.append(trial_of(STARTED))
    board.answers += [Changed(trial_of(CAME, LEFT_OUT)), [MENDED]]
    options = command.options_of(f"a.csv --mend 7 {option}".split())
    mend = command._mend(desk, options, desk)
    (status,) = await asyncio.gather(mend, return_exceptions=True)
    nothing = "nothing is appended; with --yes it is, without a question"
    assert (status == 0) == (count == 2) and (status == 0 or str(status) == nothing)
    assert len(board.sent) == count and left == []
    clubs = "1 Alpha 60000, 2 Bravo 95000, 3 Charlie 60000, 4 Delta 81500"
    before = [f"Before: {clubs}", *words.table(moment_of(STARTED)), f"After: {clubs}"]
    assert desk.lines[:10] == [ASKED, *before, "GROUP B v00002 IN PLAY 1 EDITION 1"]


@pytest.mark.parametrize(
    "words, change",
    [
        *(
            (["--mend"], NewEdition()),
            (["--mend", ""], NewEdition()),
            (["--mend", "7"], LeaveOut(7)),
        ),
        (["--mend", "club 2 Real Madrid"], ClubChange(2, name="Real Madrid")),
        (["--mend", "coefficient 1 61.000"], ClubChange(1, coefficient=61_000)),
    ],
)
async def test_what_a_mend_by_the_command_line_takes(
    desk: Desk, monkeypatch: MonkeyPatch, words: list[str], change: Change
) -> None:
    """What is typed at a terminal, and a row alone; nothing is a new edition."""
    monkeypatch.setattr(desk, "propose", proposed := AsyncMock())
    assert await command._mend(desk, command.options_of(["a.csv", *words]), desk) == 0
    assert proposed.await_args and proposed.await_args.args[1] == change


async def test_an_event_is_no_mend(desk: Desk) -> None:
    options = command.options_of(["a.csv", "--mend", "1 kickoff"])
    with pytest.raises(NotEntered, match="--mend takes 17, "):
        await command._mend(desk, options, desk)


# ---- without a terminal


@pytest.fixture
def given(monkeypatch: MonkeyPatch) -> list[str]:
    """Lines of the input of a program."""
    lines = list[str]()

    async def read(_: object) -> AsyncIterator[bytes]:
        for line in lines:
            yield line.encode() + b"\n"

    monkeypatch.setattr(batch, "read_input", read)
    return lines


@pytest.mark.parametrize(
    "line, outcome, told",
    [
        ("1 gaol home", None, "this is no event and no command; 1 goal home?"),
        ("1,1,3,corner", None, "this is no row of an event; help shows them all"),
        ("2,1,3,goal-home", None, "no event of reporter 1; --help has them all"),
        ("mend 7", None, "this is typed at a terminal; without one it is --mend WHAT --yes"),
        ("7" * 5_000 + " kickoff", None, "there is no such match: they are 1 to 12"),
        *(("1 goal home", CASES[it][0], CASES[it][3]) for it in ("stale", "a disk that fails")),
    ],
    ids=lambda it: f"{it}"[:20],
)
async def test_the_first_line_that_is_refused_ends_the_input(
    board: Board,
    desk: Desk,
    given: list[str],
    line: str,
    outcome: Any,
    told: str,
) -> None:
    """What came before it is entered, and nothing behind it."""
    entered, *_, row = CASES["entered"]
    board.answers += [entered, outcome]
    given += ["", "  1  goal home ", line, "2 kickoff"]
    with pytest.raises(NotEntered) as refused:
        await batch.enter_lines(desk, 0)
    assert str(refused.value) == f"{line[:200]}: {told}"
    assert desk.lines == [f"{'1 goal home':23} {row}"]
    assert len(board.sent) == (1 if outcome is None else 2)


async def test_rows_with_their_numbers(board: Board, desk: Desk, given: list[str]) -> None:
    """They may have been given before. They are of one edition; a line is of the board's."""
    board.moment = moment_of(STARTED + "mend,7,,\n")
    given += ["2 kickoff", "1,1,2,goal-home"]
    board.answers += [[Event(9, 1, 2, "kickoff")], [Event(10, 1, 1, "goal-home")]] * 2
    await batch.enter_lines(desk, 1)
    told = "this is of edition 0, and the board of edition 1: look at the matches"
    with pytest.raises(NotEntered, match=told):
        await batch.enter_lines(desk, 0)
    sent = [(it.way, it.edition, *it.rows) for it in board.sent if isinstance(it, Events)]
    line = Way.FIRST, 1, Row(2, 0, "kickoff")
    assert sent == [line, (Way.AGAIN, 1, Row(1, 2, "goal-home")), line]


async def test_who_looks_on_is_told_why_the_board_has_ended(
    board: Board, capsys: pytest.CaptureFixture[str]
) -> None:
    """By the fault, behind what was shown."""
    watching = asyncio.create_task(batch.watch_lines(board, [1]))
    await asyncio.sleep(0)
    board.over.set_exception(Replaced("a.csv"))
    with pytest.raises(Replaced):
        await watching
    assert capsys.readouterr().out.endswith("\n 1 Bravo 1-1 Charlie, in play, event 3 by 1\n")


def test_a_sheet() -> None:
    """The clubs and words of the board, after mends too."""
    rows, evening = STARTED + 'mend,8,,\nclub,2,"Br""avo,",7\n', model.Session([])
    evening.of(rows)
    clubs = model.CLUBS.replace("Bravo,95000", '"Br""avo,",7')
    assert words.sheet(moment_of(rows)) == (clubs + model.sheet(evening.matches)).splitlines()


@pytest.mark.parametrize(
    "line",
    [
        *("", "a.csv --yes", "a.csv --watch --mend 7", "a.csv --watch --number 3"),
        *("a.csv --broker a", "a.csv --watch --yes", "a.csv --mend 7 --number 2"),
        *("a.csv --number 0", "a.csv --number 256", "a.csv --number " + "1" * 5_000),
        *("a.csv --matches 0", "a.csv --matches 1,,2", "a.csv --edition 65536"),
        *("a.csv --edition x", "a.csv --watch --edition 1", "a.csv --rows --sheet"),
    ],
    ids=lambda line: f"{line}"[:30],
)
def test_command_lines_that_are_refused(capsys: pytest.CaptureFixture[str], line: str) -> None:
    with pytest.raises(SystemExit, match="2"):
        command.options_of(line.split())
    assert capsys.readouterr().err.startswith("usage: ucl_reporter RECORD [--number N]")


def test_help(capsys: pytest.CaptureFixture[str]) -> None:
    with pytest.raises(SystemExit, match="0"):
        command.options_of(["--help"])
    assert "Enters the events of a group at a terminal" in capsys.readouterr().out


async def test_a_record_that_another_has_begun_meanwhile(
    monkeypatch: MonkeyPatch, capsys: pytest.CaptureFixture[str]
) -> None:
    """Who is second is told, and uses it."""
    monkeypatch.setenv("UCL_LIVE", "ucl_live")
    monkeypatch.setattr(command, "begin", AsyncMock(return_value=False))
    monkeypatch.setattr(Record, "open", opened := AsyncMock())
    await command._opened(command.options_of(["a.csv"]), b"group,A,uefa,0\n")
    told = "Another has begun a.csv meanwhile: it stays as it is, and is used\n"
    assert capsys.readouterr().out == told
    opened.assert_awaited_once_with("a.csv", "ucl_live", is_read_only=False)


# ---- at a server


class Silent(Shown):
    """A group of which nothing was heard for as long as the test says."""

    silence = 0

    def tonight(self) -> None:
        """Nobody has named them."""

    def more(self) -> dict[str, object]:
        """Nothing."""
        return {}


def test_an_operator_is_told_that_a_board_is_gone(
    board: Any, capsys: pytest.CaptureFixture[str]
) -> None:
    """Once, after five seconds, and that it is there again; who asks is told at once."""
    gone = "nothing is heard of its board"
    group: Any = Silent("B", board)
    for silence, fault, told in [
        *((0, "", ""), (5, gone, ""), (6, gone, f"ucl_serve: group B: {gone}\n")),
        *((60, gone, ""), (0, "", "ucl_serve: group B: it is there again\n"), (0, "", "")),
    ]:
        group.silence = silence
        group.look()
        assert capsys.readouterr().err == told
        assert (group.health()["fault"], group.health()["is_there"]) == (fault, not silence)


def test_an_operator_is_told_of_strangers_once_a_minute(
    capsys: pytest.CaptureFixture[str], monkeypatch: MonkeyPatch
) -> None:
    """In a line, of all that has come up since the last."""
    clock = SimpleNamespace(monotonic=lambda: 0.0)
    monkeypatch.setattr("ucl_hall.web.notices.time", clock)
    notices = Notices()
    for second, came, told in [
        *((100, ["1.1.1.1"], "cut off 1 connections, all of 1.1.1.1"), (101, ["1.1.1.2"], "")),
        *((159, ["1.1.1.3"] * 2, ""), (160, [], "cut off 3 connections, most of 1.1.1.3")),
        *((161, ["1.1.1.1"], ""), (230, [], "cut off 1 connections, all of 1.1.1.1")),
    ]:
        clock.monotonic = lambda: float(second)
        for address in came:
            notices.cut_off(address)
        notices.tell()
        assert capsys.readouterr().err == (f"ucl_serve: {told}\n" if told else "")
