"""A record: its log in a file, the one task that writes it, and disks and programs around it. Here
each of their faults is tried; what people are told of one is in test_fronts."""

import asyncio
import contextlib
import ctypes
import errno
import fcntl
import gc
import itertools
import os
import pathlib
import random
import resource
import signal
import subprocess
import threading
import time
import types
from collections.abc import Callable, Iterator
from dataclasses import replace
from typing import Any

import model
import pytest
from drivers.board import moment_of
from drivers.program import needs
from drivers.text import append_to, text_of
from model import Session
from pytest import MonkeyPatch

from ucl_hall.engine.answers import Answer, Mended, Refused, Reply
from ucl_hall.engine.history import Event
from ucl_hall.engine.json_lines import NoAnswer
from ucl_hall.engine.trial import Changed, ClubChange, LeaveOut, MendRefused, NewEdition
from ucl_hall.faults import Dropped, Held, Lost, MaybeEntered, NotEntered, Over, Replaced
from ucl_hall.record import disk
from ucl_hall.record.begin import begin
from ucl_hall.record.file import FileLog
from ucl_hall.record.log import Entry
from ucl_hall.record.record import Record
from ucl_hall.record.sending import Entered, Events, Mend, Outcome, Sending, Way
from ucl_hall.record.writer import LOOK
from ucl_hall.rows import Club, Row

pytestmark = pytest.mark.quick
TITLE = "group,B,uefa,0\n"
BEGUN: str = TITLE + model.CLUBS
STARTED = BEGUN + "1,1,0,kickoff\n1,1,1,goal-home\n1,1,2,goal-away\n"
KICKOFF = Row(2, 0, "kickoff")
PAGE = os.sysconf("SC_PAGE_SIZE")
Do = Callable[[Callable[[], object]], None]


@pytest.fixture
def folder(tmp_path: pathlib.Path, request: pytest.FixtureRequest) -> Iterator[pathlib.Path]:
    """The folder of a record; or on a file system of its own, of the kind that is asked for."""
    kind = getattr(request, "param", "")
    if not kind:
        yield tmp_path
        return
    image, mounted, how = tmp_path / "image", tmp_path / "mounted", ["-o", "loop"]
    if kind == "tmpfs":
        how = ["-t", "tmpfs", "-o", f"size={2 * PAGE}"]
    else:
        needs(f"mkfs.{kind}", "mount")
        image.write_bytes(bytes(4 << 20))
        subprocess.run([f"mkfs.{kind}", image], check=True, capture_output=True)
    mounted.mkdir()
    if subprocess.run(["mount", *how, image, mounted], capture_output=True).returncode:
        pytest.skip(f"this system mounts no {kind}")
    yield mounted
    subprocess.run(["umount", "-l", mounted], check=True)


@pytest.fixture
def path(folder: pathlib.Path) -> str:
    """The path of a record."""
    return str(folder / "evening.csv")


@pytest.fixture
def text() -> str:
    """What a record has before it is opened."""
    return STARTED


@pytest.fixture
def is_durable() -> bool:
    """Whether a record tells of no row before the disk has it, whoever appended it."""
    return False


@pytest.fixture
def record(
    loop: asyncio.Runner, path: str, text: str, live: str, is_durable: bool
) -> Iterator[Record]:
    """A record, which is closed at the end; nothing runs on then."""

    async def closed() -> None:
        await opened.close()
        assert len(asyncio.all_tasks()) == 1

    append_to(path, text)
    opened = loop.run(Record.open(path, live, is_durable=is_durable))
    yield opened
    loop.run(closed())


@pytest.fixture
def before_sync(monkeypatch: MonkeyPatch) -> Do:
    """A function that has something done from now on before a file is forced to the disk."""
    sync = os.fsync

    def before(work: Callable[[], object]) -> None:
        monkeypatch.setattr(os, "fsync", lambda file: [work(), sync(file)])

    return before


def goal(record: Record, match: int = 1) -> Row:
    """A goal as the board stands."""
    return Row(match, record.moment.match(match).number, "goal-home")


def sent(*rows: Row, reporter: int = 1, edition: int = 0, **how: Any) -> Events:
    """Events that are sent."""
    return Events(reporter, rows, edition, **how)


async def entered(record: Record, row: Row, reporter: int = 1) -> Outcome:
    """What comes of an event of this reporter."""
    (outcome,) = await record.enter(sent(row, reporter=reporter))
    return outcome


async def reached(record: Record, version: int) -> None:
    """Waits until the board has this version."""
    while record.moment.version < version:
        await asyncio.sleep(0.01)


def kill(record: Record) -> None:
    """Kills the child that follows a record, if it runs just now."""
    process = record._live.child.process
    assert process is not None
    with contextlib.suppress(ProcessLookupError):
        os.kill(process.pid, signal.SIGKILL)


# ---- the log


async def test_the_lock_is_kept_behind_rows_of_others(path: str) -> None:
    """From when they were told until the next call, or the end."""
    append_to(path, "")
    first, second = [await FileLog.open(path) for _ in range(2)]
    row = [Entry(b"1,1,0,kickoff\n")]
    assert await first.append(row) == row == await second.append(row)
    with pytest.raises(Held):
        await first.append(row)
    assert await second.append(row) == row == await first.read()
    assert await first.append(row) == row == await second.append(row)
    await second.close()
    assert await first.append(row) == row
    await first.close()
    assert text_of(path) == "1,1,0,kickoff\n" * 4


async def test_an_append_is_on_the_disk_before_it_is_answered(
    record: Record, path: str, monkeypatch: MonkeyPatch
) -> None:
    """Under the lock all rows go in by one write, for which there is room already."""
    calls = list[str]()

    def noted(module: Any, name: str, told: Callable[..., str]) -> None:
        call = getattr(module, name)

        def called(file: int, *words: Any) -> Any:
            if os.readlink(f"/proc/self/fd/{file}") == path:
                calls.append(told(*words))
            return call(file, *words)

        monkeypatch.setattr(module, name, called)

    await record.ready()
    mend = Mend(await record.trial(LeaveOut(8)))
    noted(fcntl, "flock", lambda how: "unlock" if how == fcntl.LOCK_UN else "lock")
    noted(disk, "reserve", lambda count: f"reserve {count}")
    noted(os, "write", lambda data: f"write {len(data)}")
    noted(os, "fsync", lambda: "sync")
    record.listen(lambda _: calls.append("answer"))
    result = [Row(3, at, it) for at, it in enumerate(["kickoff", "goal-home", "fulltime"])]
    sendings: list[Sending] = [sent(goal(record)), mend, sent(*result, edition=1)]
    for sending, size in zip(sendings, (16, 9, 45)):
        calls.clear()
        outcomes = await record.enter(sending)
        appended = ["lock", f"reserve {size}", f"write {size}", "sync", "unlock"]
        assert calls == [*appended, *["answer"] * len(outcomes)]


# ---- what is entered


async def test_a_record_is_read_and_appended_to(record: Record, path: str, live: str) -> None:
    """Answers come to who entered and to listeners; a reader follows, and sees rows soon."""
    heard = list[Reply]()
    record.listen(heard.append)
    await record.ready()
    assert record.moment.version == 3 and [it.row for it in record.events(1)] == [6, 7, 8]
    reader = await Record.open(path, live, is_read_only=True)
    rows = [goal(record), Row(1, 4, "yellow-home"), Row(1, 4, "red-home")]
    first, second, third = await record.enter(sent(*rows))
    assert isinstance(first, Entered) and first.match.score == (2, 1)
    assert isinstance(second, Entered) and (second.row, second.match.number) == (10, 5)
    assert isinstance(third, Refused) and [it.row for it in heard] == [9, 10, 11]
    assert await record.enter(sent()) == []
    with pytest.raises(Dropped):
        await record.enter(sent(goal(record), edition=1))
    begun = time.monotonic()
    await reached(reader, 5)
    assert time.monotonic() - begun < 5 * LOOK
    await reader.close()
    rows_of_it = "1,1,3,goal-home\n1,1,4,yellow-home\n1,1,4,red-home\n"
    assert text_of(path) == STARTED + rows_of_it


@pytest.mark.parametrize("is_durable", [True])
async def test_what_waits_is_appended_together(record: Record, before_sync: Do) -> None:
    """Forty who send while the disk is slow wait for three syncs, and each has its own answer; a
    result of more events than one append takes goes in whole."""
    syncs = list[float]()

    def slow() -> None:
        syncs.append(time.monotonic())
        time.sleep(0.1)

    await record.ready()
    before_sync(slow)
    rows = [Row(1, number, "yellow-home") for number in range(3, 43)]
    result = [Row(3, number, "goal-home" if number else "kickoff") for number in range(60)]
    *outcomes, whole = await asyncio.gather(
        *(record.enter(sent(row, reporter=2)) for row in rows), record.enter(sent(*result))
    )
    numbers = [it.match.number for (it,) in outcomes if isinstance(it, Entered)]
    assert numbers == [*range(4, 44)] and len(syncs) <= 4
    assert [it.row for it in whole if isinstance(it, Entered)] == [*range(49, 109)]


async def test_answers_of_a_thousand_are_kept(record: Record, monkeypatch: MonkeyPatch) -> None:
    """The oldest are forgotten, of each reporter apart; one that waits is not."""
    monkeypatch.setattr("ucl_hall.record.writer.MOST_ANSWERS", 3)
    ids = [str(number) * 32 for number in range(5)]
    for id in ids:
        with pytest.raises(Lost):
            await record.enter(sent(KICKOFF, way=Way.ASKED, id=id))
    with pytest.raises(Lost):
        await record.enter(sent(KICKOFF, id=ids[4]))
    assert isinstance((await record.enter(sent(KICKOFF, id=ids[0])))[0], Entered)


async def test_taps_around_a_mend(record: Record) -> None:
    """In the order in which they came: those behind it, of the board before, are dropped."""
    mend, late = Mend(await record.trial(NewEdition())), Row(1, 4, "yellow-home")
    sendings: list[Sending] = [sent(Row(1, 3, "yellow-home")), sent(KICKOFF), mend]
    sendings += [sent(late), sent(late, edition=10)]
    outcomes = await asyncio.gather(*map(record.enter, sendings), return_exceptions=True)
    assert isinstance(outcomes[3], Dropped)
    kinds = [type(it[0]) for it in outcomes if not isinstance(it, BaseException)]
    assert kinds == [Entered, Entered, Mended, Entered] and record.moment.age == (10, 6)


# ---- changes


async def test_a_mend_is_asked_about_and_appended(record: Record, path: str) -> None:
    """If rows come by which it leaves out something else it is not appended, and else it is; who
    is asked holds no lock."""
    with pytest.raises(MendRefused, match="no-event"):
        await record.trial(LeaveOut(5))
    trial = await record.trial(LeaveOut(8))
    assert (trial.before.version, trial.after.version, trial.left_out) == (3, 2, ())
    with open(path) as file:
        fcntl.flock(file, fcntl.LOCK_EX | fcntl.LOCK_NB)
    await entered(record, KICKOFF, reporter=2)
    (mended,) = await record.enter(Mend(trial))
    assert isinstance(mended, Mended) and (mended.version, mended.edition) == (3, 1)
    trial = await record.trial(LeaveOut(7))
    assert trial.left_out == ()
    append_to(path, "2,1,2,disallow-home\n")
    with pytest.raises(Changed) as changed:
        await record.enter(Mend(trial))
    assert [it.row for it in changed.value.trial.left_out] == [11]
    await record.enter(Mend(changed.value.trial))
    assert record.moment.age == (2, 2) and [it.row for it in record.events(1)] == [6]
    # What a mend that stands has left out is no part of what the next one would.
    for row in goal(record), Row(1, 2, "disallow-home"):
        await record.enter(sent(row, edition=2))
    assert [it.row for it in (await record.trial(LeaveOut(13))).left_out] == [14]


BOTH = Club("Real Madrid", 61_000)


@pytest.mark.parametrize(
    "came, change, age, club",
    [
        ("mend,,10,", NewEdition(), (20, 3), Club("Bravo", 95_000)),
        ('club,2,Real Madrid,"95000"', ClubChange(2, coefficient=61_000), (2, 3), BOTH),
        ('club,2,Real Madrid,"95000"\n', ClubChange(2, coefficient=61_000), (2, 3), BOTH),
        ('club,2,Bravo,"61000"\n', ClubChange(2, name="Real Madrid"), (2, 3), BOTH),
    ],
)
async def test_a_mend_behind_another(
    record: Record, path: str, came: str, change: Any, age: tuple[int, int], club: Club
) -> None:
    """It is worked out anew from the board behind that row, also where that lacked its end: of a
    club the other value, which came meanwhile, stays."""
    agreed = await record.trial(change)
    append_to(path, came)
    with pytest.raises(Changed) as changed:
        await record.enter(Mend(agreed))
    await record.enter(Mend(changed.value.trial))
    assert record.moment.age == age and record.moment.title.clubs[1] == club


@pytest.mark.parametrize("text", [STARTED.replace("uefa,0", "uefa,65530")], ids=["late"])
async def test_the_last_edition(record: Record) -> None:
    await record.enter(Mend(await record.trial(NewEdition())))
    assert record.moment.edition == 65_535
    with pytest.raises(MendRefused, match="last-edition"):
        await record.trial(NewEdition())


@pytest.mark.parametrize("row", ["mend,7,,\n", '"me"nd,7,,\n', 'club,1,Other,"1"\n'])
async def test_an_edition_of_which_no_screen_has_come(record: Record, path: str, row: str) -> None:
    """It is seen under the lock, however its row is written: what was typed before it is not
    entered."""
    await record.ready()
    append_to(path, row)
    with pytest.raises(Dropped):
        await entered(record, goal(record))
    assert text_of(path) == STARTED + row


# ---- the child, and what is no record


async def test_ucl_live_is_killed(
    record: Record, path: str, caplog: pytest.LogCaptureFixture
) -> None:
    """Nobody sees it, however often it is in an evening: each reply comes once, the moment never
    falls, and nothing is logged."""
    heard, chance = list[Reply](), random.Random(5)
    record.listen(heard.append)
    await record.ready()
    for number in range(60):
        if chance.random() < 0.5:
            kill(record)
        assert isinstance(await entered(record, goal(record)), Entered), number
    assert [it.row for it in heard] == [*range(9, 69)]
    assert [it.screen and it.screen.version for it in heard] == [*range(4, 64)]
    assert [it.row for it in record.events(1)] == [*range(6, 69)]
    for _ in range(20):
        kill(record)
        append_to(path, "x\n" * 20)
        await asyncio.sleep(0.01)
        await record.ready()
    await record.close()
    gc.collect()
    assert caplog.records == []


@pytest.mark.parametrize(
    "text, fault",
    [
        *(("", "row 1"), (TITLE + "1,1,0,kickoff\n", "row 2")),
        *(("not a record\n", "row 1"), ("\0\xff\n", "row 1")),
    ],
)
async def test_what_is_no_record(path: str, live: str, text: str, fault: str) -> None:
    append_to(path, text)
    no_board = f"{path} has no board, or ucl_live failed"
    with pytest.raises(Over, match=f"{no_board}: input refused 20: {fault}$"):
        await Record.open(path, live)
    with pytest.raises(Over, match=f"{no_board}: /none/it: No such file or directory$"):
        await Record.open(path, "/none/it")


async def test_a_child_of_another_version(record: Record, monkeypatch: MonkeyPatch) -> None:
    """A line that is none of its answers ends the record by a fault, and nobody waits for ever."""

    def no_answer(_: bytes) -> Answer:
        raise NoAnswer("it is no known reply")

    monkeypatch.setattr("ucl_hall.engine.live.answer_of", no_answer)
    with pytest.raises(Over, match="is of another version"):
        await asyncio.wait_for(entered(record, goal(record)), 20)


@pytest.mark.parametrize(
    "text",
    [
        *(BEGUN, model.CLUBS, "\ufeff" + TITLE + "\n\r\n" + model.CLUBS + "\n"),
        '"group","B",uefa,0\r\n' + model.CLUBS.replace("\n", "\r\n"),
        *(BEGUN + "screen,,,\n\nmatches,,,\n\n", BEGUN + "x\n\n"),
        # Rows that begin no edition.
        *(STARTED + "group," + it for it in ("B,uefa,0\n", "B,uefa,1\n", "A,uefa,1\n")),
        *(STARTED + "group,B," + it for it in ("away-in-tie,1\n", "uefa,65536\n", "uefa,1,\n")),
        *(STARTED + it for it in ("club,5,Other,1\n", "mend,0,,\n", "mend,7\n")),
    ],
)
async def test_which_rows_have_an_answer(record: Record, path: str) -> None:
    """All that is read is answered at once, however a record begins and whatever is in it."""
    await asyncio.wait_for(record.ready(), 5)
    append_to(path, "\r\n\n")
    version = record.moment.version
    assert isinstance(await asyncio.wait_for(entered(record, KICKOFF), 5), Entered)
    assert record.moment.age == (0, version + 1)


@pytest.mark.parametrize(
    "text",
    [
        STARTED
        + '\xff\xfe\n"1","1",3,"goal-home"\n\n\r\n'
        + "x" * 9000
        + '\nscreen,,,\nmatches,,,\n1,1,4,"goal-home\n001,01,00004,red-home\r\n"row":9,"reply":"ok"\n'
    ],
    ids=["odd"],
)
async def test_what_else_stands_in_a_record(record: Record, path: str) -> None:
    """Bytes that are no text, rows in quotes, long lines, readings, empty lines: they are as
    `ucl_live` has them, for a change too."""
    first = await entered(record, Row(1, 5, "red-home"))
    assert isinstance(first, Entered) and first.row == 19
    assert (first.match.score, first.match.expulsions) == ((2, 1), (2, 0))
    append_to(path, "\udcff\x00\n1,1,6,goal-away\n")
    second = await entered(record, Row(1, 7, "red-away"))
    assert isinstance(second, Entered) and (second.row, second.match.score) == (22, (2, 2))
    await record.enter(Mend(await record.trial(LeaveOut(7))))
    wanted = moment_of(text_of(path))
    assert record.moment.age == (1, 7) == wanted.age and record.moment.words == wanted.words


@pytest.mark.parametrize("is_held", [False, True], ids=["free", "held"])
@pytest.mark.parametrize(
    "cut, version",
    [
        *(("1,1,3,goal-ho", 3), ("1,1,3,goal-home", 4), ("x", 3)),
        *(("mend,8,,", 2), ("mend,8,", 3)),
    ],
)
async def test_a_last_line_without_an_end(
    path: str, live: str, cut: str, version: int, is_held: bool, monkeypatch: MonkeyPatch
) -> None:
    """It gets one by a write of its own when the record is opened; if another holds the lock then,
    before the next append, which a mend that it turns out to be drops."""
    monkeypatch.setattr("ucl_hall.record.file.LOCK", 0.1)
    append_to(path, STARTED + cut)
    with open(path) as file:
        if is_held:
            fcntl.flock(file, fcntl.LOCK_EX)
        record = await Record.open(path, live)
    await record.ready()
    assert text_of(path) == STARTED + cut + "\n" * (not is_held)
    assert len(record.events(1)) == (3 if is_held else version)
    rest = ""
    if cut == "mend,8,,":
        with pytest.raises(Dropped):
            await entered(record, KICKOFF)
    else:
        assert isinstance(await entered(record, KICKOFF), Entered)
        rest = "1,2,0,kickoff\n"
    assert len(record.events(1)) == version and text_of(path) == f"{STARTED}{cut}\n{rest}"
    await record.close()


@pytest.mark.parametrize("change", ["shorter", "another", "other rows", "gone"])
async def test_a_record_that_does_not_only_grow(record: Record, path: str, change: str) -> None:
    if change == "other rows":
        with open(path, "r+") as file:
            file.write(STARTED.replace("goal-home", "goal-away") + "1,1,3,red-home\n")
    elif change == "shorter":
        os.truncate(path, len(BEGUN))
    else:
        os.rename(path, path + ".before")
        if change == "another":
            append_to(path, STARTED)
    with pytest.raises(Replaced):
        await asyncio.wait_for(asyncio.shield(record.over), 5)
    with pytest.raises(Replaced):
        await entered(record, goal(record))


# ---- locks, disks, and what is written beside


async def test_a_lock_that_another_holds(record: Record, path: str, live: str) -> None:
    """Who enters is told in two seconds, and nothing is appended; who only looks goes on."""
    with open(path) as file:
        fcntl.flock(file, fcntl.LOCK_EX)
        reader = await Record.open(path, live, is_read_only=True)
        begun = time.monotonic()
        with pytest.raises(Held, match="another program holds the lock"):
            await entered(record, goal(record))
        assert 1.9 < time.monotonic() - begun < 9
        append_to(path, "2,1,3,goal-away\n")
        await reached(reader, 4)
        await reached(record, 4)
        await reader.close()
    assert isinstance(await entered(record, goal(record)), Entered)


@pytest.mark.parametrize("is_durable", [True])
async def test_nobody_is_told_what_the_disk_does_not_have(
    record: Record, path: str, before_sync: Do
) -> None:
    """Of rows that others append, which they may not have forced to the disk, too."""
    is_free = threading.Event()
    await record.ready()
    before_sync(lambda: is_free.wait(10))
    append_to(path, "2,1,3,goal-away\n")
    await asyncio.sleep(4 * LOOK)
    assert record.moment.version == 3
    is_free.set()
    await asyncio.wait_for(reached(record, 4), 5)


def room(count: int) -> str:
    """A record whose last page has room for so many bytes."""
    return STARTED + "\n" * (PAGE - len(STARTED) - count)


@pytest.mark.parametrize(
    "folder, text, left, told",
    [
        ("tmpfs", room(4), "", "the disk is full: nothing was entered"),
        # Which reserves nothing, so a part of a row may be in.
        ("ext2", room(0), "", "the disk is full: nothing was entered"),
        (
            "ext2",
            room(4),
            "1,1,",
            "the disk is full, and the row was cut off: it may be in the rec",
        ),
    ],
    ids=["reserved", "no room", "cut off"],
    indirect=["folder"],
)
async def test_a_full_disk(
    record: Record, path: str, folder: pathlib.Path, text: str, left: str, told: str
) -> None:
    """Who enters is told what is in the record; once there is room it goes on."""
    with contextlib.suppress(OSError), open(folder / "rest", "wb", buffering=0) as rest:
        while rest.write(b"x" * 1024):
            pass
    with pytest.raises(MaybeEntered if left else NotEntered, match=told):
        await entered(record, goal(record))
    assert text_of(path) == text + left
    (folder / "rest").unlink()
    assert isinstance(await entered(record, goal(record)), Entered)


@pytest.mark.parametrize("code", [errno.ENOSPC, errno.EDQUOT, errno.ENOSYS, errno.EOPNOTSUPP])
async def test_space_that_is_not_reserved(
    record: Record, monkeypatch: MonkeyPatch, code: int
) -> None:
    """Where there is none nothing was entered; where the call is not there the row is written."""
    libc = types.SimpleNamespace(fallocate64=lambda *_: ctypes.set_errno(code) or -1)
    monkeypatch.setattr(disk, "_LIBC", libc)
    if code in (errno.ENOSPC, errno.EDQUOT):
        with pytest.raises(NotEntered, match="the disk is full: nothing was entered"):
            await entered(record, goal(record))
    else:
        assert isinstance(await entered(record, goal(record)), Entered)


@pytest.mark.parametrize("kept", range(len("1,1,3,goal-home\n")))
async def test_a_write_that_is_cut_off(record: Record, path: str, kept: int) -> None:
    """At each byte of a row: that it may be in is told; the record is never shortened."""
    row, limits = "1,1,3,goal-home\n", resource.getrlimit(resource.RLIMIT_FSIZE)
    told = "may be in the record" if kept else "nothing was entered"
    resource.setrlimit(resource.RLIMIT_FSIZE, (len(STARTED) + kept, limits[1]))
    try:
        with pytest.raises(MaybeEntered if kept else NotEntered, match=told):
            await entered(record, goal(record))
    finally:
        resource.setrlimit(resource.RLIMIT_FSIZE, limits)
    assert text_of(path) == STARTED + row[:kept]
    await entered(record, KICKOFF)
    assert record.moment.version == 4 + (kept == len(row) - 1)
    assert text_of(path) == STARTED + row[:kept] + "\n" * (kept > 0) + "1,2,0,kickoff\n"


async def test_a_record_that_is_closed_while_a_row_is_written(
    record: Record, path: str, before_sync: Do
) -> None:
    """The row is written whole before the file is closed, and its lock given back."""
    begun = threading.Event()

    def slow() -> None:
        begun.set()
        time.sleep(0.5)

    before_sync(slow)
    append = asyncio.create_task(entered(record, goal(record)))
    while not begun.is_set():
        await asyncio.sleep(0.01)
    await record.close()
    with pytest.raises(asyncio.CancelledError):
        await append
    with open(path) as file:
        fcntl.flock(file, fcntl.LOCK_EX | fcntl.LOCK_NB)
    assert text_of(path) == STARTED + "1,1,3,goal-home\n"


async def test_a_disk_that_fails(record: Record, before_sync: Do) -> None:
    """Where a row can not be forced to the disk it may be in, which is told; the next one is
    entered."""
    faults = [OSError(errno.EIO, "Input/output error")]

    def failing() -> None:
        if faults:
            raise faults.pop()

    await record.ready()
    before_sync(failing)
    told = "the disk fails: Input/output error: it may be in the record: look at the match"
    with pytest.raises(MaybeEntered, match=told):
        await entered(record, goal(record))
    assert isinstance(await entered(record, KICKOFF), Entered) and record.moment.version == 5


async def test_a_row_that_comes_between(
    record: Record, path: str, monkeypatch: MonkeyPatch
) -> None:
    """Whoever appends takes no lock: the answer is that of the own row."""
    write = os.write

    def late(file: int, data: bytes) -> int:
        append_to(path, "bad\n2,1,3,goal-away\n")
        monkeypatch.setattr(os, "write", write)
        return write(file, data)

    await record.ready()
    monkeypatch.setattr(os, "write", late)
    outcome = await entered(record, Row(1, 4, "red-home"), reporter=7)
    assert isinstance(outcome, Entered)
    assert (outcome.row, outcome.match.number, outcome.match.reporter) == (11, 5, 7)


async def many_times(board: Record, sending: Events, chance: random.Random) -> set[int]:
    """Sends the same until there is an answer, and now and then once more. Gives the rows of all
    first answers."""
    rows = set[int]()
    while not rows or chance.random() < 0.3:
        with contextlib.suppress(TimeoutError):
            async with asyncio.timeout(chance.choice([0.001, 0.05, 20])):
                outcomes = await board.enter(sending)
                assert all(isinstance(it, Entered | Event) for it in outcomes), outcomes
                assert all(it.row == outcomes[0].row + at for at, it in enumerate(outcomes))
                rows.add(outcomes[0].row)
        sending = replace(sending, way=chance.choice([Way.FIRST, Way.AGAIN]))
    return rows


@pytest.mark.parametrize("seed", range(3))
@pytest.mark.parametrize("text", [BEGUN], ids=["begun"])
async def test_random_evenings_of_one_file(
    record: Record, path: str, live: str, monkeypatch: MonkeyPatch, seed: int
) -> None:
    """Six reporters at three boards, who send again what has no answer, while children are killed
    and somebody writes beside: what is sent is in once, whole, at the row that is told."""
    monkeypatch.setattr("ucl_hall.record.file.LOCK", 60)
    told: dict[str, set[int]] = {}
    events = ["kickoff", *["goal-home", "disallow-home"] * 40]

    async def reporter(board: Record, own: int) -> None:
        chance, end = random.Random(f"{seed} {own}"), 0
        for _ in range(25):
            begun, end = end, end + chance.choice([1, 1, 3])
            rows = [Row(own, number, events[number]) for number in range(begun, end)]
            sending = sent(*rows, reporter=own)
            lines = b"".join(it.row for it in sending.entries).decode()
            told[lines] = await many_times(board, sending, chance)
            if chance.random() < 0.2:
                kill(board)
            if chance.random() < 0.2:
                append_to(path, chance.choice(["x\n", "\n", "1,12,7,red-home\n"]))

    boards = [record, *[await Record.open(path, live) for _ in range(2)]]
    async with asyncio.TaskGroup() as group:
        for own in range(1, 7):
            group.create_task(reporter(boards[own % 3], own))
    for other in boards[1:]:
        await other.close()
    whole = text_of(path)
    assert Session([]).of(whole)[1].count(" ok ") == sum(it.count("\n") for it in told)
    for lines, numbers in told.items():
        assert len(numbers) == 1 and whole.count("\n" + lines) == 1
        assert whole[: whole.index("\n" + lines)].count("\n") + 2 == min(numbers)


# ---- how one begins


@pytest.mark.parametrize("folder", ["vfat"], indirect=True)
async def test_a_record_begins_on_fat(folder: pathlib.Path, path: str, live: str) -> None:
    """Where there are no links."""
    assert await begin(path, live, BEGUN.encode())
    assert not await begin(path, live, STARTED.encode())
    assert text_of(path) == BEGUN and os.listdir(folder) == ["evening.csv"]


@pytest.mark.parametrize("when", [1, 2])
def test_a_new_record_on_a_disk_that_fails(
    folder: pathlib.Path, path: str, before_sync: Do, when: int
) -> None:
    """It is forced to the disk, and then its folder; if either fails that is told, and nothing is
    left beside it."""
    count = itertools.count(1)

    def failing() -> None:
        if next(count) == when:
            raise OSError(errno.EIO, "Input/output error")

    before_sync(failing)
    with pytest.raises(OSError, match="Input/output error"):
        disk.begin(path, BEGUN.encode())
    assert os.listdir(folder) == ["evening.csv"] * (when == 2) and next(count) == when + 1


@pytest.mark.parametrize("code", [errno.ENOSYS, errno.EINVAL])
def test_a_record_begins_where_a_file_can_not_be_moved_so(
    folder: pathlib.Path, path: str, monkeypatch: MonkeyPatch, code: int
) -> None:
    """It gets its name by a link; where there are no links either that is told."""
    libc = types.SimpleNamespace(renameat2=lambda *_: ctypes.set_errno(code) or -1)
    monkeypatch.setattr(disk, "_LIBC", libc)
    assert disk.begin(path, BEGUN.encode()) and not disk.begin(path, STARTED.encode())
    assert text_of(path) == BEGUN and os.listdir(folder) == ["evening.csv"]

    def no_link(*_: str) -> None:
        raise OSError(errno.EPERM, "Operation not permitted")

    monkeypatch.setattr(os, "link", no_link)
    with pytest.raises(OSError, match="Operation not permitted"):
        disk.begin(str(folder / "other.csv"), BEGUN.encode())
    assert os.listdir(folder) == ["evening.csv"]


@pytest.mark.parametrize(
    "kind_of_it, is_share",
    [
        *(("nfs4", True), ("cifs", True), ("fuse.sshfs", True)),
        *(("ext4", False), ("fuse.other", False), ("", False)),
    ],
)
def test_a_share(tmp_path: pathlib.Path, kind_of_it: str, is_share: bool) -> None:
    """A record on another machine is seen where the system tells its kind."""
    device, path = os.stat(tmp_path).st_dev, str(tmp_path)
    number = f"{os.major(device)}:{os.minor(device)}"
    mounts = f"1 2 0:99 / /x rw - nfs x x\n27 1 {number} / / rw shared:1 - {kind_of_it} host:/x\n"
    assert disk.is_on_share(path, mounts) is is_share
    assert not any(disk.is_on_share(path, mounts) for mounts in ("", "rubbish\n", None))


async def test_a_record_on_a_share_is_only_looked_at(
    path: str, live: str, monkeypatch: MonkeyPatch
) -> None:
    """It is neither begun nor appended to there."""
    monkeypatch.setattr(disk, "is_on_share", lambda path: True)
    append_to(path, STARTED)
    for opening in Record.open(path, live), begin(path + ".other", live, BEGUN.encode()):
        with pytest.raises(Over, match="is on a share: keep the record on a disk of this machine"):
            await opening
    reader = await Record.open(path, live, is_read_only=True)
    assert reader.moment.version == 3 and os.listdir(os.path.dirname(path)) == ["evening.csv"]
    await reader.close()
