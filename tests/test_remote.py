"""A terminal on another machine, by the link of a reporter.

It has the same prompt and the same answers, through lost connections and kills.
"""

import asyncio
import contextlib
import itertools
import json
import os
import random
import re
import signal
import threading
import time
from collections.abc import Awaitable, Callable, Iterator
from dataclasses import asdict, replace
from typing import Any

import model
import pytest
from aiohttp import web
from drivers.board import lines_to, moment_of
from drivers.port import free_port
from drivers.program import Run, Started, command
from drivers.terminal import Terminal
from drivers.text import TOP
from drivers.wait import until

from ucl_hall.engine.history import Event
from ucl_hall.faults import NotEntered, Over
from ucl_hall.record.sending import Entered, Events
from ucl_hall.remote.board import NoMoreYours, NotYours, Remote
from ucl_hall.rows import Row

pytestmark = pytest.mark.limit(300)
Halls = Callable[..., Any]
REPORTER = str(TOP / "ucl_reporter")
NO_CONNECTION = "No connection: what you enter is sent once it is there again"


def link(one: Any, number: int = 1) -> str:
    """The link of a reporter."""
    return f"http://127.0.0.1:{one.port}/report/{one.key(number)}"


def typed(one: Any, place: str, lines: str, *words: str) -> Run:
    """A run of the program over these lines of input, at a record or at a link."""
    ran = command([REPORTER, place, *words], lines, cwd=one.folder, env=one.how["env"])
    assert "Traceback" not in ran.errors
    return ran


@pytest.fixture
def terminals() -> Iterator[Callable[..., Any]]:
    """A function that starts the program at a terminal."""
    started = list[Any]()

    def terminal(one: Any, place: str, *words: str) -> Any:
        env = {**one.how["env"], "TERM": "xterm"}
        started.append(Terminal([REPORTER, place, *words], cwd=one.folder, env=env))
        return started[-1]

    yield terminal
    for each in started:
        each.kill()


# ---- as at the record


LINES = """1 kickoff
1 goal home
1 yellow away
1
2 result 2-1 yellows 0-1
1,1,1,goal-home
1 second yellow away
1 fulltime
"""


@pytest.mark.parametrize("last", ["1 goal home", "5 kickoff", "1,1,0,goal-home", "mend 6", "x"])
def test_the_same_lines_have_the_same_answers(hall: Halls, last: str) -> None:
    """Whether they are typed at the record or at the link; at the link on its matches."""
    one = hall("--reporter", "1:1,2", records=("a.csv", "b.csv"))
    here = typed(one, "b.csv", LINES + last + "\n", "--matches", "1,2")
    there = typed(one, link(one), LINES + last + "\n")
    assert there == here and there.status == 1 and there.output.count("\n") == 11
    assert one.rows() == one.rows("b.csv")
    again = "".join(f"{row}\n" for row in one.rows()[:11])
    assert typed(one, link(one), again).output.count("passed over: the board has it") == 11
    assert one.rows() == one.rows("b.csv")


def test_what_goes_with_a_link(hall: Halls) -> None:
    """The table and the sheet as at the record; no mend, no number, and no link that is unknown."""
    one = hall("--reporter", "1:1,2", "--reporter", "2")
    assert typed(one, link(one), "1 kickoff\n").status == 0
    assert typed(one, link(one), "", "--sheet") == typed(one, "a.csv", "", "--sheet")
    ran = typed(one, link(one), "", "--mend", "6", "--yes")
    desk = "a mend is entered at the desk, on the machine that has the record"
    assert ran == (1, "", f"ucl_reporter: {desk}\n") and len(one.rows()) == 1
    assert typed(one, link(one), "", "--number", "1").status == 2
    ran = typed(one, link(one), "5 kickoff\n")
    assert ran == (1, "", "ucl_reporter: 5 kickoff: match 5 is not yours\n")
    ran = typed(one, link(one), "", "--matches", "2,5")
    assert ran == (1, "", "ucl_reporter: --matches: those of this link are 1, 2\n")
    assert typed(one, link(one), "1 yellow home\n", "--matches", "2").status == 1
    stranger = f"http://127.0.0.1:{one.port}/report/{'0' * 32}"
    unknown = f"ucl_reporter: {stranger} is the link of no reporter there: ask for a new one\n"
    assert typed(one, stranger, "") == (1, "", unknown)
    many = "1 result 40-40 yellows 60-60 reds 30-30\n"
    ran = typed(one, link(one, 2), many.replace("1 ", "3 "))
    assert ran.status == 1 and "too many events for one line" in ran.errors
    with Started([REPORTER, link(one), "--watch"], env=one.how["env"]) as watch:
        assert watch.lines(8).startswith("GROUP A v00001 IN PLAY 1\n")
        assert typed(one, link(one, 2), "1 goal away\n").status == 0
        assert " 1 Bravo 0-1 Charlie, in play, event 2 by 2\n" in watch.lines(8)


def test_a_terminal_among_others(hall: Halls, terminals: Callable[..., Any]) -> None:
    """It shows what others enter, and nothing of its own as theirs, a new edition, and the events of
    a match; it refuses mends."""
    one = hall("--reporter", "1:1,2", "--reporter", "2")
    near, far = terminals(one, "a.csv", "--number", "3"), terminals(one, link(one))
    near.sees("Ctrl-D ends")
    far.sees("Reporter 1: type a match").enter("1 kickoff", "entered, row 6: Bravo 0-0 Charlie")
    near.sees("row 6: 1 kickoff by reporter 1: Bravo 0-0").enter("1 goal home", "entered, row 7")
    far.sees("row 7: 1 goal home by reporter 3: Bravo 1-0 Charlie, in play, event 2 by 3")
    phone = one.phone(2)
    assert phone.answer(1, 2, "yellow-away") == "entered"
    far.sees("row 8: 1 yellow away by reporter 2").enter(
        "1", "   row 8: 1 yellow away by reporter 2"
    )
    assert "   row 6: 1 kickoff by reporter 1\n   row 7: 1 goal home by reporter 3\n" in far.text()
    far.enter("1 goal away", "entered, row 9").enter("1 result 1-0", "match 1 has events")
    far.enter("mend 7", "a mend is entered at the desk").enter("5 kickoff", "match 5 is not yours")
    far.enter("1 second yellow home", "the home side of match 1 has no yellow")
    near.enter("mend 8", "append it?").enter("y", "entered, row 11")
    far.sees("Edition 1 has begun: look at the matches").enter("1 yellow away", "entered, row 12")
    board, near_board = far.board(), near.board()
    assert board.startswith(near_board[: near_board.index("\n 1 ")]) and " 3 " not in board[-200:]
    assert board.count("\n") == 8 and "by reporter 1: " not in far.text()
    assert (far.end(), near.end()) == (0, 0) and far.is_as_before()


# ---- lost connections, and kills


def test_the_server_is_killed_in_the_midst_of_a_row(
    hall: Halls, terminals: Callable[..., Any]
) -> None:
    """The row is in the record without an answer: it is sent again, is in once, and has one."""
    one = hall("--reporter", "1")
    far = terminals(one, link(one))
    far.sees("Ctrl-D ends").enter("1 kickoff", "entered, row 6")
    for child in one.live():
        os.kill(child, signal.SIGSTOP)
    far.type("1 goal home\r")
    assert until(lambda: len(one.rows()) == 2)
    assert "entered, row 7" not in far.text() and far.sees("1 goal home .. >")
    children = one.live()
    one.end()
    for child in children:
        os.kill(child, signal.SIGKILL)
    far.sees(NO_CONNECTION)
    far.read(0.5)
    shown = "\n".join(far.screen.display)
    assert shown.index(NO_CONNECTION) < shown.index("GROUP A v00001")
    one.start()
    far.sees("1 goal home             entered, row 7: Bravo 1-0 Charlie, in play, event 2 by 1")
    far.enter("1 goal away", "entered, row 8: Bravo 1-1 Charlie")
    far.read(0.5)
    assert NO_CONNECTION not in "\n".join(far.screen.display) and far.end() == 0
    assert one.rows() == ["1,1,0,kickoff", "1,1,1,goal-home", "1,1,2,goal-away"]


def test_kills_at_any_moment(hall: Halls, seed: int, kills: int) -> None:
    """Each row is in once and in its order, however often the server is killed meanwhile."""
    print(f"--seed {seed}")
    one, chance = hall("--reporter", "1"), random.Random(seed)
    count, is_done = 60, threading.Event()

    def kill() -> None:
        while not is_done.wait(chance.uniform(0.3, 1.5)):
            one.end()
            if not is_done.is_set():
                one.start()

    killer = threading.Thread(target=kill)
    rows = ["1,1,0,kickoff", *(f"1,1,{it},yellow-home" for it in range(1, count))]
    events = "1 kickoff\n" + "1 yellow home\n" * (count - 1)
    with Started([REPORTER, link(one)], env=one.how["env"]) as far:
        killer.start()
        far.write(events)
        try:
            answers = far.lines(count)
            assert far.end().status == 0
        finally:
            is_done.set()
            killer.join()
    told_rows = [line.split("row ")[1].split(":")[0] for line in answers.splitlines()]
    assert one.rows() == rows and told_rows == [str(row) for row in range(6, 6 + count)]


# ---- what is sent that no terminal sends


def test_a_link_sends_no_more_events_than_a_person_enters(hall: Halls) -> None:
    """Several in a message count as so many; who asks for all of them is as dear as twenty."""
    one = hall("--reporter", "1")
    phone = one.phone(1)
    for number in (0, 45):
        events = ["kickoff", *["yellow-home"] * 44] if not number else ["goal-home"] * 45
        tap = {"edition": 0, "match": 1, "expected": number, "events": events}
        phone.send(json.dumps({"tap": os.urandom(16).hex(), **tap}))
        assert phone.until("answer")["name"] == "entered"
    assert len(one.rows()) == 90
    phone.send(json.dumps({"events": os.urandom(16).hex()}))
    phone.send(json.dumps({"events": os.urandom(16).hex()}))
    assert phone.is_closed()
    assert one.phone(1).lines[1]["version"] == 90


# ---- servers that say anything


HOSTILE = [
    "",
    "null",
    "[" * 4_000,
    '{"reply":"screen"}',
    '{"reply":"reporter","number":0,"matches":[1]}',
    '{"reply":"reporter","number":true,"matches":[1]}',
    '{"reply":"reporter","number":1.0,"matches":[1]}',
    '{"reply":"reporter","number":1,"matches":[13]}',
    '{"reply":"reporter","number":1,"matches":[1],"at":7}',
    '{"reply":"reporter","number":1,"matches":[1],"at":["x",7,"http://[/","http://x:y/","ftp://x/"]}',
    '{"reply":"pulse","groups":7}',
    '{"reply":"recent","events":[]}',
    '{"reply":"recent","events":[{"row":1}]}',
    '{"reply":"recent","events":7}',
    '{"reply":"mended","row":1}',
    '{"reply":"answer","id":"x","outcomes":[]}',
    '{"reply":["answer"],"id":{}}',
]
ANSWERS: list[dict[str, object]] = [
    {},
    {"outcomes": 7},
    {"outcomes": [{}]},
    {"outcomes": [{"reply": "refused", "row": "x"}]},
    {"name": "dropped", "edition": "x"},
    {"name": "not-entered", "fault": "\u001b[2J"},
]
KICKOFF = Events(1, (Row(1, 0, "kickoff"),), 0)
GREETING = {"reply": "reporter", "number": 1, "matches": [1], "group": "A"}
Taps = Callable[[web.Request], Awaitable[web.StreamResponse]]


def answer(message: str, **members: object) -> str:
    """What a server answers to a message."""
    said = json.loads(message)
    (id,) = (said[name] for name in ("tap", "again") if name in said)
    return json.dumps({"reply": "answer", "id": id, **members})


async def connected(
    request: web.Request, *lines: str, rows: str = "", **named: object
) -> web.WebSocketResponse:
    """The WebSocket of a request, which is greeted as of a board of these rows, and sent lines."""
    socket = web.WebSocketResponse(timeout=0.1)
    await socket.prepare(request)
    screen = lines_to(f"{model.CLUBS}{rows}screen,,,\n")[-1].decode()
    greeting = json.dumps({**GREETING, **named}), screen, '{"reply":"recent","events":[]}'
    for line in (*lines, *greeting, *lines):
        await socket.send_str(line)
    return socket


def followed(taps: Taps, work: Callable[[Remote], Awaitable[None]], *ports: int) -> None:
    """Follows a link by the first of these servers, and does work with it."""

    async def all_of_it() -> None:
        app, at = web.Application(), ports or (free_port(),)
        app.router.add_get("/report/key/taps", taps)
        runner = web.AppRunner(app)
        await runner.setup()
        async with contextlib.AsyncExitStack() as stack:
            stack.push_async_callback(runner.cleanup)
            for port in at:
                await web.TCPSite(runner, "127.0.0.1", port, shutdown_timeout=0.1).start()
            remote = await Remote.open(f"http://127.0.0.1:{at[0]}/report/key")
            stack.push_async_callback(remote.close)
            await work(remote)

    asyncio.run(all_of_it())


def test_a_server_that_says_anything() -> None:
    """Lines that are none change nothing, and an answer that is none is that nobody knows."""
    answers = list(ANSWERS)

    async def taps(request: web.Request) -> web.WebSocketResponse:
        socket = await connected(request, *HOSTILE)
        async for message in socket:
            await socket.send_str(answer(message.data, **answers.pop(0)))
        return socket

    async def work(remote: Remote) -> None:
        assert (remote.number, remote.matches, remote.moment.version) == (1, [1], 0)
        told = []
        for _ in ANSWERS:
            try:
                await remote.enter(Events(1, KICKOFF.rows, 0))
            except Exception as fault:
                told.append(str(fault))
        maybe = "it may be in the record: look at the match before you type again"
        other = f"the server is of another version: {maybe}"
        assert told == ["None", "None", other, other, "None", "?[2J"]

    followed(taps, work)


def test_an_answer_that_overtakes_its_moment() -> None:
    """On a slow line: it is told once the moment that the terminal shows has the event."""
    begun = model.CLUBS + "1,1,0,kickoff\n"
    entered = {**asdict(moment_of(begun).match(1)), "row": 5}

    async def taps(request: web.Request) -> web.WebSocketResponse:
        socket = await connected(request)
        async for message in socket:
            await socket.send_str(answer(message.data, outcomes=[entered]))
            await asyncio.sleep(0.3)
            await socket.send_str(lines_to(begun)[-1].decode())
        return socket

    async def work(remote: Remote) -> None:
        (outcome,) = await remote.enter(KICKOFF)
        assert isinstance(outcome, Entered) and outcome.match == remote.moment.match(1)

    followed(taps, work)


# ---- connections that are lost


@pytest.mark.parametrize("fault", ["it is refused", "it ends", "it is silent"])
def test_a_connection_that_is_lost(
    fault: str, monkeypatch: pytest.MonkeyPatch, capsys: pytest.CaptureFixture[str]
) -> None:
    """That is told once, and that it is there again. What has no answer is sent again as what was
    sent before, and what stands by then has come in; who is silent takes no leave either."""
    monkeypatch.setattr("ucl_hall.remote.link.SILENCE", 2.0)
    text, asked, sent = "1,1,0,kickoff\n1,1,1,goal-home\n", itertools.count(), list[Any]()
    events = replace(KICKOFF, rows=(Row(1, 0, "kickoff"), Row(1, 1, "goal-home")))
    stands = [asdict(Event(5 + it.expected, 1, 1, it.event)) for it in events.rows]

    async def taps(request: web.Request) -> web.StreamResponse:
        is_lost = next(asked) < (2 if fault == "it is refused" else 1)
        if is_lost and fault == "it is refused":
            return web.Response(status=503)
        socket = await connected(request, rows="" if is_lost else text)
        async for message in socket:
            sent.append(json.loads(message.data))
            if not is_lost:
                await socket.send_str(answer(message.data, outcomes=stands))
            elif fault == "it is silent":
                await asyncio.sleep(20)
            elif request.transport:
                request.transport.abort()
        return socket

    async def work(remote: Remote) -> None:
        begun, match = time.monotonic(), moment_of(model.CLUBS + text).match(1)
        assert await remote.enter(events) == [Entered(5, match), Entered(6, match)]
        assert time.monotonic() - begun < 8

    followed(taps, work)
    said: Any = {"edition": 0, "match": 1, "expected": 0, "events": ["kickoff", "goal-home"]}
    names = ["tap"] if fault == "it is refused" else ["tap", "again"]
    assert sent == [{name: KICKOFF.id, **said} for name in names]
    told = NO_CONNECTION, "connected again"
    assert capsys.readouterr().err == "".join(f"ucl_reporter: {it}\n" for it in told)


def test_matches_that_are_another_s_by_now() -> None:
    """What was on its way has an answer that says so, what was typed since is not sent, and the
    rest goes on."""
    sent, is_lost = list[str](), asyncio.Event()

    async def taps(request: web.Request) -> web.WebSocketResponse:
        is_first = not sent
        socket = await connected(request, matches=[1, 2] if is_first else [2])
        async for message in socket:
            sent.append(message.data)
            if is_first and request.transport:
                request.transport.abort()
            else:
                await socket.send_str(answer(message.data, name="not-entered", fault="as it was"))
        return socket

    async def work(remote: Remote) -> None:
        remote.tell = lambda notice: is_lost.set()
        entering = [asyncio.create_task(remote.enter(KICKOFF))]
        await is_lost.wait()
        for match in 1, 2:
            other = Events(1, (Row(match, 1, "goal-home"),), 0)
            entering.append(asyncio.create_task(remote.enter(other)))
        outcomes = await asyncio.gather(*entering, return_exceptions=True)
        assert [type(it) for it in outcomes] == [NoMoreYours, NotYours, NotEntered]
        with pytest.raises(NotYours, match="match 1 is not yours"):
            await remote.enter(Events(1, KICKOFF.rows, 0))
        assert len(sent) == 2

    followed(taps, work)


@pytest.mark.parametrize(
    "status, told",
    [
        (404, " is the link of no reporter there: ask for a new one"),
        (403, ": the server has another name: give the link as it prints it"),
    ],
)
def test_a_server_that_refuses_the_link(status: int, told: str) -> None:
    """The program ends, and says what to do."""

    async def taps(_: web.Request) -> web.Response:
        return web.Response(status=status)

    async def work(_: Remote) -> None:
        """It is never done."""

    port = free_port()
    with pytest.raises(Over, match=re.escape(f"http://127.0.0.1:{port}/report/key{told}")):
        followed(taps, work, port)


# ---- several servers


@pytest.mark.parametrize("resends, name", [(True, "tap"), (False, "again")])
@pytest.mark.parametrize("groups", [None, "B"])
def test_a_link_goes_to_the_next_server(resends: bool, name: str, groups: str | None) -> None:
    """Where one says nothing, or hears of other boards alone. What has no answer is sent there by
    the same id: as it was, where the servers keep ids for good, and else as what was sent before.
    """
    ports, sent = [free_port(), free_port()], list[dict[str, object]]()
    at = [f"http://127.0.0.1:{port}" for port in ports]

    async def pulse(socket: web.WebSocketResponse, told: str) -> None:
        with contextlib.suppress(ConnectionError):
            while True:
                await socket.send_str(json.dumps({"reply": "pulse", "groups": told}))
                await asyncio.sleep(0.1)

    async def taps(request: web.Request) -> web.WebSocketResponse:
        socket = await connected(request, at=at, resends=resends)
        is_first = request.url.port == ports[0]
        told = groups if is_first else "AB"
        pulsing = asyncio.create_task(pulse(socket, told)) if told else None
        async for message in socket:
            sent.append(json.loads(message.data))
            if not is_first:
                fault = {"name": "not-entered", "fault": "it is the second"}
                await socket.send_str(answer(message.data, **fault))
        if pulsing:
            pulsing.cancel()
        return socket

    async def work(remote: Remote) -> None:
        with pytest.raises(NotEntered, match="it is the second"):
            await remote.enter(KICKOFF)

    followed(taps, work, *ports)
    said: Any = {"edition": 0, "match": 1, "expected": 0, "events": ["kickoff"]}
    assert sent == [{"tap": KICKOFF.id, **said}, {name: KICKOFF.id, **said}]


def test_other_servers_that_refuse_the_link() -> None:
    """One is asked once, and the terminal goes on where the link is taken; it ends once it is taken
    nowhere. A link by http goes to no server by https, whatever another says."""
    here, other, by_tls = ports = [free_port() for _ in range(3)]
    asked, met = list[int](), list[int]()
    at = [f"https://127.0.0.1:{by_tls}", *(f"http://127.0.0.1:{port}/" for port in (here, other))]

    async def taps(request: web.Request) -> web.StreamResponse:
        asked.append(request.url.port or 0)
        if request.url.port == other or len(asked) > 4:
            return web.Response(status=404)
        return await connected(request, at=at[: len(asked)])

    def meet(_: asyncio.StreamReader, writer: asyncio.StreamWriter) -> None:
        met.append(by_tls)
        writer.close()

    async def work(remote: Remote) -> None:
        async with await asyncio.start_server(meet, "127.0.0.1", by_tls), asyncio.timeout(30):
            with pytest.raises(Over, match="is the link of no reporter there"):
                await remote.over

    followed(taps, work, *ports[:2])
    assert asked == [here, here, here, other, here] and met == []
