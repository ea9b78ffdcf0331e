"""A record in etcd: what only there can go wrong, what stands there that nobody here wrote, and an
evening of two servers while nodes and servers are killed and stopped. What it promises as a file does
is in test_carriers."""

import asyncio
import contextlib
import os
import pathlib
import random
import signal
import socket
import subprocess
import time
from collections.abc import AsyncIterator, Iterator
from contextlib import aclosing
from dataclasses import replace
from typing import Any

import pytest
from aiohttp import ClientSession, web
from conftest import browsers as browsers
from drivers.nodes import Nodes, text64
from drivers.phone import Phone
from drivers.port import free_port, is_reached
from drivers.program import Started, command, needs
from drivers.records import BEGUN, STARTED, row_of, tap, worked
from drivers.replicated import Evening, Server
from drivers.server import health
from drivers.text import TOP, lines_to_type
from drivers.wait import until
from drivers.websocket import Socket

from ucl_hall.engine.answers import Mended, Refused
from ucl_hall.engine.history import Event
from ucl_hall.engine.trial import NewEdition
from ucl_hall.faults import Dropped, Fault, Lost, MaybeEntered, NotDone, NotEntered, Over, Unreached
from ucl_hall.record.begin import begin
from ucl_hall.record.cluster import Access, Address
from ucl_hall.record.etcd import EtcdLog
from ucl_hall.record.log import Entry
from ucl_hall.record.record import Record
from ucl_hall.record.sending import Events, Mend, Way
from ucl_hall.record.writer import LOOK
from ucl_hall.rows import Row
from ucl_hall.web.shared_keys import SharedKeys

pytestmark = [pytest.mark.limit(200), pytest.mark.xdist_group("etcd")]


@pytest.fixture
def where(nodes: Nodes) -> str:
    """The address of a record that nobody has."""
    return nodes.place(os.urandom(8).hex())


def prefix_of(where: str) -> str:
    """What the keys of a record begin with."""
    return f"/ucl/{where.rsplit('/', 1)[1]}/"


def rows_of(nodes: Nodes, where: str) -> list[bytes]:
    """The values of its rows."""
    return [*nodes.range(f"{prefix_of(where)}rows/").values()]


# ---- the log


def test_a_node_that_is_lost_between_two_pages(
    where: str, live: str, monkeypatch: pytest.MonkeyPatch
) -> None:
    """What was read by then is handed on, and once."""
    monkeypatch.setattr("ucl_hall.record.etcd.PAGE", 3)

    async def work() -> None:
        log, other = await EtcdLog.open(where), await EtcdLog.open(where)
        await log.read()
        await other.read()
        rows = [Entry(b"%d\n" % at, (1, str(at))) for at in range(20)]
        assert await other.append(rows) == rows
        call, chance = log.cluster.call, random.Random(3)

        async def unsure(path: str, body: dict[str, object]) -> dict[str, Any]:
            if chance.random() < 0.4:
                raise Unreached("", "")
            return await call(path, body)

        monkeypatch.setattr(log.cluster, "call", unsure)
        came = list[Entry]()
        while len(came) < 20:
            came += await log.read()
        assert came == rows and await log.append([Entry(b"x\n")]) == [Entry(b"x\n")]
        assert await other.read() == [Entry(b"x\n")]
        await log.close()
        await other.close()

    worked(where, live, work, 0)


def test_rows_of_others_are_told_at_once(where: str, live: str) -> None:
    """By a watch, and not by looking."""

    async def work(here: Record, there: Record) -> None:
        begun, count = time.monotonic(), 20
        for number in range(1, count + 1):
            await here.enter(tap(number))
            while there.moment.version < number + 1:
                await asyncio.sleep(0.001)
        assert time.monotonic() - begun < count * LOOK / 2

    worked(where, live, work)


def test_more_events_than_a_transaction_takes(where: str, live: str) -> None:
    """As many as it takes go in together; one more is refused, and nothing of it is in."""

    async def work(here: Record, there: Record) -> None:
        def events(count: int, match: int) -> Events:
            rows = [Row(match, at, "red-home" if at else "kickoff") for at in range(count)]
            return Events(1, tuple(rows), 0)

        with pytest.raises(NotEntered, match="128 events, and etcd takes 127"):
            await here.enter(events(128, 2))
        outcomes = await here.enter(events(127, 3))
        assert len(outcomes) == 127 and there.moment.match(2).number == 0
        assert await row_of(there, tap(1)) == 6 + 127 + 1

    worked(where, live, work)


def test_a_beginning_that_was_cut_off(nodes: Nodes, where: str, live: str) -> None:
    """From the same rows it goes on, and from others none begins; a row that is too long begins
    none either."""
    text = STARTED + "".join(f"1,1,{number},yellow-home\n" for number in range(1, 400))

    async def work() -> None:
        with pytest.raises(Over, match="there is no record"):
            await Record.open(where, live)
        for at, row in enumerate(BEGUN.splitlines()[:3], 1):
            nodes.put(f"{prefix_of(where)}rows/{at:010}", f"- {row}".encode())
        with pytest.raises(Over, match=f"{prefix_of(where)} in etcd was cut off"):
            await Record.open(where, live)
        with pytest.raises(Over, match="line 6 has more than 4096 bytes"):
            await begin(where, live, f"{BEGUN}{'x' * 4_096}\n".encode())
        assert not await begin(where, live, BEGUN.replace("Alpha", "One").encode())
        assert await begin(where, live, text.encode())
        assert rows_of(nodes, where) == [f"- {row}".encode() for row in text.splitlines()]

    asyncio.run(work())


# ---- at most once


def test_what_was_sent_is_known_after_a_start(where: str, live: str) -> None:
    """By its key, also behind a mend, and whatever came of it."""

    async def work(here: Record, there: Record) -> None:
        one, refused = tap(1), tap(7)
        assert await row_of(here, one) == 7
        assert isinstance((await here.enter(refused))[0], Refused)
        (mended,) = await there.enter(Mend(await there.trial(NewEdition())))
        third = await Record.open(where, live)
        assert isinstance(mended, Mended) and third.moment.edition == mended.edition
        for way in Way:
            assert await third.enter(replace(one, way=way)) == [Event(7, 1, 1, "yellow-home")]
            assert isinstance((await third.enter(replace(refused, way=way)))[0], Refused)
        with pytest.raises(Dropped):
            await third.enter(tap(2))
        await third.close()

    worked(where, live, work)


@pytest.mark.parametrize("is_new", [False, True])
def test_what_was_asked_about_is_entered_by_no_server(
    where: str, live: str, is_new: bool, monkeypatch: pytest.MonkeyPatch
) -> None:
    """After 'lost' at one server, also where it lies in another that was stopped, or that starts
    then."""

    async def work(here: Record, there: Record) -> None:
        lost, goes_on, log = tap(1), asyncio.Event(), there._log
        assert isinstance(log, EtcdLog)
        put = log._put

        async def stopped(*words: Any) -> bool:
            await goes_on.wait()
            return await put(*words)

        monkeypatch.setattr(log, "_put", stopped)
        waits = asyncio.create_task(there.enter(lost))
        await asyncio.sleep(LOOK)
        with pytest.raises(Lost):
            await here.enter(replace(lost, way=Way.ASKED))
        goes_on.set()
        third = await Record.open(where, live) if is_new else there
        for record in here, there, third:
            with pytest.raises(Lost):
                await record.enter(lost)
        with pytest.raises(Lost):
            await waits
        assert await row_of(there, tap(1)) == 7
        if is_new:
            await third.close()

    worked(where, live, work)


@contextlib.asynccontextmanager
async def losing(nodes: Nodes, status: int) -> AsyncIterator[int]:
    """A node that does what it is asked, and of whose answers to transactions four of five are lost,
    with the connection, or behind a proxy that answers by this status. Gives its port."""
    chance = random.Random(5)
    async with ClientSession() as session:

        async def forward(request: web.Request) -> web.StreamResponse:
            url = f"http://{nodes.host(0)}{request.path}"
            async with session.post(url, data=await request.read()) as answer:
                body = await answer.read()
            if request.path.endswith("txn") and chance.random() < 0.8 and request.transport:
                if status:
                    return web.Response(status=status)
                request.transport.abort()
            return web.Response(body=body, status=answer.status)

        app, port = web.Application(), free_port()
        app.router.add_post("/v3/kv/{path:.*}", forward)
        runner = web.AppRunner(app)
        await runner.setup()
        await web.TCPSite(runner, "127.0.0.1", port).start()
        try:
            yield port
        finally:
            await runner.cleanup()


@pytest.mark.parametrize("status", [0, 502, 503, 504])
def test_an_answer_that_is_lost(nodes: Nodes, where: str, live: str, status: int) -> None:
    """Each row is in once, at the row that is told."""

    async def work() -> None:
        async with losing(nodes, status) as port:
            record = await Record.open(f"etcd://127.0.0.1:{port}/{where.rsplit('/', 1)[1]}", live)
            taps = [tap(number) for number in range(1, 26)]
            assert [await row_of(record, it) for it in taps] == [*range(7, 32)]
            await record.close()
        keys = [row.partition(b" ")[0].decode() for row in rows_of(nodes, where)]
        assert keys == ["-"] * 6 + [f"1.{it.id}" for it in taps]

    worked(where, live, work, 0)


# ---- nodes that do nothing


@pytest.mark.parametrize("is_lost", [False, True], ids=["no answer is lost", "one is lost"])
def test_a_node_that_says_that_it_does_nothing(
    where: str, live: str, monkeypatch: pytest.MonkeyPatch, is_lost: bool
) -> None:
    """Nothing is entered, unless an answer was lost before: then nobody knows, which is told."""
    faults: list[Fault] = [NotDone("no room")]
    if is_lost:
        faults.insert(0, Unreached("", ""))

    async def put(*_: Any) -> bool:
        raise faults.pop(0)

    async def work(here: Record) -> None:
        monkeypatch.setattr(here._log, "_put", put)
        with pytest.raises(MaybeEntered if is_lost else NotEntered, match="etcd says: no room"):
            await here.enter(tap(1))
        assert faults == []

    worked(where, live, work, 1)


SAYS = {
    "there is none": None,
    "it takes no connection": 0,
    "it says nothing": 100,
    "what it says is no object": b"HTTP/1.1 200 OK\r\nContent-Length: 2\r\n\r\n[]",
    "it knows no such call": b"HTTP/1.1 404 Not Found\r\nContent-Length: 0\r\n\r\n",
    "it ends": b"HTTP/1.1 200 OK\r\nContent-Length: 9\r\n\r\n{}",
}


@contextlib.asynccontextmanager
async def node_that(says: bytes | int | None) -> AsyncIterator[str]:
    """A node that says this; or that takes so many connections, and no more."""

    async def answer(reader: asyncio.StreamReader, writer: asyncio.StreamWriter) -> None:
        assert isinstance(says, bytes)
        await reader.read(1)
        writer.write(says)
        await writer.drain()
        writer.close()

    async with contextlib.AsyncExitStack() as stack:
        port = free_port()
        if isinstance(says, bytes):
            await stack.enter_async_context(await asyncio.start_server(answer, "127.0.0.1", port))
        elif says is not None:
            listening = socket.create_server(("127.0.0.1", port), backlog=says)
            stack.enter_context(listening)
            for _ in range(2 * (not says)):
                one = stack.enter_context(socket.socket())
                one.setblocking(False)
                one.connect_ex(("127.0.0.1", port))
        yield f"127.0.0.1:{port}"


@pytest.mark.parametrize("says", SAYS.values(), ids=SAYS)
def test_a_node_that_does_not_answer(
    nodes: Nodes, where: str, live: str, monkeypatch: pytest.MonkeyPatch, says: bytes | int | None
) -> None:
    """Another is asked soon; that none answers is told in one line."""
    monkeypatch.setattr("ucl_hall.record.cluster.OPENING", 0.0)

    async def work() -> None:
        async with node_that(says) as node, asyncio.timeout(15):
            with pytest.raises(Over, match=f"no majority of http://{node}/v3/ answers: [^\n]*$"):
                await Record.open(f"etcd://{node}/x", live)
            record = await Record.open(where.replace("//", f"//{node},"), live)
            assert await row_of(record, tap(1)) == 7
            await record.close()

    worked(where, live, work, 0)


def test_nodes_without_room(live: str) -> None:
    """Nothing is entered, and that is told; what there is stays, and is followed on."""
    with Nodes(1, "--quota-backend-bytes", "400000") as nodes:
        where = nodes.place("x")

        async def work(here: Record) -> None:
            while nodes.call("kv/put", {"key": text64("/x"), "value": text64("x" * 50_000)}):
                pass
            told = "etcd says: .* space exceeded: nothing was entered"
            with pytest.raises(NotEntered, match=told):
                await here.enter(tap(1))
            await asyncio.sleep(1)
            assert here.is_there and here.moment.version == 1 and len(rows_of(nodes, where)) == 6

        worked(where, live, work, 1)


def test_nodes_of_another_cluster(where: str, live: str) -> None:
    """Their rows are not taken for those of this one."""
    with Nodes(1) as other:

        async def work(here: Record) -> None:
            assert isinstance(here._log, EtcdLog)
            here._log.cluster._nodes[:] = [f"http://{other.hosts}/v3/"]
            with pytest.raises(Over, match=r"is of cluster \d+, and this record is in cluster \d+"):
                await here.enter(tap(1))

        worked(where, live, work, 1)


# ---- what nobody here wrote


NO_ROW, MISSING = "in etcd is no row of this record: `etcdctl del", "is missing in etcd"
# A key and what it gets, or a prefix of keys that are removed; and what is told.
BAD: dict[str, tuple[str, bytes | None, str]] = {
    "no row": ("rows/0000000007", b"x", f"rows/0000000007 {NO_ROW}"),
    "an empty value": ("rows/0000000007", b"", f"rows/0000000007 {NO_ROW}"),
    "two rows": ("rows/0000000007", b"- a\nb", f"rows/0000000007 {NO_ROW}"),
    "a gap": ("rows/0000000008", b"- x", f"rows/0000000007 {MISSING}"),
    "no number": ("rows/x", b"- x", f"rows/x {NO_ROW}"),
    "no number before all": ("rows/!", b"- x", f"rows/! {NO_ROW}"),
    "no number of ten digits": ("rows/7", b"- x", f"rows/7 {NO_ROW}"),
    "too long": ("rows/0000000007", b"- " + b"x" * 4_095, "has more than 4096 bytes"),
    "written twice": ("rows/0000000006", b"- 1,1,0,kickoff", "rows/0000000006 in etcd was changed"),
    "another layout": ("layout", b"2", "layout in etcd says b'2', so this record is of another"),
    "the last is taken away": ("rows/0000000006", None, MISSING),
    "all rows are taken away": ("rows/", None, MISSING),
    "the whole is taken away": ("", None, MISSING),
}


@pytest.mark.parametrize("key, value, told", BAD.values(), ids=BAD)
def test_what_was_done_beside(
    nodes: Nodes, where: str, live: str, key: str, value: bytes | None, told: str
) -> None:
    """The key and what to do are told, by who follows and by who opens it; nothing is appended, and
    the board of the moment before stays."""

    async def work(here: Record) -> None:
        if value is None:
            nodes.delete(prefix_of(where) + key)
        else:
            nodes.put(prefix_of(where) + key, value)
        before = rows_of(nodes, where)
        if value is not None and key != "layout":
            # It is seen soon, also where nobody appends.
            await asyncio.wait([here.over], timeout=5)
            assert isinstance(here.over.exception(), Over)
        with pytest.raises(Over, match=told):
            await here.enter(tap(1))
        assert here.moment.version == 1 and rows_of(nodes, where) == before
        if value is not None:
            with pytest.raises(Over, match=told):
                await Record.open(where, live)

    worked(where, live, work, 1)


# ---- who may ask


def test_addresses() -> None:
    """Nodes and a name; never a password."""
    assert Address.of("etcd://a:1,[::1]:2/x?access=f") == Address(("a:1", "[::1]:2"), "x", "f")
    for text in ("etcd://a/x", "etcd://a:1", "etcd://a:1/", "etcd://a:1,/x", "etcd://a:1/x/y"):
        with pytest.raises(Over, match="is no address, as etcd://HOST:PORT,HOST:PORT/NAME"):
            Address.of(text)
    with pytest.raises(Over, match="put them into a file") as found:
        Address.of("etcd://me:secret@a:1/x")
    assert "secret" not in str(found.value)
    for text, is_near in {"127.0.0.1:1,[::1]:2,localhost:3": True, "10.0.0.1:1": False}.items():
        assert Address.of(f"etcd://{text}/x").is_of_this_machine is is_near


def test_a_file_of_who_may_ask(tmp_path: pathlib.Path) -> None:
    """It is for its owner alone, and has texts by known names."""
    file = tmp_path / "access"
    file.write_text('user = "board"\npassword = "secret"\n')
    with pytest.raises(Over, match=f"others can read {file}: chmod 600 {file}"):
        Access.of(str(file))
    file.chmod(0o600)
    assert Access.of(str(file)) == Access(user="board", password="secret")
    for text in ("user = 1\n", "user\n", 'other = "x"\n', "\xff"):
        file.write_bytes(text.encode("latin-1"))
        with pytest.raises(Over, match="it takes user, password, ca, certificate and key"):
            Access.of(str(file))


def certified(folder: pathlib.Path) -> dict[str, str]:
    """Files of an authority, and of a certificate and key of it, for nodes and for who asks: without
    a common name, since with one a node that asks for passwords too takes none of its JSON."""
    needs("openssl")
    more = "subjectAltName=IP:127.0.0.1\nextendedKeyUsage=clientAuth,serverAuth\n"
    (folder / "more").write_text(more)
    for line in (
        "req -newkey rsa:2048 -nodes -subj /O=board -x509 -keyout ca.key -out ca",
        "req -newkey rsa:2048 -nodes -subj /O=board -keyout key -out asked",
        "x509 -req -in asked -CA ca -CAkey ca.key -CAcreateserial -extfile more -out certificate",
    ):
        words = ["openssl", *line.split()]
        subprocess.run(words, cwd=folder, check=True, capture_output=True)
    return {name: str(folder / name) for name in ("ca", "certificate", "key")}


def test_tls_and_a_password(
    tmp_path: pathlib.Path, live: str, monkeypatch: pytest.MonkeyPatch
) -> None:
    """By certificates and a password a record is begun and followed, also by a node that has
    forgotten who asked; without one of them not."""
    monkeypatch.setattr("ucl_hall.record.cluster.OPENING", 0.5)
    files = certified(tmp_path)
    words = ["--cert-file", files["certificate"], "--key-file", files["key"]]
    words += ["--trusted-ca-file", files["ca"], "--client-cert-auth", "--auth-token-ttl", "2"]
    with Nodes(1, *words, scheme="https") as nodes:
        asks = ["etcdctl", f"--endpoints=https://{nodes.hosts}", "--cacert", files["ca"]]
        asks += ["--cert", files["certificate"], "--key", files["key"]]
        while subprocess.run([*asks, "endpoint", "health"], capture_output=True).returncode:
            time.sleep(0.1)
        for line in (
            *("user add root:r", "user grant-role root root", "user add board:b", "role add board"),
            "role grant-permission board --prefix=true readwrite /ucl/",
            *("user grant-role board board", "auth enable"),
        ):
            subprocess.run([*asks, *line.split()], check=True, capture_output=True)

        def where(**more: str) -> str:
            file = tmp_path / "access"
            text = "".join(f'{it} = "{value}"\n' for it, value in {**files, **more}.items())
            file.touch(mode=0o600)
            file.write_text(text)
            return f"{nodes.place('x')}?access={file}"

        async def work(record: Record) -> None:
            await record.enter(tap(1))
            # Tokens are forgotten after two seconds, as by a node that starts again.
            await asyncio.sleep(4)
            assert await row_of(record, tap(2)) == 8 and record.is_there
            who = {"user": "board", "password": "b"}
            wrongs: list[dict[str, str]] = [{**who, "password": "x"}, {}, {**who, "ca": ""}]
            for wrong in wrongs:
                with pytest.raises(Fault):
                    await Record.open(where(**wrong), live)

        worked(where(user="board", password="b"), live, work, 1)


def test_a_warning_where_others_may_read(
    capsys: pytest.CaptureFixture[str], monkeypatch: pytest.MonkeyPatch
) -> None:
    """Nodes elsewhere are not asked without TLS unless that is told."""
    monkeypatch.setattr("ucl_hall.record.cluster.OPENING", 0.0)
    here = f"127.0.0.1:{free_port()}"
    for hosts, is_told in (here, False), (f"{here},192.0.2.1:1", True):
        with contextlib.suppress(Fault):
            asyncio.run(EtcdLog.open(f"etcd://{hosts}/x"))
        told = "is asked without TLS: whoever is on this network can" in capsys.readouterr().err
        assert told is is_told


# ---- servers


@pytest.mark.limit(400)
def test_an_evening_of_faults(
    nodes: Nodes, live: str, tmp_path: pathlib.Path, seed: int, kills: int
) -> None:
    """Nodes and servers are killed and stopped while phones tap at both and a desk mends: ten times,
    and at night as often as is asked for."""
    print(f"--seed {seed}")
    evening = Evening(nodes, live, tmp_path, seed)
    try:
        phones = asyncio.run(evening.work(kills if kills > 100 else 10))
        print(evening.check(phones))
    finally:
        evening.end()
    times = sorted(tap.seconds for phone in phones for tap in phone.taps)
    part = times[int(0.99 * len(times))]
    print(f"{len(times)} taps: median {times[len(times) // 2]:.3f} s, 99 of 100 {part:.3f} s")


@contextlib.contextmanager
def serving(
    where: str, live: str, folder: pathlib.Path, *more: str
) -> Iterator[tuple[Server, Server, str]]:
    """Two servers of one record that has a kick-off, until the block ends, with the path of its
    first reporter's page."""
    asyncio.run(begin(where, live, STARTED.encode()))
    ports = [free_port(), free_port()]
    at = [word for port in ports for word in ("--at", f"http://127.0.0.1:{port}")]
    servers = [Server(port, [where, *at, *more], live, folder) for port in ports]
    try:
        assert all(until(lambda: is_reached(port)) for port in ports)
        yield servers[0], servers[1], links_of(where)[0]
    finally:
        for server in servers:
            server.process.kill()
            server.process.wait()


def links_of(where: str) -> list[str]:
    """The paths of the pages of a record's reporters, by their numbers."""
    ran = command([TOP / "ucl_serve", "--links", where, "--url", "http://x"])
    return [line.partition("http://x")[2] for line in ran.output.splitlines()]


def test_without_a_majority(live: str, tmp_path: pathlib.Path) -> None:
    """Nothing is answered; within two seconds it is told that what is shown may be old. All that
    waits goes in by itself once there is a majority."""
    with contextlib.ExitStack() as stack:
        nodes = stack.enter_context(Nodes())
        # The node that they know stays, and is alone.
        where = f"etcd://{nodes.host(0)}/x"
        one, two, path = stack.enter_context(serving(where, live, tmp_path))
        phone, other = (Socket(it.port, f"{path}/taps") for it in (one, two))
        assert phone.until("pulse", groups="B") and other.until("pulse", groups="B")
        for number in 1, 2:
            nodes.signal(number, signal.SIGSTOP)
        begun = time.monotonic()
        taps = phone.tap(1, 1, "goal-home"), other.tap(2, 0, "kickoff")
        assert phone.until("pulse", groups="") and other.until("pulse", groups="")
        assert time.monotonic() - begun < 2
        for it in phone, other:
            for _ in range(4):
                assert it.until("pulse") and it.lines[-1]["groups"] == ""
            assert not any(said["reply"] == "answer" for said in it.lines)
        screen = Socket(two.port, "/lines")
        assert screen.until("screen", version=1) and screen.until("pulse", groups="")
        assert health(two.port)["fault"] == "nothing is heard of its board"
        for number in 1, 2:
            nodes.signal(number, signal.SIGCONT)
        assert phone.until("answer", id=taps[0], told="Entered, 1\N{EN DASH}0")
        assert other.until("answer", id=taps[1], name="entered")
        assert screen.until("screen", version=3) and screen.until("pulse", groups="B")
        assert health(two.port)["fault"] == ""


def test_what_a_server_prints_of_a_record(where: str, live: str, tmp_path: pathlib.Path) -> None:
    """A file begins it, its rows come out as they went in, with what was entered; the board is
    followed by ucl_reporter too."""
    text, file, port = f"{STARTED}1,1,1,goal-home", tmp_path / "evening.csv", free_port()
    file.write_text(text)
    how = {"env": {**os.environ, "UCL_LIVE": live}, "cwd": tmp_path}
    words: list[Any] = [TOP / "ucl_serve", where, "--from", file]
    words += ["--listen", f"127.0.0.1:{port}"]
    with Started(words, **how) as server:
        assert server.lines() == f"Screens: http://127.0.0.1:{port}/\n"
        ran = command([TOP / "ucl_reporter", where], "1 yellow home\n", **how)
        assert ran.status == 0 and "entered, row 8" in ran.output
        rows = command([TOP / "ucl_reporter", where, "--rows"], cwd=tmp_path)
        assert rows.output == f"{text}\n1,1,2,yellow-home\n" and rows.status == 0
        links = command([TOP / "ucl_serve", "--links", where, "--url", "http://x"], cwd=tmp_path)
        assert links.output.startswith(f"{where}, reporter 1: http://x/report/")
    assert [*tmp_path.iterdir()] == [file]


@pytest.mark.parametrize(
    "where, status, told",
    [
        ("etcd://a:1/x/y", 2, "etcd://a:1/x/y is no address, as etcd://HOST:PORT,HOST:PORT/NAME"),
        ("etcd://me:secret@a:1/x", 2, "an address has no name and no password"),
        ("etcd://127.0.0.1:1/x?access=none", 1, "none: No such file or directory"),
        ("etcd://127.0.0.1:1/x", 1, "aiohttp is not installed; Debian has it in python3-aiohttp"),
    ],
)
def test_starts_that_are_refused(
    tmp_path: pathlib.Path, where: str, status: int, told: str
) -> None:
    """In one line, and a password is not repeated."""
    if "aiohttp" in told:
        (tmp_path / "aiohttp.py").write_text('raise ModuleNotFoundError("x", name="aiohttp")\n')
    environment = {**os.environ, "PYTHONPATH": str(tmp_path)}
    for words in (["ucl_serve", where], ["ucl_reporter", where, "--rows"]):
        ran = command([TOP / words[0], *words[1:]], cwd=tmp_path, env=environment)
        assert ran.status == status and told in ran.errors and "secret" not in ran.errors
        assert ran.errors.count("\n") == 1


def test_one_address_by_haproxy(where: str, live: str, tmp_path: pathlib.Path) -> None:
    """By the lines of the page: screens and phones are at a server that lives, two seconds after
    one is killed."""
    needs("haproxy")
    port, lines = free_port(), lines_to_type(TOP / "docs/MACHINES.md")["HAProxy"]
    lines = lines.replace("bind :8080", f"bind :{port}")
    with contextlib.ExitStack() as stack:
        *servers, path = stack.enter_context(serving(where, live, tmp_path))
        for address, server in zip(("10.0.0.1", "10.0.0.2"), servers):
            lines = lines.replace(f"{address}:8080", f"127.0.0.1:{server.port}")
        (tmp_path / "cfg").write_text(lines)
        stack.enter_context(Started(["haproxy", "-db", "-f", tmp_path / "cfg"]))

        def phone() -> Socket:
            """It connects again until it is answered."""
            while True:
                with contextlib.suppress(OSError, IndexError):
                    one = Socket(port, f"{path}/taps")
                    if one.status == 101:
                        return one
                time.sleep(0.1)

        assert until(lambda: is_reached(port), 10)
        for number, server in enumerate(servers, 1):
            one = phone()
            id = one.tap(1, number, "goal-home")
            assert one.until("answer", id=id, name="entered")
            server.signal(signal.SIGKILL)
            begun = time.monotonic()
            one = phone()
            assert one.until("recent") and one.until("pulse", groups="B")
            assert time.monotonic() - begun < 2
            one.tap(1, number, "goal-home", id=id)
            assert one.until("answer", id=id, name="entered")
            server.start()
            assert until(lambda: is_reached(server.port))
            time.sleep(1.5)


def test_keys_that_two_servers_make_at_once(where: str, monkeypatch: pytest.MonkeyPatch) -> None:
    """They are those of the one that was first, also where the other had looked before."""

    async def work() -> None:
        async with aclosing(SharedKeys(where)) as first, aclosing(SharedKeys(where)) as second:
            read, seen = second.read, [await second.read()]

            async def late() -> dict[int, str]:
                return seen.pop() if seen else await read()

            assert seen == [{}]
            keys = await first.of([1, 2], [], all_new=False)
            monkeypatch.setattr(second, "read", late)
            assert await second.of([1, 2], [], all_new=False) == keys == await first.read()

    asyncio.run(work())


@pytest.mark.parametrize("words, is_kept", [(["--new-keys"], False), (["--revoke", "1"], True)])
def test_links_end_at_each_server(
    where: str, live: str, tmp_path: pathlib.Path, words: list[str], is_kept: bool
) -> None:
    """Once one is started with new keys, or with a new one of the first of two reporters, the
    phones of the other are gone too, and who has a link that holds is taken at both."""
    reporters = "--reporter", "1", "--reporter", "2"
    with serving(where, live, tmp_path, *reporters) as (first, second, _):
        old, at = links_of(where), [f"http://127.0.0.1:{it.port}" for it in (first, second)]
        phone = Socket(second.port, f"{old[0]}/taps")
        assert phone.until("reporter", at=[f"{url}/" for url in at])
        first.signal(signal.SIGKILL)
        first.words += words
        first.start()
        assert phone.is_closed()
        new = links_of(where)
        assert [path in old for path in new] == [False, is_kept]
        assert until(lambda: is_reached(first.port))
        for server in first, second:
            for path in {*old} - {*new}:
                assert Socket(server.port, f"{path}/taps").status == 404
            for path in new:
                assert Socket(server.port, f"{path}/taps").until("recent")
        assert Socket(second.port, "/lines", at[0]).status == 101
        assert Socket(second.port, "/lines", "http://127.0.0.1:1").status == 403


@pytest.mark.parametrize("end", [signal.SIGKILL, signal.SIGSTOP])
def test_pages_go_to_the_next_server(
    nodes: Nodes, where: str, live: str, tmp_path: pathlib.Path, browsers: Any, end: signal.Signals
) -> None:
    """A phone and a wall are there again in some seconds, and a tap without an answer goes in by
    itself, once."""
    with serving(where, live, tmp_path, "--reporter", "1:1") as (first, _, path):
        phone, wall = Phone(browsers("phone")), browsers("wall")
        phone.browser.get(f"http://127.0.0.1:{first.port}{path}")
        wall.get(f"http://127.0.0.1:{first.port}/")
        shown = "return document.querySelector(arguments[0]).textContent"
        assert until(lambda: phone.text("goals") == "0\N{EN DASH}0")
        assert until(lambda: wall.execute_script(shown, ".signal") == "")
        time.sleep(1)
        # What stands on the line for a moment only is kept too.
        phone.run(
            "window.told = []; const line = document.getElementById('line');"
            "new MutationObserver(() => told.push(line.textContent))"
            ".observe(line, {childList: true, characterData: true, subtree: true})"
        )
        first.signal(signal.SIGSTOP)
        phone.tap("goal-home")
        phone.says("goal-home", "Sent")
        first.signal(end)
        if end is signal.SIGSTOP:
            told = "return told.join()"
            assert until(lambda: "is sent again by itself" in phone.run(told), 10)
        assert until(lambda: phone.text("goals") == "1\N{EN DASH}0", 10)
        assert until(lambda: phone.text("line") == "Reporter 1, group B", 10)
        assert until(lambda: "1\N{EN DASH}0" in wall.execute_script(shown, ".matches"), 10)
        first.signal(signal.SIGCONT if end is signal.SIGSTOP else signal.SIGKILL)
        time.sleep(1)
        (row,) = rows_of(nodes, where)[6:]
        assert row.endswith(b" 1,1,1,goal-home")


def test_a_terminal_goes_to_the_next_server(
    nodes: Nodes, where: str, live: str, tmp_path: pathlib.Path
) -> None:
    """By the link of one; a line without an answer goes in by itself, once, also if the one that
    was stopped reads it late."""
    with serving(where, live, tmp_path) as (first, _, path):
        link = f"http://127.0.0.1:{first.port}{path}"
        with Started([TOP / "ucl_reporter", link], cwd=tmp_path) as far:
            far.write("1 goal home\n")
            assert far.lines().startswith("1 goal home             entered, row 7: Bravo 1-0")
            first.signal(signal.SIGSTOP)
            far.write("1 goal home\n")
            assert far.lines().startswith("1 goal home             entered, row 8: Bravo 2-0")
            first.signal(signal.SIGCONT)
            far.write("1 goal away\n")
            assert far.lines().startswith("1 goal away             entered, row 9: Bravo 2-1")
            assert far.end().status == 0
        rows = [row.partition(b" ")[2] for row in rows_of(nodes, where)[6:]]
        assert rows == [b"1,1,1,goal-home", b"1,1,2,goal-home", b"1,1,3,goal-away"]
