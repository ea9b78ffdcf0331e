"""An evening whose record is in etcd: servers, phones at all of them, screens, faults; and what has
to hold of it afterwards."""

import asyncio
import contextlib
import json
import os
import pathlib
import random
import signal
import subprocess
import time
from collections import Counter
from collections.abc import AsyncIterator, Awaitable, Callable
from dataclasses import dataclass, field
from functools import partial
from typing import Any

import aiohttp
import model

from drivers.board import lines_to
from drivers.nodes import Nodes
from drivers.port import free_port
from drivers.text import TOP

SERVE, REPORTER = str(TOP / "ucl_serve"), str(TOP / "ucl_reporter")
# After how many seconds without a word of the board a phone goes to the next server, as a page.
NEXT = 1.75
# How many rows are those of the group and its clubs.
BEGUN = 5
# What says that a server is gone.
FAILURES = aiohttp.ClientError, OSError, asyncio.TimeoutError, TypeError
WORDS: list[str] = [it for it in model.WORDS if it not in ("fulltime", "reopen")]


@dataclass
class Tap:
    """What a phone has sent: the match, the event number and edition that it saw, and the event."""

    id: str
    said: dict[str, Any]
    name: str = ""
    told: str = ""
    # When it was tapped, and after how long it was answered.
    at: float = field(default_factory=time.monotonic)
    seconds: float = 0.0


class Server:
    """A `ucl_serve` that is killed and started again at the same port."""

    def __init__(self, port: int, words: list[str], live: str, folder: pathlib.Path) -> None:
        self.port, self.words, self.folder = port, words, folder
        self.environment = {**os.environ, "UCL_LIVE": live}
        self.start()

    def start(self) -> None:
        """Starts it."""
        words = [SERVE, *self.words, "--listen", f"127.0.0.1:{self.port}"]
        with open(self.folder / f"{self.port}.log", "ab") as told:
            self.process = subprocess.Popen(words, env=self.environment, stdout=told, stderr=told)

    def signal(self, which: signal.Signals) -> None:
        """Kills it, stops it, or has it go on."""
        self.process.send_signal(which)
        if which is signal.SIGKILL:
            self.process.wait()


@dataclass
class Phone:
    """A phone of a reporter, which sends a tap again until it is answered, wherever it can."""

    evening: "Evening"
    number: int
    match: int
    chance: random.Random
    taps: list[Tap] = field(default_factory=list)
    turn: int = 0
    moment: dict[str, Any] = field(default_factory=dict)
    heard: float = 0.0
    answered: asyncio.Event = field(default_factory=asyncio.Event)

    async def work(self) -> None:
        """Goes from server to server, until the evening ends and all is answered."""
        while not self.is_done:
            port = self.evening.ports[self.turn % len(self.evening.ports)]
            self.turn += 1
            path = f"/report/{self.evening.keys[self.number]}/taps"
            with contextlib.suppress(*FAILURES):
                async with self.evening.connected(port, path) as stream:
                    await self.stay(stream)
            await asyncio.sleep(0.05)

    @property
    def is_done(self) -> bool:
        return self.evening.is_over and (not self.taps or bool(self.taps[-1].name))

    async def stay(self, stream: aiohttp.ClientWebSocketResponse) -> None:
        """Taps at a server for as long as it hears the board."""
        self.heard, tapping = time.monotonic(), None
        try:
            while time.monotonic() - self.heard < NEXT and not self.is_done:
                async with asyncio.timeout(NEXT):
                    said = json.loads(await stream.receive_str())
                await self.take(stream, said)
                if said["reply"] == "recent" and tapping is None:
                    tapping = asyncio.create_task(self.tap(stream))
        finally:
            if tapping is not None:
                tapping.cancel()

    async def take(self, stream: aiohttp.ClientWebSocketResponse, said: dict[str, Any]) -> None:
        """Takes a line, as a page does."""
        if said["reply"] == "screen":
            self.moment = said
        elif said["reply"] == "pulse" and said["groups"]:
            self.heard = time.monotonic()
        elif said["reply"] == "reporter" and self.taps and not self.taps[-1].name:
            # Now and then it asks, after which what is not in must never go in.
            way = "ask" if self.chance.random() < 0.2 else "tap"
            await stream.send_json({way: self.taps[-1].id, **self.taps[-1].said})
        elif said["reply"] == "answer" and self.taps and said["id"] == self.taps[-1].id:
            tap = self.taps[-1]
            tap.name, tap.told = said["name"], said["told"]
            tap.seconds = time.monotonic() - tap.at
            self.answered.set()

    async def tap(self, stream: aiohttp.ClientWebSocketResponse) -> None:
        """Taps what may or may not hold, each once the one before is answered."""
        while True:
            if self.taps and not self.taps[-1].name:
                self.answered.clear()
                await self.answered.wait()
            if self.evening.is_over:
                return
            await asyncio.sleep(self.chance.uniform(0.0, self.evening.pause))
            seen = self.moment["matches"][self.match - 1]["number"]
            said = {"edition": self.moment["edition"], "match": self.match, "expected": seen}
            said["event"] = self.event(seen)
            tap = Tap(os.urandom(16).hex(), said)
            self.taps.append(tap)
            with contextlib.suppress(ConnectionError):
                await stream.send_json({"tap": tap.id, **said})

    def event(self, seen: int) -> str:
        """What is tapped at a match with so many events."""
        return "kickoff" if not seen else self.chance.choice(WORDS)


class Evening:
    """Two servers of one record, four reporters of two matches each with a phone, and a screen at
    each server."""

    def __init__(self, nodes: Nodes, live: str, folder: pathlib.Path, seed: int) -> None:
        self.nodes, self.live = nodes, live
        self.chance, self.is_over, self.pause = random.Random(seed), False, 0.1
        self.place = nodes.place(f"evening-{seed}-{os.urandom(3).hex()}")
        self.ports = [free_port(), free_port()]
        self.name = self.place.rsplit("/", 1)[1]
        words = [self.place, "--clubs", str(TOP / "examples/one_goal.csv")]
        for number in range(1, 5):
            words += ["--reporter", str(number)]
        for port in self.ports:
            words += ["--at", f"http://127.0.0.1:{port}"]
        self.servers = [Server(port, words, live, folder) for port in self.ports]
        self.keys: dict[int, str] = {}
        # What each screen got, in its order.
        self.screens: list[list[dict[str, Any]]] = []
        self.faults: Counter[str] = Counter()
        self.mends = 0

    async def work(self, faults: int) -> list[Phone]:
        """Plays it, with so many faults."""
        # At night a match would be full of events too soon.
        self.pause = 0.1 if faults < 100 else 1.0

        async def during() -> None:
            for at in range(faults):
                await self.fault()
                if at % 10 == 4:
                    await self.mend()
                await asyncio.sleep(self.chance.uniform(0.0, 1.0))

        chances = [random.Random(self.chance.random()) for _ in range(4)]
        phones = [Phone(self, at + 1, 1 + at % 2, chances[at], turn=at) for at in range(4)]
        await self.play(phones, during)
        return phones

    async def play(self, phones: list[Phone], during: Callable[[], Awaitable[None]]) -> None:
        """Has phones tap while something is done, until all is answered."""
        async with aiohttp.ClientSession(timeout=aiohttp.ClientTimeout(total=None)) as self.session:
            while len(self.keys) < 4:
                await asyncio.sleep(0.1)
                self.keys = await asyncio.to_thread(self.known_keys)
            tasks = [asyncio.create_task(phone.work()) for phone in phones]
            looking = [asyncio.create_task(self.look_on(port)) for port in self.ports]
            await asyncio.sleep(1)
            await during()
            await asyncio.sleep(2)
            self.is_over = True
            async with asyncio.timeout(60):
                await asyncio.gather(*tasks)
            await asyncio.sleep(2)
            for task in looking:
                task.cancel()
            await asyncio.gather(*looking, return_exceptions=True)

    def known_keys(self) -> dict[int, str]:
        """The keys of the reporters, by what etcd has."""
        keys = self.nodes.range(f"/ucl/{self.name}/keys/")
        return {int(key[-3:]): value.decode() for key, value in keys.items()}

    @contextlib.asynccontextmanager
    async def connected(
        self, port: int, path: str
    ) -> AsyncIterator[aiohttp.ClientWebSocketResponse]:
        """A WebSocket of a server, which ends with the block at once."""
        origin = f"http://127.0.0.1:{port}"
        async with asyncio.timeout(NEXT):
            stream = await self.session.ws_connect(origin + path, origin=origin)
        try:
            yield stream
        finally:
            stream._response.close()

    async def look_on(self, port: int) -> None:
        """A screen at a server, which opens it again and again."""
        while True:
            with contextlib.suppress(*FAILURES):
                async with self.connected(port, "/lines") as stream:
                    screen: list[dict[str, Any]] = []
                    self.screens.append(screen)
                    while True:
                        async with asyncio.timeout(5.0):
                            said = json.loads(await stream.receive_str())
                        if said["reply"] == "screen":
                            screen.append({**said, "row": 0})
            await asyncio.sleep(0.2)

    async def fault(self) -> None:
        """Something is killed or stopped, and is there again after a while."""
        kind = self.chance.choice(
            ["leader", "leader", "node", "stopped node", "server", "stopped server", "majority"]
        )
        self.faults[kind] += 1
        number = self.chance.randrange(len(self.nodes.nodes))
        if kind == "leader" and (leader := await asyncio.to_thread(self.nodes.leader)) is not None:
            number = leader
        numbers = [number, (number + 1) % 3][: 2 if kind == "majority" else 1]
        nodes = [(partial(self.nodes.signal, it), partial(self.nodes.start, it)) for it in numbers]
        server = self.chance.choice(self.servers)
        victims: list[Any] = [(server.signal, server.start)] if "server" in kind else nodes
        is_stopped = kind.startswith("stopped") or kind == "majority"
        for signalled, _ in victims:
            signalled(signal.SIGSTOP if is_stopped else signal.SIGKILL)
        await asyncio.sleep(self.chance.uniform(0.1, 2.5))
        for signalled, start in victims:
            signalled(signal.SIGCONT) if is_stopped else start()

    async def mend(self) -> None:
        """The desk begins another edition, by a program of its own."""
        words = [REPORTER, self.place, "--mend", "--yes"]
        run = await asyncio.create_subprocess_exec(
            *words,
            env={**os.environ, "UCL_LIVE": self.live},
            stdin=subprocess.DEVNULL,
            stdout=subprocess.DEVNULL,
            stderr=subprocess.PIPE,
        )
        _, errors = await run.communicate()
        self.mends += run.returncode == 0
        assert run.returncode == 0 or b"appended" in errors, errors

    def end(self) -> None:
        """Ends the servers."""
        for server in self.servers:
            server.process.kill()
            server.process.wait()

    # ---- what has to hold

    def check(self, phones: list[Phone]) -> str:
        """What was told is what the log has, by the rules. Gives the counts."""
        entries = self.entries()
        rows = [row for _, row in entries if row]
        answers = iter(answers_to(rows))
        # By the key of what was sent its row, which is empty of a mark, and the answer to it.
        found: dict[str, tuple[str | None, dict[str, Any]]] = {}
        for key, row in entries:
            answer = next(answers) if row else {}
            assert key not in found, "a key is in the log twice"
            if key != "-":
                found[key] = row, answer
        for phone in phones:
            taps = {f"{phone.number}.{tap.id}": tap for tap in phone.taps}
            own = [key for key in found if key.startswith(f"{phone.number}.")]
            assert own == [key for key in taps if key in found], "no taps, or in another order"
            for key, tap in taps.items():
                check_tap(tap, phone.number, *found.get(key, (None, {})))
        self.check_screens(rows)
        names = Counter(tap.name for phone in phones for tap in phone.taps)
        return f"{dict(names)}, {len(rows)} rows, {dict(self.faults)}, {self.mends} mends"

    def entries(self) -> list[tuple[str, str]]:
        """The log: of each place its key and its row, which is empty of a mark."""
        prefix, found = f"/ucl/{self.name}/rows/", []
        for at, (key, value) in enumerate(self.nodes.range(prefix).items(), 1):
            assert key == f"{prefix}{at:010}"
            first, _, row = value.decode().partition(" ")
            found.append((first, row))
        return found

    def check_screens(self, rows: list[str]) -> None:
        """Each screen of each server is one of the log's, and newer than the one before; the last
        is the log's own."""
        begun, text = (
            "".join(f"{row}\n" for row in it) for it in ([*rows[:BEGUN], "screen,,,"], rows)
        )
        moments = {}
        for said in map(json.loads, [*lines_to(begun), *lines_to(text)]):
            if said["reply"] == "screen":
                moments[said["edition"], said["version"]] = {**said, "row": 0}
        for screen in self.screens:
            ages = [(it["edition"], it["version"]) for it in screen]
            assert ages == sorted(set(ages)), f"a screen went back: {ages}"
            assert all(it == moments[age] for it, age in zip(screen, ages))
        assert moments[max(moments)] in self.screens[-1]
        printed = subprocess.run([REPORTER, self.place, "--rows"], capture_output=True).stdout
        assert printed.decode() == text


def answers_to(rows: list[str]) -> list[dict[str, Any]]:
    """What the rules say of each row, of an event that came in with the score; nothing of one that
    is no event."""
    session, answers = model.Session(["--format", "json"]), list[dict[str, Any]]()
    for at, row in enumerate(rows, 1):
        answers.append({})
        for said in map(json.loads, session.answers(at, row)):
            if said["reply"] == "ok":
                home, away = session.matches[said["match"] - 1].goals
                said["told"] = f"Entered, {home}\N{EN DASH}{away}"
            if said["reply"] in ("ok", "refused"):
                answers[-1] = said
    return answers


def check_tap(tap: Tap, number: int, row: str | None, answer: dict[str, Any]) -> None:
    """What a phone was told of a tap is so. It has no row where it is not in the log."""
    about, said = f"{tap}: {row}, {answer}", tap.said
    if tap.name in ("dropped", "lost"):
        assert row == (None if tap.name == "dropped" else ""), about
        return
    assert row == f"{number},{said['match']},{said['expected']},{said['event']}", about
    if tap.name == "entered":
        assert answer["reply"] == "ok" and tap.told in ("Entered", answer["told"]), about
    else:
        assert (answer["reply"], answer["name"]) == ("refused", tap.name), about
