"""The server of pages and WebSockets: who may ask for what, and how much.

Each answer that is no WebSocket closes its connection. So a connection is one that is over in ten
seconds, whatever it sends and however it reads, of which there are few; or a screen, of which there
are so many at most; or a phone, which has a key.
"""

import asyncio
import contextlib
import gc
import ipaddress
import itertools
import logging
import ssl
from collections.abc import AsyncIterator, Collection, Sequence
from urllib.parse import urlsplit

from aiohttp import WSMsgType, web
from aiohttp.typedefs import Handler

from ucl_hall.engine.json_lines import line_of
from ucl_hall.text import printable
from ucl_hall.web import pages
from ucl_hall.web.connections import Screen, Screens, frame_of
from ucl_hall.web.feed import Feed
from ucl_hall.web.groups import Group
from ucl_hall.web.notices import Notices
from ucl_hall.web.pages import Page
from ucl_hall.web.phones import Asked, Reporter, message_of
from ucl_hall.web.shown import Shown
from ucl_hall.web.tables import Tables
from ucl_hall.web.visitors import (
    HERE,
    OF_SCREEN,
    WHOLE,
    Allowance,
    Places,
    Visitors,
    visitor_of,
)

# Seconds between pulses.
PULSE = 1.0
# The most bytes of a message.
LONGEST = 1_024
# The most screens of an address, the most phones of a link, and of all links.
SCREENS_OF_ONE, PHONES_OF_ONE, MOST_PHONES = 64, 8, 2_000
# What who asks under a name that is not ours is told: a page of another host may have sent them.
NO_NAME = "Open this by an address of the machine, or have it started with --url and this name.\n"


class Server:
    """What is served: groups, which may come later, and those who look on. `names` has those of
    this server, and `at` where all who serve them are."""

    def __init__(
        self,
        groups: Sequence[Shown],
        title: str,
        most: int,
        names: Collection[str] = (),
        at: Sequence[str] = (),
    ) -> None:
        self.groups, self.title, self.screens = groups, title, Screens()
        self.names = {name.lower() for name in names}
        self.fault, self._at = "", at
        self.notices = Notices()
        self._screens = Places(most, SCREENS_OF_ONE, newest_gives_way=True)
        self._phones = Places(MOST_PHONES, PHONES_OF_ONE)
        self._report = Page("report.html", at)
        self._hall, self._cut_off = b"", 0
        self._runner: web.AppRunner
        self._visitors: Visitors
        self._pulsing: asyncio.Task[None]

    async def start(self, host: str, port: int, context: ssl.SSLContext | None) -> None:
        """Listens, and sends pulses from then on.

        Raises OSError where the port is taken.
        """

        @web.middleware
        async def named(request: web.Request, handler: Handler) -> web.StreamResponse:
            if not self._is_named(request.headers.get("Host")):
                raise web.HTTPForbidden(text=NO_NAME)
            return await handler(request)

        app = web.Application(middlewares=[named])
        app.router.add_get("/", Page("index.html", self._at).answer)
        app.router.add_get("/replay.jsonl", Page("replay.jsonl").answer)
        app.router.add_get("/lines", self._lines)
        feed = Feed(self.groups, self.screens, self._screens, self._told)
        app.router.add_get("/feed", feed.answer, allow_head=False)
        tables = Tables(self.groups)
        app.router.add_get("/table.json", tables.json)
        app.router.add_get("/table.txt", tables.text)
        app.router.add_get("/health", self._health)
        app.router.add_get("/report/{key}", self._reporter_page)
        app.router.add_get("/report/{key}/taps", self._taps)
        app.on_response_prepare.append(_head)
        # Nothing that strangers send is told.
        logging.getLogger("aiohttp").setLevel(logging.CRITICAL)
        self._runner = web.AppRunner(
            app, access_log=None, keepalive_timeout=WHOLE, lingering_time=0
        )
        await self._runner.setup()
        assert self._runner.server is not None
        asyncio.get_running_loop().set_exception_handler(self._note)
        self._visitors = Visitors(self.notices, self._runner.server)
        await self._visitors.listen(host, port, context)
        self._hall = self._hall_line()
        # What is there now stays, so that looking for what does not is quick.
        gc.freeze()
        self._pulsing = asyncio.create_task(self._pulse())

    async def close(self) -> None:
        """Listens no more, and ends all connections."""
        self._visitors.close()
        self._pulsing.cancel()
        for screens in (self.screens, *(group.phones for group in self._reported)):
            screens.abort()
        await self._runner.cleanup()

    @property
    def _reported(self) -> list[Group]:
        """The groups that have reporters here."""
        return [group for group in self.groups if isinstance(group, Group)]

    def _note(self, _: asyncio.AbstractEventLoop, about: dict[str, object]) -> None:
        """Keeps what went wrong outside any request, for who asks after it."""
        self.fault = printable(f"{about.get('message')}: {about.get('exception')}")

    async def _pulse(self) -> None:
        """Tells screens each second, and phones twice, which boards are there; no phone hears of
        one that is over."""
        for count in itertools.count():
            line = self._pulse_line()
            if count % 2 == 0:
                self._tell_screens(line)
            for group in self._reported:
                if not group.record.over.done():
                    group.phones.send("pulse", line)
            await asyncio.sleep(PULSE / 2)

    def _tell_screens(self, line: bytes) -> None:
        """Tells which boards are there, and of what evening, where that has changed; and who was
        cut off."""
        cut_off, before, self._hall = self._cut_off, self._hall, self._hall_line()
        if self._hall != before:
            self.screens.send("hall", self._hall)
        self.screens.send("pulse", line)
        for group in self._reported:
            # A mirror tells it of each feed.
            group.look()
        self.notices.tell()
        self._cut_off = self.notices.all_cut_off
        if self._cut_off != cut_off:
            # Connections with encryption refer to themselves, and each has 0.3 MB of buffers.
            gc.collect()

    def _told(self) -> list[bytes]:
        return [self._hall, self._pulse_line()]

    def _pulse_line(self) -> bytes:
        there = [group for group in self.groups if not group.silence]
        moments = {group.letter: group.moment.age for group in there}
        return line_of("pulse", groups="".join(moments), moments=moments)

    def tell_groups(self) -> None:
        """Tells who looks on which groups there are by now, and the screen of each."""
        self._hall = self._hall_line()
        self.screens.send("hall", self._hall)
        for group in self.groups:
            self.screens.send(group.letter, group.moment.line)

    async def _health(self, request: web.Request) -> web.Response:
        groups = {group.letter: group.health() for group in self.groups}
        faults = [it["fault"] for it in groups.values() if it["fault"]] + [self.fault]
        told = {
            "groups": groups,
            "screens": len(self.screens),
            "reporters": sum(len(group.phones) for group in self._reported),
            "left_out": self.screens.left_out,
            "cut_off": self.notices.all_cut_off,
            "fault": faults[0],
        }
        if visitor_of(request).address not in HERE:
            # A fault has names of files.
            for part in (told, *groups.values()):
                part["fault"] = "look at the server" if part["fault"] else ""
        return web.json_response(told)

    async def _reporter_page(self, request: web.Request) -> web.StreamResponse:
        self._reporter(request)
        return await self._report.answer(request)

    def _reporter(self, request: web.Request) -> tuple[Group, Reporter]:
        """Whose key a request has. Raises that there is no such page where it is nobody's."""
        found = None
        for group in self._reported:
            reporter = group.reporter_of(request.match_info["key"])
            found = found if reporter is None else (group, reporter)
        if found is None:
            raise web.HTTPNotFound
        return found

    async def _lines(self, request: web.Request) -> web.StreamResponse:
        """A screen: it is sent lines, and sends none."""
        self._check_origin(request)
        place = self._screens, visitor_of(request).address
        async with _opened(request, *place, Allowance(OF_SCREEN, 0)) as (stream, screen):
            moments = [group.moment.line for group in self.groups]
            with self.screens.having(screen, self._hall, *moments, self._pulse_line()):
                await stream.receive()
        return stream

    def _hall_line(self) -> bytes:
        """The line that says what there is."""
        tonight = {group.letter: group.tonight() for group in self.groups if group.tonight()}
        letters = "".join(sorted(group.letter for group in self.groups))
        more = {"at": self._at} if self._at else {}
        return line_of("hall", title=self.title, groups=letters, tonight=tonight, **more)

    def _check_origin(self, request: web.Request) -> None:
        """A WebSocket is opened by pages of this server, and of those beside it, alone."""
        asked = request.headers.get("Origin", "")
        with contextlib.suppress(ValueError):
            name = urlsplit(asked).netloc
            if name and (name == request.headers.get("Host") or f"{asked}/" in self._at):
                return
        raise web.HTTPForbidden

    async def _taps(self, request: web.Request) -> web.StreamResponse:
        """A phone: each message of it is answered for itself."""
        self._check_origin(request)
        group, reporter = self._reporter(request)
        visitor, link = visitor_of(request), f"{group.letter}/{reporter.number}"
        # A page that connects anew is the same phone, also where its old connection is there still.
        page = request.query.get("page") or visitor
        if page in reporter.pages:
            reporter.pages[page].end()
        reporter.pages[page] = visitor
        try:
            async with _opened(request, self._phones, link, reporter.bytes) as (stream, phone):
                with group.having(phone, reporter, self.title):
                    self._count(group, reporter)
                    await self._take_taps(stream, phone, reporter)
        finally:
            if reporter.pages.get(page) is visitor:
                del reporter.pages[page]
            self._count(group, reporter)
        return stream

    async def _take_taps(
        self, stream: web.WebSocketResponse, phone: Screen, reporter: Reporter
    ) -> None:
        tasks: set[asyncio.Task[None]] = set()
        async for message in stream:
            if message.type != WSMsgType.TEXT or not reporter.messages.takes(1):
                return
            task = asyncio.create_task(self._answer(phone, reporter, message.data))
            tasks.add(task)
            task.add_done_callback(tasks.discard)

    def _count(self, group: Group, reporter: Reporter) -> None:
        """Tells how many phones have a link."""
        count = self._phones.count(f"{group.letter}/{reporter.number}")
        of_group = f"group {group.letter}, " if len(self.groups) > 1 else ""
        self.notices.has_phones(f"{of_group}reporter {reporter.number}", count)
        reporter.phones.send("phones", line_of("phones", count=count))

    async def _answer(self, phone: Screen, reporter: Reporter, text: str) -> None:
        try:
            message = message_of(text, reporter.matches)
        except ValueError:
            phone.transport.close()
            return
        if not reporter.may(message):
            phone.transport.close()
            return
        frame = frame_of(await reporter.reply(message))
        if isinstance(message, Asked):
            reporter.phones.give(phone, "events", frame)
        else:
            phone.write(frame)

    def _is_named(self, host: str | None) -> bool:
        """Whether a request is for this server: by an address, or a name that is its own.

        Another name may be of a page elsewhere, whose name server has it lead here.
        """
        if host is None:
            # It is of no browser.
            return True
        with contextlib.suppress(ValueError):
            name = (urlsplit(f"//{host}").hostname or "").rstrip(".")
            if name in self.names or name == "localhost" or name.endswith(".local"):
                return True
            ipaddress.ip_address(name)
            return True
        return False


@contextlib.asynccontextmanager
async def _opened(
    request: web.Request, places: Places, owner: str, allowance: Allowance
) -> AsyncIterator[tuple[web.WebSocketResponse, Screen]]:
    """The WebSocket of a request, and the connection that frames are written to, which stays until
    the block ends. Raises that there is no place for it."""
    stream = web.WebSocketResponse(max_msg_size=LONGEST, compress=False, timeout=1.0)
    if not stream.can_prepare(request).ok:
        raise web.HTTPBadRequest
    with visitor_of(request).staying(places, owner, allowance):
        await stream.prepare(request)
        assert isinstance(request.transport, asyncio.WriteTransport)
        yield stream, Screen(request.transport)


async def _head(_: web.Request, response: web.StreamResponse) -> None:
    """What each answer has; one that is no WebSocket is the last of its connection."""
    kept = response.headers.get("Cache-Control", pages.HEADERS["Cache-Control"])
    response.headers.update({**pages.HEADERS, "Cache-Control": kept})
    response.headers.setdefault("Content-Security-Policy", pages.NOTHING)
    if not isinstance(response, web.WebSocketResponse):
        response.headers["Connection"] = "close"
        response.force_close()
