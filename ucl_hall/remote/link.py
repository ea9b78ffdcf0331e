"""The WebSocket of a reporter's link, from a terminal: opened again whenever it is lost, at the next
server of the board if there are several. What was sent and has no answer is sent again with the
same id, until it has one."""

import asyncio
import contextlib
import json
import re
import secrets
import time
from collections.abc import Callable, Mapping
from dataclasses import dataclass

import aiohttp
from yarl import URL

from ucl_hall.faults import Over, kind_of
from ucl_hall.text import members_of

Said = Mapping[str, object]
# Seconds: a server that says nothing for so long is gone, and where there are others one that does
# not say for so long that it hears of the board; between two tries, and until a server lets go.
SILENCE, NEXT, PAUSE = 5.0, 1.75, 0.5
# The most bytes of a line that comes, and of a message that is sent; and the most events that are
# sent in a second: the server takes some more.
LONGEST_LINE, LONGEST, MOST_EVENTS = 8 << 20, 1_024, 15
NO_CONNECTION = "No connection: what you enter is sent once it is there again"
_SERVER = re.compile(r"https?://[^/\s]+/?")
# Why a server does not take a link: by its status, and where its certificate is not trusted.
REFUSED = {
    403: kind_of(Over, "{}: the server has another name: give the link as it prints it"),
    404: kind_of(Over, "{} is the link of no reporter there: ask for a new one"),
}
NotTrusted = kind_of(Over, "{}: {}")


class Pace:
    """How much is sent: so much at once, and as much each second."""

    def __init__(self, most: int) -> None:
        self._most, self._left, self._at = most, float(most), time.monotonic()

    async def take(self, count: int) -> None:
        """Waits until so much may be sent, and more than is sent at once a while longer."""
        now = time.monotonic()
        self._left = min(self._most, self._left + self._most * (now - self._at)) - count
        self._at = now
        await asyncio.sleep(max(0.0, -self._left / self._most))


@dataclass(eq=False, slots=True)
class Sent:
    """A message that has no answer: as it is sent first, and again, and of how many events."""

    first: Said
    again: Said
    cost: int
    answer: asyncio.Future[Said]
    is_sent: bool = False


class Link:
    """A connection to a server of a board, and to the next one where it is lost. `heard` gets each
    line that is no answer; `told` gets that there is none, and an empty text once there is one
    again."""

    def __init__(
        self, url: str, heard: Callable[[Said, bytes], None], told: Callable[[str], None]
    ) -> None:
        # Where the link is taken: the last is asked now, and the first next. A connection that is
        # opened anew takes the place of the one before.
        self._places = [URL(url) / "taps" % {"page": secrets.token_hex(8)}]
        self._heard, self._told, self._is_lost = heard, told, False
        # What servers say: whose board it is, and whether they keep ids for good.
        self._group, self._keeps_ids = "", False
        self._sent: dict[str, Sent] = {}
        self._due: asyncio.Queue[str] = asyncio.Queue()
        self._pace = Pace(MOST_EVENTS)

    async def ask(self, id: str, first: Said, again: Said, cost: int = MOST_EVENTS) -> Said:
        """Sends a message until it is answered, and gives the answer."""
        answer: asyncio.Future[Said] = asyncio.get_running_loop().create_future()
        self._sent[id] = Sent(first, again, cost, answer)
        self._due.put_nowait(id)
        try:
            return await answer
        finally:
            del self._sent[id]

    @property
    def waiting(self) -> list[Sent]:
        """What has no answer."""
        return [sent for sent in self._sent.values() if not sent.answer.done()]

    async def run(self) -> None:
        """Keeps it open. Raises Over where no server takes it."""
        async with aiohttp.ClientSession() as session:
            while True:
                here = self._places.pop(0)
                self._places.append(here)
                try:
                    async with asyncio.timeout(self._silence):
                        socket = await session.ws_connect(
                            here,
                            origin=str(here.origin()),
                            timeout=PAUSE,
                            max_msg_size=LONGEST_LINE,
                        )
                    await self._use(socket)
                except aiohttp.WSServerHandshakeError as error:
                    if error.status in REFUSED:
                        self._leave_out(here, REFUSED[error.status](here.parent))
                except aiohttp.ClientSSLError as error:
                    self._leave_out(here, NotTrusted(here.parent, error))
                except (aiohttp.ClientError, OSError, TimeoutError):
                    pass
                self._note(is_lost=True)
                await asyncio.sleep(PAUSE)

    @property
    def _silence(self) -> float:
        return SILENCE if len(self._places) == 1 else NEXT

    def _leave_out(self, here: URL, fault: Over) -> None:
        """Asks a server no more that does not take the link, unless another names it anew. Raises
        the fault where there is no other."""
        self._places.remove(here)
        if not self._places:
            raise fault

    def _note(self, *, is_lost: bool) -> None:
        if is_lost != self._is_lost:
            self._is_lost = is_lost
            self._told(NO_CONNECTION if is_lost else "")

    async def _use(self, socket: aiohttp.ClientWebSocketResponse) -> None:
        """Takes what comes and sends what waits, until the connection is lost."""
        self._due = asyncio.Queue()
        for id in self._sent:
            self._due.put_nowait(id)
        sending: asyncio.Task[None] | None = None
        try:
            async with asyncio.timeout(self._silence) as limit:
                while (message := await socket.receive()).type == aiohttp.WSMsgType.TEXT:
                    if self._take(message.data):
                        self._note(is_lost=False)
                        limit.reschedule(asyncio.get_running_loop().time() + self._silence)
                    # The first line says whose link it is by now.
                    sending = sending or asyncio.create_task(self._send(socket))
        finally:
            if sending is not None:
                sending.cancel()
                await asyncio.gather(sending, return_exceptions=True)
            # A server that is gone takes no leave, for which a WebSocket would wait ten seconds.
            await asyncio.wait([asyncio.create_task(socket.close())], timeout=PAUSE)

    async def _send(self, socket: aiohttp.ClientWebSocketResponse) -> None:
        while True:
            id = await self._due.get()
            sent = self._sent.get(id)
            if sent is None or sent.answer.done():
                continue
            await self._pace.take(sent.cost)
            # By an id that all servers keep for good the first message says enough.
            said = sent.again if sent.is_sent and not self._keeps_ids else sent.first
            sent.is_sent = True
            await socket.send_str(text_of(said))

    def _take(self, line: str) -> bool:
        """Takes a line, and says whether it is a sign that the board is there."""
        said = members_of(line)
        is_sign = self._is_sign(said)
        if said.get("reply") == "reporter":
            self._learn(said)
        sent = self._sent.get(str(said.get("id")))
        if sent is None:
            self._heard(said, line.encode(errors="replace"))
        elif not sent.answer.done():
            sent.answer.set_result(said)
        return is_sign

    def _is_sign(self, said: Said) -> bool:
        """Whether a line says that the board is there: where a server hears of none another may."""
        groups = said.get("groups") if said.get("reply") == "pulse" else None
        is_named = isinstance(groups, str) and self._group in groups
        return is_named or len(self._places) == 1

    def _learn(self, said: Said) -> None:
        """Takes what a server says of the link: whose it is, and where else it is taken."""
        self._group, self._keeps_ids = str(said.get("group")), said.get("resends") is True
        others = said.get("at")
        for url in others if isinstance(others, list) else []:
            place = _taken_at(url, self._places[-1])
            if place is not None and place not in self._places:
                self._places.insert(-1, place)


def text_of(said: Said) -> str:
    """A message as it is sent."""
    return json.dumps(said, separators=(",", ":"))


def _taken_at(server: object, here: URL) -> URL | None:
    """Where a link that is taken here is taken by another server; None where this is none's
    address, or none of the same security."""
    with contextlib.suppress(ValueError):
        if isinstance(server, str) and _SERVER.fullmatch(server):
            place = URL(server).join(here.relative())
            return place if place.scheme == here.scheme else None
    return None
