"""Connections, from the first moment of each to its end: what they send, and their places.

A visitor stands in front of aiohttp's handler and has all bytes of its connection. It costs a
socket until its first byte, so that no stranger begins TLS by silence, a buffer until the head of
its one request is whole, and ten seconds in all, unless it stays: as a screen, or as a phone.
"""

import asyncio
import contextlib
import socket
import ssl
import struct
import time
from collections import deque
from collections.abc import Callable, Iterator

from aiohttp import web

from ucl_hall.web.notices import Notices

# Seconds that a connection has, unless it stays; and until who takes nothing any more is gone.
WHOLE, GONE = 10.0, 30.0
# Of Linux: how many bytes may wait to be on their way, and how long what was sent may wait.
TCP_NOTSENT_LOWAT, TCP_USER_TIMEOUT = 25, 18
# Bytes that a connection sends, or all phones of a link: at once, and in a second. Bytes that a
# screen sends in all.
AT_ONCE, A_SECOND, OF_SCREEN = 32 << 10, 8 << 10, 500
# Connections that do not stay: in all, and of an address; and those of which the first byte is
# looked at, whoever they are of: at once, and in a second.
MOST_BEGUN, BEGUN_OF_ONE = 200, 32
READ_AT_ONCE, READ_A_SECOND = 16, 128
# The addresses of this machine, where the hall's own screen is, and a server in front of this one.
HERE = ("127.0.0.1", "::1")
_RESET = struct.pack("ii", 1, 0)
# How many connections are taken before others have their turn.
TURN = 32


class Allowance:
    """How much may come: so much at once, and so much more each second."""

    def __init__(self, at_once: float, a_second: float) -> None:
        self._most, self._a_second = at_once, a_second
        self._left, self._at = at_once, time.monotonic()

    def takes(self, count: int) -> bool:
        """Whether so much may come now, which it then has."""
        now = time.monotonic()
        self._left = min(self._most, self._left + self._a_second * (now - self._at))
        self._at = now
        is_enough = self._left >= count
        self._left -= count * is_enough
        return is_enough


class Places:
    """So many places for visitors, and so many for those of one address, or of one link.

    Where there are too many, one gives way: of its own address, if that has too many, else of the
    address that has most. The first visitor of this machine has its place whatever comes.
    """

    def __init__(self, most: int, of_one: int, *, newest_gives_way: bool = False) -> None:
        self._most, self._of_one, self._is_newest = most, of_one, newest_gives_way
        self._by_owner: dict[str, dict[Visitor, None]] = {}
        self._count = 0

    def __len__(self) -> int:
        return self._count

    def __iter__(self) -> Iterator["Visitor"]:
        return iter([it for visitors in self._by_owner.values() for it in visitors])

    def count(self, owner: str) -> int:
        """How many an address or a link has."""
        return len(self._by_owner.get(owner, ()))

    def take(self, owner: str, visitor: "Visitor") -> "Visitor | None":
        """Gives a visitor a place, and says who has to give way for it; it may be the same."""
        mine = self._by_owner.setdefault(owner, {})
        mine[visitor] = None
        self._count += 1
        if len(mine) > self._of_one and owner not in HERE:
            return self._last(mine)
        if self._count <= self._most or (owner in HERE and len(mine) == 1):
            return None
        # Of addresses that have equally many, who is there stays, where the newest gives way.
        owners = [mine, *self._by_owner.values()] if self._is_newest else self._by_owner.values()
        return self._last(max(owners, key=len))

    def leave(self, owner: str, visitor: "Visitor") -> None:
        """Takes the place of a visitor away."""
        mine = self._by_owner[owner]
        del mine[visitor]
        self._count -= 1
        if not mine:
            del self._by_owner[owner]

    def _last(self, visitors: "dict[Visitor, None]") -> "Visitor":
        return [*visitors][-1 if self._is_newest else 0]


class Visitor(asyncio.Protocol):
    """A connection. What it sends comes to aiohttp's handler through here."""

    def __init__(self, visitors: "Visitors", one: socket.socket, address: str) -> None:
        self.address = address
        self._visitors, self._socket = visitors, one
        self._allowance = Allowance(AT_ONCE, A_SECOND)
        self._place: tuple[Places, str] | None = None
        self._head = b""
        self._stays = False
        self._handler: web.RequestHandler | None = None
        self._transport: asyncio.Transport | None = None
        self._connecting: asyncio.Task[None] | None = None
        loop = asyncio.get_running_loop()
        self._timer = loop.call_later(WHOLE, self._expire)
        loop.add_reader(one, self._wake)

    @property
    def is_over(self) -> bool:
        """Whether it was ended, or has had its place."""
        return self._place is None

    def take(self, places: Places, owner: str) -> bool:
        """Takes a place in place of the one that it has. False where there is none for it."""
        self._leave()
        self._place = places, owner
        other = places.take(owner, self)
        if other is self:
            self._leave()
            self._visitors.notices.cut_off(self.address)
        elif other is not None:
            other.cut_off()
        return other is not self

    @contextlib.contextmanager
    def staying(self, places: Places, owner: str, allowance: Allowance) -> Iterator[None]:
        """Has it stay until the block ends, with what it may send from now on; then its place is
        free, and it is over in ten seconds again. Raises that there is no place for it."""
        if not self.take(places, owner):
            raise web.HTTPServiceUnavailable
        self._timer.cancel()
        self._stays, self._allowance = True, allowance
        try:
            yield
        finally:
            if self._transport is not None:
                self._leave()
                self._timer = asyncio.get_running_loop().call_later(WHOLE, self.end)

    def cut_off(self) -> None:
        """Ends it at once, which the operator is told."""
        self._visitors.notices.cut_off(self.address)
        self.end()

    def end(self) -> None:
        """Ends it at once, also what is on its way."""
        self._timer.cancel()
        self._leave()
        with contextlib.suppress(OSError):
            self._socket.setsockopt(socket.SOL_SOCKET, socket.SO_LINGER, _RESET)
        if self._transport is not None:
            self._transport.abort()
        elif self._connecting is not None:
            # It agrees on its encryption: a transport there can not be ended before that is over.
            with contextlib.suppress(OSError):
                self._socket.shutdown(socket.SHUT_RDWR)
        else:
            asyncio.get_running_loop().remove_reader(self._socket)
            self._socket.close()

    def may_send(self, count: int) -> bool:
        """Whether it may send so many bytes more; cuts it off where it may not."""
        is_allowed = self._allowance.takes(count)
        if not is_allowed:
            self.cut_off()
        return is_allowed

    def connection_made(self, transport: asyncio.BaseTransport) -> None:
        assert isinstance(transport, asyncio.Transport)
        self._transport = transport
        if self.is_over:
            transport.abort()
        else:
            self._read_head()

    def data_received(self, data: bytes) -> None:
        # With encryption they are counted before it.
        if self._visitors.context is None and not self.may_send(len(data)):
            return
        if self._handler is None:
            self._head += data
            self._read_head()
        elif self._stays:
            self._handler.data_received(data)
        # Else it sends more than the head of its one request, which is passed over.

    def pause_writing(self) -> None:
        if self._handler is not None:
            self._handler.pause_writing()

    def resume_writing(self) -> None:
        if self._handler is not None:
            self._handler.resume_writing()

    def connection_lost(self, fault: Exception | None) -> None:
        self._transport = None
        self._timer.cancel()
        self._leave()
        if self._handler is not None:
            self._handler.connection_lost(fault)

    def begin(self) -> None:
        """Looks at its first byte."""
        self._connecting = asyncio.create_task(self._connect())

    def _wake(self) -> None:
        """Its first byte has come, or its end."""
        asyncio.get_running_loop().remove_reader(self._socket)
        self._visitors.line_up(self)

    async def _connect(self) -> None:
        context, loop = self._visitors.context, asyncio.get_running_loop()
        try:
            if context is None:
                await loop.connect_accepted_socket(lambda: self, self._socket)
            else:
                self.connection_made(await self._encrypted(context))
        except OSError:
            # It is gone, or did not agree on the encryption.
            self._timer.cancel()
            self._leave()

    async def _encrypted(self, context: ssl.SSLContext) -> asyncio.BaseTransport:
        """What it sends by, once both agree on the encryption. All its bytes are counted."""
        loop = asyncio.get_running_loop()
        raw, _ = await loop.connect_accepted_socket(asyncio.Protocol, self._socket)
        assert isinstance(raw, asyncio.Transport)
        raw.pause_reading()
        agreeing = asyncio.ensure_future(
            loop.start_tls(raw, self, context, server_side=True, ssl_handshake_timeout=WHOLE)
        )
        # It has put its protocol there by then, and nothing was read.
        await asyncio.sleep(0)
        encryption = raw.get_protocol()
        assert isinstance(encryption, asyncio.BufferedProtocol)
        take = encryption.buffer_updated
        # Not all that comes is of a message, so it is counted here.
        setattr(encryption, "buffer_updated", lambda count: self.may_send(count) and take(count))
        transport = await agreeing
        assert transport is not None
        return transport

    def _read_head(self) -> None:
        """Hands the head of the request on once it is whole."""
        head, end, _ = self._head.partition(b"\r\n\r\n")
        if self._transport is None:
            return
        if self._head and not self._head[:1].isalpha():
            self.end()
        elif end:
            self._head, self._handler = b"", self._visitors.handler()
            self._handler.connection_made(self._transport)
            self._handler.data_received(head + end)

    def _expire(self) -> None:
        """Its time is over. Browsers open connections that they use for nothing: none is told."""
        if self._connecting is None:
            self.end()
        else:
            self.cut_off()

    def _leave(self) -> None:
        if self._place is not None:
            places, owner = self._place
            self._place = None
            places.leave(owner, self)


class Visitors:
    """All connections to a server."""

    def __init__(self, notices: Notices, handler: Callable[[], web.RequestHandler]) -> None:
        self.notices, self.handler = notices, handler
        self.context: ssl.SSLContext | None = None
        self._begun = Places(MOST_BEGUN, BEGUN_OF_ONE)
        self._pace = Allowance(READ_AT_ONCE, READ_A_SECOND)
        self._queue: deque[Visitor] = deque()
        self._listeners: list[socket.socket] = []

    async def listen(self, host: str, port: int, context: ssl.SSLContext | None) -> None:
        """Takes connections at an address.

        Raises OSError where it is taken, or is none of this machine.
        """
        self.context, loop = context, asyncio.get_running_loop()
        found = await loop.getaddrinfo(
            host or None, port, type=socket.SOCK_STREAM, flags=socket.AI_PASSIVE
        )
        for family, _, _, _, address in sorted(set(found)):
            one = socket.create_server(address[:2], family=family, backlog=1_024)
            self._listeners.append(one)
            one.setblocking(False)
            # The kernel keeps no queue either, and gives up who has acknowledged nothing for long.
            one.setsockopt(socket.IPPROTO_TCP, TCP_NOTSENT_LOWAT, 1)
            one.setsockopt(socket.IPPROTO_TCP, TCP_USER_TIMEOUT, int(1_000 * GONE))
            loop.add_reader(one, self._accept, one)

    def close(self) -> None:
        """Takes no more connections, and ends those that do not stay."""
        for one in self._listeners:
            asyncio.get_running_loop().remove_reader(one)
            one.close()
        self._listeners.clear()
        for visitor in self._begun:
            visitor.end()

    def line_up(self, visitor: Visitor) -> None:
        """Has a visitor begin as soon as it is its turn; one of this machine need not wait."""
        if visitor.address in HERE:
            visitor.begin()
            return
        self._queue.append(visitor)
        if len(self._queue) == 1:
            self._let_begin()

    def _let_begin(self) -> None:
        while self._queue and (self._queue[0].is_over or self._pace.takes(1)):
            visitor = self._queue.popleft()
            if not visitor.is_over:
                visitor.begin()
        if self._queue:
            asyncio.get_running_loop().call_later(1 / READ_A_SECOND, self._let_begin)

    def _accept(self, listener: socket.socket) -> None:
        """Takes the connections that wait."""
        for _ in range(TURN):
            try:
                one, peer = listener.accept()
            except BlockingIOError:
                return
            except OSError:
                # It is gone already, or no file is left: some are soon.
                self._rest(listener)
                return
            address = peer[0].removeprefix("::ffff:")
            Visitor(self, one, address).take(self._begun, address)

    def _rest(self, listener: socket.socket) -> None:
        """Takes no connection for a while."""

        def again() -> None:
            if listener in self._listeners:
                loop.add_reader(listener, self._accept, listener)

        loop = asyncio.get_running_loop()
        loop.remove_reader(listener)
        loop.call_later(0.05, again)


def visitor_of(request: web.Request) -> Visitor:
    """Whose request it is. Raises ConnectionResetError where the connection is over."""
    protocol = request.transport and request.transport.get_protocol()
    if not isinstance(protocol, Visitor):
        raise ConnectionResetError
    return protocol
