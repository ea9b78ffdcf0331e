"""Who looks on: the connections of screens and phones, and how a line gets to them.

A line is framed once for each kind of connection, and written to each transport. A connection is
slow while bytes of the last frame are unsent: of each topic it then gets the newest line alone,
once it has taken what was sent, and nobody else waits for it. All is of one event loop; there is no
lock.
"""

import asyncio
import contextlib
from collections.abc import Callable, Iterator

Framing = Callable[[bytes], bytes]
# How often a slow connection is looked at, in seconds.
AGAIN = 0.05


def frame_of(line: bytes) -> bytes:
    """A text as a frame of a WebSocket, as a server sends it."""
    count = len(line)
    if count < 126:
        return bytes([0x81, count]) + line
    if count < 1 << 16:
        return b"\x81\x7e" + count.to_bytes(2, "big") + line
    return b"\x81\x7f" + count.to_bytes(8, "big") + line


class Screen:
    """A connection that lines are written to, framed so; of one group, if it has asked for one."""

    def __init__(self, transport: asyncio.WriteTransport, framed: Framing = frame_of) -> None:
        self.transport, self.framed, self.group = transport, framed, ""
        # Is set once something was to be written and the connection had ended.
        self.gone = asyncio.Event()
        # The newest frame of each topic that waits until the connection takes more.
        self.due: dict[str, bytes] = {}

    @property
    def is_slow(self) -> bool:
        """Whether bytes of what was sent are here still."""
        return self.transport.get_write_buffer_size() > 0

    def write(self, frame: bytes) -> None:
        """Writes a frame that nothing may take the place of."""
        if self.transport.is_closing():
            self.gone.set()
        else:
            self.transport.write(frame)

    def wants(self, topic: str) -> bool:
        """Whether it gets the lines of a topic: the letter of a group, or a longer word."""
        return self.group in ("", topic) or len(topic) > 1


class Screens:
    """All connections that get the same lines."""

    def __init__(self) -> None:
        self._all: set[Screen] = set()
        self._slow: set[Screen] = set()
        self._task: asyncio.Task[None] | None = None
        # How many frames were not sent since a newer one of their topic came first.
        self.left_out = 0

    def __len__(self) -> int:
        return len(self._all)

    @contextlib.contextmanager
    def having(self, screen: Screen, *lines: bytes) -> Iterator[None]:
        """Sends a connection these lines, and what is sent to all until the block ends."""
        for line in lines:
            screen.write(screen.framed(line))
        self._all.add(screen)
        try:
            yield
        finally:
            self._all.discard(screen)
            self._slow.discard(screen)

    def send(self, topic: str, line: bytes) -> None:
        """Sends a line to all; one of the same topic that waits for a slow one is left out."""
        frames: dict[Framing, bytes] = {}
        for screen in self._all:
            if not screen.wants(topic):
                continue
            if screen.framed not in frames:
                frames[screen.framed] = screen.framed(line)
            self.give(screen, topic, frames[screen.framed])

    def give(self, screen: Screen, topic: str, frame: bytes) -> None:
        """Sends a frame to one; one of the same topic that waits there is left out."""
        if not (screen.due or screen.is_slow):
            screen.write(frame)
            return
        self.left_out += topic in screen.due
        screen.due[topic] = frame
        self._slow.add(screen)
        if self._task is None or self._task.done():
            self._task = asyncio.create_task(self._catch_up())

    def abort(self) -> None:
        """Ends all connections at once."""
        for screen in [*self._all]:
            screen.transport.abort()

    async def _catch_up(self) -> None:
        """Gives slow connections what waits for them, as soon as they have taken what was sent."""
        while self._slow:
            await asyncio.sleep(AGAIN)
            for screen in [*self._slow]:
                if not screen.is_slow:
                    screen.write(b"".join(screen.due.values()))
                    screen.due.clear()
                    self._slow.discard(screen)
