"""Where the lines of a mirror come from: the feed of another server, or standard input."""

import asyncio
import os
from collections.abc import Awaitable, Callable

import aiohttp

from ucl_hall.program import read_input
from ucl_hall.text import warn
from ucl_hall.web.feed import KIND

Take = Callable[[bytes], Awaitable[None]]
# The most bytes of a line; a longer one is passed over.
LONGEST = 4_096
# Seconds: a feed that says nothing for so long is opened again, after so long a pause.
SILENCE, PAUSE = 5.0, 1.0
PIECE = 1 << 16
INPUT = "-"


class Lines:
    """Bytes as they come, cut into lines."""

    def __init__(self, take: Take) -> None:
        self._take, self._rest, self._is_long = take, b"", False

    async def add(self, piece: bytes) -> None:
        """Takes a piece, and hands on the lines that end in it."""
        *lines, self._rest = (self._rest + piece).split(b"\n")
        for line in lines:
            if not self._is_long and len(line) <= LONGEST:
                await self._take(line)
            self._is_long = False
        if len(self._rest) > LONGEST:
            self._rest, self._is_long = b"", True


async def follow(source: str, take: Take) -> None:
    """Hands on the lines of a source, a URL or `-`: of a URL for ever, of standard input until its
    end. Tells on standard error when it comes and goes."""
    if source == INPUT:
        await _follow_input(take)
    else:
        await _follow_feed(source, take)


async def _follow_feed(url: str, take: Take) -> None:
    told = False
    timeout = aiohttp.ClientTimeout(total=None, sock_connect=SILENCE, sock_read=SILENCE)
    async with aiohttp.ClientSession(timeout=timeout) as session:
        while True:
            try:
                async with session.get(url, headers={"Accept-Encoding": "identity"}) as answer:
                    if answer.status == 200 and answer.content_type == KIND:
                        if told:
                            warn(f"ucl_serve: {url}: it is there again")
                            told = False
                        lines = Lines(take)
                        async for piece in answer.content.iter_any():
                            await lines.add(piece)
                        why = "it has ended"
                    else:
                        why = f"it answers {answer.status}, and no feed"
            except aiohttp.ClientSSLError as error:
                why = str(error)
            except (aiohttp.ClientConnectionError, OSError):
                why = "no connection"
            except aiohttp.ClientError:
                why = "it has ended"
            if not told:
                warn(f"ucl_serve: {url}: {why}; it is tried again until it is there")
                told = True
            await asyncio.sleep(PAUSE)


async def _follow_input(take: Take) -> None:
    lines = Lines(take)
    async for piece in read_input(lambda: os.read(0, PIECE)):
        await lines.add(piece)
    warn("ucl_serve: standard input has ended: nothing newer comes from there")
