"""The feed: lines of JSON for whoever draws the table by a program of their own, or hands it on.

`GET /feed` answers with the screen of each group as it stands, and then with each line that pages
get: newer screens as they come, and a pulse each second. `?group=B` has the screens of one group.
"""

import asyncio
from collections.abc import Callable, Sequence

from aiohttp import HttpVersion11, web

from ucl_hall.web.connections import Screen, Screens
from ucl_hall.web.shown import Shown, asked
from ucl_hall.web.visitors import OF_SCREEN, Allowance, Places, visitor_of

KIND = "application/x-ndjson"


class Feed:
    """What is served at `/feed`: of these groups, to those who have a place among screens."""

    def __init__(
        self,
        groups: Sequence[Shown],
        screens: Screens,
        places: Places,
        told: Callable[[], Sequence[bytes]],
    ) -> None:
        self._groups, self._screens, self._places, self._told = groups, screens, places, told

    async def answer(self, request: web.Request) -> web.StreamResponse:
        """The lines, until who asked is gone.

        Raises that there is no such group, or that there is no place for more.
        """
        groups, visitor = asked(request, self._groups), visitor_of(request)
        response = web.StreamResponse(headers={"Content-Type": KIND})
        with visitor.staying(self._places, visitor.address, Allowance(OF_SCREEN, 0)):
            await response.prepare(request)
            assert isinstance(request.transport, asyncio.WriteTransport)
            framed = _chunk_of if request.version >= HttpVersion11 else _line_of
            screen = Screen(request.transport, framed)
            if "group" in request.query:
                screen.group = groups[0].letter
            moments = [group.moment.line for group in groups]
            with self._screens.having(screen, *moments, *self._told()):
                await screen.gone.wait()
        return response


def _chunk_of(line: bytes) -> bytes:
    """A line with its end, as a chunk of HTTP."""
    return b"%x\r\n%b\n\r\n" % (len(line) + 1, line)


def _line_of(line: bytes) -> bytes:
    return line + b"\n"
