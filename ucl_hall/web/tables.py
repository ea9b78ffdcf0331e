"""The table once: as JSON, the screen that `ucl_live` tells, and as text.

Each answer has an `ETag` of edition and version, so who asks again, or a cache in front, is told in
one line that nothing has changed. `Age` says for how many seconds nothing is known of the board.
"""

from collections.abc import Sequence

from aiohttp import ETag, web

from ucl_hall.terminal import words
from ucl_hall.web.shown import Shown, asked

# A cache may give the same for a second, and then has to ask.
CACHED = "max-age=1, must-revalidate"


class Tables:
    """What is served at `/table.json` and `/table.txt`."""

    def __init__(self, groups: Sequence[Shown]) -> None:
        self._groups = groups

    async def json(self, request: web.Request) -> web.Response:
        """The line of the screen."""
        group = self._group(request)
        return _answer(request, group, "application/json", group.moment.line + b"\n")

    async def text(self, request: web.Request) -> web.Response:
        """The six lines of the screen."""
        group = self._group(request)
        text = "".join(line + "\n" for line in words.table(group.moment))
        return _answer(request, group, "text/plain", text.encode())

    def _group(self, request: web.Request) -> Shown:
        """The one group that is asked for. Raises that it is not here, or not told apart."""
        groups = asked(request, self._groups)
        if not groups:
            raise web.HTTPServiceUnavailable(text="no board is known here yet\n")
        if len(groups) > 1:
            letters = ", ".join(sorted(group.letter for group in groups))
            raise web.HTTPBadRequest(text=f"add ?group= with one of {letters}\n")
        return groups[0]


def _answer(request: web.Request, group: Shown, kind: str, body: bytes) -> web.Response:
    """The table, or that it is the one that is known to who asks."""
    moment = group.moment
    # It is weak: the line of a mirror has another number of its row.
    tag = ETag(f"{moment.edition}.{moment.version}", is_weak=True)
    known = [it.value for it in request.if_none_match or ()]
    is_known = tag.value in known or "*" in known
    answer = web.Response(status=304) if is_known else web.Response(body=body, content_type=kind)
    answer.etag = tag
    answer.headers["Cache-Control"] = CACHED
    if not is_known:
        answer.charset = "utf-8"
    if group.silence:
        answer.headers["Age"] = str(group.silence)
    return answer
