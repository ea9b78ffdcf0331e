"""The pages: files beside this module, with their scripts and styles, and what a browser may do."""

import base64
import hashlib
import pathlib
import re
from collections.abc import Sequence

from aiohttp import web

# The bytes that are sent at once.
PIECE = 16_384
FOLDER = pathlib.Path(__file__).parent / "pages"
# What every answer of the server says to a browser.
HEADERS = {
    "Cache-Control": "no-store",
    "Referrer-Policy": "no-referrer",
    "Server": "ucl_serve",
    "X-Content-Type-Options": "nosniff",
}
# The policy of an answer that is no page.
NOTHING = "default-src 'none'; frame-ancestors 'none'; base-uri 'none'; form-action 'none'"


class Page:
    """A file that is sent as it is, to whoever asks for it. Its policy lets it run its own script and style alone, and ask
    its own server and those at these addresses."""

    def __init__(self, name: str, at: Sequence[str] = ()) -> None:
        self.body = (FOLDER / name).read_bytes()
        self.kind = "text/html" if name.endswith(".html") else "application/json"
        self.policy = NOTHING
        if self.kind == "text/html":
            parts = {part: f"{part}-src '{_sum(self.body, part)}'" for part in ("script", "style")}
            others = [f" ws{url.removeprefix('http').rstrip('/')}" for url in at]
            asked = f"connect-src 'self'{''.join(others)}"
            self.policy = "; ".join([NOTHING, *parts.values(), asked])

    async def answer(self, request: web.Request) -> web.StreamResponse:
        """Sends it in pieces, each once the one before is on its way: a slow reader costs little."""
        headers = {"Content-Security-Policy": self.policy}
        response = web.StreamResponse(headers=headers)
        response.content_type, response.charset = self.kind, "utf-8"
        response.content_length = len(self.body)
        await response.prepare(request)
        for at in range(0, len(self.body) if request.method == "GET" else 0, PIECE):
            await response.write(self.body[at : at + PIECE])
        await response.write_eof()
        return response


def _sum(body: bytes, part: str) -> str:
    """What a policy names the one script or style of a page by."""
    name = part.encode()
    texts = re.findall(b"<%b>(.*?)</%b>" % (name, name), body, re.DOTALL)
    if len(texts) != 1:
        raise ValueError(f"a page has one {part}, and not {len(texts)}")
    return f"sha256-{base64.b64encode(hashlib.sha256(texts[0]).digest()).decode()}"
