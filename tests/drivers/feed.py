"""Who reads `/feed` of a server."""

import http.client
import json
from collections.abc import Iterator

from drivers.websocket import Said


class Feed:
    """Who reads a feed, line by line."""

    def __init__(self, port: int, path: str = "/feed", source: str = "127.0.0.1") -> None:
        self.connection = http.client.HTTPConnection(
            "127.0.0.1", port, timeout=30, source_address=(source, 0)
        )
        self.connection.request("GET", path)
        self.answer = self.connection.getresponse()
        self.lines: list[Said] = []

    def __iter__(self) -> Iterator[Said]:
        while line := self.answer.readline():
            self.lines.append(json.loads(line))
            yield self.lines[-1]

    def until(self, reply: str, **members: object) -> Said:
        """The next line of this kind with these members."""
        for said in self:
            if said["reply"] == reply and all(said.get(name) == it for name, it in members.items()):
                return said
        raise AssertionError(f"the feed has ended: {self.lines[-3:]}")

    def next(self) -> Said:
        """The next line."""
        return next(iter(self))

    def close(self) -> None:
        """Is gone."""
        self.answer.close()
        self.connection.close()
