"""A cluster of etcd, by its JSON interface: whichever of its nodes answers is asked.

An address is `etcd://HOST:PORT[,HOST:PORT..]/NAME`, and `?access=FILE` behind it where not everyone
may ask. FILE has lines as `user = "board"`: user and password, the files of a certificate and its
key, and ca, by which nodes are known. With ca or certificate they are asked by TLS.
"""

import asyncio
import contextlib
import ipaddress
import json
import os
import re
import ssl
import stat
import time
import tomllib
from collections.abc import AsyncIterator, Mapping
from dataclasses import dataclass
from typing import Any, Self

import aiohttp

from ucl_hall.faults import (
    BadAddress,
    NoAccess,
    NotDone,
    OtherCluster,
    PasswordInAddress,
    Readable,
    Unreached,
)
from ucl_hall.text import printable

_ADDRESS = re.compile(r"etcd://([^/?]+)/([A-Za-z0-9._-]{1,64})(?:\?access=([^?&#]+))?")
_NODE = re.compile(r"(\[[0-9a-fA-F:.]+\]|[A-Za-z0-9._-]+):[0-9]{1,5}")
# Seconds: how long a node has for an answer, how long a stream may be silent, how long a first answer
# is waited for, and between two questions.
ANSWER, SILENCE, OPENING, PAUSE = 1.5, 20.0, 15.0, 0.1
# What a node says that has done nothing: it is asked wrongly, who asks may not, there is no room.
# All else leaves open whether something is done.
NOTHING_DONE = (400, 401, 403, 429)
# What says that a node does not answer, or not as nodes do.
FAILURES = aiohttp.ClientError, OSError, asyncio.TimeoutError, ValueError
Said = dict[str, Any]


@dataclass(frozen=True, slots=True)
class Address:
    """Where a record is: the nodes of a cluster, its name there, and the file of who may ask."""

    nodes: tuple[str, ...]
    name: str
    access: str | None

    def __str__(self) -> str:
        return f"etcd://{','.join(self.nodes)}/{self.name}"

    @classmethod
    def of(cls, text: str) -> Self:
        """Raises BadAddress, and PasswordInAddress, which does not repeat it."""
        if "@" in text:
            raise PasswordInAddress
        found = _ADDRESS.fullmatch(text)
        nodes = tuple(found[1].split(",")) if found else ()
        if not found or not all(map(_NODE.fullmatch, nodes)):
            raise BadAddress(text)
        return cls(nodes, found[2], found[3])

    @property
    def is_of_this_machine(self) -> bool:
        """Whether all nodes are reached from this machine alone."""
        return all(_is_loopback(node.rpartition(":")[0].strip("[]")) for node in self.nodes)


@dataclass(frozen=True, slots=True)
class Access:
    """Who asks, and by which certificates."""

    user: str = ""
    password: str = ""
    ca: str = ""
    certificate: str = ""
    key: str = ""

    @classmethod
    def of(cls, path: str | None) -> Self:
        """What a file says. Raises NoAccess, Readable where others can read it, and OSError."""
        if path is None:
            return cls()
        with open(path, "rb") as file:
            if stat.S_IMODE(os.fstat(file.fileno()).st_mode) & 0o077:
                raise Readable(path)
            try:
                return cls(**_texts(tomllib.load(file)))
            except (tomllib.TOMLDecodeError, UnicodeDecodeError, TypeError) as error:
                raise NoAccess(path, error) from error

    def context(self) -> ssl.SSLContext | None:
        """How nodes are asked by TLS; None where they are asked without. Raises OSError."""
        if not (self.ca or self.certificate):
            return None
        context = ssl.create_default_context(cafile=self.ca or None)
        if self.certificate:
            context.load_cert_chain(self.certificate, self.key or None)
        return context


class Cluster:
    """The nodes of an address. `close` ends all that is asked."""

    def __init__(self, address: Address) -> None:
        self._access = Access.of(address.access)
        context = self._access.context()
        scheme = "http" if context is None else "https"
        self._nodes = [f"{scheme}://{node}/v3/" for node in address.nodes]
        self.is_unprotected = context is None and not address.is_of_this_machine
        # The library's own limits cancel a task that has its answer, if both come at once.
        self._session = aiohttp.ClientSession(
            timeout=aiohttp.ClientTimeout(total=None, sock_read=SILENCE),
            connector=aiohttp.TCPConnector(ssl=context),
        )
        self._id, self._token = "", ""
        self._stream: aiohttp.ClientResponse | None = None

    async def close(self) -> None:
        """Ends it."""
        await self._session.close()

    async def opening(self, path: str, body: Mapping[str, object]) -> Said:
        """As `call`; where no node answers it is asked again, for so long at most."""
        end = time.monotonic() + OPENING
        while True:
            try:
                return await self.call(path, body)
            except Unreached:
                if time.monotonic() > end:
                    raise
            await asyncio.sleep(PAUSE)

    async def call(self, path: str, body: Mapping[str, object]) -> Said:
        """What a node says.

        Raises Unreached where none answers, so that nobody knows whether something is done;
        NotDone where nothing is; and OtherCluster.
        """
        why = ""
        for _ in self._nodes:
            try:
                return await self._asked(path, body)
            except FAILURES as error:
                why = str(error) or why
            self._next_node()
        raise Unreached(", ".join(self._nodes), printable(why))

    async def changes(self, key: str, end: str) -> AsyncIterator[Said]:
        """What is done to the keys of a range, as it comes, by whichever node is asked; an empty
        change each time that one is asked anew."""
        watch = {"create_request": {"key": key, "range_end": end}}
        while True:
            with contextlib.suppress(*FAILURES):
                url, headers = f"{self._nodes[0]}watch", self._headers()
                async with asyncio.timeout(ANSWER):
                    self._stream = await self._session.post(url, json=watch, headers=headers)
                async with self._stream:
                    yield {}
                    async for line in self._stream.content:
                        for change in json.loads(line).get("result", {}).get("events", []):
                            yield change
            self._stream = None
            await asyncio.sleep(ANSWER / 3)

    async def _asked(self, path: str, body: Mapping[str, object]) -> Said:
        """What the node says whose turn it is; who may ask is told it once more, if it forgot."""
        if self._access.user and not self._token:
            await self._authenticate()
        status, said = await self._posted(path, body)
        if status in (400, 401) and self._access.user and "auth" in str(said.get("error")):
            await self._authenticate()
            status, said = await self._posted(path, body)
        return self._taken(status, said)

    async def _authenticate(self) -> None:
        self._token = ""
        named = {"name": self._access.user, "password": self._access.password}
        self._token = str(self._taken(*await self._posted("auth/authenticate", named))["token"])

    async def _posted(self, path: str, body: Mapping[str, object]) -> tuple[int, Said]:
        url, headers = self._nodes[0] + path, self._headers()
        async with asyncio.timeout(ANSWER):
            async with self._session.post(url, json=body, headers=headers) as answer:
                status, text = answer.status, await answer.read()
        try:
            said = json.loads(text)
        except ValueError:
            said = {"error": printable(text.strip())}
        if not isinstance(said, dict):
            raise ValueError(url)
        return status, said

    def _taken(self, status: int, said: Said) -> Said:
        """An answer of a node of this very cluster."""
        if status in NOTHING_DONE:
            raise NotDone(printable(str(said.get("error"))))
        if status != 200:
            raise ValueError(said.get("error"))
        cluster = str(said.get("header", {}).get("cluster_id"))
        if self._id not in ("", cluster):
            raise OtherCluster(self._nodes[0], cluster, self._id)
        self._id = cluster
        return said

    def _headers(self) -> dict[str, str]:
        return {"Authorization": self._token} if self._token else {}

    def _next_node(self) -> None:
        """Asks the next node from now on, also for changes."""
        self._nodes.append(self._nodes.pop(0))
        if self._stream is not None:
            self._stream.close()


def _is_loopback(host: str) -> bool:
    with contextlib.suppress(ValueError):
        return ipaddress.ip_address(host).is_loopback
    return host == "localhost"


def _texts(said: Mapping[str, object]) -> dict[str, str]:
    """What a file says, if each value is a text."""
    wrong = [name for name, value in said.items() if not isinstance(value, str)]
    if wrong:
        raise TypeError(wrong[0])
    return {name: str(value) for name, value in said.items()}
