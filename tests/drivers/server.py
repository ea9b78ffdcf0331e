"""A server of records in a folder, and what it says to who asks."""

import json
import os
import pathlib
import signal
import socket
from collections.abc import Sequence
from typing import Any

from drivers.port import free_port
from drivers.program import Run, Started, children_of
from drivers.text import EXAMPLES, TOP, text_of
from drivers.websocket import Said, Socket

SERVE = TOP / "ucl_serve"
CLUBS = EXAMPLES / "one_goal.csv"


def got(
    port: int, path: str, *headers: str, host: bool = True, source: str = "127.0.0.1"
) -> tuple[int, dict[str, str], str]:
    """The status, the headers and the body of an answer to who asks with these lines more."""
    lines = [f"GET {path} HTTP/1.1", *[f"Host: 127.0.0.1:{port}"] * host, *headers]
    with socket.create_connection(("127.0.0.1", port), 30, (source, 0)) as one:
        one.sendall("\r\n".join([*lines, "", ""]).encode())
        answer = b"".join(iter(lambda: one.recv(1 << 16), b""))
    head, _, body = answer.partition(b"\r\n\r\n")
    status, *lines = head.decode().split("\r\n")
    pairs = [line.partition(": ") for line in lines]
    return int(status.split()[1]), {name.lower(): it for name, _, it in pairs}, body.decode()


def health(port: int) -> Said:
    """What a server tells whoever watches it."""
    said: Said = json.loads(got(port, "/health")[2])
    return said


class Server:
    """A server of some records in a folder, which begin with four clubs each."""

    def __init__(
        self,
        folder: pathlib.Path,
        live: str,
        *words: str,
        records: Sequence[str] = ("a.csv",),
        **how: Any,
    ) -> None:
        self.folder, self.port, self.records = folder, free_port(), records
        self.words: Sequence[str] = words
        self.how = {"cwd": folder, "env": {**os.environ, "UCL_LIVE": str(live)}, **how}
        self.start()

    def start(self, *more: str) -> None:
        """Starts it, and waits until it listens."""
        clubs = ["--clubs", str(CLUBS)] * len(self.records)
        listen = ["--listen", f"127.0.0.1:{self.port}"]
        line = [str(SERVE), *self.records, *clubs, *listen, *self.words, *more]
        self.process = Started(line, **self.how)
        self.printed = self.process.lines(2)

    def end(self, number: int = signal.SIGKILL) -> Run:
        """Ends it by a signal. Gives its status, and what it wrote besides."""
        self.process.send_signal(number)
        return self.process.end()

    def kill(self) -> None:
        """Ends it, whatever became of it."""
        self.process.kill()
        self.process.wait()

    def key(self, number: int, record: str = "a.csv") -> str:
        """The key of a reporter."""
        lines = text_of(self.folder / f"{record}.keys").splitlines()
        keys = dict(line.split() for line in lines if line)
        return keys[str(number)]

    def get(self, path: str, *headers: str, **how: Any) -> tuple[int, dict[str, str], str]:
        """The status, the headers and the body of an answer."""
        return got(self.port, path, *headers, **how)

    def health(self) -> Said:
        """What it tells whoever watches it."""
        return health(self.port)

    def screen(self, **how: Any) -> Socket:
        """A screen."""
        return Socket(self.port, "/lines", **how)

    def phone(self, number: int, record: str = "a.csv", page: str = "", **how: Any) -> Socket:
        """A phone of a reporter, with what it is greeted with."""
        taps = f"/report/{self.key(number, record)}/taps{'?page=' * bool(page)}{page}"
        phone = Socket(self.port, taps, **how)
        assert phone.until("recent")
        return phone

    def rows(self, record: str = "a.csv") -> list[str]:
        """The rows after the clubs."""
        return text_of(self.folder / record).splitlines()[5:]

    def live(self) -> list[int]:
        """The processes of `ucl_live` that it has."""
        return children_of(self.process.pid)
