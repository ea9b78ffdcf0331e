"""A WebSocket, by hand: so it can also send what no browser does, and read nothing."""

import contextlib
import json
import os
import socket
import ssl
import struct
from typing import Any

Said = dict[str, Any]


class Socket:
    """A connection to a server of screens and phones."""

    def __init__(
        self,
        port: int,
        path: str,
        origin: str | None = None,
        room: int | None = None,
        source: str = "127.0.0.1",
        context: ssl.SSLContext | None = None,
        host: str | None = None,
    ) -> None:
        self.socket = socket.socket()
        if room:
            self.socket.setsockopt(socket.SOL_SOCKET, socket.SO_RCVBUF, room)
        self.socket.settimeout(30)
        self.socket.bind((source, 0))
        self.socket.connect(("127.0.0.1", port))
        if context:
            self.socket = context.wrap_socket(self.socket)
        self.rest, self.lines = b"", list[Said]()
        self.closed: int | None = None
        self.status = self._ask(path, f"127.0.0.1:{port}" if host is None else host, origin)

    def _ask(self, path: str, host: str, origin: str | None) -> int:
        """Asks for the WebSocket. Gives the status of the answer."""
        origin = f"http://{host}" if origin is None else origin
        lines = [
            *(f"GET {path} HTTP/1.1", *[f"Host: {host}"] * bool(host), "Upgrade: websocket"),
            *("Connection: Upgrade", "Sec-WebSocket-Version: 13"),
            *("Sec-WebSocket-Key: dGhlIHNhbXBsZSBub25jZQ==", *[f"Origin: {origin}"] * bool(origin)),
        ]
        self.socket.sendall("\r\n".join([*lines, "", ""]).encode())
        while b"\r\n\r\n" not in self.rest and (piece := self.socket.recv(1 << 16)):
            self.rest += piece
        head, _, self.rest = self.rest.partition(b"\r\n\r\n")
        return int(head.split()[1])

    def send(self, text: str | bytes, opcode: int = 0x81, mask: bytes = b"\1\2\3\4") -> None:
        """Sends a frame."""
        data = text if isinstance(text, bytes) else text.encode()
        is_short = len(data) < 126
        size = bytes([0x80 | len(data)]) if is_short else b"\xfe" + struct.pack("!H", len(data))
        hidden = bytes(byte ^ mask[at % 4] for at, byte in enumerate(data))
        self.socket.sendall(bytes([opcode]) + size + mask + hidden)

    def _frame(self) -> tuple[int, bytes] | None:
        """The next frame that has come whole."""
        if len(self.rest) < 2:
            return None
        short = self.rest[1] & 127
        head = {126: 4, 127: 10}.get(short, 2)
        size = short if head == 2 else int.from_bytes(self.rest[2:head], "big")
        if len(self.rest) < head or len(self.rest) < head + size:
            return None
        opcode, data = self.rest[0], self.rest[head : head + size]
        self.rest = self.rest[head + size :]
        return opcode, data

    def receive(self) -> Said | None:
        """The next line, as its members; None where the connection is closed."""
        while True:
            while frame := self._frame():
                opcode, data = frame
                if opcode == 0x88:
                    self.closed = int.from_bytes(data[:2], "big")
                    return None
                if opcode == 0x81:
                    self.lines.append(json.loads(data))
                    return self.lines[-1]
            try:
                piece = self.socket.recv(1 << 16)
            except ConnectionError:
                piece = b""
            if not piece:
                return None
            self.rest += piece

    def until(self, reply: str, **members: object) -> Said | None:
        """The next line of this kind with these members."""
        while said := self.receive():
            is_so = all(said.get(name) == it for name, it in members.items())
            if said["reply"] == reply and is_so:
                return said
        return None

    def tap(
        self,
        match: int,
        expected: int,
        event: str,
        name: str = "tap",
        edition: int = 0,
        id: str | None = None,
    ) -> str:
        """Sends a tap, and gives its id."""
        id = id or os.urandom(16).hex()
        what = {"edition": edition, "match": match, "expected": expected, "event": event}
        self.send(json.dumps({name: id, **what}))
        return id

    def answer(self, *words: Any, **how: Any) -> Any:
        """Sends a tap, and gives the name of its answer."""
        answer = self.until("answer", id=self.tap(*words, **how))
        assert answer, "the connection is closed"
        return answer["name"]

    def is_closed(self) -> bool:
        """Whether the server closes it, whatever it sends before."""
        with contextlib.suppress(TimeoutError):
            while self.receive():
                pass
            return True
        return False
