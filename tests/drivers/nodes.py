"""Nodes of etcd on this machine, for tests of records that are kept there."""

import contextlib
import json
import pathlib
import shutil
import signal
import subprocess
import tempfile
import time
import urllib.request
from base64 import b64decode, b64encode
from typing import Any, Self

from drivers.port import free_port
from drivers.program import needs


class Nodes:
    """Nodes of one cluster, each a process, until the block ends. `words` are more words of each."""

    def __init__(self, count: int = 3, *words: str, scheme: str = "http") -> None:
        needs("etcd", "etcdctl")
        self.room, self.words, self.scheme = pathlib.Path(tempfile.mkdtemp()), words, scheme
        self.ports = [(free_port(), free_port()) for _ in range(count)]
        self.nodes = [self._started(number) for number in range(count)]
        while scheme == "http" and self.leader() is None:
            time.sleep(0.05)

    def __enter__(self) -> Self:
        return self

    def __exit__(self, *_: object) -> None:
        self.end()

    @property
    def hosts(self) -> str:
        """The nodes, as an address has them."""
        return ",".join(map(self.host, range(len(self.ports))))

    def host(self, number: int) -> str:
        """A node, as an address has it."""
        return f"127.0.0.1:{self.ports[number][0]}"

    def place(self, name: str) -> str:
        """The address of a record."""
        return f"etcd://{self.hosts}/{name}"

    def start(self, number: int) -> None:
        """Starts a node that was killed."""
        self.nodes[number] = self._started(number)

    def signal(self, number: int, which: signal.Signals) -> None:
        """Kills a node, stops it, or has it go on."""
        self.nodes[number].send_signal(which)
        if which is signal.SIGKILL:
            self.nodes[number].wait()

    def call(self, path: str, body: dict[str, object], number: int | None = None) -> Any:
        """What a node answers, or the first that does."""
        for at in range(len(self.ports)) if number is None else [number]:
            data = json.dumps(body).encode()
            with contextlib.suppress(OSError):
                url = f"http://{self.host(at)}/v3/{path}"
                with urllib.request.urlopen(url, data, timeout=10) as answer:
                    return json.loads(answer.read())
        return None

    def leader(self) -> int | None:
        """The node that leads, if one does."""
        for number in range(len(self.ports)):
            said = self.call("maintenance/status", {}, number)
            if said and said.get("leader") == said["header"]["member_id"]:
                return number
        return None

    def range(self, prefix: str) -> dict[str, bytes]:
        """The keys of a prefix, which ends with a slash, with their values, in their order."""
        end = text64(f"{prefix[:-1]}0")
        said = self.call("kv/range", {"key": text64(prefix), "range_end": end}) or {}
        pairs = [(it["key"], it.get("value", "")) for it in said.get("kvs", [])]
        return {b64decode(key).decode(): b64decode(value) for key, value in pairs}

    def put(self, key: str, value: bytes) -> None:
        """Writes a key."""
        assert self.call("kv/put", {"key": text64(key), "value": b64encode(value).decode()})

    def delete(self, prefix: str) -> None:
        """Removes the keys of a prefix."""
        end = f"{prefix[:-1]}{chr(ord(prefix[-1]) + 1)}"
        body: dict[str, object] = {"key": text64(prefix), "range_end": text64(end)}
        assert self.call("kv/deleterange", body)

    def end(self) -> None:
        """Ends all nodes."""
        for node in self.nodes:
            node.kill()
            node.wait()
        shutil.rmtree(self.room, ignore_errors=True)

    def _started(self, number: int) -> "subprocess.Popen[bytes]":
        port = f"{self.scheme}://{self.host(number)}"
        urls = [f"http://127.0.0.1:{peer}" for _, peer in self.ports]
        peers = ",".join(f"n{at}={url}" for at, url in enumerate(urls))
        words = ["etcd", "--name", f"n{number}", "--data-dir", f"{self.room}/{number}"]
        words += ["--listen-client-urls", port, "--advertise-client-urls", port]
        words += ["--listen-peer-urls", urls[number], "--initial-cluster", peers]
        words += ["--initial-advertise-peer-urls", urls[number], "--log-level", "error"]
        words += [*self.words, "--logger", "zap"]
        return subprocess.Popen(words, stdout=subprocess.DEVNULL, stderr=subprocess.DEVNULL)


def text64(text: str) -> str:
    """A text in the interface of etcd."""
    return b64encode(text.encode()).decode()
