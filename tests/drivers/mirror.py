"""A server that follows others."""

import contextlib
import os
import signal

from drivers.port import free_port
from drivers.program import Run, Started, children_of, lines_of
from drivers.server import SERVE, health
from drivers.wait import until


class Mirror:
    """A server that follows others."""

    def __init__(self, live: str, follow: str, *words: str, port: int = 0) -> None:
        self.port, self.words = port or free_port(), words
        self.env = {**os.environ, "UCL_LIVE": live, "UCL_FOLLOW": follow}
        self.start()

    def start(self) -> None:
        """Starts it, and waits until it listens."""
        listen = ["--listen", f"127.0.0.1:{self.port}"]
        self.process = Started([SERVE, *self.words, *listen], env=self.env)
        self.printed = self.process.lines(1)

    def shows(self, version: int, edition: int = 0, group: str = "A", seconds: float = 30) -> bool:
        """Whether it shows this moment of a group soon."""
        wanted = [edition, version]

        def holds() -> bool:
            told = health(self.port)["groups"].get(group, {})
            return [told.get("edition"), told.get("version")] == wanted

        return bool(until(holds, seconds))

    def is_there(self, group: str = "A") -> bool:
        """Whether it says that the board of a group is there."""
        return bool(health(self.port)["groups"].get(group, {}).get("is_there"))

    def children(self) -> list[int]:
        """The processes of `ucl_follow` that it has."""
        return children_of(self.process.pid)

    def end_input(self) -> None:
        """Ends its input."""
        self.process.stdin.close()
        self.process.stdin = None

    def told(self) -> str:
        """The next line that it tells on standard error."""
        return lines_of(self.process.stderr)

    def end(self, number: int = signal.SIGKILL) -> Run:
        """Ends it by a signal. Gives its status, and what it wrote besides."""
        self.process.send_signal(number)
        # Its input stays open until then.
        self.process.wait()
        return self.process.end()

    def kill(self) -> None:
        """Ends it, whatever became of it."""
        with contextlib.suppress(ProcessLookupError):
            self.process.kill()
        self.process.wait()
