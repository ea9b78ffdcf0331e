"""A terminal of its own for a program, as pyte has it: what is typed there, what stands there."""

import fcntl
import os
import pty
import select
import struct
import subprocess
import termios
import time
from collections.abc import Iterable
from typing import Any, Self

import pytest

from drivers.program import Word

pyte = pytest.importorskip("pyte", reason="not installed: python3-pyte")


class Terminal:
    """The program at a terminal of its own: what is typed there, and all lines that stood there."""

    def __init__(
        self, words: Iterable[Word], size: tuple[int, int] = (60, 150), **how: Any
    ) -> None:
        self.master, self.slave = pty.openpty()
        lines, columns = size
        self.screen: Any = pyte.HistoryScreen(columns, lines, history=10_000, ratio=0.5)
        self.resize(lines, columns)
        self.modes = termios.tcgetattr(self.slave)
        self.stream, self.raw = pyte.ByteStream(self.screen), b""

        def leads() -> None:
            """Begins a session whose terminal is this."""
            os.setsid()
            fcntl.ioctl(0, termios.TIOCSCTTY, 0)

        how |= dict.fromkeys(("stdin", "stdout", "stderr"), self.slave)
        self.process: subprocess.Popen[bytes] = subprocess.Popen([*words], preexec_fn=leads, **how)

    def resize(self, lines: int, columns: int) -> None:
        """Gives the terminal another size."""
        fcntl.ioctl(self.slave, termios.TIOCSWINSZ, struct.pack("4H", lines, columns, 0, 0))
        self.screen.resize(lines, columns)

    def type(self, text: str) -> Self:
        """Types letters."""
        os.write(self.master, text.encode())
        return self

    def paste(self, text: str) -> Self:
        """Pastes a text, as a terminal that marks a paste does."""
        return self.type(f"\x1b[200~{text}\x1b[201~")

    def enter(self, line: str, answer: str) -> Self:
        """Types a line, and awaits what is told of it."""
        before = self.text().count(answer)
        self.type(line + "\r")
        return self.sees(answer, before + 1)

    def text(self) -> str:
        """All that stands there, and stood there before it went out at the top."""
        columns = range(self.screen.columns)
        above = ["".join(line[at].data for at in columns) for line in self.screen.history.top]
        return "\n".join(line.rstrip() for line in [*above, *self.screen.display])

    def board(self) -> str:
        """The table and what stands below it, once nothing more comes."""
        self.sees("GROUP ")
        while self.read(0.3) or "\n>" not in self.text() and b"> " in self.raw:
            pass
        self.sees("GROUP ")
        text = self.text()
        return text[text.rindex("GROUP ") :].rstrip("\n")

    def sees(self, text: str, count: int = 1, seconds: float = 30) -> Self:
        """Waits until this text stands there so often."""
        end = time.monotonic() + seconds
        while self.text().count(text) < count:
            last = self.text().strip()[-3000:]
            assert self.read(end - time.monotonic()), f"{text!r} is not there: {last}"
        return self

    def read(self, seconds: float) -> bool:
        """Takes what comes next; False where nothing comes."""
        if not select.select([self.master], [], [], max(0, seconds))[0]:
            return False
        piece = os.read(self.master, 1 << 16)
        self.raw += piece
        self.stream.feed(piece)
        return piece != b""

    def ends(self, seconds: float = 30) -> int:
        """Awaits the end, and gives the status."""
        end = time.monotonic() + seconds
        while self.process.poll() is None and time.monotonic() < end:
            self.read(0.1)
        while self.read(0.1):
            pass
        assert "Traceback" not in self.text()
        return self.process.wait(1)

    def end(self, keys: str = "\x04") -> int:
        """Types Ctrl-D, and awaits the end."""
        return self.type(keys).ends()

    def is_as_before(self) -> bool:
        """Whether the terminal is as it was before the program, and the cursor is shown."""
        is_same = termios.tcgetattr(self.slave) == self.modes
        return is_same and not self.screen.cursor.hidden

    def kill(self) -> None:
        """Ends it at once."""
        self.process.kill()
        self.process.wait()
        for file in self.master, self.slave:
            os.close(file)
