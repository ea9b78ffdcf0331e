"""A program: a run of it to its end, or one whose pipes are held open."""

import contextlib
import fcntl
import functools
import os
import pathlib
import select
import shutil
import subprocess
import termios
from collections.abc import Iterable
from typing import IO, Any, NamedTuple

import pytest

from drivers.text import TOP, decoded, encoded

Word = str | os.PathLike[str]


class Run(NamedTuple):
    """What a program ended with, wrote and told."""

    status: int
    output: str
    errors: str


def needs(*tools: str) -> None:
    """Skips the test where one of these commands is not installed."""
    lacking = [tool for tool in tools if shutil.which(tool) is None]
    if lacking:
        pytest.skip(f"not installed: {' '.join(lacking)}")


def command(words: Iterable[Word], input: str = "", **how: Any) -> Run:
    """Runs a command to its end."""
    pipes = {"stdout": subprocess.PIPE, "stderr": subprocess.PIPE, "cwd": TOP}
    how = {**pipes, **(how if "stdin" in how else {**how, "input": encoded(input)})}
    ran = subprocess.run([*words], **how)
    return Run(ran.returncode, decoded(ran.stdout or b""), decoded(ran.stderr or b""))


@functools.lru_cache(maxsize=None)
def built(name: str, folder: pathlib.Path) -> pathlib.Path | None:
    """The program that is built from the sources as they are, or stands in this other folder; None
    where it is not."""
    path = folder / "crates" / name / "out" / name
    if not os.access(path, os.X_OK):
        return None
    is_new = folder != TOP or command([TOP / "build", "--built", name]).status == 0
    return path if is_new else None


def children_of(process: int) -> list[int]:
    """The processes that a process has started."""
    found = []
    for task in pathlib.Path(f"/proc/{process}/task").glob("*"):
        with contextlib.suppress(OSError):
            found += [int(it) for it in (task / "children").read_text().split()]
    return found


class Started(subprocess.Popen[bytes]):
    """A program that runs, with its input and its output held open."""

    stdin: Any
    stdout: Any
    stderr: Any

    def __init__(self, words: Iterable[Word], **how: Any) -> None:
        how = {**dict.fromkeys(("stdin", "stdout", "stderr"), subprocess.PIPE), **how}
        super().__init__([*words], bufsize=0, **how)

    def write(self, text: str) -> None:
        """Writes a text into its input."""
        self.stdin.write(encoded(text))

    def lines(self, count: int = 1) -> str:
        """Awaits so many lines of its output."""
        return lines_of(self.stdout, count)

    def answer(self, text: str, size: int, count: int) -> str:
        """Writes a text, its last bytes as one piece of this size, once all others are read. So
        many bytes of output, if they come in ten seconds."""
        self.write(text[:-size])
        while any(fcntl.ioctl(self.stdin, termios.FIONREAD, bytes(4))):
            pass
        self.write(text[-size:])
        got = b""
        while len(got) < count and select.select([self.stdout], [], [], 10)[0]:
            piece = os.read(self.stdout.fileno(), count - len(got))
            assert piece, "it has ended"
            got += piece
        return decoded(got)

    def end(self) -> Run:
        """Ends its input, and awaits its end: the status, and what was written and told that is
        not read yet."""
        if self.stdin:
            self.stdin.close()
        pipes = self.stdout, self.stderr
        output, errors = (decoded(it.read()) if it and not it.closed else "" for it in pipes)
        return Run(self.wait(), output, errors)

    def __exit__(self, *error: Any) -> None:
        self.kill()
        super().__exit__(*error)


def lines_of(file: IO[bytes], count: int = 1) -> str:
    """Awaits so many lines of a file or pipe."""
    return decoded(b"".join(file.readline() for _ in range(count)))
