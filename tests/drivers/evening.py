"""An evening: a folder with a record and the terminals of its reporters."""

import os
import pathlib
import re
import subprocess
from typing import Any

import model

from drivers.program import Run, Started, command
from drivers.terminal import Terminal
from drivers.text import TOP, encoded, text_of


class Evening:
    """A folder with the program and a record."""

    def __init__(self, path: pathlib.Path, live: str, record: str | None = None) -> None:
        self.path, self.record = path, path / "evening.csv"
        self.terminals: list[Terminal] = []
        # What stands before the program on its line, and what is around it.
        self.before: list[str] = []
        self.env = {**os.environ, "UCL_LIVE": live}
        if not (path / "ucl_reporter").is_symlink():
            (path / "ucl_reporter").symlink_to(TOP / "ucl_reporter")
        if record is not None:
            self.record.write_bytes(encoded(record))

    def terminal(self, *words: str, shell: str = "", **how: Any) -> Terminal:
        """The program at a terminal, with these words more; or a shell in its place."""
        env = {**self.env, "TERM": "xterm", **how.pop("env", {})}
        line = [*(shell.split() or [*self.before, "./ucl_reporter", *words, "evening.csv"])]
        self.terminals.append(Terminal(line, cwd=self.path, env=env, **how))
        return self.terminals[-1]

    def reporter(self, *words: str, **how: Any) -> Terminal:
        """A reporter's terminal, once it has begun."""
        return self.terminal(*words, **how).sees("Ctrl-D ends")

    def run(self, *words: str, input: str = "", env: dict[str, str] | None = None) -> Run:
        """The program without a terminal, to its end."""
        line = [*self.before, "./ucl_reporter", "evening.csv", *words]
        return command(line, input, cwd=self.path, env={**self.env, **(env or {})})

    def rows(self) -> list[str]:
        """The rows of the record."""
        return re.findall(r"[^\n]*\n|[^\n]+$", text_of(self.record))

    def played(self) -> tuple[Any, list[str]]:
        """The board of the record by the rules, and the answers to its rows."""
        board, lines = model.Session([]), text_of(self.record).split("\n")[:-1]
        return board, [it for row, line in enumerate(lines, 1) for it in board.answers(row, line)]

    def table(self) -> str:
        """The table of the record by the rules, as it is shown."""
        board, _ = self.played()
        screen = board.style.screen(board.matches or model.fresh(), board.roster)
        edition = f" EDITION {board.style.edition}" * bool(board.style.edition)
        return re.sub(" *\n", f"{edition}\n", screen, count=1)

    def watched(self) -> str:
        """The table that is shown first, to who only looks; `seconds` is what a processor took
        until then."""
        line = ["./ucl_reporter", "--watch", "evening.csv"]
        with Started(line, cwd=self.path, env=self.env, stdin=subprocess.DEVNULL) as watch:
            lines = watch.lines(6)
            ticks = text_of(f"/proc/{watch.pid}/stat").rpartition(")")[2].split()[11:13]
        self.seconds = sum(map(int, ticks)) / os.sysconf("SC_CLK_TCK")
        return lines

    def kill(self) -> None:
        """Ends all its terminals at once."""
        for terminal in self.terminals:
            terminal.kill()
