"""A terminal: the table and the matches, and below them the line that is typed, by prompt_toolkit.

A line goes with the moment that was last drawn when its first letter was there, whether typed,
recalled or completed. So what waits at the terminal is taken before a newer moment is drawn.
"""

import asyncio
import os
import select
import signal
import sys
import termios
from collections.abc import Sequence

try:
    from prompt_toolkit.application import Application, run_in_terminal
    from prompt_toolkit.buffer import Buffer
    from prompt_toolkit.history import InMemoryHistory
    from prompt_toolkit.input import create_input
    from prompt_toolkit.key_binding import KeyBindings
    from prompt_toolkit.keys import Keys
    from prompt_toolkit.output.color_depth import ColorDepth
except ImportError as error:
    raise SystemExit("there is no prompt_toolkit: apt install python3-prompt-toolkit") from error

from ucl_hall.record.board import Board
from ucl_hall.terminal.panel import LONGEST, Words, layout_of, output, panel_of
from ucl_hall.terminal.pending import Seen
from ucl_hall.terminal.session import Session
from ucl_hall.text import printable

HINT = "type a match and an event, as 1 goal home; help tells more, Ctrl-D ends"
# How long the answers of rows are waited for at the end and before a suspension, in seconds.
PATIENCE = 5.0


class Screen:
    """A reporter at a terminal, or somebody who only looks."""

    def __init__(
        self, board: Board, own: int, matches: Sequence[int], *, is_watching: bool
    ) -> None:
        self._board, self._is_watching = board, is_watching
        self._session = Session(board, own, matches, self)
        # The moment that the panel shows, and what was seen by who typed first.
        self._drawing = board.moment
        self._seen: Seen | None = None
        self._status, self._notice = 0, ""
        self._text = Buffer(
            history=InMemoryHistory(),
            completer=Words(lambda: board.moment),
            multiline=False,
            accept_handler=self._entered,
            on_text_changed=self._changed,
        )
        self._answer = Buffer(multiline=False, accept_handler=self._answered)
        self._app: Application[None] = Application(
            layout=layout_of(self._session, self._text, self._answer, self._panel, is_watching),
            key_bindings=self._bindings(),
            output=output(),
            input=create_input(sys.stdin),
            before_render=self._before_render,
            after_render=self._after_render,
            color_depth=ColorDepth.DEPTH_1_BIT,
        )
        self._app.ttimeoutlen = 0.05

    async def run(self) -> int:
        """Takes what is typed until Ctrl-D and the answers after it; gives the exit status.

        Raises the fault by which the board can be followed no more.
        """
        loop = asyncio.get_running_loop()
        over = self._board.over
        over.add_done_callback(lambda _: self._exit(1))
        for number in (signal.SIGTERM, signal.SIGHUP):
            loop.add_signal_handler(number, self._exit, 128 + number)
        loop.add_signal_handler(signal.SIGTSTP, self._suspend)
        # What was typed before anything was shown was typed at nothing.
        termios.tcflush(sys.stdin, termios.TCIFLUSH)
        if self._is_watching:
            self._board.listen(lambda reply: self.refresh())
        else:
            self._board.listen(self._session.heard)
            print(f"Reporter {self._session.own}: {HINT}", flush=True)
        try:
            await self._app.run_async()
            await self._finish()
        finally:
            for number in (signal.SIGTERM, signal.SIGHUP, signal.SIGTSTP):
                loop.remove_signal_handler(number)
        if over.done():
            over.result()
        return self._status

    def show(self, *lines: str) -> None:
        """Prints lines above the table."""
        text = [printable(line, LONGEST) for line in lines]
        if not self._app.is_running:
            for line in text:
                print(line, flush=True)
            return
        self._app.renderer.erase()
        self._app.output.write_raw("".join(line + "\r\n" for line in text))
        self._app.output.flush()
        self._app.invalidate()

    def tell(self, notice: str) -> None:
        """Has a notice stand above the table, until an empty one takes it away."""
        self._notice = notice
        self.refresh()

    async def _finish(self) -> None:
        """Waits for what is on its way, and says of what has no answer then that it may be in."""
        try:
            await self._session.idle(PATIENCE)
        finally:
            for line in self._session.pending.unanswered:
                print(f"{line.text:23} has no answer: it may be in the record: look at the match")

    # ---- what is drawn

    def _panel(self) -> str:
        size = self._app.output.get_size()
        return panel_of(self._session, self._drawing, self._notice, size.rows, size.columns)

    def refresh(self) -> None:
        """Draws what is new, as soon as nothing that was typed waits."""
        wanted = self._text if self._session.question is None else self._answer
        if not self._is_watching and self._app.layout.current_buffer is not wanted:
            self._app.layout.focus(wanted)
        self._app.invalidate()

    def _before_render(self, _: object) -> None:
        newest = self._board.moment
        if newest is self._drawing:
            return
        if select.select([sys.stdin], [], [], 0)[0] and not self._is_watching:
            asyncio.get_running_loop().call_soon(self._app.invalidate)
        else:
            self._drawing = newest

    def _after_render(self, _: object) -> None:
        self._session.pending.is_drawn(self._drawing)

    # ---- what is typed

    def _bindings(self) -> KeyBindings:
        keys = KeyBindings()
        for key in ("c-c", Keys.SIGINT):
            keys.add(key, eager=True)(lambda event: self._exit(128 + signal.SIGINT))
        keys.add("c-z", eager=True)(lambda event: self._suspend())
        if self._is_watching:
            for key in (Keys.Any, Keys.BracketedPaste):
                keys.add(key)(lambda event: None)
        else:
            keys.add("c-d", eager=True)(lambda event: self._exit(0))
            keys.add(Keys.BracketedPaste, eager=True)(lambda event: self._paste(event.data))
        return keys

    def _changed(self, buffer: Buffer) -> None:
        """Notes what was seen when the first letter was there; an emptied line begins anew."""
        if not buffer.text:
            self._seen = None
        elif self._seen is None:
            self._seen = self._session.pending.look()

    def _entered(self, buffer: Buffer) -> bool:
        text, seen, self._seen = buffer.text, self._seen, None
        if text.strip() and seen is not None:
            self._session.enter(text, seen)
        return False

    def _answered(self, buffer: Buffer) -> bool:
        if buffer.text.strip():
            self._session.answer(buffer.text)
        buffer.reset()
        return True

    def _paste(self, data: str) -> None:
        """Takes a paste: each line by itself, as seen at the paste; the last stays in the line."""
        lines = data.replace("\r\n", "\n").replace("\r", "\n").split("\n")
        buffer = self._app.current_buffer
        moment = (self._seen or self._session.pending.look()).moment
        for place, line in enumerate(lines):
            if place:
                buffer.validate_and_handle()
            buffer.insert_text("".join(letter for letter in line if letter.isprintable()))
            if buffer is self._text and self._seen is not None and len(lines) > 1:
                self._seen = Seen(moment, self._session.pending.look().waiting)

    # ---- how it ends, and is stopped

    def _exit(self, status: int) -> None:
        self._status = status
        if self._app.is_running and not self._app.is_done:
            self._app.exit()

    def _suspend(self) -> None:
        asyncio.ensure_future(self._stop())

    async def _stop(self) -> None:
        """Stops the program, as Ctrl-Z does, once nothing holds the lock of a record."""
        await self._session.idle(PATIENCE)
        loop = asyncio.get_running_loop()

        def stop() -> None:
            signal.signal(signal.SIGTSTP, signal.SIG_DFL)
            os.kill(0, signal.SIGTSTP)
            loop.add_signal_handler(signal.SIGTSTP, self._suspend)

        loop.remove_signal_handler(signal.SIGTSTP)
        await run_in_terminal(stop)
        self.refresh()
