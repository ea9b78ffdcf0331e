"""How a terminal is set out: the table and the matches, and below them the line that is typed, with
what Tab completes."""

import os
import sys
from collections.abc import Callable, Iterable

from prompt_toolkit.buffer import Buffer
from prompt_toolkit.completion import CompleteEvent, Completer, Completion
from prompt_toolkit.data_structures import Size
from prompt_toolkit.document import Document
from prompt_toolkit.filters import Condition
from prompt_toolkit.layout import BufferControl, ConditionalContainer, Float, FloatContainer
from prompt_toolkit.layout import FormattedTextControl, HSplit, Layout, Window
from prompt_toolkit.layout.menus import CompletionsMenu
from prompt_toolkit.layout.processors import BeforeInput
from prompt_toolkit.output.vt100 import Vt100_Output

from ucl_hall.engine.answers import Moment
from ucl_hall.rows import EVENTS
from ucl_hall.terminal import words
from ucl_hall.terminal.session import Session
from ucl_hall.text import printable

# The most characters of a line that is shown.
LONGEST = 400


def panel_of(session: Session, moment: Moment, notice: str, rows: int, columns: int) -> str:
    """The table and the matches of a moment below a notice, if there is one; or the tables before
    and after what is asked about. It is cut to a terminal of this size."""
    if session.question is not None:
        lines = words.tables(session.question.trial)
    else:
        lines = [*words.table(moment), *words.matches(moment, session.matches)]
    lines = [notice] * bool(notice) + lines
    lines = [printable(line, LONGEST)[: columns - 1] for line in lines]
    return "\n".join(lines[: max(1, rows - 2)])


def layout_of(
    session: Session, text: Buffer, answer: Buffer, panel: Callable[[], str], is_watching: bool
) -> Layout:
    """The panel, and below it the line that is typed or the answer to the question; for who only
    looks the panel alone."""
    control = FormattedTextControl(panel, focusable=is_watching, show_cursor=False)
    above = Window(control, dont_extend_height=True, wrap_lines=False)
    if is_watching:
        return Layout(above)

    def prompt() -> str:
        return "".join(f"{printable(it.text)} .. " for it in session.pending.unanswered) + "> "

    is_asked = Condition(lambda: session.question is not None)
    line = Window(BufferControl(text, [BeforeInput(prompt)]), height=1, wrap_lines=False)
    reply = Window(BufferControl(answer, [BeforeInput(words.QUESTION)]), height=1)
    below = [ConditionalContainer(line, ~is_asked), ConditionalContainer(reply, is_asked)]
    menu = Float(CompletionsMenu(max_height=8), xcursor=True, ycursor=True)
    return Layout(FloatContainer(HSplit([above, *below]), [menu]), focused_element=line)


def output() -> Vt100_Output:
    """The terminal, which is not asked where its cursor is: its answer would count as typed."""

    def size() -> Size:
        columns, rows = os.get_terminal_size(sys.stdout.fileno())
        return Size(rows=rows or 24, columns=columns or 80)

    return Vt100_Output(sys.stdout, size, term=os.environ.get("TERM"), enable_cpr=False)


class Words(Completer):
    """Completes an event of a match, a command, and the clubs behind `club`."""

    def __init__(self, moment: Callable[[], Moment]) -> None:
        self._moment = moment

    def get_completions(self, document: Document, event: CompleteEvent) -> Iterable[Completion]:
        """What the text before the cursor may go on with."""
        text = document.text_before_cursor
        first, _, rest = text.lstrip().partition(" ")
        known: list[str] = []
        if first.isdecimal() and " " in text.lstrip():
            known = [event_.replace("-", " ") for event_ in EVENTS] + ["result "]
        elif first in ("club", "coefficient") and " " in text.lstrip():
            clubs = self._moment().title.clubs
            known = [f"{slot} {club.club}" for slot, club in enumerate(clubs, 1)]
            if first == "coefficient":
                known = [f"{slot} {club.coefficient}" for slot, club in enumerate(clubs, 1)]
        elif " " not in text:
            known, rest = ["mend", "club ", "coefficient ", "help"], first
        for it in known:
            if it.lower().startswith(rest.lower()):
                yield Completion(it, start_position=-len(rest))
