"""Changes that begin another edition, and what one would do to a record, worked out by `ucl_live`
before it is entered."""

import abc
from dataclasses import dataclass

from ucl_hall.engine.answers import LeftOut, Mended, Moment, Refused
from ucl_hall.engine.process import ask
from ucl_hall.faults import NotEntered, Outdated, Unknown
from ucl_hall.rows import LAST_EDITION, SCREEN, Club, club_mend, edition_mend, event_mend

# A change that keeps all events names an edition so far above the one that stands: if a machine
# went down, screens may have seen mends that its disk has lost.
FURTHER = 10


class Change(abc.ABC):
    """A change, which begins another edition."""

    @abc.abstractmethod
    def row(self, moment: Moment) -> bytes:
        """The row of it, on the board as it stands."""


@dataclass(frozen=True, slots=True)
class LeaveOut(Change):
    """An event is left out, by its row."""

    number: int

    def row(self, moment: Moment) -> bytes:
        return event_mend(self.number)


@dataclass(frozen=True, slots=True)
class NewEdition(Change):
    """All stays as it is."""

    def row(self, moment: Moment) -> bytes:
        return edition_mend(min(moment.edition + FURTHER, LAST_EDITION))


@dataclass(frozen=True, slots=True)
class ClubChange(Change):
    """A club has another name or another coefficient; what is None stays as the board has it."""

    slot: int
    name: str | None = None
    coefficient: int | None = None

    def row(self, moment: Moment) -> bytes:
        old = moment.title.clubs[self.slot - 1]
        name = old.club if self.name is None else self.name
        coefficient = old.coefficient if self.coefficient is None else self.coefficient
        return club_mend(self.slot, Club(name, coefficient))


@dataclass(frozen=True, slots=True)
class Trial:
    """What a change would do: the board before and after it, and what else it leaves out."""

    change: Change
    row: bytes
    before: Moment
    after: Moment
    left_out: tuple[LeftOut, ...]

    def is_as(self, other: "Trial") -> bool:
        """Whether both leave out the same events and give the same edition and clubs."""
        here = [event.row for event in self.left_out]
        return self.after.title == other.after.title and here == [it.row for it in other.left_out]


class Changed(Outdated):
    """By now a change would do something else than was agreed upon; `trial` says what."""

    def __init__(self, trial: Trial) -> None:
        self.trial = trial
        super().__init__()


class MendRefused(NotEntered):
    """A change is refused by the rules; `answer` says by which."""

    def __init__(self, answer: Refused) -> None:
        self.answer = answer
        super().__init__(answer.name)


async def tried(program: str, rows: bytes, moment: Moment, change: Change) -> Trial:
    """What a change would do behind these rows, whose board is at this moment.

    Raises MendRefused where the rules refuse it, and Over where `ucl_live` fails.
    """
    row, number = change.row(moment), rows.count(b"\n") + 2
    answers = await ask(program, rows + SCREEN + row + SCREEN)
    mended: Mended | None = None
    for answer in answers:
        if isinstance(answer, Refused) and answer.row == number:
            raise MendRefused(answer)
        if isinstance(answer, Mended) and answer.row == number:
            mended = answer
    screens = [answer for answer in answers if isinstance(answer, Moment)]
    if mended is None or len(screens) < 2:
        raise Unknown(row)
    # Mends that stand in the record have lines of their own of what they left out.
    left_out = [answer for answer in answers if isinstance(answer, LeftOut)]
    mine = left_out[len(left_out) - mended.left_out :]
    return Trial(change, row, screens[-2], screens[-1], tuple(mine))
