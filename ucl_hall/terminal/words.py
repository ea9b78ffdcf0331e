"""What is told to people: a board, a match, what came of a row, what a change would do."""

from ucl_hall.engine.answers import LeftOut, Match, Moment, Refused, Title
from ucl_hall.engine.trial import Trial
from ucl_hall.refusals import ADVICE
from ucl_hall.rows import Row, club_row

# What is asked before a change is entered.
QUESTION = "append it? y or n> "
HEADING = "    Club                  P  W  D  L  GF  GA   GD Pts"


def title(moment: Moment) -> str:
    """The first line of a table."""
    text = f"GROUP {moment.title.group} v{moment.version:05} IN PLAY {moment.in_play}"
    return f"{text} EDITION {moment.edition}" if moment.edition else text


def table(moment: Moment) -> list[str]:
    """The table, six lines."""
    lines = [title(moment), HEADING]
    for it in moment.table:
        numbers = f"{it.played:3}{it.won:3}{it.drawn:3}{it.lost:3}{it.goals_for:4}"
        rest = f"{it.goals_against:4}{it.goal_difference:+5}{it.points:4}"
        lines.append(f"{it.place} {it.mark or ' '} {it.club:20}{numbers}{rest}")
    return lines


def matches(moment: Moment, numbers: list[int]) -> list[str]:
    """Some matches, a line each, with their numbers."""
    return [f"{number:2} {match(moment.title, moment.match(number))}" for number in numbers]


def match(title: Title, it: Match) -> str:
    """A match: its clubs, what it stands at, and who entered its last event."""
    home, away = (title.clubs[slot - 1].club for slot in (it.home, it.away))
    if not it.number:
        return f"{home} v {away}, to come"
    cards = ""
    for name, pair in (("Y", it.yellows), ("E", it.expulsions)):
        if any(pair):
            cards += f", {name} {pair[0]}-{pair[1]}"
    score = f"{home} {it.score[0]}-{it.score[1]} {away}"
    return f"{score}, {it.state.lower()}, event {it.number} by {it.reporter}{cards}"


def event(row: int, match: int, name: str, reporter: int) -> str:
    """An event, by its row."""
    return f"row {row}: {line(match, name)} by reporter {reporter}"


def line(match: int, name: str) -> str:
    """The line that enters an event."""
    return f"{match} {name.replace('-', ' ')}"


def sheet(moment: Moment) -> list[str]:
    """The rows of a sheet: the clubs and the twelve words, as `ucl_night show` takes them."""
    rows = [club_row(slot, it).decode() for slot, it in enumerate(moment.title.clubs, 1)]
    words = [f"word,{number},{word}," for number, word in enumerate(moment.words, 1)]
    return [row.rstrip("\n") for row in rows] + words


def refused(answer: Refused, row: Row | None = None) -> str:
    """A refusal, and what to do about it; of one whose name is not known, its name."""
    event, known = answer.event or row, ADVICE.get(answer.name)
    if known is None:
        return f"refused: {answer.name}"
    if event is None:
        return f"refused: {known.typed}"
    found = event.expected if answer.number is None else answer.number
    values = {"match": event.match, "expected": event.expected, "side": event.side}
    return f"refused: {known.typed.format(found=found, **values)}"


def proposal(text: str, trial: Trial) -> list[str]:
    """What is told of a change before it is asked: the edition, and what it leaves out too."""
    lines = [f"{text}: edition {trial.after.edition} would begin"]
    for it in trial.left_out:
        lines.append(f"left out too, {it.name}: {event(it.row, it.match, it.event, it.reporter)}")
    return lines


def is_yes(text: str) -> bool:
    """Whether this answers the question by yes."""
    return text.strip().lower() in ("y", "yes")


def tables(trial: Trial) -> list[str]:
    """The clubs and the table, before and after a change."""
    lines = []
    for name, moment in (("Before", trial.before), ("After", trial.after)):
        clubs = ", ".join(f"{slot} {club}" for slot, club in enumerate(moment.title.clubs, 1))
        lines += [f"{name}: {clubs}", *table(moment)]
    return lines


def again(left_out: tuple[LeftOut, ...]) -> list[str]:
    """The lines by which what a mend left out too is entered again."""
    lines = [line(it.match, it.event) for it in left_out]
    return ["To have back what was left out too, if it holds, type:", *lines]
