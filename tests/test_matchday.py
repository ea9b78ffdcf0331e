"""Matchdays of eight groups on one server: the season of 2021/22, one night after the other, with
parts that are killed."""

import contextlib
import os
import pathlib
import random
import re
import signal
import subprocess
from collections.abc import Callable, Iterator
from typing import Any

import pytest
import seasons
from drivers.port import free_port
from drivers.program import Started
from drivers.server import Server
from drivers.text import EXAMPLES, TOP
from drivers.wait import until
from drivers.websocket import Socket
from test_seasons import joined

SEASON = {it.letter.lower(): it for it in seasons.groups(["2021-22"])}
ROWS = {group: it.rows()[4:] for group, it in SEASON.items()}
pytestmark = pytest.mark.limit(400)
NIGHTS, SCREENS = 6, 4
# How long a night may take, in seconds.
NIGHT = 300
# Seconds between two rows of a reporter: 24,000 times as fast as the two hours of a match with ten
# events.
PACE = 0.03


def left_in(folder: pathlib.Path) -> list[int]:
    """The processes that run in a folder."""
    found = []
    for process in pathlib.Path("/proc").glob("[0-9]*"):
        with contextlib.suppress(OSError):
            if os.readlink(process / "cwd") == str(folder):
                found.append(int(process.name))
    return found


@pytest.fixture
def folder(tmp_path: pathlib.Path) -> Iterator[pathlib.Path]:
    """A folder of its own, where nothing is left at the end."""
    yield tmp_path
    is_empty = until(lambda: not left_in(tmp_path))
    for process in left_in(tmp_path):
        os.kill(process, signal.SIGKILL)
    assert is_empty


def until_night(group: str, night: int) -> int:
    """How many rows a group has by the end of a night, with two matches each."""
    ends = [at for at, row in enumerate(ROWS[group], 1) if row.endswith(",fulltime")]
    return ends[2 * night - 1] if night else 0


def entered(folder: pathlib.Path, group: str) -> list[str]:
    """The events that stand in the record of a group."""
    path = folder / f"{group}.csv"
    return re.findall(r"^\d.*", path.read_text(), re.M) if path.exists() else []


def reporter(one: Server, group: str, number: str, night: int) -> Started:
    """A reporter, who enters the rows of a night one after the other."""
    first, last = (until_night(group, it) for it in (night - 1, night))
    rows = [row for row in ROWS[group][first:last] if row.startswith(number)]
    (one.folder / f"{group}-{number}").write_text(joined(rows))
    slowly = f"while read row; do echo $row; sleep {PACE}; done <{group}-{number}"
    line = f"{slowly} | {TOP}/ucl_reporter {group}.csv --number {number}"
    return Started(["bash", "-c", line], **one.how, stdout=subprocess.DEVNULL)


def seen(screen: Socket, versions: dict[str, int]) -> dict[str, list[Any]]:
    """The lines of each group that a screen has seen until it shows these versions, none older
    than one before."""
    shown: dict[str, list[Any]] = {}
    while {group: it[-1]["version"] for group, it in shown.items()} != versions:
        said = screen.receive()
        assert said, "the connection is closed"
        if said["reply"] == "screen":
            shown.setdefault(said["group"], []).append(said)
    for lines in shown.values():
        numbers = [it["version"] for it in lines]
        assert numbers == sorted({*numbers})
    return shown


def play(one: Server, night: int, chance: random.Random) -> dict[str, list[Any]]:
    """Plays a night, in which the board of a group is killed in the midst of the rows. Gives the
    lines that a screen has seen, by their groups."""
    ends = [sum(until_night(it, at) for it in ROWS) for at in (night - 1, night)]
    place = chance.randrange(ends[0] + 1, ends[1] - 3)
    screens = [one.screen() for _ in range(SCREENS)]
    reporters = [reporter(one, group, number, night) for group in ROWS for number in "12"]
    assert until(lambda: sum(len(entered(one.folder, it)) for it in ROWS) >= place, NIGHT)
    os.kill(chance.choice(one.live()), signal.SIGKILL)
    assert [it.end()[::2] for it in reporters] == [(0, "")] * len(reporters)
    versions = {group.upper(): until_night(group, night) for group in ROWS}
    return [seen(screen, versions) for screen in screens][0]


def test_a_season_on_four_screens(folder: pathlib.Path, hall: Callable[..., Server]) -> None:
    """All screens end with the final tables, though one board is killed each night."""
    for group, it in SEASON.items():
        title = f"group,{group.upper()},uefa,0"
        (folder / f"{group}.csv").write_text(joined([title, *it.club_rows()]))
    one, chance = hall(records=[f"{group}.csv" for group in ROWS]), random.Random(7)
    for night in range(1, NIGHTS + 1):
        shown = play(one, night, chance)
        assert one.end(signal.SIGINT) == (130, "", "") and until(lambda: not left_in(folder))
        one.start()
    for group, it in SEASON.items():
        last = [
            (row["club"], row["points"], row["goals_for"], row["goals_against"])
            for row in shown[group.upper()][-1]["table"]
        ]
        wanted = [(at.club, at.points, at.goals_for, at.goals_against) for at in it.table]
        assert last == wanted


def test_a_rehearsal(folder: pathlib.Path, live: str) -> None:
    """Two reporters of each group enter a matchday; Ctrl-C ends all of it."""
    words = f"2021-22 2 0.01 --listen 127.0.0.1:{free_port()}"
    line = [EXAMPLES / "seasons/rehearse", *words.split()]
    unread = dict.fromkeys(("stdin", "stdout", "stderr"), subprocess.DEVNULL)
    env = {**os.environ, "UCL_LIVE": live}
    with Started(line, cwd=folder, env=env, start_new_session=True, **unread) as rehearsal:
        wanted = {group: rows[: until_night(group, 2)] for group, rows in ROWS.items()}
        counts = [len(rows) for rows in wanted.values()]
        assert until(lambda: [len(entered(folder, it)) for it in ROWS] == counts, 180)
        assert all(sorted(entered(folder, it)) == sorted(wanted[it]) for it in ROWS)
        os.killpg(rehearsal.pid, signal.SIGINT)
        assert rehearsal.wait() == 130
