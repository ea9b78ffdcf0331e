"""The group stages of 2021/22 to 2023/24: results, final tables, and rows that replay a group."""

from __future__ import annotations

import csv
import itertools
import pathlib
from collections.abc import Iterable, Sequence
from dataclasses import dataclass

FOLDER = pathlib.Path(__file__).resolve().parent
SEASONS = ["2021-22", "2022-23", "2023-24"]
LETTERS = "ABCDEFGH"
MATCHDAYS = range(1, 7)
# The home and the away slot of matches 1 to 12.
FIXTURES = [(2, 3), (4, 1), (1, 2), (3, 4), (3, 1), (2, 4)]
FIXTURES += [(1, 3), (4, 2), (3, 2), (1, 4), (2, 1), (4, 3)]
# The row that asks for the screen.
SCREEN = "screen,,,"


@dataclass(frozen=True)
class Result:
    """A match that was played."""

    matchday: int
    home: str
    away: str
    home_goals: int
    away_goals: int


@dataclass(frozen=True)
class Place:
    """A place of a final table."""

    club: str
    points: int
    goals_for: int
    goals_against: int


@dataclass(frozen=True)
class Group:
    """A group of a season: its twelve results in their order, and its final table."""

    season: str
    letter: str
    results: tuple[Result, ...]
    table: tuple[Place, ...]

    @property
    def clubs(self) -> list[str]:
        """The clubs in slots 1 to 4, which is the order of their names."""
        return sorted(place.club for place in self.table)

    def club_rows(self, coefficients: Sequence[int] = (0, 0, 0, 0)) -> list[str]:
        """The rows by which a record begins."""
        clubs = zip(self.clubs, coefficients)
        return [f"club,{slot},{club},{points}" for slot, (club, points) in enumerate(clubs, 1)]

    def matchday_rows(self, matchday: int) -> list[str]:
        """The rows of a matchday: both matches kick off, then goals in turn, then full time."""
        played = [self._match_rows(it) for it in self.results if it.matchday == matchday]
        goals = in_turn(rows[1:-1] for rows in played)
        return [*(rows[0] for rows in played), *goals, *(rows[-1] for rows in played)]

    def rows(self) -> list[str]:
        """The rows of the group's record."""
        played = (self.matchday_rows(matchday) for matchday in MATCHDAYS)
        return [*self.club_rows(), *itertools.chain.from_iterable(played)]

    def match_number(self, result: Result) -> int:
        """The number of a match, 1 to 12."""
        home, away = (self.clubs.index(club) + 1 for club in (result.home, result.away))
        return FIXTURES.index((home, away)) + 1

    def _match_rows(self, result: Result) -> list[str]:
        number = self.match_number(result)
        home, away = ["goal-home"] * result.home_goals, ["goal-away"] * result.away_goals
        events = ["kickoff", *in_turn([home, away]), "fulltime"]
        reporter = 2 - number % 2
        return [f"{reporter},{number},{before},{event}" for before, event in enumerate(events)]


def in_turn(lists: Iterable[Sequence[str]]) -> list[str]:
    """The first of each list, then the second of each, and so on."""
    return [it for together in itertools.zip_longest(*lists) for it in together if it is not None]


def group(season: str, letter: str) -> Group:
    """A group of one of the seasons."""
    results = tuple(
        Result(
            matchday=int(row["matchday"]),
            home=row["home"],
            away=row["away"],
            home_goals=int(row["home_goals"]),
            away_goals=int(row["away_goals"]),
        )
        for row in _rows_of(f"{season}-results.csv", letter)
    )
    table = tuple(
        Place(
            club=row["club"],
            points=int(row["points"]),
            goals_for=int(row["goals_for"]),
            goals_against=int(row["goals_against"]),
        )
        for row in _rows_of(f"{season}-tables.csv", letter)
    )
    return Group(season, letter, results, table)


def groups(seasons: Iterable[str] = SEASONS) -> list[Group]:
    """All groups of these seasons."""
    return [group(season, letter) for season in seasons for letter in LETTERS]


def _rows_of(name: str, letter: str) -> list[dict[str, str]]:
    with open(FOLDER / name, newline="", encoding="ascii") as file:
        return [row for row in csv.DictReader(file) if row["group"] == letter]
