#!/usr/bin/python3
"""Writes the recordings that the page of screens replays; `--help` says how."""

import argparse
import pathlib
import sys

sys.dont_write_bytecode = True

import seasons
from live import lines_of

# The matchday that the page replays where no season is asked for.
SEASON, MATCHDAY = "2021-22", 6
Matchdays = list[list[str]]


def with_screens(rows: list[str]) -> list[str]:
    """The rows of a matchday, with a screen after each goal and after the last row."""
    text = "".join(row + "\n" + f"{seasons.SCREEN}\n" * (",goal-" in row) for row in rows)
    return [*text.splitlines(), seasons.SCREEN]


def recorded(group: seasons.Group) -> Matchdays:
    """The lines of a group: the one before its first match, then those of each matchday."""
    parts = [[*group.club_rows(), seasons.SCREEN]]
    parts += [with_screens(group.matchday_rows(matchday)) for matchday in seasons.MATCHDAYS]
    lines = iter(lines_of(group, [row for rows in parts for row in rows]))
    return [[next(lines) for _ in range(rows.count(seasons.SCREEN))] for rows in parts]


def text_of(groups: list[Matchdays], first: int) -> str:
    """What is replayed of a season from a matchday on: the groups take turns, line by line."""
    before = [line for matchdays in groups for line in matchdays[first - 1][-1:]]
    later = [seasons.in_turn(together) for together in list(zip(*groups))[first:]]
    return "".join(line + "\n" for lines in [before, *later] for line in lines)


def recordings() -> dict[str, str]:
    """The text of each recording, by the name of its file."""
    texts = {}
    for season in seasons.SEASONS:
        groups = [recorded(group) for group in seasons.groups([season])]
        texts[f"replay-{season}.jsonl"] = text_of(groups, 1)
        if season == SEASON:
            texts["replay.jsonl"] = text_of(groups, MATCHDAY)
    return texts


def main() -> None:
    told = "Writes the recordings that the page of screens replays."
    parser = argparse.ArgumentParser(description=told)
    parser.add_argument("folder", type=pathlib.Path, help="where the page is")
    folder = parser.parse_args().folder
    if not (folder / "index.html").is_file():
        parser.error(f"{folder} has no index.html")
    for name, text in recordings().items():
        (folder / name).write_text(text)
        print(f"{name}: {text.count(chr(10))} screens, {len(text):,} bytes")


if __name__ == "__main__":
    main()
