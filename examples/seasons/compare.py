#!/usr/bin/python3
"""Replays groups by `ucl_live`, and prints each last table beside UEFA's; `--help` says how."""

import argparse
import signal
import sys

sys.dont_write_bytecode = True

import seasons
from live import Line, screens_of

FIGURES = ["played", "won", "drawn", "lost", "goals_for", "goals_against", "points"]
HEAD = f"  {'Club':20}  P  W  D  L  GF  GA Pts   {'UEFA':20}  GF  GA Pts"


def row_of(ours: Line, place: seasons.Place) -> str:
    """A row of our table, and its place in UEFA's."""
    played, won, drawn, lost, scored, conceded, points = (ours[name] for name in FIGURES)
    left = f"{ours['place']} {ours['club']:20}{played:3}{won:3}{drawn:3}{lost:3}"
    left += f"{scored:4}{conceded:4}{points:4}"
    return f"{left}   {place.club:20}{place.goals_for:4}{place.goals_against:4}{place.points:4}"


def is_same(ours: Line, place: seasons.Place) -> bool:
    """Whether a row of our table says what UEFA's does."""
    said = ours["club"], ours["points"], ours["goals_for"], ours["goals_against"]
    return said == (place.club, place.points, place.goals_for, place.goals_against)


def main() -> None:
    told = "Replays groups by ucl_live, and prints each last table beside UEFA's."
    parser = argparse.ArgumentParser(description=told)
    parser.add_argument("seasons", nargs="*", default=seasons.SEASONS, metavar="SEASON")
    asked = parser.parse_args().seasons
    if not set(asked) <= set(seasons.SEASONS):
        parser.error(f"the seasons are {', '.join(seasons.SEASONS)}")
    groups, same = seasons.groups(asked), 0
    for group in groups:
        table = screens_of(group, [*group.rows(), seasons.SCREEN])[-1]["table"]
        pairs = list(zip(table, group.table))
        same += all(is_same(*pair) for pair in pairs)
        print(f"{group.season}, group {group.letter}", HEAD, sep="\n")
        print(*(row_of(*pair) for pair in pairs), "", sep="\n", flush=True)
    print(f"{same} of {len(groups)} tables are UEFA's")
    sys.exit(same < len(groups))


signal.signal(signal.SIGPIPE, signal.SIG_DFL)
main()
