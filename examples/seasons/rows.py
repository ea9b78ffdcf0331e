#!/usr/bin/python3
"""Prints the rows that replay a group of a season; `--help` says how."""

import argparse
import signal
import sys

sys.dont_write_bytecode = True

import seasons


def main() -> None:
    parser = argparse.ArgumentParser(description="Prints the rows that replay a group of a season.")
    parser.add_argument("season", choices=seasons.SEASONS)
    parser.add_argument("group", choices=seasons.LETTERS, type=str.upper)
    asks = "ask for the screen after each matchday"
    parser.add_argument("--screens", action="store_true", help=asks)
    given = parser.parse_args()
    group = seasons.group(given.season, given.group)
    rows = group.club_rows()
    for matchday in seasons.MATCHDAYS:
        rows += group.matchday_rows(matchday) + [seasons.SCREEN] * given.screens
    print(*rows, sep="\n")


# As other programs, it ends without a word where nobody reads on.
signal.signal(signal.SIGPIPE, signal.SIG_DFL)
main()
