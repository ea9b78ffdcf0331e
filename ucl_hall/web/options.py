"""Serves groups to screens and phones: pages, and a WebSocket.

Usage: ucl_serve RECORD.. [OPTION]..
       ucl_serve --follow URL.. [OPTION]..
       ucl_serve --links RECORD.. [--listen HOST:PORT] [--url URL]

It prints the address for screens and a link for each reporter. RECORD is a file of rows that only
grows, and each is a group; where it is not there, you are asked for the group and the clubs. After
a crash type the same line again, and on the next matchday with its matches: the links stay. On
several machines RECORD is etcd://HOST:PORT,HOST:PORT/NAME: docs/MACHINES.md has the rest.

    --listen HOST:PORT       127.0.0.1:8080 without it; 0.0.0.0:8080 lets phones reach it
    --url URL                what links begin with, in place of each address of this machine
    --at URL                 another server of these records; pages go to it where this one is gone
    --reporter [G/]N[:M]     a reporter's number, 1 to 255, and matches, as 2:5,6; 1 without it;
                             with a group, as B/2:5,6, of its record alone
    --tonight [G/]M          the matches that screens list, as 1,3; without it those of reporters,
                             and each that is in play or has changed since the start
    --title TEXT             is shown on each page
    --certificate, --key     files for https
    --most-screens N         4000 without it; who comes later is told to come again
    --revoke [G/]N           the links of this reporter end, and a new one is made
    --new-keys               all links of the records end, and new ones are made
    --follow URL             shows what another server shows: URL is http://HOST:PORT/feed, or - for
                             its lines on standard input; of several the newest is shown
    --links                  prints the links, for who may read RECORD.keys
    --from FILE              begins a record by all rows of FILE
    --clubs FILE             begins a record by the first four rows of FILE, --group, A without it,
                             and --order, uefa or away-in-tie; the second FILE and --group are of
                             the second RECORD, whose letter else is the next
"""

import argparse
import os
from collections.abc import Sequence
from dataclasses import dataclass
from typing import TypeVar
from urllib.parse import urlsplit

from ucl_hall.rows import GROUPS, MATCHES, ORDERS, REPORTERS, number_in
from ucl_hall.text import printable

Matches = tuple[int, ...]
Value = TypeVar("Value")


@dataclass(frozen=True, slots=True)
class Evening:
    """What the command line says of a group: the matches of each reporter, those that screens list,
    and the reporters whose links end."""

    reporters: dict[int, Matches]
    tonight: Matches | None
    revoked: frozenset[int]


class Options(argparse.Namespace):
    """What the command line says. `groups` has the letters of the records that are begun. What is
    said of one group stands with its letter, and what of all with an empty one."""

    records: list[str]
    follow: list[str]
    listen: tuple[str, int]
    url: str | None
    at: list[str]
    rows: list[str]
    reporters: list[tuple[str, tuple[int, Matches]]]
    tonight: list[tuple[str, Matches]]
    revoked: list[tuple[str, int]]
    title: str
    certificate: str | None
    key: str | None
    most_screens: int
    new_keys: bool
    links: bool
    clubs: list[str]
    groups: str
    order: str

    def evening(self, group: str) -> Evening:
        """What is said of a group: what is said of it alone counts before what is said of all."""
        reporters = dict(_of(group, self.reporters)) if self.reporters else {1: tuple(MATCHES)}
        tonight = _of(group, self.tonight)
        revoked = frozenset(_of(group, self.revoked))
        return Evening(reporters, tonight[-1] if tonight else None, revoked)

    def strangers(self, groups: Sequence[str]) -> list[str]:
        """The groups of which something is said, and that are none of these."""
        said = [group for group, _ in (*self.reporters, *self.tonight, *self.revoked)]
        return [group for group in said if group and group not in groups]


class _Parser(argparse.ArgumentParser):
    """A parser whose help is the text above."""

    def format_help(self) -> str:
        return (__doc__ or "").strip() + "\n"

    def format_usage(self) -> str:
        return (__doc__ or "").split("\n\n")[1].strip() + "\n"


def options_of(words: Sequence[str]) -> Options:
    """The options that a command line says; ends the program with status 2 where it says none."""
    parser = _Parser(prog="ucl_serve")
    parser.add_argument("records", metavar="RECORD", nargs="*")
    parser.add_argument("--follow", type=_source, action="append", default=[])
    parser.add_argument("--listen", type=_address, default=("127.0.0.1", 8080))
    parser.add_argument("--url", type=_url)
    parser.add_argument("--at", type=_url, action="append", default=[])
    parser.add_argument("--from", dest="rows", action="append", default=[])
    parser.add_argument("--reporter", dest="reporters", type=_reporter, action="append", default=[])
    parser.add_argument("--tonight", type=_tonight, action="append", default=[])
    parser.add_argument("--revoke", dest="revoked", type=_revoked, action="append", default=[])
    parser.add_argument("--title", default="", type=printable)
    parser.add_argument("--certificate")
    parser.add_argument("--key")
    parser.add_argument("--most-screens", type=_count, default=4_000)
    parser.add_argument("--new-keys", action="store_true")
    parser.add_argument("--links", action="store_true")
    parser.add_argument("--clubs", action="append", default=[])
    parser.add_argument("--group", dest="groups", choices=[*GROUPS], action="append")
    parser.add_argument("--order", choices=ORDERS, default="uefa")
    said = Options()
    # A record may stand behind an option, as a second one does behind the file of the first.
    parser.parse_intermixed_args(words, said)
    if bool(said.records) == bool(said.follow):
        parser.error("give each RECORD, or --follow for each server that is followed")
    of_records = said.reporters or said.tonight or said.revoked or said.new_keys
    if said.follow and (of_records or said.clubs or said.rows or said.links):
        parser.error("who follows another server has no record and no reporters")
    if bool(said.certificate) != bool(said.key):
        parser.error("--certificate needs --key, and --key needs --certificate")
    if len({os.path.realpath(path) for path in said.records}) < len(said.records):
        parser.error("a record is named twice")
    letters = "".join(said.groups or GROUPS[0])
    said.groups = letters + GROUPS[GROUPS.index(letters[-1]) + 1 :]
    if len(said.clubs) > len(said.groups):
        parser.error("there are no groups after H")
    return said


def _of(group: str, said: Sequence[tuple[str, Value]]) -> list[Value]:
    """What is said of all groups, and behind it what is said of this one."""
    return [value for whose in ("", group) for of, value in said if of == whose]


def _taken(value: Value | None, text: str, form: str) -> Value:
    """The value of a text. Tells where there is none, and which form the text should have."""
    if value is None:
        raise argparse.ArgumentTypeError(f"{text} is no {form}")
    return value


def _address(text: str) -> tuple[str, int]:
    host, colon, port = text.rpartition(":")
    number = number_in(port, 1, 65_535) if colon else None
    return host.strip("[]"), _taken(number, text, "HOST:PORT")


def _url(text: str) -> str:
    parts = urlsplit(text)
    is_url = parts.scheme in ("http", "https") and parts.netloc and parts.path in ("", "/")
    return _taken(text.rstrip("/") + "/" if is_url else None, text, "http://HOST/")


def _source(text: str) -> str:
    parts = urlsplit(text)
    is_url = parts.scheme in ("http", "https") and parts.netloc and parts.path.strip("/")
    is_source = is_url or text == "-"
    return _taken(text if is_source else None, text, "http://HOST:PORT/feed, and not -")


def _reporter(text: str) -> tuple[str, tuple[int, Matches]]:
    group, rest = _group(text)
    number, colon, matches = rest.partition(":")
    found, asked = _number(number), _matches(matches) if colon else tuple(MATCHES)
    pair = None if found is None or asked is None else (found, asked)
    return group, _taken(pair, text, "reporter, as 1, 2:5,6 or B/2:5,6")


def _tonight(text: str) -> tuple[str, Matches]:
    group, rest = _group(text)
    return group, _taken(_matches(rest), text, "list of matches, as 1,3 or B/1,3")


def _revoked(text: str) -> tuple[str, int]:
    group, rest = _group(text)
    return group, _taken(_number(rest), text, "number of a reporter, as 2 or B/2")


def _count(text: str) -> int:
    return _taken(number_in(text, 1, 1_000_000), text, "number from 1 to 1000000")


def _group(text: str) -> tuple[str, str]:
    """The letter that a text begins with, if it does, and the rest."""
    letter, slash, rest = text.partition("/")
    return (letter.upper(), rest) if slash and letter.upper() in [*GROUPS] else ("", text)


def _number(text: str) -> int | None:
    return number_in(text, REPORTERS[0], REPORTERS[-1])


def _matches(text: str) -> Matches | None:
    asked = [number_in(it, 1, 12) for it in text.split(",")]
    numbers = {it for it in asked if it is not None}
    return tuple(sorted(numbers)) if None not in asked else None
