"""The table board of one group of the UEFA Champions League, by ctypes: nothing is to be installed.

    import uclboard
    board = uclboard.Board()
    board.report(match=1, reporter=1, expected=0, kind="kickoff")
    clubs = [("Alpha", 60000), ("Bravo", 95000), ("Charlie", 60000), ("Delta", 81500)]
    print(board.screen(clubs))

    board, clubs, replies = uclboard.play(open("first_night.csv", "rb").read())

    screen = uclboard.Pass.open()       # a board that threads share
    reporter = screen.enlist()          # for a thread that reports
    reporter.report(match=1, expected=0, kind="kickoff")
    board = screen.read()

The library is what the variable UCLBOARD_LIBRARY names, else libuclboard.so beside this file, else
the one that is installed. What the library does not do it answers by an exception: `Stale`,
`Finished` and the others by their names, each of them a `Refused` with its `status`.
"""

from __future__ import annotations

import ctypes as c
import os
import pathlib
import threading
from collections.abc import Callable, Sequence
from typing import Any

VERSION_NUMBER = 1000000
KINDS = {
    name: code
    for code, name in enumerate(
        "kickoff goal-home goal-away disallow-home disallow-away yellow-home yellow-away "
        "second-yellow-home second-yellow-away red-home red-away fulltime reopen".split()
    )
}
ORDERS = {"uefa": 0, "away-in-tie": 1}
MARKS = ["", "+", "-"]
STATES = ["scheduled", "in play", "finished"]
SCHEDULED_WORD = 0x2000000000000000
WORDS, CLUBS, NAME, SCREEN_ROOM, NAME_ROOM, JSON_ROOM = 12, 4, 20, 320, 32, 1536
# Clubs, each a pair of a name and a coefficient.
Clubs = Sequence[tuple[str, int]]
# What stands for a kind, an order or a group that has no number, and for a number or a word that has
# no room: the library refuses it.
NO_CODE, NO_WORD = 0xFFFFFFFF, 0xFFFFFFFFFFFFFFFF


class Match(c.Structure):
    """The record of a match."""

    _fields_ = [
        (name, c.c_uint32)
        for name in "number state home_goals away_goals home_yellows away_yellows".split()
    ]
    _fields_ += [(name, c.c_uint32) for name in "home_expulsions away_expulsions reporter".split()]


class Club(c.Structure):
    """A club as the library takes it."""

    _fields_ = [("name", c.c_char * NAME), ("length", c.c_uint32), ("coefficient", c.c_uint32)]


class Row(c.Structure):
    """A club at its place of the table."""

    _fields_ = [
        (name, c.c_uint32)
        for name in "slot place mark played wins draws losses goals_for goals_against points".split()
    ]


class Reply(c.Structure):
    """What became of an event of a script."""

    _fields_ = [
        (name, c.c_uint32) for name in "row match_number status event_number version".split()
    ]


class Refused(Exception):
    """A call that was not done: its status, and the number found, the word, the row or the slot
    where the status has one."""

    status: int | None = None

    def __init__(self, text: str, told: int | None = None) -> None:
        super().__init__(text if told is None else f"{text}: {told}")
        self.told = told


BESIDE = pathlib.Path(__file__).resolve().parent / "libuclboard.so"
LIBRARY = c.CDLL(
    os.environ.get("UCLBOARD_LIBRARY", str(BESIDE) if BESIDE.exists() else "libuclboard.so.1")
)
NUMBERS, CLUB_ROOM, TABLE_ROOM, REPLY_ROOM = (
    c.POINTER(c.c_uint64),
    c.POINTER(Club),
    c.POINTER(Row),
    c.POINTER(Reply),
)
ONE, SIZE = c.POINTER(c.c_uint32), c.POINTER(c.c_size_t)


def declared(name: str, *arguments: Any) -> Any:
    """A call of the library, with what it takes."""
    call = getattr(LIBRARY, "uclboard_" + name)
    call.restype, call.argtypes = c.c_uint32, arguments
    return call


version = declared("version")
next_word = declared("next_word", c.c_uint64, c.c_uint32, c.c_uint32, c.c_uint32, NUMBERS, ONE)
read_word = declared("read_word", c.c_uint64, NUMBERS)
match_of = declared("match_of", c.c_uint64, c.POINTER(Match))
board_version = declared("board_version", NUMBERS, c.c_size_t, ONE, ONE)
standings = declared(
    "standings", NUMBERS, c.c_size_t, ONE, c.c_size_t, c.c_uint32, TABLE_ROOM, c.c_size_t, ONE
)
SHOWN = (
    NUMBERS,
    c.c_size_t,
    CLUB_ROOM,
    c.c_size_t,
    c.c_uint32,
    c.c_uint32,
    c.c_char_p,
    c.c_size_t,
    SIZE,
    ONE,
)
screen = declared("screen", *SHOWN)
screen_json = declared("screen_json", c.c_uint64, *SHOWN)
script = declared(
    "script",
    c.c_char_p,
    c.c_size_t,
    CLUB_ROOM,
    c.c_size_t,
    NUMBERS,
    c.c_size_t,
    REPLY_ROOM,
    c.c_size_t,
    SIZE,
    ONE,
)
screen_length = declared(
    "screen_length", NUMBERS, c.c_size_t, CLUB_ROOM, c.c_size_t, c.c_uint32, c.c_uint32, SIZE, ONE
)
text_of_status = declared("text_of_status", c.c_uint32, c.c_char_p, c.c_size_t, SIZE)
HANDLE = c.POINTER(c.c_void_p)
new_board = declared("open", HANDLE)
pass_split = declared("pass_split", HANDLE, HANDLE)
pass_enlist = declared("pass_enlist", HANDLE, HANDLE)
pass_report = declared("pass_report", HANDLE, c.c_uint32, c.c_uint32, c.c_uint32, ONE)
pass_number = declared("pass_number", HANDLE, ONE)
pass_read = declared("pass_read", HANDLE, NUMBERS, c.c_size_t, ONE)
pass_drop = declared("pass_drop", HANDLE)
pass_drop.restype = None

if version() // 1000000 != VERSION_NUMBER // 1000000:
    raise ImportError(f"libuclboard of version {version()}, and this file is for {VERSION_NUMBER}")


def name_of(status: int) -> str:
    """The name of a status; it is empty if no status has this number."""
    name, length = c.create_string_buffer(NAME_ROOM), c.c_size_t()
    text_of_status(status, name, NAME_ROOM, length)
    return name.value.decode("ascii")


def exception(name: str, status: int) -> type[Refused]:
    """The exception of a status: `BadRow` for "bad-row", and `NotTwelve` for "not twelve words"."""
    title = name.title().replace("-", "").replace(" ", "")
    short = title.replace("TwelveWords", "Twelve").replace("FourClubs", "Four")
    return type(short, (Refused,), {"status": status, "__doc__": f"Status {status}."})


NAMES = {status: name_of(status) for status in range(1, 256) if name_of(status)}
EXCEPTIONS = {status: exception(name, status) for status, name in NAMES.items()}
globals().update({raised.__name__: raised for raised in EXCEPTIONS.values()})


def need(status: int, told: int | None = None) -> None:
    """Raises the exception of a status that is not 0."""
    if status:
        raise EXCEPTIONS[status](NAMES[status], told)


def has_room(value: object, bits: int) -> bool:
    """Whether it is a number with room in so many bits. Of any other, ctypes would silently hand on
    its lowest bits."""
    return isinstance(value, int) and 0 <= value < 1 << bits


def number(value: object) -> int:
    """A number as the library takes it: one that has no room in 32 bits is none that it knows."""
    return value if isinstance(value, int) and has_room(value, 32) else NO_CODE


def clubs_of(clubs: Clubs) -> Any:
    """Clubs as the library takes them, each a pair of a name and a coefficient."""
    made = (Club * len(clubs))()
    for club, (name, coefficient) in zip(made, clubs):
        text = name.encode("utf-8", "surrogatepass")
        club.name, club.length, club.coefficient = text[:NAME], len(text), number(coefficient)
    return made


class Board:
    """The twelve matches of a group: a new board, or that of twelve words, of today's layout or the
    first."""

    def __init__(
        self, words: Sequence[int] | c.Array[c.c_uint64] = (SCHEDULED_WORD,) * WORDS
    ) -> None:
        self.words = (c.c_uint64 * len(words))(
            *(word if has_room(word, 64) else NO_WORD for word in words)
        )
        self.version()
        for index, word in enumerate(self.words):
            read = c.c_uint64()
            need(read_word(word, read), index + 1)
            self.words[index] = read.value

    def report(self, match: int, reporter: int, expected: int, kind: str) -> int:
        """Enters an event in a match, 1 to 12. Returns the match's event number after it."""
        after, found, word = c.c_uint64(), c.c_uint32(), self.word(match)
        status = next_word(
            word, number(reporter), number(expected), KINDS.get(kind, NO_CODE), after, found
        )
        need(status, found.value if status == EXCEPTIONS[1].status else None)
        self.words[match - 1] = after.value
        return int(self.match(match).number)

    def word(self, match: int) -> int:
        """The word of a match, 1 to 12."""
        if not 1 <= match <= WORDS:
            raise EXCEPTIONS[62](NAMES[62], match)
        return self.words[match - 1]

    def match(self, match: int) -> Match:
        """The record of a match, 1 to 12."""
        made = Match()
        need(match_of(self.word(match), made), match)
        return made

    def version(self) -> int:
        """How many events were entered on a board that was new."""
        made, at = c.c_uint32(), c.c_uint32()
        need(board_version(self.words, len(self.words), made, at), at.value or None)
        return made.value

    def standings(self, coefficients: Sequence[int], order: str = "uefa") -> list[Row]:
        """The four rows of the table, by places; of the coefficients of the four clubs, since names
        change no table."""
        made, rows, at = (
            (c.c_uint32 * len(coefficients))(*map(number, coefficients)),
            (Row * CLUBS)(),
            c.c_uint32(),
        )
        code = ORDERS.get(order, NO_CODE)
        need(
            standings(self.words, len(self.words), made, len(made), code, rows, CLUBS, at),
            at.value or None,
        )
        return list(rows)

    def screen(self, clubs: Clubs, group: str = "A", order: str = "uefa") -> str:
        """The screen, as text."""
        return self.text(screen, clubs, group, order, SCREEN_ROOM)

    def json(self, clubs: Clubs, group: str = "A", order: str = "uefa", row: int = 0) -> str:
        """The screen as a line of JSON, which says that it answers this row. A row that has no room
        in 64 bits is a bad row."""
        if not has_room(row, 64):
            raise EXCEPTIONS[20](NAMES[20], row)

        def call(*given: Any) -> int:
            return int(screen_json(row, *given))

        return self.text(call, clubs, group, order, JSON_ROOM)

    def text(
        self, call: Callable[..., int], clubs: Clubs, group: str, order: str, room: int
    ) -> str:
        """What a call writes into so much room, which any text of it has."""
        made, text, length, at = (
            clubs_of(clubs),
            c.create_string_buffer(room),
            c.c_size_t(),
            c.c_uint32(),
        )
        letter, code = ord(group) if len(group) == 1 else NO_CODE, ORDERS.get(order, NO_CODE)
        status = call(
            self.words, len(self.words), made, len(made), letter, code, text, room, length, at
        )
        need(status, at.value or None)
        return text.raw[: length.value].decode("ascii")


class Pass:
    """A pass of a board that threads share, a reader's or a reporter's. The board is there as long
    as one of its passes is, and no pass waits for another; each is in one call at a time."""

    def __init__(self, *given: Any) -> None:
        """What `open`, `split` and `enlist` make: the pass that this call gives."""
        self.handle, self.one_at_a_time = c.c_void_p(), threading.Lock()
        call, *before = given
        need(call(*before, self.handle))

    @classmethod
    def open(cls) -> Pass:
        """A new board, by its first pass, a reader's."""
        return cls(new_board)

    def split(self) -> Pass:
        """A second reader's pass of the same board."""
        with self.one_at_a_time:
            return Pass(pass_split, self.handle)

    def enlist(self) -> Pass:
        """A reporter's pass of the same board, under a number of its own."""
        with self.one_at_a_time:
            return Pass(pass_enlist, self.handle)

    def report(self, match: int, expected: int, kind: str) -> int:
        """Enters an event of a match, 1 to 12. Returns the match's event number after it; a stale
        event tells the number found."""
        told = c.c_uint32()
        with self.one_at_a_time:
            status = pass_report(
                self.handle, number(match), number(expected), KINDS.get(kind, NO_CODE), told
            )
        need(status, told.value if status == EXCEPTIONS[1].status else None)
        return int(told.value)

    def number(self) -> int:
        """The number of a reporter's pass, by which its events stand in words."""
        told = c.c_uint32()
        with self.one_at_a_time:
            need(pass_number(self.handle, told))
        return int(told.value)

    def read(self) -> Board:
        """The board as it stood at one moment of the call."""
        words, version = (c.c_uint64 * WORDS)(), c.c_uint32()
        with self.one_at_a_time:
            need(pass_read(self.handle, words, WORDS, version))
        return Board(words)

    def drop(self) -> None:
        """Lets the pass go; afterwards it is none."""
        with self.one_at_a_time:
            pass_drop(self.handle)

    def __del__(self) -> None:
        pass_drop(self.handle)


def play(text: bytes) -> tuple[Board, list[tuple[str, int]], list[Reply]]:
    """Plays a whole script, the bytes of its rows: the board after its events, the clubs as pairs,
    and the replies."""
    room = text.count(b"\n") + text.count(b"\r") + 1
    clubs, words, replies = (Club * CLUBS)(), (c.c_uint64 * WORDS)(), (Reply * room)()
    count, at = c.c_size_t(), c.c_uint32()
    need(
        script(text, len(text), clubs, CLUBS, words, WORDS, replies, room, count, at),
        at.value or None,
    )
    named = [(bytes(club.name)[: club.length].decode("ascii"), club.coefficient) for club in clubs]
    return Board(words), named, list(replies[: count.value])
