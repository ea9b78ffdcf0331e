"""Random calls of the library by Python's ctypes, good and bad, against the rules in plain Python.

Each call is made in a thread that has no more stack than the header says, over a `malloc` that refuses a request, and that counts what is left.
"""

import ctypes as c
import itertools
import json
import re

import conftest
import model
import pytest
from hypothesis import given, settings
from hypothesis import strategies as st
from test_library import STRICT, board, library, module_over  # noqa: F401, fixtures
from test_random import PICKS, club_rows, cut, event_rows, matches, mostly

SIDES = [f"{kind}-{side}" for kind in model.SIDED for side in ("home", "away")]
KINDS = ["kickoff", *SIDES, "fulltime", "reopen"]
pytestmark = pytest.mark.limit(120)
MANY, SOME = (settings(max_examples=times * settings.default.max_examples) for times in (6, 2))
# Numbers of 32 bits, among them those that are good ones where their lowest 8 or 16 bits alone are read.
ODD_ONES = [0, 13, 255, 256, 257, 65_535, 65_536, 2**31, 2**32 - 1]
ODD = st.sampled_from(ODD_ONES) | st.integers(0, 2**32 - 1)
# What stands where a call has written nothing.
LEFT, LEFT64 = 0x55555555, 0x5555555555555555


# The fields of a struct; the rule that refuses an event, or 0; the word of a match.
fields_of = lambda made: tuple(getattr(made, name) for name, _ in made._fields_)
code_of = lambda m, expected, word: int((m.refusal(expected, word) or "0").split()[0])
packed = lambda m: int(m.word(), 16)


def place_of(given):
    """A number, or where something is."""
    if isinstance(given, int):
        return given
    return c.cast(given, c.c_void_p).value if isinstance(given, bytes) else c.addressof(given)


def first(*faults, otherwise=0):
    """The first fault that holds."""
    return next((fault for holds, fault in faults if holds), otherwise)


class Memory:
    """The library over a `malloc` that counts and refuses."""

    def __init__(self, path):
        self.board = module_over(path)
        names = "until_refusal", "requests", "held"
        counts = (c.c_long.in_dll(self.board.LIBRARY, name) for name in names)
        self.until_refusal, self.requests, self.held = counts

    def refused(self, nth, call, *given):
        """Makes a call whose request of this number is refused, counted from 0. Its status, and whether it asked for so many."""
        work = (c.c_uint64 * 14)(c.cast(call, c.c_void_p).value, *map(place_of, given))
        stack = 16_384 + 65_536 * (call == self.board.script)
        self.requests.value, self.until_refusal.value = 0, nth
        is_made = self.board.LIBRARY.make_on_stack(work, c.c_size_t(stack)) == 0
        self.until_refusal.value = -1
        assert is_made
        return work[13] & 2**32 - 1, self.requests.value > nth >= 0

    def made(self, name, *given, nth=0, outputs=None):
        """Makes a call. Where it writes to outputs it may ask for memory: a request that is refused changes nothing, and none is left. Its status."""
        before, call = [bytes(it) for it in outputs or []], getattr(self.board, name)
        status, was_refused = self.refused(nth, call, *given)
        assert self.held.value == 0 if outputs else not was_refused
        if was_refused:
            assert status == 23 and [bytes(it) for it in outputs] == before
            status, _ = self.refused(-1, call, *given)
        return status


@pytest.fixture(scope="session")
def memory(library, tmp_path_factory):
    """The module in Python over a library whose `malloc` counts and refuses."""
    path = tmp_path_factory.mktemp("counted") / "counted.so"
    wraps = [f"-Wl,--wrap={name}" for name in ("malloc", "realloc", "free")]
    whole = ["-Wl,--whole-archive", library / "libuclboard.a", "-Wl,--no-whole-archive"]
    code = ["-shared", "-fPIC", *STRICT.split(), *wraps, conftest.TOP / "tests/counted.c"]
    words = ["cc", *code, *whole, "-o", path]
    assert conftest.command(words) == (0, "", "")
    return Memory(path)


def filled(of, count=1):
    """So many elements of a type, which a call may write to."""
    made = (of * count)()
    c.memset(made, 0x55, c.sizeof(made))
    return made


def joined(width, fields, above):
    """A word of these fields, of which the first has this width."""
    word, low = above << width + 44, 0
    for field, bits in zip(fields, [width, 2, 6, 6, 6, 6, 5, 5, 8]):
        word, low = word | field << low, low + bits
    return word & 2**64 - 1


def read(word, is_of_today=False):
    """The match of a word, where it is one."""
    m = model.match_of(f"{word:016x}")
    return None if m is None or is_of_today and packed(m) != word else m


# Words of both layouts, good and bad, near all limits; where they are good most are of matches in play.
NUMBERS = st.sampled_from([1, 2, 7, 1022, 1023, 4093, 4094, 4095])
STATES, CARDS = st.sampled_from([1, 1, 1, 2, 2, 3]), st.sampled_from([0, 1, 62, 63])
EXPELLED, REPORTERS = st.sampled_from([0, 1, 30, 31]), st.sampled_from([1, 1, 7, 255, 255, 0])
FIELDS = st.tuples(NUMBERS, STATES, *[CARDS] * 4, *[EXPELLED] * 2, REPORTERS)
BUILT = st.one_of(
    st.builds(joined, st.just(12), FIELDS, st.just(0x20)),
    st.builds(joined, st.just(10), FIELDS, st.just(0)),
    st.just(2 << 60),
    st.just(0),
)
WORDS = mostly(BUILT, st.tuples(BUILT, st.integers(0, 63)).map(lambda it: it[0] ^ 1 << it[1]), 5)


@MANY
@given(
    word=WORDS,
    reporter=mostly(st.integers(1, 255), ODD),
    kind=mostly(st.integers(0, 12), ODD),
    offset=mostly(st.just(0), ODD),
)
def test_a_word_and_an_event(memory, word, reporter, kind, offset):
    m, either = read(word, True), read(word)
    new, match = filled(c.c_uint64), filled(memory.board.Match)
    status = memory.made("read_word", word, new)
    assert (status, new[0]) == ((0, packed(either)) if either else (10, LEFT64))
    status, wanted = memory.made("match_of", word, match[0]), (LEFT,) * 9
    if m:
        wanted = m.number, m.state, *m.goals, *m.yellows, *m.expulsions, m.reporter
    assert (status, fields_of(match[0])) == (0 if m else 10, wanted)
    expected = ((m.number if m else 0) + offset) % 2**32
    told = first((not 1 <= reporter <= 255, 50), (kind > 12, 51), (m is None, 10))
    told = told or code_of(m, expected, KINDS[kind])
    number = m.number if told == 1 else LEFT
    if told == 0:
        m.enter(reporter, KINDS[kind])
    after, found = filled(c.c_uint64), filled(c.c_uint32)
    status = memory.made("next_word", word, reporter, expected, kind, after, found)
    assert (status, after[0], found[0]) == (told, packed(m) if told == 0 else LEFT64, number)


PRINTABLE = st.lists(st.sampled_from(b'ABCDEFGH ~"\\'), min_size=20, max_size=20).map(bytes)
NAMES = mostly(PRINTABLE, st.binary(min_size=20, max_size=20), 29)
GOOD, TOO_MUCH = st.sampled_from([0, 60_000, 60_000, 999_999]), st.just(1_000_000) | ODD
CLUBS = st.tuples(NAMES, mostly(st.integers(1, 20), ODD, 29), mostly(GOOD, TOO_MUCH, 29))


class Sheet:
    """What is shown of a board: words, clubs, a group, an order; what the rules read of them, and the faults, each a status and where it is."""

    def __init__(self, draw, board):
        found = draw(mostly(matches(), st.just(model.fresh()), 6))
        self.words, odds = [*map(packed, found)], draw(st.sampled_from([2, 30, 30]))
        if draw(st.integers(1, 4)) == 1:
            self.words[draw(st.integers(0, 11))] = draw(WORDS)
        count = draw(mostly(st.just(12), st.sampled_from([0, 11, 13]), odds))
        self.words = (self.words * 2)[:count]
        four, some = st.lists(CLUBS, min_size=4, max_size=4), st.lists(CLUBS, max_size=5)
        clubs = draw(mostly(four, some, odds))
        self.order = draw(mostly(st.integers(0, 1), ODD, odds))
        others = st.sampled_from([64, 73, 97, 321]) | ODD
        self.group = draw(mostly(st.integers(65, 72), others, odds))
        self.roster = [
            (name[:length].decode("latin-1") if length <= 20 else "", coefficient)
            for name, length, coefficient in clubs
        ]
        self.coefficients = [("-", coefficient) for *_, coefficient in clubs]
        self.matches = [read(word) for word in self.words]
        self.taken = (c.c_uint64 * max(len(self.words), 1))(*self.words), len(self.words)
        self.clubs = (board.Club * max(len(clubs), 1))(*clubs), len(clubs)
        for slot, (name, *_) in enumerate(clubs):
            c.memmove(c.byref(self.clubs[0], slot * c.sizeof(board.Club)), name, 20)
        bad = [place for place, match in enumerate(self.matches, 1) if match is None]
        self.of_words = (54, LEFT) if len(self.words) != 12 else (10, bad[0]) if bad else None
        self.of_order = (52, LEFT) if self.order > 1 else None
        self.of_group = None if 65 <= self.group <= 72 else (53, LEFT)

    def of_clubs(self, roster):
        """The fault of clubs, or of coefficients."""
        if len(roster) != 4:
            return 55, LEFT
        return (21, model.bad_slots(roster)[0]) if model.bad_slots(roster) else None


def written(memory, nth, name, *given, room=()):
    """What a call that writes a text answers: its status, the place and the length that it tells, and the text."""
    out = c.create_string_buffer(b"\x55" * 2600, 2600)
    length, at = filled(c.c_size_t), filled(c.c_uint32)
    given = *given, *[out] * len(room), *room, length, at
    status = memory.made(name, *given, nth=nth, outputs=(out, length, at))
    return status, at[0], length[0], out.raw.rstrip(b"\x55")


@SOME
@given(
    data=st.data(),
    nth=st.integers(0, 12),
    row=st.sampled_from([0, 9, 2**64 - 1]),
    room=st.sampled_from([320, 320, 0, 1, 295, 296, 297, 1424, 1424, 1300]),
)
def test_a_screen(memory, data, nth, row, room):
    sheet = Sheet(data.draw, memory.board)
    fault = sheet.of_order or sheet.of_group or sheet.of_words or sheet.of_clubs(sheet.roster)
    given = *sheet.taken, *sheet.clubs, sheet.group, sheet.order
    screen = written(memory, nth, "screen", *given, room=(room,))
    length = written(memory, nth, "screen_length", *given)
    status, at, count, line = written(memory, nth, "screen_json", row, *given, room=(room,))
    if fault:
        assert [screen, length, (status, at, count, line)] == [(*fault, LEFT64, b"")] * 3
        return
    text = model.screen(sheet.matches, sheet.roster, chr(sheet.group), sheet.order == 1).encode()
    fits = len(text) < room
    assert screen == (0 if fits else 56, LEFT, len(text), text + b"\0" if fits else b"")
    assert length == (0, LEFT, len(text), b"")
    fits = count < room
    assert (status, at, len(line)) == (0 if fits else 56, LEFT, count + 1 if fits else 0)
    assert count < 1424
    if line:
        style = model.Style(["--group", chr(sheet.group), "--order", model.ORDERS[sheet.order]])
        members = style.json(sheet.matches, sheet.roster, row)
        # Calls of C know no edition.
        del members["edition"], members["matches"]
        assert line.decode() == model.line_of(members) + "\0"


@SOME
@given(data=st.data(), room=mostly(st.just(4), st.sampled_from([0, 3, 5])))
def test_a_table_and_a_version(memory, data, room):
    sheet = Sheet(data.draw, memory.board)
    fault = sheet.of_order or sheet.of_words or sheet.of_clubs(sheet.coefficients)
    fault = fault or (None if room == 4 else (57, LEFT))
    numbers = [coefficient for _, coefficient in sheet.coefficients]
    coefficients = (c.c_uint32 * max(len(numbers), 1))(*numbers), len(numbers)
    rows, at, version = filled(memory.board.Row, 5), filled(c.c_uint32), filled(c.c_uint32)
    given = *sheet.taken, *coefficients, sheet.order, rows, room, at
    status = memory.made("standings", *given)
    names = "slot place mark played won drawn lost goals_for goals_against points".split()
    table = [] if fault else model.places(sheet.matches, sheet.coefficients, sheet.order == 1)
    wanted = [
        tuple({"": 0, "+": 1, "-": 2}.get(place[name], place[name]) for name in names)
        for place in table
    ]
    assert (status, at[0]) == (fault or (0, LEFT))
    assert [*map(fields_of, rows)] == wanted + [(LEFT,) * 10] * (5 - len(wanted))
    at = filled(c.c_uint32)
    status = memory.made("board_version", *sheet.taken, version, at)
    told = (*sheet.of_words, LEFT) if sheet.of_words else (0, LEFT, model.version(sheet.matches))
    assert (status, at[0], version[0]) == told


@SOME
@given(
    data=st.data(),
    nth=st.integers(0, 30),
    room=st.integers(-1, 3),
    lengths=mostly(st.just((12, 4)), st.sampled_from([(13, 4), (11, 5), (12, 3), (12, 5)]), 19),
)
def test_a_script(memory, data, nth, room, lengths):
    board = memory.board
    text = cut(data.draw, "".join(data.draw(club_rows()) + event_rows(data.draw(PICKS))))
    fault = first((lengths[0] != 12, (54, LEFT)), (lengths[1] != 4, (55, LEFT)), otherwise=None)
    roster, events = [], []
    try:
        roster, events = model.parsed(text)
    except model.Fault as error:
        fault = fault or tuple(map(int, re.findall(r"\d+", str(error))))
    room = max(len(events) + room, 0)
    clubs, words = filled(board.Club, 5), filled(c.c_uint64, 13)
    replies, count, at = (
        filled(board.Reply, len(events) + 4),
        filled(c.c_size_t),
        filled(c.c_uint32),
    )
    script, outputs = conftest.encoded(text), (clubs, words, replies, count, at)
    before = [bytes(it) for it in outputs[:3]]
    given = script, len(script), clubs, lengths[1], words, lengths[0], replies, room, count, at
    status = memory.made("script", *given, nth=nth, outputs=outputs)
    told, where = fault or (56 if room < len(events) else 0, LEFT)
    assert (status, at[0], count[0]) == (told, where, LEFT64 if fault else len(events))
    if told:
        assert [bytes(it) for it in outputs[:3]] == before
        return
    matches, lines, version = model.fresh(), [], 0
    for row, (reporter, game, expected, word) in enumerate(events, 5):
        m = matches[game - 1]
        code = code_of(m, expected, word)
        if code == 0:
            m.enter(reporter, word)
        version += code == 0
        lines.append((row, game, code, m.number if code < 2 else 0, version))
    assert [*map(fields_of, replies[: len(events)])] == lines
    assert words[:] == [*map(packed, matches), LEFT64]
    named = [(name.encode().ljust(20, b"\0"), len(name), number) for name, number in roster]
    assert [(bytes(it)[:20], it.length, it.coefficient) for it in clubs[:4]] == named
    assert set(bytes(clubs[4]) + bytes(replies)[len(events) * c.sizeof(board.Reply) :]) == {0x55}


PLACES = 6
CALLS = ["open", "split", "enlist", "drop", "read", "number", "report", "report", "report"]
EVENTS = st.tuples(
    mostly(st.integers(1, 12) | st.just(1), ODD),
    mostly(st.integers(0, 12), ODD),
    mostly(st.just(0), ODD),
)
PLACE, NTH = st.integers(0, PLACES - 1), mostly(st.just(-1), st.integers(0, 3), 2)
STEPS = st.tuples(st.sampled_from(CALLS), PLACE, PLACE, EVENTS, NTH)


class Handles:
    """Handles by the rules, each a board's matches, the numbers of its next reporters, and its own; and the library's, with bytes between them."""

    def __init__(self, memory):
        self.memory, self.library = memory, memory.board
        self.held, self.room = [None] * PLACES, filled(c.c_uint64, 2 * PLACES)
        self.handles = [c.c_void_p.from_buffer(self.room, 16 * place) for place in range(PLACES)]
        for handle in self.handles:
            handle.value = None

    def step(self, name, i, j, event, nth):
        """Makes a call whose request of this number is refused, where it asks for so many."""
        if name == "drop":
            self.library.pass_drop(self.handles[i])
            self.held[i] = None
            for place in range(PLACES):
                self.read(place)
        elif name == "open":
            fresh = lambda: (model.fresh(), itertools.count(1), 0)
            fault = 59 if self.held[i] else None
            self.gives(i, fault, nth, self.library.new_board, [self.handles[i]], fresh)
        elif name in ("split", "enlist") and i != j:
            mine, call = self.held[i], getattr(self.library, f"pass_{name}")
            faults = (self.held[j], 59), (mine is None, 60), (mine and mine[2], 61)
            other = lambda: mine if name == "split" else (*mine[:2], next(mine[1]))
            self.gives(j, first(*faults), nth, call, [self.handles[i], self.handles[j]], other)
        elif name == "number":
            self.number(i)
        elif name in ("read", "report"):
            getattr(self, name)(i, *event)
        assert self.room[1::2] == [LEFT64] * PLACES

    def gives(self, place, fault, nth, call, handles, made):
        """A call that gives a handle."""
        was = self.handles[place].value
        status, was_refused = self.memory.refused(nth, call, *handles)
        assert status == (fault or (23 if was_refused else 0))
        if status == 0:
            self.held[place] = made()
        assert bool(self.handles[place].value) if status == 0 else self.handles[place].value == was

    def report(self, i, game, kind, offset):
        """Reports an event by a pass."""
        mine = self.held[i]
        m = mine[0][game - 1] if mine and 1 <= game <= 12 else model.Match()
        kind = 0 if m.state == model.SCHEDULED and kind in range(6) else kind
        expected, number = (m.number + offset) % 2**32, filled(c.c_uint32)
        refused = kind > 12, not 1 <= game <= 12, mine is None, mine and mine[2] == 0
        told = first(*zip(refused, (51, 62, 60, 63))) or code_of(m, expected, KINDS[kind])
        if told == 0:
            m.enter(mine[2], KINDS[kind])
        status = self.memory.made("pass_report", self.handles[i], game, expected, kind, number)
        assert (status, number[0]) == (told, m.number if told in (0, 1) else LEFT)

    def number(self, i):
        """Asks for the number of a pass."""
        number, mine = filled(c.c_uint32), self.held[i]
        told = first((mine is None, 60), (mine and mine[2] == 0, 63))
        status = self.memory.made("pass_number", self.handles[i], number)
        assert (status, number[0]) == (told, LEFT if told else mine[2])

    def read(self, i, room=12, *_):
        """Reads the board by a pass, with room for twelve words or for eleven."""
        words, version, mine = filled(c.c_uint64, 12), filled(c.c_uint32), self.held[i]
        room = 12 if room < 13 else 11
        told, wanted = first((room != 12, 54), (mine is None, 60)), ([LEFT64] * 12, LEFT)
        if not told:
            wanted = [*map(packed, mine[0])], model.version(mine[0])
        status = self.memory.made("pass_read", self.handles[i], words, room, version)
        assert (status, words[:], version[0]) == (told, *wanted)


@SOME
@given(steps=st.lists(STEPS, max_size=60))
def test_handles(memory, steps):
    handles = Handles(memory)
    try:
        for step in [("open", 0, 0, (), -1), ("enlist", 0, 1, (), -1), *steps]:
            handles.step(*step)
    finally:
        for handle in handles.handles:
            memory.board.pass_drop(handle)
    assert memory.held.value == 0


def test_enlistments_without_memory_spend_no_number(memory):
    board, one, none = memory.board, c.c_void_p(), c.c_void_p()
    assert board.new_board(one) == 0
    assert {memory.refused(0, board.pass_enlist, one, none) for _ in range(300)} == {(23, True)}
    reporters = [c.c_void_p() for _ in range(255)]
    assert [board.pass_enlist(one, reporter) for reporter in reporters] == [0] * 255
    assert board.pass_enlist(one, none) == 30 and not none.value
    number, words, match = c.c_uint32(), (c.c_uint64 * 12)(), board.Match()
    for game, reporter in (1, 1), (2, 255):
        assert board.pass_report(reporters[reporter - 1], game, 0, 0, number) == 0
        assert board.pass_read(one, words, 12, number) == 0
        assert board.match_of(words[game - 1], match) == 0 and match.reporter == reporter
    for handle in [one, *reporters]:
        board.pass_drop(handle)
    assert memory.held.value == 0


# Numbers that have no room are refused, and not cut.
ROSTER, SCHEDULED = model.ROSTER, 2 << 60
NO_ROOM = [
    (lambda b: b.Board([SCHEDULED] * 11 + [2**64 + SCHEDULED]), "BadWord", 12),
    (lambda b: b.Board([SCHEDULED - 2**64] + [SCHEDULED] * 11), "BadWord", 1),
    (lambda b: b.Board().json(ROSTER, row=2**64 + 5), "BadRow", 2**64 + 5),
    (lambda b: b.Board().json(ROSTER, row=-1), "BadRow", -1),
    (lambda b: b.Board().report(1, 2**32 + 1, 0, "kickoff"), "NoReporter", None),
    (lambda b: b.Board().report(1, 1, 2**32, "kickoff"), "Stale", 0),
    (lambda b: b.Pass.open().enlist().report(2**32 + 1, 0, "kickoff"), "NoMatch", None),
    (lambda b: b.Pass.open().enlist().report(1, 2**32, "kickoff"), "Stale", 0),
    (lambda b: b.Board().standings([0, 2**32, 0, 0]), "BadRoster", 2),
    (lambda b: b.Board().screen(ROSTER[:3] + [("Delta", 81500 - 2**32)]), "BadRoster", 4),
]


def test_numbers_without_room_in_python(board):
    for call, name, told in NO_ROOM:
        with pytest.raises(getattr(board, name)) as raised:
            call(board)
        assert raised.value.told == told
    assert json.loads(board.Board().json(ROSTER, row=2**64 - 1))["row"] == 2**64 - 1
