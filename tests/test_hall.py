"""Units of the package `ucl_hall`: lines of JSON, typed lines, text from outside, and events that
stand."""

import contextlib
import json
import random
import re
from typing import Any

import hypothesis
import hypothesis.strategies as some
import model
import pytest
from model import Session

from ucl_hall.engine.answers import Accepted, LeftOut, Mended, Moment, Refused
from ucl_hall.engine.history import History
from ucl_hall.engine.json_lines import LONGEST_LINE, NoAnswer, answer_of, reply_of
from ucl_hall.engine.trial import ClubChange, LeaveOut, NewEdition
from ucl_hall.faults import NotEntered
from ucl_hall.rows import EVENTS, Club, Row, club_mend, club_row, edition_mend, event_mend
from ucl_hall.rows import event_row
from ucl_hall.terminal import words
from ucl_hall.terminal.grammar import Help, MatchAsked, NewEvents, Numbered, Typed, typed
from ucl_hall.text import printable

pytestmark = pytest.mark.quick
STARTED = f"group,B,uefa,0\n{model.CLUBS}1,1,0,kickoff\n1,1,1,goal-home\n1,1,2,goal-away\n"
# Rows 9 to 20: of each kind of answer one at least.
EVENING = STARTED + (
    "1,1,9,red-home\nx\n1,2,0,goal-home\n1,1,3,disallow-away\nmend,8,,\nmend,99,,\nmend,,7,\n"
    'mend,,7,\nclub,2,"B, ""2""","7"\nscreen,,,\nwords,,,\nmatches,,,\n'
)


def str_of(value: object) -> str:
    """A short name of a case."""
    return repr(value)[:20]


def answers_to(text: str) -> list[bytes]:
    """The answers to a record in JSON, with screens, by the rules."""
    output: str = Session(["--format", "json", "--screens"]).of(text)[1]
    return [line.encode() for line in output.splitlines()]


# ---- lines of JSON


def test_each_answer_is_read() -> None:
    """What each kind of line says; nothing of an evening is passed over."""
    kinds = [answer_of(line) for line in answers_to(EVENING)]
    names = {type(answer).__name__ for answer in kinds}
    assert names == {"Moment", "Accepted", "Refused", "LeftOut", "Mended", "Other"}
    [left_out] = [it for it in kinds if isinstance(it, LeftOut)]
    assert (left_out.row, left_out.event, left_out.name) == (12, "disallow-away", "no-goal")
    mended = [it for it in kinds if isinstance(it, Mended)]
    assert [(it.row, it.without, it.left_out) for it in mended] == [
        *((13, 8, 1), (15, None, 0), (17, None, 0))
    ]
    assert [(it.edition, it.version) for it in mended] == [(1, 2), (7, 2), (8, 2)]
    refused = [(it.row, it.code, it.name, it.number) for it in kinds if isinstance(it, Refused)]
    assert refused == [
        *((9, 1, "stale", 3), (10, 20, "bad-row", None), (11, 3, "not-started", None)),
        *((14, 11, "no-event", None), (16, 12, "last-edition", None)),
    ]
    moment = [it for it in kinds if isinstance(it, Moment)][-1]
    assert moment.title.clubs[1] == Club('B, "2"', 7) and moment.age == (8, 2)
    assert moment.match(1).score == (1, 0)
    accepted = [it for it in kinds if isinstance(it, Accepted)][-1]
    assert accepted.event == Row(1, 3, "disallow-away") and accepted.number == 4
    assert accepted.line.startswith(b'{"')


ODD: list[object] = [
    *(None, True, -1, 1 << 70, 1.5, "", "x\x1b[2J", [], {}, [[]], "IN PLAY", 4096, "\ud800"),
]


def changed(value: Any, chance: random.Random) -> Any:
    """A value of JSON with one part of it otherwise, or without it."""
    if isinstance(value, dict) and value and chance.random() < 0.85:
        name = chance.choice(sorted(value))
        rest = {it: value[it] for it in value if it != name}
        return rest if chance.random() < 0.2 else {**rest, name: changed(value[name], chance)}
    if isinstance(value, list) and value and chance.random() < 0.7:
        place = chance.randrange(len(value))
        part = [] if chance.random() < 0.2 else [changed(value[place], chance)]
        return [*value[:place], *part, *value[place + 1 :]]
    return chance.choice(ODD)


def test_lines_that_are_not_as_they_should_be() -> None:
    """Of ten thousand changed lines each is an answer whose parts are all in range, or none;
    nothing else is raised."""
    chance, lines, passed = random.Random(7), answers_to(EVENING), 0
    for _ in range(10_000):
        said = changed(json.loads(chance.choice(lines)), chance)
        try:
            answer = answer_of(json.dumps(said).encode())
        except NoAnswer:
            passed += 1
            continue
        assert 0 <= answer.row <= 4_294_967_295
        if isinstance(answer, Moment):
            counts = len(answer.title.clubs), len(answer.matches), len(answer.table)
            assert counts == (4, 12, 4) and all(0 <= it.number <= 4095 for it in answer.matches)
            assert all(printable(it.club) == it.club for it in answer.title.clubs)
    assert passed > 8_000


@pytest.mark.parametrize(
    "line",
    [
        *(b"", b"x", b"{}", b"[]", b"null", b'"ok"', b"\xff\xfe", b"[" * 5_000),
        *(b'{"reply":"ok"}', b'{"row":' + b"1" * 5_000 + b"}", b'{"reply":"screen","row":NaN}'),
        b"{" + b" " * LONGEST_LINE + b"}",
    ],
    ids=str_of,
)
def test_lines_that_are_none(line: bytes) -> None:
    with pytest.raises(NoAnswer):
        answer_of(line)


@pytest.mark.parametrize(
    "reply, name, wrong",
    [
        *(("refused", "row", it) for it in (True, 0, 1 << 32, "9")),
        *(("refused", "name", it) for it in ("no\x1b[2J", "x" * 41, "")),
        *(("refused", "code", True), ("screen", "matches", []), ("screen", "table", [])),
        *(("screen", "clubs", []), ("screen", "words", 7), ("screen", "row", 1 << 70)),
        *(("screen", "version", -1), ("screen", "group", "Z"), ("screen", "edition", "0")),
        ("screen", "clubs", [{"club": "\x1b[2J", "coefficient": 1}] * 4),
    ],
    ids=str_of,
)
def test_values_that_are_nearly_right(reply: str, name: str, wrong: object) -> None:
    """true is no number, the name of a refusal is one word, a number is in its range, and no list is
    ever too short, so no escape is printed."""
    said = [it for it in map(json.loads, answers_to(EVENING)) if it["reply"] == reply][-1]
    assert isinstance(answer_of(json.dumps(said).encode()), Refused | Moment)
    with pytest.raises(NoAnswer):
        answer_of(json.dumps({**said, name: wrong}).encode())


def test_a_refusal_of_a_rule_that_is_not_known_yet() -> None:
    """It is told by its name."""
    event = {"reporter": 1, "match": 1, "expected": 0, "event": "kickoff"}
    said = {"reply": "refused", "row": 9, "code": 77, "name": "new-rule", **event}
    answer = answer_of(json.dumps(said).encode())
    assert isinstance(answer, Refused) and words.refused(answer) == "refused: new-rule"


def test_answers_of_one_row() -> None:
    """A reply is of one row: an accepted event with its screen, a mend with what it leaves out."""
    lines = [answer_of(line) for line in answers_to(EVENING)]
    whole = reply_of(lines[:2])
    assert whole.row == 6 and whole.screen is lines[1] and whole.left_out == ()
    for start, end in (0, 0), (0, 3), (1, 3):
        with pytest.raises(NoAnswer):
            reply_of(lines[start:end])


# ---- typed lines, rows, text


@pytest.mark.parametrize(
    "text, wanted",
    [
        ("1 goal home", NewEvents(1, ("goal-home",), False)),
        ("  12   Second YELLOW away ", NewEvents(12, ("second-yellow-away",), False)),
        ("1 second-yellow away", NewEvents(1, ("second-yellow-away",), False)),
        (
            "3 result 0-1 reds 1-0",
            NewEvents(3, ("kickoff", "goal-away", "red-home", "fulltime"), True),
        ),
        *(("mend", NewEdition()), ("MEND 017", LeaveOut(17)), ("help", Help())),
        *(("7", MatchAsked(7)), ("", None)),
        ("club 2 Real  Madrid ", ClubChange(2, name="Real  Madrid")),
        ("coefficient 1 61.000", ClubChange(1, coefficient=61_000)),
        ("7,1,3,goal-home", Numbered(7, Row(1, 3, "goal-home"))),
    ],
)
def test_lines_that_are_typed(text: str, wanted: Typed | None) -> None:
    assert typed(text) == wanted


# What is told of lines that say nothing.
NO_LINES = {
    "there is no such match: they are 1 to 12": ["0", "13 goal home", "1" * 5_000 + " kickoff"],
    "; help shows them all": ["1 corner flag", "goal home", "²", "٣ kickoff", "\x1b[A"],
    "this is no row of an event; help": ["1,1,2,goal", "256,1,2,kickoff", "1,1,65536,kickoff"],
    "row of an event; help shows": ["1,1,2,kickoff x", "1,13,2,kickoff", "1,1,²,kickoff"],
    "; 1 goal home or 1 goal away?": ["1 goal", "1 goal hoem"],
    **{"; 1 goal home?": ["1 gaol home"], "; 3 disallow away?": ["3 disallow away 3 goal home"]},
    **{"; 7 disallow home or 7 disallow away?": ["7 disallow"], "; 1 kickoff?": ["1 kick off"]},
    **{"; 2 result?": ["2 resutl 1-0"], "; mend?": ["mned 17"], "; club?": ["clbu 2 X"]},
    "no event and no command": ["1 goal home away"],
    "a result is 1 result 2-1": ["5 result 2-x", "5 result 64-0", "5 result 1-0 reds 0-32"],
    "type mend 17 with the row of an event, or mend alone": ["mend 0", "mend 17 18", "mend -1"],
    "row of an event, or mend alone": ["mend edition 3"],
    "type club 2 Real Madrid": ["club 5 X", "club 2", "coefficient 0 1"],
    "without accents": ["club 2 Málaga"],
    "at most 999999": [f"coefficient 1 {it}" for it in ("1000000", ".5", "1.5")],
}


@pytest.mark.parametrize(
    "text, told", [(it, told) for told, lines in NO_LINES.items() for it in lines], ids=str_of
)
def test_lines_that_say_nothing(text: str, told: str) -> None:
    """What was meant perhaps, or how it is typed, is told."""
    with pytest.raises(NotEntered, match=re.escape(told)):
        typed(text)


@hypothesis.given(some.text())
def test_any_line(text: str) -> None:
    """Whatever is typed is a line or is refused."""
    with contextlib.suppress(NotEntered):
        typed(text)


@hypothesis.given(some.one_of(some.text(), some.binary()))
def test_text_from_outside(text: str | bytes) -> None:
    """No escape, no line end, nothing that is not printable gets through, and never too much."""
    shown = printable(text)
    assert shown.isprintable() and len(shown) <= 200
    if isinstance(text, str) and text.isprintable() and len(text) <= 200:
        assert shown == text
    assert printable("x" * 201) == "x" * 197 + "..." and printable(b"x" * 9_000, 5) == "xx..."


def test_rows_that_are_written() -> None:
    """No cut of a row that is written on an open board is a row that is taken, for the rules."""
    clubs = club_mend(2, Club('R"l, M', 95_000)), club_mend(1, Club("X", 0))
    rows = [event_mend(1700), edition_mend(15), *clubs]
    rows += [Row(11, 10, event).line(255) for event in EVENTS]
    for row in rows:
        for cut in range(len(row) - 1):
            answers: str = Session([]).of(STARTED + row[:cut].decode())[1]
            assert answers.count("bad-row") == (cut > 0), row[:cut]
    assert club_row(3, Club('Char, "lie"', 0)) == b'club,3,"Char, ""lie""",0\n'
    assert event_row("1,1,65535,goal-home") == (1, Row(1, 65_535, "goal-home"))


def test_events_that_stand() -> None:
    """As the rules have them, through mends."""
    history, session = History(), Session([])
    session.of(EVENING)
    for line in answers_to(EVENING):
        history.note(line)
    there = [(it.row, it.reporter, it.match, it.event) for it in history.of(1)]
    assert there == session.events and history.of(2) == []
    found = history.found(1, Row(1, 1, "goal-home"))
    assert found is not None and found.row == 7
    for reporter, row in (2, Row(1, 1, "goal-home")), (1, Row(1, 2, "red-home")):
        assert history.found(reporter, row) is None
