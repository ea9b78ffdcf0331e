"""Rows that were worked out by hand: tables, scripts, sheets, words of the command line, faults, devices that fail, nights.

No value here comes from a program or from the rules in Python, but where a test says so.
"""

import os
import pathlib
import re
from collections.abc import Callable, Iterator
from typing import Any

import conftest
import model
import pytest
from conftest import EXAMPLES, Case, tabled, text_of
from drivers.program import Run

CLUBS, NAMES = model.CLUBS, [name for name, _ in model.ROSTER]
WHOLE = text_of(EXAMPLES / "head_to_head.csv")
WHOLE_SCREEN = text_of(EXAMPLES / "head_to_head_sheet.expected")
STORED, FED = (text_of(EXAMPLES / f"two_matches.{it}") for it in ("csv", "expected"))
SHEET, SECOND_SCREEN = (text_of(EXAMPLES / f"two_matches_sheet.{it}") for it in ("csv", "expected"))
FRESH = "2000000000000000"
HEAD = "    Club                  P  W  D  L  GF  GA   GD Pts\n"
FRESH_SCREEN = f"""GROUP A v00000 IN PLAY 0
{HEAD}1   Bravo                 0  0  0  0   0   0   +0   0
2   Delta                 0  0  0  0   0   0   +0   0
3   Alpha                 0  0  0  0   0   0   +0   0
4   Charlie               0  0  0  0   0   0   +0   0
"""

# ---- tables

# By what decides: scores by match, home side first; the version; slot, mark and points by place;
# and slots by place where away goals count in a tie.
TABLES = {
    "head to head, and again among fewer": (
        "1-0 1-0 1-0 5-0 1-0 1-0 2-0 0-1 0-0 0-0 0-2 0-1",
        "v40 1+10 2+10 3-10 4-4 1234",
    ),
    "away goals in all matches": (
        "1-0 0-1 1-0 1-0 1-0 2-0 1-0 0-1 1-0 3-0 1-0 0-2",
        "v40 1+12 3+12 2-12 4-0 1324",
    ),
    "goals, and no return to head to head": (
        "1-0 0-1 1-0 3-1 1-0 2-0 0-1 0-1 0-1 3-0 0-1 0-1",
        "v42 1+12 3+12 2-12 4-0 1324",
    ),
    "points, with matches to come": (
        "1-0 0-1 1-0 1-0 0-1 0-0 1-0 0-0",
        "v22 1+12 2.5 3.3 4.2 1234",
    ),
    "points, and all is certain early": (
        "1-0 0-1 0-0 0-0 0-1 1-0 1-0 0-1",
        "v22 1+10 2+10 4-1 3-1 1243",
    ),
    "coefficients, before any match": ("", "v0 2.0 4.0 1.0 3.0 2413"),
    "away goals in a tie, where they count": (
        "1-0 0-3 2-1 1-0 0-1 1-0 1-0 0-1 0-1 1-0 1-0 0-0",
        "v39 1+15 2+15 3-4 4-1 2134",
    ),
    "away goals in a tie among fewer": (
        "2-1 0-0 1-1 1-0 1-1 2-0 1-0 0-1 1-0 0-0 0-1 0-1",
        "v39 1+10 2+10 3-10 4-2 1324",
    ),
    "cards": ("0-0 " * 12, "v30 4+6 3+6 1-6 2-6 4312"),
}
CARDS = {
    3: ["yellow-home", "second-yellow-home"],
    6: ["yellow-home", "red-home"],
    9: ["yellow-home", "yellow-home"],
}


def played(scores: str, cards: dict[int, list[str]]) -> str:
    """A script in which matches 1, 2 and so on end with these scores, and cards."""
    rows = []
    for match, score in enumerate(scores.split(), 1):
        home, away = map(int, score.split("-"))
        goals = ["goal-home"] * home + ["goal-away"] * away
        events = ["kickoff", *goals, *cards.get(match, []), "fulltime"]
        rows += [f"1,{match},{number},{event}\n" for number, event in enumerate(events)]
    return CLUBS + "".join(rows)


def ordered(tables: dict[str, tuple[str, str]]) -> Iterator[Any]:
    """Each script with each order, and what is told of its table."""
    for name, (scores, told) in tables.items():
        script = played(scores, CARDS if name == "cards" else {})
        for order in "uefa", "away-in-tie":
            case = Case("ucl_night", ("night", "--order", order), script)
            yield pytest.param(case, told, id=f"{name}, by {order}")


@pytest.mark.quick
@pytest.mark.parametrize("case, told", ordered(TABLES))
def test_tables(run: Callable[..., Run], case: Case, told: str) -> None:
    ran = run(case.program, *case.words, input=case.input)
    assert (ran.status, ran.errors) == (0, "")
    title, head, *lines = ran.output.removeprefix("FINAL\n").splitlines()
    slots = [NAMES.index(line[4:24].strip()) + 1 for line in lines]
    marks = [line[2].replace(" ", ".") + str(int(line[49:])) for line in lines]
    version, *places, by_away_goals = told.split()
    assert (head + "\n", f"v{int(title[9:14])}") == (HEAD, version)
    if "uefa" in case.words:
        assert [f"{slot}{mark}" for slot, mark in zip(slots, marks)] == places
    else:
        assert "".join(map(str, slots)) == by_away_goals


# ---- scripts

NUMBERS = [
    f"1,1,{number},{'goal-home' if number % 2 else 'disallow-home'}\n" for number in range(1, 4_094)
]
FULL = CLUBS + "1,1,0,kickoff\n" + "".join(NUMBERS)
FULL_REPLIES = "".join(f"{number + 4} ok 1 {number} {number}\n" for number in range(1, 4_095))
OTHER_WORDS = "".join(f"word,{match},{FRESH},\n" for match in range(2, 13))
LAST_ROWS = "1,1,4094,goal-home\n1,1,4094,kickoff\n1,1,4094,fulltime\n"
LAST_REPLIES = "4099 refused 5 number-full\n4100 refused 4 already-started\n4101 ok 1 4095 4095\n"
BEGUN = "5 ok 1 1 1\nword,1,2001000000001001,\n" + OTHER_WORDS

test_scripts = tabled(
    {
        "all numbers of a match": (
            "ucl_night feed",
            FULL,
            FULL_REPLIES + "word,1,2001000000005ffe,\n" + OTHER_WORDS,
        ),
        "only full time is left": (
            "ucl_night feed",
            FULL + LAST_ROWS,
            FULL_REPLIES + LAST_REPLIES + "word,1,2001000000006fff,\n" + OTHER_WORDS,
        ),
        "a number of five zeros": ("ucl_night feed", CLUBS + "1,1,00000,kickoff", BEGUN),
        "zeros in front": ("ucl_night feed", CLUBS + "001,01,0,kickoff", BEGUN),
        "a name with a comma": (
            "ucl_night night",
            CLUBS.replace("Alpha", '"Al,pha"'),
            "FINAL\n" + FRESH_SCREEN.replace("Alpha ", "Al,pha"),
        ),
    }
)


def test_script_cut_after_each_byte(run: Callable[..., Run]) -> None:
    """It is taken, or its last row is bad: what it is then is by the rules in Python."""
    for end in range(len(WHOLE)):
        ran = run("ucl_night", "feed", input=WHOLE[:end])
        assert ran.status == 0 or ran.errors.startswith("input refused 20: row "), end
        assert ran == model.night("feed", [], WHOLE[:end]), end


# A goal that a mend takes back, and what then is refused: the goal's disallowing, in row 9.
MENDED = (
    CLUBS
    + "1,1,0,kickoff\n1,2,0,kickoff\n1,1,1,goal-home\n1,1,2,yellow-away\n1,1,3,disallow-home\n"
    + "1,2,1,goal-away\nmend,7,,\nmend,7,,\nwords,,,\n"
)
MENDED_ANSWERS = """5 ok 1 1 1
6 ok 2 1 2
7 ok 1 2 3
8 ok 1 3 4
9 ok 1 4 5
10 ok 2 2 6
11 mended 1 4
12 refused 11 no-event
word,1,2001000100001002,
word,2,2001000000101002,
"""

test_a_goal_is_taken_back = tabled(
    {
        "and no event of another match": (
            "ucl_live",
            MENDED,
            MENDED_ANSWERS + "".join(f"word,{match},{FRESH},\n" for match in range(3, 13)),
        ),
    }
)


# ---- sheets


def sheet(others: str, **words: str) -> str:
    """A sheet with these words of some matches, as `match_4`, and this one of all others."""
    rows = (f"word,{it},{words.get(f'match_{it}', others)},\n" for it in range(1, 13))
    return CLUBS + "".join(rows)


OLD = "0" * 16
BOTH_LAYOUTS = sheet(OLD, match_1="0000420000000806", match_2="2002000000001001", match_7=FRESH)

# Words of no record are tried by the library, in tests/test_words.py.
test_sheets = tabled(
    {
        "both layouts": ("ucl_night show", BOTH_LAYOUTS, SECOND_SCREEN),
        "no match begun, in the first layout": ("ucl_night show", sheet(OLD), FRESH_SCREEN),
        "no match begun": ("ucl_night show", sheet(FRESH), FRESH_SCREEN),
    }
)

# ---- words of the command line

LINES = {
    "feed": "Ok(Feed)",
    "show": "Ok(Show { group: 65, profile: Uefa })",
    "show --order away-in-tie": "Ok(Show { group: 65, profile: AwayInTie })",
    "night": "Ok(Night { group: 65, readings: 0, profile: Uefa })",
    "night --group B --readings 3": "Ok(Night { group: 66, readings: 3, profile: Uefa })",
    "night --readings 1000": "Ok(Night { group: 65, readings: 1000, profile: Uefa })",
    "night --readings 1001": "",
    "show --group I": "",
    "show --order other": "",
    "": "",
}


@pytest.mark.parametrize("words, asked", LINES.items(), ids=[*LINES])
def test_what_words_ask_for(run: Callable[..., Run], words: str, asked: str) -> None:
    ran = run("ucl_hostile", "refused", "line_of", input=f"ucl_night {words}")
    wanted = f"first None\nkept true\n{asked}\n" if asked else 'first Some(Refused("error: '
    assert (ran.status, ran.errors) == (0, "") and ran.output.startswith(wanted)


# ---- faults

REFUSALS = [
    *("2 finished", "3 not-started", "4 already-started", "5 number-full", "6 no-goal"),
    *("7 no-caution", "8 limit-reached", "9 not-finished"),
]
WITHOUT_A_NUMBER = [
    *("bad word 10", "out of memory 23", "board refused 30"),
    *("out of memory 23", "5 out of memory 23"),
    *("input refused 24: too long", "3 input refused 24: too long"),
    *("5 out of memory 23", "5 no thread 27", "6 board refused 30"),
]


def lines_with(number: int) -> list[str]:
    """The lines of the faults that have room for this number, those of a run behind their exit
    status."""
    found = []
    if number < 1 << 8:
        for line in f"input refused 10: word {number}", f"input refused 21: slot {number}":
            found += [line, f"3 {line}"]
        found += [f"bad word 10: word {number}", f"bad roster 21: slot {number}"]
    if number < 1 << 16:
        line = f"board refused 31: version {number}"
        found += [line, f"6 {line}", f"1 stale {number}", *REFUSALS]
    if number < 1 << 32:
        found += [f"input refused 20: row {number}", f"3 input refused 20: row {number}"]
    reading = f"reading failed 22: after {number} bytes"
    found += [reading, f"4 {reading}", f"4 writing failed 26: after {number} bytes"]
    return [*found, f"3 input refused 25: row {number}"]


# Each slot, word and row of a script of some length; versions and numbers up to the last; the last
# row of the largest input; bytes at which reads end, and the last number that there is.
MORE_NUMBERS = [
    *(9_999, 10_000, 12_276, 16_384, 31_415, 49_140, 65_534, 65_535, 65_536, 299_590),
    *((1 << 22) - 1, 1 << 22, (1 << 32) - 1, 1 << 32, (1 << 64) - 1),
]


def test_lines_and_statuses_of_faults(run: Callable[..., Run]) -> None:
    numbers = [*range(5_000), *MORE_NUMBERS]
    ran = run("ucl_hostile", "faults", input="\n".join(map(str, numbers)))
    wanted = WITHOUT_A_NUMBER + [line for number in numbers for line in lines_with(number)]
    assert (ran.status, ran.errors) == (0, "")
    assert ran.output.splitlines() == wanted


# ---- devices that fail

END_OF_A_NIGHT = "".join(f"{it}\n{FRESH_SCREEN}" for it in ("READER 1", "READER 2", "FINAL"))
# Each run with its input and its output.
RUNS = {
    "feed": (STORED, FED),
    "show": (SHEET, SECOND_SCREEN),
    "night --readings 1": (CLUBS, END_OF_A_NIGHT),
}


@pytest.fixture(scope="session")
def devices(tmp_path_factory: pytest.TempPathFactory) -> pathlib.Path:
    """The library that stands before calls that read and write."""
    conftest.needs("cc")
    path = tmp_path_factory.mktemp("devices") / "devices.so"
    options = ["-shared", "-fPIC", "-O1", "-Wall", "-Werror", "-o", path]
    ended = conftest.command(["cc", *options, conftest.TOP / "tests/devices.c"])
    assert ended == (0, "", "")
    return path


def failing(
    program: Any, devices: pathlib.Path, line: str, reads: int, writes: int, then: str
) -> Run:
    """A run of `ucl_night` whose input fails after so many bytes, and its output after so many."""
    room = {"READ_ROOM": str(reads), "WRITE_ROOM": str(writes), "WRITE_THEN": then}
    environment = {**os.environ, "LD_PRELOAD": str(devices), **room}
    words = [program("ucl_night"), *line.split()]
    return conftest.command(words, RUNS[line][0], env=environment)


@pytest.mark.limit(300)
@pytest.mark.parametrize("then", ["fail", "none"])
@pytest.mark.parametrize("line", RUNS)
def test_output_that_fails_after_any_byte(
    program: Any, devices: pathlib.Path, line: str, then: str
) -> None:
    """Just these bytes are out, and no more is tried, though it would succeed; all are out where no
    call fails, though each takes a few."""
    output = RUNS[line][1]
    for room in range(len(output)):
        ran = failing(program, devices, line, 1 << 30, room, then)
        assert ran == (4, output[:room], f"writing failed 26: after {room} bytes\n")
    assert failing(program, devices, line, 1 << 30, 1 << 30, then) == (0, output, "")


@pytest.mark.parametrize("line", RUNS)
def test_input_that_fails(program: Any, devices: pathlib.Path, line: str) -> None:
    """Nothing is written."""
    length = len(RUNS[line][0])
    for room in {0, 1, 64, min(100, length), length}:
        ran = failing(program, devices, line, room, 1 << 30, "fail")
        assert ran == (4, "", f"reading failed 22: after {room} bytes\n")


# ---- nights

SCREEN_THEN = rf"GROUP A v(\d{{5}}) IN PLAY \d\n{HEAD}(?:\d [-+ ] .{{49}}\n){{4}}"
ENDS = re.compile(f"READER 1\n{SCREEN_THEN}READER 2\n{SCREEN_THEN}FINAL\n{re.escape(WHOLE_SCREEN)}")


def test_fifty_nights(run: Callable[..., Run]) -> None:
    """With 20 readings each, on a word board, which is that of the program, and on a cell board."""
    fed = run("ucl_night", "feed", input=WHOLE).output
    words = "".join(line for line in fed.splitlines(True) if line.startswith("word,"))
    assert run("ucl_night", "show", input=CLUBS + words) == (0, WHOLE_SCREEN, "")
    versions: set[str] = set()
    for _ in range(50):
        ran = run("ucl_night", "night", "--readings", "20", input=WHOLE)
        told = ENDS.fullmatch(ran.output)
        assert told and (ran.status, ran.errors) == (0, "")
        versions.update(told.groups())
        ran = run("ucl_hostile", "refused", "night_run_in_a_cell", "20", input=WHOLE)
        assert ran == (0, f"first None\nkept true\n{WHOLE_SCREEN}", "")
    # Readers look on while events are entered, so that some find one.
    assert versions - {"00000"}
