"""With ample memory no call says that there is none, and no night that there is no thread: at its largest input, and at random smaller ones.

What a call does at a length or a number that no test has come to is not seen here. `test_memory.py` refuses requests, and has the calls answer so.
"""

import ctypes as c
import json
import random
import re

import model
import pytest
from hypothesis import example, given, settings
from hypothesis import strategies as st
from test_library import board, library  # noqa: F401, fixtures

LARGEST, MOST_READINGS = 4_194_304, 1000
# Bytes of an input: near the powers of two, at which lists grow and reads end, and all over.
POWERS = st.integers(8, 21).map(lambda power: 1 << power)
LENGTHS = st.integers(200, LARGEST) | st.tuples(POWERS, st.integers(-2, 2)).map(sum)
FEW = settings(max_examples=settings.default.max_examples // 5)
pytestmark = pytest.mark.limit(300)


def busy_night():
    """A script as long as an input may be: each match of one reporter, who enters what the rules take until its number is full, and then stale rows."""
    rows, size = [model.CLUBS], len(model.CLUBS)
    for number in range(4094):
        for match in range(1, 13):
            event = "kickoff" if number == 0 else "goal-home" if number % 2 else "disallow-home"
            rows.append(f"{1 + match % 2},{match},{number},{event}\n")
            size += len(rows[-1])
    rows.append("1,2,1,kickoff\n" * ((LARGEST - size) // 14))
    return "".join(rows)


NIGHT = busy_night()
# The rows that the rules take: each match has the number 4,094.
FULL = NIGHT.split("1,2,1,kickoff")[0]


def cut_to(length):
    """A beginning of the script, of whole rows, with so many bytes at most."""
    return NIGHT[: NIGHT.rfind("\n", 0, max(length, len(model.CLUBS))) + 1]


def test_screen_of_each_version(board):
    """The screen and its line of JSON, of boards that have each version that there is."""
    made, length, at = c.create_string_buffer(board.JSON_ROOM), c.c_size_t(), c.c_uint32()
    words, clubs = (c.c_uint64 * 12)(*[board.SCHEDULED_WORD] * 12), board.clubs_of(model.ROSTER)
    for version in range(12 * 4095 + 1):
        game = max(version - 1, 0) // 4095
        number = version - 4095 * game
        if version and number:
            words[game] = 0x2001 << 48 | (2 if number > 1 else 1) << 12 | number
        given = words, 12, clubs, 4, ord("A"), version % 2, made, board.JSON_ROOM, length, at
        assert board.screen(*given) == 0, version
        assert made.raw.startswith(f"GROUP A v{version:05d} ".encode())
        assert board.screen_json(version, *given) == 0, version
        assert made.raw.startswith(b'{"clubs":')


@FEW
@given(length=LENGTHS)
def test_script_of_any_length(board, length):
    replies = board.play(NIGHT[:length].rpartition("\n")[0].encode())[2]
    assert len(replies) == max(cut_to(length).count("\n") - 4, 0)


def test_beginnings_of_a_script(program, run):
    """As a script and as a sheet, one by one up to a length that a reading comes to in three pieces."""
    length = 36_000
    assert run("ucl_hostile", "ample", input=NIGHT[:length]) == (0, f"{length} beginnings\n", "")


@FEW
@example(length=LARGEST, readings=MOST_READINGS)
@given(length=LENGTHS, readings=st.integers(0, MOST_READINGS))
def test_night_of_any_length(run, length, readings):
    """It ends with the screen of the words after its rows."""
    text = cut_to(length)
    fed = run("ucl_night", "feed", input=text)
    sheet = "".join(line for line in fed.output.splitlines(True) if line.startswith("word,"))
    shown = run("ucl_night", "show", input=model.CLUBS + sheet)
    night = run("ucl_night", "night", "--readings", str(readings), input=text)
    assert [(it.status, it.errors) for it in (fed, shown, night)] == [(0, "")] * 3
    assert night.output.endswith("FINAL\n" + shown.output)


@pytest.mark.limit(900)
def test_nights_of_each_group_and_number_of_readings(run):
    """Each ends as it has to, whatever is against it, and its gate sees all calls and screens; also at versions from the first to the last."""
    seed, text = random.randrange(1 << 32), FULL.replace("\n2,", "\n1,")
    ran = run("ucl_hostile", "nights", str(seed), str(MOST_READINGS), input=text)
    assert ran == (0, "all nights are right\n", ""), f"seed {seed}"


@pytest.mark.parametrize(
    "call, text",
    [("night_run_in_a_cell", NIGHT), ("run_steps", "x" * 20_000)],
    ids=lambda it: it[:20],
)
def test_call_with_its_largest_input(program, run, call, text):
    ran = run("ucl_hostile", "refused", call, input=text)
    assert (ran.status, ran.errors) == (0, "") and ran.output.startswith("first None\nkept true\n")


EVENING = model.CLUBS + "1,1,0,kickoff\n"


@pytest.mark.parametrize("words", [[], ["--format", "json"], ["--screens"]], ids=" ".join)
def test_long_evening(run, words):
    """Of 1,100,000 rows, most of them bad, with requests of each kind at random rows and near the end; the last row has no line feed."""
    rows, draw = ["x\n"] * 1_100_000, random.Random(7)
    for row in [*draw.sample(range(len(rows) - 10), 2_000), *range(len(rows) - 10, len(rows))]:
        rows[row] = draw.choice(["screen,,,\n", "words,,,\n", "matches,,,\n", "1,1,1,goal-home\n"])
    ran = run("ucl_live", *words, input=EVENING + "".join(rows) + "x")
    assert (ran.status, ran.errors) == (0, "") and "1100006" in ran.output[-200:]


@pytest.mark.parametrize("words", [[], ["--format", "json"]], ids=" ".join)
def test_mends_up_to_a_full_board(run, words):
    """Each match in turn has all its events, and is mended at some numbers on the way, at the last ones also beside the full matches before it."""
    rows, wanted, version = [model.CLUBS], [], 0
    for match in range(1, 13):
        for number in range(4_095):
            event = "kickoff" if number == 0 else "goal-home" if number % 2 else "disallow-home"
            rows.append(f"1,{match},{number},{'fulltime' if number == 4_094 else event}\n")
            version += 1
            if number in (0, 1, 1_500, 4_093, 4_094):
                edition = len(wanted) + 1
                rows.append(f"mend,,{edition},\n")
                wanted.append((len(rows) + 3, edition, version))
    ran = run("ucl_live", *words, input="".join(rows))
    if words:
        lines = map(json.loads, re.findall(r".*mended.*", ran.output))
        told = [(it["row"], it["edition"], it["version"]) for it in lines]
    else:
        lines = re.findall(r"^(\d+) mended (\d+) (\d+)$", ran.output, re.M)
        told = [tuple(map(int, line)) for line in lines]
    assert (ran.status, ran.errors, told) == (0, "", wanted)


def test_kick_off_is_left_out_of_a_full_board(run):
    """And with it all events of its match; the other matches keep theirs."""
    ran = run("ucl_live", "--format", "json", input=FULL + "mend,5,,\n")
    *left_out, members = map(json.loads, ran.output.splitlines()[-4_094:])
    told = [(it["reply"], it["row"], it["code"], it["name"]) for it in left_out]
    assert told == [("left-out", row, 3, "not-started") for row in range(17, 4 + 12 * 4_094, 12)]
    assert (members["left_out"], members["version"]) == (4_093, 11 * 4_094)


@pytest.fixture(scope="module")
def screens(run):
    """The screens in JSON of an evening of all events that matches have room for."""
    evening = run("ucl_live", "--format", "json", "--screens", input=FULL)
    return [line for line in evening.output.splitlines(True) if '"reply":"screen"' in line]


@pytest.mark.parametrize("words", [[], ["--format", "json"], ["--matches"]], ids=" ".join)
def test_following_of_each_version(run, screens, words):
    """Each is shown; of lines of each length that is read, none is."""
    odd = ["x" * length + "\n" for length in range(4_200)]
    ran = run("ucl_follow", *words, input="".join(screens + odd * 4))
    told = "65928 lines, 49128 shown, 16800 passed over\n"
    assert (ran.status, ran.errors) == (0, told)
