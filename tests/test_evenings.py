"""`ucl_live`: tables of rows and what is answered to them, as text and in JSON."""

import json

import pytest
from conftest import EXAMPLES, Case, tabled, text_of
from model import CLUBS, FIXTURES, ROSTER, Session, line_of

example = lambda name: text_of(EXAMPLES / name)
AWAY, AWAY_IN_TIE = example("away_goals_night.csv"), "".join(
    example("away_goals_night.away_in_tie").splitlines(True)[-6:]
)

# Rows that no open board takes. Other rows of events are tried as scripts, in tests/test_cases.py.
BAD = [
    *("1,1,0,kick", "1,1,0", "1,1,0,kickoff,", "kickoff", "club,5,Echo,1", "word,1,,"),
    *("mend,0,,", "mend,+5,,", "mend, 5,,", "mend,5,,1", "mend,5,1,", "mend,,,", "mend,5,"),
    *("mend,4294967296,,", "mend,00000000005,,", "mend,,70000,", "mend,5,,,", "group,A,uefa,0"),
    *("group,A,uefa,1", "group,B,uefa,1", "group,A,away-in-tie,1", "screen", "screen,,,,"),
    *("screen,1,,", "words,,,1", "Screen,,,", "matches", "matches,,1,", "match,,,"),
    *('1,1,0,"kickoff', '1,1,0,kickoff"', "1,1,0,kickoff\r2,2,0,kickoff", "\ufeff1,1,0,kickoff"),
    *("\0" + "1,1,0,kickoff", "x" * 257, "x" * 100_000, "\r" * 244 + "1,1,0,kickoff"),
    *('1,1,0,"' + "x" * (length - 8) + '"' for length in (255, 256, 257)),
]
GOOD = [
    *("001,01,00000,kickoff", '"1","1","0","kickoff"', "1,1,0,kickoff\r", '"1",1,0,"kickoff"\r'),
    *("\r" * 242 + "1,1,0,kickoff", "\r" * 243 + "1,1,0,kickoff\r"),
]
LONGEST_CLUBS = "club,1," + "x" * 20 + "," + "0" * 9 + CLUBS[len("club,1,Alpha,60000") :]

test_rows = tabled(
    {
        **{
            f"bad, {row[:30]!r} of {len(row)} bytes": (
                "ucl_live",
                CLUBS + row + "\n1,1,0,kickoff\n",
                "5 refused 20 bad-row\n6 ok 1 1 1\n",
            )
            for row in BAD
        },
        **{
            f"good, {row[:30]!r} of {len(row)} bytes": (
                "ucl_live",
                CLUBS + row + "\n2,2,0,kickoff\n",
                "5 ok 1 1 1\n6 ok 2 1 2\n",
            )
            for row in GOOD
        },
        "lines with nothing on them": (
            "ucl_live",
            CLUBS + "\n\r\n\n1,1,0,kickoff\n",
            "8 ok 1 1 1\n",
        ),
        "a mark at the start": ("ucl_live", "\ufeff" + CLUBS + "1,1,0,kickoff\n", "5 ok 1 1 1\n"),
        "the longest club": ("ucl_live", LONGEST_CLUBS + "1,1,0,kickoff\n", "5 ok 1 1 1\n"),
        "no row": ("ucl_live", CLUBS, ""),
        "a club after an event": (
            "ucl_live",
            CLUBS + "1,1,0,kickoff\nclub,1,Echo,7\n",
            "5 ok 1 1 1\n6 mended 1 1\n",
        ),
    }
)

# What rows after a kick-off in row 5 are answered with.
test_mends = tabled(
    {
        name: ("ucl_live", CLUBS + "1,1,0,kickoff\n" + rows, "5 ok 1 1 1\n" + answers)
        for name, (rows, answers) in {
            "of the event": ("mend,5,,\n", "6 mended 1 0\n"),
            "by quotes and leading zeros": ('"mend","0000000005","",""\n', "6 mended 1 0\n"),
            "of a club": ("mend,4,,\n", "6 refused 11 no-event\n"),
            "of itself": ("mend,6,,\n", "6 refused 11 no-event\n"),
            "of a row to come": (
                "mend,7,,\n2,2,0,kickoff\n",
                "6 refused 11 no-event\n7 ok 2 1 2\n",
            ),
            "of a row that is out": (
                "mend,5,,\nmend,5,,\n",
                "6 mended 1 0\n7 refused 11 no-event\n",
            ),
            "of a refused row": (
                "1,1,0,kickoff\nmend,6,,\n",
                "6 refused 1 stale 1\n7 refused 11 no-event\n",
            ),
            "of what others need": (
                "1,1,1,goal-home\n2,2,0,kickoff\nmend,5,,\n",
                "6 ok 1 2 2\n7 ok 2 1 3\n8 mended 1 1\n",
            ),
            "as a later edition": ("mend,,15,\n", "6 mended 15 1\n"),
            "as the same edition": ("mend,,0,\n", "6 refused 12 last-edition\n"),
            "past the last edition": (
                "mend,,65535,\nmend,5,,\nmend,9,,\nclub,1,Echo,7\n",
                "6 mended 65535 1\n7 refused 12 last-edition\n8 refused 12 last-edition\n9 refused 12 last-edition\n",
            ),
        }.items()
    }
)

CLUB = CLUBS.splitlines(True)

# What names no clubs; single clubs are tried as those of scripts, in tests/test_cases.py.
test_beginnings_that_are_refused = tabled(
    {
        name: ("ucl_live", text, "", 3, f"input refused {fault}\n")
        for name, (text, fault) in {
            "nothing": ("", "20: row 1"),
            "a quote that stays open": ('club,1,"Alp', "20: row 1"),
            "three clubs": ("".join(CLUB[:3]), "20: row 4"),
            "an empty line among the clubs": (CLUB[0] + "\n" + CLUB[2], "20: row 3"),
            "a club twice": (CLUB[0] * 2, "20: row 2"),
            "an event among the clubs": ("".join(CLUB[:3]) + "1,1,0,kickoff\n", "20: row 4"),
            "a name and then a coefficient": (
                CLUBS.replace("Alpha", "").replace("81500", "1e5"),
                "20: row 4",
            ),
            "a coefficient in slot 2 and a name in slot 3": (
                CLUBS.replace("95000", "1000000").replace("Charlie", ""),
                "21: slot 2",
            ),
        }.items()
    }
)


@pytest.mark.limit(30)
def test_half_a_row(start):
    """A row is complete at its line feed, and the last one at the end."""
    evening = start("ucl_live")
    evening.write(CLUBS + "1,1,0,kickoff\n1,1,1,goal")
    assert evening.lines() == "5 ok 1 1 1\n"
    evening.write("-home\n")
    assert evening.lines() == "6 ok 1 2 2\n"
    evening.write("screen,,")
    assert evening.end() == (0, "7 refused 20 bad-row\n", "")


@pytest.mark.parametrize(
    "row, field, text",
    [
        ("1,1,0,kickoff,", "fields", "1,1,0,kickoff,"),
        ('"1,1', "fields", '\\"1,1'),
        ("0,13,x,kick-off", "reporter", "0,13,x,kick-off"),
        ("help,,,", "reporter", "help,,,"),
        ("1,13,x,kick-off", "match", "1,13,x,kick-off"),
        ("1,1,,kick-off", "expected", "1,1,,kick-off"),
        ('"1",01,0,Kickoff', "event", '\\"1\\",01,0,Kickoff'),
        ("1,1,0,kick\toff", "event", "1,1,0,kick"),
        ("\u00e9", "fields", ""),
        ("1,1,0," + "x" * 58, "event", "1,1,0," + "x" * 58),
        ("1,1,0," + "x" * 59, "event", "1,1,0," + "x" * 58),
        ("9" * 9000, "fields", "9" * 64),
    ],
)
def test_bad_rows_in_json(run, row, field, text):
    """The first field that is none of an event, and the row up to its first byte that is not printable ASCII, at most 64 bytes."""
    wanted = f'{{"code":20,"field":"{field}","name":"bad-row","reply":"refused","row":5,"text":"{text}"}}\n'
    assert run("ucl_live", "--format", "json", input=CLUBS + row + "\r\n") == (0, wanted, "")


def test_json(run):
    """Each answer is one line, and says what it says as text; these are worked out, and others go by the rules in test_random.py."""
    rows = "1,1,0,kickoff\n1,1,0,kickoff\nx\n2,2,0,goal-home\nwords,,,\nmatches,,,\n"
    names = dict(zip(range(1, 5), ['Al"p\\h/a', "Bravo", "Charlie", "Delta"]))
    clubs = [{"club": names[slot], "coefficient": it} for slot, (_, it) in enumerate(ROSTER, 1)]
    words = ["2001000000001001"] + ["2000000000000000"] * 11
    none = dict.fromkeys("won lost goals_for goals_against goal_difference".split(), 0)
    table = [
        {"place": place, "mark": "", "slot": slot, "club": names[slot], **none}
        | dict.fromkeys(["played", "drawn", "points"], points)
        for place, (slot, points) in enumerate([(2, 1), (3, 1), (4, 0), (1, 0)], 1)
    ]
    level = {"score": [0, 0], "yellows": [0, 0], "expulsions": [0, 0]}
    matches = [
        {"match": game, "home": home, "away": away, **level}
        | ({"number": 1, "reporter": 1, "state": "IN PLAY"} if game == 1 else {})
        | ({"number": 0, "reporter": 0, "state": "SCHEDULED"} if game > 1 else {})
        for game, (home, away) in enumerate(FIXTURES, 1)
    ]
    event = {"reporter": 1, "match": 1, "expected": 0, "event": "kickoff"}
    other = {"reporter": 2, "match": 2, "expected": 0, "event": "goal-home"}
    board = {"group": "C", "order": "uefa", "edition": 0, "version": 1, "in_play": 1}
    board |= {"clubs": clubs, "words": words, "table": table, "matches": matches}
    stale = {"code": 1, "name": "stale", "number": 1, "stands": matches[0]}
    lines = [
        {"reply": "ok", "row": 5, **event, "number": 1, "version": 1, "edition": 0},
        {"reply": "screen", "row": 5, **board},
        {"reply": "refused", "row": 6, **event, **stale},
        {
            "reply": "refused",
            "row": 7,
            "code": 20,
            "name": "bad-row",
            "field": "fields",
            "text": "x",
        },
        {"reply": "refused", "row": 8, **other, "code": 3, "name": "not-started"},
        {"reply": "words", "row": 9, "words": words},
        {"reply": "matches", "row": 10, "clubs": clubs, "matches": matches},
    ]
    first = '{"edition":0,"event":"kickoff","expected":0,"match":1,"number":1,"reply":"ok",'
    wanted = first + '"reporter":1,"row":5,"version":1}\n' + "".join(map(line_of, lines[1:]))
    words, text = "--format json --screens --group C".split(), CLUBS.replace(
        "Alpha", '"Al""p\\h/a"'
    )
    assert run("ucl_live", *words, input=text + rows) == (0, wanted, "")
    assert Session(words).of(text + rows) == (0, wanted, "")


# ---- what JSON says, and what the text says

# A record of three editions, what is answered to its rows, and its table.
RECORD = "group,B,uefa,1\n" + CLUBS + "1,1,0,kickoff\n1,1,1,goal-home\nmend,7,,\n"
RECORD += 'club,2,Real Madrid,"61000"\n2,1,1,goal-away\n'
ANSWERS = "6 ok 1 1 1\n7 ok 1 2 2\n8 mended 2 1\n9 mended 3 1\n10 ok 1 2 2\n"
TABLE = """GROUP B v00002 IN PLAY 1
    Club                  P  W  D  L  GF  GA   GD Pts
1   Charlie               1  1  0  0   1   0   +1   3
2   Delta                 0  0  0  0   0   0   +0   0
3   Alpha                 0  0  0  0   0   0   +0   0
4   Real Madrid           1  0  0  1   0   1   -1   0
"""


HEAD = """GROUP {group} v{version:05} IN PLAY {in_play}
    Club                  P  W  D  L  GF  GA   GD Pts
"""
PLACE = "{place} {:1} {club:20}{played:>3}{won:>3}{drawn:>3}{lost:>3}"
PLACE += "{goals_for:>4}{goals_against:>4}{goal_difference:>+5}{points:>4}\n"
MATCH = "match {match:>2} v{number:04} {state:9} {:>2}-{} Y {}-{} E {}-{} by {reporter:>3} "
MATCH += "{} v {}\n"
SHORT = {
    "ok": "{row} ok {match} {number} {version}\n",
    "refused": "{row} refused {code} {name}{found}\n",
    "mended": "{row} mended {edition} {version}\n",
    "left-out": "",
}


def match_said(match, clubs):
    """The line that the members of a match say."""
    sides = (clubs[slot - 1]["club"] for slot in FIXTURES[match["match"] - 1])
    return MATCH.format(*match["score"], *match["yellows"], *match["expulsions"], *sides, **match)


def said(members):
    """The text that the members of an answer say, in the forms of docs/REFERENCE.md."""
    reply = members["reply"]
    if reply in SHORT:
        found = f" {members['number']}" if "number" in members else ""
        return SHORT[reply].format(found=found, **members)
    if reply == "words":
        return "".join(f"word,{game},{word},\n" for game, word in enumerate(members["words"], 1))
    if reply == "matches":
        return "".join(match_said(it, members["clubs"]) for it in members["matches"])
    places = (PLACE.format(it["mark"], **it) for it in members["table"])
    return HEAD.format(**members) + "".join(places)


REFUSED = """1,1,0,kickoff
1,1,0,goal-home
1,1,1,kickoff
1,2,0,goal-home
1,1,1,reopen
1,1,1,disallow-away
1,1,1,second-yellow-home
1,1,1,fulltime
1,1,2,goal-home
x
"""
REPLIES = """5 ok 1 1 1
6 refused 1 stale 1
7 refused 4 already-started
8 refused 3 not-started
9 refused 9 not-finished
10 refused 6 no-goal
11 refused 7 no-caution
12 ok 1 2 2
13 refused 2 finished
14 refused 20 bad-row
"""
GOALS = "".join(f"9,3,{number},goal-away\n" for number in range(1, 65))
PLAYED = CLUBS + "1,1,0,kickoff\n2,1,1,goal-home\n2,1,2,yellow-away\n255,1,3,red-home\n"
NAMES = {name[0]: name for name, _ in ROSTER}
MATCHES = "match  1 v0004 IN PLAY    1-0 Y 0-1 E 1-0 by 255 Bravo v Charlie\n" + "".join(
    f"match {game:>2} v0000 SCHEDULED  0-0 Y 0-0 E 0-0 by   0 {NAMES[home]} v {NAMES[away]}\n"
    for game, (home, away) in enumerate("DA AB CD CA BD AC DB CB AD BA DC".split(), 2)
)
ASKED = {
    **{
        name: ("", example(f"{name}.csv") + "words,,,\n", example(f"{name}.expected"))
        for name in ("one_goal", "reopened")
    },
    **{
        f"{name}, and its screen": (
            " --group H",
            example(f"{name}.csv") + "words,,,\nscreen,,,\n",
            example(f"{name}.expected")
            + example(f"{name}_sheet.expected").replace("GROUP A", "GROUP H"),
        )
        for name in ("two_matches", "head_to_head", "plus_lost")
    },
    "an order": (
        " --order away-in-tie",
        AWAY + "screen,,,\n",
        "".join(Session([]).of(AWAY)[1]) + AWAY_IN_TIE,
    ),
    "refusals": ("", CLUBS + REFUSED, REPLIES),
    "too many goals": (
        "",
        CLUBS + "1,3,0,kickoff\n" + GOALS,
        "".join(f"{n + 4} ok 3 {n} {n}\n" for n in range(1, 65)) + "69 refused 8 limit-reached\n",
    ),
    "matches": (
        "",
        PLAYED + "matches,,,\n",
        "5 ok 1 1 1\n6 ok 1 2 2\n7 ok 1 3 3\n8 ok 1 4 4\n" + MATCHES,
    ),
    "editions": ("", RECORD + "screen,,,\n", ANSWERS + TABLE),
    "screens": (" --screens", RECORD, Session(["--screens"]).of(RECORD)[1]),
}

test_text = tabled({name: ("ucl_live" + words, *more) for name, (words, *more) in ASKED.items()})


@pytest.mark.quick
@pytest.mark.parametrize(
    "case, text",
    [
        (Case("ucl_live", ("--format", "json", *words.split()), rows), text)
        for words, rows, text in ASKED.values()
    ],
    ids=list(ASKED),
)
def test_json_says_what_the_text_says(run, case, text):
    """Each answer, member by member: numbers, names, words, columns of the screen and parts of a match's line."""
    answers = run(case.program, *case.words, input=case.input)
    assert (answers.status, answers.errors) == (0, "")
    assert "".join(said(json.loads(line)) for line in answers.output.splitlines()) == text
