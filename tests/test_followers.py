"""`ucl_follow`: the answers of an evening are followed, whatever becomes of their lines."""

import concurrent.futures
import json
import random
import tempfile
import time

import pytest
from conftest import EXAMPLES, Started, command, decoded, tabled, text_of
from model import CLUBS, Session, followed, random_rows

NIGHT = text_of(EXAMPLES / "group_a_2021_night.csv")
GOAL = CLUBS + "1,1,0,kickoff\n1,1,1,goal-home\n"


def answers_of(text, *words):
    """The lines of JSON that a follower is given."""
    return Session(["--format", "json", "--screens", *words]).of(text)[1]


def screens_of(text, *words):
    """The table after each row that changes it."""
    lines = Session(["--screens", *words]).of(text)[1].splitlines(True)
    return "".join(it for it in lines if " ok " not in it and " refused " not in it)


ANSWERS, SCREENS = answers_of(NIGHT), screens_of(NIGHT)
LINES = ANSWERS.splitlines(True)
LAST = "".join(SCREENS.splitlines(True)[-6:])
FIRST, SECOND = answers_of(GOAL).splitlines(True)[1::2]
SCREEN, BOTH = screens_of(CLUBS + "1,1,0,kickoff\n"), screens_of(GOAL)
COUNT = SCREENS.count("GROUP")
MATCHES = Session([]).of(GOAL.replace("\n1,1,1", "\nmatches,,,\n1,1,1") + "matches,,,\n")[1]
MATCHES = "".join(it for it in MATCHES.splitlines(True) if " ok " not in it)


def follows(text, output, words="", others="", shown=None):
    """A case: a follower that is given these words shows this of a text, and tells of others."""
    lines, shown = text.count("\n"), output.count("GROUP") if shown is None else shown
    told = f"{lines} lines, {shown} shown, {lines - shown} passed over\n"
    return f"ucl_follow {words}", text, output, 0, others + told


def in_edition(edition, line):
    """A line of this edition, in which a club has another name."""
    return line.replace('"edition":0', f'"edition":{edition}').replace("Alpha", "Alfa!")


def renamed(screen):
    """A table of an edition in which a club has another name."""
    return screen.replace("Alpha", "Alfa!")


def of_other(line, group, order="uefa"):
    """A line of another group or order."""
    line = line.replace('"group":"A"', f'"group":"{group}"')
    return line.replace('"order":"uefa"', f'"order":"{order}"')


def other(line, group, order="uefa"):
    """What is told of a line of another group or order."""
    return f"line {line}: group {group}, order {order}, is passed over\n"


OTHERS = [(group, order) for group in "ABCDEFGH" for order in ("uefa", "away-in-tie")][1:]
OF_OTHERS = [of_other(line, *it) for it in OTHERS for line in (FIRST, SECOND)]
TIE = "A", "away-in-tie"

test_answers = tabled(
    {
        "as it stands": follows(ANSWERS, SCREENS),
        "of group C": follows(
            answers_of(NIGHT, "--group", "C"), SCREENS.replace("GROUP A", "GROUP C")
        ),
        "by away goals in a tie": follows(
            answers_of(NIGHT, "--order", "away-in-tie"), screens_of(NIGHT, "--order", "away-in-tie")
        ),
        "doubled": follows("".join(line * 2 for line in LINES), SCREENS),
        "backwards": follows("".join(LINES[::-1]), LAST),
        "in JSON, of which each line is that of the evening": follows(
            ANSWERS, followed(["json"], ANSWERS)[1], "--format json", shown=COUNT
        ),
        "the matches": follows(FIRST + SECOND, MATCHES, "--matches", shown=2),
        "the matches of a whole evening": follows(
            ANSWERS, followed(["--matches"], ANSWERS)[1], "--matches", shown=COUNT
        ),
        "a follower followed": follows(followed(["json"], ANSWERS)[1], SCREENS),
        "a line without an end": follows(FIRST + SECOND[:-1], SCREEN),
        "nothing": follows("", ""),
        "an edition of a lower version, with clubs of its own": follows(
            FIRST + SECOND + in_edition(1, FIRST) + SECOND, BOTH + renamed(SCREEN)
        ),
        "an older edition, of a higher version": follows(
            in_edition(2, FIRST) + in_edition(1, SECOND) + SECOND, renamed(SCREEN)
        ),
        "the last edition": follows(
            in_edition(65535, FIRST) + in_edition(65534, SECOND), renamed(SCREEN)
        ),
        "old answers, without editions": follows(ANSWERS.replace('"edition":0,', ""), SCREENS),
        "the group of the first moment": follows(
            FIRST + of_other(SECOND, "C") + SECOND, BOTH, others=other(2, "C")
        ),
        "the order of the first moment": follows(
            FIRST + of_other(SECOND, *TIE) + SECOND, BOTH, others=other(2, *TIE)
        ),
        "a group that is asked for": follows(
            of_other(FIRST, "C") + FIRST + SECOND, BOTH, "--group A", other(1, "C")
        ),
        "an order that is asked for": follows(
            of_other(FIRST, *TIE) + FIRST + SECOND, BOTH, "--order uefa", other(1, *TIE)
        ),
        "an order alone, and the first group of it": follows(
            FIRST + of_other(SECOND, "B"), SCREEN, "--order uefa", other(2, "B")
        ),
        "each other group and order, told once": follows(
            FIRST + "".join(OF_OTHERS) + SECOND,
            BOTH,
            others="".join(other(2 * at, *it) for at, it in enumerate(OTHERS, 1)),
        ),
        "a later edition of another group": follows(
            FIRST + in_edition(1, of_other(FIRST, "C")) + SECOND, BOTH, others=other(2, "C")
        ),
        "none of the group": follows(FIRST + SECOND, "", "--group B", other(1, "A")),
    }
)

TITLED = "group,C,away-in-tie,1\n"
DIFFERS = "", 2, "error: the row of the group differs from --group or --order\n"
REFUSED = [
    *("group,I,uefa,1", "group,,uefa,1", "group,AB,uefa,1", "group,A,goals,1", "group,A,uefa"),
    *("group,A,uefa,65536", "group,A,uefa,", "group,A,uefa,-1", "group,A,uefa,000001"),
    "group,A,uefa,1,",
]


def refused(text, fault, line="ucl_live"):
    """A case of an input that is refused."""
    return line, text, "", 3, f"input refused {fault}\n"


test_rows_of_a_group = tabled(
    {
        "asked for": (
            "ucl_live --group C --order away-in-tie",
            TITLED + NIGHT,
            Session([]).of(TITLED + NIGHT)[1],
        ),
        "another group than was asked for": ("ucl_live --group A", TITLED + NIGHT, *DIFFERS),
        "another order than was asked for": ("ucl_live --order uefa", TITLED + NIGHT, *DIFFERS),
        "twice": refused(TITLED * 2 + NIGHT, "20: row 2"),
        "after a club": refused(CLUBS[: CLUBS.index("\n") + 1] + TITLED, "20: row 2"),
        "alone": refused(TITLED, "20: row 2"),
        "before a name that is none": refused(
            TITLED + NIGHT.replace("Manchester City", "M" * 21), "21: slot 2"
        ),
        **{f"a bad one, {row!r}": refused(f"{row}\n{NIGHT}", "20: row 1") for row in REFUSED},
        "in a script of nights": refused(TITLED + NIGHT, "20: row 1", "ucl_night feed"),
    }
)

VALUE = json.loads(SECOND)
WORDS = VALUE["words"]


def changed(**members):
    """The second line with other members."""
    return json.dumps({**VALUE, **members}, ensure_ascii=False) + "\n"


def first_club(**members):
    """The second line with another first club."""
    return changed(clubs=[{**VALUE["clubs"][0], **members}, *VALUE["clubs"][1:]])


def of_length(length):
    """The second line with a member more, so many bytes long."""
    return changed(more="x" * (length + 1 - len(changed(more=""))))


BAD = [
    *("\n", "{}\n", "[]\n", "null\n", "x\n", "\udcff\udcfe\n", "\0\n", "[" * 4000 + "\n"),
    *(SECOND[:-1] + "}\n", of_length(4097), of_length(9000), "x" * 100_000 + "\n"),
    *(SECOND[:at] + "\n" for at in range(0, len(SECOND) - 1, 37)),
    *(
        json.dumps({name: it for name, it in VALUE.items() if name != member}) + "\n"
        for member in ("group", "order", "clubs", "words")
    ),
    *(changed(group=it) for it in ("I", "AB", "", 1)),
    *(changed(order="goals"), changed(clubs=VALUE["clubs"][:3])),
    *(changed(words=it) for it in ("2" * 16, WORDS[:11], WORDS + WORDS[-1:])),
    *(changed(words=[it, *WORDS[1:]]) for it in ("f" * 16, "2" * 15)),
    *(changed(edition=it) for it in (-1, 65536, "1", 0.5, None)),
    *(first_club(club=it) for it in ("", "Málaga", "x" * 21)),
    *(first_club(coefficient=it) for it in (1_000_000, 2**32, 1.5, -1, "7")),
]
GOOD = {
    "spaces": json.dumps(VALUE, separators=(" , ", " : ")) + "\r\n",
    "4,096 bytes": of_length(4096),
    "other members": json.dumps({"\u00e9": [{}], **VALUE, "version": 77}, ensure_ascii=False)
    + "\n",
    "no edition": SECOND.replace('"edition":0,', ""),
    "doubled members": '{"words":1,' + SECOND[1:],
}

test_lines = tabled(
    {
        **{
            f"{number} {line[:40]!r} is passed over": follows(FIRST + line, SCREEN)
            for number, line in enumerate(BAD)
        },
        "all of them are passed over": follows(FIRST + "".join(BAD) + SECOND, BOTH),
        **{f"{name}, shown": follows(FIRST + line, BOTH) for name, line in GOOD.items()},
    }
)


def test_evenings_killed_a_thousand_times_are_answered_the_same_again(program):
    """Each reads the record anew: what is left of its answers is how those of the whole record begin, and a follower of it all ends with the table."""
    live, whole = [program("ucl_live"), "--format", "json", "--screens"], answers_of(NIGHT)

    def left(seed):
        """What is left of the answers of an evening that is killed."""
        with tempfile.TemporaryFile() as file, Started(live, stdout=file) as evening:
            evening.write(NIGHT)
            time.sleep(random.Random(seed).random() / 100)
            evening.kill()
            evening.wait()
            file.seek(0)
            return decoded(file.read())

    with concurrent.futures.ThreadPoolExecutor() as evenings:
        texts = list(evenings.map(left, range(1_000)))
    assert all(map(whole.startswith, texts)) and any(0 < len(text) < len(whole) for text in texts)
    ran = command([program("ucl_follow")], "\n".join([*texts[:20], whole]))
    assert ran.output.endswith(LAST)


MENDS = ["mend,6,,", "mend,9,,", "mend,30,,", "mend,,7,", "mend,,2,", "club,2,Real Madrid,95000"]
JUNK = ["\n", "hello\n", "{}\n", FIRST[:900] + "\n", of_other(FIRST, "C"), "\udcff\n"]


def table_at(rows, place):
    """The table of the moment after so many rows of a record; empty before the board is open."""
    lines = Session([]).of("".join([*rows[:place], "screen,,,\n"]))[1].splitlines(True)
    return "".join(lines[-6:])


@pytest.mark.parametrize("seed", range(25))
def test_each_table_is_that_of_one_moment(program, seed):
    """Of a record with mends, whose answers come in any order, doubled, lost, cut and with junk between, the tables are those of places that rise, the last the newest that came."""
    chance = random.Random(seed)
    events = random_rows(chance, 60)
    for _ in range(6):
        events.insert(chance.randint(1, len(events)), chance.choice(MENDS) + "\n")
    rows = [*CLUBS.splitlines(True), *events]
    live = [program("ucl_live"), "--format", "json", "--screens"]
    answers = command(live, "".join(rows)).output.splitlines(True)
    came = [chance.choice(answers[: max(10, at * 3)]) for at in range(60)]
    for at in chance.sample(range(60), 20):
        came[at] = chance.choice([*JUNK, came[at][: chance.randint(1, 400)] + "\n"])
    tables = [table_at(rows, place) for place in range(len(rows) + 1)]
    place, ran = 0, command([program("ucl_follow"), "--group", "A"], "".join(came))
    shown = ran.output.splitlines(True)
    for at in range(0, len(shown), 6):
        place = tables.index("".join(shown[at : at + 6]), place + 1)
    screens = [json.loads(line) for line in came if line in answers and '"reply":"screen"' in line]
    newest = max(screens, key=lambda it: (it["edition"], it["version"]))
    assert shown and "".join(shown[-6:]) == tables[newest["row"]]
