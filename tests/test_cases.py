"""`ucl_night`, and the words, helps and versions of all programs: tables of command line, input, output, status, errors."""

import itertools
import os
import re
import resource
import subprocess

import pytest
from conftest import EXAMPLES, TOP, Has, command, needs, tabled, text_of
from model import CLUBS

example = lambda name: text_of(EXAMPLES / name)
WHOLE, FINAL = example("head_to_head.csv"), "FINAL\n" + example("head_to_head_sheet.expected")
SHEET, SECOND_SCREEN = example("two_matches_sheet.csv"), example("two_matches_sheet.expected")
AWAY, AWAY_IN_TIE = example("away_goals_night.csv"), example("away_goals_night.away_in_tie")

# ---- inputs that are refused: nothing goes to standard output

LARGE_COEFFICIENT = CLUBS.replace("Charlie,60000", "Charlie,1000000")
ODD_NAMES = {"in UTF-8": "Málaga", "of a byte 0xff": "\udcff", "of two lines": '"Al\npha"'}
# What stands beside a name that is none: row 4, the rows after it, and the fault.
BESIDE = {
    "alone": ("club,4", "", "21: slot 1"),
    "and row 5 is bad": ("club,4", "bad\n", "21: slot 1"),
    "and row 4 is bad": ("club,5", "", "20: row 4"),
}
ROWS = [
    *("1,13,0,kickoff", "1,0,0,kickoff", "0,1,0,kickoff", "256,1,0,kickoff", "1,1,65536,kickoff"),
    *("1,1,000000,kickoff", "1,1,+0,kickoff", "1,1,0,kick", "club,5,Echo,1", "1,1,0,kickoff,"),
    *("1,1,0", "1, 1,0,kickoff", "1,1,0,Kickoff", "word,1,2000000000000000,"),
]
FRESH = [f"word,{number},2000000000000000,\n" for number in range(1, 13)]
first_word = lambda old, new: CLUBS + FRESH[0].replace(old, new) + "".join(FRESH[1:])
NO_WORDS = CLUBS + "".join(
    row.replace("2000000000000000", "F" * 16) if number in (3, 7) else row
    for number, row in enumerate(FRESH, 1)
)
REFUSED = {
    "feed": {
        "nothing": ("", "20: row 1"),
        "a quote that stays open": ('club,1,"Alp', "20: row 1"),
        "the names of columns": ("club,slot,name,coefficient\n" + CLUBS, "20: row 1"),
        "semicolons": (CLUBS.replace(",", ";"), "20: row 1"),
        "three clubs": (CLUBS[: CLUBS.index("club,4")], "20: row 4"),
        "a coefficient of ten digits": (CLUBS.replace("95000", "0000095000"), "20: row 2"),
        "a name of 21 bytes and a coefficient past 999,999": (
            LARGE_COEFFICIENT.replace("Bravo", "Bravo Bravo Bravo Bra"),
            "21: slot 2",
        ),
        "a coefficient past 999,999": (LARGE_COEFFICIENT, "21: slot 3"),
        "a name of 21 quotes": (CLUBS.replace("Delta", 44 * '"'), "21: slot 4"),
        "an empty name": (CLUBS.replace("Bravo", ""), "21: slot 2"),
        **{f"row 5 is {row}": (CLUBS + row + "\n", "20: row 5") for row in ROWS},
        **{
            f"a name {kind}, {beside}": (
                CLUBS.replace("Alpha", name).replace("club,4", row_4) + more,
                fault,
            )
            for kind, name in ODD_NAMES.items()
            for beside, (row_4, more, fault) in BESIDE.items()
        },
    },
    "night": {"a third reporter": (WHOLE + "3,1,0,kickoff\n", "25: row 45")},
    "show": {
        "a row too many": (CLUBS + "".join(FRESH) + FRESH[11], "20: row 17"),
        "a row too few": (CLUBS + "".join(FRESH[:11]), "20: row 16"),
        "a word of 15 digits": (first_word("0,\n", ",\n"), "20: row 5"),
        "a word with the letter g": (first_word("0,\n", "g,\n"), "20: row 5"),
        "a word under another number": (first_word(",1,", ",2,"), "20: row 5"),
        "a fifth field": (first_word("0,\n", "0,,\n"), "20: row 5"),
        "words of no record": (NO_WORDS, "10: word 3"),
        "words of no record and a row too many": (NO_WORDS + FRESH[11], "20: row 17"),
    },
}

test_inputs_that_are_refused = tabled(
    {
        f"{word}, {name}": (f"ucl_night {word}", text, "", 3, f"input refused {fault}\n")
        for word, inputs in REFUSED.items()
        for name, (text, fault) in inputs.items()
    }
)

# ---- inputs that are taken

# 20ffffffffffe3ff in all matches, as it was in the first layout of words.
LARGEST_WORDS = CLUBS + "".join(f"word,{number},003FFFFFFFFFFBFF,\n" for number in range(1, 13))
LARGEST_SCREEN = """GROUP A v12276 IN PLAY 0
    Club                  P  W  D  L  GF  GA   GD Pts
1 + Bravo                 6  0  6  0 378 378   +0   6
2 + Delta                 6  0  6  0 378 378   +0   6
3 - Alpha                 6  0  6  0 378 378   +0   6
4 - Charlie               6  0  6  0 378 378   +0   6
"""

test_inputs_that_are_taken = tabled(
    {
        "the screen of group H": (
            "ucl_night show --group H",
            SHEET,
            SECOND_SCREEN.replace("GROUP A", "GROUP H"),
        ),
        "the largest words of the first layout": ("ucl_night show", LARGEST_WORDS, LARGEST_SCREEN),
        "clubs alone": ("ucl_night feed", CLUBS, "".join(FRESH)),
        "a night of a whole group": ("ucl_night night", WHOLE, FINAL),
        "a night by away goals in a tie": (
            "ucl_night night --order away-in-tie",
            AWAY,
            AWAY_IN_TIE,
        ),
    }
)


@pytest.mark.parametrize("ends", ["uefa", "away-in-tie"])
@pytest.mark.parametrize("letter", "ABCDEFGH")
def test_each_group_and_order(run, letter, ends):
    """A board on which the orders differ, under each letter: asked for, or in the first row."""
    closing = AWAY_IN_TIE if ends == "away-in-tie" else example("away_goals_night.expected")
    closing = closing.replace("GROUP A", f"GROUP {letter}")
    screen, words = closing.removeprefix("FINAL\n"), ("--group", letter, "--order", ends)
    told = run("ucl_night", "feed", input=AWAY).output.splitlines(True)[-12:]
    sheet = "".join(AWAY.splitlines(True)[:4] + told)
    assert run("ucl_night", "show", *words, input=sheet) == (0, screen, "")
    assert run("ucl_night", "night", *words, input=AWAY) == (0, closing, "")
    evening = f"{AWAY}screen,,,\n"
    assert run("ucl_live", *words, input=evening).output.endswith(f"\n{screen}")
    titled = f"group,{letter},{ends},1\n{evening}"
    assert run("ucl_live", input=titled).output.endswith(f"\n{screen}")
    line = run("ucl_live", "--format", "json", input=titled).output.splitlines(True)[-1]
    assert run("ucl_follow", *words, input=line).output == screen


# ---- words, helps, versions

CLUB_ROW, EVENT_ROW, WORD_ROW = (
    f"\n  {row} "
    for row in ("club,SLOT,NAME,COEFFICIENT", "REPORTER,MATCH,EXPECTED,EVENT", "word,MATCH,WORD,")
)
LETTERS, ORDERS = (
    "[possible values: A, B, C, D, E, F, G, H]\n",
    "[possible values: uefa, away-in-tie]\n",
)
GROUP, ORDER = "\n      --group <GROUP> ", "\n      --order <ORDER> "
OF_A_BOARD = [GROUP, "[default: A] " + LETTERS, ORDER, "[default: uefa] " + ORDERS]
# Of a program whose input may say the group in a first row.
ASKED = [GROUP, "one " + LETTERS, ORDER, "one " + ORDERS, "group,C,uefa,1"]
STARTS = [
    "\n  ucl_night feed < ",
    "\n  ucl_night show --group B < ",
    "\n  ucl_night night --readings 3 < ",
]
# What a good name and a good coefficient are, an event, and where the codes are.
RULES = ["club,1,", "printable", "up to 999,999", "1,1,0,kickoff", "docs/REFERENCE.md has"]
TOLD = "\nExit status, with a text on standard error where it is not 0:\n"
FAILED = "  4  reading or writing failed\n  5  there is no memory"
NIGHT_ENDS = f"""{TOLD}  0  done, or help or the version was asked for
  2  the words of the command line are refused
  3  the input is refused
{FAILED}, or no thread
  6  the board refuses its reporters

"""
LIVE_ENDS = f"""{TOLD}  0  the input has ended, or help or the version was asked for
  2  the words of the command line are refused, or differ from the row of a group
  3  the clubs have a fault; nothing was written
{FAILED}

"""
FOLLOW_ENDS = f"""
Exit status:
  0  the input has ended, or help or the version was asked for
  2  the words of the command line are refused
{FAILED}

"""

test_helps = tabled(
    {
        line: (line, "", Has("", *parts))
        for line, parts in {
            "ucl_night --help": [
                "Usage: ucl_night <COMMAND>\n",
                *("\n  feed ", "\n  show ", "\n  night ", "\n  -V, --version "),
                *(CLUB_ROW, EVENT_ROW, WORD_ROW, *RULES, NIGHT_ENDS, *STARTS),
            ],
            "ucl_night help": ["\nUsage: ucl_night"],
            "ucl_night feed --help": [
                "Usage: ucl_night feed\n",
                *(CLUB_ROW, EVENT_ROW, WORD_ROW, *RULES[:4], STARTS[0]),
                *("\n  ROW ok MATCH NUMBER VERSION ", "\n  ROW refused CODE NAME "),
            ],
            "ucl_night show --help": [
                "Usage: ucl_night show [OPTIONS]\n",
                *(*OF_A_BOARD, CLUB_ROW, WORD_ROW, STARTS[1]),
            ],
            "ucl_night night --help": [
                "Usage: ucl_night night [OPTIONS]\n",
                *(*OF_A_BOARD, STARTS[2]),
                *("\n      --readings <NUMBER> ", ", 0 to 1,000 [default: 0]\n"),
            ],
            "ucl_live --help": [
                "Usage: ucl_live [OPTIONS]",
                *(*RULES, *ASKED, "later edition", "--screens", "--format <FORMAT>", LIVE_ENDS),
                *("matches,,,", "of at most 256\nbytes; a line with nothing on it"),
            ],
            "ucl_follow --help": [
                "Usage: ucl_follow [OPTIONS]",
                "--group <GROUP>    Follows this group alone; ",
                "--order <ORDER>    Follows boards of this order of the clubs alone; ",
                *("--matches", "of at most\n4,096 bytes and an end", "--format <FORMAT>"),
                *(FOLLOW_ENDS, RULES[4]),
            ],
        }.items()
    }
)

# What no line of tests/test_arguments.py has: values that are out of range, options that do not go together, and what is meant instead.
test_words_that_are_refused = tabled(
    {
        line: (line, "", "", 2, Has("error: ", reason))
        for line, reason in {
            "ucl_night": "subcommand",
            "ucl_night other": "'other'",
            "ucl_night fed": "'feed'",
            "ucl_night show --version": "",
            "ucl_night show --group I": "'I'",
            "ucl_night show --readings 3": "",
            "ucl_night feed --group A": "",
            "ucl_night night --readings 1001": "1001",
            "ucl_night night --readings=-1": "",
            "ucl_live --screens=1": "",
            "ucl_live --scren": "'--screens'",
            "ucl_live --format jsn": "'json'",
            "ucl_follow --matches --format json": "--format",
        }.items()
    }
)


@pytest.mark.parametrize(
    "line",
    ["ucl_night --version", "ucl_night -V feed", "ucl_live -V", "ucl_follow -V"],
)
def test_version(run, line):
    """The version has the logic sum of the prover, which decides, and no letter of the kit, which does not."""
    needs("rt")
    ran, logic_sum = run(*line.split()), command(["rt", "version"]).output.split()[-1]
    assert (ran.status, ran.errors) == (0, "")
    assert re.fullmatch(rf"{line.split()[0]} 1\.0\.0\+dev \(.*\b{logic_sum}\b.*\)\n", ran.output)
    assert "rattle-kit-" not in ran.output


def block_of(text, heading):
    """The lines after a heading, up to an empty one."""
    return text.split(heading + "\n", 1)[1].split("\n\n", 1)[0].splitlines()


@pytest.mark.parametrize("name", ["ucl_night", "ucl_live", "ucl_follow"])
def test_statuses_of_the_help_are_in_the_reference(run, name):
    table = text_of(TOP / "docs/REFERENCE.md").split("\n## Exit statuses\n")[1].split("\n## ")[0]
    statuses = re.findall(r"^  (\d)  ", run(name, "--help").output, re.M)
    assert statuses and {*statuses} <= {*re.findall(r"^\| (\d+) \|", table, re.M)}


def test_events_of_the_help_are_those_that_are_taken(run):
    told = " ".join(block_of(run("ucl_night", "feed", "--help").output, "Events:"))
    events = re.findall(r"[a-z-]+", told)
    assert len(events) == 13
    for event in events:
        assert run("ucl_night", "feed", input=CLUBS + f"1,1,0,{event}\n").status == 0, event


# Rows of a session, each of a form of the help, and their answers.
EVENT, CLUB = "REPORTER,MATCH,EXPECTED,EVENT", "club,SLOT,NAME,COEFFICIENT"
FORMS = [
    ("group,GROUP,ORDER,EDITION", "group,C,uefa,1", ""),
    *((CLUB, row, "") for row in CLUBS.splitlines()),
    (EVENT, "1,1,0,kickoff", "ok 1 1 1"),
    (EVENT, "1,1,1,goal-home", "ok 1 2 2"),
    (EVENT, "1,1,1,goal-home", "refused 1 stale 2"),
    ("mend,LINE,,", "mend,7,,", "mended 2 1"),
    ("mend,,EDITION,", "mend,,5,", "mended 5 1"),
    ("mend,LINE,,", "mend,7,,", "refused 11 no-event"),
    ("mend,,EDITION,", "mend,,5,", "refused 12 last-edition"),
    (CLUB, "club,2,Echo,60000", "mended 6 1"),
]
# What each refusal that the help tells by its number is for, as its text begins.
REASONS = {
    "1 stale NUMBER": "the match has this event number by now",
    "11 no-event": "no event that stands has this line",
    "12 last-edition": "65535 is reached, or the edition is not later",
    "20 bad-row": "the line asks for nothing that there is",
}


def test_rows_of_the_help_do_what_it_says(run):
    """Each form of a row, filled out, has the answer whose form stands there."""
    told, text, wanted = run("ucl_live", "--help").output, "", ""
    for line, (form, row, answer) in enumerate(FORMS, 1):
        assert f"\n  {form} " in told and re.fullmatch(re.sub("[A-Z]+", "[^,]+", form), row)
        text, wanted = f"{text}{row}\n", wanted + (f"{line} {answer}\n" if answer else "")
    wanted += f"{len(FORMS) + 1} refused 20 bad-row\nword,1,2001000000001001,\n"
    assert run("ucl_live", input=text + "x\nwords,,,\n") == (0, wanted + "".join(FRESH[1:]), "")
    assert "\n  words,,, " in told and "as mend,17,,\n" in told
    assert "\n  LINE mended EDITION VERSION " in told
    refusals = re.findall(r"^  LINE refused (\d.*?) {2,}(.*?)(?:: look at)?$", told, re.M)
    assert dict(refusals) == REASONS


@pytest.mark.parametrize("name, count", [("ucl_night", 3), ("ucl_live", 2)])
def test_examples_of_the_help(run, place, name, count):
    """Each example of the help, as it stands there, ends well and writes something; a record that is followed is whole."""
    lines = [line.strip() for line in block_of(run(name, "--help").output, "Examples:")]
    starts = [re.split(r" {4,}", line)[0] for line in lines if line]
    assert len(starts) == count
    for start in starts:
        start = start.replace("tail -n +1 -F evening.csv", "cat examples/one_goal.csv")
        ran = command(["bash", "-c", start.replace(name, f"./{name}")], cwd=place)
        assert (ran.status, bool(ran.output), ran.errors) == (0, True, ""), start


# ---- devices that fail, limits


def within(kind, most):
    """Limits a process that is started. No limit on the processes of a user binds root, so there it is a user of whom no process is running."""

    def limit():
        resource.setrlimit(kind, (most, most))
        if kind == resource.RLIMIT_NPROC and os.getuid() == 0:
            os.setuid(61_234)

    return {"preexec_fn": limit}


LARGEST = CLUBS + "1,1,00000,kickoff\n" * 2 + "1,1,0,kickoff\n" * 299_585
TOO_LONG = 3, "", "input refused 24: too long\n"


def test_largest_input(run):
    """4,194,304 bytes are taken, for which 64 MB are enough and 12 MB, which an evening starts with, too little; a byte more is not taken."""
    assert len(LARGEST) == 4_194_304
    stale = "".join(f"{row} refused 1 stale 1\n" for row in range(6, 299_592))
    output = "5 ok 1 1 1\n" + stale + "word,1,2001000000001001,\n" + "".join(FRESH[1:])
    enough, little = (within(resource.RLIMIT_AS, mb << 20) for mb in (64, 12))
    assert run("ucl_night", "feed", input=LARGEST, **enough) == (0, output, "")
    assert run("ucl_night", "feed", input=LARGEST, **little) == (5, "", "out of memory 23\n")
    assert run("ucl_live", input=example("one_goal.csv"), **little).status == 0
    assert run("ucl_night", "feed", input=LARGEST + "\n") == TOO_LONG


def test_input_without_end(run):
    with subprocess.Popen(["yes"], stdout=subprocess.PIPE, stderr=subprocess.DEVNULL) as source:
        assert run("ucl_night", "feed", stdin=source.stdout) == TOO_LONG
        source.kill()


def test_full_disk(run):
    with open("/dev/full", "wb") as full:
        assert run("ucl_night", "--help", stdout=full) == (
            4,
            "",
            "writing failed 26: after 0 bytes\n",
        )


# Each way to read with a run of it: a whole input, and line by line.
READ = {"ucl_night feed": "one_goal.csv", "ucl_live --format json": "group_a_2021_night.csv"}
FAILS = {"read": "reading failed 22", "write": "writing failed 26"}


@pytest.mark.parametrize("line", READ)
@pytest.mark.parametrize("error", ["EINTR", "EAGAIN", "EIO"])
@pytest.mark.parametrize("call", FAILS)
def test_call_that_fails_once(program, run, tmp_path, line, error, call):
    """It is not made again, though it would succeed then: what is out is as much as is told, and what was read until then is answered."""
    needs("strace")
    (name, *words), text, used = line.split(), example(READ[line]), tmp_path / call
    whole = run(name, *words, input=text)
    for nth in itertools.count(1):
        (tmp_path / "read").write_text(text)
        failing = ["-P", used, "-e", f"inject={call}:error={error}:when={nth}"]
        with open(tmp_path / "read", "rb") as source, open(tmp_path / "write", "wb") as sink:
            traced = ["strace", "-qo", os.devnull, *failing, program(name), *words]
            ran = command(traced, stdin=source, stdout=sink)
        ran = ran._replace(output=text_of(tmp_path / "write"))
        if ran.status == 0:
            break
        told = re.fullmatch(FAILS[call] + r": after (\d+) bytes\n", ran.errors)
        count = int(told[1]) if told else 0
        wanted = whole.output[:count]
        if call == "read":
            lines = text[: text.rfind("\n", 0, count) + 1]
            wanted = "" if "feed" in words else run(name, *words, input=lines).output
        assert (ran.status, bool(told), ran.output) == (4, True, wanted), f"call {nth}"
    assert nth > 1 and ran == whole


def test_reader_that_goes_away(start, tmp_path):
    """In the middle of an output that is larger than a pipe."""
    (tmp_path / "script").write_text(LARGEST)
    with open(tmp_path / "script", "rb") as script:
        night = start("ucl_night", "feed", stdin=script)
    night.lines()
    night.stdout.close()
    ran = night.end()
    assert ran.status == 4 and re.fullmatch(r"writing failed 26: after \d+ bytes\n", ran.errors)


def test_thread_that_is_refused(program):
    """The program is opened here, for the other user may not see its folder."""
    night = os.open(program("ucl_night"), os.O_RDONLY)
    words, limit = [f"/proc/self/fd/{night}", "night"], within(resource.RLIMIT_NPROC, 1)
    ran = command(words, example("first_night.csv"), cwd="/", pass_fds=[night], **limit)
    assert ran == (5, "", "no thread 27\n")
    os.close(night)
