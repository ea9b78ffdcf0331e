"""Each request for memory is refused in turn, first that one alone, and then that one and all after it, until a run meets no refusal.

A call of the library then answers want of memory, and does its work when it is made again; the program `ucl_hostile` makes it twice. A program
tells want of memory and has written nothing, or, in an evening, whole answers up to a row whose answer asks for memory. Where one request alone is
refused, and the next one is for no more, the work is also done at once: a list that finds no room to grow to twice its size asks for what it needs.
"""

import itertools
import os

import conftest
import pytest
from conftest import EXAMPLES, TOP

pytestmark = pytest.mark.limit(200)
H2H, SHEET, SCREEN = "head_to_head", "head_to_head_sheet.csv", "head_to_head_sheet.expected"
NO_MEMORY, NO_THREAD = "Some(OutOfMemory)", "Some(NoThread)"
LINE = "Ok(Night { group: 67, readings: 3, profile: AwayInTie })\n"


@pytest.fixture(scope="session")
def refuses(tmp_path_factory):
    """The library that refuses requests."""
    conftest.needs("cc")
    path = tmp_path_factory.mktemp("refuses") / "refuse_nth.so"
    options = ["-shared", "-fPIC", "-O1", "-Wall", "-Werror", "-o", path]
    ended = conftest.command(["cc", *options, TOP / "tests/refuse_nth.c"])
    assert ended.status == 0, ended.errors
    return path


def refused(refuses, nth, mode, start, words, text):
    """A run whose request with this number is refused, and what was told of refusals."""
    reading, writing = os.pipe()
    environment = {
        **os.environ,
        "LD_PRELOAD": refuses,
        "REFUSE_NTH": str(nth),
        "REFUSE_MODE": mode,
        "REFUSE_FROM": start,
        "REFUSE_TELLS": str(writing),
    }
    run = conftest.command(words, text, env=environment, pass_fds=[writing])
    os.close(writing)
    with open(reading) as told:
        return run, told.read().split()


def swept(refuses, mode, start, words, text):
    """The runs whose first request is refused, whose second is, and so on, each with whether no more was asked for then; and the one that meets none."""
    met = []
    for nth in itertools.count(1):
        run, lines = refused(refuses, nth, mode, start, words, text)
        if not lines:
            return met, run
        met.append((run, mode == "one" and "again" in lines))


def text_of(name, more=""):
    """What stands in a file of examples, and more."""
    return (conftest.text_of(EXAMPLES / name) if name else "") + more


# Each call with its input, what it gives, and what it may answer.
CALLS = {
    "screen": (f"{H2H}.csv", (SCREEN,), [NO_MEMORY]),
    "read_night": (f"{H2H}.csv", ("", "40 events\n"), [NO_MEMORY]),
    "read_words": (SHEET, (SCREEN,), [NO_MEMORY]),
    "run_steps": ("", ("", "1 entries, 2 calls\n"), [NO_MEMORY]),
    "CellBoard::open": ("", ("", "version 0\n"), [NO_MEMORY]),
    "WordBoard::open": ("", ("", "version 0\n"), [NO_MEMORY]),
    "feed_run": ("two_matches.csv", ("two_matches.expected",), [NO_MEMORY]),
    "show_run": ("two_matches_sheet.csv", ("two_matches_sheet.expected",), [NO_MEMORY]),
    "line_of": (None, ("", LINE), [NO_MEMORY]),
    "night_run": (f"{H2H}.csv", (SCREEN,), [NO_MEMORY, NO_THREAD]),
    "night_run_in_a_cell": (f"{H2H}.csv", (SCREEN,), [NO_MEMORY, NO_THREAD]),
    # Strangers are told after want of memory for a reader and of a thread, and before want of memory for the closing screen.
    "night_run_beside_a_stranger": (
        f"{H2H}.csv",
        (SCREEN,),
        [NO_MEMORY, NO_THREAD],
        "Some(Strangers { version: 40 })",
    ),
}


@pytest.mark.parametrize("mode", ["one", "all"])
@pytest.mark.parametrize("call", CALLS)
def test_a_call_of_the_library(program, refuses, call, mode):
    name, gives, answers, *first = CALLS[call]
    text = (
        text_of(name)
        if name is not None
        else "ucl_night night --group C --readings 3 --order away-in-tie"
    )
    met, whole = swept(refuses, mode, "call", [program("ucl_hostile"), "refused", call], text)
    right = "kept true\n" + text_of(*gives)
    assert whole.output == f"first {(*first, None)[0]}\n" + right
    allowed = [f"first {answer}\n{right}" for answer in answers]
    assert [
        run for run, asks_again in met if run.output not in allowed + [whole.output] * asks_again
    ] == []
    assert any(run.output in allowed for run, _ in met)


@pytest.mark.parametrize(
    "call, row, told",
    [
        ("night_run", "3,1,0,kickoff\n", "input refused 25: row 45"),
        ("night_run_on_a_full_board", "", "first Some(TooManyReporters)\nkept true\n"),
    ],
)
def test_a_night_that_is_refused_asks_for_nothing(program, refuses, call, row, told):
    words, text = [program("ucl_hostile"), "refused", call], text_of(f"{H2H}.csv", row)
    met, whole = swept(refuses, "all", "call", words, text)
    assert met == [] and told in whole.output + whole.errors


@pytest.mark.parametrize(
    "call", ["night_run", "night_run_in_a_cell", "night_run_beside_a_stranger"]
)
def test_a_thread_that_did_not_start_is_told_before_a_screen_without_memory(program, refuses, call):
    words, text = [program("ucl_hostile"), "refused", call], text_of(f"{H2H}.csv")
    alone, whole = swept(refuses, "main", "call", words, text)
    first = [run.output.splitlines()[0] for run, _ in alone]
    no_thread, no_memory = f"first {NO_THREAD}", f"first {NO_MEMORY}"
    # The first thread of a process asks for the memory of four workers, and of the closing screen.
    assert first.count(no_thread) >= 4
    for nth, answer in enumerate(first, 1):
        run, _ = refused(refuses, nth, "workers", "call", words, text)
        assert run.output.splitlines()[0] == (no_thread if answer == no_thread else no_memory)


def test_a_night_of_the_program_tells_which_of_both_it_lacks(program, refuses):
    """Of the requests of its first thread the last one is for the closing screen, and some before are for threads."""
    words = [program("ucl_night"), "night", "--readings", "3"]
    alone, _ = swept(refuses, "main", "start", words, text_of(f"{H2H}.csv"))
    faults = [run.errors for run, _ in alone]
    assert faults.count("no thread 27\n") >= 4 and faults[-1] == "out of memory 23\n"


ROWS = "two_matches.csv", "screen,,,\nwords,,,\nmatches,,,\n"
BAD_ROWS = (
    "one_goal.csv",
    "1,1\n\n1,1,0,kickoff,\n\r1,1,0,kickoff\r\r\n1,2,0,kickoff\r3,4\n,\n"
    + "x" * 300
    + '\n"1",1,"0","kickoff"\n1,1,2,goal-away',
)
MORE_ROWS = (
    "one_goal.csv",
    "group,A,uefa,1\nclub,1,Echo,7\n1,1,0,kickoff\nscreen,,,\n1,1,0,kickoff\n",
)
# Each run of a program with its input and its status, and how many lines of its output may be out where want of memory is told: in an evening the
# clubs ask for memory, the screen, the words, the matches, a screen after an accepted event, and all in JSON. Other lines ask for none, also in quotes; a follower asks at each.
RUNS = {
    "ucl_night --help": ([], 0, [0]),
    "ucl_night show --order none": ([], 2, [0]),
    "ucl_night feed": (["two_matches.csv"], 0, [0]),
    "ucl_night show --order away-in-tie": ([SHEET], 0, [0]),
    "ucl_night night --group A --readings 0": ([f"{H2H}.csv"], 0, [0]),
    "ucl_live": (ROWS, 0, [0, 10, 16, 28]),
    "ucl_live --order uefa": (BAD_ROWS, 0, [0]),
    "ucl_live --screens": (ROWS, 0, [0, 7, 16, 23, 30, 37, 45, 52, 58, 70]),
    "ucl_live --format json": (ROWS, 0, range(13)),
    "ucl_live --format text": (MORE_ROWS, 0, [0, 5]),
    "ucl_live --format json --screens": (MORE_ROWS, 0, [0, 2, 4, 5, 7, 8, 9]),
    "ucl_follow --matches": (["followed.jsonl"], 0, [0, 12, 24]),
    "ucl_follow --format json": (["followed.jsonl"], 0, range(3)),
}


@pytest.mark.parametrize("mode", ["one", "all"])
@pytest.mark.parametrize("line", RUNS)
def test_a_run_of_a_program(program, refuses, line, mode):
    (name, *words), (given, status, places) = line.split(), RUNS[line]
    met, whole = swept(
        refuses, mode, "start", [program(name), *words], text_of(*given) if given else ""
    )
    assert whole.status == status and not (
        whole.output if status else whole.errors.replace("8 lines, 2 shown, 6 passed over\n", "")
    )
    told = ["out of memory 23\n"] + ["no thread 27\n"] * ("night" in words)
    allowed = [
        (5, "".join(whole.output.splitlines(True)[:place]), fault)
        for place in places
        for fault in told
    ]
    assert [run for run, asks_again in met if run not in allowed + [whole] * asks_again] == []
    assert any(run in allowed for run, _ in met)
