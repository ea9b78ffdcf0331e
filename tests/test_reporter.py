"""`ucl_reporter` at a real terminal, in a pipe, and where it is killed: keys, what is drawn, signals,
how it ends. What it sends and tells is in test_fronts, and faults of a record are in test_record."""

import contextlib
import fcntl
import os
import pathlib
import random
import re
import signal
import time
from collections.abc import Iterator

import model
import pytest
from drivers.evening import Evening
from drivers.program import Run, Started, children_of, command, needs
from drivers.terminal import Terminal
from drivers.text import TOP, append_to, text_of
from model import random_rows

pytestmark = pytest.mark.limit(300)
BEGUN: str = "group,B,uefa,0\n" + model.CLUBS
STARTED = BEGUN + "1,1,0,kickoff\n1,1,1,goal-home\n1,1,2,goal-away\n"
UP, EMPTIED, INTERRUPT, END = "\x1b[A", "\x15", "\x03", "\x04"


@pytest.fixture
def record() -> str | None:
    """What a record has when the program is started; None where there is none yet."""
    return STARTED


@pytest.fixture
def evening(tmp_path: pathlib.Path, live: str, record: str | None) -> Iterator[Evening]:
    """A folder with the program and a record."""
    evening = Evening(tmp_path, live, record)
    yield evening
    evening.kill()


# ---- keys, and what is drawn


@pytest.mark.parametrize("record", [None])
@pytest.mark.quick
def test_the_first_evening(evening: Evening) -> None:
    """From nothing: what is asked, the record that is made, a match, its table; and the same line
    goes on the next day."""
    one = evening.terminal()
    for question, typed, answer in [
        *(("group", "x", "a letter from A to H"), ("group", "b", "Order")),
        *(("", "uefa", "slot 1"), ("", "Atlético", "without accents, digits")),
        *(("", "Alpha", "coefficient"), ("", "35,500", "whole number"), ("", "60.000", "slot 2")),
        *(("", "Bravo", "coefficient"), ("", "95000", "slot 3"), ("", 'Char, "lie"', "coeffi")),
        *(("", "", "slot 4"), ("", "Delta", "coefficient"), ("", "81500", "Ctrl-D ends")),
    ]:
        one.sees(question).enter(typed, answer)
    begun = BEGUN.replace("Charlie,60000", '"Char, ""lie""",0')
    assert text_of(evening.record) == begun and [*evening.path.glob("*even*")] == [evening.record]
    told = 'entered, row 6: Bravo 0-0 Char, "lie", in play, event 1 by 1'
    one.sees("12 Delta").enter("1 kickoff", f"1 kickoff               {told}")
    one.enter("1 Goal HOME", "entered, row 7: Bravo 1-0").enter("mned 17", "mend?")
    board = one.board()
    assert board.startswith(evening.table()) and " 2 Delta v Alpha, to come\n" in board
    assert board.endswith("\n>") and one.end() == 0 and one.is_as_before()
    again = evening.reporter("--number", "7", "--matches", "1,2")
    again.enter("1 second yellow home", "has no yellow").enter(
        "1 yellow home", "event 3 by 7, Y 1-0"
    )
    again.enter("3 kickoff", "match 3 is not yours")
    assert again.board().count("\n") == 8 and again.board().startswith(evening.table())


def test_keys(evening: Evening) -> None:
    """Letters are taken back, a line is emptied, the cursor moves, a line is recalled, Tab completes
    events and clubs; an empty Enter enters nothing. What answers a question is not recalled."""
    one = evening.reporter().sees("12 Delta")
    one.type("1 goal awway\x7f\x7f\x7fay\r").sees("1 goal away             entered, row 9")
    one.type(f"rubbish{EMPTIED}\r1 rd home" + "\x1b[D" * 6 + "e\x05\r").sees("1 red home    ")
    one.sees("entered, row 10").type(UP).sees("> 1 red home").type(UP).sees("> 1 goal away")
    one.enter("", "entered, row 11").type("1 yel\t").sees("> 1 yellow").type("\t")
    one.sees("> 1 yellow home").type("\t\r").sees("1 yellow away           entered, row 12")
    one.type("club 3 C\t").sees("> club 3 Charlie").type(f"{EMPTIED}{UP}\x1b[Z\r\r\r")
    one.sees("entered, row 13").enter("mend 7", "would begin").sees("append it? y or n>")
    one.sees("GROUP B v00008 IN PLAY 1\n").sees("GROUP B v00007 IN PLAY 1 EDITION 1\n")
    one.type("\r").board()
    one.enter("n", "Nothing is appended").type(UP).sees("> mend 7").enter("", "append it?")
    one.enter("y", "Edition 1 has begun").type(UP).sees("> mend 7").type(EMPTIED)
    assert one.end(f"\r\r{END}") == 0 and evening.rows()[13:] == ["mend,7,,\n"]
    assert one.is_as_before()


@pytest.mark.quick
def test_a_line_goes_with_what_was_seen_at_its_first_letter(evening: Evening) -> None:
    """Typed, recalled or completed; one that was emptied begins anew."""
    one = evening.reporter().sees("12 Delta")
    typed = [("1 g", "1 g", "oal home"), (UP, "1 goal home", ""), ("1 k\t", "1 kickoff", "")]
    typed.append(("1 red", "1 red", f"{EMPTIED}1 goal away"))
    for number, (keys, line, rest) in enumerate(typed, 3):
        one.type(keys).sees(f"> {line}")
        append_to(evening.record, f"2,1,{number},goal-home\n")
        one.sees(f"event {number + 1} by 2", 2).type(f"{rest}\r")
        stale = f"refused: match 1 has event number {number + 1} by now, and you had seen {number}"
        one.sees("1 goal away             entered, row 16" if EMPTIED in rest else stale)


@pytest.mark.parametrize("record", [BEGUN], ids=["begun"])
def test_lines_that_are_pasted(evening: Evening) -> None:
    """Each is a line of its own, as seen at the paste, with the own rows that wait; the last has no
    end and stays; without marks of a paste too."""
    one = evening.reporter().sees("12 Delta")
    one.paste("1 kickoff\r\n1 goal home\n\n1 goal away\nrubbish\n1 red home\n1 fullt")
    one.sees("1 red home              entered, row 9").sees("> 1 fullt").enter("ime", "row 10")
    one.type("2 kickoff\r2 goal home\r2 goal away\r")
    one.sees("2 goal away             entered, row 13")
    first = ["kickoff", "goal-home", "goal-away", "red-home", "fulltime"]
    events = [(1, *it) for it in enumerate(first)] + [(2, *it) for it in enumerate(first[:3])]
    assert evening.rows()[5:] == [f"1,{match},{at},{event}\n" for match, at, event in events]


WORDS = """1 2 3 13 999999999999 kickoff goal home away yellow red second-yellow fulltime reopen result
    2-1 1-1 yellows mend 7 9 12 club coefficient 61000 X y n y help 1,1,3,red-home 1,1,70000,red-home
    1,13,0,x é ² ٣ , \""""
KEYS = ["", UP, "\x7f", EMPTIED, "\t", "\x1b", "\x00", "\x18", "\x1b[200~1 goal\nhome\n\x1b[201~"]


def test_whatever_is_typed(evening: Evening) -> None:
    """Nothing that is typed ends it, and no row that comes of it is a bad one."""
    chance = random.Random(11)
    one = evening.reporter().sees("12 Delta")
    for _ in range(120):
        count = chance.choice([1, 1, 2, 3, 3, 3, 4, 5])
        one.type(" ".join(chance.choices([*WORDS.split(), *KEYS], k=count)) + "\r")
        while one.read(0.02):
            pass
    for _ in range(3):
        # What one of these lines asks by now takes the next line as its answer.
        one.type(f"{EMPTIED}\rn\r{EMPTIED}").board()
    one.enter("mend", "would begin").enter("y", " has begun")
    assert one.end() == 0 and one.is_as_before()
    board, answers = evening.played()
    assert not any("bad-row" in it for it in answers) and board.style.edition > 0
    assert evening.watched() == evening.table()


def test_a_small_terminal_and_another_size(evening: Evening) -> None:
    """What does not fit is cut, and the line that is typed stays, at once also where the size
    changes; COLUMNS counts for nothing."""
    one = evening.terminal(size=(9, 40), env={"COLUMNS": "200", "LINES": "3"})
    one.sees("GROUP B v00003").enter("1 red home", "entered, row 9")
    lines = one.board().split("\n")
    assert len(lines) == 8 and max(map(len, lines)) < 40 and lines[-1] == ">"
    one.type("1 goal").sees("> 1 goal").resize(30, 100)
    one.sees("12 Delta v Charlie, to come")
    one.sees("1 Bravo 1-1 Charlie, in play, event 4 by 1, E 1-0")
    assert one.board().endswith("\n> 1 goal")


@pytest.mark.parametrize("record", [None])
def test_watch_waits_for_its_record(evening: Evening) -> None:
    """A screen may be started first; it takes no input, and asks for no lock."""
    watch = evening.terminal("--watch", "--matches", "1")
    time.sleep(0.3)
    append_to(evening.record, STARTED)
    with open(evening.record) as file:
        fcntl.flock(file, fcntl.LOCK_EX)
        watch.sees("Bravo 1-1 Charlie").type("1 goal home\r\x1b[200~x\ny\n\x1b[201~")
        append_to(evening.record, "1,1,3,goal-home\n")
        watch.sees("Bravo 2-1 Charlie")
    assert evening.rows()[8:] == ["1,1,3,goal-home\n"] and evening.watched() == evening.table()
    assert watch.board() == evening.table() + " 1 Bravo 2-1 Charlie, in play, event 4 by 1"
    assert watch.end(INTERRUPT) == 130 and watch.is_as_before()


# ---- without a terminal


@pytest.mark.parametrize("record", [STARTED + "mend,,10,\n"], ids=["mended"])
@pytest.mark.quick
def test_the_lines_of_a_pipe(evening: Evening) -> None:
    """The first that is refused ends the run, while more may come, and is told in one line; what
    the board has is passed over."""
    line = ["./ucl_reporter", "evening.csv", "--edition", "10"]
    with Started(line, cwd=evening.path, env=evening.env) as ran:
        ran.write("1,1,0,kickoff\n\n  1,1,3,red-home \n2 goal home\n\x1b[2J\n2 kick")
        assert ran.wait(60) == 1
        told = ran.end()
    assert told.output.splitlines() == [
        "1,1,0,kickoff           passed over: the board has it",
        "1,1,3,red-home          entered, row 10: Bravo 1-1 Charlie, in play, event 4 by 1, E 1-0",
    ]
    assert told.errors.startswith("ucl_reporter: 2 goal home: refused: match 2 has not kicked off")
    assert told.errors.count("\n") == 1 and evening.rows()[10:] == ["1,2,0,goal-home\n"]


@pytest.mark.parametrize(
    "record, words, input, told",
    [
        *(
            (None, words, "", "there is no evening.csv; type ./ucl_reporter evening.csv at a term")
            for words in ("", "--mend 7", "--sheet")
        ),
        ("not a record\n", "", "", "evening.csv has no board, or ucl_live failed: input refused"),
        (STARTED, "", "club é\x1b[2J\n", "club ??[2J: type club 2 Real Madrid, or coefficient"),
    ],
)
def test_what_ends_it(evening: Evening, words: str, input: str, told: str) -> None:
    """In one line, of letters that the output has."""
    env = {"PYTHONIOENCODING": "ascii"}
    status, output, errors = evening.run(*words.split(), input=input, env=env)
    assert (status, output, errors.count("\n")) == (1, "", 1)
    assert errors.startswith(f"ucl_reporter: {told}")


@pytest.mark.parametrize("name", ["ucl_reporter", "ucl_serve"])
def test_ctrl_c_while_modules_are_read(tmp_path: pathlib.Path, name: str) -> None:
    """There is no traceback."""
    interrupts = "import os, signal, time\nos.kill(os.getpid(), signal.SIGINT)\ntime.sleep(60)\n"
    (tmp_path / "argparse.py").write_text(interrupts)
    ran = command([TOP / name, "--help"], env={**os.environ, "PYTHONPATH": str(tmp_path)})
    assert ran == Run(-signal.SIGINT, "", "")


def test_without_the_libraries(evening: Evening) -> None:
    """Where no terminal is asked for, none is needed; else one line says what to install."""
    (evening.path / "prompt_toolkit.py").write_text("raise ImportError('not here')\n")
    env = {"PYTHONPATH": str(evening.path)}
    assert "entered, row 9" in evening.run(input="1 red home\n", env=env).output
    assert evening.run("--mend", "7", "--yes", env=env).status == 0
    one = evening.terminal(env=env)
    one.sees("there is no prompt_toolkit: apt install python3-prompt-toolkit")
    assert one.ends() == 1 and one.is_as_before()


def test_who_may_only_read_looks_on(evening: Evening) -> None:
    """A file of mode 0444 of another user, and a lock that is held for ever."""
    if os.geteuid() != 0:
        pytest.skip("another user needs root")
    needs("setpriv")
    evening.record.chmod(0o444)
    for folder in [evening.path, *evening.path.parents][:-2]:
        folder.chmod(folder.stat().st_mode | 0o055)
    evening.before = ["timeout", "5", "setpriv", "--reuid=65534", "--clear-groups"]
    with open(evening.record) as file:
        fcntl.flock(file, fcntl.LOCK_EX)
        for words, wanted in [
            *(("--watch", evening.table()), ("--sheet", model.CLUBS), ("--rows", STARTED)),
            ("", "Permission denied"),
        ]:
            ran = evening.run(*words.split())
            assert wanted in ran.output + ran.errors, ran


# ---- how it ends, and is suspended


def send(one: Terminal, sent: str | int) -> None:
    """Types a key, or sends a signal to the program, which a shell may have started."""
    if isinstance(sent, str):
        one.type(sent)
        return
    found = [one.process.pid, *children_of(one.process.pid)]
    names = {text_of(f"/proc/{process}/cmdline"): process for process in found}
    os.kill(next(names[name] for name in names if "ucl_reporter" in name), sent)


@pytest.mark.parametrize(
    "sent, status",
    [
        *((signal.SIGINT, 130), (signal.SIGTERM, 143), (signal.SIGHUP, 129)),
        *((INTERRUPT, 130), (END, 0), ("", 1)),
    ],
)
@pytest.mark.parametrize(
    "typed, seen",
    [
        *(("", "\n>"), ("1 goal ho", "> 1 goal ho"), ("mend 7\r", "append it?")),
        ("1 goal home\r", "1 goal home .. >"),
    ],
)
def test_it_ends(evening: Evening, sent: str | int, status: int, typed: str, seen: str) -> None:
    """By a key, by a signal, or since its record is another by now; in a line, a question or an
    append, whose end it tells. The terminal is as it was, and nothing else was appended."""
    one, rows = evening.reporter().sees("12 Delta"), STARTED
    with open(evening.record) as file:
        fcntl.flock(file, fcntl.LOCK_EX)
        send(one.type(typed).sees(seen), sent)
        if not sent:
            rows = BEGUN
            os.truncate(evening.record, len(rows))
        time.sleep(0.3)
    if not sent:
        one.sees("ucl_reporter: evening.csv has become another file, or shorter; a record only")
    elif "home" in typed:
        one.sees("1 goal home             entered, row 9")
        rows += "1,1,3,goal-home\n"
    assert one.ends() == status and one.is_as_before() and text_of(evening.record) == rows


def test_its_terminal_is_gone(evening: Evening) -> None:
    """It ends, and what was on its way is in the record, whole."""
    one = evening.reporter().sees("12 Delta").type("1 goal home\r1 goal aw").sees("1 goal aw")
    for file in one.master, one.slave:
        os.close(file)
    one.master, one.slave = (os.open(os.devnull, os.O_RDONLY) for _ in range(2))
    assert one.process.wait(20) and evening.rows()[8:] in ([], ["1,1,3,goal-home\n"])


@pytest.mark.parametrize(
    "sent, typed, seen, told",
    [
        *((sent, "1 red", "> 1 red", "") for sent in ("\x1a", signal.SIGTSTP)),
        (signal.SIGTSTP, "mend 7\r", "append it?", "append it?"),
        (signal.SIGTSTP, "1 red home\r", "1 red home .. >", "entered, row 9"),
    ],
)
def test_it_is_suspended(
    evening: Evening, sent: str | int, typed: str, seen: str, told: str
) -> None:
    """An append that waits for the lock ends first, and nothing is held then: the terminal is as it
    was. Once it goes on it shows what came since; a line stands there, and a question is asked."""
    one = evening.terminal(shell="bash --norc --noprofile -i")
    one.type("stty -a >before; echo re''ady\r").sees("ready")
    one.type("./ucl_reporter evening.csv; stty -a >stopped; echo stop''ped\r").sees("12 Delta")
    with open(evening.record) as file:
        fcntl.flock(file, fcntl.LOCK_EX)
        send(one.type(typed).sees(seen), sent)
        time.sleep(0.5)
    one.sees(told).sees("stopped\n")
    with open(evening.record) as file:
        fcntl.flock(file, fcntl.LOCK_EX | fcntl.LOCK_NB)
        append_to(evening.record, "2,2,0,kickoff\n")
    one.type("fg; stty -a >after; echo ov''er\r").sees(": 2 kickoff by reporter 2")
    if "mend" in typed:
        one.enter("y", "entered, row 10")
    elif not told:
        one.enter(" home", "1 red home              entered, row 10")
    # It reads again once all is drawn: a key that comes before may be lost to the shell.
    while one.read(1):
        pass
    one.type(END).sees("over\n")
    modes = {text_of(evening.path / name) for name in ("before", "stopped", "after")}
    assert len(modes) == 1 and len(evening.rows()) == 10


# ---- a full board, and kills


EVENTS = ["kickoff", *["goal-home", "disallow-home"] * 2046, "goal-home", "fulltime"]
ROWS = [f"1,{match},{at},{it}\n" for at, it in enumerate(EVENTS) for match in range(1, 13)]


@pytest.mark.parametrize("record", [BEGUN + "".join(ROWS)], ids=["full"])
def test_a_full_board(evening: Evening, live: str) -> None:
    """49,140 events: a start takes less than a second of a processor, and a mend goes in."""
    if "stand_in" in live:
        pytest.skip("a stand-in takes too long")
    taken = list[float]()
    for _ in range(3):
        assert evening.watched().startswith("GROUP B v49140 IN PLAY 0\n")
        taken.append(evening.seconds)
    assert min(taken) < 1, taken
    ran = evening.run("--mend", "7", "--yes")
    assert ran.output.endswith("GROUP B v45045 IN PLAY 0 EDITION 1\n"), ran
    assert evening.rows()[-1] == "mend,7,,\n"


def killed_once(evening: Evening, chance: random.Random, rows: list[str], start: float) -> Run:
    """Gives rows to the program, and kills it, or its `ucl_live` first, in about the time that a
    start takes."""
    with Started(["./ucl_reporter", "evening.csv"], cwd=evening.path, env=evening.env) as started:
        started.write("".join(rows))
        time.sleep(chance.uniform(0.3, 1.5) * start)
        for process in children_of(started.pid) if chance.random() < 0.5 else []:
            with contextlib.suppress(OSError):
                os.kill(process, signal.SIGKILL)
            time.sleep(chance.uniform(0, 0.5 * start))
        started.send_signal(chance.choice([signal.SIGKILL, signal.SIGKILL, signal.SIGHUP]))
        output, errors = started.stdout.read().decode(), started.stderr.read().decode()
        return Run(started.wait(), output, errors)


@pytest.mark.parametrize("record", [BEGUN], ids=["begun"])
@pytest.mark.parametrize("part", range(4))
def test_kills(evening: Evening, part: int, seed: int, kills: int) -> None:
    """A hundred kills in all, of four records: no answered row is lost, none is entered twice, and
    after each start the table is that of the record."""
    chance, answered = random.Random(f"{seed} {part}"), dict[int, str]()
    print(f"--seed {seed}")
    rows = [re.sub("^2", "1", row) for row in random_rows(chance, 4000)]
    begun = time.monotonic()
    assert evening.run(input=rows[0]).status == 0
    start = time.monotonic() - begun
    for number in range(1, kills // 4 + 1):
        count = len([it for it in evening.played()[1] if " ok " in it])
        ran = killed_once(evening, chance, rows[max(0, count - 5) : count + 60], start)
        assert ran.errors == "" and "refused" not in ran.output, ran
        told = re.findall(r"^(\S+) +entered, row (\d+):", ran.output, re.M)
        answered.update({int(row): f"{text}\n" for text, row in told})
        assert number % 25 or evening.watched() == evening.table()
    lines = evening.rows()
    accepted = {int(it.split()[0]) for it in evening.played()[1] if " ok " in it}
    assert {*answered} <= accepted and all(lines[row - 1] == answered[row] for row in answered)
    assert evening.watched() == evening.table()
    print(f"{kills // 4} kills, {len(answered)} rows answered")
    assert len(answered) > kills // 8
