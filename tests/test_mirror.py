"""Servers that follow another: what they show, whatever becomes of the lines on their way."""

import contextlib
import json
import os
import random
import signal
import time
from collections.abc import Callable, Iterator
from typing import Any

import model
import pytest
from drivers.board import lines_to
from drivers.feed import Feed
from drivers.mirror import Mirror
from drivers.port import free_port
from drivers.program import command
from drivers.server import got, health
from drivers.text import text_of
from drivers.wait import until
from drivers.websocket import Socket

pytestmark = pytest.mark.limit(200)
Halls = Callable[..., Any]
Mirrors = Callable[..., Mirror]
# A match of some events, in rows behind the clubs.
ROWS = ["1,1,0,kickoff", *(f"1,1,{it},goal-{'home' if it % 2 else 'away'}" for it in range(1, 40))]
ANSWERS = lines_to(model.CLUBS + "".join(row + "\n" for row in ROWS))
LINES = [line.decode() for line in ANSWERS if b'"screen"' in line]
PULSE = json.dumps({"reply": "pulse", "groups": "A", "moments": {"A": [0, len(LINES)]}})


@pytest.fixture
def mirrors(live: str, follow: str) -> Iterator[Mirrors]:
    """A function that starts a mirror."""
    started = list[Mirror]()

    def mirror(*words: str, port: int = 0) -> Mirror:
        started.append(Mirror(live, follow, *words, port=port))
        return started[-1]

    yield mirror
    for one in started:
        one.kill()


def source(port: int, group: str = "") -> list[str]:
    """The words by which a server follows that at this port."""
    asked = f"?group={group}" if group else ""
    return ["--follow", f"http://127.0.0.1:{port}/feed{asked}"]


def table(one: Any, group: str = "A") -> Any:
    """The screen that a server shows of a group, but for the number of its line."""
    said = json.loads(got(one.port, f"/table.json?group={group}")[2])
    return {name: value for name, value in said.items() if name != "row"}


def put(mirror: Mirror, lines: list[str]) -> None:
    """Writes lines into the input of a mirror."""
    mirror.process.write("".join(line + "\n" for line in lines))


def versions(feed: Feed, last: int) -> list[int]:
    """The versions that come, until this one."""
    feed.until("screen", version=last)
    return [it["version"] for it in feed.lines if it["reply"] == "screen"]


# ---- by feeds


def test_a_mirror_of_a_mirror_shows_what_the_board_shows(hall: Halls, mirrors: Mirrors) -> None:
    """Title and matches of the evening too; pages and feed, but no reporter. Where the one between
    is killed who followed it has the newest soon, whoever was away when it was entered."""
    one = hall("--reporter", "1:1,2", "--title", "Finals", records=("a.csv", "b.csv"))
    first = mirrors(*source(one.port))
    second = mirrors(*source(first.port))
    assert second.printed == f"Screens: http://127.0.0.1:{second.port}/\n"
    assert second.shows(0) and second.shows(0, group="B")
    screen, feed = Socket(second.port, "/lines"), Feed(second.port, "/feed?group=A")
    phone = one.phone(1)
    for number, event in enumerate(["kickoff", "goal-home", "yellow-away"]):
        assert phone.answer(1, number, event) == "entered"
    assert screen.until("screen", version=3, group="A") and versions(feed, 3) == [0, 1, 2, 3]
    tonight = {"A": [1, 2], "B": [1, 2]}
    named = {"reply": "hall", "title": "Finals", "groups": "AB", "tonight": tonight}
    assert screen.lines[0] == named
    assert table(one) == table(first) == table(second) and table(one, "B") == table(second, "B")
    assert got(second.port, "/table.txt?group=A")[2] == got(one.port, "/table.txt?group=A")[2]
    assert got(second.port, "/")[2] == got(one.port, "/")[2]
    assert until(lambda: second.is_there() and second.is_there("B"))
    key = one.key(1)
    assert got(second.port, f"/report/{key}")[0] == 404
    assert Socket(second.port, f"/report/{key}/taps").status == 404
    with open(one.folder / "a.csv", "a", encoding="ascii") as record:
        record.write("mend,7,,\nclub,1,Alfa,60000\n")
    assert second.shows(2, edition=2) and table(one) == table(second)
    first.end()
    assert phone.answer(2, 0, "kickoff", edition=2) == "entered"
    assert until(lambda: not second.is_there()) and table(second)["version"] == 2
    first.start()
    assert second.shows(3, edition=2) and until(second.is_there)
    # Another evening: each reporter has all matches, so none are named.
    one.words = ("--reporter", "1")
    one.end()
    one.start()
    assert screen.until("hall", title="", groups="AB", tonight={})


def test_the_board_is_killed_and_comes_back(hall: Halls, mirrors: Mirrors) -> None:
    """Who looks on is told that the picture is old, also who comes then; it never goes back. Who
    runs the mirror is told each time."""
    one = hall("--reporter", "1")
    mirror = mirrors(*source(one.port))
    assert one.phone(1).answer(1, 0, "kickoff") == "entered"
    assert mirror.shows(1) and until(mirror.is_there)
    early = Socket(mirror.port, "/lines")
    assert early.until("pulse", groups="A")
    one.process.send_signal(signal.SIGSTOP)
    assert early.until("pulse", groups="") and not mirror.is_there()
    late = Socket(mirror.port, "/lines")
    assert late.until("screen", version=1)
    assert late.receive() == {"reply": "pulse", "groups": "", "moments": {}}
    old = int(got(mirror.port, "/table.txt")[1]["age"])
    assert until(lambda: int(got(mirror.port, "/table.txt")[1]["age"]) > old >= 3)
    one.process.send_signal(signal.SIGCONT)
    assert until(mirror.is_there)
    for _ in range(2):
        one.end()
        assert until(lambda: not mirror.is_there())
        one.start()
        assert until(mirror.is_there) and "age" not in got(mirror.port, "/table.txt")[1]
    assert one.phone(1).answer(1, 1, "goal-home") == "entered"
    assert early.until("screen", version=2) and late.until("screen", version=2)
    shown = [it["version"] for it in early.lines if it["reply"] == "screen"]
    assert shown == sorted(shown)
    told = mirror.end(signal.SIGTERM)
    named = f"ucl_serve: http://127.0.0.1:{one.port}/feed: "
    ways = ("nothing comes", "it has ended", "no connection")
    lost = [f"{named}{why}; it is tried again until it is there" for why in ways]
    lines = told.errors.splitlines()
    assert told.status == 0 and lines and set(lines[::2]) <= set(lost)
    assert len(lines) >= 4 and lines[1::2] == [f"{named}it is there again"] * (len(lines) // 2)


def test_several_of_one_record_make_one_picture(hall: Halls, mirrors: Mirrors) -> None:
    """The newest of all, also where one of them is behind, or gone, or of one group alone."""
    one = hall("--reporter", "1", records=("a.csv", "b.csv"))
    way = mirrors(*source(one.port))
    both = mirrors(*source(way.port), *source(one.port, "A"))
    assert both.shows(0) and both.shows(0, group="B")
    way.process.send_signal(signal.SIGSTOP)
    phone, feed = one.phone(1), Feed(both.port, "/feed?group=A")
    for number, event in enumerate(["kickoff", "goal-home", "goal-home"]):
        assert phone.answer(1, number, event) == "entered"
    # Pulses are of all groups, and that of B stands as it did.
    assert both.shows(3) and until(both.is_there) and until(lambda: both.is_there("B"))
    other = one.phone(1, "b.csv")
    assert other.answer(1, 0, "kickoff") == "entered"
    assert until(lambda: not both.is_there("B")) and until(both.is_there)
    way.process.send_signal(signal.SIGCONT)
    assert both.shows(1, group="B") and until(lambda: both.is_there("B"))
    one.end()
    assert until(lambda: not both.is_there()) and table(both)["version"] == 3
    assert versions(feed, 3) == [0, 1, 2, 3]


def test_a_server_that_is_none(mirrors: Mirrors, hall: Halls) -> None:
    """It is told once, and tried until it is there."""
    one, port = hall("--reporter", "1"), free_port()
    page, none = f"http://127.0.0.1:{one.port}/health", f"http://127.0.0.1:{port}/feed"
    mirror = mirrors("--follow", page, "--follow", none)
    assert got(mirror.port, "/table.txt")[::2] == (503, "no board is known here yet\n")
    assert Feed(mirror.port).next() == {"reply": "hall", "title": "", "groups": "", "tonight": {}}
    whys = (page, "it answers 200, and no feed"), (none, "no connection")
    tried = "it is tried again until it is there"
    wanted = {f"ucl_serve: {url}: {why}; {tried}\n" for url, why in whys}
    assert {mirror.told(), mirror.told()} == wanted
    # By then it has tried again.
    time.sleep(2)
    assert mirror.end(signal.SIGTERM) == (0, "", "")


# ---- by whatever pipe


def test_lines_of_a_pipe_in_any_order(mirrors: Mirrors, follow: str) -> None:
    """Lost, repeated, reordered, cut off: what `ucl_follow` shows of them last is shown, and before
    it none but what that shows, in its order."""
    chance = random.Random(2021)
    for _ in range(3):
        lines = [line for line in LINES for _ in range(chance.choice([0, 1, 1, 2]))]
        for _ in range(40):
            place = chance.randrange(len(lines))
            lines.insert(min(len(lines), place + chance.randrange(6)), lines.pop(place))
        lines.insert(7, LINES[20][:500])
        text = "".join(line + "\n" for line in lines)
        wanted = command([follow, "--format", "json"], text).output.splitlines()
        mirror, expected = mirrors("--follow", "-"), [json.loads(line) for line in wanted]
        feed = Feed(mirror.port)
        put(mirror, lines)
        feed.until("screen", version=expected[-1]["version"])
        shown = [it for it in feed.lines if it["reply"] == "screen"]
        # A line that is cut off is none of a group, and has no number there.
        for said in (*shown, *expected):
            del said["row"]
        assert mirror.shows(expected[-1]["version"]) and table(mirror) == expected[-1]
        rest = iter(expected)
        assert shown and all(said in rest for said in shown)


def test_a_pipe_that_loses_the_last_line(mirrors: Mirrors) -> None:
    """Nobody is told that the picture is the board's, until it is."""
    mirror = mirrors("--follow", "-")
    put(mirror, [*LINES[:-1], PULSE])
    assert mirror.shows(len(LINES) - 1)
    # The second is of a source that is behind: it shows what the mirror shows, and not the board.
    behind = PULSE.replace(str([0, len(LINES)]), str([0, len(LINES) - 1]))
    for pulses in [PULSE], [PULSE, behind]:
        for _ in range(4):
            put(mirror, pulses)
            time.sleep(0.3)
        assert not mirror.is_there() and int(got(mirror.port, "/table.txt")[1]["age"]) >= 1
    put(mirror, [PULSE, LINES[-1]])
    assert mirror.shows(len(LINES)) and until(mirror.is_there)
    # A pulse of a board that was begun anew is none of this picture.
    begun_anew = PULSE.replace(str([0, len(LINES)]), "[0, 0]")
    end = time.monotonic() + 5
    while time.monotonic() < end:
        put(mirror, [begun_anew])
        time.sleep(0.3)
    assert not mirror.is_there() and table(mirror)["version"] == len(LINES)


HOSTILE = [
    "",
    "null",
    "[" * 4_000,
    '{"reply":"pulse","moments":[1]}',
    '{"reply":"pulse","moments":{"A":[0]}}',
    '{"reply":"pulse","moments":{"A":[true,1e9]}}',
    '{"reply":"hall","title":7,"groups":[1],"tonight":{"A":"x","Z":[1]}}',
    '{"reply":"hall","title":"\\u001b[2J\\u202e","groups":"ZA","tonight":{"A":[{},1]}}',
    '{"group":"A"}',
    '{"group":"AB"}',
    '{"group":["A"]}',
    '{"group":"A","order":"uefa","edition":65536}',
    "x" * 5_000,
    LINES[0].replace('"A"', '"I"'),
    LINES[20].replace("2001", "3001"),
    LINES[20] + " " * 4_000,
    "\udcff\udcfe",
]


def test_lines_that_are_none_of_a_feed(mirrors: Mirrors) -> None:
    """They change nothing that is shown, and end nothing."""
    mirror = mirrors("--follow", "-")
    put(mirror, [*HOSTILE, LINES[0], *HOSTILE])
    assert mirror.shows(1)
    put(mirror, [*HOSTILE * 20, LINES[1]])
    assert mirror.shows(2) and [*health(mirror.port)["groups"]] == ["A"]
    screen = Socket(mirror.port, "/lines")
    named = {"reply": "hall", "title": "?[2J?", "groups": "A", "tonight": {"A": [1]}}
    assert screen.receive() == named
    assert mirror.end(signal.SIGTERM) == (0, "", "")


def test_a_mirror_with_a_title_of_its_own(mirrors: Mirrors) -> None:
    """It stays, whatever the other server is called."""
    mirror = mirrors("--follow", "-", "--title", "Newsroom")
    put(mirror, ['{"reply":"hall","title":"Finals","groups":"A","tonight":{"A":[1]}}', LINES[0]])
    assert mirror.shows(1)
    named = {"reply": "hall", "title": "Newsroom", "groups": "A", "tonight": {"A": [1]}}
    assert Socket(mirror.port, "/lines").receive() == named


def test_a_follower_is_killed_before_it_has_read(mirrors: Mirrors) -> None:
    """The line is given to the next one, which tells nothing twice."""
    mirror = mirrors("--follow", "-")
    put(mirror, LINES[:1])
    assert mirror.shows(1)
    feed = Feed(mirror.port)
    for version in range(2, 12):
        # The one before may be there still for a moment.
        assert until(lambda: len(mirror.children()) == 1)
        (child,) = mirror.children()
        os.kill(child, signal.SIGSTOP)
        put(mirror, [LINES[version - 1], LINES[0]])
        assert not mirror.shows(version, seconds=0.1)
        os.kill(child, signal.SIGKILL)
        assert mirror.shows(version)
    assert versions(feed, 11) == [*range(1, 12)]
    assert mirror.end(signal.SIGTERM) == (0, "", "")


def test_a_follower_that_is_killed_again_and_again(mirrors: Mirrors) -> None:
    """What was shown stays, and is called old, although pulses say that it is the board's."""
    mirror, pulse = mirrors("--follow", "-"), PULSE.replace(str([0, len(LINES)]), "[0, 1]")
    put(mirror, [LINES[0], pulse])
    assert mirror.shows(1) and until(mirror.is_there)

    def is_over() -> bool:
        for child in mirror.children():
            with contextlib.suppress(ProcessLookupError):
                os.kill(child, signal.SIGKILL)
        return "again and again" in health(mirror.port)["groups"]["A"]["fault"]

    assert until(is_over, 60)
    put(mirror, [pulse])
    screen = Socket(mirror.port, "/lines")
    for _ in range(3):
        put(mirror, [pulse])
        assert screen.until("pulse") and screen.lines[-1]["groups"] == ""
        assert not mirror.is_there()
    assert table(mirror)["version"] == 1


def test_a_long_pipe_and_its_end(mirrors: Mirrors) -> None:
    """Lines wait in the pipe while the follower reads, and repeated ones are not kept. Without
    pulses, and behind its end, what is shown is called old."""
    mirror = mirrors("--follow", "-")

    def most_memory() -> int:
        """In bytes."""
        status = text_of(f"/proc/{mirror.process.pid}/status")
        return int(status.split("VmHWM:")[1].split()[0]) << 10

    put(mirror, LINES[:-2] * 3)
    assert mirror.shows(len(LINES) - 2)
    before = most_memory()
    for _ in range(100):
        put(mirror, LINES[:-1] * 3)
    put(mirror, LINES[-1:])
    assert mirror.shows(len(LINES)) and not mirror.is_there()
    assert most_memory() - before < 8 << 20
    mirror.end_input()
    ended = "ucl_serve: standard input has ended: nothing newer comes from there\n"
    assert mirror.told() == ended
    screen = Socket(mirror.port, "/lines")
    assert screen.until("screen", version=len(LINES)) and screen.receive()["groups"] == ""
    assert mirror.end(signal.SIGTERM) == (0, "", "")
