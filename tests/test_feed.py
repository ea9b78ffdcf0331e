"""The feed of a server, and the table once: for whoever draws it by a program of their own."""

import asyncio
import contextlib
import itertools
import json
import os
import pathlib
import re
import signal
import socket
import time
from collections.abc import Callable, Iterator
from typing import Any

import model
import pytest
from drivers.feed import Feed
from drivers.port import free_port, is_reached
from drivers.program import Started, command, needs
from drivers.server import got, health
from drivers.text import TOP, lines_to_type
from drivers.wait import until

from ucl_hall.web.connections import AGAIN, Screen, Screens, frame_of

pytestmark = pytest.mark.limit(200)
Halls = Callable[..., Any]


def test_the_screen_first_then_each_newer_and_pulses(hall: Halls) -> None:
    """Who reads needs no Origin; the lines are those that pages get."""
    one = hall("--reporter", "1:1,2", "--title", "Finals")
    feed, page = Feed(one.port), one.screen()
    assert feed.answer.getheader("Content-Type") == "application/x-ndjson"
    phone, begun = one.phone(1), time.monotonic()
    for number, event in enumerate(["kickoff", "goal-home", "goal-away"]):
        assert phone.answer(1, number, event) == "entered"
    for version in (1, 2, 3):
        assert feed.until("screen", version=version) == page.until("screen", version=version)
    for _ in range(3):
        assert feed.until("pulse", groups="A")["moments"] == {"A": [0, 3]}
    assert 1.5 < time.monotonic() - begun < 30
    assert [feed.lines[0]["reply"], feed.lines[0]["version"]] == ["screen", 0]
    named = {"reply": "hall", "title": "Finals", "groups": "A", "tonight": {"A": [1, 2]}}
    assert named in feed.lines and page.lines[0] == named
    screens = [it for it in feed.lines if it["reply"] == "screen"]
    assert screens == [it for it in page.lines if it["reply"] == "screen"]
    feed.close()
    assert until(lambda: health(one.port)["screens"] == 1)


def test_a_group_or_all(hall: Halls) -> None:
    """Who asks for a group gets no screen of another; one that is not there is told."""
    one = hall("--reporter", "1", records=("a.csv", "b.csv"))
    every, only = Feed(one.port), Feed(one.port, "/feed?group=B")
    assert one.phone(1).answer(1, 0, "kickoff") == "entered"
    assert one.phone(1, "b.csv").answer(2, 0, "kickoff") == "entered"
    for group in "AB":
        assert every.until("screen", group=group, version=1)
    assert only.until("screen", version=1) and only.until("pulse", groups="AB")
    assert {it["group"] for it in only.lines if it["reply"] == "screen"} == {"B"}
    for path in "/feed?group=C", "/feed?group=", "/table.json?group=b":
        assert got(one.port, path)[::2] == (404, "there is no such group here: A, B\n")
    for path in "/table.json", "/table.txt":
        assert got(one.port, path)[::2] == (400, "add ?group= with one of A, B\n")
    assert json.loads(got(one.port, "/table.json?group=B")[2])["matches"][1]["number"] == 1
    with socket.create_connection(("127.0.0.1", one.port), 10) as other:
        other.sendall(b"HEAD /feed HTTP/1.1\r\nHost: 127.0.0.1\r\n\r\n")
        assert other.recv(100).startswith(b"HTTP/1.1 405 ")


def test_the_table_once_and_its_etag(hall: Halls) -> None:
    """A cache that asks again is told in one line that nothing has changed, until it has."""
    one = hall("--reporter", "1")
    phone = one.phone(1)
    matches, tags = model.fresh(), []
    for number, event in enumerate(["kickoff", "goal-away"]):
        assert phone.answer(1, number, event) == "entered"
        matches[0].enter(1, event)
        status, headers, body = got(one.port, "/table.txt")
        assert (status, body) == (200, model.screen(matches))
        assert headers["content-type"] == "text/plain; charset=utf-8" and "age" not in headers
        assert headers["cache-control"] == "max-age=1, must-revalidate"
        tags.append(headers["etag"])
        status, headers, body = got(one.port, "/table.json")
        assert status == 200 and headers["content-type"].startswith("application/json")
        assert json.loads(body) == phone.lines[-1] or json.loads(body)["version"] == number + 1
        for path, known in itertools.product(("/table.txt", "/table.json"), (tags[-1], "*")):
            status, headers, body = got(one.port, path, f"If-None-Match: {known}")
            assert (status, headers["etag"], body) == (304, tags[-1], "")
        for known in ['"x"', '"0.9"', *tags[:-1]]:
            assert got(one.port, "/table.txt", f"If-None-Match: {known}")[0] == 200
    assert tags == ['W/"0.1"', 'W/"0.2"']
    with open(one.folder / "a.csv", "a", encoding="ascii") as record:
        record.write("mend,6,,\n")
    assert until(lambda: got(one.port, "/table.txt")[1]["etag"] == 'W/"1.0"')
    assert got(one.port, "/table.txt")[2].startswith("GROUP A v00000 IN PLAY 0 EDITION 1\n")


@contextlib.contextmanager
def reads_nothing(port: int, path: str, version: str = "1.1") -> Iterator[socket.socket]:
    """Who asks for lines, and takes none of them yet."""
    with socket.socket() as slow:
        slow.setsockopt(socket.SOL_SOCKET, socket.SO_RCVBUF, 4_096)
        slow.settimeout(30)
        slow.connect(("127.0.0.1", port))
        slow.sendall(f"GET {path} HTTP/{version}\r\nHost: 127.0.0.1\r\n\r\n".encode())
        yield slow


def shown_to(slow: socket.socket, last: int) -> list[int]:
    """The versions that come to who takes what a chunk says, or all until the end."""
    shown = [0]
    with slow.makefile("rb") as lines:
        while shown[-1] < last:
            line = lines.readline()
            assert line, "it has ended"
            said = json.loads(line) if line.startswith(b"{") else {}
            shown += [said["version"]] if said.get("reply") == "screen" else []
    return shown


def test_slow_readers_get_the_newest_and_hold_nobody_up(hall: Halls) -> None:
    """A page, and feeds by both kinds of HTTP: of lines that they did not take in time they get
    the newest alone."""
    one = hall("--reporter", "1")
    with contextlib.ExitStack() as stack:
        ways = [reads_nothing(one.port, "/feed", version) for version in ("1.0", "1.1")]
        feeds = [stack.enter_context(way) for way in ways]
        page, fast, phone = one.screen(room=4_096), Feed(one.port), one.phone(1)
        assert phone.answer(1, 0, "kickoff") == "entered"
        words = ["disallow-home", "goal-home"] * 300
        rows = [f"1,1,{number},{word}\n" for number, word in enumerate(words)][1:]
        for at in range(0, 599, 50):
            with open(one.folder / "a.csv", "a", encoding="ascii") as record:
                record.write("".join(rows[at : at + 50]))
            fast.until("screen", version=min(at + 51, 600))
        assert until(lambda: health(one.port)["left_out"] > 0)
        assert page.until("screen", version=600)
        pages = [it["version"] for it in page.lines if it["reply"] == "screen"]
        for shown in [pages, *(shown_to(feed, 600) for feed in feeds)]:
            assert shown[1:] == sorted(set(shown[1:])) and len(shown) < 500


@pytest.mark.quick
@pytest.mark.parametrize(
    "count, head",
    [
        *((0, b"\x81\0"), (125, b"\x81\x7d"), (126, b"\x81\x7e\0\x7e")),
        *((65_535, b"\x81\x7e\xff\xff"), (65_536, b"\x81\x7f\0\0\0\0\0\1\0\0")),
    ],
)
def test_the_frame_of_a_line(count: int, head: bytes) -> None:
    """At each length where it begins otherwise."""
    assert frame_of(b"x" * count) == head + b"x" * count


class Slow:
    """A transport that is slow while it has bytes."""

    def __init__(self) -> None:
        self.size, self.sent = 0, list[bytes]()

    def get_write_buffer_size(self) -> int:
        """As many as the test says."""
        return self.size

    def is_closing(self) -> bool:
        """It is not."""
        return False

    def write(self, data: bytes) -> None:
        """Keeps it."""
        self.sent.append(data)


@pytest.mark.quick
async def test_who_was_slow_gets_each_line_once() -> None:
    """And what comes later at once."""
    slow: Any = Slow()
    screens, screen = Screens(), Screen(slow, lambda line: line)
    with screens.having(screen, b"0"):
        slow.size = 1
        for line in b"1", b"2":
            screens.send("A", line)
        assert slow.sent == [b"0"] and screens.left_out == 1
        slow.size = 0
        await asyncio.sleep(4 * AGAIN)
        screens.send("pulse", b"3")
        assert slow.sent == [b"0", b"2", b"3"]


def test_a_reader_that_takes_nothing_ends(hall: Halls) -> None:
    """It has half a minute; what it sends ends it at once."""
    one = hall("--reporter", "1")
    with reads_nothing(one.port, "/feed"), reads_nothing(one.port, "/feed") as loud:
        assert until(lambda: health(one.port)["screens"] == 2)
        loud.sendall(b"x" * 2_000)
        assert until(lambda: health(one.port)["screens"] == 1)
        assert until(lambda: health(one.port)["screens"] == 0, 90)


# ---- through a broker


@pytest.fixture
def broker(tmp_path: pathlib.Path) -> Iterator[int]:
    """The port of a broker on this machine."""
    needs("mosquitto", "mosquitto_pub", "mosquitto_sub", "curl", "bash")
    port = free_port()
    (tmp_path / "broker").write_text(f"listener {port} 127.0.0.1\nallow_anonymous true\n")
    with Started(["mosquitto", "-c", str(tmp_path / "broker")]):
        assert until(lambda: is_reached(port))
        yield port


class Shell:
    """Lines that are typed in a shell, with the addresses of this test in place of the page's."""

    def __init__(self, lines: str, server: int, broker: int, **env: str) -> None:
        text = lines.replace("192.168.1.5:8080", f"127.0.0.1:{server}")
        text = text.replace("0.0.0.0", "127.0.0.1")
        for name in "mosquitto_pub", "mosquitto_sub":
            text = text.replace(name, f"{name} -p {broker}")
        how: dict[str, Any] = {"cwd": TOP, "env": {**os.environ, **env}, "start_new_session": True}
        self.process = Started(["bash", "-c", f"{text}wait\n"], **how)

    def end(self) -> None:
        """Ends all that it has started."""
        os.killpg(self.process.pid, signal.SIGKILL)
        self.process.wait()


@pytest.mark.limit(300)
def test_the_page_s_lines_through_a_broker(hall: Halls, broker: int, follow: str) -> None:
    """Tables and a mirror behind it, also for who comes late; and a server that is killed."""
    typed = lines_to_type(TOP / "docs/OPERATE.md")
    shown, served = typed["Behind the broker"].splitlines(True)
    one, port = hall("--reporter", "1", "--title", "Finals"), free_port()
    env = {"UCL_FOLLOW": follow, "UCL_LIVE": one.how["env"]["UCL_LIVE"]}
    shells = [Shell(typed["Through a broker"], one.port, broker)]
    try:
        phone = one.phone(1)
        assert phone.answer(1, 0, "kickoff") == "entered"
        received = ["mosquitto_sub", "-p", str(broker), "-t", "ucl/a/screen", "-W", "20", "-C", "1"]
        assert until(lambda: '"version":1' in command(received).output, 60)
        served = served.replace("0.0.0.0:8080", f"127.0.0.1:{port}")
        shells += [Shell(shown.replace("./ucl_follow", follow), one.port, broker)]
        shells += [Shell(served, one.port, broker, **env)]
        tables, matches = shells[1].process, model.fresh()
        matches[0].enter(1, "kickoff")
        assert tables.lines(6) == model.screen(matches)
        assert until(lambda: is_reached(port))
        assert until(lambda: health(port)["groups"].get("A", {}).get("is_there"), 60)
        assert got(port, "/table.txt")[2] == model.screen(matches)
        one.end()
        assert until(lambda: not health(port)["groups"]["A"]["is_there"], 60)
        one.start()
        assert one.phone(1).answer(1, 1, "goal-home") == "entered"
        matches[0].enter(1, "goal-home")
        assert tables.lines(6) == model.screen(matches)
        assert until(lambda: got(port, "/table.txt")[2] == model.screen(matches))
        assert until(lambda: health(port)["groups"]["A"]["is_there"])
    finally:
        for shell in shells:
            shell.end()


def test_the_page_s_lines_of_curl(hall: Halls) -> None:
    """Each of the three as it stands there; the feed goes on until it is ended."""
    needs("curl")
    section = (TOP / "docs/OPERATE.md").read_text().split("### A feed for a newsroom")[1]
    lines = re.findall("^    (curl .*)$", section, re.M)[:3]
    one = hall("--reporter", "1")
    feed, text, said = [it.replace("192.168.1.5:8080", f"127.0.0.1:{one.port}") for it in lines]
    assert command(text.split()).output == model.screen(model.fresh())
    with Started(feed.split()) as reader:
        assert reader.lines(1) == command(said.split()).output
        assert json.loads(reader.lines(2).splitlines()[1])["reply"] == "pulse"
        assert reader.poll() is None
