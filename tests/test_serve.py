"""The server of screens and phones, without a browser: what it prints, who may do what, taps and their answers, bad input, and what is killed or replaced."""

import base64
import contextlib
import hashlib
import json
import os
import random
import re
import signal
import socket
import time
from types import SimpleNamespace

import model
import pytest
from conftest import hall as hall
from drivers.feed import Feed
from drivers.port import free_port
from drivers.program import Started, children_of, command, lines_of
from drivers.server import CLUBS, SERVE
from drivers.terminal import Terminal
from drivers.text import TOP, text_of
from drivers.wait import until
from drivers.websocket import Socket

from ucl_hall.web import command as serve
from ucl_hall.web import links
from ucl_hall.web.options import options_of

pytestmark = pytest.mark.limit(200)
BEGUN = "group,A,uefa,0\n" + model.CLUBS
HEADERS = {
    "cache-control": "no-store",
    "referrer-policy": "no-referrer",
    "x-content-type-options": "nosniff",
}
NOTHING = "default-src 'none'; frame-ancestors 'none'; base-uri 'none'; form-action 'none'"


def append(one, rows, record="a.csv"):
    """Appends rows to the record, as a reporter at a terminal does."""
    with open(one.folder / record, "a") as file:
        file.write(rows)


def is_gone(process):
    """Whether a process has ended."""
    return not os.path.exists(f"/proc/{process}")


# ---- what it prints, and how it ends


@pytest.mark.quick
def test_what_it_prints_and_the_links(hall):
    """No key comes where the output may be kept; the links are told to who may read the file of keys, which nobody else may."""
    one = hall("--reporter", "1", "--reporter", "7:5,6", "--title", "Finals")
    port = one.port
    screens = f"Screens: http://127.0.0.1:{port}/\nFor phones give --listen 0.0.0.0:{port}\n"
    assert one.printed == screens
    assert (one.folder / "a.csv.keys").stat().st_mode & 0o777 == 0o600
    words = [SERVE, "--links", "a.csv", "--url", "https://hall.example"]
    assert command(words, cwd=one.folder).output == "".join(
        f"a.csv, reporter {it}: https://hall.example/report/{one.key(it)}\n" for it in (1, 7)
    )
    assert all(re.fullmatch("[0-9a-f]{32}", one.key(it)) for it in (1, 7))
    status, _, page = one.get("/health")
    assert status == 200 and one.key(1) not in page
    named = {"number": 7, "group": "A", "matches": [5, 6], "title": "Finals"}
    assert one.phone(7).lines[0] == {"reply": "reporter", **named}
    assert one.end(signal.SIGTERM) == (0, "", "")


def test_keys_stay_after_a_kill_and_end_with_new_ones(hall):
    """Of one reporter, or of all, also of those who are not named; a key that has ended is nowhere."""
    one = hall("--reporter", "1", "--reporter", "2")
    keys = one.folder / "a.csv.keys"
    first, second = one.key(1), one.key(2)
    one.end()
    one.start("--reporter", "3")
    assert (one.key(1), one.key(2)) == (first, second) and one.key(3) not in (first, second)
    one.end()
    one.start("--revoke", "1", "--revoke", "3")
    third = one.key(1)
    assert third != first and text_of(keys) == f"1 {third}\n2 {second}\n"
    assert [one.get(f"/report/{it}")[0] for it in (first, third)] == [404, 200]
    assert keys.stat().st_mode & 0o777 == 0o600
    one.end()
    one.words = ["--reporter", "1"]
    one.start("--new-keys")
    assert text_of(keys) == f"1 {one.key(1)}\n" and one.key(1) != third
    assert [*one.folder.glob("*.keys")] == [keys]


def test_keys_of_older_records_and_files_that_are_none(hall, live, tmp_path):
    """Of two lines of a number the later counts, and one that was cut off is none. Who serves it has the lock of the file that is there, also once it is new."""
    old, new, keys = "0" * 32, "1" * 32, tmp_path / "a.csv.keys"
    keys.write_text(f"1 {old}\n2 {old}\n\n1 {new}\n2 {new[1:]}")
    keys.chmod(0o600)
    one = hall("--reporter", "1", "--reporter", "2", "--reporter", "3")
    assert (one.key(1), one.key(2)) == (new, old)
    served = (1, "ucl_serve: a.csv is served already\n")
    assert refused(tmp_path, live, "a.csv") == served
    one.end()
    os.rename(keys, tmp_path / "kept")
    flags = os.O_CREAT | os.O_WRONLY
    for make in os.mkfifo, lambda path: os.truncate(os.open(path, flags, 0o600), 2 << 20):
        make(keys)
        for words in ["--links"], []:
            none = (1, "ucl_serve: a.csv.keys is no file of keys\n")
            assert refused(tmp_path, live, *words, "a.csv") == none
        keys.unlink()


def test_what_is_said_of_one_group(hall, live, tmp_path):
    """A reporter of one record, its matches, its links, and the matches of the evening."""
    words = ["--reporter", "1:1,2", "--reporter", "b/2:3,4", "--reporter", "B/1:5"]
    one = hall(*words, "--tonight", "B/7", records=("a.csv", "b.csv"))
    groups = one.health()["groups"]
    assert [[*groups[it]["phones"]] for it in "AB"] == [["1"], ["1", "2"]]
    phones = [one.phone(*it) for it in ((1,), (1, "b.csv"), (2, "b.csv"))]
    assert [phone.lines[0]["matches"] for phone in phones] == [[1, 2], [5], [3, 4]]
    assert one.screen().receive()["tonight"] == {"A": [1, 2], "B": [7]}
    before = one.key(1), one.key(1, "b.csv")
    one.end()
    one.start("--revoke", "B/1")
    assert one.key(1) == before[0] and one.key(1, "b.csv") != before[1]
    one.end()
    kept = text_of(tmp_path / "a.csv.keys")
    for word in "C/1", "C/1:3":
        none = (2, "ucl_serve: no record is of group C\n")
        assert refused(tmp_path, live, "a.csv", "--new-keys", "--reporter", word) == none
    assert text_of(tmp_path / "a.csv.keys") == kept


def test_the_matches_of_the_evening(hall):
    """Those of the reporters, and each that is in play or has changed since the start; screens hear of it. With a reporter of all matches pages see to it."""
    one = hall("--reporter", "1:2")
    append(one, "9,3,0,kickoff\n9,3,1,fulltime\n9,4,0,kickoff\n")
    assert until(lambda: one.health()["groups"]["A"]["version"] == 3)
    one.end()
    one.start()
    screen = one.screen()
    assert screen.receive()["tonight"] == {"A": [2, 4]}
    append(one, "9,5,0,kickoff\n9,5,1,fulltime\n9,4,1,fulltime\n")
    assert screen.until("hall")["tonight"] == {"A": [2, 4, 5]} == one.screen().receive()["tonight"]
    append(one, "mend,9,,\n")
    assert screen.until("hall")["tonight"] == {"A": [2, 4]}
    one.end()
    one.words = []
    one.start()
    assert one.screen().receive()["tonight"] == {}


@pytest.mark.quick
def test_a_code_for_each_address(monkeypatch, capsys):
    """That of the default route first; before them that who sees one can enter events."""

    class Adapter:
        names = ("127.0.0.1", ("fd00::2", 0, 0), "192.168.1.5", "10.0.0.7")
        ips = [type("IP", (), {"ip": it}) for it in names]

    monkeypatch.setattr("ifaddr.get_adapters", lambda: [Adapter])
    monkeypatch.setattr(links, "_of_default_route", lambda: ["10.0.0.7"])
    assert links.hosts_of("0.0.0.0") == ["10.0.0.7", "192.168.1.5"]
    assert links.hosts_of("hall.local") == ["hall.local"]
    monkeypatch.setattr("sys.stdout.isatty", lambda: True)
    monkeypatch.setattr(links, "code_of", lambda url: f"code of {url}")
    options = options_of(["a.csv", "--listen", "0.0.0.0:8080"])
    serve.tell_links(options, [("Reporter 1", "k")])
    urls = [f"http://{it}:8080/report/k" for it in ("10.0.0.7", "192.168.1.5")]
    told = [line for url in urls for line in (f"Reporter 1: {url}", f"code of {url}")]
    assert capsys.readouterr().out.splitlines() == [serve.SEEN, *told]


OWN = "--certificate c --key k"


@pytest.mark.quick
@pytest.mark.parametrize(
    "words, url, is_open",
    [
        ("--listen hall.local:80", "http://hall.local/", True),
        ("--listen hall.local:8080", "http://hall.local:8080/", True),
        (f"--listen hall.local:443 {OWN}", "https://hall.local/", False),
        (f"--listen hall.local:80 {OWN}", "https://hall.local:80/", False),
        ("--listen 0.0.0.0:8080 --url https://hall.example", "https://hall.example/", False),
        ("--listen 0.0.0.0:8080 --url http://hall.example", "http://hall.example/", True),
        ("--listen [fd00::2]:8080", "http://[fd00::2]:8080/", True),
    ],
)
def test_the_address_for_screens(capsys, words, url, is_open):
    """Without the port that a browser takes by itself; and what it means that there is no https."""
    serve.tell(options_of(["a.csv", *words.split()]), [])
    told = [f"Screens: {url}", *[serve.OPEN] * is_open]
    assert capsys.readouterr().out.splitlines() == told


def test_files_that_the_pages_leave_are_no_sources():
    """What the commands of README and OPERATE leave in the folder is not taken for a source."""
    if command(["git", "rev-parse"]).status:
        pytest.skip("no checkout of git")
    pages = "".join(text_of(TOP / name) for name in ("README.md", "docs/OPERATE.md"))
    records = {*re.findall(r"\./ucl_(?:serve|reporter) ([a-z]+\.csv)", pages), "a.csv", "h.csv"}
    assert {"evening.csv", "trial.csv"} < records
    for name in records | {f"{it}.keys" for it in records}:
        assert command(["git", "check-ignore", name]).status == 0, name


REFUSED = [
    *("", "a.csv a.csv", "a.csv --listen here", "a.csv --key x", "a.csv --url ftp://x"),
    *("a.csv --reporter 256", "a.csv --reporter 1:13", "a.csv --most-screens 0"),
    *("a.csv --reporter I/1", "a.csv --reporter B/", "a.csv --reporter B/1:"),
    *("a.csv --tonight 0", "a.csv --tonight B/", "a.csv --revoke x", "a.csv --revoke 1:2"),
    *("--follow here", "--follow http://127.0.0.1:8080/", "--follow ftp://x/feed"),
    *("--follow - a.csv", "--follow - --reporter 1", "--follow - --new-keys"),
    *("--follow - --clubs x", "--follow - --tonight 1", "--follow - --revoke 1"),
    "--follow - --links",
]


@pytest.mark.quick
def test_records_stand_wherever_they_are_typed():
    options = options_of("a.csv --clubs a --listen 0.0.0.0:8080 b.csv --clubs b".split())
    assert (options.records, options.clubs) == (["a.csv", "b.csv"], ["a", "b"])
    assert options_of(["--links", "a.csv", "--url", "http://x", "b.csv"]).records[1:] == ["b.csv"]


@pytest.mark.quick
def test_the_group_that_is_likely(monkeypatch, tmp_path):
    """Of records that are not there yet the second is asked for as group B."""
    monkeypatch.chdir(tmp_path)
    monkeypatch.setattr("sys.stdin", SimpleNamespace(isatty=lambda: True))
    monkeypatch.setattr(serve, "rows_by_questions", lambda letter="A": letter)
    rows = serve.first_rows(options_of(["x.csv", "y.csv"]))
    assert rows == {"x.csv": "A", "y.csv": "B"}


@pytest.mark.quick
def test_what_holds_without_an_option_is_as_the_help_says(capsys):
    """A server that is started by its records alone is reached from this machine alone."""
    options = options_of(["a.csv"])
    assert (options.listen, options.most_screens) == (("127.0.0.1", 8080), 4_000)
    assert (options.groups, options.order) == ("ABCDEFGH", "uefa")
    assert options.evening("A").reporters == {1: tuple(range(1, 13))}
    with pytest.raises(SystemExit) as ended:
        options_of(["--help"])
    told = " ".join(capsys.readouterr().out.split())
    assert ended.value.code == 0
    for words in (
        *("--listen HOST:PORT 127.0.0.1:8080 without it;", "--most-screens N 4000 without it;"),
        *("as 2:5,6; 1 without it;", "--group, A without it,"),
    ):
        assert words in told


@pytest.mark.quick
@pytest.mark.parametrize("line", REFUSED)
def test_command_lines_that_are_refused(capsys, line):
    with pytest.raises(SystemExit) as ended:
        options_of(line.split())
    told = capsys.readouterr()
    assert ended.value.code == 2 and told.out == "" and "error: " in told.err


def refused(folder, live, *words):
    """The status and the errors of a start that is refused."""
    ran = command([SERVE, *words], cwd=folder, env={**os.environ, "UCL_LIVE": str(live)})
    assert ran.output == "" and (ran.errors.count("\n") == 1 or ran.status == 2)
    return ran.status, ran.errors


def test_starts_that_are_refused(hall, live, tmp_path):
    """Each is told in a line, and what is served goes on."""
    one = hall("--reporter", "1")
    taken = f"127.0.0.1:{one.port}"
    for name in "def":
        (tmp_path / f"{name}.csv").write_text(BEGUN)
    (tmp_path / "f.csv.keys").touch()
    (tmp_path / "f.csv.keys").chmod(0o640)
    there = "there is no c.csv: give --clubs FILE, or type this line at a terminal"
    for words, status, told in (
        (["a.csv"], 1, "a.csv is served already\n"),
        (["b.csv", "--clubs", CLUBS, "--listen", taken], 1, f"{taken}: another program listens"),
        (["c.csv"], 1, f"{there}\n"),
        (["d.csv", "e.csv"], 2, "two records are of group A\n"),
        (["f.csv"], 1, "others can read f.csv.keys, which has keys"),
    ):
        ended, errors = refused(tmp_path, live, *words)
        assert ended == status and errors.startswith(f"ucl_serve: {told}"), words
    assert refused(tmp_path, live, "a.csv", "--key", "x")[0] == 2
    assert one.health()["groups"]["A"]["is_there"]


def test_ctrl_c_at_the_questions(live, tmp_path):
    """It ends at once, and begins nothing."""
    one = Terminal([SERVE, "b.csv"], cwd=tmp_path, env={**os.environ, "UCL_LIVE": str(live)})
    try:
        one.sees("The group's letter").enter("b", "Order, ").sees("[uefa]:")
        # Once the question is there it sleeps until it reads.
        stat = f"/proc/{one.process.pid}/stat"
        assert until(lambda: text_of(stat).rpartition(") ")[2][0] == "S")
        assert one.end("\x03") == 130 and "Traceback" not in one.text()
        assert not [*tmp_path.glob("b.csv*")]
    finally:
        one.kill()


@pytest.mark.parametrize("number, status", [(signal.SIGINT, 130), (signal.SIGTERM, 0)])
def test_a_signal_in_the_midst_of_a_start(tmp_path, number, status):
    """The program that is asked does not answer: nothing is left, and the status is that of the signal."""
    (tmp_path / "a.csv").write_text(BEGUN)
    silent = tmp_path / "silent"
    silent.write_text("#!/bin/sh\ntouch begun\nexec sleep 1000\n")
    silent.chmod(0o755)
    words = [SERVE, "a.csv", "--listen", f"127.0.0.1:{free_port()}"]
    with Started(words, cwd=tmp_path, env={**os.environ, "UCL_LIVE": str(silent)}) as server:
        assert until((tmp_path / "begun").exists, 60)
        (child,) = children_of(server.pid)
        server.send_signal(number)
        assert server.end() == (status, "", "") and until(lambda: is_gone(child))


def test_what_one_is_told_on_another_address(live, tmp_path):
    """Without a certificate it says what that means; there is no code where output is no terminal."""
    (tmp_path / "a.csv").write_text(BEGUN)
    words = [SERVE, "a.csv", "--listen", f"0.0.0.0:{free_port()}", "--url", "http://hall.example/"]
    with Started(words, cwd=tmp_path, env={**os.environ, "UCL_LIVE": str(live)}) as server:
        told = "Without --certificate whoever is on this network can read links and enter events"
        assert server.lines(2).startswith(f"Screens: http://hall.example/\n{told}")


# ---- who may do what


def policy_of(text):
    """The policy by which a page may run its own script and style, by their sums."""
    sums = []
    for part in "script", "style":
        inside = re.search(f"<{part}>(.*?)</{part}>", text, re.S)[1].encode()
        sums.append(base64.b64encode(hashlib.sha256(inside).digest()).decode())
    own = "; script-src 'sha256-{}'; style-src 'sha256-{}'; connect-src 'self'".format(*sums)
    return {"content-security-policy": NOTHING + own}


@pytest.mark.quick
def test_pages_and_headers(hall):
    """A page may run its own script and style, and no other. What is no page is none."""
    one = hall("--reporter", "1")
    key, pages = one.key(1), TOP / "ucl_hall/web/pages"
    paths = {"/": "index.html", "/?wall": "index.html", f"/report/{key}": "report.html"}
    for path, name in paths.items():
        status, headers, body = one.get(path)
        text = text_of(pages / name)
        assert (status, body) == (200, text) and headers | HEADERS | policy_of(text) == headers
        assert "http:" not in text.replace("http://HOST", "") and "https:" not in text
        assert key not in body
    assert one.get("/replay.jsonl")[2] == text_of(pages / "replay.jsonl")
    for path in (
        *("/report.html", "/index.html", "/report", "/report/", "/report/x", f"/report/{'0' * 32}"),
        *(f"/report/{key}/", f"/report/{key.upper()}x", "/../ucl_serve", "/..%2f..%2fetc/passwd"),
        *("/a.csv", "/a.csv.keys", "/favicon.ico", "/lines/", "//", "/%00", "/feed/", "/feeds"),
        *("/table", "/table.html", "/table.json/"),
    ):
        status, headers, _ = one.get(path)
        wanted = {**HEADERS, "content-security-policy": NOTHING}
        assert status == 404 and headers | wanted == headers, path


@pytest.mark.quick
def test_a_key_is_of_one_record_and_one_number(hall):
    one = hall("--reporter", "1:3", "--reporter", "2", records=("a.csv", "b.csv"))
    of_a, of_b = one.phone(1), one.phone(1, "b.csv")
    assert [phone.lines[0]["group"] for phone in (of_a, of_b)] == ["A", "B"]
    assert len({one.key(it, file) for it in (1, 2) for file in ("a.csv", "b.csv")}) == 4
    assert of_b.answer(3, 0, "kickoff") == "entered"
    assert one.rows("b.csv") == ["1,3,0,kickoff"]
    of_a.tap(4, 0, "kickoff")
    assert of_a.is_closed() and one.rows() == []


def test_a_page_of_another_host_opens_no_websocket(hall):
    one = hall("--reporter", "1")
    here = f"http://127.0.0.1:{one.port}"
    others = f"{here}.evil.example", f"http://127.0.0.1:{one.port + 1}"
    for path in "/lines", f"/report/{one.key(1)}/taps":
        for origin in "http://evil.example", "", "null", "http://[", *others:
            assert Socket(one.port, path, origin=origin).status == 403
        assert Socket(one.port, path).status == 101


@pytest.mark.quick
def test_names_that_are_not_of_this_server(hall):
    """A page of another host may have its name lead here: it reads nothing. Nobody is asked for a name."""
    at = ["--at", "http://Second.example:8080"]
    one = hall("--reporter", "1", "--url", "http://Hall.example:8080/", *at)
    paths = ["/", "/health", "/replay.jsonl", f"/report/{one.key(1)}"]
    asked = lambda path, host: one.get(path, f"Host: {host}", host=False)[0]
    for host in (
        *("evil.example", "evil.example:80", f"127.0.0.1.evil.example:{one.port}", "local"),
        *("hall.example.evil", "[", "x@hall.example.evil", ""),
    ):
        assert {asked(path, host) for path in paths} <= {403, 400}, host
        assert Socket(one.port, "/lines", host=host, origin=f"http://{host}").status in (403, 400)
    for host in (
        *("127.0.0.1", f"127.0.0.1:{one.port}", "192.168.1.5", "[::1]:8080", "localhost"),
        *("laptop.local:8080", "hall.example", "HALL.example:8080", "second.example:8080"),
    ):
        assert {asked(path, host) for path in paths} == {200}, host
        assert Socket(one.port, "/lines", host=host).status == 101
    times = [time.monotonic()]
    for host, status in ("127.0.0.1", 403), ("", 403):
        assert Socket(one.port, "/lines", host=host, origin="http://x").status == status
        times.append(time.monotonic())
    # Who asks for a name waits for five seconds where there is no network.
    assert times[2] - times[1] < 4 + 10 * (times[1] - times[0])
    assert one.get("/health", host=False)[0] == 200


def test_more_screens_than_may_be(hall):
    """Reporters are not counted, and who reads a feed is a screen. One that goes makes room, and so does an address that has more; this machine always has a place."""
    one = hall("--reporter", "1", "--most-screens", "2")
    screen, feed = one.screen(source="127.0.0.2"), Feed(one.port, source="127.0.0.2")
    assert (screen.status, feed.answer.status) == (101, 200)
    assert one.screen(source="127.0.0.2").status == 503
    assert Feed(one.port, source="127.0.0.2").answer.status == 503
    assert one.phone(1).answer(1, 0, "kickoff") == "entered"
    feed.close()
    last = until(lambda: newer if (newer := one.screen(source="127.0.0.2")).status == 101 else None)
    sources = "127.0.0.3", "127.0.0.4", "127.0.0.1", "127.0.0.1"
    others = [one.screen(source=it) for it in sources]
    assert [it.status for it in others] == [101, 503, 101, 503]
    assert last.is_closed() and until(lambda: one.health()["screens"] == 3)


def test_more_screens_than_an_address_may_have(hall):
    one = hall()
    screens = [one.screen(source="127.0.0.2") for _ in range(64)]
    assert {it.status for it in screens} == {101} and one.screen(source="127.0.0.2").status == 503
    assert one.screen(source="127.0.0.3").status == 101 == one.screen().status


# ---- taps


@pytest.mark.quick
def test_taps_and_answers(hall):
    """Each is entered as it was seen; the phone that sent it is told, no other one, and everybody sees the moment before."""
    one = hall("--reporter", "1", "--reporter", "2")
    screen, second, phones = one.screen(), one.phone(2), [one.phone(1), one.phone(1)]
    assert screen.receive() == {"reply": "hall", "title": "", "groups": "A", "tonight": {}}
    assert screen.receive()["version"] == 0
    assert phones[0].answer(1, 0, "kickoff") == "entered"
    assert second.answer(1, 1, "goal-away") == "entered"
    assert phones[0].until("screen", version=2)["matches"][0]["score"] == [0, 1]
    assert screen.until("screen", version=2)
    assert phones[0].until("recent")["events"] == [
        {"row": 7, "reporter": 2, "match": 1, "event": "goal-away", "number": 2},
        {"row": 6, "reporter": 1, "match": 1, "event": "kickoff", "number": 1},
    ]
    ids = [phone.tap(1, 2, "goal-home") for phone in phones]
    answers = [phone.until("answer", id=id) for phone, id in zip(phones, ids)]
    assert sorted((it["name"], it["told"][:21]) for it in answers) == [
        ("entered", "Entered, 1\u20131"),
        ("stale", "Not entered: another "),
    ]
    assert one.rows()[2:] == ["1,1,2,goal-home"] * 2
    for phone, own in zip((*phones, second), (2, 1, 1)):
        assert len([it for it in phone.lines if it["reply"] == "answer"]) == own
    there = {"is_there": True, "phones": {"1": 2, "2": 1}, "fault": ""}
    assert one.health()["groups"]["A"] == {"edition": 0, "version": 3, "rows": 8, **there}


@pytest.mark.quick
def test_how_many_phones_a_link_has(hall):
    """Each of them is told, and who runs the server. A page that connects anew is the same phone, and a ninth phone takes the place of the first."""
    one = hall("--reporter", "1", "--reporter", "2")
    first, other = one.phone(1, page="x"), one.phone(2)
    assert first.until("phones")["count"] == 1
    second = one.phone(1)
    assert first.until("phones")["count"] == 2 == second.until("phones")["count"]
    assert one.health()["groups"]["A"]["phones"] == {"1": 2, "2": 1}
    assert lines_of(one.process.stderr) == "ucl_serve: reporter 1 has 2 phones\n"
    again = one.phone(1, page="x")
    assert first.is_closed() and again.until("phones")["count"] == 2
    assert again.answer(1, 0, "kickoff") == "entered"
    second.socket.close()
    assert again.until("phones", count=1)
    more = [one.phone(1) for _ in range(8)]
    assert again.is_closed() and more[0].until("phones", count=8)
    assert more[0].answer(1, 1, "goal-home") == "entered"
    assert one.health()["groups"]["A"]["phones"]["1"] == 8
    assert [it["count"] for it in other.lines if it["reply"] == "phones"] in ([], [1])


@pytest.mark.quick
def test_a_mend_while_phones_look_on(hall):
    """A tap from before it is not entered, phones are told what no longer counts, and screens get the whole board of the next edition, and nothing between."""
    one = hall("--reporter", "1")
    phone, screen = one.phone(1), one.screen()
    for number, event in enumerate(["kickoff", "goal-home", "disallow-home", "yellow-away"]):
        assert phone.answer(1, number, event) == "entered"
    append(one, "mend,7,,\n")
    assert phone.until("left-out")["row"] == 8 and phone.until("mended")["left_out"] == 1
    assert phone.until("screen", edition=1)["matches"][0]["number"] == 2
    assert screen.until("screen", edition=1)["version"] == 2
    ages = [(it["edition"], it["version"]) for it in screen.lines if it["reply"] == "screen"]
    assert ages == [(0, 0), (0, 1), (0, 2), (0, 3), (0, 4), (1, 2)]
    assert [it["row"] for it in phone.until("recent")["events"]] == [9, 6]
    assert phone.answer(1, 2, "goal-away") == "dropped"
    assert phone.answer(1, 2, "goal-away", edition=1) == "entered"


# ---- bad input


def test_messages_that_are_no_taps(hall):
    """Each closes its connection, and enters nothing; so does one more than twenty at once. Each is of a link of its own: those of one link are counted together."""
    one = hall(*[word for number in range(1, 10) for word in ("--reporter", f"{number}:1")])
    tap = {"tap": "ab" * 16, "edition": 0, "match": 1, "expected": 0, "event": "kickoff"}
    whole = json.dumps(tap)
    for number, (text, opcode) in enumerate(
        [
            *((json.dumps({**tap, "match": 2}), 0x81), ("[" * 1000, 0x81), ("x" * 1025, 0x81)),
            *((whole[:-1] + " " * 1024 + "}", 0x81), (whole, 0x82), (whole, 0x83)),
            (whole, 0xC1),
        ],
        1,
    ):
        phone = one.phone(number)
        phone.send(text, opcode)
        assert phone.is_closed(), (text, opcode)
    screen = one.screen()
    screen.send(whole)
    assert screen.is_closed() and one.rows() == []
    assert one.phone(8).answer(1, 0, "kickoff") == "entered"
    phone = one.phone(9)
    for _ in range(40):
        with contextlib.suppress(ConnectionError):
            phone.tap(1, 9, "goal-home")
    assert phone.is_closed() and [it["reply"] for it in phone.lines].count("answer") <= 20


HOSTILE = [
    *(b"GET / HTTP/1.1\r\n", b"Host: x\r\n", b"\r\n", b"\0", b"\xff" * 20, b"A" * 9000),
    *(b"Content-Length: 99999999999\r\n", b"Transfer-Encoding: chunked\r\n", b"GET /\r\n"),
    *(b"POST / HTTP/1.1\r\n", b"Upgrade: websocket\r\n", b"Connection: Upgrade\r\n"),
    *(b"Sec-WebSocket-Key: x\r\n", b"Sec-WebSocket-Version: 99\r\n", b"\x16\x03\x01"),
    *(b"PRI * HTTP/2.0\r\n\r\nSM\r\n\r\n", b"5\r\nhello\r\n"),
]


def test_a_thousand_hostile_requests_and_frames(hall):
    """The server answers afterwards."""
    one, chance = hall("--reporter", "1", "--reporter", "2"), random.Random(7)
    for _ in range(500):
        with contextlib.suppress(OSError):
            with socket.create_connection(("127.0.0.1", one.port), 10) as rough:
                rough.sendall(b"".join(chance.choices(HOSTILE, k=chance.randint(1, 8))))
    for at in range(500):
        rough = one.phone(1) if at % 2 else one.screen()
        with contextlib.suppress(OSError):
            rough.socket.sendall(chance.randbytes(chance.choice([1, 2, 3, 7, 40, 2000])))
        rough.socket.close()
    phone = one.phone(2)
    assert phone.answer(1, 0, "kickoff") == "entered"
    assert until(lambda: one.health()["screens"] == 0 and one.health()["reporters"] == 1)
    status, output, errors = one.end(signal.SIGTERM)
    told = r"(reporter 1 has \d phones; )?cut off \d+ connections, all of 127.0.0.1"
    assert (status, output) == (0, "") and re.fullmatch(f"(ucl_serve: {told}\n)?", errors)


def test_a_connection_has_one_request(hall):
    """What comes behind it is passed over, also where it comes in pieces."""
    one = hall()
    asked = b"GET /health HTTP/1.1\r\nHost: 127.0.0.1\r\n\r\n"
    for pieces in [asked * 2], [asked[:20], asked[20:-1], asked[-1:] + asked]:
        with socket.create_connection(("127.0.0.1", one.port), 10) as two:
            for piece in pieces:
                two.sendall(piece)
                time.sleep(0.05)
            answer = b"".join(iter(lambda: two.recv(1 << 16), b""))
        assert answer.count(b"HTTP/1.1 200") == 1 == answer.count(b'"groups"')


# ---- what is replaced, killed or stopped


def test_a_record_that_is_replaced(hall):
    """Nobody is shown the other board: phones, screens and feeds get no pulse of the group, its table has an age, and with the last group the server ends."""
    one = hall("--reporter", "1", records=("a.csv", "b.csv"))
    phone, feed = one.phone(1), Feed(one.port)
    (one.folder / "new").write_text(text_of(one.folder / "a.csv") + "1,1,0,kickoff\n")
    os.replace(one.folder / "new", one.folder / "a.csv")
    assert feed.until("pulse", groups="B")["moments"] == {"B": [0, 0]}
    assert int(one.get("/table.txt?group=A")[1]["age"]) >= 1
    assert "age" not in one.get("/table.txt?group=B")[1]
    told = one.health()
    assert not told["groups"]["A"]["is_there"] and told["groups"]["A"]["fault"]
    assert "has become another file" in told["fault"]
    told = json.loads(one.get("/health", source="127.0.0.2")[2])
    assert told["fault"] == told["groups"]["A"]["fault"] == "look at the server"
    assert told["groups"]["B"]["fault"] == "" and phone.answer(1, 0, "kickoff") == "maybe"
    assert one.phone(1, "b.csv").answer(1, 0, "kickoff") == "entered"
    phone.socket.settimeout(2.5)
    with contextlib.suppress(TimeoutError):
        while said := phone.receive():
            assert said["reply"] != "pulse"
    os.replace(one.folder / "a.csv", one.folder / "b.csv")
    ended = one.process.end()
    told = [line.split(": ")[:2] for line in ended.errors.splitlines()]
    assert ended.status == 1 and told == [["ucl_serve", "group A"], ["ucl_serve", "group B"]]


def event_of(number):
    """An event that the match takes as this one."""
    return "yellow-home" if number else "kickoff"


def test_the_server_is_killed_while_taps_are_on_the_way(hall):
    """Nothing is left of it. Afterwards each tap that was entered is answered so, and each other one is not in the record."""
    one, chance = hall("--reporter", "1"), random.Random(3)
    for turn in range(6):
        phone, number = one.phone(1), len(one.rows())
        taps = {it: phone.tap(1, it, event_of(it)) for it in range(number, number + 6)}
        time.sleep(chance.random() / 50)
        children = one.live()
        one.end()
        assert until(lambda: all(map(is_gone, children)))
        one.start()
        phone, rows = one.phone(1), one.rows()
        for number, id in taps.items():
            wanted = "entered" if f"1,1,{number},{event_of(number)}" in rows else "lost"
            for name in "ask", "ask", "tap":
                assert phone.answer(1, number, event_of(number), name, id=id) == wanted
    assert one.rows() == [f"1,1,{it},{event_of(it)}" for it in range(len(one.rows()))]


def test_a_tap_that_lies_in_a_stopped_server_is_not_entered_once_it_was_asked_about(hall):
    """Its old connection is read late, perhaps after the question on the new one: then it is not entered, whichever comes first."""
    one = hall("--reporter", "1")
    phone = one.phone(1)
    for number in range(10):
        one.process.send_signal(signal.SIGSTOP)
        id = phone.tap(1, number, event_of(number))
        phone.socket.close()
        one.process.send_signal(signal.SIGCONT)
        phone = one.phone(1)
        name = phone.answer(1, number, event_of(number), "ask", id=id)
        time.sleep(0.05)
        assert name in ("entered", "lost")
        assert (name == "entered") == (len(one.rows()) == number + 1)
        assert name == "entered" or phone.answer(1, number, event_of(number)) == "entered"
