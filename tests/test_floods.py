"""What strangers and a stolen link send as fast as they can, while two honest phones tap.

In each flood taps are answered within 150 ms, memory stays within 100 MB, and the operator is told in one line. Strangers are at addresses of their own of
the loopback: 127.0.0.1 is this machine, where the hall's own screen is.
"""

import contextlib
import json
import multiprocessing
import os
import pathlib
import random
import re
import resource
import signal
import socket
import ssl
import subprocess
import threading
import time
from typing import NamedTuple

import pytest
from drivers.program import needs
from drivers.wait import until
from drivers.websocket import Socket

pytestmark = pytest.mark.limit(200)
SECONDS = 4
WITHIN, LONG, MOST_MEMORY = 0.15, 1.0, 100 << 20
STRANGER, OTHER = "127.0.0.2", "127.0.0.3"
HONEST = ["--reporter", "1:1", "--reporter", "2:2", "--reporter", "9:9"]
# What the operator is told.
OF_ONE = r"cut off \d+ connections, all of 127\.0\.0\.2"
OF_MANY = r"cut off \d+ connections, most of 127\.0\.1\.\d+"
OF_LINK = rf"reporter 9 has \d phones(; {OF_ONE})?"
PING = b"\x89\x80\1\2\3\4"
SLOW = b"GET /replay.jsonl HTTP/1.1\r\nHost: 127.0.0.1\r\n\r\n"
OWES = b"POST / HTTP/1.1\r\nHost: 127.0.0.1\r\nContent-Length: 1000000000\r\n\r\n"


class Honest(threading.Thread):
    """A phone that taps four times a second, and how long each answer took."""

    def __init__(self, phone, match=1):
        super().__init__(daemon=True)
        self.phone, self.match, self.took, self.is_over = phone, match, [], threading.Event()
        assert phone.answer(match, 0, "kickoff") == "entered"
        self.start()

    def run(self):
        while not self.is_over.wait(0.25):
            begun, number = time.monotonic(), len(self.took) + 1
            event = "goal-home" if number % 2 else "disallow-home"
            assert self.phone.answer(self.match, number, event) == "entered"
            self.took.append(time.monotonic() - begun)


def took(phones):
    """How long the answers of these phones took: nine of ten at most so long, and the longest."""
    times = sorted(it for phone in phones for it in phone.took)
    return times[9 * len(times) // 10], times[-1]


def patience():
    """How many times as long as else something may take now: where others share each core it takes as much longer, and so does all that it waits for."""
    running = int(pathlib.Path("/proc/loadavg").read_text().split()[3].split("/")[0])
    return max(1, max(running, os.getloadavg()[0]) / os.cpu_count()) ** 2


@contextlib.contextmanager
def within(seconds):
    """What is done takes at most so long."""
    begun = time.monotonic()
    yield
    assert time.monotonic() - begun < seconds * patience()


def most_memory(hall):
    """The most memory that a server had, in bytes."""
    status = pathlib.Path(f"/proc/{hall.process.pid}/status").read_text()
    return int(re.search(r"VmHWM:\s+(\d+)", status)[1]) << 10


@contextlib.contextmanager
def flooded(hall, control, flood, words, told, **how):
    """Has a process of its own send a flood, and two phones tap meanwhile, and one at another server. Afterwards all is as it has to be."""
    begun = time.monotonic()
    phones = [Honest(hall.phone(it, **how), it) for it in (1, 2)]
    elsewhere = Honest(control.phone(1, "b.csv"))
    process = multiprocessing.get_context("fork").Process(
        target=sent, args=(flood, hall.port, *words), daemon=True
    )
    process.start()
    end = time.monotonic() + SECONDS
    try:
        yield
        time.sleep(max(0.0, end - time.monotonic()))
        assert until(lambda: min(len(it.took) for it in (*phones, elsewhere)) >= 2, 60)
        assert process.is_alive(), "the flood has ended"
    finally:
        process.kill()
        process.join()
        for phone in *phones, elsewhere:
            phone.is_over.set()
            phone.join(30)
    (most, longest), (other, other_longest) = took(phones), took([elsewhere])
    memory = most_memory(hall)
    print(f"{flood.__name__}: {most:.3f} s, the longest {longest:.3f} s, {memory >> 20} MB")
    assert most < max(WITHIN * patience(), 10 * other)
    assert longest < max(LONG * patience(), 10 * other_longest) and memory < MOST_MEMORY
    status, _, errors = hall.end(signal.SIGTERM)
    more = int((time.monotonic() - begun) // 60)
    assert status == 0
    assert re.fullmatch(f"ucl_serve: {told}\n(ucl_serve: .*\n){{0,{more}}}", errors), errors


def sent(flood, port, *words):
    """Sends a flood until it is killed."""
    _, hard = resource.getrlimit(resource.RLIMIT_NOFILE)
    resource.setrlimit(resource.RLIMIT_NOFILE, (hard, hard))
    while True:
        with contextlib.suppress(OSError, IndexError):
            flood(port, *words)


def connected(port, source=STRANGER, room=None):
    """A connection of a stranger."""
    one = socket.socket()
    if room:
        one.setsockopt(socket.SOL_SOCKET, socket.SO_RCVBUF, room)
    one.settimeout(5)
    one.bind((source, 0))
    one.connect(("127.0.0.1", port))
    return one


# ---- what is sent


def frames(port, path, frame):
    """A WebSocket on which frames without a text come for ever, and nothing is read."""
    one = Socket(port, path, source=STRANGER)
    while True:
        one.socket.sendall(frame * 5_000)


def several_ping(port, path):
    """Eight phones that each send as much as one may."""
    phones = [Socket(port, path, source=STRANGER) for _ in range(8)]
    while True:
        for phone in phones:
            phone.socket.sendall(PING * 130)
        time.sleep(0.1)


def tap_much(port, path):
    """Two hundred phones of one link, each with 18 taps a second, which are refused."""
    phones = [Socket(port, path, source=STRANGER) for _ in range(200)]
    event = {"edition": 0, "match": 9, "expected": 7, "event": "goal-home"}
    while True:
        for at, phone in enumerate(phones):
            with contextlib.suppress(OSError):
                phone.send(json.dumps({"tap": f"{at:032x}", **event}))
        time.sleep(1 / 18)


def read_slowly(port):
    """Twelve hundred who ask for a long answer, and read it slowly or not at all; and as many who owe a body."""
    ones = []
    with contextlib.ExitStack() as stack:
        for at in range(2_400):
            ones.append(stack.enter_context(connected(port, room=2_048)))
            with contextlib.suppress(OSError):
                ones[-1].sendall(SLOW if at % 2 else OWES)
            if at % 400 == 0:
                for one in ones:
                    one.setblocking(False)
                    with contextlib.suppress(OSError):
                        one.recv(300)


def stay_silent(port):
    """Four thousand connections on which nothing comes."""
    with contextlib.ExitStack() as stack:
        for _ in range(4_000):
            stack.enter_context(connected(port))
        time.sleep(60)


def begin_tls(port):
    """Connections that begin to agree on their encryption, and go no further."""
    with contextlib.ExitStack() as stack:
        for _ in range(1_000):
            stack.enter_context(connected(port)).sendall(b"\x16\x03\x01\x02")


def renew_keys(port):
    """A screen over encryption that asks for new keys for ever: openssl does so at each line with a K."""
    lines = [
        *("GET /lines HTTP/1.1", f"Host: 127.0.0.1:{port}", "Upgrade: websocket"),
        *("Connection: Upgrade", "Sec-WebSocket-Version: 13", f"Origin: https://127.0.0.1:{port}"),
        *("Sec-WebSocket-Key: dGhlIHNhbXBsZSBub25jZQ==", "", ""),
    ]
    words = ["openssl", "s_client", "-connect", f"127.0.0.1:{port}", "-bind", STRANGER]
    unread = dict.fromkeys(("stdout", "stderr"), subprocess.DEVNULL)
    with subprocess.Popen(words, stdin=subprocess.PIPE, bufsize=0, **unread) as client:
        client.stdin.write("\r\n".join(lines).encode())
        time.sleep(0.5)
        while client.poll() is None:
            client.stdin.write(b"K\n")


def knock(port):
    """As many connections as can be made, without a word."""
    ones = []
    while True:
        ones.append(connected(port))
        if len(ones) > 400:
            ones.pop(0).close()


def ask_from_everywhere(port, request):
    """Connections from a hundred addresses that begin to ask, or read their answers slowly."""
    with contextlib.ExitStack() as stack:
        for at in range(2_000):
            stack.enter_context(connected(port, f"127.0.1.{at % 100 + 1}", 2_048)).sendall(request)


# ---- what is so meanwhile


def nothing_more(one):
    """That taps are answered is all."""


def some_are_cut_off(one):
    assert until(lambda: one.health()["cut_off"] > 0)


def has_room(one):
    """For a new phone, and for who watches it."""
    assert until(lambda: one.health()["cut_off"] > 100, 60)
    with within(2):
        assert one.phone(9).until("pulse") and one.screen().status == 101


def has_few_files(one):
    time.sleep(SECONDS - 1)
    assert len([*pathlib.Path(f"/proc/{one.process.pid}/fd").iterdir()]) < 300


def answers_another(one):
    """Who comes from another address, and takes a while to ask."""
    for _ in range(3):
        with socket.create_connection(("127.0.0.1", one.port), 30, (OTHER, 0)) as slow:
            time.sleep(1)
            slow.sendall(b"GET /health HTTP/1.1\r\nHost: 127.0.0.1\r\n\r\n")
            assert slow.recv(12) == b"HTTP/1.1 200"


def takes_another(one):
    time.sleep(1)
    with within(4):
        assert one.get("/health", source=OTHER)[0] == 200
        assert Socket(one.port, "/lines", source=OTHER).status == 101


def has_eight_phones(one):
    """Eight of a link have a place, of which the oldest gives way; all of them together may send what one may."""
    begun = time.monotonic()
    time.sleep(SECONDS - 1)
    # One that gives way is counted until it has gone.
    assert until(lambda: one.health()["groups"]["A"]["phones"]["9"] <= 8)
    refused = len([row for row in one.rows() if row.startswith("9,")])
    assert refused <= 20 * (time.monotonic() - begun + 3)


# ---- floods


class Flood(NamedTuple):
    """A flood by a function, with these words, a reporter's page or the page of screens among them; what is so meanwhile, and what is told."""

    flood: object
    words: tuple = ()
    meanwhile: object = nothing_more
    told: str = OF_ONE
    is_encrypted: bool = False


FLOODS = {
    "pings": Flood(frames, ("/lines", PING)),
    "pongs": Flood(frames, ("/lines", b"\x8a\x80\1\2\3\4")),
    "empty parts": Flood(frames, ("/lines", b"\x01\x80\1\2\3\4")),
    "pings of a stolen link": Flood(several_ping, ("LINK",), some_are_cut_off, OF_LINK),
    "two hundred phones of one link": Flood(tap_much, ("LINK",), has_eight_phones, OF_LINK),
    "slow readers, and bodies that do not come": Flood(read_slowly, (), has_room),
    "keys that are renewed for ever": Flood(renew_keys, is_encrypted=True),
    "silence before encryption": Flood(stay_silent, (), has_few_files, is_encrypted=True),
    "half an encryption": Flood(begin_tls, (), has_few_files, is_encrypted=True),
    "silence": Flood(knock, (), answers_another),
    "requests of a hundred addresses": Flood(ask_from_everywhere, (SLOW,), takes_another, OF_MANY),
    "half requests of a hundred": Flood(ask_from_everywhere, (SLOW[:30],), takes_another, OF_MANY),
}


@pytest.fixture(scope="module")
def certificate(tmp_path_factory):
    """The options of a server with encryption."""
    needs("openssl")
    folder = tmp_path_factory.mktemp("certificate")
    words = "openssl req -x509 -newkey rsa:2048 -nodes -days 2 -subj /CN=127.0.0.1 -keyout key.pem -out certificate.pem"
    subprocess.run(words.split(), cwd=folder, check=True, stderr=subprocess.DEVNULL)
    return ["--certificate", folder / "certificate.pem", "--key", folder / "key.pem"]


def few_files():
    """As many open files as a login has."""
    resource.setrlimit(resource.RLIMIT_NOFILE, (1_024, 1_024))


@pytest.mark.parametrize("name", FLOODS)
def test_taps_in_a_flood(hall, certificate, name):
    it, how = FLOODS[name], {}
    if it.is_encrypted:
        # A phone agrees on any certificate.
        how["context"] = ssl.SSLContext(ssl.PROTOCOL_TLS_CLIENT)
        how["context"].check_hostname, how["context"].verify_mode = False, ssl.CERT_NONE
    one = hall(*HONEST, *(certificate if it.is_encrypted else []), preexec_fn=few_files)
    link = f"/report/{one.key(9)}/taps"
    words = [link if word == "LINK" else word for word in it.words]
    control = hall("--reporter", "1", records=("b.csv",))
    with flooded(one, control, it.flood, words, it.told, **how):
        it.meanwhile(one)


@pytest.mark.parametrize("asked", [SLOW[:30], SLOW, OWES], ids=["half", "slow", "owes a body"])
def test_who_is_slow_is_gone_in_ten_seconds(hall, asked):
    """A POST has its answer at once."""
    one = hall()
    with connected(one.port, room=2_048) as slow:
        begun = time.monotonic()
        slow.settimeout(25)
        slow.sendall(asked)
        with contextlib.suppress(ConnectionError):
            while time.monotonic() - begun < 25 and slow.recv(100):
                time.sleep(0.5)
        most = min(25, 12 + 3 * patience())
        assert (0 if asked == OWES else 8) < time.monotonic() - begun < most


# ---- requests and frames that are none


HEADS = [
    *(
        "GET / HTTP/1.1",
        "GET /../../etc/passwd HTTP/1.1",
        "GET /%00%ff HTTP/9.9",
        "BREW / HTTP/1.1",
    ),
    *(
        "GET /table.json?group=Z&group=A HTTP/1.1",
        "GET /feed?group= HTTP/1.1",
        "HEAD /lines HTTP/1.1",
    ),
    *("POST /report/0 HTTP/1.1", "GET http://elsewhere/ HTTP/1.1", "OPTIONS * HTTP/1.1", "GET"),
]
MORE = [
    *(
        "Host: 127.0.0.1",
        "Host: elsewhere",
        "Host: a\r\nHost: b",
        "Origin: null",
        "Upgrade: websocket",
    ),
    *(
        "Connection: Upgrade",
        "Sec-WebSocket-Version: 99",
        "Sec-WebSocket-Key: x",
        "Expect: 100-continue",
    ),
    *("Transfer-Encoding: chunked", "Content-Length: -1", "Content-Length: 99999999999999999999"),
    *("Range: bytes=9-1", "If-None-Match: *", ": no name", "Cookie: " + "x" * 9_000),
]
VALUES = [
    *(
        None,
        True,
        -1,
        0,
        1,
        1.5,
        13,
        4_096,
        1e300,
        "",
        "1",
        "kickoff",
        "goal-home",
        "\x00",
        "\ud800",
    ),
    *([], {}, [[[[]]]], ["kickoff"], "f" * 32, "x" * 900),
]


def hostile_request(chance, port, source):
    """One request that is none, or a part of one, or bytes without sense."""
    lines = [chance.choice(HEADS), *chance.sample(MORE, chance.randint(0, 5))]
    text = "\r\n".join([*lines, "", ""]).encode() + chance.randbytes(
        chance.choice([0, 0, 9, 3_000])
    )
    sent = chance.choice([text, text, text[: chance.randint(0, len(text))], chance.randbytes(200)])
    with connected(port, source) as one:
        one.sendall(sent)
        one.settimeout(0.05)
        with contextlib.suppress(OSError):
            one.recv(4_096)


def hostile_frames(chance, port, source, link):
    """Twenty frames on a WebSocket, of a stolen link or of screens: texts that are no tap, and frames that are none."""
    one = Socket(port, chance.choice([link, "/lines"]), source=source)
    names = ["tap", "again", "ask", "events", "match", "edition", "expected", "event", "of", ""]
    for _ in range(20):
        said = {name: chance.choice(VALUES) for name in chance.sample(names, chance.randint(0, 8))}
        text = chance.choice([json.dumps(said), "{" * 400, "null", "[1e999]", '{"tap":NaN}'])
        data = chance.choice([text.encode(), text.encode()[:9], chance.randbytes(300)])
        if chance.random() < 0.2:
            one.socket.sendall(chance.randbytes(chance.randint(1, 40)))
        one.send(data, opcode=chance.choice([0x81, 0x81, 0x81, 0x82, 0x80, 0x01, 0x89, 0x83, 0xF1]))


@pytest.mark.limit(900)
def test_hostile_requests_and_frames(hall, kills, seed):
    """Two thousand, at night so many as are asked for, from a hundred addresses: no row of two honest phones is lost, and none is twice."""
    print(f"--seed {seed}")
    one, chance, count = hall(*HONEST), random.Random(seed), kills if kills > 100 else 2_000
    link = f"/report/{one.key(9)}/taps"
    phones = [Honest(one.phone(it), it) for it in (1, 2)]
    sent = 0
    while sent < count:
        source = f"127.0.2.{chance.randint(1, 100)}"
        is_request = chance.random() < 0.7
        with contextlib.suppress(OSError, IndexError):
            if is_request:
                hostile_request(chance, one.port, source)
            else:
                hostile_frames(chance, one.port, source, link)
        sent += 1 if is_request else 20
    for phone in phones:
        phone.is_over.set()
        phone.join(30)
        assert not phone.is_alive() and phone.took
        events = ["kickoff", *["goal-home", "disallow-home"] * len(phone.took)]
        wanted = [
            f"{phone.match},{phone.match},{it},{events[it]}" for it in range(len(phone.took) + 1)
        ]
        assert [row for row in one.rows() if row.startswith(f"{phone.match},")] == wanted
    most, longest = took(phones)
    print(
        f"{sent} sent, {sum(len(it.took) for it in phones)} taps: nine of ten within {most:.3f} s, the longest {longest:.3f} s, {most_memory(one) >> 20} MB"
    )
    assert most_memory(one) < MOST_MEMORY and one.health()["fault"] == ""
