"""The reporter's page with a server: two phones and a tablet that are touched at once, and a server
that is killed or stopped. What the page does with each line is in test_report."""

import concurrent.futures
import signal
from collections.abc import Callable
from typing import Any

import pytest
from conftest import browsers as browsers
from drivers.phone import OFFLINE, Phone
from drivers.wait import until

pytestmark = pytest.mark.limit(300)
Halls = Callable[..., Any]
Browsers = Callable[[str], Any]


def kicked_off(hall: Halls, *words: str) -> Any:
    """A server of a record in which reporter 9 has kicked off a match."""
    one = hall(*words)
    with open(one.folder / "a.csv", "a", encoding="ascii") as record:
        record.write("9,1,0,kickoff\n")
    return one


def test_two_phones_and_a_tablet_tap_one_goal_at_once(hall: Halls, browsers: Browsers) -> None:
    """It counts once. The others are told to look, and each sees who entered it."""
    one = kicked_off(hall, "--reporter", "1", "--reporter", "2", "--reporter", "3")
    with concurrent.futures.ThreadPoolExecutor() as at_once:
        devices = [Phone(browsers(name), name) for name in ("phone", "large", "tablet")]
        [*at_once.map(lambda it: it[1].open(one, it[0]), enumerate(devices, 1))]
        assert until(lambda: all(it.notes()["goal-home"] == "" for it in devices))
        [*at_once.map(lambda it: it.down("goal-home"), devices)]
        [*at_once.map(lambda it: it.up(), devices)]
    for device in devices:
        device.says("goal-home", "ntered")
    notes = [device.notes()["goal-home"] for device in devices]
    late = "\u2717 Not entered: another event came first. Look, then tap if yours is missing"
    assert sorted(notes) == ["\u2713 Entered, 1\u20130", late, late]
    winner = notes.index("\u2713 Entered, 1\u20130") + 1
    row = one.rows().index(f"{winner},1,1,goal-home") + 6
    wanted = [
        f"Goal, Bravo, by reporter {winner} (Bravo v Charlie, row {row})",
        "Kick-off, by reporter 9 (Bravo v Charlie, row 6)",
    ]
    assert until(lambda: all(it.events() == wanted for it in devices))
    assert [it.text("goals") for it in devices] == ["1\u20130"] * 3


def test_a_link_that_has_ended(hall: Halls, browsers: Browsers) -> None:
    """The phone says so, and not that there is no connection; it goes on if the link is known
    again."""
    one = hall("--reporter", "1")
    keys = (one.folder / "a.csv.keys").read_bytes()
    phone = Phone(browsers("phone")).open(one)
    one.end()
    assert until(lambda: phone.text("line") == OFFLINE, 60)
    one.start("--revoke", "1")
    assert until(lambda: phone.text("line") == "This link has ended: ask for a new one", 60)
    one.end()
    (one.folder / "a.csv.keys").write_bytes(keys)
    one.start()
    assert until(lambda: phone.text("line") == "Reporter 1, group A", 60)


@pytest.mark.parametrize("end", ["it is killed", "it goes on"])
def test_the_server_is_stopped_and_then(hall: Halls, browsers: Browsers, end: str) -> None:
    """A tap without an answer is asked about, and is not sent again; nothing else is sent, whatever
    clock the phone has."""
    one = kicked_off(hall, "--reporter", "1")
    phone = Phone(browsers("phone")).open(one)
    phone.run("Date.now = () => 0")
    phone.down("goal-home")
    one.process.send_signal(signal.SIGSTOP)
    phone.up()
    phone.says("goal-home", "Sent")
    assert until(lambda: phone.text("line") == OFFLINE, 60)
    phone.tap("goal-away", "yellow-home")
    if end == "it is killed":
        one.end()
        one.start()
    else:
        one.process.send_signal(signal.SIGCONT)
    phone.says("goal-home", "ntered")
    is_entered = "1,1,1,goal-home" in one.rows()
    wanted = "\u2713 Entered" if is_entered else "\u2717 Not entered: it did not arrive"
    assert phone.notes()["goal-home"].startswith(wanted)
    assert until(lambda: phone.text("line") == "Reporter 1, group A")
    assert one.rows() == ["9,1,0,kickoff"] + ["1,1,1,goal-home"] * is_entered
    phone.tap("yellow-home")
    phone.says("yellow-home", "Entered")
