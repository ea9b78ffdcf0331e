"""The reporter's page over lines that it is given: what it shows of a match, what it sends, what
stands at a button, how it looks at each size, and how it is used without a finger. With a server it
is in test_phone."""

import json
from collections.abc import Iterator
from typing import Any

import model
import pytest
from drivers.board import lines_to
from drivers.phone import OFFLINE, SIZES, Phone
from drivers.text import TOP
from drivers.wait import until

pytestmark = [pytest.mark.quick, pytest.mark.limit(300)]
PAGE = TOP / "ucl_hall/web/pages/report.html"
BEGUN = f"group,B,uefa,0\n{model.CLUBS}"
STARTED = BEGUN + "1,1,0,kickoff\n1,1,1,goal-home\n2,1,2,yellow-away\n"
OVER = STARTED + "1,1,3,fulltime\n"
ME = {"reply": "reporter", "number": 1, "group": "B", "matches": [1, 2, 3], "title": ""}
PULSE = {"reply": "pulse", "groups": "B"}
LOOK = "Not entered: another event came first. Look, then tap if yours is missing"
# In the place of a WebSocket: it keeps what is sent, and is heard by what the test tells; and a
# clock that stands still until a test puts it ahead.
SOCKET = """window.sockets = []; window.clock = 10_000; performance.now = () => clock;
window.WebSocket = class {
  static OPEN = 1;
  constructor(url) { this.url = url; this.readyState = 1; this.sent = []; sockets.push(this); }
  send(text) { this.sent.push(text); }
  close() { this.readyState = 3; }
};
window.hear = (lines) => lines.forEach((data) => sockets.at(-1).onmessage({ data }));
window.sent = () => sockets.flatMap((it) => it.sent).map((it) => JSON.parse(it));"""
SIDED = "goal", "disallow", "yellow", "second-yellow", "red"
BUTTONS = [f"{it}-{side}" for it in SIDED for side in ("home", "away")]
PHASES = ["kickoff", "fulltime", "reopen"]


class Page(Phone):
    """The page in a browser, without a server."""

    def __init__(self, browser: Any) -> None:
        super().__init__(browser)
        added = self.cdp("Page.addScriptToEvaluateOnNewDocument", source=SOCKET)
        self.added: str = added["identifier"]
        browser.get(PAGE.as_uri())
        self.load(0, "sessionStorage.clear()")

    def load(self, taps: int, before: str = "return") -> None:
        """Loads it again, until it knows of so many taps: what the page before has kept, or has
        taken away, may come to this one a moment late."""

        def knows() -> bool:
            self.run(before)
            self.browser.refresh()
            return bool(self.run("return waiting.size === arguments[0]", taps))

        assert until(knows)

    def close(self) -> None:
        """Leaves the browser as it was."""
        self.cdp("Page.removeScriptToEvaluateOnNewDocument", identifier=self.added)
        self.browser.get("about:blank")

    def hear(self, *lines: dict[str, Any] | bytes) -> None:
        """Gives the page lines, before any timer of it can see a part of them."""
        texts = [json.dumps(it) if isinstance(it, dict) else it.decode() for it in lines]
        self.run("hear(arguments[0])", texts)

    def begin(self, rows: str, **me: Any) -> None:
        """Greets it as a server does that has these rows."""
        screen = [line for line in lines_to(rows + "screen,,,\n") if b'"screen"' in line][-1]
        self.hear(ME | me, screen, {"reply": "recent", "events": recent_of(rows)}, PULSE)

    def goes_on(self, milliseconds: int) -> None:
        """Puts the clock ahead, and gives the page a pulse before anything of it can see that."""
        self.run("clock += arguments[0]; hear([arguments[1]])", milliseconds, json.dumps(PULSE))

    def click(self, *events: str) -> None:
        """Clicks buttons, wherever they are."""
        for event in events:
            self.run("document.querySelector(`[data-event=${arguments[0]}]`).click()", event)

    def sent(self) -> list[dict[str, Any]]:
        """What it has sent, without ids."""
        lines = self.run("return sent()")
        return [{name: it[name] for name in it if name != "tap"} for it in lines]

    def answer(self, name: str, told: str) -> None:
        """Answers the last tap or question."""
        id = self.run("return sent().at(-1).tap || sent().at(-1).ask")
        self.hear({"reply": "answer", "id": id, "name": name, "told": told})


def recent_of(rows: str) -> list[dict[str, Any]]:
    """The events of these rows, all of which stand, the newest first."""
    found = []
    for row, line in enumerate(rows.splitlines(), 1):
        if line[0].isdigit():
            reporter, match, expected, event = line.split(",")
            said = {"row": row, "reporter": int(reporter), "match": int(match), "event": event}
            found.append({**said, "number": int(expected) + 1})
    return found[::-1]


def tap_of(event: str, expected: int = 3, match: int = 1, edition: int = 0) -> dict[str, Any]:
    """What is sent of a tap."""
    return {"match": match, "edition": edition, "expected": expected, "event": event}


@pytest.fixture
def page(browser: Any) -> Iterator[Page]:
    """The page of a reporter of matches 1 to 3."""
    page = Page(browser)
    yield page
    page.close()


# ---- what it shows, and what it sends

ALL = dict.fromkeys([*BUTTONS, *PHASES], "")
IN_PLAY = {"kickoff": "Has kicked off", "reopen": "Is not over"}
IN_PLAY |= {"disallow-away": "No goal to take away", "second-yellow-home": "No yellow card yet"}
NOTES = {
    "in play": (STARTED, 1, {**ALL, **IN_PLAY}),
    "to come": (
        *(STARTED, 2),
        {**dict.fromkeys(ALL, "Not kicked off yet"), "kickoff": "", "reopen": "Is not over"},
    ),
    "over": (
        *(OVER, 1),
        {**dict.fromkeys(ALL, "The match is over"), "kickoff": "Has kicked off", "reopen": ""},
    ),
}


@pytest.mark.parametrize("rows, match, wanted", NOTES.values(), ids=NOTES)
def test_why_a_button_is_of_no_use_now(
    page: Page, rows: str, match: int, wanted: dict[str, str]
) -> None:
    """It stands there, is told to who taps, and nothing is sent."""
    page.begin(rows)
    page.run("choose(arguments[0])", match)
    assert page.notes() == wanted
    disabled = "[...document.querySelectorAll('.pad [aria-disabled=true]')]"
    events = page.run(f"return {disabled}.map((it) => it.dataset.event)")
    assert {*events} == {event for event, note in wanted.items() if note}
    page.click(*events)
    assert page.notes() == {it: f"\u2717 {note}" if note else "" for it, note in wanted.items()}
    assert page.sent() == [] and page.text("told").endswith(f": {wanted[events[-1]]}")


def test_what_is_shown_of_a_match(page: Page) -> None:
    """Its score and cards, and who entered what; how many phones have the link, if several have."""
    page.begin(STARTED)
    shown = [page.text(it) for it in ("line", "home", "away", "goals", "away-cards")]
    assert shown == ["Reporter 1, group B", "Bravo", "Charlie", "1\N{EN DASH}0", "yellow 1"]
    assert page.text("last") == "In play. Yellow card, Charlie, by reporter 2"
    page.begin(STARTED + "1,1,3,second-yellow-away\n")
    assert page.text("away-cards") == "red 1"
    page.run("choose(2)")
    assert page.text("goals") == "v" and page.text("last") == "To come."
    page.hear({"reply": "phones", "count": 2}, ME | {"title": "Finals"})
    assert page.text("line") == "2 phones have this link. Reporter 1, group B: Finals"
    assert page.browser.title == "Reporter 1, group B: Finals"


def test_what_is_sent(page: Page) -> None:
    """What stands on the screen; what came of it stands at the button."""
    page.begin(STARTED)
    page.click("goal-home")
    assert page.sent() == [tap_of("goal-home")] and page.notes()["goal-home"] == "Sent"
    page.answer("entered", "Entered, 2\N{EN DASH}0")
    assert page.notes()["goal-home"] == "\u2713 Entered, 2\N{EN DASH}0"
    page.begin(STARTED + "1,1,3,goal-home\n")
    page.click("yellow-home")
    assert page.sent()[1:] == [tap_of("yellow-home", 4)]
    page.answer("stale", LOOK)
    assert page.notes()["yellow-home"] == f"\u2717 {LOOK}"


def mended(rows: str, row: int) -> list[bytes]:
    """What comes of a mend that leaves out a row: its answer, and the screen."""
    lines = lines_to(f"{rows}mend,{row},,\n")
    return [line for line in lines if b"mended" in line or b"screen" in line][-2:]


@pytest.mark.parametrize("what", ["a goal", "a mend"])
def test_what_comes_while_a_finger_is_down(page: Page, what: str) -> None:
    """What is sent is what stood there when it came down; by a goal nothing moves under it."""
    page.begin(STARTED)
    page.choose(1)
    before = page.where("goal-away")
    page.down("goal-home")
    if what == "a goal":
        page.begin(STARTED + "2,1,3,goal-away\n")
    else:
        page.hear(*mended(STARTED, 7))
    assert page.text("goals") == ("1\N{EN DASH}1" if what == "a goal" else "0\N{EN DASH}0")
    assert page.where("goal-away") == before or what == "a mend"
    page.up()
    assert until(page.sent) == [tap_of("goal-home")]


def test_a_button_that_is_tapped_twice(page: Page) -> None:
    """Within a second it is sent once."""
    page.begin(STARTED)
    page.click("goal-home")
    page.goes_on(999)
    page.click("goal-home")
    assert page.notes()["goal-home"] == "Tapped twice: sent once" and len(page.sent()) == 1
    page.goes_on(1)
    page.click("goal-home")
    assert page.notes()["goal-home"] == "Sent" and len(page.sent()) == 2


CARD = STARTED + "1,1,3,yellow-home\n"
ASKED = {
    **dict.fromkeys(["fulltime", "red-home", "red-away", "second-yellow-away"], STARTED),
    **{"second-yellow-home": CARD, "kickoff": BEGUN, "reopen": OVER},
}


@pytest.mark.parametrize("event, rows", ASKED.items(), ids=ASKED)
def test_what_takes_a_second_tap(page: Page, event: str, rows: str) -> None:
    """It is sent with the second, unless the match has changed since the first, or it comes late."""
    page.begin(rows)
    page.choose(1)
    expected = len(recent_of(rows))
    for _ in range(2):
        page.click(event)
        assert page.sent() == [] and page.notes()[event] == "Tap again"
        page.goes_on(5001)
        assert page.notes()[event] == ""
    if rows == STARTED:
        page.click(event)
        expected += 1
        page.begin(f"{rows}2,1,3,goal-away\n")
        assert page.notes()[event] == ""
    page.click(event)
    assert page.sent() == [] and page.notes()[event] == "Tap again"
    page.click(event)
    assert page.sent() == [tap_of(event, expected)]


def test_a_question_that_another_button_puts_aside(page: Page) -> None:
    """No button asks for a second tap that would be taken for the first."""
    page.begin(STARTED)
    page.choose(1)
    page.click("red-home", "yellow-home")
    assert page.notes()["red-home"] == "" and len(page.sent()) == 1
    page.click("red-home", "red-away")
    assert [page.notes()[it] for it in ("red-home", "red-away")] == ["", "Tap again"]


def test_take_back(page: Page) -> None:
    """It stands beside a goal that came while the page was open, for ten seconds."""
    page.begin(STARTED)
    page.choose(1)
    before, hidden = page.where("goal-home"), "return document.getElementById('back').hidden"
    page.begin(STARTED + "1,1,3,goal-home\n")
    page.goes_on(10_000)
    assert not page.run(hidden) and page.where("goal-home") == before
    page.tap("back")
    assert until(page.sent) == [tap_of("disallow-home", 4)]
    page.goes_on(1)
    assert page.run(hidden)
    page.begin(STARTED + "1,1,3,goal-home\n1,1,4,yellow-home\n")
    assert page.run(hidden)


def test_a_goal_that_came_before_the_page_was_open(page: Page) -> None:
    """Nobody takes it back by one tap."""
    page.begin(STARTED + "1,1,3,goal-home\n")
    page.choose(1)
    assert page.text("last") == "In play. Goal, Bravo, by reporter 1"
    assert page.run("return document.getElementById('back').hidden")


# ---- no connection, and a page that is opened again


def test_without_a_pulse(page: Page) -> None:
    """All is grey, nothing is sent, and that is told; once a pulse comes again the page, which is
    the same to the server, asks what became of taps."""
    page.begin(STARTED)
    page.click("goal-home")
    page.run("clock += 3001")
    assert until(lambda: page.text("line") == OFFLINE)
    assert {*page.notes().values()} == {"No connection", "Sent"}
    enabled = "return document.querySelectorAll('.pad button:not([aria-disabled=true])').length"
    look = "return getComputedStyle(document.querySelector('main')).filter"
    assert page.run(enabled) == 0 and page.run(look) == "grayscale(1)"
    page.click("yellow-home")
    assert len(page.sent()) == 1 and page.notes()["yellow-home"] == "\u2717 No connection"
    assert until(lambda: page.run("return sockets.length") > 1)
    page.begin(STARTED)
    first, ask = (page.run(f"return sent().at({place})") for place in (0, -1))
    assert ask == {"ask": first.pop("tap"), **first} and page.text("line") != OFFLINE
    urls = page.run("return sockets.map((it) => it.url)")
    assert "?page=" in urls[0] and {*urls} == {urls[0]}


def test_a_page_that_is_loaded_again(page: Page) -> None:
    """It asks about its taps, and sends none of them again."""
    page.begin(STARTED)
    page.click("goal-home")
    (first,) = page.run("return sent()")
    page.load(1)
    page.begin(STARTED)
    assert page.run("return sent()") == [{"ask": first.pop("tap"), **first}]
    page.answer("lost", "Not entered: it did not arrive")
    assert page.notes()["goal-home"] == "\u2717 Not entered: it did not arrive"


def test_a_match_that_is_another_s_by_now(page: Page) -> None:
    """A tap on it is not sent again, nor asked about: its server would end the connection."""
    page.begin(STARTED)
    page.click("goal-home")
    page.begin(STARTED, matches=[2, 3])
    assert page.sent() == [tap_of("goal-home")] and page.run("return waiting.size") == 0


def test_a_mend(page: Page) -> None:
    """It is told for more than ten seconds, not for good, and a tap is of the edition that stands."""
    page.begin(STARTED)
    page.hear(*mended(STARTED, 7))
    told = "Corrected: row 7 no longer counts: look before you tap"
    assert page.text("line") == told and page.text("goals") == "0\N{EN DASH}0"
    page.click("goal-away")
    assert page.sent() == [tap_of("goal-away", 2, edition=1)]
    page.goes_on(10_000)
    assert page.text("line") == told
    page.goes_on(50_000)
    assert page.text("line") == "Reporter 1, group B"


def test_a_mend_that_leaves_out_more(page: Page) -> None:
    """Without its kick-off no event of a match stands."""
    page.begin(STARTED)
    page.hear(*mended(STARTED, 6))
    wanted = "Corrected: row 6 and 2 more no longer count: look before you tap"
    assert page.text("line") == wanted and page.text("goals") == "v"


# ---- for everybody


def test_an_evening_by_keyboard(page: Page) -> None:
    """All is reached by the Tab key in the order in which it stands; Enter and the blank key tap,
    and a key that is held taps once."""
    from selenium.webdriver.common.action_chains import ActionChains
    from selenium.webdriver.common.keys import Keys

    page.dress("desk")
    page.begin(STARTED, matches=[1, 2])
    active = "document.activeElement"
    page.run(f"{active}.blur()")
    seen = []
    for _ in range(15):
        ActionChains(page.browser).send_keys(Keys.TAB).perform()
        seen.append(page.run(f"return {active}.dataset.event || {active}.textContent"))
    clubs = ["Bravo v Charlie", "Delta v Alpha"]
    assert [text.startswith(name) for text, name in zip(seen, clubs)] == [True, True]
    assert seen[2:] == [*BUTTONS, *PHASES]
    for key, event in (Keys.ENTER, "goal-home"), (" ", "yellow-away"), (Keys.ENTER, "fulltime"):
        page.run("document.querySelector(`[data-event=${arguments[0]}]`).focus()", event)
        for _ in range(1 + (event == "fulltime")):
            ActionChains(page.browser).send_keys(key).perform()
        assert until(lambda: [it["event"] for it in page.sent()][-1:] == [event])
        assert (
            page.run(f"return {active}.matches(':focus-visible') && {active}.dataset.event")
            == event
        )
    page.run("document.querySelector('[data-event=goal-away]').focus()")
    enter = {"key": "Enter", "code": "Enter", "windowsVirtualKeyCode": 13}
    for repeat in [False, True, True, True]:
        page.cdp("Input.dispatchKeyEvent", type="keyDown", text="\r", autoRepeat=repeat, **enter)
        page.goes_on(1001)
    page.cdp("Input.dispatchKeyEvent", type="keyUp", **enter)
    events = ["goal-home", "yellow-away", "fulltime", "goal-away"]
    assert [it["event"] for it in page.sent()] == events


def test_names_and_roles(page: Page) -> None:
    """As who listens to the page is told them."""
    page.begin(STARTED, matches=[1, 2])
    page.click("goal-home")
    page.answer("entered", "Entered, 2\N{EN DASH}0")
    page.begin(STARTED + "1,1,3,goal-home\n", matches=[1, 2])
    told: dict[str, dict[str, tuple[Any, Any]]] = {}
    for node in page.cdp("Accessibility.getFullAXTree")["nodes"]:
        role, name, note = (
            node.get(it, {}).get("value", "") for it in ("role", "name", "description")
        )
        about = {it["name"]: it["value"].get("value") for it in node.get("properties", [])}
        told.setdefault(role if not node.get("ignored") else "", {})[name] = about, note
    names = ["Goal", "Disallow goal", "Yellow card", "Second yellow", "Red card"]
    wanted = {f"{name}, {club}" for name in names for club in ("Bravo", "Charlie")}
    buttons = told["button"]
    assert wanted | {"Kick-off", "Full time", "Reopen", "Take back"} <= {*buttons}
    assert all(about.get("focusable") for about, _ in buttons.values())
    about, note = buttons["Disallow goal, Charlie"]
    assert about["disabled"] is True and note == "No goal to take away"
    about, note = buttons["Goal, Bravo"]
    assert not about.get("disabled") and note == "\u2713 Entered, 2\N{EN DASH}0"
    sections = {"Your matches", "Bravo 2\N{EN DASH}0 Charlie", "Group B, as it stands"}
    assert {*told["link"]} == {"Matches", "Events", "Table"} and {*told["region"]} == sections
    assert {*told["heading"]} == sections | {"Reporter 1, group B", "Last ten events"}
    assert [*told["rowheader"]] == ["Bravo", "Delta", "Alpha", "Charlie"]
    assert page.run("return document.getElementById('line').ariaLive") == "assertive"
    assert page.run("return document.getElementById('told').role") == "status"
    assert page.text("told") == "Goal, Bravo: Entered, 2\N{EN DASH}0"


LONG = ["Paris Saint-Germain", "Borussia Dortmund 09", "Manchester City", "FC Porto"]
LOOKS = BEGUN.splitlines()[0] + "\n"
LOOKS += "".join(f"club,{slot},{name},0\n" for slot, name in enumerate(LONG, 1))
LOOKS += "9,2,0,kickoff\n9,2,1,goal-home\n"


@pytest.mark.parametrize("scheme", ["light", "dark"])
def test_how_it_looks_at_each_size(page: Page, scheme: str) -> None:
    """Contrast, targets of 48 pixels, nothing cut, nothing that leaves the window: to come, in
    play, with a refusal, with a question, with several phones, with no connection."""
    page.begin(LOOKS, title="Champions League, matchday 6")
    page.hear({"reply": "phones", "count": 2})
    for size in SIZES:
        page.dress(size, scheme)
        for match in 1, 2:
            page.choose(match)
            assert page.faults(size, scheme) == [], (size, match)
        for event in "goal-home", "yellow-away":
            page.goes_on(1000)
            page.click(event)
            page.answer("stale", LOOK)
        page.click("red-away")
        for part in "match", "matches", "table":
            page.run(f"at('{part}').scrollIntoView({{behavior: 'instant', block: 'nearest'}})")
            assert page.faults(size, scheme) == [], (size, part)
    page.run("clock += 3001")
    assert until(lambda: page.text("line") == OFFLINE)
    assert {size: page.faults(size, scheme) for size in SIZES} == dict.fromkeys(SIZES, [])


def test_the_table_is_one_swipe_away(page: Page) -> None:
    """It enters nothing; and who asks for less motion gets none."""
    page.begin(STARTED)
    page.choose(1)
    left = "return Math.round(at('table').getBoundingClientRect().left)"
    # A slow machine may take a swipe for a drag that was given up.
    for _ in range(20):
        _, y = page.where("goal-away")
        right = page.size[0] - 20
        for step, kind in enumerate(["Start", *["Move"] * 16]):
            page.touch(kind, (right - 20 * step, y))
        page.up()
        if until(lambda: page.run(left) == 0, 3):
            break
    assert page.run(left) == 0 and page.sent() == []
    links = "[...document.querySelectorAll('nav a[aria-current]')]"
    assert until(lambda: page.run(f"return {links}.map((it) => it.hash)") == ["#table"])
    page.dress("phone", motion="reduce")
    look = "return getComputedStyle(document.querySelector('main')).scrollBehavior"
    assert page.run(look) == "auto"
